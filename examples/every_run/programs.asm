.isr Pulse
        ACT Sensor
        RETI

.isr Frame
        ACT Control
        RETI

.isr Alert
        ACT Log
        RETI

.task Sensor
        NOP
        TERM
end:    JMP end

.task Control
        NOP
        GETR Data
        NOP
        RELR Data
        NOP
        TERM
end:    JMP end

.task Log
        NOP
        NOP
        GETR Data
        NOP
        NOP
        NOP
        NOP
        RELR Data
        NOP
        TERM
end:    JMP end
