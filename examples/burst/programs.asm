.isr Frame
        NOP
        RETI

.task Control
        NOP
        NOP
        NOP
        NOP
        NOP
        NOP
        NOP
        NOP
        TERM
end:    JMP end
