; What the tasks and routines of many_states.oil do.
.task Pump
        GETR Table
        NOP
        RELR Table
        SETE Level, Filled
        TERM
end:    JMP end
.task Valve
        NOP
        ACT Panel
        TERM
end:    JMP end
.task Heat
        NOP
        NOP
        TERM
end:    JMP end
.task Level
wait:   WAIT Filled
        CLRE Filled
        NOP
        JMP wait
.task Panel
        GETR Table
        NOP
        RELR Table
        TERM
end:    JMP end
.task Log
        GETR Table
        NOP
        NOP
        RELR Table
        TERM
end:    JMP end
.task Bus
        GETR Wire
        NOP
        RELR Wire
        ACT Log
        TERM
end:    JMP end
.task Key
        GETR Wire
        RELR Wire
        TERM
end:    JMP end
.task Alarmed
        NOP
        TERM
end:    JMP end
.task Idle
again:  NOP
        JMP again
.isr Frame
        ACT Bus
        RETI
.isr Touch
        ACT Key
        RETI
.isr Leak
        ACT Alarmed
        RETI
