.task Print
        ACT Cut
        NOP                     ; the line is printed to its end
        SCHED                   ; now the head is free
        NOP
        TERM
end:    JMP end

.task Cut
        NOP
        TERM
end:    JMP end

.task Halt
        TERM
end:    JMP end

.isr Guard
        ACT Halt
        RETI
