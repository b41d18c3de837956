.task Show
again:  NOP
        JMP again

.task Sample
        NOP
        SETE Control, Sampled
        TERM
end:    JMP end

.task Control
wait:   WAIT Sampled + Pressed
        CLRE Sampled + Pressed
        NOP
        JMP wait

.isr Key
        SETE Control, Pressed
        RETI
