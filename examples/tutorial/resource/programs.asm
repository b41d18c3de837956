.task Show
again:  GETR Bus
        NOP
        RELR Bus
        JMP again

.task Sample
        GETR Bus
        NOP
        RELR Bus
        SETE Control, Sampled
        TERM
end:    JMP end

.task Control
wait:   WAIT Sampled + Pressed
        CLRE Sampled + Pressed
        NOP
        JMP wait

.isr Key
        SETE Control, Pressed
        RETI
