.task Show
again:  NOP
        JMP again

.task Sample
        NOP
        SETE Control, Sampled
        TERM
end:    JMP end

.task Control
wait:   WAIT Sampled
        CLRE Sampled
        NOP
        JMP wait
