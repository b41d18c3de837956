.task Show
again:  NOP
        JMP again

.task Sample
        NOP
        TERM
end:    JMP end
