.task Show
        TERM
end:    JMP end
