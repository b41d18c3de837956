.task Lock
        NOP                     ; four steps of the bolt
        NOP
        NOP
        NOP
        TERM
end:    JMP end

.task Fill
        GETR Tank
        LI r4, 0
        LDR Tank, r4            ; r1 gets the level
        LI r5, 8
        ADD r5, r1, r5
        STR Tank, r4, r5
        RELR Tank
        CHAIN Gauge
        TERM                    ; where the chain is refused
end:    JMP end

.task Gauge
        GETR Tank
        LI r4, 0
        LDR Tank, r4
        RELR Tank
        TERM
end:    JMP end
