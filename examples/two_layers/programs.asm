; Word 0 of Control's window is the heat, word 1 the heater (1: on, 0: off). Word 0 of Logger's window counts its entries.

.task Control
        LI r4, 0
        LD r5, r4               ; the heat
        LI r6, 1
        ST r6, r6               ; the heater is on
        TERM
end:    JMP end

.task Logger
log:    GETR LogBuffer
        LI r4, 0
        LD r5, r4
        LI r6, 1
        ADD r5, r5, r6
        ST r4, r5               ; one more entry
        RELR LogBuffer
        JMP log
