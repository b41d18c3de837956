; Word 0 of Press's window is the brake (1: closed), word 0 of Brake's window counts its rounds.

.isr Pedal
        ACT Press
        RETI

.task Press
        LI r4, 0
        LI r5, 1
        ST r4, r5               ; the brake is closed
        TERM
end:    JMP end

.task Brake
        LI r4, 0
        LD r5, r4
        LI r6, 1
        ADD r5, r5, r6
        ST r4, r5               ; one more round
        TERM
end:    JMP end

.task Diagnosis
look:   GETR Log
        RELR Log
        JMP look
