; Word 0 of Door's window is the door: 1 open, 0 closed.

.task Door
closed: WAIT Pressed
        CLRE Pressed
        LI r4, 0
        LI r5, 1
        ST r4, r5               ; opens
        LI r1, 4
        SREL CloseTimer, r1, r4
        WAIT TimeOut
        CLRE TimeOut
        ST r4, r4               ; closes
        JMP closed

.isr Button
        SETE Door, Pressed
        RETI
