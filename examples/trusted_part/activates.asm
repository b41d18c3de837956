; Word 0 of Motor's window is what drives the motor, 0 nothing. Word 0 of Control's window is what is wanted.

.isr Trip
        ACT Stop
        RETI

.task Stop
        GETR Motor
        STR Motor, r4, r4       ; the motor stops
        RELR Motor
        TERM
end:    JMP end

.task Control
        GETR Motor
        SAI
        LD r5, r4               ; no interrupt comes in here
        RAI
        STR Motor, r4, r5       ; the motor gets what is wanted
        RELR Motor
        TERM
end:    JMP end

; The lower part.

.task App
all:    ACT Worker
        ACT Spare
        JMP all

.task Worker
spin:   JMP spin

.task Spare
spin:   JMP spin
