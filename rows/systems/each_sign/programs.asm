.task A
x: SETE B, E+F
JEQ r0, r1, x
.isr I
RETI ; end
