.task A
LI r1, 63
LI r3, 7
ST r1, r3
ST r2, r3
ACT B
LD r4, r1
TERM
z: JMP z
.task B
LI r1, 63
LD r2, r1
LD r2, r3
TERM
z: JMP z
.isr I
LD r2, r1
RETI
