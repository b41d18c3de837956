.task A
NOP
NOP
TERM
z: JMP z
.isr I
NOP
RETI
