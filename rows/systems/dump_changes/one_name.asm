.task A
NOP
TERM
z: JMP z
.isr A
RETI
