.task X
NOP
TERM
z: JMP z
.task L
TERM
z: JMP z
.isr Y
RETI
.isr X
ACT X
RETI
