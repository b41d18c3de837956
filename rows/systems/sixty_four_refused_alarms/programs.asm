.task A
y: NOP
JMP y
.task X
TERM
z: JMP z
