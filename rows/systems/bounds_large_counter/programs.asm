.task A
NOP
TERM
z: JMP z
