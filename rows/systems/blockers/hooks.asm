.task A
ACT A
TERM
z: JMP z
