.task A
SABS AL, r1, r2
TERM
z: JMP z
