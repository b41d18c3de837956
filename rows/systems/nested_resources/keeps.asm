.task A
GETR R
ACT B
z: JMP z
.task B
TERM
z: JMP z
.task C
TERM
z: JMP z
