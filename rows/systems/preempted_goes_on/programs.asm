.task U
TERM
z: JMP z
.task L
ACT K
z: JMP z
.task K
TERM
z: JMP z
