.task U
LI r1, 9
TERM
z: JMP z
.task L
TERM
z: JMP z
.task N
TERM
z: JMP z
.task O
TERM
z: JMP z
