.task A
GBAS AL
GETR INVALID
ST r0, r3
ST r1, r2
SREL AL, r1, r3
GALM AL
TERM
z: JMP z
.task B
LI r1, 9
LI r3, 5
LI r0, 4
TERM
z: JMP z
