.task Log
GETR Map
SAI
RAI
RELR Map
TERM
z: JMP z
.task Ctl
TERM
z: JMP z
.isr Crank
NOP
RETI
