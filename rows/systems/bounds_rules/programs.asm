.task L
NOP
TERM
z: JMP z
.task Both
TERM
y: JMP y
.isr Yaw
RETI
.isr Both
RETI
