; The only task ends with its first instruction. A program ends with a jump, so that it can't be left at its end.
.task A
TERM
z: JMP z
