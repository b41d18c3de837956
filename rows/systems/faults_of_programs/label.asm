.task A
JMP x
