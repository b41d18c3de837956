.task A
x: NOP
x: JMP x
