.task Motor
again:
      WAIT Up + Down + Pinch
      CLRE Up + Down + Pinch
      GETR Position
      ; work 3
      NOP
      NOP
      NOP
      RELR Position
      JMP again

.task Sense
      GETR Position
      ; work 8
      LI r1, 3
      LI r2, 1
L0:
      SUB r1, r1, r2
      JNE r1, r7, L0
      RELR Position
      ; work 2
      NOP
      NOP
      TERM
last: JMP last

.task Lamp
      ; repeat 2
      LI r4, 2
      LI r6, 1
L0:
      ; work 4
      NOP
      NOP
      NOP
      NOP
      SUB r4, r4, r6
      JNE r4, r7, L0
      TERM
last: JMP last

.isr IsrUp
      SETE Motor, Up
      RETI

.isr IsrDown
      SETE Motor, Down
      RETI

.isr IsrPinch
      SETE Motor, Pinch
      RETI

