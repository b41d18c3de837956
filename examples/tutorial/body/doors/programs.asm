.task CanTask
      ; work 5
      NOP
      NOP
      NOP
      NOP
      NOP
      TERM
last: JMP last

.task Lights
      ; work 5
      NOP
      NOP
      NOP
      NOP
      NOP
      TERM
last: JMP last

.task Doors
      ; work 5
      NOP
      NOP
      NOP
      NOP
      NOP
      GETR Lin
      ; work 3
      NOP
      NOP
      NOP
      RELR Lin
      TERM
last: JMP last

.task Climate
      ; work 5
      NOP
      NOP
      NOP
      NOP
      NOP
      GETR Lin
      ; work 20
      LI r1, 9
      LI r2, 1
L1:
      SUB r1, r1, r2
      JNE r1, r7, L1
      RELR Lin
      TERM
last: JMP last

.task Diag
      ; work 9
      LI r1, 3
      LI r2, 1
L0:
      SUB r1, r1, r2
      JNE r1, r7, L0
      NOP
      TERM
last: JMP last

.isr CanRx
      ACT CanTask
      RETI

