.task CanTask
      ; work 2
      NOP
      NOP
      TERM
last: JMP last

.task Switches
      ; work 3
      NOP
      NOP
      NOP
      TERM
last: JMP last

.task Lights
      ; work 4
      NOP
      NOP
      NOP
      NOP
      TERM
last: JMP last

.task Doors
      ; work 2
      NOP
      NOP
      GETR Lin
      ; work 3
      NOP
      NOP
      NOP
      RELR Lin
      TERM
last: JMP last

.task Wipers
      ; work 4
      NOP
      NOP
      NOP
      NOP
      TERM
last: JMP last

.task Windows
      ; work 7
      LI r1, 2
      LI r2, 1
L0:
      SUB r1, r1, r2
      JNE r1, r7, L0
      NOP
      TERM
last: JMP last

.task Climate
      ; work 5
      NOP
      NOP
      NOP
      NOP
      NOP
      GETR Lin
      ; work 7
      LI r1, 2
      LI r2, 1
L1:
      SUB r1, r1, r2
      JNE r1, r7, L1
      NOP
      RELR Lin
      ; work 5
      NOP
      NOP
      NOP
      NOP
      NOP
      TERM
last: JMP last

.task Diag
      ; work 24
      LI r1, 11
      LI r2, 1
L0:
      SUB r1, r1, r2
      JNE r1, r7, L0
      TERM
last: JMP last

.task Background
again:
      ; work 5
      NOP
      NOP
      NOP
      NOP
      NOP
      JMP again

.isr CanRx
      ACT CanTask
      RETI

