.task Sensor
      ; work 3
      NOP
      NOP
      NOP
      TERM
last: JMP last

.task Control
      GETR Data
      ; work 4
      NOP
      NOP
      NOP
      NOP
      RELR Data
      ; work 3
      NOP
      NOP
      NOP
      TERM
last: JMP last

.task Log
      ; work 5
      NOP
      NOP
      NOP
      NOP
      NOP
      GETR Data
      ; work 6
      LI r1, 2
      LI r2, 1
L1:
      SUB r1, r1, r2
      JNE r1, r7, L1
      RELR Data
      ; work 6
      LI r1, 2
      LI r2, 1
L2:
      SUB r1, r1, r2
      JNE r1, r7, L2
      TERM
last: JMP last

