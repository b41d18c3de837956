.task RouteCan
      ; work 4
      NOP
      NOP
      NOP
      NOP
      GETR Routes
      ; work 9
      LI r1, 3
      LI r2, 1
L1:
      SUB r1, r1, r2
      JNE r1, r7, L1
      NOP
      RELR Routes
      SETE Diagnosis, Frame
      TERM
last: JMP last

.task RouteLin
      ; work 4
      NOP
      NOP
      NOP
      NOP
      GETR Routes
      ; work 15
      LI r1, 6
      LI r2, 1
L1:
      SUB r1, r1, r2
      JNE r1, r7, L1
      NOP
      RELR Routes
      SETE Diagnosis, Frame
      TERM
last: JMP last

.task Diagnosis
again:
      WAIT Frame + Request
      CLRE Frame + Request
      ; work 6
      LI r1, 2
      LI r2, 1
L0:
      SUB r1, r1, r2
      JNE r1, r7, L0
      JMP again

.isr CanRx
      ACT RouteCan
      RETI

.isr LinRx
      ACT RouteLin
      RETI

.isr Tester
      SETE Diagnosis, Request
      RETI

