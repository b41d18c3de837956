.task Speed
      ; work 1
      NOP
      GETR Position
      ; work 1
      NOP
      RELR Position
      TERM
last: JMP last

.task Doors
      ; work 2
      NOP
      NOP
      TERM
last: JMP last

.task Display
      GETR Position
      ; work 4
      NOP
      NOP
      NOP
      NOP
      RELR Position
      ; work 3
      NOP
      NOP
      NOP
      TERM
last: JMP last

.isr Call
      ACT Doors
      RETI

