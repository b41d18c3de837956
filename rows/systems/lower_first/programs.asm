.task U
GETR Bus
RELR Bus
GALM High
TERM
z: JMP z
.task L
l: GETR Log
RELR Log
JMP l
.isr I
RETI
