.task T0
again: JMP again
.task T1
TERM
z: JMP z
.task T2
TERM
z: JMP z
.task T3
TERM
z: JMP z
.task T4
TERM
z: JMP z
.task T5
TERM
z: JMP z
.task T6
TERM
z: JMP z
.task T7
TERM
z: JMP z
.task T8
TERM
z: JMP z
.task T9
TERM
z: JMP z
.task T10
TERM
z: JMP z
.task T11
TERM
z: JMP z
.task T12
TERM
z: JMP z
.task T13
TERM
z: JMP z
.task T14
TERM
z: JMP z
.task T15
TERM
z: JMP z
.task T16
TERM
z: JMP z
.task T17
TERM
z: JMP z
.task T18
TERM
z: JMP z
.task T19
TERM
z: JMP z
.task T20
TERM
z: JMP z
.task T21
TERM
z: JMP z
.task T22
TERM
z: JMP z
.task T23
TERM
z: JMP z
.task T24
TERM
z: JMP z
.task T25
TERM
z: JMP z
.task T26
TERM
z: JMP z
.task T27
TERM
z: JMP z
.task T28
TERM
z: JMP z
.task T29
TERM
z: JMP z
.task T30
TERM
z: JMP z
.task T31
TERM
z: JMP z
