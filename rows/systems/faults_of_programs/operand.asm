.task A
ACT r1
