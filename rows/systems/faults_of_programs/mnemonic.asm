.task A
XYZ
