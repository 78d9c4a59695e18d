c A flow of least cost, and the potentials that prove it.
s 14
f 1 2 2
f 1 3 2
f 2 3 2
f 2 4 0
f 3 4 4
v 1 -4
v 2 -2
v 3 -1
v 4 0
