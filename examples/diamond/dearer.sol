c A flow that keeps every bound and every supply, but costs 1 too much:
c its potentials certify nothing.
s 15
f 1 2 2
f 1 3 2
f 2 3 1
f 2 4 1
f 3 4 3
v 1 -5
v 2 -3
v 3 -2
v 4 0
