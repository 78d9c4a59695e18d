c Node 1 has a unit more than its arcs can carry off.
i 1
k 1
