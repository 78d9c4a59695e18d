"""For pytest: the tests of a networkx without backends call the functions of mcf_plan in place of networkx'."""

import networkx
import networkx.algorithms.flow

from mcf_plan.networkx_backend import FUNCTIONS, backend

for name in FUNCTIONS:
    for module in (networkx, networkx.algorithms, networkx.algorithms.flow):
        setattr(module, name, getattr(backend, name))
