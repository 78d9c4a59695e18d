"""For pytest: scipy's own tests call the functions of mcf_plan in place of scipy's."""

import scipy.optimize
import scipy.sparse.csgraph

from mcf_plan import scipy_like

scipy.optimize.linear_sum_assignment = scipy_like.linear_sum_assignment
scipy.sparse.csgraph.maximum_flow = scipy_like.maximum_flow
