"""scipy's `linear_sum_assignment` and `maximum_flow`, answered by the proved solver.

Arguments, results and exceptions are scipy's (`scipy.optimize.linear_sum_assignment`,
`scipy.sparse.csgraph.maximum_flow`). numpy is wanted for the first, scipy for the second. Costs are taken exactly,
floats by their `repr`.

>>> from mcf_plan.scipy_like import linear_sum_assignment
>>> rows, columns = linear_sum_assignment([[4, 1, 3], [2, 0, 5], [3, 2, 2]])       # doctest: +SKIP
>>> rows, columns                                                                  # doctest: +SKIP
(array([0, 1, 2]), array([1, 0, 2]))
"""

from __future__ import annotations

import sys
from typing import Any, List, Optional, Tuple

from .plan import Infeasible, Plan
from .problem import Problem
from .program import Program
from .rounding import round_problem

METHODS = ("dinic", "edmonds_karp")
"""scipy's methods of `maximum_flow`. Which of them is asked for makes no difference here."""

SCIPYS_OWN = getattr(sys.modules.get("scipy.sparse.csgraph"), "maximum_flow", None)
"""scipy's own `maximum_flow`, if it was there before this module: who puts ours in its place has imported both."""


def linear_sum_assignment(
    cost_matrix: Any,
    maximize: bool = False,
    *,
    program: Optional[Program] = None,
    time_limit: Optional[float] = None,
    decimals: Optional[int] = None,
) -> Tuple[Any, Any]:
    """Rows and columns of an assignment of least cost (of most, with `maximize`), each row at most once and each
    column.

    `cost_matrix` is a matrix of any shape; each row, or where there are fewer columns each column, is assigned. An
    entry that is infinite is no pair. Computed floats may have more decimals than there is room for: `decimals` rounds
    all costs to so many. Returns two arrays of whole numbers, the first rising. Raises ValueError where there is no
    assignment or an entry is nan or -inf, BeyondLimits where the matrix is too large or too fine for the formats, and
    TimeLimit after `time_limit` seconds.
    """
    import numpy as np

    matrix = np.asarray(cost_matrix)
    if matrix.ndim != 2:
        raise ValueError(f"expected a matrix (2-D array), got a {matrix.ndim} array")
    if matrix.dtype.kind not in "biuf":
        if matrix.dtype.kind in "SU":
            raise TypeError(f"Cannot cast array data from {matrix.dtype!r} to dtype('float64') by the rule 'safe'")
        if matrix.dtype.kind != "O":
            raise ValueError(f"expected a matrix containing numerical entries, got {matrix.dtype}")
        matrix = matrix.astype(np.float64)
    worst = np.inf if maximize else -np.inf
    if np.any(np.isnan(matrix) | (matrix == worst)):
        raise ValueError("matrix contains invalid numeric entries")
    if 0 in matrix.shape:
        return np.array([], dtype=np.intp), np.array([], dtype=np.intp)
    is_turned = matrix.shape[0] > matrix.shape[1]
    rows, columns = assigned(matrix.T if is_turned else matrix, maximize, program, time_limit, decimals)
    if not is_turned:
        return np.array(rows, dtype=np.intp), np.array(columns, dtype=np.intp)
    order = np.argsort(columns)
    return np.array(columns, dtype=np.intp)[order], np.array(rows, dtype=np.intp)[order]


def assigned(
    matrix: Any,
    maximize: bool,
    program: Optional[Program],
    time_limit: Optional[float],
    decimals: Optional[int] = None,
) -> Tuple[List[int], List[int]]:
    """The rows, each of them, and their columns, of which there are as many or more."""
    problem = Problem("min")
    height, width = matrix.shape
    for row in range(height):
        problem.add_node(f"row {row}", 1)
    for column in range(width):
        problem.add_node(f"column {column}", -1)
    pairs: List[Tuple[int, int]] = []
    # Short floats are taken as they are printed, as all others are: in 64 bits 0.1 would be 0.10000000149011612.
    is_short = matrix.dtype.kind == "f" and matrix.dtype.itemsize < 8
    entries = [[float(str(cost)) for cost in costs] for costs in matrix] if is_short else matrix.tolist()
    # The last row first: of assignments that cost the same, the solver then tends to find the one that scipy tells.
    for row, costs in reversed(list(enumerate(entries))):
        for column, cost in enumerate(costs):
            if abs(cost) != float("inf"):
                problem.add_arc(f"row {row}", f"column {column}", cap=1, cost=-cost if maximize else cost)
                pairs.append((row, column))
    if decimals is not None:
        problem = round_problem(problem, decimals)
    plan = problem.solve(program, surplus="keep" if width > height else "refuse", time_limit=time_limit)
    if isinstance(plan, Infeasible):
        raise ValueError("cost matrix is infeasible")
    chosen = sorted(pair for pair, flow in zip(pairs, plan.flows) if flow)
    return [row for row, _ in chosen], [column for _, column in chosen]


def maximum_flow(
    csgraph: Any,
    source: int,
    sink: int,
    *,
    method: str = "dinic",
    program: Optional[Program] = None,
    time_limit: Optional[float] = None,
) -> Any:
    """A maximum flow of a graph in CSR format, whose entries are the capacities, as scipy's `MaximumFlowResult`.

    `csgraph` is a square matrix of whole numbers; `flow` of the result has the same shape, and what flows back is below
    0. Raises TypeError or ValueError as scipy does, BeyondLimits where the graph is too large for the formats, and
    TimeLimit after `time_limit` seconds.
    """
    import numpy as np
    from scipy.sparse import coo_matrix

    check_graph(csgraph, source, sink, method)
    graph = csgraph.tocoo()
    nodes = csgraph.shape[0]
    problem = Problem("max", source=str(source), sink=str(sink))
    for node in range(nodes):
        problem.add_node(str(node))
    arcs = [
        (tail, head, bound)
        for tail, head, bound in zip(graph.row.tolist(), graph.col.tolist(), graph.data.tolist())
        if bound > 0 and tail != head
    ]
    for tail, head, bound in arcs:
        problem.add_arc(str(tail), str(head), cap=bound)
    plan = problem.solve(program, time_limit=time_limit)
    assert isinstance(plan, Plan)  # a flow of 0 is always legal
    tails = np.array([arc[0] for arc in arcs], dtype=np.int32)
    heads = np.array([arc[1] for arc in arcs], dtype=np.int32)
    flows = np.array([int(flow) for flow in plan.flows], dtype=np.int64)
    both = (np.concatenate((tails, heads)), np.concatenate((heads, tails)))
    net = coo_matrix((np.concatenate((flows, -flows)), both), shape=(nodes, nodes)).tocsr()
    return result_type()(int(plan.cost), net.astype(np.int32))


def result_type() -> Any:
    """The type of scipy's results, which has no public name: that of its answer to the smallest graph."""
    import numpy as np
    from scipy.sparse import csr_matrix
    from scipy.sparse.csgraph import maximum_flow as answered

    return type((SCIPYS_OWN or answered)(csr_matrix(np.zeros((2, 2), dtype=np.int32)), 0, 1))


def check_graph(csgraph: Any, source: int, sink: int, method: str) -> None:
    """Raises what scipy does where the arguments of `maximum_flow` are wrong."""
    import numpy as np

    if getattr(csgraph, "format", None) != "csr":
        raise TypeError("graph must be in CSR format")
    if not np.issubdtype(csgraph.dtype, np.integer):
        raise ValueError("graph capacities must be integers")
    if csgraph.nnz and csgraph.data.max() > np.iinfo(np.int32).max:
        raise ValueError("graph capacities must fit in 32 bit")
    if source == sink:
        raise ValueError("source and sink vertices must differ")
    if csgraph.shape[0] != csgraph.shape[1]:
        raise ValueError("graph must be specified as a square matrix.")
    for name, node in (("source", source), ("sink", sink)):
        if not 0 <= node < csgraph.shape[0]:
            raise ValueError(f"{name} value ({node}) must be between 0 and {csgraph.shape[0] - 1}")
    if method not in METHODS:
        raise ValueError(f"{method} method is not supported yet.")
