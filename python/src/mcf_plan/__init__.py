"""Minimum-cost flows from tables with names and decimals, by a proved solver.

Nothing is returned that the program's own check has not accepted, and that has not been found right in the units of the
tables.

>>> from mcf_plan import Problem
>>> problem = Problem()
>>> problem.add_node("depot", 4)
>>> problem.add_node("shop", -4)
>>> problem.add_arc("depot", "shop", cap=3, cost="2.5")
0
>>> problem.add_arc("depot", "shop", cost="3.75", name="ferry")
1
>>> plan = problem.solve()
>>> plan.cost
Decimal('11.25')
>>> plan.flows
[Decimal('3'), Decimal('1')]
"""

from __future__ import annotations

from typing import TYPE_CHECKING, Any

from .dimacs import Answer, DimacsProblem, Fault
from .explain import explain
from .plan import Disagreement, Infeasible, Plan
from .problem import Arc, Problem
from .program import Program, ProgramFailed, Refused, TimeLimit
from .rewrite import BeyondLimits, Meaningless, Unbounded
from .session import EditRefused, Session

if TYPE_CHECKING:
    from .arrays import ArrayInfeasible, ArrayPlan, solve_arrays

__version__ = "0.1.0"

__all__ = [
    "Answer",
    "Arc",
    "ArrayInfeasible",
    "ArrayPlan",
    "BeyondLimits",
    "DimacsProblem",
    "Disagreement",
    "EditRefused",
    "Fault",
    "Infeasible",
    "Meaningless",
    "Plan",
    "Problem",
    "Program",
    "ProgramFailed",
    "Refused",
    "Session",
    "TimeLimit",
    "Unbounded",
    "explain",
    "solve_arrays",
    "__version__",
]


def __getattr__(name: str) -> Any:
    """The names of `arrays`, which is read when it is wanted first."""
    if name not in ("ArrayInfeasible", "ArrayPlan", "solve_arrays"):
        raise AttributeError(f"module {__name__!r} has no attribute {name!r}")
    from . import arrays

    return getattr(arrays, name)
