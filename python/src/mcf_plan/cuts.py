"""The minimum cut of a maximum flow, by name."""

from __future__ import annotations

from collections import deque
from decimal import Decimal
from typing import Deque, Dict, FrozenSet, List, NamedTuple, Optional, Set

from .errors import Meaningless
from .plan import Disagreement, Plan
from .problem import Problem, total_of


class Cut(NamedTuple):
    """A minimum cut: both sides, the numbers of the arcs that lead from the source's side to the sink's, and what these
    can carry together, less what has to come back."""

    source_side: FrozenSet[str]
    sink_side: FrozenSet[str]
    arcs: List[int]
    capacity: Decimal


def minimum_cut(plan: Plan) -> Cut:
    """The minimum cut of a maximum flow that is nearest to its source. Its capacity is the flow, which proves both.

    Where the prices of the plan show it, their nodes below 0 are its side of the source; else it is searched for. Either
    is checked. Raises Meaningless where the plan is no maximum flow.
    """
    problem = plan.problem
    if problem.kind != "max" or problem.source is None:
        raise Meaningless("a minimum cut is one of a maximum flow")
    cut = None
    if plan.prices is not None:
        cut = cut_of(problem, {name for name, price in plan.prices.items() if price < 0})
    if cut is None or cut.capacity != plan.cost:
        cut = cut_of(problem, _reached(plan, problem.source))
    if cut is None or cut.capacity != plan.cost:
        raise Disagreement(f"no cut has the capacity {plan.cost} of the flow")
    return cut


def cut_of(problem: Problem, side: Set[str]) -> Optional[Cut]:
    """The cut with these nodes on the source's side; None where it parts source and sink not, or has no limit."""
    if problem.source not in side or problem.sink in side:
        return None
    arcs = problem.arcs
    leaving = [number for number, arc in enumerate(arcs) if arc.tail in side and arc.head not in side]
    entering = [number for number, arc in enumerate(arcs) if arc.head in side and arc.tail not in side]
    caps = [arcs[number].cap for number in leaving]
    if None in caps:
        return None
    back = total_of(-arcs[number].low for number in entering)
    capacity = total_of([back, *(cap for cap in caps if cap is not None)])
    return Cut(frozenset(side), frozenset(problem.nodes) - side, leaving, capacity)


def _reached(plan: Plan, source: str) -> Set[str]:
    """The nodes that more could reach from the source."""
    further: Dict[str, List[str]] = {}
    for arc, flow in zip(plan.problem.arcs, plan.flows):
        if arc.cap is None or flow < arc.cap:
            further.setdefault(arc.tail, []).append(arc.head)
        if flow > arc.low:
            further.setdefault(arc.head, []).append(arc.tail)
    reached: Set[str] = {source}
    queue: Deque[str] = deque(reached)
    while queue:
        for node in further.get(queue.popleft(), ()):
            if node not in reached:
                reached.add(node)
                queue.append(node)
    return reached
