"""One number of a problem over several values: what a best plan costs at each, through one session.

>>> from mcf_plan import Problem, Session
>>> problem = Problem()
>>> problem.add_node("depot", 4)
>>> problem.add_node("shop", -4)
>>> road, ferry = (problem.add_arc("depot", "shop", cap=cap, cost=cost) for cap, cost in ((3, "2.5"), (9, "3.75")))
>>> with Session(problem) as session:
...     for point in sweep(session, ("supply", "depot", "shop"), [4, 12, 13]):
...         print(point.value, point.cost, point.shortage)
4 11.25 None
12 41.25 None
13 None 1
"""

from __future__ import annotations

from decimal import Decimal
from typing import Any, Callable, Dict, Iterable, Iterator, List, NamedTuple, Optional, Tuple

from .problem import WIDE, Number, exact, plain
from .session import Session

What = Tuple[Any, ...]
"""A number of a problem: ('cap', arc), ('low', arc), ('cost', arc) or ('supply', node); or ('supply', node, other),
where the supply of the node `other` changes by as much the other way."""

MOST_VALUES = 10_000
"""So many values a row of them has at most."""


class Point(NamedTuple):
    """A value, and what a best plan costs there (in `max` what flows); where there is no plan, what is short."""

    value: Decimal
    cost: Optional[Decimal]
    shortage: Optional[Decimal]


def sweep(session: Session, what: What, values: Iterable[Number]) -> List[Point]:
    """For each value of one number of the problem what a best plan costs. The session stays as it is.

    Raises Unbounded, BeyondLimits, EditRefused, KeyError or ValueError where a value can't be set.
    """
    return list(points(session, what, values))


def points(session: Session, what: What, values: Iterable[Number]) -> Iterator[Point]:
    """The same, point by point as they are found."""
    with session.beside() as beside:
        for value in map(exact, values):
            cost = set_number(beside, what, value)
            yield Point(value, cost, beside.shortage)
            beside.undo()


def row_of_values(first: Decimal, last: Decimal, step: Decimal) -> List[Decimal]:
    """The values from the first to the last one by steps; the last one too where a step does not lead to it.

    Raises ValueError where the step does not lead there, or there would be more than 10,000 values.

    >>> row_of_values(Decimal(0), Decimal("2.5"), Decimal(1))
    [Decimal('0'), Decimal('1'), Decimal('2'), Decimal('2.5')]
    """
    way = WIDE.subtract(last, first)
    if not step or way and (way > 0) != (step > 0):
        others = f"; steps of {plain(-step)} do" if step else ""
        raise ValueError(f"steps of {plain(step)} do not lead from {plain(first)} to {plain(last)}{others}")
    count = int(WIDE.divide_int(way, step))
    if count >= MOST_VALUES:
        row = f"from {plain(first)} to {plain(last)} by {plain(step)}"
        raise ValueError(f"{row} there are more than {MOST_VALUES:,} values")
    values = [WIDE.add(first, WIDE.multiply(step, Decimal(number))) for number in range(count + 1)]
    return values if values[-1] == last else [*values, last]


def set_number(session: Session, what: What, value: Decimal) -> Optional[Decimal]:
    """Sets one number of a session, as one step, and answers the cost then; None where there is no plan."""
    if what[0] == "supply" and len(what) == 3:
        node, other = what[1:]
        nodes = session.problem.nodes
        for name in (node, other):
            if name not in nodes:
                raise KeyError(f"there is no node {name}")
        if node == other:
            raise ValueError(f"the supply of {node} can't change the other way at {node} itself: name another node")
        left = WIDE.subtract(nodes[other], WIDE.subtract(value, nodes[node]))
        with session.group():
            session.set_supply(node, value)
            session.set_supply(other, left)
        return session.cost
    edits: Dict[str, Callable[[Any, Decimal], Optional[Decimal]]] = {
        "cap": session.set_cap,
        "low": session.set_low,
        "cost": session.set_cost,
        "supply": session.set_supply,
    }
    if what[0] not in edits or len(what) != 2:
        raise ValueError(f"{what!r} is no number of a problem: say 'cap', 'low', 'cost' or 'supply', and where")
    return edits[what[0]](what[1], value)
