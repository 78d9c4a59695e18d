"""Rounding the numbers of a problem, where it was asked for, with a note of how many changed, and by how much."""

from __future__ import annotations

from decimal import ROUND_HALF_EVEN, Decimal
from math import isinf
from typing import Any, Dict, List, Optional, Tuple

from .problem import WIDE, ZERO, Problem, exact, plain, total_of

MOST_DECIMALS = 30


class _Rounding:
    """Rounds numbers to a step, and keeps count of those that changed."""

    def __init__(self, decimals: int):
        if not 0 <= decimals <= MOST_DECIMALS:
            raise ValueError(f"the numbers are to be rounded to {decimals} decimals; there are 0 to {MOST_DECIMALS}")
        self.decimals = decimals
        self.step = Decimal(1).scaleb(-decimals)
        self.changed = 0
        self.most = ZERO

    def __call__(self, number: Decimal) -> Decimal:
        rounded = number.quantize(self.step, ROUND_HALF_EVEN, WIDE)
        if rounded == number:
            return number
        self.note(WIDE.subtract(rounded, number))
        return rounded or ZERO

    def note(self, change: Decimal) -> None:
        """Counts a number that changed."""
        self.changed += 1
        self.most = max(self.most, abs(change))

    def words(self) -> str:
        """How many numbers changed, and by how much; '' where none did."""
        if not self.changed:
            return ""
        count = "1 number was" if self.changed == 1 else f"{self.changed} numbers were"
        return f"{count} rounded to {self.decimals} decimals, by at most {_short(self.most)}"

    def limit(self, number: Optional[Decimal]) -> Optional[Decimal]:
        """A capacity; None is no limit."""
        return None if number is None else self(number)


def round_problem(problem: Problem, decimals: int) -> Problem:
    """The same problem with all numbers rounded to so many decimals, halves to the even digit.

    Where the supplies add up to 0 before, or to less than rounding can make of 0, they add up to 0 after it: some of
    them are rounded the other way. `notes` say how many numbers changed, and by how much at most.
    Raises ValueError where `decimals` is below 0 or above `MOST_DECIMALS`.

    >>> problem = Problem()
    >>> for name, supply in (("a", 0.1 + 0.2), ("b", "-0.3")):
    ...     problem.add_node(name, supply)
    >>> rounded = round_problem(problem, 6)
    >>> rounded.nodes["a"], rounded.notes
    (Decimal('0.300000'), ['1 number was rounded to 6 decimals, by at most 0.00000000000000004'])
    """
    rounded, rounding = problem.copy(), _Rounding(decimals)
    rounded.nodes = _balanced(problem.nodes, rounding)
    rounded.arcs = [
        arc._replace(low=rounding(arc.low), cap=rounding.limit(arc.cap), cost=rounding(arc.cost))
        for arc in problem.arcs
    ]
    rounded.notes += filter(None, [rounding.words()])
    return rounded


def round_graph(
    G: Any, decimals: int, *, demand: str = "demand", capacity: str = "capacity", weight: str = "weight"
) -> Tuple[Any, str]:
    """A copy of a graph of networkx with demands, capacities and weights rounded to so many decimals, and a note of how
    many numbers changed, and by how much at most ('' where none did).

    Numbers that are whole stay as they are, infinite ones too; others come back as float. Demands that add up to 0, but
    for what rounding can make of it, do so afterwards.

    >>> import networkx as nx                                                          # doctest: +SKIP
    >>> G = nx.DiGraph()                                                               # doctest: +SKIP
    >>> G.add_node("a", demand=-(0.1 + 0.2))                                           # doctest: +SKIP
    >>> G.add_node("b", demand=0.3)                                                    # doctest: +SKIP
    >>> round_graph(G, 6)[1]                                                           # doctest: +SKIP
    '1 number was rounded to 6 decimals, by at most 0.00000000000000004'
    """
    rounding = _Rounding(decimals)
    rounded = G.copy()
    demands = {node: exact(data[demand]) for node, data in G.nodes(data=True) if demand in data}
    for node, number in _balanced(demands, rounding).items():
        if number != demands[node]:
            rounded.nodes[node][demand] = float(number)
    for *_, data in rounded.edges(data=True):
        for name in (capacity, weight):
            if name in data and not (isinstance(data[name], (float, Decimal)) and isinf(data[name])):
                number = exact(data[name])
                if rounding(number) != number:
                    data[name] = float(number.quantize(rounding.step, ROUND_HALF_EVEN, WIDE))
    return rounded, rounding.words()


def _short(number: Decimal) -> str:
    """A number of at most three digits that is not below this one."""
    step = Decimal(1).scaleb(number.adjusted() - 2)
    return plain(number.quantize(step, "ROUND_UP", WIDE))


def _balanced(supplies: Dict[Any, Decimal], rounding: _Rounding) -> Dict[Any, Decimal]:
    """The supplies, rounded so that they add up to 0 where they did, but for what rounding can make of 0."""
    step = rounding.step
    rounded = {name: supply.quantize(step, ROUND_HALF_EVEN, WIDE) or ZERO for name, supply in supplies.items()}
    is_balanced = abs(total_of(supplies.values())) * 2 < step
    rest = total_of(rounded.values()) if is_balanced else ZERO
    if rest:
        # Those that rounding moved the most in the way that is too much go one step back.
        away: List[Any] = sorted(
            supplies, key=lambda name: WIDE.subtract(rounded[name], supplies[name]), reverse=rest > 0
        )
        back = step if rest > 0 else -step
        for name in away[: int(abs(rest) / step)]:
            rounded[name] = WIDE.subtract(rounded[name], back)
    for name, supply in supplies.items():
        if rounded[name] != supply:
            rounding.note(WIDE.subtract(rounded[name], supply))
        else:
            rounded[name] = supply
    return rounded
