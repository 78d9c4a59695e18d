"""Problems of least cost in arrays of whole numbers: nodes and arcs are counted from 0, and have no names.

Where a column is an array of numpy, or a series of pandas, results are arrays of numpy; where all are lists, numpy is
not wanted, and results are lists.

>>> plan = solve_arrays([0, 0, 1], [1, 2, 2], [4, 2, 3], [1, 5, 1], [4, 0, -4])
>>> plan.flows, plan.cost
([3, 1, 3], 11)
>>> short = solve_arrays([0], [1], [3], [1], [4, -4])
>>> short.shortage, short.cut
(1, [True, False])
"""

from __future__ import annotations

from array import array
from collections.abc import Mapping, Set
from dataclasses import dataclass, field
from operator import gt, index, mul
from typing import Any, Callable, Dict, List, Optional, Sequence, Union

from .calls import Arrays, pointer_to
from .deadline import Deadline
from .dimacs import Answer, DimacsProblem, parse_answer
from .errors import BeyondLimits
from .formats import MOST_ARCS, MOST_COST, MOST_FLOW, MOST_NODES, counted
from .library import Library
from .plan import Disagreement
from .program import Program, ProgramFailed

Column = Any
"""A list of whole numbers, or an array of one dimension; of capacities also None and infinite ones, which are no
limit."""

Result = Union["ArrayPlan", "ArrayInfeasible"]


def solve_arrays(
    tails: Column,
    heads: Column,
    capacities: Column,
    costs: Column,
    supplies: Column,
    lower_bounds: Column = None,
    **options: Any,
) -> Result:
    """A flow of least cost, or a cut that shows that none is legal.

    `supplies` has one entry a node: what leaves it less what comes in; the other columns have one entry an arc, and
    nodes are their places in `supplies`, from 0. `capacities` None is no limit for each arc, `lower_bounds` None is 0.
    `options` are those of `ArrayProblem.solve`: `check`, `time_limit` and `solver`.
    Raises ValueError where an entry is no whole number or has no meaning, BeyondLimits where one is beyond the
    formats' limits, and what `ArrayProblem.solve` raises.
    """
    return ArrayProblem(tails, heads, capacities, costs, supplies, lower_bounds).solve(**options)


class ArrayProblem:
    """A problem in arrays: what the arguments mean, and what is raised where they are wrong, stands at `solve_arrays`.

    `tails`, `heads`, `lows`, `caps` (None is no limit), `costs` and `supplies` are lists.
    """

    def __init__(
        self,
        tails: Column,
        heads: Column,
        capacities: Column,
        costs: Column,
        supplies: Column,
        lower_bounds: Column = None,
    ):
        columns = (tails, heads, capacities, costs, supplies, lower_bounds)
        self.is_numpy = any(hasattr(column, "__array__") for column in columns)
        self.tails = wholes(tails, "tails")
        arcs = len(self.tails)
        self.heads = wholes(heads, "heads")
        self.lows = [0] * arcs if lower_bounds is None else wholes(lower_bounds, "lower_bounds")
        self.caps: List[Optional[int]] = [None] * arcs if capacities is None else limits(capacities)
        self.costs = wholes(costs, "costs")
        self.supplies = wholes(supplies, "supplies")
        others: Dict[str, Sequence[Any]] = {"heads": self.heads, "lower_bounds": self.lows}
        others.update(capacities=self.caps, costs=self.costs)
        for what, column in others.items():
            if len(column) != arcs:
                entries = "1 entry" if len(column) == 1 else f"{len(column)} entries"
                raise ValueError(f"{what} has {entries}, and tails has {arcs}")
        self._check_ranges()
        self._text_caps = self._limited_caps()
        self._text_ends = numbered(self.tails), numbered(self.heads)

    def __repr__(self) -> str:
        return f"<ArrayProblem: {counted(len(self.supplies), 'node')}, {counted(len(self.tails), 'arc')}>"

    def solve(
        self, *, check: bool = True, time_limit: Optional[float] = None, solver: Optional[Program] = None
    ) -> Result:
        """A flow of least cost, or a cut that shows that none is legal.

        `check` says whether it goes through `mcf check` and `verify`. `solver` None is the C library where it is
        there, else the program. Raises TimeLimit after `time_limit` seconds, Disagreement where the answer is found
        wrong, and ProgramFailed.
        """
        solver = solver or _usual_solver()
        with Deadline(time_limit) as deadline:
            if isinstance(solver, Library):
                answer = self._by_library(solver, deadline.left())
            else:
                answer = parse_answer(solver.solve(self.text(), time_limit=deadline.left()), with_ends=False)
            result = self._result(answer)
            if check:
                self._check(result, answer, solver, deadline.left())
        return result

    def text(self) -> str:
        """The problem as a text of the formats, in which node 1 is node 0 here."""
        rows = zip(*self._text_ends, self.lows, self._text_caps, self.costs)
        supplies = {node: supply for node, supply in enumerate(self.supplies, 1) if supply}
        return DimacsProblem("min", len(self.supplies), list(rows), supplies).text()

    def _by_library(self, library: Library, time_limit: Optional[float]) -> Answer:
        numbers = [array("q", column) for column in (self.supplies, self.lows, self._text_caps, self.costs)]
        places = [array("I", column) for column in self._text_ends]
        supply, low, cap, cost = (pointer_to(column) for column in numbers)
        tail, head = (pointer_to(column) for column in places)
        return library.solve_arrays(Arrays(*supply, *tail, *head, *low, *cap, *cost), time_limit=time_limit)

    def _result(self, answer: Answer) -> Result:
        if answer.shortage is not None:
            marks = [False] * len(self.supplies)
            for node in answer.cut:
                marks[node - 1] = True
            return ArrayInfeasible(self, self._column(marks), answer.shortage)
        flows, potentials = self._column(answer.flows), self._column(answer.potentials or [])
        return ArrayPlan(self, flows, potentials, answer.value or 0)

    def _column(self, entries: List[Any]) -> Any:
        if not self.is_numpy:
            return entries
        import numpy

        return numpy.array(entries, dtype=bool if entries and isinstance(entries[0], bool) else numpy.int64)

    def _check(self, result: Result, answer: Answer, solver: Program, time_limit: Optional[float]) -> None:
        """Raises Disagreement, with both texts, where `mcf check` or `verify` finds the answer wrong."""
        answer.ends = list(zip(*self._text_ends))
        text, answer_text = self.text(), answer.text()
        verdict = solver.check(text, answer_text, time_limit=time_limit)
        if verdict != "valid":
            raise Disagreement(f"mcf check says of the answer: {verdict}", text, answer_text)
        try:
            result.verify()
        except Disagreement as wrong:
            wrong.problem_text, wrong.answer_text = text, answer_text
            raise
        result.checked = True

    def _check_ranges(self) -> None:
        """Raises ValueError or BeyondLimits for the first entry of a column that is out of range."""
        nodes, arcs = len(self.supplies), len(self.tails)
        if not 1 <= nodes <= MOST_NODES:
            raise BeyondLimits(f"there are {nodes:,} nodes, and 1 to {MOST_NODES:,} are taken")
        if arcs > MOST_ARCS:
            raise BeyondLimits(f"there are {arcs:,} arcs, and at most {MOST_ARCS:,} are taken")
        _check_range("supplies", self.supplies, -MOST_FLOW, MOST_FLOW)
        _check_range("tails", self.tails, 0, nodes - 1)
        _check_range("heads", self.heads, 0, nodes - 1)
        _check_range("lower_bounds", self.lows, 0, MOST_FLOW)
        _check_range("costs", self.costs, -MOST_COST, MOST_COST)
        caps = [MOST_FLOW if cap is None else cap for cap in self.caps]
        if any(map(gt, self.lows, caps)):
            arc = next(arc for arc, (low, cap) in enumerate(zip(self.lows, caps)) if low > cap)
            raise ValueError(f"lower_bounds[{arc}] is {self.lows[arc]}, above its capacity, {caps[arc]}")

    def _limited_caps(self) -> List[int]:
        """The capacities within the formats' limits. An arc that may carry more gets what no best flow needs to fill.

        A best flow is made of paths from supplies to demands, and of circles that cost less than 0; where no arc
        without limit costs less than 0, each such circle has another arc that does, whose capacity bounds it.
        """
        large = [arc for arc, cap in enumerate(self.caps) if cap is None or cap > MOST_FLOW]
        if not large:
            return [cap for cap in self.caps if cap is not None]
        for arc in large:
            if self.costs[arc] < 0:
                raise BeyondLimits(
                    f"arc {arc} costs less than 0, and has no capacity, or one above {MOST_FLOW:,}: give it a "
                    "smaller one"
                )
        supplies = list(self.supplies)
        needed = 1
        for tail, head, low, cap, cost in zip(self.tails, self.heads, self.lows, self.caps, self.costs):
            supplies[tail] -= low
            supplies[head] += low
            if cost < 0 and cap is not None:
                needed += cap - low
        needed += sum(supply for supply in supplies if supply > 0)
        for arc in large:
            if self.lows[arc] + needed > MOST_FLOW:
                raise BeyondLimits(
                    f"arc {arc} has no capacity, or one above {MOST_FLOW:,}, and may have to carry up to "
                    f"{self.lows[arc] + needed:,}: take a larger unit for all amounts"
                )
        return [MOST_FLOW if cap is None else min(cap, MOST_FLOW) for cap in self.caps]


@dataclass
class ArrayPlan:
    """A best flow: `flows` by arcs, `potentials` by nodes, which prove that no flow costs less, and its `cost`.

    `checked` says that `mcf check` has accepted it, and `verify` too.
    """

    problem: ArrayProblem
    flows: Any = field(repr=False)
    potentials: Any = field(repr=False)
    cost: int
    checked: bool = False

    def verify(self) -> None:
        """Raises Disagreement unless the flow is legal, costs what it says, and the potentials show that none is
        better. All is worked out in whole numbers of any size."""
        problem = self.problem
        flows, potentials = _listed(self.flows), _listed(self.potentials)
        if len(flows) != len(problem.tails) or len(potentials) != len(problem.supplies):
            raise Disagreement("there is not one flow for each arc, and one potential for each node")
        net = list(problem.supplies)
        rows = zip(problem.tails, problem.heads, problem.lows, problem.caps, problem.costs, flows)
        for arc, (tail, head, low, cap, cost, flow) in enumerate(rows):
            if flow < low or cap is not None and flow > cap:
                raise Disagreement(f"arc {arc}: the flow {flow} is outside its bounds")
            reduced = cost + potentials[tail] - potentials[head]
            if reduced > 0 and flow != low or reduced < 0 and flow != cap:
                raise Disagreement(f"arc {arc}: with another flow the cost would be less")
            if flow:
                net[tail] -= flow
                net[head] += flow
        if any(net):
            node = next(node for node, rest in enumerate(net) if rest)
            raise Disagreement(f"node {node}: what leaves it less what comes in is not its supply")
        if sum(map(mul, flows, problem.costs)) != self.cost:
            raise Disagreement(f"the flow does not cost {self.cost}")


@dataclass
class ArrayInfeasible:
    """There is no legal flow: of the nodes that are marked in `cut`, `shortage` units too much, or too little, are left
    however much goes over its border."""

    problem: ArrayProblem
    cut: Any = field(repr=False)
    shortage: int
    checked: bool = False

    def verify(self) -> None:
        """Raises Disagreement unless the cut has this shortage, above 0."""
        problem, cut = self.problem, _listed(self.cut)
        too_much: Optional[int] = sum(supply for supply, inside in zip(problem.supplies, cut) if inside)
        assert too_much is not None
        too_little: Optional[int] = -too_much
        for tail, head, low, cap in zip(problem.tails, problem.heads, problem.lows, problem.caps):
            if cut[tail] and not cut[head]:
                too_much = None if cap is None or too_much is None else too_much - cap
                too_little = None if too_little is None else too_little + low
            elif cut[head] and not cut[tail]:
                too_much = None if too_much is None else too_much + low
                too_little = None if cap is None or too_little is None else too_little - cap
        if self.shortage <= 0 or self.shortage not in (too_much, too_little):
            raise Disagreement(f"the cut does not show a shortage of {self.shortage}")


def wholes(column: Column, what: str) -> List[int]:
    """The whole numbers of a column. Raises ValueError where an entry is none."""
    return _converted(column, what, _whole)


def limits(column: Column) -> List[Optional[int]]:
    """The capacities of a column; None, and infinite, is no limit."""
    return _converted(column, "capacities", _limit)


def _converted(column: Column, what: str, convert: Callable[[Any], Any]) -> List[Any]:
    entries = _listed(column)
    if set(map(type, entries)) <= {int}:
        return entries
    for place, entry in enumerate(entries):
        try:
            entries[place] = convert(entry)
        except (TypeError, ValueError, OverflowError):
            raise ValueError(f"{what}[{place}] is {entry!r}, and has to be a whole number") from None
    return entries


def _listed(column: Column) -> List[Any]:
    """A list of the entries of a column. Raises ValueError where it has no order, or more than one dimension."""
    if isinstance(column, (Mapping, Set)):
        raise ValueError(f"a column is a list or an array, and this one is of type {type(column).__name__}")
    if hasattr(column, "tolist"):
        if getattr(getattr(column, "dtype", None), "kind", "") in ("m", "M"):
            raise ValueError("a column has whole numbers, and this one has dates or times")
        entries = column.tolist()
        if not isinstance(entries, list) or entries and isinstance(entries[0], list):
            raise ValueError("a column has one dimension")
        return entries
    return list(column)


def _whole(entry: Any) -> int:
    """The whole number of an entry, which may be written as 3.0."""
    if isinstance(entry, float):
        if not entry.is_integer():
            raise ValueError
        return int(entry)
    return index(entry)


def _limit(entry: Any) -> Optional[int]:
    """The capacity of an entry; None where it is no limit."""
    return None if entry is None or entry == float("inf") else _whole(entry)


def _check_range(what: str, column: Sequence[int], least: int, most: int) -> None:
    """Raises BeyondLimits, or ValueError for a node that is not there or a bound below 0, for the first entry that is
    out of range."""
    if not column or least <= min(column) and max(column) <= most:
        return
    place = next(place for place, entry in enumerate(column) if not least <= entry <= most)
    words = f"{what}[{place}] is {column[place]}, and has to be from {least:,} to {most:,}"
    raise ValueError(words) if column[place] < 0 and least == 0 or what in ("tails", "heads") else BeyondLimits(words)


def numbered(places: List[int]) -> List[int]:
    """The numbers, from 1, of nodes that are counted from 0."""
    return [place + 1 for place in places]


def _usual_solver() -> Program:
    """The C library where it is there, else the program."""
    try:
        return Library()
    except ProgramFailed:
        return Program()
