"""Plan and Infeasible: answers in the words and units of the tables, which prove themselves by `verify`.

`verify` knows nothing of the text that was solved. It multiplies amounts and costs by powers of ten and works in whole
numbers, so nothing is rounded.
"""

from __future__ import annotations

from dataclasses import dataclass, field
from decimal import Decimal
from typing import TYPE_CHECKING, Any, Dict, FrozenSet, Iterator, List, NamedTuple, Optional

from .formats import counted
from .problem import WIDE, ZERO, plain, total_of
from .units import Scale

if TYPE_CHECKING:
    from .problem import Problem


AT_A_TIME = 10_000
"""So many arcs are verified at a time."""


class Disagreement(Exception):
    """An answer was found wrong: by `mcf check`, or in the units of the tables. `problem_text` and `answer_text` are
    what was asked and answered, to be kept for a report."""

    def __init__(self, words: str, problem_text: str = "", answer_text: str = ""):
        super().__init__(words)
        self.problem_text = problem_text
        self.answer_text = answer_text


class RestArc(NamedTuple):
    """What a node may keep, or go without: up to `cap`, or without limit where that is None."""

    name: str
    is_kept: bool
    cap: Optional[Decimal]


def rest_arcs(problem: Problem, rest_cost: Optional[Decimal]) -> Iterator[RestArc]:
    """What each node may keep or go without. Where supplies are to be equal, this is what is too much at nodes that
    supply, or too little at those that demand, by the sum of all; where `rest_cost` is None it is nothing."""
    if problem.balance != "equal":
        for name in problem.nodes:
            yield RestArc(name, problem.balance == "at most", None)
    elif rest_cost is not None:
        total = total_of(problem.nodes.values())
        for name, supply in problem.nodes.items():
            if supply and total and (supply > 0) == (total > 0):
                yield RestArc(name, total > 0, abs(supply))


@dataclass
class Plan:
    """A best plan.

    `flows` are in the order of `problem.arcs`. `cost` is the cost of the whole plan; in `max` it is what the source
    sends out. `prices` holds a price for each node: that of a unit there, by which no plan is better; None where only
    flows are known. `kept` and `not_met` hold what stays at each node and what it does not get, where that is not 0.
    `rest_cost` is what a unit of these costs, None where supplies have to be equal; `rest_price` is their price.
    `notes` say what was rewritten. `checked` says that `mcf check` has accepted the answer and `verify` too.
    """

    problem: Problem
    flows: List[Decimal]
    cost: Decimal
    prices: Optional[Dict[str, Decimal]] = None
    kept: Dict[str, Decimal] = field(default_factory=dict)
    not_met: Dict[str, Decimal] = field(default_factory=dict)
    rest_cost: Optional[Decimal] = None
    rest_price: Decimal = ZERO
    notes: List[str] = field(default_factory=list)
    checked: bool = False

    def reduced_cost(self, arc: int) -> Decimal:
        """What one more unit on this arc costs in all: its cost, plus the price of its tail, less that of its head.

        Raises ValueError where the plan has no prices.
        """
        if self.prices is None:
            raise ValueError("the plan has no prices")
        row = self.problem.arcs[arc]
        return WIDE.subtract(WIDE.add(row.cost, self.prices[row.tail]), self.prices[row.head])

    def is_full(self, arc: int) -> bool:
        """Whether the arc carries its capacity."""
        return self.flows[arc] == self.problem.arcs[arc].cap

    def to_frame(self) -> Any:
        """A frame of pandas with a row for each arc: `from`, `to`, `low`, `capacity`, `unit cost`, `flow`, `cost`, `is
        full`, and where there are prices `one more costs`, the reduced cost.

        The index, `arc`, has the names of the arcs where each has one of its own, else their numbers from 0. Numbers
        are exact: whole ones int64, others float64 where each is printed as the very number, else `Decimal`; no
        limit is infinite. Raises ImportError where pandas is not there.
        """
        from .frames import arc_frame

        return arc_frame(self)

    def nodes_to_frame(self) -> Any:
        """A frame of pandas with a row for each node, under the index `node`: `supply`, `price` where there are prices,
        and `kept` or `not met` where something is. Numbers are as in `to_frame`."""
        from .frames import node_frame

        return node_frame(self)

    def _repr_html_(self) -> str:
        from .notebook import plan_html

        return plan_html(self)

    def verify(self) -> None:
        """Raises Disagreement unless the plan is legal, costs what it says, and its prices show that none is better.

        >>> from mcf_plan import Problem
        >>> problem = Problem()
        >>> problem.add_arc("a", "b", cap=1)
        0
        >>> Plan(problem, [Decimal(1)], Decimal(0), {"a": Decimal(0), "b": Decimal(0)}).verify()
        Traceback (most recent call last):
        ...
        mcf_plan.plan.Disagreement: node a: 1 leave it, and it supplies 0
        """
        if len(self.flows) != len(self.problem.arcs):
            raise Disagreement(f"the plan has {len(self.flows)} flows for {len(self.problem.arcs)} arcs")
        if self.prices is None or len(self.prices) != len(self.problem.nodes):
            raise Disagreement("the plan has no prices, so nothing shows that it is best")
        problem, arcs = self.problem, self.problem.arcs
        rest = [*self.kept.values(), *self.not_met.values()]
        amounts = Scale.of(
            self.flows, (arc.low for arc in arcs), (arc.cap for arc in arcs), problem.nodes.values(), rest
        )
        money = Scale.of((arc.cost for arc in arcs), self.prices.values(), (self.rest_cost, self.rest_price))
        prices = dict(zip(self.prices, money.wholes(self.prices.values())))
        found = _Found.of(self, amounts, money, prices)
        if problem.kind == "max":
            self._verify_value(found.net, amounts)
        else:
            self._verify_balance(found.net, amounts)
            cost = found.cost + sum(amounts.wholes(rest)) * money.whole(self.rest_cost or ZERO)
            if WIDE.multiply(WIDE.multiply(self.cost, amounts.units), money.units) != cost:
                raise Disagreement(f"the plan does not cost {plain(self.cost)}")
        if found.better is not None:
            label = arcs[found.better].label
            raise Disagreement(f"arc {found.better + 1}, {label}: with another flow the plan would be better")
        self._verify_prices(money, prices)

    def _verify_value(self, net: Dict[str, int], scale: Scale) -> None:
        source, sink = self.problem.source or "", self.problem.sink or ""
        value = net.pop(source)
        if value + net.pop(sink) or WIDE.multiply(self.cost, scale.units) != value or value < 0:
            raise Disagreement(f"the source does not send {plain(self.cost)}")
        for name, amount in net.items():
            if amount:
                raise Disagreement(f"node {name}: as much as comes in does not leave it")
        if self.kept or self.not_met:
            raise Disagreement("in a maximum flow nothing is kept or not met")

    def _verify_balance(self, net: Dict[str, int], scale: Scale) -> None:
        for rest, is_kept in ((self.kept, True), (self.not_met, False)):
            caps = (
                {arc.name: arc.cap for arc in rest_arcs(self.problem, self.rest_cost) if arc.is_kept == is_kept}
                if rest
                else {}
            )
            for name, amount in rest.items():
                cap = caps.get(name)
                if name not in caps or amount < 0 or cap is not None and amount > cap:
                    raise Disagreement(f"node {name} may not {'keep' if is_kept else 'go without'} {plain(amount)}")
        supplies = scale.wholes(self.problem.nodes.values())
        for (name, leaving), supply in zip(net.items(), supplies):
            wanted = supply
            if name in self.kept:
                wanted -= scale.whole(self.kept[name])
            if name in self.not_met:
                wanted += scale.whole(self.not_met[name])
            if leaving != wanted:
                raise Disagreement(
                    f"node {name}: {plain(Decimal(leaving) / scale.units)} leave it, and it supplies "
                    f"{plain(Decimal(wanted) / scale.units)}"
                )

    def _verify_prices(self, money: Scale, price: Dict[str, int]) -> None:
        """A maximum flow could not be greater, and no other amounts that are kept or not met would be better."""
        problem = self.problem
        if problem.kind == "max":
            back = price[problem.sink or ""] - price[problem.source or ""] - int(money.units)
            if back < 0 or back > 0 and self.cost:
                raise Disagreement("the prices do not show that the flow is the greatest")
        rest_cost, rest_price = money.whole(self.rest_cost or ZERO), money.whole(self.rest_price)
        for row in rest_arcs(problem, self.rest_cost):
            way = price[row.name] - rest_price
            reduced = rest_cost + (way if row.is_kept else -way)
            amount = (self.kept if row.is_kept else self.not_met).get(row.name, ZERO)
            if reduced > 0 and amount or reduced < 0 and amount != row.cap:
                raise Disagreement(
                    f"node {row.name}: if it {'kept' if row.is_kept else 'went without'} another amount, the "
                    "plan would be better"
                )


class _Found(NamedTuple):
    """What is found of the arcs of a plan, in whole numbers: what leaves each node less what comes in, what the flows
    cost, and the first arc (None: no arc) that does not carry its lower bound where a unit more would cost, or its
    capacity where it would save."""

    net: Dict[str, int]
    cost: int
    better: Optional[int]

    @classmethod
    def of(cls, plan: Plan, amounts: Scale, money: Scale, prices: Dict[str, int]) -> _Found:
        """Raises Disagreement where a flow is outside its bounds. Some arcs are looked at at a time, so that not all
        whole numbers are there at once."""
        net, total, better = dict.fromkeys(plan.problem.nodes, 0), 0, None
        for first in range(0, len(plan.flows), AT_A_TIME):
            arcs = plan.problem.arcs[first : first + AT_A_TIME]
            flows = amounts.wholes(plan.flows[first : first + AT_A_TIME])
            lows = amounts.wholes(arc.low for arc in arcs)
            caps = amounts.wholes_or_none(arc.cap for arc in arcs)
            costs = money.wholes(arc.cost for arc in arcs)
            for k, (arc, flow, low, cap, cost) in enumerate(zip(arcs, flows, lows, caps, costs), first):
                if flow < low or cap is not None and flow > cap:
                    told = plain(plan.flows[k])
                    raise Disagreement(f"arc {k + 1}, {arc.label}: the flow {told} is outside its bounds")
                reduced = cost + prices[arc.tail] - prices[arc.head]
                if (reduced > 0 and flow != low or reduced < 0 and flow != cap) and better is None:
                    better = k
                if flow:
                    net[arc.tail] += flow
                    net[arc.head] -= flow
                    total += flow * cost
        return cls(net, total, better)


@dataclass
class Infeasible:
    """There is no plan: the supplies of the nodes of `cut` and the bounds of the arcs into and out of it contradict
    each other by `shortage`.

    `rest_in_cut` says on which side what is kept or not met stands, where it may be (`rest_cost` is not None).
    """

    problem: Problem
    cut: FrozenSet[str]
    shortage: Decimal
    rest_cost: Optional[Decimal] = None
    rest_in_cut: bool = False
    notes: List[str] = field(default_factory=list)
    checked: bool = False

    def crossing(self) -> Crossing:
        """What the nodes of the cut supply, and what can and must go over its border."""
        return Crossing.of(self)

    def verify(self) -> None:
        """Raises Disagreement unless the cut has this shortage, above 0, in the units of the tables."""
        crossing = self.crossing()
        if self.shortage <= 0 or self.shortage not in (crossing.too_much, crossing.too_little):
            raise Disagreement(
                f"the cut of {counted(len(self.cut), 'node')} does not show a shortage of {plain(self.shortage)}"
            )

    def _repr_html_(self) -> str:
        from .notebook import infeasible_html

        return infeasible_html(self)

    def explain(self) -> str:
        """Why there is no plan, in words: see `explain`."""
        from .explain import explain

        return explain(self)


@dataclass
class Crossing:
    """A cut in numbers. `supply` is that of its nodes (with the rest, where that is in it); `leaving` and `entering`
    are the arcs over its border, `kept_out` and `kept_in` what may be kept or not met over it. `out_most`,
    `out_least`, `in_most`, `in_least` are what they can and must carry; None is no limit."""

    supply: Decimal
    leaving: List[int]
    entering: List[int]
    rest_leaving: List[RestArc]
    rest_entering: List[RestArc]
    out_most: Optional[Decimal]
    out_least: Decimal
    in_most: Optional[Decimal]
    in_least: Decimal

    @classmethod
    def of(cls, found: Infeasible) -> Crossing:
        """The numbers of the cut of `found`."""
        problem, cut = found.problem, found.cut
        arcs = problem.arcs
        leaving = [k for k, arc in enumerate(arcs) if arc.tail in cut and arc.head not in cut]
        entering = [k for k, arc in enumerate(arcs) if arc.head in cut and arc.tail not in cut]
        supply = total_of(problem.nodes[name] for name in problem.nodes if name in cut)
        if found.rest_in_cut:
            supply = WIDE.subtract(supply, total_of(problem.nodes.values()))
        rest = [arc for arc in rest_arcs(problem, found.rest_cost) if (arc.name in cut) != found.rest_in_cut]
        # What is kept goes from the node to the rest; what is not met comes from the rest.
        rest_leaving = [arc for arc in rest if arc.is_kept != found.rest_in_cut]
        rest_entering = [arc for arc in rest if arc.is_kept == found.rest_in_cut]
        outs = [arcs[k].cap for k in leaving] + [arc.cap for arc in rest_leaving]
        ins = [arcs[k].cap for k in entering] + [arc.cap for arc in rest_entering]
        if problem.kind == "max" and (problem.source in cut) != (problem.sink in cut):
            (outs if problem.sink in cut else ins).append(None)
        return cls(
            supply,
            leaving,
            entering,
            rest_leaving,
            rest_entering,
            _sum(outs),
            total_of(arcs[k].low for k in leaving),
            _sum(ins),
            total_of(arcs[k].low for k in entering),
        )

    @property
    def too_much(self) -> Optional[Decimal]:
        """By how much more has to leave than can; None where there is no limit."""
        if self.out_most is None:
            return None
        return WIDE.add(WIDE.subtract(self.supply, self.out_most), self.in_least)

    @property
    def too_little(self) -> Optional[Decimal]:
        """By how much more has to come in than can; None where there is no limit."""
        if self.in_most is None:
            return None
        return WIDE.subtract(WIDE.subtract(self.out_least, self.in_most), self.supply)


def _sum(numbers: List[Optional[Decimal]]) -> Optional[Decimal]:
    """The sum; None where one of them is None."""
    if any(number is None for number in numbers):
        return None
    return total_of(number for number in numbers if number is not None)
