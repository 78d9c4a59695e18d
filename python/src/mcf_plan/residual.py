"""The residual network of a plan in whole numbers, and the trees of its free arcs.

A residual arc says where a unit more, or a unit less, of an arc's flow would go, and what it costs at the plan's prices:
its reduced cost, which is never below 0, since the plan is best. An arc that carries more than its lower bound and less
than its capacity is free: its flow can change both ways, at a reduced cost of 0. Free arcs join nodes to trees, within
which a unit gets from any node to any other at no reduced cost.
"""

from __future__ import annotations

from copy import copy
from decimal import Decimal
from typing import Iterator, List, NamedTuple, Optional, Tuple

from .plan import Disagreement, Plan, rest_arcs
from .problem import ZERO
from .units import Scale


class ResidualArc(NamedTuple):
    """A residual arc: from where to where, its reduced cost, and the number of the arc whose flow it changes."""

    tail: int
    head: int
    reduced: int
    arc: int


class Residual:
    """The residual network of a plan.

    Nodes are numbered from 0 in the order of the problem; where supplies may be kept or not met, the last node is the
    rest. Arcs are numbered as in the problem; behind them come those to and from the rest. `room` is how much more an
    arc can carry, None without limit, and `spare` how much less, in small units, of which `amounts` are one of the
    tables. `costs`, `prices` of the nodes and `reduced` costs are whole numbers too; `price` leads back.

    Raises Disagreement where the plan's prices do not show that it is best.
    """

    def __init__(self, plan: Plan):
        problem = plan.problem
        if plan.prices is None:
            raise Disagreement("the plan has no prices, so nothing shows that it is best")
        self.numbers = {name: number for number, name in enumerate(problem.nodes)}
        arcs = [(arc.tail, arc.head, arc.low, arc.cap, arc.cost) for arc in problem.arcs]
        flows = list(plan.flows)
        prices = [*plan.prices.values(), plan.rest_price]
        self.tails = [self.numbers[arc[0]] for arc in arcs]
        self.heads = [self.numbers[arc[1]] for arc in arcs]
        self.rest = len(self.numbers)
        for row in rest_arcs(problem, plan.rest_cost):
            ends = (self.numbers[row.name], self.rest)
            self.tails.append(ends[0 if row.is_kept else 1])
            self.heads.append(ends[1 if row.is_kept else 0])
            arcs.append(("", "", ZERO, row.cap, plan.rest_cost or ZERO))
            flows.append((plan.kept if row.is_kept else plan.not_met).get(row.name, ZERO))
        self.has_rest = len(arcs) > len(problem.arcs)
        self.node_count = self.rest + self.has_rest
        scale = Scale.of(flows, (arc[2] for arc in arcs), (arc[3] for arc in arcs), problem.nodes.values())
        self._money = Scale.of((arc[4] for arc in arcs), prices)
        self.amounts = scale.units
        amounts = scale.wholes(flows)
        lows, caps = scale.wholes(arc[2] for arc in arcs), scale.wholes_or_none(arc[3] for arc in arcs)
        self.room = [None if cap is None else cap - flow for cap, flow in zip(caps, amounts)]
        self.spare = [flow - low for flow, low in zip(amounts, lows)]
        self.costs, price = self._money.wholes(arc[4] for arc in arcs), self._money.wholes(prices)
        self.prices = price
        self.reduced = [
            cost + price[tail] - price[head] for cost, tail, head in zip(self.costs, self.tails, self.heads)
        ]
        if problem.kind != "max":
            self._check()

    def _check(self) -> None:
        for reduced, room, spare in zip(self.reduced, self.room, self.spare):
            if reduced < 0 and room != 0 or reduced > 0 and spare:
                raise Disagreement("the plan's prices do not show that it is best")

    def of_whole_units(self) -> Residual:
        """The part of the network along which a whole unit of the tables can go at once."""
        least = int(self.amounts)
        part = copy(self)
        part.room = [room if room is None or room >= least else 0 for room in self.room]
        part.spare = [spare if spare >= least else 0 for spare in self.spare]
        return part

    def can_rise(self, arc: int) -> bool:
        """Whether an arc can carry more."""
        return self.room[arc] != 0

    def can_fall(self, arc: int) -> bool:
        """Whether an arc can carry less."""
        return self.spare[arc] != 0

    def arcs(self) -> Iterator[ResidualArc]:
        """All residual arcs."""
        for arc, (tail, head, reduced) in enumerate(zip(self.tails, self.heads, self.reduced)):
            if self.room[arc] != 0:
                yield ResidualArc(tail, head, reduced, arc)
            if self.spare[arc] != 0:
                yield ResidualArc(head, tail, -reduced, arc)

    def price(self, amount: int) -> Decimal:
        """A cost in the units of the tables."""
        return self._money.decimal(amount)

    def price_or_none(self, amount: Optional[int]) -> Optional[Decimal]:
        """The same; None stays None."""
        return None if amount is None else self._money.decimal(amount)


class Forest:
    """Spanning trees of the free arcs; a node without one is a tree of its own. Below an arc is at most half of a tree.

    `tree` is the number of each node's tree. `order` are the nodes, tree by tree, each before those below it; those
    below a node, and itself, are at the places `first[node]` up to `last[node]`. `parent` is the node above, `above` the
    arc to it; both are -1 at a root. `span` are the places of each tree.
    """

    def __init__(self, residual: Residual):
        count = residual.node_count
        beside: List[List[Tuple[int, int]]] = [[] for _ in range(count)]
        for arc, (tail, head) in enumerate(zip(residual.tails, residual.heads)):
            if residual.room[arc] != 0 and residual.spare[arc] != 0 and tail != head:
                beside[tail].append((head, arc))
                beside[head].append((tail, arc))
        self.tree = [-1] * count
        self.order: List[int] = []
        self.first, self.last = [0] * count, [0] * count
        self.parent, self.above = [-1] * count, [-1] * count
        self.span: List[Tuple[int, int]] = []
        for root in range(count):
            if self.tree[root] < 0:
                self._grow(root, beside)

    def _grow(self, root: int, beside: List[List[Tuple[int, int]]]) -> None:
        """Adds the tree of a node, with its middle for a root."""
        begin = len(self.order)
        self._add(root, beside)
        nodes = self.order[begin:]
        middle = next(node for node in reversed(nodes) if 2 * (self.last[node] - self.first[node]) > len(nodes))
        if middle != root:
            del self.order[begin:], self.span[-1]
            for node in nodes:
                self.tree[node], self.last[node] = -1, 0
            self._add(middle, beside)

    def _add(self, root: int, beside: List[List[Tuple[int, int]]]) -> None:
        """Adds the tree of a root."""
        number, begin = len(self.span), len(self.order)
        tree, parent, order = self.tree, self.parent, self.order
        waiting = [(root, -1, -1)]
        while waiting:
            node, before, arc = waiting.pop()
            if tree[node] >= 0:
                continue
            tree[node], parent[node], self.above[node] = number, before, arc
            self.first[node] = len(order)
            order.append(node)
            waiting += [(other, node, by) for other, by in beside[node] if tree[other] < 0]
        self.span.append((begin, len(order)))
        sizes = self.last
        for place in range(len(order) - 1, begin - 1, -1):
            node = order[place]
            sizes[node] += 1
            if parent[node] >= 0:
                sizes[parent[node]] += sizes[node]
        for node in order[begin:]:
            sizes[node] += self.first[node]
