"""How far a plan's costs and capacities may change while it stays best, in whole numbers, from its residual network.

A plan is best while no circle of residual arcs costs less than 0. So an arc that can carry less may cost as much as the
shortest way from its tail to its head that goes without it; one that can carry more may cost as little as makes up for
the shortest way from its head back to its tail. One unit more of capacity on a full arc saves what is saved around the
circle of the arc and the shortest way back. In a maximum flow it adds a unit where the source reaches the arc and the
arc reaches the sink.
"""

from __future__ import annotations

from collections import deque
from typing import Callable, Deque, Dict, Iterable, Iterator, List, Optional, Set, Tuple

from .around import Search
from .detours import Around, Ball, Trees, Wanted, ball_around, distances_between
from .plan import Plan, rest_arcs
from .residual import Residual

MANY = 32
"""The ways around so many free arcs of a tree are looked for together."""

Step = Callable[[int, int], None]
"""Is told how much of how much is done; what it raises ends the work."""


def no_step(done: int, total: int) -> None:
    """Tells nobody."""


class Ends:
    """The ends of the ranges of some arcs of a plan of least cost, in the units of its residual network."""

    def __init__(self, residual: Residual, arcs: Iterable[int], *, with_costs: bool = True, step: Step = no_step):
        self.residual = residual
        self.trees = Trees(residual)
        self._wanted: Wanted = {}
        self._free: Dict[int, List[int]] = {}
        for arc in arcs:
            self._want(arc, with_costs)
        total = sum(map(len, (*self._wanted.values(), *self._free.values())))
        done = 0

        def count(more: int) -> None:
            nonlocal done
            done += more
            step(done, total)

        self._between = distances_between(self.trees, self._wanted, count)
        self._detours: Dict[Tuple[int, bool], Optional[int]] = {}
        around = Around(self.trees) if self._free else None
        for nodes in self._free.values():
            assert around is not None
            for is_out in (True, False):
                together = Search(around, nodes, is_out).run() if len(nodes) >= MANY else {}
                for node in nodes:
                    known = node in together
                    self._detours[node, is_out] = together[node] if known else around.detour(node, is_out)
            count(len(nodes))

    def _want(self, arc: int, with_costs: bool) -> None:
        """Notes which ways are wanted for an arc."""
        residual, tree = self.residual, self.trees.forest.tree
        begin, end = tree[residual.tails[arc]], tree[residual.heads[arc]]
        if begin == end:
            node = self._lower_end(arc)
            if node is not None and with_costs:
                self._free.setdefault(begin, []).append(node)
        elif residual.can_rise(arc):
            if with_costs:
                self._wanted.setdefault(end, {})[begin] = None
        else:
            if with_costs and residual.can_fall(arc):
                self._wanted.setdefault(begin, {})[end] = None
            if residual.reduced[arc] < 0:
                self._want_saving(begin, end, -residual.reduced[arc])

    def _want_saving(self, begin: int, end: int, most: int) -> None:
        """Notes that the way from `end` back to `begin` is wanted, where it is shorter than `most`."""
        row = self._wanted.setdefault(end, {})
        known = row.get(begin, 0)
        row[begin] = None if known is None else max(known, most)

    def _lower_end(self, arc: int) -> Optional[int]:
        """The end of a free arc that is below the other one in their tree; None where the tree has another arc for it."""
        for node in (self.residual.tails[arc], self.residual.heads[arc]):
            if self.trees.forest.above[node] == arc:
                return node
        return None

    def _way(self, arc: int, is_back: bool) -> Optional[int]:
        """The shortest way from the tail of an arc to its head without it, or back; None where there is none."""
        tree = self.trees.forest.tree
        begin, end = self.residual.tails[arc], self.residual.heads[arc]
        if is_back:
            begin, end = end, begin
        if tree[begin] != tree[end]:
            return self._between[tree[begin]][tree[end]]
        node = self._lower_end(arc)
        return 0 if node is None else self._detours[node, begin == node]

    def least_cost(self, arc: int) -> Optional[int]:
        """The least cost of an arc with which the plan stays best; None where there is no such end."""
        residual = self.residual
        back = self._way(arc, True) if residual.can_rise(arc) else None
        return None if back is None else residual.costs[arc] - residual.reduced[arc] - back

    def greatest_cost(self, arc: int) -> Optional[int]:
        """The greatest cost of an arc with which the plan stays best; None where there is no such end."""
        residual = self.residual
        there = self._way(arc, False) if residual.can_fall(arc) else None
        return None if there is None else residual.costs[arc] - residual.reduced[arc] + there

    def saving(self, arc: int) -> int:
        """What the first small unit more of capacity saves."""
        residual = self.residual
        if residual.can_rise(arc) or residual.reduced[arc] >= 0:
            return 0
        back = self._way(arc, True)
        return 0 if back is None else max(0, -residual.reduced[arc] - back)


def first_prices(plan: Plan, residual: Residual, to: int) -> Iterator[Tuple[Optional[int], Optional[int]]]:
    """For each node what the least step more of supply costs, and the least step less, where the node `to` takes it up:
    the rest, or a node of the tables. None where there would be no plan."""
    trees = Trees(residual)
    tree, count = trees.forest.tree, len(trees.leaving)
    there = _distances(ball_around(tree[to], trees.entering, count + 1))
    back = _distances(ball_around(tree[to], trees.leaving, count + 1))
    of_rest = {arc.name: arc for arc in rest_arcs(plan.problem, plan.rest_cost)}
    for number, (name, supply) in enumerate(plan.problem.nodes.items()):
        way = residual.prices[to] - residual.prices[number]
        out, home = there.get(tree[number]), back.get(tree[number])
        more, less = None if out is None else out + way, None if home is None else home - way
        if plan.problem.balance == "equal" and of_rest:
            is_kept = next(iter(of_rest.values())).is_kept
            cost = residual.costs[-1]
            if (supply >= 0) == is_kept or not supply:
                # Where there is more to keep, or more that is not met, there is as much more room for that.
                if is_kept:
                    more = cost if more is None else min(more, cost)
                else:
                    less = cost if less is None else min(less, cost)
            amount = (plan.kept if is_kept else plan.not_met).get(name)
            if amount is not None and amount == abs(supply):
                # All of it is kept or not met, and there is less room for that.
                more, less = (more, -cost) if is_kept else (-cost, less)
        yield more, less


def _distances(ball: Ball) -> Dict[int, int]:
    return dict(zip(ball.trees, ball.distances))


def adding_arcs(plan: Plan, residual: Residual) -> List[bool]:
    """For each arc of a maximum flow whether more capacity there lets more flow."""
    problem = plan.problem
    further: List[List[int]] = [[] for _ in range(residual.node_count)]
    before: List[List[int]] = [[] for _ in range(residual.node_count)]
    for arc in residual.arcs():
        further[arc.tail].append(arc.head)
        before[arc.head].append(arc.tail)
    behind = _reached(further, residual.numbers[problem.source or ""])
    ahead = _reached(before, residual.numbers[problem.sink or ""])
    return [
        not residual.can_rise(arc) and residual.tails[arc] in behind and residual.heads[arc] in ahead
        for arc in range(len(problem.arcs))
    ]


def _reached(nexts: List[List[int]], start: int) -> Set[int]:
    """The nodes that are reached from one."""
    reached = {start}
    waiting: Deque[int] = deque(reached)
    while waiting:
        for node in nexts[waiting.popleft()]:
            if node not in reached:
                reached.add(node)
                waiting.append(node)
    return reached
