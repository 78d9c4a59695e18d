"""How much an arc without limit has to be able to carry, and whether there is a best plan at all.

A best flow is made of paths from supplies to demands and of circles. Circles that cost nothing less are left away.
Where no circle of large arcs costs less than 0, each other circle has an arc that is not large, and costs less than 0 by
some arc; so the supplies, and the capacities of such arcs, bound the flow on each large arc. It gets room for one unit
more, so that a best flow never has to fill it, and no price leans on its end.
"""

from __future__ import annotations

from collections import deque
from dataclasses import dataclass
from typing import Dict, List, Optional, Tuple

from .errors import Unbounded
from .figures import Figures
from .formats import MOST_FLOW
from .problem import plain, total_of


@dataclass(frozen=True)
class Room:
    """What an arc without limit has to be able to carry.

    `needed` is more than any best flow has on such an arc, and `pieces` are the lines that can carry it. `clips` says
    that arcs with a capacity above the formats' limit count as without limit; `has_large` that there are arcs of either
    sort; `has_gains` that one of them may make a plan better.
    """

    needed: int
    pieces: int
    clips: bool
    has_large: bool
    has_gains: bool

    @property
    def whole(self) -> int:
        """What the lines of an arc without limit can carry together."""
        return self.pieces * MOST_FLOW if self.has_large else 0


def find_room(figures: Figures, kind: str) -> Room:
    """The room that arcs need in a text of this kind. Raises Unbounded where there is no best plan."""
    if figures.options.without_plan:
        figures = figures.without_costs()
    problem, costs = figures.problem, figures.costs
    large: List[int] = []
    larger: List[int] = []
    for k, (low, cap) in enumerate(zip(figures.lows, figures.caps)):
        if cap is None:
            large.append(k)
        elif cap - low > MOST_FLOW:
            larger.append(k)
    has_gains = problem.kind == "max" or any(costs[k] < 0 for k in large + larger)
    if not (large or larger or problem.balance != "equal" or problem.kind == "max"):
        return Room(0, 1, False, False, has_gains)
    if kind == "max":
        needed, clips = _needed_of_max(figures, large, larger)
    else:
        needed, clips = _needed_of_min(figures, large, larger)
    return Room(needed, max(1, -(-needed // MOST_FLOW)), clips, True, has_gains)


def room_of_the_next(figures: Figures) -> int:
    """What an arc without limit would need where there is none, if it did not cost less than 0."""
    needed = _needed_beside(figures, [])
    assert needed is not None
    return needed


def _needed_of_min(figures: Figures, large: List[int], larger: List[int]) -> Tuple[int, bool]:
    """What large arcs need, and whether those of large capacities are among them. Raises Unbounded."""
    needed = _needed_beside(figures, large + larger)
    if needed is not None:
        return needed, True
    needed = _needed_beside(figures, large)
    if needed is None:
        raise _unbounded(figures, _gainful_circle(figures, large))
    return needed, False


def _needed_beside(figures: Figures, large: List[int]) -> Optional[int]:
    """The room that the large arcs need; None where a circle of them costs less than 0."""
    costs, lows, caps = figures.costs, figures.lows, figures.caps
    gainful = figures.problem.kind == "max" or any(costs[k] < 0 for k in large)
    if gainful and _gainful_circle(figures, large):
        return None
    needed = sum(supply for supply in _shifted_supplies(figures) if supply > 0) + 1
    is_among = set(large)
    for k, cost in enumerate(costs):
        if (gainful or cost < 0) and k not in is_among:
            cap = caps[k]
            assert cap is not None
            needed += cap - lows[k]
    return needed


def _shifted_supplies(figures: Figures) -> List[int]:
    """The supplies by the nodes' numbers once each lower bound has been sent."""
    supplies, numbers, arcs = list(figures.supplies), figures.numbers, figures.problem.arcs
    for k, low in enumerate(figures.lows):
        if low:
            supplies[numbers[arcs[k].tail]] -= low
            supplies[numbers[arcs[k].head]] += low
    if figures.problem.balance != "equal" or figures.options.rest_cost() is not None:
        supplies.append(-figures.total)
    return supplies


def _gainful_circle(figures: Figures, large: List[int]) -> List[int]:
    """The arcs of a circle of large arcs that costs less than 0; none where there is none. In `max` the last one is
    the return arc, whose number is that of the arcs."""
    problem, numbers, arcs = figures.problem, figures.numbers, figures.problem.arcs
    rows = [(numbers[arcs[k].tail], numbers[arcs[k].head], figures.costs[k], k) for k in large]
    if problem.kind == "max":
        back = 0 if figures.options.without_costs else -1
        rows.append((numbers[problem.sink or ""], numbers[problem.source or ""], back, len(arcs)))
    if problem.balance != "equal":
        rest = len(figures.names) + 1
        into = problem.balance == "at most"
        rows += [(node, rest, 0, len(arcs) + 1) if into else (rest, node, 0, len(arcs) + 1) for node in range(1, rest)]
    return gainful_circle(len(figures.names) + 1, rows)


def _needed_of_max(figures: Figures, large: List[int], larger: List[int]) -> Tuple[int, bool]:
    """What large arcs of a maximum flow need, and whether those of large capacities are among them."""
    problem = figures.problem
    path = _path_of(figures, large)
    if path:
        raise _unbounded(figures, path)
    clips = not _path_of(figures, large + larger)
    is_among = set(large + larger) if clips else set(large)
    most = [sum(cap for k, cap in enumerate(figures.caps) if cap is not None and k not in is_among)]
    for side, end in enumerate((problem.source, problem.sink)):
        touching = [cap for arc, cap in zip(problem.arcs, figures.caps) if arc[side] == end]
        if None not in touching:
            most.append(sum(cap for cap in touching if cap is not None))
    return min(most) + 1, clips


def _path_of(figures: Figures, chosen: List[int]) -> List[int]:
    """A path of these arcs from source to sink; none where there is none."""
    arcs, source, sink = figures.problem.arcs, figures.problem.source, figures.problem.sink
    leaving: Dict[str, List[int]] = {}
    for k in chosen:
        leaving.setdefault(arcs[k].tail, []).append(k)
    reached = {source: -1}
    line = deque([source])
    while line:
        for k in leaving.get(line.popleft() or "", ()):
            head = arcs[k].head
            if head not in reached:
                reached[head] = k
                line.append(head)
    path: List[int] = []
    at = sink
    while at in reached and reached[at] >= 0:
        path.append(reached[at])
        at = arcs[reached[at]].tail
    return path[::-1]


def _unbounded(figures: Figures, circle: List[int]) -> Unbounded:
    arcs = figures.problem.arcs
    own = [k for k in circle if k < len(arcs)]
    path = ", ".join(arcs[k].label for k in own)
    if figures.problem.kind == "max":
        return Unbounded(f"there is no maximum flow: no arc of the path {path} has a capacity", own)
    saved = -total_of(arcs[k].cost for k in own)
    return Unbounded(
        f"there is no cheapest plan: around the circle {path} no arc has a capacity, and each unit more "
        f"saves {plain(saved)}",
        own,
    )


def gainful_circle(nodes: int, arcs: List[Tuple[int, int, int, int]]) -> List[int]:
    """The keys of the arcs (tail, head, cost, key) of a circle that costs less than 0, in order; none where there is
    none.

    Nodes are 0 to `nodes`. Labels are lowered in rounds; the arcs that lowered them last are searched for a circle.
    """
    labels = [0] * (nodes + 1)
    by = [-1] * (nodes + 1)
    for _ in range(nodes + 1):
        changed = False
        for number, (tail, head, cost, _key) in enumerate(arcs):
            if labels[tail] + cost < labels[head]:
                labels[head] = labels[tail] + cost
                by[head] = number
                changed = True
        if not changed:
            return []
        circle = _circle_of(by, arcs)
        if circle:
            return circle
    return []


def _circle_of(by: List[int], arcs: List[Tuple[int, int, int, int]]) -> List[int]:
    """The keys of a circle of the arcs by which labels were lowered last."""
    seen = [0] * len(by)
    for start in range(len(by)):
        node = start
        while not seen[node] and by[node] >= 0:
            seen[node] = start + 1
            node = arcs[by[node]][0]
        if by[node] >= 0 and seen[node] == start + 1:
            circle = []
            at = node
            while True:
                circle.append(arcs[by[at]][3])
                at = arcs[by[at]][0]
                if at == node:
                    return circle[::-1]
    return []
