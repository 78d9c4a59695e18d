"""Shortest ways over the residual network of a plan, from one end of an arc to the other, without the arc.

Distances are sums of reduced costs. Within a tree of free arcs they are 0, so a search goes from tree to tree:

- between two trees it starts at one of them, and meets a ball that was searched once, backwards, around the other;
- around a free arc, which joins two parts of its tree, it looks for the nearest way from the one part to the other. The
  residual arcs within the tree are taken in the order of their reduced cost: each covers the arcs of the tree between
  its ends that no arc has covered before. Ways through other trees are searched from both parts at once, and only where
  they could be shorter than that.

A search looks at the residual arcs of a tree in the order of their reduced cost, each when it is due, so a tree with
very many of them costs no more than another one.
"""

from __future__ import annotations

from array import array
from heapq import heappop, heappush, heapreplace
from typing import Callable, Dict, Iterable, List, NamedTuple, Optional, Sequence, Tuple, Union

from .residual import Forest, Residual, ResidualArc

Way = Tuple[int, int]
"""A residual arc between trees as a search sees it: its reduced cost, and the tree that it leads to."""

Heap = List[Tuple[int, ...]]
"""What is due in a search, the least key first: the next way of a row, as (key, row, at)."""

Places = Tuple[int, int]
"""The places of nodes in the order of a forest, from the first up to before the second."""

LEAST_BALL = 24
"""So many trees a ball has at first, where there are as many."""

NOWHERE = 1 << 200
"""Longer than any way: the length where there is none."""

MOST_AHEAD = 1000
"""A tree with more ways than this is a hub: its ways are not gone through each time that it is settled."""


class Ball(NamedTuple):
    """The trees that are nearest to one, or from which it is nearest, with their distances, in rising order.

    Each tree that is not in the ball is `radius` away or more; None where there is no other tree within reach.
    """

    trees: Sequence[int]
    distances: Sequence[int]
    radius: Optional[int]


class Crossing(NamedTuple):
    """A residual arc between two trees: its reduced cost and its ends."""

    reduced: int
    tail: int
    head: int


class Trees:
    """The trees of free arcs as the nodes of a network, with the residual arcs between them.

    `leaving[t]` are the ways out of tree t in the order of their reduced costs, the shortest one to each other tree, and
    `entering[t]` those into it. `crossings` holds all the arcs between two trees, from the shortest on, where one of
    the two has several nodes. `inner` are the residual arcs within trees that are not arcs of the trees.
    """

    def __init__(self, residual: Residual):
        self.forest = Forest(residual)
        tree = self.forest.tree
        count = len(self.forest.span)
        of_tree = set(self.forest.above)
        self.inner: List[ResidualArc] = []
        self.leaving: List[List[Way]] = [[] for _ in range(count)]
        self.entering: List[List[Way]] = [[] for _ in range(count)]
        self.leaving_to: List[Dict[int, int]] = [{} for _ in range(count)]
        self.entering_from: List[Dict[int, int]] = [{} for _ in range(count)]
        self.crossings: Dict[Tuple[int, int], List[Crossing]] = {}
        is_wide = [end - begin > 1 for begin, end in self.forest.span]
        outer: List[Tuple[int, int, int]] = []
        for tail, head, reduced, arc in residual.arcs():
            if tree[tail] != tree[head]:
                outer.append((reduced, tail, head))
            elif tail != head and arc not in of_tree:
                self.inner.append(ResidualArc(tail, head, reduced, arc))
        outer.sort()
        for reduced, tail, head in outer:
            begin, end = tree[tail], tree[head]
            if end not in self.leaving_to[begin]:
                self.leaving_to[begin][end] = self.entering_from[end][begin] = reduced
                self.leaving[begin].append((reduced, end))
                self.entering[end].append((reduced, begin))
            if is_wide[begin] or is_wide[end]:
                self.crossings.setdefault((begin, end), []).append(Crossing(reduced, tail, head))
        self.inner.sort(key=lambda arc: arc.reduced)


class Joined:
    """The network of trees, in which two are joined to one node where all ways out of the first lead to the second, and
    all ways into that come from the first: so the two ends of a chosen pair in an assignment.

    `node` is the node of each tree, and `offset` how far the tree is from where the node is entered. `leaving` and
    `entering` are the ways out of each node, and into it, in the order of their reduced costs.
    """

    def __init__(self, trees: Trees):
        count = len(trees.leaving)
        self.offset, self.node = [0] * count, [-1] * count
        self.is_second = [False] * count
        first_of: Dict[int, int] = {}
        for tree, ways in enumerate(trees.leaving):
            if len(ways) == 1 and len(trees.entering[ways[0][1]]) == 1 and not self.is_second[tree]:
                length, second = ways[0]
                if second not in first_of:
                    first_of[tree] = second
                    self.is_second[second], self.offset[second] = True, length
        number = 0
        for tree in range(count):
            if not self.is_second[tree]:
                self.node[tree] = number
                number += 1
        for first, second in first_of.items():
            self.node[second] = self.node[first]
        self.leaving: List[List[Way]] = [[] for _ in range(number)]
        self.entering: List[List[Way]] = [[] for _ in range(number)]
        for tree, ways in enumerate(trees.leaving):
            if tree not in first_of:
                begin, by = self.node[tree], self.offset[tree]
                self.leaving[begin] = [(reduced + by, self.node[other]) for reduced, other in ways]
                for reduced, other in self.leaving[begin]:
                    self.entering[other].append((reduced, begin))
        for row in self.entering:
            row.sort()

        self._lengths: Dict[int, Dict[int, int]] = {}

    def lengths(self, node: int) -> Dict[int, int]:
        """The lengths of the ways out of a node by where they lead, to be looked up."""
        found = self._lengths.get(node)
        if found is None:
            found = self._lengths[node] = {other: reduced for reduced, other in reversed(self.leaving[node])}
        return found

    def within(self, start: int, end: int) -> Optional[int]:
        """How far a tree is from another one that is joined to it, where that comes first; None otherwise."""
        is_joined = self.node[start] == self.node[end] and self.is_second[end] and not self.is_second[start]
        return self.offset[end] if is_joined else None


def strong_components(leaving: List[List[Way]]) -> List[int]:
    """The strong component of each tree: two trees are in the same one where a way leads from each to the other."""
    count = len(leaving)
    component, low, number = [-1] * count, [0] * count, [-1] * count
    stack: List[int] = []
    path: List[Tuple[int, int]] = []
    seen = found = 0
    for root in range(count):
        if number[root] >= 0:
            continue
        path.append((root, 0))
        while path:
            tree, at = path.pop()
            if at == 0:
                number[tree] = low[tree] = seen
                seen += 1
                stack.append(tree)
            ways = leaving[tree]
            while at < len(ways):
                other = ways[at][1]
                at += 1
                if number[other] < 0:
                    path += ((tree, at), (other, 0))
                    break
                if component[other] < 0 and number[other] < low[tree]:
                    low[tree] = number[other]
            else:
                if low[tree] == number[tree]:
                    while True:
                        other = stack.pop()
                        component[other] = found
                        if other == tree:
                            break
                    found += 1
                if path and low[tree] < low[path[-1][0]]:
                    low[path[-1][0]] = low[tree]
    return component


def settle_next(heap: Heap, ways: List[List[Way]], settled: Dict[int, int]) -> Optional[int]:
    """Takes the way that is due, and settles the tree that it leads to, at its key; the first way on from there is due
    then. None where that tree was settled. The next way of the same row that leads to another tree is due later."""
    key, number, at = heap[0]
    row = ways[number]
    reduced, tree = row[at]
    is_new = tree not in settled
    if is_new:
        settled[tree] = key
    at += 1
    while at < len(row) and row[at][1] in settled:
        at += 1
    if at < len(row):
        heapreplace(heap, (key - reduced + row[at][0], number, at))
    else:
        heappop(heap)
    if not is_new:
        return None
    onward = ways[tree]
    if onward:
        heappush(heap, (key + onward[0][0], tree, 0))
    return tree


def ball_around(start: int, ways: List[List[Way]], most: int) -> Ball:
    """The ball of so many trees from which, by `ways`, one is reached, or that it reaches."""
    settled = {start: 0}
    heap: Heap = [(ways[start][0][0], start, 0)] if ways[start] else []
    radius = None
    while heap:
        if len(settled) >= most:
            radius = heap[0][0]
            break
        settle_next(heap, ways, settled)
    return Ball(array("i", settled), array("q", settled.values()), radius)


class Meeting:
    """The search from one tree to several others. Each of these has a ball around it, which the search has to meet;
    where it grows large before it does, larger balls take their place.

    `best` are the shortest ways that were found to the trees `ends`; each is the shortest there is once `run` is done.
    `seen` are the trees that are settled, or one way ahead of these, with the shortest way to them that was found;
    trees that are more ways ahead of `hubs`, settled ones with very many ways, are looked up instead.
    """

    def __init__(self, ways: Joined, start: int, ends: List[int], most: List[Optional[int]]):
        self.ways, self.ends, self.best = ways, ends, most
        self.pending = list(range(len(ends)))
        self.settled: Dict[int, int] = {}
        self.seen: Dict[int, int] = {}
        self.hubs: List[Tuple[int, Dict[int, int]]] = []
        # The start is not settled itself: where it is an end too, the shortest circle is wanted.
        self.heap: Heap = [(ways.leaving[start][0][0], start, 0)] if ways.leaving[start] else []
        self._look_ahead(start, 0)

    def run(self, balls: Balls) -> List[Optional[int]]:
        """The distances; None where no way leads there."""
        size = LEAST_BALL
        limit: Optional[int] = None
        while self.pending:
            self._search(size, limit)
            limit = self._meet(balls, size)
            size *= 2
        return self.best

    def _look_ahead(self, tree: int, distance: int) -> None:
        """Looks at the ways from a tree at this distance."""
        row = self.ways.leaving[tree]
        if len(row) > MOST_AHEAD:
            self.hubs.append((distance, self.ways.lengths(tree)))
            return
        seen = self.seen
        for reduced, other in row:
            length = distance + reduced
            if length < seen.get(other, length + 1):
                seen[other] = length

    def _search(self, most: int, limit: Optional[int]) -> None:
        """Settles trees, up to so many in all, or up to this distance."""
        ways, settled, heap = self.ways.leaving, self.settled, self.heap
        while heap and len(settled) < most:
            key = heap[0][0]
            if limit is not None and key >= limit:
                break
            tree = settle_next(heap, ways, settled)
            if tree is not None:
                self._look_ahead(tree, key)

    def _meet(self, balls: Balls, size: int) -> Optional[int]:
        """Looks where the search meets the balls, and forgets the ends to which the shortest way is known then. Tells
        how far the search has to go for the others; None where no way to one of them is known yet."""
        key = self.heap[0][0] if self.heap else None
        limit = 0
        is_limited = True
        pending = []
        for end in self.pending:
            ball = balls.around(self.ends[end], size)
            known = self.best[end] = self._through(ball, self.best[end])
            # A ball without end has all from which a way leads there; a search without one, all that it leads to.
            if ball.radius is None or key is None:
                continue
            if known is None:
                is_limited = False
            elif known - ball.radius <= key:
                continue
            else:
                limit = max(limit, known - ball.radius)
            pending.append(end)
        self.pending = pending
        return limit if is_limited else None

    def _through(self, ball: Ball, known: Optional[int]) -> Optional[int]:
        """The shortest way into a ball and on to its middle, where it is shorter than the one that is known."""
        seen = self.seen
        for tree, rest in zip(ball.trees, ball.distances):
            if tree in seen:
                length = seen[tree] + rest
                if known is None or length < known:
                    known = length
        for distance, ways in self.hubs:
            for tree, rest in zip(ball.trees, ball.distances):
                if tree in ways:
                    length = distance + ways[tree] + rest
                    if known is None or length < known:
                        known = length
        return known


class Balls:
    """Balls around trees, each kept in the largest size that was asked for."""

    def __init__(self, ways: Joined):
        self.ways = ways
        self.kept: Dict[int, Ball] = {}

    def around(self, tree: int, size: int) -> Ball:
        """The ball around a tree of this size, or larger."""
        ball = self.kept.get(tree)
        if ball is None or len(ball.trees) < size and ball.radius is not None:
            ball = self.kept[tree] = ball_around(tree, self.ways.entering, size)
        return ball


Wanted = Dict[int, Dict[int, Optional[int]]]
"""From which trees to which others distances are wanted, and beyond which length they don't matter. None: they matter
all; this is said only where a way leads from the second tree to the first."""


def distances_between(trees: Trees, wanted: Wanted, step: Callable[[int], None]) -> Wanted:
    """The distances from tree to tree: None where there is no way; where it is longer than what matters, that.

    `step` is told how many pairs are done each time.
    """
    joined = Joined(trees)
    component = strong_components(joined.leaving)
    balls = Balls(joined)
    found: Wanted = {}
    for start, ends in wanted.items():
        found[start] = told = dict(ends)
        node = joined.node[start]
        near = []
        for end in ends:
            within = joined.within(start, end)
            if within is not None:
                told[end] = within
            elif ends[end] is not None or component[joined.node[end]] == component[node]:
                near.append(end)
        offsets = [joined.offset[end] - joined.offset[start] for end in near]
        most = [None if known is None else known - by for known, by in zip(map(ends.__getitem__, near), offsets)]
        lengths = Meeting(joined, node, [joined.node[end] for end in near], most).run(balls) if near else []
        for end, by, length in zip(near, offsets, lengths):
            told[end] = None if length is None else length + by
        step(len(ends))
    return found


# ---------------------------------------------------------------- around free arcs


class Least:
    """The least of a row of keys between any two places; None stands for no key."""

    def __init__(self, keys: List[Optional[int]]):
        self.count = max(1, len(keys))
        none = (max((key for key in keys if key is not None), default=0) + 1) * self.count
        self.none = none
        level = [none + place if key is None else key * self.count + place for place, key in enumerate(keys)]
        self.levels = [level]
        step = 1
        while 2 * step <= len(keys):
            level = [min(pair) for pair in zip(level, level[step:])]
            self.levels.append(level)
            step *= 2

    def between(self, begin: int, end: int) -> Optional[Tuple[int, int]]:
        """The least key and its place, from `begin` up to before `end`; None where there is no key."""
        if begin >= end:
            return None
        height = (end - begin).bit_length() - 1
        level = self.levels[height]
        found = min(level[begin], level[end - (1 << height)])
        return None if found >= self.none else divmod(found, self.count)


class Wave:
    """A search from a part of a tree, or towards it, through other trees. The part is what is below a free arc, whose
    lower end is `node`, or what is beside that.

    `settled` are the trees that are settled, in the order of their distance, and the own one, which is never entered.
    The rows of ways are those between trees, and behind them those of each node between its tree and others; `least`
    has the first of each node by the nodes' places.
    """

    __slots__ = ("around", "own", "low", "high", "is_forward", "is_below", "rows", "least", "onward", "settled", "heap")

    def __init__(self, around: Around, node: int, is_forward: bool, is_below: bool):
        forest = around.trees.forest
        self.around, self.is_forward, self.is_below = around, is_forward, is_below
        self.own, self.low, self.high = forest.tree[node], forest.first[node], forest.last[node]
        self.rows = around.rows_leaving if is_forward else around.rows_entering
        self.least = around.least_leaving if is_forward else around.least_entering
        self.onward = around.trees.leaving_to if is_forward else around.trees.entering_from
        self.settled: Dict[int, int] = {self.own: NOWHERE}
        # With -1 for the row: the first way of a node, at one of some places, as (key, -1, place, begin, end).
        self.heap: Heap = []
        begin, end = forest.span[self.own]
        for places in [(self.low, self.high)] if is_below else [(begin, self.low), (self.high, end)]:
            self._add_places(*places)

    def _add_places(self, begin: int, end: int) -> None:
        found = self.least.between(begin, end)
        if found is not None:
            heappush(self.heap, (found[0], -1, found[1], begin, end))

    def top(self) -> int:
        """No further tree is nearer than this."""
        return self.heap[0][0] if self.heap else NOWHERE

    def grow(self) -> Optional[int]:
        """Takes the next way; the tree that it settles, or None where it leads to one that is settled."""
        while self.heap[0][1] < 0:
            self._open_places()
        return settle_next(self.heap, self.rows, self.settled)

    def _open_places(self) -> None:
        """Puts the row of the node whose first way is due in place of the places among which it is."""
        key, _, place, begin, end = heappop(self.heap)
        self._add_places(begin, place)
        self._add_places(place + 1, end)
        trees = self.around.trees
        heappush(self.heap, (key, len(trees.leaving) + trees.forest.order[place], 0))

    def rest(self, tree: int, others: Dict[int, int]) -> int:
        """The shortest way from a settled tree on to what the search from the other part has settled, or to that part
        itself."""
        found = others.get(tree, NOWHERE)
        ways = self.onward[tree]
        if ways.keys().isdisjoint(others.keys()):
            return found
        for other in ways.keys() & others.keys():
            found = min(found, ways[other] + others[other])
        if self.own in ways:
            trees, first = self.around.trees, self.around.trees.forest.first
            for arc in trees.crossings[(tree, self.own) if self.is_forward else (self.own, tree)]:
                if arc.reduced >= found:
                    break
                is_below = self.low <= first[arc.head if self.is_forward else arc.tail] < self.high
                if is_below != self.is_below:
                    return arc.reduced
        return found


class Around:
    """The ways around the free arcs of the trees: from the part of a tree below such an arc to the rest of it, and back.

    `out_of[node]` and `into[node]` are the shortest ways that are a single residual arc within the tree, by the node at
    the lower end of the free arc; None where there is none.
    """

    def __init__(self, trees: Trees):
        self.trees = trees
        forest = trees.forest
        count = len(forest.order)
        self.out_of: List[Optional[int]] = [None] * count
        self.into: List[Optional[int]] = [None] * count
        self._cover()
        self.leaving: List[List[Way]] = [[] for _ in range(count)]
        self.entering: List[List[Way]] = [[] for _ in range(count)]
        for (begin, end), row in trees.crossings.items():
            for reduced, tail, head in row:
                self.leaving[tail].append((reduced, end))
                self.entering[head].append((reduced, begin))
        for rows in (self.leaving, self.entering):
            for ways in rows:
                ways.sort()
        self.least_leaving = self._least(self.leaving)
        self.least_entering = self._least(self.entering)
        self.rows_leaving = trees.leaving + self.leaving
        self.rows_entering = trees.entering + self.entering

    def _least(self, rows: List[List[Way]]) -> Least:
        return Least([rows[node][0][0] if rows[node] else None for node in self.trees.forest.order])

    def _cover(self) -> None:
        """Lets each residual arc within a tree cover the free arcs between its ends, the shortest ones first."""
        forest = self.trees.forest
        parent, first, last = forest.parent, forest.first, forest.last
        next_out, next_in = list(range(len(parent))), list(range(len(parent)))
        for tail, head, reduced, _ in self.trees.inner:
            for node, other, nexts, covered in ((tail, head, next_out, self.out_of), (head, tail, next_in, self.into)):
                place = first[other]
                node = uncovered(nexts, node)
                while not first[node] <= place < last[node]:
                    covered[node] = reduced
                    nexts[node] = parent[node]
                    node = uncovered(nexts, node)

    def detour(self, node: int, is_out: bool) -> Optional[int]:
        """The shortest way from the part of a tree below a free arc, whose lower end is `node`, to the rest (or back),
        without that arc; None where there is none."""
        known = self.out_of[node] if is_out else self.into[node]
        best = NOWHERE if known is None else known
        forward, backward = Wave(self, node, True, is_out), Wave(self, node, False, not is_out)
        while forward.top() + backward.top() < best:
            is_forward = len(forward.settled) <= len(backward.settled)
            wave, other = (forward, backward) if is_forward else (backward, forward)
            tree = wave.grow()
            if tree is not None:
                best = min(best, wave.settled[tree] + wave.rest(tree, other.settled))
        return None if best >= NOWHERE else best


def uncovered(nexts: Union[List[int], Dict[int, int]], node: int) -> int:
    """The nearest node from `node` upwards whose arc to its parent is not covered; shortens the way there."""
    while nexts[node] != node:
        nexts[node] = nexts[nexts[node]]
        node = nexts[node]
    return node
