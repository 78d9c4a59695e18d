"""Shortest ways around many free arcs of a tree, found together.

A way that leaves a tree at one node and comes back to it at another goes around each free arc between the two. Such
ways are found from the shortest on, and the first one around an arc is the one that is looked for; then nothing more is
asked about this arc.

The search starts at all nodes of the tree. It takes up other trees in the order of how far they are from there and back
again together, so that a way home is at hand where one ends. Where a tree is come to from a second node, the search
goes on from there only if it may go around an arc that the first one is not below.
"""

from __future__ import annotations

from heapq import heapify, heappop, heappush, heapreplace
from typing import Callable, Dict, List, Optional, Sequence, Tuple

from .detours import Around, Crossing, Heap, Way, settle_next, uncovered

AT_ONCE = 16
"""So many ways of a row are looked at together; those behind them when the first of them is due."""

MOST_STATES = 100
"""A search ends where it took up so many trees for each of its arcs: these are better asked for one by one then."""

ARRIVES, GOES_ON, COMES_HOME = range(3)
"""What is due: a way into a tree, further ways out of one, or further ways home from it."""

Due = Tuple[int, int, int, int, int, int]
"""A key, what is due, how far the search has come, in which tree (-1: its own), from which node, and at which way."""


class Home:
    """How far it is home to one tree from others, found from the nearest on. `known` are the distances, and `ends` the
    nodes at which the ways end; `direct` says where the shortest arc home from a tree ends."""

    def __init__(self, own: int, ways: List[List[Way]], direct: Callable[[int], int]):
        self.known, self.ends = {own: 0}, {own: -1}
        self._own, self._ways, self._direct = own, ways, direct
        self._heap: Heap = [(ways[own][0][0], own, 0)] if ways[own] else []

    def radius(self) -> Optional[int]:
        """The trees that are not known are so far away, or more; None where no way leads home from them."""
        return self._heap[0][0] if self._heap else None

    def grow(self, most: int, wanted: int) -> None:
        """Finds more trees, until there are so many, or the wanted one is known."""
        heap, known, ways = self._heap, self.known, self._ways
        while heap and len(known) < most and wanted not in known:
            tree = heap[0][1]
            other = settle_next(heap, ways, known)
            if other is not None:
                self.ends[other] = self._direct(other) if tree == self._own else self.ends[tree]


class Search:
    """The search around free arcs of one tree, each given by the node below it: from there to the rest of the tree, or
    back.

    `found` are the lengths by these nodes: None where there is no way. What is missing in it is not decided.
    """

    def __init__(self, around: Around, nodes: Sequence[int], is_out: bool):
        trees, forest = around.trees, around.trees.forest
        self.own = own = forest.tree[nodes[0]]
        self.is_out, self._crossings = is_out, trees.crossings
        self.first, self.last, self.parent = forest.first, forest.last, forest.parent
        self.rows = around.leaving if is_out else around.entering
        self.ways = trees.leaving if is_out else trees.entering
        self.home = Home(own, trees.entering if is_out else trees.leaving, lambda tree: self._end(self._row(tree)[0]))
        within = around.out_of if is_out else around.into
        self.within = sorted(((within[node], node) for node in nodes), key=lambda pair: (pair[0] is None, pair[0] or 0))
        self.found: Dict[int, Optional[int]] = {}
        begin, end = forest.span[own]
        # Leads from a node up to the next one below an arc that is still to be gone around, or to the root.
        self.nexts = {node: node if self.parent[node] < 0 else self.parent[node] for node in forest.order[begin:end]}
        self.nexts.update((node, node) for node in nodes)
        self.left = len(nodes)
        self.heap: List[Due] = [
            (self.rows[node][0][0], GOES_ON, 0, -1, node, 0) for node in forest.order[begin:end] if self.rows[node]
        ]
        heapify(self.heap)
        self.arrived: Dict[int, List[int]] = {}
        self.seen: Dict[int, Tuple[int, int]] = {}
        self.states = 0

    def run(self) -> Dict[int, Optional[int]]:
        """Looks for the ways, and tells their lengths."""
        most = MOST_STATES * self.left
        done = 0
        while self.left and self.heap and self.states < most:
            key, what, length, tree, node, at = due = self.heap[0]
            while done < len(self.within) and self._is_within(done, key):
                done += 1
            top = uncovered(self.nexts, node)
            if self.parent[top] < 0:
                heappop(self.heap)
            elif what == ARRIVES:
                self._arrive(due, top)
            elif what == GOES_ON:
                heappop(self.heap)
                self._go_on(due, self.ways[tree] if tree >= 0 else self.rows[node], top)
            else:
                heappop(self.heap)
                self._come_home(due, self._close(top, self._end(self._row(tree)[at]), key))
        if not self.heap:
            for known, node in self.within[done:]:
                self.found.setdefault(node, known)
        return self.found

    def _is_within(self, place: int, key: int) -> bool:
        """Whether a way within the tree is the shortest one around an arc, since all others are at least this long."""
        length, node = self.within[place]
        if length is None or length > key:
            return False
        if node not in self.found:
            self._found(node, length)
        return True

    def _found(self, node: int, length: int) -> None:
        self.found[node] = length
        self.nexts[node] = self.parent[node]
        self.left -= 1

    def _close(self, top: int, end: int, length: int) -> int:
        """Notes a way that ends at this node; the next node upwards whose arc is to be gone around."""
        place = self.first[end]
        while not self.first[top] <= place < self.last[top]:
            self._found(top, length)
            top = uncovered(self.nexts, top)
        return top

    def _row(self, tree: int) -> List[Crossing]:
        """The arcs between a tree and the own one in the direction home, the shortest first."""
        return self._crossings.get((tree, self.own) if self.is_out else (self.own, tree), [])

    def _end(self, arc: Crossing) -> int:
        """The node of the own tree at which an arc home ends."""
        return arc.head if self.is_out else arc.tail

    def _arrive(self, due: Due, top: int) -> None:
        """Takes up a tree, where it is its turn, and this is of use for what is above `top`."""
        key, what, length, tree, node, at = due
        near = self._distance_home(tree)
        if near is None or self._is_known(tree, top):
            heappop(self.heap)
            return
        if length + near > key:
            heapreplace(self.heap, (length + near, what, length, tree, node, at))
            return
        heappop(self.heap)
        self.arrived.setdefault(tree, []).append(node)
        self.states += 1
        if tree in self.home.known:
            top = self._close(top, self.home.ends[tree], key)
            if self.parent[top] < 0:
                return
        self._go_on((key, GOES_ON, length, tree, node, 0), self.ways[tree], top)
        self._come_home((key, COMES_HOME, length, tree, node, -1), top)

    def _distance_home(self, tree: int) -> Optional[int]:
        """How far it is home from a tree at least; None where no way leads there."""
        home = self.home
        if tree not in home.known and len(home.known) <= 2 * self.states + 8:
            home.grow(4 * self.states + 16, tree)
        return home.known[tree] if tree in home.known else home.radius()

    def _is_known(self, tree: int, top: int) -> bool:
        """Whether the tree was taken up from a node below `top` before."""
        low, high = self.first[top], self.last[top]
        return any(low <= self.first[before] < high for before in self.arrived.get(tree, ()))

    def _go_on(self, due: Due, row: List[Way], top: int) -> None:
        """Looks at the next ways of a row."""
        key, _, length, tree, node, at = due
        low, high, first = self.first[top], self.last[top], self.first
        known, radius, seen, own = self.home.known, self.home.radius(), self.seen, self.own
        behind = at + AT_ONCE
        for reduced, other in row[at:behind]:
            before = seen.get(other)
            come = length + reduced
            if other == own or before is not None and before[0] <= come and low <= first[before[1]] < high:
                continue
            near = known.get(other, radius)
            if near is not None:
                seen[other] = (come, node)
                heappush(self.heap, (come + near, ARRIVES, come, other, node, 0))
        if behind < len(row):
            heappush(self.heap, (max(key, length + row[behind][0]), GOES_ON, length, tree, node, behind))

    def _come_home(self, due: Due, top: int) -> None:
        """Puts off the next arc home that is of use."""
        _, what, length, tree, node, at = due
        if self.parent[top] < 0:
            return
        low, high, row = self.first[top], self.last[top], self._row(tree)
        for place in range(at + 1, len(row)):
            if not low <= self.first[self._end(row[place])] < high:
                heappush(self.heap, (length + row[place].reduced, what, length, tree, node, place))
                return
