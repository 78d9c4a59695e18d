"""A network problem that is built arc by arc, and its lines in the DIMACS format of its kind."""

from __future__ import annotations

from dataclasses import dataclass, field
from typing import Iterable, Iterator, List, NamedTuple, Sequence


class Arc(NamedTuple):
    tail: int
    head: int
    low: int
    cap: int
    cost: int


@dataclass
class Problem:
    """A problem of one of the kinds `min`, `max` and `asn`; its nodes are numbered from 1."""

    kind: str
    nodes: int
    # Of `max` alone.
    source: int = 0
    sink: int = 0
    arcs: List[Arc] = field(default_factory=list)
    # The supply of each node, 0 at place 0. In an assignment it is 1 on the left side and -1 on the right one.
    supplies: List[int] = field(default_factory=list)

    def __post_init__(self) -> None:
        self.supplies = [0] * (self.nodes + 1)

    def add(self, tail: int, head: int, cap: int, cost: int = 0, low: int = 0) -> None:
        self.arcs.append(Arc(tail, head, low, cap, cost))

    def ship(self, origin: int, target: int, amount: int) -> None:
        """Has `amount` more leave `origin` and reach `target`."""
        self.supplies[origin] += amount
        self.supplies[target] -= amount

    def lines(self) -> Iterator[str]:
        yield f"p {self.kind} {self.nodes} {len(self.arcs)}"
        if self.kind == "max":
            yield f"n {self.source} s"
            yield f"n {self.sink} t"
            for arc in self.arcs:
                yield f"a {arc.tail} {arc.head} {arc.cap}"
        elif self.kind == "asn":
            for node in range(1, self.nodes + 1):
                if self.supplies[node] > 0:
                    yield f"n {node}"
            for arc in self.arcs:
                yield f"a {arc.tail} {arc.head} {arc.cost}"
        else:
            for node in range(1, self.nodes + 1):
                if self.supplies[node] != 0:
                    yield f"n {node} {self.supplies[node]}"
            for arc in self.arcs:
                yield f"a {arc.tail} {arc.head} {arc.low} {arc.cap} {arc.cost}"

    def text(self) -> str:
        return "\n".join(self.lines()) + "\n"

    def arc_of(self, numbers: Sequence[int]) -> Arc:
        """The arc that an arc line of this kind of problem tells with these numbers."""
        tail, head, *rest = numbers
        if self.kind == "max":
            return Arc(tail, head, 0, rest[0], 0)
        return Arc(tail, head, 0, 1, rest[0]) if self.kind == "asn" else Arc(tail, head, *rest)

    def copy(self) -> "Problem":
        told = Problem(self.kind, self.nodes, self.source, self.sink)
        told.arcs, told.supplies = list(self.arcs), list(self.supplies)
        return told

    def as_min(self) -> "Problem":
        """An assignment told as a minimum-cost flow; a problem of another kind as it is."""
        if self.kind != "asn":
            return self
        told = Problem("min", self.nodes)
        told.arcs, told.supplies = self.arcs, self.supplies
        return told

    def with_return_arc(self) -> "Problem":
        """A maximum flow told as a minimum-cost flow: an arc of cost -1 leads from the sink back to the source."""
        told = Problem("min", self.nodes)
        most = sum(arc.cap for arc in self.arcs if arc.tail == self.source)
        told.arcs = [*self.arcs, Arc(self.sink, self.source, 0, most, -1)]
        return told


def read_problem(text: Iterable[str]) -> Problem:
    """Reads the lines of a text that one of these scripts wrote."""
    lines = iter(text)
    _, kind, nodes, _ = next(lines).split()
    problem = Problem(kind, int(nodes))
    if kind == "asn":
        problem.supplies = [0] + [-1] * problem.nodes
    for line in lines:
        letter, *fields = line.split()
        if letter == "a":
            problem.arcs.append(problem.arc_of([int(word) for word in fields]))
        elif kind == "max" and fields[1] == "s":
            problem.source = int(fields[0])
        elif kind == "max":
            problem.sink = int(fields[0])
        else:
            problem.supplies[int(fields[0])] = 1 if kind == "asn" else int(fields[1])
    return problem
