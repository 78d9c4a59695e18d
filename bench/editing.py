"""Edits of a session: their commands, what they make of a problem, and edits that are drawn at random."""

from __future__ import annotations

import random
from dataclasses import dataclass
from typing import Dict, List, NamedTuple, Sequence, Set, Tuple

from problems import Problem

# The edits of each kind of problem, in turn.
TURNS: Dict[str, Tuple[str, ...]] = {"min": ("cap", "cost", "supply"), "max": ("cap",), "asn": ("cost",)}
GREATEST_CAP = 1_000_000_000
# By how much at most a supply is raised, and another lowered.
MOST_MOVED = 10


class Edit(NamedTuple):
    """A command that edits one number, adds an arc or closes one: its word and its fields."""

    name: str
    numbers: Tuple[int, ...]

    def line(self) -> str:
        return " ".join([self.name, *map(str, self.numbers)])


# What is one step of a session: an edit, or some that belong together.
Step = Sequence[Edit]


def commands(step: Step) -> bytes:
    """What a session is told; it has one reply."""
    lines = [edit.line() for edit in step]
    if len(lines) != 1:
        lines = ["group", *lines, "end"]
    return "".join(line + "\n" for line in lines).encode("ascii")


def apply(problem: Problem, step: Step) -> None:
    """Makes a problem what it is after a step that the session accepts."""
    for edit in step:
        place, *rest = edit.numbers
        if edit.name == "add":
            problem.arcs.append(problem.arc_of(edit.numbers))
        elif edit.name == "supply":
            problem.supplies[place] = rest[0]
        elif edit.name == "close":
            problem.arcs[place - 1] = problem.arcs[place - 1]._replace(low=0, cap=0)
        else:
            problem.arcs[place - 1] = problem.arcs[place - 1]._replace(**{edit.name: rest[0]})


@dataclass
class Draw:
    """Draws edits of a problem as it stands: of some arcs one after the other, and of some nodes, each once."""

    problem: Problem
    random: random.Random
    arcs: Sequence[int]
    nodes: List[int]
    # The flow of the arcs where a capacity is to be drawn by that: about half of these do not leave room for the flow.
    flows: Sequence[int] = ()

    def step(self, place: int) -> Tuple[str, List[Edit]]:
        """The step at this place of a script: its name and its edits; where no two nodes are left it is of a cost."""
        turns = TURNS[self.problem.kind]
        name = turns[place % len(turns)]
        number = self.arcs[place % len(self.arcs)]
        if name == "supply" and len(self.nodes) > 1:
            return name, self.moved_supply()
        return ("cap", [self.cap(number)]) if name == "cap" else ("cost", [self.cost(number)])

    def cap(self, number: int) -> Edit:
        arc = self.problem.arcs[number - 1]
        usual = self.flows[number - 1] if self.flows else arc.cap
        return Edit("cap", (number, self.random.randint(arc.low, min(GREATEST_CAP, max(arc.low, 2 * usual)))))

    def cost(self, number: int) -> Edit:
        cost = self.problem.arcs[number - 1].cost
        most = max(1, abs(cost))
        return Edit("cost", (number, cost + self.random.randint(-most, most)))

    def moved_supply(self) -> List[Edit]:
        """One node supplies more, and another less, so that all supplies add up to what they did."""
        supplies = self.problem.supplies
        more, less = self.nodes.pop(), self.nodes.pop()
        # What demands does not come to supply, nor the other way round: nothing may lead away from it.
        most = min([MOST_MOVED] + [abs(supplies[node]) for node in (more, less) if supplies[node] != 0])
        amount = self.random.randint(1, most)
        return [Edit("supply", (more, supplies[more] + amount)), Edit("supply", (less, supplies[less] - amount))]


def touches(edit: Edit, problem: Problem, cut: Set[int]) -> bool:
    """Whether an edit is of an arc that crosses a cut, or of a node on its smaller side."""
    number = edit.numbers[0]
    if edit.name == "supply":
        return (number in cut) == (2 * len(cut) <= problem.nodes)
    arc = problem.arcs[number - 1]
    return edit.name == "cap" and (arc.tail in cut) != (arc.head in cut)


def sample(draw: random.Random, some: Sequence[int], count: int) -> List[int]:
    """So many of these in an order that is drawn, or all where there are fewer."""
    return draw.sample(some, min(count, len(some)))
