"""Drawn sessions: edits and groups of every kind, with numbers of either sign, far and near, on a problem."""

from __future__ import annotations

import random
from dataclasses import dataclass
from typing import Dict, Iterator, List, NamedTuple, Tuple

from editing import GREATEST_CAP, Edit, apply, commands
from measuring import Dialogue
from problems import Problem

# The kinds of edits of each kind of problem.
KINDS: Dict[str, Tuple[str, ...]] = {
    "min": ("cap", "cap", "cost", "cost", "low", "supply", "close", "add"),
    "max": ("cap", "cap", "close", "add"),
    "asn": ("cost", "cost", "close", "add"),
}
GREATEST_COST = 1_000_000_000
# The numbers of edits of a group: each is drawn as often.
SIZES = (2, 5, 20, 100, 300, 1_000)
# In a problem of great capacities each is so many times as great, and one in so many is the greatest that there is.
WIDER, ONE_GREATEST = 1_000_000, 10
# How many steps are taken back by the next one: of those that leave no legal flow, and of the others.
TAKEN_BACK_ILLEGAL, TAKEN_BACK = 0.7, 0.33


@dataclass
class Drawn:
    """Draws the steps of a session, one after the other, each of the problem that those before it leave."""

    problem: Problem
    random: random.Random

    def step(self, is_group: bool) -> List[Edit]:
        """An edit, or a group; it may be that no legal flow is left."""
        if not is_group:
            return self.edits(self.random.choice(KINDS[self.problem.kind]))
        kinds = KINDS[self.problem.kind]
        # Half of the groups are of one kind of edit.
        kinds = kinds if self.random.random() < 0.5 else (self.random.choice(kinds),)
        count, after = self.random.choice(SIZES), Drawn(self.problem.copy(), self.random)
        some: List[Edit] = []
        while len(some) < count - 1:
            more = after.edits(self.random.choice(kinds))
            apply(after.problem, more)
            some += more
        return some

    def edits(self, kind: str) -> List[Edit]:
        """An edit of this kind; of supplies two that belong together."""
        if kind == "supply":
            return self.moved_supply()
        if kind == "add":
            return [Edit(kind, self.arc())]
        number = self.random.randint(1, len(self.problem.arcs))
        arc = self.problem.arcs[number - 1]
        if kind == "cost":
            return [Edit(kind, (number, self.cost(arc.cost)))]
        if kind == "low":
            return [Edit(kind, (number, self.random.choice((0, min(1, arc.cap), self.random.randint(0, arc.cap)))))]
        if kind == "cap":
            return [Edit(kind, (number, max(arc.low, self.cap(arc.cap))))]
        # An arc with a lower bound can't be closed.
        return [Edit("close", (number,)) if arc.low == 0 else Edit("cost", (number, self.cost(arc.cost)))]

    def cap(self, cap: int) -> int:
        draw = self.random
        return min(GREATEST_CAP, draw.choice((0, cap // 2, cap + 1, 2 * cap, draw.randint(0, 2 * cap), GREATEST_CAP)))

    def cost(self, cost: int) -> int:
        draw = self.random
        some = draw.choice((0, -cost, cost + 1, cost - 1, cost // 2, 100 * cost, cost + cost // 100, -100 * cost))
        return max(-GREATEST_COST, min(GREATEST_COST, some))

    def moved_supply(self) -> List[Edit]:
        supplies, most = self.problem.supplies, max(1, max(self.problem.supplies))
        more, less = self.random.sample(range(1, self.problem.nodes + 1), 2)
        amount = self.random.choice((1, 1, self.random.randint(1, most)))
        return [Edit("supply", (more, supplies[more] + amount)), Edit("supply", (less, supplies[less] - amount))]

    def arc(self) -> Tuple[int, ...]:
        """The fields of an arc that is added: it may be of use."""
        some, other = self.random.choice(self.problem.arcs), self.random.choice(self.problem.arcs)
        if self.problem.kind == "asn":
            return some.tail, other.head, self.cost(some.cost)
        if self.problem.kind == "max":
            return some.tail, other.head, max(1, self.cap(some.cap))
        return some.tail, other.head, 0, max(1, self.cap(some.cap)), self.cost(some.cost)


class Told(NamedTuple):
    """A step that a session was told: the problem before it, the processor time until the reply, and the reply."""

    step: List[Edit]
    before: Problem
    after: Problem
    seconds: float
    reply: bytes
    is_taken_back: bool

    @property
    def commands(self) -> bytes:
        """What the session was told, with the `undo` that follows, if one does."""
        return commands(self.step) + (b"undo\n" if self.is_taken_back else b"")


def hold_session(session: Dialogue, problem: Problem, draw: random.Random, steps: int) -> Iterator[Told]:
    """Tells a session drawn edits and groups in turn, and takes some back; gives those that it did not refuse.

    An empty reply is the last one: the session took too long.
    """
    for place in range(steps):
        step = Drawn(problem, draw).step(is_group=place % 2 == 1)
        seconds, reply = session.ask(commands(step))
        if reply.startswith(b"r"):
            continue
        after = problem.copy()
        apply(after, step)
        is_taken_back = draw.random() < (TAKEN_BACK_ILLEGAL if reply.startswith(b"i") else TAKEN_BACK)
        yield Told(step, problem, after, seconds, reply, is_taken_back)
        if not reply:
            return
        if is_taken_back:
            session.ask(b"undo\n")
        else:
            problem = after


def with_great_capacities(title: str, problem: Problem) -> Dict[str, Problem]:
    """A problem under its title, and a maximum flow with great capacities, too."""
    if problem.kind != "max":
        return {title: problem}
    return {title: problem, f"{title}_great": widened(problem, random.Random(title))}


def widened(problem: Problem, draw: random.Random) -> Problem:
    """The same with great capacities, far apart."""
    told = problem.copy()
    for place, arc in enumerate(told.arcs):
        cap = GREATEST_CAP if draw.randrange(ONE_GREATEST) == 0 else min(GREATEST_CAP, arc.cap * WIDER)
        told.arcs[place] = arc._replace(cap=cap)
    return told
