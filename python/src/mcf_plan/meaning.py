"""What tables mean in each kind of problem: which rows have no meaning there, and as what kind of text they are
written."""

from __future__ import annotations

from dataclasses import dataclass
from decimal import Decimal
from typing import Container, List, Optional, Union

from .errors import Meaningless
from .formats import counted
from .problem import ONE, ZERO, Arc, Problem, exact, plain, total_of
from .units import Scale

Surplus = Union[str, int, float, Decimal]
"""'refuse', 'keep', or what a unit that is kept or not met costs."""


@dataclass(frozen=True)
class Options:
    """How to read the tables.

    `surplus` is as in `Problem.solve`. `as_min` writes every assignment as a problem of least cost, in which arcs can
    be closed and opened. `without_costs` takes all costs as 0: what is asked then is whether there is a plan at all.
    `without_plan` says that there is none, as is known: arcs without limit get the room that shows it, whatever circles
    of them would save.
    """

    surplus: Surplus = "refuse"
    as_min: bool = False
    without_costs: bool = False
    without_plan: bool = False

    def rest_cost(self) -> Optional[Decimal]:
        """What a unit that is kept or not met costs; None where there is none."""
        if self.surplus == "refuse":
            return None
        if self.surplus == "keep":
            return ZERO
        try:
            return exact(self.surplus)
        except ValueError:
            raise ValueError(
                f"surplus is {self.surplus!r}, and has to be 'refuse', 'keep' or a number: what a unit that is kept or "
                "not met costs"
            ) from None


def check_meaning(problem: Problem, rest_cost: Optional[Decimal]) -> None:
    """Raises Meaningless for a row that says what has no meaning in this kind."""
    if not problem.nodes:
        raise Meaningless("there is no node")
    if problem.balance != "equal" and rest_cost is not None:
        raise Meaningless(
            f"with supplies that are met as '{problem.balance}', what is kept or not met can't be asked for"
        )
    if problem.balance != "equal" and problem.kind != "min":
        raise Meaningless(f"supplies that are met as '{problem.balance}' have no meaning in '{problem.kind}'")
    if problem.kind == "max":
        _check_ends(problem)
        if rest_cost is not None:
            raise Meaningless("in a maximum flow nothing is kept or not met")
    if problem.kind != "min":
        for name in problem.nodes:
            check_node(problem, name)
        for number in range(len(problem.arcs)):
            check_arc(problem, number)


def _check_ends(problem: Problem) -> None:
    """Raises Meaningless where a maximum flow has no source or no sink."""
    for what, name in (("source", problem.source), ("sink", problem.sink)):
        if name is None or name not in problem.nodes:
            raise Meaningless(f"a maximum flow needs a {what}" + (f", and there is no node {name}" if name else ""))
    if problem.source == problem.sink:
        raise Meaningless(f"source and sink are the same node, {problem.source}")


def check_node(problem: Problem, name: str) -> None:
    """Raises Meaningless where the supply of a node has no meaning in this kind."""
    supply = problem.nodes[name]
    if problem.kind == "max" and supply:
        raise Meaningless(f"node {name} has a supply, which has no meaning in a maximum flow")
    if problem.kind == "asn" and abs(supply) != 1:
        raise Meaningless(f"node {name} supplies {plain(supply)}: in an assignment a node supplies 1, or demands 1")


def check_sides(problem: Problem, names: Container[str]) -> None:
    """Raises Meaningless where an arc of one of these nodes of an assignment does not lead from the source side to the
    sink side."""
    for number, arc in enumerate(problem.arcs):
        if arc.tail in names or arc.head in names:
            check_arc(problem, number)


def check_arc(problem: Problem, number: int) -> None:
    """Raises Meaningless where the row of an arc has no meaning in this kind."""
    arc = problem.arcs[number]
    if problem.kind == "max" and arc.cost:
        raise Meaningless(f"{told(number, arc)}, has a cost, which has no meaning in a maximum flow")
    if problem.kind == "asn":
        if arc.low not in (ZERO, ONE) or arc.cap not in (ZERO, ONE):
            raise Meaningless(
                f"{told(number, arc)}, has other bounds than 0 and 1, which have no meaning in an assignment"
            )
        if problem.nodes[arc.tail] != 1 or problem.nodes[arc.head] != -1:
            raise Meaningless(f"{told(number, arc)}, does not lead from the source side to the sink side")


def told(number: int, arc: Arc) -> str:
    """What an arc is called in a message about its row."""
    return f"arc {number + 1}, {arc.label}"


def text_kind(problem: Problem, options: Options) -> str:
    """The kind of the text that has the meaning of the tables."""
    if problem.kind == "max":
        return "min" if options.without_costs or any(arc.low for arc in problem.arcs) else "max"
    if (
        problem.kind == "asn"
        and not options.as_min
        and (options.rest_cost() is None or not total_of(problem.nodes.values()))
        and all(not arc.low and arc.cap for arc in problem.arcs)
    ):
        return "asn"
    return "min"


def amounts_of(problem: Problem) -> Scale:
    """The largest unit that makes all amounts whole: bounds and supplies."""
    arcs = problem.arcs
    return Scale.of((arc.low for arc in arcs), (arc.cap for arc in arcs), problem.nodes.values())


def taken_for(problem: Problem, amounts: Scale) -> List[str]:
    """What was taken for the planner, and what that means for the plan."""
    notes = []
    if amounts.places:
        notes.append(f"amounts go in steps of {plain(Decimal(10) ** -amounts.places)}, by the decimals in the tables")
    unlimited = sum(arc.cap is None for arc in problem.arcs)
    if unlimited:
        notes.append(f"{counted(unlimited, 'arc')} without a capacity may carry any amount")
    return notes
