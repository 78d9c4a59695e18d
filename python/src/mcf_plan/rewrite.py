"""Rewrites tables to a text of the formats that has the same meaning, and answers back to the tables.

Amounts and costs are multiplied by powers of ten, so that all are whole (`figures`). An arc that may carry more than
the formats' 10^9 becomes several beside one another; one without limit gets a capacity that no best flow needs to fill
(`room`). A lower bound that is below 0, or too great, moves into the supplies of the ends. Supplies that do not add up
to 0 get a node more, the rest, with an arc to or from each node that may keep some, or go without some (`lines`).
"""

from __future__ import annotations

from dataclasses import replace
from decimal import Decimal
from typing import TYPE_CHECKING, Callable, Iterable, List, Optional, Tuple, Union

from .change import Change
from .deadline import Deadline
from .dimacs import Answer, parse_answer
from .errors import BeyondLimits, CannotRewrite, DoesNotFit, Meaningless, Unbounded
from .figures import Figures
from .formats import MOST_FLOW, ArcRow, counted
from .lines import Lines
from .meaning import Options, Surplus, check_meaning, taken_for, text_kind
from .plan import Disagreement, Infeasible, Plan
from .problem import ZERO, Problem, plain
from .room import find_room
from .units import Scale

if TYPE_CHECKING:
    from .program import Program

__all__ = [
    "BeyondLimits",
    "CannotRewrite",
    "Change",
    "DoesNotFit",
    "Meaningless",
    "Options",
    "Rewriting",
    "Surplus",
    "Unbounded",
    "rewrite",
    "rewrite_any",
    "solve",
    "without_plan",
]

Progress = Callable[[str], None]
"""Is told what is done now, in words."""


def rewrite(problem: Problem, options: Options = Options()) -> Rewriting:
    """The text of a problem. Raises Unbounded, BeyondLimits or Meaningless where none has the same meaning.

    >>> problem = Problem()
    >>> problem.add_node("a", "2.5")
    >>> problem.add_node("b", "-2.5")
    >>> problem.add_arc("a", "b", cost="0.25")
    0
    >>> print(rewrite(problem).text, end="")
    p min 2 1
    n 1 25
    n 2 -25
    a 1 2 0 1000000000 25
    """
    return Rewriting(problem, options)


def rewrite_any(problem: Problem, options: Options = Options(), program: Optional[Program] = None) -> Rewriting:
    """The text of a problem, also where there is no plan and circles without limit save: one that has no plan either.

    Whether there is a plan is asked of the program then. Raises as `rewrite` does, Unbounded only where there are plans.
    """
    try:
        return rewrite(problem, options)
    except Unbounded as unbounded:
        solve(problem, options, program)  # Raises Unbounded itself where there are plans.
        return without_plan(problem, options, unbounded)


def without_plan(problem: Problem, options: Options, unbounded: Unbounded) -> Rewriting:
    """The text of a problem that has no plan, and if it had any, no best one, for this reason."""
    rewriting = Rewriting(problem, replace(options, without_plan=True))
    reason = str(unbounded).partition(": ")[2]
    rewriting.notes.insert(0, f"there is no plan, by this text too; if there were plans, none would be best: {reason}")
    return rewriting


def solve(
    problem: Problem,
    options: Options = Options(),
    program: Optional[Program] = None,
    time_limit: Optional[float] = None,
    progress: Optional[Progress] = None,
) -> Union[Plan, Infeasible]:
    """A best plan, or why there is none, checked by the program and in the tables' own units."""
    from .program import Program

    program = program or Program()
    tell = progress or _nobody
    unbounded: Optional[Unbounded] = None
    with Deadline(time_limit) as deadline:
        tell("writing the problem")
        try:
            rewriting = rewrite(problem, options)
        except Unbounded as found:
            # Where there is no plan at all, that is the answer.
            unbounded = found
            rewriting = rewrite(problem, replace(options, without_costs=True))
        tell("solving")
        answer_text = program.solve(rewriting.text, time_limit=deadline.left())
        if unbounded is not None and parse_answer(answer_text).is_flow:
            raise unbounded
        tell("checking the answer")
        return rewriting.checked(answer_text, program, deadline.left())


def _nobody(words: str) -> None:
    """Where nobody wants to be told."""


class Rewriting:
    """A text with the meaning of the tables, and the way back.

    `figures` are the numbers of the tables in the text's units, `lines` the lines of the text, whose kind is `kind`.
    `notes` say in words what was rewritten, to whoever reads the text; what a plan tells of it is in `taken_for`.
    """

    def __init__(self, problem: Problem, options: Options):
        self.problem = problem
        self.rest_cost = options.rest_cost()
        check_meaning(problem, self.rest_cost)
        self.kind = text_kind(problem, options)
        self.figures = Figures.of(problem, options)
        self.lines = Lines(self.figures, self.kind, find_room(self.figures, self.kind))
        self.notes = _notes_of(self)
        self._text: Optional[str] = None

    @property
    def text(self) -> str:
        """The text, as the lines stand: what `mcf` reads."""
        if self._text is None:
            self._text = self.lines.text()
        return self._text

    @property
    def rows(self) -> List[ArcRow]:
        """The arc lines of the text."""
        return self.lines.rows

    def was_changed(self) -> None:
        """The lines are others now; called by a change that is taken over or back."""
        self._text = None

    def update(self, arcs: Iterable[int], nodes: Iterable[str]) -> Change:
        """Takes over what was changed in these arcs and nodes of the tables, and arcs that were added at the end.

        Returns the change, which has the commands of a session that do the same to the text. Raises DoesNotFit where
        the text's form does not take it, Unbounded, BeyondLimits or Meaningless where none does; then nothing is taken
        over.
        """
        change = Change.of(self, arcs, nodes)
        change.take_over()
        return change

    def answered(self, answer: Answer) -> Union[Plan, Infeasible]:
        """The plan, or the reason that there is none, that an answer to the text means in the tables.

        Raises Disagreement where it is no answer to the text.
        """
        lines = self.lines
        if answer.shortage is not None:
            return self._infeasible(answer)
        if len(answer.flows) != len(lines.rows):
            raise Disagreement(f"the answer has {len(answer.flows)} flows for {len(lines.rows)} arcs")
        names, money, amounts = self.figures.names, self.figures.money, self.figures.amounts
        prices, rest_price = None, ZERO
        if answer.potentials is not None:
            prices = dict(zip(names, map(money.decimal, answer.potentials)))
            rest_price = money.decimal(answer.potentials[lines.rest - 1]) if lines.rest else ZERO
        flows = answer.flows
        rest = {name: amounts.decimal(sum(flows[line] for line in at)) for name, at in lines.rest_arcs.items()}
        rest = {name: amount for name, amount in rest.items() if amount}
        balance = self.problem.balance
        is_kept = balance == "at most" or balance == "equal" and self.figures.total > 0
        return Plan(
            self.problem,
            self._amounts(flows),
            self._cost_of(answer.value or 0),
            prices,
            kept=rest if is_kept else {},
            not_met={} if is_kept else rest,
            rest_cost=self.rest_cost,
            rest_price=rest_price,
            notes=[*self.problem.notes, *taken_for(self.problem, self.figures.amounts)],
        )

    def worth(self, reply: str) -> Tuple[Optional[Decimal], Optional[Decimal]]:
        """The cost, or the shortage, that the first line of an answer tells, in the units of the tables."""
        letter, number = reply.split()
        if letter == "s":
            return self._cost_of(int(number)), None
        return None, self.figures.amounts.decimal(int(number))

    def checked(
        self, answer_text: str, program: Program, time_limit: Optional[float] = None
    ) -> Union[Plan, Infeasible]:
        """The plan, or the reason that there is none, after `mcf check` has accepted the answer, and `verify`.

        Raises Disagreement, with both texts, where one of them did not.
        """
        text = self.text
        verdict = program.check(text, answer_text, time_limit=time_limit)
        if verdict != "valid":
            raise Disagreement(f"mcf check says of the answer: {verdict}", text, answer_text)
        try:
            result = self.answered(parse_answer(answer_text, with_ends=False))
            result.verify()
        except Disagreement as wrong:
            wrong.problem_text, wrong.answer_text = text, answer_text
            raise
        result.checked = True
        return result

    def _infeasible(self, answer: Answer) -> Infeasible:
        names, lines = self.figures.names, self.lines
        if any(not 1 <= number <= lines.node_count for number in answer.cut):
            raise Disagreement("the cut has a node that the text has not")
        return Infeasible(
            self.problem,
            frozenset(names[number - 1] for number in answer.cut if number <= len(names)),
            self.figures.amounts.decimal(answer.shortage or 0),
            rest_cost=self.rest_cost,
            rest_in_cut=lines.rest in answer.cut,
            notes=[*self.problem.notes, *taken_for(self.problem, self.figures.amounts)],
        )

    def _amounts(self, flows: List[int]) -> List[Decimal]:
        """What each arc of the tables carries, by the flows of the lines."""
        lines, decimal = self.lines, self.figures.amounts.decimal
        if len(lines.rows) == len(self.problem.arcs) and not lines.moved:
            return list(map(decimal, flows))
        amounts = []
        for k, (first, (count, _)) in enumerate(zip(lines.first, lines.forms)):
            amounts.append(decimal(sum(flows[first : first + count]) + lines.moved.get(k, 0)))
        return amounts

    def _cost_of(self, worth: int) -> Decimal:
        """What a plan of this worth costs, or in `max` sends, in the units of the tables."""
        figures = self.figures
        if self.problem.kind == "max":
            return figures.amounts.decimal(abs(worth))
        cost = worth + sum(low * figures.costs[k] for k, low in self.lines.moved.items())
        return Scale(figures.amounts.places + figures.money.places).decimal(cost)


def _notes_of(rewriting: Rewriting) -> List[str]:
    """Says in words what was rewritten."""
    problem, figures, lines = rewriting.problem, rewriting.figures, rewriting.lines
    is_without = figures.options.without_plan
    notes = []
    if rewriting.kind != problem.kind:
        notes.append(f"the problem of kind {problem.kind} is written as one of kind {rewriting.kind}")
    for what, scale in (("amounts", figures.amounts), ("costs", figures.money)):
        if scale.places:
            notes.append(f"{what} are written in units of {plain(Decimal(10) ** -scale.places)}")
    unlimited = sum(cap is None for cap in figures.caps)
    if unlimited:
        notes.append(
            f"{counted(unlimited, 'arc')} without a capacity: {lines.room.whole} is written there, "
            + ("with more there would be no plan either" if is_without else "which no best flow needs to fill")
        )
    split = sum(count > 1 for count, _ in lines.forms)
    if split:
        notes.append(f"{counted(split, 'arc')} written as several beside one another, of {MOST_FLOW:,} units each")
    if lines.moved:
        notes.append(f"{counted(len(lines.moved), 'lower bound')} moved into the supplies of the arcs' ends")
    if lines.helpers:
        notes.append(f"{counted(len(lines.helpers), 'node')} with others beside them for their supplies")
    if lines.rest:
        notes.append(f"node {lines.rest} stands for what is kept or not met")
    return notes
