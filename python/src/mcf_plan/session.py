"""A what-if session in the words of the tables: edits by name, groups, undo, redo, marks, and reasons at any moment.

The program's own session does the work. Where an edit does not fit in the form of its text, as a cost with more
decimals than all others, a second one is started on the new text, and the first is kept for what `undo` goes back to.
A session of the program that was interrupted is started again when it is wanted, and its steps are made again.
"""

from __future__ import annotations

from contextlib import contextmanager
from dataclasses import dataclass, field, replace
from decimal import Decimal
from typing import TYPE_CHECKING, Any, Dict, Iterator, List, NamedTuple, Optional, Tuple, Union

from .deadline import Deadline
from .dimacs import parse_answer
from .formats import MOST_ARCS, MOST_EDITS, REFUSALS
from .plan import Infeasible, Plan
from .problem import ZERO, Arc, ArcKey, Number, Problem, capacity, exact, plain
from .program import Dialogue, Program
from .rewrite import Change, DoesNotFit, Meaningless, Options, Rewriting, Surplus, Unbounded, without_plan

if TYPE_CHECKING:
    from contextlib import AbstractContextManager

ROOM_FOR_ARCS = 1000
"""So many arcs can be added before a session is started anew for more."""

MOST_DIALOGUES = 4
"""So many sessions of the program are kept open at once; others are started again where they are wanted."""

CHECKED_BELOW = 10_000
"""Plans of fewer arcs are checked where `plan` is not told."""


class EditRefused(Exception):
    """An edit was refused, and changed nothing. `number` is the program's refusal where it was the program's."""

    def __init__(self, words: str, number: Optional[int] = None):
        super().__init__(words)
        self.number = number


class _ArcChange(NamedTuple):
    """An arc of the tables before and after; before None where it was added."""

    number: int
    before: Optional[Arc]
    after: Arc


class _SupplyChange(NamedTuple):
    """The supply of a node before and after."""

    name: str
    before: Decimal
    after: Decimal


_TableChange = Union[_ArcChange, _SupplyChange]


@dataclass(eq=False)
class _Stretch:
    """A part of the session that the program holds in one dialogue: its text, the steps since, and where it stands.

    `unbounded` says that there would be no best plan if there were one at all: the text is without costs then, takes no
    edit, and is not the one that is shown.
    """

    text: str
    rewriting: Rewriting
    extra: int
    most_lines: int
    dialogue: Optional[Dialogue]
    unbounded: Optional[Unbounded] = None
    steps: List[List[str]] = field(default_factory=list)
    position: int = 0

    def lines_of(self, commands: List[str]) -> List[str]:
        """A step of one line, or of a group."""
        return commands if len(commands) == 1 else ["group", *commands, "end"]

    def open(self, program: Program, deadline: Deadline) -> Dialogue:
        """The dialogue, where it stands; started and led there again where it had been ended."""
        if self.dialogue is None or not self.dialogue.is_open:
            dialogue = program.session(self.text, extra=self.extra, time_limit=deadline.left())
            try:
                lines = [line for step in self.steps for line in self.lines_of(step)]
                back = ["undo"] * (len(self.steps) - self.position)
                dialogue.ask_all(lines + back, time_limit=deadline.left())
            except BaseException:
                dialogue.close()
                raise
            self.dialogue = dialogue
        return self.dialogue

    def shut(self) -> None:
        """Ends the dialogue; `open` starts it again."""
        if self.dialogue is not None:
            self.dialogue.close()
            self.dialogue = None


@dataclass
class _Moment:
    """A moment: the changes that led to it, the stretch that holds it and at which step, what that step changed in the
    stretch's text (None where its text begins here), and its answer's first line."""

    changes: List[_TableChange]
    stretch: _Stretch
    position: int
    change: Optional[Change]
    cost: Optional[Decimal]
    shortage: Optional[Decimal]


class Session:
    """A session on a problem, which is not changed itself: the session works on a copy.

    Each edit answers the cost of the new best plan, or None where there is no plan then (see `shortage`, and `plan`).
    An edit that is refused raises EditRefused (or KeyError where a name is unknown, ValueError where a value is no
    number, Unbounded, BeyondLimits) and changes nothing. Where an edit is interrupted, by Ctrl-C or by `time_limit`
    (TimeLimit), it has not happened, and the session goes on from the moment before.

    `time_limit` is how many seconds each edit may take, and the opening; None is no limit. It can be set at any time.

    >>> problem = Problem()
    >>> problem.add_node("depot", 4)
    >>> problem.add_node("shop", -4)
    >>> problem.add_arc("depot", "shop", cap=3, cost="2.5")
    0
    >>> problem.add_arc("depot", "shop", cost="3.75", name="ferry")
    1
    >>> with Session(problem) as session:
    ...     session.cost, session.set_cap(0, 1), session.set_cost("ferry", "3.125"), session.undo(), session.undo()
    (Decimal('11.25'), Decimal('13.75'), Decimal('11.875'), Decimal('13.75'), Decimal('11.25'))
    """

    def __init__(
        self,
        problem: Problem,
        program: Optional[Program] = None,
        *,
        surplus: Surplus = "refuse",
        time_limit: Optional[float] = None,
    ):
        self._program = program or Program()
        self._options = Options(surplus, as_min=True)
        self.time_limit = time_limit
        self._problem = problem.copy()
        self._group: Optional[List[_TableChange]] = None
        self._marks: Dict[str, int] = {}
        with Deadline(time_limit) as deadline:
            self._moments: List[_Moment] = [self._new_moment([], deadline)]
        self._now = 0
        self._version = 0

    # ------------------------------------------------------------ the moment

    @property
    def problem(self) -> Problem:
        """The problem as it stands; to be read, and edited through the session alone."""
        return self._problem

    @property
    def cost(self) -> Optional[Decimal]:
        """The cost of a best plan as it stands (in `max` the flow); None where there is no plan."""
        return self._moments[self._now].cost

    @property
    def shortage(self) -> Optional[Decimal]:
        """By how much the problem as it stands has no plan; None where it has one."""
        return self._moments[self._now].shortage

    @property
    def can_undo(self) -> bool:
        """Whether there is something to undo."""
        return self._now > 0

    @property
    def can_redo(self) -> bool:
        """Whether there is something to redo."""
        return self._now + 1 < len(self._moments)

    @property
    def marks(self) -> List[str]:
        """The names of the marks, in the order of their moments."""
        return sorted(self._marks, key=lambda name: self._marks[name])

    @property
    def version(self) -> int:
        """How often the moment has become another one: by an edit, a group, undo, redo or back."""
        return self._version

    @property
    def position(self) -> int:
        """How many steps the moment is away from the first."""
        return self._now

    # ------------------------------------------------------------ edits

    def set_cap(self, arc: ArcKey, value: Optional[Number]) -> Optional[Decimal]:
        """Sets the capacity of an arc; None is no limit."""
        return self._edit_arc(arc, cap=capacity(value))

    def set_low(self, arc: ArcKey, value: Number) -> Optional[Decimal]:
        """Sets the lower bound of an arc."""
        return self._edit_arc(arc, low=exact(value, "the lower bound"))

    def set_cost(self, arc: ArcKey, value: Number) -> Optional[Decimal]:
        """Sets what a unit on an arc costs."""
        return self._edit_arc(arc, cost=exact(value, "the cost"))

    def set_supply(self, node: str, value: Number) -> Optional[Decimal]:
        """Sets the supply of a node; below 0 is a demand."""
        if node not in self._problem.nodes:
            raise KeyError(f"there is no node {node}")
        return self._edit([_SupplyChange(node, self._problem.nodes[node], exact(value, "the supply"))])

    def close(self, arc: ArcKey) -> Optional[Decimal]:
        """Closes an arc: its bounds become 0. `end` ends the session."""
        return self._edit_arc(arc, low=ZERO, cap=ZERO)

    def add_arc(
        self,
        tail: str,
        head: str,
        *,
        low: Number = 0,
        cap: Optional[Number] = None,
        cost: Number = 0,
        name: Optional[str] = None,
    ) -> Optional[Decimal]:
        """Adds an arc between nodes that are there; its number is the number of arcs before."""
        for end in (tail, head):
            if end not in self._problem.nodes:
                raise KeyError(f"there is no node {end}")
        arc = self._problem.make_arc(tail, head, low, cap, cost, name)
        return self._edit([_ArcChange(len(self._problem.arcs), None, arc)])

    def group(self) -> AbstractContextManager[None]:
        """The edits of a `with` block are made together at its end, solved once, and are one step of undo and redo.

        In the block edits answer None, and their bounds are compared at its end. Where one is refused, or the block is
        left by an exception, nothing changes.
        """
        return self._grouped()

    @contextmanager
    def _grouped(self) -> Iterator[None]:
        self._not_in_group("group")
        changes = self._group = []
        try:
            yield
        except BaseException:
            self._group = None
            self._take_back(changes)
            raise
        self._group = None
        self._make_step(changes)

    def _not_in_group(self, what: str) -> None:
        if self._group is not None:
            raise EditRefused(f"a group is open, and {what} has to wait for its end", 29)

    def _edit_arc(self, key: ArcKey, **fields: Any) -> Optional[Decimal]:
        number = self._problem.find_arc(key)
        arc = self._problem.arcs[number]
        return self._edit([_ArcChange(number, arc, arc._replace(**fields))])

    def _edit(self, changes: List[_TableChange]) -> Optional[Decimal]:
        self._make(changes)
        if self._group is not None:
            self._group += changes
            return None
        return self._make_step(changes)

    # ------------------------------------------------------------ undo, redo, marks

    def undo(self) -> Optional[Decimal]:
        """Goes back by one edit or group."""
        if not self.can_undo:
            raise EditRefused(REFUSALS[25], 25)
        return self._go(self._now - 1)

    def redo(self) -> Optional[Decimal]:
        """Goes forward again."""
        if not self.can_redo:
            raise EditRefused(REFUSALS[26], 26)
        return self._go(self._now + 1)

    def mark(self, name: str) -> None:
        """Puts a mark on the moment. `name` is any text; a mark that has it moves here."""
        self._not_in_group("a mark")
        self._marks[name] = self._now

    def back(self, name: str) -> Optional[Decimal]:
        """Goes to the moment that bears the mark, behind or ahead."""
        if name not in self._marks:
            raise EditRefused(f"no moment bears the mark {name}", 28)
        return self._go(self._marks[name])

    def _go(self, target: int) -> Optional[Decimal]:
        """Goes to a moment. The dialogue of its stretch goes there first, since it may be interrupted."""
        self._not_in_group("going to another moment")
        moment = self._moments[target]
        stretch = moment.stretch
        way = moment.position - stretch.position
        if way:
            with Deadline(self.time_limit) as deadline:
                dialogue = stretch.open(self._program, deadline)
                dialogue.ask_all(["redo" if way > 0 else "undo"] * abs(way), time_limit=deadline.left())
            stretch.position = moment.position
        self._version += self._now != target
        while self._now != target:
            forward = self._now < target
            here = self._moments[self._now + forward]
            if forward:
                self._make(here.changes)
            else:
                self._take_back(here.changes)
            self._now += 1 if forward else -1
            if here.change is not None and forward:
                here.change.take_over()
            elif here.change is not None:
                here.change.take_back()
        return self.cost

    # ------------------------------------------------------------ answers

    def plan(self, check: Optional[bool] = None) -> Union[Plan, Infeasible]:
        """The plan as it stands, or why there is none.

        `check` says whether it goes through `mcf check` and `verify`; None: where there are fewer than 10,000 arcs.
        Raises Disagreement where that finds it wrong.
        """
        rewriting = self._moments[self._now].stretch.rewriting
        with Deadline(self.time_limit) as deadline:
            proof = self._proof(deadline)
            if check or check is None and len(self._problem.arcs) < CHECKED_BELOW:
                result = rewriting.checked(proof, self._program, deadline.left())
            else:
                result = rewriting.answered(parse_answer(proof))
        result.problem = self._problem.copy()
        return result

    def text(self) -> str:
        """The problem as it stands, as a text of the formats: `proof` is valid against it."""
        stretch = self._moments[self._now].stretch
        if stretch.unbounded is None:
            return stretch.rewriting.text
        self._not_in_group("the text")
        return without_plan(self._problem, self._options, stretch.unbounded).text

    def proof(self) -> str:
        """The answer as it stands, with its potentials or as a cut, as `mcf check` reads it."""
        with Deadline(self.time_limit) as deadline:
            return self._proof(deadline)

    def _proof(self, deadline: Deadline) -> str:
        self._not_in_group("the answer")
        dialogue = self._moments[self._now].stretch.open(self._program, deadline)
        return "\n".join(dialogue.ask("proof", time_limit=deadline.left())) + "\n"

    def beside(self) -> Session:
        """Another session on the problem as it stands, with the same program and options."""
        return Session(self._problem, self._program, surplus=self._options.surplus)

    def end(self) -> None:
        """Ends the session."""
        for moment in self._moments:
            moment.stretch.shut()

    def __enter__(self) -> Session:
        return self

    def __exit__(self, *exception: object) -> None:
        self.end()

    # ------------------------------------------------------------ steps

    def _make(self, changes: List[_TableChange]) -> None:
        """Makes changes in the tables."""
        problem = self._problem
        for change in changes:
            if isinstance(change, _SupplyChange):
                problem.nodes[change.name] = change.after
            elif change.before is None:
                problem.append_arc(change.after)
            else:
                problem.replace_arc(change.number, change.after)

    def _take_back(self, changes: List[_TableChange]) -> None:
        """Takes changes of the tables back."""
        problem = self._problem
        for change in reversed(changes):
            if isinstance(change, _SupplyChange):
                problem.nodes[change.name] = change.before
            elif change.before is None:
                problem.remove_last_arc()
            else:
                problem.replace_arc(change.number, change.before)

    @staticmethod
    def _touched(changes: List[_TableChange]) -> Tuple[List[int], List[str]]:
        """The numbers of the arcs, and the names of the nodes, that the changes touch."""
        return (
            [change.number for change in changes if isinstance(change, _ArcChange)],
            [change.name for change in changes if isinstance(change, _SupplyChange)],
        )

    def _check_bounds(self, changes: List[_TableChange]) -> None:
        """Raises EditRefused where a lower bound is above the capacity now."""
        for change in changes:
            if isinstance(change, _ArcChange):
                arc = self._problem.arcs[change.number]
                if arc.cap is not None and arc.cap < arc.low == ZERO:
                    raise EditRefused(f"the capacity of {arc.label} would be {plain(arc.cap)}, below 0", 22)
                if arc.cap is not None and arc.low > arc.cap:
                    raise EditRefused(
                        f"the lower bound of {arc.label} would be {plain(arc.low)}, above its capacity, "
                        f"{plain(arc.cap)}",
                        22,
                    )

    def _make_step(self, changes: List[_TableChange]) -> Optional[Decimal]:
        """Makes the changes, which stand in the tables, a step; takes them back where they are refused or
        interrupted."""
        try:
            self._check_bounds(changes)
            with Deadline(self.time_limit) as deadline:
                moment = self._step_in_stretch(changes, deadline) or self._new_moment(changes, deadline)
        except Meaningless as refused:
            self._take_back(changes)
            raise EditRefused(str(refused)) from None
        except BaseException:
            self._take_back(changes)
            raise
        dropped = self._moments[self._now + 1 :]
        del self._moments[self._now + 1 :]
        for one in dropped:
            if one.stretch is not self._moments[self._now].stretch:
                one.stretch.shut()
        self._marks = {name: at for name, at in self._marks.items() if at <= self._now}
        is_new = moment.stretch is not self._moments[self._now].stretch
        self._moments.append(moment)
        self._now += 1
        self._version += 1
        if is_new:
            self._shut_others()
        return moment.cost

    def _step_in_stretch(self, changes: List[_TableChange], deadline: Deadline) -> Optional[_Moment]:
        """The next moment in the stretch that stands; None where the changes do not fit in its text."""
        stretch = self._moments[self._now].stretch
        if stretch.unbounded is not None:
            return None
        rewriting = stretch.rewriting
        dialogue = stretch.open(self._program, deadline)
        try:
            change = rewriting.update(*self._touched(changes))
        except (DoesNotFit, Unbounded):
            return None
        commands = change.commands
        if len(commands) > MOST_EDITS or len(rewriting.rows) > stretch.most_lines:
            change.take_back()
            return None
        position, ahead = stretch.position, stretch.steps[stretch.position :]
        try:
            reply = dialogue.ask_all(stretch.lines_of(commands), time_limit=deadline.left())[0]
            if reply.startswith("r "):
                number = int(reply[2:])
                raise EditRefused(f"the session refused it: {REFUSALS[number]}", number)
            stretch.steps[position:] = [commands]
            stretch.position = position + 1
            return self._moment_of(reply, changes, stretch, change)
        except EditRefused:
            change.take_back()
            raise
        except BaseException:
            # The dialogue may have made the step: it is led to the moment before it when it is wanted again.
            stretch.shut()
            stretch.steps[position:] = ahead
            stretch.position = position
            change.take_back()
            raise

    def _new_moment(self, changes: List[_TableChange], deadline: Deadline) -> _Moment:
        """The next moment on a text of its own. Raises Unbounded where there are plans, and none is best."""
        unbounded: Optional[Unbounded] = None
        try:
            rewriting = Rewriting(self._problem, self._options)
        except Unbounded as found:
            unbounded = found
            rewriting = Rewriting(self._problem, replace(self._options, without_costs=True))
        text = rewriting.text
        extra = max(0, min(ROOM_FOR_ARCS, MOST_ARCS - len(rewriting.rows)))
        dialogue = self._program.session(text, extra=extra, time_limit=deadline.left())
        stretch = _Stretch(text, rewriting, extra, len(rewriting.rows) + extra, dialogue, unbounded)
        moment = self._moment_of(dialogue.first, changes, stretch)
        if unbounded is not None and moment.shortage is None:
            stretch.shut()
            raise unbounded
        return moment

    @staticmethod
    def _moment_of(
        reply: str, changes: List[_TableChange], stretch: _Stretch, change: Optional[Change] = None
    ) -> _Moment:
        result = stretch.rewriting.worth(reply)
        return _Moment(changes, stretch, stretch.position, change, *result)

    def _shut_others(self) -> None:
        """Ends dialogues that are far from the moment, so that few processes are open."""
        stretches: List[_Stretch] = []
        for moment in reversed(self._moments):
            if not stretches or moment.stretch is not stretches[-1]:
                stretches.append(moment.stretch)
        for stretch in stretches[MOST_DIALOGUES:]:
            stretch.shut()
