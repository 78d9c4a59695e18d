"""A what-if session in words: commands by the names of the tables, one a line."""

from __future__ import annotations

import difflib
import shlex
import unicodedata
from contextlib import ExitStack, suppress
from decimal import Decimal
from typing import Callable, Dict, List, Optional, Sequence, TextIO, Tuple

from .cells import NO_LIMIT
from .outputs import write_text
from .plan import Infeasible
from .printing import of_system, print_table, say, tell
from .problem import ArcKey, SeveralArcs, plain, total_of
from .program import TimeLimit
from .questions import named_arc, which
from .rewrite import CannotRewrite
from .session import EditRefused, Session
from .tables import check_kept, write_plan

HELP = """cap ARC VALUE        set a capacity (inf: no limit)      show           the plan, or why there is none
low ARC VALUE        set a lower bound                   why            why there is no plan
cost ARC VALUE       set a cost                          saves          what one unit more saves, arc by arc
supply NODE VALUE    set a supply (below 0: demand)      undo, redo     go back by one step, and forward
close ARC            set its bounds to 0                 mark NAME      name this moment
add FROM TO [capacity V] [cost V] [low V] [name N]       back NAME      go to that moment
group .. end         several edits as one step           moments        the marks and their costs
report FILE          write a report (HTML)               write FILE     write the problem as it stands
table FILE           write the plan (.csv, .xlsx)        proof FILE     write the answer for mcf check
An ARC is its name, its ends (FROM TO), or #3 for the third; names with blanks stand in quotes. quit ends it."""

Command = Callable[[List[str]], object]
"""What a command does with the words behind it."""

MOST_ALIKE = 5000
"""Among more names none that is alike is looked for: it takes seconds."""
ENDS = ("quit", "exit", "q")
"""Commands that end the conversation."""
ALONE = ("undo", "redo", "show", "why", "saves", "moments", "group", "end", "help")
"""Commands that take no words."""
WANTED = {
    **dict.fromkeys(("cap", "capacity", "low", "cost"), (2, "an arc and a number")),
    "supply": (2, "a node and a number"),
    "close": (1, "an arc"),
    "add": (2, "both ends, and then pairs as `capacity 5 cost 2`"),
    "back": (1, "the name of a mark"),
    "mark": (1, "a name"),
    **dict.fromkeys(("write", "proof", "report", "table"), (1, "the name of a file")),
}
"""How many words the other commands want at least, and what they are."""


def words_of(line: str) -> List[str]:
    """The words of a line, their letters as tables have them; none of a remark. Raises EditRefused where a quotation
    mark is not closed."""
    if line.lstrip().startswith("#"):
        return []
    try:
        return shlex.split(unicodedata.normalize("NFC", line))
    except ValueError:
        raise EditRefused("a quotation mark or a backslash stands alone; names with blanks stand in quotes") from None


def one(words: List[str]) -> str:
    """The one word that is expected."""
    if len(words) != 1:
        raise EditRefused(f"one name was expected, and {len(words)} are there; names with blanks stand in quotes")
    return words[0]


def number(text: str) -> str:
    """A number as it was typed, or pasted with the minus sign of a text. Raises EditRefused where it has a comma, which
    may be meant in two ways."""
    if "," in text:
        raise EditRefused(f"{text} is no number; write a point before the decimals, and nothing between thousands")
    return text.replace("\N{MINUS SIGN}", "-")


def limit(text: str) -> str:
    """A capacity as it was typed; no limit by the words that tables have for it."""
    return "inf" if text.lower() in NO_LIMIT else number(text)


def names_in(command: str, words: List[str]) -> List[str]:
    """The words behind a command that are names, and no numbers.

    >>> names_in("cap", ["A", "B", "5"]), names_in("add", ["A", "B", "cost", "5"]), names_in("close", ["A", "B"])
    (['A', 'B'], ['A', 'B'], ['A', 'B'])
    """
    if command == "add":
        return words[:2]
    return words if command == "close" else words[:-1]


class Conversation:
    """A what-if session in words: `session` answers, `out` takes what is said. No file takes the place of one of the
    tables `inputs`, nor of the file of `commands`.

    `not_done` are the lines that were not done, by their numbers from 1, each with the reason.
    """

    def __init__(
        self,
        session: Session,
        out: TextIO,
        is_terminal: bool = False,
        inputs: Sequence[str] = (),
        commands: Optional[str] = None,
    ):
        self.session = session
        self.out = out
        self.is_terminal = is_terminal
        self.inputs = inputs
        self.commands = commands
        self.marked: Dict[str, str] = {}
        self.line = 0  # the number of the line that is answered
        self.not_done: List[Tuple[int, BaseException]] = []
        self.group: Optional[ExitStack] = None
        self.before: Optional[Decimal] = None  # the cost where the group began
        self.refusal: Optional[str] = None  # why the group is refused whose lines are passed over
        self.edits: Dict[str, Command] = {
            "cap": lambda words: session.set_cap(self.arc(words[:-1]), limit(words[-1])),
            "capacity": lambda words: session.set_cap(self.arc(words[:-1]), limit(words[-1])),
            "low": lambda words: session.set_low(self.arc(words[:-1]), number(words[-1])),
            "cost": lambda words: session.set_cost(self.arc(words[:-1]), number(words[-1])),
            "supply": lambda words: session.set_supply(one(words[:-1]), number(words[-1])),
            "close": lambda words: session.close(self.arc(words)),
            "add": self.add,
        }
        self.steps: Dict[str, Command] = {
            "undo": lambda words: session.undo(),
            "redo": lambda words: session.redo(),
            "back": lambda words: session.back(one(words)),
        }
        self.tells: Dict[str, Command] = {
            "show": lambda words: tell(session.plan(check=True), self.out),
            "why": lambda words: self.why(),
            "saves": lambda words: self.saves(),
            "mark": lambda words: self.mark(one(words)),
            "moments": lambda words: self.moments(),
            "write": lambda words: self.write(one(words), session.text, is_problem=True),
            "proof": lambda words: self.write(one(words), session.proof, is_problem=False),
            "report": lambda words: self.report(one(words)),
            "table": lambda words: self.table(one(words)),
            "group": lambda words: self.open_group(),
        }
        self.at_any_time: Dict[str, Command] = {
            "help": lambda words: self.say(HELP),
            "end": lambda words: self.end_group(),
        }

    def say(self, words: str) -> None:
        """Prints words at once, with names as `visible` has them."""
        say(words, self.out)

    def run(self, source: TextIO) -> None:
        """Reads commands up to the end or `quit`. Ctrl-C stops an edit, and not the conversation."""
        self.say(self.standing())
        if self.is_terminal:
            try:
                import readline  # noqa: F401
            except ImportError:
                pass
            self.say("`help` tells the commands")
        while True:
            try:
                line = input("what if> ") if self.is_terminal else source.readline().lstrip("\ufeff")
            except EOFError:
                self.say("")
                break
            except KeyboardInterrupt:
                self.say("")
                continue
            if not line and not self.is_terminal:
                break
            self.line += 1
            if not self.is_terminal and line.strip():
                self.say(f"what if> {line.strip()}")
            if line.strip().lower() in ENDS:
                break
            try:
                self.answer(line)
            except KeyboardInterrupt as error:
                self.not_done.append((self.line, error))
                self.say("interrupted: nothing is changed")
        if self.group is not None or self.refusal is not None:
            endless = EditRefused("the group has no end")
            self.not_done.append((self.line, endless))
            self.leave_group(endless)
            self.say("the group has no end: none of its edits is made")

    def answer(self, line: str) -> None:
        """Does what a line says."""
        if self.refusal is not None:
            return self.pass_over(line)
        try:
            words = words_of(line)
            if words:
                self.do("help" if words[0] == "?" else words[0].lower(), words[1:])
        except (EditRefused, CannotRewrite, ValueError) as error:
            self.refuse(error, str(error))
        except SeveralArcs as error:
            self.refuse(error, which(error))
        except KeyError as error:
            self.refuse(error, str(error.args[0]) + self.meant(names_in(words[0].lower(), words[1:])))
        except TimeLimit as error:
            self.not_done.append((self.line, error))
            self.say(f"stopped, nothing is changed: {error}")
        except OSError as error:
            self.not_done.append((self.line, error))
            self.say(f"not written: {of_system(error)}")

    def refuse(self, error: Exception, reason: str) -> None:
        """Tells that a line is refused, and with it the group that it stands in."""
        self.not_done.append((self.line, error))
        if self.group is None:
            return self.say(f"refused, nothing is changed: {reason}")
        self.leave_group(error)
        self.refusal = reason
        return self.say(f"refused: {reason}; the whole group is refused, and its lines up to `end` are passed over")

    def meant(self, words: List[str]) -> str:
        """What may have been meant by words that name nothing, in words."""
        nodes, arcs = self.session.problem.nodes, self.session.problem.arc_names()
        if len(nodes) + len(arcs) > MOST_ALIKE:
            return ""
        spelled = {name.lower(): name for name in (*nodes, *arcs)}
        for word in words:
            if word not in nodes and word not in arcs and not word.startswith("#"):
                for near in difflib.get_close_matches(word.lower(), spelled, 1):
                    return f"; did you mean {spelled[near]}?"
        return ""

    def pass_over(self, line: str) -> None:
        """Passes over a line of a refused group, up to its `end`."""
        if line.lower().split() == ["end"]:
            reason, self.refusal = self.refusal, None
            self.say(f"the group is refused, nothing is changed: {reason}")
        elif line.strip() and not line.lstrip().startswith("#"):
            self.say("passed over")

    def do(self, word: str, words: List[str]) -> None:
        """Does one command."""
        does_step = word in self.edits or word in self.steps
        if word in ENDS:
            raise EditRefused(f"{word} stands alone, and {' '.join(words)} stands behind it")
        if not does_step and word not in self.tells and word not in self.at_any_time:
            raise EditRefused(f"there is no command {word}; `help` tells them")
        if words and word in ALONE:
            raise EditRefused(f"{word} stands alone, and {' '.join(words)} stands behind it")
        least, wanted = WANTED.get(word, (0, ""))
        if len(words) < least:
            raise EditRefused(f"{word} wants {wanted}; `help` tells more")
        if self.group is not None and word not in self.edits and word not in self.at_any_time:
            raise EditRefused(f"a group is open, and {word} has to wait for its end")
        if not does_step:
            (self.tells.get(word) or self.at_any_time[word])(words)
            return
        before = self.session.cost
        (self.edits.get(word) or self.steps[word])(words)
        if self.group is None:
            self.say(self.standing(self.change_from(before)))

    def change_from(self, before: Optional[Decimal]) -> Optional[str]:
        """By how much the moment costs more than one before; None where one of them has no plan."""
        cost = self.session.cost
        return None if before is None or cost is None else plain(cost - before)

    def standing(self, change: Optional[str] = None) -> str:
        """The moment in words, and by how much it costs more than before."""
        session = self.session
        if session.cost is None:
            return f"no plan: short by {plain(session.shortage or total_of([]))}; `why` tells more"
        what = "flow" if session.problem.kind == "max" else "cost"
        if change is None or change == "0":
            return f"{what} {plain(session.cost)}" + ("" if change is None else ", as before")
        return f"{what} {plain(session.cost)} ({change[1:] + ' less' if change[0] == '-' else change + ' more'})"

    def arc(self, words: List[str]) -> ArcKey:
        """An arc by its name, `#K`, or its ends, quoted as one word or not. Raises KeyError where it is none."""
        if len(words) == 3 and words[1] == "to":
            return words[0], words[2]
        if len(words) == 2:
            return words[0], words[1]
        if len(words) != 1:
            raise EditRefused(
                "an arc is its name, its two ends, or # and its number; names with blanks stand in quotes"
            )
        return named_arc(self.session.problem, words[0])

    def add(self, words: List[str]) -> None:
        """Adds an arc."""
        if len(words) > 2 and words[1] == "to":
            del words[1]
        if len(words) < 2 or len(words) % 2:
            raise EditRefused(f"add wants {WANTED['add'][1]}")
        known = {"capacity": "cap", "cap": "cap", "cost": "cost", "low": "low", "name": "name"}
        given: Dict[str, str] = {}
        for what, value in zip(words[2::2], words[3::2]):
            if what not in known:
                raise EditRefused(f"{what} is none of capacity, cost, low and name")
            if known[what] in given:
                raise EditRefused(f"{what} stands there twice, or under two names")
            given[known[what]] = value if what == "name" else limit(value) if known[what] == "cap" else number(value)
        self.session.add_arc(
            words[0],
            words[1],
            low=given.get("low", 0),
            cap=given.get("cap"),
            cost=given.get("cost", 0),
            name=given.get("name"),
        )

    def open_group(self) -> None:
        """Opens a group: what follows up to `end` is made together, or refused together."""
        self.before = self.session.cost
        group = ExitStack()
        group.enter_context(self.session.group())
        self.group = group

    def end_group(self) -> None:
        """Makes the edits of the group."""
        if self.group is None:
            raise EditRefused("no group is open")
        group, self.group = self.group, None
        group.close()
        self.say(self.standing(self.change_from(self.before)))

    def leave_group(self, error: Exception) -> None:
        """Leaves the group without its edits."""
        group, self.group = self.group, None
        if group is not None:
            with suppress(type(error)):
                group.__exit__(type(error), error, None)

    def why(self) -> None:
        """Says why there is no plan."""
        result = self.session.plan(check=True)
        self.say(result.explain() if isinstance(result, Infeasible) else "there is a plan")

    def saves(self) -> None:
        """Prints what one unit more saves, or adds to a maximum flow, arc by arc."""
        from .sensitivity import one_unit_more

        does = "adds" if self.session.problem.kind == "max" else "saves"
        rows = [["arc", f"one more {does}"]]
        for arc, amount in zip(self.session.problem.arcs, one_unit_more(self.session)):
            if amount:
                rows.append([arc.label, plain(amount)])
        if len(rows) == 1:
            return self.say(f"no arc: one unit more of capacity {does} nothing")
        return print_table(rows, 1, self.out)

    def mark(self, name: str) -> None:
        """Names the moment."""
        self.session.mark(name)
        self.marked[name] = self.standing()
        self.say(f"{name}: {self.standing()}")

    def moments(self) -> None:
        """Prints the marks and what costs how much there."""
        for name in self.session.marks:
            self.say(f"{name}: {self.marked[name]}")

    def check_kept(self, name: str, *, is_problem: bool = False) -> None:
        """Raises TableFault where a file would take the place of what is read."""
        check_kept(name, self.inputs, is_problem=is_problem)
        if self.commands:
            check_kept(name, [self.commands])

    def write(self, name: str, text: Callable[[], str], *, is_problem: bool) -> None:
        """Writes a text to a file."""
        self.check_kept(name, is_problem=is_problem)
        write_text(name, text())
        self.say(f"written to {name}")

    def report(self, name: str) -> None:
        """Writes the report to a file."""
        from .report import html_report

        self.check_kept(name)
        html_report(self.session.plan(check=True), name)
        self.say(f"written to {name}")

    def table(self, name: str) -> None:
        """Writes the plan as a table to a file, where there is one."""
        self.check_kept(name)
        result = self.session.plan(check=True)
        if isinstance(result, Infeasible):
            raise EditRefused("there is no plan to write")
        write_plan(result, name)
        self.say(f"written to {name}")
