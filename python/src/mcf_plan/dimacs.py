"""Problems and answers as texts of the DIMACS formats, and each fault of such a text in words."""

from __future__ import annotations

import re
from dataclasses import dataclass, field
from typing import Dict, List, Optional, Tuple

from .formats import (
    ANSWER_FIELDS,
    ARC_FIELDS,
    LONGEST_LINE,
    MOST_ARCS,
    MOST_COST,
    MOST_FLOW,
    MOST_NODES,
    NODE_FIELDS,
    ArcRow,
    Text,
    as_bytes,
    as_str,
    counted,
    written,
)
from .hints import (
    FLOWS_ALONE,
    answer_word_hint,
    count_hint,
    first_word_hint,
    kind_hint,
    long_line_hint,
    number_hint,
    range_hint,
)


@dataclass(frozen=True)
class Fault:
    """The first fault of a text, with the number and line that `mcf` tells, and words to mend it by.

    `line` counts from 1 (0 where the text has no line). `field` is the field's name as the formats have it, as CAP, or
    None where the fault is of the whole line; `value` is what stands there; `expected` is what was expected; `hint`
    says what to do about the commonest mistakes, and is empty elsewhere.
    """

    number: int
    line: int
    field: Optional[str]
    value: Optional[str]
    expected: str
    hint: str = ""

    def __str__(self) -> str:
        return self.words()

    def words(self, name: str = "") -> str:
        """The fault as one line for people, after the name of the file where one is given. Of an empty text neither
        line nor number is told.

        >>> Fault(4, 3, "CAP", "1.5", "a whole number", "There are no fractions.").words("roads.min")
        "roads.min, line 3, CAP: '1.5' stands where a whole number was expected. There are no fractions. (fault 4)"
        """
        if not self.line:
            return f"{name + ': ' if name else ''}{self.expected[:1].upper()}{self.expected[1:]}. {self.hint}"
        place = ", ".join(([name] if name else []) + [f"line {self.line}"] + ([self.field] if self.field else []))
        if self.value is None:
            said = self.expected[:1].upper() + self.expected[1:]
        else:
            said = f"{shown(self.value)} stands where {self.expected} was expected"
        return f"{place}: {said}.{' ' if self.hint else ''}{self.hint} (fault {self.number})"


def shown(value: str) -> str:
    """A value between quotes, cut where it is long, each character that can't be seen by its number."""
    short = value if len(value) <= 40 else value[:37] + "..."
    return "'" + "".join(c if c.isprintable() else written(c) for c in short) + "'"


_BLANKS = re.compile(rb"[ \t\r]+")
_PLAIN = re.compile(rb"[0-9]{1,18}")
_SIGNED = re.compile(rb"-?[0-9]{1,18}")
_WORTH = re.compile(rb"-?[0-9]{1,30}")


def _lines(text: bytes) -> List[bytes]:
    """The pieces between line feeds; the last one counts where it has a byte."""
    pieces = text.split(b"\n")
    if not pieces[-1]:
        pieces.pop()
    return pieces


class _Found(Exception):
    """The fault that was found."""

    def __init__(self, fault: Fault):
        super().__init__()
        self.fault = fault


def _grouped(number: int) -> str:
    return f"{number:,}"


class _LineReader:
    """What reads a text line by line: `line` is the number of the line that is read."""

    line: int

    def fail(
        self, number: int, expected: str, *, name: Optional[str] = None, value: Optional[str] = None, hint: str = ""
    ) -> _Found:
        """The fault of the line that is read, to be raised."""
        return _Found(Fault(number, self.line, name, value, expected, hint))

    def whole(self, name: str, word: bytes, shape: re.Pattern[bytes]) -> int:
        """The number of a field of this shape; a word of another one is fault 4."""
        if shape.fullmatch(word):
            return int(word)
        value, signed = as_str(word), shape is not _PLAIN
        raise self.fail(
            4,
            "a whole number" if signed else "a whole number, 0 or more",
            name=name,
            value=value,
            hint=number_hint(name, value, signed),
        )


class ProblemReader(_LineReader):
    """Reads a problem text line by line up to its first fault, as the program does."""

    def __init__(self) -> None:
        self.kind = ""
        self.nodes = self.wanted = 0
        self.source: Optional[int] = None
        self.sink: Optional[int] = None
        self.supplies: Dict[int, int] = {}
        self.arcs: List[ArcRow] = []
        self.named: Dict[int, int] = {}  # the line that names a node
        self.line = 0
        self.problem_line = self.first_arc_line = self.source_line = self.sink_line = 0

    def number(self, name: str, word: bytes, least: int, most: int) -> int:
        """The number of a field: first its shape (4), then its range (5)."""
        number = self.whole(name, word, _SIGNED if least < 0 else _PLAIN)
        if not least <= number <= most:
            hint = self._node_hint(number) if name in ("ID", "SRC", "DST") else range_hint(name, number)
            raise self.fail(
                5, f"a number from {_grouped(least)} to {_grouped(most)}", name=name, value=as_str(word), hint=hint
            )
        return number

    def _node_hint(self, number: int) -> str:
        """What to do about a node that is not there."""
        if number == 0:
            return "Nodes count from 1."
        hint = f"The problem line {self.problem_line} says that there are {_grouped(self.nodes)} nodes."
        if number > self.nodes and number <= self.wanted:
            hint += f" Do NODES and ARCS stand there the wrong way round? It says {self.nodes} and {self.wanted}."
        return hint

    def count(self, what: str, names: Tuple[str, ...], words: List[bytes]) -> None:
        """Fails (3) unless there are as many fields as names."""
        if len(words) == len(names):
            return
        form = " ".join((what, *names)) if what != "n" or self.kind != "max" else "n ID s` or `n ID t"
        given = "no field" if not words else "1 field" if len(words) == 1 else f"{len(words)} fields"
        hint = count_hint(what, self.kind, names, [as_str(word) for word in words], self.problem_line)
        raise self.fail(3, f"`{form}` was expected, and this line has {given}", hint=hint)

    def read_problem_line(self, words: List[bytes]) -> None:
        """Takes the fields of the problem line."""
        self.count("p", ("KIND", "NODES", "ARCS"), words)
        kind = as_str(words[0])
        if kind not in ARC_FIELDS:
            raise self.fail(8, "min, max or asn", name="KIND", value=kind, hint=kind_hint(kind))
        self.nodes = self.number("NODES", words[1], 1, MOST_NODES)
        self.wanted = self.number("ARCS", words[2], 0, MOST_ARCS)
        self.kind = kind
        self.problem_line = self.line

    def read_node_line(self, words: List[bytes]) -> None:
        """Takes the fields of a node line."""
        self.count("n", NODE_FIELDS[self.kind], words)
        node = self.number("ID", words[0], 1, self.nodes)
        if self.kind == "min":
            supply = self.number("FLOW", words[1], -MOST_FLOW, MOST_FLOW)
        elif self.kind == "max" and words[1] not in (b"s", b"t"):
            value = as_str(words[1])
            hint = "Write it as a small letter." if value in ("S", "T") else ""
            if value.lower().startswith(("so", "fr", "st")):
                hint = "The source is s."
            elif value.lower().startswith(("si", "ta", "to", "en")):
                hint = "The sink is t."
            elif re.fullmatch(r"-?\d+", value):
                hint = f"Nodes have supplies in `min` alone: is the kind on line {self.problem_line} the right one?"
            raise self.fail(17, "s for the source or t for the sink", name="s or t", value=value, hint=hint)
        if node in self.named:
            hint = f"It was named on line {self.named[node]}."
            if self.kind == "min":
                hint += " Write one line with the sum of what it supplies and demands."
            raise self.fail(10, f"node {node} is named a second time", hint=hint)
        if self.kind == "min":
            self.supplies[node] = supply
        elif self.kind == "asn":
            self.supplies[node] = 1
        elif words[1] == b"s":
            self.only_one("source", self.source_line)
            self.source, self.source_line = node, self.line
        else:
            self.only_one("sink", self.sink_line)
            self.sink, self.sink_line = node, self.line
        self.named[node] = self.line

    def only_one(self, what: str, line: int) -> None:
        """Fails (10) where the source, or the sink, was named on a line before."""
        if line:
            raise self.fail(
                10,
                f"a second {what} is named",
                hint=f"The first is on line {line}; for several add a node "
                f"with arcs {'to' if what == 'source' else 'from'} each, and name that.",
            )

    def read_arc_line(self, words: List[bytes]) -> None:
        """Takes the fields of an arc line."""
        self.count("a", ARC_FIELDS[self.kind], words)
        tail = self.number("SRC", words[0], 1, self.nodes)
        head = self.number("DST", words[1], 1, self.nodes)
        low, cap, cost = 0, 1, 0
        if self.kind == "min":
            low = self.number("LOW", words[2], 0, MOST_FLOW)
            cap = self.number("CAP", words[3], 0, MOST_FLOW)
            cost = self.number("COST", words[4], -MOST_COST, MOST_COST)
            cap = self.bounds(tail, head, low, cap)
        elif self.kind == "max":
            cap = self.bounds(tail, head, 0, self.number("CAP", words[2], 0, MOST_FLOW))
        else:
            cost = self.number("COST", words[2], -MOST_COST, MOST_COST)
            if tail not in self.named or head in self.named:
                self.fail_sides(tail, head)
        self.arcs.append((tail, head, low, cap, cost))
        self.first_arc_line = self.first_arc_line or self.line

    def bounds(self, tail: int, head: int, low: int, cap: int) -> int:
        """The capacity of an arc; fails (15) where its lower bound is above it."""
        if cap is not None and low > cap:
            raise self.fail(
                15,
                f"LOW is {low} and above CAP, which is {cap}",
                hint="The fields are `a SRC DST LOW CAP COST`: are two of them the wrong way round?",
            )
        return cap

    def fail_sides(self, tail: int, head: int) -> None:
        """Fails (16) for an arc of an assignment that does not lead from the source side to the sink side."""
        if tail not in self.named and head in self.named:
            hint = f"Turn it round: `a {head} {tail} COST`."
        elif tail in self.named:
            hint = f"Node {head} is on the source side too, by its node line {self.named[head]}."
        else:
            hint = f"Node {tail} has no node line, so it is on the sink side: `n {tail}` puts it on the source side."
        raise self.fail(
            16, f"the arc from {tail} to {head} does not lead from the source side to the sink side", hint=hint
        )

    def read_line(self, raw: bytes) -> None:
        """Takes the next line, without its line feed."""
        self.line += 1
        if len(raw) > LONGEST_LINE:
            raise self.fail(
                1,
                f"the line has {_grouped(len(raw))} bytes, and at most {LONGEST_LINE:,} are taken",
                hint=long_line_hint(raw),
            )
        words = [word for word in _BLANKS.split(raw) if word]
        if not words or words[0].startswith(b"c"):
            return
        what, rest = words[0], words[1:]
        if what not in (b"p", b"n", b"a"):
            word = as_str(what)
            raise self.fail(
                2,
                "p, n, a, or c for a comment",
                name="first word",
                value=word,
                hint=first_word_hint(word, as_str(raw), is_first=self.line == 1),
            )
        if what == b"p":
            if self.kind:
                raise self.fail(
                    7,
                    "a second problem line",
                    hint=f"The first is line {self.problem_line}: has the file two "
                    "problems? Each wants a file of its own.",
                )
            return self.read_problem_line(rest)
        if not self.kind:
            which = "node" if what == b"n" else "arc"
            raise self.fail(
                6,
                f"the problem line has to come before this {which} line",
                hint="Put `p KIND NODES ARCS` first, with kind min, max or asn.",
            )
        if what == b"n":
            if self.arcs:
                raise self.fail(
                    9,
                    "a node line after an arc line",
                    hint="All node lines come before the first arc line, "
                    f"line {self.first_arc_line}: move them, or let `mcf-plan convert` do it.",
                )
            return self.read_node_line(rest)
        if self.kind == "max":
            self.both_ends("before the first arc")
        if len(self.arcs) >= self.wanted:
            raise self.too_many()
        return self.read_arc_line(rest)

    def too_many(self) -> _Found:
        """The fault (12) of an arc line beyond those that the problem line tells."""
        hint = "Put the right number there."
        if self.nodes > self.wanted:
            hint += " Do NODES and ARCS stand there the wrong way round?"
        return self.fail(
            12,
            f"the problem line {self.problem_line} says that there are {self.wanted} arcs, and this is one " "more",
            hint=hint,
        )

    def both_ends(self, when: str) -> None:
        """Fails (11) while source or sink is missing."""
        if self.source is None or self.sink is None:
            what, letter = ("source", "s") if self.source is None else ("sink", "t")
            raise self.fail(11, f"{when} the {what} has to be named", hint=f"Put `n ID {letter}` before the arcs.")

    def read_end(self) -> None:
        """Takes the end of the text."""
        if not self.kind:
            first = "`p KIND NODES ARCS` first, with kind min, max or asn."
            if not self.line:
                raise self.fail(14, "there is nothing in it", hint=f"Is it the right file? A problem has {first}")
            raise self.fail(14, "the text ends without a problem line", hint=f"Put {first}")
        if self.kind == "max":
            self.both_ends("the text ends, and")
        if len(self.arcs) < self.wanted:
            raise self.fail(
                13,
                f"the text ends after {counted(len(self.arcs), 'arc')}, and the problem line {self.problem_line} says "
                f"that there {'is' if self.wanted == 1 else 'are'} {self.wanted}",
                hint="Is the file cut off? Else put the right number there.",
            )

    def read(self, text: Text) -> DimacsProblem:
        """The problem of a whole text."""
        for raw in _lines(as_bytes(text)):
            self.read_line(raw)
        self.read_end()
        return DimacsProblem(self.kind, self.nodes, self.arcs, self.supplies, self.source, self.sink)


def find_fault(text: Text) -> Optional[Fault]:
    """The first fault of a problem text, by the line and number that `mcf` tells; None where there is none.

    >>> find_fault("p min 2 1\\na 1 2 0 1.5 3\\n").hint[:23]
    'There are no fractions:'
    """
    return read_with(ProblemReader(), text)


def read_with(reader: ProblemReader, text: Text) -> Optional[Fault]:
    """Reads a problem text into a reader; the first fault where there is one."""
    try:
        reader.read(text)
    except _Found as found:
        return found.fault
    return None


class _AnswerReader(_LineReader):
    """Reads an answer text up to its first fault, as the program does. Without a problem nothing is counted."""

    def __init__(self, problem: Optional[DimacsProblem]):
        self.problem = problem
        self.answer = Answer()
        self.first = ""
        self.line = 0

    def number(self, name: str, word: bytes, shape: re.Pattern[bytes]) -> int:
        number = self.whole(name, word, shape)
        if name in ("SRC", "DST", "ID") and self.problem is not None and not 1 <= number <= self.problem.nodes:
            raise self.fail(
                5,
                f"a node of the problem, 1 to {_grouped(self.problem.nodes)}",
                name=name,
                value=as_str(word),
                hint="Is this the answer to another problem?",
            )
        return number

    def order(self, what: str) -> None:
        """Fails (40) where the line is out of order."""
        answer, problem = self.answer, self.problem
        flows, potentials = len(answer.flows), len(answer.potentials or ())
        hint = ""
        if what in "si":
            right = not self.first
            hint = "There is one such line, and it comes first."
        elif what == "f":
            right = self.first == "s" and (problem is None or flows < len(problem.arcs)) and not potentials
            if not self.first:
                hint = f"The line `s VALUE` comes first. {FLOWS_ALONE}"
            elif problem is not None and flows >= len(problem.arcs):
                hint = f"The problem has {counted(len(problem.arcs), 'arc')}, and this flow is one too many."
        elif what == "v":
            right = self.first == "s" and (problem is None or flows == len(problem.arcs) and potentials < problem.nodes)
            if not self.first:
                hint = "The line `s VALUE` comes first."
            elif problem is not None and flows < len(problem.arcs):
                arcs = len(problem.arcs)
                hint = f"Before it one f line for each of the {arcs} arcs is needed, flow 0 too; here are {flows}."
        else:
            right = self.first == "i"
            hint = "The line `i SHORTAGE` comes first."
        if not right:
            raise self.fail(40, f"the {what} line is out of order", hint=hint)

    def read_line(self, raw: bytes) -> None:
        self.line += 1
        if len(raw) > LONGEST_LINE:
            raise self.fail(1, f"the line has {_grouped(len(raw))} bytes, and at most {LONGEST_LINE:,} are taken")
        words = [word for word in _BLANKS.split(raw) if word]
        if not words or words[0].startswith(b"c"):
            return
        what, rest = as_str(words[0]), words[1:]
        if what not in ANSWER_FIELDS:
            hint = answer_word_hint(what)
            raise self.fail(2, "s, f, v, i or k, or c for a comment", name="first word", value=what, hint=hint)
        self.order(what)
        names = ANSWER_FIELDS[what]
        if len(rest) != len(names):
            raise self.fail(
                3, f"`{' '.join((what, *names))}` was expected, and this line has {counted(len(rest), 'field')}"
            )
        answer = self.answer
        if what == "s":
            answer.value = self.number("VALUE", rest[0], _WORTH)
        elif what == "i":
            answer.shortage = self.number("SHORTAGE", rest[0], _PLAIN)
        elif what == "f":
            ends = self.number("SRC", rest[0], _PLAIN), self.number("DST", rest[1], _PLAIN)
            answer.flows.append(self.number("FLOW", rest[2], _PLAIN))
            answer.ends.append(ends)
        elif what == "v":
            node, potential = self.number("ID", rest[0], _PLAIN), self.number("POTENTIAL", rest[1], _SIGNED)
            if answer.potentials is None:
                answer.potentials = []
            if node != len(answer.potentials) + 1:
                raise self.fail(
                    40,
                    f"node {len(answer.potentials) + 1}",
                    name="ID",
                    value=str(node),
                    hint="The v lines come from node 1 on, one for each.",
                )
            answer.potentials.append(potential)
        else:
            node = self.number("ID", rest[0], _PLAIN)
            if answer.cut and node <= answer.cut[-1]:
                raise self.fail(
                    40,
                    f"a node above {answer.cut[-1]}",
                    name="ID",
                    value=str(node),
                    hint="The k lines come in rising order.",
                )
            answer.cut.append(node)
        self.first = self.first or what

    def read_end(self) -> None:
        answer, problem = self.answer, self.problem
        if not self.first:
            raise self.fail(
                40, "the text ends without an answer", hint="An answer begins with `s VALUE` or `i SHORTAGE`."
            )
        if self.first == "s" and problem is not None:
            if len(answer.flows) < len(problem.arcs):
                raise self.fail(
                    40,
                    f"the text ends after {counted(len(answer.flows), 'f line')}, and the problem has "
                    f"{counted(len(problem.arcs), 'arc')}",
                    hint="Is it cut off?",
                )
            if len(answer.potentials or ()) < problem.nodes:
                raise self.fail(
                    40,
                    f"the text ends after {counted(len(answer.potentials or ()), 'v line')}, and the problem has "
                    f"{counted(problem.nodes, 'node')}",
                    hint="Make the answer with `mcf solve --proof`; for the answer of another program "
                    "`mcf-plan check --from` works the v lines out.",
                )

    def read(self, text: Text) -> Answer:
        for raw in _lines(as_bytes(text)):
            self.read_line(raw)
        self.read_end()
        return self.answer


def find_answer_fault(problem: Text, answer: Text) -> Optional[Fault]:
    """The first fault of an answer text to a problem without faults; None where there is none."""
    try:
        _AnswerReader(parse_problem(problem)).read(answer)
    except _Found as found:
        return found.fault
    return None


@dataclass
class DimacsProblem:
    """A problem as the formats have it: nodes are 1 to `nodes`, all numbers are whole.

    `arcs` are (tail, head, low, cap, cost) in the order of their lines, in every kind: in `max` low and cost are 0, in
    `asn` low is 0 and cap is 1. `supplies` holds what is not 0: in `asn` 1 for each node of the source side, in `max`
    nothing. `source` and `sink` are of `max` alone.

    >>> print(DimacsProblem("min", 2, [(1, 2, 0, 5, 3)], {1: 2, 2: -2}).text(), end="")
    p min 2 1
    n 1 2
    n 2 -2
    a 1 2 0 5 3
    """

    kind: str
    nodes: int
    arcs: List[ArcRow]
    supplies: Dict[int, int] = field(default_factory=dict)
    source: Optional[int] = None
    sink: Optional[int] = None

    def supply(self, node: int) -> int:
        """What a node supplies, or demands where below 0: in `asn` each node that is not of the source side demands 1."""
        return self.supplies.get(node, -1 if self.kind == "asn" else 0)

    def text(self) -> str:
        """The problem as a text that `mcf` reads, where its numbers are within the limits."""
        pieces = [f"p {self.kind} {self.nodes} {len(self.arcs)}\n"]
        if self.kind == "min":
            pieces += [f"n {node} {supply}\n" for node, supply in sorted(self.supplies.items()) if supply]
            form = "a %d %d %d %d %d\n".__mod__
        elif self.kind == "max":
            pieces += [f"n {self.source} s\n", f"n {self.sink} t\n"]
            form = "a %d %d %.0s%d%.0s\n".__mod__
        else:
            pieces += [f"n {node}\n" for node in sorted(self.supplies)]
            form = "a %d %d %.0s%.0s%d\n".__mod__
        # Some lines at a time, so that not all are there beside the text.
        for at in range(0, len(self.arcs), 10_000):
            pieces.append("".join(map(form, self.arcs[at : at + 10_000])))
        return "".join(pieces)


def parse_problem(text: Text) -> DimacsProblem:
    """The problem of a text. Raises ValueError with the fault in words where it has one."""
    try:
        return ProblemReader().read(text)
    except _Found as found:
        raise ValueError(found.fault.words()) from None


@dataclass
class Answer:
    """An answer to a problem: a flow, with `value`, `flows` and `potentials` (None where it has no `v` lines), or a
    cut, with `shortage` and `cut` (the numbers of its nodes, rising). `ends` are the tail and head of each `f` line.
    """

    value: Optional[int] = None
    shortage: Optional[int] = None
    flows: List[int] = field(default_factory=list)
    potentials: Optional[List[int]] = None
    cut: List[int] = field(default_factory=list)
    ends: List[Tuple[int, int]] = field(default_factory=list)

    @property
    def is_flow(self) -> bool:
        """Whether it is a flow, and not a cut."""
        return self.shortage is None

    def text(self) -> str:
        """The answer as a text that `mcf check` reads, where it has potentials or is a cut."""
        if self.shortage is not None:
            return "".join([f"i {self.shortage}\n", *(f"k {node}\n" for node in self.cut)])
        lines = [f"s {self.value}\n"]
        lines += [f"f {tail} {head} {flow}\n" for (tail, head), flow in zip(self.ends, self.flows)]
        lines += [f"v {node} {potential}\n" for node, potential in enumerate(self.potentials or [], 1)]
        return "".join(lines)


def parse_answer(text: Text, *, with_ends: bool = True) -> Answer:
    """The answer of a text as `mcf solve`, `show` and `proof` print it. Raises ValueError where it is none.

    `with_ends` False leaves the ends of its arcs away, of which it then may say nothing.

    >>> parse_answer("i 1\\nk 2\\n").cut
    [2]
    """
    raw = as_bytes(text)
    quick = _quick_answer(raw, with_ends)
    if quick is not None:
        return quick
    try:
        return _AnswerReader(None).read(raw)
    except _Found as found:
        raise ValueError(found.fault.words()) from None


def _quick_answer(raw: bytes, with_ends: bool) -> Optional[Answer]:
    """The answer, where the text is a flow in the very form that the program prints; else None."""
    if not raw.startswith(b"s ") or not raw.endswith(b"\n"):
        return None
    flows_at = raw.index(b"\n") + 1
    labels_at = raw.find(b"\nv ") + 1 or len(raw)
    try:
        value = int(raw[2:flows_at])
        told = _columns(raw[flows_at:labels_at], b"f", (1, 2, 3) if with_ends else (3,))
        labels = _columns(raw[labels_at:], b"v", (1, 2))
    except ValueError:
        return None
    if told is None or labels is None or labels[0] != list(range(1, len(labels[0]) + 1)):
        return None
    ends = list(zip(told[0], told[1])) if with_ends else []
    return Answer(value, flows=told[-1], potentials=labels[1] or None, ends=ends)


def _columns(part: bytes, letter: bytes, places: Tuple[int, ...]) -> Optional[List[List[int]]]:
    """The numbers at some places of lines that begin with a letter; None where a line is of another form. The lines are
    taken some at a time, so that not all words of a long text are there at once."""
    width = 4 if letter == b"f" else 3
    columns: List[List[int]] = [[] for _ in places]
    at = 0
    while at < len(part):
        end = part.find(b"\n", at + 65_536) + 1 or len(part)
        words = part[at:end].split()
        lines = part.count(b"\n", at, end)
        if len(words) != width * lines or words[::width].count(letter) != lines:
            return None
        for column, place in zip(columns, places):
            column += map(int, words[place::width])
        at = end
    return columns
