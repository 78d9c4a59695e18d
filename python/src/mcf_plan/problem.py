"""Problem: named nodes and arcs with exact decimals, as the tables have them."""

from __future__ import annotations

import operator
import re
from decimal import Context, Decimal, InvalidOperation
from fractions import Fraction
from functools import lru_cache
from numbers import Real
from typing import (
    TYPE_CHECKING,
    Any,
    Callable,
    Collection,
    Dict,
    Iterable,
    Iterator,
    List,
    NamedTuple,
    Optional,
    Tuple,
    Union,
)

from .dimacs import ProblemReader, read_with
from .formats import ARC_FIELDS, Text

if TYPE_CHECKING:
    from .plan import Infeasible, Plan
    from .program import Program
    from .rewrite import Surplus

Number = Union[int, str, float, Decimal, Fraction]
"""What a number may be given as. A float is taken by its `repr`: 0.1 is one tenth."""

ArcKey = Union[int, str, Tuple[str, str]]
"""An arc by its number (from 0), its name or `TAIL to HEAD`, or its ends."""

Listed = Union[int, List[int]]
"""The number of the one arc that is called so, or the numbers of several."""

WIDE = Context(prec=200)
"""Wide enough for every sum and product of numbers of tables: nothing is rounded."""

MOST_READ = 1_000_000
"""So many nodes and arcs of a text are read, to be told then what the limits are."""

ZERO = Decimal(0)
ONE = Decimal(1)


class Arc(NamedTuple):
    """An arc of a table: flow from `tail` to `head`, within `low` and `cap`, at `cost` a unit.

    `cap` None is no limit. In `asn` low is 0 and cap is 1; in `max` cost is 0. `name` is what the table calls the arc.
    """

    tail: str
    head: str
    low: Decimal
    cap: Optional[Decimal]
    cost: Decimal
    name: Optional[str] = None

    @property
    def label(self) -> str:
        """What to call the arc in words: its name, or `TAIL to HEAD`."""
        return self.name if self.name else f"{self.tail} to {self.head}"


def exact(value: Number, what: str = "the number") -> Decimal:
    """The exact decimal of a number. Raises ValueError, which says `what`, where it is not finite or no number.

    >>> exact(0.1), exact("2.50"), exact(-0.0)
    (Decimal('0.1'), Decimal('2.50'), Decimal('0'))
    """
    try:
        return _of_text(value) if type(value) is str else _in_range(_of_number(value))
    except _OutOfRange as reason:
        raise ValueError(f"{what} is {value!r}, {reason}") from None
    except (InvalidOperation, ValueError, TypeError):
        raise ValueError(f"{what} is {value!r}, and has to be a decimal number") from None


class _OutOfRange(Exception):
    """A number is not finite, or has too many digits; the message says which."""


@lru_cache(maxsize=10_000)
def _of_text(text: str) -> Decimal:
    """The decimal of a text. Numbers of tables repeat, and then share their decimal."""
    return _in_range(Decimal(text), is_short=len(text) <= 60)


def _in_range(number: Decimal, *, is_short: bool = False) -> Decimal:
    """The number, where it can be written out in 60 digits, as a short one can. Raises _OutOfRange elsewhere."""
    if not number.is_finite():
        raise _OutOfRange("and has to be a finite number")
    if not number:
        return ZERO
    if not -60 <= number.adjusted() <= 60 or not is_short and len(number.as_tuple().digits) > 60:
        raise _OutOfRange("which has more than 60 digits")
    return number


def _of_number(value: Any) -> Decimal:
    """The decimal of a number that is no plain text."""
    if isinstance(value, (int, str, Decimal)):
        return Decimal(value)
    if isinstance(value, float):
        return Decimal(float.__repr__(value))
    if isinstance(value, Fraction):
        return _decimal_of(value)
    if hasattr(value, "__index__"):
        return Decimal(operator.index(value))
    if not hasattr(value, "__float__"):
        raise TypeError  # As a period of pandas, which is written as its year.
    return Decimal(str(value))


def _decimal_of(fraction: Fraction) -> Decimal:
    """The decimal of a fraction. Raises ValueError where it has none with an end, as a third."""
    rest, places = fraction.denominator, 0
    for factor in (2, 5):
        count = 0
        while rest % factor == 0:
            rest //= factor
            count += 1
        places = max(places, count)
    if rest != 1:
        raise ValueError
    return Decimal(int(fraction * 10**places)).scaleb(-places, WIDE)


def capacity(value: Optional[Number], what: str = "the capacity") -> Optional[Decimal]:
    """The exact decimal of a capacity; None where it is None or infinite, which is no limit."""
    if value is None or (isinstance(value, (float, Real)) and value == float("inf")):
        return None
    if isinstance(value, Decimal) and value.is_infinite() and value > 0:
        return None
    if isinstance(value, str) and re.fullmatch(r"\s*\+?(inf|infinity|∞)\s*", value, re.IGNORECASE):
        return None
    return exact(value, what)


def plain(value: Decimal) -> str:
    """A decimal written out, without exponent and without zeros at its end.

    >>> plain(Decimal("2.50")), plain(Decimal("1E+3"))
    ('2.5', '1000')
    """
    text = format(value, "f")
    return text.rstrip("0").rstrip(".") if "." in text else text


def total_of(numbers: Iterable[Decimal]) -> Decimal:
    """The sum, not rounded."""
    total = ZERO
    for number in numbers:
        total = WIDE.add(total, number)
    return total


class SeveralArcs(KeyError):
    """More than one arc is called so: those with these `numbers`, from 0."""

    def __init__(self, name: str, numbers: List[int]):
        super().__init__(f"there are several arcs {name}: say which by its number")
        self.numbers = numbers


class Problem:
    """A problem in the words of its tables. It grows by `add_node` and `add_arc`, and answers by `solve`.

    `kind` is 'min' (least cost), 'max' (maximum flow from `source` to `sink`) or 'asn' (assignment: each node with
    supply 1 is on the source side, each with -1 on the sink side).
    `balance` (of `min`) says what a node's supply means: what leaves it less what comes in is 'equal' to it, 'at least'
    or 'at most' it.
    `nodes` maps names to supplies in their order; `arcs` are numbered from 0. Both are read, and not written to, by
    callers. `notes` say what of a text or a table was read otherwise than it stands there. `places` are where nodes
    stand on a map, x to the right and y upwards, where a table says so; no answer depends on them.
    """

    def __init__(
        self, kind: str = "min", *, balance: str = "equal", source: Optional[str] = None, sink: Optional[str] = None
    ):
        if kind not in ARC_FIELDS:
            raise ValueError(f"the kind is {kind!r}, and has to be 'min', 'max' or 'asn'")
        if balance not in ("equal", "at least", "at most"):
            raise ValueError(f"the balance is {balance!r}, and has to be 'equal', 'at least' or 'at most'")
        self.kind = kind
        self.balance = balance
        self.nodes: Dict[str, Decimal] = {}
        self.arcs: List[Arc] = []
        self.source = source
        self.sink = sink
        self.notes: List[str] = []
        self.places: Dict[str, Tuple[float, float]] = {}
        # The arcs by their names, and by their ends as a pair and as `TAIL to HEAD`; several in their order.
        self._by_name: Dict[str, Listed] = {}
        self._by_ends: Dict[Union[str, Tuple[str, str]], Listed] = {}
        self._listed = 0  # so many arcs are in them

    def add_node(self, name: str, supply: Number = 0) -> None:
        """Adds a node that supplies so much, or demands it where below 0. Raises ValueError where it is there already,
        TypeError where its name is no text."""
        _check_name(name)
        if name in self.nodes:
            raise ValueError(f"node {name!r} is there already")
        self.nodes[name] = exact(supply, f"the supply of {name}")

    def add_arc(
        self,
        tail: str,
        head: str,
        *,
        low: Number = 0,
        cap: Optional[Number] = None,
        cost: Number = 0,
        name: Optional[str] = None,
    ) -> int:
        """Adds an arc and returns its number, from 0. Ends that are not there yet are added with supply 0; in `asn`
        with 1 for a tail, and -1 for a head.

        `cap` None, or infinite, is no limit. Raises ValueError where low is above cap, TypeError where a name is no
        text.
        """
        arc = self.make_arc(tail, head, low, cap, cost, name)
        for end, supply in ((tail, ONE), (head, -ONE)):
            if end not in self.nodes:
                self.nodes[end] = supply if self.kind == "asn" else ZERO
        self.append_arc(arc)
        return len(self.arcs) - 1

    def make_arc(
        self, tail: str, head: str, low: Number, cap: Optional[Number], cost: Number, name: Optional[str]
    ) -> Arc:
        """An arc of exact numbers. Raises ValueError where one is none, or low is above cap, TypeError where a name is
        no text."""
        for text in (tail, head) if name is None else (tail, head, name):
            _check_name(text)
        label = name or f"{tail} to {head}"
        least = exact(low, f"the lower bound of {label}")
        most = capacity(cap, f"the capacity of {label}")
        if most is None and self.kind == "asn":
            most = ONE
        if most is not None and most < 0 == least:
            raise ValueError(f"the capacity of {label} is {plain(most)}, below 0")
        if most is not None and least > most:
            raise ValueError(f"the lower bound of {label} is {plain(least)}, and above its capacity, {plain(most)}")
        return Arc(tail, head, least, most, exact(cost, f"the cost of {label}"), name)

    def find_arc(self, which: ArcKey) -> int:
        """The number of an arc by its number, its name, `TAIL to HEAD`, or the pair (tail, head).

        Raises KeyError where there is none, and SeveralArcs, which is one too, where there are more.
        """
        if not isinstance(which, (str, tuple)):
            number = operator.index(which)
            if not 0 <= number < len(self.arcs):
                raise KeyError(f"there is no arc {number}: they are numbered from 0 to {len(self.arcs) - 1}")
            return number
        self._list_arcs()
        found = self._by_name.get(which) if isinstance(which, str) else None  # A name goes before ends.
        if found is None:
            found = self._by_ends.get(which)
        if found is None:
            raise KeyError(f"there is no arc {_called(which)}")
        if isinstance(found, list):
            raise SeveralArcs(_called(which), list(found))
        return found

    def arc_names(self) -> Collection[str]:
        """The names that arcs have."""
        self._list_arcs()
        return self._by_name.keys()

    def append_arc(self, arc: Arc) -> None:
        """Adds an arc as `make_arc` makes it, whose ends are there."""
        self.arcs.append(arc)

    def replace_arc(self, number: int, arc: Arc) -> None:
        """Puts another arc in the place of an arc."""
        before = self.arcs[number]
        if (before.tail, before.head, before.name) != (arc.tail, arc.head, arc.name):
            self._list_anew()
        self.arcs[number] = arc

    def remove_last_arc(self) -> None:
        """Takes the last arc away."""
        arc = self.arcs.pop()
        if self._listed > len(self.arcs):
            self._listed = len(self.arcs)
            for listed, key in self._keys_of(arc):
                _unlist(listed, key)

    def _list_arcs(self) -> None:
        """Lists the arcs that were added since they were listed."""
        for number in range(self._listed, len(self.arcs)):
            for listed, key in self._keys_of(self.arcs[number]):
                _list(listed, key, number)
        self._listed = len(self.arcs)

    def _keys_of(self, arc: Arc) -> Iterator[Tuple[Dict[Any, Listed], Any]]:
        """Where an arc is listed, and as what."""
        yield self._by_ends, (arc.tail, arc.head)
        yield self._by_ends, f"{arc.tail} to {arc.head}"
        if arc.name:
            yield self._by_name, arc.name

    def _list_anew(self) -> None:
        """Has all arcs listed once more where one is looked for."""
        self._by_name, self._by_ends, self._listed = {}, {}, 0

    def copy(self) -> Problem:
        """The same problem, to be changed apart."""
        other = Problem(self.kind, balance=self.balance, source=self.source, sink=self.sink)
        other.nodes, other.arcs, other.notes = dict(self.nodes), list(self.arcs), list(self.notes)
        other.places = dict(self.places)
        return other

    @classmethod
    def from_dimacs(cls, text: Text) -> Problem:
        """The problem of a text of the formats, or of another program's spelling of them; nodes are named 1, 2, ..

        What is taken beyond the formats: node lines after arc lines, `+3`, `3.0`, `3e2`, fractions, numbers of any
        size, lower bounds below 0, capacities `inf` or below 0 and below the lower bound (no limit), comments behind
        the fields or behind `#` and `%`, a byte order mark. `notes` say which capacities were read as no limit.
        Raises Refused where the text has another fault.

        >>> Problem.from_dimacs("p min 2 1\\na 1 2 0 inf 4.5 c a road\\nn 1 +3\\nn 2 -3\\n").arcs[0].cost
        Decimal('4.5')
        """
        reader = ProblemReader()
        if read_with(reader, text) is not None:
            reader = _SpellingReader()
            fault = read_with(reader, text)
            if fault is not None:
                from .program import Refused

                raise Refused(fault, text)
        problem = cls(reader.kind)
        problem.nodes = dict.fromkeys(map(str, range(1, reader.nodes + 1)), -ONE if reader.kind == "asn" else ZERO)
        for node, supply in reader.supplies.items():
            problem.nodes[str(node)] = Decimal(supply)
        if reader.kind == "max":
            problem.source, problem.sink = str(reader.source), str(reader.sink)
        problem.arcs = [
            Arc(str(tail), str(head), Decimal(low), None if cap is None else Decimal(cap), Decimal(cost))
            for tail, head, low, cap, cost in reader.arcs
        ]
        if isinstance(reader, _SpellingReader):
            problem.notes = reader.notes
        return problem

    @classmethod
    def from_frames(cls, nodes: Any, arcs: Any, **options: Any) -> Problem:
        """The problem of two frames of pandas, or of one alone (`nodes` None): `tables.read_tables` says which columns
        are taken, and what `options` there are. `nodes` may be a list of frames.

        Raises TableFault where a row or a column can't be read, TypeError for what is no frame.
        """
        from .tables import read_tables

        return read_tables(nodes, arcs, **options)

    def solve(
        self,
        program: Optional[Program] = None,
        *,
        surplus: Surplus = "refuse",
        time_limit: Optional[float] = None,
        progress: Optional[Callable[[str], None]] = None,
    ) -> Union[Plan, Infeasible]:
        """A best plan, or why there is none: checked by `mcf check` and by `verify` in the units of the tables.

        `surplus` says what becomes of supplies that do not add up to 0: 'refuse' (there is no plan), 'keep' (what is
        too much stays at its node, what is too little is not met, at no cost), or a number: the same, at this cost a
        unit. `progress` is told in words what is done now.
        Raises Unbounded, BeyondLimits, Meaningless, TimeLimit, ProgramFailed, and Disagreement.

        >>> problem = Problem()
        >>> problem.add_node("farm", 7)
        >>> problem.add_node("mill", -5)
        >>> problem.add_arc("farm", "mill", cost="1.5")
        0
        >>> plan = problem.solve(surplus="keep")
        >>> plan.cost, plan.kept
        (Decimal('7.5'), {'farm': Decimal('2')})
        >>> print(problem.solve().explain())
        There is no plan: all nodes together supply 7 and demand 5, so 2 are too many.
        What would help: `--surplus keep` (in Python `surplus="keep"`), by which the rest stays where it is.
        """
        from .rewrite import Options, solve

        return solve(self, Options(surplus), program, time_limit, progress)


def _check_name(name: Any) -> None:
    """Raises TypeError where a name is no text: numbers and others as names would stop what is made of a plan."""
    if not isinstance(name, str):
        raise TypeError(f"a name is {name!r}, of type {type(name).__name__}, and has to be a text (str)")


def _list(listed: Dict[Any, Listed], key: Any, number: int) -> None:
    """Lists the number of an arc, which is greater than those that are listed."""
    before = listed.setdefault(key, number)
    if isinstance(before, list):
        before.append(number)
    elif before != number:
        listed[key] = [before, number]


def _unlist(listed: Dict[Any, Listed], key: Any) -> None:
    """Takes the last arc that is listed as this away."""
    before = listed[key]
    if not isinstance(before, list):
        del listed[key]
    elif len(before) > 2:
        before.pop()
    else:
        listed[key] = before[0]


def _called(which: Union[str, Tuple[str, str]]) -> str:
    return which if isinstance(which, str) else " to ".join(map(str, which))


class _SpellingReader(ProblemReader):
    """Reads what other programs write too. Amounts and costs are decimals, a capacity without limit is None."""

    def __init__(self) -> None:
        super().__init__()
        self.notes: List[str] = []
        self._late: List[Tuple[int, List[bytes]]] = []

    def read_line(self, raw: bytes) -> None:
        self.line += 1
        if self.line == 1 and raw.startswith(b"\xef\xbb\xbf"):
            raw = raw[3:]
        words = raw.split()
        if not words or words[0][:1] in (b"c", b"#", b"%"):
            return
        kept = words[:2] if words[0] == b"p" else words[:1]
        for word in words[len(kept) :]:
            if word[:1] in (b"c", b"#", b"%") or word.startswith(b"//"):
                break
            kept.append(word)
        if kept[0] == b"a" and self.kind:
            self._late.append((self.line, kept[1:]))
            return
        self.line -= 1
        super().read_line(b" ".join(kept)[:1025])

    def read_end(self) -> None:
        """The arcs come last, wherever their lines stand."""
        end = self.line
        if self.kind == "max":
            self.line = self._late[0][0] if self._late else end
            self.both_ends("in the text")
        for at, words in self._late:
            self.line = at
            if len(self.arcs) >= self.wanted:
                raise self.too_many()
            self.read_arc_line(words)
        self.line = end
        super().read_end()

    def number(self, name: str, word: bytes, least: int, most: int):  # type: ignore[no-untyped-def]
        text = word.decode("utf-8", "surrogateescape")
        if name == "CAP" and re.fullmatch(r"\+?inf(inity)?", text, re.IGNORECASE):
            return None
        if re.fullmatch(r"[+-]?(\d+[.]?\d*|[.]\d+)([eE][+-]?\d{1,2})?", text, re.ASCII) and len(text) <= 60:
            value = Decimal(text)
            if name in ("LOW", "CAP", "FLOW", "COST"):
                return value if value else ZERO
            if value == value.to_integral_value():
                whole = int(value)
                if name in ("NODES", "ARCS") and 0 <= whole <= MOST_READ:
                    return super().number(name, str(whole).encode(), least, MOST_READ)
                return super().number(name, str(whole).encode(), least, most)
        return super().number(name, word, least, most)

    def bounds(self, tail: int, head: int, low, cap):  # type: ignore[no-untyped-def]
        if cap is not None and cap < low and cap < 0:
            self.notes.append(
                f"line {self.line}: the capacity {plain(cap)} of the arc from {tail} to {head} is read as no limit"
            )
            return None
        return super().bounds(tail, head, low, cap)
