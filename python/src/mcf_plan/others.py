"""Answers of other programs as texts that `mcf check` reads: `s` and `v` lines added, and what is spoilt told in words.

>>> problem = "p min 2 2\\nn 1 3\\nn 2 -3\\na 1 2 0 2 4\\na 1 2 0 9 7\\n"
>>> print(answer_from(problem, "f 1 2 2\\nf 1 2 1\\n", "flows"), end="")
s 15
f 1 2 2
f 1 2 1
v 1 -7
v 2 0
>>> answer_from(problem, "f 1 2 1\\nf 1 2 2\\n", "flows")
Traceback (most recent call last):
mcf_plan.others.NotAnAnswer: the flow is not best: 1 unit more on arc 1 (1 to 2), 1 less on arc 2 (1 to 2) saves 3
"""

from __future__ import annotations

from decimal import Decimal, InvalidOperation
from typing import Dict, Iterator, List, NamedTuple, Optional, Tuple

from .dimacs import Answer, DimacsProblem, parse_answer, parse_problem
from .formats import RETURN_CAPACITY, Text
from .plan import Disagreement, Infeasible
from .problem import Problem

PROGRAMS = ("lemon", "glpk", "flows")
"""Whose answers are read: see docs/OTHERS.md."""
MOST_DIGITS = 60
"""So many has a number of an answer at most."""


class NotAnAnswer(ValueError):
    """The text is no answer, or its flow is not legal or not best. The message says where and why; `line` is the line
    of the text (None where it is none alone)."""

    def __init__(self, words: str, line: Optional[int] = None):
        super().__init__(f"line {line}: {words}" if line else words)
        self.line = line


class Told(NamedTuple):
    """What the other program says. `worth` is a text, as it may be rounded; `potentials` are as mcf has their sign."""

    flows: List[int]
    worth: Optional[str] = None
    potentials: Optional[List[int]] = None


class Residual(NamedTuple):
    """A residual arc: over arc `arc` of the problem, forward, or backward where `step` is -1."""

    tail: int
    head: int
    cost: int
    arc: int
    step: int


def answer_from(problem_text: Text, answer_text: Text, program: str = "flows") -> str:
    """The answer of another program as a text that `mcf check` reads.

    `program` is 'lemon' (`s`, `f`, `v` lines with the potentials of LEMON, or a text of its `digraphWriter` with a map
    `flow` and perhaps `potential`), 'glpk' (what `glpsol --mincost` or `--maxflow` writes with `-w`) or 'flows' (`f`
    lines, or one number an arc). Where there are no potentials, they are worked out. A cut (`i` and `k` lines) stays as
    it is. Raises NotAnAnswer where the text is none, or its flow is not legal or not best; ValueError where the problem
    is none.
    """
    if program not in PROGRAMS:
        raise ValueError(f"the program is {program!r}, and has to be one of {', '.join(PROGRAMS)}")
    problem = parse_problem(problem_text)
    lines = list(words_of(answer_text))
    if not lines:
        raise NotAnAnswer("the text is empty")
    if lines[0][1][0] == "i" and program != "glpk":
        try:
            cut = parse_answer("\n".join(" ".join(words) for _, words in lines) + "\n")
            Infeasible(
                Problem.from_dimacs(problem_text), frozenset(map(str, cut.cut)), Decimal(cut.shortage or 0)
            ).verify()
            return cut.text()
        except (ValueError, Disagreement) as error:
            raise NotAnAnswer(str(error)) from error
    if program == "glpk":
        told = told_by_glpk(problem, lines)
    elif lines[0][1][0].startswith("@"):
        told = told_by_graph(problem, lines)
    else:
        told = told_by_lines(problem, lines)
    return certified(problem, told).text()


def certified(problem: DimacsProblem, told: Told) -> Answer:
    """The answer with its worth and potentials. Raises NotAnAnswer where the flow is not legal or not best."""
    arcs = problem.arcs
    value = check_legal(problem, told.flows)
    worth = value if problem.kind == "max" else sum(arc[4] * flow for arc, flow in zip(arcs, told.flows))
    if told.worth is not None and Decimal(told.worth) not in (worth, Decimal(f"{worth:.15g}")):
        raise NotAnAnswer(f"the answer says that its flow is worth {told.worth}, and it is worth {worth}")
    residual = list(residual_arcs(problem, told.flows, value))
    if told.potentials is None:
        potentials = least_paths(problem, residual)
    else:
        top = max(told.potentials)
        potentials = [potential - top for potential in told.potentials]
        for arc in residual:
            if arc.cost + potentials[arc.tail - 1] < potentials[arc.head - 1]:
                raise NotAnAnswer(f"by its potentials {words_for(problem, arc)} would be worth more")
    return Answer(value=worth, flows=told.flows, potentials=potentials, ends=[(arc[0], arc[1]) for arc in arcs])


def check_legal(problem: DimacsProblem, flows: List[int]) -> int:
    """What the source sends out in `max`, else 0. Raises NotAnAnswer where the flow is not legal."""
    balance = [0] * (problem.nodes + 1)
    for number, ((tail, head, low, cap, _), flow) in enumerate(zip(problem.arcs, flows), 1):
        if not low <= flow <= cap:
            raise NotAnAnswer(f"arc {number} ({tail} to {head}) carries {flow}, and its bounds are {low} and {cap}")
        balance[tail] += flow
        balance[head] -= flow
    for node in range(1, problem.nodes + 1):
        supply = problem.supply(node)
        if balance[node] != supply and node not in (problem.source, problem.sink):
            raise NotAnAnswer(f"what leaves node {node} less what comes in is {balance[node]}, and has to be {supply}")
    return balance[problem.source] if problem.source is not None else 0


def residual_arcs(problem: DimacsProblem, flows: List[int], value: int) -> Iterator[Residual]:
    """The residual arcs; in `max` those of the return arc too, which has the place after the last arc."""
    arcs, flows = list(problem.arcs), list(flows)
    if problem.source is not None and problem.sink is not None:
        arcs.append((problem.sink, problem.source, 0, RETURN_CAPACITY, -1))
        flows.append(value)
    for place, ((tail, head, low, cap, cost), flow) in enumerate(zip(arcs, flows)):
        if flow < cap:
            yield Residual(tail, head, cost, place, 1)
        if flow > low:
            yield Residual(head, tail, -cost, place, -1)


def least_paths(problem: DimacsProblem, residual: List[Residual]) -> List[int]:
    """For each node the least cost of a path of residual arcs that ends there, and 0 where none costs less
    (Bellman-Ford).

    Raises NotAnAnswer where a circle of them costs less than 0: the flow is not best.
    """
    leaving: List[List[Residual]] = [[] for _ in range(problem.nodes + 1)]
    for arc in residual:
        leaving[arc.tail].append(arc)
    least = [0] * (problem.nodes + 1)
    last: List[Optional[Residual]] = [None] * (problem.nodes + 1)
    moved = list(range(1, problem.nodes + 1))
    moves = 0
    while moved:
        following: Dict[int, None] = {}
        for node in moved:
            for arc in leaving[node]:
                if least[node] + arc.cost < least[arc.head]:
                    least[arc.head] = least[node] + arc.cost
                    last[arc.head] = arc
                    following[arc.head] = None
                    moves += 1
        if moves > problem.nodes:
            refuse_circle(problem, last)
            moves = 0
        moved = list(following)
    return least[1:]


def refuse_circle(problem: DimacsProblem, last: List[Optional[Residual]]) -> None:
    """Raises NotAnAnswer where the last arcs of the paths make a circle."""
    seen = [0] * len(last)
    for start in range(1, len(last)):
        node = start
        while not seen[node]:
            seen[node] = start
            before = last[node]
            if before is None:
                break
            node = before.tail
        else:
            if seen[node] != start:
                continue
            circle: List[Residual] = []
            end = node
            while not circle or node != end:
                arc = last[node]
                assert arc is not None
                circle.append(arc)
                node = arc.tail
            circle.reverse()
            begin = min(range(len(circle)), key=lambda place: (-circle[place].step, circle[place].arc))
            circle = circle[begin:] + circle[:begin]
            saved = -sum(arc.cost for arc in circle)
            steps = ", ".join(words_for(problem, arc, first=place == 0) for place, arc in enumerate(circle))
            if problem.kind == "max":
                raise NotAnAnswer(f"the flow is not best: {steps} sends 1 unit more")
            raise NotAnAnswer(f"the flow is not best: {steps} saves {saved}")


def words_for(problem: DimacsProblem, arc: Residual, first: bool = True) -> str:
    """A step over a residual arc, in words."""
    unit = "1 unit " if first else "1 "
    if arc.arc == len(problem.arcs):
        return f"{unit}{'more' if arc.step > 0 else 'less'} from source to sink"
    tail, head = problem.arcs[arc.arc][:2]
    return f"{unit}{'more' if arc.step > 0 else 'less'} on arc {arc.arc + 1} ({tail} to {head})"


# ---- reading

Line = Tuple[int, List[str]]


def words_of(text: Text) -> Iterator[Line]:
    """The words of each line that has some and is no comment, with the line's number."""
    # Words of the text come into messages, where a surrogate could not be printed.
    shown = text.decode("utf-8", "replace") if isinstance(text, bytes) else text
    for number, line in enumerate(shown.lstrip("\ufeff").split("\n"), 1):
        words = line.split()
        if words and words[0] != "c" and not words[0].startswith("#"):
            yield number, words


def whole(word: str, line: int) -> int:
    """The whole number of a word, which may be written as 3.0 or 3e2."""
    try:
        value = Decimal(word)
    except InvalidOperation:
        value = Decimal("NaN")
    if value.is_finite() and value.adjusted() >= MOST_DIGITS:
        # By a few digits of an exponent it may be a number that no memory holds.
        raise NotAnAnswer(f"{word[:MOST_DIGITS]} has more than {MOST_DIGITS} digits", line)
    if not value.is_finite() or value != value.to_integral_value():
        raise NotAnAnswer(f"{word} is no whole number", line)
    return int(value)


def put(found: Dict[int, int], what: str, key: str, value: str, line: int) -> None:
    """Adds the number of a line to those that were found. Raises NotAnAnswer where there is one already."""
    number = whole(key, line)
    if number in found:
        raise NotAnAnswer(f"there is {what} {number} already", line)
    found[number] = whole(value, line)


def _number(word: str) -> Optional[Decimal]:
    """The number of a word; None where it is none, or has too many digits."""
    try:
        value = Decimal(word)
    except InvalidOperation:
        return None
    return value if value.is_finite() and value.adjusted() < MOST_DIGITS else None


def told_by_lines(problem: DimacsProblem, lines: List[Line]) -> Told:
    """What `s`, `f` and `v` lines say, or lines of one number an arc."""
    flows: List[Tuple[int, int, int, int]] = []
    numbers: List[int] = []
    worth: Optional[str] = None
    potentials: Dict[int, int] = {}
    for line, words in lines:
        if words[0] == "s" and len(words) == 2:
            if worth is not None:
                raise NotAnAnswer("there is an `s` line already", line)
            worth = str(whole(words[1], line))
        elif words[0] == "f" and len(words) == 4:
            flows.append((line, whole(words[1], line), whole(words[2], line), whole(words[3], line)))
        elif words[0] == "v" and len(words) == 3:
            put(potentials, "a `v` line of node", words[1], words[2], line)
        elif len(words) == 1:
            numbers.append(whole(words[0], line))
        else:
            raise NotAnAnswer(f"`{' '.join(words)}` is no `s`, `f` or `v` line, and no number", line)
    if potentials and sorted(potentials) != list(range(1, problem.nodes + 1)):
        raise NotAnAnswer(f"there has to be one `v` line for each of the {problem.nodes} nodes")
    if numbers and flows:
        raise NotAnAnswer("there are `f` lines and lines of one number")
    if numbers and len(numbers) != len(problem.arcs):
        raise NotAnAnswer(f"there are {len(numbers)} numbers, and {len(problem.arcs)} arcs")
    ordered = [potentials[node] for node in sorted(potentials)] if potentials else None
    return Told(numbers or placed(problem, flows), worth, ordered)


def placed(problem: DimacsProblem, told: List[Tuple[int, int, int, int]]) -> List[int]:
    """The flows in the order of the arcs. Arcs without a line carry 0. `told` has line, tail, head and flow of each."""
    ends = [(arc[0], arc[1]) for arc in problem.arcs]
    if [(tail, head) for _, tail, head, _ in told] == ends:
        return [flow for _, _, _, flow in told]
    places: Dict[Tuple[int, int], List[int]] = {}
    for place, end in enumerate(ends):
        places.setdefault(end, []).append(place)
    flows = [0] * len(ends)
    lines: Dict[Tuple[int, int], List[Tuple[int, int]]] = {}
    for line, tail, head, flow in told:
        if (tail, head) not in places:
            raise NotAnAnswer(f"no arc leads from {tail} to {head}", line)
        lines.setdefault((tail, head), []).append((line, flow))
    for end, found in lines.items():
        if len(found) > len(places[end]):
            raise NotAnAnswer(f"a line too many for {end[0]} to {end[1]}", found[-1][0])
        if len(found) < len(places[end]) and len({problem.arcs[place] for place in places[end]}) > 1:
            raise NotAnAnswer(
                f"{len(places[end])} arcs lead from {end[0]} to {end[1]}: each needs its line", found[0][0]
            )
        for place, (_, flow) in zip(places[end], found):
            flows[place] = flow
    return flows


def told_by_glpk(problem: DimacsProblem, lines: List[Line]) -> Told:
    """What GLPK's `-w` says. It has the arcs node by node, and of each node the last arc first."""
    worth: Optional[str] = None
    rows: Dict[int, str] = {}
    columns: Dict[int, int] = {}
    for line, words in lines:
        if words[0] == "s":
            if worth is not None:
                raise NotAnAnswer("there is an `s` line already", line)
            if len(words) < 6 or words[1] not in ("bas", "ipt", "mip"):
                raise NotAnAnswer("this is no `s` line of GLPK's `-w`", line)
            states = words[4:-1]
            if any(state not in ("f", "o") for state in states):
                raise NotAnAnswer("GLPK says that it found no best plan", line)
            if (whole(words[2], line), whole(words[3], line)) != (problem.nodes, len(problem.arcs)):
                raise NotAnAnswer(
                    f"it is about {words[2]} nodes and {words[3]} arcs, and the problem has "
                    f"{problem.nodes} and {len(problem.arcs)}",
                    line,
                )
            kind, worth = words[1], words[-1]
            if _number(worth) is None:
                raise NotAnAnswer(f"{worth} is no number", line)
        elif words[0] in ("i", "j") and worth is not None and len(words) >= 3:
            primal = words[3] if kind == "bas" and len(words) == 5 else words[2]
            if words[0] == "j":
                put(columns, "a `j` line of column", words[1], primal, line)
            elif kind != "mip":
                rows[whole(words[1], line)] = words[-1]
        elif words != ["e", "o", "f"]:
            raise NotAnAnswer(f"`{' '.join(words)}` is no line of GLPK's `-w`", line)
    if worth is None or sorted(columns) != list(range(1, len(problem.arcs) + 1)):
        raise NotAnAnswer(f"GLPK's `-w` has an `s` line and {len(problem.arcs)} `j` lines: the text is cut off")
    order = sorted(range(len(problem.arcs)), key=lambda place: (problem.arcs[place][0], -place))
    flows = [0] * len(order)
    for column, place in enumerate(order, 1):
        flows[place] = columns[column]
    return Told(flows, worth, potentials_of_glpk(problem, rows))


def potentials_of_glpk(problem: DimacsProblem, rows: Dict[int, str]) -> Optional[List[int]]:
    """Potentials from the duals of GLPK's rows; None where these are missing or no whole numbers (interior point)."""
    duals = [dual for dual in (_number(rows.get(node, "")) for node in range(1, problem.nodes + 1)) if dual is not None]
    if len(duals) < problem.nodes or any(dual != dual.to_integral_value() for dual in duals):
        return None
    if problem.kind != "max":
        return [-int(dual) for dual in duals]
    return [int(dual) - (node == problem.source) for node, dual in enumerate(duals, 1)]


def told_by_graph(problem: DimacsProblem, lines: List[Line]) -> Told:
    """What a text of LEMON's `digraphWriter` says: columns `label` and `potential` of @nodes, `label` and `flow` of
    @arcs.

    Labels count from 0, as LEMON's ids do where the problem was read by `readDimacsMin` or `readDimacsMax`.
    """
    tables: Dict[str, Tuple[List[str], List[Line]]] = {}
    section = ""
    for line, words in lines:
        if words[0].startswith("@"):
            section = words[0]
        elif section not in tables:
            tables[section] = (words, [])
        else:
            tables[section][1].append((line, words))
    heads, rows = tables.get("@arcs", ([], []))
    flows = column(heads, rows, "flow", len(problem.arcs), ends=2)
    if flows is None:
        raise NotAnAnswer("the section @arcs has no column `flow`")
    label = 2 + heads.index("label")
    for line, words in rows:
        tail, head = problem.arcs[whole(words[label], line)][:2]
        if [whole(word, line) + 1 for word in words[:2]] != [tail, head]:
            raise NotAnAnswer(
                f"the arc {words[label]} leads from {words[0]} to {words[1]} here, and from {tail - 1} to {head - 1} in the "
                "problem, where all are counted from 0",
                line,
            )
    heads, rows = tables.get("@nodes", ([], []))
    return Told(flows, None, column(heads, rows, "potential", problem.nodes, ends=0))


def column(heads: List[str], rows: List[Line], name: str, count: int, *, ends: int) -> Optional[List[int]]:
    """The whole numbers of a column, in the order of the labels; None where there is no such column."""
    if name not in heads:
        return None
    if "label" not in heads:
        raise NotAnAnswer(f"the section with `{name}` has no column `label`")
    label, place = ends + heads.index("label"), ends + heads.index(name)
    found: Dict[int, int] = {}
    for line, words in rows:
        if len(words) != ends + len(heads):
            raise NotAnAnswer("wrong number of fields", line)
        put(found, "a row of label", words[label], words[place], line)
    if sorted(found) != list(range(count)):
        raise NotAnAnswer(f"the labels of the section with `{name}` have to be 0 to {count - 1}")
    return [found[number] for number in range(count)]
