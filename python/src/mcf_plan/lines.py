"""The lines of a text: as which arc lines and node lines the rows of tables are written."""

from __future__ import annotations

from typing import Dict, List, Tuple

from .dimacs import DimacsProblem
from .errors import DoesNotFit
from .figures import Bounds, Figures, is_large, too_large
from .formats import MOST_ARCS, MOST_FLOW, MOST_NODES, ArcRow
from .room import Room

Form = Tuple[int, bool]
"""As how many lines an arc is written, and whether its lower bound is moved into the supplies."""

ONE_LINE: Form = (1, False)


def parts_of(amount: int) -> int:
    """How many lines an amount takes, of as much as the formats have on one."""
    return max(1, -(-abs(amount) // MOST_FLOW))


class Lines:
    """The lines of a text: those of the arcs in their order, then those of the rest, then those of great supplies.

    Of an arc `first` has the first line, counted from 0, `forms` the form, and `moved` the lower bound where that is
    moved. `rows` are the arc lines. `supplies` are what the node lines say, by the nodes' numbers from 1 (entry 0 is
    0); `wholes` are the same without the limit of the formats, beyond which a node has `helpers` beside it. `rest` is
    the number of the node that stands for what is kept or not met, 0 where there is none, and `rest_arcs` are its lines
    by the names of the nodes. `needed_limit` is how much the lines of an arc without limit have room for.
    """

    def __init__(self, figures: Figures, kind: str, room: Room):
        self.figures = figures
        self.kind = kind
        self.room = room
        problem, options = figures.problem, figures.options
        has_rest = problem.balance != "equal" or options.rest_cost() is not None and figures.total != 0
        self.rest = len(figures.names) + 1 if has_rest else 0
        self.node_count = len(figures.names) + has_rest
        if len(figures.names) > MOST_NODES:
            raise too_large(figures)
        self.rows: List[ArcRow] = []
        self.first: List[int] = []
        self.forms: List[Form] = []
        self.moved: Dict[int, int] = {}
        self.needed_limit = room.whole
        self._add_arcs()
        if problem.kind == "max" and kind == "min":
            numbers, cost = figures.numbers, 0 if options.without_costs else -1
            self._add_large(numbers[problem.sink or ""], numbers[problem.source or ""], cost)
        self.rest_arcs: Dict[str, List[int]] = {}
        if has_rest:
            self._add_rest()
        self.wholes = self._whole_supplies()
        self.supplies: List[int] = []
        self.helpers: Dict[int, List[int]] = {}
        self._set_supplies()
        if self.node_count > MOST_NODES or len(self.rows) > MOST_ARCS:
            raise too_large(figures)

    def text(self) -> str:
        """The text, as the lines stand."""
        supplies = {number: supply for number, supply in enumerate(self.supplies) if supply}
        source = sink = None
        if self.kind == "max":
            problem, numbers = self.figures.problem, self.figures.numbers
            source, sink, supplies = numbers[problem.source or ""], numbers[problem.sink or ""], {}
        elif self.kind == "asn":
            supplies = {number: 1 for number, supply in supplies.items() if supply > 0}
        return DimacsProblem(self.kind, self.node_count, self.rows, supplies, source, sink).text()

    def form_of(self, bounds: Bounds) -> Form:
        """How an arc with these bounds is written."""
        low, cap = bounds
        if cap is not None and 0 <= low and cap <= MOST_FLOW:
            return ONE_LINE
        if cap is not None and not (self.room.clips and cap - low > MOST_FLOW):
            return parts_of(cap - low), low != 0
        if 0 <= low and low + self.room.needed <= MOST_FLOW:
            return ONE_LINE
        room = self.room.whole if cap is None else min(cap - low, self.room.whole)
        return -(-room // MOST_FLOW), low != 0

    def rows_of(self, ends: Tuple[int, int], bounds: Bounds, cost: int, form: Form) -> List[ArcRow]:
        """The lines of an arc in this form, which has to be that of its bounds."""
        tail, head = ends
        low, cap = bounds
        lines, is_moved = form
        if lines == 1 and not is_moved:
            return [(tail, head, low, MOST_FLOW if cap is None or cap > MOST_FLOW else cap, cost)]
        room = lines * MOST_FLOW
        if cap is not None:
            room = min(room, cap - low)
        rows: List[ArcRow] = []
        for _ in range(lines):
            part = min(room, MOST_FLOW)
            rows.append((tail, head, 0, part, cost))
            room -= part
        return rows

    def limit_needed(self, limit: int, bounds: Bounds, form: Form) -> int:
        """The limit of the room that is needed, where an arc without limit may stand on one line above its bound."""
        return min(limit, MOST_FLOW - bounds[0]) if form == ONE_LINE and is_large(bounds) else limit

    def rest_room(self, supply: int) -> int:
        """How much a node may keep, or go without, where supplies are to be equal otherwise."""
        return abs(supply) if supply and (supply > 0) == (self.figures.total > 0) else 0

    def _add_arcs(self) -> None:
        figures, numbers, rows = self.figures, self.figures.numbers, self.rows
        for arc, low, cap, cost in zip(figures.problem.arcs, figures.lows, figures.caps, figures.costs):
            self.first.append(len(rows))
            ends = numbers[arc.tail], numbers[arc.head]
            if cap is not None and cap <= MOST_FLOW and low >= 0:
                self.forms.append(ONE_LINE)
                rows.append((*ends, low, cap, cost))
                continue
            bounds = low, cap
            form = self.form_of(bounds)
            if len(rows) + form[0] > MOST_ARCS:
                raise too_large(figures)
            if form[1]:
                self.moved[len(self.forms)] = low
            self.forms.append(form)
            rows += self.rows_of(ends, bounds, cost, form)
            self.needed_limit = self.limit_needed(self.needed_limit, bounds, form)
        if len(rows) > MOST_ARCS:
            raise too_large(figures)

    def _add_large(self, tail: int, head: int, cost: int) -> List[int]:
        """Adds the lines of an arc without limit, and returns their numbers from 0."""
        first = len(self.rows)
        if first + self.room.pieces > MOST_ARCS:
            raise too_large(self.figures)
        self.rows += [(tail, head, 0, MOST_FLOW, cost)] * self.room.pieces
        return list(range(first, len(self.rows)))

    def _add_rest(self) -> None:
        """Adds the arcs to the rest, of what is kept, or from it, of what is not met."""
        figures, balance, cost = self.figures, self.figures.problem.balance, self.figures.rest_cost
        into = figures.total > 0 if balance == "equal" else balance == "at most"
        for number, name in enumerate(figures.names, 1):
            tail, head = (number, self.rest) if into else (self.rest, number)
            if balance != "equal":
                self.rest_arcs[name] = self._add_large(tail, head, cost)
                continue
            room = self.rest_room(figures.supplies[number])
            if len(self.rows) + parts_of(room) > MOST_ARCS:
                raise too_large(figures)
            if room:
                lines = self.rows_of((tail, head), (0, room), cost, (parts_of(room), True))
                self.rest_arcs[name] = list(range(len(self.rows), len(self.rows) + len(lines)))
                self.rows += lines

    def _whole_supplies(self) -> List[int]:
        """The supplies by the nodes' numbers with moved lower bounds and the rest."""
        supplies = list(self.figures.supplies)
        for k, low in self.moved.items():
            tail, head = self.rows[self.first[k]][:2]
            supplies[tail] -= low
            supplies[head] += low
        if self.rest:
            supplies.append(-self.figures.total)
        return supplies

    def _set_supplies(self) -> None:
        """Sets the supplies of all nodes; those above the greatest get nodes beside them."""
        self.supplies = [0] * len(self.wholes)
        for number, supply in enumerate(self.wholes):
            if -MOST_FLOW <= supply <= MOST_FLOW:
                self.supplies[number] = supply
                continue
            if parts_of(supply) > MOST_NODES:
                raise too_large(self.figures)
            parts = supply_parts(supply, parts_of(supply))
            self.supplies[number] = parts[0]
            self.helpers[number] = []
            for part in parts[1:]:
                self.node_count += 1
                self.helpers[number].append(self.node_count)
                self.supplies.append(part)
                tail, head = (self.node_count, number) if part > 0 else (number, self.node_count)
                self.rows.append((tail, head, 0, MOST_FLOW, 0))


def supply_parts(supply: int, lines: int) -> List[int]:
    """A supply in parts that the formats take: that of the node, and those of nodes made beside it. Raises DoesNotFit
    where it takes another number of parts."""
    if parts_of(supply) != lines:
        raise DoesNotFit
    sign = 1 if supply >= 0 else -1
    rest = abs(supply)
    parts = []
    for _ in range(lines):
        part = min(rest, MOST_FLOW)
        parts.append(sign * part)
        rest -= part
    return parts
