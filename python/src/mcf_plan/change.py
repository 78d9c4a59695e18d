"""What an edit of the tables changes in a text that was written of them."""

from __future__ import annotations

from dataclasses import replace
from typing import TYPE_CHECKING, Any, Dict, Iterable, List, NamedTuple

from .errors import DoesNotFit
from .figures import Bounds, is_large
from .formats import ArcRow
from .lines import Form, supply_parts
from .meaning import check_arc, check_node, check_sides
from .problem import Arc
from .room import find_room, room_of_the_next

if TYPE_CHECKING:
    from .rewrite import Rewriting


class _NewArc(NamedTuple):
    """An arc that was added, in the text's units."""

    bounds: Bounds
    cost: int
    form: Form
    rows: List[ArcRow]


class Change:
    """What an edit changes in the text: worked out first, and then taken over as a whole.

    `commands` are the commands of a session that make it in the text. A change that was taken back, and taken over
    again, leads to what stood there before, to the last number: nothing is worked out anew.
    """

    def __init__(self, rewriting: Rewriting):
        self.rewriting = rewriting
        self.figures = rewriting.figures
        self.lines = rewriting.lines
        self.room = rewriting.lines.room
        self.needed_limit = rewriting.lines.needed_limit
        self.total = rewriting.figures.total
        self.needs_search = False
        self.lows: Dict[int, int] = {}
        self.caps: Dict[int, Any] = {}
        self.costs: Dict[int, int] = {}
        self.given: Dict[int, int] = {}
        self.rows: Dict[int, ArcRow] = {}
        self.moved: Dict[int, int] = {}
        self.wholes: Dict[int, int] = {}
        self.supplies: Dict[int, int] = {}
        self.new: List[_NewArc] = []
        self.commands: List[str] = []

    @classmethod
    def of(cls, rewriting: Rewriting, arcs: Iterable[int], nodes: Iterable[str]) -> Change:
        """The change that these arcs and nodes of the tables, and arcs that were added at the end, make.

        Raises DoesNotFit where the text's form does not take it, Unbounded, BeyondLimits or Meaningless where none
        does.
        """
        change = cls(rewriting)
        problem, known = rewriting.problem, len(rewriting.lines.forms)
        names = dict.fromkeys(nodes)
        for name in names:
            check_node(problem, name)
        if names and problem.kind == "asn":
            check_sides(problem, names)
        for name in names:
            change._supply(name)
        for k in sorted(set(arcs)):
            if k < known:
                check_arc(problem, k)
                change._arc(k)
        for k in range(known, len(problem.arcs)):
            check_arc(problem, k)
            change._added(k)
        change._check_room()
        change._set_commands()
        return change

    def take_over(self) -> None:
        """Makes the change in the text."""
        figures, lines = self.figures, self.lines
        self._exchange()
        for arc in self.new:
            if arc.form[1]:
                lines.moved[len(lines.forms)] = arc.bounds[0]
            figures.lows.append(arc.bounds[0])
            figures.caps.append(arc.bounds[1])
            figures.costs.append(arc.cost)
            lines.forms.append(arc.form)
            lines.first.append(len(lines.rows))
            lines.rows += arc.rows
        self.rewriting.was_changed()

    def take_back(self) -> None:
        """Takes the change back, which is the last that was taken over."""
        figures, lines = self.figures, self.lines
        for _ in self.new:
            del lines.rows[lines.first.pop() :]
            lines.forms.pop()
            lines.moved.pop(len(lines.forms), None)
            figures.lows.pop(), figures.caps.pop(), figures.costs.pop()
        self._exchange()
        self.rewriting.was_changed()

    def _exchange(self) -> None:
        """Exchanges the numbers of the change for those that stand in the text."""
        figures, lines = self.figures, self.lines
        _exchange_values(figures.lows, self.lows)
        _exchange_values(figures.caps, self.caps)
        _exchange_values(figures.costs, self.costs)
        _exchange_values(figures.supplies, self.given)
        _exchange_values(lines.rows, self.rows)
        _exchange_values(lines.moved, self.moved)
        _exchange_values(lines.wholes, self.wholes)
        _exchange_values(lines.supplies, self.supplies)
        figures.total, self.total = self.total, figures.total
        lines.room, self.room = self.room, lines.room
        lines.needed_limit, self.needed_limit = self.needed_limit, lines.needed_limit

    # ------------------------------------------------------------ rows of the tables

    def _supply(self, name: str) -> None:
        """The supply of a node was changed."""
        figures, lines, problem = self.figures, self.lines, self.rewriting.problem
        number = figures.numbers[name]
        supply = figures.amounts.whole(problem.nodes[name])
        change = supply - figures.supplies[number]
        self.given[number] = supply
        self._add_supply(number, change)
        self._need(2 * abs(change))
        self.total += change
        if not lines.rest:
            if figures.options.rest_cost() is not None and self.total:
                raise DoesNotFit
            return
        self._add_supply(lines.rest, -change)
        if problem.balance == "equal":
            self._keep(name, supply)

    def _keep(self, name: str, supply: int) -> None:
        """What the node may keep or go without is as much as its supply."""
        lines = self.lines
        if not self.total or (self.total > 0) != (self.figures.total > 0):
            raise DoesNotFit
        room = lines.rest_room(supply)
        places = lines.rest_arcs.get(name, [])
        if not places:
            if room:
                raise DoesNotFit
            return
        tail, head, _, _, cost = lines.rows[places[0]]
        parts = supply_parts(room, len(places))
        for line, part in zip(places, parts):
            self.rows[line] = (tail, head, 0, part, cost)

    def _arc(self, k: int) -> None:
        """The bounds or the cost of an arc were changed."""
        figures, lines = self.figures, self.lines
        arc = self._row(k)
        before, bounds = figures.bounds(k), figures.bounds_of(arc)
        cost = figures.cost_of(arc.cost)
        was_large, now_large = is_large(before), is_large(bounds)
        gains = self.room.has_gains or cost < 0
        if (
            now_large
            and not self.room.has_large
            or now_large
            and gains
            and (before != bounds or cost < figures.costs[k])
        ):
            # There may be a circle of large arcs now that costs less than 0.
            self.needs_search = True
        elif not now_large and gains:
            # An arc that was large, or did not cost less than 0, counted nothing before.
            self._need(_width(bounds) if was_large or cost < 0 else max(0, _width(bounds) - _width(before)))
        change = bounds[0] - before[0]
        self._need(3 * abs(change))
        form = lines.forms[k]
        if lines.form_of(bounds) != form:
            raise DoesNotFit
        ends = figures.numbers[arc.tail], figures.numbers[arc.head]
        for line, row in enumerate(lines.rows_of(ends, bounds, cost, form), lines.first[k]):
            self.rows[line] = row
        self.needed_limit = lines.limit_needed(self.needed_limit, bounds, form)
        self.lows[k], self.caps[k] = bounds
        self.costs[k] = cost
        if form[1]:
            self.moved[k] = bounds[0]
            self._add_supply(ends[0], -change)
            self._add_supply(ends[1], change)

    def _added(self, k: int) -> None:
        """An arc was added at the end."""
        figures, lines = self.figures, self.lines
        arc = self._row(k)
        bounds, cost = figures.bounds_of(arc), figures.cost_of(arc.cost)
        if is_large(bounds):
            if not self.room.has_large:
                raise DoesNotFit
            self.needs_search = self.needs_search or self.room.has_gains or cost < 0
        else:
            self._need(_width(bounds))
        self._need(3 * abs(bounds[0]))
        form = lines.form_of(bounds)
        self.needed_limit = lines.limit_needed(self.needed_limit, bounds, form)
        ends = figures.numbers[arc.tail], figures.numbers[arc.head]
        if form[1]:
            self._add_supply(ends[0], -bounds[0])
            self._add_supply(ends[1], bounds[0])
        self.new.append(_NewArc(bounds, cost, form, lines.rows_of(ends, bounds, cost, form)))

    def _row(self, k: int) -> Arc:
        """An arc of the tables. Raises DoesNotFit where a text of the kind max has no room for its lower bound."""
        arc = self.rewriting.problem.arcs[k]
        if self.lines.kind == "max" and arc.low:
            raise DoesNotFit
        return arc

    def _add_supply(self, number: int, amount: int) -> None:
        if amount:
            self.wholes[number] = self.wholes.get(number, self.lines.wholes[number]) + amount

    def _need(self, more: int) -> None:
        """Arcs without limit may have to carry more."""
        if more:
            self.room = replace(self.room, needed=self.room.needed + more)

    # ------------------------------------------------------------ the text

    def _check_room(self) -> None:
        """Raises DoesNotFit, or Unbounded, where arcs without limit have no longer the room that they need."""
        room = self.room
        if self.needs_search and not room.has_large:
            raise DoesNotFit
        if not room.has_large or room.needed <= self.needed_limit and not self.needs_search:
            return
        figures = self.figures.anew()
        found = find_room(figures, self.lines.kind)
        if found.has_large and (found.needed > self.needed_limit or found.clips != room.clips):
            raise DoesNotFit
        # Where no arc is large any longer, what the next one would need is still known.
        needed = found.needed if found.has_large else room_of_the_next(figures)
        self.room = replace(room, needed=needed, has_gains=found.has_gains)

    def _set_commands(self) -> None:
        """Sets the commands of a session that change the text in this way."""
        lines, commands = self.lines, self.commands
        for number, supply in self.wholes.items():
            helpers = lines.helpers.get(number, [])
            if helpers and (lines.wholes[number] > 0) != (supply > 0):
                raise DoesNotFit
            for node, part in zip([number, *helpers], supply_parts(supply, 1 + len(helpers))):
                self.supplies[node] = part
                if part != lines.supplies[node]:
                    commands.append(f"supply {node} {part}")
        for line, row in self.rows.items():
            commands += _commands_of_row(line + 1, lines.rows[line], row)
        for arc in self.new:
            for tail, head, low, cap, cost in arc.rows:
                commands.append(f"add {tail} {head} {cap if lines.kind == 'max' else f'{low} {cap} {cost}'}")


def _exchange_values(values: Any, own: Dict[int, Any]) -> None:
    """Exchanges the values of `own` for those that stand at the same keys of a list or a dict."""
    for key, value in own.items():
        own[key], values[key] = values[key], value


def _width(bounds: Bounds) -> int:
    """How much an arc with a limit can carry above its lower bound."""
    assert bounds[1] is not None
    return bounds[1] - bounds[0]


def _commands_of_row(number: int, before: ArcRow, row: ArcRow) -> List[str]:
    """The commands that change an arc line, in an order in which each is taken."""
    _, _, low, cap, cost = row
    bounds = [f"cap {number} {cap}"] if cap != before[3] else []
    if low != before[2]:
        bounds.insert(len(bounds) if cap >= before[2] else 0, f"low {number} {low}")
    return bounds + ([f"cost {number} {cost}"] if cost != before[4] else [])
