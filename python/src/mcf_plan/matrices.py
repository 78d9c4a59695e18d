"""Matrices of costs as lists of arcs: a row for each node that arcs leave, a column for each that they lead to."""

from __future__ import annotations

import re
from dataclasses import dataclass, field, replace
from typing import Any, Collection, Dict, Iterable, List, NamedTuple, Optional, Sequence, Set, Tuple

from .cells import CellFault, Merged, TableFault, is_blank, name_of, shown
from .columns import SHORT, Match, folded, is_of_list, match_of, quoted, telling, words_for
from .formats import counted, some
from .reading import Reading
from .sheets import Sheet
from .vocabulary import AMOUNTS, CLOSED, EARNINGS, FIXED, HARMLESS, LOSSES, OF_PEOPLE, SCORES, SUMS

NO_WAY = CLOSED | {"-", "--", "–", "—", "x", "×", "∞", "inf", "n/a"}
"""What a cell says of two nodes between which no arc leads; an empty one says so too."""

NAMES_AS_WELL = frozenset(("max", "min"))
"""Words for columns that are names of people too."""

_NUMBER = re.compile(r"[^\w(]{0,4}\(?[€$£¥]?\s*[.,]?\d")
_CORNER = re.compile(r"(.*\w)\W*(?:[/\\|>→]|\bto\b)\W*(\w.*)", re.IGNORECASE)
"""A name of both sides, as `from/to`: of what stands in the first column, then of what stands above the others."""


@dataclass
class Listed(Sheet):
    """A list that was made of the sheet `of`; `origins` say where the cells of each column stand there, as rows and
    columns, or -1 and a column for the name of one."""

    of: Optional[Sheet] = None
    origins: Sequence[Sequence[Tuple[int, int]]] = field(default_factory=list)
    may_turn: bool = False
    """Whether arcs may lead from columns to rows as well, as far as the names show."""

    def fault(self, row: int, column: int, expected: str) -> TableFault:
        """What is wrong with a cell, where it stands."""
        assert self.of is not None
        at, place = self.origins[column][row]
        if at >= 0:
            return self.of.fault(at, place, expected)
        return TableFault(f"{self.name}, the name of column {place + 1}: {shown(self.of.header[place])}; {expected}")


class _Parts(NamedTuple):
    """The parts of a matrix: its rows, its columns, and where supplies and demands stand beside it, if they do; whether
    arcs lead from columns to rows."""

    rows: Sequence[int]
    places: Sequence[int]
    beside: Optional[int] = None
    below: Optional[int] = None
    is_turned: bool = False


def as_list(arcs: Sheet, nodes: Sequence[Sheet], kind: str, reading: Reading) -> Tuple[List[Sheet], Sheet]:
    """The tables of nodes and of arcs, the latter as a list where it is a matrix; one that has supplies and demands
    beside it is a table of nodes too.

    Raises TableFault where it is a matrix that is not understood.
    """
    sheet = _with_names_first(arcs)
    headers = set(map(folded, sheet.header))
    has_ends = all(words_for(what) & headers or what in reading.columns for what in ("from", "to"))
    if len(sheet.header) < (2 if nodes else 3) or has_ends:
        return list(nodes), arcs
    aside = set(map(folded, reading.columns.get("aside", ())))
    places = [place for place in _named(sheet) if folded(sheet.header[place]) not in aside]
    known = {folded(name) for name in (*_names_in(nodes), *_column(sheet, 0))}
    parts = None if nodes else _tableau(sheet, places)
    if parts is None:
        is_known = 2 * sum(folded(sheet.header[place]) in known for place in places) > len(places)
        if not is_known and (nodes or not _is_table_of_costs(sheet, places)):
            return list(nodes), arcs
    if kind == "max" or kind == "min" and not nodes and parts is None:
        names = some([sheet.header[place] for place in places])
        advice = (
            "give each arc a row of its own, under the columns from, to and capacity"
            if kind == "max"
            else "a cheapest plan wants supplies: give the table of nodes before it, or supplies in a last column "
            "`supply` and demands in a last row `demand` (`--kind asn` wants none)"
        )
        raise TableFault(f"{sheet.name} looks like a matrix, with columns for the nodes {names}: {advice}")
    parts = parts or _Parts(range(len(sheet.lines)), places)
    _check_names(sheet, parts, has_nodes=bool(nodes))
    if nodes:
        _check_columns(sheet, parts, known)
    if not nodes or kind == "asn":
        _check_sides(sheet, parts)
    return _listed(sheet, list(nodes), parts, has_default=reading.default_cost is not None)


def is_matrix_of(sheet: Sheet, nodes: Sequence[Sheet]) -> bool:
    """Whether the names of a sheet's columns are those of nodes."""
    names = [sheet.header[place] for place in _named(_with_names_first(sheet))]
    return len(names) > 1 and 2 * len(_names_in(nodes) & set(names)) > len(names)


def _with_names_first(sheet: Sheet) -> Sheet:
    """The sheet of a frame with its index as the first column, and one that begins with blank columns, as tables of
    Markdown do, without these."""
    if sheet.index is not None and not any(column is sheet.index for column in sheet.columns):
        return replace(sheet, header=["", *sheet.header], columns=[sheet.index, *sheet.columns])
    first = 0
    while first < len(sheet.header) and not sheet.header[first] and all(map(is_blank, sheet.columns[first])):
        first += 1
    if not first:
        return sheet
    missing = {row: frozenset(place - first for place in places) for row, places in sheet.missing.items()}
    units = {place - first: its for place, its in sheet.units.items()}
    return replace(sheet, header=sheet.header[first:], columns=sheet.columns[first:], missing=missing, units=units)


def _named(sheet: Sheet) -> List[int]:
    """The places of the columns behind the first that have a name."""
    return [place for place, header in enumerate(sheet.header) if place and header]


def _column(sheet: Sheet, place: int) -> List[str]:
    """The names in a column; '' where there is none."""
    return [_name(cell) for cell in sheet.columns[place]]


def _name(cell: Any) -> str:
    try:
        return name_of(cell)
    except CellFault:
        return ""


def _names_in(nodes: Iterable[Sheet]) -> Set[str]:
    """All that may be the name of a node in the tables of nodes."""
    return {name for sheet in nodes for place in range(len(sheet.columns)) for name in _column(sheet, place)} - {""}


def _is_empty(cell: Any) -> bool:
    """Whether nothing stands in a cell. One that is merged with others shows what they have."""
    return is_blank(cell) and not isinstance(cell, Merged)


def _says_no_way(cell: Any) -> bool:
    """Whether a cell says that no arc leads there."""
    return _is_empty(cell) or isinstance(cell, str) and (cell.strip().casefold() in NO_WAY or folded(cell) in NO_WAY)


def _has_number(cell: Any) -> bool:
    return _NUMBER.match(str(cell)) is not None


def _is_table_of_costs(sheet: Sheet, places: Sequence[int]) -> bool:
    """Whether a sheet without a table of nodes has costs: there are numbers in its columns and nothing else, and no name
    of them is that of a column of a list. Each name in the first column stands there once."""
    names = _column(sheet, 0)
    if len(set(names)) < len(names) or "" in names:
        return False
    if any(is_of_list(sheet.header[place]) or folded(sheet.header[place]) in HARMLESS for place in places):
        return False
    cells = [cell for place in places for cell in sheet.columns[place] if not _says_no_way(cell)]
    return bool(cells) and all(map(_has_number, cells))


def _amount(name: str) -> Optional[Match]:
    """Whether a name says that supplies or demands stand there, and in which unit. What plants have a capacity for is
    their supply."""
    match = match_of(name, (*_SIDES, "capacity"))
    return match._replace(what="supply") if match is not None and match.what == "capacity" else match


def _tableau(sheet: Sheet, places: Sequence[int]) -> Optional[_Parts]:
    """The parts of a matrix with its supplies beside it and its demands below it, or the other way round; None of
    another sheet."""
    beside = {place: match.what for place in places for match in [_amount(sheet.header[place])] if match}
    below = {row: match.what for row, name in enumerate(_column(sheet, 0)) for match in [_amount(name)] if match}
    if len(beside) != 1 or len(below) != 1 or {*beside.values(), *below.values()} != {"supply", "demand"}:
        return None
    (column, what), (line, _) = *beside.items(), *below.items()
    rows = [row for row in range(len(sheet.lines)) if row != line]
    return _Parts(rows, [place for place in places if place != column], column, line, what == "demand")


def _check_columns(sheet: Sheet, parts: _Parts, known: Collection[str]) -> None:
    """Raises TableFault where a column is called like no node; `known` are the names of nodes and rows, folded."""
    for place in parts.places:
        header = sheet.header[place]
        if folded(header) not in known:
            raise TableFault(
                f"{sheet.name}: its columns are nodes, as in a matrix of costs, and {header!r} is none of the table of "
                f"nodes; `--columns aside={quoted(header)}` leaves it aside"
            )


def _listed(sheet: Sheet, nodes: List[Sheet], parts: _Parts, *, has_default: bool) -> Tuple[List[Sheet], Sheet]:
    """The tables of nodes and of arcs of a matrix. Where it `has_default` empty cells have a cost that was said."""
    used = {0, *parts.places, *(() if parts.beside is None else (parts.beside,))}
    sheet.check_short(used, set(parts.rows))
    title, said = _corner(sheet)
    is_turned = parts.is_turned if said is None else said
    if parts.beside is not None and is_turned != parts.is_turned:
        raise TableFault(
            f"{sheet.name}: by the name {sheet.header[0]!r} of the first column arcs lead from {'columns' if said else 'rows'}"
            f", and the supplies are those of {'rows' if said else 'columns'}"
        )
    cells, none = _cells(sheet, parts, has_default=has_default)
    _check_costs(sheet, cells)
    if not cells:
        raise TableFault(f"{sheet.name}: this looks like a matrix, and no cell of it says what a unit costs")
    _check_halves(sheet, parts, cells)
    arcs = _arcs_of(sheet, cells, title, is_turned)
    arcs.may_turn = parts.beside is None and said is None and not _are_same(sheet, parts)
    ends = ("column", "row") if is_turned else ("row", "column")
    names = [sheet.header[place] for place in parts.places]
    arcs.notes.append(
        f"{sheet.name}: this is a matrix, with columns for the nodes {some(names)}; a cell is what a unit costs from the "
        f"node of its {ends[0]} to that of its {ends[1]}"
    )
    if none:
        row, place = none[0]
        cell = f"{shown(sheet.columns[place][row])} on {sheet.place(row)}, column {sheet.header[place]!r}"
        has = "has" if len(none) == 1 else "have"
        arcs.notes.append(
            f"{sheet.name}: {counted(len(none), 'cell')} {has} no cost, as {cell}, and no arc leads there"
        )
    return ([*nodes, _nodes_of(sheet, parts)] if parts.beside is not None else nodes), arcs


def _check_costs(sheet: Sheet, cells: Sequence[Tuple[int, int]]) -> None:
    """Raises TableFault where 0 and 1 alone stand in a matrix that is not said to be one of costs: they may say who can
    do what."""
    held = {str(sheet.columns[place][row]).strip() for row, place in cells}
    if held == {"0", "1"} and not match_of(sheet.header[0], ("cost",)):
        raise TableFault(
            f"{sheet.name}: this looks like a matrix, and 0 and 1 alone stand in it: if they are costs, call its first "
            "column `cost`; if they say what can be, write what it costs where it can, and nothing elsewhere"
        )


def _corner(sheet: Sheet) -> Tuple[str, Optional[bool]]:
    """What the name of the first column says: the name of the costs, and whether arcs lead from columns to rows, None
    where it says nothing of that. Raises TableFault where it says that the cells are no costs of a unit."""
    corner = sheet.header[0]
    if match_of(corner, ("cost",)):
        return corner, None
    found = _CORNER.fullmatch(corner)
    first, second = (found[1], found[2]) if found else (corner, "")
    for is_turned, rows, columns in ((False, _TAILS, _HEADS), (True, _HEADS, _TAILS)):
        if found and match_of(first, rows) and match_of(second, columns):
            return "cost", is_turned
        if not found and match_of(first, rows[:1]):
            return "cost", is_turned
    is_other = not (AMOUNTS | EARNINGS | FIXED | LOSSES | SCORES).isdisjoint(folded(corner).split())
    if is_other or telling(folded(corner), ("cost", "capacity", "low", *_SIDES)):
        raise TableFault(
            f"{sheet.name}: this looks like a matrix, and by the name {corner!r} of its first column a cell is not what a "
            "unit costs; call that column `cost` if it is, else give each arc a row of its own, under the columns from, "
            "to, capacity and cost"
        )
    return "cost", None


_SIDES = ("supply", "demand")
_TAILS, _HEADS = ("from", "supply"), ("to", "demand")


def _check_names(sheet: Sheet, parts: _Parts, *, has_nodes: bool) -> None:
    """Raises TableFault where a row or a column has no name, or that of another one, or is one of sums; and without a table
    of nodes, which shows what nodes there are, where it looks like none."""
    nameless = [place for place, header in enumerate(sheet.header) if place and not header]
    if set(nameless) - sheet.blank_columns(nameless):
        raise TableFault(f"{sheet.name}: a column of the matrix has no name")
    headers: Dict[str, int] = {}
    for place in parts.places:
        header = sheet.header[place]
        if headers.setdefault(header, place) != place:
            raise TableFault(f"{sheet.name}: two columns are called {header!r}: give each node one")
        if folded(header) in SUMS:
            raise TableFault(f"{sheet.name}: the column {header!r} looks like one of sums: give the table without it")
        if not has_nodes and _is_no_node(header, parts):
            raise TableFault(
                f"{sheet.name}: the column {header!r} of the matrix looks like no node; `--columns aside={quoted(header)}` "
                "leaves it aside; if it is one, call it otherwise"
            )
    rows: Dict[str, int] = {}
    for row in parts.rows:
        name = _name(sheet.columns[0][row])
        if rows.setdefault(name, row) != row and name:
            raise sheet.fault(row, 0, f"it stands on {sheet.place(rows[name])} already")
        if folded(name) in SUMS:
            raise sheet.fault(row, 0, "this looks like a row of sums: give the table without it")
        if not has_nodes and _is_no_node(name, parts):
            raise sheet.fault(row, 0, "this looks like no node: give the table without this row, or call it otherwise")


def _check_sides(sheet: Sheet, parts: _Parts) -> None:
    """Raises TableFault where a row is called like a column: without a table of nodes they may be one node or two, and in
    an assignment they are two."""
    columns = {_name(sheet.header[place]) for place in parts.places}
    for row in parts.rows:
        if _name(sheet.columns[0][row]) in columns:
            raise sheet.fault(row, 0, "a column of the matrix is called so too: give what is not the same another name")


def _is_no_node(name: str, parts: _Parts) -> bool:
    """Whether a name of a row or a column rather is one of numbers. People may be called Max, and tasks `Order 17`."""
    bare = folded(name)
    words = set(bare.split())
    if words & NAMES_AS_WELL:
        return not words.isdisjoint(HARMLESS)
    if bare in OF_PEOPLE or match_of(name, ("cost", "capacity", "low", *_SIDES)) and bare not in SHORT:
        return True
    return parts.beside is not None and telling(bare, ("cost", "capacity", "low", *_SIDES)) is not None


def _are_same(sheet: Sheet, parts: _Parts) -> bool:
    """Whether a row is called like a column."""
    columns = {_name(sheet.header[place]) for place in parts.places}
    return any(_name(sheet.columns[0][row]) in columns for row in parts.rows)


def _cells(sheet: Sheet, parts: _Parts, *, has_default: bool) -> Tuple[List[Tuple[int, int]], List[Tuple[int, int]]]:
    """The rows and columns of the cells that are arcs, and of those that say that there is none. What stands between a
    node and itself, if it is 0, is neither.

    Raises TableFault where 0 stands between two nodes of a matrix that has rows and columns of the same nodes: it may say
    that no arc leads there.
    """
    tails, heads = _column(sheet, 0), [_name(header) for header in sheet.header]
    are_same = _are_same(sheet, parts)
    cells: List[Tuple[int, int]] = []
    none: List[Tuple[int, int]] = []
    for row in parts.rows:
        for place in parts.places:
            cell = sheet.columns[place][row]
            is_itself = tails[row] == heads[place]
            if _says_no_way(cell) and (is_itself or not (has_default and _is_empty(cell))):
                none += [] if is_itself else [(row, place)]
                continue
            is_zero = re.fullmatch(r"0([.,]0*)?", str(cell).strip()) is not None
            if is_zero and are_same and not is_itself:
                raise sheet.fault(
                    row,
                    place,
                    "this may be no cost, or no arc: write - where no arc leads; where it costs nothing, leave the cell "
                    "empty and say `--default-cost 0`",
                )
            cells += [] if is_zero and is_itself else [(row, place)]
    return cells, none


def _check_halves(sheet: Sheet, parts: _Parts, cells: Sequence[Tuple[int, int]]) -> None:
    """Raises TableFault where one half of a matrix between the same nodes is filled, and nothing stands in the other, as in
    tables of distances: the way back may be meant to be as long, or not to be there."""
    names = _column(sheet, 0)
    rows = {names[row]: row for row in parts.rows}
    places = {_name(sheet.header[place]): place for place in parts.places}
    filled = {(names[row], _name(sheet.header[place])) for row, place in cells}
    count = len(rows.keys() | places.keys())
    # A first column and a last row in which nothing would stand may be left out.
    if count < 4 or count - len(rows.keys() & places.keys()) > 2 or 4 * len(filled) <= count * (count - 1):
        return
    for tail, head in filled:
        if head in rows and tail in places and not _is_empty(sheet.columns[places[tail]][rows[head]]):
            return
    raise TableFault(
        f"{sheet.name}: one half alone of this matrix is filled: fill the other where the way back costs the same, and "
        "write - where there is none"
    )


def _arcs_of(sheet: Sheet, cells: Sequence[Tuple[int, int]], title: str, is_turned: bool) -> Listed:
    """The list of the arcs of a matrix."""
    rows = [(row, 0) for row, _ in cells]
    heads = [(-1, place) for _, place in cells]
    ends = [[sheet.columns[0][row] for row, _ in cells], [sheet.header[place] for _, place in cells]]
    units: Dict[str, int] = {}
    for number, (row, place) in enumerate(cells):
        for text, first in sheet.units.get(place, {}).items():
            if first == row:
                units.setdefault(text, number)
    order = (1, 0) if is_turned else (0, 1)
    return Listed(
        sheet.name,
        ["from", "to", title],
        [ends[order[0]], ends[order[1]], [sheet.columns[place][row] for row, place in cells]],
        [sheet.lines[row] for row, _ in cells],
        sheet.word,
        sheet.delimiter,
        units={2: units} if units else {},
        notes=sheet.notes,
        of=sheet,
        origins=[(rows, heads)[order[0]], (rows, heads)[order[1]], list(cells)],
    )


def _title(name: str) -> str:
    """The name of a column of supplies or demands, as it is called in a table of nodes."""
    match = _amount(name)
    assert match is not None
    return match.what + (f" ({match.unit.text})" if match.unit is not None else "")


def _nodes_of(sheet: Sheet, parts: _Parts) -> Listed:
    """The table of nodes of a matrix with supplies beside it and demands below it, or the other way round."""
    beside, below = parts.beside, parts.below
    assert beside is not None and below is not None
    names = [(row, 0) for row in parts.rows] + [(-1, place) for place in parts.places]
    amounts = [(row, beside) for row in parts.rows] + [(below, place) for place in parts.places]
    cells = [sheet.columns[place][row] for row, place in amounts]
    nodes = [sheet.header[place] if row < 0 else sheet.columns[0][row] for row, place in names]
    for name, cell, (row, place) in zip(nodes, cells, amounts):
        if _is_empty(cell):
            raise sheet.fault(row, place, f"a number was expected: write 0 if {name!r} is a node, else take it out")
    count = len(parts.rows)
    titles = [sheet.header[beside], _name(sheet.columns[0][below])]
    what = ("demands", "supplies") if parts.is_turned else ("supplies", "demands")
    made = Listed(
        sheet.name,
        ["name", *map(_title, titles)],
        [nodes, [*cells[:count], *[""] * (len(cells) - count)], [*[""] * count, *cells[count:]]],
        [sheet.lines[row] for row, _ in amounts],
        sheet.word,
        sheet.delimiter,
        of=sheet,
        origins=[names, amounts, amounts],
    )
    made.notes.append(
        f"{sheet.name}: {what[0]} stand in the column {titles[0]!r}, and {what[1]} on {sheet.place(below)}"
    )
    if not _is_empty(sheet.columns[beside][below]):
        made.notes.append(f"{sheet.name}: the sum where both meet is left aside")
    return made
