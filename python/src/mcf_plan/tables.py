"""Tables in and out: texts, workbooks and maps by the standard library, frames where pandas is there.

A table that is not understood is refused, by its row and column, and never planned. What was chosen for the user is
told in `Problem.notes`.
"""

from __future__ import annotations

import csv
import re
import unicodedata
from collections import Counter
from decimal import Decimal
from io import StringIO
from itertools import chain, permutations
from pathlib import Path
from typing import TYPE_CHECKING, Any, Collection, Dict, Iterable, List, Mapping, Optional, Sequence, Tuple, Union

from .cells import LACKING, TableFault, is_empty, limit_fault, name_of
from .columns import called, compare_units, find_columns, folded, quoted, words_for
from .formats import counted, some
from .matrices import Listed, as_list
from .measures import Unit, unit_of
from .outputs import write_text
from .problem import ONE, WIDE, ZERO, Arc, Number, Problem, exact, plain
from .reading import ROW_OF_SUMS, Reading, Table, no_column
from .rounding import round_problem
from .sheets import WORKBOOKS, Sheet, is_table, part_sheet
from .sources import Source, find_sheets, sheets_read
from .vocabulary import ARC_COLUMNS, COLUMNS, DEMANDING, HARMLESS, NODE_COLUMNS, SUMS, TIMES

if TYPE_CHECKING:
    from .plan import Plan

__all__ = ["COLUMNS", "PLAN_COLUMNS", "Source", "TableFault", "plan_rows", "read_tables", "write_plan"]

TIME = re.compile(
    r"(?=\d)(\d{4}-\d\d-\d\d|\d{1,2}[./]\d{1,2}[./]\d{2,4})?[ T]?(\d{1,2}:\d\d(:\d\d)?( ?[ap]m)?)?",
    re.ASCII | re.IGNORECASE,
)
"""A date, a time of the day, or both."""

PERIOD = re.compile(r"\s*[A-Za-z]{0,2}(\d{1,9})\s*", re.ASCII)
"""The number of a period, as 3, 2026 or Q1."""

SUPPLIES = words_for("supply", "demand")
"""Words for supplies and demands."""

AMOUNTS_AND_COSTS = ("supply", "demand", "low", "capacity", "cost")


def read_tables(
    nodes: Union[None, Source, Sequence[Source]],
    arcs: Source,
    *,
    kind: str = "min",
    balance: str = "equal",
    source: Optional[str] = None,
    sink: Optional[str] = None,
    columns: Optional[Mapping[str, Union[str, Sequence[str]]]] = None,
    decimal: Optional[str] = None,
    default_cost: Optional[Number] = None,
    decimals: Optional[int] = None,
    encoding: Optional[str] = None,
) -> Problem:
    """The problem of two tables, or of one alone: a workbook or a map that has both, or the arcs. Of nodes there may be
    several tables, as one of depots and one of shops.

    Nodes: columns `name` (or node, id, place, ..) and `supply`, or `demand`, or both. Arcs: `from`, `to`, `cost`, and
    where there are such `low`, `capacity`, `name`; a capacity that is empty or `inf` is no limit. Columns `x` and `y`
    of the nodes are places on a map. The table of arcs may be a matrix of costs, with a row for each node that arcs leave
    and a column for each that they lead to. `COLUMNS` has all names of columns. In 'asn' a node without a supply is on the
    source side where an arc leaves it, else on the sink side. In 'max' `source` and `sink` name these.

    `columns` names columns that have other names, `{"capacity": "Kapa", "aside": ["old cost"]}`; `decimal` is the
    decimal sign, '.' or ','; `default_cost` is the cost where none stands; `decimals` rounds all numbers to so many;
    `encoding` is that of texts that are not UTF-8. `notes` of the problem say what was chosen.
    Raises TableFault where a table is not understood, OSError where a file can't be read.
    """
    reading = Reading.of(columns, decimal, default_cost, encoding)
    # As the cells of tables, so that the node 1 of a frame is found, and one whose letters are made of other characters.
    ends_of_flow = [None if name is None else name_of(name) for name in (source, sink)]
    problem = Problem(kind, balance=balance, source=ends_of_flow[0], sink=ends_of_flow[1])
    of_nodes: List[Source] = list(nodes) if isinstance(nodes, (list, tuple)) else [] if nodes is None else [nodes]
    sheets, arc_sheet = find_sheets(of_nodes, arcs, reading.encoding)
    _check_chosen(reading, sheets, arc_sheet)
    node_sheets, arc_sheet = as_list(arc_sheet, sheets, kind, reading)
    _check_order(node_sheets, arc_sheet, reading)
    unused = ("cost",) if kind == "max" else ()
    arc_columns = find_columns(
        arc_sheet, ARC_COLUMNS, reading.columns, unused=unused, is_assignment=problem.kind == "asn"
    )
    arc_table = Table(arc_sheet, arc_columns, reading)
    tails, heads = arc_table.names("from"), arc_table.names("to")
    ends = dict.fromkeys(chain.from_iterable(zip(tails, heads)))
    tables = [_node_table(sheet, node_sheets, ends, arc_table) for sheet in node_sheets]
    for table, other in permutations((*tables, arc_table), 2):
        table.look_at(other)
    others: Dict[str, str] = {}
    for table in tables:
        _read_nodes(problem, table, ends, others)
    for name in ends if tables else ():
        if name not in problem.nodes and folded(name) in SUMS and name in tails:
            raise arc_table.fault(tails.index(name), "from", ROW_OF_SUMS)
    _check_times(problem, arc_table, tails, heads)
    _check_periods(arc_table, tails, heads)
    compare_units([unit for table in (*tables, arc_table) for unit in _units(table)], are_all=True)
    if _lead_back(problem, arc_sheet, tails, heads):
        tails, heads = heads, tails
    _add_ends(problem, ends, node_sheets, arc_sheet)
    _read_arcs(problem, arc_table, tails, heads)
    _tell_unplaced(problem, node_sheets)
    for sheet in (*node_sheets, arc_sheet):
        problem.notes += sheet.notes
    _check_sense(problem, node_sheets, arc_sheet, ends)
    return problem if decimals is None else round_problem(problem, decimals)


def _node_table(sheet: Sheet, sheets: Sequence[Sheet], ends: Iterable[str], arcs: Table) -> Table:
    """A table of nodes, which is one of these sheets."""
    found = find_columns(sheet, NODE_COLUMNS, _chosen_of(sheet, sheets, arcs.reading), beside_plan=arcs.found.is_plan)
    table = Table(sheet, found, arcs.reading)
    _find_names(table, ends, is_alone=len(sheets) == 1)
    return table


# ---------------------------------------------------------------- which columns


def _chosen_of(sheet: Sheet, sheets: Sequence[Sheet], reading: Reading) -> Dict[str, List[str]]:
    """What was said of columns, without those that other tables of nodes have, and this one has not."""

    def has(each: Sheet, name: str) -> bool:
        return folded(name) in map(folded, each.header)

    return {
        what: [name for name in names if has(sheet, name) or not any(has(other, name) for other in sheets)]
        for what, names in reading.columns.items()
    }


def _check_order(nodes: Sequence[Sheet], arcs: Sheet, reading: Reading) -> None:
    """Raises TableFault where the tables stand in another order than that of nodes before arcs, or those of nodes are
    there alone."""
    ends, its_columns = words_for("from", "to"), set(map(folded, arcs.header))
    has_ends = bool(ends & its_columns) or "from" in reading.columns or "to" in reading.columns
    for sheet in nodes:
        if len(ends & set(map(folded, sheet.header))) < 2:
            continue
        if not ends & its_columns:
            raise TableFault(
                f"{sheet.name} looks like the table of arcs: the table of nodes comes first, then that of arcs"
            )
        if len(nodes) > 1 and not SUPPLIES & set(map(folded, sheet.header)):
            raise TableFault(
                f"{sheet.name} looks like a table of arcs, and the last one alone has arcs: put all in one"
            )
    if SUPPLIES & its_columns and not has_ends and not words_for("cost") & its_columns:
        advice = "that of arcs comes last" if nodes else "give the table of arcs behind it"
        raise TableFault(f"{arcs.name} looks like the table of nodes: {advice}")


def _lead_back(problem: Problem, sheet: Sheet, tails: Sequence[str], heads: Sequence[str]) -> bool:
    """Whether the arcs of a matrix lead from its columns to its rows, since the rows demand and the columns supply. Notes
    it."""
    if not isinstance(sheet, Listed) or not sheet.may_turn or problem.kind != "min":
        return False
    demanding, supplying = ([problem.nodes.get(name, ZERO) for name in set(ends)] for ends in (tails, heads))
    if max(demanding) > 0 or min(supplying) < 0 or not any(demanding) or not any(supplying):
        return False
    sheet.notes.append(
        f"{sheet.name}: its rows demand and its columns supply, so arcs lead from the latter to the former"
    )
    return True


def _check_chosen(reading: Reading, nodes: Sequence[Sheet], arcs: Sheet) -> None:
    """Raises TableFault where a column of nodes is named and there is no table of nodes, or a column is to be left aside
    that no table has."""
    for what in reading.columns:
        if not nodes and what in NODE_COLUMNS:
            raise TableFault(f"a column is named for {called(what)}, and there is no table of nodes")
    there = {folded(header) for sheet in (*nodes, arcs) for header in sheet.header}
    for name in reading.columns.get("aside", ()):
        if folded(name) not in there:
            raise TableFault(f"there is no column {name!r} to be left aside")


def _check_times(problem: Problem, table: Table, tails: Sequence[str], heads: Sequence[str]) -> None:
    """Raises TableFault where both ends of each arc are times or dates, as those of a shift, and no nodes that are known
    otherwise."""
    known = {*problem.nodes, problem.source, problem.sink}
    names = {*tails, *heads}
    if known.isdisjoint(names) and all(map(TIME.fullmatch, names)):
        raise table.fault(
            0,
            "from",
            "this looks like a time, and no node: `--columns from=NAME,to=NAME` names the columns of the nodes; if it is "
            "one, list it in the table of nodes",
        )


def _are_periods(values: Collection[str]) -> bool:
    """Whether cells are dates or times, or count from one number on.

    >>> _are_periods(["Q2", "Q1"]), _are_periods(["7.5", "40"]), _are_periods(["2026", "2024"]), _are_periods(["06:00"])
    (True, False, False, True)
    """
    if all(TIME.fullmatch(value.strip()) for value in values):
        return True
    found = [PERIOD.fullmatch(value) for value in values]
    numbers = sorted(int(each[1]) for each in found if each)
    return len(numbers) == len(values) and numbers == list(range(numbers[0], numbers[0] + len(numbers)))


def _check_periods(table: Table, tails: Sequence[str], heads: Sequence[str]) -> None:
    """Raises TableFault where each value of a column that is left aside, and may count periods, stands beside the same
    arcs, two or more."""
    pairs = list(zip(tails, heads))
    times = Counter(pairs)
    each = len(pairs) // len(times)
    if each < 2 or len(times) < 2 or set(times.values()) != {each}:
        return
    sheet = table.sheet
    for place in table.found.unknown:
        header = sheet.header[place]
        if folded(header) in HARMLESS - TIMES:
            continue
        cells = list(map(str, sheet.columns[place]))
        values = set(cells)
        if len(values) == each and _are_periods(values) and len(set(zip(pairs, cells))) == len(pairs):
            raise TableFault(
                f"{sheet.name}: the same {counted(len(times), 'arc')} stand beside each value of the column {header!r}, as in "
                "a table of several periods: all rows are one problem; give those of one plan alone; "
                f"`--columns aside={quoted(header)}` leaves the column aside"
            )


def _find_names(table: Table, ends: Iterable[str], *, is_alone: bool) -> None:
    """Finds where the names of the nodes stand: of several columns, or of an index without a name, what the arcs use.
    Where the table `is_alone` it has all that the arcs use, where it is one of several nothing else.

    Raises TableFault where none is one of them.
    """
    sheet, found = table.sheet, table.found
    if "node" in found.places:
        return
    wanted = set(ends)
    if found.names:
        names_at = {place: set(table.names_of(place)) for place in found.names}
        used = [place for place, its in names_at.items() if (wanted <= its if is_alone else its <= wanted)]
        if len(used) != 1:
            names = " and ".join(repr(sheet.header[place]) for place in found.names)
            is_one = len({folded(sheet.header[place]) for place in found.names}) == 1
            choice = "give the table with one of them alone" if is_one else "say `--columns node=NAME`"
            raise TableFault(
                f"{sheet.name}: the columns {names} both look like {called('node')}, and the arcs do not show which "
                f"counts; {choice}"
            )
        found.places["node"] = used[0]
        rest = [repr(sheet.header[place]) for place in found.names if place != used[0]]
        is_left = "is left aside" if len(rest) == 1 else "are left aside"
        sheet.notes.append(
            f"{sheet.name}: the nodes are called as in the column {sheet.header[used[0]]!r}, as in the table of arcs; "
            f"{', '.join(rest)} {is_left}"
        )
        return
    if sheet.index is not None and any(isinstance(name, str) and name_of(name) in wanted for name in sheet.index):
        if not (sheet.header and sheet.header[0] == "" and sheet.columns and sheet.columns[0] is sheet.index):
            sheet.header.append("")
            sheet.columns.append(sheet.index)
        found.places["node"] = next(
            place for place, column in enumerate(sheet.columns) if column is sheet.index and not sheet.header[place]
        )
        sheet.notes.append(f"{sheet.name}: {sheet.index_name} is taken as {called('node')}")
        return
    raise no_column(sheet, "node", found)


def _units(table: Table) -> List[Tuple[str, Unit, Sheet, str]]:
    """The units of the columns of a table, as `compare_units` takes them: those in their names, and those that a workbook
    shows with their numbers."""
    sheet, found = table.sheet, table.found
    units = dict(found.units)
    for what, place in found.places.items():
        shown = unit_of(next(iter(sheet.units.get(place, ())), ""))
        if shown is not None and what not in units and what in AMOUNTS_AND_COSTS:
            unit = shown.of_cost(is_named=True) if what == "cost" else shown.of_amount()
            units.update({} if unit is None else {what: unit})
    return [(what, unit, sheet, sheet.header[found.places[what]]) for what, unit in units.items()]


# ---------------------------------------------------------------- rows


def _read_nodes(problem: Problem, table: Table, ends: Collection[str], others: Dict[str, str]) -> None:
    """Adds the nodes of a table of nodes. `others` are those of other tables, each with the table that has it."""
    sheet = table.sheet
    if not table.has("supply") and not table.has("demand") and problem.kind == "min":
        raise no_column(sheet, "supply", table.found)
    names = table.names("node")
    lines: Dict[str, int] = {}
    for row, name in enumerate(names):
        if lines.setdefault(name, row) != row:
            raise table.fault(row, "node", f"it stands on {sheet.place(lines[name])} already")
        if name in others:
            raise table.fault(row, "node", f"it stands in {others[name]} already")
        if folded(name) in SUMS and name not in ends:
            raise table.fault(row, "node", ROW_OF_SUMS)
        if folded(name) in SUPPLIES and name not in ends:
            raise table.fault(row, "node", "this is no node, as it looks: give the table without this row")
    supplies, demands = table.numbers("supply"), table.numbers("demand")
    for row, name in enumerate(names):
        if name not in ends and (supplies[row] or demands[row]) and not SUMS.isdisjoint(folded(name).split()):
            raise table.fault(row, "node", ROW_OF_SUMS)
    if table.has("supply") and table.has("demand"):
        for row, (supply, demand) in enumerate(zip(supplies, demands)):
            if demand < 0:
                raise table.fault(row, "demand", "beside a column of supplies a demand is 0 or more")
            if supply < 0 < demand:
                expected = f"the supply is {plain(supply)}, which is a demand too: say it once, in either column"
                raise table.fault(row, "demand", expected)
    elif problem.kind == "min" and all(supply >= 0 for supply in supplies):
        _check_signs(table, supplies)
    for name, supply, demand in zip(names, supplies, demands):
        problem.nodes[name] = WIDE.subtract(supply, demand) if demand else supply
    if table.has("x") and table.has("y"):
        cells = [sheet.columns[table.found.places[axis]] for axis in "xy"]
        for name, row, east, north in zip(names, range(len(names)), table.numbers("x"), table.numbers("y")):
            if not is_empty(cells[0][row]) and not is_empty(cells[1][row]):
                problem.places[name] = float(east), float(north)
    elif table.has("x") or table.has("y"):
        there, other = ("x", "y") if table.has("x") else ("y", "x")
        header = sheet.header[table.found.places[there]]
        sheet.notes.append(f"{sheet.name}: the column {header!r} is left aside, since none says {called(other)}")
    others.update(dict.fromkeys(names, sheet.name))
    if problem.kind == "min":
        _tell_empty(table, names)
    table.tell_sign()


def _tell_empty(table: Table, names: Sequence[str]) -> None:
    """Notes nodes without a number of supply or demand: it may be missing. On a map places without one are usual."""
    cells = [table.sheet.columns[table.found.places[what]] for what in ("supply", "demand") if table.has(what)]
    empty = [
        name for name, row in zip(names, zip(*cells)) if all(is_empty(cell) and cell is not LACKING for cell in row)
    ]
    if empty:
        counts = "counts" if len(empty) == 1 else "count"
        table.sheet.notes.append(
            f"{table.sheet.name}: {counted(len(empty), 'node')} without a number {counts} as 0: {some(empty)}"
        )


def _says_demand(cells: Iterable[Any]) -> bool:
    """Whether a cell says that a node demands."""
    return any(folded(cell) in DEMANDING for cell in {cell for cell in cells if isinstance(cell, str)})


def _check_signs(table: Table, supplies: Sequence[Decimal]) -> None:
    """Raises TableFault where a column that is left aside says that a node demands, and no supply is below 0."""
    sheet, used = table.sheet, set(table.found.places.values())
    for place in set(range(len(sheet.header))) - used:
        if not _says_demand(sheet.columns[place]):
            continue
        for row, (cell, supply) in enumerate(zip(sheet.columns[place], supplies)):
            if supply and isinstance(cell, str) and folded(cell) in DEMANDING:
                raise table.fault(
                    row,
                    "supply",
                    f"the column {sheet.header[place]!r} says {cell.strip()!r}, and a demand is below 0 here: write - "
                    "before it, or give demands a column of their own, `demand`",
                )


def _add_ends(problem: Problem, ends: Iterable[str], nodes: Sequence[Sheet], arcs: Sheet) -> None:
    """Adds the nodes that the table of arcs alone has. Notes those that may be one, written in two ways."""
    alone = [end for end in ends if end not in problem.nodes]
    listed = {spelled: name for name in problem.nodes for spelled in _spelled(_alike(name))} if alone else {}
    for end in alone:
        for other in [listed[spelled] for spelled in _spelled(_alike(end)) if spelled in listed]:
            raise TableFault(
                f"the table of arcs has a node {end!r}, and the table of nodes {other!r}: if they are one, write them "
                "alike; if they are two, list both in the table of nodes"
            )
        problem.nodes[end] = ZERO
    written: Dict[str, str] = {}
    twins = []
    for end in alone:
        spellings = _spelled(_folded_name(end))
        twins += [(written[spelled], end) for spelled in spellings if spelled in written][:1]
        for spelled in spellings:
            written.setdefault(spelled, end)
    if twins:
        more = f" (and {len(twins) - 1} more)" if len(twins) > 1 else ""
        arcs.notes.append(f"{arcs.name}: the nodes {twins[0][0]!r} and {twins[0][1]!r} count as two{more}")
    if nodes and problem.kind != "asn" and alone:
        stand, supply = ("stands", "supplies") if len(alone) == 1 else ("stand", "supply")
        count = counted(len(alone), "node")
        nodes[-1].notes.append(f"{count} {stand} in the table of arcs alone, and {supply} nothing: {some(alone)}")


def _named(sheets: Sequence[Sheet]) -> str:
    """What messages call the tables of nodes together."""
    return " and ".join(dict.fromkeys(sheet.name for sheet in sheets))


def _tell_unplaced(problem: Problem, nodes: Sequence[Sheet]) -> None:
    """Notes nodes without a place where others have one: no map is drawn then."""
    unplaced = [name for name in problem.nodes if name not in problem.places] if problem.places else []
    if unplaced:
        has = "has" if len(unplaced) == 1 else "have"
        count = counted(len(unplaced), "node")
        nodes[-1].notes.append(
            f"{_named(nodes)}: {count} {has} no place (x and y), so the picture is no map: {some(unplaced)}"
        )


def _alike(name: str) -> str:
    """A name without what is hard to see, or what programs take off numbers: letters' size, what parts its words, zeros
    before a number, and `.0` behind it.

    >>> _alike("Lager_01") == _alike("lager 1"), _alike("01067.0") == _alike("1067"), _alike("A 10") == _alike("A 1")
    (True, True, False)
    """
    return re.sub(r"\W+", " ", _folded_name(name)).strip() or name


def _spelled(name: str) -> List[str]:
    """The ways to spell a name, in small letters, without letters that a keyboard may lack: without their accents, and
    umlauts with an e.

    >>> _spelled("köln"), _spelled("besançon"), _spelled("ulm")
    (['koln', 'koeln'], ['besancon'], ['ulm'])
    """
    if name.isascii():
        return [name]
    spelled = unicodedata.normalize("NFC", name)
    for letter, pair in (("ä", "ae"), ("ö", "oe"), ("ü", "ue")):
        spelled = spelled.replace(letter, pair)
    bare = (re.sub("[\u0300-\u036f]", "", unicodedata.normalize("NFKD", text)) for text in (name, spelled))
    return list(dict.fromkeys(bare))


def _folded_name(name: str) -> str:
    """The same, with the marks that it has but for `_`.

    >>> _folded_name("Lager_01") == _folded_name("lager 1"), _folded_name("C+") == _folded_name("C-")
    (True, False)
    """
    text = re.sub(r"(?<![\d.])0+(?=\d)", "", unicodedata.normalize("NFKC", name).casefold())
    return re.sub(r"[\s_]+", " ", re.sub(r"^(\d+)\.0+$", r"\1", text))


def _read_arcs(problem: Problem, table: Table, tails: Sequence[str], heads: Sequence[str]) -> None:
    """Adds the arcs, and puts the nodes of an assignment on their sides."""
    is_assignment = problem.kind == "asn"
    lows, caps = table.numbers("low"), table.limits("capacity")
    costs = _costs(problem.kind, table)
    labels: List[Optional[str]] = [None] * len(tails)
    if table.has("name"):
        labels = [name or None for name in table.names_of(table.found.places["name"])]
    if is_assignment:
        caps = [ONE if cap is None else cap for cap in caps]
    _check_bounds(table, lows, caps)
    problem.arcs += map(Arc, tails, heads, lows, caps, costs, labels)
    if is_assignment:
        _take_sides(problem)
    table.tell_sign()
    _tell_twice(table, problem.arcs, (tails, heads))


def _check_bounds(table: Table, lows: Sequence[Decimal], caps: Sequence[Optional[Decimal]]) -> None:
    """Raises TableFault where a lower bound is above a capacity."""
    for row, (low, cap) in enumerate(zip(lows, caps)):
        if cap is not None and low > cap:
            if table.has("capacity"):
                raise table.fault(row, "capacity", limit_fault(cap, low))
            raise table.fault(row, "low", "it is above the capacity, which is 1")


def _costs(kind: str, table: Table) -> List[Decimal]:
    """What a unit costs on each arc."""
    if kind == "max":
        return [ZERO] * len(table)
    default = table.reading.default_cost
    sheet = table.sheet
    if not table.has("cost"):
        if default is None:
            raise no_column(sheet, "cost", table.found, ", and `--default-cost 0` takes 0 for all")
        sheet.notes.append(f"{sheet.name}: there is no column of costs; a unit costs {plain(default)} on each arc")
        return [default] * len(table)
    costs = table.numbers("cost", default)
    empty = sum(map(is_empty, sheet.columns[table.found.places["cost"]])) if default is not None else 0
    if empty:
        count = "1 empty cost is" if empty == 1 else f"{empty} empty costs are"
        sheet.notes.append(f"{sheet.name}: {count} {plain(default or ZERO)}")
    return costs


def _take_sides(problem: Problem) -> None:
    """Puts the nodes of an assignment that have no supply on the side that their first arc is on."""
    nodes = problem.nodes
    still = {name for name, supply in nodes.items() if not supply}
    for arc in problem.arcs:
        for end, side in ((arc.tail, ONE), (arc.head, -ONE)):
            if end in still:
                nodes[end] = side
                still.discard(end)
    for name in nodes:
        if name in still:
            raise TableFault(f"node {name!r} has neither an arc nor a supply that says on which side it is")


def _tell_twice(table: Table, arcs: Sequence[Arc], ends: Tuple[Sequence[str], Sequence[str]]) -> None:
    """Notes rows that say the same as one before: they may stand there by a slip, and both count."""
    # Most tables have no two arcs between the same nodes, and numbers take less room than pairs.
    if len(set(map(hash, zip(*ends)))) == len(arcs) or len(set(arcs)) == len(arcs):
        return
    seen: Dict[Arc, int] = {}
    twice = [(row, seen[arc]) for row, arc in enumerate(arcs) if seen.setdefault(arc, row) != row]
    row, first = twice[0]
    place = table.sheet.place
    more = f" (and {len(twice) - 1} more)" if len(twice) > 1 else ""
    table.sheet.notes.append(f"{table.sheet.name}: {place(row)} says the same as {place(first)}{more}, and both count")


def _check_sense(problem: Problem, nodes: Sequence[Sheet], arcs: Sheet, ends: Collection[str]) -> None:
    """Raises TableFault where a cheapest plan is asked for and nothing has to flow since no supplies are there."""
    if problem.kind != "min" or any(problem.nodes.values()) or any(arc.low or arc.cost < 0 for arc in problem.arcs):
        if problem.kind == "min" and nodes:
            _tell_lonely(problem, _named(nodes), ends)
            _tell_one_side(problem, _named(nodes))
        return
    if not nodes:
        raise TableFault(
            f"{arcs.name}: this is a table of arcs alone, and a cheapest plan wants supplies: give the table of "
            "nodes before it (`--kind max` and `--kind asn` want none)"
        )
    problem.notes.append(f"{_named(nodes)}: no node supplies or demands anything, so nothing has to flow")


def _tell_one_side(problem: Problem, tables: str) -> None:
    """Notes that all nodes supply, or all demand."""
    for does, sign in (("demands", 1), ("supplies", -1)):
        if problem.balance == "equal" and all(supply * sign >= 0 for supply in problem.nodes.values()):
            if any(problem.nodes.values()):
                problem.notes.append(f"{tables}: no node {does} anything; a demand is a supply below 0")


def _tell_lonely(problem: Problem, tables: str, ends: Collection[str]) -> None:
    """Notes nodes without an arc."""
    lonely = [name for name in problem.nodes if name not in ends]
    for has_supply, what in ((True, "a supply or a demand and no arc"), (False, "neither a supply nor an arc")):
        names = [name for name in lonely if bool(problem.nodes[name]) == has_supply]
        if names:
            count = "1 node has" if len(names) == 1 else f"{len(names)} nodes have"
            problem.notes.append(f"{tables}: {count} {what}: {some(names)}")


# ---------------------------------------------------------------- plans as tables

PLAN_COLUMNS = ("name", "from", "to", "low", "capacity", "cost", "flow", "total cost", "is full", "one more costs")


def plan_rows(plan: Plan) -> List[Tuple[str, ...]]:
    """The rows of a plan's table, one an arc, under `PLAN_COLUMNS`. Numbers are written out; a capacity that is not
    there, and what is not known, is empty."""
    rows: List[Tuple[str, ...]] = []
    for k, (arc, flow) in enumerate(zip(plan.problem.arcs, plan.flows)):
        rows.append(
            (
                arc.name or "",
                arc.tail,
                arc.head,
                plain(arc.low),
                "" if arc.cap is None else plain(arc.cap),
                plain(arc.cost),
                plain(flow),
                plain(WIDE.multiply(flow, arc.cost)),
                "yes" if plan.is_full(k) else "no",
                "" if plan.prices is None else plain(plan.reduced_cost(k)),
            )
        )
    return rows


def check_kept(path: Union[str, Path], inputs: Sequence[str], *, is_problem: bool = False) -> None:
    """Raises TableFault where what is written would take the place of one of the tables `inputs`, or of a sheet that is
    read. One alone may be a problem text, which a problem that is written as one (`is_problem`) may replace."""
    file, sheet = part_sheet(path)
    is_text = len(inputs) == 1 and not is_table(inputs[0])
    for each in () if is_text and is_problem else inputs:
        theirs, their_sheet = part_sheet(each)
        if not (file.exists() and theirs.exists() and file.samefile(theirs)):
            continue
        if sheet is None:
            what = "the text" if is_text else "a table"
            raise TableFault(f"{file.name}: this would take the place of {what} that is read; write to another file")
        if sheet.casefold() in map(str.casefold, sheets_read(theirs, their_sheet, is_alone=len(inputs) == 1)):
            raise TableFault(
                f"{file.name}: the sheet {sheet!r} is read, and this would take its place; take another name"
            )


def check_output(path: Union[str, Path], inputs: Sequence[str] = ()) -> None:
    """Raises TableFault where a plan can't be written as a table of this name: its ending is unknown, or it is a
    workbook with other sheets, which would be lost, or one of the files `inputs`."""
    check_kept(path, inputs)
    file, sheet = part_sheet(path)
    ending = file.suffix.lower()
    if ending not in (".csv", ".tsv", *WORKBOOKS):
        raise TableFault(f"{file.name}: a table is written as .csv, .tsv or .xlsx, or as a sheet by book.xlsx:SHEET")
    if ending in WORKBOOKS and sheet is None:
        from .workbook import is_empty_file, sheet_names

        others = [] if is_empty_file(file) else [name for name in sheet_names(file) if name != "plan"]
        if others:
            raise TableFault(
                f"{file.name}: it has other sheets, {', '.join(map(repr, others))}; {file.name}:plan writes a sheet "
                "and keeps them"
            )


def write_plan(plan: Plan, path: Union[str, Path]) -> None:
    """Writes the arcs of a plan with their flows as a table: .csv, .tsv or .xlsx, or `book.xlsx:plan` for one sheet of a
    workbook whose other sheets are kept. Raises TableFault for another ending."""
    write_table(path, PLAN_COLUMNS, plan_rows(plan), sheet="plan", texts=3)


def write_table(
    path: Union[str, Path], columns: Sequence[str], rows: Iterable[Sequence[str]], *, sheet: str, texts: int = 0
) -> None:
    """Writes rows as a table: .csv, .tsv or .xlsx, or `book.xlsx:SHEET`, without which the sheet is called `sheet`. In a
    workbook the cells behind the first `texts` are numbers. Raises TableFault for another ending."""
    check_output(path)
    path, named = part_sheet(path)
    if path.suffix.lower() in WORKBOOKS:
        from .workbook import write_sheet

        numbers = [[_cell(cell) if place >= texts else cell for place, cell in enumerate(row)] for row in rows]
        write_sheet(path, named or sheet, [columns, *numbers])
        return
    out = StringIO()
    writer = csv.writer(out, delimiter="\t" if path.suffix.lower() == ".tsv" else ",", lineterminator="\n")
    writer.writerow(columns)
    writer.writerows(rows)
    write_text(path, out.getvalue())


def _cell(text: str) -> Any:
    """A cell of a spreadsheet: a number where it is exactly one there."""
    if not text[-1:].isdigit():
        return text
    # A number of at most 15 digits is always exactly one.
    return float(text) if len(text) <= 15 or exact(float(text)) == exact(text) else text
