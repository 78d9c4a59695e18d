"""The columns of a sheet as names and numbers, each with its faults by row and column."""

from __future__ import annotations

from dataclasses import dataclass, field
from decimal import Decimal
from itertools import islice
from typing import Dict, Iterable, List, Mapping, Optional, Sequence, Tuple, Union

from .cells import (
    LACKING,
    MISSING,
    NO_LIMIT,
    CellFault,
    Coordinates,
    Numbers,
    Sign,
    TableFault,
    Undecided,
    bare,
    decimal_sign,
    is_blank,
    is_empty,
    is_truth,
    name_of,
    not_plain,
    shown,
)
from .columns import Found, called, folded, match_of
from .measures import number_and_unit, unit_of
from .problem import ZERO, Number, exact, plain
from .sheets import Sheet
from .vocabulary import COLUMNS, DITTO, SUMS

PLACES = ("x", "y")

ROW_OF_SUMS = "this looks like a row of sums: give the table without it"

OPTIONAL = ("supply", "demand", "low", "name")
"""The properties that a feature of a map may lack."""

HINTS = {
    **dict.fromkeys(("from", "to"), "; a line has both of 'from' and 'to', or neither"),
    "capacity": "; null is no limit",
    "cost": "; `--default-cost 0` takes 0 where there is none",
}
"""What to do about another property that a feature lacks."""


@dataclass(frozen=True)
class Reading:
    """How the tables are to be read: see `read_tables`."""

    columns: Dict[str, List[str]] = field(default_factory=dict)
    decimal: Optional[str] = None
    default_cost: Optional[Decimal] = None
    encoding: Optional[str] = None

    @classmethod
    def of(
        cls,
        columns: Optional[Mapping[str, Union[str, Sequence[str]]]],
        decimal: Optional[str],
        default_cost: Optional[Number],
        encoding: Optional[str],
    ) -> Reading:
        """The same from what a caller says. Raises ValueError where that has no meaning."""
        named = {what: [names] if isinstance(names, str) else list(names) for what, names in (columns or {}).items()}
        for what in named:
            if what not in COLUMNS and what != "aside":
                raise ValueError(f"there is no column {what!r} to name; there are {', '.join(COLUMNS)} and aside")
        if decimal not in (None, ".", ","):
            raise ValueError(f"the decimal sign is {decimal!r}, and has to be '.' or ','")
        cost = None if default_cost is None else exact(default_cost, "the default cost")
        return cls(named, decimal, cost, encoding)


def no_column(sheet: Sheet, what: str, found: Found, otherwise: str = "") -> TableFault:
    """There is no column that holds this, or it was said to be something else. `otherwise` is what may be done but for
    naming another one."""
    named = f"`--columns {what}=NAME` names it{otherwise}"
    for place, said in found.told.items():
        header = sheet.header[place]
        if match_of(header, [what]):
            is_said = "said to be left aside" if said == "aside" else f"said to be {called(said)}"
            return TableFault(
                f"{sheet.name}: the column {header!r} is {is_said}, and no other looks like {called(what)}; if one is, "
                f"{named}"
            )
    return TableFault(
        f"{sheet.name}: there is no column {COLUMNS[what][0]!r} (nor {', '.join(COLUMNS[what][1:6])}, ..); its columns "
        f"are {sheet.its_columns()}; {named}"
    )


class _Names(Dict[str, str]):
    """The names in cells that are text, each of which is read once."""

    def __missing__(self, cell: str) -> str:
        name = self[cell] = name_of(cell)
        return name


class Table:
    """The cells of a sheet as names and numbers. Each method takes a column at once, and raises TableFault by row and
    column."""

    def __init__(self, sheet: Sheet, found: Found, reading: Reading):
        self.sheet, self.found, self.reading = sheet, found, reading
        self._check_short_rows()
        for what in self._with_numbers():
            self._take_units(what)
        self._numbers: Optional[Numbers] = None
        self._names = _Names()
        # Where columns are parted by commas, numbers have a decimal point unless they show something else.
        self._point_is_usual = sheet.delimiter == ","

    def __len__(self) -> int:
        return len(self.sheet.lines)

    def has(self, what: str) -> bool:
        """Whether there is a column for this."""
        return what in self.found.places

    def fault(self, row: int, what: str, expected: str) -> TableFault:
        """What is wrong with a cell."""
        return self.sheet.fault(row, self.found.places[what], expected)

    def _check_short_rows(self) -> None:
        """Raises TableFault where a row has not all the cells that count."""
        sheet = self.sheet
        if sheet.word == "feature":
            self._check_properties()
        of_use = set(self.found.places.values())
        if self.reading.default_cost is not None:
            of_use.discard(self.found.places.get("cost", -1))
        sheet.check_short(of_use)

    def _check_properties(self) -> None:
        """Raises TableFault where a feature of a map has not all the properties that count."""
        sheet = self.sheet
        lacking: List[Tuple[int, str]] = []
        for what, place in self.found.places.items():
            if what in OPTIONAL or what == "cost" and self.reading.default_cost is not None:
                continue
            rows = (row for row, cell in enumerate(sheet.columns[place]) if cell is LACKING)
            lacking += [(row, what) for row in islice(rows, 1)]
        if lacking:
            row, what = min(lacking, key=lambda pair: pair[0])
            header, hint = sheet.header[self.found.places[what]], HINTS.get(what, "")
            raise TableFault(f"{sheet.name}, {sheet.place(row)}: it has no property {header!r}{hint}")

    # ------------------------------------------------------------ names

    def names(self, what: str) -> List[str]:
        """The names in a column that has to be there, none of them empty."""
        if not self.has(what):
            raise no_column(self.sheet, what, self.found)
        names = self.names_of(self.found.places[what])
        if "" in names:
            row = names.index("")
            raise self.fault(row, what, self._why_nameless(row, what))
        for mark in DITTO.intersection(names):
            raise self.fault(names.index(mark), what, "this looks like `as above`: write the name itself")
        return names

    def _why_nameless(self, row: int, what: str) -> str:
        """What to do about a row that has no name where one was expected."""
        cells = [column[row] for column in self.sheet.columns if not is_blank(column[row])]
        if any(isinstance(cell, str) and folded(cell) in SUMS for cell in cells):
            return ROW_OF_SUMS
        if len(cells) == 1:
            return "a name was expected; if this row is a remark, take it out"
        return "a name was expected" + ("; if it is that of the row above, write it here too" if row else "")

    def names_of(self, place: int) -> List[str]:
        """The names in a column by its place; '' where a cell is empty."""
        cells = self.sheet.columns[place]
        is_text = set(map(type, cells)) <= {str}
        try:
            if is_text:
                return list(map(self._names.__getitem__, cells))
        except CellFault:
            pass
        found = []
        for row, cell in enumerate(cells):
            try:
                found.append(name_of(cell))
            except CellFault as fault:
                raise self.sheet.fault(row, place, str(fault)) from None
        return found

    # ------------------------------------------------------------ numbers

    def numbers(self, what: str, default: Optional[Decimal] = ZERO) -> List[Decimal]:
        """The numbers in a column; the default where a cell is empty, or there is no such column.

        Raises TableFault where a cell is empty and there is no default.
        """
        if not self.has(what):
            return [ZERO if default is None else default] * len(self)
        found = self._looked_up(what, Coordinates() if what in PLACES else self._reader())
        if default is None and None in found:
            expected = (
                f"{called(what)} was expected; `--default-cost 0` (in Python `default_cost=0`) takes 0 for those that are "
                "empty"
            )
            raise self.fault(found.index(None), what, expected)
        return [default if number is None else number for number in found]  # type: ignore[misc]

    def limits(self, what: str) -> List[Optional[Decimal]]:
        """The capacities in a column; None where a cell is empty or says that there is no limit."""
        if not self.has(what):
            return [None] * len(self)
        limits = Numbers(self._reader().sign, has_limits=True)
        limits.grouped, limits.parted = self._reader().grouped, self._reader().parted
        return self._looked_up(what, limits)

    def _looked_up(self, what: str, numbers: Numbers) -> List[Optional[Decimal]]:
        """The numbers of a column's cells. Truth values are refused first: they are equal to 0 and 1."""
        self._check_shown_units(what)
        cells = self.sheet.columns[self.found.places[what]]
        if any(each.__name__ in ("bool", "bool_") for each in set(map(type, cells))):
            row = next(row for row, cell in enumerate(cells) if is_truth(cell))
            raise self.fault(row, what, f"a number was expected, and this is {not_plain(cells[row])}")
        try:
            return list(map(numbers.__getitem__, cells))
        except (CellFault, TypeError):
            pass
        for row, cell in enumerate(cells):
            try:
                numbers[cell]
            except (CellFault, TypeError) as fault:
                expected = str(fault) if isinstance(fault, CellFault) else "a number was expected"
                if what == "capacity" and isinstance(cell, str) and cell.strip().lower() in MISSING:
                    expected = (
                        "a number was expected: leave the cell empty where there is no limit, and write 0 where it is 0"
                    )
                if (
                    what == "cost"
                    and isinstance(cell, str)
                    and (cell.strip().lower() in MISSING or cell.strip() in ("x", "X"))
                ):
                    expected = (
                        "a number was expected: write one in its place, or take the row out if there is no such arc"
                    )
                raise self.fault(row, what, expected) from None
        raise AssertionError("a cell was refused, and now none is")

    def _take_units(self, what: str) -> None:
        """Parts the numbers of a column from their units, where all of them have one of the kind that belongs there."""
        place = self.found.places[what]
        parted: Dict[str, Tuple[str, str]] = {}
        for cell in self.sheet.columns[place]:
            if is_empty(cell) or isinstance(cell, str) and (cell in parted or cell.strip().lower() in NO_LIMIT | {"0"}):
                continue
            found = number_and_unit(cell) if isinstance(cell, str) else None
            unit = unit_of(found[1]) if found is not None else None
            if (
                found is None
                or unit is None
                or (unit.of_cost(is_named=False) if what == "cost" else unit.of_amount()) is None
            ):
                return
            parted[cell] = found
        if not parted:
            return
        units = self.sheet.units.setdefault(place, {})
        for row, cell in enumerate(self.sheet.columns[place]):
            if cell in parted:
                units.setdefault(parted[cell][1], row)
        self.sheet.columns[place] = [parted[cell][0] if cell in parted else cell for cell in self.sheet.columns[place]]
        self.sheet.notes.append(
            f"{self.sheet.name}: by its cells the column {self.sheet.header[place]!r} is in {next(iter(units))}"
        )

    def _check_shown_units(self, what: str) -> None:
        """Raises TableFault where a workbook shows the numbers of a column in several units, or in another one than the
        name of the column says."""
        shown_units = list(self.sheet.units.get(self.found.places[what], {}).items())
        said = self.found.units.get(what)
        for text, row in shown_units:
            unit = unit_of(text)
            if said is not None and unit is not None and not unit.may_be(said):
                raise self.fault(row, what, f"it is shown in {text}, and the name of the column says {said.text}")
            first, at = shown_units[0]
            other = unit_of(first)
            if text != first and (unit is None or other is None or not unit.may_be(other)):
                place = self.sheet.place(at)
                raise self.fault(
                    row, what, f"it is shown in {text}, and that on {place} in {first}: bring all to one unit"
                )

    def _reader(self) -> Numbers:
        """What reads the numbers of the table, by its decimal sign."""
        if self._numbers is None:
            if self.found.is_plan and not any("," in cell for cell in self._texts(self._with_numbers())):
                # mcf-plan writes decimal points, whatever the other table has.
                self._numbers = Numbers(Sign("."))
            elif self.reading.decimal is not None:
                self._numbers = Numbers(Sign(self.reading.decimal))
            else:
                self._numbers = Numbers(self._decimal_sign())
        return self._numbers

    def look_at(self, other: Table) -> None:
        """Takes a decimal point for nothing usual where the other table of the problem shows a decimal comma."""
        if self._point_is_usual and self.reading.decimal is None and other._reader().sign.mark == ",":
            self._point_is_usual, self._numbers = False, None

    def _with_numbers(self) -> List[str]:
        """The columns that have amounts and costs."""
        return [what for what in self.found.places if what not in ("node", "from", "to", "name", *PLACES)]

    def _texts(self, columns: Iterable[str]) -> Iterable[str]:
        """The different texts in some columns."""
        cells: Dict[str, None] = {}
        for what in columns:
            if self.has(what):
                column = self.sheet.columns[self.found.places[what]]
                cells.update(dict.fromkeys(cell for cell in column if isinstance(cell, str)))
        return cells

    def _decimal_sign(self) -> Sign:
        """The decimal sign of the table. Raises TableFault where nothing shows which it is."""
        sheet = self.sheet
        columns = self._with_numbers()
        cells = self._texts(columns)
        try:
            return decimal_sign(cells, point_is_usual=self._point_is_usual)
        except Undecided as doubt:
            row, what = self._where(doubt.cell, columns)
            if doubt.other:
                their_row, theirs = self._where(doubt.other, columns)
                raise self.fault(
                    row,
                    what,
                    f"that is a decimal point, and {shown(doubt.other)} ({sheet.place(their_row)}, column "
                    f"{sheet.header[self.found.places[theirs]]!r}) has a decimal comma: write all numbers alike",
                ) from None
            mark = next(mark for mark in ".," if mark in doubt.cell)
            other = Sign(mark).thousands
            few, many = doubt.cell.replace(",", "."), doubt.cell.replace(mark, "")
            words = f"is it {few} or {many}? Say `--decimal {mark}` for the first, `--decimal {other}` for the second"
            raise self.fault(row, what, words) from None

    def _where(self, cell: str, columns: Sequence[str]) -> Tuple[int, str]:
        """The row and the column of the first cell that is this text."""
        for what in columns:
            for row, each in enumerate(self.sheet.columns[self.found.places[what]]):
                if isinstance(each, str) and bare(each) == cell:
                    return row, what
        raise AssertionError(f"no cell is {cell!r}")

    def tell_sign(self) -> None:
        """Notes how numbers were read that might have been read otherwise."""
        numbers, sheet = self._numbers, self.sheet
        for cell, number in islice(() if numbers is None else numbers.parted.items(), 1):
            by = "apostrophes" if "'" in cell or "\u2019" in cell else "blanks"
            sheet.notes.append(f"{sheet.name}: {by} part the thousands of numbers, so {shown(cell)} is {plain(number)}")
        if numbers is None or not numbers.sign.shown_by:
            return
        mark = {".": "point", ",": "comma"}[numbers.sign.mark]
        for cell, number in numbers.grouped.items():
            sheet.notes.append(
                f"{sheet.name}: numbers have a decimal {mark}, as {shown(numbers.sign.shown_by)} shows, so "
                f"{shown(cell)} is {plain(number)}"
            )
            return
        if numbers.sign.mark == "," and sheet.delimiter == ",":
            sheet.notes.append(f"{sheet.name}: numbers have a decimal comma, as {shown(numbers.sign.shown_by)} shows")
