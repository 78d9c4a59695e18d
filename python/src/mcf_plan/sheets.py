"""Sheets: the cells of a text, a frame or a workbook, column by column, before anything is made of them."""

from __future__ import annotations

import csv
import datetime
import re
from dataclasses import dataclass, field
from pathlib import Path
from typing import Any, Collection, Dict, FrozenSet, Iterator, List, Optional, Sequence, Set, Tuple

from .cells import TableFault, is_blank, is_empty, not_plain, shown

DELIMITERS = ",;\t|"
WORKBOOKS = (".xlsx", ".xlsm")
OTHER_SPREADSHEETS = (".xls", ".xlsb", ".ods", ".numbers")
MAPS = (".geojson", ".json")
OTHER_FILES: Tuple[Tuple[Tuple[bytes, ...], str], ...] = (
    ((b"PK\x03\x04", b"PK\x05\x06"), "a spreadsheet by another name; give it its ending .xlsx"),
    ((b"\xd0\xcf\x11\xe0",), "an old workbook (.xls) by another name; save it as .xlsx or as CSV"),
    ((b"\x1f\x8b", b"BZh91AY", b"\xfd7zXZ", b"(\xb5/\xfd", b"7z\xbc\xaf"), "a packed file; unpack it first"),
    ((b"%PDF-", b"PAR1", b"\x89PNG", b"\x89HDF"), "no text; save the table as CSV in UTF-8"),
)
"""What files that are no texts begin with, and what to say of them."""


@dataclass
class Sheet:
    """A table as it stands: the names of its columns, and the cells below them, column by column.

    `name` is what messages call it. `lines` says where each row stands, as a number of lines, rows or features, by
    `word`. `missing` has the places that a row lacks, by the number of the row from 0. `index` are the names that a
    frame, or a first column without a name, has for its rows. `units` are those that a workbook shows behind or before
    the numbers of a column, each with the first row that has it.
    """

    name: str
    header: List[str]
    columns: List[Sequence[Any]]
    lines: Sequence[Any]
    word: str = "line"
    delimiter: str = ""
    missing: Dict[int, FrozenSet[int]] = field(default_factory=dict)
    index: Optional[Sequence[Any]] = None
    index_name: str = ""
    units: Dict[int, Dict[str, int]] = field(default_factory=dict)
    notes: List[str] = field(default_factory=list)

    def place(self, row: int) -> str:
        """Where a row stands, in words."""
        return f"{self.word} {self.lines[row]}"

    def fault(self, row: int, column: int, expected: str) -> TableFault:
        """What is wrong with a cell."""
        cell = shown(self.columns[column][row])
        title = repr(self.header[column]) if self.header[column] else column + 1
        return TableFault(f"{self.name}, {self.place(row)}, column {title}: {cell} stands there; {expected}")

    def blank_columns(self, places: Collection[int]) -> Set[int]:
        """Those of the columns at these places in which nothing stands."""
        parted = [column for column in self.columns if isinstance(column, TextColumn)]
        if parted:
            return parted[0].lines.blank(places)
        return {place for place in places if all(map(is_blank, self.columns[place]))}

    def check_short(self, of_use: Collection[int], rows: Optional[Collection[int]] = None) -> None:
        """Raises TableFault where a row, of these if they are given, has not all the cells of the columns of use."""
        for row, places in self.missing.items():
            if places.isdisjoint(of_use) or rows is not None and row not in rows:
                continue
            count = len(self.header) - len(places)
            raise TableFault(
                f"{self.name}, {self.place(row)}: {count} field{' stands' if count == 1 else 's stand'} under "
                f"{len(self.header)} columns; an empty field needs its separator too"
            )

    def its_columns(self) -> str:
        """The names of the columns, for messages."""
        return ", ".join(repr(header) for header in self.header if header) or "without a name"


def sheet_of_rows(
    name: str, rows: Sequence[Sequence[Any]], lines: Sequence[int], *, word: str = "row", delimiter: str = ""
) -> Sheet:
    """The sheet of rows of cells, none of them empty, of which the first names the columns."""
    if not rows:
        raise TableFault(f"{name}: the table is empty: a row with the names of the columns comes first")
    sheet = _sheet_under(name, rows[0], lines, word=word, delimiter=delimiter)
    kept, width = rows[1:], len(sheet.header)
    if any(len(row) != width for row in kept):
        kept = _fitted(sheet, kept)
    columns: List[List[Any]] = [[] for _ in sheet.header]
    # A few rows at a time: each column of all of them at once would fetch every row from memory anew.
    for first in range(0, len(kept), ROWS_AT_ONCE):
        for column, cells in zip(columns, zip(*kept[first : first + ROWS_AT_ONCE])):
            column += cells
    sheet.columns = [*columns]
    _take_index(sheet)
    return sheet


def _sheet_under(name: str, names: Sequence[Any], lines: Sequence[int], *, word: str, delimiter: str) -> Sheet:
    """A sheet without its columns, under the row that has their names; `lines` says where all rows stand."""
    for cell in names:
        wrong = not_plain(cell)
        if wrong:
            raise TableFault(
                f"{name}, {word} {lines[0]}: {shown(cell)} stands there; the name of a column was expected, and this is "
                f"{wrong}"
            )
    header = ["" if is_empty(cell) else _title(cell) for cell in names]
    while header and not header[-1]:
        header.pop()
    if len(lines) == 1:
        raise TableFault(f"{name}: the names of the columns stand there, and no row below them")
    return Sheet(name, header, [], lines[1:], word, delimiter)


def _title(cell: Any) -> str:
    """The name of a column in a cell; a day, as workbooks have it, without its time."""
    is_day = isinstance(cell, datetime.datetime) and cell.time() == datetime.time()
    return str(cell.date() if is_day else cell).strip()


def _take_index(sheet: Sheet) -> None:
    """Takes a first column without a name for one that may have the names of the rows."""
    if sheet.header and not sheet.header[0] and len(sheet.header) > 1:
        sheet.index, sheet.index_name = sheet.columns[0], "the first column, which has no name,"


def _fitted(sheet: Sheet, rows: Sequence[Sequence[Any]]) -> List[Sequence[Any]]:
    """Rows as wide as the header; what a row lacks is noted in the sheet. In a spreadsheet cells beyond the header are
    left aside. Raises TableFault where a text has them, or has rows of different widths beyond the header."""
    width = len(sheet.header)
    widest = max(map(len, rows))
    fitted: List[Sequence[Any]] = []
    is_told = False
    for number, row in enumerate(rows):
        beyond = row[width:]
        is_filled = any(not is_empty(cell) for cell in beyond)
        if sheet.word == "line" and beyond and (is_filled or len(row) != widest or len(rows[0]) != widest):
            columns = "1 column" if width == 1 else f"{width} columns"
            advice = (
                "is there a title above the table? Then take it out: the names of the columns come first"
                if width == 1
                else "is there a comma in a number? Then put it between quotes, or write a point"
            )
            raise TableFault(f"{sheet.name}, {sheet.place(number)}: {len(row)} fields stand under {columns}; {advice}")
        if is_filled and not is_told:
            sheet.notes.append(f"{sheet.name}: cells beside the table, as on {sheet.place(number)}, are left aside")
            is_told = True
        if len(row) < width:
            sheet.missing[number] = frozenset(range(len(row), width))
        fitted.append([*row, *[""] * (width - len(row))][:width])
    return fitted


# ---------------------------------------------------------------- texts


_LINE = re.compile(r"[^\r\n]*(?:\r\n?|\n)|[^\r\n]+")

_RULE = re.compile(r"\A(\s*[^\r\n]*(?:\r\n?|\n))[ \t]*[|:+-][ \t|:+-]*--[ \t|:+-]*(?=[\r\n])")
"""The line below the names of the columns that tables of Markdown have, and those that data bases print."""

ROWS_AT_ONCE = 500
FIELD_MARK = "\x1f"
"""Parts the fields of a line whose quotes were taken off; this is what it was made for, and no table has it."""
NARROW = 16
"""The columns of a table that has no more are all taken from its lines at once."""


class _Shared(Dict[str, str]):
    """Texts by themselves: what is looked up is the first one that was alike."""

    def __missing__(self, text: str) -> str:
        self[text] = text
        return text


class TextLines:
    """The lines of a text below its header, each of so many fields that a mark parts. They are parted where a column is
    asked for: most columns of a wide table are never looked at. Cells that are alike are one in memory."""

    def __init__(self, lines: Sequence[str], mark: str, width: int, *, has_blanks: bool):
        self.lines, self.count = lines, len(lines)
        self.mark, self.width = mark, width
        self.has_blanks = has_blanks  # Before fields, which are no part of them.
        self.columns: Dict[int, List[str]] = {}
        self._shared = _Shared()

    def column(self, place: int) -> List[str]:
        """The cells of a column."""
        if place not in self.columns:
            # Who asks for one column after the other will ask for the rest too.
            is_one = self.width > NARROW and len(self.columns) < NARROW
            self._take([place] if is_one else [other for other in range(self.width) if other not in self.columns])
        return self.columns[place]

    def _take(self, places: Sequence[int]) -> None:
        last, shared = max(places) + 1, self._shared.__getitem__
        columns: List[List[str]] = [[] for _ in places]
        for first in range(0, len(self.lines), ROWS_AT_ONCE):
            rows = [line.split(self.mark, last) for line in self.lines[first : first + ROWS_AT_ONCE]]
            for place, column in zip(places, columns):
                cells = [row[place] for row in rows]
                column += map(shared, [cell.lstrip(" ") for cell in cells] if self.has_blanks else cells)
        self.columns.update(zip(places, columns))
        if len(self.columns) == self.width:
            self.lines, self._shared = (), _Shared()

    def blank(self, places: Collection[int]) -> Set[int]:
        """Those of the columns at these places in which nothing stands."""
        left = {place for place in places if all(map(is_blank, self.columns.get(place, ())))}
        for line in self.lines:
            if left <= self.columns.keys():
                break
            fields = line.split(self.mark)
            left = {place for place in left if is_blank(fields[place])}
        return left


class TextColumn(Sequence[str]):
    """A column of a text, which is taken from its lines where a cell of it is asked for."""

    def __init__(self, lines: TextLines, place: int):
        self.lines, self.place = lines, place

    def __len__(self) -> int:
        return self.lines.count

    def __getitem__(self, row: Any) -> Any:
        return self.lines.column(self.place)[row]

    def __iter__(self) -> Iterator[str]:
        return iter(self.lines.column(self.place))


def read_text(path: Path, encoding: Optional[str] = None) -> Sheet:
    """The sheet of a text whose fields are parted by commas, semicolons, tabs or upright strokes."""
    raw = path.read_bytes()
    is_otherwise = encoding is not None and _is_utf8(raw)
    text = _decoded(raw, path.name, None if is_otherwise else encoding)
    del raw
    found = re.search(r"[^\r\n]*[^\s][^\r\n]*", text)
    first = found[0] if found else ""
    told = re.fullmatch(r"sep=(.)\s*", first, re.IGNORECASE)
    if told:
        delimiter = told[1]
        text = re.sub(r"sep=.", "", text, count=1, flags=re.IGNORECASE)
    else:
        delimiter = _delimiter(first, path.name)
    if delimiter == "|":
        text = _RULE.sub(r"\1", text, count=1)
    sheet = _sheet_of_lines(path.name, text, delimiter)
    if sheet is None:
        rows, starts = _rows(text, path.name, delimiter)
        sheet = sheet_of_rows(path.name, rows, starts, word="line", delimiter=delimiter)
    if len(sheet.header) == 1 and re.search(r"\S\s+\S", first):
        raise TableFault(
            f"{path.name}: one column alone is there, {sheet.header[0]!r}; columns are parted by commas, semicolons, "
            "tabs or upright strokes"
        )
    if is_otherwise and encoding is not None and encoding.lower().replace("-", "").replace("_", "") != "utf8":
        sheet.notes.append(f"{path.name}: it is UTF-8, and is not read as {encoding}")
    return sheet


def _is_utf8(raw: bytes) -> bool:
    """Whether a text is UTF-8 beyond doubt: it has letters of several bytes, which no other encoding has by chance."""
    if raw.isascii():
        return False
    try:
        raw.decode()
    except UnicodeDecodeError:
        return False
    return True


def _sheet_of_lines(name: str, text: str, delimiter: str) -> Optional[Sheet]:
    """The sheet of a text that has a field in each line for each column; None of another one, and of a narrow one with
    quotes, which gains nothing by it."""
    mark, has_quotes = delimiter, '"' in text or delimiter not in DELIMITERS
    if not has_quotes:
        lines = text.replace("\r\n", "\n").replace("\r", "\n").split("\n")
        starts = [number for number, line in enumerate(lines, 1) if line.strip(delimiter + " ")]
        kept = [lines[number - 1] for number in starts]
        if not kept or max(map(len, kept)) > csv.field_size_limit():
            return None
    elif text.count(delimiter, 0, (text.find("\n") + 1) or None) < NARROW or FIELD_MARK in text:
        return None
    else:
        mark = FIELD_MARK
        starts, kept = [], []
        for start, row in _records(text, name, delimiter):
            starts.append(start)
            kept.append(mark.join(row))
    names = kept[0].split(mark) if has_quotes else [cell.lstrip(" ") for cell in kept[0].split(mark)]
    if not names[-1].strip() or any(line.count(mark) != len(names) - 1 for line in kept):
        return None
    sheet = _sheet_under(name, names, starts, word="line", delimiter=delimiter)
    has_blanks = not has_quotes and any(line[0] == " " or delimiter + " " in line for line in kept)
    parted = TextLines(kept[1:], mark, len(names), has_blanks=has_blanks)
    sheet.columns = [TextColumn(parted, place) for place in range(len(names))]
    _take_index(sheet)
    return sheet


def _records(text: str, name: str, delimiter: str) -> Iterator[Tuple[int, List[str]]]:
    """The rows of a text that have a cell, each behind the number of the line where it begins."""
    lines = (found[0] for found in _LINE.finditer(text))
    reader = csv.reader(lines, delimiter=delimiter, skipinitialspace=True, strict=True)
    begins = 1
    try:
        for row in reader:
            if any(row):
                yield begins, row
            begins = reader.line_num + 1
    except csv.Error as error:
        raise TableFault(f"{name}, line {begins}: {_csv_words(str(error))}") from None


def _rows(text: str, name: str, delimiter: str) -> Tuple[List[Sequence[str]], List[int]]:
    """The rows of a text that have a cell, and the lines where they begin. Cells that are alike are one in memory."""
    shared = _Shared()
    rows: List[Sequence[str]] = []
    starts: List[int] = []
    for start, row in _records(text, name, delimiter):
        rows.append(tuple(map(shared.__getitem__, row)))
        starts.append(start)
    return rows, starts


def _decoded(raw: bytes, name: str, encoding: Optional[str]) -> str:
    """The text of a file. Raises TableFault where it is none."""
    for marks, words in OTHER_FILES:
        if raw.startswith(marks):
            raise TableFault(f"{name}: this is {words}")
    if raw[:2] in (b"\xff\xfe", b"\xfe\xff"):
        encoding = "utf-16"
    elif raw[:3] == b"\xef\xbb\xbf":
        encoding = None  # It is UTF-8, whatever the other table is.
    try:
        text = raw.decode(encoding or "utf-8-sig")
    except LookupError:
        raise TableFault(f"{encoding!r} is the name of no encoding; for tables of Windows it is cp1252") from None
    except UnicodeDecodeError as error:
        line = len(re.findall(rb"\r\n|\r|\n", raw[: error.start])) + 1
        if encoding:
            raise TableFault(f"{name}, line {line}: a byte that is no {encoding}") from None
        if re.search(rb"[\x00-\x08\x0e-\x1f]", raw[:1000]):
            raise TableFault(f"{name}: this is no text; save the table as CSV in UTF-8") from None
        begin = re.split(rb"[\r\n]", raw[: error.start])[-1]
        word = raw[error.start - len(begin) :].split(b"\n")[0].strip()[:40].decode("cp1252", "replace")
        raise TableFault(
            f"{name}, line {line}: a byte that is no UTF-8; save it as CSV in UTF-8, or say `--encoding cp1252` if "
            f"{word!r} is what stands there"
        ) from None
    if "\0" in text:
        line = len(re.findall(r"\r\n|\r|\n", text[: text.index("\0")])) + 1
        raise TableFault(f"{name}, line {line}: a byte 0, which no table has")
    return text


def _delimiter(first: str, name: str) -> str:
    """What parts the columns, by the line with their names."""
    bare = re.sub(r'"[^"]*"', "", first)
    counts = sorted(((bare.count(mark), mark) for mark in DELIMITERS), reverse=True)
    if counts[0][0] and counts[0][0] == counts[1][0]:
        raise TableFault(
            f"{name}: the names of the columns are parted by {shown(counts[0][1])} and by {shown(counts[1][1])}; "
            "part them by one of them"
        )
    return counts[0][1] if counts[0][0] else ","


def _csv_words(error: str) -> str:
    """An error of the reader of texts in a planner's words."""
    if "unexpected end" in error:
        return "a quote is opened here and not closed"
    if "expected after" in error:
        return "something stands behind a closing quote; within a quoted field a quote is written twice"
    return error


# ---------------------------------------------------------------- frames


def sheet_of_frame(frame: Any, name: str) -> Sheet:
    """The sheet of a pandas DataFrame, by the name that messages call it; its index may have the names of the rows.

    Raises TypeError where it is none.
    """
    if not hasattr(frame, "columns") or not hasattr(frame, "iloc"):
        raise TypeError(f"{name} has to be a DataFrame of pandas, and is of type {type(frame).__name__}")
    header = [str(column).strip() for column in frame.columns]
    columns: List[Sequence[Any]] = [_cells_of(frame.iloc[:, place]) for place in range(len(header))]
    lines = frame.index.tolist()
    levels, index_name = getattr(frame.index, "nlevels", 1), frame.index.name
    added = 0
    for level, title in enumerate(frame.index.names) if levels > 1 or index_name is not None else ():
        labels = [line[level] for line in lines] if levels > 1 else lines
        called = "" if title is None else str(title).strip()
        # An index may repeat a column, as `set_index("name", drop=False)` makes it.
        twins = [column for there, column in zip(header, columns) if there == called]
        if list(map(str, labels)) not in [list(map(str, twin)) for twin in twins]:
            # They come first, as pandas writes them.
            header.insert(added, called)
            columns.insert(added, labels)
            added += 1
    has_names = levels == 1 and index_name is None and any(isinstance(line, str) for line in lines)
    # A row is blank where its name, which may stand in the index, is empty too.
    cells = [*columns, lines] if has_names else columns
    kept = [number for number, row in enumerate(zip(*cells)) if any(not is_empty(cell) for cell in row)]
    if len(kept) != len(lines):
        columns = [[column[number] for number in kept] for column in columns]
        lines = [lines[number] for number in kept]
    sheet = Sheet(name, header, columns, [_row_label(line) for line in lines], "row")
    if has_names:
        sheet.index, sheet.index_name = lines, "the index"
    return sheet


def _cells_of(column: Any) -> List[Any]:
    """The cells of a column of a frame. Short floats are taken as they are printed, as all others are: in 64 bits 0.1
    would become 0.10000000149011612."""
    if hasattr(column, "sparse"):
        column = column.sparse.to_dense()
    dtype = column.dtype
    if getattr(dtype, "kind", "") == "f" and dtype.itemsize < 8:
        return [cell if is_empty(cell) else float(str(cell)) for cell in column.array]
    cells: List[Any] = column.tolist()
    return cells


def _row_label(label: Any) -> str:
    return str(label) if isinstance(label, int) else repr(label)


# ---------------------------------------------------------------- which file


def part_sheet(source: Any) -> Tuple[Path, Optional[str]]:
    """A path, and the sheet that is named behind it, as in `book.xlsx:Orte`."""
    found = re.fullmatch(r"(.+\.(?:xlsx|xlsm)):([^/\\]+)", str(source), re.IGNORECASE | re.DOTALL)
    if found and not Path(source).exists():
        return Path(found[1]), found[2]
    return Path(source), None


def check_ending(path: Path) -> None:
    """Raises TableFault for a spreadsheet that is not read."""
    if path.suffix.lower() in OTHER_SPREADSHEETS:
        raise TableFault(f"{path.name}: files that end in {path.suffix} are not read; save it as .xlsx or as CSV")


def is_table(name: str) -> bool:
    """Whether a name on the command line is that of a table, and not of a text of the formats.

    >>> is_table("roads.CSV"), is_table("book.xlsx:Orte"), is_table("problem.min")
    (True, True, False)
    """
    path, _ = part_sheet(name)
    return path.suffix.lower() in (".csv", ".tsv", *WORKBOOKS, *OTHER_SPREADSHEETS, *MAPS)
