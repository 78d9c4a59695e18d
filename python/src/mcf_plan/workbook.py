"""Workbooks (.xlsx): sheets by their names, in and out, by the standard library alone.

Cells are read as the file has them, so that errors, truth values, dates, and formulas without a kept value are told
apart from numbers and from cells that are empty. A sheet is written into a workbook with all other parts of the file
as they are, to the byte: charts, pictures and the values of formulas stay.
"""

from __future__ import annotations

import datetime
import errno
import posixpath
import re
import zipfile
import zlib
from contextlib import contextmanager
from io import BytesIO
from pathlib import Path
from typing import Any, Dict, FrozenSet, Iterator, List, NamedTuple, Sequence, Set, Tuple, Union
from xml.etree import ElementTree
from xml.sax.saxutils import escape, quoteattr

from .cells import Merged, NoValue, TableFault, is_empty
from .outputs import write_bytes
from .sheets import Sheet, sheet_of_rows

WORKBOOK = "xl/workbook.xml"
RELATIONS = "http://schemas.openxmlformats.org/officeDocument/2006/relationships"
MAIN = "http://schemas.openxmlformats.org/spreadsheetml/2006/main"
PACKAGE = "http://schemas.openxmlformats.org/package/2006"
SHEET_TYPE = "application/vnd.openxmlformats-officedocument.spreadsheetml.worksheet+xml"
BOOK_TYPE = "application/vnd.openxmlformats-officedocument.spreadsheetml.sheet.main+xml"
DATE_FORMATS = frozenset((*range(14, 23), *range(27, 37), *range(45, 48), *range(50, 59)))
"""The formats of dates and times that every workbook has, by their numbers."""
PERCENT_FORMATS = frozenset((9, 10))
MOST_COLUMNS = 16_384
DAY_0 = datetime.datetime(1899, 12, 30)
DAY_0_OF_1904 = datetime.datetime(1904, 1, 1)
"""The day from which workbooks count that began on old Macs."""
MILLISECONDS = 86_400_000
"""So many has a day."""
DAMAGED = (zipfile.BadZipFile, zlib.error, RuntimeError, EOFError, LookupError, ValueError, OSError)
"""What reading a damaged archive, or one that is enciphered, ends in."""
HEAD = '<?xml version="1.0" encoding="UTF-8" standalone="yes"?>\n'


class _Tab(NamedTuple):
    """A sheet of a workbook: its name, the part of the file that has its cells, and whether nobody sees it."""

    name: str
    part: str
    is_hidden: bool


def sheet_names(path: Path) -> List[str]:
    """The names of the sheets that have a cell, in their order. Raises TableFault where the file is no workbook."""
    with _opened(path) as file:
        return [tab.name for tab in _tabs(file, path) if _has_cells(file.read(tab.part))]


def is_empty_file(path: Path) -> bool:
    """Whether a workbook that is written takes nothing's place: the file is not there, or it is empty, as one that was
    made for it."""
    return not path.exists() or path.is_file() and not path.stat().st_size


def read_sheet(path: Path, name: str) -> Sheet:
    """The cells of a sheet. Raises TableFault where there is no such sheet, or it can't be read."""
    with _opened(path) as file:
        tabs = _tabs(file, path)
        found = [tab for tab in tabs if tab.name.casefold() == name.casefold()]
        if not found:
            raise TableFault(f"{path.name}: there is no sheet {name!r}; its sheets are {_listed(tabs)}")
        reader = _Reader(file, path)
        rows, lines = reader.rows(found[0].part)
    title = path.name if len(tabs) == 1 else f"{path.name}, sheet {found[0].name!r}"
    sheet = sheet_of_rows(title, rows, lines)
    sheet.units = reader.units
    if found[0].is_hidden:
        sheet.notes.append(f"{path.name}: the sheet {found[0].name!r} is hidden, and counts")
    sheet.notes += [f"{title}: {words}" for words in reader.unseen(sheet.header)]
    return sheet


def _listed(tabs: Sequence[_Tab]) -> str:
    return ", ".join(repr(tab.name) for tab in tabs)


@contextmanager
def _opened(path: Path) -> Iterator[zipfile.ZipFile]:
    """The file as an archive, with the parts of a workbook. Raises TableFault where it is none, or what is read of it is
    damaged."""
    with open(path, "rb") as raw:
        begin = raw.read(8)
    if begin == b"\xd0\xcf\x11\xe0\xa1\xb1\x1a\xe1":
        raise TableFault(f"{path.name}: this is an old workbook (.xls), or one with a password; save it as .xlsx")
    try:
        with zipfile.ZipFile(path) as file:
            if WORKBOOK not in file.namelist():
                raise TableFault(f"{path.name}: this is no workbook of the kind .xlsx")
            yield file
    except TableFault:
        raise
    except DAMAGED as error:
        if isinstance(error, OSError) and error.errno not in (None, errno.EINVAL):
            raise
        words = "this is no workbook, or it is damaged; save it as .xlsx again"
        raise TableFault(f"{path.name}: {words} ({error})") from None


def _parsed(file: zipfile.ZipFile, part: str) -> ElementTree.Element:
    try:
        return ElementTree.fromstring(file.read(part))
    except (ElementTree.ParseError, KeyError, zipfile.BadZipFile) as error:
        raise TableFault(f"{Path(file.filename or '').name}: the part {part} can't be read: {error}") from None


def _local(element: ElementTree.Element) -> str:
    """The name of an element without its namespace, since there are two of the same meaning."""
    return element.tag.rpartition("}")[2]


def _has_cells(sheet: bytes) -> bool:
    return re.search(rb"<(\w+:)?c[ >]", sheet) is not None


def _relations(file: zipfile.ZipFile) -> Dict[str, Tuple[str, str]]:
    """The parts that the workbook speaks of, by their keys: kind and place."""
    found = {}
    for each in _parsed(file, "xl/_rels/workbook.xml.rels"):
        target = each.get("Target", "")
        place = target[1:] if target.startswith("/") else posixpath.normpath(posixpath.join("xl", target))
        found[each.get("Id", "")] = each.get("Type", "").rpartition("/")[2], place
    return found


def _tabs(file: zipfile.ZipFile, path: Path) -> List[_Tab]:
    """The sheets of cells, in the order of the workbook."""
    relations = _relations(file)
    tabs = []
    for sheet in _parsed(file, WORKBOOK).iter():
        if _local(sheet) == "sheet":
            key = next((value for name, value in sheet.attrib.items() if name.rpartition("}")[2] == "id"), "")
            kind, part = relations.get(key, ("", ""))
            if kind == "worksheet":
                tabs.append(_Tab(sheet.get("name", ""), part, sheet.get("state", "visible") != "visible"))
    if not tabs:
        raise TableFault(f"{path.name}: there is no sheet with cells")
    return tabs


# ---------------------------------------------------------------- reading


class _Reader:
    """Reads the cells of sheets, with the texts and formats that the sheets of a workbook share."""

    def __init__(self, file: zipfile.ZipFile, path: Path):
        self.file, self.path = file, path
        self.hidden = self.struck = 0
        self.hidden_columns: Set[int] = set()
        parts = dict(_relations(file).values())
        self.texts = [_text_of(each) for each in self._elements(parts.get("sharedStrings"), "si")]
        self.looks, self.units_of_styles = self._looks(parts.get("styles"))
        self.units: Dict[int, Dict[str, int]] = {}  # Those of each column, with the first row below the header.
        self.struck_styles = self._struck_styles(parts.get("styles"))
        of_1904 = any(each.get("date1904") in ("1", "true") for each in self._elements(WORKBOOK, "workbookPr"))
        self.day_0 = DAY_0_OF_1904 if of_1904 else DAY_0

    def _elements(self, part: Any, name: str) -> Iterator[ElementTree.Element]:
        if part is not None and part in self.file.namelist():
            yield from (each for each in _parsed(self.file, part).iter() if _local(each) == name)

    def _looks(self, part: Any) -> Tuple[List[str], List[str]]:
        """What the cells of a style are, by the number of the style: 'date', 'percent', or '' for a plain number; and the
        unit that is shown with them, '' where there is none."""
        codes = {int(each.get("numFmtId", "0")): each.get("formatCode", "") for each in self._elements(part, "numFmt")}
        own = {number: _look_of(code) for number, code in codes.items()}
        kept = {**dict.fromkeys(DATE_FORMATS, "date"), **dict.fromkeys(PERCENT_FORMATS, "percent"), **own}
        styles = [int(each.get("numFmtId", "0")) for group in self._elements(part, "cellXfs") for each in group]
        return [kept.get(number, "") for number in styles], [_unit_in(codes.get(number, "")) for number in styles]

    def _struck_styles(self, part: Any) -> FrozenSet[str]:
        """The numbers of the styles whose texts are struck through."""
        fonts = [font for group in self._elements(part, "fonts") for font in group]
        struck = {
            str(number)
            for number, font in enumerate(fonts)
            for each in font
            if _local(each) == "strike" and each.get("val", "1") in ("1", "true")
        }
        styles = [style for group in self._elements(part, "cellXfs") for style in group]
        return frozenset(str(number) for number, style in enumerate(styles) if style.get("fontId") in struck)

    def unseen(self, header: Sequence[str]) -> Iterator[str]:
        """What of the rows and columns counts, though it is hidden or struck through."""
        for count, what in ((self.hidden, "hidden"), (self.struck, "struck through")):
            if count:
                rows = f"1 row that is {what} counts" if count == 1 else f"{count} rows that are {what} count"
                yield f"{rows} as the others do"
        for place, name in enumerate(header):
            if name and place in self.hidden_columns:
                yield f"the column {name!r} is hidden, and is read as the others are"

    def rows(self, part: str) -> Tuple[List[List[Any]], List[int]]:
        """The rows of a sheet, each at least as wide as the first, and their numbers."""
        rows: List[Dict[int, Any]] = []
        lines: List[int] = []
        merged: List[str] = []
        number = 0
        try:
            with self.file.open(part) as raw:
                for _, element in ElementTree.iterparse(raw):
                    kind = _local(element)
                    if kind == "col" and _is_hidden(element, "width"):
                        first, last = int(element.get("min", "1")), int(element.get("max", "1"))
                        self.hidden_columns.update(range(first - 1, min(last, MOST_COLUMNS)))
                    elif kind == "row":
                        cells = {place: cell for place, cell in self._cells(element, len(rows)) if not is_empty(cell)}
                        number = int(element.get("r") or number + 1)
                        if cells:
                            self.hidden += _is_hidden(element, "ht")
                            self.struck += self._is_struck(element)
                            lines.append(number)
                            rows.append(cells)
                        element.clear()
                    elif kind == "mergeCell":
                        merged.append(element.get("ref", ""))
            _mark_merged(dict(zip(lines, rows)), merged)
        except (ElementTree.ParseError, KeyError, ValueError, IndexError, zipfile.BadZipFile) as error:
            raise TableFault(f"{self.path.name}: the part {part} can't be read: {error}") from None
        width = max(rows[0]) if rows else 0
        return [[cells.get(place, "") for place in range(max(width, *cells) + 1)] for cells in rows], lines

    def _is_struck(self, row: ElementTree.Element) -> bool:
        """Whether all that stands in a row is struck through."""
        return bool(self.struck_styles) and all(cell.get("s") in self.struck_styles for cell in row if len(cell))

    def _cells(self, row: ElementTree.Element, number: int) -> Iterator[Tuple[int, Any]]:
        """The cells of a row by their places from 0; `number` is that of the row, 0 for the names of the columns."""
        place, units = -1, self.units_of_styles
        for cell in row:
            if _local(cell) == "c":
                name = cell.get("r")
                place = place + 1 if name is None else _place(name)
                if not 0 <= place < MOST_COLUMNS:
                    raise ValueError(f"there is no cell {name}")
                value = self._value(cell)
                style = int(cell.get("s", "0"))
                if number and type(value) in (int, float) and style < len(units) and units[style]:
                    self.units.setdefault(place, {}).setdefault(units[style], number - 1)
                yield place, value

    def _value(self, cell: ElementTree.Element) -> Any:
        """The value of a cell: '' where it is empty, NoValue for a formula whose value was not kept."""
        kind = cell.get("t", "n")
        parts = {_local(each): each for each in cell}
        text = parts["v"].text or "" if "v" in parts else ""
        if kind == "inlineStr":
            return _text_of(parts["is"]) if "is" in parts else ""
        if "f" in parts and not text and not (kind == "str" and "v" in parts):
            return NoValue(parts["f"].text or "")
        if kind == "s":
            return self.texts[int(text)] if text else ""
        if kind in ("str", "e"):
            return _unescaped(text)
        if kind == "b":
            return text.strip() in ("1", "true")
        if kind == "d":
            return datetime.datetime.fromisoformat(text)
        if not text:
            return ""
        style = int(cell.get("s", "0"))
        look = self.looks[style] if style < len(self.looks) else ""
        if look:
            return _date(float(text), self.day_0) if look == "date" else f"{float(text) * 100:g}%"
        return int(text) if re.fullmatch(r"-?\d{1,60}", text) else float(text)


def _is_hidden(element: ElementTree.Element, size: str) -> bool:
    """Whether nobody sees a row or a column: it is said to be hidden, or has no height or width."""
    return element.get("hidden") in ("1", "true") or float(element.get(size, "1")) == 0


def _place(name: str) -> int:
    """The place of a column from 0, by the name of a cell, as 1 for B7."""
    place = 0
    for letter in name:
        if not letter.isalpha():
            break
        place = place * 26 + ord(letter.upper()) - 64
    return place - 1


def _mark_merged(rows: Dict[int, Dict[int, Any]], areas: Sequence[str]) -> None:
    """Marks the cells of merged areas that would be read as empty: what the first one has is shown for all of them.

    `rows` are the cells by the numbers of the rows, the names of the columns first. Cells beside the table, and areas
    in which nothing stands, stay as they are.
    """
    heading, last = min(rows, default=0), max(rows, default=0)
    for area in areas:
        corners = re.fullmatch(r"([A-Z]+)(\d+):([A-Z]+)(\d+)", area)
        if corners is None:
            continue
        left, top, right, bottom = _place(corners[1]), int(corners[2]), _place(corners[3]), int(corners[4])
        if left not in rows.get(top, {}):
            continue
        places = [place for place in rows[heading] if left <= place <= right]
        for number in range(max(top, heading + 1), min(bottom, last) + 1):
            for place in places:
                if number in rows and (number, place) != (top, left):
                    rows[number][place] = Merged(area)


def _text_of(element: ElementTree.Element) -> str:
    """The text of a cell, whose letters may have different looks."""
    runs = [element, *(each for each in element if _local(each) == "r")]
    return _unescaped("".join(each.text or "" for run in runs for each in run if _local(each) == "t"))


def _unescaped(text: str) -> str:
    return re.sub(r"_x([0-9A-Fa-f]{4})_", lambda found: chr(int(found[1], 16)), text)


def _look_of(code: str) -> str:
    """What a format of numbers shows: 'date', 'percent', or '' for a plain number."""
    bare = re.sub(r'"[^"]*"|\\.|\[(?!(h+|m+|s+)\])[^\]]*\]|_.|\*.', "", code.split(";")[0], flags=re.IGNORECASE)
    if "%" in bare:
        return "percent"
    return "date" if re.search(r"[dmyhs]", bare, re.IGNORECASE) and "general" not in bare.lower() else ""


def _unit_in(code: str) -> str:
    """The unit that a format of numbers shows with them, '' where there is none, or where it says thousands or millions.

    >>> _unit_in('#,##0.00 "t"'), _unit_in("#,##0.00\\\\ [$€-407]"), _unit_in('_-* #,##0\\\\ "€/t"_-'), _unit_in("0.00;[Red]-0.00")
    ('t', '€', '€/t', '')
    """
    texts = re.findall(r'"([^"]*)"|\[\$([^\]-]*)[^\]]*\]|\\(.)|([€$£¥])', re.sub(r"_.|\*.", "", code).split(";")[0])
    unit = "".join(part for parts in texts for part in parts).strip()
    if re.search(r"[0#?],+(?![0#?,])", re.sub(r'"[^"]*"', "", code.split(";")[0])):
        return ""
    return unit if re.search(r"[^\W\d_]|[€$£¥]", unit) else ""


def _date(days: float, day_0: datetime.datetime) -> Union[datetime.datetime, datetime.time, float]:
    """The date of a number of days, or the time of less than one, to the millisecond, as spreadsheets show it; the
    number where it is none."""
    try:
        since = round(days * MILLISECONDS)
        date = day_0 + datetime.timedelta(milliseconds=since)
    except OverflowError:
        return days
    return date.time() if 0 <= since < MILLISECONDS else date


# ---------------------------------------------------------------- writing

Rows = Sequence[Sequence[Any]]
"""Rows of texts and numbers; '' is an empty cell."""


def write_workbook(path: Path, name: str, rows: Rows) -> None:
    """Writes a workbook with one sheet."""
    parts = {
        "[Content_Types].xml": f'{HEAD}<Types xmlns="{PACKAGE}/content-types">'
        '<Default Extension="rels" ContentType="application/vnd.openxmlformats-package.relationships+xml"/>'
        f'<Override PartName="/{WORKBOOK}" ContentType="{BOOK_TYPE}"/>'
        f'<Override PartName="/xl/worksheets/sheet1.xml" ContentType="{SHEET_TYPE}"/></Types>',
        "_rels/.rels": _relations_text([("rId1", "officeDocument", WORKBOOK)]),
        WORKBOOK: f'{HEAD}<workbook xmlns="{MAIN}" xmlns:r="{RELATIONS}"><sheets>'
        f'<sheet name={quoteattr(name)} sheetId="1" r:id="rId1"/></sheets></workbook>',
        "xl/_rels/workbook.xml.rels": _relations_text([("rId1", "worksheet", "worksheets/sheet1.xml")]),
        "xl/worksheets/sheet1.xml": _sheet_text(rows),
    }
    _write(path, [(name, text.encode()) for name, text in parts.items()])


def write_sheet(path: Path, name: str, rows: Rows) -> None:
    """Writes one sheet of a workbook, and leaves all other parts of the file as they are; a sheet of this name is
    replaced. Raises TableFault where that sheet has formulas of its own, or the name is not one of a sheet."""
    if not re.fullmatch(r"[^\[\]:*?/\\']{1,31}", name):
        raise TableFault(f"{name!r} is no name of a sheet: it has at most 31 letters, and none of [ ] : * ? / \\ '")
    if is_empty_file(path):
        write_workbook(path, name, rows)
        return
    with _opened(path) as file:
        parts = [(each, file.read(each)) for each in file.namelist()]
        tabs = _tabs(file, path)
    text = _sheet_text(rows).encode()
    old = [tab.part for tab in tabs if tab.name.casefold() == name.casefold()]
    if old:
        if re.search(rb"<(\w+:)?f[ />]", dict(parts)[old[0]]):
            raise TableFault(f"{path.name}: the sheet {name!r} has formulas, which would be lost; take another name")
        _write(path, [(each, text if each == old[0] else content) for each, content in parts])
        return
    _write(path, _with_sheet(parts, name, text))


def _with_sheet(parts: List[Tuple[str, bytes]], name: str, sheet: bytes) -> List[Tuple[str, bytes]]:
    """The parts of a workbook with one sheet more."""
    contents = dict(parts)
    number = next(n for n in range(1, 100_000) if f"xl/worksheets/sheet{n}.xml" not in contents)
    place = f"xl/worksheets/sheet{number}.xml"
    keys = [int(key) for key in re.findall(rb'sheetId="(\d+)"', contents[WORKBOOK])]
    key = f"mcfPlan{number}"
    added = {
        "[Content_Types].xml": f'<Override xmlns="{PACKAGE}/content-types" '
        f'PartName="/{place}" ContentType="{SHEET_TYPE}"/>',
        "xl/_rels/workbook.xml.rels": f'<Relationship xmlns="{PACKAGE}/relationships" Id="{key}" '
        f'Type="{RELATIONS}/worksheet" Target="/{place}"/>',
        WORKBOOK: f'<sheet xmlns="{MAIN}" xmlns:r="{RELATIONS}" name={quoteattr(name)} '
        f'sheetId="{max(keys, default=0) + 1}" r:id="{key}"/>',
    }
    ends = {"[Content_Types].xml": "Types", "xl/_rels/workbook.xml.rels": "Relationships", WORKBOOK: "sheets"}
    for part, text in added.items():
        found = re.search(rf"</(\w+:)?{ends[part]}\s*>".encode(), contents.get(part, b""))
        if not found:
            raise TableFault(f"the part {part} of the workbook can't be added to; write to another file")
        contents[part] = contents[part][: found.start()] + text.encode() + contents[part][found.start() :]
    return [*contents.items(), (place, sheet)]


def _relations_text(rows: Sequence[Tuple[str, str, str]]) -> str:
    inner = "".join(f'<Relationship Id="{key}" Type="{RELATIONS}/{kind}" Target="{to}"/>' for key, kind, to in rows)
    return f'{HEAD}<Relationships xmlns="{PACKAGE}/relationships">{inner}</Relationships>'


def _sheet_text(rows: Rows) -> str:
    """A sheet as the part of a workbook."""
    out = [f'{HEAD}<worksheet xmlns="{MAIN}"><sheetData>']
    columns = [_letters(place) for place in range(max(map(len, rows), default=0))]
    for number, row in enumerate(rows, 1):
        cells = "".join(_cell_text(f"{column}{number}", cell) for column, cell in zip(columns, row) if cell != "")
        out.append(f'<row r="{number}">{cells}</row>')
    return "".join(out) + "</sheetData></worksheet>"


def _letters(place: int) -> str:
    """The name of a column, as AB for 27."""
    return (_letters(place // 26 - 1) if place >= 26 else "") + chr(65 + place % 26)


def _cell_text(name: str, cell: Any) -> str:
    if isinstance(cell, str):
        return f'<c r="{name}" t="inlineStr"><is><t xml:space="preserve">{escape(_escaped(cell))}</t></is></c>'
    return f'<c r="{name}"><v>{cell!r}</v></c>'


def _escaped(text: str) -> str:
    """A text with what XML can't have by its number, as workbooks write it."""
    if text.isprintable() and "_x" not in text:
        return text
    text = re.sub(r"_(?=x[0-9A-Fa-f]{4}_)", "_x005F_", text)
    return re.sub(
        r"[^\t\n\x20-\ud7ff\ue000-\ufffd\U00010000-\U0010ffff]", lambda found: f"_x{ord(found[0]):04X}_", text
    )


def _write(path: Path, parts: Sequence[Tuple[str, bytes]]) -> None:
    """Writes the parts as a file."""
    packed = BytesIO()
    with zipfile.ZipFile(packed, "w", zipfile.ZIP_DEFLATED) as file:
        for name, content in parts:
            file.writestr(zipfile.ZipInfo(name), content, zipfile.ZIP_DEFLATED)
    write_bytes(path, packed.getvalue())
