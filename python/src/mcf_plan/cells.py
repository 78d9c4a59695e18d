"""Cells of tables: the numbers and names that they hold, and words for those that hold neither.

A cell of a text is text. A cell of a spreadsheet or of a frame may be a number, a truth value, a date, or a formula
whose value was not kept: what is not plainly a number or a name is refused, in each format alike.
"""

from __future__ import annotations

import datetime
import re
import unicodedata
from decimal import Decimal
from typing import Any, Dict, Iterable, List, NamedTuple, Optional

from .problem import ZERO, capacity, exact, plain


class TableFault(ValueError):
    """A table can't be read: the message has file, line, column, value, and what was expected."""


class CellFault(ValueError):
    """What is wrong with a cell, in words that go behind its place and its value."""


class NoValue(NamedTuple):
    """A formula of a spreadsheet whose value was not kept, as in workbooks that a program wrote."""

    formula: str


class Merged(NamedTuple):
    """A cell of a spreadsheet that is merged with others and is not the first of them, which has what all show."""

    area: str


class Lacking(str):
    """The empty cell of a feature of a map that has not this property; one that is null is an empty text."""


LACKING = Lacking()

ERROR = re.compile(r"#(N/?[AVD]|\S*[!?])|#{2,}|Err:\d+|#¿.*\?")
"""Errors of spreadsheets in the languages that they are written in: #N/A, #NV, #REF!, #¡VALOR!, #NAME?, Err:502."""

MISSING = frozenset(("n/a", "null", "none", "nan", "nil", "nul", "na", "<na>", "-", "--", "–", "—", "?", "."))
NO_NAME = frozenset(("n/a", "N/A", "null", "NULL", "nan", "NaN", "<NA>"))
YES_OR_NO = frozenset(
    ("true", "false", "yes", "no", "wahr", "falsch", "ja", "nein", "vrai", "faux", "oui", "non", "verdadero", "falso")
    + ("sí", "si", "vero", "sì", "verdadeiro", "sim", "não", "waar", "onwaar", "nee")
)
NO_LIMIT = frozenset(
    ("inf", "infinity", "infinite", "∞", "unlimited", "no limit", "unbegrenzt", "illimité", "illimitée")
    + ("sans limite", "ilimitado", "ilimitada", "sin límite", "sin limite", "illimitato", "illimitata")
    + ("senza limite", "sem limite", "onbeperkt")
)
"""Words by which a capacity says that there is no limit; so does an empty cell."""

MONEY = "€$£¥"
MOST_EXACT = 2**53
"""Up to here each whole number is a float."""
_WELL_FORMED = re.compile(r"([+-]?)(\d[\d.,]*|[.,]\d+)([eE][+-]?\d{1,3})?", re.ASCII)
_GROUPED = re.compile(r"([+-]?)([1-9]\d{0,2}(?:([ \u00a0\u202f\u2009'\u2019])\d{3})(?:\3\d{3})*)([.,]\d+)?", re.ASCII)
"""A number whose thousands blanks part, or apostrophes; what stands behind a mark are its decimals then."""
_WITH_EXPONENT = re.compile(r"[+-]?[\d.,]+[eE][+-]?\d+", re.ASCII)
_PLAIN_NAME = re.compile(r"[A-Z][a-z]{3,}( [A-Za-z0-9]+)*")
_PLAIN_NUMBER = re.compile(r"[0-9]{1,30}")
_JOINERS = "\u200c\u200d"


def is_empty(cell: Any) -> bool:
    """Whether nothing stands in a cell, as None, NaN or blanks do."""
    if isinstance(cell, str):
        return not cell or cell.isspace()
    return cell is None or type(cell).__name__ in ("NAType", "NaTType") or isinstance(cell, float) and cell != cell


def is_blank(cell: Any) -> bool:
    """Whether nothing stands in a cell, as it is, or as a program writes one."""
    return is_empty(cell) or isinstance(cell, Merged) or str(cell) in ("nan", "None", "<NA>", "NaT")


def is_truth(cell: Any) -> bool:
    """Whether a cell is a truth value, of Python or of numpy."""
    return isinstance(cell, bool) or type(cell).__name__ in ("bool_", "bool")


def shown(cell: Any) -> str:
    """A cell as messages show it."""
    if isinstance(cell, NoValue):
        return repr("=" + cell.formula if cell.formula else "=")
    if isinstance(cell, Merged):
        return f"a part of {cell.area}"
    if is_truth(cell):
        return "TRUE" if cell else "FALSE"
    if isinstance(cell, (datetime.date, datetime.time)):
        return repr(cell.isoformat().replace("T00:00:00", ""))
    text = repr(cell)
    return text if len(text) <= 60 else text[:57] + "..."


def not_plain(cell: Any) -> Optional[str]:
    """What is wrong with a cell that is neither a number nor a name; None where it may be one of them."""
    if isinstance(cell, NoValue):
        return "a formula without a kept value: open the workbook in a spreadsheet program and save it"
    if isinstance(cell, Merged):
        return "one of several cells that are merged: part them, and write in each what counts there"
    if is_truth(cell):
        return "a truth value, which is no number and no name"
    if isinstance(cell, str) and ERROR.fullmatch(cell.strip()):
        return "an error of the spreadsheet"
    if isinstance(cell, bytes):
        return "bytes and no text: decode it, as by .str.decode('utf-8')"
    return None


# ---------------------------------------------------------------- names


def name_of(cell: Any) -> str:
    """The name in a cell, '' where it is empty: blanks in a row count as one, and a whole number has no point.

    Raises CellFault where it holds what can't be a name.

    >>> name_of(" New  York "), name_of(7.0), name_of("NA")
    ('New York', '7', 'NA')
    """
    if type(cell) is str and _PLAIN_NAME.fullmatch(cell):
        return str(cell)
    wrong = not_plain(cell)
    if wrong:
        raise CellFault(f"a name was expected, and this is {wrong}")
    if is_empty(cell):
        return ""
    if _is_whole(cell):
        if isinstance(cell, float) and abs(cell) > MOST_EXACT:
            raise CellFault("a name was expected, and a number of so many digits was rounded: write it as a text")
        cell = int(cell)
    if isinstance(cell, datetime.datetime) and cell.time() == datetime.time():
        cell = cell.date()
    text = " ".join(unicodedata.normalize("NFC", str(cell)).split())
    if text in NO_NAME:
        raise CellFault("a name was expected; leave the cell empty where there is none")
    hidden = [letter for letter in text if not letter.isprintable() and letter not in _JOINERS]
    if hidden:
        raise CellFault(f"a name was expected, and this one has a character that can't be seen, U+{ord(hidden[0]):04X}")
    return text


def _is_whole(cell: Any) -> bool:
    """Whether a cell is a whole number that may be written with a point."""
    if isinstance(cell, Decimal):
        return cell.is_finite() and cell.adjusted() <= 60 and cell == cell.to_integral_value()
    return isinstance(cell, float) and cell.is_integer()


# ---------------------------------------------------------------- numbers


class Sign(NamedTuple):
    """Which mark parts the decimals of a table's numbers, and the cell that shows it, where one was looked for."""

    mark: str
    shown_by: str = ""

    @property
    def thousands(self) -> str:
        """The other mark, which can only part thousands."""
        return "," if self.mark == "." else "."


class Undecided(ValueError):
    """Nothing says which mark parts decimals: `cell` may be read in two ways. `other` is there where two cells
    contradict each other."""

    def __init__(self, cell: str, other: str = ""):
        super().__init__(cell)
        self.cell, self.other = cell, other


def _decimal_mark(cell: str) -> Optional[str]:
    """The mark that parts decimals, by what one cell shows; '' where it shows nothing, None where it may be either."""
    grouped = _GROUPED.fullmatch(cell)
    if grouped:
        return grouped[4][0] if grouped[4] else ""
    found = _WELL_FORMED.fullmatch(cell)
    if not found:
        return ""
    body = found[2]
    marks = [letter for letter in body if letter in ".,"]
    if not marks:
        return ""
    last = marks[-1]
    other = "," if last == "." else "."
    if len(set(marks)) == 2:
        return last if re.fullmatch(rf"[1-9]\d{{0,2}}(\{other}\d{{3}})+\{last}\d*", body) else ""
    if len(marks) > 1:
        return other if re.fullmatch(rf"[1-9]\d{{0,2}}(\{last}\d{{3}})+", body) else ""
    before, behind = body.split(last)
    if len(behind) == 3 and 1 <= len(before) <= 3 and before[0] != "0" and not found[3]:
        return None
    return last


def bare(cell: str) -> str:
    """A cell without the blanks around it, and with a plain minus sign, where it has that of typesetting, as programs
    write it in Swedish and other languages."""
    cell = cell.strip()
    return "-" + cell[1:] if cell.startswith("\N{MINUS SIGN}") else cell


def decimal_sign(cells: Iterable[Any], *, point_is_usual: bool) -> Sign:
    """Which mark parts decimals in these cells. `point_is_usual` says that it is a point unless a cell has a comma.

    Raises Undecided where a cell may be read in two ways and no other shows which, or where two contradict each other.

    >>> decimal_sign(["1.250", "2,5"], point_is_usual=False)
    Sign(mark=',', shown_by='2,5')
    """
    texts = [cell for cell in cells if isinstance(cell, str)]
    if point_is_usual and not any("," in cell or cell.count(".") > 1 for cell in texts):
        return Sign(".")
    marked = [bare(cell) for cell in texts if "," in cell or "." in cell]
    showing: Dict[str, str] = {}
    unclear: List[str] = []
    for cell in marked:
        mark = _decimal_mark(cell)
        if mark is None:
            unclear.append(cell)
        elif mark:
            showing.setdefault(mark, cell)
    if len(showing) == 2:
        raise Undecided(showing["."], showing[","])
    if not showing and unclear:
        raise Undecided(unclear[0])
    for mark, cell in showing.items():
        return Sign(mark, cell)
    return Sign(".")


class Numbers(Dict[Any, Optional[Decimal]]):
    """The numbers of cells, each of which is read once; None for a cell that is empty.

    Looking up raises CellFault where a cell holds none. With `has_limits` a cell that says that there is no limit is
    None too.
    """

    has_thousands = True

    def __init__(self, sign: Sign, *, has_limits: bool = False):
        super().__init__()
        self.sign = sign
        self.has_limits = has_limits
        self.grouped: Dict[str, Decimal] = {}
        """Cells with a mark that parts thousands with one decimal sign, and decimals with the other."""
        self.parted: Dict[str, Decimal] = {}
        """Cells in which blanks or apostrophes part thousands."""

    def __missing__(self, cell: Any) -> Optional[Decimal]:
        number = self[cell] = self._read(cell)
        return number

    def _read(self, cell: Any) -> Optional[Decimal]:
        if isinstance(cell, str):
            cell = bare(cell)
            if not cell or self.has_limits and cell.lower() in NO_LIMIT:
                return None
            return Decimal(cell) or ZERO if _PLAIN_NUMBER.fullmatch(cell) else self._read_text(cell)
        if is_empty(cell):
            return None
        wrong = not_plain(cell)
        if wrong or isinstance(cell, (datetime.date, datetime.time, datetime.timedelta)):
            raise CellFault(f"a number was expected, and this is {wrong or 'a date or a time'}")
        try:
            return capacity(cell) if self.has_limits else exact(cell)
        except (ValueError, TypeError):
            raise CellFault("a number was expected" + number_hint(str(cell))) from None

    def _read_text(self, cell: str) -> Decimal:
        mark, thousands = self.sign.mark, self.sign.thousands
        if _GROUPED.fullmatch(cell) and self.has_thousands:
            if thousands in cell:
                raise CellFault(f"a number was expected, and decimals are parted by {shown(mark)} here")
            number = exact("".join(letter for letter in cell.replace(mark, ".") if letter in "+-.0123456789"))
            self.parted[cell] = number
            return number
        found = _WELL_FORMED.fullmatch(cell)
        text = cell
        if found and thousands in cell:
            if not re.fullmatch(rf"[+-]?[1-9]\d{{0,2}}(\{thousands}\d{{3}})+(\{mark}\d*)?", cell, re.ASCII):
                raise CellFault(f"a number was expected, and decimals are parted by {shown(mark)} here")
            text = cell.replace(thousands, "")
        try:
            if not found:
                raise ValueError
            number = exact(text.replace(mark, "."))
        except ValueError:
            raise CellFault("a number was expected" + number_hint(cell)) from None
        if self.sign.shown_by and _decimal_mark(cell) is None:
            self.grouped[cell] = number
        return number


class Coordinates(Numbers):
    """Where places are on a map. There are no thousands, so either mark parts decimals: they often come from elsewhere
    than the other numbers of a table."""

    has_thousands = False

    def __init__(self) -> None:
        super().__init__(Sign("."))

    def _read(self, cell: Any) -> Optional[Decimal]:
        return super()._read(cell.replace(",", ".") if isinstance(cell, str) else cell)


def number_hint(cell: str) -> str:
    """What to do about a cell that is no number, for the commonest mistakes."""
    lower = cell.lower()
    if _WITH_EXPONENT.fullmatch(cell) or _WELL_FORMED.fullmatch(cell) and sum(map(str.isdigit, cell)) > 60:
        return ", of at most 60 digits"
    if any(letter.isdecimal() and not letter.isascii() for letter in cell):
        return ": write it with the digits 0 to 9"
    if ERROR.fullmatch(cell):
        return ", and this is an error of the spreadsheet"
    if lower in MISSING:
        return ": write one in its place"
    if lower in YES_OR_NO:
        return ", and this is a truth value"
    if lower in NO_LIMIT:
        return ": only a capacity can be without limit"
    if re.fullmatch(r"[+-]?\d{1,3}(['’_]\d{3})+([.,]\d+)?", cell):
        return ": take the marks between the thousands out"
    if re.fullmatch(r"[+-]?\d{1,3}([ \u00a0\u202f\u2009]\d{3})+([.,]\d+)?", cell):
        return ": take the blanks between the thousands out"
    if re.match(r"[−–—﹣－]\s*\d", cell):
        return ": the sign is a dash of typesetting, write a plain -"
    if re.fullmatch(r"\([\d.,]+\)|[\d.,]+-", cell):
        return ": write a plain - before a number that is below 0"
    if "%" in cell:
        return ": write the number without a percent sign"
    if any(sign in cell for sign in MONEY) or re.match(r"[A-Z]{3}\s*[.,]?\d[\d.,]*$", cell):
        return ": leave the currency out; it can stand in the name of the column, as in 'cost (EUR)'"
    if re.fullmatch(r"\d{1,4}[-/.]\d{1,2}[-/.]\d{1,4}", cell):
        return ", and this looks like a date"
    if re.fullmatch(r"[+-]?[\d.,]+\s*(?:(?i:k|mio|mill|tsd)\.?|M)", cell):
        return ": write the number out, thousands and millions too"
    if re.fullmatch(r"[+-]?(\d+\s*)?([½¼¾⅓⅔]|\d+\s*/\s*\d+)", cell):
        return ": write it with decimals, as 0.5 for a half"
    if re.match(r"0x|[+-]?[\d.,]+[_²³]", lower):
        return ""
    if re.match(r"[+-]?[\d.,]+\s*[^\W\d]", cell):
        return ": leave the unit out; it can stand in the name of the column, as in 'capacity (t)'"
    return ""


def limit_fault(capacity: Decimal, low: Decimal) -> str:
    """What is wrong with a capacity that is below the lower bound."""
    if capacity < 0 and not low:
        return "a capacity is 0 or more; leave the cell empty where there is no limit"
    return f"the lower bound {plain(low)} is above it"
