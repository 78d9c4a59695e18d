"""The facts of the DIMACS formats as mcf has them: limits, fields, and the numbers of faults and refusals with their
words."""

from __future__ import annotations

from typing import Dict, Sequence, Tuple, Union

Text = Union[str, bytes]
"""A text; bytes that are no UTF-8 are surrogates in a str."""


def as_bytes(text: Text) -> bytes:
    """The bytes of a text."""
    return text if isinstance(text, bytes) else text.encode("utf-8", "surrogateescape")


def as_str(text: Text) -> str:
    """The text of bytes."""
    return text if isinstance(text, str) else text.decode("utf-8", "surrogateescape")


def written(letter: str) -> str:
    """A character by its number; a byte that is no UTF-8 by that of the byte.

    >>> written("\\x1b"), written("\\udc8b")
    ('\\\\u001b', '\\\\x8b')
    """
    code = ord(letter)
    if 0xDC80 <= code <= 0xDCFF:
        return f"\\x{code - 0xDC00:02x}"
    return f"\\u{code:04x}" if code < 0x10000 else f"\\U{code:08x}"


def counted(count: int, what: str) -> str:
    """So many of a thing.

    >>> counted(1, "arc"), counted(1200, "arc")
    ('1 arc', '1,200 arcs')
    """
    return f"{count:,} {what}{'' if count == 1 else 's'}"


def some(names: Sequence[str]) -> str:
    """The first of some names, and how many more there are."""
    return ", ".join(names[:5]) + (f" and {len(names) - 5} more" if len(names) > 5 else "")


LONGEST_LINE = 1024
MOST_NODES = 50_000
MOST_ARCS = 100_000
MOST_FLOW = 1_000_000_000
MOST_COST = 1_000_000_000_000
RETURN_CAPACITY = 100_000_000_000_000
MOST_EDITS = 1000
MOST_MARKS = 16

FAULTS: Dict[int, str] = {
    1: f"the line is longer than {LONGEST_LINE:,} bytes",
    2: "its first word is none of `p`, `n`, `a`",
    3: "wrong number of fields",
    4: "a field is not a number",
    5: "a number is out of range",
    6: "a node or arc line before the problem line",
    7: "a second problem line",
    8: "unknown kind",
    9: "a node line after an arc line",
    10: "a node is named twice, or a second source or sink",
    11: "an arc line, or the end of the text, while source or sink is missing (`max`)",
    12: "more arc lines than ARCS",
    13: "the text ends with fewer arc lines than ARCS",
    14: "the text ends without a problem line",
    15: "LOW is above CAP",
    16: "an arc that does not lead from the source side to the sink side (`asn`)",
    17: "the word of a node line is neither `s` nor `t` (`max`)",
}
"""What each fault of a problem text says."""

ANSWER_FAULTS: Dict[int, str] = {
    1: f"the line is longer than {LONGEST_LINE:,} bytes",
    2: "its first word is none of `s`, `f`, `v`, `i`, `k`",
    3: "wrong number of fields",
    4: "a field is not a number",
    5: "SRC, DST or ID is no node of the problem",
    40: "a line out of order, one too many, a `v` line whose ID is not the next one, a `k` line whose ID does not "
    "rise, or a text that ends too early (then with the number of lines as its line)",
}
"""What each fault of an answer text says."""

REFUSALS: Dict[int, str] = {
    1: f"its line is longer than {LONGEST_LINE:,} bytes",
    2: "its first word is no command",
    3: "it has the wrong number of fields",
    4: "a field is not a number",
    5: "V, LOW, CAP or COST is out of range",
    20: "there is no such arc: K is 0, or above the number of arcs now",
    21: "there is no such node: ID, SRC or DST is 0, or above NODES",
    22: "the lower bound would be above the capacity",
    23: "the command is not for this kind of problem",
    24: "there is no room for another arc",
    25: "there is nothing to undo",
    26: "there is nothing to redo",
    27: "the arc does not lead from the source side to the sink side (`asn`)",
    28: "no moment has this mark (`back`)",
    29: "`group`, `undo`, `redo`, `mark`, `back`, `show` or `proof` in a group; or `end` while no group is open",
    30: "there was not enough memory for this edit or group",
    31: f"the group has more than {MOST_EDITS:,} edits",
    32: "NAME is not a name",
    33: f"{MOST_MARKS} other names have marks (`mark`)",
}
"""Why a session refuses a command."""

NODE_FIELDS = {"min": ("ID", "FLOW"), "max": ("ID", "s or t"), "asn": ("ID",)}
ARC_FIELDS = {"min": ("SRC", "DST", "LOW", "CAP", "COST"), "max": ("SRC", "DST", "CAP"), "asn": ("SRC", "DST", "COST")}
ANSWER_FIELDS = {
    "s": ("VALUE",),
    "f": ("SRC", "DST", "FLOW"),
    "v": ("ID", "POTENTIAL"),
    "i": ("SHORTAGE",),
    "k": ("ID",),
}

ArcRow = Tuple[int, int, int, int, int]
"""Tail, head, lower bound, capacity and cost of an arc line."""
