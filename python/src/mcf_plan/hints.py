"""What to do about the commonest mistakes in texts, in words that stand behind a fault."""

from __future__ import annotations

import re
from typing import List, Tuple

from .formats import ARC_FIELDS, MOST_FLOW

PARTED_BY_BLANKS = "Fields are parted by blanks: put blanks where the commas and semicolons are."
FLOWS_ALONE = "Of flows alone `mcf-plan check --from flows` says whether they are best."
PACKED = "This is a packed file or a spreadsheet: unpack it, or save it as plain text."


def number_hint(name: str, value: str, signed: bool) -> str:
    """What to do about a field that is no number, for the commonest mistakes."""
    if re.fullmatch(r"[−–—﹣－]\d+", value):
        return "The sign is a dash of typesetting: write a plain - in its place."
    if re.fullmatch(r"[\d\s]+", value) and not value.isascii() or re.search(r"[\u00a0\u202f\u2009\ufeff]", value):
        return "There is a blank in it that is no plain blank, as no-break ones of spreadsheets: take it out."
    if re.fullmatch(r"[+]\d+", value):
        return "Leave the + out."
    if re.fullmatch(r"-?\d+[.]0*", value):
        return "Write it without the point and the zeros."
    if re.fullmatch(r"-?\d{1,3}([,.'_]\d{3})+", value):
        return (
            "Take the marks between the thousands out; if it is a fraction: there are none, so multiply all numbers of "
            "its kind by the same power of ten."
        )
    if re.fullmatch(r"[+-]?\d*[.]\d+", value):
        return (
            "There are no fractions: multiply all numbers of its kind by the same power of ten, "
            "or let `mcf-plan convert` do it."
        )
    if re.fullmatch(r"[+-]?\d*,\d+", value):
        return (
            "There are no fractions: multiply all numbers of its kind by the same power of ten; or write a point in "
            "place of each decimal comma, and let `mcf-plan convert` multiply."
        )
    if re.fullmatch(r"[+-]?\d*[.]?\d+[eE][+-]?\d+", value):
        return "Write the number out, without an exponent."
    if re.fullmatch(r"[+-]?(inf|infinity|unlimited|none|null|na|nan|[*])", value, re.IGNORECASE):
        if name == "CAP":
            return (
                f"For no limit write {MOST_FLOW}, which is as good where the supplies add up to no more and no circle of "
                "arcs costs less than 0; `mcf-plan convert` sees to it."
            )
        return "Write a number."
    if re.fullmatch(r"-\d{1,18}", value) and not signed:
        if name == "LOW":
            return "A lower bound is never below 0: `mcf-plan convert` moves such bounds."
        if name == "CAP":
            return f"A capacity is never below 0: for no limit write {MOST_FLOW}, for a closed arc 0."
        return "It can't be below 0."
    if re.fullmatch(r"-?\d+", value):
        return "It has more than 18 digits."
    if re.fullmatch(r"0[xX][0-9a-fA-F]+", value):
        return "Write it in decimal digits."
    if re.search(r"[,;]", value):
        return PARTED_BY_BLANKS
    if re.fullmatch(r"[\"'].*[\"']?|.*[\"']", value):
        return "Take the quotes off."
    if name in ("ID", "SRC", "DST"):
        return (
            "Nodes have numbers, from 1 to NODES. For names in their place make tables, which `mcf-plan plan` reads."
            if re.search(r"[^\W\d]", value)
            else ""
        )
    return ""


def range_hint(name: str, number: int) -> str:
    """What to do about a number that is out of range, of a field that names no node."""
    if name == "CAP":
        return (
            f"If it stands for no limit, write {MOST_FLOW}, which is as good where the supplies add up to no "
            "more and no circle of arcs costs less than 0; `mcf-plan convert` sees to that."
        )
    if name == "NODES" and number == 0:
        return "There has to be a node."
    return {
        "LOW": "Take a larger unit, or let `mcf-plan convert` part it.",
        "FLOW": "Take a larger unit, or let `mcf-plan convert` part it.",
        "COST": "Take a larger unit of money for all costs.",
        "NODES": "That is the largest problem that is taken.",
        "ARCS": "That is the largest problem that is taken.",
    }.get(name, "")


def count_hint(what: str, kind: str, names: Tuple[str, ...], words: List[str], problem_line: int) -> str:
    """What to do about a line with other fields than `names`; the first word of the line is `what`, and the kind stands
    on the problem line."""
    if any("," in word or ";" in word for word in words):
        return PARTED_BY_BLANKS
    if any(re.search("[\u00a0\u202f\u2009]", word) for word in words):
        return "There is a blank in it that is no plain blank, as no-break ones of spreadsheets: put plain ones."
    if len(words) > len(names) and re.match(r"[c#%/!]", words[len(names)]):
        return "A comment has a line of its own, which begins with c: take it off this line."
    if what == "p" and len(words) == 2:
        if words[0] in ARC_FIELDS:
            return "Both numbers are needed: how many nodes, and how many arcs."
        return "The kind comes first: min, max or asn."
    if what == "a":
        return _arc_count_hint(kind, names, len(words), problem_line)
    if what == "n" and kind == "asn":
        return "In an assignment the nodes of the source side are named alone; each supplies 1."
    if what == "n" and len(words) == 1:
        if kind == "min":
            return "Missing: what the node supplies (below 0 what it demands)."
        return "Missing: s for the source or t for the sink."
    return ""


def _arc_count_hint(kind: str, names: Tuple[str, ...], count: int, problem_line: int) -> str:
    """The same for an arc line."""
    if kind == "min" and count == 4:
        return "Is the lower bound missing? Write 0 where there is none."
    if kind == "min" and count == 2:
        return "Lower bound, capacity and cost are missing."
    others = [other for other, fields in ARC_FIELDS.items() if other != kind and len(fields) == count != len(names)]
    if others:
        told = "` or `".join(others)
        return f"This is how an arc of `{told}` is written: is the kind on line {problem_line} right?"
    return f"Missing: {', '.join(names[count:])}." if count < len(names) else ""


def kind_hint(kind: str) -> str:
    """What to do about a kind that is none."""
    kind = kind.lower()
    if kind in ARC_FIELDS:
        return f"Write it in small letters: {kind}."
    if re.match("mcf|min|cost|circ", kind):
        return "A problem of least cost is min."
    if re.match("mf|max|flow", kind):
        return "A maximum flow is max."
    if re.match("as|match|lap", kind):
        return "An assignment is asn."
    if kind in ("sp", "edge", "col", "cnf", "ghct", "geom"):
        return "That is another kind of file, which is no flow problem."
    return ""


def first_word_hint(word: str, line: str, *, is_first: bool) -> str:
    """What to do about a line whose first word is unknown."""
    if is_first and word.startswith("\ufeff"):
        return "The file begins with a byte order mark: save it as UTF-8 without one."
    if is_first and (
        line.startswith("PK\x03")
        or line.startswith("\x1f\udc8b")
        or line.startswith("BZh")
        or line.startswith("\udcfd7zXZ")
        or line.startswith("(\udcb5/\udcfd")
    ):
        return PACKED
    if is_first and (word.startswith("\udcff\udcfe") or word.startswith("\udcfe\udcff") or "\0" in word):
        return "This is UTF-16: save it as plain text (UTF-8)."
    if re.match(r"[#%/;!*]", word):
        return "A comment begins with c."
    if re.match(r"[pna][,;]", word, re.IGNORECASE):
        return PARTED_BY_BLANKS
    if word in ("P", "N", "A", "C"):
        return f"Write it as a small letter: {word.lower()}."
    if word in ("s", "f", "v", "i", "k"):
        return "Is this an answer in place of a problem?"
    if is_first and re.search(r"[,;\t]", line):
        return "Is this a table? Its name has to end in .csv or .tsv then."
    if word.lower() in ("arc", "e", "edge"):
        return "An arc line begins with a."
    if word.lower() in ("node", "nodes", "v"):
        return "A node line begins with n."
    if word.lower() in ("problem", "min", "max", "asn"):
        return "The problem line is `p KIND NODES ARCS`."
    if word in ("\x1a", "\x0c"):
        return "A byte of control stands at the end of the file: take it out."
    if not word.isascii() or not word.isprintable():
        return "There is a character in it that is no plain letter."
    if re.fullmatch(r"-?\d+", word):
        return "An arc line begins with a, a node line with n."
    return ""


def answer_word_hint(word: str) -> str:
    """What to do about a line of an answer whose first word is unknown."""
    if word in ("p", "n", "a"):
        return "Is this a problem in place of an answer?"
    return FLOWS_ALONE if re.fullmatch(r"-?\d+", word) else ""


def long_line_hint(line: bytes) -> str:
    """What to do about a line that is too long."""
    if line.count(b"\r") > 1:
        return "Its lines end with carriage returns alone: save the file with line feeds."
    if line.startswith((b"PK\x03", b"\x1f\x8b")):
        return PACKED
    if b"\0" in line:
        return "This is no plain text: save it as UTF-8."
    if line.lstrip(b" \t\r").startswith(b"c"):
        return "Break the comment into several lines, each beginning with c."
    return ""
