"""Plans, tables and sentences, as mcf-plan prints them.

Names come from tables that others made, and may hold what a terminal obeys. All that is printed of them goes through
`visible`, by `say` or `print_table`.
"""

from __future__ import annotations

import unicodedata
from typing import List, TextIO, Union

from .formats import written
from .plan import Infeasible, Plan
from .problem import plain

OBEYED = ("Cc", "Cf", "Cs", "Zl", "Zp")
"""The Unicode categories of what a terminal obeys or can't show: controls, marks of direction, halves of characters."""
JOINERS = "\u200c\u200d"
"""These belong to the spelling of several languages, and only join letters."""


def visible(text: str) -> str:
    """The text with each character that a terminal would obey, or can't show, written as its number.

    >>> print(visible("Ulm \\x1b[2J"), visible("S\\u00e3o Paulo"))
    Ulm \\u001b[2J São Paulo
    """
    if text.isprintable():
        return text
    return "".join(_written(letter) if unicodedata.category(letter) in OBEYED else letter for letter in text)


def _written(letter: str) -> str:
    """A character by its number."""
    return letter if letter in JOINERS else written(letter)


def say(words: str, out: TextIO) -> None:
    """Prints a text for people, line by line."""
    print("\n".join(map(visible, words.split("\n"))), file=out, flush=True)


def tell(result: Union[Plan, Infeasible], out: TextIO) -> None:
    """Prints a plan, or why there is none, for people."""
    if isinstance(result, Infeasible):
        say(result.explain(), out)
        return
    problem = result.problem
    what = {"min": "cost", "max": "flow", "asn": "cost"}[problem.kind]
    say(f"{what} {plain(result.cost)}", out)
    rows = [["from", "to", "name", "flow", "capacity", "cost"]]
    for arc, flow in zip(problem.arcs, result.flows):
        if flow:
            rows.append(
                [
                    str(arc.tail),
                    str(arc.head),
                    arc.name or "",
                    plain(flow),
                    "" if arc.cap is None else plain(arc.cap),
                    plain(arc.cost),
                ]
            )
    unused = [
        place
        for place, heading in enumerate(rows[0])
        if heading in ("name", "cost", "capacity")
        and (
            not any(row[place] for row in rows[1:])
            or problem.kind == "max"
            and heading == "cost"
            or problem.kind == "asn"
            and heading == "capacity"
        )
    ]
    print_table(
        [[cell for place, cell in enumerate(row) if place not in unused] for row in rows], 2 + (2 not in unused), out
    )
    for rest, words in ((result.kept, "stays at"), (result.not_met, "is not met at")):
        for name, amount in rest.items():
            say(f"{plain(amount)} {words} {name}", out)


def print_table(rows: List[List[str]], texts: int, out: TextIO) -> None:
    """Prints rows in columns, the first `texts` to the left, numbers to the right."""
    shown = [list(map(visible, row)) for row in rows]
    widths = [max(map(len, column)) for column in zip(*shown)]
    for row in shown:
        cells = [
            cell.ljust(width) if place < texts else cell.rjust(width)
            for place, (cell, width) in enumerate(zip(row, widths))
        ]
        print("  ".join(cells).rstrip(), file=out)


def of_system(error: Exception) -> str:
    """The words of an error of the system, with the file that it is of."""
    if isinstance(error, OSError) and error.filename is not None:
        return f"{error.filename}: {error.strerror}"
    return str(error)
