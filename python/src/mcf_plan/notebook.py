"""Plans, and reasons why there is none, as a notebook shows them."""

from __future__ import annotations

import html
from typing import TYPE_CHECKING, Iterable, Iterator, List, Sequence

from .problem import plain

if TYPE_CHECKING:
    from .plan import Infeasible, Plan

MOST_ROWS = 10
"""So many rows are shown; the others are counted."""

WORTH = {"min": "Cost", "max": "Flow", "asn": "Cost"}


def plan_html(plan: Plan) -> str:
    """The worth of a plan, and a table of the first arcs that carry something."""
    problem = plan.problem
    used = [(arc, flow) for arc, flow in zip(problem.arcs, plan.flows) if flow]
    rows = [
        [arc.tail, arc.head, arc.name or "", plain(flow), "" if arc.cap is None else plain(arc.cap), plain(arc.cost)]
        for arc, flow in used[:MOST_ROWS]
    ]
    out = [f"<p><b>{WORTH[problem.kind]} {plain(plan.cost)}</b></p>"]
    out += _table(["from", "to", "name", "flow", "capacity", "unit cost"], rows, texts=3)
    if len(used) > MOST_ROWS:
        out.append(f"<p>and {len(used) - MOST_ROWS:,} more of {len(problem.arcs):,} arcs carry something</p>")
    for rest, words in ((plan.kept, "stays at"), (plan.not_met, "is not met at")):
        told = [f"{plain(amount)} {words} {name}" for name, amount in rest.items()]
        out += [f"<p>{html.escape(line)}</p>" for line in told[:MOST_ROWS]]
        if len(told) > MOST_ROWS:
            out.append(f"<p>and so at {len(told) - MOST_ROWS:,} more</p>")
    return "".join(out + _notes(plan.notes))


def infeasible_html(infeasible: Infeasible) -> str:
    """Why there is no plan, in words."""
    first, *rest = infeasible.explain().split("\n")
    out = [f"<p><b>{html.escape(first)}</b></p>"]
    if rest:
        out.append(f"<pre>{html.escape(chr(10).join(rest))}</pre>")
    return "".join(out + _notes(infeasible.notes))


def _table(heads: Sequence[str], rows: List[List[str]], texts: int) -> Iterator[str]:
    """The lines of a table; the first `texts` columns to the left, and those without an entry left away."""
    places = [place for place in range(len(heads)) if place < 2 or any(row[place] for row in rows)]
    styles = ["text-align:left" if place < texts else "text-align:right" for place in range(len(heads))]
    yield "<table><thead><tr>"
    yield from _cells("th", places, styles, heads)
    yield "</tr></thead><tbody>"
    for row in rows:
        yield "<tr>"
        yield from _cells("td", places, styles, row)
        yield "</tr>"
    yield "</tbody></table>"


def _cells(tag: str, places: Iterable[int], styles: Sequence[str], row: Sequence[str]) -> Iterator[str]:
    for place in places:
        yield f'<{tag} style="{styles[place]}">{html.escape(str(row[place]))}</{tag}>'


def _notes(notes: Iterable[str]) -> List[str]:
    return [f"<p><small>{html.escape(note)}</small></p>" for note in notes]
