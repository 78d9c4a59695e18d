"""Plans and cuts for people and for other programs: a report in HTML with a picture, an SVG picture, CSV and JSON.

Whatever is written was verified against the tables first: `verify()` of the plan or of the cut is called here once
more, and a `Disagreement` goes to the caller before anything is written.

The picture comes from Graphviz where its program `dot` is installed and the network is small, and from a layout of
this module otherwise. Where the nodes have places (columns x and y of their table), they are drawn there.
"""
from __future__ import annotations

import csv
import html
import io
import json
import math
import shutil
import subprocess
from collections import deque
from decimal import Decimal
from pathlib import Path
from typing import Any, Iterator, Mapping, NamedTuple, Optional, Union

from .explain import MOST_TOLD, explain
from .outputs import write_text
from .plan import Infeasible, Plan
from .printing import visible
from .problem import WIDE, ZERO, Arc, Problem, plain
from .ranging import Ends
from .residual import Residual
from .sensitivity import minimum_cut
from .tables import PLAN_COLUMNS, plan_rows

Result = Union[Plan, Infeasible]

__all__ = ["html_report", "svg_picture", "limit_text", "to_csv", "to_json", "is_map", "layout", "number", "arc_rows"]

WORTH = {"min": "Cheapest plan", "max": "Most that can be sent", "asn": "Cheapest assignment"}
# Graphviz draws larger networks slowly, and its pictures of them say little.
GRAPHVIZ_ARCS = 120
GRAPHVIZ_SECONDS = 20
MOST_DRAWN = 3000
"""A picture of more arcs can't be read."""
EXACT_UP_TO = 10_000
"""What one unit more saves is searched for in plans of so many arcs; the page of the board tells it after each edit."""
COLUMN_GAP, ROW_GAP, MAP_SIDE = 260, 58, 720
RADIUS = 8
# Colours that are told apart without red and green; width, dashes and words say the same.
FLOW, FULL, EMPTY, CUT = "#1b6ca8", "#c2410c", "#b8bec6", "#f59e0b"
HEADS = {FLOW: "flow", FULL: "full", EMPTY: "empty"}
INK, QUIET = "#1c2127", "#57606a"
HALO = 'stroke="white" stroke-width="4" paint-order="stroke"'
STYLE = """body{font:16px/1.45 system-ui,sans-serif;color:#1c2127;max-width:62rem;margin:2rem auto;padding:0 1rem}
h1{font-size:1.5rem}h2{font-size:1.15rem;margin-top:2rem}
table{border-collapse:collapse;font-variant-numeric:tabular-nums}
th,td{padding:.2rem .7rem;text-align:right;border-bottom:1px solid #dde1e6}
th{font-weight:600;vertical-align:bottom;min-width:4.5rem}
.name{text-align:left}.full td{background:#fdeee6}.mark{color:#9a3412;font-weight:600}
.worth{font-size:1.6rem;font-weight:700}.wide{overflow-x:auto}
.picture{overflow:auto;max-height:88vh;margin-top:.5rem;border:1px solid #dde1e6}.picture svg{display:block;margin:auto}
#fitted:checked~.picture svg{max-width:100%;height:auto}
@media(min-width:68rem){.picture{width:94vw;margin-left:calc(50% - 47vw)}}
@media print{.picture{width:auto;max-height:none;margin:0;border:0}.picture svg{max-width:100%;height:auto}
#fitted,#fitted+label{display:none}}
pre{white-space:pre-wrap;font:inherit}"""


def number(value: Optional[Decimal]) -> str:
    """A number as people write it: no exponent, no zeros behind the last digit, no -0; '' for None.

    >>> number(Decimal("12.50")), number(Decimal("1E+3")), number(Decimal("-0")), number(None)
    ('12.5', '1000', '0', '')
    """
    return "" if value is None else plain(value or ZERO)


def _escape(text: str) -> str:
    """Words as HTML and SVG have them; neither may have characters that control a terminal."""
    return "\n".join(html.escape(visible(line)) for line in text.split("\n"))


class Row(NamedTuple):
    """What a plan says of one arc, in the units of the tables."""

    arc: Arc
    flow: Decimal
    cost: Decimal  # flow times unit cost
    saving: Optional[Decimal]  # what one unit more of capacity saves at most, where that is above 0
    full: bool


def savings(plan: Plan) -> list[Optional[Decimal]]:
    """What one unit more of capacity saves at most, arc by arc, where that is above 0.

    That is what the least step more saves, which is one unit where all amounts are whole; no further step saves more.
    Of a plan of more than EXACT_UP_TO arcs it is told by the prices alone, which bound it.
    """
    arcs = plan.problem.arcs
    found: list[Optional[Decimal]] = [None] * len(arcs)
    if plan.prices is None or plan.problem.kind != "min":
        return found
    for index, (arc, flow) in enumerate(zip(arcs, plan.flows)):
        if arc.cap is not None and flow == arc.cap:
            reduced = plan.reduced_cost(index)
            if reduced < 0:
                found[index] = -reduced
    bounded = [index for index, bound in enumerate(found) if bound is not None]
    if bounded and len(arcs) <= EXACT_UP_TO:
        residual = Residual(plan)
        ends = Ends(residual, bounded, with_costs=False)
        for index in bounded:
            found[index] = residual.price(ends.saving(index)) or None
    return found


def arc_rows(plan: Plan) -> Iterator[Row]:
    """The arcs of a plan in their order, with what the tables of a report say of each."""
    for arc, flow, saving in zip(plan.problem.arcs, plan.flows, savings(plan)):
        yield Row(arc, flow, WIDE.multiply(flow, arc.cost) if flow else ZERO, saving, flow == arc.cap)


# ---------------------------------------------------------------------------------------------------------------------
# Where the nodes stand


def _starts(problem: Problem) -> list[str]:
    """The nodes that a picture begins with, on its left."""
    if problem.kind == "max" and problem.source is not None:
        return [problem.source]
    if problem.kind == "asn":
        tails = {arc.tail for arc in problem.arcs}
        return [name for name in problem.nodes if name in tails]
    heads = {arc.head for arc in problem.arcs if arc.tail != arc.head}
    return (
        [name for name, supply in problem.nodes.items() if supply > 0]
        or [name for name in problem.nodes if name not in heads]
        or list(problem.nodes)[:1]
    )


def _nearest_first(after: Mapping[str, list[str]], starts: list[str]) -> dict[str, int]:
    """The number of arcs to each node from those that a picture begins with; a node that none reaches begins anew."""
    depth: dict[str, int] = {}
    for first in [starts, *([name] for name in after)]:
        waiting = deque(name for name in first if name not in depth)
        depth.update(dict.fromkeys(waiting, 0))
        while waiting:
            name = waiting.popleft()
            for head in after[name]:
                if head not in depth:
                    depth[head] = depth[name] + 1
                    waiting.append(head)
    return depth


def _farthest_first(after: Mapping[str, list[str]], starts: list[str]) -> dict[str, int]:
    """The most arcs on a way to each node, from those that a picture begins with.

    Arcs that lead back to these, or close a circle in a search that goes deep first, do not count.
    """
    order: list[str] = []
    begins = set(starts)
    state: dict[str, bool] = {}  # Whether a node that was come to is left for good.
    forward: dict[str, list[str]] = {name: [] for name in after}
    for first in [*starts, *after]:
        if first in state:
            continue
        state[first] = False
        path = [(first, iter(after[first]))]
        while path:
            name, heads = path[-1]
            for head in heads:
                if head in begins:
                    continue
                if state.get(head) is not False:
                    forward[name].append(head)
                if head not in state:
                    state[head] = False
                    path.append((head, iter(after[head])))
                    break
            else:
                state[name] = True
                order.append(name)
                path.pop()
    depth = dict.fromkeys(after, 0)
    for name in reversed(order):
        for head in forward[name]:
            depth[head] = max(depth[head], depth[name] + 1)
    return depth


def _columns(problem: Problem) -> list[list[str]]:
    """The nodes in columns: arcs lead to the right where they can; those that only take in stand in the last column."""
    after: dict[str, list[str]] = {name: [] for name in problem.nodes}
    for arc in problem.arcs:
        if arc.tail != arc.head:
            after[arc.tail].append(arc.head)
    starts = _starts(problem)
    near, depth = _nearest_first(after, starts), _farthest_first(after, starts)
    # Many circles make long ways, and a picture that is too wide: there the nearest way counts.
    if max(depth.values(), default=0) > 2 * max(near.values(), default=0) + 3:
        depth = near
    last = max(depth.values(), default=0)
    columns: list[list[str]] = [[] for _ in range(last + 1)]
    for name in problem.nodes:
        columns[depth[name] if after[name] or not depth[name] else last].append(name)
    return columns


def _untangled(problem: Problem, columns: list[list[str]]) -> list[list[str]]:
    """The same columns, each ordered by where the neighbours of its nodes stand, so that fewer arcs cross."""
    beside: dict[str, list[str]] = {name: [] for name in problem.nodes}
    for arc in problem.arcs:
        beside[arc.tail].append(arc.head)
        beside[arc.head].append(arc.tail)
    height = {name: (row + 0.5) / len(column) for column in columns for row, name in enumerate(column)}
    for turn in range(4):
        for column in columns[1:] if turn % 2 == 0 else columns[-2::-1]:
            wish = {
                name: sum(map(height.__getitem__, beside[name])) / len(beside[name]) if beside[name] else height[name]
                for name in column
            }
            column.sort(key=wish.__getitem__)
            height.update({name: (row + 0.5) / len(column) for row, name in enumerate(column)})
    return columns


def is_map(problem: Problem) -> bool:
    """Whether the picture is a map: each node has a place (`problem.places`, from columns x and y of the table)."""
    return bool(problem.nodes) and problem.places.keys() >= problem.nodes.keys()


def layout(problem: Problem) -> dict[str, tuple[float, float]]:
    """Where each node stands in a picture, in points from its top left corner: node to (x, y).

    On a map nodes stand in their places, north up; elsewhere in columns, from those that supply on the left to those
    that only take in on the right.
    """
    places = problem.places
    if is_map(problem):
        xs, ys = zip(*(map(float, places[name]) for name in problem.nodes))
        west, north = min(xs), max(ys)
        extent = max(max(xs) - west, north - min(ys)) or 1.0
        return {
            name: (round((x - west) / extent * MAP_SIDE, 1), round((north - y) / extent * MAP_SIDE, 1))
            for name, x, y in zip(problem.nodes, xs, ys)
        }
    columns = [column for column in _untangled(problem, _columns(problem)) if column]
    tallest = max(map(len, columns), default=1)
    # A tall picture gets wide gaps, so that its arcs are not drawn upright.
    column_gap = max(COLUMN_GAP, tallest * ROW_GAP * 0.9 / max(1, len(columns) - 1)) if len(columns) > 1 else COLUMN_GAP
    found = {}
    for column_number, column in enumerate(columns):
        gap = tallest * ROW_GAP / len(column)
        # Every second column a little lower: arcs that pass a column do not run through its nodes.
        shift = 0.18 * ROW_GAP * (column_number % 2)
        for row, name in enumerate(column):
            found[name] = (round(column_number * column_gap, 1), round((row + 0.5) * gap + shift, 1))
    return found


# ---------------------------------------------------------------------------------------------------------------------
# Pictures


def _cut(result: Result) -> frozenset[str]:
    """The nodes of the cut; none where there is a plan."""
    return result.cut if isinstance(result, Infeasible) else frozenset()


def _crosses(arc: Arc, cut: frozenset[str]) -> bool:
    return (arc.tail in cut) != (arc.head in cut)


def _label(arc: Arc, flow: Optional[Decimal], kind: str) -> str:
    """What a picture says at an arc: the flow and the capacity, and at which cost."""
    if kind == "asn":
        return f"at {number(arc.cost)}" if flow is None or flow else ""
    cap = "" if arc.cap is None else number(arc.cap)
    if flow is None:
        text = f"at most {cap}" if cap else "no limit"
        return f"{text}, at least {number(arc.low)}" if arc.low else text
    text = f"{number(flow)} of {cap}" if cap else number(flow)
    return f"{text} at {number(arc.cost)}" if arc.cost and kind == "min" else text


def _node_label(problem: Problem, name: str) -> str:
    supply = problem.nodes[name]
    if problem.kind == "min" and supply:
        sign = "+" if supply > 0 else "\N{MINUS SIGN}"
        return f"{name} {sign}{number(abs(supply))}"
    if problem.kind == "max" and name in (problem.source, problem.sink):
        return f"{name} ({'source' if name == problem.source else 'sink'})"
    return name


def _strokes(result: Result) -> Iterator[tuple[Arc, Optional[Decimal], str, float, bool]]:
    """Each arc with its flow (None where there is no plan), colour, width, and whether it is to be marked."""
    problem = result.problem
    if isinstance(result, Infeasible):
        for arc in problem.arcs:
            marked = _crosses(arc, result.cut)
            yield arc, None, FULL if marked else EMPTY, 2.5 if marked else 1.2, marked
        return
    most = max([abs(flow) for flow in result.flows], default=Decimal(0)) or Decimal(1)
    for arc, flow in zip(problem.arcs, result.flows):
        full = bool(flow) and arc.cap is not None and flow == arc.cap and problem.kind != "asn"
        yield arc, flow, FULL if full else FLOW if flow else EMPTY, 1.2 + 4.8 * float(
            abs(flow) / most
        ) if flow else 1.0, full


def _dot_text(result: Result) -> str:
    def quoted(text: str) -> str:
        return '"' + visible(text).replace("\\", "\\\\").replace('"', '\\"') + '"'

    problem, cut = result.problem, _cut(result)
    lines = [
        "digraph plan {",
        "  rankdir=LR; bgcolor=transparent; nodesep=0.35; ranksep=1.4;",
        '  node [shape=box, style="rounded,filled", fillcolor=white, fontname="sans-serif", fontsize=13];',
        '  edge [fontname="sans-serif", fontsize=11];',
    ]
    for name in problem.nodes:
        colour = f', fillcolor="{CUT}"' if name in cut else ""
        lines.append(f"  {quoted(name)} [label={quoted(_node_label(problem, name))}{colour}];")
    for arc, flow, colour, width, marked in _strokes(result):
        style = ", style=dashed" if flow is not None and not flow else ""
        label = _label(arc, flow, problem.kind) + (", full" if marked and flow is not None else "")
        lines.append(
            f"  {quoted(arc.tail)} -> {quoted(arc.head)} [label={quoted(label)}, color={quoted(colour)}, "
            f"fontcolor={quoted(colour if marked else INK)}, penwidth={width:.1f}{style}];"
        )
    return "\n".join(lines + ["}"])


def _by_graphviz(result: Result) -> Optional[str]:
    """The picture as Graphviz draws it; None where it is not there, does not come to an end in time, or would take
    several nodes for one, whose names look the same."""
    program = shutil.which("dot")
    names = result.problem.nodes
    if program is None or len(set(map(visible, names))) < len(names):
        return None
    try:
        done = subprocess.run(
            [program, "-Tsvg"],
            input=_dot_text(result),
            capture_output=True,
            text=True,
            encoding="utf-8",
            timeout=GRAPHVIZ_SECONDS,
            check=True,
        )
    except (OSError, subprocess.SubprocessError):
        return None
    begin = done.stdout.find("<svg")
    return done.stdout[begin:] if begin >= 0 else None


def _curve(
    start: tuple[float, float], end: tuple[float, float], bend: float, at: float
) -> tuple[str, tuple[float, float]]:
    """A path from one node to another that ends before it, and the point for its label, so far on the way."""
    (x0, y0), (x1, y1) = start, end
    length = math.hypot(x1 - x0, y1 - y0)
    if length < 1e-6:
        return f"M{x0 - 6:.1f} {y0 - 7:.1f}c-28 -39 40 -39 13 -3", (x0, y0 - 40)
    ux, uy = (x1 - x0) / length, (y1 - y0) / length
    middle = ((x0 + x1) / 2 - uy * bend, (y0 + y1) / 2 + ux * bend)

    def away(x: float, y: float, gap: float) -> tuple[float, float]:
        far = math.hypot(middle[0] - x, middle[1] - y) or 1.0
        return x + (middle[0] - x) / far * gap, y + (middle[1] - y) / far * gap

    (ax, ay), (bx, by) = away(x0, y0, RADIUS + 1), away(x1, y1, RADIUS + 8)
    label = tuple(
        (1 - at) ** 2 * a + 2 * at * (1 - at) * m + at * at * b
        for a, m, b in ((ax, middle[0], bx), (ay, middle[1], by))
    )
    return f"M{ax:.1f} {ay:.1f}Q{middle[0]:.1f} {middle[1]:.1f} {bx:.1f} {by:.1f}", (label[0], label[1])


def _own_picture(result: Result) -> str:
    """The picture by the layout of this module."""
    problem = result.problem
    where = layout(problem)
    right = max((x for x, _ in where.values()), default=0.0)
    bottom = max((y for _, y in where.values()), default=0.0)
    longest = max((len(_node_label(problem, name)) for name in problem.nodes), default=0)
    margin = 40 + 8 * min(longest, 24)
    width, height = f"{right + 2 * margin:.0f}", f"{bottom + 90:.0f}"
    out = [
        f'<svg xmlns="http://www.w3.org/2000/svg" width="{width}" height="{height}"',
        f'  viewBox="{-margin:.0f} -50 {width} {height}" font-family="sans-serif"',
        '  role="img" aria-label="The network with its flows">',
        f'<rect x="{-margin:.0f}" y="-50" width="{width}" height="{height}" fill="white"/>',
    ]
    for colour, name in HEADS.items():
        out.append(f'<marker id="head-{name}" viewBox="0 0 10 10" refX="2" refY="5" markerWidth="9" markerHeight="9"')
        out.append(f'  markerUnits="userSpaceOnUse" orient="auto"><path d="M0 0L10 5L0 10z" fill="{colour}"/></marker>')
    lines, labels = _drawn_arcs(result, where)
    dots, names = _drawn_nodes(result, where, right)
    out += ['<g fill="none">', *lines, "</g>", '<g stroke-width="2.5">', *dots, "</g>"]
    out += [f'<g font-size="12" text-anchor="middle" {HALO}>', *labels, "</g>"]
    out += [f'<g font-size="14" font-weight="600" fill="{INK}" {HALO}>', *names, "</g>", "</svg>"]
    return "\n".join(out) + "\n"


def _drawn_arcs(result: Result, where: Mapping[str, tuple[float, float]]) -> tuple[list[str], list[str]]:
    """The lines of the arcs, and their labels."""
    problem = result.problem
    few, on_map = len(problem.arcs) <= GRAPHVIZ_ARCS, is_map(problem)
    lines, labels = [], []
    seen: dict[tuple[str, str], int] = {}
    both = {(arc.tail, arc.head) for arc in problem.arcs}
    for arc, flow, colour, width, marked in _strokes(result):
        parallel = seen[arc.tail, arc.head] = seen.get((arc.tail, arc.head), -1) + 1
        start, end = where[arc.tail], where[arc.head]
        opposed = (arc.head, arc.tail) in both
        bend = 26.0 * parallel + (16 if opposed else 0)
        if not on_map and start[0] == end[0]:
            bend += 46
        path, (x, y) = _curve(start, end, bend, (0.26 if opposed else 0.36) + 0.16 * (parallel % 3))
        text = _label(arc, flow, problem.kind) + (", full" if marked and flow is not None else "")
        dashes = ' stroke-dasharray="5 5"' if flow is not None and not flow else ""
        lines.append(f'<path d="{path}" stroke="{colour}"')
        lines.append(f'  stroke-width="{width:.1f}"{dashes} marker-end="url(#head-{HEADS[colour]})">')
        lines.append(f"  <title>{_escape(f'{arc.tail} to {arc.head}: {text}')}</title></path>")
        if few and text:
            fill = QUIET if colour == EMPTY else colour
            labels.append(f'<text x="{x:.1f}" y="{y - 4:.1f}" fill="{fill}">{_escape(text)}</text>')
    return lines, labels


def _drawn_nodes(result: Result, where: Mapping[str, tuple[float, float]], right: float) -> tuple[list[str], list[str]]:
    """The circles of the nodes, and their names: beside those at the left and right edge, above all others."""
    problem, cut = result.problem, _cut(result)
    on_map = is_map(problem)
    dots, names = [], []
    for name, (x, y) in where.items():
        supply = problem.nodes[name]
        fill = CUT if name in cut else FLOW if supply > 0 else "white"
        dots.append(f'<circle cx="{x}" cy="{y}" r="{RADIUS}" fill="{fill}" stroke="{FLOW if supply else QUIET}"/>')
        side = "above" if on_map or 0 < x < right else "left" if x <= 0 and right > 0 else "right"
        dx, dy, anchor = {"above": (0, -14, "middle"), "left": (-14, 5, "end"), "right": (14, 5, "start")}[side]
        names.append(f'<text x="{x + dx:.1f}" y="{y + dy:.1f}" text-anchor="{anchor}">')
        names[-1] += _escape(_node_label(problem, name)) + "</text>"
    return dots, names


def not_drawn(problem: Problem) -> Optional[str]:
    """Why there is no picture of so large a network, in words; None where there is one."""
    if len(problem.arcs) <= MOST_DRAWN:
        return None
    return f"the network has {len(problem.arcs):,} arcs, and a picture of more than {MOST_DRAWN:,} can't be read"


def svg_picture(result: Result, *, graphviz: Optional[bool] = None) -> str:
    """The network as an SVG picture: arcs as wide as their flow, full ones marked; of no plan, the cut.

    `graphviz` says who draws: True Graphviz, False the layout of this module, None (the default) Graphviz where `dot`
    is installed, the network has at most 120 arcs and the picture is no map. RuntimeError where Graphviz is asked
    for and does not draw it, ValueError where the network is too large for a picture that can be read.
    """
    result.verify()
    return _picture(result, graphviz)


def _picture(result: Result, graphviz: Optional[bool] = None) -> str:
    """The picture of a result that was verified."""
    too_large = not_drawn(result.problem)
    if too_large:
        raise ValueError(too_large)
    wanted = graphviz is None and len(result.problem.arcs) <= GRAPHVIZ_ARCS and not is_map(result.problem)
    if graphviz or wanted:
        picture = _by_graphviz(result)
        if picture is not None:
            return picture
        if graphviz:
            raise RuntimeError("Graphviz (dot) did not draw the picture")
    return _own_picture(result)


# ---------------------------------------------------------------------------------------------------------------------
# Texts


def _flow_table(plan: Plan) -> Iterator[str]:
    problem = plan.problem
    has_low = any(arc.low for arc in problem.arcs)
    has_name = any(arc.name for arc in problem.arcs)
    rows = list(arc_rows(plan))
    if problem.kind == "asn":
        yield '<table><tr><th class="name">Of</th><th class="name">To</th><th>Cost</th></tr>'
        for row in rows:
            if row.flow:
                ends = "".join(f'<td class="name">{_escape(end)}</td>' for end in (row.arc.tail, row.arc.head))
                yield f"<tr>{ends}<td>{number(row.arc.cost)}</td></tr>"
        yield "</table>"
        return
    costs = problem.kind == "min"
    heads = ["From", "To"] + ["Name"] * has_name
    numbers = (
        ["Flow"] + ["At least"] * has_low + ["Capacity"] + ["Unit cost", "Cost", "One unit more saves at most"] * costs
    )
    yield "<table><tr>" + "".join(f'<th class="name">{head}</th>' for head in heads) + "".join(
        f"<th>{head}</th>" for head in numbers
    ) + "<th></th></tr>"
    for row in rows:
        arc = row.arc
        words = [arc.tail, arc.head] + [arc.name or ""] * has_name
        cells = [number(row.flow)] + [number(arc.low)] * has_low + ["no limit" if arc.cap is None else number(arc.cap)]
        cells += [number(arc.cost), number(row.cost), number(row.saving)] * costs
        marked = row.full and bool(row.flow)
        yield f'<tr{" class=full" if marked else ""}>' + "".join(
            f'<td class="name">{_escape(word)}</td>' for word in words
        ) + "".join(f"<td>{cell}</td>" for cell in cells) + f'<td class="mark">{"full" if marked else ""}</td></tr>'
    yield "</table>"


def _node_table(plan: Plan) -> Iterator[str]:
    problem = plan.problem
    left = {**plan.kept, **plan.not_met}
    rest = bool(plan.not_met)
    yield '<table><tr><th class="name">Node</th><th>Supply</th>' + (
        f"<th>{'Not met' if rest else 'Kept'}</th>" if left else ""
    ) + ("<th>Price</th>" if plan.prices else "") + "</tr>"
    for name, supply in problem.nodes.items():
        cells = [number(supply)] + ([number(left.get(name)) if left.get(name) else ""] if left else [])
        cells += [number(plan.prices[name])] if plan.prices else []
        yield f'<tr><td class="name">{_escape(name)}</td>' + "".join(f"<td>{cell}</td>" for cell in cells) + "</tr>"
    yield "</table>"


def limit_text(plan: Plan) -> str:
    """Why no more can be sent in a maximum flow: the arcs of a minimum cut, in words, of many the first ones.

    >>> from mcf_plan import Problem
    >>> problem = Problem("max", source="well", sink="town")
    >>> problem.add_arc("well", "town", cap=3)
    0
    >>> print(limit_text(problem.solve()))
    All that goes from well to town has to go along these arcs, and they are full:
      well to town: 3
    """
    cut = minimum_cut(plan)
    source, sink = plan.problem.source, plan.problem.sink
    arcs = [plan.problem.arcs[index] for index in cut.arcs]
    if not any(arc.cap for arc in arcs):
        return f"No way leads from {source} to {sink}."
    lines = [f"All that goes from {source} to {sink} has to go along these arcs, and they are full:"]
    full = [f"  {arc.label}: {number(arc.cap)}" for arc in arcs if arc.cap]
    others = [f"  and {len(full) - MOST_TOLD:,} others"] if len(full) > MOST_TOLD else []
    return "\n".join(lines + full[:MOST_TOLD] + others)


def html_text(result: Result, *, title: str = "Plan") -> str:
    """The report as one text of HTML that needs no other file."""
    result.verify()
    problem = result.problem
    out = [
        "<!doctype html>",
        '<html lang="en"><meta charset="utf-8"><meta name="viewport" content="width=device-width">',
        f"<title>{_escape(title)}</title><style>{STYLE}</style>",
        f"<h1>{_escape(title)}</h1>",
    ]
    if isinstance(result, Plan):
        out.append(f'<p class="worth">{WORTH[problem.kind]}: {number(result.cost)}</p>')
        better = "No plan sends more" if problem.kind == "max" else "No plan costs less"
        out.append(
            f"<p>{better}: <code>mcf check</code> accepted the answer, and its flows, cost and prices were found right "
            "in the units of the tables.</p>"
        )
    else:
        out.append(f'<p class="worth">There is no plan: short by {number(result.shortage)}</p>')
        out.append(f"<pre>{_escape(explain(result))}</pre>")
        out.append(
            "<p><code>mcf check</code> accepted the cut, and its shortage was found right in the units of the "
            "tables.</p>"
        )
    if isinstance(result, Plan) and problem.kind == "max":
        out.append(f"<pre>{_escape(limit_text(result))}</pre>")
    if result.notes:
        out.append("<p>What was taken for you:</p><ul>" + "".join(f"<li>{_escape(note)}</li>" for note in result.notes))
        out.append("</ul>")
    out.append("<h2>The network</h2>")
    too_large = not_drawn(problem)
    if too_large:
        out.append(f"<p>{too_large[:1].upper() + too_large[1:]}.</p>")
    else:
        out.append('<input type="checkbox" id="fitted" checked><label for="fitted"> as wide as the page</label>')
        out.append('<div class="picture" tabindex="0" role="region" aria-label="Picture, which arrow keys move">')
        out.append(f"{_picture(result)}</div>")
    if isinstance(result, Plan):
        out.append('<h2>What goes where</h2><div class="wide">' + "\n".join(_flow_table(result)) + "</div>")
        if problem.kind == "min":
            out.append('<h2>Nodes</h2><div class="wide">' + "\n".join(_node_table(result)) + "</div>")
            out.append(
                "<p>The price of a node tells what a unit is worth there beside the other nodes: where it goes along "
                "an arc that is neither full nor at its least, the price rises by the unit cost.</p>"
            )
    return "\n".join(out) + "\n</html>\n"


def html_report(result: Result, path: Union[str, Path], *, title: str = "Plan") -> None:
    """Writes the report to a file, whole or not at all. OSError where it can't be written."""
    write_text(path, html_text(result, title=title), errors="backslashreplace")


def to_csv(result: Result) -> str:
    """The arcs of a plan as a table, as `write_plan` writes it: each arc with its numbers, its flow and its cost.

    ValueError where there is no plan.
    """
    if isinstance(result, Infeasible):
        raise ValueError("there is no plan to write as a table")
    result.verify()
    out = io.StringIO()
    table = csv.writer(out, lineterminator="\n")
    table.writerow(PLAN_COLUMNS)
    table.writerows(plan_rows(result))
    return out.getvalue()


def to_json(result: Result) -> str:
    """The plan, or why there is none, as JSON. Numbers are texts, so that no program rounds them.

    A plan: kind, feasible, cost, arcs (from, to, name, flow, low, capacity or null, unit_cost, cost, full), prices (or
    null), kept, not_met, notes. None: kind, feasible, shortage, cut, why, notes. Each arc stands on a line of its own.
    """
    result.verify()
    problem = result.problem
    told: dict[str, Any] = {"kind": problem.kind, "feasible": isinstance(result, Plan)}
    if isinstance(result, Infeasible):
        cut = [name for name in problem.nodes if name in result.cut]
        told.update(shortage=number(result.shortage), cut=cut, why=explain(result))
    else:
        told["cost"] = number(result.cost)
        told["arcs"] = [
            {
                "from": row.arc.tail,
                "to": row.arc.head,
                "name": row.arc.name,
                "flow": number(row.flow),
                "low": number(row.arc.low),
                "capacity": None if row.arc.cap is None else number(row.arc.cap),
                "unit_cost": number(row.arc.cost),
                "cost": number(row.cost),
                "full": row.full,
            }
            for row in arc_rows(result)
        ]
        told["prices"] = (
            None if result.prices is None else {name: number(price) for name, price in result.prices.items()}
        )
        for name, rest in (("kept", result.kept), ("not_met", result.not_met)):
            told[name] = {node: number(amount) for node, amount in rest.items()}
    told["notes"] = list(result.notes)
    return json_text(told)


_ENCODE = json.JSONEncoder(ensure_ascii=False).encode


def json_text(told: Mapping[str, Any]) -> str:
    """JSON with each field on a line of its own, and each member of a list of arcs or nodes."""
    fields = [f" {_ENCODE(key)}: {_lines(value)}" for key, value in told.items()]
    text = "{\n" + ",\n".join(fields) + "\n}\n"
    return "\n".join(line if line.isprintable() else _escaped(line) for line in text.split("\n"))


def _lines(value: Any) -> str:
    """A value as JSON; of a list each member on a line of its own."""
    if not isinstance(value, list) or not value:
        return _ENCODE(value)
    return "[\n  " + ",\n  ".join(map(_ENCODE, value)) + "\n ]"


def _escaped(line: str) -> str:
    """A line of JSON in which what a terminal obeys, or can't show, stands by its number."""
    return "".join(letter if visible(letter) == letter else json.dumps(letter)[1:-1] for letter in line)
