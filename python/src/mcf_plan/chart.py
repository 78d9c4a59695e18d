"""A chart of one number over another, as an SVG picture that needs no other file."""

from __future__ import annotations

import html
import math
from decimal import Decimal
from fractions import Fraction
from typing import Iterator, List, NamedTuple, Optional, Sequence

from .problem import WIDE, ZERO, plain
from .report import FLOW, FULL, HALO, INK, QUIET
from .sweep import Point

WIDTH, HEIGHT = 760, 440
LEFT, RIGHT, TOP, BOTTOM = 96, 28, 64, 72
"""The margins around the frame of the chart."""
MOST_TICKS = 10
MOST_LABELS = 14
"""Where the line bends more often than this, the bends are marked and not labelled."""
GRID, NO_PLAN = "#dde1e6", "#fdeee6"


class Scale(NamedTuple):
    """From the numbers of an axis to the places along it."""

    least: float
    greatest: float
    begin: float
    end: float

    def at(self, value: Decimal) -> float:
        """The place of a number."""
        share = (float(value) - self.least) / (self.greatest - self.least)
        return self.begin + share * (self.end - self.begin)


def svg_chart(points: Sequence[Point], *, title: str, across: str, up: str, now: Optional[Decimal] = None) -> str:
    """The chart of a sweep: `across` and `up` say in words what the axes are, `now` is the value as it stands.

    Points are joined by straight lines; where the line bends, the point is marked, and told. Where there is no plan, the
    ground is coloured and says so. Raises ValueError where there is no point.
    """
    if not points:
        raise ValueError("there is no value to draw")
    rows = sorted(points, key=lambda point: point.value)
    values = [row.value for row in rows] + ([] if now is None else [now])
    costs = [row.cost for row in rows if row.cost is not None]
    wide = _axis(min(values), max(values), LEFT, WIDTH - RIGHT)
    tall = _axis(min(costs, default=ZERO), max(costs, default=ZERO), HEIGHT - BOTTOM, TOP, room=0.06)
    out = [
        f'<svg xmlns="http://www.w3.org/2000/svg" width="{WIDTH}" height="{HEIGHT}" viewBox="0 0 {WIDTH} {HEIGHT}"',
        f'  font-family="sans-serif" font-size="12" fill="{INK}" role="img" aria-label="{html.escape(title)}">',
        f'<rect width="{WIDTH}" height="{HEIGHT}" fill="white"/>',
        f'<text x="{LEFT}" y="28" font-size="16" font-weight="600">{html.escape(title)}</text>',
        *_ground(rows, wide),
        *_grid(wide, tall),
        *_names(across, up),
        *_present(now, wide),
        *_line(rows, wide, tall),
        *_dots(rows, wide, tall),
        "</svg>",
    ]
    return "\n".join(out) + "\n"


def _axis(least: Decimal, greatest: Decimal, begin: float, end: float, room: float = 0.0) -> Scale:
    """An axis on which all numbers have room; one that holds a single number gets some around it."""
    low, high = float(least), float(greatest)
    if low == high:
        around = max(1.0, abs(low) * 0.1)
        return Scale(low - around, high + around, begin, end)
    margin = (high - low) * room
    return Scale(low - margin, high + margin, begin, end)


def ticks(least: float, greatest: float) -> List[Decimal]:
    """Round numbers along an axis: steps of 1, 2 or 5 times a power of ten.

    >>> [plain(tick) for tick in ticks(0.0, 12.0)], [plain(tick) for tick in ticks(-0.3, 0.31)]
    (['0', '2', '4', '6', '8', '10', '12'], ['-0.3', '-0.2', '-0.1', '0', '0.1', '0.2', '0.3'])
    """
    span = greatest - least
    power = math.floor(math.log10(span / MOST_TICKS))
    step = next(
        step
        for step in (Decimal(digit).scaleb(power + more) for more in (0, 1) for digit in (1, 2, 5))
        if span / float(step) <= MOST_TICKS
    )
    first = math.ceil(least / float(step) - 1e-9)
    last = math.floor(greatest / float(step) + 1e-9)
    return [WIDE.multiply(step, Decimal(number)) for number in range(first, last + 1)]


def _grid(wide: Scale, tall: Scale) -> Iterator[str]:
    """The frame with its ticks."""
    for tick in ticks(tall.least, tall.greatest):
        y = tall.at(tick)
        yield f'<path d="M{LEFT} {y:.1f}H{WIDTH - RIGHT}" stroke="{GRID}"/>'
        yield f'<text x="{LEFT - 8}" y="{y + 4:.1f}" text-anchor="end" fill="{QUIET}">{plain(tick)}</text>'
    for tick in ticks(wide.least, wide.greatest):
        x = wide.at(tick)
        yield f'<path d="M{x:.1f} {HEIGHT - BOTTOM}v5" stroke="{QUIET}"/>'
        yield (f'<text x="{x:.1f}" y="{HEIGHT - BOTTOM + 20}" text-anchor="middle" fill="{QUIET}">{plain(tick)}</text>')
    yield f'<path d="M{LEFT} {TOP}V{HEIGHT - BOTTOM}H{WIDTH - RIGHT}" fill="none" stroke="{QUIET}"/>'


def _names(across: str, up: str) -> Iterator[str]:
    """What the axes are."""
    middle = (LEFT + WIDTH - RIGHT) / 2
    yield f'<text x="{middle:.0f}" y="{HEIGHT - 24}" text-anchor="middle">{html.escape(across)}</text>'
    yield f'<text x="{LEFT}" y="{TOP - 12}" text-anchor="middle">{html.escape(up)}</text>'
    yield (
        f'<text x="{WIDTH - RIGHT}" y="{HEIGHT - 6}" text-anchor="end" font-size="11" fill="{QUIET}">filled points: where '
        "the line begins, bends or ends; from point to point it is drawn straight</text>"
    )


def _present(now: Optional[Decimal], wide: Scale) -> Iterator[str]:
    """The value as it stands."""
    if now is not None:
        x = wide.at(now)
        anchor = "end" if x > WIDTH - RIGHT - 60 else "start"
        yield f'<path d="M{x:.1f} {TOP}V{HEIGHT - BOTTOM}" stroke="{QUIET}" stroke-dasharray="4 4"/>'
        yield (
            f'<text x="{x + (-5 if anchor == "end" else 5):.1f}" y="{HEIGHT - BOTTOM - 8}" text-anchor="{anchor}" '
            f'fill="{QUIET}" {HALO}>now {plain(now)}</text>'
        )


def _ground(rows: Sequence[Point], wide: Scale) -> Iterator[str]:
    """The values without a plan, each up to half way to the next one."""
    begin = 0
    while begin < len(rows):
        end = begin
        while end < len(rows) and (rows[end].cost is None) == (rows[begin].cost is None):
            end += 1
        if rows[begin].cost is None:
            left, right = (
                (wide.at(rows[place].value) + wide.at(rows[place + 1].value)) / 2
                if 0 <= place < len(rows) - 1
                else LEFT
                if place < 0
                else WIDTH - RIGHT
                for place in (begin - 1, end - 1)
            )
            yield f'<rect x="{left:.1f}" y="{TOP}" width="{right - left:.1f}" height="{HEIGHT - TOP - BOTTOM}"'
            yield f'  fill="{NO_PLAN}"><title>{html.escape(_words(rows[begin]))}</title></rect>'
            if right - left > 50:
                yield f'<text x="{(left + right) / 2:.1f}" y="{TOP + 24}" text-anchor="middle" fill="{FULL}">no plan</text>'
        begin = end


def _line(rows: Sequence[Point], wide: Scale, tall: Scale) -> Iterator[str]:
    """The line through the points, with a gap where there is no plan."""
    path, is_joined = "", False
    for row in rows:
        if row.cost is None:
            is_joined = False
            continue
        path += f"{'L' if is_joined else 'M'}{wide.at(row.value):.1f} {tall.at(row.cost):.1f}"
        is_joined = True
    if path:
        yield f'<path d="{path}" fill="none" stroke="{FLOW}" stroke-width="2.5" stroke-linejoin="round"/>'


def _dots(rows: Sequence[Point], wide: Scale, tall: Scale) -> Iterator[str]:
    """The points; those where the line begins, bends or ends are larger, and labelled where there are few of them."""
    bends = bending(rows)
    is_labelled = len(bends) <= MOST_LABELS
    for place, row in enumerate(rows):
        if row.cost is None:
            continue
        x, y = wide.at(row.value), tall.at(row.cost)
        marked = place in bends
        yield f'<circle cx="{x:.1f}" cy="{y:.1f}" r="{4.5 if marked else 2.5}" fill="{FLOW if marked else "white"}"'
        yield f'  stroke="{FLOW}" stroke-width="1.5"><title>{html.escape(_words(row))}</title></circle>'
        if marked and is_labelled:
            yield _label(rows, place, x, y)


def _label(rows: Sequence[Point], place: int, x: float, y: float) -> str:
    """The cost at a point, on the side where the line leaves room."""
    cost, before = rows[place].cost, _at(rows, place - 1)
    assert cost is not None
    falls = before is not None and before.cost is not None and before.cost > cost
    anchor = "end" if x > WIDTH - RIGHT - 60 else "start" if falls or x < LEFT + 40 else "middle"
    shift = 6 if falls and anchor == "start" else 0
    return f'<text x="{x + shift:.1f}" y="{y - 8:.1f}" text-anchor="{anchor}" {HALO}>{plain(cost)}</text>'


def bending(rows: Sequence[Point]) -> List[int]:
    """The places in a row of points where its line begins, bends or ends, exactly."""
    found = []
    for place, row in enumerate(rows):
        if row.cost is None:
            continue
        slopes = [
            None if beside is None else _slope(row, beside) for beside in (_at(rows, place - 1), _at(rows, place + 1))
        ]
        if None in slopes or slopes[0] != slopes[1]:
            found.append(place)
    return found


def _at(rows: Sequence[Point], place: int) -> Optional[Point]:
    """The point at a place; None beyond the ends, and where there is no plan."""
    return rows[place] if 0 <= place < len(rows) and rows[place].cost is not None else None


def _slope(row: Point, other: Point) -> Optional[Fraction]:
    """By how much a unit changes the cost, between two points."""
    if row.cost is None or other.cost is None or row.value == other.value:
        return None
    return (Fraction(row.cost) - Fraction(other.cost)) / (Fraction(row.value) - Fraction(other.value))


def _words(row: Point) -> str:
    """A point in words."""
    if row.cost is None:
        return f"{plain(row.value)}: no plan" + ("" if row.shortage is None else f", short by {plain(row.shortage)}")
    return f"{plain(row.value)}: {plain(row.cost)}"
