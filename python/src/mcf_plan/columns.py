"""Columns of tables: which one holds what, by the words that planners write over them.

A column that is not understood is never planned with: it is left aside, which is told, or refused where it looks like
one that matters.
"""

from __future__ import annotations

import re
import unicodedata
from contextlib import suppress
from dataclasses import dataclass, field
from itertools import permutations
from typing import Any, Collection, Dict, Iterable, List, Mapping, NamedTuple, Optional, Sequence, Set, Tuple

from .cells import NO_LIMIT, YES_OR_NO, TableFault, is_blank, is_empty
from .formats import some
from .measures import Unit, is_amount, unit_of
from .sheets import Sheet
from .vocabulary import (
    AMOUNTS,
    ARC_COLUMNS,
    BESIDES,
    BOTH_WAYS,
    BY_TRADE,
    CHANCES,
    CLOSED,
    COLUMNS,
    COSTLY,
    EARNINGS,
    ENDS,
    EXTRAS,
    FIXED,
    HARMLESS,
    LABELLING,
    LABELS,
    LIMITING,
    LOSSES,
    LOTS,
    NO_SLIPS,
    MUSTS,
    OF_ASSIGNMENTS,
    OWN,
    OWN_OF_NODES,
    PARTS,
    PERIODS,
    QUANTITIES,
    RANGING,
    REPEATS,
    SCALES,
    SHARES,
    STAND_INS,
    SWITCHES,
    THROUGHPUT,
    TIERS,
    TWO_WAYS,
    WORDY,
)


MOST_TOLD = 12
"""So many columns that are left aside are named at most."""


AMOUNT_COLUMNS = ("supply", "demand", "low", "capacity")

SHORT = ("a", "de")
"""Words for the ends of arcs that may as well be the name of a node."""

MOST_LETTERS = 30
"""A cell of more letters is a sentence, and not one word of a list."""


class Match(NamedTuple):
    """What the name of a column says: the thing that the column holds, and in which unit."""

    what: str
    unit: Optional[Unit]
    stands_in: bool = False


@dataclass
class Found:
    """Which columns of a sheet hold what. `names` are the columns that may have the names of the nodes, where more than
    one may. `told` are the things that were said for columns, by their places, and `unknown` the places of columns that
    say nothing that is understood. `is_plan` says that mcf-plan wrote the table."""

    places: Dict[str, int] = field(default_factory=dict)
    units: Dict[str, Unit] = field(default_factory=dict)
    names: List[int] = field(default_factory=list)
    told: Dict[int, str] = field(default_factory=dict)
    unknown: List[int] = field(default_factory=list)
    is_plan: bool = False


def folded(text: str) -> str:
    """A name of a column without what makes no difference: letters' size, accents, and what parts its words.

    >>> folded("Unit_Cost"), folded("unitCost"), folded("Kapazität")
    ('unit cost', 'unit cost', 'kapazitat')
    """
    text = re.sub(r"(?<=[a-zß-ÿ])(?=[A-Z][a-zß-ÿ])", " ", text)
    bare = "".join(c for c in unicodedata.normalize("NFKD", text.casefold()) if not unicodedata.combining(c))
    return " ".join(re.sub(r"[\s_\-.:/?!*]+", " ", bare.replace("œ", "oe")).split())


def _words_of(table: Mapping[str, Sequence[str]]) -> Dict[str, List[str]]:
    """The things that a word may stand for, by the word; an umlaut may be written with an e."""
    found: Dict[str, List[str]] = {}
    for what, names in table.items():
        for name in names:
            spelled = name
            for letter, pair in (("ä", "ae"), ("ö", "oe"), ("ü", "ue")):
                spelled = spelled.replace(letter, pair)
            for word in dict.fromkeys((folded(name), folded(spelled))):
                found.setdefault(word, [])
                if what not in found[word]:
                    found[word].append(what)
    return found


_WORDS, _STAND_INS, _OF_ASSIGNMENTS = _words_of(COLUMNS), _words_of(STAND_INS), _words_of(OF_ASSIGNMENTS)
_BY_TRADE = _words_of(BY_TRADE)
_SPELLED = {folded(name): name for names in COLUMNS.values() for name in names}
# Single words that a longer name may not have without being looked at; short ones, such as `de` or `a`, are in many.
_TELLING = {word: things for word, things in _WORDS.items() if " " not in word and len(word) >= 3}
_TELLING.update({word: ["cost"] for word in COSTLY})
_TELLING.update({word: ["capacity"] for word in LIMITING})


def find_columns(
    sheet: Sheet,
    kinds: Sequence[str],
    chosen: Mapping[str, Sequence[str]],
    *,
    unused: Collection[str] = (),
    beside_plan: bool = False,
    is_assignment: bool = False,
) -> Found:
    """Which column holds which of the things `kinds`. Notes of what was chosen are added to the sheet.

    `chosen` are names of columns that were said, for a thing or for 'aside'. Columns of things that are `unused` are
    left aside. `beside_plan` says that the other table is a plan that mcf-plan wrote, `is_assignment` that the arcs are
    those of an assignment.
    Raises TableFault where a column that looks like one that matters is not understood, and where two are the same
    thing.
    """
    told = _told(sheet, kinds, chosen)
    found = Found(told=dict(told))
    if "cost" in kinds:
        own = _own_columns(sheet, {*told.values(), *unused})
    else:
        own = _own_columns_of_nodes(sheet) if beside_plan else set()
    found.is_plan = bool(own)
    told.update(dict.fromkeys(own - told.keys(), "aside"))
    matches, unknown, aside = _matched(sheet, kinds, told, unused)
    if "from" in kinds:
        _match_ends(sheet, matches, unknown, is_assignment)
    found.unknown = unknown
    if not matches and not (sheet.index and "node" in kinds):
        raise TableFault(
            f"{sheet.name}: no column is understood; the names of the columns come first, and here they are "
            f"{sheet.its_columns()}; take out what stands above them, or name one that is called otherwise by "
            f"`--columns {kinds[0]}=NAME`"
        )
    for what, its in matches.items():
        aside += _choose(sheet, what, its, found)
    for place in unknown:
        if place == 0 and not sheet.header[0] and "node" in kinds and "node" not in matches:
            continue  # It may have the names of the nodes.
        _check_unknown(sheet, place, [what for what in kinds if what not in unused], matches)
        aside.append(place)
    _check_periods(sheet, unknown)
    blank = sheet.blank_columns(unknown)
    aside = [place for place in aside if place not in blank]
    compare_units([(what, unit, sheet, sheet.header[found.places[what]]) for what, unit in found.units.items()])
    if aside:
        _tell_aside(sheet, aside)
    return found


def _matched(
    sheet: Sheet, kinds: Sequence[str], told: Mapping[int, str], unused: Collection[str]
) -> Tuple[Dict[str, List[Tuple[int, Match]]], List[int], List[int]]:
    """The columns that match each thing, those that match nothing, and those that are left aside, by their places."""
    matches: Dict[str, List[Tuple[int, Match]]] = {}
    unknown: List[int] = []
    aside: List[int] = []
    for place, header in enumerate(sheet.header):
        said = told.get(place)
        if said == "aside" or said in unused:
            aside.append(place)
            continue
        match = match_of(header, kinds if said is None else [said])
        if said is not None:
            matches.setdefault(said, []).append((place, match or Match(said, None)))
        elif match is None:
            unknown.append(place)
        elif match.what in told.values() or match.what in unused:
            aside.append(place)
        else:
            matches.setdefault(match.what, []).append((place, match))
    return matches, unknown, aside


def _match_ends(
    sheet: Sheet, matches: Dict[str, List[Tuple[int, Match]]], unknown: List[int], is_assignment: bool
) -> None:
    """Takes columns such as `plant` and `customer` for ends of arcs that no column names, where there is one way alone.
    Where both ends of an assignment stand there twice, as `person` beside `from`, all of them match."""
    missing = [what for what in ("from", "to") if what not in matches]
    if is_assignment and not missing:
        people = {what: place for place in unknown for what in _OF_ASSIGNMENTS.get(folded(sheet.header[place]), ())}
        for what, place in people.items() if len(people) == 2 else ():
            matches[what].append((place, Match(what, None)))
            unknown.remove(place)
        return
    ends: Dict[int, Set[str]] = {}
    for place in unknown:
        name = folded(sheet.header[place])
        words = [*_BY_TRADE.get(name, ()), *(_OF_ASSIGNMENTS.get(name, ()) if is_assignment else ())]
        if words:
            ends[place] = {"from", "to"} if "" in words else set(words)
    if len(ends) != len(missing):
        return
    ways = [way for way in permutations(missing) if all(what in ends[place] for what, place in zip(way, ends))]
    for what, place in zip(ways[0], ends) if len(ways) == 1 else ():
        matches[what] = [(place, Match(what, None, True))]
        unknown.remove(place)


def _tell_aside(sheet: Sheet, aside: Sequence[int]) -> None:
    """Notes which columns are left aside."""
    names = [repr(sheet.header[place]) for place in sorted(aside) if sheet.header[place]]
    if len(names) < len(aside):
        names.append("one without a name")
    if len(names) > MOST_TOLD:
        names[MOST_TOLD - 1 :] = [f"{len(names) - MOST_TOLD + 1} more"]
    if len(aside) == 1:
        what = f"the column {names[0]} is" if sheet.header[aside[0]] else "the column without a name is"
    elif len(names) == 1:
        what = "columns without a name are"
    else:
        what = f"the columns {', '.join(names[:-1])} and {names[-1]} are"
    sheet.notes.append(f"{sheet.name}: {what} left aside")


def _told(sheet: Sheet, kinds: Sequence[str], chosen: Mapping[str, Sequence[str]]) -> Dict[int, str]:
    """The things that were said for columns, by their places. A column that is said to be left aside, and to be a thing
    too, is that thing: the other table may have one of its name."""
    told: Dict[int, str] = {}
    for what, names in sorted(chosen.items(), key=lambda pair: pair[0] != "aside"):
        if what not in kinds and what != "aside":
            continue
        for name in names:
            places = [place for place, header in enumerate(sheet.header) if header.strip() == name.strip()]
            places = places or [place for place, header in enumerate(sheet.header) if folded(header) == folded(name)]
            for place in places:
                other = told.get(place, "aside")
                if what != "aside" != other and what != other:
                    raise TableFault(
                        f"{sheet.name}: the column {sheet.header[place]!r} is said to be {called(other)} and "
                        f"{called(what)}; give the table with a column for each"
                    )
            if not places and what != "aside":
                raise TableFault(f"{sheet.name}: there is no column {name!r}; its columns are {sheet.its_columns()}")
            told.update(dict.fromkeys(places, what))
    return told


def _own_columns(sheet: Sheet, said: Collection[str]) -> Set[int]:
    """The places of the columns that mcf-plan added to a table of arcs, where it wrote a plan as one; none elsewhere.

    Raises TableFault where the costs of units were taken out of such a table, and nothing is `said` of costs: what is
    left as `cost` is what flows cost.
    """
    places = {folded(header): place for place, header in enumerate(sheet.header)}
    for unit_cost, added in OWN:
        if places.keys() >= {unit_cost, *added}:
            own = {places[name] for name in (*added, "one more costs") if name in places}
            # Where arcs have no names, the index of a frame counts them.
            if "arc" in places and list(map(str, sheet.columns[places["arc"]])) == list(
                map(str, range(len(sheet.lines)))
            ):
                own.add(places["arc"])
            return own
    if places.keys() >= {"flow", "cost", "is full"} and "cost" not in said:
        raise TableFault(
            f"{sheet.name}: the columns 'flow' and 'is full' are those of a plan, and 'cost' may be what a unit costs or "
            "what the flow does; `--columns cost=cost` says that it is what a unit costs"
        )
    return set()


def _own_columns_of_nodes(sheet: Sheet) -> Set[int]:
    """The places of the columns that `Plan.nodes_to_frame` adds to names and supplies; none where this is no such
    table. Its prices are 0 or below, and a node's price that somebody else wrote would rather be above."""
    places = {folded(header): place for place, header in enumerate(sheet.header)}
    if "price" not in places or not places.keys() <= {"", "node", "supply", *OWN_OF_NODES}:
        return set()
    for cell in sheet.columns[places["price"]]:
        if not is_empty(cell) and not re.fullmatch(r"-.*|0([.,]0*)?", str(cell).strip()):
            return set()
    return {places[name] for name in OWN_OF_NODES if name in places}


def match_of(header: str, kinds: Sequence[str]) -> Optional[Match]:
    """What the name of a column says, among the things `kinds`; None where it says nothing that is understood.

    >>> match_of("Cost (EUR/t)", ["cost"]).what, match_of("capacty", ["capacity"])
    ('cost', None)
    """
    for words, stands_in in ((_WORDS, False), (_STAND_INS, True)):
        for what in words.get(folded(header), ()):
            if what in kinds:
                return Match(what, None, stands_in)
        for base, behind in _parted(header):
            for what in words.get(folded(base), ()):
                unit = unit_of(behind) if what in kinds and what not in LABELS and what != "node" else None
                if unit is not None:
                    unit = unit.of_cost(is_named=not stands_in) if what == "cost" else unit.of_amount()
                if unit is not None:
                    return Match(what, unit, stands_in)
    return _amount_of(header, kinds)


def _amount_of(header: str, kinds: Sequence[str]) -> Optional[Match]:
    """What the name of a column of amounts says that has a word for amounts, or their unit, beside one that is known, as
    `max. quantity`, `Supply qty (t)` or `units available`."""
    for base, behind in [(header, ""), *_parted(header)]:
        tokens = folded(base).split()
        rest = " ".join(token for token in tokens if token not in QUANTITIES)
        unit = unit_of(behind)
        if len(tokens) > 1 and unit_of(tokens[0]) is not None and is_amount(tokens[0]) and not behind:
            rest, unit = " ".join(tokens[1:]), unit_of(tokens[0])
        if not rest or rest == folded(header) or behind and unit is None:
            continue
        for what in _WORDS.get(rest, ()):
            if what in kinds and what in AMOUNT_COLUMNS and (unit is None or unit.of_amount() is not None):
                return Match(what, unit)
    return None


def words_for(*things: str) -> Set[str]:
    """The words for columns of these things, without those that are short or have another meaning too."""
    return {folded(word) for what in things for word in COLUMNS[what]} - {"source", "end", *SHORT}


def says(sheet: Sheet, what: str) -> bool:
    """Whether the name of a column says this."""
    return any(match_of(header, [what]) for header in sheet.header)


def is_of_list(header: str) -> bool:
    """Whether the name of a column is one of those that a list of arcs has; by itself `A` is none."""
    name = folded(header)
    is_known = name in _OF_ASSIGNMENTS or name in _BY_TRADE or match_of(header, ARC_COLUMNS) is not None
    return is_known and name not in SHORT


def _parted(header: str) -> List[Tuple[str, str]]:
    """The ways to part the name of a column from a unit behind it."""
    bracket = re.fullmatch(r"(.*?)\s*[(\[{]([^()\[\]{}]*)[)\]}]\s*", header)
    if bracket:
        return [(bracket[1], bracket[2])]
    cuts = [found for found in re.finditer(r"[\s_\-.:,/]+", header)]
    return [(header[: cut.start()], header[cut.start() :].lstrip(" _-.:,")) for cut in cuts if 0 < cut.start()]


def _choose(sheet: Sheet, what: str, its: List[Tuple[int, Match]], found: Found) -> List[int]:
    """Takes one of the columns that match a thing, and returns those that are left aside."""
    strong = [place for place, match in its if not match.stands_in]
    rivals = strong or [place for place, _ in its]
    if what == "node" and len(rivals) > 1:
        found.names = rivals
        return [place for place, _ in its if place not in rivals]
    if what in LABELS:
        words = [folded(word) for word in COLUMNS[what]]
        rivals.sort(
            key=lambda place: words.index(folded(sheet.header[place])) if folded(sheet.header[place]) in words else 99
        )
    elif len(rivals) > 1:
        names = " and ".join(repr(sheet.header[place]) for place in rivals)
        choice = f"say `--columns {what}=NAME` for the one that counts, or give the table without the others"
        if len({folded(sheet.header[place]) for place in rivals}) < len(rivals):
            choice = "give the table with one of them alone"
        raise TableFault(f"{sheet.name}: the columns {names} both look like {called(what)}; {choice}")
    place = rivals[0]
    found.places[what] = place
    match = dict(its)[place]
    header = sheet.header[place]
    if match.unit is not None:
        found.units[what] = match.unit
        sheet.notes.append(f"{sheet.name}: the column {header!r} is {called(what)}, {match.unit.told}")
    elif match.stands_in or folded(header) == "min" and "max" not in map(folded, sheet.header):
        # By itself `min` may be minutes.
        sheet.notes.append(f"{sheet.name}: the column {header!r} is taken as {called(what)}")
    return [other for other, _ in its if other != place]


CALLED = {
    "node": "the name of the node",
    "supply": "the supply",
    "demand": "the demand",
    "from": "the node that an arc leaves",
    "to": "the node that an arc leads to",
    "low": "the lower bound",
    "capacity": "the capacity",
    "cost": "the cost of a unit",
    "x": "the place to the east",
    "y": "the place to the north",
    "name": "the name of the arc",
}


def called(what: str) -> str:
    """A thing in words."""
    return CALLED[what]


# ---------------------------------------------------------------- columns that are not understood


def _cells_of(sheet: Sheet, place: int) -> Set[str]:
    """The different texts in the cells of a column, without those in which nothing stands."""
    held: Iterable[Any] = sheet.columns[place]
    with suppress(TypeError):
        held = set(held)  # Most columns repeat their cells.
    return {str(cell) for cell in held if not is_blank(cell)}


def _check_unknown(sheet: Sheet, place: int, kinds: Sequence[str], taken: Collection[str]) -> None:
    """Raises TableFault where a column that matches nothing looks like one that matters."""
    header = sheet.header[place]
    name = folded(header)
    if name in WORDY:
        _check_words(sheet, place, kinds)
    if not name or name in HARMLESS:
        return
    # Where the ends of an arc and the name of a node are known, other columns may have words like theirs.
    open_kinds = [what for what in kinds if what not in LABELS and not (what in taken and what in ENDS)]
    why = _why_it_matters(sheet, place, (kinds, open_kinds))
    if why and "supply" in kinds and {"supply", "demand"}.isdisjoint(taken) and match_of(header, ["capacity"]):
        why += f"; `--columns supply={quoted(header)}` says that it is the supply"
    if not why and "cost" in kinds and _is_money(header):
        none = "" if "cost" in taken else ", which no other column is"
        why = f"it may be the cost of a unit{none}; `--columns cost={quoted(header)}` says so"
    if not why and "capacity" in kinds and "capacity" not in taken and _may_be_capacity(sheet, place):
        why = f"it may be the capacity, which no other column is; `--columns capacity={quoted(header)}` says so"
    if why:
        raise TableFault(
            f"{sheet.name}: the column {header!r} is not understood: {why}; `--columns aside={quoted(header)}` leaves "
            "it aside"
        )


_PERIOD = re.compile(r"(q|w|kw|t|s|trim|sem|week|woche|day|tag|month|monat|period|periode)?\s*\d{1,4}(\s\d{1,4}){0,2}")


def _is_period(header: str) -> bool:
    """Whether the name of a column is that of a time, as `Jan`, `March 2026`, `Q1`, `KW 12` or `2026-01`."""
    name = folded(header)
    rest = [token for token in name.split() if token not in PERIODS]
    return bool(name) and (
        all(map(str.isdigit, rest)) if len(rest) < len(name.split()) else bool(_PERIOD.fullmatch(name))
    )


def _check_periods(sheet: Sheet, unknown: Sequence[int]) -> None:
    """Raises TableFault where numbers stand in two columns or more that are called like times."""
    places = [place for place in unknown if _is_period(sheet.header[place]) and _may_count(_cells_of(sheet, place))]
    if len(places) < 2:
        return
    names = [sheet.header[place] for place in places]
    aside = " ".join(f"--columns aside={quoted(name)}" for name in names[:2]) + " .." * (len(names) > 2)
    raise TableFault(
        f"{sheet.name}: the columns {some(names)} look like times, with numbers for each: all rows are one problem; give "
        f"those of one plan alone; `{aside}` leaves them aside"
    )


def _check_words(sheet: Sheet, place: int, kinds: Sequence[str]) -> None:
    """Raises TableFault where a cell of a column of remarks says that its row does not count, or counts both ways."""
    rows: Dict[str, int] = {}
    for row, cell in enumerate(sheet.columns[place]):
        if isinstance(cell, str) and len(cell) <= MOST_LETTERS:
            rows.setdefault(cell, row)
    for cell, row in rows.items():
        word = folded(cell)
        if word in CLOSED or word in BOTH_WAYS and "from" in kinds:
            why = (
                "each row counts: give the table without those that do not"
                if word in CLOSED
                else "an arc leads from `from` to `to` alone: give the way back a row of its own"
            )
            aside = f"`--columns aside={quoted(sheet.header[place])}` leaves the column aside"
            raise sheet.fault(row, place, f"{why}; {aside}")


def _is_money(header: str) -> bool:
    """Whether a unit of money alone is the name of a column, as EUR/t."""
    unit = unit_of(header)
    return unit is not None and unit.is_money and len(header.strip()) > 1


def _is_rent(header: str) -> bool:
    """Whether the name of a column says that it is paid for a time, as `cost (EUR/month)`."""
    units = (unit_of(behind) for base, behind in _parted(header) if "cost" in _WORDS.get(folded(base), ()))
    return any(unit is not None and unit.is_for_a_time for unit in units)


def quoted(name: str) -> str:
    """A name as a shell takes it."""
    return name if re.fullmatch(r"[\w.-]+", name) else "'" + name.replace("'", "'\\''") + "'"


def _why_it_matters(sheet: Sheet, place: int, kinds: Tuple[Sequence[str], Sequence[str]]) -> str:
    """Why a column may matter to the plan, in words; '' where nothing speaks for it. `kinds` are the things of the
    table, and those that the column may be."""
    of_table, open_kinds = kinds
    header = sheet.header[place]
    name = folded(header)
    tokens = {*name.split(), name, name.replace(" ", "")}
    elsewhere = _of_other_table(tokens, header, of_table)
    if elsewhere:
        return elsewhere
    if "from" in of_table and tokens & TWO_WAYS:
        return "an arc leads from `from` to `to` alone; give the way back a row of its own"
    if "from" in of_table and tokens & LOSSES:
        return "what enters an arc leaves it whole, nothing is lost or gained on the way"
    if "cost" in of_table and tokens & FIXED:
        return "what is paid once, however much flows, can't be said: a cost is that of a unit"
    if "low" in of_table and tokens & MUSTS:
        return "what has to be used has a lower bound: write it under `low`"
    of_numbers = _why_numbers_matter(sheet, place, of_table)
    if of_numbers:
        return of_numbers
    if "cost" in open_kinds and _is_rent(header):
        return (
            "what is paid for a time, however much flows, can't be said; if it is what a unit costs, "
            f"`--columns cost={quoted(header)}` says so"
        )
    if tokens & SWITCHES and not telling(name, open_kinds):
        return "each row counts; give the table without those that do not"
    # Where no column has the names of nodes, that is the first thing to be told.
    is_named = not (set(ENDS) & set(open_kinds)) or not sheet.header[0]
    if tokens & PARTS and is_named and len(_cells_of(sheet, place)) > 1:
        return "all rows are one problem; give those of one plan alone"
    if tokens & BESIDES and _may_count(_cells_of(sheet, place) - {"0"}):
        amount = "a capacity" if "capacity" in of_table else "a supply"
        return f"it may change {amount}, or say which rows count: work it into the table"
    if "cost" in of_table and name in SCALES and _cells_of(sheet, place) - {"1"}:
        return "a cost is that of one unit: bring costs that are for many to one"
    is_range = tokens & TIERS or tokens & RANGING and tokens & AMOUNTS
    if "cost" in of_table and is_range and len(_cells_of(sheet, place)) > 1:
        return "a cost that rises with the amount takes an arc for each range, with its room as capacity; none can fall"
    if "cost" in of_table and tokens & EARNINGS:
        return "what a unit earns is a cost below 0: take it off the cost"
    near = None if tokens & (PARTS | NO_SLIPS) else _near(name, header, open_kinds)
    if near:
        return f"did you mean {near[0]!r}? `--columns {near[1]}={quoted(header)}` says so"
    what = telling(name, open_kinds)
    return f"it looks like {called(what)}; `--columns {what}={quoted(header)}` says so" if what else ""


def _why_numbers_matter(sheet: Sheet, place: int, kinds: Sequence[str]) -> str:
    """Why a column may matter that has numbers other than 1 alone; '' where nothing speaks for it."""
    header = sheet.header[place]
    tokens = {*folded(header).split(), folded(header).replace(" ", "")}
    words = LOTS | REPEATS | CHANCES | SHARES | EXTRAS
    if (
        tokens & LABELLING
        or not tokens & words
        and "%" not in header
        or not _are_numbers(_cells_of(sheet, place) - {"1"})
    ):
        return ""
    if tokens & LOTS:
        return "amounts go in any steps, and from nothing on: that they go in lots, or not at all, can't be said"
    if tokens & CHANCES:
        return "each row counts whole: that it is there with some probability can't be said"
    if tokens & SHARES or "%" in header:
        return "a part of something else can't be said: work it into the amounts and costs"
    if "capacity" in kinds and tokens & REPEATS:
        return "it may say how many times a capacity is there: work it into the capacity"
    if "cost" in kinds and tokens & EXTRAS:
        return (
            "it may be a part of what a unit costs: add it to the cost; "
            f"`--columns cost={quoted(header)}` says that it is all of it"
        )
    return ""


def _of_other_table(tokens: Collection[str], header: str, kinds: Sequence[str]) -> str:
    """Why a column matters that belongs in the other table."""
    things = {what for token in tokens for what in _WORDS.get(token, ())}
    if "from" in kinds and things & {"supply", "demand"}:
        return "supplies and demands stand in the table of nodes, with a row for each node"
    if "node" in kinds:
        if not THROUGHPUT.isdisjoint(tokens):
            things.add("capacity")
        if not (COSTLY | EARNINGS).isdisjoint(tokens) or _is_money(header):
            things.add("cost")
        for what in ("low", "capacity", "cost"):
            if what in things:
                return f"{called(what)} belongs to an arc; a node that has one is parted in two, with an arc between"
    return ""


def telling(name: str, kinds: Sequence[str]) -> Optional[str]:
    """The thing that a name of several words, or a long word, may be, by a known word in it."""
    for word, things in _TELLING.items():
        if _has_word(name, word, 6):
            for what in things:
                if what in kinds:
                    return what
    return None


def _has_word(name: str, word: str, least: int) -> bool:
    """Whether a word is one of a name's words, or a part of one where it has so many letters at least."""
    return word in name.split() or len(word) >= least and word in name.replace(" ", "")


def _may_count(cells: Collection[str]) -> bool:
    """Whether there are cells, and each has a number, or says yes or no."""
    return bool(cells) and all(
        re.match(r"\s*[+-]?[.,]?\d", cell) or cell.strip().lower() in YES_OR_NO | {"x"} for cell in cells
    )


def _are_numbers(cells: Collection[str]) -> bool:
    """Whether there are cells, and each has a number."""
    return bool(cells) and all(re.match(r"\s*[+-]?[.,]?\d", cell) for cell in cells)


def _may_be_capacity(sheet: Sheet, place: int) -> bool:
    """Whether a column has numbers, and a word of amounts or their unit over them."""
    header = sheet.header[place]
    name = folded(header)
    if not is_amount(header) and not any(_has_word(name, word, 5) for word in AMOUNTS):
        return False
    cells = _cells_of(sheet, place)
    are_numbers = all(re.match(r"\s*[+-]?[.,]?\d", cell) or cell.strip().lower() in NO_LIMIT for cell in cells)
    return bool(cells) and are_numbers


def _near(name: str, header: str, kinds: Sequence[str]) -> Optional[Tuple[str, str]]:
    """A known name that this one may be a slip of the pen for, or short for, and the thing that it stands for."""
    best: Optional[Tuple[int, str, str]] = None
    shortest = 3 if header.rstrip().endswith(".") else 4
    for word, things in _WORDS.items():
        what = next((thing for thing in things if thing in kinds), None)
        if what is None:
            continue
        most = 0 if min(len(word), len(name)) < 4 else 1 if len(word) < 7 else 2
        if len(name) >= shortest and word.startswith(name) and " " not in word and len(word) <= len(name) + 5:
            away = 1
        elif most and abs(len(word) - len(name)) <= most:
            away = distance(name, word)
        else:
            continue
        if away <= max(most, 1) and (best is None or away < best[0]):
            best = away, word, what
    return None if best is None else (_SPELLED.get(best[1], best[1]), best[2])


def distance(one: str, other: str) -> int:
    """How many letters have to be put in, left out, exchanged or swapped with the next to make one of the other.

    >>> distance("capacty", "capacity"), distance("form", "from")
    (1, 1)
    """
    before: List[int] = []
    row = list(range(len(other) + 1))
    for i, letter in enumerate(one, 1):
        last, before, row = before, row, [i]
        for j, their in enumerate(other, 1):
            least = min(before[j] + 1, row[j - 1] + 1, before[j - 1] + (letter != their))
            if i > 1 and j > 1 and letter == other[j - 2] and one[i - 2] == their:
                least = min(least, last[j - 2] + 1)
            row.append(least)
    return row[-1]


def compare_units(units: Sequence[Tuple[str, Unit, Sheet, str]], *, are_all: bool = False) -> None:
    """Raises TableFault where amounts have different units, or costs are for another unit than that of the amounts; where
    `are_all` the units there are, also where costs are for many units and the amounts have no unit. Each unit stands
    with what has it, and where."""
    amounts = [each for what in AMOUNT_COLUMNS for each in units if each[0] == what]
    for (_, unit, sheet, header), (_, other, their_sheet, theirs) in zip(amounts, amounts[1:]):
        if not unit.agrees(other):
            raise TableFault(
                f"{sheet.name}, column {header!r}, is {unit.told}, and {their_sheet.name}, column {theirs!r}, "
                f"{other.told}: bring all amounts to one unit"
            )
    for _, unit, sheet, header in (each for each in units if each[0] == "cost"):
        if are_all and not amounts and unit.is_of_many:
            raise TableFault(
                f"{sheet.name}, column {header!r}, is {unit.told}, and no amount has a unit: bring costs and amounts to "
                "one unit"
            )
        for _, other, their_sheet, theirs in amounts:
            if not unit.is_per(other):
                raise TableFault(
                    f"{sheet.name}, column {header!r}, is {unit.told}, and {their_sheet.name}, column {theirs!r}, "
                    f"{other.told}: bring costs and amounts to one unit"
                )
