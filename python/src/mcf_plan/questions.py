"""The commands `ranges` and `sweep`: what a plan depends on, and one number over several values."""

from __future__ import annotations

import argparse
import json
import re
import shlex
import sys
import unicodedata
from decimal import Decimal
from pathlib import Path
from typing import Any, Dict, List, Optional, Tuple

from .deadline import lift_alarm
from .explain import MOST_TOLD
from .formats import counted
from .outputs import write_text
from .plan import Infeasible, Plan
from .printing import print_table, say
from .problem import WIDE, Problem, SeveralArcs, exact, plain
from .progress import Progress
from .report import json_text, to_json
from .sensitivity import Ranges, SupplyPrice, ranges, supply_prices
from .session import Session
from .sweep import Point, What, points, row_of_values
from .tables import check_kept, check_output, write_table

OF_ARC = {"cap": "capacity", "low": "lower bound", "cost": "cost"}


def arc_of(problem: Problem, words: str) -> int:
    """The number of the arc that words name, as `named_arc` has it. Raises ValueError where there is none, or more than
    one."""
    try:
        return named_arc(problem, words)
    except SeveralArcs as several:
        raise ValueError(which(several)) from None
    except KeyError as error:
        raise ValueError(error.args[0]) from None


def which(several: SeveralArcs) -> str:
    """What to say of several arcs that are called alike: the numbers of the first."""
    told = [f"#{number + 1}" for number in several.numbers[:MOST_TOLD]]
    return f"{several.args[0]}: they are {', '.join(told)}" + ", .." * (len(several.numbers) > MOST_TOLD)


def named_arc(problem: Problem, words: str) -> int:
    """The number of the arc that words name: its name, `TAIL to HEAD`, its two ends, or #K for the K-th.

    Raises KeyError where there is none, and SeveralArcs, which is one too, where there are more.

    >>> problem = Problem()
    >>> problem.add_arc("Bad Aibling", "Ulm", name="B 10")
    0
    >>> [named_arc(problem, words) for words in ("B 10", "Bad Aibling to Ulm", "'Bad Aibling' Ulm", "#1")]
    [0, 0, 0, 0]
    """
    words = unicodedata.normalize("NFC", words)  # as the names of tables
    parts: List[str] = []
    try:
        try:
            return problem.find_arc(words)
        except SeveralArcs:
            raise
        except KeyError:
            parts = _parts_of(words)
            if len(parts) == 1 and parts[0].startswith("#") and parts[0][1:].isdecimal():
                number = int(parts[0][1:])
                if not 1 <= number <= len(problem.arcs):
                    raise KeyError(f"there is no arc {parts[0]} among {counted(len(problem.arcs), 'arc')}") from None
                return number - 1
            if len(parts) == 3 and parts[1] == "to":
                del parts[1]
            if len(parts) == 2:
                return problem.find_arc((parts[0], parts[1]))
            if len(parts) == 1:
                return problem.find_arc(parts[0])
            raise
    except SeveralArcs:
        raise
    except KeyError as error:
        quoted = "" if len(parts) < 3 else "; names with blanks stand in quotes, as in '\"Bad Aibling\" Ulm'"
        # A name with a blank in it is no two ends for who wrote it.
        missing = f"there is no arc {words}" if len(parts) == 2 else error.args[0]
        raise KeyError(f"{missing}{quoted}") from None


def _parts_of(words: str) -> List[str]:
    """The words by which an arc is named. Raises ValueError where a quotation mark is not closed."""
    try:
        return shlex.split(words)
    except ValueError:
        raise ValueError(f"a quotation mark or a backslash stands alone in {words}") from None


def node_of(problem: Problem, name: str) -> str:
    """The node of a name. Raises ValueError where there is none."""
    name = unicodedata.normalize("NFC", name)
    if name not in problem.nodes:
        raise ValueError(f"there is no node {name}")
    return name


# ---------------------------------------------------------------- ranges


def add_ranges(parser: argparse.ArgumentParser) -> None:
    """The options of `ranges`."""
    parser.add_argument(
        "--only",
        metavar="ARC",
        action="append",
        help="tell of this arc alone: its name, its two ends, or #K for the K-th; may be given several times",
    )
    parser.add_argument(
        "--supplies",
        action="store_true",
        help="tell of nodes in place of arcs: what one unit more of supply costs, and one unit less",
    )
    parser.add_argument(
        "--beside", metavar="NODE", help="with --supplies: the node whose supply changes as much the other way"
    )
    parser.add_argument("--json", action="store_true", help="print them as JSON")


def run_ranges(options: argparse.Namespace, problem: Problem) -> bool:
    """Runs `ranges`; whether there is a plan."""
    if options.supplies and options.only is not None:
        raise ValueError("--only names arcs, and --supplies tells of nodes: say one of them")
    if options.beside is not None and not options.supplies:
        raise ValueError("--beside belongs to --supplies")
    only = None if options.only is None else [arc_of(problem, words) for words in options.only]
    beside = None if options.beside is None else node_of(problem, options.beside)
    with Session(problem, surplus=options.surplus) as session, Progress() as progress:

        def step(done: int, total: int) -> None:
            progress.now(f"looking for the ranges: {done:,} of {total:,}")

        progress.now("checking the plan")
        plan = session.plan(True)
        arcs: List[Ranges] = []
        nodes: List[SupplyPrice] = []
        if isinstance(plan, Plan) and options.supplies:
            nodes = supply_prices(session, beside, step=step, plan=plan)
        elif isinstance(plan, Plan):
            arcs = ranges(session, only, step=step, plan=plan)
    lift_alarm()
    if isinstance(plan, Infeasible):
        if options.json:
            sys.stdout.write(to_json(plan))
        else:
            say(plan.explain(), sys.stdout)
        return False
    if options.json:
        sys.stdout.write(_ranges_json(plan, arcs, nodes if options.supplies else None))
        return True
    print(f"{'flow' if problem.kind == 'max' else 'cost'} {plain(plan.cost)}")
    if options.supplies:
        print_table(_supply_rows(problem, nodes), 1, sys.stdout)
    else:
        print_table(_range_rows(plan, arcs), 3, sys.stdout)
    return True


def _ranges_json(plan: Plan, arcs: List[Ranges], nodes: Optional[List[SupplyPrice]]) -> str:
    """The figures as JSON: those of nodes where they are given, else those of arcs; numbers are texts.

    A node: node, supply, one_more_costs, one_less_costs; null where there would be no plan. An arc: from, to, name,
    flow, one_more_saves (in `max` one_more_adds), unit_cost, least_cost, greatest_cost, capacity, least_capacity,
    greatest_capacity; null is no end, and what has no meaning in the kind of the problem is left out.
    """
    problem = plan.problem
    told: Dict[str, Any] = {"kind": problem.kind, "feasible": True, "cost": plain(plan.cost)}
    if nodes is not None:
        told["nodes"] = [
            {
                "node": found.node,
                "supply": plain(problem.nodes[found.node]),
                "one_more_costs": _text(found.one_more),
                "one_less_costs": _text(found.one_less),
            }
            for found in nodes
        ]
    else:
        told["arcs"] = [_range_fields(plan, found) for found in arcs]
    told["notes"] = list(plan.notes)
    return json_text(told)


def _range_fields(plan: Plan, found: Ranges) -> Dict[str, Optional[str]]:
    """What is told of an arc; without what has no meaning in the kind of the problem."""
    arc, kind = plan.problem.arcs[found.arc], plan.problem.kind
    fields = {"from": arc.tail, "to": arc.head, "name": arc.name, "flow": plain(plan.flows[found.arc])}
    if kind != "asn":
        fields["one_more_adds" if kind == "max" else "one_more_saves"] = plain(found.saves)
    if kind != "max":
        fields["unit_cost"] = plain(arc.cost)
        fields.update(least_cost=_text(found.least_cost), greatest_cost=_text(found.greatest_cost))
    if kind != "asn":
        fields["capacity"] = _text(arc.cap)
        fields.update(least_capacity=_text(found.least_cap), greatest_capacity=_text(found.greatest_cap))
    return fields


def _text(number: Optional[Decimal]) -> Optional[str]:
    """A number as JSON has it here: a text, so that no program rounds it."""
    return None if number is None else plain(number)


def _range_rows(plan: Plan, told: List[Ranges]) -> List[List[str]]:
    """The table of arcs; without what has no meaning in the kind of the problem."""
    kind = plan.problem.kind
    heads = ["from", "to", "name", "flow"]
    if kind != "asn":
        heads.append("one more adds" if kind == "max" else "one more saves")
    if kind != "max":
        heads += ["cost", "best from", "to"]
    if kind != "asn":
        heads += ["capacity", "best from", "to"]
    rows = [heads]
    for found in told:
        arc = plan.problem.arcs[found.arc]
        row = [arc.tail, arc.head, arc.name or "", plain(plan.flows[found.arc])]
        if kind != "asn":
            row.append(plain(found.saves))
        if kind != "max":
            row += [plain(arc.cost), _end(found.least_cost), _end(found.greatest_cost)]
        if kind != "asn":
            row += [_end(arc.cap), _end(found.least_cap), _end(found.greatest_cap)]
        rows.append(row)
    return rows


def _end(number: Optional[Decimal]) -> str:
    """An end of a range."""
    return "any" if number is None else plain(number)


def _supply_rows(problem: Problem, told: List[SupplyPrice]) -> List[List[str]]:
    """The table of nodes."""
    rows = [["node", "supply", "one more costs", "one less costs"]]
    for found in told:
        prices = ["no plan" if price is None else plain(price) for price in (found.one_more, found.one_less)]
        rows.append([found.node, plain(problem.nodes[found.node]), *prices])
    return rows


# ---------------------------------------------------------------- sweep


def add_sweep(parser: argparse.ArgumentParser) -> None:
    """The options of `sweep`."""
    what = parser.add_mutually_exclusive_group(required=True)
    for name, words in OF_ARC.items():
        what.add_argument(f"--{name}", metavar="ARC", help=f"the {words} of an arc: its name, its two ends, or #K")
    what.add_argument("--supply", metavar="NODE", help="the supply of a node")
    parser.add_argument(
        "--beside", metavar="NODE", help="with --supply: the node whose supply changes as much the other way"
    )
    parser.add_argument("--from", dest="first", metavar="VALUE", type=_value, help="the first value")
    parser.add_argument("--to", dest="last", metavar="VALUE", type=_value, help="the last value")
    parser.add_argument("--step", metavar="VALUE", type=_value, help="from value to value (1)")
    parser.add_argument("--values", metavar="V,V,..", type=_values, help="these values in place of a row")
    parser.add_argument("--chart", metavar="FILE", type=_chart, help="write a chart (.svg)")
    parser.add_argument(
        "--table", metavar="FILE", type=file_named, help="write the values as a table (.csv, .tsv, .xlsx)"
    )
    parser.add_argument("--json", action="store_true", help="print them as JSON")


def file_named(text: str, words: str = "", endings: Tuple[str, ...] = ()) -> str:
    """A file's name that promises nothing else than what is written, as an option says it."""
    if not text:
        raise argparse.ArgumentTypeError("the name of a file is empty")
    ending = Path(text).suffix.lower()
    if endings and ending and ending not in endings:
        raise argparse.ArgumentTypeError(f"'{text}' ends with {ending}, and {words} ({endings[0]})")
    return text


def _chart(text: str) -> str:
    """What `--chart` says."""
    return file_named(text, "a chart is SVG", (".svg",))


def joined_values(words: List[str]) -> List[str]:
    """The words of a command line, `--values` in one word with values that begin with a minus: argparse takes these for
    an option.

    >>> joined_values(["sweep", "--values", "-20,-25", "--json"])
    ['sweep', '--values=-20,-25', '--json']
    """
    joined: List[str] = []
    for word in words:
        if joined and joined[-1] == "--values" and re.match(r"-[\d.]", word):
            word = f"{joined.pop()}={word}"
        joined.append(word)
    return joined


def _value(text: str) -> Decimal:
    """A value of the command line."""
    try:
        return exact(text)
    except ValueError:
        raise argparse.ArgumentTypeError(f"'{text}' is no number") from None


def _values(text: str) -> List[Decimal]:
    """Values that commas part."""
    return [_value(part.strip()) for part in text.split(",")]


def asked_values(options: argparse.Namespace) -> List[Decimal]:
    """The values that the command line asks for. Raises ValueError where it does not say which."""
    if options.values is not None:
        if options.first is not None or options.last is not None:
            raise ValueError("say --values, or --from and --to")
        if options.step is not None:
            raise ValueError("--step belongs to --from and --to, and --values has its own values")
        return list(options.values)
    if options.first is None or options.last is None:
        raise ValueError("the values are missing: say --from and --to, or --values")
    return row_of_values(options.first, options.last, Decimal(1) if options.step is None else options.step)


def asked_number(options: argparse.Namespace, problem: Problem) -> Tuple[What, str, Optional[Decimal]]:
    """The number that the command line asks about, in words too, and its present value."""
    if options.supply is not None:
        node = node_of(problem, options.supply)
        what: What = ("supply", node)
        if options.beside is not None:
            what = ("supply", node, node_of(problem, options.beside))
        return what, f"supply of {node}", problem.nodes[node]
    if options.beside is not None:
        raise ValueError("--beside belongs to --supply")
    name = next(name for name in OF_ARC if getattr(options, name) is not None)
    number = arc_of(problem, getattr(options, name))
    arc = problem.arcs[number]
    return (name, number), f"{OF_ARC[name]} of {arc.label}", getattr(arc, name)


def run_sweep(options: argparse.Namespace, problem: Problem) -> bool:
    """Runs `sweep`; whether any of the values has a plan."""
    if options.table:
        check_output(options.table, options.tables)
    if options.chart:
        check_kept(options.chart, options.tables)
    values = asked_values(options)
    what, words, now = asked_number(options, problem)
    with Session(problem, surplus=options.surplus) as session, Progress() as progress:
        found: List[Point] = []
        for point in points(session, what, values):
            found.append(point)
            progress.now(f"{len(found):,} of {len(values):,} values")
    lift_alarm()
    worth = "flow" if problem.kind == "max" else "cost"
    # First the files: where one can't be written, nothing is printed.
    if options.table:
        rows = [[plain(point.value), *("" if n is None else plain(n) for n in point[1:])] for point in found]
        write_table(options.table, ["value", worth, "short by"], rows, sheet="sweep")
    if options.chart:
        from .chart import svg_chart

        title = f"{worth.capitalize()} over the {words}"
        text = svg_chart(found, title=title, across=words, up=worth, now=now)
        write_text(options.chart, text, errors="backslashreplace")
    if options.json:
        print(_json(problem, words, found))
    else:
        say(f"{worth} over the {words}", sys.stdout)
        print_table(_sweep_rows(worth, found), 0, sys.stdout)
    return any(point.cost is not None for point in found)


def _sweep_rows(worth: str, found: List[Point]) -> List[List[str]]:
    """The table of values, with by how much each is worth more than the one before."""
    rows = [["value", worth, "change"] + ["short by"] * any(point.cost is None for point in found)]
    before: Optional[Decimal] = None
    for point in found:
        change = None if before is None or point.cost is None else WIDE.subtract(point.cost, before)
        cells = [point.cost, change, point.shortage]
        row = [plain(point.value), *("" if cell is None else plain(cell) for cell in cells)][: len(rows[0])]
        rows.append([row[0], "no plan", *row[2:]] if point.cost is None else row)
        before = point.cost
    return rows


def _json(problem: Problem, words: str, found: List[Point]) -> str:
    """The values as JSON."""
    told: Dict[str, Any] = {"kind": problem.kind, "number": words, "notes": list(problem.notes)}
    told["points"] = [
        {"value": _text(point.value), "cost": _text(point.cost), "shortage": _text(point.shortage)} for point in found
    ]
    return json.dumps(told, ensure_ascii=False, indent=1)
