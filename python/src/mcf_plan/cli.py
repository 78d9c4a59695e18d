"""The command mcf-plan: tables with names and decimals in, checked plans out."""

from __future__ import annotations

import argparse
import codecs
import json
import os
import re
import sys
import tempfile
from contextlib import ExitStack, suppress
from decimal import Decimal
from io import StringIO, TextIOWrapper
from pathlib import Path
from typing import Callable, Dict, Iterable, List, NoReturn, Optional, TextIO, Tuple

from . import __version__
from .conversation import Conversation
from .deadline import MOST_SECONDS, alarm, lift_alarm
from .dimacs import Fault, find_answer_fault, find_fault, parse_problem
from .explain import explain
from .formats import as_bytes, as_str
from .hints import PACKED
from .meaning import amounts_of, taken_for
from .outputs import write_text
from .plan import Disagreement, Plan
from .printing import of_system, say, tell, visible
from .problem import Problem, exact, plain
from .program import Program, ProgramFailed, Refused, TimeLimit
from .progress import Progress
from .questions import add_ranges, add_sweep, file_named, joined_values, run_ranges, run_sweep
from .rewrite import BeyondLimits, CannotRewrite, Options, Surplus, Unbounded, rewrite_any, solve
from .rounding import MOST_DECIMALS, round_problem
from .session import EditRefused, Session
from .sheets import is_table
from .signals import Terminated, die_of, hearing
from .tables import COLUMNS, TableFault, check_kept, check_output, read_tables, write_plan

NO_PLAN, USAGE, REFUSED, FAILED, UNBOUNDED, BEYOND, DISAGREE, TOO_LONG, INTERRUPTED = 1, 2, 3, 4, 6, 7, 8, 124, 130
MOST_PORT = 65_535
USUAL_ERRORS = ("strict", "surrogateescape", "backslashreplace")
"""What Python does, where nobody says otherwise, with a letter that an encoding does not have."""

STATUSES = """status:
  0    done
  1    there is no plan, or an answer is not valid
  2    the command line is refused
  3    a table, a text or a line of what-if is refused
  4    a file or the program mcf failed, or memory ran out
  6    there is no best plan: each unit more makes it better
  7    beyond the limits of the formats
  8    an answer was found wrong; the texts are kept
  124  the time limit
  130  Ctrl-C"""


def main(arguments: Optional[List[str]] = None) -> int:
    """Runs the command and returns its status. A signal that asks the process to end does so."""
    if not _streams_are_open():
        return _say("the output is closed", FAILED)
    _take_all_letters()
    try:
        with hearing():
            return _run(sys.argv[1:] if arguments is None else arguments)
    except Terminated as ended:
        die_of(ended.number)
        return 128 + ended.number
    finally:
        _let_go()


def _let_go() -> None:
    """Forgets what could not be printed: Python would try once more at its end, and take another status."""
    for stream in (sys.stdout, sys.stderr):
        try:
            stream.flush()
        except OSError:
            os.dup2(os.open(os.devnull, os.O_WRONLY), stream.fileno())


def _streams_are_open() -> bool:
    """Whether what is printed goes anywhere. An input that is closed, for which Python has None, is as good as an empty
    one, and notes may go nowhere."""
    for name, mode in (("stdin", "r"), ("stderr", "w")):
        if getattr(sys, name) is None:
            setattr(sys, name, open(os.devnull, mode, encoding="utf-8"))
    return getattr(sys, "stdout") is not None


def _take_all_letters() -> None:
    """Lets no letter end a command: one that the encoding of the output does not have is printed by its number, and a
    byte of the input that is no letter is refused with its line."""
    codecs.register_error("mcf_plan", _by_number)
    for stream, errors in ((sys.stdin, "surrogateescape"), (sys.stdout, "mcf_plan"), (sys.stderr, "mcf_plan")):
        # Where somebody asked for `replace`, say, by PYTHONIOENCODING, that stays.
        if isinstance(stream, TextIOWrapper) and stream.errors in USUAL_ERRORS:
            stream.reconfigure(errors=errors)


def _by_number(error: UnicodeError) -> Tuple[str, int]:
    """Letters that can't be encoded, by their numbers as JSON has them, which goes on behind them."""
    if not isinstance(error, UnicodeEncodeError):
        raise error
    return json.dumps(error.object[error.start : error.end])[1:-1], error.end


def _run(arguments: List[str]) -> int:
    """Runs a command, and tells what went wrong."""
    try:
        options = _options(arguments)
        # In a conversation each edit has its own limit.
        limit = None if options.run in (_what_if, _board) else getattr(options, "time_limit", None)
        with alarm(limit):
            status: int = options.run(options)
        sys.stdout.flush()
        return status
    except Unbounded as error:
        return _say(str(error), UNBOUNDED)
    except BeyondLimits as error:
        return _say(str(error), BEYOND)
    except Disagreement as error:
        return _say(f"an answer was found wrong: {error}{_kept(error)}", DISAGREE)
    except Refused as error:
        return _say(error.fault.words(), REFUSED)
    except (TableFault, CannotRewrite, EditRefused) as error:
        return _say(str(error), REFUSED)
    except TimeLimit as error:
        return _say(str(error), TOO_LONG)
    except KeyboardInterrupt:
        return _say("interrupted", INTERRUPTED)
    except BrokenPipeError:
        return FAILED
    except MemoryError:
        return _say("out of memory", FAILED)
    except (ProgramFailed, OSError) as error:
        return _say(of_system(error), FAILED)
    except ValueError as error:
        return _say(str(error), REFUSED)


def _options(arguments: List[str]) -> argparse.Namespace:
    """What the command line says. Raises OSError where help is asked for and can't be printed."""
    try:
        return _parser().parse_args(joined_values(arguments))
    finally:
        sys.stdout.flush()


def _say(words: str, status: int) -> int:
    # The status tells it too, where nothing can be said.
    with suppress(OSError):
        say(f"mcf-plan: {words}", sys.stderr)
    return status


def _kept(error: Disagreement) -> str:
    """Keeps the texts of a disagreement, and says where."""
    if not error.problem_text:
        return ""
    try:
        folder = Path(tempfile.mkdtemp(prefix="mcf-plan-"))
        (folder / "problem").write_bytes(as_bytes(error.problem_text))
        (folder / "answer").write_bytes(as_bytes(error.answer_text))
    except OSError as failed:
        return f"; the texts could not be kept: {of_system(failed)}"
    return f"; the texts are kept in {folder}, please report them"


# ---------------------------------------------------------------- the command line


class _Parser(argparse.ArgumentParser):
    """A parser whose refusals say where to read more."""

    def error(self, message: str) -> NoReturn:
        with suppress(OSError):
            self.print_usage(sys.stderr)
        sys.exit(_say(f"{message}; `{self.prog} --help` tells more", USAGE))


def _parser() -> argparse.ArgumentParser:
    parser = _Parser(
        prog="mcf-plan",
        description="Tables with names and decimals in, checked plans out.",
        epilog=STATUSES,
        formatter_class=argparse.RawDescriptionHelpFormatter,
    )
    parser.add_argument("--version", action="version", version=f"mcf-plan {__version__}")
    commands = parser.add_subparsers(title="commands", metavar="COMMAND", required=True)

    def command(
        name: str, run: Callable[[argparse.Namespace], int], words: str, *, tables: bool
    ) -> argparse.ArgumentParser:
        made = commands.add_parser(name, help=words, description=words[:1].upper() + words[1:] + ".")
        made.set_defaults(run=run)
        if tables:
            _add_tables(made)
        return made

    plan = command("plan", _plan, "find a best plan, or say why there is none", tables=True)
    plan.add_argument("--report", metavar="FILE", type=_page, help="write a report with a picture (.html)")
    plan.add_argument("--picture", metavar="FILE", type=_picture, help="write the picture alone (.svg)")
    plan.add_argument(
        "--table",
        metavar="FILE",
        type=file_named,
        help="write the plan as a table (.csv, .tsv, .xlsx, or book.xlsx:SHEET)",
    )
    plan.add_argument("--json", action="store_true", help="print it as JSON")
    plan.add_argument("--title", default="Plan", help="the report's title")

    what_if = command("what-if", _what_if, "ask what would be if, at a prompt or from a file", tables=True)
    what_if.add_argument(
        "--commands", metavar="FILE", type=file_named, help="read the commands from a file in place of the prompt"
    )

    board = command("board", _board, "serve the what-if page on this computer alone", tables=True)
    board.add_argument("--port", type=_port, default=0, help="the port, up to 65535; without it a free one")
    board.add_argument("--title", default="Plan", help="the page's title")

    why = command("explain", _explain, "say why there is no plan", tables=True)
    why.add_argument(
        "--answer",
        metavar="FILE",
        type=file_named,
        help="explain this answer of mcf to the problem text, in place of solving",
    )

    check = command("check", _check, "check an answer to a problem text, whoever made it", tables=False)
    check.add_argument("problem", metavar="PROBLEM", type=file_named)
    check.add_argument("answer", metavar="ANSWER", type=file_named)
    check.add_argument(
        "--from",
        dest="maker",
        choices=["mcf", "lemon", "glpk", "flows"],
        default="mcf",
        help="which program wrote the answer (mcf)",
    )

    faults = command("faults", _faults, "say what is wrong with a problem text, and how to mend it", tables=False)
    faults.add_argument("problem", metavar="PROBLEM", type=file_named)
    faults.add_argument(
        "answer", metavar="ANSWER", type=file_named, nargs="?", help="an answer to it, to be looked at too"
    )

    convert = command(
        "convert", _convert, "write tables, or a text of another program, as a text that mcf reads", tables=True
    )
    convert.add_argument(
        "-o", "--output", metavar="FILE", type=file_named, help="write to a file in place of the output"
    )

    ranges = command(
        "ranges", _ranges, "say what one unit more saves, and within which costs the plan stays best", tables=True
    )
    add_ranges(ranges)
    add_sweep(command("sweep", _sweep, "say what a plan costs at each of several values of one number", tables=True))
    return parser


def _add_tables(parser: argparse.ArgumentParser) -> None:
    parser.add_argument(
        "tables",
        metavar="TABLE",
        nargs="+",
        type=file_named,
        help="the tables of nodes, and behind them that of arcs (.csv, .tsv, .xlsx, or book.xlsx:SHEET), one workbook or "
        "map (.geojson) that has all, that of arcs alone, or a problem text",
    )
    parser.add_argument(
        "--kind",
        choices=["min", "max", "asn"],
        help="least cost (min, where nothing is said), maximum flow (max) or assignment (asn)",
    )
    parser.add_argument("--source", metavar="NODE", help="where a maximum flow starts")
    parser.add_argument("--sink", metavar="NODE", help="where it ends")
    parser.add_argument(
        "--surplus",
        metavar="refuse|keep|COST",
        type=_surplus,
        default="refuse",
        help="what becomes of supplies that do not add up to 0: there is no plan (refuse), they are kept or "
        "not met at no cost (keep), or at this cost a unit",
    )
    parser.add_argument(
        "--balance",
        choices=["equal", "at least", "at most"],
        default="equal",
        help="whether what leaves a node less what comes in is equal to its supply, at least or at most it",
    )
    parser.add_argument(
        "--columns",
        metavar="THING=NAME",
        type=_named_columns,
        action="append",
        default=[],
        help="the name of the column that holds node, supply, demand, x or y, or from, to, low, capacity, cost or "
        "name; aside=NAME leaves one aside; several are parted by commas",
    )
    parser.add_argument(
        "--decimal",
        metavar="SIGN",
        choices=[".", ","],
        help="the decimal sign of the tables, a point or a comma, where they do not show which it is",
    )
    parser.add_argument("--default-cost", metavar="COST", type=_number, help="the cost of a unit where none stands")
    parser.add_argument("--round", metavar="N", type=_places, help="round all numbers to N decimals")
    parser.add_argument("--encoding", metavar="NAME", help="the encoding of tables that are not UTF-8, as cp1252")
    parser.add_argument(
        "--time-limit",
        metavar="SECONDS",
        type=_seconds,
        help="how long the command may take, from reading to the report; in what-if and board how long the opening may "
        "take, and each edit",
    )


def _surplus(text: str) -> Surplus:
    """What `--surplus` says."""
    if text in ("refuse", "keep"):
        return text
    try:
        return exact(text)
    except ValueError:
        raise argparse.ArgumentTypeError(f"'{text}' is none of refuse, keep and a number, the cost of a unit") from None


def _named_columns(text: str) -> List[Tuple[str, str]]:
    """What `--columns` says: THING=NAME, several parted by commas; a name may have commas itself."""
    pairs = [pair.partition("=")[::2] for pair in re.split(r",(?=\s*\w+=)", text)]
    for what, name in pairs:
        if what.strip() not in (*COLUMNS, "aside") or not name.strip():
            raise argparse.ArgumentTypeError(
                f"'{text}' is not of the form THING=NAME, as capacity=Kapa, with one of {', '.join(COLUMNS)}, aside"
            )
    return [(what.strip(), name) for what, name in pairs]


def _number(text: str) -> Decimal:
    """What `--default-cost` says."""
    try:
        return exact(text)
    except ValueError:
        raise argparse.ArgumentTypeError(f"'{text}' is no number") from None


def _places(text: str) -> int:
    """What `--round` says."""
    if not (text.isascii() and text.isdigit() and int(text[:6]) <= MOST_DECIMALS):
        raise argparse.ArgumentTypeError(f"'{text}' is no number of decimals: there are 0 to {MOST_DECIMALS}")
    return int(text)


def _seconds(text: str) -> float:
    """What `--time-limit` says."""
    try:
        seconds = float(text)
    except ValueError:
        seconds = 0.0
    if not 0 < seconds < MOST_SECONDS:
        raise argparse.ArgumentTypeError(f"'{text}' is no number of seconds above 0 and below {MOST_SECONDS:,}")
    return seconds


def _page(text: str) -> str:
    """What `--report` says."""
    return file_named(text, "a report is a page of HTML", (".html", ".htm"))


def _picture(text: str) -> str:
    """What `--picture` says."""
    return file_named(text, "a picture is SVG", (".svg",))


def _port(text: str) -> int:
    """What `--port` says."""
    if not (text.isascii() and text.isdigit() and int(text[:6]) <= MOST_PORT):
        raise argparse.ArgumentTypeError(
            f"'{text}' is no port: these are the numbers from 0, any free one, to {MOST_PORT}"
        )
    return int(text)


def _read(options: argparse.Namespace) -> Problem:
    """The problem of the tables, or of the text, that the command line names; its notes are told."""
    problem = _read_source(options)
    _tell_of(problem)
    return problem


def _tell_notes(notes: Iterable[str]) -> None:
    """Prints what was chosen for the user."""
    for note in notes:
        say(f"note: {note}", sys.stderr)


def _tell_of(problem: Problem) -> None:
    """Prints what was chosen for the user when the problem was read, and how its tables are taken."""
    _tell_notes(problem.notes)
    _tell_notes(taken_for(problem, amounts_of(problem)))


def _read_source(options: argparse.Namespace) -> Problem:
    """The problem of the tables, or of the text."""
    tables = options.tables
    if len(tables) > 1 and "-" in tables:
        raise TableFault("-: a table is a file; the input is one by the name of /dev/stdin")
    if len(tables) == 1 and not is_table(tables[0]):
        return _read_text(tables[0], options)
    for what, name in (("--source", options.source), ("--sink", options.sink)):
        if options.kind == "max" and name is None:
            raise TableFault(f"a maximum flow wants {what} NODE")
        if options.kind != "max" and name is not None:
            raise TableFault(f"{what} {name} is said, and a maximum flow alone has one: say `--kind max` too")
    columns: Dict[str, List[str]] = {}
    for what, name in (pair for pairs in options.columns for pair in pairs):
        columns.setdefault(what, []).append(name)
    return read_tables(
        tables[:-1],
        tables[-1],
        kind=options.kind or "min",
        balance=options.balance,
        source=options.source,
        sink=options.sink,
        columns=columns,
        decimal=options.decimal,
        default_cost=options.default_cost,
        decimals=options.round,
        encoding=options.encoding,
    )


def _read_text(name: str, options: argparse.Namespace) -> Problem:
    """The problem of a text of the formats, as the options say. Raises TableFault where one has no meaning for it."""
    for what, unused in (
        ("columns", options.columns),
        ("decimal", options.decimal),
        ("default-cost", options.default_cost),
        ("encoding", options.encoding),
    ):
        if unused not in (None, []):
            raise TableFault(
                f"{name}: --{what} is said, and this is a problem text, which is read in one way alone; a table ends in "
                ".csv, .tsv, .xlsx or .geojson"
            )
    problem = _read_problem_text(name)
    for what, said, own in (
        ("kind", options.kind, problem.kind),
        ("source", options.source, problem.source),
        ("sink", options.sink, problem.sink),
    ):
        if said not in (None, own):
            raise TableFault(f"{name}: --{what} {said} is said, and the {what} of this text is {own or 'none'}")
    problem.balance = options.balance
    return problem if options.round is None else round_problem(problem, options.round)


def _read_problem_text(name: str) -> Problem:
    """The problem of a text of the formats, from a file or, for `-`, from the input."""
    raw = sys.stdin.buffer.read() if name == "-" else Path(name).read_bytes()
    try:
        return Problem.from_dimacs(raw)
    except Refused as refused:
        raise TableFault(refused.fault.words("the problem" if name == "-" else name)) from None


# ---------------------------------------------------------------- plan, explain, ranges, sweep


def _plan(options: argparse.Namespace) -> int:
    from .report import html_text, not_drawn, svg_picture, to_json

    if options.table:
        check_output(options.table, options.tables)
    pages = [name for name in (options.report, options.picture) if name]
    for page in pages:
        check_kept(page, options.tables)
    if len(set(map(os.path.realpath, pages))) < len(pages):
        raise TableFault(f"{pages[0]}: the report and the picture would be one file; give each a name of its own")
    with Progress() as progress:
        progress.now("reading the tables")
        problem = _read_source(options)
        progress.clear()
        _tell_of(problem)
        too_large = not_drawn(problem)
        if options.picture and too_large:
            raise BeyondLimits(f"--picture: {too_large}")
        result = problem.solve(surplus=options.surplus, progress=progress.now)
    out = StringIO()
    if options.json:
        out.write(to_json(result))
    else:
        tell(result, out)
    files = []
    if options.report:
        files.append((options.report, html_text(result, title=options.title)))
    if options.picture:
        files.append((options.picture, svg_picture(result)))
    lift_alarm()
    # First the files: where one can't be written, nothing is printed.
    for name, text in files:
        write_text(name, text, errors="backslashreplace")
    if options.table and isinstance(result, Plan):
        write_plan(result, options.table)
    sys.stdout.write(out.getvalue())
    return 0 if isinstance(result, Plan) else NO_PLAN


def _explain(options: argparse.Namespace) -> int:
    problem = _read(options)
    if options.answer:
        rewriting = rewrite_any(problem, Options(options.surplus))
        answer = sys.stdin.buffer.read() if options.answer == "-" else Path(options.answer).read_bytes()
        try:
            result = rewriting.checked(as_str(answer), Program())
        except Disagreement as wrong:
            # Not the program's own answer: nothing is to be reported.
            raise ValueError(f"{options.answer} is no right answer to the problem: {wrong}") from None
    else:
        result = solve(problem, Options(options.surplus))
    if isinstance(result, Plan):
        print(f"there is a plan: {'flow' if problem.kind == 'max' else 'cost'} {plain(result.cost)}")
        return 0
    words = explain(result)
    lift_alarm()
    say(words, sys.stdout)
    return NO_PLAN


def _ranges(options: argparse.Namespace) -> int:
    return 0 if run_ranges(options, _read(options)) else NO_PLAN


def _sweep(options: argparse.Namespace) -> int:
    return 0 if run_sweep(options, _read(options)) else NO_PLAN


# ---------------------------------------------------------------- texts


def _check(options: argparse.Namespace) -> int:
    problem, answer = Path(options.problem).read_bytes(), Path(options.answer).read_bytes()
    if options.maker != "mcf":
        from .others import NotAnAnswer, answer_from

        fault = find_fault(problem)
        if fault is not None:
            return _say(fault.words(options.problem), REFUSED)
        try:
            answer = answer_from(problem, answer, options.maker).encode()
        except NotAnAnswer as error:
            print("not valid")
            return _say(f"{options.answer}: {error}", NO_PLAN)
    try:
        verdict = Program().check(problem, answer)
    except Refused as refused:
        return _say(refused.fault.words(options.problem if refused.text is problem else options.answer), REFUSED)
    print(verdict)
    return 0 if verdict == "valid" else NO_PLAN


def _faults(options: argparse.Namespace) -> int:
    raw = sys.stdin.buffer.read() if options.problem == "-" else Path(options.problem).read_bytes()
    fault = find_fault(raw)
    if fault is not None:
        _tell_fault(fault, options.problem, raw)
        return REFUSED
    if options.answer:
        answer = Path(options.answer).read_bytes()
        fault = find_answer_fault(raw, answer)
        if fault is not None:
            _tell_fault(fault, options.answer, answer)
            return REFUSED
    print("no fault")
    found = parse_problem(raw)
    total = sum(found.supplies.values())
    if found.kind == "min" and total:
        print(
            f"note: the supplies add up to {total}, and not to 0, so there is no plan; is the sign of a demand missing?"
            " `mcf-plan plan --surplus keep` lets the rest stay"
        )
    if found.kind == "asn" and 2 * len(found.supplies) != found.nodes:
        print(
            f"note: the nodes are {len(found.supplies)} on the source side and {found.nodes - len(found.supplies)} on "
            "the sink side, so there is no assignment; `mcf-plan plan --surplus keep` lets the rest be alone"
        )
    return 0


def _tell_fault(fault: Fault, name: str, raw: bytes) -> None:
    """Prints the fault, and the line that it is on, cut where it is long; not that of a packed file, which is no text."""
    say(fault.words(name), sys.stdout)
    lines = raw.split(b"\n")
    if 1 <= fault.line <= len(lines) and fault.hint != PACKED:
        text = as_str(lines[fault.line - 1][:100]).rstrip("\r")
        print("    " + "\t".join(map(visible, text.split("\t"))))


def _convert(options: argparse.Namespace) -> int:
    if options.output:
        check_kept(options.output, options.tables, is_problem=True)
    problem = _read_source(options)
    _tell_notes(problem.notes)
    rewriting = rewrite_any(problem, Options(options.surplus))
    _tell_notes(rewriting.notes)
    lift_alarm()
    if options.output:
        write_text(options.output, rewriting.text)
    else:
        sys.stdout.write(rewriting.text)
    return 0


# ---------------------------------------------------------------- what-if and board


def _board(options: argparse.Namespace) -> int:
    from .board.server import serve

    with _opened(options) as session:
        serve(session, port=options.port, title=options.title)
    return 0


def _what_if(options: argparse.Namespace) -> int:
    with ExitStack() as stack:
        source = stack.enter_context(_commands(options.commands)) if options.commands else sys.stdin
        session = stack.enter_context(_opened(options))
        conversation = Conversation(session, sys.stdout, source.isatty(), options.tables, options.commands)
        conversation.run(source)
    # At a terminal whoever typed the line has seen it.
    if conversation.is_terminal or not conversation.not_done:
        return 0
    first, error = conversation.not_done[0]
    count = len(conversation.not_done)
    words = (
        f"line {first} was not done" if count == 1 else f"{count} lines were not done, the first of them line {first}"
    )
    where = options.commands or "the commands"
    return _say(f"{where}: {words}", _status_of_line(error))


def _status_of_line(error: BaseException) -> int:
    """The status that a command ends in whose line was not done, for this reason."""
    if isinstance(error, TimeLimit):
        return TOO_LONG
    if isinstance(error, KeyboardInterrupt):
        return INTERRUPTED
    return FAILED if isinstance(error, OSError) else REFUSED


def _commands(name: str) -> TextIO:
    """The file of commands. A name in it that is no UTF-8 is refused on its line."""
    return open(name, encoding="utf-8-sig", errors="surrogateescape")


def _opened(options: argparse.Namespace) -> Session:
    """A session on the tables. Its time limit counts the reading and the first answer together, then each edit."""
    with alarm(options.time_limit):
        session = Session(_read(options), surplus=options.surplus)
    session.time_limit = options.time_limit
    return session
