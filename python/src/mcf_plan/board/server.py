"""The what-if page of one session, served on 127.0.0.1 to whoever has its key.

The key stands in the address behind `#`, which no browser sends on: the page reads it there and sends it with each of
its own requests. So neither another page nor another user of the machine can read or edit the session. Besides, a
request has to name this server as its `Host` (no other name was made to point here), and an `Origin`, where there is
one, has to be this server's own. The page may ask no other host for anything, by its `Content-Security-Policy`.
"""
from __future__ import annotations

import csv
import hmac
import io
import json
import re
import secrets
import sys
import threading
from decimal import Decimal
from http.server import BaseHTTPRequestHandler, ThreadingHTTPServer
from pathlib import Path
from typing import Any, Callable, NamedTuple, Optional, TextIO, Union

from ..explain import explain
from ..plan import Disagreement, Infeasible, Plan
from ..printing import visible
from ..problem import Arc, exact
from ..program import ProgramFailed, TimeLimit
from ..report import html_text, is_map, layout, limit_text, not_drawn, number, savings, to_csv, to_json
from ..rewrite import BeyondLimits, Meaningless, Unbounded
from ..session import EditRefused, Session


__all__ = ["Board", "BoardServer", "serve"]

FOLDER = Path(__file__).resolve().parent
FILES = {
    "/": ("page.html", "text/html"),
    "/page.js": ("page.js", "text/javascript"),
    "/page.css": ("page.css", "text/css"),
}
HEADERS = {
    "Content-Security-Policy": "default-src 'none'; script-src 'self'; style-src 'self'; connect-src 'self'; "
    "img-src 'self' data:; base-uri 'none'; form-action 'none'; frame-ancestors 'none'",
    "Cross-Origin-Resource-Policy": "same-origin",
    "Referrer-Policy": "no-referrer",
    "X-Content-Type-Options": "nosniff",
    "Cache-Control": "no-store",
}
MOST_BYTES = 1_000_000
MOST_VARIANTS = 16
MOST_ROWS = 300
# What a session answers to an edit that it does not make. Nothing has changed then.
REFUSALS = (EditRefused, KeyError, ValueError, Unbounded, BeyondLimits, Meaningless, TimeLimit)


Result = Union[Plan, Infeasible]


class Variant(NamedTuple):
    """A marked moment as the board remembers it, also where an edit has dropped the moment itself."""

    cost: Optional[Decimal]
    shortage: Optional[Decimal]
    supplies: dict[str, Decimal]
    arcs: list[Arc]
    flows: Optional[list[Decimal]]


def in_words(error: BaseException) -> str:
    """What an exception says, without the quotes that KeyError puts round it."""
    return str(error.args[0]) if isinstance(error, KeyError) and error.args else str(error)


def differing_arcs(one: Variant, other: Variant) -> set[int]:
    """The numbers of the arcs in which two variants differ, be it by what goes along them in their plans."""
    few, many = sorted((len(one.arcs), len(other.arcs)))
    found = set(range(few, many))
    if one.arcs != other.arcs:
        found.update(index for index, (arc, beside) in enumerate(zip(one.arcs, other.arcs)) if arc != beside)
    if one.flows is not None and other.flows is not None and one.flows != other.flows:
        found.update(index for index, (flow, beside) in enumerate(zip(one.flows, other.flows)) if flow != beside)
    return found


def value_of(text: Any, what: str) -> Decimal:
    """The number that somebody typed. ValueError, with what to type instead, where it is none."""
    text = str(text).strip().replace("\N{MINUS SIGN}", "-")
    if "," in text:
        raise ValueError(
            f"{what}: {text} is no number; write a point before the decimals, and nothing between thousands"
        )
    if not text:
        raise ValueError(f"{what}: a number is missing")
    return exact(text, what)


class Rows:
    """Rows of a table of the page, each with the version of the state in which it changed last: a page that has an
    older version is sent the rows that changed since.

    A row is written as the page has it where the `key` that it is made of is another than before.
    """

    def __init__(self, written: Callable[[int, Any], list[Any]]):
        self._written = written
        self._keys: list[Any] = []
        self._versions: list[int] = []
        self.rows: list[list[Any]] = []

    def update(self, keys: list[Any], version: int) -> None:
        """Takes over the keys of all rows."""
        for of_row in (self._keys, self._versions, self.rows):
            del of_row[len(keys) :]
        for index, (before, key) in enumerate(zip(self._keys, keys)):
            if before != key:
                self._keys[index], self._versions[index] = key, version
                self.rows[index] = self._written(index, key)
        for index in range(len(self._keys), len(keys)):
            self._keys.append(keys[index])
            self._versions.append(version)
            self.rows.append(self._written(index, keys[index]))

    def since(self, version: int) -> list[tuple[int, list[Any]]]:
        """The rows that changed after a version, with their numbers."""
        return [(index, self.rows[index]) for index, changed in enumerate(self._versions) if changed > version]


class Board:
    """A session with what the page shows of it. One request at a time: each call holds a lock.

    `version` counts the states: a page that has another one than this is behind.
    """

    def __init__(self, session: Session, title: str = "Plan"):
        self.session = session
        self.title = title
        self.variants: dict[str, Variant] = {}
        self.version = 0
        self._lock = threading.Lock()
        self._not_drawn = not_drawn(session.problem)
        self._places = {} if self._not_drawn else layout(session.problem)
        self._placed = is_map(session.problem)
        self._first = session.cost
        self._nodes, self._arcs = Rows(self._node_row), Rows(self._arc_row)
        self._result: Optional[Result] = None
        self._moment = -1
        self._summary: dict[str, Any] = {}

    def state(self) -> dict[str, Any]:
        """All that the page shows, as JSON has it; numbers are texts, so that none is rounded."""
        with self._lock:
            return self._state({})

    def do(self, request: dict[str, Any]) -> dict[str, Any]:
        """Makes one request of the page and answers the state after it, with `error` in words where it was refused.

        `do` is state, edits (`edits`: a list, made together), undo, redo, mark, back or forget (each with `name`).
        Where the request names the version that the page has as `since`, `changes` stands in place of all arcs and
        nodes: the rows that changed since then.
        """
        with self._lock:
            error = None
            try:
                self._make(request)
            except REFUSALS as refusal:
                error = in_words(refusal)
            state = self._state(request)
            state["error"] = error
            return state

    def export(self, name: str) -> tuple[str, str]:
        """A text to save, with its type, by the name of its file.

        KeyError for another name, ValueError where it needs a plan and there is none.
        """
        with self._lock:
            if name == "report.html":
                return html_text(self.session.plan(check=True), title=self.title), "text/html"
            if name == "plan.csv":
                return to_csv(self.session.plan(check=True)), "text/csv"
            if name == "plan.json":
                return to_json(self.session.plan(check=True)), "application/json"
            if name == "nodes.csv":
                return self._node_table(), "text/csv"
            if name == "arcs.csv":
                return self._arc_table(), "text/csv"
            if name == "problem.txt":
                return self.session.text(), "text/plain"
            if name == "answer.txt":
                return self.session.proof(), "text/plain"
            raise KeyError(name)

    def _make(self, request: dict[str, Any]) -> None:
        session, what = self.session, request.get("do")
        if what == "edits":
            edits = request.get("edits")
            if not isinstance(edits, list) or not edits:
                raise ValueError("there is no edit to make")
            if len(edits) == 1:
                self._edit(edits[0])
            else:
                with session.group():
                    for edit in edits:
                        self._edit(edit)
        elif what == "undo":
            session.undo()
        elif what == "redo":
            session.redo()
        elif what == "mark":
            self._mark(str(request.get("name", "")).strip())
        elif what == "back":
            self._back(str(request.get("name", "")))
        elif what == "forget":
            self.variants.pop(str(request.get("name", "")), None)
            self.version += 1
        elif what != "state":
            raise ValueError(f"there is no request {what}")

    def _edit(self, edit: dict[str, Any]) -> None:
        session, what = self.session, edit.get("edit")
        value = edit.get("value", "")
        if what == "supply":
            node = str(edit.get("node"))
            session.set_supply(node, value_of(value, f"the supply of {node}"))
            return
        if what == "add":
            tail, head = str(edit.get("tail", "")).strip(), str(edit.get("head", "")).strip()
            for end in (tail, head):
                if end not in session.problem.nodes:
                    raise ValueError(f"there is no node {end}" if end else "an arc needs two nodes")
            cap = str(edit.get("cap", "")).strip()
            session.add_arc(
                tail,
                head,
                low=value_of(edit.get("low") or "0", "the lower bound"),
                cap=value_of(cap, "the capacity") if cap else self._no_cap(),
                cost=value_of(edit.get("cost") or "0", "the cost"),
            )
            return
        arc = edit.get("arc")
        if type(arc) is not int or not 0 <= arc < len(session.problem.arcs):
            raise ValueError("there is no such arc")
        label = session.problem.arcs[arc].label
        if what == "cap":
            session.set_cap(arc, value_of(value, f"the capacity of {label}") if str(value).strip() else self._no_cap())
        elif what == "low":
            session.set_low(arc, value_of(value, f"the lower bound of {label}"))
        elif what == "cost":
            session.set_cost(arc, value_of(value, f"the cost of {label}"))
        elif what == "close":
            session.close(arc)
        else:
            raise ValueError(f"there is no edit {what}")

    def _no_cap(self) -> Optional[Decimal]:
        """What an empty capacity means: no limit, but 1 in an assignment."""
        return Decimal(1) if self.session.problem.kind == "asn" else None

    def _mark(self, name: str) -> None:
        if not name or len(name) > 40 or visible(name) != name:
            raise ValueError("a variant needs a name of at most 40 letters, and of nothing that can't be shown")
        if name not in self.variants and len(self.variants) == MOST_VARIANTS:
            raise ValueError(f"there are {MOST_VARIANTS} variants already: forget one first")
        result = self._now()
        problem = self.session.problem
        try:
            self.session.mark(name)
        except EditRefused:
            pass  # The session has no mark left; the way back is made by edits then.
        self.version += 1
        self.variants[name] = Variant(
            self.session.cost,
            self.session.shortage,
            dict(problem.nodes),
            list(problem.arcs),
            list(result.flows) if isinstance(result, Plan) else None,
        )

    def _back(self, name: str) -> None:
        variant = self.variants.get(name)
        if variant is None:
            raise ValueError(f"there is no variant {name}")
        if name in self.session.marks:
            self.session.back(name)
            if self._stands(variant):
                return
        self._go_by_edits(name, variant)

    def _stands(self, variant: Variant) -> bool:
        problem = self.session.problem
        return problem.nodes == variant.supplies and problem.arcs == variant.arcs

    def _go_by_edits(self, name: str, variant: Variant) -> None:
        """Goes to a variant whose moment an edit has dropped: by a group of edits, which is one step of undo."""
        session, arcs = self.session, list(self.session.problem.arcs)
        if any((old.tail, old.head) != (new.tail, new.head) for old, new in zip(arcs, variant.arcs)):
            raise ValueError(f"{name} has an arc where another one stands now: undo what was added since")
        with session.group():
            for node, supply in variant.supplies.items():
                if session.problem.nodes[node] != supply:
                    session.set_supply(node, supply)
            for index, (old, new) in enumerate(zip(arcs, variant.arcs)):
                self._set_arc(index, old, new)
            for arc in variant.arcs[len(arcs) :]:
                session.add_arc(arc.tail, arc.head, low=arc.low, cap=arc.cap, cost=arc.cost, name=arc.name)
            for index in range(len(variant.arcs), len(arcs)):
                if arcs[index].cap != 0:
                    session.close(index)

    def _set_arc(self, index: int, old: Arc, new: Arc) -> None:
        """Sets what differs, the bounds in an order in which the lower one is never above the capacity."""
        session = self.session
        steps: list[tuple[bool, Callable[[], object]]] = [
            (old.cap != new.cap, lambda: session.set_cap(index, new.cap)),
            (old.low != new.low, lambda: session.set_low(index, new.low)),
        ]
        if new.cap is not None and new.cap < old.low:
            steps.reverse()
        for differs, step in steps:
            if differs:
                step()
        if old.cost != new.cost:
            session.set_cost(index, new.cost)

    def _now(self) -> Result:
        """The plan as it stands, or why there is none; asked for once at each moment of the session."""
        if self._result is None or self._moment != self.session.version:
            self._result = self.session.plan()
            self._moment = self.session.version
            self._renew(self._result)
        return self._result

    def _renew(self, result: Result) -> None:
        """Takes over what another moment shows."""
        session, problem = self.session, self.session.problem
        plan = result if isinstance(result, Plan) else None
        none = result if isinstance(result, Infeasible) else None
        self.version += 1
        prices = plan.prices if plan else None
        rest = {**plan.kept, **plan.not_met} if plan else {}
        self._nodes.update(
            [
                (name, supply, prices[name] if prices else None, rest.get(name))
                for name, supply in problem.nodes.items()
            ],
            self.version,
        )
        self._arcs.update(
            list(zip(problem.arcs, plan.flows, savings(plan))) if plan else [(arc, None, None) for arc in problem.arcs],
            self.version,
        )
        self._summary = {
            "cost": number(plan.cost) if plan else None,
            "shortage": number(none.shortage) if none else None,
            "why": explain(none) if none else None,
            "cut": sorted(none.cut) if none else None,
            "limit": limit_text(plan) if plan and problem.kind == "max" else None,
            "checked": result.checked,
            "notes": list(result.notes),
            "undo": session.can_undo,
            "redo": session.can_redo,
        }

    def _node_row(self, index: int, key: tuple[str, Decimal, Optional[Decimal], Optional[Decimal]]) -> list[Any]:
        name, supply, price, rest = key
        return [
            name,
            number(supply),
            *self._places.get(name, (0.0, 0.0)),
            None if price is None else number(price),
            number(rest) if rest else None,
        ]

    def _arc_row(self, index: int, key: tuple[Arc, Optional[Decimal], Optional[Decimal]]) -> list[Any]:
        arc, flow, saving = key
        return [
            arc.tail,
            arc.head,
            arc.name,
            number(arc.low),
            None if arc.cap is None else number(arc.cap),
            number(arc.cost),
            None if flow is None else number(flow),
            number(saving),
        ]

    def _state(self, request: dict[str, Any]) -> dict[str, Any]:
        """The state, or of the rows those that changed since the version that the page has."""
        result, problem, since = self._now(), self.session.problem, request.get("since")
        state = {
            **self._summary,
            "version": self.version,
            "title": self.title,
            "kind": problem.kind,
            "placed": self._placed,
            "not_drawn": self._not_drawn,
            "source": problem.source,
            "sink": problem.sink,
            "first": None if self._first is None else number(self._first),
            "variants": self._variants(result),
            "error": None,
        }
        if isinstance(since, int) and 0 < since <= self.version:
            arcs, nodes = self._arcs.since(since), self._nodes.since(since)
            state["changes"] = {"arcs": arcs, "nodes": nodes, "arc_count": len(self._arcs.rows)}
        else:
            state["arcs"], state["nodes"] = list(self._arcs.rows), list(self._nodes.rows)
        return state

    def _variants(self, result: Result) -> dict[str, Any]:
        """The variants side by side with the moment: their worth, and each number by which any of them differs."""
        problem = self.session.problem
        flows = result.flows if isinstance(result, Plan) else None
        now = Variant(self.session.cost, self.session.shortage, dict(problem.nodes), list(problem.arcs), flows)
        each = [*self.variants.values(), now]
        columns = [
            {
                "name": name,
                "cost": None if variant.cost is None else number(variant.cost),
                "shortage": None if variant.shortage is None else number(variant.shortage),
                "here": self._stands(variant),
            }
            for name, variant in self.variants.items()
        ]
        rows: list[list[Any]] = []
        for index in sorted(set().union(*(differing_arcs(variant, now) for variant in each))):
            rows += self._compared(index, each)
        if any(variant.supplies != now.supplies for variant in each):
            for node in problem.nodes:
                supplies = [variant.supplies[node] for variant in each]
                if any(supply != supplies[0] for supply in supplies):
                    rows.append([node, "supply", [number(supply) for supply in supplies]])
        return {"columns": columns, "rows": rows[:MOST_ROWS], "more": max(0, len(rows) - MOST_ROWS)}

    def _compared(self, index: int, each: list[Variant]) -> list[list[Any]]:
        """The numbers of an arc by which variants differ. A variant without a plan has no flow to differ by."""
        has = [variant.arcs[index] if index < len(variant.arcs) else None for variant in each]
        label = next(arc.label for arc in has if arc is not None)
        flows = [
            variant.flows[index] if arc is not None and variant.flows is not None else None
            for arc, variant in zip(has, each)
        ]
        planned = [flow for flow in flows if flow is not None]
        columns: list[tuple[str, list[Optional[Decimal]], bool]] = [
            ("flow", flows, any(flow != planned[0] for flow in planned) or None in has)
        ]
        for what, field in (("at least", "low"), ("capacity", "cap"), ("unit cost", "cost")):
            values = [None if arc is None else getattr(arc, field) for arc in has]
            columns.append((what, values, any(value != values[0] for value in values)))
        return [
            [label, what, [self._shown(arc, value, what) for arc, value in zip(has, values)]]
            for what, values, differs in columns
            if differs
        ]

    @staticmethod
    def _shown(arc: Optional[Arc], value: Optional[Decimal], what: str) -> str:
        if arc is None:
            return "no arc"
        if value is None:
            return "no limit" if what == "capacity" else "no plan"
        return number(value)

    def _node_table(self) -> str:
        problem, out = self.session.problem, io.StringIO()
        table = csv.writer(out, lineterminator="\n")
        places = problem.places
        table.writerow(["name", "supply"] + ["x", "y"] * bool(places))
        for name, supply in problem.nodes.items():
            table.writerow([name, number(supply), *(places.get(name, ("", "")) if places else ())])
        return out.getvalue()

    def _arc_table(self) -> str:
        out = io.StringIO()
        table = csv.writer(out, lineterminator="\n")
        table.writerow(["from", "to", "low", "capacity", "cost", "name"])
        for arc in self.session.problem.arcs:
            table.writerow([arc.tail, arc.head, number(arc.low), number(arc.cap), number(arc.cost), arc.name or ""])
        return out.getvalue()


class Handler(BaseHTTPRequestHandler):
    """Answers the page's requests, and nobody else's."""

    protocol_version = "HTTP/1.1"
    server_version = "mcf-plan"
    sys_version = ""
    timeout = 120
    server: BoardServer

    def log_message(self, *words: Any) -> None:
        """Keeps the terminal free for what the command itself says."""

    def do_GET(self) -> None:
        """Answers a request for a page or for what is known."""
        path = self.path.split("?")[0]
        if not self._is_for_us():
            return
        if path in FILES:
            name, kind = FILES[path]
            self._answer(200, (FOLDER / name).read_bytes(), kind)
        elif path == "/version":
            if self._has_key():
                self._answer_json({"version": self.server.board.version})
        elif path.startswith("/export/"):
            if self._has_key():
                self._export(path[len("/export/") :])
        else:
            self._refuse(404, "there is nothing here")

    def do_POST(self) -> None:
        """Answers a request that changes something."""
        if not self._is_for_us() or not self._has_key():
            return
        if self.path != "/do":
            self._refuse(404, "there is nothing here")
            return
        if self.headers.get_content_type() != "application/json":
            self._refuse(415, "a request is JSON")
            return
        length = self.headers.get("Content-Length", "")
        if not re.fullmatch("[0-9]{1,9}", length) or int(length) > MOST_BYTES:
            self._refuse(413, f"a request has a length, of at most {MOST_BYTES} bytes")
            return
        try:
            request = json.loads(self.rfile.read(int(length)))
            if not isinstance(request, dict):
                raise ValueError
        except (ValueError, RecursionError):
            self._refuse(400, "a request is an object in JSON")
            return
        try:
            state = self.server.board.do(request)
        except (Disagreement, ProgramFailed, TimeLimit) as error:
            self._refuse(500, in_words(error))
            return
        except (AttributeError, TypeError):
            self._refuse(400, "a request has other fields")
            return
        self._answer_json(state)

    def _is_for_us(self) -> bool:
        """Whether the request names this server, and comes from its own page or from no page at all."""
        hosts: list[str] = self.headers.get_all("Host", [])
        origins: list[str] = self.headers.get_all("Origin", [])
        if len(hosts) != 1 or hosts[0] not in self.server.hosts:
            self._refuse(403, "the request is for another host")
        elif any(origin != f"http://{hosts[0]}" for origin in origins) or (self.command == "POST" and not origins):
            self._refuse(403, "the request comes from another page")
        elif self.headers.get("Sec-Fetch-Site", "none") not in ("same-origin", "none") and self.path != "/":
            self._refuse(403, "the request comes from another page")
        else:
            return True
        return False

    def _has_key(self) -> bool:
        given = self.headers.get("X-Board-Key", "")
        if hmac.compare_digest(given.encode("utf-8", "replace"), self.server.key.encode()):
            return True
        what = "wrong" if given else "missing"
        self._refuse(403, f"the key is {what}: open the whole address that mcf-plan board printed")
        return False

    def _export(self, name: str) -> None:
        try:
            text, kind = self.server.board.export(name)
        except KeyError:
            self._refuse(404, "there is nothing here")
        except (ValueError, Disagreement, ProgramFailed, TimeLimit) as error:
            self._refuse(409, in_words(error))
        else:
            self._answer(
                200,
                text.encode("utf-8", "backslashreplace"),
                kind,
                {"Content-Disposition": f'attachment; filename="{name}"'},
            )

    def _refuse(self, status: int, words: str) -> None:
        # What else stands in the connection was not read, so it ends here.
        self.close_connection = True
        self._answer(status, json.dumps({"error": words}).encode(), "application/json", {"Connection": "close"})

    def _answer_json(self, said: dict[str, Any]) -> None:
        # A name of bytes that are no UTF-8 has halves of characters, which JSON writes by their numbers.
        text = json.dumps(said, ensure_ascii=False, separators=(",", ":"))
        self._answer(200, text.encode("utf-8", "backslashreplace"), "application/json")

    def _answer(self, status: int, body: bytes, kind: str, more: Optional[dict[str, str]] = None) -> None:
        self.send_response(status)
        for name, value in {
            **HEADERS,
            "Content-Type": f"{kind}; charset=utf-8",
            "Content-Length": str(len(body)),
            **(more or {}),
        }.items():
            self.send_header(name, value)
        self.end_headers()
        self.wfile.write(body)


class BoardServer(ThreadingHTTPServer):
    """The server of one board on 127.0.0.1. Port 0 takes any free one. OSError where the port is taken."""

    daemon_threads = True

    def __init__(self, session: Session, port: int = 0, title: str = "Plan"):
        self.board = Board(session, title)
        self.key = secrets.token_urlsafe(24)
        try:
            super().__init__(("127.0.0.1", port), Handler)
        except OSError as error:
            raise OSError(error.errno, error.strerror, f"port {port}") from None
        self.hosts = (f"127.0.0.1:{self.server_port}", f"localhost:{self.server_port}")

    @property
    def address(self) -> str:
        """The address to open, with the key."""
        return f"http://{self.hosts[0]}/#{self.key}"

    def handle_error(self, request: Any, client_address: Any) -> None:
        """A browser that hangs up is no error of the board."""
        if not isinstance(sys.exc_info()[1], OSError):
            super().handle_error(request, client_address)


def serve(session: Session, *, port: int = 0, title: str = "Plan", out: Optional[TextIO] = None) -> None:
    """Serves the board of a session until Ctrl-C, after printing its address. The session stays open."""
    with BoardServer(session, port, title) as server:
        print(f"Open {server.address} in a browser; Ctrl-C ends it.", file=out or sys.stdout, flush=True)
        try:
            server.serve_forever()
        except KeyboardInterrupt:
            pass
