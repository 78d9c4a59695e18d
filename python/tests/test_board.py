"""The board without a browser: what it answers, and whom it refuses."""

import contextlib
import http.client
import io
import json
import re
import signal
import subprocess
import sys
import tempfile
import threading
import unittest
from decimal import Decimal
from pathlib import Path
from unittest import mock

from mcf_plan import Disagreement, Problem, Session
from mcf_plan.board.server import MOST_BYTES, Board, BoardServer


def towns() -> Problem:
    """Two depots, a town between and two shops; the road from north to middle is full in the cheapest plan."""
    problem = Problem()
    for name, supply in [("north", 6), ("south", "4.5"), ("middle", 0), ("east", "-7.5"), ("west", -3)]:
        problem.add_node(name, supply)
    problem.add_arc("north", "middle", cap=4, cost="1.25")
    problem.add_arc("north", "west", cap=8, cost=3)
    problem.add_arc("south", "middle", cap=5, cost=2)
    problem.add_arc("middle", "east", cap=10, cost="0.5")
    problem.add_arc("north", "east", cap=5, cost=9, name="ferry")
    return problem


class BoardTest(unittest.TestCase):
    def setUp(self) -> None:
        self.session = Session(towns())
        self.addCleanup(self.session.end)
        self.board = Board(self.session, "Towns")

    def edit(self, **edit: object) -> dict:
        return self.board.do({"do": "edits", "edits": [edit]})

    def test_state_tells_the_plan(self) -> None:
        state = self.board.state()
        # 3 to west at 3; 3 and 4.5 by the middle at 1.25 and 2, and 7.5 on at 0.5.
        self.assertEqual(state["cost"], "25.5")
        self.assertEqual([arc[6] for arc in state["arcs"]], ["3", "3", "4.5", "7.5", "0"])
        self.assertEqual([node[:2] for node in state["nodes"]][1], ["south", "4.5"])
        self.assertTrue(state["checked"])
        self.assertFalse(state["undo"] or state["redo"])
        self.assertIsNone(state["why"])
        json.dumps(state)

    def test_edits_undo_redo(self) -> None:
        self.assertEqual(self.edit(edit="cap", arc=0, value="2")["cost"], "32.75")
        self.assertEqual(self.edit(edit="cost", arc=4, value="2.5")["cost"], "26.25")
        self.assertEqual(self.board.do({"do": "undo"})["cost"], "32.75")
        state = self.board.do({"do": "redo"})
        self.assertEqual((state["cost"], state["undo"], state["redo"]), ("26.25", True, False))

    def test_empty_capacity_is_no_limit(self) -> None:
        state = self.edit(edit="cap", arc=0, value=" ")
        self.assertIsNone(state["error"])
        self.assertIsNone(state["arcs"][0][4])

    def test_refused_edit_changes_nothing_and_says_why(self) -> None:
        before = self.board.state()
        for edit in [
            {"edit": "cap", "arc": 0, "value": "-1"},
            {"edit": "cost", "arc": 0, "value": "3,5"},
            {"edit": "cost", "arc": 0, "value": "many"},
            {"edit": "cost", "arc": 0, "value": ""},
            {"edit": "cap", "arc": 9, "value": "1"},
            {"edit": "supply", "node": "nowhere", "value": "1"},
            {"edit": "low", "arc": 0, "value": "5"},
            {"edit": "add", "tail": "north", "head": "nowhere"},
            {"edit": "burn", "arc": 0},
        ]:
            with self.subTest(edit=edit):
                after = self.board.do({"do": "edits", "edits": [edit]})
                self.assertTrue(after.pop("error"))
                self.assertEqual(after, {key: value for key, value in before.items() if key != "error"})
        self.assertIn("3,5", self.edit(edit="cost", arc=0, value="3,5")["error"])

    def test_group_is_one_step(self) -> None:
        edits = [
            {"edit": "supply", "node": "east", "value": "-9.5"},
            {"edit": "supply", "node": "south", "value": "6.5"},
            {"edit": "cap", "arc": 2, "value": "7"},
        ]
        state = self.board.do({"do": "edits", "edits": edits})
        self.assertEqual((state["error"], state["cost"]), (None, "30.5"))
        self.assertEqual(self.board.do({"do": "undo"})["cost"], "25.5")

    def test_refused_group_changes_nothing(self) -> None:
        edits = [{"edit": "cap", "arc": 0, "value": "1"}, {"edit": "cap", "arc": 1, "value": "-3"}]
        state = self.board.do({"do": "edits", "edits": edits})
        self.assertTrue(state["error"])
        self.assertEqual((state["cost"], state["undo"]), ("25.5", False))

    def test_no_plan_and_why(self) -> None:
        state = self.edit(edit="supply", node="east", value="-8.5")
        self.assertIsNone(state["cost"])
        self.assertEqual(state["shortage"], "1")
        self.assertTrue(state["why"] and state["cut"])
        self.assertTrue(all(arc[6] is None for arc in state["arcs"]))
        with self.assertRaises(ValueError):
            self.board.export("plan.csv")
        self.assertIn("There is no plan", self.board.export("report.html")[0])
        self.assertEqual(self.board.do({"do": "undo"})["cost"], "25.5")

    def test_add_and_close(self) -> None:
        state = self.edit(edit="add", tail="south", head="east", cap="", cost="1.5")
        self.assertEqual((len(state["arcs"]), state["cost"]), (6, "21"))
        self.assertEqual(self.edit(edit="close", arc=5)["cost"], "25.5")

    def test_variants_side_by_side(self) -> None:
        self.board.do({"do": "mark", "name": "as it is"})
        self.edit(edit="cap", arc=0, value="2")
        variants = self.board.do({"do": "mark", "name": "narrow road"})["variants"]
        self.assertEqual(
            [(each["name"], each["cost"], each["here"]) for each in variants["columns"]],
            [("as it is", "25.5", False), ("narrow road", "32.75", True)],
        )
        self.assertIn(["north to middle", "flow", ["3", "2", "2"]], variants["rows"])
        self.assertIn(["north to middle", "capacity", ["4", "2", "2"]], variants["rows"])
        self.assertEqual(self.board.do({"do": "back", "name": "as it is"})["cost"], "25.5")
        self.assertEqual(self.board.do({"do": "back", "name": "narrow road"})["cost"], "32.75")

    def test_variants_outlive_their_moments(self) -> None:
        self.board.do({"do": "mark", "name": "plain"})
        self.edit(edit="cap", arc=0, value="2")
        self.edit(edit="add", tail="south", head="east", cap="3", cost="1.5")
        self.board.do({"do": "mark", "name": "lane"})
        cost = self.board.state()["cost"]
        self.board.do({"do": "back", "name": "plain"})
        self.edit(edit="cost", arc=1, value="4")  # Drops what could be redone, and the mark there.
        state = self.board.do({"do": "back", "name": "lane"})
        self.assertEqual((state["error"], state["cost"], len(state["arcs"])), (None, cost, 6))
        state = self.board.do({"do": "back", "name": "plain"})
        self.assertEqual((state["error"], state["cost"]), (None, "25.5"))
        self.assertTrue(self.board.do({"do": "back", "name": "nowhere"})["error"])
        self.board.do({"do": "forget", "name": "lane"})
        self.assertEqual(len(self.board.state()["variants"]["columns"]), 1)

    def test_bounds_move_past_each_other(self) -> None:
        self.edit(edit="low", arc=2, value="4")
        self.board.do({"do": "mark", "name": "high"})
        self.board.do({"do": "undo"})
        self.edit(edit="cap", arc=2, value="3")
        state = self.board.do({"do": "back", "name": "high"})
        self.assertEqual((state["error"], state["arcs"][2][3:5]), (None, ["4", "5"]))
        self.board.do({"do": "mark", "name": "high"})
        state = self.board.do({"do": "undo"})
        self.assertEqual(state["arcs"][2][3:5], ["0", "3"])

    def test_exports_are_read_again(self) -> None:
        self.edit(edit="cap", arc=0, value="2")
        self.assertTrue(self.board.export("plan.csv")[0].startswith("name,from,to,"))
        self.assertEqual(json.loads(self.board.export("plan.json")[0])["cost"], "32.75")
        self.assertIn("32.75", self.board.export("report.html")[0])
        again = Problem()
        for line in self.board.export("nodes.csv")[0].splitlines()[1:]:
            again.add_node(*line.split(",")[:2])
        for line in self.board.export("arcs.csv")[0].splitlines()[1:]:
            tail, head, low, cap, cost, name = line.split(",")
            again.add_arc(tail, head, low=low, cap=cap or None, cost=cost, name=name or None)
        self.assertEqual(again.solve().cost, Decimal("32.75"))
        self.assertTrue(self.board.export("problem.txt")[0].splitlines())
        with self.assertRaises(KeyError):
            self.board.export("../server.py")

    def test_names_of_variants(self) -> None:
        for name in ["", " ", "x" * 41, "\ud800", "a\x1bb", "\u202e"]:
            with self.subTest(name=name):
                state = self.board.do({"do": "mark", "name": name})
                self.assertIn("a variant needs a name", state["error"])
                self.assertEqual(state["variants"]["columns"], [])
        self.assertIsNone(self.board.do({"do": "mark", "name": "Plan B, günstig"})["error"])

    def test_changes_since_a_version(self) -> None:
        """Whichever version a page has, what it is sent leads to the state as it stands, by rows that changed."""
        pages = {0: (self.board.state()["arcs"], self.board.state()["nodes"])}
        versions = {0: self.board.version}
        requests = [
            {"do": "edits", "edits": [{"edit": "cap", "arc": 0, "value": "2"}]},
            {"do": "edits", "edits": [{"edit": "add", "tail": "south", "head": "east", "cap": "3", "cost": "1.5"}]},
            {"do": "edits", "edits": [{"edit": "cost", "arc": 5, "value": "x"}]},
            {"do": "mark", "name": "lane"},
            {"do": "undo"},
            {"do": "edits", "edits": [{"edit": "supply", "node": "east", "value": "-8.5"}]},
            {"do": "undo"},
            {"do": "edits", "edits": [{"edit": "add", "tail": "west", "head": "east", "cost": "7"}]},
            {"do": "undo"},
            {"do": "undo"},
            {"do": "redo"},
            {"do": "state"},
        ]
        for number, request in enumerate(requests, 1):
            self.board.do(request)
            whole = self.board.state()
            for page, (arcs, nodes) in pages.items():
                told = self.board.do({"do": "state", "since": versions[page]})
                changes = told["changes"]
                self.assertNotIn("arcs", told)
                if versions[page] == self.board.version:
                    self.assertEqual((changes["arcs"], changes["nodes"]), ([], []))
                merged = dict(enumerate(arcs[: changes["arc_count"]]))
                merged.update(changes["arcs"])
                self.assertEqual([merged[index] for index in range(changes["arc_count"])], whole["arcs"])
                self.assertEqual([dict(changes["nodes"]).get(i, row) for i, row in enumerate(nodes)], whole["nodes"])
            pages[number], versions[number] = (whole["arcs"], whole["nodes"]), self.board.version
        self.assertEqual(sorted(versions.values()), list(versions.values()))
        for since in (0, -1, 10**9, "1", None, 2.5):
            self.assertIn("arcs", self.board.do({"do": "state", "since": since}))

    def test_refused_edit_asks_mcf_nothing(self) -> None:
        self.board.state()
        with mock.patch.object(Session, "plan", side_effect=AssertionError):
            self.assertTrue(self.edit(edit="cost", arc=0, value="x")["error"])
            self.board.do({"do": "mark", "name": "plain"})
            self.board.do({"do": "state"})

    def test_variant_without_a_plan(self) -> None:
        """Its flows are not compared with those of others: else each arc would be told."""
        self.board.do({"do": "mark", "name": "plain"})
        self.edit(edit="supply", node="east", value="-8.5")
        variants = self.board.do({"do": "mark", "name": "short"})["variants"]
        self.assertEqual(variants["rows"], [["east", "supply", ["-7.5", "-8.5", "-8.5"]]])

    def test_large_networks_have_no_map(self) -> None:
        problem = towns()
        for _ in range(3000):
            problem.add_arc("south", "middle", cap=1, cost=9)
        with Session(problem) as session:
            self.assertIn("the network has 3,005 arcs", Board(session).state()["not_drawn"])
        self.assertIsNone(self.board.state()["not_drawn"])

    def test_other_kinds(self) -> None:
        flow = Problem("max", source="a", sink="c")
        flow.add_arc("a", "b", cap=3)
        flow.add_arc("b", "c", cap=2)
        with Session(flow) as session:
            board = Board(session)
            self.assertEqual(board.state()["cost"], "2")
            self.assertIn("b to c: 2", board.state()["limit"])
            self.assertEqual(board.do({"do": "edits", "edits": [{"edit": "cap", "arc": 1, "value": "5"}]})["cost"], "3")
            self.assertTrue(board.do({"do": "edits", "edits": [{"edit": "cost", "arc": 1, "value": "5"}]})["error"])
        pairs = Problem("asn")
        for name, supply in [("Ann", 1), ("Ben", 1), ("day", -1), ("night", -1)]:
            pairs.add_node(name, supply)
        for tail, head, cost in [("Ann", "day", 2), ("Ann", "night", 5), ("Ben", "day", 1)]:
            pairs.add_arc(tail, head, cap=1, cost=cost)
        with Session(pairs) as session:
            board = Board(session)
            self.assertEqual(board.state()["cost"], "6")
            state = board.do({"do": "edits", "edits": [{"edit": "add", "tail": "Ben", "head": "night", "cost": "1"}]})
            self.assertEqual((state["error"], state["cost"]), (None, "3"))

    def test_what_is_kept_stands_beside_its_node(self) -> None:
        problem = towns()
        problem.nodes["south"] = Decimal(6)
        with Session(problem, surplus="keep") as session:
            state = Board(session).state()
            self.assertEqual([node[5] for node in state["nodes"]], [None, "1.5", None, None, None])
            self.assertEqual(state["cost"], "25.5")


class CommandTest(unittest.TestCase):
    """mcf-plan board, from the command line to Ctrl-C."""

    def test_board(self) -> None:
        with tempfile.TemporaryDirectory() as folder:
            nodes, arcs = Path(folder, "nodes.csv"), Path(folder, "arcs.csv")
            nodes.write_text("name,supply\nnorth,4\nsouth,-4\n")
            arcs.write_text("from,to,capacity,cost\nnorth,south,,2.5\n")
            command = [sys.executable, "-m", "mcf_plan", "board", str(nodes), str(arcs), "--title", "Two towns"]
            with subprocess.Popen(command, stdout=subprocess.PIPE, stderr=subprocess.PIPE, text=True) as process:
                try:
                    address = re.search(r"http://(127\.0\.0\.1:\d+)/#(\S+)", process.stdout.readline())
                    connection = http.client.HTTPConnection(address.group(1), timeout=30)
                    headers = {"Origin": f"http://{address.group(1)}", "X-Board-Key": address.group(2)}
                    headers["Content-Type"] = "application/json"
                    connection.request("POST", "/do", b'{"do":"state"}', headers)
                    state = json.loads(connection.getresponse().read())
                    connection.close()
                    self.assertEqual((state["title"], state["cost"]), ("Two towns", "10"))
                    process.send_signal(signal.SIGINT)
                    self.assertIn(process.wait(30), (0, 130))
                finally:
                    process.kill()


class ServerTest(unittest.TestCase):
    """Who may drive the board: its own page alone."""

    @classmethod
    def setUpClass(cls) -> None:
        cls.session = Session(towns())
        cls.addClassCleanup(cls.session.end)
        cls.server = BoardServer(cls.session)
        cls.addClassCleanup(cls.server.server_close)
        threading.Thread(target=cls.server.serve_forever, daemon=True).start()
        cls.addClassCleanup(cls.server.shutdown)

    def setUp(self) -> None:
        self.own = {
            "Host": self.server.hosts[0],
            "Origin": f"http://{self.server.hosts[0]}",
            "X-Board-Key": self.server.key,
            "Content-Type": "application/json",
        }

    def request(self, method: str, path: str, body: bytes = b"", **headers: str) -> tuple:
        connection = http.client.HTTPConnection("127.0.0.1", self.server.server_port, timeout=30)
        try:
            connection.putrequest(method, path, skip_host=True, skip_accept_encoding=True)
            for name, value in headers.items():
                connection.putheader(name.replace("_", "-"), value)
            if body:
                connection.putheader("Content-Length", str(len(body)))
            connection.endheaders(body)
            reply = connection.getresponse()
            return reply.status, reply.read(), reply.headers
        finally:
            connection.close()

    def post(self, body: bytes = b'{"do":"state"}', path: str = "/do", **changes: str) -> int:
        """A request of the page, but for the changes; an empty one leaves the header out."""
        headers = {
            name: value
            for name, value in {**self.own, **{n.replace("_", "-"): v for n, v in changes.items()}}.items()
            if value
        }
        return self.request("POST", path, body, **headers)[0]

    def test_own_page(self) -> None:
        self.assertEqual(self.post(), 200)
        other = self.server.hosts[1]
        self.assertEqual(self.post(Host=other, Origin=f"http://{other}"), 200)

    def test_only_loopback(self) -> None:
        self.assertEqual(self.server.server_address[0], "127.0.0.1")

    def test_key(self) -> None:
        for key in ["", "wrong", self.server.key[:-1], self.server.key + "a"]:
            self.assertEqual(self.post(X_Board_Key=key), 403, key)
        self.assertGreaterEqual(len(self.server.key), 32)
        with BoardServer(self.session) as other:
            self.assertNotEqual(self.server.key, other.key)

    def test_version(self) -> None:
        """What a tab asks for every second is for those alone who have the key, and takes no lock."""
        for key, status in ((self.server.key, 200), ("wrong", 403), ("", 403)):
            headers = {"Host": self.own["Host"], "X-Board-Key": key}
            got, body, _ = self.request("GET", "/version", **{name: value for name, value in headers.items() if value})
            self.assertEqual(got, status)
        foreign = {"Host": self.own["Host"], "X-Board-Key": self.server.key, "Origin": "http://elsewhere.example"}
        self.assertEqual(self.request("GET", "/version", **foreign)[0], 403)
        with self.server.board._lock:
            got, body, _ = self.request("GET", "/version", **{"Host": self.own["Host"], "X-Board-Key": self.server.key})
        self.assertEqual(json.loads(body), {"version": self.server.board.version})

    def test_names_that_are_no_text(self) -> None:
        """A node of a table whose bytes are no UTF-8 comes through as it is."""
        problem = towns()
        problem.add_node("Ulm\udcfc")
        with Session(problem) as session, BoardServer(session) as server:
            threading.Thread(target=server.serve_forever, daemon=True).start()
            connection = http.client.HTTPConnection("127.0.0.1", server.server_port, timeout=30)
            own = {"Origin": f"http://{server.hosts[0]}", "X-Board-Key": server.key, "Content-Type": "application/json"}
            connection.request("POST", "/do", b'{"do":"mark","name":"\\ud800"}', {**own, "Host": server.hosts[0]})
            state = json.loads(connection.getresponse().read())
            self.assertIn("nothing that can't be shown", state["error"])
            self.assertEqual(state["nodes"][-1][0], "Ulm\udcfc")
            connection.request("GET", "/export/report.html", headers={**own, "Host": server.hosts[0]})
            self.assertEqual(connection.getresponse().status, 200)
            connection.close()
            server.shutdown()

    def test_host(self) -> None:
        port = self.server.server_port
        for host in [
            "",
            "elsewhere.example",
            f"elsewhere.example:{port}",
            "127.0.0.1",
            f"127.0.0.1:{port + 1}",
            f"127.0.0.1.example:{port}",
        ]:
            self.assertEqual(self.post(Host=host, Origin=f"http://{host}"), 403, host)
            self.assertEqual(self.request("GET", "/", **({"Host": host} if host else {}))[0], 403, host)

    def test_origin(self) -> None:
        port = self.server.server_port
        for origin in [
            "",
            "null",
            "http://elsewhere.example",
            f"http://127.0.0.1:{port + 1}",
            f"https://127.0.0.1:{port}",
            f"http://127.0.0.1:{port}.example",
            f"http://localhost:{port}",
        ]:
            self.assertEqual(self.post(Origin=origin), 403, origin)
        self.assertEqual(self.post(Sec_Fetch_Site="cross-site"), 403)
        self.assertEqual(self.post(Sec_Fetch_Site="same-site"), 403)
        self.assertEqual(self.post(Sec_Fetch_Site="same-origin"), 200)

    def test_exports_want_the_key(self) -> None:
        get = {name: self.own[name] for name in ("Host", "X-Board-Key")}
        self.assertEqual(self.request("GET", "/export/plan.csv", **get)[0], 200)
        with mock.patch.object(self.server.board.session, "text", side_effect=Disagreement("the cost is another")):
            self.assertEqual(self.request("GET", "/export/problem.txt", **get)[0], 409)
        self.assertEqual(self.request("GET", "/export/plan.csv", Host=get["Host"])[0], 403)
        self.assertEqual(self.request("GET", "/export/plan.csv", **get, Origin="http://elsewhere.example")[0], 403)
        for name in ["server.py", "..%2Fserver.py", "../server.py", ""]:
            self.assertEqual(self.request("GET", f"/export/{name}", **get)[0], 404, name)

    def test_page_holds_no_secret_and_asks_nobody_else(self) -> None:
        for path in ["/", "/page.js", "/page.css"]:
            status, body, headers = self.request("GET", path, Host=self.own["Host"])
            self.assertEqual(status, 200)
            self.assertNotIn(self.server.key.encode(), body)
            self.assertIn("default-src 'none'", headers["Content-Security-Policy"])
            self.assertIn("frame-ancestors 'none'", headers["Content-Security-Policy"])
            self.assertIsNone(headers["Access-Control-Allow-Origin"])
            told = body.replace(b"http://www.w3.org/2000/svg", b"")
            self.assertNotIn(b"://", told)
        for path in ["/server.py", "/../server.py", "/__init__.py", "/page.html"]:
            self.assertEqual(self.request("GET", path, Host=self.own["Host"])[0], 404, path)

    def test_other_methods_and_bodies(self) -> None:
        for method in ["PUT", "DELETE", "OPTIONS", "PATCH"]:
            self.assertEqual(self.request(method, "/do", **self.own)[0], 501)
        self.assertEqual(self.post(b"not json"), 400)
        self.assertEqual(self.post(b"[1]"), 400)
        errors = io.StringIO()
        with contextlib.redirect_stderr(errors):
            for nested in (
                b"[" * 500_000,
                b'{"do":' * 100_000,
                b'{"do":"state","x":' + b"[" * 90_000 + b"]" * 90_000 + b"}",
            ):
                self.assertEqual(self.post(nested), 400)
        self.assertEqual(errors.getvalue(), "")
        self.assertEqual(self.post(b'{"do":"edits","edits":[7]}'), 400)
        self.assertEqual(self.post(Content_Type="text/plain"), 415)
        self.assertEqual(self.post(path="/other"), 404)
        self.assertEqual(self.request("POST", "/do", **{**self.own, "Content-Length": str(MOST_BYTES + 1)})[0], 413)
        for length in ("-1", "9" * 5000, "\u00b2", "1.5"):
            self.assertEqual(self.request("POST", "/do", **{**self.own, "Content-Length": length})[0], 413)
        self.assertEqual(self.post(), 200)


if __name__ == "__main__":
    unittest.main()
