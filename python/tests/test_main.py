"""The command mcf-plan, run as a process: what it prints, and its statuses."""

import contextlib
import gzip
import io
import json
import os
import re
import signal
import socket
import stat
import subprocess
import sys
import tempfile
import time
import unittest
from pathlib import Path
from unittest import mock
from xml.etree import ElementTree

from limits import HEARD

from mcf_plan import Disagreement
from mcf_plan.cli import main

TOP = Path(__file__).resolve().parents[2]
COMMAND = str(TOP / "mcf-plan")
NODES = "town,supply\nKiel,5\nUlm,-3.5\nBonn,-1.5\n"
ARCS = "from,to,capacity,cost,name\nKiel,Ulm,2,1.25,road\nKiel,Ulm,,4,rail\nKiel,Bonn,9,2,\n"
TAKEN = """note: amounts go in steps of 0.1, by the decimals in the tables
note: 1 arc without a capacity may carry any amount
"""


def waited_for(condition, seconds=60):
    """Whether the condition came true in time."""
    for _ in range(seconds * 20):
        if condition():
            return True
        time.sleep(0.05)
    return False


def is_running(number):
    """Whether the process of this number still runs: one that has ended, and that nobody asked for yet, does not."""
    try:
        return Path(f"/proc/{number}/stat").read_text().rsplit(")", 1)[1].split()[0] != "Z"
    except FileNotFoundError:
        return False


def run_over(streams, *words):
    """Runs the command with its streams as a shell has them by these words, as `2>&-`."""
    command = ["sh", "-c", f'exec "$@" {streams}', "sh", COMMAND, *words]
    return subprocess.run(command, capture_output=True, text=True, check=False)


class Command(unittest.TestCase):
    def setUp(self):
        self.folder = tempfile.TemporaryDirectory()
        self.addCleanup(self.folder.cleanup)
        self.nodes, self.arcs = self.file("nodes.csv", NODES), self.file("arcs.csv", ARCS)

    def file(self, name, text):
        path = Path(self.folder.name) / name
        path.write_text(text, encoding="utf-8")
        return str(path)

    def run_it(self, *words, text="", status=0):
        done = subprocess.run(
            [COMMAND, *words], input=text, capture_output=True, text=True, check=False, cwd=self.folder.name
        )
        self.assertEqual(done.returncode, status, done.stdout + done.stderr)
        self.assertNotIn("Traceback", done.stderr)
        return done.stdout, done.stderr

    def test_plan(self):
        out, _ = self.run_it("plan", self.nodes, self.arcs)
        self.assertEqual(
            out,
            "cost 11.5\n"
            "from  to    name  flow  capacity  cost\n"
            "Kiel  Ulm   road     2         2  1.25\n"
            "Kiel  Ulm   rail   1.5               4\n"
            "Kiel  Bonn         1.5         9     2\n",
        )

    def test_plan_to_files(self):
        out, _ = self.run_it(
            "plan",
            self.nodes,
            self.arcs,
            "--json",
            "--report",
            "plan.html",
            "--picture",
            "plan.svg",
            "--table",
            "plan.csv",
            "--title",
            "Week 1",
        )
        self.assertEqual(json.loads(out)["cost"], "11.5")
        folder = Path(self.folder.name)
        self.assertIn("Week 1", (folder / "plan.html").read_text())
        self.assertIn("<svg", (folder / "plan.svg").read_text())
        self.assertIn("Kiel,Ulm,0,2,1.25,2,2.5,yes", (folder / "plan.csv").read_text())

    def test_a_text_of_another_kind(self):
        """A text says its kind itself, and what is said of it beside that is not passed over."""
        text = self.file("max.min", "p max 2 1\nn 1 s\nn 2 t\na 1 2 9\n")
        for words, wanted in (
            (("--kind", "asn"), "--kind asn is said, and the kind of this text is max"),
            (("--kind", "min"), "--kind min is said, and the kind of this text is max"),
            (("--kind", "max", "--source", "2", "--sink", "1"), "--source 2 is said, and the source of this text is 1"),
        ):
            with self.subTest(words):
                self.assertIn(wanted, self.run_it("plan", text, *words, status=3)[1])
        self.assertTrue(
            self.run_it("plan", text, "--kind", "max", "--source", "1", "--sink", "2")[0].startswith("flow 9")
        )
        other = self.file("other.min", "p min 2 1\na 1 2 0 9 1\n")
        self.assertIn("the kind of this text is min", self.run_it("plan", other, "--kind", "max", status=3)[1])
        self.assertIn("the source of this text is none", self.run_it("plan", other, "--source", "1", status=3)[1])

    def test_what_is_said_of_tables_for_a_text(self):
        """It would be passed over, and is refused."""
        text = str(TOP / "examples/diamond/problem.min")
        for words in (
            ("--columns", "cost=fee"),
            ("--decimal", ","),
            ("--default-cost", "0"),
            ("--encoding", "cp1252"),
        ):
            with self.subTest(words):
                _, errors = self.run_it("plan", text, *words, status=3)
                self.assertIn(f"problem.min: {words[0]} is said, and this is a problem text", errors)
        self.run_it("plan", text, "--round", "0", "--kind", "min")
        _, errors = self.run_it("plan", self.nodes, self.arcs, "--source", "Kiel", "--sink", "Ulm", status=3)
        self.assertIn("--source Kiel is said, and a maximum flow alone has one", errors)

    def test_other_forms_of_letters(self):
        nodes, arcs = self.file("n.csv", "name,supply\nK\u00f6ln,1\nUlm,-1\n"), self.file(
            "a.csv", "from,to,cost\nK\u00f6ln,Ulm,2\n"
        )
        for words in (
            ("sweep", nodes, arcs, "--supply", "Ko\u0308ln", "--beside", "Ulm", "--values", "1"),
            ("ranges", nodes, arcs, "--only", "Ko\u0308ln Ulm"),
            ("ranges", nodes, arcs, "--supplies", "--beside", "Ko\u0308ln"),
        ):
            self.run_it(*words)

    def test_letters_that_the_output_does_not_have(self):
        """They are printed by their numbers, in JSON too, and the files that were asked for have them."""
        nodes = self.file("orte.csv", "town,supply\nKöln,5\n東京,-2\n🚢,-3\n")
        arcs = self.file("wege.csv", "from,to,capacity,cost\nKöln,東京,9,2\nKöln,🚢,,1\n")
        for settings in (
            {"PYTHONIOENCODING": "ascii"},
            {"PYTHONIOENCODING": "ascii:strict"},
            {"LC_ALL": "C", "PYTHONUTF8": "0", "PYTHONCOERCECLOCALE": "0"},
        ):
            with self.subTest(settings), mock.patch.dict(os.environ, settings):
                out, _ = self.run_it("plan", nodes, arcs, "--table", "plan.csv")
                self.assertIn("\nK\\u00f6ln  \\u6771\\u4eac     2         9     2\n", out)
                self.assertIn("\nK\\u00f6ln  \\ud83d\\udea2      3               1\n", out)
                table = (Path(self.folder.name) / "plan.csv").read_text(encoding="utf-8")
                self.assertIn("Köln,🚢,", table)
                told = json.loads(self.run_it("plan", nodes, arcs, "--json")[0])
                self.assertEqual([arc["to"] for arc in told["arcs"]], ["東京", "🚢"])
                self.assertIn("K\\u00f6ln", self.run_it("ranges", nodes, arcs)[0])
                self.assertIn("K\\u00f6ln", self.run_it("sweep", nodes, arcs, "--cap", "#1", "--values", "9")[0])
                self.run_it("plan", "--columns", "cost=Größe", nodes, arcs, status=3)
        with mock.patch.dict(os.environ, {"PYTHONIOENCODING": "ascii:replace"}):
            self.assertIn("\nK?ln  ??     2         9     2\n", self.run_it("plan", nodes, arcs)[0])

    def test_input_that_is_no_letter(self):
        """It is refused on its line alone, and a wrong answer is told whatever it has."""
        with mock.patch.dict(os.environ, {"PYTHONIOENCODING": "ascii"}):
            out, _ = self.run_it("what-if", self.nodes, self.arcs, text="cap straße 1\ncap road 1\n", status=3)
        self.assertIn("refused, nothing is changed: there is no arc stra\\xc3\\x9fe", out)
        self.assertIn("cost 14.25 (2.75 more)", out)
        (Path(self.folder.name) / "answer").write_bytes(b"s 14\n\xdf\n")
        _, errors = self.run_it("explain", str(TOP / "examples/diamond/problem.min"), "--answer", "answer", status=3)
        self.assertNotIn("codec", errors)

    def test_streams_that_are_closed(self):
        for words, closed, status, out, errors in (
            (("plan", self.nodes, self.arcs), "<&-", 0, "cost 11.5", TAKEN),
            (("plan", self.nodes, self.arcs), "2>&-", 0, "cost 11.5", ""),
            (("plan", self.nodes, self.arcs), ">&-", 4, "", "mcf-plan: the output is closed\n"),
            (("plan", self.nodes, self.arcs), ">&- 2>&- <&-", 4, "", ""),
            (("plan", self.nodes), "2>&-", 3, "", ""),
            (("plan", "--nonsense"), "2>&-", 2, "", ""),
            (("what-if", self.nodes, self.arcs), "<&-", 0, "cost 11.5", TAKEN),
            (("plan", "-"), "<&-", 3, "", "mcf-plan: the problem: There is nothing in it."),
        ):
            with self.subTest(f"{words[0]} {closed}"):
                done = run_over(closed, *words)
                self.assertEqual(done.returncode, status, done.stderr)
                self.assertEqual((done.stdout[: len(out)], done.stderr[: len(errors)]), (out, errors))
                self.assertEqual((bool(done.stdout), bool(done.stderr)), (bool(out), bool(errors)))

    def test_streams_that_take_nothing(self):
        """The status is the one that is documented, and nothing of Python's is said."""
        for words, where, status in (
            (("--help",), ">/dev/full", 4),
            (("plan", "--help"), ">/dev/full", 4),
            (("--version",), ">/dev/full", 4),
            (("plan", self.nodes, self.arcs), ">/dev/full", 4),
            (("plan", self.nodes, "nothing.csv"), "2>/dev/full", 4),
            (("plan", self.arcs, self.arcs), "2>/dev/full", 3),
            (("plan", "--nonsense"), "2>/dev/full", 2),
            (("plan", "--nonsense"), ">/dev/full", 2),
        ):
            for buffered in ("", "1"):
                with self.subTest(f"{words} {where}"), mock.patch.dict(os.environ, {"PYTHONUNBUFFERED": buffered}):
                    done = run_over(where, *words)
                    self.assertEqual(done.returncode, status, done.stderr)
                    self.assertNotIn("Traceback", done.stderr)
                    self.assertNotIn("Exception", done.stderr)

    def test_files_that_cannot_be_written(self):
        """What was asked for is not all there, so nothing is printed."""
        for command, *words in (
            ("plan", "--table", "nowhere/plan.csv"),
            ("plan", "--report", "nowhere/plan.html"),
            ("sweep", "--cap", "road", "--values", "1", "--table", "nowhere/sweep.csv"),
            ("sweep", "--cap", "road", "--values", "1", "--chart", "nowhere/sweep.svg"),
        ):
            with self.subTest(words):
                out, errors = self.run_it(command, self.nodes, self.arcs, *words, status=4)
                self.assertEqual((out, errors), ("", f"{TAKEN}mcf-plan: {words[-1]}: No such file or directory\n"))

    def test_no_plan(self):
        nodes = self.file("more.csv", NODES.replace("5\n", "15\n", 1))
        out, _ = self.run_it("plan", nodes, self.arcs, status=1)
        self.assertIn("all nodes together supply 15 and demand 5, so 10 are too many", out)
        out, _ = self.run_it("explain", nodes, self.arcs, status=1)
        self.assertIn("There is no plan", out)
        out, _ = self.run_it("plan", nodes, self.arcs, "--surplus", "keep")
        self.assertIn("10 stays at Kiel", out)
        out, _ = self.run_it("plan", nodes, self.arcs, "--surplus", "0.5")
        self.assertIn("cost 16.5", out)

    def test_statuses(self):
        for name, text, status, words in (
            ("fault.min", "p min 2 1\na 1 2 0 x 1\n", 3, "fault.min, line 2, CAP: 'x'"),
            ("circle.min", "p min 2 2\na 1 2 0 inf -2\na 2 1 0 inf 1\n", 6, "1 to 2, 2 to 1 no arc has a capacity"),
            ("fine.min", "p min 2 1\nn 1 0\na 1 2 0 1 2000000000000\n", 7, "larger unit of money"),
            ("table.csv", "from,to,cost\na,b,x\n", 3, "table.csv, line 2, column 'cost'"),
        ):
            with self.subTest(name):
                _, errors = self.run_it("plan", self.file(name, text), status=status)
                self.assertIn(words, errors)
        self.run_it("plan", "nowhere.min", status=4)
        self.run_it("plan", status=2)
        self.run_it("plan", self.nodes, self.arcs, "--kind", "max", status=3)
        self.run_it("plan", self.nodes, self.arcs, "--surplus", "much", status=2)

    def test_other_kinds(self):
        pairs = self.file("pairs.csv", "from,to,cost\nAnn,early,3\nAnn,late,5\nBob,early,2\nBob,late,9\n")
        out, _ = self.run_it("plan", pairs, "--kind", "asn")
        self.assertIn("cost 7\n", out)
        pipes = self.file("pipes.csv", "from,to,capacity\na,b,1.5\nb,c,4\n")
        out, _ = self.run_it("plan", pipes, "--kind", "max", "--source", "a", "--sink", "c")
        self.assertIn("flow 1.5\n", out)
        out, _ = self.run_it("plan", "-", text="p max 2 2\nn 1 s\nn 2 t\na 1 2 3000000000\na 1 2 3000000000\n")
        self.assertIn("flow 6000000000\n", out)

    def test_convert(self):
        theirs = self.file("theirs.min", "p min 2 1\na 1 2 0 inf 4.0 c a road\nn 1 +3\nn 2 -3\n")
        out, errors = self.run_it("convert", theirs)
        self.assertEqual(out, "p min 2 1\nn 1 3\nn 2 -3\na 1 2 0 1000000000 4\n")
        self.assertIn("1 arc without a capacity", errors)
        self.run_it("convert", self.nodes, self.arcs, "-o", "ours.min")
        done = subprocess.run(
            [os.environ["MCF"], "solve", self.folder.name + "/ours.min"], capture_output=True, text=True, check=False
        )
        self.assertTrue(done.stdout.startswith("s 11500\n"), done.stdout)

    def test_convert_where_there_is_no_plan_and_a_circle_saves(self):
        """As in `plan`, that there is no plan is the answer, and the text has it; where there are plans, none is best."""
        circle = "from,to,capacity,cost\nb,a,,-3\na,b,,2\n"
        for kind, arcs in (("min", circle + "c,d,1,5\n"), ("max", "from,to,low,capacity\na,b,,\nb,a,,\nc,d,1,2\n")):
            with self.subTest(kind):
                nodes = self.file("nodes.csv", "town,supply\na,0\nb,0\nc,2\nd,-2\n")
                tables = ([nodes] if kind == "min" else []) + [self.file("arcs.csv", arcs)]
                options = ["--kind", "max", "--source", "a", "--sink", "b"] if kind == "max" else []
                self.assertIn("There is no plan", self.run_it("plan", *tables, *options, status=1)[0])
                _, errors = self.run_it("convert", *tables, *options, "-o", "text")
                self.assertIn(
                    "note: there is no plan, by this text too; if there were plans, none would be best: ", errors
                )
                self.assertIn(
                    "a capacity: 1000000000 is written there, with more there would be no plan either", errors
                )
                text = self.folder.name + "/text"
                answer = subprocess.run([os.environ["MCF"], "solve", text], capture_output=True, text=True, check=False)
                self.assertEqual((answer.returncode, answer.stdout[:2]), (1, "i "), answer)
                explained = self.file("answer", answer.stdout)
                self.assertIn(
                    "There is no plan", self.run_it("explain", *tables, *options, "--answer", explained, status=1)[0]
                )
                wrote = self.run_it("what-if", *tables, *options, text="write again\nproof shown\n")[0]
                self.assertIn("written to again", wrote)
                checked = self.run_it("check", "again", "shown")[0]
                self.assertEqual(checked, "valid\n")
        arcs = self.file("arcs.csv", circle + "c,d,2,5\n")
        for command in ("plan", "convert", "explain", "ranges", "what-if"):
            _, errors = self.run_it(command, nodes, arcs, status=6)
            self.assertIn("there is no cheapest plan: around the circle", errors)

    def test_faults(self):
        out, _ = self.run_it("faults", self.file("a.min", "p min 2 1\na 1 2 0 5,5 3\n"), status=3)
        self.assertIn("a.min, line 2, CAP: '5,5' stands where", out)
        self.assertIn("\n    a 1 2 0 5,5 3\n", out)
        packed = Path(self.folder.name) / "a.min.gz"
        packed.write_bytes(gzip.compress(b"p min 2 1\n"))
        out, _ = self.run_it("faults", str(packed), status=3)
        self.assertEqual(len(out.splitlines()), 1, "a line that is no text is not shown")
        out, _ = self.run_it("faults", self.file("b.min", "p min 2 1\nn 1 5\na 1 2 0 5 3\n"))
        self.assertIn("supplies add up to 5", out)
        out, _ = self.run_it("faults", self.file("c.asn", "p asn 3 1\nn 1\na 1 2 3\n"))
        self.assertIn("1 on the source side and 2 on the sink side", out)
        good = str(TOP / "examples/diamond/problem.min")
        out, _ = self.run_it("faults", good, self.file("answer", "s 14\nf 1 2 2\n"), status=3)
        self.assertIn("line 2", out)

    def test_check(self):
        good = str(TOP / "examples/diamond/problem.min")
        answer = str(TOP / "examples/diamond/answer.sol")
        self.assertEqual(self.run_it("check", good, answer)[0], "valid\n")
        flows = self.file("flows", "\n".join(line for line in Path(answer).read_text().split("\n") if line[:1] == "f"))
        self.assertEqual(self.run_it("check", good, flows, "--from", "flows")[0], "valid\n")
        worse = self.file("worse", Path(flows).read_text().replace("f 1 2 2", "f 1 2 3"))
        self.assertEqual(self.run_it("check", good, worse, "--from", "flows", status=1)[0], "not valid\n")
        self.run_it("check", good, flows, status=3)

    def test_explain_of_an_answer(self):
        folder = TOP / "examples/starved"
        out, _ = self.run_it("explain", str(folder / "problem.min"), "--answer", str(folder / "cut.sol"), status=1)
        self.assertIn("at most 3 can leave", out)
        wrong = self.file("wrong.sol", (folder / "cut.sol").read_text().replace("i ", "i 1", 1))
        _, errors = self.run_it("explain", str(folder / "problem.min"), "--answer", wrong, status=3)
        self.assertIn("wrong.sol is no right answer to the problem: mcf check says of the answer: not valid", errors)

    def test_ranges(self):
        out, _ = self.run_it("ranges", self.nodes, self.arcs)
        self.assertIn("one more saves", out)
        self.assertRegex(out, r"Kiel +Ulm +road +2 +2\.75 +1\.25 +any +4 +2 +2 +2\n")
        out, _ = self.run_it("ranges", self.nodes, self.arcs, "--only", "Kiel Bonn", "--only", "road", "--only", "#2")
        self.assertEqual(re.findall(r"^Kiel +(\w+)", out, re.M), ["Bonn", "Ulm", "Ulm"])
        for wrong, words in (
            ("#99", "there is no arc #99 among "),
            ("Kiel Ulm", "there are several arcs Kiel to Ulm: say which by its number: they are #"),
            ("'", "a quotation mark or a backslash stands alone in '"),
        ):
            _, errors = self.run_it("ranges", self.nodes, self.arcs, "--only", wrong, status=3)
            self.assertIn(words, errors)

    def test_ranges_of_names_with_blanks(self):
        nodes = self.file("blanks.csv", "town,supply\nLager Süd,1\nMarkt 1,-1\n")
        arcs = self.file("streets.csv", "from,to,cost\nLager Süd,Markt 1,2\n")
        out, _ = self.run_it("ranges", nodes, arcs, "--only", '"Lager Süd" "Markt 1"')
        self.assertIn("Lager Süd  Markt 1", out)
        _, errors = self.run_it("ranges", nodes, arcs, "--only", "Lager Süd Markt 1", status=3)
        self.assertIn(
            "no arc Lager Süd Markt 1; names with blanks stand in quotes, as in '\"Bad Aibling\" Ulm'", errors
        )

    def test_names_are_looked_up_before_anything_is_solved(self):
        """A misspelling is told at once: here the program would never answer."""
        environment, begun = self.slow_program()
        for words, unknown in (
            (("ranges", "--only", "nowhere"), "arc nowhere"),
            (("ranges", "--supplies", "--beside", "Rom"), "node Rom"),
            (("sweep", "--cap", "nowhere", "--values", "1"), "arc nowhere"),
        ):
            with self.subTest(words), mock.patch.dict(os.environ, environment):
                _, errors = self.run_it(words[0], self.nodes, self.arcs, *words[1:], status=3)
                self.assertEqual(errors, f"{TAKEN}mcf-plan: there is no {unknown}\n")
                self.assertFalse(begun.exists())

    def test_ranges_of_supplies(self):
        out, _ = self.run_it("ranges", self.nodes, self.arcs, "--supplies", "--beside", "Kiel")
        self.assertRegex(out, r"node +supply +one more costs +one less costs\nKiel +\S+ +0 +0\n")
        _, errors = self.run_it("ranges", self.nodes, self.arcs, "--supplies", status=3)
        self.assertIn("say at which node the supply changes the other way, by `--beside NODE`", errors)
        _, errors = self.run_it("ranges", self.nodes, self.arcs, "--supplies", "--beside", "Rom", status=3)
        self.assertIn("there is no node Rom", errors)
        _, errors = self.run_it("ranges", self.nodes, self.arcs, "--beside", "Kiel", status=3)
        self.assertIn("--beside belongs to --supplies", errors)
        words = ("--supplies", "--beside", "Kiel", "--only", "road")
        _, errors = self.run_it("ranges", self.nodes, self.arcs, *words, status=3)
        self.assertIn("--only names arcs, and --supplies tells of nodes", errors)

    def test_ranges_of_other_kinds(self):
        pairs = self.file("pairs.csv", "from,to,cost\nAnn,early,3\nAnn,late,5\nBob,early,2\nBob,late,9\n")
        out, _ = self.run_it("ranges", pairs, "--kind", "asn")
        self.assertRegex(out, r"^cost 7\nfrom +to +name +flow +cost +best from +to\n(.*\n){4}$")
        pipes = self.file("pipes.csv", "from,to,capacity\na,b,1.5\nb,c,4\n")
        out, _ = self.run_it("ranges", pipes, "--kind", "max", "--source", "a", "--sink", "c")
        self.assertRegex(
            out, r"^flow 1\.5\nfrom.* one more adds +capacity +best from +to\na +b +1\.5 +1 +1\.5 +1\.5 +1\.5\n"
        )
        short = self.file("short.min", "p min 2 1\nn 1 5\nn 2 -5\na 1 2 0 3 1\n")
        out, _ = self.run_it("ranges", short, status=1)
        self.assertIn("There is no plan", out)

    def test_ranges_as_json(self):
        """The same figures as in the tables, with what has no meaning in a kind left out."""
        told = json.loads(self.run_it("ranges", self.nodes, self.arcs, "--only", "road", "--json")[0])
        self.assertEqual((told["kind"], told["feasible"]), ("min", True))
        (road,) = told["arcs"]
        self.assertEqual(list(road.values())[:5], ["Kiel", "Ulm", "road", "2", "2.75"])
        self.assertEqual([road[end] for end in ("unit_cost", "least_cost", "greatest_cost")], ["1.25", None, "4"])
        self.assertEqual([road[end] for end in ("capacity", "least_capacity", "greatest_capacity")], ["2", "2", "2"])
        told = json.loads(self.run_it("ranges", self.nodes, self.arcs, "--supplies", "--beside", "Kiel", "--json")[0])
        self.assertEqual([told["nodes"][0][field] for field in ("node", "one_more_costs")], ["Kiel", "0"])
        self.assertNotIn("arcs", told)
        pairs = self.file("pairs.csv", "from,to,cost\nAnn,early,3\nBob,early,2\nBob,late,9\n")
        told = json.loads(self.run_it("ranges", pairs, "--kind", "asn", "--json")[0])
        self.assertEqual(
            told["arcs"][1],
            {"from": "Bob", "to": "early", "name": None, "flow": "0"}
            | {"unit_cost": "2", "least_cost": None, "greatest_cost": None},
        )
        pipes = self.file("pipes.csv", "from,to,capacity\na,b,1.5\nb,c,4\n")
        told = json.loads(self.run_it("ranges", pipes, "--kind", "max", "--source", "a", "--sink", "c", "--json")[0])
        self.assertEqual((told["cost"], told["arcs"][0]["one_more_adds"]), ("1.5", "1"))
        short = self.file("short.min", "p min 2 1\nn 1 5\nn 2 -5\na 1 2 0 3 1\n")
        told = json.loads(self.run_it("ranges", short, "--json", status=1)[0])
        self.assertEqual((told["feasible"], told["shortage"]), (False, "2"))

    def test_sweep(self):
        folder = Path(self.folder.name)
        chart, table = str(folder / "chart.svg"), str(folder / "sweep.csv")
        asked = ("sweep", self.nodes, self.arcs, "--cap", "road", "--from", "0", "--to", "3")
        out, _ = self.run_it(*asked, "--chart", chart, "--table", table)
        told = re.findall(r"^ +(\d) +(\S+)", out, re.M)
        for value, cost in told:
            other = self.file("other.csv", ARCS.replace("Kiel,Ulm,2,", f"Kiel,Ulm,{value},"))
            self.assertTrue(self.run_it("plan", self.nodes, other)[0].startswith(f"cost {cost}\n"))
        self.assertEqual([value for value, _ in told], ["0", "1", "2", "3"])
        self.assertIn("cost over the capacity of road\n", out)
        rows = Path(table).read_text().splitlines()
        self.assertEqual((rows[0], len(rows)), ("value,cost,short by", 5))
        self.assertEqual([tuple(row.split(",")[:2]) for row in rows[1:]], told)
        ElementTree.parse(chart)
        points = json.loads(self.run_it(*asked, "--json")[0])["points"]
        self.assertEqual([(point["value"], point["cost"]) for point in points], told)
        out, _ = self.run_it("sweep", self.nodes, self.arcs, "--supply", "Kiel", "--values", "1", status=1)
        self.assertIn("no plan", out)

    def test_tables_are_kept(self):
        """What is asked for takes the place of no table that is read."""
        chart = Path(self.folder.name) / "chart.svg"
        chart.symlink_to(self.arcs)
        for command, *words in (
            ("plan", "--table", self.arcs),
            ("sweep", "--cap", "road", "--values", "1", "--table", self.nodes),
            ("sweep", "--cap", "road", "--values", "1", "--chart", str(chart)),
            ("convert", "-o", self.arcs),
        ):
            with self.subTest(words):
                out, errors = self.run_it(command, self.nodes, self.arcs, *words, status=3)
                name = Path(words[-1]).name
                self.assertIn(f"mcf-plan: {name}: this would take the place of a table that is read; write", errors)
                self.assertEqual(out, "")
        commands = self.file(
            "commands", "".join(f"{word} {self.arcs}\n" for word in ("write", "proof", "report", "table"))
        )
        out, _ = self.run_it("what-if", self.nodes, self.arcs, "--commands", commands, status=3)
        self.assertEqual(out.count("refused, nothing is changed: arcs.csv: this would take the place of a table"), 4)
        self.assertEqual((Path(self.nodes).read_text(), Path(self.arcs).read_text()), (NODES, ARCS))
        for name, option in (("report.html", "--report"), ("plan.svg", "--picture")):
            (Path(self.folder.name) / name).symlink_to(self.arcs)
            self.assertIn("take the place", self.run_it("plan", self.nodes, self.arcs, option, name, status=3)[1])
        _, errors = self.run_it("plan", self.nodes, self.arcs, "--report", "./a", "--picture", "a", status=3)
        self.assertIn("the report and the picture would be one file", errors)
        text = self.file("problem", "p min 2 1\nn 1 1\nn 2 -1\na 1 2 0 9 1\n")
        for words in (
            ("plan", text, "--report", text),
            ("sweep", text, "--cap", "#1", "--values", "1", "--chart", text),
        ):
            self.assertIn("take the place of the text", self.run_it(*words, status=3)[1])
        out, _ = self.run_it("what-if", text, text=f"proof {text}\nreport {text}\nwrite {text}\n", status=3)
        self.assertEqual((out.count("refused"), out.count("written")), (2, 1))
        self.run_it("convert", text, "-o", text)
        texts = self.file("nodes.txt", NODES), self.file("arcs.txt", ARCS)
        self.assertIn("take the place", self.run_it("convert", *texts, "-o", texts[1], status=3)[1])
        problem = self.file("same.min", "p min 2 1\na 1 2 0 9 1\n")
        self.assertEqual(self.run_it("convert", problem, "-o", problem), ("", ""))

    def test_sweep_over_values_below_0(self):
        """Those of a demand; argparse alone takes a list of them for an option."""
        asked = ("sweep", self.nodes, self.arcs, "--supply", "Ulm", "--beside", "Kiel", "--values")
        out, _ = self.run_it(*asked, "-3,-3.5")
        self.assertEqual(re.findall(r"^ *(-\S+) +(\S+)", out, re.M), [("-3", "9.5"), ("-3.5", "11.5")])

    def test_sweep_refused(self):
        for words, status in (
            ((), 2),
            (("--cap", "road"), 3),
            (("--cap", "road", "--from", "0", "--to", "3", "--step", "0"), 3),
            (("--cap", "road", "--values", "1", "--to", "3"), 3),
            (("--cap", "road", "--values", "1", "--step", "2"), 3),
            (("--cap", "road", "--values", "much"), 2),
            (("--cap", "nowhere", "--values", "1"), 3),
            (("--cap", "road", "--cost", "road", "--values", "1"), 2),
            (("--supply", "Rom", "--values", "1"), 3),
            (("--cap", "road", "--beside", "Kiel", "--values", "1"), 3),
            (("--supply", "Kiel", "--beside", "Kiel", "--values", "6"), 3),
            (("--cap", "road", "--values", "1", "--table", "sweep.txt"), 3),
        ):
            with self.subTest(words):
                self.run_it("sweep", self.nodes, self.arcs, *words, status=status)

    def test_commands_of_other_encodings(self):
        """The mark of UTF-8 is none of the first command, and what is no UTF-8 is refused on its line alone."""
        commands = Path(self.folder.name) / "commands"
        commands.write_bytes(b"\xef\xbb\xbfcap road 1\r\ncap stra\xdfe 1\r\nundo\r\n")
        out, errors = self.run_it("what-if", self.nodes, self.arcs, "--commands", str(commands), status=3)
        self.assertEqual(errors, f"{TAKEN}mcf-plan: {commands}: line 2 was not done\n")
        self.assertEqual(
            out.splitlines()[1:],
            [
                "what if> cap road 1",
                "cost 14.25 (2.75 more)",
                "what if> cap stra\\xdfe 1",
                "refused, nothing is changed: there is no arc stra\\xdfe",
                "what if> undo",
                "cost 11.5 (2.75 less)",
            ],
        )

    def test_sweep_over_a_value_that_is_refused(self):
        """Nothing is printed then, and the status is not that of no plan."""
        for words, reason in (
            (("--cap", "road", "--values", "1,-1"), "the capacity of road would be -1, below 0"),
            (
                ("--low", "road", "--from", "0", "--to", "3"),
                "the lower bound of road would be 3, above its capacity, 2",
            ),
        ):
            with self.subTest(words):
                out, errors = self.run_it("sweep", self.nodes, self.arcs, *words, status=3)
                self.assertEqual((out, errors), ("", f"{TAKEN}mcf-plan: {reason}\n"))

    def test_what_if(self):
        commands = self.file(
            "commands",
            "\n".join(
                (
                    "cap road 1.5",
                    "undo",
                    'cost "Kiel to Bonn" 3',
                    "cap Kiel Bonn 1",
                    "why",
                    "back nowhere",
                    "undo",
                    "mark dear",
                    "group",
                    "supply Kiel 6",
                    "supply Ulm -4.5",
                    "end",
                    "add Ulm Bonn capacity 2 cost 0.5 name ferry",
                    "close ferry",
                    "back dear",
                    "moments",
                    "group",
                    "cap road 9",
                    "cap nowhere 9",
                    "cap road 7",
                    "end",
                    "show",
                    "nonsense",
                    "saves",
                    "write now.min",
                    "proof now.sol",
                    "table now.csv",
                    "# a remark",
                    "cap #1 inf",
                    "quit",
                    "never",
                )
            )
            + "\n",
        )
        out, errors = self.run_it("what-if", self.nodes, self.arcs, "--commands", commands, status=3)
        first = Path(commands).read_text().splitlines().index("back nowhere") + 1
        self.assertEqual(
            errors, f"{TAKEN}mcf-plan: {commands}: 3 lines were not done, the first of them line {first}\n"
        )
        for words in (
            "cost 11.5\nwhat if> cap road 1.5\ncost 12.875 (1.375 more)\nwhat if> undo\ncost 11.5 (1.375 less)\n",
            "no plan: short by 0.5; `why` tells more",
            "Seen from the other side: Bonn demands 1.5, and at most 1 can come in",
            "refused, nothing is changed: no moment bears the mark nowhere",
            "dear: cost 13\n",
            "what if> group\nwhat if> supply Kiel 6\nwhat if> supply Ulm -4.5\nwhat if> end\n" "cost 17 (4 more)\n",
            "what if> cap nowhere 9\n"
            "refused: there is no arc nowhere; the whole group is refused, and its lines up to `end` are passed over\n"
            "what if> cap road 7\npassed over\n"
            "what if> end\nthe group is refused, nothing is changed: there is no arc nowhere\n"
            "what if> show\ncost 13\n",
            "refused, nothing is changed: there is no command nonsense",
            "arc   one more saves\nroad            2.75\n",
            "what if> cap #1 inf\ncost 8.875 (4.125 less)",
            "written to now.min",
        ):
            self.assertIn(words, out)
        self.assertNotIn("never", out)
        done = subprocess.run(
            [os.environ["MCF"], "check", "now.min", "now.sol"],
            capture_output=True,
            text=True,
            check=False,
            cwd=self.folder.name,
        )
        self.assertEqual(done.stdout, "valid\n")

    def test_what_if_from_the_input(self):
        out, _ = self.run_it("what-if", str(TOP / "examples/deliveries/problem.min"), text="cap 1 3 2\nsupply 5 -6\n")
        self.assertIn("cost 86 (20 more)", out)
        self.assertIn("no plan: short by 1", out)
        out, _ = self.run_it("what-if", self.nodes, self.arcs, text="\ufeffcap road 1\n")
        self.assertIn("what if> cap road 1\ncost 14.25 (2.75 more)", out)

    def test_what_if_says_by_its_status_which_line_was_not_done(self):
        """As `ed` and `sqlite3` do, where the lines come from a file or a pipe: nobody may have seen the refusal."""
        for lines, status, words in (
            ("cap road 1\nundo\nshow\nwhy\n# remark\n\nhelp\nquit\nnonsense\n", 0, ""),
            ("supply Ulm -9\nwhy\n", 0, ""),
            ("cap road 1\ncap nix 1\nundo\n", 3, "line 2 was not done"),
            ("\ncap nix 1\ncap road 1\nredo 2\n", 3, "2 lines were not done, the first of them line 2"),
            ("group\ncap nix 1\ncap road 1\nend\nshow\n", 3, "line 2 was not done"),
            ("group\ncap road 1\n", 3, "line 2 was not done"),
            ("supply Ulm -9\ntable plan.csv\n", 3, "line 2 was not done"),
            ("write nowhere/plan.min\nnonsense\n", 4, "2 lines were not done, the first of them line 1"),
        ):
            with self.subTest(lines):
                _, errors = self.run_it("what-if", self.nodes, self.arcs, text=lines, status=status)
                self.assertEqual(errors, TAKEN + (f"mcf-plan: the commands: {words}\n" if words else ""))

    def test_texts_of_a_wrong_answer_that_can_not_be_kept(self):
        errors, full = io.StringIO(), OSError(28, "No space left on device", "/tmp/mcf-plan-1")
        wrong = Disagreement("mcf check says of the answer: not valid", "p min 1 0\n", "s 0\n")
        with contextlib.redirect_stderr(errors), mock.patch("tempfile.mkdtemp", side_effect=full):
            with mock.patch("mcf_plan.problem.Problem.solve", side_effect=wrong):
                self.assertEqual(main(["plan", self.nodes, self.arcs]), 8)
        self.assertIn("the texts could not be kept: /tmp/mcf-plan-1: No space left on device", errors.getvalue())

    def test_the_file_of_commands_is_kept(self):
        lines = "".join(f"{word} commands\n" for word in ("write", "proof", "report"))
        out, _ = self.run_it("what-if", self.nodes, self.arcs, "--commands", self.file("commands", lines), status=3)
        self.assertEqual(out.count("refused, nothing is changed: commands: this would take the place of the text"), 3)
        self.assertEqual((Path(self.folder.name) / "commands").read_text(), lines)

    def slow_program(self):
        """The environment with a program that never answers, which writes its number to the file that is returned."""
        path, begun = Path(self.folder.name) / "slow", Path(self.folder.name) / "begun"
        begun.unlink(missing_ok=True)
        path.write_text(f"#!/bin/sh\necho $$ >{begun}.part\nmv {begun}.part {begun}\nexec sleep 20\n")
        path.chmod(path.stat().st_mode | stat.S_IXUSR)
        return dict(os.environ, MCF=str(path)), begun

    def ended_by(self, number, environment, begun, *words):
        """The status and the words of a command that a signal ends once the file is there, and how long that took."""
        with subprocess.Popen(
            [COMMAND, *(words or ("plan", self.nodes, self.arcs))],
            env=environment,
            stdout=subprocess.DEVNULL,
            stderr=subprocess.PIPE,
            text=True,
        ) as process:
            try:
                self.assertTrue(waited_for(begun.exists))
                time.sleep(0.3)
                start = time.monotonic()
                process.send_signal(number)
                _, errors = process.communicate(timeout=15)
                return process.returncode, errors, time.monotonic() - start
            finally:
                process.kill()

    def test_ctrl_c(self):
        status, errors, took = self.ended_by(signal.SIGINT, *self.slow_program())
        self.assertLess(took, HEARD)
        self.assertEqual((status, errors), (130, f"{TAKEN}mcf-plan: interrupted\n"))

    def test_signals_that_end_it_end_mcf_too(self):
        """Whoever ends mcf-plan, be it by SIGKILL, ends the program that works for it."""
        for number in (signal.SIGTERM, signal.SIGHUP, signal.SIGKILL):
            for words in (("plan", self.nodes, self.arcs), ("what-if", self.nodes, self.arcs)):
                with self.subTest(number=number, command=words[0]):
                    environment, begun = self.slow_program()
                    status, errors, took = self.ended_by(number, environment, begun, *words)
                    self.assertEqual((status, errors), (-number, TAKEN))
                    self.assertLess(took, HEARD)
                    self.assertTrue(waited_for(lambda: not is_running(int(begun.read_text()))))

    def test_ctrl_c_while_modules_are_loaded(self):
        """A module that is loaded slowly stands in for a slow disk: no words of Python's are shown."""
        begun = Path(self.folder.name) / "begun"
        self.file("shlex.py", f"import time\nopen({str(begun)!r}, 'w').close()\ntime.sleep(20)\n")
        environment = dict(os.environ, PYTHONPATH=self.folder.name)
        status, errors, _ = self.ended_by(signal.SIGINT, environment, begun)
        self.assertEqual((status, errors), (-signal.SIGINT, ""))

    def test_no_module_is_taken_from_the_current_folder(self):
        for name in ("csv.py", "decimal.py", "mcf_plan.py"):
            self.file(name, "raise SystemExit('taken from the current folder')")
        self.assertIn("cost 11.5", self.run_it("plan", self.nodes, self.arcs)[0])

    def test_time_limit_says_what_was_given(self):
        environment, _ = self.slow_program()
        for words in (("plan",), ("explain",), ("ranges",), ("what-if",), ("board",)):
            with self.subTest(words[0]):
                done = subprocess.run(
                    [COMMAND, *words, self.nodes, self.arcs, "--time-limit", "0.8"],
                    env=environment,
                    capture_output=True,
                    text=True,
                    check=False,
                )
                late = f"{TAKEN}mcf-plan: no answer within 0.8 seconds\n"
                self.assertEqual((done.returncode, done.stdout, done.stderr), (124, "", late))

    def test_time_limit_counts_the_reading(self):
        pipe = str(Path(self.folder.name) / "pipe.csv")
        os.mkfifo(pipe)
        for command in ("plan", "convert", "what-if"):
            _, errors = self.run_it(command, self.nodes, pipe, "--time-limit", "0.5", status=124)
            self.assertEqual(errors, "mcf-plan: no answer within 0.5 seconds\n")

    def test_refused_command_lines(self):
        for words, reason in (
            (("plan", "--surplus", "maybe"), "'maybe' is none of refuse, keep and a number, the cost of a unit"),
            (("plan", "--time-limit", "-3"), "'-3' is no number of seconds above 0"),
            (("plan", "--time-limit", "nan"), "'nan' is no number of seconds above 0"),
            (("what-if", "--time-limit", "soon"), "'soon' is no number of seconds above 0"),
            (("plan", "--picture", "a.png"), "'a.png' ends with .png, and a picture is SVG (.svg)"),
            (("plan", "--report", "a.pdf"), "'a.pdf' ends with .pdf, and a report is a page of HTML (.html)"),
            (("sweep", "--values", "1", "--chart", "a.png"), "'a.png' ends with .png, and a chart is SVG (.svg)"),
            (("plan", "--report", ""), "argument --report: the name of a file is empty"),
            (("plan", "--table", ""), "argument --table: the name of a file is empty"),
            (("what-if", "--commands", ""), "argument --commands: the name of a file is empty"),
            (("convert", "-o", ""), "argument -o/--output: the name of a file is empty"),
            (("plan", "--reports", "a"), "unrecognized arguments: --reports a; `mcf-plan --help` tells more"),
            (("board", "--port", "99999"), "'99999' is no port"),
            (("board", "--port", "-1"), "'-1' is no port"),
            (("board", "--port", "http"), "'http' is no port"),
        ):
            with self.subTest(words):
                command, *rest = words
                _, errors = self.run_it(command, self.nodes, self.arcs, *rest, status=2)
                self.assertIn(reason, errors)

    def test_no_plan_and_a_circle_without_limit(self):
        """Each command says that there is no plan."""
        arcs = self.file("circle.csv", "from,to,capacity,cost\nKiel,Ulm,1,1\nRom,Bari,,-1\nBari,Rom,,0\n")
        asked = ("sweep", self.nodes, arcs, "--cap", "#1", "--values", "1,2")
        for words in (("plan", self.nodes, arcs), ("explain", self.nodes, arcs), ("ranges", self.nodes, arcs), asked):
            with self.subTest(words[0]):
                self.assertRegex(self.run_it(*words, status=1)[0], "[Nn]o plan")
        lines = "why\nadd Kiel Bonn\nwrite a.min\nadd Kiel Ulm\n"
        out, _ = self.run_it("what-if", self.nodes, arcs, text=lines, status=3)
        self.assertIn("no plan: short by 4; `why` tells more\nwhat if> why\nThere is no plan", out)
        self.assertIn("no plan: short by 2.5; `why` tells more\nwhat if> write a.min\nwritten to a.min\n", out)
        self.assertIn("refused, nothing is changed: there is no cheapest plan: around the circle Rom to Bari", out)

    def test_names_of_tables_that_are_none(self):
        for words, status, reason in (
            (("plan", "", self.arcs), 2, "argument TABLE: the name of a file is empty"),
            (("plan", ""), 2, "argument TABLE: the name of a file is empty"),
            (("check", "", "answer"), 2, "argument PROBLEM: the name of a file is empty"),
            (("check", self.nodes, ""), 2, "argument ANSWER: the name of a file is empty"),
            (("faults", ""), 2, "argument PROBLEM: the name of a file is empty"),
            (("plan", self.nodes, "-"), 3, "-: a table is a file; the input is one by the name of /dev/stdin"),
        ):
            with self.subTest(words):
                self.assertIn(reason, self.run_it(*words, text=ARCS, status=status)[1])
        self.assertIn("cost 11.5", self.run_it("plan", self.nodes, "/dev/stdin", text=ARCS)[0])

    def test_port_that_is_taken(self):
        with socket.create_server(("127.0.0.1", 0)) as taken:
            port = str(taken.getsockname()[1])
            _, errors = self.run_it("board", self.nodes, self.arcs, "--port", port, status=4)
        self.assertEqual(errors, f"{TAKEN}mcf-plan: port {port}: Address already in use\n")

    def test_picture_that_cannot_be_read(self):
        rows = "".join(f"Kiel,Ulm,1,{cost}\n" for cost in range(3001))
        arcs = self.file("many.csv", "from,to,capacity,cost\n" + rows)
        nodes = self.file("two.csv", "name,supply\nKiel,5\nUlm,-5\n")
        out, errors = self.run_it("plan", nodes, arcs, "--picture", "many.svg", status=7)
        self.assertEqual(out, "")
        self.assertIn("--picture: the network has 3,001 arcs, and a picture of more than 3,000 can't be read", errors)
        self.assertFalse((Path(self.folder.name) / "many.svg").exists())
        self.run_it("plan", nodes, arcs, "--report", "many.html")

    def test_another_program_in_place_of_mcf(self):
        for program, words in (
            ("/bin/true", "/bin/true is not the program mcf"),
            ("/nowhere/mcf", "there is no program"),
        ):
            done = subprocess.run(
                [COMMAND, "plan", self.nodes, self.arcs],
                env=dict(os.environ, MCF=program),
                capture_output=True,
                text=True,
                check=False,
            )
            self.assertEqual((done.returncode, done.stdout), (4, ""))
            self.assertIn(words, done.stderr)

    def test_no_memory(self):
        errors = io.StringIO()
        with mock.patch("mcf_plan.cli._plan", side_effect=MemoryError), contextlib.redirect_stderr(errors):
            status = main(["plan", self.nodes, self.arcs])
        self.assertEqual((status, errors.getvalue()), (4, "mcf-plan: out of memory\n"))

    def test_help_and_version(self):
        out, _ = self.run_it("--help")
        for word in ("plan", "what-if", "board", "explain", "check", "faults", "convert", "ranges", "sweep"):
            self.assertIn(word, out)
        self.assertRegex(self.run_it("--version")[0], r"^mcf-plan \d")


if __name__ == "__main__":
    sys.exit(unittest.main())
