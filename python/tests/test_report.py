"""Reports: what they tell of a plan and of no plan, their pictures, and that nothing wrong is written."""

import csv
import dataclasses
import doctest
import io
import json
import shutil
import tempfile
import time
import unittest
import xml.etree.ElementTree as xml
from decimal import Decimal
from html.parser import HTMLParser
from pathlib import Path
from unittest import mock

from mcf_plan import Disagreement, Plan, Problem, report

SPACE = {"svg": "http://www.w3.org/2000/svg"}


def towns() -> Problem:
    problem = Problem()
    for name, supply in [("north & <sea>", 6), ("south", "4.5"), ("middle", 0), ("east", "-7.5"), ("west", -3)]:
        problem.add_node(name, supply)
    problem.add_arc("north & <sea>", "middle", cap=2, cost="1.25")
    problem.add_arc("north & <sea>", "west", cap=8, cost=3)
    problem.add_arc("south", "middle", cap=5, cost=2)
    problem.add_arc("middle", "east", cost="0.5")
    problem.add_arc("north & <sea>", "east", cap=5, cost=9, name='the "ferry"')
    problem.add_arc("middle", "middle", cap=1, cost=1)
    problem.add_arc("middle", "south", cap=1, cost=1)
    return problem


def pairs() -> Problem:
    problem = Problem("asn")
    for name, supply in [("Ann", 1), ("Ben", 1), ("day", -1), ("night", -1)]:
        problem.add_node(name, supply)
    for tail, head, cost in [("Ann", "day", 2), ("Ann", "night", 5), ("Ben", "day", 1)]:
        problem.add_arc(tail, head, cap=1, cost=cost)
    return problem


def pipes() -> Problem:
    problem = Problem("max", source="well", sink="town")
    problem.add_arc("well", "tower", cap=3)
    problem.add_arc("tower", "town", cap=2)
    return problem


class Tags(HTMLParser):
    """Looks whether each tag that was opened is closed, but for those that need not be."""

    def __init__(self) -> None:
        super().__init__()
        self.open: list = []
        self.cells: list = []

    def handle_starttag(self, tag: str, attrs: list) -> None:
        if tag not in ("meta", "input", "path", "circle", "polygon", "ellipse", "polyline", "title"):
            self.open.append(tag)

    def handle_endtag(self, tag: str) -> None:
        if tag not in ("path", "circle", "polygon", "ellipse", "polyline", "title"):
            assert self.open and self.open[-1] == tag, (tag, self.open)
            self.open.pop()

    def handle_data(self, data: str) -> None:
        if self.open and self.open[-1] in ("td", "th"):
            self.cells.append(data)


class ReportTest(unittest.TestCase):
    def setUp(self) -> None:
        self.plan = towns().solve()
        short = towns()
        short.nodes["east"] = Decimal("-8.5")
        self.none = short.solve()

    def test_numbers(self) -> None:
        self.assertEqual(doctest.testmod(report)[0], 0)

    def test_report_of_a_plan(self) -> None:
        text = report.html_text(self.plan, title="Towns & roads")
        tags = Tags()
        tags.feed(text)
        self.assertEqual(tags.open, [])
        self.assertIn("<title>Towns &amp; roads</title>", text)
        self.assertIn("Cheapest plan: 32.75", text)
        self.assertIn("north &amp; &lt;sea&gt;", text)
        self.assertNotIn("<sea>", text)
        self.assertNotIn("http://", text.replace("http://www.w3.org/", ""))
        row = tags.cells.index("middle") - 1
        self.assertEqual(
            tags.cells[row : row + 8], ["north & <sea>", "middle", "2", "2", "1.25", "2.5", "7.25", "full"]
        )

    def test_notes_for_a_planner(self) -> None:
        """What was taken for the user, and what it means for the plan; nothing of the text that the program reads."""
        taken = [
            "a.csv: the column 'weight' is left aside",
            "amounts go in steps of 0.1, by the decimals in the tables",
            "1 arc without a capacity may carry any amount",
        ]
        problem = towns()
        problem.notes.append(taken[0])
        short = towns()
        short.nodes["east"] = Decimal("-8.5")
        short.notes.append(taken[0])
        for result in (problem.solve(), short.solve()):
            self.assertEqual(result.notes, taken)
            self.assertEqual(json.loads(report.to_json(result))["notes"], taken)
            text = report.html_text(result)
            self.assertIn("<li>a.csv: the column &#x27;weight&#x27; is left aside</li><li>amounts go in steps", text)
        large = Problem()
        large.add_node("a", 3_000_000_000)
        large.add_node("b", -3_000_000_000)
        large.add_arc("a", "b", low=-5, cap=4_000_000_000, cost=1)
        self.assertEqual(large.solve(surplus="keep").notes, [])

    def test_saving_is_a_bound(self) -> None:
        saving = next(row.saving for row in report.arc_rows(self.plan) if row.saving is not None)
        wider = towns()
        wider.arcs[0] = wider.arcs[0]._replace(cap=Decimal(3))
        self.assertGreaterEqual(saving, self.plan.cost - wider.solve().cost)
        self.assertEqual([row.full for row in report.arc_rows(self.plan)], [True] + [False] * 6)

    def test_report_of_no_plan(self) -> None:
        text = report.html_text(self.none)
        tags = Tags()
        tags.feed(text)
        self.assertEqual(tags.open, [])
        self.assertIn("There is no plan: short by 1", text)

    def test_other_kinds(self) -> None:
        text = report.html_text(pipes().solve())
        self.assertIn("Most that can be sent: 2", text)
        self.assertIn("  tower to town: 2\n", text.replace("</pre>", "\n"))
        wide = Problem("max", source="well", sink="town")
        for _ in range(15):
            wide.add_arc("well", "town", cap=1)
        self.assertEqual(len(report.limit_text(wide.solve()).splitlines()), 14)
        self.assertTrue(report.limit_text(wide.solve()).endswith("\n  and 3 others"))
        dry = pipes()
        dry.arcs.pop()
        self.assertIn("No way leads from well to town.", report.html_text(dry.solve()))
        self.assertNotIn("Unit cost", text)
        text = report.html_text(pairs().solve())
        self.assertIn("Cheapest assignment: 6", text)
        self.assertEqual(text.count("<tr>"), 3)

    def test_pictures(self) -> None:
        for result in (self.plan, self.none, pipes().solve(), pairs().solve()):
            picture = xml.fromstring(report.svg_picture(result, graphviz=False))
            arcs = picture.findall("svg:g/svg:path", SPACE)
            self.assertEqual(len(arcs), len(result.problem.arcs))
            self.assertEqual(len(picture.findall("svg:g/svg:circle", SPACE)), len(result.problem.nodes))
            x, y, width, height = map(float, picture.attrib["viewBox"].split())
            for circle in picture.findall("svg:g/svg:circle", SPACE):
                self.assertTrue(
                    x < float(circle.attrib["cx"]) < x + width and y < float(circle.attrib["cy"]) < y + height
                )

    @unittest.skipUnless(shutil.which("dot"), "no Graphviz here: its pictures are not tried")
    def test_pictures_of_graphviz(self) -> None:
        for result in (self.plan, self.none, pipes().solve(), pairs().solve()):
            picture = xml.fromstring(report.svg_picture(result, graphviz=True))
            edges = [
                group for group in picture.iter("{http://www.w3.org/2000/svg}g") if group.attrib.get("class") == "edge"
            ]
            self.assertEqual(len(edges), len(result.problem.arcs))

    def test_names_that_no_picture_may_have(self) -> None:
        """XML has no control characters: a picture shows them by their numbers, and stays one that is read."""
        problem = Problem()
        problem.add_node("Ulm\x1b\udcfc", 1)
        problem.add_node("Ulm\\u001b", -1)
        problem.add_arc("Ulm\x1b\udcfc", "Ulm\\u001b", cost=2, name="\x07")
        for graphviz in (None, False):
            picture = report.svg_picture(problem.solve(), graphviz=graphviz)
            xml.fromstring(picture)
            self.assertIn("Ulm\\u001b\\xfc", picture)
        self.assertIn("Ulm\\u001b\\xfc", report.html_text(problem.solve()))
        alike = Problem()
        alike.add_arc("a\x1b", "a\\u001b", cap=1)
        self.assertEqual(report.svg_picture(alike.solve()).count("<circle"), 2)

    def test_layout(self) -> None:
        problem = towns()
        where = report.layout(problem)
        self.assertEqual(set(where), set(problem.nodes))
        self.assertEqual(len(set(where.values())), len(where))
        self.assertLess(where["south"][0], where["middle"][0])
        self.assertLess(where["middle"][0], where["east"][0])
        self.assertEqual(report.layout(Problem()), {})
        alone = Problem()
        alone.add_node("alone")
        self.assertEqual(len(report.layout(alone)), 1)
        problem.places = {name: (float(index), float(2 * index)) for index, name in enumerate(problem.nodes)}
        where = report.layout(problem)
        self.assertEqual(where["west"][1], 0)  # The greatest y is north.
        self.assertEqual(where["north & <sea>"], (0, report.MAP_SIDE))

    def test_a_place_that_is_missing(self) -> None:
        """Where a node has no place, the picture is the one that it is without places."""
        plan = towns().solve()
        plain = report.svg_picture(plan, graphviz=False)
        plan.problem.places = {name: (float(index), 0.0) for index, name in enumerate(list(plan.problem.nodes)[1:])}
        self.assertEqual(report.svg_picture(plan, graphviz=False), plain)
        self.assertFalse(report.is_map(plan.problem))

    def test_large_networks(self) -> None:
        """Places and columns of 50,000 nodes take seconds; a picture that can't be read is told, and not drawn."""
        problem = Problem()
        for index in range(50_000):
            problem.add_node(f"town {index}")
        for index in range(1, 50_000):
            problem.add_arc(f"town {index - 1}", f"town {index}", cap=1)
        begin = time.process_time()
        self.assertEqual(len(report.layout(problem)), 50_000)
        problem.places = {name: (index % 223, index // 223) for index, name in enumerate(problem.nodes)}
        self.assertEqual(len(set(report.layout(problem).values())), 50_000)
        self.assertLess(time.process_time() - begin, 10)
        few = Problem()
        few.add_node("a")
        for _ in range(report.MOST_DRAWN):
            few.add_arc("a", "a", cap=1)
        self.assertIn("<svg", report.html_text(few.solve()))
        few.add_arc("a", "a", cap=1)
        with self.assertRaises(ValueError):
            report.svg_picture(few.solve())
        text = report.html_text(few.solve())
        self.assertNotIn("<svg", text)
        self.assertIn("<p>The network has 3,001 arcs, and a picture of more than 3,000 can't be read.</p>", text)

    def test_csv(self) -> None:
        rows = list(csv.DictReader(io.StringIO(report.to_csv(self.plan))))
        self.assertEqual(len(rows), 7)
        self.assertEqual(sum(Decimal(row["total cost"]) for row in rows), self.plan.cost)
        self.assertEqual((rows[3]["capacity"], rows[4]["name"]), ("", 'the "ferry"'))
        with self.assertRaises(ValueError):
            report.to_csv(self.none)

    def test_json(self) -> None:
        told = json.loads(report.to_json(self.plan))
        self.assertEqual(told["notes"], self.plan.notes)
        self.assertEqual((told["feasible"], told["cost"], told["arcs"][0]["flow"]), (True, "32.75", "2"))
        self.assertIsNone(told["arcs"][3]["capacity"])
        self.assertEqual(set(told["prices"]), set(self.plan.problem.nodes))
        told = json.loads(report.to_json(self.none))
        self.assertEqual((told["feasible"], told["shortage"]), (False, "1"))
        self.assertTrue(told["cut"] and told["why"])

    def test_file(self) -> None:
        with tempfile.TemporaryDirectory() as folder:
            path = Path(folder) / "plan.html"
            report.html_report(self.plan, path)
            self.assertEqual(path.read_text(encoding="utf-8"), report.html_text(self.plan))

    def test_nothing_wrong_is_written(self) -> None:
        flows = list(self.plan.flows)
        flows[1] += 1
        wrong = dataclasses.replace(self.plan, flows=flows)
        dear = dataclasses.replace(self.plan, cost=self.plan.cost + 1)
        for result in (wrong, dear):
            for write in (report.html_text, report.svg_picture, report.to_csv, report.to_json):
                with self.assertRaises(Disagreement):
                    write(result)


class Savings(unittest.TestCase):
    def test_prices_that_bound_it_loosely(self):
        """The road is full and not too narrow: nothing is saved there, though the prices leave room for 9."""
        problem = Problem()
        problem.add_node("works", 5)
        problem.add_node("shop", -5)
        problem.add_arc("works", "shop", cap=5, cost=1)
        problem.add_arc("works", "shop", cost=10)
        plan = Plan(problem, [Decimal(5), Decimal(0)], Decimal(5), {"works": Decimal(0), "shop": Decimal(10)})
        plan.verify()
        self.assertEqual(report.savings(plan), [None, None])
        with mock.patch.object(report, "EXACT_UP_TO", 1):
            self.assertEqual(report.savings(plan), [Decimal(9), None])

    def test_first_step(self):
        """Half a unit saves 7 a unit, the next half only 3."""
        problem = Problem()
        problem.add_node("works", "2.5")
        problem.add_node("shop", "-2.5")
        for cap, cost in (("1.5", 2), ("0.5", 5), (9, 9)):
            problem.add_arc("works", "shop", cap=cap, cost=cost)
        self.assertEqual(report.savings(problem.solve()), [Decimal(7), Decimal(4), None])


if __name__ == "__main__":
    unittest.main()
