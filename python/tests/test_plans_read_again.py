"""A plan that mcf-plan wrote as a table is a table of arcs again, with the same meaning: each writer, each reader."""

import csv
import json
import sys
import tempfile
import unittest
from decimal import Decimal
from pathlib import Path

from mcf_plan import Problem
from mcf_plan.report import to_csv, to_json
from mcf_plan.tables import PLAN_COLUMNS, TableFault, plan_rows, read_tables, write_plan

try:
    import pandas
except ImportError:
    pandas = None
try:
    import openpyxl
except ImportError:
    openpyxl = None

NAMES = (("0", "B 10", 'the "ferry", by night', "1.125"), ("", "", "7", ""), ("", "", "", ""))


def shipped(names):
    """A problem whose numbers could be read in two ways, were it not known that mcf-plan writes decimal points."""
    problem = Problem()
    for name, supply in (("Köln", "3.375"), ("7", 0), ("New York", "-3.375")):
        problem.add_node(name, supply)
    for name, (tail, head, low, cap, cost) in zip(
        names,
        (
            ("Köln", "7", "1.125", "2.125", "1.125"),
            ("Köln", "7", 0, None, "2.125"),
            ("7", "New York", 0, "1000000000000", "3.125"),
            ("Köln", "New York", 0, "1.125", "-1.125"),
        ),
    ):
        problem.add_arc(tail, head, low=low, cap=cap, cost=cost, name=name or None)
    return problem


def written(plan, folder):
    """The plan as each of the tables that mcf-plan writes: a path or a frame by what it is."""
    for name in ("plan.csv", "plan.tsv", "plan.xlsx", "book.xlsx:plan"):
        write_plan(plan, folder / name)
        yield name, folder / name
    (folder / "board.csv").write_text(to_csv(plan))
    yield "the board's", folder / "board.csv"
    yield "a map", as_map(folder / "plan.geojson", [dict(zip(PLAN_COLUMNS, row)) for row in plan_rows(plan)])
    yield "a map of the JSON", as_map(folder / "json.geojson", json.loads(to_json(plan))["arcs"])
    if pandas is None:
        return
    frame = plan.to_frame()
    yield "a frame", frame
    yield "its index as a column", frame.reset_index()
    frame.to_csv(folder / "frame.csv")
    yield "a frame as CSV", folder / "frame.csv"
    yield "pandas' CSV of it", pandas.read_csv(folder / "frame.csv")
    yield "pandas' CSV", pandas.read_csv(folder / "plan.csv", dtype={"name": str, "from": str, "to": str})
    yield "the JSON", pandas.DataFrame(json.loads(to_json(plan))["arcs"])
    yield "a map of a frame", as_map(
        folder / "frame.geojson", json.loads(frame.reset_index().to_json(orient="records"))
    )
    if openpyxl is not None:
        frame.to_excel(folder / "frame.xlsx")
        yield "a frame as a workbook", folder / "frame.xlsx"


def as_map(path, rows):
    """A map whose lines have the rows for properties."""
    line = {"type": "LineString", "coordinates": [[0, 0], [1, 1]]}
    features = [{"type": "Feature", "geometry": line, "properties": row} for row in rows]
    path.write_text(json.dumps({"type": "FeatureCollection", "features": features}))
    return path


class ReadAgain(unittest.TestCase):
    def setUp(self):
        folder = tempfile.TemporaryDirectory()
        self.addCleanup(folder.cleanup)
        self.folder = Path(folder.name)
        self.nodes = self.folder / "nodes.csv"
        self.nodes.write_text("name;supply\nKöln;3,375\n7;0\nNew York;-3,375\n", encoding="utf-8")

    def test_each_writer_and_reader(self):
        for names in NAMES:
            problem = shipped(names)
            plan = problem.solve()
            for what, table in written(plan, self.folder):
                with self.subTest(what, names=names):
                    again = read_tables(self.nodes, table, decimal=",")
                    self.assertEqual((again.arcs, again.nodes), (problem.arcs, problem.nodes))
                    self.assertRegex("\n".join(again.notes), "the columns .*'flow', .* are left aside")
                    self.assertEqual(again.solve().cost, plan.cost)

    @unittest.skipUnless(pandas, "no pandas here: frames are not tried")
    def test_both_frames(self):
        """The prices of the nodes are left aside as what tells of the flow is, in frames and in what is made of them."""
        problem = shipped(NAMES[0])
        problem.nodes["Köln"] = Decimal("4.375")
        for surplus in ("keep", 2):
            plan = problem.solve(surplus=surplus)
            nodes, arcs = plan.nodes_to_frame(), plan.to_frame()
            files = self.folder / "n.csv", self.folder / "a.csv"
            commas = self.folder / "n;.csv", self.folder / "a;.csv"
            for frame, file, other in zip((nodes, arcs), files, commas):
                frame.to_csv(file)
                frame.to_csv(other, sep=";", decimal=",")
            for pair, decimal in (
                ((nodes, arcs), None),
                ((nodes.reset_index(), arcs.reset_index()), None),
                (files, "."),
                (tuple(map(pandas.read_csv, files)), None),
                (commas, ","),
            ):
                again = read_tables(*pair, decimal=decimal)
                self.assertEqual((again.arcs, again.nodes), (problem.arcs, problem.nodes))
                self.assertIn("the columns 'kept' and 'price' are left aside", "\n".join(again.notes))

    @unittest.skipUnless(pandas, "no pandas here: frames are not tried")
    def test_prices_of_others(self):
        """A price of a node that mcf-plan did not write is refused: it may be what a unit costs there."""
        plan = shipped(NAMES[0]).solve()
        nodes, arcs = plan.nodes_to_frame(), plan.to_frame()
        own = arcs[["from", "to", "low", "capacity", "unit cost"]]
        for pair in (
            (nodes, own),
            (nodes.assign(price=[0, 1, 0]), arcs),
            (nodes.assign(offer=[1, 2, 3]).drop(columns="supply"), arcs),
            (nodes.assign(region="north"), arcs),
        ):
            with self.assertRaisesRegex(TableFault, "the column 'price' is not understood: the cost of a unit belongs"):
                Problem.from_frames(*pair)

    def test_a_maximum_flow(self):
        problem = Problem("max", source="a", sink="b")
        problem.add_arc("a", "b", cap="1.125")
        plan = problem.solve()
        for what, table in written(plan, self.folder):
            with self.subTest(what):
                again = read_tables(None, table, kind="max", source="a", sink="b")
                self.assertEqual((again.arcs, again.solve().cost), (problem.arcs, plan.cost))

    def test_a_spreadsheet_that_wrote_it_anew(self):
        """In a table that mcf-plan did not write as it stands, a comma is looked at as in any other."""
        write_plan(shipped(NAMES[0]).solve(), self.folder / "plan.csv")
        with open(self.folder / "plan.csv", newline="", encoding="utf-8") as file:
            rows = [[cell.replace(".", ",") for cell in row] for row in csv.reader(file)]
        german = self.folder / "german.csv"
        with open(german, "w", newline="", encoding="utf-8") as file:
            csv.writer(file, delimiter=";").writerows(rows)
        self.assertEqual(read_tables(self.nodes, german, decimal=",").arcs[:3], shipped(NAMES[0]).arcs[:3])
        with self.assertRaisesRegex(TableFault, "is it 3.375 or 3375"):
            read_tables(self.nodes, german)

    def test_without_the_costs_of_units(self):
        """What is left as `cost` is the cost of what flows, and planning with it would be wrong."""
        path = self.folder / "arcs.csv"
        path.write_text("from,to,capacity,flow,cost,is full\nKöln,New York,9,3.375,6,no\n", encoding="utf-8")
        with self.assertRaisesRegex(
            TableFault, "'cost' may be what a unit costs or what the flow does; `--columns cost"
        ):
            read_tables(self.nodes, path)
        said = read_tables(self.nodes, path, columns={"cost": "cost"}, decimal=",")
        self.assertEqual(said.solve().cost, Decimal("20.25"))

    def test_what_is_said_counts(self):
        path = self.folder / "arcs.csv"
        path.write_text("from,to,unit cost,flow,cost,is full\nKöln,New York,2,3.375,6.75,no\n", encoding="utf-8")
        for said, cost in ((None, "6.75"), ({"cost": "cost"}, "22.78125"), ({"cost": "unit cost"}, "6.75")):
            with self.subTest(said):
                self.assertEqual(read_tables(self.nodes, path, columns=said, decimal=",").solve().cost, Decimal(cost))


if __name__ == "__main__":
    sys.exit(unittest.main())
