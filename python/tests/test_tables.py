"""Tables in and out: what is read, what is refused by line and column, and plans that come back."""

import csv
import io
import random
import subprocess
import sys
import tempfile
import unittest
from decimal import Decimal
from pathlib import Path
from unittest import mock

import mcf_plan
from mcf_plan.sheets import TextColumn, _sheet_of_lines, read_text
from mcf_plan.tables import TableFault, read_tables, write_plan

NODES = "name,supply\nKiel,5\nBerlin,-5\n"
ARCS = "from,to,capacity,cost\nKiel,Berlin,,2.5\n"


class Tables(unittest.TestCase):
    def setUp(self):
        self.folder = tempfile.TemporaryDirectory()
        self.addCleanup(self.folder.cleanup)

    def file(self, name, text):
        path = Path(self.folder.name) / name
        path.write_bytes(text if isinstance(text, bytes) else text.encode("utf-8"))
        return path

    def read(self, nodes, arcs, **options):
        return read_tables(
            None if nodes is None else self.file("nodes.csv", nodes), self.file("arcs.csv", arcs), **options
        )

    def test_what_is_read(self):
        for title, nodes, arcs, cost in (
            ("plain", NODES, ARCS, "12.5"),
            (
                "other names",
                "Town;Stock;Need\nKiel;7;2\nBerlin;;5\n",
                "Origin;Destination;Unit cost\nKiel;Berlin;2,5\n",
                "12.5",
            ),
            (
                "tabs, carriage returns, a mark of bytes",
                "\ufeffname\tsupply\r\nKiel\t5\r\nBerlin\t-5\r\n",
                "from\tto\tcost\r\nKiel\tBerlin\t2.5\r\n\r\n",
                "12.5",
            ),
            ("blanks and empty lines", "name , supply\n Kiel , 5\n\nBerlin, -5\n", ARCS, "12.5"),
            ("quotes", 'name,supply\n"Kiel",5\n"Berlin",-5\n', 'from,to,cost\n"Kiel","Berlin","2.5"\n', "12.5"),
            ("a place between", NODES, "from,to,cap,cost\nKiel,Neumünster,5,1\nNeumünster,Berlin,inf,1.5\n", "12.5"),
            ("lower bounds", NODES, "from,to,low,capacity,cost\nKiel,Berlin,0,9,2\nKiel,Berlin,2,5,3.25\n", "12.5"),
            ("no capacity by a word", NODES, "from,to,capacity,cost\nKiel,Berlin,unlimited,2.5\n", "12.5"),
        ):
            with self.subTest(title):
                self.assertEqual(self.read(nodes, arcs).solve().cost, Decimal(cost))

    def test_notes_places_and_names(self):
        problem = self.read(
            "name,supply,x,y\nKiel,5,10.1,54.3\nBerlin,-5,,\n", "from,to,cost,name\nKiel,Ulm,1,A7\nUlm,Berlin,1,\n"
        )
        self.assertEqual(problem.places, {"Kiel": (10.1, 54.3)})
        german = self.read("Ort;Angebot;x;y\nKiel;1,5;10.135;54.323\nUlm;-1,5;9,5;\n", "von;nach;Kosten\nKiel;Ulm;1\n")
        self.assertEqual(german.places, {"Kiel": (10.135, 54.323)})
        self.assertEqual([arc.name for arc in problem.arcs], ["A7", None])
        self.assertIn("1 node stands in the table of arcs alone", problem.notes[0])

    def test_kinds(self):
        problem = self.read(None, "team,floor,from,to,cost\n,,Ann,early,3\n,,Ann,late,5\n,,Bob,late,9\n", kind="asn")
        self.assertEqual(problem.nodes, {"Ann": 1, "early": -1, "late": -1, "Bob": 1})
        self.assertEqual(problem.solve().cost, 12)
        flow = self.read(None, "from,to,capacity\na,b,3\na,c,2\nc,b,9\n", kind="max", source="a", sink="b")
        self.assertEqual(flow.solve().cost, 5)
        sides = self.read("name\nAnn\nearly\n", "from,to,cost\nAnn,early,3\n", kind="asn")
        self.assertEqual(sides.solve().cost, 3)

    def test_what_is_refused(self):
        for nodes, arcs, words in (
            (
                "name,supply\nKiel,5x\n",
                ARCS,
                "nodes.csv, line 2, column 'supply': '5x' stands there; .*leave the unit out",
            ),
            ("name,supply\nKiel,5\nKiel,3\n", ARCS, "line 3, column 'name': 'Kiel' .* stands on line 2"),
            ("name,supply\n,5\n", ARCS, "line 2, column 'name'.* a name was expected"),
            ("name\nKiel\n", ARCS, "no column 'supply'"),
            (NODES, "tail,cost\nKiel,3\n", "arcs.csv: there is no column 'to'"),
            (NODES, "from,to,cost\nKiel,Berlin,0 000\n", "line 2, column 'cost': .*blanks between the thousands"),
            (NODES, 'from,to,cost\nKiel,Berlin,"2,500"\n', "is it 2.500 or 2500"),
            (NODES, "from,to,cost\nKiel,Berlin,2,5\n", "4 fields stand under 3 columns"),
            (NODES, "from,to,cost\nKiel,Berlin,1_234_567\n", "marks between the thousands"),
            (NODES, "from,to,cost\nKiel,Berlin,–3\n", "dash of typesetting"),
            (NODES, "from,to,cost\nKiel,Berlin,max 3\n", "a number was expected$"),
            (
                NODES,
                "from,to,low,capacity,cost\nKiel,Berlin,5,3,1\n",
                "column 'capacity': '3' .*lower bound 5 is above",
            ),
            (NODES, "from,to,capacity\nKiel,,3\n", "column 'to'"),
            (NODES, "", "the table is empty"),
            (NODES, "from,to\nKiel,M\xfcnchen\n".encode("latin-1"), "line 2: a byte that is no UTF-8"),
            (NODES, b"PK\x03\x04", "spreadsheet"),
        ):
            with self.subTest(words), self.assertRaisesRegex(TableFault, words):
                self.read(nodes, arcs)
        with self.assertRaisesRegex(TableFault, "node 'Bob' has neither"):
            self.read("name\nAnn\nBob\n", "from,to,cost\nAnn,early,3\n", kind="asn")
        with self.assertRaises(OSError):
            read_tables(None, "nowhere.csv")

    def test_wide_tables(self):
        """Columns that nobody looks at are not taken from their lines, whatever stands in them and however it stands."""
        names = [f"c{number}" for number in range(30)]
        notes = []
        for title, options in (
            ("plain", {}),
            ("carriage returns", {"lineterminator": "\r\n"}),
            ("quotes", {"quoting": csv.QUOTE_ALL}),
            ("semicolons", {"delimiter": ";"}),
        ):
            with self.subTest(title):
                out = io.StringIO(newline="")
                writer = csv.writer(out, **{"lineterminator": "\n", **options})
                writer.writerow(["from", "to", "blank", *names, "capacity", "cost", "name"])
                for row in range(1200):
                    kept = ["x" * (place % 3) + " " * (row % 2) for place in range(len(names))]
                    writer.writerow(["Kiel", "Berlin", " ", *kept, row + 1, "2.5", f" road {row}"])
                sheet = read_text(self.file("arcs.csv", out.getvalue()))
                problem = read_tables(self.file("nodes.csv", NODES), self.file("arcs.csv", out.getvalue()))
                self.assertEqual(
                    (len(problem.arcs), problem.arcs[-1].cap, problem.arcs[-1].name), (1200, 1200, "road 1199")
                )
                notes.append(problem.notes)
                self.assertRegex(notes[-1][0], "the columns 'c1', 'c2', 'c4', .* and 9 more are left aside")
                self.assertEqual(list(sheet.columns[1])[::1199], ["Berlin", "Berlin"])
                self.assertEqual(list(sheet.columns[0].lines.columns), [1])
                whole = [list(column) for column in sheet.columns]
                self.assertEqual(
                    list(map(tuple, zip(*whole)))[7][:6], ("Kiel", "Berlin", whole[2][7], whole[3][7], "x ", "xx ")
                )
                self.assertEqual(whole[-1][7], " road 7" if title == "quotes" else "road 7")
        self.assertEqual(notes[0], notes[1])

    def test_lines_and_rows_are_read_alike(self):
        """A text without quotes is parted where a column is asked for, and gives what the library's reader does."""
        drawn = random.Random(5)
        letters = ["a", "b", " ", "  ", "1", "2.5", "é", "", "", "\u2028", "\x0b", "x y"]
        count = 0
        for _ in range(300):
            mark, width = drawn.choice(",;\t|"), drawn.choice([1, 2, 3, 20])
            lines = []
            for _ in range(drawn.randint(1, 6)):
                fields = width + (drawn.choice([-1, 1]) if drawn.random() < 0.05 else 0)
                lines.append(mark.join("".join(drawn.choices(letters, k=2)) for _ in range(fields)))
                lines += ["", mark * (width - 1)] if drawn.random() < 0.1 else []
            text = drawn.choice(["\n", "\r\n", "\r"]).join(lines)
            path = self.file("drawn.csv", text)
            found = []
            for lazily in (True, False):
                with mock.patch("mcf_plan.sheets._sheet_of_lines", _sheet_of_lines if lazily else lambda *_: None):
                    try:
                        sheet = read_text(path)
                        count += isinstance(sheet.columns[0], TextColumn)
                        found.append([sheet.header, sheet.lines, sheet.missing, *map(list, sheet.columns)])
                    except TableFault as fault:
                        found.append(str(fault))
            self.assertEqual(*found, repr(text))
        self.assertGreater(count, 80)

    def test_matrices_and_lists_are_read_alike(self):
        drawn = random.Random(7)
        for _ in range(60):
            rows = [f"D{number}" for number in range(drawn.randint(2, 5))]
            columns = [f"S{number}" for number in range(drawn.randint(2, 5))]
            costs = {(row, column): drawn.choice(["0", "3", "2.5", "7.25"]) for row in rows for column in columns}
            for pair in drawn.sample(sorted(costs), len(costs) // 3):
                del costs[pair]
            amounts = {name: str(drawn.randint(0, 9)) for name in (*rows, *columns)}
            corner, first, second = drawn.choice([("", rows, columns), ("to/from", columns, rows)])
            what = ("supply", "demand") if first is rows else ("demand", "supply")
            lines = [[corner, *second]]
            for name in first:
                pairs = [(name, other) if first is rows else (other, name) for other in second]
                lines.append([name, *(costs.get(pair, drawn.choice(["", "-", "x"])) for pair in pairs)])
            with_amounts = [[*line, amounts.get(line[0], what[0])] for line in lines]
            with_amounts.append([what[1], *map(amounts.__getitem__, second), ""])
            of_nodes = [["name", "supply", "demand"], *([name, amounts[name], "0"] for name in rows)]
            of_nodes += [[name, "0", amounts[name]] for name in columns]
            of_arcs = [["from", "to", "cost"], *([*pair, cost] for pair, cost in costs.items())]
            nodes, arcs, matrix, alone = (
                "".join(",".join(line) + "\n" for line in table) for table in (of_nodes, of_arcs, lines, with_amounts)
            )
            wanted = self.read(nodes, arcs)
            for found in (self.read(nodes, matrix), self.read(None, alone)):
                self.assertEqual(found.nodes, wanted.nodes, alone)
                self.assertEqual(sorted(found.arcs), sorted(wanted.arcs), alone)

    def test_a_plan_as_a_table(self):
        plan = self.read(NODES, "from,to,capacity,cost\nKiel,Berlin,3,1.5\nKiel,Berlin,,2.5\n").solve()
        path = Path(self.folder.name) / "plan.csv"
        write_plan(plan, path)
        with open(path, newline="", encoding="utf-8") as file:
            rows = list(csv.DictReader(file))
        self.assertEqual(
            [(row["flow"], row["total cost"], row["is full"], row["one more costs"]) for row in rows],
            [("3", "4.5", "yes", "-1"), ("2", "5", "no", "0")],
        )

    def test_spreadsheets_and_frames(self):
        try:
            import openpyxl  # noqa: F401
            import pandas
        except ImportError:
            self.skipTest("pandas or openpyxl is not installed")
        nodes = pandas.DataFrame({"name": ["Kiel", "Berlin", 7], "supply": [5, -5, None]})
        arcs = pandas.DataFrame({"from": ["Kiel", 7], "to": [7, "Berlin"], "capacity": [None, 9.0], "cost": [0.1, 2.4]})
        self.assertEqual(read_tables(nodes, arcs).solve().cost, Decimal("12.5"))
        names = [Path(self.folder.name) / name for name in ("nodes.xlsx", "arcs.xlsx")]
        nodes.to_excel(names[0], index=False)
        arcs.to_excel(names[1], index=False)
        problem = read_tables(*names)
        self.assertIn("7", problem.nodes)
        plan = problem.solve()
        self.assertEqual(plan.cost, Decimal("12.5"))
        write_plan(plan, Path(self.folder.name) / "plan.xlsx")
        back = pandas.read_excel(Path(self.folder.name) / "plan.xlsx")
        self.assertEqual(list(back["flow"]), [5, 5])

    def test_nothing_beyond_the_standard_library_is_wanted(self):
        nodes, arcs = self.file("nodes.csv", NODES), self.file("arcs.csv", ARCS)
        said = (
            "import sys; sys.path.insert(0, sys.argv[1]); from mcf_plan.tables import read_tables; "
            "print(read_tables(*sys.argv[2:]).solve().cost)"
        )
        source = str(Path(mcf_plan.__file__).parents[1])
        done = subprocess.run(
            [sys.executable, "-I", "-S", "-B", "-c", said, source, str(nodes), str(arcs)],
            capture_output=True,
            text=True,
            check=False,
        )
        self.assertEqual((done.stdout, done.stderr), ("12.5\n", ""))


if __name__ == "__main__":
    sys.exit(unittest.main())
