"""Tables as planners have them: each is planned as they would expect, or refused with words that help."""

import contextlib
import csv
import datetime
import io
import json
import os
import re
import shlex
import sys
import tempfile
import tracemalloc
import unittest
import zipfile
from decimal import Decimal
from fractions import Fraction
from pathlib import Path

from mcf_plan.cli import main
from mcf_plan.geojson import read_map
from mcf_plan.tables import TableFault, read_tables
from mcf_plan.workbook import write_sheet

CASES = Path(__file__).with_name("everyday_tables.txt")
TAKEN = r"note: (amounts go in steps of [0.]+1, by the decimals in the tables|\d+ arcs? without a capacity may .*)\n"
STATUS = {"refused": 3, "none": 1, "beyond": 7}


def unescaped(line):
    """A line of a case as the bytes that it stands for."""
    text = line[:-1] if line.endswith("\\") else line + "\n"
    text = text.replace("\\r", "\\x0d").replace("\\t", "\\x09").replace("\\n", "\\x0a")
    parts = re.split(r"\\x([0-9a-f]{2})", text)
    return b"".join(part.encode() if place % 2 == 0 else bytes([int(part, 16)]) for place, part in enumerate(parts))


def cases():
    """Each case: its title, what stands before a colon, and its tables."""
    plain = {}
    for block in re.split(r"\n\n(?=[^\n]+\n(?:options|tables|told): )", CASES.read_text().split("\n\n", 1)[1]):
        head, *tables = re.split(r"^-- (\S+)\n", block.strip("\n") + "\n", flags=re.MULTILINE)
        title, *lines = head.rstrip("\n").split("\n")
        files = dict(zip(tables[::2], tables[1::2]))
        files = {name: b"".join(map(unescaped, text.split("\n")[:-1])) for name, text in files.items()}
        plain = plain or files
        told = [tuple(line.partition(": ")[::2]) for line in lines]
        yield title, told, {**plain, **files}


def run(*words):
    """The status of the command, and what it prints, with the notes on standard error."""
    out, errors = io.StringIO(), io.StringIO()
    with contextlib.redirect_stdout(out), contextlib.redirect_stderr(errors):
        status = main(["plan", *words])
    return status, out.getvalue(), errors.getvalue()


class InFolder(unittest.TestCase):
    def setUp(self):
        folder = tempfile.TemporaryDirectory()
        self.addCleanup(folder.cleanup)
        self.addCleanup(os.chdir, os.getcwd())
        os.chdir(folder.name)


class Texts(InFolder):
    def test_the_list(self):
        found = list(cases())
        self.assertGreater(len(found), 130)
        self.assertEqual(len({title for title, _, _ in found}), len(found))
        for title, told, files in found:
            for name, content in files.items():
                Path(name).write_bytes(content)
            words = dict(told)
            tables = words.get("tables", "nodes.csv arcs.csv").split()
            status, out, errors = run(*tables, *shlex.split(words.get("options", "")))
            with self.subTest(title):
                what, _, wanted = words["told"].partition(": ")
                self.assertEqual(status, STATUS.get(what, 0), out + errors)
                if what in STATUS:
                    self.assertRegex(errors + out, wanted)
                else:
                    self.assertEqual(out.split("\n")[0], words["told"])
                for key, note in told:
                    if key == "note":
                        self.assertRegex(errors, "(?m)^note: .*" + note)
                    elif key == "quiet":
                        self.assertEqual(re.sub(TAKEN, "", errors), "")


NODES = [["name", "supply"], ["Kiel", 5], ["Berlin", -5]]
HEAD = ["from", "to", "capacity", "cost"]


def book(path, **sheets):
    """Writes a workbook as openpyxl makes it: formulas have no values."""
    import openpyxl

    made = openpyxl.Workbook()
    made.remove(made.active)
    for name, rows in sheets.items():
        sheet = made.create_sheet(name)
        for row in rows:
            sheet.append(row)
    made.save(path)
    return str(path)


def keep_values(path, values):
    """Puts the values of formulas beside them, as a spreadsheet program does when it saves: cell to (type, value)."""
    with zipfile.ZipFile(path) as file:
        parts = {name: file.read(name) for name in file.namelist()}
    for name, text in parts.items():
        if name.startswith("xl/worksheets/"):
            for cell, (kind, value) in values.items():
                text = re.sub(
                    rf'<c r="{cell}"([^>]*)><f>(.*?)</f><v ?/?>(</v>)?</c>'.encode(),
                    lambda found: b'<c r="%s" t="%s"><f>%s</f><v>%s</v></c>'
                    % (cell.encode(), kind.encode(), found[2], value.encode()),
                    text,
                )
            parts[name] = text
    with zipfile.ZipFile(path, "w") as file:
        for name, content in parts.items():
            file.writestr(name, content)


def needs(*names):
    """Passes a test over where a library is missing."""
    for name in names:
        try:
            __import__(name)
        except ImportError:
            return unittest.skip(f"{name} is not installed")
    return lambda test: test


class Workbooks(InFolder):
    def told(self, *words):
        status, out, errors = run(*words)
        return f"{status}: {out.splitlines()[0] if out else ''}", errors

    @needs("openpyxl")
    def test_cells(self):
        for title, row, wanted in (
            ("numbers", ["Kiel", "Berlin", 9, 2.5], "cost 12.5"),
            ("an empty capacity", ["Kiel", "Berlin", None, 2.5], "cost 12.5"),
            ("a computed price", ["Kiel", "Berlin", 9, 1 / 7], "beyond: --round"),
            ("an error", ["Kiel", "Berlin", "#N/A", 2.5], "row 2, column 'capacity': '#N/A' stands there; .*an error"),
            ("an error of a cost", ["Kiel", "Berlin", 9, "#DIV/0!"], "column 'cost': .* an error"),
            ("n/a", ["Kiel", "Berlin", "n/a", 2.5], "'n/a' stands there"),
            ("null", ["Kiel", "Berlin", 9, "null"], "'null' stands there"),
            ("a truth value", ["Kiel", "Berlin", True, 2.5], "TRUE stands there; .* truth value"),
            ("a truth value beside 1", ["Kiel", "Berlin", 1, True], "TRUE stands there; .* truth value"),
            ("a truth value as a name", ["Kiel", False, 9, 2.5], "FALSE stands there; .* truth value"),
            ("a formula", ["Kiel", "Berlin", "=4+5", 2.5], "'=4.5' stands there; .*a formula without a kept value"),
            ("a formula of a cost", ["Kiel", "Berlin", 9, "=5/2"], "column 'cost': '=5/2' .* without a kept value"),
            ("a formula of a name", ["Kiel", "=A2", 9, 2.5], "column 'to': '=A2' .* without a kept value"),
            ("a date", ["Kiel", "Berlin", datetime.datetime(2026, 5, 3), 2.5], "'2026-05-03' stands there; .* a date"),
            ("a time", ["Kiel", "Berlin", datetime.time(9, 30), 2.5], "column 'capacity': .* a date or a time"),
            ("an empty cost", ["Kiel", "Berlin", 9, None], "row 2, column 'cost': .* the cost of a unit was expected"),
            ("a number as a text", ["Kiel", "Berlin", "9", "2.5"], "cost 12.5"),
            ("thousands in a text", ["Kiel", "Berlin", "1.250", 2.5], "is it 1.250 or 1250"),
            ("a decimal comma in a text", ["Kiel", "Berlin", 9, "2,5"], "cost 12.5"),
            ("no limit", ["Kiel", "Berlin", "∞", 2.5], "cost 12.5"),
            ("a blank as a cost", ["Kiel", "Berlin", 9, " "], "the cost of a unit was expected"),
        ):
            with self.subTest(title):
                path = book("book.xlsx", nodes=NODES, arcs=[HEAD, row])
                status, out, errors = run(path)
                self.assertEqual(status, 0 if wanted.startswith("cost") else 7 if "--round" in wanted else 3, errors)
                self.assertRegex(out + errors, wanted.replace("beyond: ", "").replace("4+5", "4.5"))

    @needs("openpyxl")
    def test_names_of_many_digits(self):
        """Where they stand in full they are read so; where a float stands they were rounded, and two may be one."""
        one, other = 1234567890123456788, 1234567890123456789
        nodes, arcs = [["name", "supply"], [one, 5], [other, -5]], [HEAD, [one, other, 9, 2.5]]
        write_sheet(Path("own.xlsx"), "nodes", nodes)
        write_sheet(Path("own.xlsx"), "arcs", arcs)
        self.assertEqual(list(read_tables(None, "own.xlsx").nodes), [str(one), str(other)])
        with self.assertRaisesRegex(TableFault, "a number of so many digits was rounded: write it as a text"):
            read_tables(None, book("book.xlsx", nodes=nodes, arcs=arcs))

    @needs("openpyxl")
    def test_what_is_seen_and_what_is_not(self):
        import openpyxl.styles

        for title, change, wanted in (
            (
                "a percentage",
                lambda sheet: setattr(sheet["C2"], "number_format", "0.0%"),
                "'900%' stands there; .*percent",
            ),
            ("a date", lambda sheet: setattr(sheet["C2"], "number_format", "dd/mm/yy"), "'1900-01-08' stands there"),
            ("hours", lambda sheet: setattr(sheet["C2"], "number_format", "[hh]"), "'1900-01-08' .* a date or a time"),
            ("a colour", lambda sheet: setattr(sheet["C2"], "number_format", "[Red]0;[Blue]-0"), "cost 12.5"),
            ("a currency", lambda sheet: setattr(sheet["D2"], "number_format", '#,##0.00 "days"'), "cost 12.5"),
            (
                "two currencies",
                lambda sheet: sheet.append(["Kiel", "Berlin", 9, 3])
                or setattr(sheet["D2"], "number_format", "#,##0.00\\ [$€-407]")
                or setattr(sheet["D3"], "number_format", "[$$-409]#,##0.00"),
                r"row 3, column 'cost': 3 stands there; it is shown in \$, and that on row 2 in €: bring all to one unit",
            ),
            (
                "two units of a column that is left aside",
                lambda sheet: sheet.append(["Kiel", "Berlin", 9, 3, 7])
                or [sheet.cell(1, 5, "km"), sheet.cell(2, 5, 8)]
                and setattr(sheet["E2"], "number_format", '0 "km"')
                or setattr(sheet["E3"], "number_format", '0 "miles"'),
                "cost 12.5",
            ),
            (
                "one currency in two ways, and thousands",
                lambda sheet: sheet.append(["Kiel", "Berlin", 9000, 3])
                or setattr(sheet["C2"], "number_format", '0 "t"')
                or setattr(sheet["C3"], "number_format", '0.0,"k"')
                or setattr(sheet["D2"], "number_format", '#,##0.00 "EUR"')
                or setattr(sheet["D3"], "number_format", "#,##0.00\\ [$€-407]"),
                "cost 12.5",
            ),
            (
                "another unit than that of the column",
                lambda sheet: setattr(sheet["C1"], "value", "capacity (t)")
                or setattr(sheet["C2"], "number_format", '0 "kg"'),
                r"row 2, column 'capacity \(t\)': 9 stands there; it is shown in kg, and the name of the column says t",
            ),
            (
                "a unit in some cells",
                lambda sheet: sheet.append(["Kiel", "Berlin", 9, 3])
                or setattr(sheet["D3"], "number_format", '#,##0.00 "€"'),
                "cost 12.5",
            ),
            (
                "a cost for another unit than that of the capacity",
                lambda sheet: setattr(sheet["C2"], "number_format", '0 "kg"')
                or setattr(sheet["D2"], "number_format", '0.00 "€/t"'),
                "column 'cost', is in €/t, and .*column 'capacity', in kg: bring costs and amounts to one unit",
            ),
            (
                "a hidden row",
                lambda sheet: setattr(sheet.row_dimensions[2], "hidden", True),
                "1 row that is hidden counts",
            ),
            (
                "a hidden column",
                lambda sheet: setattr(sheet.column_dimensions["C"], "hidden", True),
                "the column 'capacity' is hidden, and is read as the others are",
            ),
            (
                "a hidden sheet",
                lambda sheet: setattr(sheet, "sheet_state", "hidden"),
                "the sheet 'arcs' is hidden, and",
            ),
            (
                "a row that is struck through",
                lambda sheet: [setattr(cell, "font", openpyxl.styles.Font(strike=True)) for cell in sheet[2]],
                "1 row that is struck through counts as the others do",
            ),
            (
                "cells beside",
                lambda sheet: sheet.cell(2, 7, "as of May"),
                "cells beside the table, as on row 2, are left",
            ),
            ("a title", lambda sheet: sheet.insert_rows(1) or sheet.cell(1, 1, "Roads"), "no column is understood"),
            ("merged cells", lambda sheet: sheet.append([None, "Berlin", 9, 1]), "row 3, column 'from': .* a name was"),
            ("empty rows", lambda sheet: sheet.insert_rows(1, 3), "cost 12.5"),
            ("a text below", lambda sheet: sheet.cell(5, 1, "Source: survey"), "row 5, column 'to': .* a name was"),
            (
                "a capacity over two rows",
                lambda sheet: sheet.append(["Kiel", "Berlin", None, 1]) or sheet.merge_cells("C2:C3"),
                "row 3, column 'capacity': a part of C2:C3 stands there; .* merged: part them",
            ),
            (
                "a number over two columns",
                lambda sheet: sheet.merge_cells("C2:D2"),
                "row 2, column 'cost': a part of C2:D2 stands there; .* merged",
            ),
            (
                "a cost over two columns of a matrix",
                lambda sheet: [sheet.delete_rows(1, 2), sheet.append([None, "Berlin", "Kiel"])]
                and sheet.append(["Kiel", 2.5, 1])
                or sheet.merge_cells("B2:C2"),
                "row 2, column 'Kiel': a part of B2:C2 stands there; .* merged",
            ),
            (
                "a name over two rows",
                lambda sheet: sheet.append([None, "Berlin", 9, 1]) or sheet.merge_cells("A2:A3"),
                "row 3, column 'from': a part of A2:A3 stands there; .* merged",
            ),
            (
                "merged cells in which nothing stands",
                lambda sheet: sheet.cell(2, 3).__setattr__("value", None)
                or sheet.append(["Kiel", "Berlin", None, 3])
                or sheet.merge_cells("C2:C3"),
                "cost 12.5",
            ),
            (
                "a product over two rows",
                lambda sheet: [sheet.cell(1, 5, "product"), sheet.cell(2, 5, "coal")]
                + [sheet.append(["Kiel", "Berlin", 9, 3]), sheet.merge_cells("E2:E3")],
                "cost 12.5",
            ),
            (
                "cells beside the table that are merged",
                lambda sheet: sheet.cell(1, 6, "") or sheet.cell(2, 6, "see there") or sheet.merge_cells("F2:H2"),
                "cost 12.5",
            ),
            (
                "a formula over a column",
                lambda sheet: sheet["C1"].__setattr__("value", '="capa"&"city"'),
                'row 1: \'="capa"&"city"\' stands there; the name of a column was expected, .* without a kept value',
            ),
        ):
            path = book("book.xlsx", nodes=NODES, arcs=[HEAD, ["Kiel", "Berlin", 9, 2.5]])
            made = openpyxl.load_workbook(path)
            change(made["arcs"])
            made.save(path)
            with self.subTest(title):
                _, out, errors = run(path)
                self.assertRegex(out + errors, wanted)

    @needs("openpyxl")
    def test_rows_and_columns_without_a_size(self):
        """Nobody sees them, as if they were hidden."""
        for title, mark, size, wanted in (
            ("a row", b'<row r="2"', b' ht="0" customHeight="1"', "1 row that is hidden counts as the others do"),
            ("a low row", b'<row r="2"', b' ht="0.75" customHeight="1"', ""),
            (
                "a column",
                b"<sheetData>",
                b'<cols><col min="3" max="3" width="0" customWidth="1"/></cols>',
                "the column 'capacity' is hidden, and is read as the others are",
            ),
        ):
            path = book("book.xlsx", nodes=NODES, arcs=[HEAD, ["Kiel", "Berlin", 9, 2.5]])
            with zipfile.ZipFile(path) as file:
                parts = {name: file.read(name) for name in file.namelist()}
            place = max(name for name in parts if name.startswith("xl/worksheets/sheet"))
            at = mark if mark.startswith(b"<row") else b""
            parts[place] = parts[place].replace(mark, at + size + mark[len(at) :])
            self.assertIn(size, parts[place])
            with zipfile.ZipFile(path, "w") as file:
                for name, content in parts.items():
                    file.writestr(name, content)
            with self.subTest(title):
                summary, notes = self.told(path)
                self.assertEqual(summary, "0: cost 12.5")
                self.assertIn(wanted, notes)
                self.assertEqual("hidden" in notes, bool(wanted))

    @needs("openpyxl")
    def test_names_that_are_dates_and_times(self):
        import openpyxl
        from openpyxl.utils.datetime import CALENDAR_MAC_1904, CALENDAR_WINDOWS_1900

        for cell, wanted in (
            (datetime.datetime(2026, 5, 3), "2026-05-03"),
            (datetime.datetime(2024, 5, 1, 8, 30), "2024-05-01 08:30:00"),
            (datetime.time(8, 30), "08:30:00"),
            (datetime.time(0, 0), "00:00:00"),
        ):
            for epoch in (CALENDAR_WINDOWS_1900, CALENDAR_MAC_1904):
                with self.subTest(f"{cell} since {epoch}"):
                    made = openpyxl.Workbook()
                    made.epoch = epoch
                    for row in (HEAD, [cell, "Berlin", 9, 2.5]):
                        made.active.append(row)
                    made.save("arcs.xlsx")
                    Path("nodes.csv").write_text(f"name,supply\n{wanted},5\nBerlin,-5\n")
                    self.assertEqual(read_tables("nodes.csv", "arcs.xlsx").arcs[0].tail, wanted)

    @needs("openpyxl")
    def test_formulas_with_kept_values(self):
        arcs = [HEAD, ["Kiel", "=A2", "=4+5", "=5/2"], ["Kiel", "Berlin", '=IF(1,"","")', 9]]
        for title, values, wanted in (
            ("values", {"B2": ("str", "Berlin"), "C2": ("n", "9"), "D2": ("n", "2.5"), "C3": ("str", "")}, "cost 12.5"),
            ("an error", {"B2": ("str", "Berlin"), "C2": ("e", "#N/A"), "D2": ("n", "2.5")}, "'#N/A' stands there"),
            ("a truth value", {"B2": ("str", "Berlin"), "C2": ("b", "1"), "D2": ("n", "2.5")}, "TRUE stands there"),
            (
                "one of none",
                {"B2": ("str", "Berlin"), "C2": ("n", "9"), "C3": ("str", "")},
                "'=5/2' .* without a kept value",
            ),
        ):
            with self.subTest(title):
                path = book("book.xlsx", nodes=NODES, arcs=arcs)
                keep_values(path, values)
                _, out, errors = run(path)
                self.assertRegex(out + errors, wanted)

    @needs("openpyxl")
    def test_sheets_by_name(self):
        arcs = [HEAD, ["Kiel", "Berlin", 9, 2.5]]
        rest = [["what", "sum"], ["all", 3]]
        depots, shops = [["Depot", "Stock"], ["Kiel", 5]], [["Shop", "Demand"], ["Berlin", 5]]
        matrix = [[None, "Berlin", "Kiel"], ["Kiel", 2.5, None]]
        january, february = datetime.date(2026, 1, 1), datetime.date(2026, 2, 1)
        days = [["day", "name", "supply"], [None, january, 5], [None, february, -5]]
        of_days = [[None, january, february], [january, 0, 2.5]]
        tableau = [["from/to", "Berlin", "Bonn", "Supply"], ["Kiel", 2.5, 4, 5], ["Demand", 5, 0, None]]
        for title, sheets, words, wanted in (
            ("English", {"Nodes": NODES, "Arcs": arcs}, ["b.xlsx"], "cost 12.5"),
            ("German", {"Orte": NODES, "Straßen": arcs}, ["b.xlsx"], "cost 12.5"),
            ("French", {"Lieux": NODES, "Arêtes": arcs}, ["b.xlsx"], "cost 12.5"),
            ("Spanish", {"rutas": arcs, "lugares": NODES}, ["b.xlsx"], "cost 12.5"),
            ("others", {"Sums": rest, "nodes": NODES, "arcs": arcs}, ["b.xlsx"], "'Sums' is left aside"),
            ("said", {"A": NODES, "B": arcs}, ["b.xlsx:A", "b.xlsx:b"], "cost 12.5"),
            (
                "by their columns",
                {"Tabelle1": [["Ort", "Angebot"], *NODES[1:]], "Tabelle2": arcs},
                ["b.xlsx"],
                "cost 12.5\n(.*\n)*note: b.xlsx, sheet 'Tabelle1' has the nodes, and b.xlsx, sheet 'Tabelle2' the arcs, by",
            ),
            ("in the other order", {"B": arcs, "A": NODES}, ["b.xlsx"], "cost 12.5\n(.*\n)*.*sheet 'A' has the nodes"),
            ("one of an unknown name", {"Nodes": NODES, "Costs": arcs}, ["b.xlsx"], "sheet 'Costs' the arcs"),
            (
                "unknown",
                {"A": NODES, "B": arcs, "C": rest},
                ["b.xlsx"],
                "which of its sheets 'A', 'B', 'C' has the nodes",
            ),
            ("no supplies", {"A": [["name"], ["Kiel"]], "B": arcs}, ["b.xlsx"], "which of its sheets 'A', 'B'"),
            ("no arcs", {"A": NODES, "B": rest}, ["b.xlsx"], "which of its sheets 'A', 'B'"),
            ("arcs twice", {"A": arcs, "B": arcs}, ["b.xlsx"], "which of its sheets 'A', 'B'"),
            ("kept", {"A": NODES, "B": arcs}, ["b.xlsx", "--table", "b.xlsx:A"], "the sheet 'A' is read"),
            ("not there", {"A": NODES, "B": arcs}, ["b.xlsx:A", "b.xlsx:C"], "there is no sheet 'C'; .* 'A', 'B'"),
            ("empty ones", {"nodes": NODES, "arcs": arcs, "Sheet3": []}, ["b.xlsx"], "cost 12.5"),
            ("two of a name", {"nodes": NODES, "Orte": NODES, "arcs": arcs}, ["b.xlsx"], "which of its sheets"),
            ("arcs alone", {"Sheet1": arcs}, ["b.xlsx"], "a cheapest plan wants supplies"),
            ("Italian", {"Nodi": NODES, "Archi": arcs}, ["b.xlsx"], "cost 12.5"),
            (
                "three",
                {"Depots": depots, "Shops": shops, "Costs": arcs},
                ["b.xlsx"],
                "cost 12.5\n(.*\n)*.*'Shops' have",
            ),
            ("three, said", {"A": depots, "B": shops, "C": arcs}, ["b.xlsx:B", "b.xlsx:A", "b.xlsx:C"], "cost 12.5"),
            (
                "three, one of them kept",
                {"A": depots, "B": shops, "C": arcs},
                ["b.xlsx", "--table", "b.xlsx:b"],
                "the sheet 'b' is read",
            ),
            (
                "a matrix",
                {"A": NODES, "Costs": matrix},
                ["b.xlsx"],
                "cost 12.5\n(.*\n)*.*sheet 'Costs': this is a matrix",
            ),
            (
                "depots, shops and a matrix",
                {"A": depots, "B": shops, "C": matrix},
                ["b.xlsx"],
                "cost 12.5\n(.*\n)*.* 'C' the arcs",
            ),
            (
                "a matrix of days",
                {"A": days, "B": of_days},
                ["b.xlsx"],
                "cost 12.5\n(.*\n)*.*nodes 2026-01-01, 2026-02-01;",
            ),
            ("a matrix that begins further in", {"S": [[None, *row] for row in tableau]}, ["b.xlsx"], "cost 12.5"),
            ("a matrix with supplies", {"S": tableau}, ["b.xlsx"], "cost 12.5\n(.*\n)*.* and demands on row 3"),
            ("a sheet without rows", {"A": depots, "B": shops, "C": [["x"]]}, ["b.xlsx"], "which of its sheets"),
        ):
            with self.subTest(title):
                book("b.xlsx", **sheets)
                _, out, errors = run(*words)
                self.assertRegex(out + errors, wanted)

    @needs("openpyxl")
    def test_files_that_are_no_workbooks(self):
        for name, content, wanted in (
            ("a.xlsx", b"from,to\n", "this is no workbook"),
            ("b.xlsx", b"\xd0\xcf\x11\xe0\xa1\xb1\x1a\xe1" + bytes(600), "an old workbook .* or one with a password"),
            ("c.csv", b"PK\x03\x04", "a spreadsheet by another name"),
            ("d.ods", b"PK\x03\x04", "files that end in .ods are not read"),
            ("e.xls", b"", "files that end in .xls are not read"),
        ):
            Path(name).write_bytes(content)
            with self.subTest(name):
                status, _, errors = run(name)
                self.assertEqual(status, 3)
                self.assertRegex(errors, wanted)
        with zipfile.ZipFile("f.xlsx", "w") as file:
            file.writestr("word/document.xml", "<x/>")
        self.assertRegex(run("f.xlsx")[2], "no workbook of the kind .xlsx")

    @needs("openpyxl")
    def test_workbooks_that_are_damaged(self):
        """They are refused, whatever is wrong with them, and nothing is written to them."""
        path = book("book.xlsx", nodes=NODES, arcs=[HEAD, ["Kiel", "Berlin", 9, 2.5]])
        whole = Path(path).read_bytes()
        with zipfile.ZipFile(path) as file:
            parts = {name: file.read(name) for name in file.namelist()}
            at = file.getinfo("xl/worksheets/sheet1.xml").header_offset + 30 + len("xl/worksheets/sheet1.xml")

        def without(name):
            return {other: content for other, content in parts.items() if other != name}

        sheet, styles = parts["xl/worksheets/sheet2.xml"], parts["xl/styles.xml"]
        for title, made in (
            ("bytes that are others", whole[: at + 20] + b"\xff\xff\xff\xff" + whole[at + 24 :]),
            ("bytes that are not there", whole[: at + 100]),
            ("a password", whole.replace(b"PK\x01\x02\x14\x03\x14\x00\x00\x00", b"PK\x01\x02\x14\x03\x14\x00\x01\x00")),
            ("no sheet", without("xl/worksheets/sheet1.xml")),
            ("no list of sheets", without("xl/_rels/workbook.xml.rels")),
            ("a sheet that is no XML", {**parts, "xl/worksheets/sheet2.xml": sheet[:-20]}),
            ("an unknown encoding", {**parts, "xl/styles.xml": b'<?xml version="1.0" encoding="no"?><a/>'}),
            ("a style without number", {**parts, "xl/styles.xml": styles.replace(b'numFmtId="0"', b'numFmtId=""')}),
            ("a cell beyond", {**parts, "xl/worksheets/sheet2.xml": sheet.replace(b'"D2"', b'"XFE2"')}),
            ("a cell without letters", {**parts, "xl/worksheets/sheet2.xml": sheet.replace(b'"D2"', b'"2"')}),
        ):
            if isinstance(made, dict):
                with zipfile.ZipFile("bad.xlsx", "w") as file:
                    for name, content in made.items():
                        file.writestr(name, content)
            else:
                Path("bad.xlsx").write_bytes(made)
            before = Path("bad.xlsx").read_bytes()
            with self.subTest(title):
                self.assertNotEqual(before, whole)
                for words in (["bad.xlsx"], [path, "--table", "bad.xlsx:plan"], [path, "--table", "bad.xlsx"]):
                    status, _, errors = run(*words)
                    self.assertIn((status, "mcf-plan: " in errors), ((3, True), (0, False)))
                    if words == ["bad.xlsx"]:
                        self.assertRegex(errors, "mcf-plan: bad.xlsx: .*(damaged|can't be read)")
                    if status:
                        self.assertEqual(Path("bad.xlsx").read_bytes(), before)
                    Path("bad.xlsx").write_bytes(before)

    @needs("openpyxl")
    def test_a_plan_as_a_sheet(self):
        import openpyxl

        arcs = [HEAD, ["Kiel", "Berlin", "=4+5", "=5/2"]]
        path = book("book.xlsx", nodes=NODES, arcs=arcs)
        keep_values(path, {"C2": ("n", "9"), "D2": ("n", "2.5")})
        with zipfile.ZipFile(path) as file:
            before = {name: file.read(name) for name in file.namelist()}
        self.assertEqual(self.told(path, "--table", "book.xlsx:plan"), ("0: cost 12.5", ""))
        for _ in range(2):  # The second time the sheet is replaced.
            _, errors = self.told(path, "--table", "book.xlsx:plan")
            self.assertIn("the sheet 'plan' is left aside", errors)
        with zipfile.ZipFile(path) as file:
            after = {name: file.read(name) for name in file.namelist()}
        kept = [name for name in before if before[name] == after[name]]
        self.assertEqual(
            set(before) - set(kept), {"[Content_Types].xml", "xl/workbook.xml", "xl/_rels/workbook.xml.rels"}
        )
        sheets = openpyxl.load_workbook(path)
        self.assertEqual(sheets.sheetnames, ["nodes", "arcs", "plan"])
        rows = list(sheets["plan"].values)
        self.assertEqual(rows[0][:7], ("name", "from", "to", "low", "capacity", "cost", "flow"))
        self.assertEqual(rows[1], (None, "Kiel", "Berlin", 0, 9, 2.5, 5, 12.5, "no", 0))
        self.assertEqual(openpyxl.load_workbook(path, data_only=True)["arcs"]["D2"].value, 2.5)

    @needs("openpyxl")
    def test_a_sheet_in_a_linked_workbook(self):
        import openpyxl

        Path("private").mkdir()
        kept = Path(book("private/book.xlsx", nodes=NODES, arcs=[HEAD, ["Kiel", "Berlin", 9, 2.5]]))
        kept.chmod(0o600)
        Path("book.xlsx").symlink_to(kept)
        self.assertEqual(self.told("book.xlsx", "--table", "book.xlsx:plan"), ("0: cost 12.5", ""))
        self.assertTrue(Path("book.xlsx").is_symlink())
        self.assertEqual(openpyxl.load_workbook(kept).sheetnames, ["nodes", "arcs", "plan"])
        self.assertEqual(kept.stat().st_mode & 0o777, 0o600)

    @needs("openpyxl")
    def test_files_beside_a_workbook_are_kept(self):
        path = book("book.xlsx", nodes=NODES, arcs=[HEAD, ["Kiel", "Berlin", 9, 2.5]])
        beside = Path("book.xlsx.new")
        beside.write_text("mine")
        self.assertEqual(self.told(path, "--table", "book.xlsx:plan"), ("0: cost 12.5", ""))
        self.assertEqual(beside.read_text(), "mine")
        self.assertEqual(self.told(path, "--table", "new.xlsx")[0], "0: cost 12.5")
        self.assertEqual(sorted(each.name for each in Path().iterdir()), ["book.xlsx", "book.xlsx.new", "new.xlsx"])
        self.assertEqual(Path("new.xlsx").stat().st_mode, beside.stat().st_mode)
        _, _, errors = run(path, "--table", "nowhere/plan.xlsx")
        self.assertTrue(errors.endswith("nowhere/plan.xlsx: No such file or directory\n"), errors)

    @needs("openpyxl")
    def test_an_empty_file_becomes_a_workbook(self):
        """As one that `mktemp` or `tempfile` has made for it; to be read it is refused as before."""
        import openpyxl

        path = book("book.xlsx", nodes=NODES, arcs=[HEAD, ["Kiel", "Berlin", 9, 2.5]])
        for name in ("new.xlsx", "new.xlsx:May"):
            Path("new.xlsx").write_bytes(b"")
            self.assertEqual(self.told(path, "--table", name), ("0: cost 12.5", ""))
            self.assertEqual(openpyxl.load_workbook("new.xlsx").sheetnames, [name.partition(":")[2] or "plan"])
        Path("new.xlsx").write_bytes(b"")
        self.assertIn("this is no workbook", run("new.xlsx")[2])

    @needs("openpyxl")
    def test_tables_that_are_not_written(self):
        path = book("book.xlsx", nodes=NODES, arcs=[HEAD, ["Kiel", "Berlin", 9, 2.5]])
        before = Path(path).read_bytes()
        Path("other.xlsx").write_bytes(before)
        for name, wanted in (
            ("plan.txt", "a table is written as .csv, .tsv or .xlsx"),
            ("plan", "a table is written as"),
            ("plan.ods", "a table is written as"),
            ("other.xlsx", "it has other sheets, 'nodes', 'arcs'; other.xlsx:plan writes a sheet and keeps them"),
            ("book.xlsx:a/b", "a table is written as"),
            ("book.xlsx:" + 32 * "a", "is no name of a sheet"),
            ("../" + Path().resolve().name + "/book.xlsx", "take the place of a table that is read"),
            ("book.xlsx:Nodes", "the sheet 'Nodes' is read, and this would take its place; take another name"),
            ("book.xlsx:arcs", "the sheet 'arcs' is read"),
        ):
            with self.subTest(name):
                status, _, errors = run(path, "--table", name)
                self.assertEqual(status, 3)
                self.assertRegex(errors, wanted)
        self.assertRegex(run("book.xlsx:NODES", "other.xlsx:arcs", "--table", "book.xlsx:nodes")[2], "'nodes' is read")
        self.assertEqual(Path(path).read_bytes(), before)
        self.assertEqual(sorted(each.name for each in Path().iterdir()), ["book.xlsx", "other.xlsx"])
        self.assertEqual(self.told(path, "--table", "new.xlsx"), ("0: cost 12.5", ""))
        self.assertEqual(self.told(path, "--table", "new.xlsx"), ("0: cost 12.5", ""))
        import openpyxl

        self.assertEqual(openpyxl.load_workbook("new.xlsx").sheetnames, ["plan"])


ODD = (
    [
        "",
        "NA",
        "N/A",
        "n/a",
        "null",
        "None",
        "nan",
        "#N/A",
        "#REF!",
        "#WERT!",
        "#NULL!",
        "#####",
        "Err:502",
        "TRUE",
        "yes",
    ]
    + [
        "-",
        "–",
        "--",
        "?",
        "inf",
        "∞",
        "unlimited",
        "1e5",
        "1E+05",
        "+5",
        "-5",
        "5-",
        "(5)",
        "5%",
        "€5",
        "5 t",
        "1 000",
    ]
    + ["1'000", "1_000", "0x10", "٣", "½", "1/2", "5.", ".5", "0.5", "1,5", "1,250", "2026-01-01", "12:30", "=A1", "'5"]
    + [" 7 ", "007"]
)


class Alike(InFolder):
    """The same texts in the cells of each format are read alike, or refused alike."""

    @needs("pandas")
    @needs("openpyxl")
    def test_odd_cells(self):
        for place, what in enumerate(HEAD):
            for cell in ODD:
                row = ["Kiel", "Berlin", "9", "2"]
                row[place] = cell
                with self.subTest(f"{what} {cell!r}"):
                    self.assertEqual(len({self.outcome(source) for source in self.sources(row)}), 1)

    @staticmethod
    def outcome(source):
        """The one arc that is read, or that it is refused."""
        Path("nodes.csv").write_text("name,supply\nKiel,1\nBerlin,-1\n")
        try:
            return str(read_tables("nodes.csv", source).arcs)
        except TableFault:
            return "refused"

    @staticmethod
    def sources(row):
        """Tables of this row in each format."""
        import openpyxl
        import pandas

        for name, delimiter in (("arcs.csv", ","), ("arcs.tsv", "\t")):
            with open(name, "w", newline="", encoding="utf-8") as file:
                csv.writer(file, delimiter=delimiter).writerows([HEAD, row])
            yield name
        made = openpyxl.Workbook()
        made.active.append(HEAD)
        for column, cell in enumerate(row, 1):
            if cell:
                made.active.cell(2, column, cell).data_type = "s"
        made.save("arcs.xlsx")
        yield "arcs.xlsx"
        yield pandas.DataFrame([row], columns=HEAD)


class Frames(unittest.TestCase):
    @needs("pandas")
    def test_cells(self):
        import numpy
        import pandas

        nodes = pandas.DataFrame(NODES[1:], columns=NODES[0])
        for title, row, wanted in (
            ("numbers", ["Kiel", "Berlin", 9, 2.5], 12.5),
            ("of numpy", ["Kiel", "Berlin", numpy.int32(9), numpy.float64(2.5)], 12.5),
            ("no capacity", ["Kiel", "Berlin", None, 2.5], 12.5),
            ("nan", ["Kiel", "Berlin", float("nan"), 2.5], 12.5),
            ("NA", ["Kiel", "Berlin", pandas.NA, 2.5], 12.5),
            ("infinity", ["Kiel", "Berlin", float("inf"), 2.5], 12.5),
            ("no cost", ["Kiel", "Berlin", 9, None], "row 0, column 'cost': .* the cost of a unit was expected"),
            ("an infinite cost", ["Kiel", "Berlin", 9, float("inf")], "inf stands there; .*: only a capacity can be"),
            ("a great cost", ["Kiel", "Berlin", 9, 1e300], r"1e\+300 stands there; .*, of at most 60 digits"),
            ("many digits", ["Kiel", "Berlin", 10**70, 2.5], "0+... stands there; .*, of at most 60 digits"),
            (
                "a third",
                ["Kiel", "Berlin", 9, Fraction(1, 3)],
                "Fraction.1, 3. stands there; .*: write it with decimals",
            ),
            ("a half", ["Kiel", "Berlin", 9, Fraction(5, 2)], 12.5),
            ("a truth value", ["Kiel", "Berlin", True, 2.5], "TRUE stands there; .* truth value"),
            ("numpy's truth", ["Kiel", "Berlin", numpy.bool_(True), 2.5], "TRUE stands there; .* truth value"),
            ("a truth as a cost", ["Kiel", "Berlin", 9, numpy.bool_(False)], "FALSE stands there; .* truth value"),
            ("an error", ["Kiel", "Berlin", "#N/A", 2.5], "'#N/A' stands there; .*an error"),
            ("n/a", ["Kiel", "Berlin", "n/a", 2.5], "'n/a' stands there"),
            ("a date", ["Kiel", "Berlin", pandas.Timestamp("2026-05-03"), 2.5], "a date"),
            ("a list", ["Kiel", "Berlin", [9], 2.5], "a number was expected"),
            ("a Decimal", ["Kiel", "Berlin", 9, Decimal("2.5")], 12.5),
            ("thousands in a text", ["Kiel", "Berlin", "1.250", 2.5], "is it 1.250 or 1250"),
            ("no name", ["Kiel", None, 9, 2.5], "column 'to': None stands there; a name was expected"),
            ("bytes", [b"Kiel", "Berlin", 9, 2.5], "b'Kiel' stands there; a name was expected, and this is bytes and"),
        ):
            frame = pandas.DataFrame([row], columns=HEAD, dtype=object)
            with self.subTest(title):
                if isinstance(wanted, str):
                    with self.assertRaisesRegex(TableFault, wanted):
                        read_tables(nodes, frame)
                else:
                    self.assertEqual(read_tables(nodes, frame).solve().cost, Decimal(str(wanted)))

    @needs("pandas")
    def test_short_floats(self):
        import pandas

        for dtype in ("float32", "float16", "Float32", "Sparse[float]", "Sparse[float32]"):
            with self.subTest(dtype):
                nodes = pandas.DataFrame({"name": [7.0, 8.0], "supply": [0.5, -0.5]}).astype(dtype)
                arcs = pandas.DataFrame(
                    {"from": ["7", "7"], "to": ["8", "8"], "capacity": [0.3, None], "cost": [0.1, 2]}
                )
                problem = read_tables(nodes, arcs.astype({"capacity": dtype, "cost": dtype}))
                self.assertEqual(
                    [(arc.cap, arc.cost) for arc in problem.arcs], [(Decimal("0.3"), Decimal("0.1")), (None, 2)]
                )
                self.assertEqual(problem.nodes, {"7": Decimal("0.5"), "8": Decimal("-0.5")})

    @needs("pandas")
    def test_ends_of_a_maximum_flow(self):
        import pandas

        for tail, head, source, sink in (
            (1, 2, 1, 2),
            (1, 2, 1.0, "2"),
            ("K\u00f6ln", "New York", "Ko\u0308ln", " New  York "),
        ):
            with self.subTest(source):
                arcs = pandas.DataFrame({"from": [tail], "to": [head], "capacity": [3]})
                self.assertEqual(read_tables(None, arcs, kind="max", source=source, sink=sink).solve().cost, 3)

    @needs("pandas")
    def test_names_that_are_decimals(self):
        import pandas

        nodes = pandas.DataFrame({"id": [Decimal("1.00"), Decimal("1E+2")], "supply": [5, -5]})
        arcs = pandas.DataFrame([[1, 100, 9, 2.5]], columns=HEAD)
        self.assertEqual(list(read_tables(nodes, arcs).nodes), ["1", "100"])

    @needs("pandas")
    def test_names_in_an_index(self):
        import pandas

        arcs = pandas.DataFrame([["Kiel", "Berlin", 9, 2.5]], columns=HEAD)
        for title, index, columns, wanted in (
            ("named", pandas.Index(["Kiel", "Berlin"], name="town"), {"supply": [5, -5]}, "^$"),
            ("without a name", ["Kiel", "Berlin"], {"supply": [5, -5]}, "the index is taken as the name of the node"),
            ("numbers", [0, 1], {"supply": [5, -5]}, "!there is no column 'name'"),
            ("other names", ["a", "b"], {"supply": [5, -5]}, "!there is no column 'name'"),
            (
                "an unknown name",
                pandas.Index(["Kiel", "Berlin"], name="Dorf"),
                {"supply": [5, -5]},
                "!no column 'name'",
            ),
            ("both", ["a", "b"], {"name": ["Kiel", "Berlin"], "supply": [5, -5]}, "^$"),
        ):
            nodes = pandas.DataFrame(columns, index=index)
            with self.subTest(title):
                if wanted.startswith("!"):
                    with self.assertRaisesRegex(TableFault, wanted[1:]):
                        read_tables(nodes, arcs)
                    continue
                problem = read_tables(nodes, arcs)
                self.assertEqual(problem.solve().cost, Decimal("12.5"))
                self.assertRegex("\n".join(problem.notes), wanted)

    @needs("pandas")
    def test_rows_with_a_name_in_the_index_alone(self):
        """They are no blank rows: an arc without a cost is refused there too, and a node keeps its place."""
        import pandas

        nodes = pandas.DataFrame({"supply": [5, -5, None]}, index=["Kiel", "Berlin", "Ulm"])
        arcs = pandas.DataFrame([["Kiel", "Berlin", 9, 2.5], ["Berlin", "Kiel", None, None]], columns=HEAD)
        arcs = arcs.set_index(HEAD[:2])
        with self.assertRaisesRegex(TableFault, "row .'Berlin', 'Kiel'., column 'cost': .* the cost of a unit was"):
            read_tables(nodes, arcs)
        for index in (nodes, nodes.rename_axis("town")):
            problem = read_tables(index, arcs, default_cost=0)
            self.assertEqual(list(problem.nodes), ["Kiel", "Berlin", "Ulm"])
            self.assertEqual(len(problem.arcs), 2)
        towns = nodes.rename_axis("town").reset_index().set_index("town", drop=False)
        self.assertEqual(list(read_tables(towns, arcs.iloc[:1]).nodes), ["Kiel", "Berlin", "Ulm"])
        with self.assertRaisesRegex(TableFault, "the columns 'town' and 'town' both look like the name of the node"):
            read_tables(towns.assign(town=["Ulm", "Kiel", "Berlin"]), arcs.iloc[:1])
        blank = nodes.rename_axis("town").rename(index={"Ulm": None})
        self.assertEqual(list(read_tables(blank, arcs.iloc[:1]).nodes), ["Kiel", "Berlin"])

    @needs("pandas")
    def test_messages_say_which_frame(self):
        import pandas

        nodes = pandas.DataFrame({"name": ["a", "b"], "supply": [1, -1]})
        arcs = pandas.DataFrame({"from": ["a"], "to": ["b"], "cost": [1.0]})
        for wrong_nodes, wrong_arcs, wanted in (
            (nodes.assign(supply=["x", -1]), arcs, "^the frame of nodes, row 0, column 'supply': 'x' stands there"),
            (nodes, arcs.assign(cost="x"), "^the frame of arcs, row 0, column 'cost': 'x' stands there"),
            (nodes, arcs.assign(cost=None), r"`--default-cost 0` \(in Python `default_cost=0`\) takes 0"),
            (arcs, nodes, "^the frame of nodes looks like the table of arcs"),
        ):
            with self.subTest(wanted), self.assertRaisesRegex(TableFault, wanted):
                read_tables(wrong_nodes, wrong_arcs)
        noted = read_tables(nodes, arcs.rename(columns={"cost": "cost_eur"})).notes
        self.assertRegex("\n".join(noted), "^the frame of arcs: the column 'cost_eur' is the cost")

    @needs("pandas")
    def test_matrices(self):
        """The index has the names of the rows, or the first column has."""
        import pandas

        nodes = pandas.DataFrame({"name": ["Kiel", "Ulm", "Bonn"], "supply": [5, -3, -2]})
        costs = pandas.DataFrame([[2.5, 1], [0, 4]], index=["Kiel", "Ulm"], columns=["Ulm", "Bonn"])
        for frame in (costs, costs.rename_axis("from"), costs.rename_axis("from").reset_index()):
            problem = read_tables(nodes, frame)
            self.assertEqual(problem.solve().cost, Decimal("9.5"))
            self.assertEqual(len(problem.arcs), 3)
        with self.assertRaisesRegex(TableFault, "row 'Kiel', column 'Bonn': 'x y' stands there; a number was expected"):
            read_tables(nodes, costs.astype(object).replace(1, "x y"))
        people = read_tables(None, pandas.DataFrame([[3, 5], [2, 9]], ["Ann", "Bob"], ["early", "late"]), kind="asn")
        self.assertEqual(people.solve().cost, 7)
        depots, shops = nodes[:1], pandas.DataFrame({"shop": ["Ulm", "Bonn"], "demand": [3, 2]})
        self.assertEqual(read_tables([depots, shops], costs).solve().cost, Decimal("9.5"))

    def test_what_is_no_frame(self):
        for nodes, arcs, which in (({"name": ["a"]}, {}, "nodes"), (None, [1], "arcs")):
            with self.assertRaisesRegex(
                TypeError, f"the frame of {which} has to be a DataFrame of pandas, and is of type"
            ):
                read_tables(nodes, arcs)

    @needs("pandas")
    def test_what_python_says(self):
        import pandas

        nodes = pandas.DataFrame({"name": ["a", "b"], "supply": [0.1 + 0.2, -0.3]})
        arcs = pandas.DataFrame({"from": ["a"], "to": ["b"], "Kapa": [1], "cost": [None]})
        problem = read_tables(nodes, arcs, columns={"capacity": "Kapa"}, default_cost="0.5", decimals=6)
        self.assertEqual(problem.solve().cost, Decimal("0.15"))
        self.assertRegex(
            "\n".join(problem.notes), "1 empty cost is 0.5\n1 number was rounded to 6 decimals, by at most"
        )
        for wrong in ({"columns": {"room": "Kapa"}}, {"decimal": ";"}, {"decimals": -1}, {"default_cost": "much"}):
            with self.subTest(wrong), self.assertRaises(ValueError):
                read_tables(nodes, arcs, **{"columns": {"capacity": "Kapa"}, "default_cost": 1, **wrong})


def point(at, **properties):
    return {"type": "Feature", "geometry": {"type": "Point", "coordinates": at}, "properties": properties}


def line(*at, **properties):
    return {"type": "Feature", "geometry": {"type": "LineString", "coordinates": at}, "properties": properties}


class Maps(InFolder):
    KIEL, BERLIN = point([10.1, 54.3], name="Kiel", supply=5), point([13.4, 52.5], name="Berlin", supply=-5)
    ROAD = {"capacity": 9, "cost": 2.5}

    def test_maps(self):
        kiel, berlin, road = self.KIEL, self.BERLIN, self.ROAD
        ends, said = ([10.1, 54.3], [13.4, 52.5]), {"from": "Kiel", "to": "Berlin"}
        area = {"type": "Feature", "geometry": {"type": "Polygon", "coordinates": []}, "properties": {}}
        part = {"type": "Feature", "geometry": {"type": "MultiLineString", "coordinates": []}, "properties": {}}
        for title, features, wanted in (
            ("names", [kiel, berlin, line([0, 0], [1, 1], **said, **road)], "cost 12.5"),
            ("ends", [line(*ends, **road), kiel, berlin], "the point where it begins to the point where it ends"),
            ("a way round", [kiel, berlin, line(ends[0], [11, 53], ends[1], **road)], "cost 12.5"),
            (
                "not at the end",
                [kiel, berlin, line(ends[0], [13.41, 52.5], **road)],
                "feature 3: .* no point .* 13.41, 52.5",
            ),
            (
                "nearly at the end",
                [kiel, berlin, line(ends[0], [13.4, 52.50000001], **road)],
                "feature 3: .* no point .* 13.4, 52.50000001",
            ),
            ("two at one place", [kiel, point(ends[0], name="Kiel 2"), line(*ends, **road)], "stand at one place"),
            (
                "German",
                [
                    point(ends[0], Ort="K", Angebot=5),
                    point(ends[1], Ort="B", Bedarf=5),
                    line(*ends, Kapazität=9, Kosten=2.5),
                ],
                "cost 12.5",
            ),
            ("no cost", [kiel, berlin, line(*ends, capacity=9)], "there is no column 'cost'"),
            (
                "one without cost",
                [kiel, berlin, line(*ends, **road), line(*ends, capacity=9)],
                "feature 4: it has no property 'cost'; `--default-cost 0` takes 0 where there is none",
            ),
            (
                "ends of some lines",
                [kiel, berlin, line(*ends, **road), line([0, 0], [1, 1], **said, capacity=9, cost=7)],
                "cost 12.5[^:]*\n(.*\n)*note: .* each line without 'from' and 'to' leads",
            ),
            ("null for ends", [kiel, berlin, line(*ends, **{"from": None, "to": None}, **road)], "cost 12.5"),
            (
                "one of both ends",
                [kiel, berlin, line(*ends, **said, **road), line(*ends, **{"from": "Kiel"}, **road)],
                "feature 4: it has no property 'to'; a line has both of 'from' and 'to', or neither",
            ),
            (
                "one without capacity",
                [kiel, berlin, line(*ends, **road), line(*ends, cost=2.5)],
                "feature 4: it has no property 'capacity'; null is no limit",
            ),
            ("no limit", [kiel, berlin, line(*ends, capacity=None, cost=2.5)], "cost 12.5"),
            ("a place between", [kiel, berlin, point([1, 1], name="Ulm"), line(*ends, **road)], "cost 12.5"),
            ("an area", [kiel, berlin, line(*ends, **road), area], "1 of its features is a Polygon, and left aside"),
            ("several lines in one", [kiel, berlin, part], "part them in single ones"),
            ("no lines", [kiel, berlin], "there is no line"),
            ("an unknown property", [kiel, berlin, line(*ends, capacty=9, cost=2.5)], "did you mean 'capacity'"),
            ("a truth value", [kiel, berlin, line(*ends, capacity=True, cost=2.5)], "TRUE stands there"),
            ("no coordinates", [point([], name="Kiel"), line(*ends, **road)], "feature 1: its coordinates are not"),
            ("a name with a point", [point(ends[0], name=1.0, supply=5), berlin, line(*ends, **road)], "\n1 .* Berlin"),
            (
                "a name with and without a point",
                [
                    point(ends[0], name=1.0, supply=5),
                    berlin,
                    line([0, 0], [1, 1], **{"from": 1, "to": "Berlin"}, **road),
                ],
                "cost 12.5",
            ),
            (
                "nothing in place of a feature",
                [kiel, berlin, None, line(*ends, **road)],
                "cost 12.5[^:]*\n(.*\n)*note: .* 1 of its features without a geometry is left aside",
            ),
            (
                "a place without a geometry",
                [kiel, berlin, {**area, "geometry": None, "properties": {"name": "Ulm", "supply": 3}}],
                "feature 3: it has no geometry, and a place is a Point",
            ),
            (
                "an area that supplies",
                [{**area, "properties": {"name": "Kiel", "supply": 5}}, berlin, line([0, 0], [1, 1], **said, **road)],
                "feature 1: its geometry is a Polygon, and a place is a Point; give it one, or give two tables",
            ),
            (
                "a road without a geometry",
                [kiel, berlin, {**area, "geometry": None, "properties": {**said, **road}}],
                "feature 3: it has no geometry, and a road is a LineString",
            ),
            (
                "a road without a geometry from 0",
                [kiel, berlin, {**area, "geometry": None, "properties": {"from": 0, "to": "Berlin", **road}}],
                "feature 3: it has no geometry, and a road is a LineString",
            ),
            (
                "an area that supplies nothing",
                [kiel, berlin, line(*ends, **road), {**area, "properties": {"supply": 0, "from": None}}],
                "cost 12.5",
            ),
            (
                "an area with other words",
                [kiel, berlin, line(*ends, **road), {**area, "properties": {"name": "Hesse", "source": "OSM"}}],
                "1 of its features is a Polygon, and left aside",
            ),
            ("a point in place of a feature", [kiel, berlin["geometry"]], "feature 2: this is no feature"),
            ("a number in place of a feature", [kiel, 7], "feature 2: this is no feature"),
            ("no geometry", [kiel, berlin, {**area, "geometry": [1, 2]}], "feature 3: its geometry and its properties"),
            ("no properties", [kiel, {**berlin, "properties": ["name"]}], "feature 2: its geometry and its properties"),
            (
                "a place that is too far",
                [kiel, point([10**400, 0], name="Ulm")],
                "feature 2: its coordinates are not",
            ),
        ):
            Path("map.geojson").write_text(json.dumps({"type": "FeatureCollection", "features": features}))
            with self.subTest(title):
                status, out, errors = run("map.geojson")
                self.assertRegex(out + errors, wanted)
                self.assertEqual(status, 0 if "cost 12.5" in out else 3)

    def test_a_map_of_many_properties(self):
        """Each feature has its own, as those of OpenStreetMap have: what it lacks takes no room."""
        ends = [10.1, 54.3], [13.4, 52.5]
        roads = [line(*ends, **self.ROAD, **{f"tag{number}": "yes"}) for number in range(1000)]
        text = json.dumps({"type": "FeatureCollection", "features": [self.KIEL, self.BERLIN, *roads]})
        Path("map.geojson").write_text(text)
        tracemalloc.start()
        self.addCleanup(tracemalloc.stop)
        _, lines = read_map(Path("map.geojson"))
        self.assertEqual((len(lines.header), len(lines.lines)), (1004, 1000))
        self.assertLess(tracemalloc.get_traced_memory()[1], 25_000_000)

    def test_what_is_no_map(self):
        for text, wanted in (
            ("[1, 2", "no JSON"),
            ("[]", "no FeatureCollection"),
            ('{"type": "Feature"}', "no FeatureColl"),
            ("[1" + "0" * 5000 + "]", "no JSON"),
            ('{"features": [{"properties": {"cost": 1, "cost": 7}}]}', "map.json: an object has 'cost' twice"),
        ):
            Path("map.json").write_text(text)
            with self.subTest(text):
                self.assertRegex(run("map.json")[2], wanted)

    def test_places(self):
        features = [self.KIEL, self.BERLIN, line([10.1, 54.3], [13.4, 52.5], **self.ROAD)]
        Path("map.geojson").write_text(json.dumps({"type": "FeatureCollection", "features": features}))
        problem = read_tables(None, "map.geojson")
        self.assertEqual(problem.places, {"Kiel": (10.1, 54.3), "Berlin": (13.4, 52.5)})


class Notes(InFolder):
    def test_each_command_tells_them(self):
        Path("nodes.csv").write_text("name,supply\nKiel,5\nBerlin,-5\n")
        Path("arcs.csv").write_text("from,to,capacity (t),cost\nKiel,Berlin,9,2.5\n")
        told = "the column 'capacity (t)' is the capacity, in t"
        for command in ("plan", "explain", "ranges", "convert", "what-if"):
            out, errors = io.StringIO(), io.StringIO()
            with contextlib.redirect_stdout(out), contextlib.redirect_stderr(errors):
                with open(os.devnull, encoding="utf-8") as nothing:
                    before, sys.stdin = sys.stdin, nothing
                    try:
                        status = main([command, "nodes.csv", "arcs.csv"])
                    finally:
                        sys.stdin = before
            with self.subTest(command):
                self.assertEqual(status, 0, errors.getvalue())
                self.assertEqual(errors.getvalue().count(told), 1, errors.getvalue())
        status, out, _ = run("nodes.csv", "arcs.csv", "--json", "--report", "plan.html")
        self.assertIn(f"arcs.csv: {told}", json.loads(out)["notes"])
        self.assertIn("capacity (t)", Path("plan.html").read_text())

    def test_command_lines_that_are_refused(self):
        for words in (
            ["--round", "x"],
            ["--round", "31"],
            ["--decimal", ";"],
            ["--default-cost", "much"],
            ["--columns", "capacity"],
            ["--columns", "room=Kapa"],
        ):
            with self.subTest(words), self.assertRaises(SystemExit) as ended:
                run("nodes.csv", "arcs.csv", *words)
            self.assertEqual(ended.exception.code, 2)


if __name__ == "__main__":
    sys.exit(unittest.main())
