"""Frames of pandas in and out, and what a notebook shows."""

import sys
import unittest
from decimal import Decimal

from mcf_plan import Problem
from mcf_plan.tables import TableFault

try:
    import pandas
except ImportError:
    pandas = None


def shipped() -> Problem:
    """A problem whose plan has decimals, a lower bound and an arc without limit."""
    problem = Problem()
    problem.add_node("depot <1>", 5)
    problem.add_node("shop", "-4.5")
    problem.add_arc("depot <1>", "shop", low=1, cap=3, cost="2.5", name="road & rail")
    problem.add_arc("depot <1>", "shop", cost="3.75", name="ferry")
    return problem


@unittest.skipUnless(pandas, "no pandas here: frames are not tried")
class Frames(unittest.TestCase):
    def test_in(self) -> None:
        nodes = pandas.DataFrame({"name": ["a", "b"], "supply": [2, -2]})
        arcs = pandas.DataFrame({"from": ["a"], "to": ["b"], "capacity": [3], "cost": [0.1]})
        self.assertEqual(Problem.from_frames(nodes, arcs).solve().cost, Decimal("0.2"))
        most = Problem.from_frames(None, arcs.drop(columns="cost"), kind="max", source="a", sink="b")
        self.assertEqual(most.solve().cost, 3)

    def test_what_is_no_number(self) -> None:
        """A period is written as its year, and is no amount."""
        nodes = pandas.DataFrame({"name": ["a", "b"], "supply": [2, -2]})
        arcs = pandas.DataFrame(
            {"from": ["a"], "to": ["b"], "capacity": pandas.period_range("2026", periods=1, freq="Y")}
        )
        with self.assertRaisesRegex(
            TableFault, "row 0, column 'capacity': Period.* stands there; a number was expected"
        ):
            Problem.from_frames(nodes, arcs.assign(cost=[1]))

    def test_remarks_that_are_missing(self) -> None:
        nodes = pandas.DataFrame({"name": ["a", "b"], "supply": [2, -2]})
        arcs = pandas.DataFrame({"from": ["a"] * 3, "to": ["b"] * 3, "cost": [1, 2, 3]})
        remarks = pandas.array([pandas.NA, "steep", "closed"], dtype="string")
        with self.assertRaisesRegex(TableFault, "row 2, column 'remark': 'closed' stands there; each row counts"):
            Problem.from_frames(nodes, arcs.assign(remark=remarks))
        self.assertEqual(Problem.from_frames(nodes, arcs.assign(remark=remarks)[:2]).solve().cost, 2)

    def test_arcs(self) -> None:
        plan = shipped().solve(surplus="keep")
        frame = plan.to_frame()
        self.assertEqual((frame.index.name, list(frame.index)), ("arc", ["road & rail", "ferry"]))
        self.assertEqual(frame.columns.tolist()[:7], ["from", "to", "low", "capacity", "unit cost", "flow", "cost"])
        self.assertEqual(frame["flow"].tolist(), [3, 1.5])
        self.assertEqual(frame["capacity"].tolist(), [3, float("inf")])
        self.assertEqual((str(frame["low"].dtype), str(frame["unit cost"].dtype)), ("int64", "float64"))
        self.assertEqual(frame["cost"].sum(), float(plan.cost))
        self.assertEqual(frame["is full"].tolist(), [True, False])
        self.assertEqual(frame.loc["road & rail", "one more costs"], -1.25)

    def test_nodes(self) -> None:
        frame = shipped().solve(surplus="keep").nodes_to_frame()
        self.assertEqual((frame.index.name, frame.columns.tolist()), ("node", ["supply", "kept", "price"]))
        self.assertEqual(frame["kept"].tolist(), [0.5, 0])

    def test_numbers_stay_exact(self) -> None:
        problem = Problem()
        for name, cost in (("x", "0.123456789"), (None, "1.0000000001")):
            problem.add_arc("a", "b", cap=1, cost=cost, name=name)
        problem.add_arc("a", "b", cap=1, cost=100)
        frame = problem.solve().to_frame()
        self.assertEqual((frame.index.tolist(), frame["name"].tolist()), ([0, 1, 2], ["x", None, None]))
        self.assertEqual([Decimal(repr(cost)) for cost in frame["unit cost"]], [arc.cost for arc in problem.arcs])
        exact = [Decimal("0.12345678901234567891"), None]
        from mcf_plan.frames import numbers

        self.assertEqual(list(numbers(exact)), [exact[0], Decimal("Infinity")])
        self.assertEqual(list(numbers([Decimal(2**70)])), [float(2**70)])


class Notebook(unittest.TestCase):
    def test_plan(self) -> None:
        shown = shipped().solve(surplus="keep")._repr_html_()
        for words in (
            "<b>Cost 13.125</b>",
            "depot &lt;1&gt;",
            "road &amp; rail",
            ">1.5<",
            "0.5 stays at depot &lt;1&gt;",
        ):
            self.assertIn(words, shown)
        self.assertNotIn("depot <1>", shown)

    def test_short(self) -> None:
        problem = Problem()
        for number in range(25):
            problem.add_node(f"from {number}", 1)
            problem.add_node(f"to {number}", -1)
            problem.add_arc(f"from {number}", f"to {number}")
        shown = problem.solve()._repr_html_()
        self.assertEqual(shown.count("<tr>"), 11)
        self.assertIn("and 15 more of 25 arcs carry something", shown)

    def test_no_plan(self) -> None:
        shown = shipped().solve()._repr_html_()
        self.assertIn("<b>There is no plan: ", shown)
        problem = Problem()
        problem.add_node("<b>", 3)
        problem.add_node("c", -3)
        problem.add_arc("<b>", "c", cap=2)
        shown = problem.solve()._repr_html_()
        self.assertIn("1 too many at &lt;b&gt;.", shown)
        self.assertNotIn("at <b>", shown)


if __name__ == "__main__":
    sys.exit(unittest.main())
