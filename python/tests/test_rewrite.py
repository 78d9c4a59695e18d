"""Rewriting keeps the meaning, or says by row and reason that none does."""

import sys
import unittest
from decimal import Decimal

from mcf_plan import BeyondLimits, Infeasible, Meaningless, Plan, Problem, Unbounded
from mcf_plan.dimacs import find_fault
from mcf_plan.problem import plain
from mcf_plan.rewrite import Options, rewrite


def problem_of(nodes, arcs, **kind):
    """A problem of nodes 'NAME SUPPLY' and arcs 'TAIL HEAD LOW CAP COST'."""
    problem = Problem(**kind)
    for name, supply in nodes.items():
        problem.add_node(name, supply)
    for line in arcs:
        tail, head, low, cap, cost = line.split()
        problem.add_arc(tail, head, low=low, cap=cap, cost=cost)
    return problem


class Meaning(unittest.TestCase):
    def solved(self, problem, **options):
        text = rewrite(problem, Options(**options)).text
        self.assertIsNone(find_fault(text))
        result = problem.solve(**options)
        self.assertTrue(result.checked)
        return result

    def test_costs(self):
        for title, problem, options, cost in (
            ("decimals", problem_of({"a": "1.5", "b": "-1.5"}, ["a b 0 2 0.25"]), {}, "0.375"),
            ("lower bound below 0", problem_of({"a": 1, "b": -1}, ["a b -5 5 -1", "b a -3 3 -2"]), {}, "-10"),
            (
                "lower bounds beyond the limits",
                problem_of({"a": 0, "b": 0}, ["a b 2000000000 3000000000 1", "b a 0 inf 1"]),
                {},
                "4000000000",
            ),
            (
                "supply beyond the limits",
                problem_of({"a": 2500000000, "b": -2500000000}, ["a b 0 inf 2"]),
                {},
                "5000000000",
            ),
            ("surplus kept", problem_of({"a": 5, "b": -3}, ["a b 0 9 4"]), {"surplus": "keep"}, "12"),
            ("surplus at a cost", problem_of({"a": 5, "b": -3}, ["a b 0 9 4"]), {"surplus": "1.5"}, "15"),
            ("demand not met at a cost", problem_of({"a": 3, "b": -5}, ["a b 0 9 4"]), {"surplus": 10}, "32"),
            ("at most", problem_of({"a": 5, "b": -3, "c": 0}, ["a b 0 9 4"], balance="at most"), {}, "12"),
            ("at least", problem_of({"a": 3, "b": -5}, ["a b 0 9 4"], balance="at least"), {}, "12"),
            (
                "gain around a circle with a capacity",
                problem_of({"a": 0, "b": 0}, ["a b 0 inf -3", "b a 0 7 1"]),
                {},
                "-14",
            ),
            ("large arcs around a gainful circle", problem_of({"a": 0}, ["a a 0 3000000000 -1"]), {}, "-3000000000"),
        ):
            with self.subTest(title):
                self.assertEqual(plain(self.solved(problem, **options).cost), cost)

    def test_kept_and_not_met(self):
        plan = self.solved(problem_of({"a": 5, "b": -3}, ["a b 0 9 4"]), surplus="keep")
        self.assertEqual((plan.kept, plan.not_met), ({"a": 2}, {}))
        plan = self.solved(problem_of({"a": 3, "b": -5}, ["a b 0 9 4"]), surplus="keep")
        self.assertEqual((plan.kept, plan.not_met), ({}, {"b": 2}))
        plan = self.solved(problem_of({"a": 3, "b": -5}, ["a b 0 9 4"], balance="at least"))
        self.assertEqual(plan.not_met, {"b": 2})

    def test_unequal_sides(self):
        problem = Problem("asn")
        for tail, head, cost in (("Ann", "early", 3), ("Ann", "late", 5), ("Bob", "early", 2), ("Cem", "late", 9)):
            problem.add_arc(tail, head, cost=cost)
        self.assertIsInstance(self.solved(problem), Infeasible)
        plan = self.solved(problem, surplus="keep")
        self.assertEqual((plan.cost, plan.kept), (7, {"Cem": 1}))

    def test_maximum_flows(self):
        problem = Problem("max", source="a", sink="c")
        problem.add_arc("a", "b", cap="3000000000.5")
        problem.add_arc("b", "c")
        self.assertEqual(self.solved(problem).cost, Decimal("3000000000.5"))
        problem.add_arc("c", "b", low=1, cap=2)
        self.assertEqual(self.solved(problem).cost, Decimal("3000000000.5"))
        bound = Problem("max", source="a", sink="b")
        bound.add_arc("a", "b", low=2, cap=3)
        bound.add_arc("b", "c", low=1, cap=1)
        self.assertIsInstance(self.solved(bound), Infeasible)

    def test_where_profile_awk_changed_the_meaning(self):
        two = Problem.from_dimacs("p max 2 2\nn 1 s\nn 2 t\na 1 2 3000000000\na 1 2 3000000000\n")
        self.assertEqual(self.solved(two).cost, 6_000_000_000)
        one = Problem.from_dimacs("p max 3 2\nn 1 s\nn 3 t\na 1 2 3000000000\na 2 3 3000000000\n")
        self.assertEqual(self.solved(one).cost, 3_000_000_000)
        circle = Problem.from_dimacs("p min 2 2\na 1 2 0 inf -2\na 2 1 0 inf 1\n")
        with self.assertRaisesRegex(Unbounded, "each unit more saves 1"):
            circle.solve()
        below = Problem.from_dimacs("p min 2 1\nn 1 -2\nn 2 2\na 1 2 -3 5 4\n")
        self.assertEqual(self.solved(below).cost, -8)
        fractions = Problem.from_dimacs("p min 2 1\nn 1 2\nn 2 -2\na 1 2 0 5 3.5\n")
        self.assertEqual(self.solved(fractions).cost, 7)

    def test_unbounded(self):
        with self.assertRaises(Unbounded) as caught:
            problem_of({"a": 1, "b": -1}, ["a b 0 5 1", "a c 0 inf -3", "c a 0 inf 2"]).solve()
        self.assertEqual(sorted(caught.exception.arcs), [1, 2])
        problem = Problem("max", source="a", sink="c")
        problem.add_arc("a", "b")
        problem.add_arc("b", "c")
        problem.add_arc("a", "c", cap=3)
        with self.assertRaisesRegex(Unbounded, "a to b, b to c"):
            problem.solve()
        problem.add_arc("b", "b", low=1, cap=2)
        with self.assertRaises(Unbounded) as caught:
            problem.solve()
        self.assertEqual(caught.exception.arcs, [0, 1])

    def test_no_plan_goes_before_unbounded(self):
        result = problem_of({"a": 9, "b": -9}, ["a b 0 5 1", "a c 0 inf -3", "c a 0 inf 2"]).solve()
        self.assertEqual((result.shortage, result.checked), (4, True))

    def test_beyond_the_limits(self):
        for title, problem, words in (
            ("cost", problem_of({"a": 0}, ["a b 0 5 2000000000000"]), "larger unit of money"),
            (
                "too fine a cost",
                problem_of({"a": 0}, ["a b 0 5 10000000000", "a c 0 5 0.001"]),
                "arc 2, a to c: the cost 0.001 .*finest step that would do is 0.01",
            ),
            (
                "too fine a bound",
                problem_of({"a": 1000000, "b": -1000000}, ["a b 0 1000000 1", "b a 0 0.00000000001 1"]),
                "arc 2, b to a: its bound 0.00000000001 is too fine .* is 0.001",
            ),
            (
                "amount",
                problem_of({"a": 0}, ["a b 0 1000000000000000 1"] * 2 + ["b a 0 1000000000000000 -2"]),
                "larger unit",
            ),
        ):
            with self.subTest(title), self.assertRaisesRegex(BeyondLimits, words):
                problem.solve()
        many = Problem()
        for number in range(50_001):
            many.add_node(str(number))
        with self.assertRaisesRegex(BeyondLimits, "50,001 nodes"):
            many.solve()

    def test_notes_name_the_capacity_as_it_stands_in_the_text(self):
        rewriting = rewrite(problem_of({"a": "2.5", "b": "-2.5"}, ["a b 0 inf 4.25"]))
        self.assertIn("a 1 2 0 1000000000 425\n", rewriting.text)
        self.assertIn("1 arc without a capacity: 1000000000 is written there", "; ".join(rewriting.notes))

    def test_meaningless(self):
        for title, problem, words in (
            ("cost in max", problem_of({}, ["a b 0 5 1"], kind="max", source="a", sink="b"), "has a cost"),
            ("supply in max", problem_of({"a": 1}, ["a b 0 5 0"], kind="max", source="a", sink="b"), "has a supply"),
            ("no source", problem_of({}, ["a b 0 5 0"], kind="max", sink="b"), "needs a source"),
            ("source and sink", problem_of({}, ["a b 0 5 0"], kind="max", source="a", sink="a"), "same node"),
            ("capacity in asn", problem_of({}, ["a b 0 5 0"], kind="asn"), "other bounds"),
            ("supply in asn", problem_of({"a": 2}, ["a b 0 1 0"], kind="asn"), "supplies 2"),
            ("side in asn", problem_of({}, ["a b 0 1 0", "b c 0 1 0"], kind="asn"), "source side"),
        ):
            with self.subTest(title), self.assertRaisesRegex(Meaningless, words):
                problem.solve()
        with self.assertRaises(Meaningless):
            problem_of({"a": 1}, ["a b 0 1 0"], balance="at most").solve(surplus="keep")
        with self.assertRaisesRegex(ValueError, "surplus is 'kept', and has to be 'refuse', 'keep' or a number"):
            problem_of({"a": 1}, ["a b 0 1 0"]).solve(surplus="kept")

    def test_plan_of_every_kind_of_number(self):
        plan = self.solved(problem_of({"a": "0.5", "b": "-0.50"}, ["a b 0 1 1E+2"]))
        self.assertIsInstance(plan, Plan)
        self.assertEqual((plan.flows, plan.cost), ([Decimal("0.5")], 50))


if __name__ == "__main__":
    sys.exit(unittest.main())
