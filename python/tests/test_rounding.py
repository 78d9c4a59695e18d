"""Rounding that is asked for: what changes, that supplies still add up to 0, and what is told."""

import random
import sys
import unittest
from decimal import Decimal
from fractions import Fraction

from mcf_plan import Problem
from mcf_plan.rounding import round_graph, round_problem


class Rounding(unittest.TestCase):
    def test_numbers(self):
        for number, decimals, wanted in (
            ("2.5", 0, "2"),
            ("3.5", 0, "4"),
            ("-2.675", 2, "-2.68"),
            ("0.004", 2, "0"),
            ("-0.004", 2, "0"),
            ("12", 6, "12"),
            ("1e20", 3, "100000000000000000000"),
            ("8.876080590527547", 6, "8.876081"),
        ):
            problem = Problem()
            problem.add_arc("a", "b", low=0, cap=None, cost=number)
            with self.subTest(number):
                rounded = round_problem(problem, decimals)
                self.assertEqual(rounded.arcs[0].cost, Decimal(wanted))
                self.assertEqual(bool(rounded.notes), Decimal(number) != Decimal(wanted))
                self.assertIsNone(rounded.arcs[0].cap)
                self.assertEqual(problem.arcs[0].cost, Decimal(number))

    def test_what_is_told(self):
        problem = Problem()
        problem.add_node("a", "0.004")
        problem.add_arc("a", "b", low="0.12", cap="1.239", cost="5")
        self.assertEqual(round_problem(problem, 2).notes, ["2 numbers were rounded to 2 decimals, by at most 0.004"])
        self.assertEqual(round_problem(problem, 3).notes, [])
        for decimals in (-1, 31):
            with self.assertRaises(ValueError):
                round_problem(problem, decimals)

    def test_supplies_stay_balanced(self):
        drawn = random.Random(7)
        for _ in range(300):
            count, decimals = drawn.randrange(2, 40), drawn.randrange(0, 5)
            supplies = [drawn.uniform(-9, 9) for _ in range(count)]
            supplies[-1] -= sum(supplies)
            problem = Problem()
            for number, supply in enumerate(supplies):
                problem.add_node(str(number), supply)
            rounded = round_problem(problem, decimals)
            self.assertEqual(sum(rounded.nodes.values()), 0)
            step = Decimal(1).scaleb(-decimals)
            for name, supply in problem.nodes.items():
                self.assertLess(abs(rounded.nodes[name] - supply), step)
                self.assertEqual(rounded.nodes[name] % step, 0)

    def test_supplies_that_are_not_balanced_stay_so(self):
        problem = Problem()
        problem.add_node("a", "5.26")
        problem.add_node("b", "-5.11")
        rounded = round_problem(problem, 1)
        self.assertEqual(rounded.nodes, {"a": Decimal("5.3"), "b": Decimal("-5.1")})

    def test_a_graph(self):
        try:
            import networkx
        except ImportError:
            self.skipTest("networkx is not installed")
        from mcf_plan.networkx_backend import backend

        G = networkx.DiGraph()
        for number in range(7):
            G.add_node(number, demand=-1 / 7)
            G.add_edge(number, "end", capacity=float("inf") if number else 1, weight=0.1 + 0.2)
        G.add_node("end", demand=1.0)
        H, note = round_graph(G, 6)
        self.assertEqual(sum(Fraction(repr(data["demand"])) for _, data in H.nodes(data=True)), 0)
        self.assertEqual(backend.network_simplex(H)[0], 0.3)
        self.assertRegex(note, "^14 numbers were rounded to 6 decimals, by at most 0[.]0000")
        self.assertEqual(H.edges[0, "end"]["capacity"], 1)
        self.assertEqual(G.nodes[0]["demand"], -1 / 7)
        self.assertEqual(round_graph(H, 6)[1], "")


if __name__ == "__main__":
    sys.exit(unittest.main())
