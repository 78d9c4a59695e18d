"""The minimum cut of a maximum flow: from the prices and by a search, with lower bounds and decimals."""

import dataclasses
import random
import sys
import unittest
from decimal import Decimal

from mcf_plan import Disagreement, Meaningless, Plan, Problem, Unbounded
from mcf_plan.cuts import minimum_cut


def drawn(draws: random.Random) -> Problem:
    """A problem of a maximum flow; some have lower bounds, halves, arcs without limit, or no plan."""
    nodes = [f"n{number}" for number in range(draws.randint(2, 6))]
    problem = Problem("max", source=nodes[0], sink=nodes[-1])
    for name in nodes:
        problem.add_node(name)
    for _ in range(draws.randint(0, 12)):
        low = draws.choice([0, 0, 0, 0, 1])
        cap = None if draws.random() < 0.1 else low + Decimal(draws.randint(0, 8)) / 2
        problem.add_arc(*draws.sample(nodes, 2), low=low, cap=cap)
    return problem


class Cuts(unittest.TestCase):
    def test_drawn(self) -> None:
        draws, found, with_lows = random.Random(3), 0, 0
        for _ in range(120):
            problem = drawn(draws)
            try:
                plan = problem.solve()
            except Unbounded:
                continue  # no maximum flow
            if not isinstance(plan, Plan):
                continue
            cut = minimum_cut(plan)
            self.assertEqual(cut.capacity, plan.cost)
            self.assertIn(problem.source, cut.source_side)
            self.assertIn(problem.sink, cut.sink_side)
            self.assertEqual(cut.source_side | cut.sink_side, set(problem.nodes))
            found += 1
            with_lows += any(problem.arcs[k].low for k in range(len(problem.arcs)))
            # Without prices, and with such as show no cut, the search finds the same one, which is nearest to the source.
            for prices in (None, dict.fromkeys(problem.nodes, Decimal(0))):
                self.assertEqual(minimum_cut(dataclasses.replace(plan, prices=prices)), cut)
        self.assertGreater(found, 60)
        self.assertGreater(with_lows, 10)

    def test_no_maximum_flow(self) -> None:
        problem = Problem()
        problem.add_arc("a", "b", cap=1)
        with self.assertRaises(Meaningless):
            minimum_cut(problem.solve())
        pipe = Problem("max", source="a", sink="b")
        pipe.add_arc("a", "b", cap=2)
        with self.assertRaises(Disagreement):
            minimum_cut(Plan(pipe, [Decimal(1)], Decimal(1)))


if __name__ == "__main__":
    sys.exit(unittest.main())
