"""A number over values: each point against solving anew."""

import doctest
import random
import sys
import unittest
from decimal import Decimal
from pathlib import Path

sys.path.insert(0, str(Path(__file__).resolve().parent))
from test_sensitivity import changed, drawn  # noqa: E402

from mcf_plan import Infeasible, Session, sweep as package  # noqa: E402
from mcf_plan.problem import plain  # noqa: E402
from mcf_plan.sweep import row_of_values, sweep  # noqa: E402


class Sweep(unittest.TestCase):
    def compare(self, problem, told):
        """A point is what solving a problem anew says."""
        answer = problem.solve()
        if isinstance(answer, Infeasible):
            self.assertEqual((told.cost, told.shortage), (None, answer.shortage))
        else:
            self.assertEqual((told.cost, told.shortage), (answer.cost, None))

    def test_drawn(self):
        draws = random.Random(3)
        for _ in range(12):
            problem = drawn(draws)
            with Session(problem) as session:
                session.set_cost(0, problem.arcs[0].cost + 1)
                session.undo()
                values = list(range(0, 7))
                for what in ("cap", "low", "cost"):
                    least = problem.arcs[0].low if what == "cap" else 0
                    most = problem.arcs[0].cap if what == "low" else None
                    chosen = [least + value for value in values if most is None or value <= most]
                    for point in sweep(session, (what, 0), chosen):
                        self.compare(changed(problem, 0, **{what: point.value}), point)
                first, second = list(problem.nodes)[:2]
                for point in sweep(session, ("supply", first, second), values):
                    other = problem.copy()
                    other.nodes[second] -= point.value - other.nodes[first]
                    other.nodes[first] = point.value
                    self.compare(other, point)
                for point in sweep(session, ("supply", first), values):
                    other = problem.copy()
                    other.nodes[first] = point.value
                    self.compare(other, point)
                self.assertTrue(session.can_redo, "what can be redone stays")
                self.assertEqual(session.problem.arcs, problem.arcs)

    def test_refused(self):
        with Session(drawn(random.Random(5))) as session:
            with self.assertRaises(ValueError):
                sweep(session, ("price", 0), [1])
            with self.assertRaises(KeyError):
                sweep(session, ("supply", "nowhere"), [1])
            with self.assertRaises(KeyError):
                sweep(session, ("supply", "n0", "nowhere"), [1])
            with self.assertRaises(ValueError):
                sweep(session, ("cost", 0), ["much"])

    def test_row_of_values(self):
        def row(*numbers):
            return [plain(value) for value in row_of_values(*map(Decimal, numbers))]

        self.assertEqual(row("0", "1", "0.25"), ["0", "0.25", "0.5", "0.75", "1"])
        self.assertEqual(row("3", "-1", "-3"), ["3", "0", "-1"])
        self.assertEqual(row("2", "2", "1"), ["2"])
        for wrong, words in (
            (("0", "1", "0"), "steps of 0 do not lead from 0 to 1$"),
            (("0", "1", "-1"), "steps of -1 do not lead from 0 to 1; steps of 1 do"),
            (("1E+1", "0", "1E+1"), "steps of 10 do not lead from 10 to 0; steps of -10 do"),
            (("0", "1E+2", "0.01"), "from 0 to 100 by 0.01 there are more than 10,000 values"),
        ):
            with self.assertRaisesRegex(ValueError, words):
                row(*wrong)

    def test_examples(self):
        self.assertEqual(doctest.testmod(package).failed, 0)


if __name__ == "__main__":
    sys.exit(unittest.main())
