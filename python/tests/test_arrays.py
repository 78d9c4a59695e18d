"""Problems in arrays: lists and numpy, by the program and by the C library, against problems with names."""

import random
import sys
import time
import unittest
from typing import Any, Dict, List

from mcf_plan import ArrayInfeasible, ArrayPlan, BeyondLimits, Disagreement, Infeasible, Plan, Problem, TimeLimit
from mcf_plan.arrays import ArrayProblem, solve_arrays
from mcf_plan.library import Library
from mcf_plan.program import Program, ProgramFailed

from limits import HEARD

try:
    import numpy
except ImportError:
    numpy = None
try:
    LIBRARY = [Library()]
except ProgramFailed:
    LIBRARY = []

DIAMOND = [0, 0, 1, 1, 2], [1, 2, 2, 3, 3], [4, 2, 2, 3, 5], [2, 2, 1, 3, 1], [4, 0, 0, -4]
"""Tails, heads, capacities, costs and supplies of examples/diamond."""


def drawn(draws: random.Random) -> Dict[str, List[Any]]:
    """Columns of a problem; some have no flow."""
    nodes, arcs = draws.randint(1, 6), draws.randint(0, 12)
    supplies = [0] * nodes
    for _ in range(draws.randint(0, 3)):
        amount, tail, head = draws.randint(0, 5), draws.randrange(nodes), draws.randrange(nodes)
        supplies[tail] += amount
        supplies[head] -= amount
    if draws.random() < 0.05:
        supplies[0] += 1
    costs = [draws.randint(-4, 9) for _ in range(arcs)]
    lows = [draws.choice([0, 0, 0, 1, 2]) for _ in range(arcs)]
    caps = [
        draws.choice([None, 3_000_000_000]) if cost >= 0 and draws.random() < 0.2 else low + draws.randint(0, 6)
        for low, cost in zip(lows, costs)
    ]
    return {
        "tails": [draws.randrange(nodes) for _ in range(arcs)],
        "heads": [draws.randrange(nodes) for _ in range(arcs)],
        "capacities": caps,
        "costs": costs,
        "supplies": supplies,
        "lower_bounds": lows,
    }


def named(columns: Dict[str, List[Any]]) -> Problem:
    """The same problem with names."""
    problem = Problem()
    for node, supply in enumerate(columns["supplies"]):
        problem.add_node(str(node), supply)
    rows = (columns[what] for what in ("tails", "heads", "lower_bounds", "capacities", "costs"))
    for tail, head, low, cap, cost in zip(*rows):
        problem.add_arc(str(tail), str(head), low=low, cap=cap, cost=cost)
    return problem


class Arrays(unittest.TestCase):
    def test_drawn(self) -> None:
        draws, kinds = random.Random(5), set()
        for _ in range(60):
            columns = drawn(draws)
            wanted = named(columns).solve()
            for solver in [Program(), *LIBRARY]:
                found = solve_arrays(**columns, solver=solver)
                self.assertTrue(found.checked)
                kinds.add(type(found))
                if isinstance(wanted, Plan):
                    self.assertEqual((found.cost, list(found.flows)), (wanted.cost, wanted.flows), columns)
                else:
                    self.assertEqual(found.shortage, wanted.shortage, columns)
                    inside = {str(node) for node, mark in enumerate(found.cut) if mark}
                    self.assertEqual(inside, wanted.cut, columns)
        self.assertEqual(kinds, {ArrayPlan, ArrayInfeasible})

    def test_lists_need_no_numpy(self) -> None:
        plan = solve_arrays(*DIAMOND)
        self.assertEqual((plan.cost, type(plan.flows), plan.flows), (14, list, [2, 2, 2, 0, 4]))
        self.assertEqual(plan.potentials, [-4, -2, -1, 0])

    def test_shown_in_a_line(self) -> None:
        problem = ArrayProblem([0], [1], [2], [3], [1, -1])
        plan = solve_arrays([0], [1], [2], [3], [1, -1])
        self.assertEqual(repr(problem), "<ArrayProblem: 2 nodes, 1 arc>")
        self.assertEqual(repr(plan), "ArrayPlan(problem=<ArrayProblem: 2 nodes, 1 arc>, cost=3, checked=True)")

    @unittest.skipUnless(numpy, "no numpy here: problems in its arrays are not tried")
    def test_numpy(self) -> None:
        for kind in ("int64", "int32", "uint8", "float64", "object"):
            tails, heads, caps, costs, supplies = map(numpy.array, DIAMOND)
            plan = solve_arrays(tails.astype(kind), heads, caps.astype(kind), costs, supplies.astype("float64"))
            self.assertEqual((plan.cost, plan.flows.dtype, plan.flows.tolist()), (14, numpy.int64, [2, 2, 2, 0, 4]))
        short = solve_arrays(tails, heads, numpy.array([1, 2, 2, 3, 5]), costs, supplies)
        self.assertEqual((short.shortage, short.cut.dtype, short.cut.tolist()), (1, bool, [True, False, False, False]))
        self.assertEqual(solve_arrays(*DIAMOND, lower_bounds=numpy.zeros(5, int)).flows.dtype, numpy.int64)
        unlimited = solve_arrays(tails, heads, numpy.array([numpy.inf] * 5), costs, supplies)
        self.assertEqual(unlimited.cost, 12)
        for dates in ("m8[ns]", "M8[ns]"):
            with self.assertRaisesRegex(ValueError, "this one has dates or times"):
                solve_arrays(tails, heads, caps.astype(dates), costs, supplies)

    def test_refused(self) -> None:
        for place, entry, error, words in (
            (0, 4, ValueError, r"tails\[0\] is 4, and has to be from 0 to 3"),
            (1, -1, ValueError, r"heads\[0\] is -1"),
            (2, 1.5, ValueError, r"capacities\[0\] is 1.5, and has to be a whole number"),
            (2, -1, ValueError, r"lower_bounds\[0\] is 0, above its capacity, -1"),
            (3, "2", ValueError, r"costs\[0\] is '2', and has to be a whole number"),
            (3, 10**13, BeyondLimits, r"costs\[0\] is 10000000000000, and has to be from"),
            (3, float("nan"), ValueError, r"costs\[0\] is nan"),
            (4, 2 * 10**9, BeyondLimits, r"supplies\[0\] is 2000000000"),
        ):
            columns = [list(column) for column in DIAMOND]
            columns[place][0] = entry  # type: ignore[call-overload]
            with self.subTest(words), self.assertRaisesRegex(error, words):
                solve_arrays(*columns)
        for heads, caps, lows, words in (
            ([1], [1, 1], [0, 0], "heads has 1 entry, and tails has 2"),
            ([1, 0], [1, 1, 1], [0, 0], "capacities has 3 entries, and tails has 2"),
            ([1, 0], [1, 1], [0], "lower_bounds has 1 entry, and tails has 2"),
        ):
            with self.assertRaisesRegex(ValueError, words):
                solve_arrays([0, 1], heads, caps, [1, 1], [0, 0], lows)
        with self.assertRaisesRegex(BeyondLimits, "arc 0 costs less than 0, and has no capacity"):
            solve_arrays([0], [1], None, [-1], [1, -1])
        with self.assertRaisesRegex(BeyondLimits, "take a larger unit"):
            solve_arrays([0, 0], [1, 1], None, [1, 1], [10**9, -(10**9)])
        with self.assertRaisesRegex(BeyondLimits, "there are 0 nodes"):
            solve_arrays([], [], [], [], [])

    def test_verify_finds_what_is_wrong(self) -> None:
        plan = solve_arrays(*DIAMOND)
        for change, words in (
            (("flows", [1, 3, 1, 0, 4]), "outside its bounds"),
            (("flows", [3, 1, 1, 2, 2]), "with another flow"),
            (("potentials", [0, 0, 0, 0]), "with another flow"),
            (("cost", 13), "does not cost 13"),
            (("flows", [2, 2, 2, 0]), "not one flow for each arc"),
            (("potentials", [-4, -2, -1]), "one potential for each node"),
        ):
            spoilt = ArrayPlan(plan.problem, plan.flows, plan.potentials, plan.cost)
            setattr(spoilt, *change)
            with self.subTest(change), self.assertRaisesRegex(Disagreement, words):
                spoilt.verify()
        still = ArrayPlan(ArrayProblem([0], [0], [1], [0], [0]), [1], [0], 0)
        still.verify()
        with self.assertRaisesRegex(Disagreement, "node 0: what leaves it"):
            ArrayPlan(ArrayProblem([0], [1], [2], [0], [1, -1]), [0], [0, 0], 0).verify()
        short = solve_arrays([0], [1], [3], [1], [4, -4])
        for cut, shortage in (([True, False], 2), ([True, True], 1), ([True, False], 0)):
            with self.subTest(cut), self.assertRaises(Disagreement):
                ArrayInfeasible(short.problem, cut, shortage).verify()

    def test_without_check(self) -> None:
        plan = solve_arrays(*DIAMOND, check=False)
        self.assertEqual((plan.cost, plan.checked), (14, False))
        plan.verify()

    def test_text(self) -> None:
        problem = ArrayProblem(*DIAMOND)
        self.assertIsInstance(Problem.from_dimacs(problem.text()).solve(), Plan)
        self.assertIsInstance(Problem.from_dimacs(ArrayProblem([0], [1], [3], [1], [4, -4]).text()).solve(), Infeasible)

    def test_columns_without_an_order(self) -> None:
        tails, heads, caps, costs, supplies = DIAMOND
        for column in (dict(enumerate(costs)), set(costs)):
            with self.assertRaisesRegex(
                ValueError, "a column is a list or an array, and this one is of type (dict|set)"
            ):
                solve_arrays(tails, heads, caps, column, supplies)

    def test_time_limit(self) -> None:
        for solver in [Program(), *LIBRARY]:
            begin = time.monotonic()
            with self.assertRaises(TimeLimit):
                solve_arrays(*DIAMOND, time_limit=0, solver=solver)
            self.assertLess(time.monotonic() - begin, HEARD)


if __name__ == "__main__":
    sys.exit(unittest.main())
