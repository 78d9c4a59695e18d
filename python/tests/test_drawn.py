"""Drawn tables against networkx and scipy: values equal, each answer checked by the program and by verify."""

import random
import sys
import unittest

from mcf_plan import BeyondLimits, Infeasible, Problem, Program, Unbounded

from drawing import DRAWN, by_networkx, draw


class LeastCost(unittest.TestCase):
    def test_against_networkx(self):
        try:
            import networkx  # noqa: F401
        except ImportError:
            self.skipTest("networkx is not installed")
        chance, program, seen = random.Random(1), Program(), {}
        for number in range(DRAWN):
            problem = draw(chance)
            surplus = chance.choice(["refuse", "keep", "2.5"]) if problem.balance == "equal" else "refuse"
            try:
                result = problem.solve(program, surplus=surplus)
                self.assertTrue(result.checked)
                value = None if isinstance(result, Infeasible) else result.cost
                if isinstance(result, Infeasible):
                    self.assertIn("There is no plan", result.explain())
            except Unbounded:
                value = "unbounded"
            except BeyondLimits:
                seen["beyond"] = seen.get("beyond", 0) + 1
                continue
            self.assertEqual(value, by_networkx(problem, surplus), f"{number}: {problem.nodes} {problem.arcs}")
            kind = "none" if value is None else value if value == "unbounded" else "plan"
            seen[kind] = seen.get(kind, 0) + 1
        self.assertGreater(seen["plan"], DRAWN // 4)
        self.assertGreater(seen["none"], DRAWN // 10)


class Assignments(unittest.TestCase):
    def test_against_scipy(self):
        try:
            import numpy
            from scipy.optimize import linear_sum_assignment
        except ImportError:
            self.skipTest("scipy is not installed")
        chance, program = random.Random(2), Program()
        for _ in range(max(1, DRAWN // 2)):
            rows, columns = chance.randint(1, 8), chance.randint(1, 8)
            matrix = numpy.full((rows, columns), numpy.inf)
            problem = Problem("asn")
            for row in range(rows):
                problem.add_node(f"person {row}", 1)
            for column in range(columns):
                problem.add_node(f"shift {column}", -1)
            for row in range(rows):
                for column in range(columns):
                    if chance.random() < 0.7:
                        matrix[row, column] = chance.randint(-300, 300) / 4
                        problem.add_arc(f"person {row}", f"shift {column}", cost=matrix[row, column])
            try:
                chosen = linear_sum_assignment(matrix)
                wanted = matrix[chosen].sum()
            except ValueError:
                wanted = None
            result = problem.solve(program, surplus="keep")
            if isinstance(result, Infeasible):
                result.explain()
                self.assertIsNone(wanted)
            else:
                self.assertEqual(float(result.cost), wanted)


class MaximumFlows(unittest.TestCase):
    def test_against_scipy(self):
        try:
            from scipy.sparse import csr_matrix
            from scipy.sparse.csgraph import maximum_flow
        except ImportError:
            self.skipTest("scipy is not installed")
        chance, program = random.Random(3), Program()
        for _ in range(max(1, DRAWN // 2)):
            count = chance.randint(2, 9)
            caps = {}
            for _ in range(chance.randint(1, 4 * count)):
                tail, head = chance.sample(range(count), 2)
                caps[tail, head] = chance.randint(0, 50)
            problem = Problem("max", source="0", sink=str(count - 1))
            for node in range(count):
                problem.add_node(str(node))
            for (tail, head), cap in caps.items():
                problem.add_arc(str(tail), str(head), cap=cap)
            ends = list(zip(*caps))
            matrix = csr_matrix((list(caps.values()), (ends[0], ends[1])), shape=(count, count), dtype="int32")
            self.assertEqual(problem.solve(program).cost, int(maximum_flow(matrix, 0, count - 1).flow_value))


if __name__ == "__main__":
    sys.exit(unittest.main())
