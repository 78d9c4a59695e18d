"""scipy's calls: drawn matrices and graphs against scipy itself, and what the calls refuse."""

import doctest
import random
import unittest
from importlib.util import find_spec

from mcf_plan import BeyondLimits, TimeLimit, scipy_like
from mcf_plan.scipy_like import linear_sum_assignment, maximum_flow

HAS_SCIPY = find_spec("scipy") is not None


@unittest.skipUnless(HAS_SCIPY, "no scipy here: its calls are not compared")
class ScipyLike(unittest.TestCase):
    def test_assignments(self) -> None:
        import numpy as np
        from scipy.optimize import linear_sum_assignment as theirs

        draws = random.Random(9)
        infeasible = 0
        for case in range(120):
            shape = draws.randint(1, 8), draws.randint(1, 8)
            gaps = draws.choice([0, 0, 0.5, 0.8])
            matrix = np.array(
                [
                    [
                        float("inf")
                        if draws.random() < gaps
                        else draws.choice([draws.randint(-20, 99), draws.randint(-400, 400) / 8])
                        for _ in range(shape[1])
                    ]
                    for _ in range(shape[0])
                ],
                dtype=float,
            )
            maximize = case % 4 == 3
            matrix = -matrix if maximize else matrix
            try:
                rows, columns = theirs(matrix, maximize)
            except ValueError:
                infeasible += 1
                with self.assertRaises(ValueError):
                    linear_sum_assignment(matrix, maximize)
                continue
            ours = linear_sum_assignment(matrix, maximize)
            self.assertEqual(matrix[ours].sum(), matrix[rows, columns].sum())
            self.assertEqual(ours[0].tolist(), sorted(set(ours[0].tolist())))
            self.assertEqual(len(set(ours[1].tolist())), min(shape))
        self.assertGreater(infeasible, 5)
        print(f"scipy, assignments: 120 with the same cost, {infeasible} of them infeasible")

    def test_maximum_flows(self) -> None:
        import numpy as np
        from scipy.sparse import csr_matrix
        from scipy.sparse.csgraph import maximum_flow as theirs

        draws = random.Random(10)
        for _ in range(80):
            nodes = draws.randint(2, 9)
            graph = csr_matrix(
                np.array(
                    [[draws.choice([0, 0, draws.randint(0, 20)]) for _ in range(nodes)] for _ in range(nodes)],
                    dtype=np.int32,
                )
            )
            found, other = maximum_flow(graph, 0, nodes - 1), theirs(graph, 0, nodes - 1)
            self.assertEqual(found.flow_value, other.flow_value)
            flow = found.flow.toarray()
            self.assertTrue((flow == -flow.T).all())
            self.assertTrue((flow <= graph.toarray()).all())
            self.assertEqual(flow.sum(axis=1)[1:-1].tolist(), [0] * (nodes - 2))
            self.assertEqual(flow[0].sum(), found.flow_value)

    def test_computed_costs(self) -> None:
        import numpy as np
        from scipy.optimize import linear_sum_assignment as theirs

        matrix = np.random.default_rng(3).random((20, 30))
        with self.assertRaisesRegex(BeyondLimits, "`decimals=12`, rounds all numbers to it"):
            linear_sum_assignment(matrix)
        rows, columns = linear_sum_assignment(matrix, decimals=12)
        self.assertEqual([rows.tolist(), columns.tolist()], [part.tolist() for part in theirs(matrix)])

    def test_refused(self) -> None:
        import numpy as np

        for matrix, error in [
            ([1, 2], ValueError),
            ([["a"]], TypeError),
            ([[float("nan")]], ValueError),
            ([[float("-inf")]], ValueError),
            ([[float("inf")]], ValueError),
            ([[1e-30, 1.0]], BeyondLimits),
        ]:
            self.assertRaises(error, linear_sum_assignment, np.array(matrix))
        for kind in ("m8[ns]", "M8[ns]", "c16"):
            with self.assertRaisesRegex(ValueError, "expected a matrix containing numerical entries"):
                linear_sum_assignment(np.array([[1, 2], [3, 4]]).astype(kind))
        with self.assertRaises(TimeLimit):
            linear_sum_assignment([[1]], time_limit=0)

    def test_short_floats(self) -> None:
        """They are taken as they are printed; in 64 bits they have more digits than there is room for."""
        import numpy as np

        for dtype in ("float32", "float16"):
            matrix = np.array([[0.3, 0.1, 0.9], [0.2, 0.7, np.inf]], dtype=dtype)
            self.assertEqual(linear_sum_assignment(matrix)[1].tolist(), [1, 0])
            self.assertEqual(linear_sum_assignment(matrix.T)[0].tolist(), [0, 1])

    def test_examples(self) -> None:
        self.assertEqual(doctest.testmod(scipy_like).failed, 0)


if __name__ == "__main__":
    unittest.main()
