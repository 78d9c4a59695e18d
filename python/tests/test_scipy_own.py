"""scipy's own tests of linear_sum_assignment and maximum_flow, which call mcf_plan in place of scipy."""

import sys
import unittest
from pathlib import Path
from typing import Dict

sys.path.insert(0, str(Path(__file__).resolve().parent / "peers"))
from own_tests import PEERS, SOURCE, TOO_LARGE, OwnTests  # noqa: E402

DIFFERING: Dict[str, str] = {
    "test_flow::test_add_reverse_edges_large_graph[dinic]": TOO_LARGE,
    "test_flow::test_add_reverse_edges_large_graph[edmonds_karp]": TOO_LARGE,
}


class Scipy(OwnTests):
    def test_own(self) -> None:
        self.need("pytest", "scipy")
        import scipy

        folder = Path(scipy.__file__).parent
        tests = [folder / "optimize/tests/test_linear_assignment.py", folder / "sparse/csgraph/tests/test_flow.py"]
        if not all(test.exists() for test in tests):
            self.skipTest("scipy has no tests here: they are not run")
        self.judge(
            f"scipy {scipy.__version__} with the functions of mcf_plan",
            ["-p", "scipy_plugin", *map(str, tests)],
            [SOURCE, PEERS],
            DIFFERING,
        )


if __name__ == "__main__":
    unittest.main()
