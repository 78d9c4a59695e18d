"""The tests of flows of a networkx without backends, which call the functions of mcf_plan in place of networkx'."""

import sys
import unittest
from pathlib import Path
from typing import Dict

sys.path.insert(0, str(Path(__file__).resolve().parent / "peers"))
from own_tests import PEERS, SOURCE, TOO_FINE, OwnTests  # noqa: E402

DIFFERING: Dict[str, str] = {
    "test_maxflow_large_graph::TestMaxflowLargeGraph::test_pyramid": TOO_FINE,
}


class OlderNetworkx(OwnTests):
    def test_own(self) -> None:
        self.need("pytest", "networkx", "numpy")
        import networkx

        if hasattr(networkx.utils, "backends"):
            self.skipTest("the networkx here knows backends: its functions are not put in their place")
        tests = Path(networkx.__file__).parent / "algorithms" / "flow" / "tests"
        self.judge(
            f"networkx {networkx.__version__} with the functions of mcf_plan",
            ["-p", "networkx_plugin", str(tests)],
            [SOURCE, PEERS],
            DIFFERING,
        )


if __name__ == "__main__":
    unittest.main()
