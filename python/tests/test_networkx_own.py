"""networkx' own tests of flows, with mcf as the backend and without falling back: each that differs has its reason."""

import os
import subprocess
import sys
import tempfile
import unittest
from pathlib import Path
from typing import Dict, List

sys.path.insert(0, str(Path(__file__).resolve().parent / "peers"))
from own_tests import SOURCE, TOO_FINE, OwnTests  # noqa: E402

NEWER_NETWORKX = Path(os.environ.get("NEWER_NETWORKX", Path(tempfile.gettempdir(), "newer-networkx")))
TESTS = NEWER_NETWORKX / "networkx" / "algorithms" / "flow" / "tests"
DIFFERING: Dict[str, str] = {
    "test_maxflow_large_graph::TestMaxflowLargeGraph::test_pyramid": TOO_FINE,
    "test_mincost::TestMinCostFlow::test_exceptions": "it expects NetworkXNotImplemented, which networkx' harness takes from a backend as a function that it lacks",
}


CALLS = """
import networkx as nx
from networkx.algorithms.flow import dinitz
G = nx.DiGraph()
G.add_node("depot", demand=-4)
G.add_node("shop", demand=4)
G.add_edge("depot", "shop", weight=2.5, capacity=9)
assert nx.network_simplex(G, backend="mcf") == (10.0, {"depot": {"shop": 4}, "shop": {}})
assert nx.minimum_cut(G, "depot", "shop", backend="mcf", time_limit=60) == (9, ({"depot"}, {"shop"}))
assert nx.maximum_flow_value(G, "depot", "shop", flow_func=dinitz, backend="mcf") == 9
assert dinitz(G, "depot", "shop", backend="mcf").graph["flow_value"] == 9
assert list(nx.gomory_hu_tree(nx.Graph(G), backend="mcf").edges(data="weight")) == [("depot", "shop", 9)]
"""


class Networkx(OwnTests):
    def path(self, folder: str) -> List[Path]:
        """What makes the newer networkx and its backend known, by files in a folder."""
        self.need("pytest", "numpy")
        if not TESTS.is_dir():
            self.skipTest("no networkx of 3.2 or later here (python/tests/peers/newer-networkx): its tests are not run")
        told = Path(folder, "mcf_plan-0.dist-info")
        told.mkdir()
        (told / "METADATA").write_text("Metadata-Version: 2.1\nName: mcf-plan\nVersion: 0\n")
        (told / "entry_points.txt").write_text(
            "[networkx.backends]\nmcf = mcf_plan.networkx_backend:backend\n"
            "[networkx.backend_info]\nmcf = mcf_plan.networkx_backend:info\n"
        )
        return [NEWER_NETWORKX, SOURCE, Path(folder)]

    def test_own(self) -> None:
        with tempfile.TemporaryDirectory() as folder:
            path = self.path(folder)
            self.judge("networkx with the backend mcf", [str(TESTS)], path, DIFFERING, NETWORKX_TEST_BACKEND="mcf")

    def test_calls(self) -> None:
        """Calls that name the backend, and calls that go there by the environment."""
        with tempfile.TemporaryDirectory() as folder:
            environment = {**os.environ, "PYTHONPATH": os.pathsep.join(map(str, self.path(folder)))}
            for script, more in [
                (CALLS, {}),
                (
                    CALLS.replace(', backend="mcf"', "").replace(", time_limit=60", ""),
                    {"NETWORKX_AUTOMATIC_BACKENDS": "mcf"},
                ),
            ]:
                done = subprocess.run(
                    [sys.executable, "-c", script],
                    env={**environment, **more},
                    capture_output=True,
                    text=True,
                    timeout=300,
                )
                self.assertEqual((done.returncode, done.stderr), (0, ""))


if __name__ == "__main__":
    unittest.main()
