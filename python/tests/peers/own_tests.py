"""Runs a peer's own tests by pytest, and compares those that do not pass with those that are named."""

import os
import subprocess
import sys
import tempfile
import unittest
import xml.etree.ElementTree as xml
from importlib.util import find_spec
from pathlib import Path
from typing import Dict, List

from mcf_plan.program import Program

PEERS = Path(__file__).resolve().parent
SOURCE = PEERS.parents[1] / "src"
TOO_FINE = "capacities of 17 decimals, too fine beside each other for the limits: refused"
TOO_LARGE = "100,000 nodes, and at most 50,000 are taken: refused"


class OwnTests(unittest.TestCase):
    """What the tests of each peer share."""

    def judge(self, peer: str, words: List[str], path: List[Path], differing: Dict[str, str], **settings: str) -> None:
        """Runs pytest with these words, and the path and settings in its environment; tells the figure, and compares
        the tests that did not pass with those that are named. Tests that the peer itself skips are left out."""
        passed: List[str] = []
        other: List[str] = []
        with tempfile.TemporaryDirectory() as folder:
            log = Path(folder, "log.xml")
            environment = {
                **os.environ,
                **settings,
                "MCF": Program().path,
                "PYTHONDONTWRITEBYTECODE": "1",
                "PYTHONPATH": os.pathsep.join(map(str, path)),
            }
            done = subprocess.run(
                [sys.executable, "-m", "pytest", "-q", "-p", "no:cacheprovider", f"--junitxml={log}", *words],
                env=environment,
                cwd=folder,
                capture_output=True,
                text=True,
                timeout=1500,
            )
            self.assertTrue(log.exists(), done.stdout + done.stderr)
            for case in xml.parse(log).getroot().iter("testcase"):
                name = "::".join([*case.get("classname", "").split("tests.")[-1].split("."), case.get("name", "")])
                said = [part for part in case if part.tag in ("failure", "error", "skipped")]
                if not any(part.get("type") == "pytest.skip" for part in said):
                    (other if said else passed).append(name)
        print(f"{peer}: {len(passed)} of {len(passed) + len(other)} tests passed")
        for name in other:
            print(f"  {name}: {differing.get(name, 'no reason is known')}")
        self.assertTrue(passed)
        self.assertEqual(sorted(other), sorted(differing), done.stdout[-5000:])

    def need(self, *modules: str) -> None:
        """Passes the test over where a module is missing, and says so."""
        for module in modules:
            if find_spec(module) is None:
                self.skipTest(f"no {module} here: the peer's own tests are not run")
