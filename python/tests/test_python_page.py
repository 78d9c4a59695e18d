"""The examples of docs/PYTHON.md, block by block; those that want a module that is not there are passed over."""

import doctest
import re
import unittest
from importlib.util import find_spec
from pathlib import Path
from typing import Any, Dict

PAGE = Path(__file__).resolve().parents[2] / "docs" / "PYTHON.md"
WANTED = {
    "networkx": "networkx",
    "scipy_like": "numpy",
    "import numpy": "numpy",
    "pandas": "pandas",
    "from_frames": "pandas",
}


class PythonPage(unittest.TestCase):
    def test_examples(self) -> None:
        names: Dict[str, Any] = {}
        missing = set()
        for number, block in enumerate(re.findall(r"^```pycon\n(.*?)^```$", PAGE.read_text(), re.M | re.S), 1):
            wanted = {module for word, module in WANTED.items() if word in block and find_spec(module) is None}
            missing |= wanted
            if not wanted:
                test = doctest.DocTestParser().get_doctest(block, names, f"block {number}", str(PAGE), 0)
                runner = doctest.DocTestRunner(
                    optionflags=doctest.IGNORE_EXCEPTION_DETAIL | doctest.NORMALIZE_WHITESPACE
                )
                runner.run(test, clear_globs=False)
                names.update(test.globs)
                self.assertEqual(runner.summarize(verbose=False).failed, 0, block)
        if missing:
            self.skipTest(f"no {', '.join(sorted(missing))} here: the examples of docs/PYTHON.md with it are not run")


if __name__ == "__main__":
    unittest.main()
