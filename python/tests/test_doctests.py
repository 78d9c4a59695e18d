"""The examples in the docstrings of every module."""

import doctest
import importlib
import pkgutil
import sys
import unittest

import mcf_plan


def load_tests(loader, tests, pattern):
    """Each module's examples as one test; a module whose own library is missing is passed over."""
    for module in pkgutil.walk_packages(mcf_plan.__path__, "mcf_plan."):
        if module.name.endswith("__main__"):
            continue
        try:
            tests.addTests(doctest.DocTestSuite(importlib.import_module(module.name)))
        except ImportError as missing:
            print(f"passed over: {module.name}: {missing}", file=sys.stderr)
    tests.addTests(doctest.DocTestSuite(mcf_plan))
    return tests


if __name__ == "__main__":
    sys.exit(unittest.main())
