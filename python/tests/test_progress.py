"""The line that says what a long run does: on a terminal alone, and gone at the end."""

import io
import sys
import time
import unittest
from unittest import mock

from mcf_plan import progress
from mcf_plan.progress import Progress


class Terminal(io.StringIO):
    def isatty(self) -> bool:
        return True


class ProgressLine(unittest.TestCase):
    def shown(self, out: io.StringIO, seconds: float) -> str:
        with mock.patch.multiple(progress, SHOWN_AFTER=0.05, SHOWN_EVERY=0.02), Progress(out) as line:
            line.now("solving")
            time.sleep(seconds)
        return out.getvalue()

    def test_terminal(self) -> None:
        shown = self.shown(Terminal(), 0.5)
        self.assertIn("\rsolving .. 0 s", shown)
        self.assertRegex(shown, r"\r +\r\Z")

    def test_nothing_is_shown(self) -> None:
        self.assertEqual(self.shown(io.StringIO(), 0.2), "")
        with Progress(Terminal()) as line:
            line.now("solving")
        self.assertEqual(line._out.getvalue(), "")


if __name__ == "__main__":
    sys.exit(unittest.main())
