"""A line on a terminal that says what a long run does now."""

from __future__ import annotations

import sys
import threading
import time
from typing import Optional, TextIO

SHOWN_AFTER = 1.0
"""So many seconds pass before the line is shown."""

SHOWN_EVERY = 0.5
"""So many seconds pass before it is written again."""


class Progress:
    """Within a `with` block, what is done now and since when, on standard error where that is a terminal.

    A run that is over within a second shows nothing. The line is taken away at the end, and by `clear`, which makes
    room for what is printed in between.
    """

    def __init__(self, out: Optional[TextIO] = None):
        self._out = sys.stderr if out is None else out
        self._begin = time.monotonic()
        self._words = ""
        self._shown = 0
        self._lock = threading.Lock()
        self._end = threading.Event()
        self._thread: Optional[threading.Thread] = None

    def now(self, words: str) -> None:
        """Says what is done from now on."""
        self._words = words

    def clear(self) -> None:
        """Takes the line away, until it is written again."""
        with self._lock:
            if self._shown:
                self._out.write("\r" + " " * self._shown + "\r")
                self._out.flush()
                self._shown = 0

    def __enter__(self) -> Progress:
        if self._out.isatty():
            self._thread = threading.Thread(target=self._show, daemon=True)
            self._thread.start()
        return self

    def __exit__(self, *exception: object) -> None:
        self._end.set()
        if self._thread is not None:
            self._thread.join()
        self.clear()

    def _show(self) -> None:
        wait = SHOWN_AFTER
        while not self._end.wait(wait):
            wait = SHOWN_EVERY
            with self._lock:
                line = f"{self._words} .. {time.monotonic() - self._begin:.0f} s"
                self._out.write("\r" + line.ljust(self._shown))
                self._out.flush()
                self._shown = max(self._shown, len(line))
