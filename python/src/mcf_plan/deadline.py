"""Time limits: a deadline that is made once, where the work begins, so that all parts of it count together."""

from __future__ import annotations

import signal
import threading
import time
from contextlib import contextmanager
from types import FrameType
from typing import Iterator, Optional, Type


MOST_SECONDS = 100_000_000
"""Time limits are below this, some three years: the system's clock takes no greater ones."""


class TimeLimit(Exception):
    """The time limit passed before the answer was there. `seconds` is the limit as it was given."""

    def __init__(self, seconds: float):
        super().__init__(f"no answer within {seconds:g} second{'' if seconds == 1 else 's'}")
        self.seconds = seconds


class Deadline:
    """The moment up to which an answer has to be there: `seconds` from now on; None, infinity and what is as good as
    that is no limit. Raises ValueError where it is nan.

    In its `with` block each part of the work gets what is left. A part that takes longer raises TimeLimit, which tells
    what was given for the whole.

    >>> with Deadline(2) as deadline:
    ...     round(deadline.left()), Deadline(None).left()
    (2, None)
    """

    def __init__(self, seconds: Optional[float]):
        if seconds is not None and seconds != seconds:
            raise ValueError("the time limit is nan, and has to be a number of seconds")
        self.seconds = seconds
        self._end = None if seconds is None or seconds >= MOST_SECONDS else time.monotonic() + seconds

    def left(self) -> Optional[float]:
        """The seconds that are left; None is no limit. Raises TimeLimit where none is left."""
        if self.seconds is None or self._end is None:
            return None
        left = self._end - time.monotonic()
        if left <= 0:
            raise TimeLimit(self.seconds)
        return left

    def __enter__(self) -> Deadline:
        return self

    def __exit__(self, kind: Optional[Type[BaseException]], error: Optional[BaseException], trace: object) -> None:
        if isinstance(error, TimeLimit) and self.seconds is not None:
            raise TimeLimit(self.seconds) from None


@contextmanager
def alarm(seconds: Optional[float]) -> Iterator[None]:
    """Raises TimeLimit in the block after so many seconds, whatever the block does then; None is no limit.

    For commands alone, in their main thread: the process has one alarm. Where the exception is raised in a place that
    swallows it, as in a destructor, the alarm comes again a second later.
    """
    if seconds is None or threading.current_thread() is not threading.main_thread():
        yield
        return
    limit = seconds

    def ring(number: int, frame: Optional[FrameType]) -> None:
        raise TimeLimit(limit)

    before = signal.signal(signal.SIGALRM, ring)
    signal.setitimer(signal.ITIMER_REAL, limit, 1)
    try:
        yield
    finally:
        lift_alarm()
        signal.signal(signal.SIGALRM, before)


def lift_alarm() -> None:
    """Ends the limit of `alarm` before its block does: all is worked out, and is only to be written."""
    signal.setitimer(signal.ITIMER_REAL, 0)
