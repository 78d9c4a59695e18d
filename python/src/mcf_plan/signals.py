"""Signals: SIGTERM and SIGHUP end a command at once, with the programs that it runs, as Ctrl-C does."""

from __future__ import annotations

import ctypes
import os
import signal
import threading
from contextlib import contextmanager
from types import FrameType
from typing import Callable, Iterator, Optional

ENDING = (signal.SIGTERM, signal.SIGHUP)
_commands = 0  # of how many blocks of `hearing` this is the inside


class Terminated(BaseException):
    """The process was asked to end, by the signal `number`. As KeyboardInterrupt, it is no error that is handled."""

    def __init__(self, number: int):
        super().__init__(f"signal {number}")
        self.number = number


@contextmanager
def hearing() -> Iterator[None]:
    """In the block a signal that asks the process to end raises Terminated, and Ctrl-C KeyboardInterrupt, so that each
    `with` on the way ends what it has started. A signal that is ignored stays so."""
    if threading.current_thread() is not threading.main_thread():
        yield
        return

    def end(number: int, frame: Optional[FrameType]) -> None:
        raise Terminated(number)

    global _commands
    before = {number: signal.getsignal(number) for number in (*ENDING, signal.SIGINT)}
    for number, handler in before.items():
        if handler != signal.SIG_IGN:
            signal.signal(number, signal.default_int_handler if number == signal.SIGINT else end)
    _commands += 1
    try:
        yield
    finally:
        _commands -= 1
        for number, handler in before.items():
            signal.signal(number, handler)


def die_of(number: int) -> None:
    """Ends the process by the signal, as if it had not been heard: a shell tells 128 and its number."""
    signal.signal(number, signal.SIG_DFL)
    os.kill(os.getpid(), number)


def dying_with_us() -> Optional[Callable[[], None]]:
    """What a process that a command starts runs first, so that it is killed where this thread ends, however that is.

    None outside of a command: a start takes milliseconds longer by it, which add up where Python calls often.
    """
    if not _commands:
        return None
    parent, system, request = os.getpid(), ctypes.PyDLL(None), 1  # PR_SET_PDEATHSIG of <sys/prctl.h>

    def set_up() -> None:
        system.prctl(request, int(signal.SIGKILL))
        if os.getppid() != parent:
            os.kill(os.getpid(), signal.SIGKILL)

    return set_up
