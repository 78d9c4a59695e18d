"""The C library as ctypes has it: the structures of `mcf.h`, and where the shared object is found.

What each call asks and answers stands in `mcf.h`, which docs/EMBEDDING.md explains.
"""

from __future__ import annotations

import ctypes
import ctypes.util
import os
from array import array
from typing import Any, Dict, Optional, Tuple, Type

from .native import built
from .program import ProgramFailed

DONE, OTHER_LENGTH, FAULT, MEMORY, TOO_SHORT = 0, -3, -5, -6, -7

NUMBERS = ctypes.POINTER(ctypes.c_int64)
PLACES = ctypes.POINTER(ctypes.c_uint32)
MARKS = ctypes.POINTER(ctypes.c_bool)


class Handle(ctypes.Structure):
    """A session, or none: `mcf_handle`."""

    _fields_ = [("pointer", ctypes.c_void_p), ("is_open", ctypes.c_bool)]


class TextFault(ctypes.Structure):
    """The first fault of a text: `mcf_fault`."""

    _fields_ = [("line", ctypes.c_uint64), ("number", ctypes.c_uint8)]


class View(ctypes.Structure):
    """What is told of a problem: `mcf_view`."""

    _fields_ = [
        ("worth_high", ctypes.c_int64),
        ("worth_low", ctypes.c_uint64),
        ("shortage", ctypes.c_int64),
        ("past", ctypes.c_uint64),
        ("future", ctypes.c_uint64),
        ("nodes", ctypes.c_uint32),
        ("arcs", ctypes.c_uint32),
        ("feasible", ctypes.c_bool),
    ]

    @property
    def worth(self) -> int:
        """The worth of a best flow."""
        return int(self.worth_high) * 2**64 + int(self.worth_low)

    def line(self) -> str:
        """The `s` or `i` line."""
        return f"s {self.worth}" if self.feasible else f"i {self.shortage}"


class TextAnswer(ctypes.Structure):
    """Where the answer to a text goes: `mcf_answer`."""

    _fields_ = [
        ("flow", NUMBERS),
        ("flow_room", ctypes.c_size_t),
        ("potentials", NUMBERS),
        ("potentials_room", ctypes.c_size_t),
        ("cut", MARKS),
        ("cut_room", ctypes.c_size_t),
        ("view", View),
        ("fault", TextFault),
    ]


class Arrays(ctypes.Structure):
    """A problem in arrays: `mcf_arrays`."""

    _fields_ = [
        ("supply", NUMBERS),
        ("supply_length", ctypes.c_size_t),
        ("tail", PLACES),
        ("tail_length", ctypes.c_size_t),
        ("head", PLACES),
        ("head_length", ctypes.c_size_t),
        ("low", NUMBERS),
        ("low_length", ctypes.c_size_t),
        ("cap", NUMBERS),
        ("cap_length", ctypes.c_size_t),
        ("cost", NUMBERS),
        ("cost_length", ctypes.c_size_t),
    ]


class ArrayFault(ctypes.Structure):
    """The first fault of a problem in arrays: `mcf_array_fault`."""

    _fields_ = [("node", ctypes.c_uint32), ("arc", ctypes.c_uint32), ("number", ctypes.c_uint8)]


KINDS: Dict[str, Type[Any]] = {"q": ctypes.c_int64, "I": ctypes.c_uint32}
"""The types of C by the codes of `array`."""


def pointer_to(entries: array[int]) -> Tuple[Any, int]:
    """A pointer to the entries of an array, and how many there are.

    The pointer keeps the array alive. It is never null: C wants one also to no entry.
    """
    kind, length = KINDS[entries.typecode], len(entries)
    block = (kind * length).from_buffer(entries) if length else (kind * 1)()
    return ctypes.cast(block, ctypes.POINTER(kind)), length


def find_library(path: Optional[str] = None) -> str:
    """The shared object: `path`, the variable MCF_LIBRARY, the repository's own, that of the package, then `libmcf.so`
    as the system finds it.

    Raises ProgramFailed where there is none.
    """
    for chosen in (path, os.environ.get("MCF_LIBRARY")):
        if chosen:
            return chosen
    found = built("mcf_c", "libmcf.so") or ctypes.util.find_library("mcf")
    if found is None:
        raise ProgramFailed("the library libmcf.so was found neither in the variable MCF_LIBRARY nor by the system")
    return found


def load(path: str) -> ctypes.CDLL:
    """The calls of a shared object. Raises ProgramFailed where it is not the C library."""
    try:
        calls = ctypes.CDLL(path)
        for name in ("solve", "open", "open_arrays", "command", "undo", "redo", "look", "flow", "potentials", "cut"):
            getattr(calls, f"mcf_{name}").restype = ctypes.c_int32
        calls.mcf_close.restype = None
    except (OSError, AttributeError) as error:
        raise ProgramFailed(f"{path} could not be used: {error}") from error
    return calls
