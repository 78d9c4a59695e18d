"""The calls of `program` through the C library's shared object, in this process: no process is started for an answer.

The library has no check: `check` is the program's. A solve can't be stopped: Ctrl-C and a time limit are heard at once,
and what was asked is worked out to its end on a thread in the background, and dropped.

>>> library = Library()                                                            # doctest: +SKIP
>>> print(library.solve("p min 2 1\\nn 1 2\\nn 2 -2\\na 1 2 0 5 3\\n"), end="")    # doctest: +SKIP
s 6
f 1 2 2
v 1 -3
v 2 0
"""

from __future__ import annotations

import ctypes
import queue
import threading
import time
from typing import Any, Callable, List, Optional, Tuple, TypeVar, cast

from .calls import (
    DONE,
    FAULT,
    MEMORY,
    TOO_SHORT,
    ArrayFault,
    Arrays,
    Handle,
    TextAnswer,
    TextFault,
    View,
    find_library,
    load,
)
from .dimacs import Answer, find_fault, parse_problem
from .formats import Text, as_bytes
from .program import Dialogue, Program, ProgramFailed, Refused, TimeLimit, command_of

Result = TypeVar("Result")

HEARD_WITHIN = 0.1
"""So many seconds pass at most until Ctrl-C is heard."""


class Library(Program):
    """The C library, where it was found; it stands wherever a `Program` does, and runs that to check.

    `library` names the shared object; without it the variable MCF_LIBRARY does, then the system. `path` names the
    program, as of `Program`.
    """

    def __init__(self, library: Optional[str] = None, path: Optional[str] = None):
        try:
            super().__init__(path)
        except ProgramFailed:
            if path:
                raise
            self.path = "mcf"  # what says so where it is wanted to check
        self.library = find_library(library)
        self.calls = load(self.library)

    def solve(self, text: Text, *, time_limit: Optional[float] = None) -> str:
        """What `mcf solve --proof` prints for a problem text: a best flow with potentials, or a cut.

        Raises Refused where the text has a fault, TimeLimit after `time_limit` seconds, ProgramFailed otherwise.
        """
        worker = _Worker()
        try:
            return worker.call(lambda: self._solve(as_bytes(text)), time_limit)
        finally:
            worker.end()

    def solve_arrays(self, arrays: Arrays, *, time_limit: Optional[float] = None) -> Answer:
        """The answer to a problem in arrays, without the ends of its arcs.

        Raises TimeLimit after `time_limit` seconds, ProgramFailed otherwise, as where the arrays have a fault.
        """
        worker = _Worker()
        try:
            return worker.call(lambda: self._solve_arrays(arrays), time_limit)
        finally:
            worker.end()

    def session(
        self, text: Text, *, extra: Optional[int] = None, time_limit: Optional[float] = None
    ) -> LibraryDialogue:
        """Opens a session on a problem text; `extra` says how many arcs can be added (1,000 without it).

        Raises Refused where the text has a fault, TimeLimit after `time_limit` seconds, ProgramFailed otherwise.
        """
        return LibraryDialogue(self, text, extra=extra, time_limit=time_limit)

    def _solve_arrays(self, arrays: Arrays) -> Answer:
        handle, fault = Handle(), ArrayFault()
        status = self.calls.mcf_open_arrays(
            ctypes.byref(handle), ctypes.byref(arrays), ctypes.c_uint32(0), ctypes.byref(fault)
        )
        if status == FAULT:
            where = f"node {fault.node}" if fault.node else f"arc {fault.arc}" if fault.arc else "their lengths"
            raise ProgramFailed(f"the arrays have fault {fault.number}: {where}")
        self._expect_done(status)
        try:
            return self.answer_of(handle)
        finally:
            self.calls.mcf_close(ctypes.byref(handle))

    def look(self, handle: Handle) -> View:
        """What is told of the moment of a session."""
        view = View()
        self._expect_done(self.calls.mcf_look(ctypes.byref(handle), ctypes.byref(view)))
        return view

    def answer_of(self, handle: Handle) -> Answer:
        """The answer at the moment of a session, without the ends of its arcs."""
        view = self.look(handle)
        if not view.feasible:
            marks = self._list_of(handle, "cut", ctypes.c_bool, view.nodes)
            return Answer(shortage=view.shortage, cut=[node for node, inside in enumerate(marks, 1) if inside])
        return Answer(
            value=view.worth,
            flows=self._list_of(handle, "flow", ctypes.c_int64, view.arcs),
            potentials=self._list_of(handle, "potentials", ctypes.c_int64, view.nodes),
        )

    def _list_of(self, handle: Handle, what: str, kind: Any, length: int) -> List[Any]:
        """A list of the moment of a session."""
        # An array has one entry at least, since a pointer is never null.
        entries = (kind * max(length, 1))()
        call = getattr(self.calls, f"mcf_{what}")
        self._expect_done(call(ctypes.byref(handle), entries, ctypes.c_size_t(length)))
        return list(entries[:length])

    @staticmethod
    def _expect_done(status: int) -> None:
        if status != DONE:
            raise ProgramFailed("want of memory" if status == MEMORY else f"the library answered {status}")

    def _solve(self, text: bytes) -> str:
        arcs = nodes = 0
        while True:
            # An array has one entry at least, since a pointer is never null.
            flow, potentials = (ctypes.c_int64 * max(arcs, 1))(), (ctypes.c_int64 * max(nodes, 1))()
            cut = (ctypes.c_bool * max(nodes, 1))()
            answer = TextAnswer(flow, arcs, potentials, nodes, cut, nodes)
            status = self.calls.mcf_solve(text, ctypes.c_size_t(len(text)), ctypes.byref(answer))
            if status == TOO_SHORT:
                arcs, nodes = answer.view.arcs, answer.view.nodes
            elif status != DONE:
                raise not_solved(status, answer.fault, text)
            elif answer.view.feasible:
                return Answer(answer.view.worth, None, flow[:arcs], potentials[:nodes], [], ends_of(text)).text()
            else:
                marked = [node for node, inside in enumerate(cut[:nodes], 1) if inside]
                return Answer(shortage=answer.view.shortage, cut=marked).text()


def ends_of(text: bytes) -> List[Tuple[int, int]]:
    """Tail and head of each arc of a text without faults."""
    return [(arc[0], arc[1]) for arc in parse_problem(text).arcs]


def not_solved(status: int, fault: TextFault, text: bytes) -> Exception:
    """What a call that answers `status` in place of DONE means."""
    if status == MEMORY:
        return ProgramFailed("want of memory")
    if status != FAULT:
        return ProgramFailed(f"the library answered {status}")
    found = find_fault(text)
    if found is None or (found.line, found.number) != (fault.line, fault.number):
        return ProgramFailed(f"problem line {fault.line}: fault {fault.number}")
    return Refused(found, text)


class _Worker:
    """A thread that makes the calls, one after the other, so that Python hears Ctrl-C and time limits meanwhile."""

    def __init__(self) -> None:
        self.is_lost = False
        self._jobs: queue.SimpleQueue[Any] = queue.SimpleQueue()
        threading.Thread(target=self._work, daemon=True).start()

    def _work(self) -> None:
        while True:
            job = self._jobs.get()
            if job is None:
                return
            function, reply = job
            try:
                reply.put((function(), None))
            except BaseException as error:
                reply.put((None, error))

    def call(self, function: Callable[[], Result], time_limit: Optional[float] = None) -> Result:
        """What the function returns or raises. Raises TimeLimit after so many seconds."""
        reply: queue.SimpleQueue[Any] = queue.SimpleQueue()
        self._jobs.put((function, reply))
        deadline = None if time_limit is None else time.monotonic() + time_limit
        try:
            while True:
                wait = HEARD_WITHIN if deadline is None else min(HEARD_WITHIN, max(0.0, deadline - time.monotonic()))
                try:
                    result, error = reply.get(timeout=wait)
                    break
                except queue.Empty:
                    if deadline is not None and time.monotonic() >= deadline:
                        assert time_limit is not None
                        raise TimeLimit(time_limit) from None
        except BaseException:
            self.is_lost = True
            raise
        if error is not None:
            raise error
        return cast(Result, result)

    def end(self, last: Optional[Callable[[], object]] = None) -> None:
        """Ends the thread, after what it does and `last`."""
        if last is not None:
            self._jobs.put((last, queue.SimpleQueue()))
        self._jobs.put(None)


class LibraryDialogue(Dialogue):
    """A session of the library: lines in, replies out, as a `Dialogue` of the program."""

    def __init__(
        self, library: Library, text: Text, *, extra: Optional[int] = None, time_limit: Optional[float] = None
    ):
        self._library, self._handle, self._text = library, Handle(), as_bytes(text)
        self._calls = library.calls
        self._ends: List[Tuple[int, int]] = []
        self._group: Optional[List[List[str]]] = None  # the words of the lines of a group that is open
        self._worker: Optional[_Worker] = _Worker()
        try:
            self.first = self._worker.call(lambda: self._open(1000 if extra is None else extra), time_limit)
        except BaseException:
            self.close()
            raise

    @property
    def is_open(self) -> bool:
        """Whether the session still takes lines: not after `close`, nor after a line that was interrupted."""
        return self._worker is not None

    def ask(self, line: str, *, time_limit: Optional[float] = None) -> List[str]:
        """The lines of the reply to one line: one, several after `show` and `proof`, none in a group before `end`.

        Where it is interrupted, by Ctrl-C or the time limit, this dialogue is ended.
        Raises ProgramFailed where it has ended, TimeLimit after `time_limit` seconds.
        """
        if self._worker is None:
            raise ProgramFailed("the session has ended")
        line, words = command_of(line)
        try:
            return self._worker.call(lambda: self._ask(line, words), time_limit)
        except BaseException:
            self.close()
            raise

    def ask_all(self, lines: List[str], *, time_limit: Optional[float] = None) -> List[str]:
        """The replies to several lines, one after the other in one list."""
        return [reply for line in lines for reply in self.ask(line, time_limit=time_limit)]

    def close(self) -> None:
        """Ends the session; where the library still works, as soon as it has ended."""
        worker, self._worker = self._worker, None
        if worker is not None:
            calls, handle = self._calls, self._handle
            worker.end(lambda: calls.mcf_close(ctypes.byref(handle)))

    # -- on the thread of the session alone

    def _open(self, extra: int) -> str:
        fault = TextFault()
        status = self._calls.mcf_open(
            ctypes.byref(self._handle),
            self._text,
            ctypes.c_size_t(len(self._text)),
            ctypes.c_uint32(extra),
            ctypes.byref(fault),
        )
        if status != DONE:
            raise not_solved(status, fault, self._text)
        self._ends = ends_of(self._text)
        return self._library.look(self._handle).line()

    def _ask(self, line: str, words: List[str]) -> List[str]:
        if not words:
            return []
        text = as_bytes(line)
        status = self._calls.mcf_command(ctypes.byref(self._handle), text, ctypes.c_size_t(len(text)))
        if status < DONE:
            raise ProgramFailed("want of memory" if status == MEMORY else f"the library answered {status}")
        bare = words[0] if len(words) == 1 else None
        if self._group is None:
            made = [words]
            if status == DONE and bare == "group":
                self._group = []
                return []
        else:
            made = self._group
            if bare != "end":
                made.append(words)
                return []
            self._group = None
        if status != DONE:
            return [f"r {status}"]
        view = self._library.look(self._handle)
        if words[0] in ("show", "proof"):
            return self._solution(with_potentials=words[0] == "proof")
        added = [(int(tail), int(head)) for word, tail, head, *_ in (line for line in made if line[0] == "add")]
        if added:
            self._ends[view.arcs - len(added) :] = added
        return [view.line()]

    def _solution(self, *, with_potentials: bool) -> List[str]:
        answer = self._library.answer_of(self._handle)
        answer.ends = self._ends
        if not with_potentials:
            answer.potentials = None
        return answer.text().splitlines()
