"""Runs the program mcf: solve, check and session, each as a process of its own.

A process that is started here does not hear the terminal's Ctrl-C itself. Python hears it, at once also while the
program works, ends the process, and raises KeyboardInterrupt; a time limit is heard in the same way and raises
TimeLimit. Where the command mcf-plan is killed, the system kills the process; only a session that another thread than
the main one has started, or that is used from Python, ends at the end of its input, once it has answered what it was
asked.
"""

from __future__ import annotations

import os
import re
import select
import shutil
import subprocess
import tempfile
import threading
from collections import deque
from typing import Deque, List, Optional, Tuple

from .deadline import Deadline
from .deadline import TimeLimit as TimeLimit
from .dimacs import Fault, find_answer_fault, find_fault
from .formats import LONGEST_LINE, Text, as_bytes, as_str
from .native import built
from .signals import dying_with_us


class ProgramFailed(Exception):
    """The program could not be run, or ended as no run should: `status` and what it said on standard error."""

    def __init__(self, words: str, status: Optional[int] = None):
        super().__init__(words)
        self.status = status


class Refused(Exception):
    """A text was refused: `fault` says where and why, and `text` is what was refused."""

    def __init__(self, fault: Fault, text: Text):
        super().__init__(str(fault))
        self.fault = fault
        self.text = text


def command_of(line: str) -> Tuple[str, List[str]]:
    """A command line without its line feed, and its words, which spaces, tabs and carriage returns part.

    A line that is too long is no command, whatever is in it: it has the one word "".
    Raises ValueError where a line feed is within the line.
    """
    line = line[:-1] if line.endswith("\n") else line
    if "\n" in line:
        raise ValueError("a command is one line")
    if len(as_bytes(line)) > LONGEST_LINE:
        return line, [""]
    return line, re.findall(r"[^ \t\r]+", line)


def find_program(path: Optional[str] = None) -> str:
    """The path of the program: `path`, the variable MCF, the repository's own build, that of the package, then `mcf` on
    PATH.

    Raises ProgramFailed where there is none.
    """
    for chosen in (path, os.environ.get("MCF")):
        if chosen:
            found = shutil.which(chosen)
            if found is None:
                raise ProgramFailed(f"there is no program {chosen}")
            return found
    found = built("mcf", "mcf") or shutil.which("mcf")
    if found is None:
        raise ProgramFailed("the program mcf was found neither in the variable MCF nor on PATH: install or build it")
    return found


class Program:
    """The program mcf, where it was found.

    `path` names it; without it, it is where `find_program` finds it.
    """

    def __init__(self, path: Optional[str] = None):
        self.path = find_program(path)

    def version(self) -> str:
        """What `mcf --version` prints."""
        return as_str(self._run(["--version"], b"", None).stdout).strip()

    def solve(self, text: Text, *, time_limit: Optional[float] = None) -> str:
        """What `mcf solve --proof` prints for a problem text: a best flow with potentials, or a cut.

        Raises Refused where the text has a fault, TimeLimit after `time_limit` seconds, ProgramFailed otherwise.
        """
        done = self._run(["solve", "--proof"], as_bytes(text), time_limit)
        if done.returncode == 3:
            raise refusal(done, text, None)
        if done.returncode not in (0, 1):
            raise failure(done)
        return as_str(done.stdout)

    def check(self, problem: Text, answer: Text, *, time_limit: Optional[float] = None) -> str:
        """What `mcf check` says of an answer: 'valid' or 'not valid'.

        Raises Refused where either text has a fault, TimeLimit after `time_limit` seconds, ProgramFailed otherwise.
        """
        with tempfile.TemporaryDirectory(prefix="mcf-plan-") as folder:
            names = [os.path.join(folder, name) for name in ("problem", "answer")]
            for name, text in zip(names, (problem, answer)):
                with open(name, "wb") as file:
                    file.write(as_bytes(text))
            done = self._run(["check", *names], b"", time_limit)
        if done.returncode == 3:
            raise refusal(done, problem, answer)
        verdict = as_str(done.stdout).strip()
        if done.returncode not in (0, 1):
            raise failure(done)
        if verdict not in ("valid", "not valid"):
            raise ProgramFailed(f"{self.path} is not the program mcf: of an answer it says {verdict[:40]!r}")
        return verdict

    def session(self, text: Text, *, extra: Optional[int] = None, time_limit: Optional[float] = None) -> Dialogue:
        """Starts a session on a problem text; `extra` says how many arcs can be added (1,000 without it).

        Raises Refused where the text has a fault, TimeLimit after `time_limit` seconds, ProgramFailed otherwise.
        """
        return Dialogue(self, text, extra=extra, time_limit=time_limit)

    def start(self, words: List[str], *, outlives_thread: bool = False) -> subprocess.Popen[bytes]:
        """Starts the program with these arguments over pipes, in a process group that Ctrl-C does not reach.

        In a command it is killed where this thread ends, unless it may outlive the thread.
        """
        try:
            return subprocess.Popen(
                [self.path, *words],
                stdin=subprocess.PIPE,
                stdout=subprocess.PIPE,
                stderr=subprocess.PIPE,
                start_new_session=True,
                preexec_fn=None if outlives_thread else dying_with_us(),
            )
        except OSError as error:
            raise ProgramFailed(f"{self.path} could not be run: {error.strerror}") from error

    def _run(self, words: List[str], text: bytes, time_limit: Optional[float]) -> subprocess.CompletedProcess[bytes]:
        left = Deadline(time_limit).left()
        with self.start(words) as process:
            try:
                output, errors = process.communicate(text, timeout=left)
            except subprocess.TimeoutExpired:
                process.kill()
                assert time_limit is not None
                raise TimeLimit(time_limit) from None
            except BaseException:
                process.kill()
                process.wait()
                raise
        return subprocess.CompletedProcess(words, process.returncode, output, errors)


def failure(done: subprocess.CompletedProcess[bytes]) -> ProgramFailed:
    """A run that ended as none should."""
    said = as_str(done.stderr).strip()
    return ProgramFailed(f"mcf ended with status {done.returncode}{': ' if said else ''}{said}", done.returncode)


def refusal(done: subprocess.CompletedProcess[bytes], problem: Text, answer: Optional[Text]) -> Exception:
    """The refusal of a text in words; the program's own words alone where these would speak of another line."""
    said = as_str(done.stderr).strip()
    if answer is not None and said.startswith("mcf: answer"):
        name, text, fault = "answer", answer, find_answer_fault(problem, answer)
    else:
        name, text, fault = "problem", problem, find_fault(problem)
    if fault is None or said != f"mcf: {name} line {fault.line}: fault {fault.number}":
        return failure(done)
    return Refused(fault, text)


class Dialogue:
    """A session of the program: lines in, replies out. As a context manager it ends with its block.

    `first` is the reply to the problem itself, an `s` or an `i` line.
    """

    def __init__(
        self, program: Program, text: Text, *, extra: Optional[int] = None, time_limit: Optional[float] = None
    ):
        self._lines: Deque[bytes] = deque()  # lines that were read, and not taken yet
        self._unread = b""  # the beginning of the next one
        self._in_group = False
        with tempfile.NamedTemporaryFile(prefix="mcf-plan-", suffix=".problem") as file:
            file.write(as_bytes(text))
            file.flush()
            words = ["session"] + (["--extra", str(extra)] if extra is not None else []) + [file.name]
            is_main = threading.current_thread() is threading.main_thread()
            self._process = program.start(words, outlives_thread=not is_main)
            assert self._process.stdin is not None and self._process.stdout is not None
            self._input, self._output = self._process.stdin.fileno(), self._process.stdout.fileno()
            os.set_blocking(self._input, False)
            try:
                self.first = self._exchange(b"", [False], time_limit)[0]
            except _Ended as ended:
                if ended.done.returncode == 3:
                    raise refusal(ended.done, text, None) from None
                raise failure(ended.done) from None

    @property
    def is_open(self) -> bool:
        """Whether the session still takes lines: not after `close`, nor after a line that was interrupted or failed."""
        return self._process.poll() is None and not self._is_closed()

    def ask(self, line: str, *, time_limit: Optional[float] = None) -> List[str]:
        """The lines of the reply to one line: one, several after `show` and `proof`, none in a group before `end`.

        Where it is interrupted, by Ctrl-C or the time limit, the process is ended, and so is this dialogue.
        Raises ProgramFailed where the program has ended, TimeLimit after `time_limit` seconds.
        """
        return self.ask_all([line], time_limit=time_limit)

    def ask_all(self, lines: List[str], *, time_limit: Optional[float] = None) -> List[str]:
        """The replies to several lines that are sent at once, one after the other in one list."""
        sent = []
        awaited = []  # for each reply, whether it is a solution, whose lines end with the reply to `?`
        for line in lines:
            line, words = command_of(line)
            sent.append(line)
            if not words:
                continue
            if self._in_group:
                if words == ["end"]:
                    self._in_group = False
                    awaited.append(False)
            elif words == ["group"]:
                self._in_group = True
            elif words in (["show"], ["proof"]):
                sent.append("?")
                awaited.append(True)
            else:
                awaited.append(False)
        if self._is_closed():
            raise ProgramFailed("the session has ended")
        try:
            return self._exchange(as_bytes("\n".join(sent) + "\n"), awaited, time_limit)
        except _Ended as ended:
            raise failure(ended.done) from None

    def close(self) -> None:
        """Ends the session, and the process with it."""
        process = self._process
        for stream in (process.stdin, process.stdout, process.stderr):
            if stream is not None and not stream.closed:
                try:
                    stream.close()
                except OSError:
                    pass
        if process.poll() is None:
            process.kill()
            process.wait()

    def __enter__(self) -> Dialogue:
        return self

    def __exit__(self, *exception: object) -> None:
        self.close()

    def _is_closed(self) -> bool:
        return self._process.stdin is None or self._process.stdin.closed

    def _exchange(self, text: bytes, awaited: List[bool], time_limit: Optional[float]) -> List[str]:
        """Sends the text and reads what is awaited; ends the process where that is interrupted."""
        unsent = memoryview(text)
        replies: List[str] = []
        answered = 0
        poll = select.poll()
        poll.register(self._output, select.POLLIN)
        try:
            with Deadline(time_limit) as deadline:
                while True:
                    answered = self._take(replies, awaited, answered)
                    if answered == len(awaited) and not unsent:
                        return replies
                    if unsent:
                        poll.register(self._input, select.POLLOUT)
                    left = deadline.left()
                    ready = dict(poll.poll(None if left is None else left * 1000))
                    if self._input in ready:
                        unsent = self._write(unsent)
                        if not unsent:
                            poll.unregister(self._input)
                    if self._output in ready:
                        self._read()
        except BaseException:
            self.close()
            raise

    def _take(self, replies: List[str], awaited: List[bool], answered: int) -> int:
        """Takes lines that were read as replies, and returns how many of those awaited are there now."""
        while self._lines and answered < len(awaited):
            line = self._lines.popleft()
            if awaited[answered] and line == b"r 2":
                answered += 1
                continue
            replies.append(line.decode())
            answered += not awaited[answered]
        return answered

    def _write(self, unsent: memoryview) -> memoryview:
        """Writes what the pipe takes, and returns the rest; none where nobody reads it any more."""
        try:
            return unsent[os.write(self._input, unsent) :]
        except BrokenPipeError:
            return unsent[:0]

    def _read(self) -> None:
        """Reads what is there, line by line. Raises _Ended at its end."""
        more = os.read(self._output, 1 << 20)
        if not more:
            raise _Ended(self._finished())
        *lines, self._unread = (self._unread + more).split(b"\n")
        self._lines.extend(lines)

    def _finished(self) -> subprocess.CompletedProcess[bytes]:
        """How the process ended, and what it said."""
        assert self._process.stderr is not None
        said = self._process.stderr.read()
        return subprocess.CompletedProcess([], self._process.wait(), b"", said)


class _Ended(Exception):
    """The program of a dialogue has ended."""

    def __init__(self, done: subprocess.CompletedProcess[bytes]):
        super().__init__()
        self.done = done
