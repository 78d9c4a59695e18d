"""Runs of programs: processor time, peak memory and output."""

from __future__ import annotations

import ctypes
import math
import os
import re
import select
import signal
import subprocess
import tempfile
import time
from contextlib import suppress
from dataclasses import dataclass, replace
from pathlib import Path
from typing import IO, Dict, List, Optional, Sequence, Tuple, Union

Word = Union[str, Path]
Stream = Union[int, IO[bytes]]
# How often memory is looked at, and the fewest looks that tell a peak.
SAMPLE_SECONDS, FEWEST_SAMPLES = 0.002, 5


@dataclass(frozen=True)
class Run:
    """A run that came to its end, or was cut off at its limit; its seconds are of processor time."""

    seconds: float
    status: int
    is_cut_off: bool
    # In MiB. None where the run was too short to be sampled.
    peak: Optional[float]
    output: bytes

    def lines(self, letters: str) -> List[bytes]:
        """The lines that begin with one of these letters."""
        return re.findall(rb"^[%b] .*" % letters.encode("ascii"), self.output, re.MULTILINE)

    def without_output(self) -> "Run":
        return replace(self, output=b"")


def read_programs(words: Sequence[str]) -> Dict[str, Path]:
    """Programs by their names, as they are given by NAME=PATH."""
    programs = {}
    for place, word in enumerate(words, start=1):
        name, separator, path = word.partition("=")
        if not separator:
            name, path = ("mcf" if len(words) == 1 else f"mcf{place}"), word
        programs[name] = Path(path).resolve()
    return programs


def start(words: Sequence[Word], entry: Stream, output: Stream) -> "subprocess.Popen[bytes]":
    # A limit by the system would make the process's clock tell ticks of some milliseconds, to itself and to others.
    return subprocess.Popen(words, stdin=entry, stdout=output, stderr=subprocess.STDOUT)


def run(words: Sequence[Word], limit: int, commands: bytes = b"") -> Run:
    """Runs a command with `commands` on its standard input, for at most `limit` seconds of processor time."""
    with tempfile.TemporaryFile() as entry, tempfile.TemporaryFile() as output:
        entry.write(commands)
        entry.seek(0)
        process = start(words, entry, output)
        peaks: List[float] = []
        while True:
            ended, status, usage = os.wait4(process.pid, os.WNOHANG)
            if ended:
                break
            if processor_seconds(process.pid) > limit:
                os.kill(process.pid, signal.SIGXCPU)
            # What the system tells at the end would begin with the peak of this process, which may be the greater one.
            peaks += peak_of(process.pid)
            time.sleep(SAMPLE_SECONDS)
        process.returncode = -os.WTERMSIG(status) if os.WIFSIGNALED(status) else os.WEXITSTATUS(status)
        output.seek(0)
        return Run(
            seconds=usage.ru_utime + usage.ru_stime,
            status=process.returncode,
            is_cut_off=process.returncode == -signal.SIGXCPU,
            peak=max(peaks) if len(peaks) >= FEWEST_SAMPLES else None,
            output=output.read(),
        )


def peak_of(process: int) -> List[float]:
    """The peak memory of a process so far, in MiB; none once it has ended."""
    try:
        status = Path(f"/proc/{process}/status").read_text(encoding="ascii")
    except OSError:
        return []
    return [int(peak) / 1024 for peak in re.findall(r"^VmHWM:\s*(\d+) kB", status, re.MULTILINE)]


class Dialogue:
    """A session under way, which is told one command after the other, and cut off where a reply takes too long."""

    def __init__(self, words: Sequence[Word], limit: int) -> None:
        self.process = start(words, subprocess.PIPE, subprocess.PIPE)
        assert self.process.stdin is not None and self.process.stdout is not None
        self.entry, self.output, self.limit = self.process.stdin, self.process.stdout, limit
        self.opening = self.reply()
        self.await_readiness()

    def __enter__(self) -> "Dialogue":
        return self

    def __exit__(self, *_: object) -> None:
        with suppress(BrokenPipeError):
            self.entry.close()
        self.process.wait()
        self.output.close()

    def await_readiness(self) -> None:
        """Waits until the session reads commands: it gets ready for edits after its first reply."""
        end = time.monotonic() + self.limit
        while not is_asleep(self.process.pid) and time.monotonic() < end:
            time.sleep(0.001)

    def ask(self, command: bytes) -> Tuple[float, bytes]:
        """Sends a command; gives the processor time until its reply, and the reply, which is empty where none came."""
        # Where a session has ended, the reply that is missing tells it.
        with suppress(BrokenPipeError):
            before = processor_seconds(self.process.pid)
            self.entry.write(command)
            self.entry.flush()
            reply = self.reply()
            return processor_seconds(self.process.pid) - before, reply
        return math.nan, b""

    def ask_lines(self, command: bytes) -> List[bytes]:
        """Sends a command that may be answered by many lines; gives these."""
        # No command is a question mark: its refusal tells where the answer ends.
        self.entry.write(command + b"?\n")
        self.entry.flush()
        return list(iter(self.output.readline, b"r 2\n"))

    def reply(self) -> bytes:
        if not select.select([self.output], [], [], self.limit)[0]:
            self.process.send_signal(signal.SIGXCPU)
        return self.output.readline()


def is_asleep(process: int) -> bool:
    """Whether a process waits for something, or has ended."""
    # The state is behind the name, which may hold anything.
    stat = Path(f"/proc/{process}/stat").read_text(encoding="ascii", errors="replace")
    return stat.rpartition(")")[2].split()[0] in ("S", "Z", "X")


def processor_seconds(process: int) -> float:
    """The processor time that a process has taken so far."""
    clock = ctypes.c_int()
    if ctypes.CDLL(None).clock_getcpuclockid(process, ctypes.byref(clock)) != 0:
        raise ProcessLookupError(process)
    return time.clock_gettime(clock.value)


def ask_all(words: Sequence[Word], limit: int, commands: Sequence[bytes]) -> Tuple[List[float], List[bytes]]:
    """Sends commands to a session one by one; gives the seconds of each, and all replies from that to the opening on.

    Where the session ends before the last command, both lists are shorter.
    """
    taken: List[float] = []
    with Dialogue(words, limit) as session:
        replies = [session.opening]
        for command in commands:
            seconds, reply = session.ask(command)
            if not reply:
                break
            taken.append(seconds)
            replies.append(reply)
    return taken, replies


def quickest(runs: Sequence[Run]) -> Run:
    """The run that took least, since what else the machine does can only add to it, with the greatest peak of all."""
    best = min(runs, key=lambda one: one.seconds)
    return replace(best, peak=max((one.peak for one in runs if one.peak is not None), default=None))


def lemon_verdict(report: Run) -> Optional[bytes]:
    """The value that dimacs-solver reports, or `infeasible`; None where it came to no end."""
    found = re.search(rb"(?:Max flow value|Min flow cost): (-?\d+)", report.output)
    if found is not None:
        return found[1]
    return b"infeasible" if b"Feasible flow: not found" in report.output else None


def verdict(answer: Run) -> Optional[bytes]:
    """The value of an answer of `mcf solve`, or `infeasible`; None where there is no answer."""
    first = answer.lines("si")[:1]
    if not first:
        return None
    return first[0][2:] if first[0].startswith(b"s") else b"infeasible"


def geometric_mean(ratios: Sequence[float]) -> float:
    return math.exp(sum(math.log(ratio) for ratio in ratios) / len(ratios))
