"""The program as a process: faults as exceptions, time limits and Ctrl-C, sessions."""

import os
import signal
import stat
import sys
import tempfile
import threading
import time
import unittest
from pathlib import Path

from mcf_plan import Problem, Session
from mcf_plan.program import Program, ProgramFailed, Refused, TimeLimit, find_program

from limits import HEARD

DIAMOND = (Path(__file__).resolve().parents[2] / "examples/diamond/problem.min").read_text()
SAID = "no answer within 0.75 seconds"


def stub(folder, body):
    """A program of a few lines of shell in place of mcf."""
    path = Path(folder) / "stub"
    path.write_text(f"#!/bin/sh\n{body}\n")
    path.chmod(path.stat().st_mode | stat.S_IXUSR)
    return str(path)


def interrupt_after(seconds):
    """Sends Ctrl-C to this process."""
    timer = threading.Timer(seconds, os.kill, (os.getpid(), signal.SIGINT))
    timer.start()
    return timer


class Solving(unittest.TestCase):
    def test_solve_and_check(self):
        program = Program()
        answer = program.solve(DIAMOND)
        self.assertTrue(answer.startswith("s 14\n"))
        self.assertEqual(program.check(DIAMOND, answer), "valid")
        self.assertEqual(program.check(DIAMOND, answer.replace("s 14", "s 15")), "not valid")
        self.assertIn(".", program.version())

    def test_refused_texts(self):
        program = Program()
        with self.assertRaises(Refused) as caught:
            program.solve("p min 2 1\na 1 2 0 x 1\n")
        self.assertEqual((caught.exception.fault.line, caught.exception.fault.field), (2, "CAP"))
        with self.assertRaises(Refused) as caught:
            program.check(DIAMOND, "s 14\nq\n")
        self.assertEqual((caught.exception.fault.line, caught.exception.fault.number), (2, 2))
        with self.assertRaises(Refused):
            program.session("p min\n")

    def test_bytes_that_are_no_text(self):
        with self.assertRaises(Refused) as caught:
            Program().solve(b"p min 2 1\na 1 2 0 5 \xff\n")
        self.assertEqual(caught.exception.fault.field, "COST")

    def test_where_the_program_is_found(self):
        with tempfile.TemporaryDirectory() as folder:
            path = stub(folder, "exit 9")
            self.assertEqual(find_program(path), path)
            with self.assertRaises(ProgramFailed):
                find_program(folder + "/nothing")
            with self.assertRaises(ProgramFailed) as caught:
                Program(path).solve(DIAMOND)
            self.assertEqual(caught.exception.status, 9)

    def test_time_limit(self):
        with tempfile.TemporaryDirectory() as folder:
            program = Program(stub(folder, "exec sleep 20"))
            for call in (program.solve, program.session):
                start = time.monotonic()
                with self.assertRaises(TimeLimit):
                    call(DIAMOND, time_limit=0.2)
                self.assertLess(time.monotonic() - start, 0.2 + HEARD)

    def test_time_limits_that_are_none(self):
        problem = Problem.from_dimacs(DIAMOND)
        for limit in (float("inf"), 1e12, 10**30):
            with self.subTest(limit):
                self.assertEqual(problem.solve(time_limit=limit).cost, problem.solve().cost)
                self.assertEqual(Program().check(DIAMOND, Program().solve(DIAMOND, time_limit=limit)), "valid")
                with Session(problem, time_limit=limit) as session:
                    self.assertEqual(session.set_cap(0, 2), session.cost)
        for call in (problem.solve, lambda time_limit: Program().solve(DIAMOND, time_limit=time_limit)):
            with self.assertRaisesRegex(ValueError, "the time limit is nan"):
                call(time_limit=float("nan"))

    def test_time_limit_as_given(self):
        """Whatever part of the work was too slow, the words tell the limit of the whole."""
        problem = Problem.from_dimacs(DIAMOND)
        with tempfile.TemporaryDirectory() as folder:
            slow_check = f'if [ "$1" = check ]; then exec sleep 20; fi; exec {Program().path} "$@"'
            for body in ("exec sleep 20", slow_check):
                with self.assertRaises(TimeLimit) as caught:
                    problem.solve(Program(stub(folder, body)), time_limit=0.75)
                self.assertEqual((caught.exception.seconds, str(caught.exception)), (0.75, SAID))
            slow_edit = "echo s 1; read line; exec sleep 20"
            with Session(problem, Program(stub(folder, slow_edit))) as session:
                session.time_limit = 0.75
                with self.assertRaises(TimeLimit) as caught:
                    session.set_cap(0, 1)
            self.assertEqual((caught.exception.seconds, str(caught.exception)), (0.75, SAID))

    def test_ctrl_c_is_heard_within_half_a_second(self):
        with tempfile.TemporaryDirectory() as folder:
            program = Program(stub(folder, "exec sleep 20"))
            for call in (program.solve, program.session):
                timer = interrupt_after(0.3)
                start = time.monotonic()
                with self.assertRaises(KeyboardInterrupt):
                    call(DIAMOND)
                self.assertLess(time.monotonic() - start, 0.3 + HEARD)
                timer.join()


class Dialogues(unittest.TestCase):
    def test_replies(self):
        with Program().session(DIAMOND, extra=2) as dialogue:
            self.assertEqual(dialogue.first, "s 14")
            self.assertEqual(dialogue.ask("cap 2 1"), ["s 16"])
            self.assertEqual(len(dialogue.ask("proof")), 1 + 5 + 4)
            self.assertEqual(dialogue.ask(""), [])
            self.assertEqual(dialogue.ask("nonsense"), ["r 2"])
            self.assertEqual(dialogue.ask_all(["group", "cap 2 2", "proof", "end", "undo"]), ["r 29", "s 14"])
            self.assertEqual(dialogue.ask("group"), [])
            self.assertEqual(dialogue.ask("cap 1 3"), [])
            self.assertEqual(dialogue.ask("end"), ["s 14"])
            odd_lines = ["cap 2 1\n", "undo\r", "cap\v2 1", " " * 1025]
            self.assertEqual(dialogue.ask_all(odd_lines), ["s 16", "s 14", "r 2", "r 1"])
            self.assertEqual(dialogue.ask_all(["group", "end" + " " * 1022, "end\n"]), ["r 1"])
            with self.assertRaises(ValueError):
                dialogue.ask("cap 2 1\nundo")
            self.assertTrue(dialogue.is_open)
        self.assertFalse(dialogue.is_open)
        with self.assertRaises(ProgramFailed):
            dialogue.ask("show")

    def test_many_lines_at_once(self):
        with Program().session(DIAMOND) as dialogue:
            replies = dialogue.ask_all(["cap 2 1", "undo", "show"] * 5000)
            self.assertEqual(len(replies), 5000 * (2 + 6))

    def test_interrupted(self):
        with tempfile.TemporaryDirectory() as folder:
            program = Program(stub(folder, "echo s 1; exec sleep 20"))
            dialogue = program.session(DIAMOND)
            start = time.monotonic()
            with self.assertRaises(TimeLimit):
                dialogue.ask("show", time_limit=0.1)
            self.assertLess(time.monotonic() - start, 0.1 + HEARD)
            self.assertFalse(dialogue.is_open)

    def test_program_that_ends(self):
        with tempfile.TemporaryDirectory() as folder:
            dialogue = Program(stub(folder, "echo s 1; read line; echo gone >&2; exit 5")).session(DIAMOND)
            with self.assertRaises(ProgramFailed) as caught:
                dialogue.ask("show")
            self.assertEqual(caught.exception.status, 5)
            self.assertIn("gone", str(caught.exception))


if __name__ == "__main__":
    sys.exit(unittest.main())
