"""Sessions: at each moment the proof is valid against the written problem, and where there is no plan, it is
explained."""

import os
import random
import signal
import stat
import sys
import tempfile
import threading
import time
import unittest
from decimal import Decimal
from pathlib import Path

from mcf_plan import BeyondLimits, EditRefused, Infeasible, Problem, Program, Session, TimeLimit, Unbounded
from mcf_plan.dimacs import find_fault

from drawing import DRAWN, by_networkx, draw
from limits import HEARD

SLOW = """#!/usr/bin/python3
'''Hands lines on to mcf. Where the file `slow` is beside it, it sleeps at the line `cap 1 77`.'''
import os, subprocess, sys, time
folder = os.path.dirname(os.path.abspath(__file__))
program = subprocess.Popen([{program!r}, *sys.argv[1:]], stdin=subprocess.PIPE, bufsize=0)
if sys.argv[1] != "session":
    sys.exit(program.wait())
for line in iter(sys.stdin.buffer.readline, b""):
    if b"cap 1 77" in line and os.path.exists(folder + "/slow"):
        time.sleep(20)
    program.stdin.write(line)
program.stdin.close()
sys.exit(program.wait())
"""


def deliveries():
    """Two depots and two shops."""
    problem = Problem()
    for name, supply in (("north", 5), ("south", 4), ("mill", -6), ("port", -3)):
        problem.add_node(name, supply)
    for tail, head, cap, cost in (
        ("north", "mill", 5, 4),
        ("north", "port", 5, 6),
        ("south", "mill", 4, 5),
        ("south", "port", 4, 3),
    ):
        problem.add_arc(tail, head, cap=cap, cost=cost)
    return problem


class Told(unittest.TestCase):
    def test_edits_by_name(self):
        with Session(deliveries()) as session:
            first = session.cost
            self.assertEqual(first, 34)
            self.assertEqual(session.set_cap("north to mill", 2), 46)
            self.assertEqual(session.set_cost(("north", "port"), "5.75"), Decimal("45.25"))
            self.assertEqual(session.add_arc("north", "mill", cap=9, cost=1, name="tunnel"), 19)
            self.assertEqual(session.set_low("tunnel", 5), 19)
            self.assertIsNone(session.set_supply("north", 6))
            self.assertEqual(session.shortage, 1)
            self.assertIn("supply 10 and demand 9, so 1 is too many", session.plan().explain())
            self.assertEqual(session.set_supply("port", -4), 18)
            for _ in range(6):
                session.undo()
            self.assertEqual((session.cost, session.can_undo, session.can_redo), (first, False, True))
            self.assertEqual(session.problem.arcs, deliveries().arcs)

    def test_groups_marks_and_refusals(self):
        with Session(deliveries()) as session:
            session.mark("plain")
            with session.group():
                session.set_supply("north", 7)
                session.set_supply("mill", -8)
            more = session.cost
            session.mark("more")
            self.assertEqual(session.back("plain"), 34)
            self.assertEqual(session.back("more"), more)
            self.assertEqual(session.marks, ["plain", "more"])
            with self.assertRaises(EditRefused):
                with session.group():
                    session.set_cap(0, 1)
                    session.set_low(0, 2)
            self.assertEqual((session.cost, session.problem.arcs[0].cap), (more, 5))
            for wrong, error in (
                (lambda: session.set_cap("nowhere", 1), KeyError),
                (lambda: session.set_cap(0, "many"), ValueError),
                (lambda: session.set_supply("nowhere", 1), KeyError),
                (lambda: session.set_low(0, 9), EditRefused),
                (lambda: session.add_arc("north", "nowhere"), KeyError),
                (lambda: session.back("nowhere"), EditRefused),
                (session.redo, EditRefused),
            ):
                with self.assertRaises(error):
                    wrong()
                self.assertEqual(session.cost, more)
            session.undo()
            session.close(0)
            self.assertEqual(session.marks, ["plain"])

    def test_kinds(self):
        problem = Problem("asn")
        for tail, head, cost in (("Ann", "early", 3), ("Ann", "late", 5), ("Bob", "early", 2), ("Bob", "late", 9)):
            problem.add_arc(tail, head, cost=cost)
        with Session(problem) as session:
            self.assertEqual((session.cost, session.close("Bob to early"), session.undo()), (7, 12, 7))
            session.close(0)
            self.assertEqual(session.set_cap(0, 1), 7)
            with self.assertRaises(EditRefused):
                session.set_cap(0, 2)
            with self.assertRaises(EditRefused):
                session.set_supply("Ann", 2)
            # Ann would be on the sink side, and her arcs would lead from there.
            with self.assertRaisesRegex(EditRefused, "arc 1, Ann to early, does not lead from the source side"):
                session.set_supply("Ann", -1)
            self.assertEqual((session.cost, session.problem.nodes["Ann"]), (7, 1))
        flow = Problem("max", source="a", sink="b")
        flow.add_arc("a", "b", cap=3)
        with Session(flow) as session:
            self.assertEqual(
                (session.cost, session.set_cap(0, "2.5"), session.set_low(0, 1)), (3, Decimal("2.5"), Decimal("2.5"))
            )
            for wrong in (lambda: session.set_cost(0, 1), lambda: session.set_supply("a", 1)):
                with self.assertRaises(EditRefused):
                    wrong()
            with self.assertRaises(Unbounded):
                session.set_cap(0, None)
            self.assertEqual(session.plan().cost, Decimal("2.5"))

    def test_lower_bounds_of_arcs_without_limit(self):
        problem = Problem()
        for tail, head, cost in (("a", "b", 0), ("b", "c", 0), ("c", "a", 0), ("a", "b", 7)):
            problem.add_arc(tail, head, cost=cost)
        with Session(problem) as session:
            with session.group():
                session.set_low(0, 500_000_000)
                session.set_low(2, 450_000_000)
                session.set_supply("a", 600_000_000)
                session.set_supply("b", -600_000_000)
            self.assertEqual(session.cost, 0)
            self.assertEqual(session.plan(True).cost, session.problem.solve().cost)

    def test_no_plan_and_a_circle_without_limit(self):
        """As `solve` has it: where there is no plan at all, that is the answer, whatever a circle would save."""
        problem = Problem()
        problem.add_node("a", 2)
        problem.add_node("b", -2)
        problem.add_arc("c", "d", cost=-1)
        problem.add_arc("d", "c")
        self.assertEqual(problem.solve().shortage, 2)
        with Session(problem) as session:
            self.assertEqual((session.cost, session.shortage, session.plan(True).cut), (None, 2, {"a"}))
            with self.assertRaisesRegex(Unbounded, "around the circle c to d, d to c no arc has a capacity"):
                session.add_arc("a", "b", cost=3)
            program = Program()
            self.assertIn("a 3 4 0 1000000000 -1\n", session.text())
            self.assertEqual(program.check(session.text(), session.proof()), "valid")
            self.assertEqual(program.check(session.text(), program.solve(session.text())), "valid")
            with self.assertRaisesRegex(EditRefused, "the text has to wait for its end"), session.group():
                session.text()
            self.assertEqual((session.position, len(session.problem.arcs), session.shortage), (0, 2, 2))
            self.assertIsNone(session.add_arc("a", "b", cap=1, cost=3))
            self.assertEqual(session.shortage, 1)
            self.assertIsNone(session.set_cap(0, 5))
            self.assertEqual(session.set_cap(2, None), 1)
            self.assertEqual((session.plan(True).cost, session.problem.solve().cost), (1, 1))
            self.assertIn("p min", session.text())
            self.assertEqual([session.undo(), session.shortage, session.undo(), session.shortage], [None, 1, None, 1])
            self.assertIn("a 3 4 0 1000000000 -1\n", session.text())
            self.assertEqual([session.redo(), session.redo(), session.set_supply("a", 3)], [None, 1, None])
            self.assertIsNone(session.set_cap(0, None))
            self.assertEqual(session.shortage, session.problem.solve().shortage)

    def test_cheaper_arcs_without_limit(self):
        problem = Problem()
        problem.add_node("a", 1)
        problem.add_node("b", -1)
        problem.add_arc("a", "b", cost=-2)
        problem.add_arc("b", "a", cost=3)
        problem.add_arc("b", "a", cost=4, cap=5_000_000_000)
        with Session(problem) as session:
            with self.assertRaises(Unbounded):
                session.set_cost(1, 1)
            self.assertEqual((session.cost, session.position), (-2, 0))
            self.assertEqual(session.set_cost(2, 1), -5_000_000_002)
            self.assertEqual(session.plan(True).cost, -5_000_000_002)
            self.assertEqual(session.undo(), -2)
            self.assertEqual(session.plan(True).cost, -2)

    def test_last_arc_without_limit_is_opened_again(self):
        problem = Problem()
        for name in "abcd":
            problem.add_node(name)
        for tail, head, cap, cost in (
            ("c", "a", 1_000_000_000, 0),
            ("b", "d", 1_000_000_000, 0),
            ("a", "b", 1_000_000_000, 7),
            ("a", "b", None, 1),
        ):
            problem.add_arc(tail, head, cap=cap, cost=cost)
        with Session(problem) as session:
            session.close(3)
            with session.group():
                for name, supply in zip("abcd", (900_000_000, -900_000_000, 900_000_000, -900_000_000)):
                    session.set_supply(name, supply)
            self.assertEqual(session.shortage, 800_000_000)
            self.assertEqual(session.set_cap(3, None), 1_800_000_000)
            self.assertEqual(session.plan(True).cost, 1_800_000_000)

    def test_back_to_moments_that_need_more_room(self):
        problem = Problem()
        problem.add_node("a", 300_000_000)
        problem.add_node("b", -300_000_000)
        problem.add_arc("a", "b", cost=1)
        with Session(problem) as session:
            for low, supply in ((0, 0), (900_000_000, 900_000_000)):
                with session.group():
                    session.set_low(0, low)
                    session.set_supply("a", supply)
                    session.set_supply("b", -supply)
                self.assertEqual(session.plan(True).cost, supply)
            for steps, cost in ((session.undo, 0), (session.undo, 300_000_000), (session.redo, 0)):
                self.assertEqual(steps(), cost)
                self.assertEqual(session.plan(True).cost, cost)

    def test_an_arc_that_is_added_again_is_written_as_before(self):
        problem = Problem()
        problem.add_node("a", 100_000_000)
        problem.add_node("b", -100_000_000)
        problem.add_arc("a", "b", cost=1)
        problem.add_arc("b", "a", cost=1)
        with Session(problem) as session:
            with session.group():
                session.set_supply("a", 0)
                session.set_supply("b", 0)
            self.assertEqual(session.add_arc("a", "b", low=600_000_000), 600_000_000)
            self.assertEqual((session.undo(), session.redo()), (0, 600_000_000))
            self.assertEqual(session.plan(True).cost, 600_000_000)

    def test_groups_that_change_what_is_kept(self):
        for giver, taker in ("ab", "ba"):
            problem = Problem()
            problem.add_node(giver, 10)
            problem.add_node(taker, -5)
            problem.add_arc(giver, taker, cost=1)
            with self.subTest(giver), Session(problem, surplus="keep") as session:
                with session.group():
                    session.set_supply(giver, 20)
                    session.set_supply(taker, -17)
                self.assertEqual(session.cost, 17)
                self.assertEqual(session.undo(), 5)
                self.assertEqual(session.plan(True).kept, {giver: 5})

    def test_many_arcs_and_large_groups(self):
        with Session(deliveries()) as session:
            for number in range(1005):
                session.add_arc("north", "mill", cap=1, cost=10 + number)
            with session.group():
                for number in range(4, 1009):
                    session.set_cost(number, 7)
                    session.set_cap(number, 2)
            self.assertEqual(session.cost, 34)
            session.undo()
            self.assertEqual(session.plan(True).cost, 34)

    def test_many_edits_are_quick(self):
        with Session(deliveries()) as session:
            start = time.monotonic()
            for number in range(500):
                session.set_cap(number % 4, 6)
                session.undo()
            self.assertLess(time.monotonic() - start, 30)


class Interrupted(unittest.TestCase):
    """Ctrl-C and the time limit are heard within half a second, and the session stands as before."""

    def setUp(self):
        self.folder = tempfile.TemporaryDirectory()
        self.addCleanup(self.folder.cleanup)
        path = Path(self.folder.name) / "mcf"
        path.write_text(SLOW.format(program=os.environ["MCF"]))
        path.chmod(path.stat().st_mode | stat.S_IXUSR)
        self.slow = Path(self.folder.name) / "slow"
        self.program = Program(str(path))

    def stands(self, session):
        """What can be seen of a session."""
        return (
            session.text(),
            session.proof(),
            session.cost,
            list(session.problem.arcs),
            session.marks,
            session.can_redo,
        )

    def test_both(self):
        with Session(deliveries(), self.program) as session:
            session.set_cap(0, 3)
            session.mark("narrow")
            session.set_cost(1, 2)
            session.set_cost(2, 1)
            session.undo()
            before = self.stands(session)
            self.slow.touch()
            session.time_limit = 0.3
            start = time.monotonic()
            with self.assertRaises(TimeLimit):
                session.set_cap(0, 77)
            self.assertLess(time.monotonic() - start, 0.3 + HEARD)
            session.time_limit = None
            self.assertEqual(self.stands(session), before)
            timer = threading.Timer(0.5, os.kill, (os.getpid(), signal.SIGINT))
            timer.start()
            start = time.monotonic()
            with self.assertRaises(KeyboardInterrupt):
                session.set_cap(0, 77)
            self.assertLess(time.monotonic() - start, 0.5 + HEARD)
            timer.join()
            self.assertEqual(self.stands(session), before)
            self.slow.unlink()
            session.redo()
            session.back("narrow")
            self.assertEqual(session.plan(True).cost, session.cost)
            self.assertEqual(session.set_cap(0, 77), 34)


class Drawn(unittest.TestCase):
    """Drawn sessions, as many as a fifth of the drawn tables."""

    def test_moments(self):
        try:
            import networkx  # noqa: F401

            is_compared = True
        except ImportError:
            is_compared = False
        chance, program = random.Random(4), Program()
        moments = without = 0
        for _ in range(max(2, DRAWN // 5)):
            problem = draw(chance)
            surplus = chance.choice(["refuse", "keep", "2.5"]) if problem.balance == "equal" else "refuse"
            try:
                session = Session(problem, program, surplus=surplus)
            except (Unbounded, BeyondLimits):
                continue
            with session:
                seen = {}
                for _ in range(10):
                    at = session.position
                    try:
                        changed = self.step(session, chance)
                    except (EditRefused, ValueError, Unbounded, BeyondLimits):
                        changed = False
                        self.assertEqual(session.position, at)
                    if changed:
                        seen = {position: what for position, what in seen.items() if position <= at}
                    text, proof = session.text(), session.proof()
                    self.assertIsNone(find_fault(text))
                    self.assertEqual(program.check(text, proof), "valid")
                    now = text, proof, session.cost, dict(session.problem.nodes), list(session.problem.arcs)
                    self.assertEqual(seen.setdefault(session.position, now), now)
                    result = session.plan(True)
                    moments += 1
                    if isinstance(result, Infeasible):
                        without += 1
                        self.assertIn("There is no", result.explain())
                        self.assertEqual(result.shortage, session.shortage)
                    else:
                        self.assertEqual(result.cost, session.cost)
                    if is_compared and chance.random() < 0.3:
                        self.assertEqual(by_networkx(session.problem, surplus), session.cost)
        self.assertGreater(moments, without)

    def step(self, session, chance):
        """Does something; whether it was an edit or a group."""
        way = chance.random()
        if way < 0.2 and session.can_undo:
            session.undo()
        elif way < 0.3 and session.can_redo:
            session.redo()
        elif way < 0.35:
            session.mark(chance.choice("abc"))
        elif way < 0.4 and session.marks:
            session.back(chance.choice(session.marks))
        elif way < 0.55:
            with session.group():
                for _ in range(chance.randint(0, 4)):
                    self.edit(session, chance)
            return True
        else:
            self.edit(session, chance)
            return True
        return False

    def edit(self, session, chance):
        """A drawn edit, now and then with finer decimals, or far greater numbers, than all others."""
        value = Decimal(chance.randint(-20, 200)).scaleb(-chance.choice([0, 0, 0, 0, 1, 2])) * chance.choice(
            [1] * 12 + [10**9]
        )
        arc = chance.randrange(len(session.problem.arcs))
        names = list(session.problem.nodes)
        way = chance.random()
        if way < 0.3:
            session.set_cap(arc, None if chance.random() < 0.15 else abs(value))
        elif way < 0.4:
            session.set_low(arc, (value if chance.random() < 0.5 else abs(value)) / 10)
        elif way < 0.6:
            session.set_cost(arc, value)
        elif way < 0.8:
            session.set_supply(chance.choice(names), value)
        elif way < 0.85:
            session.close(arc)
        else:
            session.add_arc(
                chance.choice(names), chance.choice(names), cap=chance.choice([None, abs(value)]), cost=abs(value)
            )


if __name__ == "__main__":
    sys.exit(unittest.main())
