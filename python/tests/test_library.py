"""The C library's calls against the program: the same texts and replies, and what is interrupted."""

import random
import time
import unittest

from mcf_plan import Problem, Refused, Session, TimeLimit
from mcf_plan.library import Library, find_library
from mcf_plan.program import Program, ProgramFailed

from limits import HEARD

try:
    WHERE = find_library()
except ProgramFailed:
    WHERE = ""

DIAMOND = "p min 4 5\nn 1 4\nn 4 -4\na 1 2 0 4 2\na 1 3 0 2 2\na 2 3 0 2 1\na 2 4 0 3 3\na 3 4 0 5 1\n"


def drawn(draws: random.Random) -> str:
    """A problem text of any kind; some have no flow."""
    kind, nodes = draws.choice(["min", "min", "max", "asn"]), draws.randint(2, 7)
    ends = [tuple(draws.sample(range(1, nodes + 1), 2)) for _ in range(draws.randint(0, 12))]
    if kind == "max":
        lines = ["n 1 s", f"n {nodes} t"] + [f"a {tail} {head} {draws.randint(0, 9)}" for tail, head in ends]
    elif kind == "asn":
        half = nodes // 2
        ends = [(tail, head) for tail, head in ends if tail <= half < head]
        ends += [(node, half + node) for node in range(1, half + 1)]
        lines = [f"n {node}" for node in range(1, half + 1)]
        lines += [f"a {tail} {head} {draws.randint(-9, 9)}" for tail, head in ends]
    else:
        supply = draws.randint(0, 4)
        lines = [f"n 1 {supply}", f"n 2 {-supply}"]
        lines += [f"a {tail} {head} 0 {draws.randint(0, 9)} {draws.randint(-5, 9)}" for tail, head in ends]
    return "\n".join([f"p {kind} {nodes} {len(ends)}", *lines]) + "\n"


@unittest.skipUnless(WHERE, "no libmcf.so here: the C library's calls are not tried")
class LibraryCalls(unittest.TestCase):
    def test_solve(self) -> None:
        library, program, draws = Library(), Program(), random.Random(11)
        for _ in range(120):
            text = drawn(draws)
            ours, theirs = library.solve(text), program.solve(text)
            self.assertEqual(ours.split("\n")[0], theirs.split("\n")[0])
            self.assertEqual(library.check(text, ours), "valid", text + ours)

    def test_session(self) -> None:
        library, program, draws = Library(), Program(), random.Random(12)
        for _ in range(25):
            text = drawn(draws)
            with library.session(text, extra=3) as ours, program.session(text, extra=3) as theirs:
                self.assertEqual(ours.first, theirs.first)
                for _ in range(40):
                    arc, node, other, value = (draws.randint(0, 9) for _ in range(4))
                    line = draws.choice(
                        [
                            f"cap {arc} {value}",
                            f"cost {arc} {value - 5}",
                            f"supply {node} {value - 4}",
                            f"close {arc}",
                            f"add {node} {other} 0 5 1",
                            "undo",
                            "undo",
                            "redo",
                            "mark here",
                            "back here",
                            "",
                            "what",
                            "x" * 1100,
                            " " * 1025,
                            "low 1 1",
                            "undo\n",
                            "redo\r",
                            "cap\v1 2",
                        ]
                    )
                    self.assertEqual(ours.ask(line), theirs.ask(line), (text, line))
                    if draws.random() < 0.2:
                        group = [
                            "group",
                            line,
                            f"add {node} {other} 0 5 1",
                            "",
                            f"cap {arc} {value}",
                            "end\f",
                            "end" + " " * 1022,
                            "end\n",
                        ]
                        self.assertEqual(ours.ask_all(group), theirs.ask_all(group), (text, group))
                found, wanted = ours.ask("proof"), theirs.ask("proof")
                self.assertEqual(
                    [row.split()[:3] for row in found if row[0] in "sik"],
                    [row.split()[:3] for row in wanted if row[0] in "sik"],
                )
                self.assertEqual(
                    [row.split()[1:3] for row in found if row[0] == "f"],
                    [row.split()[1:3] for row in wanted if row[0] == "f"],
                )

    def test_faults(self) -> None:
        library = Library()
        for text in ["", "p min 2\n", DIAMOND[:40], DIAMOND + "a 1 2 0 1 1\n", "x\n"]:
            with self.assertRaises(Refused) as ours:
                library.solve(text)
            with self.assertRaises(Refused) as theirs:
                Program().solve(text)
            self.assertEqual(ours.exception.fault, theirs.exception.fault)
            with self.assertRaises(Refused):
                library.session(text)

    def test_time_limit(self) -> None:
        library = Library()
        with self.assertRaises(TimeLimit):
            library.solve(DIAMOND, time_limit=0)
        self.assertEqual(library.solve(DIAMOND).split("\n")[0], "s 14")
        dialogue = library.session(DIAMOND)
        begin = time.monotonic()
        try:
            dialogue.ask("cap 1 2", time_limit=0)
        except TimeLimit:
            self.assertFalse(dialogue.is_open)
            with self.assertRaises(ProgramFailed):
                dialogue.ask("undo")
        self.assertLess(time.monotonic() - begin, HEARD)
        dialogue.close()

    def test_in_place_of_the_program(self) -> None:
        problem = Problem()
        problem.add_node("depot", "4.5")
        problem.add_node("shop", "-4.5")
        problem.add_arc("depot", "shop", cap=3, cost="2.5")
        problem.add_arc("depot", "shop", cost="3.75")
        library = Library()
        self.assertEqual(problem.solve(library).cost, problem.solve().cost)
        with Session(problem, library) as ours, Session(problem) as theirs:
            for value in (2, 1, 0):
                self.assertEqual(ours.set_cap(0, value), theirs.set_cap(0, value))
            self.assertEqual(ours.undo(), theirs.undo())
            self.assertEqual(ours.plan().cost, theirs.plan().cost)

    def test_not_there(self) -> None:
        with self.assertRaises(ProgramFailed):
            Library("/nowhere/libmcf.so")


if __name__ == "__main__":
    unittest.main()
