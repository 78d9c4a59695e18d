"""A session opens on the very flow that `mcf solve` prints, with whatever room for arcs that may be added."""

import random
import subprocess
import tempfile
import unittest

from mcf_plan import Program

from drawing import DRAWN

NODES = 41
EXTRAS = ("0", "2", "1000")


def road(chance: random.Random) -> str:
    """A road network along a line, with many best flows, since its costs are few."""
    arcs = []
    for node in range(1, NODES):
        for tail, head in ((node, node + 1), (node + 1, node)):
            arcs.append((tail, head, chance.randint(3, 9), chance.randint(1, 6)))
    for _ in range(2 * NODES):
        tail = chance.randint(1, NODES)
        head = min(NODES, max(1, tail + chance.randint(-9, 9)))
        if tail != head:
            arcs.append((tail, head, chance.randint(1, 6), chance.randint(1, 9)))
    supplies = [0] * (NODES + 1)
    for _ in range(NODES // 3):
        start, end = chance.randint(1, NODES), chance.randint(1, NODES)
        if abs(start - end) < 25:
            supplies[start] += 1
            supplies[end] -= 1
    lines = [f"p min {NODES} {len(arcs)}"]
    lines += [f"n {node} {supply}" for node, supply in enumerate(supplies) if supply]
    lines += [f"a {tail} {head} 0 {cap} {cost}" for tail, head, cap, cost in arcs]
    return "\n".join(lines) + "\n"


class OpeningFlow(unittest.TestCase):
    def test_a_session_shows_what_solve_prints(self):
        program, chance = Program().path, random.Random(3)
        for number in range(DRAWN):
            text = road(chance)
            solved = self.run_program([program, "solve", "/dev/stdin"], text)
            for extra in EXTRAS:
                with self.subTest(number=number, extra=extra):
                    shown = self.in_session(program, extra, text)
                    self.assertEqual(shown, solved)

    def in_session(self, program: str, extra: str, text: str) -> str:
        """What `show` prints at the opening of a session."""
        with open(self.path, "w", encoding="ascii") as problem:
            problem.write(text)
        told = self.run_program([program, "session", "--extra", extra, self.path], "show\n")
        return told.split("\n", 1)[1]

    def run_program(self, command: list[str], given: str) -> str:
        """The output of the program."""
        done = subprocess.run(command, input=given, capture_output=True, text=True, check=False)
        self.assertEqual(done.stderr, "")
        return done.stdout

    def setUp(self):
        folder = tempfile.TemporaryDirectory()
        self.addCleanup(folder.cleanup)
        self.path = f"{folder.name}/problem"


if __name__ == "__main__":
    unittest.main()
