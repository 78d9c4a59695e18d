"""Faults of texts: the same line and number as the program's, in words by which one can mend them."""

import os
import random
import re
import subprocess
import sys
import tempfile
import unittest
from pathlib import Path

from mcf_plan import dimacs, formats
from mcf_plan.program import Program

HERE = Path(__file__).resolve().parent
TOP = HERE.parents[1]


def mistakes():
    """The cases of mistakes.txt: name, line, number, words, text as bytes."""
    blocks = (HERE / "mistakes.txt").read_text().split("\n\n")[1:]
    for block in blocks:
        name, told, *lines = block.rstrip("\n").split("\n")
        line, number, words = told[len("told: ") :].split(", ", 2)
        text = "\n".join(lines).encode().decode("unicode_escape").encode("latin-1") + b"\n" if lines else b""
        text = text.replace(b"RETURNS", b"a 1 2 0 5 1\r" * 90).replace(b"LONG", b"long " * 300)
        yield name, int(line), int(number), words, text


def said_of_problem(text):
    """What the program says of a problem text on standard error."""
    done = subprocess.run([os.environ["MCF"], "solve"], input=text, capture_output=True, check=False)
    return done.stderr.decode().strip()


def words_of_program(fault):
    return "" if fault is None else f"mcf: problem line {fault.line}: fault {fault.number}"


class Mistakes(unittest.TestCase):
    def test_each_is_told_so_that_one_can_mend_it(self):
        cases = list(mistakes())
        self.assertGreaterEqual(len(cases), 52)
        for name, line, number, words, text in cases:
            with self.subTest(name):
                fault = dimacs.find_fault(text)
                self.assertIsNotNone(fault)
                self.assertEqual((fault.line, fault.number), (line, number))
                self.assertIn(words, fault.words())
                # An empty text has no line to point at, so the words tell of the file.
                place = f"file, line {line}" if line else "file: There is nothing in it."
                self.assertTrue(fault.words("file").startswith(place), fault.words("file"))

    def test_what_is_one_is_told_as_one(self):
        for text, words in (
            ("p min 2 3\na 1 2 0 5 1\n", "after 1 arc, and the problem line 1 says that there are 3"),
            ("p min 2 1\n", "after 0 arcs, and the problem line 1 says that there is 1"),
        ):
            self.assertIn(words, dimacs.find_fault(text).words())

    def test_answers_that_are_flows_alone(self):
        """Whoever has flows alone is told how to check them."""
        problem = "p min 2 2\nn 1 3\nn 2 -3\na 1 2 0 5 1\na 1 2 0 5 2\n"
        for answer in ("15\n", "f 1 2 3\n", "s 3\nf 1 2 3\nf 1 2 0\n"):
            with self.subTest(answer):
                self.assertIn("`mcf-plan check --from", dimacs.find_answer_fault(problem, answer).hint)
        told = dimacs.find_answer_fault(problem, "s 3\nf 1 2 3\n").words()
        self.assertIn("ends after 1 f line, and the problem has 2 arcs", told)

    def test_bytes_of_a_packed_file(self):
        self.assertIn(r"'\u001f\x8b", dimacs.find_fault(b"\x1f\x8b\x08\x00\n").words())

    def test_program_tells_the_same_line_and_number(self):
        for name, _, _, _, text in mistakes():
            with self.subTest(name):
                self.assertEqual(said_of_problem(text), words_of_program(dimacs.find_fault(text)))


class SameAsProgram(unittest.TestCase):
    def texts(self):
        """Every text of the examples and of the cases of the command line."""
        for folder in ("examples", "tests/cli"):
            for path in sorted((TOP / folder).glob("*/*")):
                if path.is_file() and path.stat().st_size < 10_000:
                    yield path.read_bytes()

    def test_texts_of_the_repository(self):
        for text in sorted(set(self.texts())):
            with self.subTest(text[:60]):
                self.assertEqual(said_of_problem(text), words_of_program(dimacs.find_fault(text)))

    def test_spoilt_texts(self):
        chance = random.Random(7)
        good = [text for text in sorted(set(self.texts())) if dimacs.find_fault(text) is None]
        junk = [
            b"",
            b"-",
            b"0",
            b"1000000001",
            b"9" * 19,
            b"c",
            b"p",
            b"n",
            b"a",
            b"s",
            b"x" * 1025,
            b"1.5",
            b"\xc2\xa0",
            b"\r",
            b"p min 2 1",
            b"n 1 5",
        ]
        for _ in range(int(os.environ.get("MCF_PLAN_DRAWN", "100"))):
            lines = chance.choice(good).split(b"\n")
            at = chance.randrange(len(lines))
            words = lines[at].split(b" ")
            words[chance.randrange(len(words))] = chance.choice(junk)
            lines[at] = b" ".join(words)
            if chance.random() < 0.3:
                lines.insert(chance.randrange(len(lines)), lines[chance.randrange(len(lines))])
            text = b"\n".join(lines)
            self.assertEqual(said_of_problem(text), words_of_program(dimacs.find_fault(text)), text)

    def test_answers(self):
        problem = (TOP / "examples/diamond/problem.min").read_bytes()
        right = Program().solve(problem).encode()
        chance = random.Random(8)
        program = Program()
        for _ in range(60):
            lines = right.split(b"\n")
            at = chance.randrange(len(lines))
            change = chance.randrange(3)
            if change == 0:
                del lines[at]
            elif change == 1:
                lines.insert(at, lines[chance.randrange(len(lines))])
            else:
                words = lines[at].split(b" ")
                words[chance.randrange(len(words))] = chance.choice(
                    [b"", b"9", b"-1", b"x", b"i", b"1000000000000000000000"]
                )
                lines[at] = b" ".join(words)
            answer = b"\n".join(lines)
            with tempfile.TemporaryDirectory() as folder:
                names = [f"{folder}/problem", f"{folder}/answer"]
                for name, content in zip(names, (problem, answer)):
                    Path(name).write_bytes(content)
                done = subprocess.run([program.path, "check", *names], capture_output=True, check=False)
            said = done.stderr.decode().strip()
            fault = dimacs.find_answer_fault(problem, answer)
            self.assertEqual(
                said, "" if fault is None else f"mcf: answer line {fault.line}: fault {fault.number}", answer
            )


class OnePlaceForEachFact(unittest.TestCase):
    """The words of faults and refusals stand in docs/FORMATS.md and in the program's help too."""

    def table(self, heading):
        text = (TOP / "docs" / "FORMATS.md").read_text()
        rows = text[text.index(heading) :].split("\n\n")[0].splitlines()[2:]
        return {int(row.split("|")[1]): row.split("|")[2].strip() for row in rows}

    def test_faults(self):
        self.assertEqual(self.table("| Fault | Of a problem text |"), formats.FAULTS)

    def test_answer_faults(self):
        told = self.table("| Fault | Of an answer text |")
        self.assertEqual(
            {number: words.split(". Most often")[0] for number, words in told.items()}, formats.ANSWER_FAULTS
        )

    def test_refusals(self):
        self.assertEqual(self.table("| N | A command is refused because |"), formats.REFUSALS)

    def test_program_knows_the_same_numbers(self):
        program = os.environ["MCF"]
        told = "".join(
            subprocess.run([program, "help", command], capture_output=True, text=True, check=False).stdout
            for command in ("solve", "check", "session")
        )
        if not told:
            self.skipTest("the program has no help")
        numbers = {int(number) for number in re.findall(r"(?:^|\s{2,})(\d+)\s+['\w]", told, re.MULTILINE)}
        for number in {*formats.FAULTS, *formats.ANSWER_FAULTS, *formats.REFUSALS}:
            self.assertIn(number, numbers)


class Texts(unittest.TestCase):
    def test_problems_come_back(self):
        for text in (
            "p min 3 2\nn 1 4\nn 3 -4\na 1 2 0 5 1\na 2 3 1 5 -2\n",
            "p max 2 1\nn 1 s\nn 2 t\na 1 2 5\n",
            "p asn 2 1\nn 1\na 1 2 7\n",
        ):
            self.assertEqual(dimacs.parse_problem(text).text(), text)

    def test_answers_come_back(self):
        for text in ("s -3\nf 1 2 4\nf 2 1 0\nv 1 -3\nv 2 0\n", "i 3\nk 1\nk 4\n", "s 0\nv 1 0\n", "s 2\n"):
            self.assertEqual(dimacs.parse_answer(text).text(), text)
        self.assertIsNone(dimacs.parse_answer("s 1\nf 1 2 3\n").potentials)

    def test_odd_answers(self):
        self.assertEqual(dimacs.parse_answer("c made\n\ns 1\n f 1 2 3\n").flows, [3])
        for text in ("", "f 1 2 3\n", "s 1\ns 1\n", "s 1\nf 1 2\n", "i 1\nk 2\nk 1\n", "s 1\nv 2 0\n"):
            with self.subTest(text), self.assertRaises(ValueError):
                dimacs.parse_answer(text)


if __name__ == "__main__":
    sys.exit(unittest.main())
