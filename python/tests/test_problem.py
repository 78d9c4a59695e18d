"""Problems: exact numbers, arcs by name, and the spellings of other programs."""

import random
import sys
import time
import unittest
from decimal import Decimal
from fractions import Fraction
from pathlib import Path

from mcf_plan import Meaningless, Plan, Problem, Refused
from mcf_plan.problem import SeveralArcs, capacity, exact, plain


class Numbers(unittest.TestCase):
    def test_what_is_taken(self):
        for given, wanted in (
            (3, "3"),
            (0.1, "0.1"),
            ("2.50", "2.5"),
            (" 7 ", "7"),
            (Decimal("1E+3"), "1000"),
            (Fraction(1, 8), "0.125"),
            (-0.0, "0"),
            ("-0", "0"),
            (True, "1"),
            (1e-7, "0.0000001"),
        ):
            with self.subTest(given):
                self.assertEqual(plain(exact(given)), wanted)

    def test_what_is_refused(self):
        for given in ("", "x", "nan", float("inf"), float("nan"), Fraction(1, 3), "1e999", None, [1], Path("1")):
            with self.subTest(given), self.assertRaisesRegex(ValueError, "the cost is"):
                exact(given, "the cost")

    def test_numbers_of_numpy(self):
        try:
            import numpy
        except ImportError:
            self.skipTest("numpy is not installed")
        self.assertEqual(exact(numpy.int64(5)), 5)
        self.assertEqual(exact(numpy.float64(0.1)), Decimal("0.1"))
        for infinite in (numpy.float16("inf"), numpy.float32("inf"), numpy.longdouble("inf")):
            self.assertIsNone(capacity(infinite))
        for given in (numpy.array(1.5), numpy.array([1.5]), numpy.float32("-inf")):
            with self.subTest(given), self.assertRaisesRegex(ValueError, "the capacity is .*, and has to be a"):
                capacity(given)
        self.assertEqual(exact(numpy.float32(0.1)), Decimal("0.1"))


class Building(unittest.TestCase):
    def test_arcs_by_name(self):
        problem = Problem()
        problem.add_arc("a", "b", name="road")
        problem.add_arc("a", "b")
        problem.add_arc("b", "c")
        self.assertEqual(problem.find_arc("road"), 0)
        self.assertEqual(problem.find_arc(("b", "c")), 2)
        self.assertEqual(problem.find_arc("b to c"), 2)
        self.assertEqual(problem.find_arc(1), 1)
        for wrong in ("a to b", ("a", "b"), "rail", 3, -1):
            with self.subTest(wrong), self.assertRaises(KeyError):
                problem.find_arc(wrong)

    def test_names_that_are_no_texts(self):
        problem = Problem()
        for name in (1, 2.5, None, True, ("a", "b")):
            with self.subTest(name):
                for wrong in (
                    lambda: problem.add_node(name),
                    lambda: problem.add_arc(name, "b"),
                    lambda: problem.add_arc("a", name),
                ):
                    with self.assertRaisesRegex(TypeError, "a name is .* has to be a text"):
                        wrong()
        with self.assertRaisesRegex(TypeError, "a name is 7, of type int"):
            problem.add_arc("a", "b", name=7)
        self.assertEqual((problem.nodes, problem.arcs), ({}, []))

    def test_arcs_that_come_and_go(self):
        problem = Problem()
        problem.add_arc("a", "b")
        self.assertEqual(problem.find_arc("a to b"), 0)
        problem.add_arc("b", "c", name="a to b")
        self.assertEqual(problem.find_arc("a to b"), 1)
        problem.add_arc("a", "b", name="road")
        self.assertEqual(problem.find_arc("road"), 2)
        problem.remove_last_arc()
        self.assertEqual(problem.find_arc(("a", "b")), 0)
        problem.replace_arc(1, problem.arcs[1]._replace(name="road"))
        self.assertEqual((problem.find_arc("a to b"), problem.find_arc("road")), (0, 1))

    def test_names_of_arcs_that_come_and_go_one_by_one(self):
        """Each is listed, or taken off the list, alone, and not all arcs anew: that would take 20 seconds here."""
        problem = Problem()
        for number in range(50_000):
            problem.add_arc(f"town {number}", f"town {number + 1}")
        begin = time.process_time()
        for number in range(300):
            problem.add_arc("town 1", "town 2", name=f"new {number}")
            self.assertEqual(problem.find_arc(f"new {number}"), 50_000 + number)
            with self.assertRaises(SeveralArcs):
                problem.find_arc("town 1 to town 2")
        for number in reversed(range(300)):
            problem.remove_last_arc()
            with self.assertRaises(KeyError):
                problem.find_arc(f"new {number}")
        self.assertEqual(problem.find_arc("town 1 to town 2"), 1)
        self.assertLess(time.process_time() - begin, 5)

    def test_drawn_arcs_that_come_and_go(self):
        """Each is found as by looking through all arcs."""
        generator = random.Random(7)
        names = [None, "a", "b", "a to b", "b to a"]
        problem = Problem()
        for _ in range(3000):
            if generator.random() < 0.45 and problem.arcs:
                problem.remove_last_arc()
            else:
                problem.add_arc(*generator.choices("abc", k=2), name=generator.choice(names))
            which = generator.choice([*names[1:], ("a", "b"), ("b", "c")])
            found = [number for number, arc in enumerate(problem.arcs) if arc.name == which]
            if not found:
                found = [
                    number
                    for number, arc in enumerate(problem.arcs)
                    if which in ((arc.tail, arc.head), f"{arc.tail} to {arc.head}")
                ]
            if len(found) == 1:
                self.assertEqual(problem.find_arc(which), found[0])
            else:
                with self.assertRaises(SeveralArcs if found else KeyError):
                    problem.find_arc(which)

    def test_mistakes(self):
        problem = Problem()
        problem.add_node("a")
        with self.assertRaises(ValueError):
            problem.add_node("a")
        with self.assertRaisesRegex(ValueError, "the capacity of a to b is -1, below 0"):
            problem.add_arc("a", "b", cap=-1)
        with self.assertRaisesRegex(ValueError, "above its capacity, 1"):
            problem.add_arc("a", "b", low=2, cap=1)
        self.assertEqual((list(problem.nodes), problem.arcs), (["a"], []))
        for kind, words in (("min ", "kind"), ("flow", "kind")):
            with self.subTest(kind), self.assertRaisesRegex(ValueError, words):
                Problem(kind)
        with self.assertRaises(Meaningless):
            Problem().solve()

    def test_no_limit(self):
        problem = Problem()
        for cap in (None, "inf", float("inf"), Decimal("Infinity"), " Infinity "):
            self.assertIsNone(problem.arcs[problem.add_arc("a", "b", cap=cap)].cap)


class Spellings(unittest.TestCase):
    """What other programs write is read with its meaning, or refused by its line."""

    def cost(self, text):
        plan = Problem.from_dimacs(text).solve()
        self.assertIsInstance(plan, Plan)
        return plain(plan.cost)

    def test_read(self):
        for text, cost in (
            ("p min 2 1\na 1 2 0 9 3\nn 1 2\nn 2 -2\n", "6"),
            ("\ufeffp min 2 1\r\nn 1 +2\r\nn 2 -2.0\r\na 1 2 0 9e0 3\r\n", "6"),
            ("p min 2 1\nn 1 2\nn 2 -2\na 1 2 0 inf 3.25\n", "6.5"),
            ("p min 2 1\nn 1 2\nn 2 -2\na 1 2 0 -1 3\n", "6"),
            ("p min 2 1\nn 1 2\nn 2 -2\na 1 2 0 2147483647 3\n", "6"),
            ("# made by hand\np min 2 1 c two nodes\nn 1 2 // here\nn 2 -2\na 1 2 0 5 3 # road\n", "6"),
            ("p min 2 1\nn 1 -2\nn 2 2\na 1 2 -9 9 3\n", "-6"),
            ("p min 2 1\nn 1 0.5\nn 2 -0.5\na 1 2 -0 9 3\n", "1.5"),
            ("p min 2 1\nn 1 3000000000\nn 2 -3000000000\na 1 2 0 3000000000 1\n", "3000000000"),
            ("p max 2 2\na 1 2 3000000000\na 1 2 3000000000\nn 1 s\nn 2 t\n", "6000000000"),
        ):
            with self.subTest(text):
                self.assertEqual(self.cost(text), cost)

    def test_notes(self):
        problem = Problem.from_dimacs("p min 2 2\na 1 2 0 -1 3\na 1 2 0 inf 3\n")
        self.assertEqual([arc.cap for arc in problem.arcs], [None, None])
        self.assertEqual(problem.notes, ["line 2: the capacity -1 of the arc from 1 to 2 is read as no limit"])

    def test_refused(self):
        for text, number, line in (
            ("p min 2 2\na 1 2 0 5 3\n", 13, 2),
            ("p min 2 1\na 1 2 7 5.5 3\n", 15, 2),
            ("p min 2 1\na 1 2 0 x 3\n", 4, 2),
            ("p min 2 1\na 1 2.5 0 1 3\n", 4, 2),
            ("p min 2 1\nn 1 2\nn 1 3\na 1 2 0 1 3\n", 10, 3),
            ("p max 2 1\na 1 2 3\n", 11, 2),
            ("p min 2 1\na 1 2 0 5 3\nn 1 2\na 1 2 0 5 3\n", 12, 4),
            ("", 14, 0),
        ):
            with self.subTest(text), self.assertRaises(Refused) as caught:
                Problem.from_dimacs(text)
            self.assertEqual((caught.exception.fault.number, caught.exception.fault.line), (number, line))


if __name__ == "__main__":
    sys.exit(unittest.main())
