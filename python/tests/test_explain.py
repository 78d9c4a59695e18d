"""Why there is no plan, in words: a table of cases."""

import sys
import unittest

from mcf_plan import Infeasible, Problem


def problem_of(nodes, arcs, kind="min"):
    """A problem of 'NAME SUPPLY' and 'TAIL HEAD LOW CAP' lines."""
    problem = Problem(kind)
    for line in nodes:
        name, supply = line.split()
        problem.add_node(name, supply)
    for line in arcs:
        tail, head, low, cap = line.split()
        problem.add_arc(tail, head, low=low, cap=cap)
    return problem


CASES = (
    (
        "too much at one node",
        ["mine 4.5", "works -4.5"],
        ["mine works 0 3"],
        "refuse",
        "There is no plan: 1.5 too many at mine.\n"
        "mine supplies 4.5, and at most 3 can leave:\n"
        "  mine to works: at most 3\n"
        "Seen from the other side: works demands 4.5, and at most 3 can come in.\n"
        "What would help: 1.5 more capacity there, or 1.5 less supply and demand.",
    ),
    (
        "no arc leads out",
        ["a 2", "b 1", "c -3"],
        ["a b 0 9"],
        "refuse",
        "There is no plan: 3 too many at a and b.\n"
        "a and b supply 3, and no arc leads out.\n"
        "Seen from the other side: c demands 3, and no arc leads in.\n"
        "What would help: an arc that leads out, for 3, or 3 less supply and demand.",
    ),
    (
        "less supply than demand",
        ["a 2", "b -3"],
        ["a b 0 9"],
        "refuse",
        "There is no plan: all nodes together supply 2 and demand 3, so 1 is not there.\n"
        'What would help: `--surplus keep` (in Python `surplus="keep"`), by which the rest is not met.',
    ),
    (
        "a minus sign that is missing",
        ["a 5", "b 5"],
        ["a b 0 9"],
        "refuse",
        "There is no plan: all nodes together supply 10 and demand 0, so 10 are too many.\n"
        "What would help: a demand, which is a supply below 0: is a minus sign missing?",
    ),
    (
        "more supply than demand",
        ["a 5", "b -3"],
        ["a b 0 9"],
        "refuse",
        "There is no plan: all nodes together supply 5 and demand 3, so 2 are too many.\n"
        'What would help: `--surplus keep` (in Python `surplus="keep"`), by which the rest stays where it is.',
    ),
    (
        "a lower bound brings too much",
        ["a 5", "b 0", "c -5"],
        ["a b 4 9", "b c 0 1", "a c 0 9"],
        "refuse",
        "There is no plan: 3 too many at b.\n"
        "b supplies 0, at least 4 must come in, and at most 1 can leave:\n"
        "  b to c: at most 1\n"
        "  a to b: at least 4\n"
        "Seen from the other side: a and c supply 5 and demand 5, at least 4 must leave, and at most 1 can come in.\n"
        "What would help: 3 more capacity there, or lower bounds that are 3 lower.",
    ),
    ("a lower bound where nothing comes", ["a 0", "b 0"], ["a b 2 9"], "refuse", None),
    ("what is kept does not help", ["a 5", "b 4", "c -3"], ["a c 0 1", "b c 0 1"], "keep", None),
    ("what is not met does not help", ["a 5", "b 1", "c -9"], ["a c 0 1", "b c 0 1"], "keep", None),
)


class Words(unittest.TestCase):
    def test_cases(self):
        for name, nodes, arcs, surplus, words in CASES:
            with self.subTest(name):
                result = problem_of(nodes, arcs).solve(surplus=surplus)
                self.assertIsInstance(result, Infeasible)
                told = result.explain()
                self.assertTrue(told.startswith("There is no plan: "), told)
                if words is not None:
                    self.assertEqual(told, words)

    def test_halls_set(self):
        problem = Problem("asn")
        for tail, head in (
            ("Ann", "early"),
            ("Ann", "late"),
            ("Bob", "early"),
            ("Bob", "late"),
            ("Cem", "early"),
            ("Cem", "late"),
            ("Dan", "night"),
            ("Dan", "early"),
        ):
            problem.add_arc(tail, head)
        problem.add_node("noon", -1)
        self.assertEqual(
            problem.solve().explain(),
            "There is no assignment: these 3 nodes have these 2 alone between them, so 1 of them stays without.\n"
            "  Ann, Bob, Cem\n"
            "  have early, late alone",
        )

    def test_halls_set_of_one(self):
        problem = Problem("asn")
        problem.add_arc("Ann", "early")
        problem.add_node("Bob", 1)
        problem.add_node("late", -1)
        self.assertEqual(problem.solve().explain(), "There is no assignment: Bob has no partner.")

    def test_unequal_sides(self):
        problem = Problem("asn")
        for tail in ("Ann", "Bob", "Cem"):
            problem.add_arc(tail, "early")
        self.assertIn("these 3 nodes have this one alone", problem.solve().explain())
        turned = Problem("asn")
        for head in ("early", "noon", "late"):
            turned.add_arc("Ann", head)
        self.assertIn("these 3 nodes have this one alone", turned.solve().explain())

    def test_long_lists_are_cut(self):
        nodes = [f"n{number} 1" for number in range(30)] + ["sink -30"]
        told = problem_of(nodes, [f"n{number} sink 0 0" for number in range(30)]).solve().explain()
        self.assertIn("and 18 more", told)
        self.assertLess(len(told.split("\n")), 20)


if __name__ == "__main__":
    sys.exit(unittest.main())
