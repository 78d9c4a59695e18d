"""Plans and cuts prove themselves in the units of the tables: spoilt ones are found."""

import dataclasses
import random
import sys
import unittest
from decimal import Decimal

from mcf_plan import BeyondLimits, Disagreement, Infeasible, Plan, Problem, Program, Unbounded

from drawing import draw


class OneAnswerEach(Program):
    """A program that answers with texts of its own."""

    def __init__(self, answer, verdict):
        super().__init__()
        self.answer, self.verdict = answer, verdict

    def solve(self, text, *, time_limit=None):
        return self.answer

    def check(self, problem, answer, *, time_limit=None):
        return self.verdict


def spoilt_plans(plan, chance):
    """The plan with one thing changed in it."""
    one = Decimal(1)
    if plan.flows:
        at = chance.randrange(len(plan.flows))
        yield dataclasses.replace(plan, flows=[*plan.flows[:at], plan.flows[at] + one, *plan.flows[at + 1 :]])
    yield dataclasses.replace(plan, flows=plan.flows[1:] if plan.flows else [one])
    yield dataclasses.replace(plan, cost=plan.cost + Decimal("0.001"))
    yield dataclasses.replace(plan, prices=None)
    yield dataclasses.replace(plan, kept={next(iter(plan.problem.nodes)): one, **plan.kept})


class Spoilt(unittest.TestCase):
    def test_drawn(self):
        chance, program = random.Random(11), Program()
        plans = cuts = 0
        while plans < 25 or cuts < 25:
            problem = draw(chance)
            if problem.balance != "equal":
                continue
            try:
                result = problem.solve(program)
            except (Unbounded, BeyondLimits):
                continue
            result.verify()
            if isinstance(result, Infeasible):
                cuts += 1
                wrong = [
                    dataclasses.replace(result, shortage=result.shortage + 1),
                    dataclasses.replace(result, shortage=Decimal(0)),
                    dataclasses.replace(result, cut=frozenset()),
                ]
            else:
                plans += 1
                # A unit more around an arc from a node to itself can be right, at no cost.
                wrong = [
                    spoilt
                    for spoilt in spoilt_plans(result, chance)
                    if not any(arc.tail == arc.head for arc in problem.arcs)
                ]
            for spoilt in wrong:
                with self.assertRaises(Disagreement):
                    spoilt.verify()

    def test_prices_that_prove_nothing(self):
        problem = Problem()
        problem.add_node("a", 1)
        problem.add_node("b", -1)
        problem.add_arc("a", "b", cap=1, cost=1)
        problem.add_arc("a", "b", cap=1, cost=2)
        plan = problem.solve()
        worse = dataclasses.replace(plan, flows=plan.flows[::-1], cost=Decimal(2))
        with self.assertRaisesRegex(Disagreement, "would be better"):
            worse.verify()

    def test_maximum_flows(self):
        problem = Problem("max", source="a", sink="c")
        problem.add_arc("a", "b", cap=2)
        problem.add_arc("b", "c", cap=1)
        plan = problem.solve()
        self.assertEqual((plan.cost, plan.is_full(1), plan.is_full(0)), (1, True, False))
        zero = dataclasses.replace(plan, flows=[Decimal(0)] * 2, cost=Decimal(0))
        with self.assertRaises(Disagreement):
            zero.verify()
        for spoilt in (
            dataclasses.replace(plan, cost=Decimal(2)),
            dataclasses.replace(plan, flows=[Decimal(2), Decimal(1)]),
        ):
            with self.assertRaises(Disagreement):
                spoilt.verify()

    def test_what_is_kept(self):
        problem = Problem()
        problem.add_node("a", 5)
        problem.add_node("b", 2)
        problem.add_node("c", -4)
        problem.add_arc("a", "c", cost=1)
        problem.add_arc("b", "c", cost=3)
        plan = problem.solve(surplus=2)
        self.assertEqual((plan.cost, plan.kept), (10, {"a": 1, "b": 2}))
        for kept in ({"a": Decimal(2), "b": Decimal(1)}, {"a": Decimal(-1)}, {"c": Decimal(3)}, {}):
            with self.assertRaises(Disagreement):
                dataclasses.replace(plan, kept=kept).verify()


class Disagreeing(unittest.TestCase):
    def problem(self):
        problem = Problem()
        problem.add_node("a", 1)
        problem.add_node("b", -1)
        problem.add_arc("a", "b", cap=1, cost=1)
        return problem

    def test_texts_are_kept(self):
        with self.assertRaises(Disagreement) as caught:
            self.problem().solve(OneAnswerEach("s 1\nf 1 2 1\nv 1 -1\nv 2 0\n", "not valid"))
        self.assertIn("p min 2 1", caught.exception.problem_text)
        self.assertIn("s 1", caught.exception.answer_text)

    def test_verify_finds_what_check_passed_over(self):
        for answer in (
            "s 2\nf 1 2 1\nv 1 -1\nv 2 0\n",
            "s 1\nf 1 2 1\nv 1 0\nv 2 0\n",
            "i 1\nk 1\n",
            "i 1\nk 7\n",
            "s 0\nf 1 2 0\nv 1 -1\nv 2 0\n",
        ):
            with self.subTest(answer), self.assertRaises(Disagreement) as caught:
                self.problem().solve(OneAnswerEach(answer, "valid"))
            self.assertEqual(caught.exception.answer_text, answer)

    def test_right_answer(self):
        plan = self.problem().solve(OneAnswerEach("s 1\nf 1 2 1\nv 1 -1\nv 2 0\n", "valid"))
        self.assertIsInstance(plan, Plan)
        self.assertEqual((plan.reduced_cost(0), plan.checked), (0, True))


if __name__ == "__main__":
    sys.exit(unittest.main())
