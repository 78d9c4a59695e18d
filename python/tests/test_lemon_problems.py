"""The problems of LEMON's own test of its minimum-cost flow algorithms, and the answers that it expects.

Supplies that do not add up to 0 are inequalities there (GEQ, LEQ); lower bounds may be below 0, and capacities missing.
"""

import unittest
from typing import Dict, List, NamedTuple, Optional

from mcf_plan import Infeasible, Plan, Problem, Unbounded

SUPPLIES = {
    "s1": [20, -4, 0, 0, 9, -6, 0, 0, 3, -2, 0, -20],
    "s2": [27, 0, 0, 0, 0, 0, 0, 0, 0, 0, 0, -27],
    "s3": [0] * 12,
    "s4": [30, 0, 0, 0, 0, 0, 0, 0, 0, 0, 0, -30],
    "s5": [20, -8, 0, 0, 6, -5, 0, 0, 0, -7, -10, -30],
    "s6": [30, -3, 0, 0, 11, -6, 0, 3, 0, -2, 0, -20],
}
# Tail, head, cost, capacity, and three lower bounds.
NETWORK = [
    (1, 2, 70, 11, 0, 8, 8),
    (1, 3, 150, 3, 0, 1, 0),
    (1, 4, 80, 15, 0, 2, 2),
    (2, 8, 80, 12, 0, 0, 0),
    (3, 5, 140, 5, 0, 3, 1),
    (4, 6, 60, 10, 0, 1, 0),
    (4, 7, 80, 2, 0, 0, 0),
    (4, 8, 110, 3, 0, 0, 0),
    (5, 7, 60, 14, 0, 0, 0),
    (5, 11, 120, 12, 0, 0, 0),
    (6, 3, 0, 3, 0, 0, 0),
    (6, 9, 140, 4, 0, 0, 0),
    (6, 10, 90, 8, 0, 0, 0),
    (7, 1, 30, 5, 0, 0, -5),
    (8, 12, 60, 16, 0, 4, 3),
    (9, 12, 50, 6, 0, 0, 0),
    (10, 12, 70, 13, 0, 5, 2),
    (10, 2, 100, 7, 0, 0, 0),
    (10, 7, 60, 10, 0, 0, -3),
    (11, 10, 20, 14, 0, 6, -20),
    (12, 11, 30, 10, 0, 0, -10),
]
# Tail, head, cost, and two lower bounds.
CIRCLE = [
    (1, 2, 100, 0, 0),
    (1, 3, 30, 0, 0),
    (2, 4, 20, 0, 0),
    (3, 4, 80, 0, 0),
    (3, 2, 50, 0, 0),
    (5, 3, 10, 0, 0),
    (5, 6, 80, 0, 1000),
    (6, 7, 30, 0, -1000),
    (7, 5, -120, 0, 0),
]


class Case(NamedTuple):
    """A problem and its answer: the least cost, 'infeasible' or 'unbounded'."""

    problem: Problem
    answer: object


def network(
    supplies: str, low: Optional[int] = None, *, has_caps: bool = True, has_costs: bool = True, balance: str = "equal"
) -> Problem:
    """A problem on the network: with the lower bounds `low` (0 to 2), capacities or none, costs or 1 each."""
    problem = Problem("min", balance=balance)
    for node, supply in enumerate(SUPPLIES[supplies], 1):
        problem.add_node(str(node), supply)
    for tail, head, cost, cap, *lows in NETWORK:
        problem.add_arc(
            str(tail),
            str(head),
            low=0 if low is None else lows[low],
            cap=cap if has_caps else None,
            cost=cost if has_costs else 1,
        )
    return problem


def circle(low: int, cap: Optional[int] = None) -> Problem:
    """A problem on the network with a circle of costs below 0."""
    problem = Problem()
    for node in range(1, 8):
        problem.add_node(str(node), {1: 100, 4: -100}.get(node, 0))
    for tail, head, cost, *lows in CIRCLE:
        problem.add_arc(str(tail), str(head), low=lows[low], cap=cap, cost=cost)
    return problem


def gainful(cap: Optional[int] = None) -> Problem:
    """Two nodes whose demand is an inequality, and an arc that is better the more it carries."""
    problem = Problem("min", balance="at least")
    problem.add_node("1", 100)
    problem.add_node("2", -300)
    problem.add_arc("1", "2", cap=cap, cost=-1)
    return problem


CASES: Dict[str, Case] = {
    "1": Case(network("s1"), 5240),
    "2": Case(network("s2"), 7620),
    "3": Case(network("s1", 1), 5970),
    "4": Case(network("s2", 1), 8010),
    "5": Case(network("s1", has_caps=False, has_costs=False), 74),
    "6": Case(network("s2", 1, has_caps=False, has_costs=False), 94),
    "7": Case(network("s3", has_caps=False, has_costs=False), 0),
    "8": Case(network("s3", 1, has_costs=False), "infeasible"),
    "9": Case(network("s4", 2), 6360),
    "10": Case(network("s5", balance="at least"), 3530),
    "11": Case(network("s5", 1, balance="at least"), 4540),
    "12": Case(network("s6", 1, balance="at least"), "infeasible"),
    "13": Case(circle(0), "unbounded"),
    "14": Case(circle(0, 5000), -40000),
    "15": Case(circle(1), "unbounded"),
    "16": Case(gainful(), -300),
    "18": Case(gainful(1000), -300),
    "19": Case(network("s6", balance="at most"), 5080),
    "20": Case(network("s6", 1, balance="at most"), 5930),
    "21": Case(network("s5", 1, balance="at most"), "infeasible"),
}


def answered(problem: Problem) -> object:
    """What `solve` finds, in the words of the cases; the answer has been checked and verified."""
    try:
        answer = problem.solve()
    except Unbounded:
        return "unbounded"
    assert answer.checked
    if isinstance(answer, Infeasible):
        return "infeasible"
    assert isinstance(answer, Plan)
    return answer.cost


class LemonProblems(unittest.TestCase):
    def test_all(self) -> None:
        right: List[str] = []
        for name, case in CASES.items():
            with self.subTest(case=name):
                self.assertEqual(answered(case.problem), case.answer)
                right.append(name)
        print(f"LEMON's problems: {len(right)} of {len(CASES)} answered as LEMON expects")

    def test_count(self) -> None:
        self.assertEqual(len(CASES), 20)


if __name__ == "__main__":
    unittest.main()
