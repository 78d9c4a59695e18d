"""Sensitivity: each figure against solving anew."""

import doctest
import os
import random
import sys
import unittest
from decimal import Decimal
from pathlib import Path
from typing import Optional, Tuple
from unittest import mock

sys.path.insert(0, str(Path(__file__).resolve().parent))
import drawing  # noqa: E402

from mcf_plan import (  # noqa: E402
    BeyondLimits,
    EditRefused,
    Infeasible,
    Meaningless,
    Plan,
    Problem,
    Session,
    Unbounded,
    around,
    detours,
    ranging,
    residual,
    sensitivity,
)
from mcf_plan.detours import Trees, distances_between  # noqa: E402
from mcf_plan.residual import Residual  # noqa: E402
from mcf_plan.sensitivity import cost_range, minimum_cut, one_unit_more, ranges, supply_prices  # noqa: E402

DRAWN = int(os.environ.get("MCF_PLAN_DRAWN", "100"))


def drawn(draws: random.Random, kind: str = "min", places: int = 0) -> Problem:
    """A small problem, with and without a plan; its costs have so many decimals."""
    problem = Problem(kind)
    names = [f"n{number}" for number in range(draws.randint(2, 7))]
    for name in names:
        problem.add_node(name)
    if kind == "max":
        problem.source, problem.sink = names[0], names[-1]
    for _ in range(draws.randint(1, 14)):
        tail, head = draws.sample(names, 2)
        low = draws.choice([0, 0, 0, 1]) if kind == "min" else 0
        cap = (
            draws.choice([None, low + draws.randint(0, 6), low + draws.randint(0, 6)])
            if kind == "min"
            else draws.randint(0, 6)
        )
        least = 0 if cap is None else -4
        cost = Decimal(draws.randint(least, 12)).scaleb(-places) if kind == "min" else 0
        problem.add_arc(tail, head, low=low, cap=cap, cost=cost)
    if kind == "min":
        for arc in problem.arcs:
            flow = draws.randint(int(arc.low), int(arc.low) + 3 if arc.cap is None else int(arc.cap))
            problem.nodes[arc.tail] += flow
            problem.nodes[arc.head] -= flow
    return problem


def pairs(draws: random.Random) -> Problem:
    """A small assignment."""
    problem = Problem("asn")
    size = draws.randint(1, 5)
    for row in range(size):
        for column in range(size):
            if row == column or draws.random() < 0.6:
                problem.add_arc(f"row {row}", f"column {column}", cap=1, cost=draws.randint(0, 12))
    return problem


def changed(problem: Problem, arc: int, **fields: Optional[Decimal]) -> Problem:
    """The problem with another number of an arc."""
    other = problem.copy()
    other.arcs[arc] = other.arcs[arc]._replace(**fields)
    return other


def worth(problem: Problem) -> Optional[Decimal]:
    """What a best plan costs, by solving anew; None where there is none."""
    answer = problem.solve()
    return answer.cost if isinstance(answer, Plan) else None


def tied(draws: random.Random) -> Problem:
    """A problem with few costs and narrow capacities: many plans are best, and nodes carry nothing."""
    problem = Problem()
    names = [f"n{number}" for number in range(draws.randint(3, 12))]
    for name in names:
        problem.add_node(name)
    for _ in range(draws.randint(4, 30)):
        tail, head = draws.choice(names), draws.choice(names)
        problem.add_arc(tail, head, low=draws.choice([0, 0, 0, -1]), cap=draws.randint(0, 2), cost=draws.randint(-1, 2))
    for arc in problem.arcs:
        if draws.random() < 0.5:
            assert arc.cap is not None
            flow = draws.randint(int(arc.low), int(arc.cap))
            problem.nodes[arc.tail] += flow
            problem.nodes[arc.head] -= flow
    return problem


def of_any_kind(draws: random.Random, case: int) -> Tuple[Problem, str]:
    """A drawn problem, and what becomes of its surplus."""
    kind = case % 6
    if kind == 0:
        return drawn(draws, "min", case % 3), "refuse"
    if kind == 1:
        return drawn(draws, "max"), "refuse"
    if kind == 2:
        return pairs(draws), "refuse"
    if kind == 3:
        return tied(draws), "refuse"
    return drawing.draw(draws), draws.choice(["refuse", "keep", "1.5"])


def places_of(numbers: "list[Optional[Decimal]]") -> int:
    """How many decimals numbers have at most."""
    found = [number.normalize().as_tuple().exponent for number in numbers if number is not None]
    return max([0, *(-int(exponent) for exponent in found)])


class Judge:
    """What is asked about a problem by solving anew, through a session of its own."""

    def __init__(self, session: Session, plan: Plan):
        self.session, self.plan, self.problem = session.beside(), plan, plan.problem
        costs = [arc.cost for arc in self.problem.arcs] + [plan.rest_cost or Decimal(0)] * 2
        amounts = [*self.problem.nodes.values(), *(bound for arc in self.problem.arcs for bound in (arc.low, arc.cap))]
        self.step = Decimal(1).scaleb(-places_of(costs))
        self.least = Decimal(1).scaleb(-places_of(amounts))
        self.reach = 2 * sum(map(abs, costs), Decimal(0)) + self.step

    def cost(self, edit: str, which: object, value: Decimal) -> Optional[Decimal]:
        """The cost of a best plan after an edit; below every cost where there is no best one."""
        try:
            return getattr(self.session, edit)(which, value)
        except Unbounded:
            self.session.mark("same")
            return None
        finally:
            if self.session.can_undo:
                self.session.undo()

    def is_best(self, arc: int, cost: Decimal) -> Optional[bool]:
        """Whether the plan is best where an arc has another cost; None where that can't be asked."""
        row = self.problem.arcs[arc]
        try:
            best = self.session.set_cost(arc, cost)
        except Unbounded:
            return False
        except BeyondLimits:
            return None
        self.session.undo()
        return best == self.plan.cost + (cost - row.cost) * self.plan.flows[arc]

    def with_cap(self, arc: int, cap: Decimal) -> Optional[Decimal]:
        """What a best plan costs with another capacity; None where it can't be asked."""
        try:
            best = self.session.set_cap(arc, cap)
        except (BeyondLimits, EditRefused):
            return None
        self.session.undo()
        return best

    def with_supply(self, node: str, by: int, other: Optional[str]) -> Optional[Decimal]:
        """By how much a best plan costs more where a supply changes; None where there is none."""
        nodes = self.problem.nodes
        with self.session.group():
            self.session.set_supply(node, nodes[node] + by)
            if other is not None and other != node:
                self.session.set_supply(other, nodes[other] - by)
            elif other is not None:
                self.session.set_supply(other, nodes[other])
        best = self.session.cost
        self.session.undo()
        return None if best is None else best - self.plan.cost


class Sensitivity(unittest.TestCase):
    def compare(self, problem: Problem, surplus: str) -> "dict[str, int]":
        """Compares all that is told of a problem with what solving anew says; how much of what was compared."""
        counts = dict.fromkeys(("problems", "gains", "ends", "open ends", "capacities"), 0)
        try:
            session = Session(problem, surplus=surplus)
        except (Unbounded, BeyondLimits, Meaningless):
            return counts
        with session:
            plan = session.plan(True)
            if isinstance(plan, Infeasible):
                return counts
            told, judge = ranges(session), Judge(session, plan)
            with judge.session:
                for found in told:
                    self.compare_arc(found, judge, counts)
        counts["problems"] = 1
        return counts

    def compare_arc(self, found: sensitivity.Ranges, judge: Judge, counts: "dict[str, int]") -> None:
        problem, plan, number = judge.problem, judge.plan, found.arc
        arc, flow = problem.arcs[number], plan.flows[number]
        if problem.kind != "asn":
            anew = None if arc.cap is None else judge.with_cap(number, arc.cap + 1)
            if anew is not None:
                self.assertEqual(found.saves, (anew - plan.cost) * (1 if problem.kind == "max" else -1))
                counts["gains"] += found.saves != 0
            self.assertEqual(found.least_cap, flow)
            self.assertEqual(judge.with_cap(number, flow), plan.cost)
            if arc.cap is not None:
                further = judge.with_cap(number, arc.cap + judge.least)
                far = judge.with_cap(number, arc.cap + 1000)
                self.assertIn(found.greatest_cap, (None, arc.cap))
                self.assertEqual(further in (plan.cost, None), found.greatest_cap is None)
                self.assertEqual(far in (plan.cost, None), found.greatest_cap is None)
                counts["capacities"] += 1
        if problem.kind == "max":
            self.assertEqual((found.least_cost, found.greatest_cost), (None, None))
            return
        for end, side in ((found.least_cost, -1), (found.greatest_cost, 1)):
            if end is None:
                self.assertIn(judge.is_best(number, arc.cost + side * judge.reach), (True, None))
                counts["open ends"] += 1
                continue
            self.assertGreaterEqual(side * (end - arc.cost), 0)
            self.assertIn(judge.is_best(number, end), (True, None))
            self.assertIn(judge.is_best(number, end + side * judge.step), (False, None))
            counts["ends"] += 1

    def test_drawn(self) -> None:
        draws = random.Random(1)
        counts: "dict[str, int]" = {}
        for case in range(4 * DRAWN):
            problem, surplus = of_any_kind(draws, case)
            with self.subTest(case=case):
                for what, count in self.compare(problem, surplus).items():
                    counts[what] = counts.get(what, 0) + count
        print(f"ranges as by solving anew: {counts}")
        self.assertTrue(all(count > DRAWN / 2 for count in counts.values()), counts)

    def test_small_balls(self) -> None:
        """The same where searches meet balls of few trees, grow, and meet hubs."""
        draws = random.Random(7)
        before = detours.LEAST_BALL, detours.MOST_AHEAD
        try:
            for case in range(2 * DRAWN):
                detours.LEAST_BALL, detours.MOST_AHEAD = draws.choice([1, 2, 3]), draws.choice([0, 2])
                problem, surplus = of_any_kind(draws, 2 + draws.randint(0, 2))
                self.compare(problem, surplus)
        finally:
            detours.LEAST_BALL, detours.MOST_AHEAD = before

    def test_free_arcs_together(self) -> None:
        """The same where the ways around all free arcs of a tree are looked for together, and where this ends early."""
        draws = random.Random(13)
        before = ranging.MANY, around.AT_ONCE, around.MOST_STATES
        try:
            for case in range(4 * DRAWN):
                ranging.MANY, around.AT_ONCE = draws.choice([1, 1, 2, 3]), draws.choice([1, 2, 16])
                around.MOST_STATES = draws.choice([1, 2, 100, 100])
                problem, surplus = of_any_kind(draws, draws.choice([0, 0, 3, 4, 5]))
                self.compare(problem, surplus)
        finally:
            ranging.MANY, around.AT_ONCE, around.MOST_STATES = before

    def test_whole_units(self) -> None:
        """Where amounts have decimals, what a whole unit saves or costs is solved anew only where it can't go along a way
        as short as that of the first step."""
        for ferry, saves, costs, is_anew in (("0", "7", "-9", False), ("0.5", "5", "-7", True)):
            problem = Problem()
            problem.add_node("works", "2.5")
            problem.add_node("shop", "-2.5")
            for cap, cost in (("1.5", 2), (ferry, 5), (9, 9)):
                problem.add_arc("works", "shop", cap=cap, cost=cost)
            with Session(problem) as session, mock.patch.object(session, "beside", side_effect=session.beside) as anew:
                self.assertEqual(one_unit_more(session)[0], Decimal(saves))
                self.assertEqual(supply_prices(session, "shop")[0].one_less, Decimal(costs))
                self.assertEqual(anew.called, is_anew)

    def test_large_tree(self) -> None:
        """A network with large trees of free arcs: their ways around found together are those found one by one."""
        draws = random.Random(14)
        decided = none = 0
        for size in (20, 60, 150):
            problem = Problem()
            names = [f"n{number}" for number in range(size)]
            for name in names:
                problem.add_node(name)
            for _ in range(3 * size):
                tail, head = draws.sample(names, 2)
                arc = problem.arcs[problem.add_arc(tail, head, cap=draws.randint(2, 9), cost=draws.randint(1, 30))]
                flow = draws.randint(0, int(arc.cap or 0)) if draws.random() < 0.3 else 0
                problem.nodes[tail] += flow
                problem.nodes[head] -= flow
            plan = problem.solve()
            assert isinstance(plan, Plan)
            trees = Trees(Residual(plan))
            forest, ways = trees.forest, detours.Around(trees)
            for begin, end in forest.span:
                nodes = [node for node in forest.order[begin:end] if forest.parent[node] >= 0]
                for is_out in (True, False) if nodes else ():
                    one_by_one = {node: ways.detour(node, is_out) for node in nodes}
                    self.assertEqual(around.Search(ways, nodes, is_out).run(), one_by_one)
                    chosen = draws.sample(nodes, draws.randint(1, len(nodes)))
                    told = around.Search(ways, chosen, is_out).run()
                    self.assertEqual(told, {node: one_by_one[node] for node in chosen})
                    decided += len(nodes)
                    none += list(one_by_one.values()).count(None)
        print(f"ways around free arcs found together: {decided}, none around {none}")
        self.assertGreater(decided, 100)

    def test_only_some(self) -> None:
        draws = random.Random(8)
        for _ in range(20):
            problem = drawn(draws)
            with Session(problem) as session:
                told = ranges(session)
                chosen = draws.sample(range(len(problem.arcs)), draws.randint(0, len(problem.arcs)))
                self.assertEqual(ranges(session, chosen), [told[arc] for arc in chosen])
                self.assertEqual(cost_range(session, 0), told[0][2:4])
                self.assertEqual(one_unit_more(session), [found.saves for found in told])
                with self.assertRaises(KeyError):
                    ranges(session, ["nowhere"])

    def test_one_unit_more_without_a_plan(self) -> None:
        draws = random.Random(9)
        gains = 0
        for case in range(40):
            problem = drawn(draws, "min", case % 3)
            first, second = draws.sample(list(problem.nodes), 2)
            more = draws.randint(1, 20)
            problem.nodes[first] += more
            problem.nodes[second] -= more
            with Session(problem) as session:
                answer = session.plan()
                if isinstance(answer, Plan):
                    continue
                for number, (arc, less) in enumerate(zip(problem.arcs, one_unit_more(session))):
                    if arc.cap is None:
                        self.assertEqual(less, 0)
                        continue
                    anew = changed(problem, number, cap=arc.cap + 1).solve()
                    self.assertEqual(less, answer.shortage - (anew.shortage if isinstance(anew, Infeasible) else 0))
                    gains += less != 0
        self.assertGreater(gains, 5)

    def test_supply_prices(self) -> None:
        draws = random.Random(10)
        asked = {True: 0, False: 0}
        none = 0
        for case in range(2 * DRAWN):
            problem, surplus = of_any_kind(draws, (0, 3, 4, 5)[case % 4])
            try:
                session = Session(problem, surplus=surplus)
            except (Unbounded, BeyondLimits, Meaningless):
                continue
            with session:
                plan = session.plan()
                if isinstance(plan, Infeasible):
                    continue
                has_rest = Residual(plan).has_rest
                beside = None if has_rest else draws.choice(list(problem.nodes))
                told, judge = supply_prices(session, beside), Judge(session, plan)
                with judge.session:
                    for found in told:
                        for by, price in ((1, found.one_more), (-1, found.one_less)):
                            try:
                                anew = judge.with_supply(found.node, by, beside)
                            except (BeyondLimits, Unbounded, Meaningless, EditRefused):
                                continue
                            with self.subTest(case=case, node=found.node, by=by, beside=beside):
                                self.assertEqual(price, anew)
                            asked[has_rest] += 1
                            none += price is None
        print(f"prices of supplies as by solving anew: {asked[False]} beside a node, {asked[True]} beside the rest")
        self.assertGreater(min(none, *asked.values()), DRAWN / 2)

    def test_larger(self) -> None:
        """A network of hundreds of nodes: distances between trees as by a search that knows no balls."""
        draws = random.Random(11)
        problem = Problem()
        names = [f"n{number}" for number in range(400)]
        for name in names:
            problem.add_node(name)
        for _ in range(1600):
            tail, head = draws.sample(names, 2)
            problem.add_arc(tail, head, cap=draws.randint(1, 9), cost=draws.randint(1, 1000))
        for tail, head in zip(names, names[1:]):
            problem.add_arc(tail, head, cost=500)
        for _ in range(30):
            first, second = sorted(draws.sample(range(400), 2))
            problem.nodes[names[first]] += 1
            problem.nodes[names[second]] -= 1
        plan = problem.solve()
        assert isinstance(plan, Plan)
        trees = Trees(Residual(plan))
        count = len(trees.leaving)
        far = 10**9
        wanted = {start: {end: far for end in range(count) if end != start} for start in range(0, count, 7)}
        found = distances_between(trees, wanted, lambda more: None)
        for start, ends in found.items():
            whole = detours.ball_around(start, trees.leaving, count + 1)
            lengths = dict(zip(whole.trees, whole.distances))
            self.assertEqual(ends, {end: lengths.get(end, far) for end in ends})

    def test_minimum_cut(self) -> None:
        draws = random.Random(4)
        for _ in range(40):
            problem = drawn(draws, "max")
            plan = problem.solve()
            assert isinstance(plan, Plan)
            cut = minimum_cut(plan)
            self.assertEqual(cut.capacity, plan.cost)
            self.assertIn(problem.source, cut.source_side)
            self.assertIn(problem.sink, cut.sink_side)
            self.assertEqual(set(cut.source_side), {name for name, price in (plan.prices or {}).items() if price < 0})
            closed = problem.copy()
            for number in cut.arcs:
                closed.arcs[number] = closed.arcs[number]._replace(cap=Decimal(0))
            self.assertEqual(worth(closed), 0)

    def test_surplus(self) -> None:
        """What is kept or not met has a cost, which bounds what a unit more can save and the ranges."""
        problem = Problem()
        problem.add_node("farm", "7.5")
        problem.add_node("mill", -5)
        problem.add_arc("farm", "mill", cap=3, cost="1.5")
        problem.add_arc("farm", "mill", cost=4)
        with Session(problem, surplus="0.25") as session:
            self.assertEqual(one_unit_more(session), [Decimal("2.5"), 0])
            self.assertEqual(cost_range(session, 0), (None, 4))
            self.assertEqual(cost_range(session, 1), (Decimal("1.5"), None))
            farm, mill = supply_prices(session)
            self.assertEqual((farm.one_more, farm.one_less), (Decimal("0.25"), Decimal("-0.25")))
            self.assertEqual((mill.one_more, mill.one_less), (Decimal("-3.75"), Decimal("3.75")))

    def test_meaningless(self) -> None:
        with Session(pairs(random.Random(5))) as session:
            for ask in (lambda: one_unit_more(session), lambda: supply_prices(session, "row 0")):
                with self.assertRaises(Meaningless):
                    ask()
        problem = Problem()
        problem.add_node("a", 1)
        problem.add_node("b", -1)
        problem.add_arc("a", "b")
        with Session(problem) as session:
            with self.assertRaises(Meaningless):
                supply_prices(session)
            with self.assertRaises(KeyError):
                supply_prices(session, "c")
            session.set_supply("b", -2)
            for ask in (lambda: cost_range(session, 0), lambda: ranges(session), lambda: supply_prices(session, "a")):
                with self.assertRaises(Meaningless):
                    ask()
        with Session(problem, surplus="keep") as session:
            session.set_supply("b", -2)
            with self.assertRaises(Meaningless):
                supply_prices(session, "a")
        with self.assertRaises(Meaningless):
            minimum_cut(Plan(problem, [], Decimal(0)))

    def test_interrupted(self) -> None:
        """What `step` raises ends the work, and the session stays as it is."""
        problem = drawn(random.Random(12))

        def stop(done: int, total: int) -> None:
            raise TimeoutError

        with Session(problem) as session:
            before = session.cost
            with self.assertRaises(TimeoutError):
                ranges(session, step=stop)
            self.assertEqual(session.cost, before)

    def test_examples(self) -> None:
        for module in (sensitivity, residual, detours, around, ranging):
            self.assertEqual(doctest.testmod(module).failed, 0)


if __name__ == "__main__":
    unittest.main()
