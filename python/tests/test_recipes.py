"""The recipes of docs/RECIPES.md: each plan costs what the problem does when all its answers are tried, in its own words.

Nothing here knows of flows: so a recipe that said another problem than its text would be found.
"""

import csv
import itertools
import random
import unittest
from decimal import Decimal
from pathlib import Path
from typing import Dict, List, Optional, Sequence, Tuple

from mcf_plan import Infeasible, Plan, Problem
from mcf_plan.tables import read_tables

RECIPES = Path(__file__).resolve().parents[2] / "examples/recipes"
Shift = Tuple[int, int, int]
"""The first part of the day that a shift has, the first one after it, and its cost."""


def planned(recipe: str, *, kind: str = "min", surplus: Optional[str] = None) -> Decimal:
    """The cost of the plan of a recipe's tables."""
    nodes = RECIPES / recipe / "nodes.csv"
    problem = read_tables(nodes if nodes.exists() else None, RECIPES / recipe / "arcs.csv", kind=kind)
    answer = problem.solve(surplus=surplus) if surplus else problem.solve()
    assert isinstance(answer, Plan)
    return answer.cost


def rows(recipe: str) -> List[Dict[str, str]]:
    """The rows of a recipe's table of arcs."""
    with open(RECIPES / recipe / "arcs.csv", encoding="utf-8", newline="") as file:
        return list(csv.DictReader(file))


def staff_for_breaks(wanted: Sequence[int]) -> int:
    """How many have to be there where so many are wanted in each hour and each takes one hour off, as the page says."""
    return max(-(-sum(wanted) // (len(wanted) - 1)), *wanted)


def can_take_breaks(people: int, wanted: Sequence[int]) -> bool:
    """Whether so many people can each take one hour off, and enough stay in each hour: all ways are tried."""
    return any(
        sum(off) == people and all(people - away >= least for away, least in zip(off, wanted))
        for off in itertools.product(range(people + 1), repeat=len(wanted))
    )


class Recipes(unittest.TestCase):
    """Each recipe, with the numbers of its page."""

    def test_a_place_that_handles_only_so_much(self) -> None:
        """4 go north and 6 south, by the hub (at 2 + 0.5 and 1 or 1.5) or straight to the south (5); the hub takes 6."""
        costs = [4 * Decimal("3.5") + hub * Decimal(4) + (6 - hub) * Decimal(5) for hub in range(7) if 4 + hub <= 6]
        self.assertEqual(planned("hub"), min(costs))

    def test_costs_that_rise(self) -> None:
        """12 go north, some of them through the south at 3 + 4, the others at 4 up to 5, at 6 up to 10, then at 9."""
        costs = [
            sum(4 if unit < 5 else 6 if unit < 10 else 9 for unit in range(straight)) + (12 - straight) * 7 + 6 * 3
            for straight in range(13)
        ]
        self.assertEqual(planned("rising"), min(costs))

    def test_periods_with_stock(self) -> None:
        """Each way to make 230 in three months, 80 in each at most, and to carry over 40 at most at 0.5 each."""
        costs = []
        for january, february in itertools.product(range(81), repeat=2):
            march = 230 - january - february
            first = 10 + january - 60
            second = first + february - 90
            if march in range(81) and first in range(41) and second in range(41) and second + march == 90:
                costs.append(10 * january + 11 * february + 13 * march + Decimal("0.5") * (first + second))
        self.assertEqual(planned("months"), min(costs))

    def test_several_depots(self) -> None:
        """Kiel has 9 and Ulm 8, of which 5 can go to Jena; Bonn wants 6 and Jena 7."""
        costs = [
            5 * bonn + 4 * jena + Decimal("4.5") * (6 - bonn) + Decimal("3.5") * (7 - jena)
            for bonn, jena in itertools.product(range(7), range(8))
            if bonn + jena <= 9 and 13 - bonn - jena <= 8 and 7 - jena <= 5
        ]
        self.assertEqual(planned("depots", surplus="keep"), min(costs))

    def test_supply_at_a_price(self) -> None:
        """What Kiel and the market do not deliver of 6 and 12 loses 30 and 10 each."""
        costs = [
            2 * by_kiel[0] + 4 * by_kiel[1] + 7 * bought[0] + 11 * bought[1] + 30 * declined[0] + 10 * declined[1]
            for by_kiel in itertools.product(range(7), range(13))
            if sum(by_kiel) <= 9
            for bought in itertools.product(range(7 - by_kiel[0]), range(13 - by_kiel[1]))
            if sum(bought) <= 10
            for declined in [(6 - by_kiel[0] - bought[0], 12 - by_kiel[1] - bought[1])]
        ]
        self.assertEqual(planned("choice", surplus="keep"), min(costs))

    def test_what_has_to_be_done(self) -> None:
        """12 by rail (3 to 10), lorry (8) and barge (6)."""
        costs = [
            9 * rail + 7 * lorry + 4 * (12 - rail - lorry)
            for rail, lorry in itertools.product(range(3, 11), range(9))
            if 12 - rail - lorry in range(7)
        ]
        self.assertEqual(planned("contract"), min(costs))

    def test_the_fewest_vehicles(self) -> None:
        """Each order of the trips, cut where one cannot follow the one before it, is a number of vehicles."""
        trips = [
            (row["from"].split("-"), row["to"].split("-")) for row in rows("timetable") if row["name"][:4] == "trip"
        ]
        self.assertEqual(len(trips), 4)
        vehicles = min(
            1
            + sum(before[1][0] != after[0][0] or before[1][1] > after[0][1] for before, after in zip(order, order[1:]))
            for order in itertools.permutations(trips)
        )
        self.assertEqual(planned("timetable"), vehicles)

    def test_the_most_that_gets_through(self) -> None:
        """The narrowest of all sets of arcs without which nothing gets from Well to Town."""
        widths = [
            sum(int(row["capacity"]) for row in rows("pipes") if row["from"] in side and row["to"] not in side)
            for count in range(3)
            for side in map({"Well"}.union, itertools.combinations(["Hill", "Mill"], count))
        ]
        answer = read_tables(RECIPES / "pipes/nodes.csv", RECIPES / "pipes/arcs.csv").solve()
        assert isinstance(answer, Infeasible)
        self.assertEqual(9 - answer.shortage, min(widths))

    def test_the_shortest_way(self) -> None:
        """Each way from Home to Office, over the places between them in each order."""
        lengths = {(row["from"], row["to"]): Decimal(row["cost"]) for row in rows("path")}
        ways = [
            ["Home", *between, "Office"]
            for count in range(3)
            for between in itertools.permutations(["Bridge", "Market"], count)
        ]
        costs = [
            sum(lengths[leg] for leg in zip(way, way[1:])) for way in ways if set(zip(way, way[1:])) <= set(lengths)
        ]
        self.assertEqual(planned("path"), min(costs))

    def test_who_may_do_what(self) -> None:
        """Each way to give the shifts to the people."""
        costs = {(row["from"], row["to"]): int(row["cost"]) for row in rows("skills")}
        people, shifts = sorted({person for person, _ in costs}), sorted({shift for _, shift in costs})
        sums = [
            sum(costs[pair] for pair in zip(people, order))
            for order in itertools.permutations(shifts)
            if set(zip(people, order)) <= set(costs)
        ]
        self.assertEqual(planned("skills", kind="asn"), min(sums))


class Staff(unittest.TestCase):
    """The recipe for shifts and breaks, with the numbers of its page and with others."""

    def test_breaks(self) -> None:
        """As many as the page says can take their breaks, and one less cannot."""
        self.assertEqual(staff_for_breaks([4, 6, 4]), 7)
        draws = random.Random(11)
        for hours in [2, 3, 3, 4] * 5:
            wanted = [draws.randint(0, 5) for _ in range(hours)]
            people = staff_for_breaks(wanted)
            self.assertTrue(can_take_breaks(people, wanted), wanted)
            self.assertFalse(people > 0 and can_take_breaks(people - 1, wanted), wanted)

    def cheapest(self, wanted: Sequence[int], shifts: Sequence[Shift]) -> int:
        """The least cost of shifts that cover what is wanted in each part of the day: all numbers are tried."""
        costs = []
        for counts in itertools.product(range(max(wanted) + 1), repeat=len(shifts)):
            there = [0] * len(wanted)
            for count, (start, end, _) in zip(counts, shifts):
                for part in range(start, end):
                    there[part] += count
            if all(have >= least for have, least in zip(there, wanted)):
                costs.append(sum(count * cost for count, (_, _, cost) in zip(counts, shifts)))
        return min(costs)

    def flow(self, wanted: Sequence[int], shifts: Sequence[Shift]) -> Decimal:
        """The cost of the plan of the tables that the recipe makes."""
        problem = Problem()
        for time, (before, after) in enumerate(zip([0, *wanted], [*wanted, 0])):
            problem.add_node(f"{time}", after - before)
        for start, end, cost in shifts:
            problem.add_arc(f"{start}", f"{end}", cost=cost)
        for part in range(len(wanted)):
            problem.add_arc(f"{part + 1}", f"{part}", name=f"spare {part}")
        answer = problem.solve()
        assert isinstance(answer, Plan)
        return answer.cost

    def test_the_page(self) -> None:
        """The tables are those that the recipe makes of what is wanted, and cost the least."""
        times = ["06:00", "09:00", "11:00", "14:00", "17:00", "20:00"]
        shifts = [
            (times.index(row["from"]), times.index(row["to"]), int(row["cost"]))
            for row in rows("staff")
            if row["name"][:5] != "spare"
        ]
        wanted = [3, 4, staff_for_breaks([4, 6, 4]), 3, 4]
        self.assertEqual(planned("staff"), self.cheapest(wanted, shifts))
        self.assertEqual(planned("staff"), self.flow(wanted, shifts))

    def test_drawn(self) -> None:
        """Drawn wants and shifts."""
        draws = random.Random(7)
        for _ in range(12):
            wanted = [draws.randint(0, 4) for _ in range(draws.randint(1, 5))]
            shifts = [(part, part + 1, draws.randint(5, 9)) for part in range(len(wanted))][:3]
            shifts.append((0, len(wanted), draws.randint(5, 30)))
            shifts.append((draws.randrange(len(wanted)), len(wanted), draws.randint(3, 20)))
            self.assertEqual(self.flow(wanted, shifts), self.cheapest(wanted, shifts), (wanted, shifts))


if __name__ == "__main__":
    unittest.main()
