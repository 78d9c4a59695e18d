"""The numbers of a problem as whole numbers of a text's units, and what is beyond the formats' limits."""

from __future__ import annotations

from dataclasses import replace
from decimal import Decimal
from typing import Optional, Tuple

from .errors import BeyondLimits, DoesNotFit
from .formats import MOST_ARCS, MOST_COST, MOST_FLOW, MOST_NODES
from .meaning import Options, amounts_of, told
from .problem import ZERO, Arc, Problem, plain
from .units import Scale, places_of

Bounds = Tuple[int, Optional[int]]
"""Lower bound and capacity of an arc in the text's units; None is no limit."""


def is_large(bounds: Bounds) -> bool:
    """Whether an arc could carry more than one line of the text can."""
    return bounds[1] is None or bounds[1] - bounds[0] > MOST_FLOW


class Figures:
    """The numbers of a problem in the text's units: `amounts` and `money` are the scales of amounts and of costs.

    `lows`, `caps` (None is no limit) and `costs` are by the numbers of the arcs from 0. `supplies` are by the numbers
    of the nodes from 1 (entry 0 is 0), `total` is their sum, and `names` and `numbers` lead from the one to the other
    (the first name is at 0). `rest_cost` is what a unit that is kept or not met costs, 0 where there is none.
    """

    def __init__(self, problem: Problem, options: Options, amounts: Scale, money: Scale):
        self.problem = problem
        self.options = options
        self.amounts = amounts
        self.money = money
        arcs = problem.arcs
        self.names = list(problem.nodes)
        self.numbers = {name: number for number, name in enumerate(self.names, 1)}
        self.lows = amounts.wholes(arc.low for arc in arcs)
        self.caps = amounts.wholes_or_none(arc.cap for arc in arcs)
        self.costs = [0] * len(arcs) if options.without_costs else money.wholes(arc.cost for arc in arcs)
        self.supplies = [0, *amounts.wholes(problem.nodes.values())]
        self.total = sum(self.supplies)
        self.rest_cost = self.cost_of(options.rest_cost() or ZERO)

    @classmethod
    def of(cls, problem: Problem, options: Options) -> Figures:
        """The numbers in the largest units that make all of them whole. Raises BeyondLimits where a cost is too great
        or too fine."""
        arcs = problem.arcs
        amounts = amounts_of(problem)
        if options.without_costs:
            return cls(problem, options, amounts, Scale(0))
        rest_cost = options.rest_cost() or ZERO
        money = Scale.of((arc.cost for arc in arcs), (rest_cost,))
        greatest = max((abs(arc.cost) for arc in arcs), default=ZERO)
        if max(greatest, abs(rest_cost)) * money.units > MOST_COST:
            raise _too_fine_costs(problem, rest_cost, money)
        return cls(problem, options, amounts, money)

    def anew(self) -> Figures:
        """The numbers of the problem as it stands now, in the same units."""
        return Figures(self.problem, self.options, self.amounts, self.money)

    def without_costs(self) -> Figures:
        """The same amounts, and all costs 0."""
        return Figures(self.problem, replace(self.options, without_costs=True), self.amounts, Scale(0))

    def bounds(self, number: int) -> Bounds:
        """The bounds of an arc."""
        return self.lows[number], self.caps[number]

    def bounds_of(self, arc: Arc) -> Bounds:
        """The bounds of a row of the tables. Raises DoesNotFit where they are no whole numbers."""
        return self.amounts.whole(arc.low), None if arc.cap is None else self.amounts.whole(arc.cap)

    def cost_of(self, cost: Decimal) -> int:
        """A cost of the tables. Raises DoesNotFit where it is no whole number, or beyond the limits."""
        if self.options.without_costs:
            return 0
        result = self.money.whole(cost)
        if abs(result) > MOST_COST:
            raise DoesNotFit
        return result


def _too_fine_costs(problem: Problem, rest_cost: Decimal, money: Scale) -> BeyondLimits:
    """Says which cost is too great, or too fine beside which other one."""
    costs = [(arc.cost, told(number, arc)) for number, arc in enumerate(problem.arcs)]
    costs.append((rest_cost, "what is kept or not met"))
    greatest, where = max(costs, key=lambda row: abs(row[0]))
    greatest = abs(greatest)
    if greatest > MOST_COST:
        return BeyondLimits(
            f"{where}: the cost {plain(greatest)} is above {MOST_COST:,}, the greatest there is: take a "
            "larger unit of money for all costs"
        )
    finest, at = next((cost, words) for cost, words in costs if places_of([cost]) == money.places)
    places = next(p for p in range(money.places, -1, -1) if greatest * Decimal(10) ** p <= MOST_COST)
    beside = "by itself" if at == where else f"beside {plain(greatest)} of {where}"
    return BeyondLimits(f"{at}: the cost {plain(finest)} is too fine {beside}; {_finest_step(places)}")


def _finest_step(places: int) -> str:
    """What to do where numbers are too fine."""
    return (
        f"the finest step that would do is {plain(Decimal(10) ** -places)}: `--round {places}`, or in Python "
        f"`decimals={places}`, rounds all numbers to it"
    )


def too_large(figures: Figures) -> BeyondLimits:
    """Says what makes a text larger than the limits."""
    problem, amounts = figures.problem, figures.amounts
    nodes, arcs = len(problem.nodes), len(problem.arcs)
    if nodes > MOST_NODES:
        return BeyondLimits(f"there are {nodes:,} nodes, and at most {MOST_NODES:,} are taken")
    if arcs > MOST_ARCS:
        return BeyondLimits(f"there are {arcs:,} arcs, and at most {MOST_ARCS:,} are taken")
    rows = [
        (abs(bound), f"{told(number, arc)}: its bound")
        for number, arc in enumerate(problem.arcs)
        for bound in (arc.low, arc.cap)
        if bound is not None
    ]
    rows += [(abs(supply), f"node {name}: its supply") for name, supply in problem.nodes.items()]
    greatest, where = max(rows, key=lambda row: row[0])
    if amounts.places and greatest * amounts.units > MOST_FLOW:
        finest, at = next((number, words) for number, words in rows if places_of([number]) == amounts.places)
        places = next((p for p in range(amounts.places, -1, -1) if greatest * Decimal(10) ** p <= MOST_FLOW), 0)
        beside = "by itself" if finest == greatest else f"beside {plain(greatest)} ({where})"
        return BeyondLimits(f"{at} {plain(finest)} is too fine {beside}; {_finest_step(places)}")
    if greatest * amounts.units > MOST_FLOW:
        return BeyondLimits(
            f"{where} {plain(greatest)} is too great: it takes arcs of {MOST_FLOW:,} each, and in all "
            f"there may be {MOST_ARCS:,}; take a larger unit for all amounts"
        )
    return BeyondLimits(
        f"there are {arcs:,} arcs and {nodes:,} nodes, and with those for what is kept or not met, and "
        f"for arcs without a capacity, more than the {MOST_ARCS:,} arcs that are taken: give the arcs "
        "capacities"
    )
