"""What a plan depends on: what one unit more saves, within which costs and capacities the plan stays best, what one unit
more or less of a supply costs, and the minimum cut of a maximum flow.

All of it is exact, and found by shortest ways over the residual network of the plan, from the prices that come with it
and show that it is best; nothing is solved anew. Only where amounts have decimals, a whole unit is more than the least
step, and no step of it saves more, or costs less, than the first. So if a whole unit can go along a way that is as short
as that of the first step, each step saves or costs the same. Where none can, what a unit saves or costs is found by
solving anew, through a session of its own beside the one that is asked about.

>>> from mcf_plan import Problem, Session
>>> problem = Problem()
>>> problem.add_node("depot", 4)
>>> problem.add_node("shop", -4)
>>> road, ferry = (problem.add_arc("depot", "shop", cap=cap, cost=cost) for cap, cost in ((3, "2.5"), (None, "3.75")))
>>> with Session(problem) as session:
...     one_unit_more(session)
...     cost_range(session, road)
...     supply_prices(session, "depot")[1].one_less
[Decimal('1.25'), Decimal('0')]
(None, Decimal('3.75'))
Decimal('3.75')
"""

from __future__ import annotations

from decimal import Decimal
from typing import Iterable, List, NamedTuple, Optional, Tuple, Union

from .cuts import Cut as Cut
from .cuts import minimum_cut as minimum_cut
from .plan import Infeasible, Plan
from .problem import WIDE, ZERO, ArcKey
from .ranging import Ends, Step, adding_arcs, first_prices, no_step
from .residual import Residual
from .rewrite import Meaningless
from .session import Session
from .sweep import What, set_number

Limits = Tuple[Optional[Decimal], Optional[Decimal]]
"""The least and the greatest value; None where there is no end."""


class Ranges(NamedTuple):
    """An arc's sensitivity. `arc` is its number.

    `saves` is what one unit more of its capacity saves (0 in `asn`); in `max` how much more flows. Between `least_cost`
    and `greatest_cost` the plan as it stands stays best, the other numbers as they are (no ends in `max`). Between
    `least_cap`, which is what the arc carries, and `greatest_cap` it does likewise (no ends in `asn`); beyond that, more
    capacity makes another plan better. None is no end.
    """

    arc: int
    saves: Decimal
    least_cost: Optional[Decimal]
    greatest_cost: Optional[Decimal]
    least_cap: Optional[Decimal]
    greatest_cap: Optional[Decimal]


class SupplyPrice(NamedTuple):
    """What one unit more of supply at a node costs, and one unit less, which is one more of demand; below 0 it saves.

    None where there would be no plan.
    """

    node: str
    one_more: Optional[Decimal]
    one_less: Optional[Decimal]


def one_unit_more(session: Session, step: Step = no_step) -> List[Decimal]:
    """For each arc what one unit more of its capacity saves; in `max` how much more flows.

    Where there is no plan: how much less is missing then. Raises Meaningless for `asn`, which has no capacities.
    """
    problem = session.problem
    if problem.kind == "asn":
        raise Meaningless("an assignment has no capacities")
    answer = session.plan()
    if isinstance(answer, Infeasible):
        return _lessened(session, answer, step)
    arcs = list(range(len(problem.arcs)))
    residual = Residual(answer)
    return _savings(session, answer, residual, (arcs, _first_savings(answer, residual, arcs, step)), step)


def cost_range(session: Session, arc: ArcKey) -> Limits:
    """Between which costs of an arc the plan as it stands stays best, the other numbers as they are.

    Raises Meaningless for `max`, which has no costs, and where there is no plan.
    """
    if session.problem.kind == "max":
        raise Meaningless("a maximum flow has no costs")
    found = ranges(session, [arc])[0]
    return found.least_cost, found.greatest_cost


def ranges(
    session: Session,
    only: Optional[Iterable[ArcKey]] = None,
    *,
    step: Step = no_step,
    plan: Union[Plan, Infeasible, None] = None,
) -> List[Ranges]:
    """The sensitivity of all arcs, or of those in `only`.

    `step` is told how much of how much is done. `plan` is the session's plan as it stands, where it is there already.
    Raises Meaningless where there is no plan, KeyError where an arc is unknown.
    """
    problem, plan = session.problem, plan or session.plan()
    arcs = list(range(len(problem.arcs))) if only is None else [problem.find_arc(arc) for arc in only]
    if isinstance(plan, Infeasible):
        raise Meaningless("there is no plan, so it has no ranges")
    residual = Residual(plan)
    if problem.kind == "max":
        limits: List[Limits] = [(None, None)] * len(arcs)
        firsts = _first_savings(plan, residual, arcs, step)
    else:
        ends = Ends(residual, arcs, step=step)
        price = residual.price_or_none
        limits = [(price(ends.least_cost(arc)), price(ends.greatest_cost(arc))) for arc in arcs]
        firsts = [ends.saving(arc) for arc in arcs]
    if problem.kind == "asn":
        return [Ranges(arc, ZERO, *costs, None, None) for arc, costs in zip(arcs, limits)]
    savings = _savings(session, plan, residual, (arcs, firsts), step)
    return [
        Ranges(arc, saves, *costs, plan.flows[arc], problem.arcs[arc].cap if first else None)
        for arc, saves, costs, first in zip(arcs, savings, limits, firsts)
    ]


def supply_prices(
    session: Session,
    beside: Optional[str] = None,
    *,
    step: Step = no_step,
    plan: Union[Plan, Infeasible, None] = None,
) -> List[SupplyPrice]:
    """For each node what one unit more of supply there costs, and one unit less.

    The supply of the node `beside` changes by as much the other way, so that all supplies add up to 0 as before. Where
    what is too much or too little is kept or not met, it is left out: that takes up the change, and no other supply
    changes. `step` and `plan` are as in `ranges`. Raises KeyError where there is no such node; Meaningless where there
    is no plan, for kinds other than `min`, and where `beside` is missing or too many.
    """
    problem, plan = session.problem, plan or session.plan()
    if problem.kind != "min":
        raise Meaningless(f"a problem of kind '{problem.kind}' has no supplies to change")
    if isinstance(plan, Infeasible):
        raise Meaningless("there is no plan, so its supplies have no prices")
    if beside is not None and beside not in problem.nodes:
        raise KeyError(f"there is no node {beside}")
    residual = Residual(plan)
    if residual.has_rest and beside is not None:
        raise Meaningless(f"what is kept or not met takes up each change, so the supply of {beside} can't do so too")
    if not residual.has_rest and beside is None:
        raise Meaningless(
            "all supplies together have to be 0: say at which node the supply changes the other way, by `--beside NODE` "
            "(in Python `beside=`)"
        )
    to = residual.rest if beside is None else residual.numbers[beside]
    firsts = list(first_prices(plan, residual, to))
    price = residual.price_or_none
    prices = [SupplyPrice(name, price(more), price(less)) for name, (more, less) in zip(problem.nodes, firsts)]
    if residual.amounts == 1:
        return prices
    # Where a supply bounds what is kept or not met, a whole unit may change that bound otherwise than its first step.
    is_bounded = residual.has_rest and problem.balance == "equal"
    wholes = [(None, None)] * len(firsts) if is_bounded else first_prices(plan, residual.of_whole_units(), to)
    return _whole_prices(session, beside, list(zip(prices, firsts, wholes)), step)


# ---------------------------------------------------------------- what one unit more saves


def _first_savings(plan: Plan, residual: Residual, arcs: List[int], step: Step) -> List[int]:
    """What the least step more of capacity saves, or adds, on each of these arcs, in the residual network's units."""
    if plan.problem.kind == "max":
        adds = adding_arcs(plan, residual)
        return [int(adds[arc]) for arc in arcs]
    ends = Ends(residual, arcs, with_costs=False, step=step)
    return [ends.saving(arc) for arc in arcs]


def _savings(
    session: Session, plan: Plan, residual: Residual, firsts: Tuple[List[int], List[int]], step: Step
) -> List[Decimal]:
    """What a whole unit more of capacity saves, or adds, on some arcs, where the least step more saves so much."""
    arcs, steps = firsts
    is_max = plan.problem.kind == "max"
    found = [Decimal(first) if is_max else residual.price(first) for first in steps]
    if residual.amounts == 1:
        return found
    asked = [place for place, first in enumerate(steps) if first]
    wholes = _first_savings(plan, residual.of_whole_units(), [arcs[place] for place in asked], step)
    asked = [place for place, whole in zip(asked, wholes) if whole != steps[place]]
    if not asked:
        return found
    with session.beside() as beside:
        for done, place in enumerate(asked):
            step(done, len(asked))
            cap = plan.problem.arcs[arcs[place]].cap
            assert cap is not None
            after = beside.set_cap(arcs[place], WIDE.add(cap, Decimal(1)))
            assert after is not None
            found[place] = WIDE.subtract(after, plan.cost) if is_max else WIDE.subtract(plan.cost, after)
            beside.undo()
    return found


def _lessened(session: Session, answer: Infeasible, step: Step) -> List[Decimal]:
    """How much less is missing with one unit more of capacity on each arc. Only arcs over the border of the cut are
    asked about: for others the same cut holds with more capacity."""
    arcs = answer.problem.arcs
    found = [ZERO] * len(arcs)
    asked = [
        number
        for number, arc in enumerate(arcs)
        if arc.cap is not None and (arc.tail in answer.cut) != (arc.head in answer.cut)
    ]
    with session.beside() as beside:
        for done, number in enumerate(asked):
            step(done, len(asked))
            beside.set_cap(number, WIDE.add(arcs[number].cap or ZERO, Decimal(1)))
            found[number] = WIDE.subtract(answer.shortage, beside.shortage or ZERO)
            beside.undo()
    return found


# ---------------------------------------------------------------- what one unit more of supply costs


Steps = Tuple[Optional[int], Optional[int]]
"""What the least step more of a supply costs, and the least step less."""


def _whole_prices(
    session: Session, beside: Optional[str], told: List[Tuple[SupplyPrice, Steps, Steps]], step: Step
) -> List[SupplyPrice]:
    """What a whole unit more of supply costs, and one less, by the prices that the least steps have, and those that
    steps have along which a whole unit can go. None where not even the least step has a plan."""
    asked = [firsts != wholes for _, firsts, wholes in told]
    prices = [price for price, _, _ in told]
    if not any(asked):
        return prices
    with session.beside() as other:
        for place in (place for place, is_asked in enumerate(asked) if is_asked and prices[place].node != beside):
            step(place, len(told))
            name, *firsts = prices[place]
            more, less = (
                None if first is None else _price_anew(other, name, beside, by)
                for by, first in zip((Decimal(1), Decimal(-1)), firsts)
            )
            prices[place] = SupplyPrice(name, more, less)
    return prices


def _price_anew(other: Session, name: str, beside: Optional[str], by: Decimal) -> Optional[Decimal]:
    """What it costs that a supply changes by so much, found by solving anew; None where there is no plan then."""
    before = other.cost
    assert before is not None
    what: What = ("supply", name) if beside is None else ("supply", name, beside)
    after = set_number(other, what, WIDE.add(other.problem.nodes[name], by))
    other.undo()
    return None if after is None else WIDE.subtract(after, before)
