"""Why there is no plan, in words and numbers: both sides of the cut, and Hall's set of an assignment by name."""

from __future__ import annotations

from decimal import Decimal
from typing import TYPE_CHECKING, List, Optional

from .plan import Crossing, RestArc
from .problem import Arc, plain, total_of

if TYPE_CHECKING:
    from .plan import Infeasible

MOST_TOLD = 12
"""So many names and arcs are told; the others are counted."""


def explain(infeasible: Infeasible) -> str:
    """Several lines: what is short, on this side and on the other, and the arcs between them.

    >>> from mcf_plan import Problem
    >>> problem = Problem()
    >>> problem.add_node("mine", 4)
    >>> problem.add_node("works", -4)
    >>> problem.add_arc("mine", "works", cap=3)
    0
    >>> print(explain(problem.solve()))
    There is no plan: 1 too many at mine.
    mine supplies 4, and at most 3 can leave:
      mine to works: at most 3
    Seen from the other side: works demands 4, and at most 3 can come in.
    What would help: 1 more capacity there, or 1 less supply and demand.
    """
    crossing = infeasible.crossing()
    is_too_much = crossing.too_much == infeasible.shortage
    if infeasible.problem.kind == "asn" and not infeasible.rest_in_cut:
        hall = _hall(infeasible, is_too_much)
        if hall:
            return hall
    inside = [name for name in infeasible.problem.nodes if name in infeasible.cut]
    outside = [name for name in infeasible.problem.nodes if name not in infeasible.cut]
    if not (inside if infeasible.rest_in_cut else outside):
        return _whole_network(infeasible)
    if infeasible.rest_in_cut:
        # The side without the rest is told: what is too much on one side is too little on the other.
        told = _Side(infeasible, crossing, outside, False)
        return "\n".join([*told.lines(not is_too_much), _help(infeasible, told, not is_too_much)])
    side = _Side(infeasible, crossing, inside, True)
    lines = side.lines(is_too_much)
    other = _Side(infeasible, crossing, outside, False)
    if infeasible.rest_cost is None and side.supply + other.supply == 0:
        lines.append(f"Seen from the other side: {other.sentence(not is_too_much)}.")
    lines.append(_help(infeasible, side, is_too_much))
    return "\n".join(lines)


class _Side:
    """One side of a cut in words. What leaves the cut comes in on the other side."""

    def __init__(self, infeasible: Infeasible, crossing: Crossing, names: List[str], is_cut: bool):
        problem = infeasible.problem
        self.names = names
        self.arcs = problem.arcs
        self.shortage = infeasible.shortage
        self.supply = total_of(problem.nodes[name] for name in names)
        self.supplying = [name for name in names if problem.nodes[name] > 0]
        self.demanding = [name for name in names if problem.nodes[name] < 0]
        self.amounts = problem.nodes
        if is_cut:
            self.leaving, self.entering = crossing.leaving, crossing.entering
            self.rest_leaving, self.rest_entering = crossing.rest_leaving, crossing.rest_entering
            self.out_most, self.out_least = crossing.out_most, crossing.out_least
            self.in_most, self.in_least = crossing.in_most, crossing.in_least
        else:
            self.leaving, self.entering = crossing.entering, crossing.leaving
            self.rest_leaving, self.rest_entering = crossing.rest_entering, crossing.rest_leaving
            self.out_most, self.out_least = crossing.in_most, crossing.in_least
            self.in_most, self.in_least = crossing.out_most, crossing.out_least

    def lines(self, is_too_much: bool) -> List[str]:
        """What is too much here, or too little, with the arcs that set the limit."""
        what = "many" if is_too_much else "few"
        lines = [
            f"There is no plan: {plain(self.shortage)} too {what} at {names_in_words(self.names)}.",
            self.sentence(is_too_much),
        ]
        limiting, rest = (self.leaving, self.rest_leaving) if is_too_much else (self.entering, self.rest_entering)
        forcing = self.entering if is_too_much else self.leaving
        details = [f"  {_label(self.arcs, k)}: at most {_limit(self.arcs[k].cap)}" for k in limiting]
        details += [
            f"  {'kept' if arc.is_kept else 'not met'} at {arc.name}: at most {_limit(arc.cap)}" for arc in rest
        ]
        details += [
            f"  {_label(self.arcs, k)}: at least {plain(self.arcs[k].low)}" for k in forcing if self.arcs[k].low
        ]
        if details:
            lines[-1] += ":"
            lines += details[:MOST_TOLD]
            if len(details) > MOST_TOLD:
                lines.append(f"  and {len(details) - MOST_TOLD} more")
        else:
            lines[-1] += "."
        return lines

    def sentence(self, is_too_much: bool) -> str:
        """What these nodes supply or demand, and what can and must go over their border."""
        parts = [self._amounts()]
        if is_too_much:
            if self.in_least:
                parts.append(f"at least {plain(self.in_least)} must come in")
            parts.append(self._most(self.out_most, self.leaving, self.rest_leaving, "leave", "leads out"))
        else:
            if self.out_least:
                parts.append(f"at least {plain(self.out_least)} must leave")
            parts.append(self._most(self.in_most, self.entering, self.rest_entering, "come in", "leads in"))
        return ", ".join(parts[:-1]) + ", and " + parts[-1]

    def _amounts(self) -> str:
        """What the nodes supply and demand together."""
        supplied = total_of(self.amounts[name] for name in self.supplying)
        demanded = -total_of(self.amounts[name] for name in self.demanding)
        who = names_in_words(self.names)
        many = len(self.names) != 1
        if supplied and demanded:
            return f"{who} {'supply' if many else 'supplies'} {plain(supplied)} and demand {plain(demanded)}"
        if demanded:
            return f"{who} {'demand' if many else 'demands'} {plain(demanded)}"
        return f"{who} {'supply' if many else 'supplies'} {plain(supplied)}"

    @staticmethod
    def _most(most: Optional[Decimal], arcs: List[int], rest: List[RestArc], verb: str, lead: str) -> str:
        if not arcs and not rest:
            return f"no arc {lead}"
        return f"at most {_limit(most)} can {verb}"


def _help(infeasible: Infeasible, side: _Side, is_too_much: bool) -> str:
    """What would take the shortage away."""
    short = plain(infeasible.shortage)
    limiting, forcing = (side.leaving, side.entering) if is_too_much else (side.entering, side.leaving)
    ways = [
        f"{short} more capacity there"
        if limiting
        else f"an arc that {'leads out' if is_too_much else 'leads in'}, for {short}"
    ]
    if any(infeasible.problem.arcs[k].low for k in forcing):
        ways.append(f"lower bounds that are {short} lower")
    if side.supplying if is_too_much else side.demanding:
        balanced = (
            infeasible.rest_cost is None
            and total_of(infeasible.problem.nodes.values()) == 0
            and infeasible.problem.balance == "equal"
        )
        what = "supply" if is_too_much else "demand"
        ways.append(f"{short} less supply and demand" if balanced else f"{short} less {what} here")
    return f"What would help: {', '.join(ways[:-1])}{', or ' if len(ways) > 1 else ''}{ways[-1]}."


def _whole_network(infeasible: Infeasible) -> str:
    """Where nothing but the balance of supplies and demands is wrong."""
    supplied = total_of(supply for supply in infeasible.problem.nodes.values() if supply > 0)
    demanded = -total_of(supply for supply in infeasible.problem.nodes.values() if supply < 0)
    if supplied > demanded:
        many = f"{plain(supplied - demanded)} {'is' if supplied - demanded == 1 else 'are'} too many"
        rest = "stays where it is"
    else:
        many = f"{plain(demanded - supplied)} {'is' if demanded - supplied == 1 else 'are'} not there"
        rest = "is not met"
    words = f"There is no plan: all nodes together supply {plain(supplied)} and demand {plain(demanded)}, so {many}."
    if supplied and not demanded:
        words += "\nWhat would help: a demand, which is a supply below 0: is a minus sign missing?"
    elif infeasible.rest_cost is None and infeasible.problem.balance == "equal":
        words += f'\nWhat would help: `--surplus keep` (in Python `surplus="keep"`), by which the rest {rest}.'
    return words


def _hall(infeasible: Infeasible, is_too_much: bool) -> str:
    """Hall's set: nodes of one side that have too few of the other between them. Empty where the cut shows none."""
    problem = infeasible.problem
    side = 1 if is_too_much else -1
    crowd = [name for name, supply in problem.nodes.items() if supply == side and name in infeasible.cut]
    members = set(crowd)
    partners = {
        (arc.head if is_too_much else arc.tail)
        for arc in problem.arcs
        if arc.cap and (arc.tail if is_too_much else arc.head) in members
    }
    short = len(crowd) - len(partners)
    if short <= 0:
        return ""
    who = names_in_words(crowd)
    without = f"{short} of them {'stays' if short == 1 else 'stay'} without" if len(crowd) > 1 else "it stays without"
    if not partners:
        have = "has no partner" if len(crowd) == 1 else "have no partner at all"
        return f"There is no assignment: {who} {have}."
    ordered = [name for name in problem.nodes if name in partners]
    between = f"these {len(ordered)}" if len(ordered) > 1 else "this one"
    count = f"these {len(crowd)} nodes have {between} alone between them, so {without}"
    return (
        f"There is no assignment: {count}.\n"
        f"  {', '.join(_told(crowd))}\n"
        f"  {'has' if len(crowd) == 1 else 'have'} {', '.join(_told(ordered))} alone"
    )


def names_in_words(names: List[str]) -> str:
    """Names as people say them.

    >>> names_in_words(["a", "b", "c"]), names_in_words(["a"]), names_in_words([])
    ('a, b and c', 'a', 'no node')
    """
    told = _told(names)
    if not told:
        return "no node"
    return told[0] if len(told) == 1 else ", ".join(told[:-1]) + " and " + told[-1]


def _told(names: List[str]) -> List[str]:
    told = [str(name) for name in names[:MOST_TOLD]]
    return told + ([f"{len(names) - MOST_TOLD} more"] if len(names) > MOST_TOLD else [])


def _label(arcs: List[Arc], number: int) -> str:
    arc = arcs[number]
    return f"{arc.name} ({arc.tail} to {arc.head})" if arc.name else f"{arc.tail} to {arc.head}"


def _limit(number: Optional[Decimal]) -> str:
    return "any amount" if number is None else plain(number)
