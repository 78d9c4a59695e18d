"""Plans as frames of pandas."""

from __future__ import annotations

from decimal import Decimal
from typing import TYPE_CHECKING, Any, Dict, List, Optional, Sequence

from .problem import WIDE

if TYPE_CHECKING:
    from .plan import Plan

MOST_INTEGER = 2**63 - 1
"""The greatest whole number of a column of int64."""


def arc_frame(plan: Plan) -> Any:
    """A frame with a row for each arc, in the order of `problem.arcs`: see `Plan.to_frame`."""
    import pandas

    arcs = plan.problem.arcs
    names = [arc.name for arc in arcs]
    is_named = bool(arcs) and all(names) and len(set(names)) == len(names)
    columns: Dict[str, Any] = {"from": [arc.tail for arc in arcs], "to": [arc.head for arc in arcs]}
    if any(names) and not is_named:
        columns["name"] = names
    columns["low"] = numbers([arc.low for arc in arcs])
    columns["capacity"] = numbers([arc.cap for arc in arcs])
    columns["unit cost"] = numbers([arc.cost for arc in arcs])
    columns["flow"] = numbers(plan.flows)
    columns["cost"] = numbers([WIDE.multiply(flow, arc.cost) for arc, flow in zip(arcs, plan.flows)])
    columns["is full"] = [plan.is_full(arc) for arc in range(len(arcs))]
    if plan.prices is not None:
        columns["one more costs"] = numbers([plan.reduced_cost(arc) for arc in range(len(arcs))])
    return pandas.DataFrame(columns, index=pandas.Index(names if is_named else range(len(arcs)), name="arc"))


def node_frame(plan: Plan) -> Any:
    """A frame with a row for each node: see `Plan.nodes_to_frame`."""
    import pandas

    nodes = plan.problem.nodes
    columns: Dict[str, Any] = {"supply": numbers(list(nodes.values()))}
    for what, rest in (("kept", plan.kept), ("not met", plan.not_met)):
        if rest:
            columns[what] = numbers([rest.get(name, Decimal(0)) for name in nodes])
    if plan.prices is not None:
        columns["price"] = numbers([plan.prices[name] for name in nodes])
    return pandas.DataFrame(columns, index=pandas.Index(list(nodes), name="node"))


def numbers(column: Sequence[Optional[Decimal]]) -> Any:
    """A column of exact numbers: whole ones as int64, else floats where each is the very number that it is printed as,
    else the decimals themselves. None, which is no limit, is an infinite float."""
    import pandas

    if all(number is not None and number == int(number) and abs(number) <= MOST_INTEGER for number in column):
        return pandas.array([int(number) for number in column if number is not None], dtype="int64")
    floats: List[float] = [float("inf") if number is None else float(number) for number in column]
    if all(number is None or number == Decimal(repr(value)) for number, value in zip(column, floats)):
        return pandas.array(floats, dtype="float64")
    return [Decimal("Infinity") if number is None else number for number in column]
