"""Drawn tables and what networkx says of them."""

import os
from decimal import Decimal

from mcf_plan import Problem

DRAWN = int(os.environ.get("MCF_PLAN_DRAWN", "100"))


def draw(chance):
    """A drawn problem of least cost: decimals, surplus, missing capacities, infeasible ones, lower bounds of all signs,
    numbers beyond the limits of the formats."""
    flow_places, cost_places = chance.choice([0, 0, 1, 2]), chance.choice([0, 0, 1, 3])
    size = chance.choice([1, 1, 1, 1, 1000, 10**9])

    def amount(least, most):
        return Decimal(chance.randint(least * 10**flow_places, most * 10**flow_places)).scaleb(-flow_places) * size

    def cost(least, most):
        return Decimal(chance.randint(least * 10**cost_places, most * 10**cost_places)).scaleb(-cost_places)

    problem = Problem(balance=chance.choice(["equal"] * 6 + ["at most", "at least"]))
    names = [f"town {number}" for number in range(chance.randint(2, 9))]
    supplies = dict.fromkeys(names, Decimal(0))
    for _ in range(chance.randint(1, 3)):
        giver, taker = chance.choice(names), chance.choice(names)
        moved = amount(0, 9)
        supplies[giver] += moved
        supplies[taker] -= moved
    if chance.random() < 0.3:
        supplies[chance.choice(names)] += amount(-5, 5)
    for name, supply in supplies.items():
        problem.add_node(name, supply)
    has_gains, has_lows = chance.random() < 0.3, chance.random() < 0.3
    for _ in range(chance.randint(len(names), 4 * len(names))):
        low = amount(-4, 4) if has_lows and chance.random() < 0.3 else Decimal(0)
        cap = None if chance.random() < 0.25 else max(low, Decimal(0)) + amount(0, 25)
        problem.add_arc(
            chance.choice(names), chance.choice(names), low=low, cap=cap, cost=cost(-5 if has_gains else 0, 20)
        )
    return problem


def by_networkx(problem, surplus="refuse"):
    """The cost that networkx finds, None where there is no plan, 'unbounded' where there is no best one."""
    import networkx

    units = 1000
    total = int(sum(problem.nodes.values()) * units)
    supplies = {name: int(supply * units) for name, supply in problem.nodes.items()}
    fixed, edges, is_unbounded = 0, [], False
    for arc in problem.arcs:
        low, cost = int(arc.low * units), int(arc.cost * units)
        supplies[arc.tail] -= low
        supplies[arc.head] += low
        fixed += low * cost
        edges.append((arc.tail, arc.head, None if arc.cap is None else int(arc.cap * units) - low, cost))
    if problem.balance != "equal":
        edges += [
            (name, "", None, 0) if problem.balance == "at most" else ("", name, None, 0) for name in problem.nodes
        ]
        supplies[""] = -total
    elif surplus != "refuse" and total:
        price = 0 if surplus == "keep" else int(Decimal(surplus) * units)
        for name, supply in problem.nodes.items():
            if supply and (supply > 0) == (total > 0):
                ends = (name, "") if total > 0 else ("", name)
                edges.append((*ends, int(abs(supply) * units), price))
        supplies[""] = -total
    graph = networkx.MultiDiGraph()
    for name, supply in supplies.items():
        graph.add_node(name, demand=-supply)
    for tail, head, cap, cost in edges:
        if tail == head:
            is_unbounded |= cost < 0 and cap is None
            fixed += min(0, cost) * (cap or 0)
        elif cap is None:
            graph.add_edge(tail, head, weight=cost)
        else:
            graph.add_edge(tail, head, weight=cost, capacity=cap)
    try:
        cost, _ = networkx.network_simplex(graph)
    except networkx.NetworkXUnfeasible:
        return None
    except networkx.NetworkXUnbounded:
        return "unbounded"
    return "unbounded" if is_unbounded else Decimal(cost + fixed) / units**2
