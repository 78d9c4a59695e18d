#!/usr/bin/env python3
"""Writes a network problem in a DIMACS format, the same for the same arguments, and with a legal flow."""

import argparse
import math
import os
import random
import sys
from typing import Callable, Dict, Iterable, Iterator, Tuple

# Name of a size: nodes, arcs.
SIZES = {
    "small": (200, 2_000),
    "middle": (3_000, 25_000),
    "roomy": (10_000, 80_000),
    "large": (10_000, 100_000),
    "wide": (50_000, 100_000),
}
# What sizes are divided by, so that a test sees a command run and end soon; the least that each shape is made of.
SHRINK = int(os.environ.get("BENCH_SHRINK", "1"))
LEAST_NODES, LEAST_ARCS = 20, 200

# What each unit of a plan may cost: few numbers, so that many paths cost the same.
MAKE_COSTS, CARRY_COST, STORE_COST = (10, 20, 40), 5, 1


class MinProblem:
    """A minimum-cost flow problem that is built around a flow that it admits."""

    def __init__(self, nodes):
        self.supplies = [0] * (nodes + 1)
        self.arcs = []

    def add(self, tail, head, low, cap, cost):
        self.arcs.append((tail, head, low, cap, cost))

    def ship(self, origin, target, amount):
        """Has `amount` more leave `origin` and reach `target`; the caller adds arcs that can carry it."""
        self.supplies[origin] += amount
        self.supplies[target] -= amount

    def lines(self):
        yield f"p min {len(self.supplies) - 1} {len(self.arcs)}"
        for node, supply in enumerate(self.supplies):
            if supply != 0:
                yield f"n {node} {supply}"
        for arc in self.arcs:
            yield "a {} {} {} {} {}".format(*arc)


def transport(draw, nodes, arcs):
    """Suppliers on one side, customers on the other, and room enough on every arc."""
    problem = MinProblem(nodes)
    suppliers = nodes // 2
    customers = nodes - suppliers
    # The first arc of each customer ships an amount; the others are alternatives to these.
    for place in range(arcs):
        supplier = place % suppliers + 1
        customer = suppliers + 1 + (place if place < customers else draw.randrange(customers))
        if place < customers:
            problem.ship(supplier, customer, draw.randint(1, 1_000))
        problem.add(supplier, customer, 0, 1_000_000, draw.randint(1, 10_000))
    return problem.lines()


def transshipment(draw, nodes, arcs):
    """Goods that pass through many nodes, over arcs with capacities, some with lower bounds."""
    problem = MinProblem(nodes)
    # Routes along which all goods could go; the arcs that remain are shortcuts.
    while len(problem.arcs) < arcs // 2:
        route = draw.sample(range(1, nodes + 1), draw.randint(3, 9))
        amount = draw.randint(1, 100)
        problem.ship(route[0], route[-1], amount)
        for tail, head in zip(route, route[1:]):
            low = draw.randint(1, amount) if draw.randrange(20) == 0 else 0
            problem.add(tail, head, low, amount + draw.randint(0, 50), draw.randint(100, 1_000))
    while len(problem.arcs) < arcs:
        tail, head = draw.sample(range(1, nodes + 1), 2)
        problem.add(tail, head, 0, draw.randint(1, 100), draw.randint(-10, 1_000))
    return problem.lines()


def planning(draw, nodes, arcs):
    """What to make, store and carry between plants, period by period, for demands known ahead; few distinct costs."""
    problem = MinProblem(nodes)
    plants = 10
    # The last node stands for all that can be made; each other for a plant in a period.
    for node in range(1, nodes):
        demand = draw.randint(0, 100)
        problem.ship(nodes, node, demand)
        problem.add(nodes, node, 0, demand + draw.randint(0, 100), draw.choice(MAKE_COSTS))
        if node + plants < nodes:
            problem.add(node, node + plants, 0, draw.randint(0, 200), STORE_COST)
    while len(problem.arcs) < arcs:
        first = draw.randrange(nodes // plants) * plants + 1
        tail, head = draw.sample(range(first, min(first + plants, nodes)), 2)
        problem.add(tail, head, 0, draw.randint(1, 100), CARRY_COST)
    return problem.lines()


def layered(draw, nodes, arcs):
    """A maximum flow from layer to layer, with some arcs that lead back."""
    source, sink = 1, nodes
    width = nodes // 20
    layers = [range(first, min(first + width, nodes)) for first in range(2, nodes, width)]
    yield f"p max {nodes} {arcs}"
    yield f"n {source} s"
    yield f"n {sink} t"
    for node in layers[0]:
        yield f"a {source} {node} {draw.randint(100, 1_000)}"
    for node in layers[-1]:
        yield f"a {node} {sink} {draw.randint(100, 1_000)}"
    for _ in range(arcs - len(layers[0]) - len(layers[-1])):
        place = draw.randrange(len(layers) - 1)
        tail, head = draw.choice(layers[place]), draw.choice(layers[place + 1])
        if draw.randrange(10) == 0:
            tail, head = head, tail
        yield f"a {tail} {head} {draw.randint(1, 100)}"


def pairs(draw, nodes, arcs):
    """Arcs of an assignment (tail, head, cost): a hidden one that is complete, and others."""
    side = nodes // 2
    partners = list(range(side + 1, 2 * side + 1))
    draw.shuffle(partners)
    for place in range(arcs):
        tail = place % side + 1
        head = partners[tail - 1] if place < side else side + 1 + draw.randrange(side)
        yield tail, head, draw.randint(1, 100_000)


def assignment(draw, nodes, arcs):
    """As many on one side as on the other, and costs drawn from a wide range."""
    side = nodes // 2
    yield f"p asn {2 * side} {arcs}"
    for node in range(1, side + 1):
        yield f"n {node}"
    for arc in pairs(draw, nodes, arcs):
        yield "a {} {} {}".format(*arc)


def assignment_as_min(draw, nodes, arcs):
    """The same assignment, told as a minimum-cost flow."""
    side = nodes // 2
    problem = MinProblem(2 * side)
    for node in range(1, side + 1):
        problem.ship(node, side + node, 1)
    for tail, head, cost in pairs(draw, nodes, arcs):
        problem.add(tail, head, 0, 1, cost)
    return problem.lines()


def parallel(_, nodes, arcs):
    """A maximum flow over arcs of capacity 1, all between the same two nodes; the other nodes are lone."""
    yield from max_lines(nodes, 1, 2, [(1, 2, 1)] * arcs)


def chain(_, nodes, arcs):
    """Arcs of capacity 1, each dearer than the one before, into a chain of nodes."""
    links = nodes - 2
    problem = MinProblem(nodes)
    for place in range(arcs - links):
        problem.ship(1, nodes, 1)
        problem.add(1, 2, 0, 1, place + 1)
    for node in range(2, nodes):
        problem.add(node, node + 1, 0, arcs, 0)
    return problem.lines()


def ladder(_, nodes, _arcs):
    """A maximum flow that climbs half the nodes, each of which has an arc of capacity 1 into a chain of the others."""
    rungs = (nodes - 1) // 2
    first = rungs + 2
    climb = [(node, node + 1, nodes) for node in range(1, rungs + 1)]
    steps = [(node + 1, first, 1) for node in range(1, rungs + 1)]
    links = [(node, node + 1, nodes) for node in range(first, nodes)]
    yield from max_lines(nodes, 1, nodes, climb + steps + links)


def stairs(_, nodes, _arcs):
    """A stair of nodes, each step of which costs 1 and has an arc of capacity 1 to the target."""
    problem = MinProblem(nodes)
    for node in range(1, nodes - 1):
        problem.add(node, node + 1, 0, nodes, 1)
    for node in range(1, nodes):
        problem.ship(1, nodes, 1)
        problem.add(node, nodes, 0, 1, 0)
    return problem.lines()


def beside(width: int) -> Iterator[Tuple[int, int]]:
    """The pairs of nodes beside each other in a square that is so wide, the left or the upper one first."""
    for node in range(1, width * width + 1):
        if node % width:
            yield node, node + 1
        if node + width <= width * width:
            yield node, node + width


def slope(draw, nodes, _arcs):
    """A grid whose arcs cost less than nothing and lead right or down, so that there are no circles; little is shipped."""
    width = math.isqrt(nodes)
    problem = MinProblem(width * width)
    for tail, head in beside(width):
        problem.add(tail, head, 0, draw.randint(3, 1_000_000), -draw.randint(0, 1))
    problem.ship(1, width * width, 3)
    return problem.lines()


def stars(draw, nodes, arcs):
    """Arcs of capacity 1 and distinct costs between two nodes, each of which has many others beside it at no cost."""
    leaves = (nodes - 2) // 2
    costs = list(range(1, max(2, arcs - 2 * leaves)))
    draw.shuffle(costs)
    problem = MinProblem(2 * leaves + 2)
    for cost in costs:
        problem.ship(1, 2, 1)
        problem.add(1, 2, 0, 1, cost)
    for leaf in range(3, leaves + 3):
        problem.add(1, leaf, 0, len(costs), 0)
        problem.add(leaf + leaves, 2, 0, len(costs), 0)
    return problem.lines()


def regions(draw, nodes, arcs, inner=0):
    """Two regions, joined by arcs of distinct costs, with sources in the one and sinks in the other. Inside arcs cost at most
    `inner`."""
    half = nodes // 2
    links = max(1, arcs - 4 * half)
    costs = list(range(1, links + 1))
    draw.shuffle(costs)
    ends = min(50, half)
    problem = MinProblem(2 * half)
    for node in range(2 * half):
        first = node // half * half
        for other in ((node + 1) % half, draw.randrange(half)):
            problem.add(node + 1, first + other + 1, 0, 4 * links, draw.randint(0, inner) if inner else 0)
    for k, cost in enumerate(costs):
        room = draw.randint(1, 3)
        problem.ship(k % ends + 1, 2 * half - k % ends, room)
        problem.add(draw.randint(1, half), half + draw.randint(1, half), 0, room, cost)
    return problem.lines()


def dear_regions(draw, nodes, arcs):
    """The same with costs inside."""
    return regions(draw, nodes, arcs, inner=50)


def bridges(draw, nodes, arcs):
    """Sources and sinks of one unit, each joined to some of a few arcs of limited room, over which all goes."""
    count = min(10, nodes // 4)
    ends = (nodes - 2 * count) // 2
    problem = MinProblem(2 * count + 2 * ends)
    for bridge in range(count):
        problem.add(2 * bridge + 1, 2 * bridge + 2, 0, 2 * ends // count + 1, draw.randint(1, 10**9))
    more = max(0, min(count, arcs // (2 * ends)) - 1)
    for k in range(ends):
        source = 2 * count + 1 + k
        problem.ship(source, source + ends, 1)
        # Source and sink have one bridge in common, so that there is a flow.
        others = [bridge for bridge in range(count) if bridge != k % count]
        for bridge in [k % count] + draw.sample(others, more):
            problem.add(source, 2 * bridge + 1, 0, 1, draw.randint(1, 10**9))
        for bridge in [k % count] + draw.sample(others, more):
            problem.add(2 * bridge + 2, source + ends, 0, 1, draw.randint(1, 10**9))
    return problem.lines()


def max_lines(nodes, source, sink, arcs):
    """The lines of a maximum flow problem."""
    yield f"p max {nodes} {len(arcs)}"
    yield f"n {source} s"
    yield f"n {sink} t"
    for arc in arcs:
        yield "a {} {} {}".format(*arc)


def turned(shape):
    """A shape of `min` or `max` with each arc turned round, so that what left a node has to reach it."""

    def lines(draw, nodes, arcs):
        for line in shape(draw, nodes, arcs):
            letter, *words = line.split()
            if letter == "a":
                words[:2] = words[1], words[0]
            elif letter == "n":
                words[1] = {"s": "t", "t": "s"}.get(words[1]) or str(-int(words[1]))
            yield " ".join([letter, *words])

    return lines


def project(draw, nodes, arcs):
    """A project to be shortened: each activity gains by its length as a normal one, and has no limit at its shortest. One arc
    leads back, from the end to the start: a day late costs a penalty."""
    problem = MinProblem(nodes)
    followers = max(1, (arcs - 1) // (2 * nodes))
    for node in range(1, nodes):
        for k in range(followers):
            head = min(nodes, node + (draw.randint(1, 300) if k else 1))
            normal = draw.randint(1, 1_000)
            problem.add(node, head, 0, draw.randint(1, 1_000), -normal)
            problem.add(node, head, 0, 100_000_000, -draw.randint(0, normal))
    problem.add(nodes, 1, 0, 1, nodes * 2)
    return problem.lines()


def over_time(problem, places, periods, cost, room=100_000_000):
    """The arcs by which each place waits from period to period, at a cost; its node in each period follows the one before."""
    for place in range(places):
        for period in range(1, periods):
            node = place * periods + period
            problem.add(node, node + 1, 0, room, cost)


def periods_of(nodes, places):
    """How many periods so many places have, that the nodes suffice."""
    return max(2, (nodes - 1) // places)


def journeys(draw, nodes, arcs, back=5, fleet=500):
    """Vehicles at 20 places over time: trips gain, waiting costs little, and at the end each goes back to the first day."""
    periods = periods_of(nodes, 20)
    problem = MinProblem(20 * periods)
    over_time(problem, 20, periods, 5, 20)
    for place in range(20):
        problem.add((place + 1) * periods, place * periods + 1, 0, back, fleet)
    while len(problem.arcs) < arcs:
        tail = draw.randrange(20) * periods + draw.randint(1, periods - 1)
        later = draw.randint(1, min(50, periods - (tail - 1) % periods - 1))
        head = draw.randrange(20) * periods + (tail - 1) % periods + 1 + later
        problem.add(tail, head, 0, draw.randint(1, 100), -draw.randint(1, 10))
    return problem.lines()


def flights(draw, nodes, arcs):
    """The same with vehicles that are dear, and as many as one likes to own."""
    return journeys(draw, nodes, arcs, 100_000_000, 1_000)


def cash(draw, nodes, arcs):
    """Cash in ten accounts over time: kept, borrowed back in time at a cost, laid out for some terms at a gain."""
    periods = periods_of(nodes, 10)
    problem = MinProblem(10 * periods)
    over_time(problem, 10, periods, 0)
    for place in range(10):
        for period in range(1, periods):
            node = place * periods + period
            problem.ship(*draw.sample((node, 10 * periods - place), 2), draw.randint(0, 10_000))
            problem.add(node + 1, node, 0, 100_000_000, draw.randint(5, 15))
    for place in range(1, 10):
        problem.add(periods, (place + 1) * periods, 0, 100_000_000, 1)
        problem.add((place + 1) * periods, periods, 0, 100_000_000, 1)
    while len(problem.arcs) < arcs:
        tail = draw.randint(1, 10 * periods)
        left = periods - (tail - 1) % periods - 1
        term = draw.choice((2, 5, 10, 30, 90))
        if term <= left:
            problem.add(tail, tail + term, 0, draw.randint(1, 1_000), -draw.randint(0, 2 * term))
        elif left == 0:
            problem.add(tail, (tail + periods - 1) % (10 * periods) + 1, 0, 1_000, draw.randint(1, 5))
    return problem.lines()


def lots(draw, nodes, _arcs):
    """Five goods made over time, with limits on making and keeping; a unit is late at a cost, or bought at a high one."""
    periods = periods_of(nodes, 5)
    problem = MinProblem(5 * periods + 1)
    source = 5 * periods + 1
    over_time(problem, 5, periods, 1, 1_000)
    for good in range(5):
        problem.add(source, good * periods + 1, 0, 100_000_000, 1_000_000)
        for period in range(1, periods + 1):
            node = good * periods + period
            problem.ship(source, node, draw.randint(0, 160))
            problem.add(source, node, 0, 100, draw.randint(50, 200))
            if period < periods:
                problem.add(node + 1, node, 0, 100_000_000, 1)
    return problem.lines()


def pipelines(draw, nodes, _arcs):
    """Lines of 100 nodes that branch off others, with some loops; few sources, a tap at each node, and dear deliveries by road."""
    problem = MinProblem(nodes + 1)
    links = [(node - 1 if node % 100 else draw.randint(1, node - 1), node) for node in range(2, nodes + 1)]
    links += [draw.sample(range(1, nodes + 1), 2) for _ in range(nodes // 10)]
    for tail, head in links:
        room, cost = draw.randint(100_000, 1_000_000), draw.randint(1, 1_000)
        problem.add(tail, head, 0, room, cost)
        problem.add(head, tail, 0, room, cost)
    sources = [1] + draw.sample(range(2, nodes + 1), 19)
    for source in sources:
        problem.add(source, nodes + 1, 0, 100_000_000, 100_000)
    for tap in range(2, nodes + 1):
        problem.ship(draw.choice(sources), tap, draw.randint(1, max(1, 32_000_000 // nodes)))
        problem.add(nodes + 1, tap, 0, 100_000_000, 100_000)
    return problem.lines()


def daily(period: int) -> int:
    """From 0 to 12, down and up again in each day of 24 periods."""
    return abs(period % 24 - 12)


def price_at(draw: random.Random, period: int) -> int:
    """What a unit costs on the market in a period."""
    return 30 + 5 * daily(period) + draw.randint(-8, 8)


def in_steps(draw: random.Random, problem: MinProblem, tail: int, head: int, room: int, costs: Iterable[int]) -> None:
    """Arcs from the one node to the other, one for each cost, with a capacity of at most `room` each."""
    for cost in costs:
        problem.add(tail, head, 0, draw.randint(1, room), cost)


def both_ways(draw: random.Random, problem: MinProblem, one: int, other: int, room: int, cost: int) -> None:
    """An arc each way, with a capacity of at most `room` and a cost of at most `cost`."""
    in_steps(draw, problem, one, other, room, [draw.randint(1, cost)])
    in_steps(draw, problem, other, one, room, [draw.randint(1, cost)])


def need(problem: MinProblem, hub: int, node: int, amount: int, cost: int) -> None:
    """Has a node demand an amount, all of which the hub could supply at this cost."""
    problem.ship(hub, node, amount)
    problem.add(hub, node, 0, 100_000_000, cost)


def hydro(draw: random.Random, nodes: int, arcs: int) -> Iterator[str]:
    """Five reservoirs down a river over hours: turbines that gain by the hour's price in steps, spilling, and pumps."""
    periods = periods_of(min(nodes, arcs // 6), 5)
    sea = 5 * periods + 1
    problem = MinProblem(sea)
    over_time(problem, 5, periods, 0, 1_000)
    for node in range(1, sea):
        price = price_at(draw, node % periods)
        # Water reaches the next reservoir an hour later; that of the last one, or of the last hour, the sea.
        head = node + periods + 1 if node + periods < sea and node % periods else sea
        problem.ship(node, sea, draw.randint(0, 40))
        in_steps(draw, problem, node, head, 50, (-price, 10 - price, 20 - price))
        problem.add(node, head, 0, 100_000_000, 0)
        if node > periods:
            problem.add(node, node - periods, 0, draw.randint(1, 20), price * 6 // 5)
    return problem.lines()


def canal(draw: random.Random, nodes: int, arcs: int) -> Iterator[str]:
    """Forty reaches over days, each with a pond, a field, a dear well, and a gate from another reach a day before."""
    periods = periods_of(min(nodes, arcs // 4), 40)
    river = 40 * periods + 1
    problem = MinProblem(river)
    over_time(problem, 40, periods, 1, 100)
    feeders = [draw.randrange(max(0, reach - 6), max(1, reach)) for reach in range(40)]
    # How many reaches the gate of each one feeds, its own among them.
    fed = [1] * 40
    for reach in range(39, 0, -1):
        fed[feeders[reach]] += fed[reach]
    for node in range(1, river):
        reach, period = divmod(node - 1, periods)
        tail = feeders[reach] * periods + period if reach and period else river
        problem.add(tail, node, 0, draw.randint(1, 30 * fed[reach]), draw.randint(1, 6))
        need(problem, river, node, draw.randint(0, 40), draw.randint(2_500, 10_000))
        problem.add(node, river, 0, 100_000_000, draw.randint(0, 5))
    return problem.lines()


def energy(draw: random.Random, nodes: int, arcs: int) -> Iterator[str]:
    """Three zones over hours, with four storages each, lines between them, and a market with price steps."""
    zones, stores = 3, 12
    periods = periods_of(min(nodes, arcs // 4), zones + stores)
    market = (zones + stores) * periods + 1
    problem = MinProblem(market)
    over_time(problem, stores, periods, 0, 120)
    for node in range(stores * periods + 1, market):
        zone, period = divmod(node - stores * periods - 1, periods)
        price = price_at(draw, period)
        in_steps(draw, problem, market, node, 45, (10 * price, 15 * price, 20 * price, 25 * price))
        need(problem, market, node, draw.randint(20, 80) + 6 * daily(period + 6), 9_000)
        problem.add(node, market, 0, 1_000, 0)
        both_ways(draw, problem, node, (stores + (zone + 1) % zones) * periods + period + 1, 40, 9)
        for store in range(zone, stores, zones):
            both_ways(draw, problem, node, store * periods + period + 1, 20, 15)
    return problem.lines()


def water(draw: random.Random, nodes: int, arcs: int) -> Iterator[str]:
    """A town's square of pipes over hours, a tank at each third place, and few pumps with price steps."""
    width = max(3, math.isqrt(nodes) // 10)
    places = width * width
    pumps = max(1, places // 50)
    periods = periods_of(min(nodes, arcs // 6), places)
    works = places * periods + 1
    problem = MinProblem(works)
    # The first places have the tanks and the last ones the pumps, and each lies anywhere in the square.
    over_time(problem, places // 3, periods, 1, 5)
    square = draw.sample(range(places), places)
    for period in range(1, periods + 1):
        for place in range(places):
            amount = draw.randint(0, 1 + daily(period))
            need(problem, works, place * periods + period, amount, draw.randint(30_000, 60_000))
        for one, other in beside(width):
            both_ways(draw, problem, square[one - 1] * periods + period, square[other - 1] * periods + period, 9, 8)
        price = price_at(draw, period + 7)
        costs = [price * (10 + 3 * step) // 10 for step in range(5)]
        for pump in range(places - pumps, places):
            in_steps(draw, problem, works, pump * periods + period, 3 * places // (2 * pumps), costs)
    return problem.lines()


def dispatch(draw: random.Random, nodes: int, arcs: int) -> Iterator[str]:
    """A square of lines, a load at each node that is shed at a high cost, and generators with price steps; one hour."""
    width = math.isqrt(min(nodes, arcs // 6))
    market = width * width + 1
    problem = MinProblem(market)
    for one, other in beside(width):
        both_ways(draw, problem, one, other, 10, 9)
    for node in range(1, market):
        need(problem, market, node, draw.randint(0, 6), draw.randint(45_000, 90_000))
    for node in draw.sample(range(1, market), max(1, market // 15)):
        price = draw.randint(20, 80)
        in_steps(draw, problem, market, node, 24, [price * (2 + step) // 2 for step in range(4)])
    return problem.lines()


# What users have, what planners have over long times and lines, what is kept in storages and bought on a market, and
# what hurts: many searches that each push little, long walks, dead ends.
SETS: Dict[str, Dict[str, Callable[..., Iterator[str]]]] = {
    "usual": {
        "transport": transport,
        "transshipment": transshipment,
        "planning": planning,
        "layered": layered,
        "assignment": assignment,
    },
    "long": {
        "project": project,
        "journeys": journeys,
        "flights": flights,
        "cash": cash,
        "lots": lots,
        "pipelines": pipelines,
    },
    "storage": {
        "hydro": hydro,
        "canal": canal,
        "energy": energy,
        "water": water,
        "dispatch": dispatch,
    },
    "hostile": {
        "parallel": parallel,
        "chain": chain,
        "chain-turned": turned(chain),
        "ladder": ladder,
        "ladder-turned": turned(ladder),
        "stairs": stairs,
        "stairs-turned": turned(stairs),
        "slope": slope,
        "stars": stars,
        "stars-turned": turned(stars),
        "regions": regions,
        "regions-dear": dear_regions,
        "bridges": bridges,
    },
}
SHAPES = {name: shape for shapes in SETS.values() for name, shape in shapes.items()}


def write_problem(out, shape, size, seed, as_min=False):
    """Writes the problem to a text file; `as_min` tells an assignment as a minimum-cost flow."""
    make = assignment_as_min if as_min and shape == "assignment" else SHAPES[shape]
    nodes, arcs = SIZES[size]
    for line in make(random.Random(seed), max(LEAST_NODES, nodes // SHRINK), max(LEAST_ARCS, arcs // SHRINK)):
        out.write(line + "\n")


def main():
    parser = argparse.ArgumentParser(description=__doc__)
    parser.add_argument("shape", choices=SHAPES)
    parser.add_argument("size", choices=SIZES)
    parser.add_argument("--seed", type=int, default=1, help="another number gives another such problem")
    parser.add_argument("--as-min", action="store_true", help="tell an assignment as a minimum-cost flow")
    options = parser.parse_args()
    write_problem(sys.stdout, options.shape, options.size, options.seed, options.as_min)


if __name__ == "__main__":
    main()
