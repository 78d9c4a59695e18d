#!/usr/bin/env python3
"""Families of network problems by the published descriptions of their generators, and families that hurt.

    families.py write FOLDER [--size SIZE] [--family NAME ..]     one text a family
    families.py list                                              name, group and what it is
"""

from __future__ import annotations

import argparse
import math
import random
import sys
from dataclasses import dataclass
from pathlib import Path
from typing import Callable, Dict, List, Sequence, Set, Tuple

sys.dont_write_bytecode = True
sys.path.insert(0, str(Path(__file__).resolve().parent))
from problems import Problem  # noqa: E402

SIZES = ("small", "medium", "full")
# About how many arcs a problem of each size has. Where another number says how large it is, it stands with the family.
ARCS = (1_500, 20_000, 100_000)
# What only a free choice may exceed: more than any flow of these problems.
PLENTY = 1_000_000_000


@dataclass(frozen=True)
class Family:
    group: str
    make: Callable[[random.Random, int], Problem]
    sizes: Tuple[int, int, int] = ARCS

    def problem(self, size: str, seed: int = 1) -> Problem:
        return self.make(random.Random(seed), self.sizes[SIZES.index(size)])


# NETGEN (Klingman, Napier and Stutz 1974): a skeleton that carries all supply, and arcs drawn at random.


@dataclass(frozen=True)
class Netgen:
    nodes: int
    sources: int
    sinks: int
    arcs: int
    supply: int
    costs: Tuple[int, int] = (1, 10_000)
    # None: each arc has room for all supply.
    caps: Tuple[int, int] | None = (1, 1_000)
    # Of a hundred arcs of the skeleton so many have the greatest cost.
    dear: int = 30


def shares(draw: random.Random, total: int, count: int) -> List[int]:
    """Splits `total` into `count` parts of 1 or more at random; the parts are 1 where `total` is less."""
    if total <= count:
        return [1] * count
    cuts = sorted(draw.randint(0, total - count) for _ in range(count - 1))
    return [end - begin + 1 for begin, end in zip([0, *cuts], [*cuts, total - count])]


def skeleton(draw: random.Random, shape: Netgen, problem: Problem) -> None:
    """From each source a chain of nodes that pass goods on, and arcs from the chain to some of the sinks."""
    chains: List[List[int]] = [[node] for node in range(1, shape.sources + 1)]
    for node in range(shape.sources + 1, shape.nodes - shape.sinks + 1):
        draw.choice(chains).append(node)
    sinks = list(range(shape.nodes - shape.sinks + 1, shape.nodes + 1))
    draw.shuffle(sinks)
    for place, (chain, supply) in enumerate(zip(chains, shares(draw, shape.supply, shape.sources))):
        # Each sink is reached by one chain at least.
        reached = sinks[place :: shape.sources] or [draw.choice(sinks)]
        reached = list({*reached, *(draw.choice(sinks) for _ in range(min(2, supply)))})[: max(1, supply)]
        links = list(zip(chain, chain[1:])) + [(draw.choice(chain), sink) for sink in reached]
        for tail, head in links:
            cap = PLENTY if shape.caps is None else max(supply, draw.randint(*shape.caps))
            cost = shape.costs[1] if draw.randrange(100) < shape.dear else draw.randint(*shape.costs)
            problem.add(tail, head, cap, cost)
        for sink, share in zip(reached, shares(draw, supply, len(reached))):
            problem.ship(chain[0], sink, share)


def netgen(draw: random.Random, shape: Netgen) -> Problem:
    problem = Problem("min", shape.nodes)
    skeleton(draw, shape, problem)
    taken: Set[Tuple[int, int]] = {(arc.tail, arc.head) for arc in problem.arcs}
    while len(problem.arcs) < shape.arcs:
        tail = draw.randint(1, shape.nodes - shape.sinks)
        head = draw.randint(shape.sources + 1, shape.nodes)
        if tail == head or (tail, head) in taken:
            continue
        taken.add((tail, head))
        cap = PLENTY if shape.caps is None else draw.randint(*shape.caps)
        problem.add(tail, head, cap, draw.randint(*shape.costs))
    return problem


def square(arcs: int) -> int:
    """The nodes of a network that has as many arcs a node as the square root of its nodes."""
    return round(math.pow(arcs, 2 / 3))


def netgen_sr(draw: random.Random, arcs: int) -> Problem:
    """NETGEN with many arcs a node: the square root of the nodes."""
    nodes = square(arcs)
    few = math.isqrt(nodes)
    return netgen(draw, Netgen(nodes, few, few, arcs, supply=1_000 * few))


def netgen_low(draw: random.Random, arcs: int) -> Problem:
    """NETGEN with many arcs a node, and a supply that is low beside the capacities."""
    nodes = square(arcs)
    few = math.isqrt(nodes)
    return netgen(draw, Netgen(nodes, few, few, arcs, supply=10 * few))


def netgen_transp(draw: random.Random, arcs: int) -> Problem:
    """NETGEN's transport: half the nodes supply, half demand, and each arc has room for all."""
    nodes = arcs // 10
    return netgen(draw, Netgen(nodes, nodes // 2, nodes // 2, arcs, supply=100 * nodes, caps=None))


def netgen_tship(draw: random.Random, arcs: int) -> Problem:
    """NETGEN with few arcs a node: goods pass through most nodes."""
    nodes = arcs // 2
    return netgen(draw, Netgen(nodes, nodes // 10, nodes // 10, arcs, supply=100 * nodes))


def netgen_dense(draw: random.Random, arcs: int) -> Problem:
    """NETGEN where half the nodes supply or demand, with capacities that bind."""
    nodes = arcs // 10
    return netgen(draw, Netgen(nodes, nodes // 4, nodes // 4, arcs, supply=100 * nodes, caps=(1, 300)))


def netgen_neg(draw: random.Random, arcs: int) -> Problem:
    """NETGEN with negative costs, but no circle of negative cost: each node's price is taken off and added."""
    nodes = arcs // 10
    few = 2 * math.isqrt(nodes)
    problem = netgen(draw, Netgen(nodes, few, few, arcs, supply=500 * few))
    price = [draw.randint(0, 10_000) for _ in range(nodes + 1)]
    problem.arcs = [arc._replace(cost=arc.cost + price[arc.tail] - price[arc.head]) for arc in problem.arcs]
    return problem


def netgen_negcyc(draw: random.Random, arcs: int) -> Problem:
    """NETGEN with costs of both signs, so that many circles have a negative cost and are filled."""
    nodes = arcs // 10
    few = 2 * math.isqrt(nodes)
    return netgen(draw, Netgen(nodes, few, few, arcs, supply=500 * few, costs=(-5_000, 10_000)))


def netgen_big(draw: random.Random, arcs: int) -> Problem:
    """NETGEN with great costs and capacities."""
    nodes = arcs // 10
    few = 2 * math.isqrt(nodes)
    big = Netgen(nodes, few, few, arcs, supply=10_000_000, costs=(1, 1_000_000_000), caps=(1, 1_000_000))
    return netgen(draw, big)


# GRIDGEN (Lee and Orlin 1991), and other grids. A node is numbered by its row and column.


class Grid:
    """The nodes of a grid of rows and columns, row by row."""

    def __init__(self, rows: int, columns: int) -> None:
        self.rows, self.columns = rows, columns

    def node(self, row: int, column: int) -> int:
        return row * self.columns + column + 1

    def steps(self) -> List[Tuple[int, int]]:
        """Each pair of a node and its neighbour on the right or below."""
        across = [
            (self.node(row, column), self.node(row, column + 1))
            for row in range(self.rows)
            for column in range(self.columns - 1)
        ]
        down = [
            (self.node(row, column), self.node(row + 1, column))
            for row in range(self.rows - 1)
            for column in range(self.columns)
        ]
        return across + down

    @property
    def nodes(self) -> int:
        return self.rows * self.columns


def ship_between(draw: random.Random, problem: Problem, count: int, most: int) -> None:
    """Has amounts of at most `most` leave `count` nodes of the first half and reach as many of the other half.

    A node more than the grid has, the last one, takes what the grid cannot carry, at a high cost.
    """
    inner, super_node = problem.nodes - 1, problem.nodes
    origins = draw.sample(range(1, inner // 2), count)
    targets = draw.sample(range(inner // 2, inner + 1), count)
    for origin, target in zip(origins, targets):
        problem.ship(origin, target, draw.randint(1, most))
        problem.add(origin, super_node, most, 100_000)
        problem.add(super_node, target, most, 100_000)


def gridgen_one(draw: random.Random, arcs: int) -> Problem:
    """GRIDGEN with one-way arcs: a long grid, and as many arcs again from each node to later ones."""
    rows = math.isqrt(arcs // 32)
    grid = Grid(rows, arcs // 8 // rows)
    problem = Problem("min", grid.nodes + 1)
    for tail, head in grid.steps():
        problem.add(tail, head, draw.randint(1, 1_000), draw.randint(1, 10_000))
    ship_between(draw, problem, math.isqrt(grid.nodes), 1_000)
    while len(problem.arcs) < arcs:
        tail, head = sorted(draw.sample(range(1, grid.nodes + 1), 2))
        problem.add(tail, head, draw.randint(1, 1_000), draw.randint(1, 10_000))
    return problem


def gridgen_two(draw: random.Random, arcs: int) -> Problem:
    """GRIDGEN with two-way arcs of small capacities."""
    rows = math.isqrt(arcs // 8)
    grid = Grid(rows, arcs // 4 // rows)
    problem = Problem("min", grid.nodes + 1)
    for tail, head in grid.steps():
        problem.add(tail, head, draw.randint(1, 10), draw.randint(1, 10_000))
        problem.add(head, tail, draw.randint(1, 10), draw.randint(1, 10_000))
    ship_between(draw, problem, 2 * math.isqrt(grid.nodes), 30)
    return problem


def goto(draw: random.Random, arcs: int) -> Problem:
    """GOTO, a grid on a torus (Goldberg and Kharitonov 1993): short arcs cheap and wide, long ones dear and narrow."""
    rows = max(4, math.isqrt(arcs // 8) // 4)
    grid = Grid(rows, arcs // 8 // rows)
    problem = Problem("min", grid.nodes + 2)
    source, sink = grid.nodes + 1, grid.nodes + 2
    reaches = (1, 2, 3, 5, 8, 13)
    for row in range(grid.rows):
        least = draw.randint(200, 1_000)
        problem.add(source, grid.node(row, 0), least)
        problem.add(grid.node(row, grid.columns - 1), sink, least)
        problem.ship(source, sink, least * 9 // 10)
        for column in range(grid.columns):
            here = grid.node(row, column)
            for reach in reaches:
                wide = max(1, 2_000 // reach)
                cap = max(least, wide) if reach == 1 else draw.randint(wide // 2, wide)
                # The ring closes from the last columns to the first ones.
                there = grid.node(row, (column + reach) % grid.columns)
                problem.add(here, there, cap, draw.randint(1, 100 * reach * reach))
            for turn in (1, grid.rows - 1):
                there = grid.node((row + turn) % grid.rows, column)
                problem.add(here, there, draw.randint(1, 500), draw.randint(1, 2_000))
    return problem


def road(draw: random.Random, arcs: int) -> Problem:
    """A road network: neighbours joined both ways, lengths for costs, and capacities of four classes of road."""
    side = math.isqrt(arcs // 3)
    grid = Grid(side, side)
    problem = Problem("min", grid.nodes)
    places = [
        (row + draw.random() * 0.8, column + draw.random() * 0.8) for row in range(side) for column in range(side)
    ]
    middle = side // 2
    # What each amount would take: along its row to the middle column, along this one, and along the row of its target.
    loads: Dict[Tuple[int, int], int] = {}
    for _ in range(2 * side):
        (row, column), (last_row, last_column) = [(draw.randrange(side), draw.randrange(side)) for _ in range(2)]
        amount = draw.randint(1, 20)
        problem.ship(grid.node(row, column), grid.node(last_row, last_column), amount)
        walk = [(row, place) for place in between(column, middle)]
        walk += [(place, middle) for place in between(row, last_row)]
        walk += [(last_row, place) for place in between(middle, last_column)]
        nodes = [grid.node(*place) for place in walk]
        for step in zip(nodes, nodes[1:]):
            loads[step] = loads.get(step, 0) + amount
    for tail, head in grid.steps():
        is_main = head - tail == 1 or (tail - 1) % side == middle
        if not is_main and draw.random() < 0.5:
            continue
        length = round(100 * math.dist(places[tail - 1], places[head - 1]))
        for step in ((tail, head), (head, tail)):
            problem.add(*step, max(draw.choice((40, 60, 80, 100)), loads.get(step, 0)), length)
    return problem


def between(first: int, last: int) -> Sequence[int]:
    """All whole numbers from the first to the last, also downwards."""
    return range(first, last + 1) if first <= last else range(first, last - 1, -1)


# Plans: over periods, with few distinct costs or convex ones.


def plan_staff(draw: random.Random, arcs: int) -> Problem:
    """Shifts that cover what each hour needs, at wages by their length and hour; surplus costs nothing."""
    lengths = (1, 4, 6, 8, 8, 10, 12)
    hours = arcs // (len(lengths) + 1)
    problem = Problem("min", hours + 1)
    needed = 0
    for hour in range(1, hours + 1):
        wave = 1 + math.sin(2 * math.pi * hour / 24) + 0.3 * math.sin(2 * math.pi * hour / 168)
        now = round(40 * max(0.0, wave)) + draw.randint(0, 15)
        problem.supplies[hour] += now - needed
        needed = now
        night = 1.25 if hour % 24 < 6 else 1.0
        problem.add(hour + 1, hour, PLENTY)
        for place, length in enumerate(lengths):
            end = min(hour + length, hours + 1)
            wage = round(night * (60 if length == 1 else 20 + place) * (end - hour))
            problem.add(hour, end, PLENTY if length == 1 else draw.randint(5, 20), wage)
    problem.supplies[hours + 1] -= needed
    return problem


def plan_lots(draw: random.Random, arcs: int) -> Problem:
    """Lots of several goods: made in normal time and overtime, stored, delivered late at a price, or bought."""
    goods = 20
    periods = arcs // (6 * goods)
    grid = Grid(goods, periods)
    problem = Problem("min", grid.nodes + periods + 1)
    maker = grid.nodes + periods + 1
    total = 0
    for period in range(periods):
        plant = grid.nodes + period + 1
        season = 1 + math.sin(2 * math.pi * period / 52)
        problem.add(maker, plant, 40 * goods, 20)
        problem.add(maker, plant, 20 * goods, 35)
        for good in range(goods):
            here = grid.node(good, period)
            demand = round(draw.randint(0, 60) * season)
            problem.ship(maker, here, demand)
            total += demand
            problem.add(plant, here, draw.randint(40, 120), draw.randint(1, 30))
            problem.add(maker, here, PLENTY, 400)
            if period + 1 < periods:
                problem.add(here, grid.node(good, period + 1), 200, draw.randint(1, 4))
                problem.add(grid.node(good, period + 1), here, 50, draw.randint(8, 16))
            other = grid.node(draw.randrange(goods), period)
            if other != here:
                problem.add(here, other, draw.randint(5, 20), 15)
    return problem


def plan_tariff(draw: random.Random, arcs: int) -> Problem:
    """Energy bought by the hour at prices that rise with the amount (parallel arcs), stored, moved between sites."""
    sites, steps = 5, (0, 8, 20, 45, 90)
    hours = arcs // (sites * (len(steps) + 3))
    grid = Grid(hours, sites)
    problem = Problem("min", grid.nodes + 1)
    market = grid.nodes + 1
    for hour in range(hours):
        price = round(60 + 30 * math.sin(2 * math.pi * hour / 24)) + draw.randint(0, 20)
        for site in range(sites):
            here = grid.node(hour, site)
            demand = draw.randint(20, 120)
            problem.ship(market, here, demand)
            for step in steps:
                problem.add(market, here, PLENTY if step == steps[-1] else draw.randint(15, 40), price + step)
            if hour + 1 < hours:
                problem.add(here, grid.node(hour + 1, site), draw.randint(50, 150), 1)
            for other in ((site + 1) % sites, (site - 1) % sites):
                problem.add(here, grid.node(hour, other), draw.randint(5, 30), 3)
    return problem


def plan_rotation(draw: random.Random, arcs: int) -> Problem:
    """Vehicles that run a timetable: trips that must run or that pay, waiting at stations, and a price a vehicle."""
    stations = max(5, math.isqrt(arcs) // 10)
    moments = arcs // (4 * stations)
    grid = Grid(stations, moments)
    problem = Problem("min", grid.nodes)
    for station in range(stations):
        for moment in range(moments - 1):
            problem.add(grid.node(station, moment), grid.node(station, moment + 1), PLENTY)
        for other in range(stations):
            # A vehicle may end elsewhere than it began, but that is dearer.
            price = 20_000 if other == station else 20_000 + draw.randint(100, 900)
            problem.add(grid.node(station, moments - 1), grid.node(other, 0), PLENTY, price)
    while len(problem.arcs) < arcs:
        start, end = draw.sample(range(stations), 2)
        leave = draw.randrange(moments - 1)
        arrive = min(moments - 1, leave + draw.randint(3, 30))
        must_run = draw.randrange(4) == 0
        gain = draw.randint(0, 500) if must_run else -draw.randint(100, 2_000)
        problem.add(grid.node(start, leave), grid.node(end, arrive), 1, gain, low=1 if must_run else 0)
    return problem


# Assignments: as many nodes on the left as on the right.


def assignment(side: int) -> Problem:
    problem = Problem("asn", 2 * side)
    for node in range(1, side + 1):
        problem.ship(node, side + node, 1)
    return problem


def assigned(draw: random.Random, side: int, arcs: int, costs: Tuple[int, int]) -> Problem:
    """A hidden assignment that is complete, and other arcs at random."""
    problem = assignment(side)
    partners = list(range(side + 1, 2 * side + 1))
    draw.shuffle(partners)
    for node, partner in enumerate(partners, start=1):
        problem.add(node, partner, 1, draw.randint(*costs))
    while len(problem.arcs) < arcs:
        node = len(problem.arcs) % side + 1
        problem.add(node, side + draw.randint(1, side), 1, draw.randint(*costs))
    return problem


def asn_rand(draw: random.Random, arcs: int) -> Problem:
    """Twenty arcs a node, costs from a wide range."""
    return assigned(draw, arcs // 20, arcs, (1, 1_000_000))


def asn_few(draw: random.Random, arcs: int) -> Problem:
    """Twenty arcs a node, few distinct costs."""
    return assigned(draw, arcs // 20, arcs, (1, 10))


def asn_neg(draw: random.Random, arcs: int) -> Problem:
    """Twenty arcs a node, costs of both signs."""
    return assigned(draw, arcs // 20, arcs, (-1_000_000, 1_000_000))


def asn_dense(draw: random.Random, arcs: int) -> Problem:
    """Each node of the left joined to each of the right."""
    side = math.isqrt(arcs)
    problem = assignment(side)
    for left in range(1, side + 1):
        for right in range(side + 1, 2 * side + 1):
            problem.add(left, right, 1, draw.randint(1, 1_000_000))
    return problem


def asn_mw(_: random.Random, arcs: int) -> Problem:
    """Machol and Wien's problem: node i of the left and j of the right at a cost of i times j."""
    side = math.isqrt(arcs)
    problem = assignment(side)
    for left in range(1, side + 1):
        for right in range(1, side + 1):
            problem.add(left, side + right, 1, left * right)
    return problem


def asn_grid(draw: random.Random, arcs: int) -> Problem:
    """Two grids, one on the other: each place joined to those near it, the squared distance and a bit for a cost."""
    side = math.isqrt(arcs // 25)
    grid = Grid(side, side)
    problem = assignment(grid.nodes)
    for row in range(side):
        for column in range(side):
            for other_row in range(max(0, row - 2), min(side, row + 3)):
                for other_column in range(max(0, column - 2), min(side, column + 3)):
                    squared = (row - other_row) ** 2 + (column - other_column) ** 2
                    head = grid.nodes + grid.node(other_row, other_column)
                    problem.add(grid.node(row, column), head, 1, 100 * squared + draw.randint(0, 400))
    return problem


# Problems without a legal flow.


def inf_cut(draw: random.Random, arcs: int) -> Problem:
    """Two networks, and arcs from the one to the other that carry a little less than has to pass."""
    nodes = arcs // 10
    half = nodes // 2
    problem = Problem("min", nodes)
    amounts = [draw.randint(1, 100) for _ in range(half // 4)]
    for amount in amounts:
        problem.ship(draw.randint(1, half), draw.randint(half + 1, nodes), amount)
    room = sum(amounts) * 97 // 100
    bridges = max(8, half // 10)
    for cap in shares(draw, room, bridges):
        problem.add(draw.randint(1, half), draw.randint(half + 1, nodes), cap, draw.randint(1, 10_000))
    while len(problem.arcs) < arcs:
        first = draw.choice((1, half + 1))
        tail, head = draw.sample(range(first, first + half), 2)
        problem.add(tail, head, draw.randint(50, 1_000), draw.randint(1, 10_000))
    return problem


def inf_sum(draw: random.Random, arcs: int) -> Problem:
    """Two networks by NETGEN that no arc joins: one supplies a little more than it demands, the other a little less."""
    first, second = (netgen_sr(draw, arcs // 2) for _ in range(2))
    problem = Problem("min", first.nodes + second.nodes)
    problem.supplies = first.supplies + second.supplies[1:]
    problem.supplies[1] += 5
    problem.supplies[first.nodes + 1] -= 5
    problem.arcs = first.arcs + [
        arc._replace(tail=arc.tail + first.nodes, head=arc.head + first.nodes) for arc in second.arcs
    ]
    return problem


def inf_low(draw: random.Random, arcs: int) -> Problem:
    """Lower bounds that ask a part of the network for more than may come into it."""
    nodes = arcs // 10
    part = nodes // 4
    problem = Problem("min", nodes)
    out = 0
    while len(problem.arcs) < arcs // 2:
        tail, head = draw.sample(range(1, nodes + 1), 2)
        if tail <= part < head:
            low = draw.randint(1, 20)
            problem.add(tail, head, low + draw.randint(0, 100), draw.randint(1, 10_000), low=low)
            out += low
        elif not head <= part < tail:
            problem.add(tail, head, draw.randint(100, 1_000), draw.randint(1, 10_000))
    entries = arcs // 20
    for cap in shares(draw, out * 98 // 100, entries):
        problem.add(draw.randint(part + 1, nodes), draw.randint(1, part), cap, draw.randint(1, 10_000))
    while len(problem.arcs) < arcs:
        first, last = draw.choice(((1, part), (part + 1, nodes)))
        tail, head = draw.sample(range(first, last + 1), 2)
        problem.add(tail, head, draw.randint(1, 1_000), draw.randint(1, 10_000))
    return problem


def inf_hall(draw: random.Random, arcs: int) -> Problem:
    """An assignment where some nodes of the left have one neighbour too few between them (Hall's condition)."""
    side = arcs // 20
    crowd = side // 3
    problem = assignment(side)
    # The nodes of the crowd see one node of the right fewer than they are; all others see the whole right side.
    for place in range(arcs):
        node = place % side + 1
        seen = crowd - 1 if node <= crowd else side
        problem.add(node, side + draw.randint(1, seen), 1, draw.randint(1, 100_000))
    return problem


def inf_grid(draw: random.Random, arcs: int) -> Problem:
    """A two-way grid that has to carry from its left side to its right a little more than its middle admits."""
    rows = math.isqrt(arcs // 8)
    grid = Grid(rows, arcs // 4 // rows)
    problem = Problem("min", grid.nodes)
    middle = grid.columns // 2
    room = 0
    for tail, head in grid.steps():
        crosses = head == tail + 1 and (tail - 1) % grid.columns == middle
        cap = draw.randint(1, 10) if crosses else draw.randint(20, 60)
        room += cap if crosses else 0
        problem.add(tail, head, cap, draw.randint(1, 1_000))
        problem.add(head, tail, cap, draw.randint(1, 1_000))
    for amount in shares(draw, room + rows, rows):
        problem.ship(grid.node(draw.randrange(rows), 0), grid.node(draw.randrange(rows), grid.columns - 1), amount)
    return problem


# Maximum flows.


def genrmf(draw: random.Random, side: int, frames: int) -> Problem:
    """GENRMF (Goldfarb and Grigoriadis 1988): square frames one behind the other, wide within, narrow between."""
    area = side * side
    problem = Problem("max", area * frames, source=1, sink=area * frames)
    frame = Grid(side, side)
    for place in range(frames):
        base = place * area
        for tail, head in frame.steps():
            problem.add(base + tail, base + head, 10_000 * area)
            problem.add(base + head, base + tail, 10_000 * area)
        if place + 1 < frames:
            behind = list(range(base + area + 1, base + 2 * area + 1))
            draw.shuffle(behind)
            for node, other in enumerate(behind, start=base + 1):
                problem.add(node, other, draw.randint(1, 10_000))
    return problem


def max_rmf_long(draw: random.Random, arcs: int) -> Problem:
    """GENRMF with small frames, and many of them."""
    side = max(3, round((arcs / 5) ** 0.21))
    return genrmf(draw, side, arcs // (5 * side * side - 4 * side))


def max_rmf_wide(draw: random.Random, arcs: int) -> Problem:
    """GENRMF with large frames, and few of them."""
    side = max(4, round((arcs / 5) ** 0.37))
    return genrmf(draw, side, arcs // (5 * side * side - 4 * side))


def max_rlg(draw: random.Random, arcs: int) -> Problem:
    """A random level graph (Washington): from each node three arcs into the next level."""
    width = round(arcs**0.36)
    levels = arcs // (3 * width)
    grid = Grid(levels, width)
    problem = Problem("max", grid.nodes + 2, source=grid.nodes + 1, sink=grid.nodes + 2)
    for place in range(width):
        problem.add(problem.source, grid.node(0, place), 10_000)
        problem.add(grid.node(levels - 1, place), problem.sink, 10_000)
    for level in range(levels - 1):
        for place in range(width):
            for _ in range(3):
                head = grid.node(level + 1, draw.randrange(width))
                problem.add(grid.node(level, place), head, draw.randint(1, 10_000))
    return problem


def max_bip(draw: random.Random, arcs: int) -> Problem:
    """A matching: three arcs of capacity 1 a node, from one side to the other."""
    side = arcs // 5
    problem = Problem("max", 2 * side + 2, source=2 * side + 1, sink=2 * side + 2)
    for node in range(1, side + 1):
        problem.add(problem.source, node, 1)
        problem.add(side + node, problem.sink, 1)
        for _ in range(3):
            problem.add(node, side + draw.randint(1, side), 1)
    return problem


def max_random(draw: random.Random, arcs: int) -> Problem:
    """Arcs between any two nodes."""
    nodes = arcs // 10
    problem = Problem("max", nodes, source=1, sink=nodes)
    for node in range(2, 2 + nodes // 10):
        problem.add(1, node, draw.randint(1, 1_000))
        problem.add(nodes + 1 - node, nodes, draw.randint(1, 1_000))
    while len(problem.arcs) < arcs:
        tail, head = draw.sample(range(2, nodes), 2)
        problem.add(tail, head, draw.randint(1, 100))
    return problem


def max_stairs(_: random.Random, nodes: int) -> Problem:
    """A path, and from each of its nodes an arc of capacity 1 to the sink: each way is one arc longer than the last."""
    problem = Problem("max", nodes, source=1, sink=nodes)
    for node in range(1, nodes - 1):
        problem.add(node, node + 1, nodes)
        problem.add(node, nodes, 1)
    return problem


def max_zigzag(_: random.Random, nodes: int) -> Problem:
    """A climb over one chain, a step of capacity 1 at each height to another one, and the way down over that."""
    height = nodes // 2
    problem = Problem("max", 2 * height, source=1, sink=height + 1)
    for node in range(1, height + 1):
        if node < height:
            problem.add(node, node + 1, nodes)
            problem.add(height + node + 1, height + node, nodes)
        problem.add(node, height + node, 1)
    return problem


# What hurts: many pushes, or many searches that each push little. Each is a problem that a user may have by accident.


def bad_fan(draw: random.Random, arcs: int) -> Problem:
    """Parallel arcs of capacity 1 and of distinct costs, as a convex cost is written; half of them are used."""
    problem = Problem("min", 2)
    problem.ship(1, 2, arcs // 2)
    costs = list(range(1, arcs + 1))
    draw.shuffle(costs)
    for cost in costs:
        problem.add(1, 2, 1, cost)
    return problem


def bad_zadeh(_: random.Random, levels: int) -> Problem:
    """Shortest paths one by one make a push a unit, 2 to the number of levels in all (Zadeh; Disser and Skutella)."""
    problem = Problem("min", 2 * levels + 2)
    # At each level the source has an odd number and the sink the even one behind it.
    problem.add(1, 2, 1)
    for level in range(1, levels + 1):
        source, sink, cap = 2 * level + 1, 2 * level + 2, 2 ** (level - 1)
        problem.add(source, source - 2, cap)
        problem.add(sink - 2, sink, cap)
        problem.add(source, sink - 2, cap, 2**level - 1)
        problem.add(source - 2, sink, cap, 2**level - 1)
    problem.ship(2 * levels + 1, 2 * levels + 2, 2**levels)
    return problem


def bad_stairs(_: random.Random, nodes: int) -> Problem:
    """A stair of nodes; each step costs 1 and has an arc of capacity 1 to the target."""
    problem = Problem("min", nodes)
    for node in range(1, nodes):
        if node < nodes - 1:
            problem.add(node, node + 1, nodes, 1)
        problem.add(node, nodes, 1)
        problem.ship(1, nodes, 1)
    return problem


def bad_chain(_: random.Random, arcs: int) -> Problem:
    """Arcs of capacity 1, each dearer than the one before, into a long chain of nodes."""
    dear, links = math.isqrt(arcs), arcs // 6
    problem = Problem("min", links + 2)
    problem.ship(1, links + 2, dear)
    for place in range(dear):
        problem.add(1, 2, 1, place + 1)
    for node in range(2, links + 2):
        problem.add(node, node + 1, arcs)
    return problem


def bad_flat(draw: random.Random, arcs: int) -> Problem:
    """NETGEN where each arc costs 1, so that very many paths cost the same."""
    nodes = arcs // 10
    return netgen(draw, Netgen(nodes, nodes // 10, nodes // 10, arcs, supply=50 * nodes, costs=(1, 1), caps=(1, 100)))


def bad_grid(draw: random.Random, arcs: int) -> Problem:
    """A two-way grid of two costs, with capacities of 1 and 2."""
    rows = math.isqrt(arcs // 8)
    grid = Grid(rows, arcs // 4 // rows)
    problem = Problem("min", grid.nodes + 1)
    for tail, head in grid.steps():
        problem.add(tail, head, draw.randint(1, 2), draw.randint(1, 2))
        problem.add(head, tail, draw.randint(1, 2), draw.randint(1, 2))
    ship_between(draw, problem, 2 * math.isqrt(grid.nodes), 3)
    return problem


# The nodes of a stair and of a zigzag, and the levels of Zadeh's problem: their time grows faster than their arcs.
STAIRS, ZIGZAG, LEVELS = (300, 2_500, 10_000), (300, 2_000, 5_000), (10, 14, 18)

# The title of each group, in the order of the tables.
GROUPS = {
    "min": "minimum cost",
    "plan": "planning",
    "asn": "assignment",
    "max": "maximum flow",
    "inf": "infeasible",
    "bad": "hurtful",
}
FAMILIES: Dict[str, Family] = {
    "netgen_sr": Family("min", netgen_sr),
    "netgen_low": Family("min", netgen_low),
    "netgen_transp": Family("min", netgen_transp),
    "netgen_tship": Family("min", netgen_tship),
    "netgen_dense": Family("min", netgen_dense),
    "netgen_neg": Family("min", netgen_neg),
    "netgen_negcyc": Family("min", netgen_negcyc),
    "netgen_big": Family("min", netgen_big),
    "gridgen_one": Family("min", gridgen_one),
    "gridgen_two": Family("min", gridgen_two),
    "goto": Family("min", goto),
    "road": Family("min", road),
    "plan_staff": Family("plan", plan_staff),
    "plan_lots": Family("plan", plan_lots),
    "plan_tariff": Family("plan", plan_tariff),
    "plan_rotation": Family("plan", plan_rotation),
    "asn_rand": Family("asn", asn_rand),
    "asn_few": Family("asn", asn_few),
    "asn_dense": Family("asn", asn_dense),
    "asn_mw": Family("asn", asn_mw),
    "asn_neg": Family("asn", asn_neg),
    "asn_grid": Family("asn", asn_grid),
    "max_rmf_long": Family("max", max_rmf_long),
    "max_rmf_wide": Family("max", max_rmf_wide),
    "max_rlg": Family("max", max_rlg),
    "max_bip": Family("max", max_bip),
    "max_random": Family("max", max_random),
    "max_stairs": Family("max", max_stairs, STAIRS),
    "max_zigzag": Family("max", max_zigzag, ZIGZAG),
    "inf_cut": Family("inf", inf_cut),
    "inf_sum": Family("inf", inf_sum),
    "inf_low": Family("inf", inf_low),
    "inf_hall": Family("inf", inf_hall),
    "inf_grid": Family("inf", inf_grid),
    "bad_fan": Family("bad", bad_fan),
    "bad_zadeh": Family("bad", bad_zadeh, LEVELS),
    "bad_stairs": Family("bad", bad_stairs, STAIRS),
    "bad_chain": Family("bad", bad_chain),
    "bad_flat": Family("bad", bad_flat),
    "bad_grid": Family("bad", bad_grid),
}


def write_text(folder: Path, name: str, size: str) -> Path:
    """Writes the problem of a family into a folder, and an assignment as `min` too; gives the path of the first."""
    problem = FAMILIES[name].problem(size)
    path = folder / f"{name}.{problem.kind}"
    path.write_text(problem.text(), encoding="ascii")
    if problem.kind == "asn":
        path.with_suffix(".min").write_text(problem.as_min().text(), encoding="ascii")
    return path


def main() -> None:
    parser = argparse.ArgumentParser(description=__doc__, formatter_class=argparse.RawDescriptionHelpFormatter)
    commands = parser.add_subparsers(dest="command", required=True)
    commands.add_parser("list", help="print name, group and description of each family")
    write = commands.add_parser("write", help="write one text a family; an assignment as a `min` problem too")
    write.add_argument("folder", type=Path, help="where the texts go; it is made if it is not there")
    write.add_argument("--size", choices=SIZES, default="small")
    write.add_argument("--family", choices=FAMILIES, action="append", help="this family alone; may be given again")
    options = parser.parse_args()
    if options.command == "list":
        for name, family in FAMILIES.items():
            told = (family.make.__doc__ or "").splitlines()
            print(f"{name:14} {GROUPS[family.group]:13}", *told[:1])
        return
    options.folder.mkdir(parents=True, exist_ok=True)
    for name in options.family or FAMILIES:
        print(write_text(options.folder, name, options.size))


if __name__ == "__main__":
    main()
