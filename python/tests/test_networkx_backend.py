"""networkx' functions: drawn graphs against networkx itself, and what the functions refuse."""

import random
import unittest
from decimal import Decimal
from fractions import Fraction
from importlib.util import find_spec
from typing import Any

from mcf_plan import TimeLimit
from mcf_plan.networkx_backend import ALGORITHMS, FUNCTIONS, Backend, backend, info

HAS_NETWORKX = find_spec("networkx") is not None


def least_cost(draws: random.Random, directed: Any) -> Any:
    """A graph with demands, capacities and weights, some of them missing; it has a flow, or nearly one."""
    G = directed()
    nodes = draws.randint(1, 8)
    G.add_nodes_from(range(nodes))
    for node in range(nodes):
        G.nodes[node]["demand"] = 0
    for _ in range(draws.randint(0, 18)):
        tail, head = draws.randrange(nodes), draws.randrange(nodes)
        if not G.is_multigraph() and G.has_edge(tail, head):
            continue
        data = {"weight": draws.randint(-3, 9)}
        if draws.random() < 0.8:
            data["capacity"] = draws.randint(0, 9)
        elif draws.random() < 0.8:
            data["weight"] = abs(data["weight"])
        G.add_edge(tail, head, **data)
        flow = draws.randint(0, min(3, data.get("capacity", 3)))
        G.nodes[tail]["demand"] -= flow
        G.nodes[head]["demand"] += flow
    if draws.random() < 0.2:
        G.nodes[draws.randrange(nodes)]["demand"] += draws.choice([-1, 1])
    return G


def answered(function: Any, *arguments: Any) -> Any:
    """What a function returns, or the class of what it raises."""
    import networkx as nx

    try:
        return function(*arguments)
    except nx.NetworkXException as error:
        return type(error)


@unittest.skipUnless(HAS_NETWORKX, "no networkx here: its functions are not compared")
class NetworkxBackend(unittest.TestCase):
    def test_least_cost(self) -> None:
        import networkx as nx

        draws = random.Random(6)
        kinds = {}
        for case in range(120):
            G = least_cost(draws, nx.MultiDiGraph if case % 3 == 2 else nx.DiGraph)
            for name in ("network_simplex", "capacity_scaling"):
                theirs, ours = answered(getattr(nx, name), G), answered(getattr(backend, name), G)
                kind = theirs.__name__ if isinstance(theirs, type) else "solved"
                kinds[kind] = kinds.get(kind, 0) + 1
                if isinstance(theirs, type) or isinstance(ours, type):
                    self.assertEqual(ours, theirs, (name, G.nodes(data=True), G.edges(data=True)))
                    continue
                self.assertEqual(ours[0], theirs[0])
                self.assertEqual(
                    {node: set(heads) for node, heads in ours[1].items()},
                    {node: set(heads) for node, heads in theirs[1].items()},
                )
                if not G.is_multigraph():
                    self.assertEqual(nx.cost_of_flow(G, ours[1]), theirs[0])
        print(f"networkx, flows of least cost: {kinds}, the same")
        self.assertGreater(kinds["solved"], 50)

    def test_maximum_flow(self) -> None:
        import networkx as nx

        draws = random.Random(7)
        for case in range(80):
            G = nx.DiGraph() if case % 2 else nx.Graph()
            nodes = draws.randint(2, 8)
            G.add_nodes_from(range(nodes))
            for _ in range(draws.randint(0, 16)):
                data = {"capacity": draws.choice([draws.randint(0, 9), draws.randint(0, 40) / 4])}
                G.add_edge(draws.randrange(nodes), draws.randrange(nodes), **(data if draws.random() < 0.9 else {}))
            for name in ("maximum_flow_value", "minimum_cut", "minimum_cut_value"):
                theirs = answered(getattr(nx, name), G, 0, nodes - 1)
                self.assertEqual(answered(getattr(backend, name), G, 0, nodes - 1), theirs, (name, G.edges(data=True)))
            ours = answered(backend.maximum_flow, G, 0, nodes - 1)
            if not isinstance(ours, type):
                R = getattr(backend, ALGORITHMS[case % 5])(G, 0, nodes - 1)
                self.assertEqual(R.graph["flow_value"], ours[0])
                for tail, head, data in R.edges(data=True):
                    self.assertLessEqual(data["flow"], data["capacity"])
                    self.assertEqual(data["flow"], -R[head][tail]["flow"])
                self.assertEqual(sum(ours[1][0].values()) - sum(heads.get(0, 0) for heads in ours[1].values()), ours[0])

    def test_maximum_flow_of_least_cost(self) -> None:
        import networkx as nx

        draws = random.Random(8)
        for _ in range(30):
            G = nx.DiGraph()
            G.add_nodes_from(range(6))
            for _ in range(14):
                tail, head = draws.sample(range(6), 2)
                G.add_edge(tail, head, capacity=draws.randint(0, 5), weight=draws.randint(0, 9))
            theirs, ours = nx.max_flow_min_cost(G, 0, 5), backend.max_flow_min_cost(G, 0, 5)
            self.assertEqual(nx.cost_of_flow(G, ours), nx.cost_of_flow(G, theirs))
            self.assertEqual(sum(ours[0].values()), sum(theirs[0].values()))

    def test_maximum_flow_of_least_cost_beside_demands(self) -> None:
        """Other nodes' demands count as networkx counts them."""
        import networkx as nx

        G = nx.DiGraph()
        G.add_node("a", demand=-9)
        G.add_node("depot", demand=-2)
        G.add_node("shop", demand=2)
        G.add_edge("a", "b", capacity=3, weight=1)
        G.add_edge("depot", "shop", weight=4)
        for demand in (2, 3):
            G.nodes["shop"]["demand"] = demand
            ours = answered(backend.max_flow_min_cost, G, "a", "b")
            self.assertEqual(ours, answered(nx.max_flow_min_cost, G, "a", "b"))
            self.assertEqual(G.nodes["a"], {"demand": -9})
        G.nodes["shop"]["demand"] = 2
        self.assertEqual(backend.max_flow_min_cost(G, "a", "b")["depot"], {"shop": 2})

    def test_numbers(self) -> None:
        import networkx as nx

        G = nx.DiGraph()
        G.add_node("a", demand=Decimal("-0.3"))
        G.add_node("b", demand=Decimal("0.3"))
        G.add_edge("a", "b", weight=Fraction(1, 4))
        cost, flows = backend.network_simplex(G)
        self.assertEqual((cost, flows["a"]["b"]), (Decimal("0.075"), Decimal("0.3")))
        G.add_edge("a", "b", weight=Fraction(1, 3))
        with self.assertRaises(nx.NetworkXError):
            backend.network_simplex(G)
        G["a"]["b"]["weight"] = 1
        G.nodes["a"]["demand"], G.nodes["b"]["demand"] = -0.1 - 0.2, 0.3
        with self.assertRaises(nx.NetworkXUnfeasible):
            backend.network_simplex(G)

    @unittest.skipUnless(find_spec("numpy"), "no numpy here: its numbers in a graph are not tried")
    def test_infinite_numbers_of_numpy(self) -> None:
        import networkx as nx
        import numpy

        G = nx.DiGraph()
        G.add_node("a", demand=-4)
        G.add_node("b", demand=4)
        for kind in (numpy.float16, numpy.float32, numpy.float64):
            G.add_edge("a", "b", weight=2, capacity=kind("inf"))
            self.assertEqual(backend.network_simplex(G), nx.network_simplex(G))
            G.add_edge("a", "b", weight=kind("inf"), capacity=9)
            self.assertEqual(answered(backend.network_simplex, G), answered(nx.network_simplex, G))

    def test_great_capacities(self) -> None:
        import networkx as nx

        G = nx.DiGraph()
        G.add_edge("s", "t", capacity=3 * 10**9)
        self.assertEqual(backend.maximum_flow_value(G, "s", "t"), 3 * 10**9)
        G.add_edge("s", "t", capacity=10**15)
        with self.assertRaises(nx.NetworkXNotImplemented):
            backend.maximum_flow_value(G, "s", "t")

    def test_cutoff_and_residual(self) -> None:
        import networkx as nx

        G = nx.complete_graph(5)
        nx.set_edge_attributes(G, 1, "capacity")
        for cutoff, value in [(0, 0), (1, 1), (2.5, 2.5), (9, 4), (float("inf"), 4)]:
            R = backend.edmonds_karp(G, 0, 4, cutoff=cutoff)
            self.assertEqual(R.graph["flow_value"], value)
        again = backend.boykov_kolmogorov(G, 1, 2, residual=R)
        self.assertIs(again, R)
        self.assertEqual(R.graph["flow_value"], 4)

    def test_refused(self) -> None:
        import networkx as nx

        G = nx.DiGraph([(0, 1)])
        for function, error in [
            (lambda: backend.maximum_flow(G, 0, 0), nx.NetworkXError),
            (lambda: backend.maximum_flow(G, 0, 7), nx.NetworkXError),
            (lambda: backend.maximum_flow(G, 0, 1), nx.NetworkXUnbounded),
            (lambda: backend.maximum_flow(G, 0, 1, flow_func="dinitz"), nx.NetworkXError),
            (lambda: backend.maximum_flow(G, 0, 1, cutoff=3), nx.NetworkXError),
            (lambda: backend.minimum_cut(G, 0, 1, flow_func=nx.algorithms.flow.dinitz, cutoff=3), nx.NetworkXError),
            (lambda: backend.maximum_flow(G, 0, 1, flow_func=lambda *_: None), nx.NetworkXNotImplemented),
            (lambda: backend.maximum_flow(nx.MultiDiGraph(G), 0, 1), nx.NetworkXError),
            (lambda: backend.preflow_push(G, 0, 1, global_relabel_freq=-1), nx.NetworkXError),
            (lambda: backend.gomory_hu_tree(nx.Graph()), nx.NetworkXError),
            (lambda: backend.network_simplex(nx.Graph(G)), nx.NetworkXNotImplemented),
            (lambda: backend.network_simplex(nx.DiGraph()), nx.NetworkXError),
        ]:
            self.assertRaises(error, function)
        self.assertFalse(backend.can_run("maximum_flow", (G, 0, 1), {"flow_func": lambda *_: None}))
        self.assertTrue(backend.can_run("maximum_flow", (G, 0, 1), {}))
        self.assertTrue(backend.can_run("gomory_hu_tree", (G, "capacity", nx.algorithms.flow.dinitz), {}))

    def test_gomory_hu_tree(self) -> None:
        import networkx as nx

        G = nx.florentine_families_graph()
        nx.set_edge_attributes(G, 1, "capacity")
        T = backend.gomory_hu_tree(G)
        for other in set(G) - {"Medici"}:
            path = nx.shortest_path(T, "Medici", other)
            least = min(T[tail][head]["weight"] for tail, head in zip(path, path[1:]))
            self.assertEqual(least, nx.minimum_cut_value(G, "Medici", other))

    def test_time_limit(self) -> None:
        import networkx as nx

        G = nx.DiGraph([(0, 1, {"capacity": 1})])
        with self.assertRaises(TimeLimit):
            backend.maximum_flow(G, 0, 1, time_limit=0)
        with self.assertRaises(TimeLimit):
            Backend(time_limit=0).network_simplex(G)

    def test_what_networkx_is_told(self) -> None:
        told = info()
        self.assertEqual(sorted(told["functions"]), sorted(FUNCTIONS))
        for name in FUNCTIONS:
            self.assertTrue(callable(getattr(backend, name)))


if __name__ == "__main__":
    unittest.main()
