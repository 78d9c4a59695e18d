"""networkx' flow functions, answered by the proved solver.

From networkx 3.2 on, the backend is found by its entry point: `nx.network_simplex(G, backend="mcf")`. For an older one
the same functions are methods of `backend`:

>>> import networkx as nx                                                          # doctest: +SKIP
>>> from mcf_plan.networkx_backend import backend
>>> G = nx.DiGraph()                                                               # doctest: +SKIP
>>> G.add_node("depot", demand=-4)                                                 # doctest: +SKIP
>>> G.add_node("shop", demand=4)                                                   # doctest: +SKIP
>>> G.add_edge("depot", "shop", weight=2.5)                                        # doctest: +SKIP
>>> backend.network_simplex(G)                                                     # doctest: +SKIP
(10.0, {'depot': {'shop': 4}, 'shop': {}})

Arguments, results and exceptions are networkx'. Numbers are taken exactly, floats by their `repr`. Whole numbers come
back as int, others as float, or as Decimal where Decimal came in. What is beyond the limits of the formats raises
NetworkXNotImplemented, so that networkx answers itself where it may fall back. Each function takes `time_limit` in
seconds beside the arguments of networkx, and raises TimeLimit.
"""

from __future__ import annotations

import math
import numbers
from collections import deque
from decimal import Decimal
from fractions import Fraction
from typing import Any, Callable, Dict, Hashable, Iterable, List, Optional, Set, Tuple, Union

from .plan import Disagreement, Infeasible, Plan
from .problem import Problem, exact
from .program import Program
from .rewrite import BeyondLimits, Unbounded

Node = Hashable
Edge = Tuple[Node, Node, Any, Dict[Any, Any]]

ALGORITHMS = ("boykov_kolmogorov", "dinitz", "edmonds_karp", "preflow_push", "shortest_augmenting_path")
"""networkx' algorithms of maximum flow. Which of them is asked for makes no difference here."""

ALGORITHM_ARGUMENTS = {
    "boykov_kolmogorov": ("capacity", "residual", "value_only", "cutoff"),
    "dinitz": ("capacity", "residual", "value_only", "cutoff"),
    "edmonds_karp": ("capacity", "residual", "value_only", "cutoff"),
    "preflow_push": ("capacity", "residual", "global_relabel_freq", "value_only"),
    "shortest_augmenting_path": ("capacity", "residual", "value_only", "two_phase", "cutoff"),
}
"""Their arguments after graph, source and sink, in networkx' order."""

FUNCTIONS = ALGORITHMS + (
    "network_simplex",
    "capacity_scaling",
    "min_cost_flow",
    "min_cost_flow_cost",
    "max_flow_min_cost",
    "maximum_flow",
    "maximum_flow_value",
    "minimum_cut",
    "minimum_cut_value",
    "gomory_hu_tree",
)
"""The functions of networkx that are answered."""


def number(value: Any, what: str) -> Union[Decimal, float]:
    """The exact decimal of a number, or an infinite float. Raises NetworkXError where it is none."""
    if is_infinite(value):
        return math.inf if value > 0 else -math.inf
    try:
        return exact(value, what)
    except ValueError as error:
        import networkx as nx

        raise nx.NetworkXError(str(error)) from error


def is_infinite(value: Any) -> bool:
    """Whether a number is infinite, of either sign; short floats of numpy too, which are no floats of Python."""
    is_number = isinstance(value, numbers.Number)
    return is_number and value in (math.inf, -math.inf)


class Like:
    """Turns exact results into the type of the numbers that came in: int, Decimal (or Fraction), or float."""

    def __init__(self, values: Iterable[Any]):
        finite = [value for value in values if not is_infinite(value)]
        self.is_whole = all(isinstance(value, numbers.Integral) for value in finite)
        self.is_exact = all(isinstance(value, (numbers.Rational, Decimal)) for value in finite)

    def __call__(self, value: Decimal) -> Any:
        return int(value) if self.is_whole else value if self.is_exact else float(value)


def edges_of(G: Any) -> List[Edge]:
    """The edges of a graph with their keys (None where it is no multigraph) and attributes."""
    if G.is_multigraph():
        return list(G.edges(keys=True, data=True))
    return [(tail, head, None, data) for tail, head, data in G.edges(data=True)]


class LeastCost:
    """The problem of a directed graph with demands, capacities and weights."""

    def __init__(self, G: Any, demand: str, capacity: str, weight: str):
        self.graph = G
        self.nodes = list(G)
        self.edges = edges_of(G)
        demands = [G.nodes[node].get(demand, 0) for node in self.nodes]
        capacities = [data.get(capacity, math.inf) for _, _, _, data in self.edges]
        weights = [data.get(weight, 0) for _, _, _, data in self.edges]
        self.demands = [number(value, f"the demand of node {node!r}") for value, node in zip(demands, self.nodes)]
        self.capacities = [
            number(value, f"the capacity of edge {edge[:2]!r}") for value, edge in zip(capacities, self.edges)
        ]
        self.weights = [number(value, f"the weight of edge {edge[:2]!r}") for value, edge in zip(weights, self.edges)]
        self.like_amounts = Like(demands + capacities)
        self.like_costs = Like(demands + capacities + weights)

    def check_numbers(self) -> None:
        """Raises NetworkXError where a demand or a weight is infinite."""
        import networkx as nx

        for node, demand in zip(self.nodes, self.demands):
            if is_infinite(demand):
                raise nx.NetworkXError(f"node {node!r} has infinite demand")
        for (tail, head, _, _), weight in zip(self.edges, self.weights):
            if is_infinite(weight):
                raise nx.NetworkXError(f"edge {(tail, head)!r} has infinite weight")

    def check_feasible(self) -> None:
        """Raises NetworkXUnfeasible where demands do not add up to 0, or a capacity is below 0."""
        import networkx as nx

        if sum(map(Fraction, self.demands)) != 0:
            raise nx.NetworkXUnfeasible("total node demand is not zero")
        for (tail, head, _, _), capacity in zip(self.edges, self.capacities):
            if capacity < 0:
                raise nx.NetworkXUnfeasible(f"edge {(tail, head)!r} has negative capacity")

    def problem(self, *, with_demands: bool = True) -> Problem:
        """The problem; its nodes are named by their places, its arcs are in the order of the edges."""
        problem = Problem("min")
        names = {node: str(place) for place, node in enumerate(self.nodes)}
        for node, demand in zip(self.nodes, self.demands):
            problem.add_node(names[node], -demand if with_demands else 0)
        for (tail, head, _, _), capacity, weight in zip(self.edges, self.capacities, self.weights):
            problem.add_arc(names[tail], names[head], cap=capacity, cost=weight)
        return problem

    def result(self, plan: Plan) -> Tuple[Any, Dict[Node, Any]]:
        """Cost and flows of a plan, as networkx returns them."""
        flows: Dict[Node, Any] = {node: {} for node in self.nodes}
        for (tail, head, key, _), flow in zip(self.edges, plan.flows):
            if self.graph.is_multigraph():
                flows[tail].setdefault(head, {})[key] = self.like_amounts(flow)
            else:
                flows[tail][head] = self.like_amounts(flow)
        return self.like_costs(plan.cost), flows


class MaximumFlow:
    """A maximum flow of a graph, directed or not: `value`, and by edge what flows over it net."""

    def __init__(self, G: Any, source: Node, sink: Node, capacity: str):
        import networkx as nx

        for node in (source, sink):
            if node not in G:
                raise nx.NetworkXError(f"node {node!s} not in graph")
        if source == sink:
            raise nx.NetworkXError("source and sink are the same node")
        if G.is_multigraph():
            raise nx.NetworkXError("MultiGraph and MultiDiGraph not supported (yet).")
        self.graph, self.source, self.sink, self.attribute = G, source, sink, capacity
        self.capacities: Dict[Tuple[Node, Node], Any] = {}
        self.like = Like(data.get(capacity, math.inf) for _, _, data in G.edges(data=True))
        for tail, head, data in G.edges(data=True):
            bound = number(data.get(capacity, math.inf), f"the capacity of edge {(tail, head)!r}")
            if tail != head and bound > 0:
                self.capacities[tail, head] = bound
                if not G.is_directed():
                    self.capacities[head, tail] = bound
        self.value = Decimal(0)
        self.net: Dict[Tuple[Node, Node], Decimal] = {}

    def solve(self, solve: Callable[[Problem], Any], cutoff: Any) -> MaximumFlow:
        """Finds the flow. Beyond `cutoff`, where it is given, no more is sent."""
        import networkx as nx

        self.refuse_infinite_path()
        names = {node: str(place) for place, node in enumerate(self.graph)}
        problem = Problem("max", source=names[self.source], sink=names[self.sink])
        for name in names.values():
            problem.add_node(name)
        for (tail, head), bound in self.capacities.items():
            problem.add_arc(names[tail], names[head], cap=bound)
        if cutoff is not None and not is_infinite(cutoff):
            problem.source = "cutoff"
            problem.add_arc("cutoff", names[self.source], cap=max(number(cutoff, "the cutoff"), Decimal(0)))
            self.like = Like([cutoff, *(data.get(self.attribute, 0) for _, _, data in self.graph.edges(data=True))])
        try:
            plan = solve(problem)
        except Unbounded as unbounded:
            raise nx.NetworkXUnbounded(str(unbounded)) from unbounded
        self.value = plan.cost
        flows = dict(zip(self.capacities, plan.flows))
        self.net = {(tail, head): flow - flows.get((head, tail), 0) for (tail, head), flow in flows.items()}
        return self

    def refuse_infinite_path(self) -> None:
        """Raises NetworkXUnbounded where a path without any limit leads from source to sink."""
        import networkx as nx

        if self.sink in reached(self.source, [edge for edge, bound in self.capacities.items() if is_infinite(bound)]):
            raise nx.NetworkXUnbounded("Infinite capacity path, flow unbounded above.")

    def fill(self, R: Any, algorithm: str) -> Any:
        """Writes the flow to a residual network of networkx, and returns it."""
        for tail, head, data in R.edges(data=True):
            net = self.net.get((tail, head))
            data["flow"] = self.like(-self.net.get((head, tail), Decimal(0)) if net is None else net)
        R.graph["flow_value"] = self.like(self.value)
        R.graph["algorithm"] = algorithm
        return R

    def partition(self) -> Tuple[Set[Node], Set[Node]]:
        """The minimum cut that networkx tells: on the sink's side are the nodes from which the flow could grow."""
        unsaturated = []
        for (tail, head), bound in self.capacities.items():
            if self.net[tail, head] < Fraction(bound) if not is_infinite(bound) else True:
                unsaturated.append((head, tail))
            if self.net[tail, head] > 0 and (head, tail) not in self.capacities:
                unsaturated.append((tail, head))
        sink_side = reached(self.sink, unsaturated)
        source_side = set(self.graph) - sink_side
        crossing = sum(
            Fraction(bound)
            for (tail, head), bound in self.capacities.items()
            if tail in source_side and head in sink_side
        )
        if self.source in sink_side or crossing != Fraction(self.value):
            raise Disagreement(f"the cut has capacity {crossing}, and the flow {self.value}")
        return source_side, sink_side


def reached(start: Node, edges: List[Tuple[Node, Node]]) -> Set[Node]:
    """The nodes that edges lead to from a node, itself among them."""
    heads: Dict[Node, List[Node]] = {}
    for tail, head in edges:
        heads.setdefault(tail, []).append(head)
    seen, queue = {start}, deque([start])
    while queue:
        for head in heads.get(queue.popleft(), ()):
            if head not in seen:
                seen.add(head)
                queue.append(head)
    return seen


def plain(function: Any) -> Any:
    """A function of networkx itself, where its name stands for one that looks for a backend."""
    return getattr(function, "orig_func", function)


def _algorithm(name: str) -> Callable[..., Any]:
    """A function with the arguments of one of networkx' algorithms of maximum flow."""

    def answered(self: Backend, G: Any, s: Node, t: Node, *arguments: Any, **options: Any) -> Any:
        """The residual network of a maximum flow; its arguments are those of networkx, and `time_limit`."""
        given = {**dict(zip(ALGORITHM_ARGUMENTS[name], arguments)), **options}
        unknown = set(given) - {*ALGORITHM_ARGUMENTS[name], "time_limit"}
        if unknown or len(arguments) > len(ALGORITHM_ARGUMENTS[name]):
            raise TypeError(f"{name}() takes other arguments than {', '.join(sorted(unknown)) or 'so many'}")
        return self._residual_by(name, (G, s, t, given.pop("capacity", "capacity")), given)[0]

    answered.__name__ = name
    answered.__qualname__ = f"Backend.{name}"
    return answered


class Backend:
    """networkx' flow functions by the proved solver. `program` is what solves (None: as it is found), `time_limit` the
    seconds that a call may take where it says nothing else (None: no limit)."""

    def __init__(self, program: Optional[Program] = None, time_limit: Optional[float] = None):
        self.program = program
        self.time_limit = time_limit

    # -- what networkx asks of a backend

    @staticmethod
    def convert_from_nx(graph: Any, *arguments: Any, **options: Any) -> Any:
        """The graph itself: the backend reads graphs of networkx."""
        return graph

    @staticmethod
    def convert_to_nx(result: Any, *arguments: Any, **options: Any) -> Any:
        """The result itself."""
        return result

    @staticmethod
    def can_run(name: str, args: Tuple[Any, ...], kwargs: Dict[str, Any]) -> bool:
        """Whether a call can be answered: not where it brings an algorithm of its own as `flow_func`."""
        place = 2 if name == "gomory_hu_tree" else 4
        flow_func = kwargs.get("flow_func", args[place] if len(args) > place else None)
        if name not in ("maximum_flow", "maximum_flow_value", "minimum_cut", "minimum_cut_value", "gomory_hu_tree"):
            return True
        return flow_func is None or not callable(flow_func) or is_known(flow_func)

    def on_start_tests(self, items: List[Any]) -> None:
        """Lets networkx itself answer what its tests call and what is no flow, such as `is_connected`, by which they
        look at results: without this each such test would be passed over."""
        import networkx as nx
        from networkx.algorithms import flow

        for module in (flow, nx):
            for name in dir(module):
                function = getattr(module, name)
                if hasattr(function, "orig_func") and not hasattr(type(self), name):
                    setattr(self, name, plain(function))

    # -- least cost

    def network_simplex(
        self,
        G: Any,
        demand: str = "demand",
        capacity: str = "capacity",
        weight: str = "weight",
        *,
        time_limit: Optional[float] = None,
    ) -> Tuple[Any, Dict[Node, Any]]:
        """Cost and flows of a flow of least cost that meets all demands."""
        import networkx as nx

        refuse_undirected_or_empty(G)
        network = LeastCost(G, demand, capacity, weight)
        network.check_numbers()
        network.check_feasible()
        try:
            answer = self._solve(network.problem(), time_limit)
        except Unbounded as unbounded:
            raise nx.NetworkXUnbounded("negative cycle with infinite capacity found") from unbounded
        if isinstance(answer, Infeasible):
            raise nx.NetworkXUnfeasible("no flow satisfies all node demands")
        return network.result(answer)

    def capacity_scaling(
        self,
        G: Any,
        demand: str = "demand",
        capacity: str = "capacity",
        weight: str = "weight",
        heap: Any = None,
        *,
        time_limit: Optional[float] = None,
    ) -> Tuple[Any, Dict[Node, Any]]:
        """The same as `network_simplex`, with the exceptions of networkx' `capacity_scaling`; `heap` changes
        nothing."""
        import networkx as nx

        refuse_undirected_or_empty(G)
        network = LeastCost(G, demand, capacity, weight)
        if any(map(is_infinite, network.demands)):
            raise nx.NetworkXUnfeasible("Sum of the demands should be 0.")
        if any(map(is_infinite, network.weights)):
            raise nx.NetworkXUnfeasible("No flow satisfying all demands.")
        network.capacities = [max(bound, 0) for bound in network.capacities]
        network.check_feasible()
        try:
            answer = self._solve(network.problem(), time_limit)
            if isinstance(answer, Infeasible):
                # networkx tells first that there would be no least cost.
                self._solve(network.problem(with_demands=False), time_limit)
                raise nx.NetworkXUnfeasible("No flow satisfying all demands.")
        except Unbounded as unbounded:
            raise nx.NetworkXUnbounded(
                "Negative cost cycle of infinite capacity found. " "Min cost flow may be unbounded below."
            ) from unbounded
        return network.result(answer)

    def min_cost_flow(
        self,
        G: Any,
        demand: str = "demand",
        capacity: str = "capacity",
        weight: str = "weight",
        *,
        time_limit: Optional[float] = None,
    ) -> Dict[Node, Any]:
        """The flows of `network_simplex`."""
        return self.network_simplex(G, demand, capacity, weight, time_limit=time_limit)[1]

    def min_cost_flow_cost(
        self,
        G: Any,
        demand: str = "demand",
        capacity: str = "capacity",
        weight: str = "weight",
        *,
        time_limit: Optional[float] = None,
    ) -> Any:
        """The cost of `network_simplex`."""
        return self.network_simplex(G, demand, capacity, weight, time_limit=time_limit)[0]

    def max_flow_min_cost(
        self,
        G: Any,
        s: Node,
        t: Node,
        capacity: str = "capacity",
        weight: str = "weight",
        *,
        time_limit: Optional[float] = None,
    ) -> Dict[Node, Any]:
        """The flows of a maximum flow of least cost. As with networkx the maximum is that without demands, and demands
        of nodes other than `s` and `t` are met beside it, or NetworkXUnfeasible says that they can't be."""
        import networkx as nx

        most = self.maximum_flow_value(G, s, t, capacity=capacity, time_limit=time_limit)
        H = nx.DiGraph(G)
        H.nodes[s]["demand"], H.nodes[t]["demand"] = -most, most
        return self.min_cost_flow(H, capacity=capacity, weight=weight, time_limit=time_limit)

    # -- maximum flows and minimum cuts

    def maximum_flow(
        self, flowG: Any, _s: Node, _t: Node, capacity: str = "capacity", flow_func: Any = None, **options: Any
    ) -> Tuple[Any, Dict[Node, Any]]:
        """Value and flows of a maximum flow."""
        from networkx.algorithms.flow.utils import build_flow_dict

        R, flow = self._maximum_flow(flowG, _s, _t, capacity, (flow_func, options))
        return R.graph["flow_value"], plain(build_flow_dict)(flowG, R)

    def maximum_flow_value(
        self, flowG: Any, _s: Node, _t: Node, capacity: str = "capacity", flow_func: Any = None, **options: Any
    ) -> Any:
        """The value of a maximum flow."""
        return self._maximum_flow(flowG, _s, _t, capacity, (flow_func, options))[0].graph["flow_value"]

    def minimum_cut(
        self, flowG: Any, _s: Node, _t: Node, capacity: str = "capacity", flow_func: Any = None, **options: Any
    ) -> Tuple[Any, Tuple[Set[Node], Set[Node]]]:
        """Value and sides of a minimum cut, the same that networkx tells."""
        import networkx as nx

        if options.get("cutoff") is not None:
            raise nx.NetworkXError("cutoff should not be specified.")
        R, flow = self._maximum_flow(flowG, _s, _t, capacity, (flow_func, options))
        return R.graph["flow_value"], flow.partition()

    def minimum_cut_value(
        self, flowG: Any, _s: Node, _t: Node, capacity: str = "capacity", flow_func: Any = None, **options: Any
    ) -> Any:
        """The value of a minimum cut."""
        return self.minimum_cut(flowG, _s, _t, capacity, flow_func, **options)[0]

    def gomory_hu_tree(
        self, G: Any, capacity: str = "capacity", flow_func: Any = None, *, time_limit: Optional[float] = None
    ) -> Any:
        """The tree of minimum cuts of all pairs of nodes of an undirected graph; each of its cuts is checked."""
        from networkx.algorithms.flow.gomory_hu import gomory_hu_tree

        def answered(*arguments: Any, **options: Any) -> Any:
            return self.preflow_push(*arguments, time_limit=time_limit, **options)

        answered.__name__ = "preflow_push"
        refuse_foreign(flow_func)
        return plain(gomory_hu_tree)(G, capacity=capacity, flow_func=answered)

    boykov_kolmogorov = _algorithm("boykov_kolmogorov")
    dinitz = _algorithm("dinitz")
    edmonds_karp = _algorithm("edmonds_karp")
    preflow_push = _algorithm("preflow_push")
    shortest_augmenting_path = _algorithm("shortest_augmenting_path")

    # -- how

    def _solve(self, problem: Problem, time_limit: Optional[float]) -> Any:
        import networkx as nx

        limit = self.time_limit if time_limit is None else time_limit
        try:
            return problem.solve(self.program, time_limit=limit)
        except BeyondLimits as beyond:
            raise nx.NetworkXNotImplemented(f"beyond the limits of mcf: {beyond}") from beyond

    def _maximum_flow(
        self, G: Any, source: Node, sink: Node, capacity: str, how: Tuple[Any, Dict[str, Any]]
    ) -> Tuple[Any, MaximumFlow]:
        """The residual network and the flow, for a call with `flow_func` and its options."""
        import networkx as nx

        flow_func, options = how
        if flow_func is None and set(options) - {"time_limit"}:
            raise nx.NetworkXError(
                "You have to explicitly set a flow_func if" " you need to pass parameters via kwargs."
            )
        if flow_func is not None and not callable(flow_func):
            raise nx.NetworkXError("flow_func has to be callable.")
        refuse_foreign(flow_func)
        return self._residual_by(getattr(flow_func, "__name__", "preflow_push"), (G, source, sink, capacity), options)

    def _residual_by(
        self, algorithm: str, what: Tuple[Any, Node, Node, str], options: Dict[str, Any]
    ) -> Tuple[Any, MaximumFlow]:
        """The residual network and the flow, by an algorithm with its options."""
        import networkx as nx
        from networkx.algorithms.flow.utils import build_residual_network

        frequency = options.get("global_relabel_freq")
        if frequency is not None and frequency < 0:
            raise nx.NetworkXError("global_relabel_freq must be nonnegative.")
        limit = options.get("time_limit")
        flow = MaximumFlow(*what).solve(lambda problem: self._solve(problem, limit), options.get("cutoff"))
        R = options.get("residual")
        if R is None:
            R = plain(build_residual_network)(what[0], what[3])
        return flow.fill(R, algorithm), flow


def is_known(flow_func: Any) -> bool:
    """Whether a function is one of networkx' algorithms of maximum flow, or of this module."""
    name, module = getattr(flow_func, "__name__", ""), str(getattr(flow_func, "__module__", ""))
    return name in ALGORITHMS and module.partition(".")[0] in ("networkx", "mcf_plan")


def refuse_foreign(flow_func: Any) -> None:
    """Raises NetworkXNotImplemented where `flow_func` is an algorithm of the caller's own."""
    if flow_func is not None and callable(flow_func) and not is_known(flow_func):
        import networkx as nx

        raise nx.NetworkXNotImplemented("the backend mcf takes networkx' own algorithms as flow_func alone")


def refuse_undirected_or_empty(G: Any) -> None:
    """Raises NetworkXNotImplemented where a graph is undirected, NetworkXError where it has no node."""
    import networkx as nx

    if not G.is_directed():
        raise nx.NetworkXNotImplemented("not implemented for undirected type")
    if len(G) == 0:
        raise nx.NetworkXError("graph has no nodes")


backend = Backend()
"""What the entry point names; its methods are the functions, for any networkx."""


def info() -> Dict[str, Any]:
    """What networkx tells of the backend in its documents."""
    summary = "Flows of least cost, maximum flows and minimum cuts by a solver that is proved; each answer is checked."
    parameter = {"time_limit : float, optional": "Seconds after which TimeLimit is raised (default: no limit)."}
    function = {
        "extra_docstring": summary,
        "extra_parameters": parameter,
        "additional_docs": summary,
        "additional_parameters": parameter,
    }
    return {
        "backend_name": "mcf",
        "project": "mcf",
        "package": "mcf_plan",
        "short_summary": summary,
        "functions": {name: function for name in FUNCTIONS},
    }
