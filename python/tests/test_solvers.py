"""Random instances with parallel arcs before and after they are canonicalised, solved by networkx and scipy through the
Python package. The optimum must be the same. Each case has a seed of its own."""

import importlib.util
import io
import operator
import random
from typing import Any

import pytest
from needs import leave_out, seeds
from reading import Text, canonical
from test_calls import FORMS, READS, told
from texts import lines_of

import dnorm

pytestmark = [*READS, pytest.mark.parametrize("reader", ["numpy"], indirect=True)]
for it in ["networkx", "scipy"]:
    if not importlib.util.find_spec(it):
        leave_out(it)
networkx: Any = importlib.import_module("networkx")
csgraph: Any = importlib.import_module("scipy.sparse.csgraph")
optimize: Any = importlib.import_module("scipy.optimize")


@pytest.fixture(params=seeds(12, 0))
def chance(request: pytest.FixtureRequest, reader: str) -> random.Random:
    return random.Random(request.param)


def grid(chance: random.Random, side: int) -> list[tuple[int, int]]:
    """Returns the pairs of the arcs of a grid of nodes, in any order. Some arcs are parallel, and some are loops."""
    pairs = []
    for at in range(1, side * side + 1):
        near = [at + 1] * (at % side > 0) + [at + side] * (at + side <= side * side)
        pairs += [it for other in near for it in [(at, other), (other, at)] * chance.choice([1, 1, 2, 3])]
        pairs += [(at, at)] * chance.choice([0, 0, 1])
    chance.shuffle(pairs)
    return pairs


def bytes_of(chance: random.Random, text: Text) -> bytes:
    """Returns the bytes of a text, spelled as any solver reads it."""
    return "".join(f"{' '.join(line)}\n" for line in lines_of(chance, text)).encode()


def test_shortest(chance: random.Random) -> None:
    """Compares the distances in an `sp` graph, whose lengths may be below 0 but have no negative cycle."""
    side = chance.randint(3, 9)
    height = [chance.randint(-50, 50) for _ in range(side * side + 1)]
    text = Text("sp", side * side)
    text.items = [(u, v, chance.randint(0, 20) + (height[u] - height[v])) for u, v in grid(chance, side)]
    before = networkx.MultiDiGraph()
    before.add_weighted_edges_from(text.items)
    found = dnorm.read(bytes_of(chance, text))
    assert isinstance(found, dnorm.Sp)
    after, matrix = found.to_networkx(), found.to_scipy()
    assert sorted(after) == [*range(1, text.nodes + 1)], "nodes"
    for source in chance.sample(range(1, text.nodes + 1), 3):
        wanted = dict(networkx.single_source_bellman_ford_path_length(before, source))
        assert dict(networkx.single_source_bellman_ford_path_length(after, source)) == wanted, "distances"
        distances = csgraph.bellman_ford(matrix, indices=source - 1).tolist()
        assert {at + 1: it for at, it in enumerate(distances)} == wanted, "distances by scipy"


def by_networkx(found: dnorm.Instance) -> int:
    """Returns the optimum of a `max` or `min` problem, which is that of the flow on its arcs."""
    assert isinstance(found, (dnorm.Max, dnorm.Min))
    graph = found.to_networkx()
    if isinstance(found, dnorm.Max):
        optimum, by_edges = networkx.maximum_flow(graph, graph.graph["source"], graph.graph["sink"])
        flow = found.flow_of(by_edges).tolist()
        values = [(tail == found.source) - (head == found.source) for tail, head, _ in found.arcs()]
    else:
        ends = [*zip(found.tails.tolist(), found.heads.tolist())]
        assert sorted((key, u, v) for u, v, key in graph.edges) == [(at, *it) for at, it in enumerate(ends)], "keys"
        optimum, by_edges = networkx.network_simplex(graph)
        optimum += graph.graph["cost"]
        flow, values = found.flow_of(by_edges).tolist(), found.costs.tolist()
        assert all(low <= units <= cap for units, low, cap in zip(flow, found.lows, found.caps))
    assert sum(map(operator.mul, values, flow)) == optimum, "the flow on the arcs"
    return int(optimum)


def by_scipy(found: dnorm.Instance) -> int:
    """Returns the greatest flow of a `max` problem with small numbers."""
    assert isinstance(found, dnorm.Max)
    matrix = found.to_scipy().astype("int32")
    return int(csgraph.maximum_flow(matrix, found.source - 1, found.sink - 1).flow_value)


def test_greatest(chance: random.Random) -> None:
    """Compares the greatest flow of a `max` problem. Before, each arc has a node of its own in its middle, since
    networkx takes no parallel arcs there."""
    side = chance.randint(3, 7)
    text = Text("max", side * side, terminals={"t": side * side, "s": 1})
    text.items = [(u, v, chance.choice([0, chance.randint(1, 20)])) for u, v in grid(chance, side)]
    before = networkx.DiGraph()
    before.add_nodes_from([1, side * side])
    for at, (u, v, cap) in enumerate(text.items):
        before.add_edges_from([(u, -1 - at), (-1 - at, v)], capacity=cap)
    given = bytes_of(chance, text)
    after, wanted = dnorm.read(given), networkx.maximum_flow_value(before, 1, side * side)
    assert [by_networkx(after), by_scipy(after)] == [wanted] * 2, "greatest flows"


def test_cheapest(chance: random.Random) -> None:
    """Compares the least cost of a `min` problem with lower bounds. A flow within the bounds gives the supplies."""
    side = chance.randint(2, 6)
    text = Text("min", side * side)
    balance = dict.fromkeys(range(1, side * side + 1), 0)
    for u, v in grid(chance, side):
        low = chance.choice([0, 0, chance.randint(1, 5)])
        cap = low + chance.randint(0, 9)
        text.items.append((u, v, low, cap, chance.randint(-3, 9)))
        flow = chance.randint(low, cap)
        balance[u] += flow
        balance[v] -= flow
    text.flows = {node: flow for node, flow in balance.items() if flow or chance.random() < 0.3}
    given = bytes_of(chance, text)
    wanted = least_cost(text)
    found = [solve(dnorm.read(given, form)) for form in FORMS for solve in (by_networkx, by_linear_program)]
    assert found == [wanted] * len(found), "least costs"


def by_linear_program(found: dnorm.Instance) -> int:
    """Returns the least cost of a `min` problem as a linear program."""
    assert isinstance(found, dnorm.Min)
    incidence, supplies = found.to_scipy()
    bounds = list(zip(found.lows.tolist(), found.caps.tolist()))
    return int(round(optimize.linprog(found.costs, A_eq=incidence, b_eq=supplies, bounds=bounds).fun))


def test_networks(chance: random.Random) -> None:
    for _ in range(20):
        same_networks(chance)


def same_networks(chance: random.Random) -> None:
    """Compares the texts of graphs of networkx with what they say, and graphs that were read with what they give back.
    Edges are parallel where networkx lets them, and attributes that have a default are often missing."""
    graph, nodes = networkx.MultiDiGraph(source=2, sink=1), chance.randint(2, 6)
    graph.add_nodes_from(range(1, nodes + 1))
    texts = {dnorm.Sp: Text("sp", nodes), dnorm.Max: Text("max", nodes, terminals={"s": 2, "t": 1})}
    texts[dnorm.Min] = Text("min", nodes, flows=dict.fromkeys(range(1, nodes + 1), 0))
    for _ in range(chance.choice([0, 1, 5, 20])):
        tail, head = chance.choices(range(1, nodes + 1), k=2)
        low, capacity = chance.choice([0, 1]), chance.randint(0, 9)
        data = {"capacity": capacity, "weight": chance.randint(0, 5)}
        graph.add_edge(tail, head, **data, **({"low": low} if low else {}))
        texts[dnorm.Sp].items.append((tail, head, data["weight"]))
        texts[dnorm.Max].items.append((tail, head, capacity))
        texts[dnorm.Min].items.append((tail, head, low, capacity + low, data["weight"]))
        texts[dnorm.Min].flows[tail] += low
        texts[dnorm.Min].flows[head] -= low
    for node in chance.sample(range(1, nodes + 1), 2):
        graph.nodes[node]["demand"] = chance.randint(-9, 9)
        texts[dnorm.Min].flows[node] -= graph.nodes[node]["demand"]
    for kind, text in texts.items():
        target = io.BytesIO()
        dnorm.write(dnorm.from_networkx(kind, graph), target)
        given = target.getvalue()
        assert dnorm.canon(given) == canonical(text, 1), f"{given!r}, of networkx"
        found: Any = dnorm.read(given)
        assert dnorm.from_networkx(kind, found.to_networkx()) == found, f"{given!r}, to networkx and back"


INFINITE = float("inf")


def arc(source: int = 1, sink: int = 2, **attributes: object) -> Any:
    """Returns a graph of networkx with an edge of these attributes."""
    graph = networkx.DiGraph(source=source, sink=sink)
    given: dict[str, Any] = {"capacity": 1, "weight": 1, **attributes}
    graph.add_edge(1, 2, **given)
    return graph


def demanding(node: int, demand: float) -> Any:
    """Returns such a graph whose node has this demand."""
    graph = arc()
    graph.nodes[node]["demand"] = demand
    return graph


def test_unfit() -> None:
    """Graphs of networkx that are no instance, and instances with parallel arcs."""
    directed = networkx.DiGraph([(1, 2)])
    rows: list[tuple[Any, Any, str]] = [
        (dnorm.Sp, networkx.Graph([(1, 2)]), "ValueError: the graph is undirected: "),
        (dnorm.Sp, networkx.DiGraph([(0, 1)]), "ValueError: the 2 nodes are not the numbers 1 to 2"),
        (dnorm.Sp, networkx.DiGraph([("a", "b")]), "ValueError: the 2 nodes are not the numbers 1 to 2"),
        (dnorm.Sp, networkx.DiGraph([(1, 2, {"weight": 5}), (2, 1, {"weight": 0.5})]),
            "TypeError: the weight of the edge from 2 to 1 is 0.5: '"),
        (dnorm.Sp, arc(weight=5.0), "TypeError: the weight of the edge from 1 to 2 is 5.0: 'float' object cannot be "),
        (dnorm.Min, arc(weight="5"), "TypeError: the weight of the edge from 1 to 2 is '5': 'str' object cannot be "),
        (dnorm.Max, arc(capacity=INFINITE), "TypeError: the capacity of the edge from 1 to 2 is inf: 'float' object "),
        (dnorm.Min, arc(capacity=INFINITE), "TypeError: the capacity of the edge from 1 to 2 is inf: 'float' object "),
        (dnorm.Min, arc(low=0.5), "TypeError: the low of the edge from 1 to 2 is 0.5: 'float' object cannot be "),
        (dnorm.Sp, arc(weight=2**63), "OverflowError: the weight of the edge from 1 to 2 is 9223372036854775808: "),
        (dnorm.Min, arc(low=2**63 - 1), "OverflowError: the low with the capacity of the edge from 1 to 2 is 922337"),
        (dnorm.Min, demanding(1, 1.5), "TypeError: the demand of node 1: 'float' object cannot be interpreted as an "),
        (dnorm.Min, demanding(2, 2**63), "OverflowError: the demand of node 2 is 9223372036854775808, which does not "),
        (dnorm.Max, arc(source=1, sink=3), "ValueError: sink is 3, which is no node of 1 to 2: nodes count from 1"),
        (dnorm.Max, networkx.DiGraph([(1, 2)], source=1, sink=2), "ValueError: the edge from 1 to 2 has no capacity"),
        (dnorm.Max, networkx.DiGraph([(1, 2, {"capacity": 1})], sink=2),
            "ValueError: the graph has no attribute source"),
        (dnorm.Min, directed, "ValueError: the edge from 1 to 2 has no capacity"),
        (dnorm.Ss, networkx.DiGraph([(1, 2, {"capacity": 1})]), "TypeError: from_networkx makes Sp, Max and Min"),
        (dnorm.Sp, networkx.DiGraph([(1, 2, {"length": 5})]), "ValueError: the edge from 1 to 2 has no weight: "),
        ("min", networkx.DiGraph([(1, 2, {"capacity": 5})]), "ValueError: the edge from 1 to 2 has no weight: "),
    ]  # fmt: skip
    for kind, graph, wanted in rows:
        found = told(lambda: dnorm.from_networkx(kind, graph))
        assert found.startswith(wanted), f"{graph.edges(data=True)}: {found}"
    ends = {"nodes": 2, "tails": [1, 1], "heads": [2, 2]}
    parallel = dnorm.from_arrays(dnorm.Max, **ends, capacities=[7, 4], source=1, sink=2)
    lengths = dnorm.from_arrays(dnorm.Sp, **ends, lengths=[7, 4])
    for call in [parallel.to_networkx, parallel.to_scipy, lengths.to_networkx, lengths.to_scipy]:
        assert told(call).startswith("ValueError: arcs are parallel: "), "parallel arcs"
    first: dict[str, Any] = {"nodes": 2, "tails": [0], "heads": [1]}
    beyond: list[Any] = [
        dnorm.from_arrays("sp", **first, lengths=[1]),
        dnorm.from_arrays("max", **first, capacities=[1], source=1, sink=2),
        dnorm.from_arrays("min", **first, caps=[1], costs=[1]),
    ]
    wanted = "ValueError: tails has a node that is none of 1 to 2: nodes count from 1"
    for it in beyond:
        assert [told(it.to_networkx), told(it.to_scipy)] == [wanted] * 2, "arcs from node 0"


def test_options() -> None:
    """The attributes that from_networkx takes, and matrices of scipy."""
    graph = networkx.DiGraph([(1, 2, {"length": 5, "room": 7}), (2, 3, {"length": 6, "room": 8})])
    rows: list[tuple[dict[str, Any], list[int]]] = [
        ({"weight": "length"}, [5, 6]),
        ({"weight": None}, [1, 1]),
        ({"weight": lambda tail, head, data: 10 * tail + head + data["length"]}, [17, 29]),
    ]
    for words, wanted in rows:
        found: Any = dnorm.from_networkx("sp", graph, **words)
        assert found.lengths.tolist() == wanted, f"lengths by {words}"
    # Its types take none of these.
    made_by: Any = dnorm.from_networkx
    for name in ["sp", dnorm.Min]:
        told_ = told(lambda: made_by(name, graph, capacity="room", weight=None, source=1))
        assert told_.endswith(" takes no source"), told_
    networkx.set_edge_attributes(graph, {(2, 3): {"room": 8, "length": 6, "half": 0.5}})
    wrong_words: list[tuple[dict[str, Any], str]] = [
        ({"weight": "half"}, "ValueError: the edge from 1 to 2 has no half"),
        ({"low": "half"}, "TypeError: the half of the edge from 2 to 3 is 0.5: "),
        ({"demand": "half"}, "ValueError: the edge from 1 to 2 has no weight"),
        ({"weight": lambda tail, head, data: tail / 2}, "TypeError: the weight of the edge from 1 to 2 is 0.5: "),
    ]
    for words, begin in wrong_words:
        told_ = told(lambda: made_by("min", graph, **{"capacity": "room", **words}))
        assert told_.startswith(begin), f"{words}: {told_}"
    found = dnorm.from_networkx(dnorm.Max, graph, capacity="room", source=1, sink=3)
    assert (found.source, found.sink, found.capacities.tolist()) == (1, 3, [7, 8]), "a max graph"
    costs = dnorm.from_networkx(dnorm.Min, graph, capacity="room", weight=None)
    assert (costs.costs.tolist(), costs.caps.tolist()) == ([0, 0], [7, 8]), "costs"
    sparse: Any = importlib.import_module("scipy.sparse")
    entries = ([4, 0, 9], ([0, 1, 2], [2, 0, 2]))
    for matrix in [sparse.csr_matrix(entries, shape=(3, 3)), sparse.coo_matrix(entries, shape=(3, 3))]:
        made = dnorm.from_scipy(dnorm.Sp, matrix)
        assert sorted(made.rows()) == [(1, 3, 4), (2, 1, 0), (3, 3, 9)], "a matrix"
        assert abs(made.to_scipy() - matrix).sum() == 0, "there and back"
        flow = dnorm.from_scipy("max", matrix, source=1, sink=3)
        assert (flow.source, flow.sink, flow.nodes) == (1, 3, 3), "terminals are nodes"
        again = dnorm.from_scipy("max", flow.to_scipy(), source=flow.source, sink=flow.sink)
        assert (again.source, again.sink, sorted(again)) == (1, 3, sorted(flow)), "there and back"
    # Its types take none of these.
    made_of: Any = dnorm.from_scipy
    wrong: list[tuple[Any, Any, dict[str, int], str]] = [
        ("sp", sparse.csr_matrix((2, 3), dtype=int), {}, "ValueError: the matrix is not square: its shape is (2, 3)"),
        ("sp", sparse.csr_matrix([[0, 0.5], [0, 0]]), {},
            "TypeError: the matrix has numbers of float64, as 0.5 in row "),
        ("sp", sparse.csr_matrix([[7]]).toarray(), {}, "TypeError: a sparse matrix is wanted, and not ndarray: scipy."),
        ("sp", [[7]], {}, "TypeError: a sparse matrix is wanted, and not list: "),
        ("sp", sparse.coo_matrix(([3, 4], ([0, 0], [0, 0]))), {},
            "ValueError: the matrix has two entries at one place"),
        ("sp", sparse.csr_matrix([[1]]), {"sink": 1}, "TypeError: Sp takes no sink"),
        ("max", sparse.csr_matrix([[1]]), {}, "TypeError: source and sink are missing: the nodes"),
        ("max", flow.to_scipy(), {"source": 0, "sink": 2},
            "ValueError: source is 0, which is no node of 1 to 3: nodes"),
        ("max", flow.to_scipy(), {"source": 1, "sink": 4}, "ValueError: sink is 4, which is no node of 1 to 3: nodes"),
        (dnorm.Min, sparse.csr_matrix([[1]]), {}, "TypeError: from_scipy makes Sp and Max, and not Min"),
    ]  # fmt: skip
    for kind, matrix, words, begin in wrong:
        told_ = told(lambda: made_of(kind, matrix, **words))
        assert told_.startswith(begin), f"{begin}: {told_}"


def test_frames() -> None:
    """Instances as tables of pandas."""
    if not importlib.util.find_spec("pandas"):
        leave_out("pandas")
    found = dnorm.read(b"p min 2 2\na 1 2 0 3 -4\na 1 2 0 5 6\n").to_pandas()
    wanted = {"tails": [1, 1], "heads": [2, 2], "lows": [0, 0], "caps": [3, 5], "costs": [-4, 6]}
    assert (found.to_dict("list"), {str(it) for it in found.dtypes}) == (wanted, {"int64"}), "a table"


def least_cost(text: Text) -> int:
    """Returns the least cost of a `min` problem as it stands. The units of a lower bound are an edge of their own,
    which is so cheap that it is always full."""
    cheap = 1 + sum(abs(cost) * cap for _, _, _, cap, cost in text.items)
    graph = networkx.MultiDiGraph()
    graph.add_nodes_from((node, {"demand": -text.flows.get(node, 0)}) for node in range(1, text.nodes + 1))
    for u, v, low, cap, cost in text.items:
        graph.add_edge(u, v, weight=cost - cheap, capacity=low)
        graph.add_edge(u, v, weight=cost, capacity=cap - low)
    return int(networkx.network_simplex(graph)[0]) + cheap * sum(it[2] for it in text.items)
