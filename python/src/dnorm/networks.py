"""Instances from graphs of networkx and matrices of scipy."""

from array import array
from collections.abc import Callable
from typing import Any, Literal, Optional, TypeVar, Union, overload

from .columns import numbers_of
from .instances import Graph, Max, Min, Sp, class_of, from_arrays, whole

AnyGraph = TypeVar("AnyGraph", bound=Graph)
Node = Optional[int]
Edges = list[tuple[Any, Any, dict[str, Any]]]
# The name of an attribute of edges, a function of tail, head and attributes, or None, as networkx takes them.
Weight = Union[str, Callable[[Any, Any, dict[str, Any]], Any], None]


@overload
def from_networkx(kind: Literal["sp"], graph: Any, *, weight: Weight = ...) -> Sp:
    ...


@overload
def from_networkx(
    kind: Literal["max"], graph: Any, *, capacity: str = ..., source: Node = ..., sink: Node = ...
) -> Max:
    ...


@overload
def from_networkx(
    kind: Literal["min"], graph: Any, *, weight: Weight = ..., capacity: str = ..., low: str = ..., demand: str = ...
) -> Min:
    ...


@overload
def from_networkx(
    kind: type[AnyGraph],
    graph: Any,
    *,
    weight: Weight = ...,
    capacity: str = ...,
    low: str = ...,
    demand: str = ...,
    source: Node = ...,
    sink: Node = ...,
) -> AnyGraph:
    ...


def from_networkx(
    kind: Any,
    graph: Any,
    *,
    weight: Weight = "weight",
    capacity: str = "capacity",
    low: str = "low",
    demand: str = "demand",
    source: Node = None,
    sink: Node = None,
) -> Any:
    """Returns the `Sp`, `Max` or `Min` that a directed graph of networkx is, with the attributes that `to_networkx`
    writes. The nodes are the numbers from 1 on: `networkx.convert_node_labels_to_integers(graph, first_label=1)` makes
    them so. The class may be given by its kind.

    `Sp` takes the attribute `weight` of the edges as their lengths. `Max` takes `capacity` of the edges, and the
    terminals `source` and `sink`, by default from `graph.graph`. `Min` takes `demand` of the nodes, or 0, and of the
    edges `capacity`, `weight`, and `low`, or 0, which is the flow that was sent beforehand. The keywords name other
    attributes. As in networkx, `weight` may also be a function of an edge's ends and attributes. With `weight=None` all
    lengths are 1, or all costs 0.

    Raises ValueError for other nodes, undirected edges, and edges without a weight, or without a capacity, which have
    no bound; TypeError for numbers that are not whole, and terminals of another class; OverflowError above 64 bits."""
    made = class_of(kind)
    if made not in (Sp, Max, Min):
        raise TypeError(f"from_networkx makes Sp, Max and Min, and not {made.__name__}")
    ends = {"source": source, "sink": sink}
    check_terminals(made, ends)
    if not graph.is_directed():
        raise ValueError("the graph is undirected: graph.to_directed() has an arc in each direction")
    if {*graph} != {*range(1, len(graph) + 1)}:
        raise ValueError(f"the {len(graph)} nodes are not the numbers 1 to {len(graph)}")
    edges = list(graph.edges(data=True))
    tails, heads = ([it[at] for it in edges] for at in (0, 1))
    values: dict[str, Any] = {"nodes": len(graph), "tails": tails, "heads": heads}
    if made is Sp:
        return from_arrays(Sp, lengths=weights_of(edges, weight, 1), **values)
    capacities = of_edges(capacity, edges, attributes_of(edges, capacity))
    if made is Max:
        missing = [it for it, node in ends.items() if node is None and it not in graph.graph]
        if missing:
            raise ValueError(f"the graph has no attribute {' and no '.join(missing)}, and the call no such argument")
        terminals = {it: graph.graph[it] if node is None else node for it, node in ends.items()}
        return from_arrays(Max, capacities=capacities, **terminals, **values)
    lows = of_edges(low, edges, [data.get(low, 0) for _, _, data in edges])
    caps = of_edges(f"{low} with the {capacity}", edges, [it + more for it, more in zip(lows, capacities)])
    # The flows of the nodes before the lower bounds were sent.
    flows = {node: -whole(f"the {demand} of node {node}", it) for node, it in graph.nodes(data=demand, default=0)}
    for (tail, head, _), it in zip(edges, lows):
        flows[tail] += it
        flows[head] -= it
    supplies = {node: flow for node, flow in sorted(flows.items()) if flow}
    return from_arrays(Min, lows=lows, caps=caps, supplies=supplies, costs=weights_of(edges, weight, 0), **values)


def check_terminals(made: type[Graph], ends: dict[str, Optional[int]]) -> None:
    """Raises TypeError if terminals are given to a class that has none."""
    given = [name for name, it in ends.items() if it is not None]
    if given and made is not Max:
        raise TypeError(f"{made.__name__} takes no {' and no '.join(given)}")


def of_edges(what: str, edges: Edges, numbers: list[Any]) -> "array[int]":
    """Returns what edges have, a number each. Errors name the edge, and call its number by this name."""
    name = "the {} of the edge from {} to {} is {!r}".format
    return numbers_of(numbers, lambda place: name(what, *edges[place][:2], numbers[place]))


def weights_of(edges: Edges, weight: Weight, default: int) -> "array[int]":
    """Returns the weights of edges. Without a weight, each is the default."""
    if weight is None:
        return array("q", [default]) * len(edges)
    if callable(weight):
        return of_edges("weight", edges, [weight(*it) for it in edges])
    hint = f": weight=None gives each edge {default}, and weight=NAME takes another attribute"
    return of_edges(weight, edges, attributes_of(edges, weight, hint))


def attributes_of(edges: Edges, name: str, hint: str = "") -> list[Any]:
    """Returns an attribute of edges. The hint ends the message of the error if an edge lacks the attribute."""
    for tail, head, data in edges:
        if name not in data:
            raise ValueError(f"the edge from {tail} to {head} has no {name}{hint}")
    return [data[name] for _, _, data in edges]


@overload
def from_scipy(kind: Union[Literal["sp"], type[Sp]], matrix: Any) -> Sp:
    ...


@overload
def from_scipy(kind: Union[Literal["max"], type[Max]], matrix: Any, *, source: int, sink: int) -> Max:
    ...


def from_scipy(kind: Any, matrix: Any, *, source: Node = None, sink: Node = None) -> Any:
    """Returns the `Sp` or `Max` that a sparse matrix of scipy is: the entry in row i and column j is the length or the
    capacity of the arc from node i + 1 to node j + 1, also if it is stored and 0. `source` and `sink` are nodes, as in
    `from_arrays`: they are greater by 1 than the rows that `scipy.sparse.csgraph.maximum_flow` takes.

    Raises TypeError for what is no sparse matrix, for numbers that are not whole, and for terminals of `Sp`; ValueError
    for a matrix that is not square, or has two entries at one place; and OverflowError for numbers above 64 bits."""
    made = class_of(kind)
    if made not in (Sp, Max):
        raise TypeError(f"from_scipy makes Sp and Max, and not {made.__name__}")
    check_terminals(made, {"source": source, "sink": sink})
    entries = entries_of(matrix)
    # The indices may have 32 bits, which hold one more than the last one.
    values = {"nodes": entries.shape[0], "tails": entries.row + 1, "heads": entries.col + 1}
    if made is Sp:
        return from_arrays(Sp, lengths=entries.data, **values)
    if source is None or sink is None:
        raise TypeError("source and sink are missing: the nodes of the terminals, which count from 1")
    return from_arrays(Max, capacities=entries.data, source=source, sink=sink, **values)


def entries_of(matrix: Any) -> Any:
    """Returns a sparse matrix as its entries, if each is a whole number with a place of its own."""
    if not hasattr(matrix, "tocoo"):
        hint = "scipy.sparse.csr_matrix(..) makes one, without the entries that are 0"
        raise TypeError(f"a sparse matrix is wanted, and not {type(matrix).__name__}: {hint}")
    entries = matrix.tocoo()
    if len(entries.shape) != 2 or entries.shape[0] != entries.shape[1]:
        raise ValueError(f"the matrix is not square: its shape is {entries.shape}")
    if entries.nnz and entries.data.dtype.kind not in "iu":
        first = f"{entries.data[0]} in row {entries.row[0]} and column {entries.col[0]}"
        hint = "matrix.astype(int) rounds towards 0"
        raise TypeError(f"the matrix has numbers of {entries.data.dtype}, as {first}, and not of int: {hint}")
    alone = entries.copy()
    alone.sum_duplicates()
    if alone.nnz != entries.nnz:
        raise ValueError("the matrix has two entries at one place: matrix.sum_duplicates() adds them")
    return entries
