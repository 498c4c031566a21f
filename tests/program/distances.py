"""Reads a JSON list of `sp` texts from standard input, and writes a JSON list of their distances, which networkx finds.

The distances of a text are a list of one for each two nodes u and v, in ascending order: null if no walk leads from u
to v, and `unbounded` if walks from u to v pass a cycle of negative length."""

import importlib
import json
import sys
from typing import Any

nx: Any = importlib.import_module("networkx")


def graph_of(text: str) -> Any:
    """Returns the graph of a text without comments, in which parallel arcs stay apart."""
    lines = [line.split() for line in text.splitlines()]
    graph = nx.MultiDiGraph()
    graph.add_nodes_from(range(1, int(lines[0][2]) + 1))
    graph.add_weighted_edges_from((int(u), int(v), int(length)) for _, u, v, length in lines[1:])
    return graph


def distance(graph: Any, u: int, v: int) -> int | str | None:
    """Returns the distance between two nodes, by the part of the graph that walks from u to v can pass."""
    between = ({u} | nx.descendants(graph, u)) & ({v} | nx.ancestors(graph, v))
    if u not in between:
        return None
    try:
        length: int = nx.bellman_ford_path_length(graph.subgraph(between), u, v)
        return length
    except nx.NetworkXUnbounded:
        return "unbounded"


def distances(graph: Any) -> list[int | str | None]:
    found: list[int | str | None] = []
    for u in graph:
        try:
            lengths = nx.single_source_bellman_ford_path_length(graph, u)
            found += [lengths.get(v) for v in graph]
        except nx.NetworkXUnbounded:
            found += [distance(graph, u, v) for v in graph]
    return found


if __name__ == "__main__":
    json.dump([distances(graph_of(text)) for text in json.load(sys.stdin)], sys.stdout)
