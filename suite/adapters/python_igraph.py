#!/usr/bin/env python3
"""Answers what run.py --batch asks, by Graph.Read_DIMACS of igraph for Python, which reads `max` texts. What igraph
refuses is refused as 18 at the end, since igraph names no line; so this is for levels `challenge` and `accept`, and
with --accepted for level `canon`.

    run.py --batch --kind max --level accept python3 adapters/python_igraph.py

The capacities, which are doubles, are added here."""

import importlib
import json
import sys
from typing import Any

igraph: Any = importlib.import_module("igraph")


def answer(words: list[str]) -> str:
    """Returns the answer of a call."""
    path = words[-1]
    try:
        graph = igraph.Graph.Read_DIMACS(path, directed=True)
    except (igraph.InternalError, OSError):
        return f"{path}:end: 18 NoProblem"
    if words[0] == "check":
        return "accepted max"
    total: dict[tuple[int, int], float] = {}
    for edge in graph.es:
        pair = edge.source + 1, edge.target + 1
        total[pair] = total.get(pair, 0) + edge["capacity"]
    arcs = [f"a {tail} {head} {cap:.0f}" for (tail, head), cap in sorted(total.items()) if cap]
    heads = [f"n {graph['source'] + 1} s", f"n {graph['target'] + 1} t"]
    return json.dumps("\n".join([f"p max {graph.vcount()} {len(arcs)}", *heads, *arcs, ""]))


for line in sys.stdin:
    print(answer(line.rstrip("\n").split("\t")), flush=True)
