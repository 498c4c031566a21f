"""A page of ordinary use of the Python package. `mypy --strict` must accept it, which tools/lint tries; test_instances
runs it in the folder examples."""

from __future__ import annotations

import importlib.util
import sys
from typing import Literal, Optional

# This puts the folder of the package on the path.
import dnorm


def cost_of(path: str) -> Optional[int]:
    """Returns the cost of the arcs of a `min` problem if all are full, and None for another kind."""
    graph = dnorm.read(path, 2)
    if graph.kind != "min":
        return None
    if 1 in graph.supplies:
        print("node 1 supplies", graph.supplies[1])
    return sum(cap * cost for _, _, _, cap, cost in graph.arcs())


def longest(path: str) -> int:
    """Returns the greatest length of an `sp` graph."""
    graph = dnorm.read(path)
    if graph.kind == "sp":
        return int(max(graph.lengths))
    if isinstance(graph, dnorm.Max):
        raise ValueError(f"{path} has the source {graph.source}")
    raise ValueError(f"{path} is {graph.kind}")


def first_difference(left: str, right: str) -> str:
    """Returns where two texts differ."""
    found = dnorm.compare(left, right)
    if not found:
        tail, head = found.pair or (0, 0)
        return f"{found.what} of {tail} {head}"
    return str(found)


def excess(left: str, right: str) -> str:
    """Returns by how much the right value of the first difference exceeds the left one."""
    found = dnorm.compare(left, right)
    if found:
        return "none"
    if found.what == "kind":
        return f"{found.left.upper()} and {found.right.upper()}"
    if found.what == "cost":
        return f"{(found.right or 0) - (found.left or 0)} at {found.amount + 0} from {found.pair[0]}"
    if found.what == "nodes" or found.what == "supply" or found.what == "capacity":
        return str(found.right - found.left)
    return str(found.left or 0)


def refusal_of(text: bytes) -> tuple[Optional[int], str]:
    """Returns the line and the word of the refusal of a text."""
    try:
        checked = dnorm.check(text)
    except dnorm.Refused as error:
        return error.line, error.word
    return None, f"{checked.kind} {checked.forms}"


def sums(graph: dnorm.Sp) -> tuple[int, int]:
    """Returns a sum and a count by numpy."""
    lengths = graph.lengths
    return int(lengths.sum()), int((lengths > 3).sum())


def by_others(graph: dnorm.Sp) -> str:
    """Returns what networkx, scipy and pandas say of a graph, whose edges are not parallel."""
    network, matrix, frame = graph.to_networkx(), graph.to_scipy(), graph.to_pandas()
    again = dnorm.from_networkx("sp", network), dnorm.from_scipy("sp", matrix)
    least = min(int(it.lengths.min()) for it in again)
    return f"{network.number_of_edges()} edges, {matrix.nnz} entries, {len(frame)} rows, {least} the least"


def rows_of(graph: dnorm.Sp, flow: dnorm.Min, form: Literal[1, 2]) -> int:
    """Returns a sum over the rows of instances, each of which has a type of its own."""
    # mypy accepts neither for rows of any length.
    arc: tuple[int, int, int] = next(graph.arcs())
    row: tuple[int, int, int, int, int] = next(iter(flow))
    total = sum(length for _, _, length in graph) + sum(cap - low for _, _, low, cap, _ in flow.rows())
    total += 0 * (arc[2] + row[4])
    companion = dnorm.from_arrays("ss", sources=[form])
    forms = dnorm.check(companion).forms
    return total + sum(source for (source,) in companion) + len(dnorm.canon(flow, forms[0]))


def wrong(graph: dnorm.Sp) -> None:
    """Calls that a type checker refuses: mypy complains of a comment below that ignores nothing."""
    dnorm.canon(graph, 3)  # type: ignore[arg-type]
    dnorm.from_networkx("sp", graph.to_networkx(), source=1)  # type: ignore[call-overload]
    dnorm.from_scipy("max", graph.to_scipy())  # type: ignore[call-overload]


def main() -> int:
    print(cost_of("flow.min"), cost_of("roads.gr"), longest("roads.gr"))
    print(first_difference("flow.min", "flow-cheaper.min"), first_difference("flow.min", "flow.min"))
    print(excess("flow.min", "flow-cheaper.min"), excess("flow.min", "roads.gr"))
    print(refusal_of(b"p sp 1 1\na 1 2 3\n"), refusal_of(b"p sp 1 0\n"))
    made = dnorm.from_arrays(dnorm.Sp, nodes=2, tails=[1, 1], heads=[2, 2], lengths=[7, 4])
    # What was printed before goes first.
    sys.stdout.flush()
    dnorm.write(made, sys.stdout.buffer)
    print(len(made), [length for _, _, length in made.arcs()])
    flow = dnorm.read("flow.min", 2)
    assert isinstance(flow, dnorm.Min)
    print(rows_of(made, flow, 2))
    if importlib.util.find_spec("numpy"):
        print(sums(made))
    if all(map(importlib.util.find_spec, ["networkx", "scipy", "pandas"])):
        print(by_others(dnorm.from_arrays("sp", nodes=3, tails=[1, 2], heads=[2, 3], lengths=[7, 4])))
    return 0


if __name__ == "__main__":
    sys.exit(main())
