"""Flows on the arc lines of a text. Solvers of c/examples in C, C++, Rust and Python read random texts with their arc
lines, solve them over canonical arcs, and put the flow back on the lines. This file reads the texts and the flows by
itself: each line has units within its bounds, the units of each node balance, and the cost is the least one that glpsol
finds for the lines."""

import os
import re
import sys
from random import Random
from typing import NamedTuple

import pytest
from builds import by_rustc, solver
from needs import leave_out, need
from shared import ROOT, run, said, write

pytestmark = [pytest.mark.slow, pytest.mark.usefixtures("folder")]
EXAMPLES = f"{ROOT}/c/examples"
SEEDS = range(12)
# Where glpsol says the least cost.
COST = re.compile(r"^Objective:.* (-?[0-9.e+]+) \(MIN", re.M)


class Line(NamedTuple):
    """An arc line of a text."""

    tail: int
    head: int
    low: int
    cap: int
    cost: int


class Network(NamedTuple):
    """A `min` text, and what it says."""

    text: str
    nodes: int
    flows: dict[int, int]
    lines: list[Line]


def network(chance: Random) -> Network:
    """Returns a random text with parallel lines, loops, lower bounds and negative costs that has a flow."""
    nodes = chance.randint(1, 6)
    lines, flows = [], dict.fromkeys(range(1, nodes + 1), 0)
    for _ in range(chance.choice([0, 3, 12, 40])):
        tail, head = chance.randint(1, nodes), chance.randint(1, min(3, nodes))
        low = chance.choice([0, 0, chance.randint(0, 4)])
        cap = low + chance.choice([0, 1, chance.randint(0, 9)])
        lines.append(Line(tail, head, low, cap, chance.randint(-5, 9)))
        units = chance.randint(low, cap)
        flows[tail] += units
        flows[head] -= units
    text = ["c a 1 2 3 4 5", f"p min {nodes} {len(lines)}"]
    text += [f"n {node}  {flow}" for node, flow in flows.items() if flow or chance.random() < 0.3]
    for it in lines:
        plus = chance.choice(["", "+"])
        text += [""] * (chance.random() < 0.1) + ["c a 1 1 0 1 1"] * (chance.random() < 0.1)
        text.append(f"a {it.tail}\t{it.head} {it.low} {plus}{it.cap} {it.cost}" + " " * chance.randint(0, 1))
    return Network("\n".join(text) + chance.choice(["", "\n"]), nodes, flows, lines)


def least_cost(it: Network) -> int:
    """Returns the least cost that glpsol finds for the lines."""
    # glpsol takes no loop: each has its own least cost. Nor does it take a network without arcs.
    rows = [f"n {node} {flow}\n" for node, flow in it.flows.items() if flow]
    arcs = [line for line in it.lines if line.tail != line.head]
    fixed = sum(min(line.low * line.cost, line.cap * line.cost) for line in it.lines if line.tail == line.head)
    if not arcs:
        return fixed
    rows += [f"a {' '.join(map(str, line))}\n" for line in arcs]
    write("network.min", f"p min {it.nodes} {len(arcs)}\n" + "".join(rows))
    ran = run(["glpsol", "--mincost", "network.min", "-o", "answer"])
    assert ran.status == 0, ran.out
    with open("answer", encoding="ascii") as answer:
        found = COST.search(answer.read())
    assert found, ran.out
    return fixed + round(float(found[1]))


def check_flow(it: Network, out: str) -> None:
    """Checks a flow on the arc lines."""
    first, *rows = out.splitlines()
    assert [row.split()[:3] for row in rows] == [["f", str(line.tail), str(line.head)] for line in it.lines]
    units = [int(row.split()[3]) for row in rows]
    assert all(line.low <= number <= line.cap for line, number in zip(it.lines, units)), "bounds"
    left = dict(it.flows)
    for line, number in zip(it.lines, units):
        left[line.tail] -= number
        left[line.head] += number
    assert not any(left.values()), "the balance of nodes"
    cost = sum(line.cost * number for line, number in zip(it.lines, units))
    assert (first, cost) == (f"s {cost}", least_cost(it))


@pytest.mark.parametrize("name", ["cost_scaling.c", "least_cost.cc", "least_cost.py"])
def test_least_costs(c_library: str, folder: str, name: str) -> None:
    need("glpsol")
    if name == "least_cost.py" and run([sys.executable, "-c", "import scipy.optimize"]).status:
        leave_out("scipy")
    words = [sys.executable, f"{EXAMPLES}/{name}"] if name.endswith(".py") else [solver(name, c_library, folder)]
    own = {"PYTHONPATH": f"{ROOT}/python/src", "DNORM_LIBRARY": f"{c_library}/lib/libdnorm.so.3"}
    for seed in SEEDS:
        it = network(Random(seed))
        if name.endswith(".py") and not it.lines:
            continue
        write("text.min", it.text)
        ran = run([*words, "text.min"], env={**os.environ, **own})
        assert (ran.status, ran.err) == (0, b""), it.text
        check_flow(it, ran.out.decode())


def roads(chance: Random) -> tuple[str, list[tuple[int, int, int]], list[int]]:
    """Returns a random `sp` text with parallel lines, its lines, and some sources."""
    nodes = chance.randint(1, 8)
    ends = [(chance.randint(1, nodes), chance.randint(1, nodes)) for _ in range(chance.choice([0, 5, 30]))]
    lines = [(*it, chance.randint(0, 5)) for it in ends]
    text = f"p sp {nodes} {len(lines)}\n" + "".join(f"a {a} {b} {length}\n" for a, b, length in lines)
    return text, lines, chance.choices(range(1, nodes + 1), k=chance.randint(0, 6))


def distances_from(source: int, lines: list[tuple[int, int, int]]) -> dict[int, int]:
    """Returns the distances from a node, by looking at all lines as long as one is found to be shorter."""
    found, is_changed = {source: 0}, True
    while is_changed:
        is_changed = False
        for tail, head, length in lines:
            if tail in found and found[tail] + length < found.get(head, 10**9):
                found[head], is_changed = found[tail] + length, True
    return found


def test_greatest_flow_in_rust(c_library: str, folder: str) -> None:
    by_rustc(c_library, folder, f"{EXAMPLES}/push_relabel.rs")
    write("pipes", b"p max 3 2\nn 1 s\nn 3 t\na 1 2 7\na 2 3 5\n")
    assert run(["./push_relabel", "pipes"]) == said("greatest flow 5\n")
    full = run(["sh", "-c", 'exec "$@" > /dev/full', "sh", "./push_relabel", "pipes"])
    assert full == said(b"", "No space left on device (os error 28)\n", 2)


def test_distances(c_library: str, folder: str) -> None:
    """Four threads of the solver in Rust find all shortest paths, and which lines these go over."""
    by_rustc(c_library, folder, f"{EXAMPLES}/distances.rs")
    for seed in SEEDS:
        text, lines, sources = roads(Random(seed))
        write("text.gr", text)
        write("text.ss", f"p aux sp ss {len(sources)}\n" + "".join(f"s {it}\n" for it in sources))
        ran = run(["./distances", "text.gr", "text.ss"])
        assert (ran.status, ran.err) == (0, b""), text
        found = [distances_from(it, lines) for it in sources]
        rows = [it.split() for it in ran.out.decode().splitlines()]
        wanted = [["d", str(node), str(sum(it.values()))] for node, it in zip(sources, found)]
        wanted += [["f", str(tail), str(head)] for tail, head, _ in lines]
        assert [it[:3] for it in rows] == wanted, text
        units = [int(it[3]) for it in rows[len(sources) :]]
        all_ = sum(sum(it.values()) for it in found)
        assert sum(number * length for number, (_, _, length) in zip(units, lines)) == all_
        # Each path ends at its node, and begins at its source.
        into = {node: 0 for it in found for node in it}
        for number, (tail, head, _) in zip(units, lines):
            assert number >= 0
            into[tail] = into.get(tail, 0) - number
            into[head] = into.get(head, 0) + number
        ends = {node: sum(node in it for it in found) for node in into}
        for source, it in zip(sources, found):
            ends[source] -= len(it)
        assert into == ends, text
