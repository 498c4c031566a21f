"""Solves random small texts before and after `canon`, in both forms, with solvers that were not written for dnorm. The
least cost of a `min` text, the greatest value of a `max` text and all distances of an `sp` text must stay the same, and
must be missing after `canon` exactly if they were missing before. Each case draws its texts from a seed of its own,
which is its name; a quick run has one of four.

glpsol reads and solves each `min` and `max` text in a call of its own, which takes two milliseconds. It counts units on
self-loops of the source as value, before and after `canon`. networkx finds the distances of all `sp` texts in one
process."""

import json
import random
import re
import shutil
import subprocess

import pytest
from needs import leave_out, need, seeds
from reading import Text
from shared import ROOT, Quick, python_with
from texts import lines_of

# The texts of each seed.
COUNT = 500
SEEDS = seeds(4, 1)
OPTIONS = {"min": "--mincost", "max": "--maxflow"}
# The line that glpsol writes of a solution: the numbers of rows and columns, the primal and the dual status, which are
# `f` and `f` if the solution is optimal, and `n` first if no flow is feasible; and the value.
SOLUTION = re.compile(r"^s bas \d+ \d+ (?:(n) .|f f) (\S+)$", re.M)


def made(chance: random.Random, kind: str) -> bytes:
    """Returns a random text with parallel arcs and self-loops. At least one arc has a capacity above 0, since glpsol
    reads no text without arcs."""
    text = Text(kind, chance.randint(2, 6))
    nodes = range(1, text.nodes + 1)
    pairs = [(chance.choice(nodes), chance.choice(nodes)) for _ in range(chance.randint(1, 8))]
    least = chance.choice([0, 0, -1, -4])
    for at in range(chance.randint(1, 14)):
        pair, cap = chance.choice(pairs), chance.randint(0 if at else 1, 6)
        match kind:
            case "min":
                low = chance.choice([0, 0, chance.randint(0, 3)])
                text.items.append((*pair, low, low + cap, chance.randint(least, 9)))
            case "max":
                text.items.append((*pair, cap))
            case _:
                text.items.append((*pair, chance.randint(least, 9)))
    if kind == "min":
        text.flows = supplies(chance, text)
    if kind == "max":
        text.terminals = dict(zip("st", chance.sample(nodes, 2)))
    return "".join(" ".join(line) + "\n" for line in lines_of(chance, text)).encode()


def supplies(chance: random.Random, text: Text) -> dict[int, int]:
    """Returns the supplies that a random flow meets, sometimes with a few units more, which may be too many."""
    flows = dict.fromkeys(range(1, text.nodes + 1), 0)
    for src, dst, low, cap, _ in text.items:
        units = chance.randint(low, cap)
        flows[src] += units
        flows[dst] -= units
    if chance.random() < 0.4:
        more = chance.randint(1, 3)
        flows[chance.randint(1, text.nodes)] += more
        flows[chance.randint(1, text.nodes)] -= more
    return {node: flow for node, flow in flows.items() if flow}


def solved(glpsol: Quick, kind: str, text: bytes) -> float | None:
    """Returns the objective value that glpsol finds, or None if it finds that there is no feasible flow."""
    words = ["--nopresol", OPTIONS[kind], "/dev/stdin", "-w", "/dev/stdout"]
    told = glpsol.run(*words, given=text).out.decode()
    solution = SOLUTION.search(told)
    assert solution, f"glpsol does not solve {text!r}:\n{told}"
    return None if solution[1] else float(solution[2])


def canonical(often: Quick, text: bytes) -> list[bytes]:
    """Returns the canonical texts in both forms."""
    found = [often.run("canon", "--form", form, "-", given=text) for form in ("1", "2")]
    assert [(it.status, it.err) for it in found] == [(0, b"")] * 2, text
    return [it.out for it in found]


@pytest.mark.parametrize("seed", SEEDS)
@pytest.mark.parametrize("kind", OPTIONS)
def test_flows(often: Quick, kind: str, seed: int) -> None:
    need("glpsol")
    chance, glpsol, missing = random.Random(seed), Quick(shutil.which("glpsol") or ""), 0
    for _ in range(COUNT):
        text = made(chance, kind)
        wanted = solved(glpsol, kind, text)
        missing += wanted is None
        # Both forms of a `max` text are the same, so it is solved once.
        for canon in dict.fromkeys(canonical(often, text)):
            assert solved(glpsol, kind, canon) == wanted, f"after canon of {text!r}"
    assert (missing > 0) == (kind == "min"), "some min texts have no answer, and all max texts have one"


@pytest.mark.parametrize("seed", SEEDS)
def test_distances(often: Quick, seed: int) -> None:
    chance, python = random.Random(seed), python_with("networkx")
    texts = [made(chance, "sp") for _ in range(COUNT)]
    canons = [it for text in texts for it in canonical(often, text)]
    if not python:
        leave_out("networkx")
    given = json.dumps([text.decode() for text in texts + canons])
    words = [python, f"{ROOT}/tests/program/distances.py"]
    ran = subprocess.run(words, input=given, stdout=subprocess.PIPE, check=True, text=True)
    found: list[list[int | str | None]] = json.loads(ran.stdout)
    for at, text in enumerate(texts):
        for after in found[COUNT + 2 * at : COUNT + 2 * at + 2]:
            assert after == found[at], f"after canon of {text!r}"
    for it in (None, "unbounded"):
        assert any(it in row for row in found[:COUNT]), f"some distances are {it}"
