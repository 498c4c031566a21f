"""Texts that were not written for dnorm: texts in the manner of the sample files of the First Challenge, with their
comments, and graphs of igraph's generators, which igraph writes as `max` texts. The program accepts each, its canonical
text poses the same problem, and glpsol finds the same value, which the comments of the samples tell.

Of Debian's packages, no other generator writes these formats: GLPK's three end by saying that they are disabled, and
LEMON's writes another format."""

import os
import shutil

import pytest
from needs import leave_out, need
from shared import Quick, bytes_of, python_with, run, said, write
from test_answers_kept import canonical, solved

pytestmark = pytest.mark.slow
SAMPLES = {
    "min": b"""c This is a simple example file to demonstrate the DIMACS
c input file format for minimum cost flow problems. The solution
c vector is [2,2,2,0,4] with cost at 14.
c
c Problem line (nodes, links)
p min 4 5
c
c Node descriptor lines (supply+ or demand-)
n 1 4
n 4 -4
c
c Arc descriptor lines (from, to, minflow, maxflow, cost)
a 1 2 0 4 2
a 1 3 0 2 2
a 2 3 0 2 1
a 2 4 0 3 3
a 3 4 0 5 1
c
c End of file
""",
    "max": b"""c This is a simple example file to demonstrate the
c DIMACS input file format for maximum flow problems.
c The solution vector is [5,10,5,0,5,5,10,5] with cost at 15.
c
c Problem line (nodes, links)
p max 6 8
c source
n 1 s
c sink
n 6 t
c
c Arc descriptor lines (from, to, capacity)
a 1 2 5
a 1 3 15
a 2 4 5
a 2 5 5
a 3 4 5
a 3 5 5
a 4 6 15
a 5 6 5
c
c End of file
""",
}
VALUES = {"min": 14, "max": 15}
# Writes graphs as `max` texts into this folder, with random capacities.
BY_IGRAPH = """
import igraph, random
random.seed(4)
made = {
    "erdos-renyi": igraph.Graph.Erdos_Renyi(n=40, m=200, directed=True, loops=True),
    "barabasi": igraph.Graph.Barabasi(60, 3, directed=True),
    "forest-fire": igraph.Graph.Forest_Fire(60, 0.3, directed=True),
    "geometric": igraph.Graph.GRG(50, 0.3),
    "lattice": igraph.Graph.Lattice([6, 7], directed=True),
}
for name, graph in made.items():
    graph.es["capacity"] = [random.randint(0, 1000) for _ in graph.es]
    graph.write_dimacs(f"{name}.max", 0, graph.vcount() - 1, "capacity")
"""


def kept(often: Quick, kind: str, name: str, text: bytes) -> None:
    """The text is accepted, and its canonical texts pose the same problem and are canonical."""
    write(name, text)
    assert often.run("check", name).out.startswith(f"accepted {kind}\n".encode()), name
    for form, canon in enumerate(canonical(often, text), 1):
        write("canon", canon)
        assert often.run("compare", name, "canon") == said("same\n"), f"{name}, form {form}"
        assert canonical(often, canon)[form - 1] == canon, f"{name}, form {form}"


@pytest.mark.parametrize("kind", VALUES)
def test_values(often: Quick, folder: str, kind: str) -> None:
    need("glpsol")
    kept(often, kind, "sample", SAMPLES[kind])
    glpsol = Quick(shutil.which("glpsol") or "")
    for text in [SAMPLES[kind], *canonical(often, SAMPLES[kind])]:
        assert solved(glpsol, kind, text) == VALUES[kind]


def test_igraph(often: Quick, folder: str) -> None:
    need("glpsol")
    python, glpsol = python_with("igraph"), Quick(shutil.which("glpsol") or "")
    if not python:
        leave_out("igraph")
    assert run([python, "-c", BY_IGRAPH]) == said()
    made = sorted(it for it in os.listdir() if it.endswith(".max"))
    assert len(made) == 5
    for name in made:
        text = bytes_of(name)
        kept(often, "max", name, text)
        assert {solved(glpsol, "max", it) for it in [text, *canonical(often, text)]} == {solved(glpsol, "max", text)}
