"""The program and the library for C give the same answers on the oldest processors of x86-64 as on this one, on random
texts of some ten thousand arcs: small texts do not reach all instructions. qemu-x86_64 emulates the processors."""

import random

import pytest
from needs import need, need_here
from shared import PREFIX, ROOT, run, said

pytestmark = pytest.mark.slow
# One with nothing but what every x86-64 processor has, and two processors that lack x86-64-v2.
MODELS = ["qemu64,-sse3,-cx16", "Opteron_G1", "Conroe"]
ARCS, NODES = 20_000, 6_000
ARCHIVE = f"{PREFIX}/lib/libdnorm.a"


def text(kind: str) -> bytes:
    """Returns a text of this kind, whose arcs come in no order."""
    chance = random.Random(1)
    lines = [f"p {kind} {NODES} {ARCS}"]
    if kind == "max":
        lines += ["n 1 s", f"n {NODES} t"]
    for _ in range(ARCS):
        ends = f"a {chance.randint(1, NODES)} {chance.randint(1, NODES)}"
        numbers = {"sp": ["7"], "max": ["12345"], "min": ["2", "1234567890", "-31"]}[kind]
        lines.append(f"{ends} {' '.join(str(chance.randint(0, 9)) + it.lstrip('-') for it in numbers)}")
    return "".join(f"{it}\n" for it in lines).encode()


@pytest.fixture(scope="module", params=["program", "library"])
def built(request: pytest.FixtureRequest, tested: str, tmp_path_factory: pytest.TempPathFactory) -> str:
    """The program, or one of c/tests/library.cc, which prints canonical texts by the library."""
    need("qemu-x86_64")
    if request.param == "program":
        return tested
    need("c++")
    need_here(ARCHIVE)
    made = f"{tmp_path_factory.mktemp('processors')}/library"
    words = ["c++", "-std=c++17", "-o", made, f"-I{PREFIX}/include", f"{ROOT}/c/tests/library.cc", ARCHIVE]
    assert run(words) == said()
    return made


@pytest.mark.parametrize("kind", ["sp", "max", "min"])
def test_processors(built: str, kind: str) -> None:
    given = text(kind)
    here = run([built], given)
    assert (here.err, here.status) == (b"", 0)
    for model in MODELS:
        found = run(["qemu-x86_64", "-cpu", model, built], given)
        assert found == here, model
