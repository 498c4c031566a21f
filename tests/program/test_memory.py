"""Failing allocations. On texts of all kinds, the small ones of known.py and random ones of some hundred arcs, each
command of the built program runs with its first allocation refused, then with its second, and so on, until a run makes
no more. Each of these runs reports out of memory and writes nothing to standard output, or gives the right answer. The
same is done for the test of the libraries that calls each function which reads a text or makes its canonical text.

A small library refuses the allocation. It needs a C compiler, and a program that loads libraries; the libraries must
have been built. test_host runs each program with little memory."""

import itertools
import os
import random
from collections.abc import Iterator

import pytest
from known import CANONICAL
from needs import leave_out
from preload import Preloaded, preloaded
from shared import ROOT, Answer, Words, run, said, write

pytestmark = pytest.mark.slow
# The library: it refuses the allocation with the number REFUSED.
REFUSING = """
#include <stdlib.h>

extern void *__libc_malloc(size_t size);
extern void *__libc_realloc(void *old, size_t size);

static long count;

static int refuses(void) {
    const char *number = getenv("REFUSED");
    if (!number || ++count != atol(number))
        return 0;
    tell("acted\\n");
    return 1;
}

void *malloc(size_t size) {
    return refuses() ? 0 : __libc_malloc(size);
}

void *realloc(void *old, size_t size) {
    return refuses() ? 0 : __libc_realloc(old, size);
}
"""
ARCS = 200
NODES = 40
# The tests of the libraries, built by `rt ci` or `rt test`.
LIBRARIES = f"{ROOT}/crates/dn_tests/out/dn_tests_tests"
# The test for refused allocations.
REFUSED = "memory::a_refused_growth"
# The arguments of each run; `graph` and `ids` are names of two texts in the folder.
COMMANDS = ["canon graph", "canon --form 2 graph", "show graph", "check graph", "check graph --with ids"]
COMMANDS += ["compare graph other"]


def graph(chance: random.Random, kind: str) -> str:
    """Returns a text of some hundred random arcs, many of them parallel."""
    lines = [f"p {kind} {NODES} {ARCS}"]
    if kind == "max":
        lines += ["n 1 s", f"n {NODES} t"]
    if kind == "min":
        lines += [f"n {id} {chance.randint(-5, 5)}" for id in range(1, NODES + 1)]
    for _ in range(ARCS):
        ends = f"a {chance.randint(1, NODES)} {chance.randint(1, 5)}"
        low, room, cost = chance.randint(0, 3), chance.randint(0, 9), chance.randint(-9, 9)
        numbers = {"sp": f"{cost}", "max": f"{room}", "min": f"{low} {low + room} {cost}"}
        lines.append(f"{ends} {numbers[kind]}")
    return "".join(f"{line}\n" for line in lines)


def companion(chance: random.Random, kind: str) -> str:
    """Returns a text of sources, queries or points of such a graph."""
    ids = chance.sample(range(1, NODES + 1), NODES)
    items = {
        "ss": [f"s {id}" for id in ids],
        "p2p": [f"q {id} {ids[0]}" for id in ids],
        "co": [f"v {id} {chance.randint(-99, 99)} 0" for id in ids],
    }
    return "".join(f"{line}\n" for line in [f"p aux sp {kind} {len(items[kind])}", *items[kind]])


def texts() -> Iterator[tuple[str, str, str, str]]:
    """Yields two texts of each kind, with a companion. It fits the first text if that is an `sp` graph."""
    chance = random.Random(1)
    for kind in ["sp", "max", "min"]:
        yield kind, graph(chance, kind), graph(chance, kind), companion(chance, "ss")
    for kind in ["ss", "p2p", "co"]:
        yield kind, companion(chance, kind), companion(chance, kind), companion(chance, "ss")
    # Companions of the other kinds.
    for kind in ["p2p", "co"]:
        yield f"sp and {kind}", graph(chance, "sp"), graph(chance, "sp"), companion(chance, kind)


TEXTS = [*texts()]


@pytest.fixture(scope="module")
def place(tmp_path_factory: pytest.TempPathFactory) -> str:
    return str(tmp_path_factory.mktemp("memory"))


@pytest.fixture(scope="module")
def refusing(tested: str, place: str) -> Preloaded:
    return preloaded(place, tested, REFUSING)


@pytest.fixture(scope="module")
def refusing_libraries(place: str) -> Preloaded:
    if not os.access(LIBRARIES, os.X_OK):
        leave_out("the built test of the libraries (rt ci makes it)")
    return preloaded(place, LIBRARIES, REFUSING)


def refusals(library: Preloaded, words: Words, given: bytes = b"") -> Iterator[tuple[int, Answer]]:
    """Yields the results of runs with the first allocation refused, then the second, and so on, until a run makes no
    more."""
    for number in itertools.count(1):
        found, is_refused = library.run(words, given, env={"REFUSED": str(number)})
        if not is_refused:
            return
        yield number, found


def check_command(library: Preloaded, words: list[str]) -> None:
    """Refuses each allocation of a command in turn. At least one run must report the refusal."""
    right, wants = run(words), 0
    told = [said(b"", f"{it}: 30 Memory\n", 4) for it in ["dnorm", *filter(os.path.exists, words[1:])]]
    for number, found in refusals(library, words):
        wants += found in told
        assert found in [right, *told], f"{words[1:]}: allocation {number} refused"
    assert wants, f"{words[1:]}: a run reports that memory ran out"


@pytest.mark.parametrize("text", [it[0] for it in CANONICAL], ids="{!r:.60}".format)
def test_small_text(tested: str, folder: str, refusing: Preloaded, text: bytes) -> None:
    write("graph", text)
    for words in ["canon graph", "show graph", "check graph", "compare graph graph"]:
        check_command(refusing, [tested, *words.split()])


@pytest.mark.parametrize("words", COMMANDS)
@pytest.mark.parametrize("left, right, fitting", [it[1:] for it in TEXTS], ids=[it[0] for it in TEXTS])
def test_random_text(
    tested: str, folder: str, refusing: Preloaded, left: str, right: str, fitting: str, words: str
) -> None:
    for name, text in [("graph", left), ("other", right), ("ids", fitting)]:
        write(name, text)
    check_command(refusing, [tested, *words.split()])


def check_libraries(library: Preloaded, text: bytes, canon: bytes) -> None:
    """Refuses each allocation of a test of the libraries in turn. The test reads from standard input the canonical text
    of a text in form 2, a byte 0, and the text, which may have more bytes 0."""
    numbers = 0
    for number, found in refusals(library, [LIBRARIES, REFUSED], canon + b"\0" + text):
        numbers = number
        assert found.status == 0, f"allocation {number} refused"
    assert numbers, f"{REFUSED} allocates"


@pytest.mark.parametrize("text, two", [(text, two) for text, _, two in CANONICAL], ids="{!r:.60}".format)
def test_libraries(folder: str, refusing_libraries: Preloaded, text: bytes, two: bytes) -> None:
    check_libraries(refusing_libraries, text, two)


@pytest.mark.parametrize("text", [it[1].encode() for it in TEXTS], ids=[it[0] for it in TEXTS])
def test_libraries_random(tested: str, folder: str, refusing_libraries: Preloaded, text: bytes) -> None:
    check_libraries(refusing_libraries, text, run([tested, "canon", "--form=2", "-"], text).out)
