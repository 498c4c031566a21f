"""The commands of the built program on small texts with known answers: the tables of known.py. Each run is made as it
is, and with reads and writes of one byte each, two of three of which are interrupted first. A small library makes them
slow: it needs a C compiler, and a program that loads libraries."""

import pytest
from known import Row, rows
from preload import Preloaded, preloaded
from shared import Answer, run, write

# The library: two of three calls are interrupted, and the third one takes a byte.
SLOW = """
#include <errno.h>

static unsigned calls;

static int is_interrupted(void) {
    if (!calls)
        tell("acted\\n");
    errno = EINTR;
    return ++calls % 3;
}

ssize_t read(int from, void *into, size_t size) {
    return is_interrupted() ? -1 : syscall(SYS_read, from, into, size ? 1 : 0);
}

ssize_t write(int to, const void *bytes, size_t size) {
    return is_interrupted() ? -1 : syscall(SYS_write, to, bytes, size ? 1 : 0);
}
"""
ROWS = [*rows()]
pytestmark = pytest.mark.usefixtures("folder")


@pytest.fixture(scope="module", name="slow")
def slow_library(tested: str, tmp_path_factory: pytest.TempPathFactory) -> Preloaded:
    return preloaded(str(tmp_path_factory.mktemp("slow")), tested, SLOW)


def words_of(row: Row, tested: str) -> list[str]:
    """Makes the files of a row in this folder, and returns the words of its run."""
    for name in row.named.keys() - {"-"}:
        write(name, row.named[name])
    return [tested, *row.words.split()]


@pytest.mark.parametrize("row", [it for it in ROWS if it.status != 2], ids=Row.name)
def test_answer(tested: str, row: Row) -> None:
    found = run(words_of(row, tested), row.named.get("-", b""))
    assert found == Answer(row.out, row.err, row.status), row.named


@pytest.mark.parametrize("row", [it for it in ROWS if it.status == 2], ids=Row.name)
def test_refusal(tested: str, row: Row) -> None:
    test_answer(tested, row)


@pytest.mark.parametrize("row", ROWS, ids=Row.name)
def test_slow(tested: str, slow: Preloaded, row: Row) -> None:
    found, is_slow = slow.run(words_of(row, tested), row.named.get("-", b""))
    assert found == Answer(row.out, row.err, row.status), row.named
    assert is_slow, "no read or write was slow"
