"""Tests that commands and calls of the Python package open each file once: pipes are read rightly, and a file that is
replaced or written meanwhile gives the answer of one of its states, or a failure."""

import itertools
import json
import os
import random
import sys
from collections.abc import Callable
from typing import Any

import pytest
from known import ROADS, ROADS_CANON
from needs import need_proc
from reading import GRAPHS, MOST, Text
from shared import bytes_of, write
from test_calls import READS, error_of, told
from test_folders import by_shell
from texts import lines_of

import dnorm
import dnorm.files
from dnorm.records import Reading, Record

pytestmark = READS
OTHER = b"p sp 1 1\na 1 1 1\n"
BAD = b"p sp 2 1\na 1 3 5\n"
SAME = "same\npairs: 0 only left, 0 only right, 5 in both, 0 of them different\n"
# Commands of bash, in which `dnorm` is `python3 -m dnorm`, with what they print and their status.
PIPES = [
    ("dnorm compare <(cat roads.gr) roads.gr", SAME, 0), ("dnorm compare roads.gr <(cat roads.gr)", SAME, 0),
    ("dnorm compare <(cat roads.gr) <(cat roads.gr)", SAME, 0),
    ("cat roads.gr | dnorm compare /dev/stdin roads.gr", SAME, 0),
    ("cat roads.gr | dnorm list --json /dev/stdin", None, 0), ("dnorm list --json <(cat roads.gr)", None, 0),
    ("dnorm list --json roads.gr", None, 0), ("dnorm check -q <(cat roads.gr)", "", 0),
]  # fmt: skip


def test_pipes() -> None:
    """Commands on pipes."""
    need_proc()
    write("roads.gr", ROADS)
    facts = {"nodes": 3, "declared": 7, "canonical": 5, "merged": 2, "checksum": dnorm.checksum(ROADS)}
    facts |= {"bytes": len(ROADS)}
    for words, out, status in PIPES:
        found = by_shell(words)
        assert found.status == status, f"the status of {words}: {found.err!r}"
        if out is None:
            record = json.loads(found.out.partition(b"\n")[0] or b"{}")
            assert {it: record.get(it) for it in facts} == facts, words
        else:
            assert found.out.decode() == out, words


class Meanwhile:
    """Counts how often each path is opened, and does something once the file `t.gr` was opened."""

    def __init__(self, change: Callable[[], object]) -> None:
        self.counts: dict[str, int] = {}
        self.change = change
        self._opened, self._mark_of = dnorm.files.opened, dnorm.files.mark_of

    def __enter__(self) -> "Meanwhile":
        setattr(dnorm.files, "opened", self._open)
        setattr(dnorm.files, "mark_of", self._mark)
        return self

    def __exit__(self, *_: object) -> None:
        setattr(dnorm.files, "opened", self._opened)
        setattr(dnorm.files, "mark_of", self._mark_of)

    def _open(self, path: Any, *more: Any) -> Any:
        self.counts[path] = self.counts.get(path, 0) + 1
        return self._opened(path, *more)

    def _mark(self, file: Any) -> Any:
        found = self._mark_of(file)
        if file.name == "t.gr":
            self.change()
        return found


def record_of(name: str, form: dnorm.answers.Form = 1) -> Record:
    found = Reading(form, tells="contents").record(name)
    if found.error:
        raise found.error
    return found._replace(seconds=0)


CALLS: dict[str, Callable[[], object]] = {
    "check": lambda: dnorm.check("t.gr"), "canon": lambda: dnorm.canon("t.gr"),
    "checksum": lambda: dnorm.checksum("t.gr"), "read": lambda: dnorm.read("t.gr"),
    "compare": lambda: dnorm.compare("t.gr", "other.gr"),
    "differences, left": lambda: dnorm.differences("t.gr", "other.gr"),
    "differences, right": lambda: dnorm.differences("other.gr", "t.gr"), "list": lambda: record_of("t.gr"),
}  # fmt: skip


def append() -> None:
    with open("t.gr", "ab") as file:
        file.write(b"c later\n")


def replace() -> None:
    write("new.gr", OTHER)
    os.replace("new.gr", "t.gr")


def test_meanwhile() -> None:
    """Files that are replaced or written once they were opened, and how often they are opened."""
    write("other.gr", ROADS_CANON)
    for text in [ROADS, BAD]:
        for name, call in CALLS.items():
            write("t.gr", text)
            wanted = told(call)
            with Meanwhile(replace) as opened:
                assert told(call) == wanted, f"{name} of {text!r:.20}, replaced"
            assert set(opened.counts.values()) == {1}, f"openings by {name} of {text!r:.20}"
            assert bytes_of("t.gr") == OTHER, f"{name} replaced it"
            write("t.gr", text)
            with Meanwhile(append):
                assert told(call) == CHANGED, f"{name} of {text!r:.20}, written"
    write("t.gr", BAD)
    with Meanwhile(replace):
        error = error_of(lambda: dnorm.check("t.gr"))
    assert (error.text, error.hint) == ("a 1 3 5", f"a SRC=1 DST=3 LENGTH=5\n{HINT}"), "the cause in what was opened"


CHANGED = "Read: t.gr: 31 Read (it changed while it was read)"
HINT = "NODES 2: nodes count from 1"
# The least and the greatest values of arcs and items.
WIDE = (-MOST - 1, MOST)
LIMITS = {"sp": [WIDE], "max": [(0, 2**40)], "min": [(0, 3), (3, 2**62), WIDE], "co": [WIDE, WIDE], "ss": [(1, 9)]}
LIMITS["p2p"] = [(1, 9), (1, 9)]


def wide_text(chance: random.Random, kind: str, nodes: int, count: int) -> bytes:
    """Returns a text with arcs of few pairs of nodes, or with items, often of numbers at their limits."""
    text = Text(kind, nodes, terminals={"s": nodes, "t": 1} if kind == "max" else {})
    text.flows = {chance.choice([1, nodes]): 5} if kind == "min" else {}
    ends = 2 if kind in GRAPHS else int(kind == "co")
    keys = [tuple(chance.choices([1, 2, 3, nodes - 1, nodes], k=ends)) for _ in range(count)]
    for key in dict.fromkeys(keys) if kind == "co" else keys:
        chosen = ([low + 2] * 9 + [low, high, low + 1, chance.randint(low, high)] for low, high in LIMITS[kind])
        text.items.append((*key, *[chance.choice(it) for it in chosen]))
    return "".join(f"{' '.join(it)}\n" for it in lines_of(chance, text)).encode()


@pytest.mark.parametrize("reader", ["numpy"], indirect=True)
def test_with_numpy(monkeypatch: pytest.MonkeyPatch) -> None:
    """That `differences` and `list` say the same with numpy and without it."""
    chance, accepted = random.Random(64), 0
    for kind, nodes, count in itertools.product(LIMITS, [4, 10**6, 2**62], [0, 1, 5, 40]):
        left, right = (wide_text(chance, kind, nodes, count) for _ in range(2))
        write("left", left)
        calls: list[Callable[[], object]] = [lambda: vars(dnorm.differences(left, right)), lambda: record_of("left", 2)]
        calls.append(lambda: vars(dnorm.differences(left, right, 2)))
        found = [*map(told, calls)]
        with monkeypatch.context() as patched:
            patched.setitem(vars(sys)["modules"], "numpy", None)
            assert [*map(told, calls)] == found, (left, right)
        accepted += "kind" in found[0]
    assert accepted > 40, "few are refused"
