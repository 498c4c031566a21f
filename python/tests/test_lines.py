"""Tests that `read` returns the arc lines of a text beside its instance, and that a flow on the arcs is put back on the
lines; where the arcs of each node are; and the calls of suite/calls.json."""

import json
import os
import pickle
import random
from array import array
from collections.abc import Iterable
from typing import Any

import pytest
from known import CANONICAL, FLOWS, REFUSED, ROADS
from needs import pass_over
from shared import ROOT, bytes_of, text_of, write
from test_calls import BOTH, COLUMNS, FORMS, READS, told
from texts import lines_of, made, spelled

import dnorm
from dnorm.files import Text
from dnorm.library import KINDS, WHAT, held
from dnorm.limits import Limit

pytestmark = [*READS, BOTH]
ROUNDS = 60
CASES: list[dict[str, Any]] = json.loads(text_of(f"{ROOT}/suite/calls.json"))["cases"]


def need_spread() -> None:
    """Passes over the test if the library cannot spread a flow, as that of 3.0.0."""
    if not hasattr(dnorm.library.library(), "dnorm_spread"):
        pass_over("dnorm_spread")


def in_lines(*rows: Iterable[object]) -> str:
    return "".join(f"{' '.join(map(str, it))}\n" for it in rows)


def padded(rows: Iterable[tuple[int, ...]], width: int) -> str:
    """Returns lines of so many numbers, the last ones 0."""
    return in_lines(*(it + (0,) * (width - len(it)) for it in rows))


def facts(text: bytes) -> str:
    with held(Text(text, Limit(None, "-"))) as it:
        return in_lines([it.kind, it.nodes, it.lines, it.pairs, it.count(None)])


def items(found: dnorm.instances.AnyInstance) -> str:
    if isinstance(found, dnorm.Max):
        return padded([(found.source, found.sink)], 3)
    return padded(found.supplies.items() if isinstance(found, dnorm.Min) else found, 3)


def compared(left: bytes, right: bytes) -> str:
    found = dnorm.compare(left, right)
    if found:
        return in_lines([0] * 5 + ["none"] * 2)
    is_kind, is_pair = found.what == "kind", found.pair is not None
    values = [KINDS.index(str(it)) if is_kind else it for it in (found.left, found.right)]
    at, to = found.pair or (found.node or 0, 0)
    numbers = [WHAT.index("pair" if is_pair else found.what), at, to, found.place or 0, found.amount or 0]
    return in_lines(numbers + ["none" if it is None else it for it in values])


def fitting(graph: bytes, companion: bytes) -> str:
    try:
        dnorm.check(graph, companion)
    except dnorm.Refused as error:
        if error.number in (35, 36):
            return in_lines([error.number, error.node or 0])
        raise
    return in_lines([0, 0])


def answer_of(case: dict[str, Any]) -> str:
    """Returns what a call of suite/calls.json gives."""
    text, other = (it and it.encode() for it in (case["text"], case.get("other", case["text"])))
    call: str = case["call"]
    form: Any = int(case.get("form", 1))
    if call in ("facts", "compare", "fits"):
        return facts(text) if call == "facts" else (compared if call == "compare" else fitting)(text, other)
    if call == "canon":
        return dnorm.canon(text, form).decode()
    found: Any = dnorm.read(text, form)
    both: Any = dnorm.read(other, form, lines=True)
    graph, lines = both
    if call == "lines":
        return in_lines(*zip(lines.numbers, lines.tails, lines.heads, lines.a, lines.b, lines.c))
    if call == "spread":
        units = [int(it) for it in case["flow"].split()]
        return in_lines(lines.spread(found if other != text else graph, units))
    if call == "star":
        return in_lines(*found.star())
    if call == "arc_count":
        return in_lines([len([*found.arcs()])])
    return items(found) if call == "items" else padded(found.arcs(), 5)


@pytest.mark.parametrize("case", CASES, ids=[it["name"] for it in CASES])
def test_calls(reader: str, case: dict[str, Any]) -> None:
    if case["call"] == "spread":
        need_spread()
    if case.get("form", "1") not in ("1", "2"):
        with pytest.raises(ValueError, match="form is 1 or 2"):
            answer_of(case)
        return
    try:
        found = {"answer": answer_of(case)}
    except dnorm.Refused as error:
        found = {"code": str(error.number)}
    except (TypeError, AttributeError, ValueError) as error:
        found = {"code": "42" if isinstance(error, ValueError) else "40"}
    assert found == {it: case[it] for it in ("answer", "code") if it in case}


def given_lines(text: bytes) -> list[list[int]]:
    """Returns the arc lines of an accepted text: the number of the line, and its numbers."""
    rows = enumerate((it.split() for it in text.split(b"\n")), 1)
    return [[number, *map(int, words[1:]), 0, 0][:6] for number, words in rows if words[:1] == [b"a"]]


def check_lines(text: bytes, form: dnorm.answers.Form) -> None:
    """Checks the lines of a text, and that flows within the bounds of the arcs are within those of the lines."""
    found, lines = dnorm.read(text, form, lines=True)
    assert found == dnorm.read(text, form) and lines.kind == found.kind
    columns = (lines.numbers, lines.tails, lines.heads, lines.a, lines.b, lines.c)
    assert [*map(list, zip(*(it.tolist() for it in columns)))] == given_lines(text)
    if isinstance(found, (dnorm.Min, dnorm.Max)) and hasattr(dnorm.library.library(), "dnorm_spread"):
        is_min = isinstance(found, dnorm.Min)
        least = found.lows.tolist() if isinstance(found, dnorm.Min) else [0] * len(found)
        most = found.caps if isinstance(found, dnorm.Min) else found.capacities
        lows, caps = lines.a.tolist() if is_min else [0] * len(lines), (lines.b if is_min else lines.a).tolist()
        assert lines.spread(found, least).tolist() == lows, "the lower bounds"
        assert lines.spread(found, most).tolist() == caps, "the capacities"
        rows = [f"f {a} {b} {cap}\n".encode() for a, b, cap in zip(lines.tails, lines.heads, caps)]
        assert [*lines.flow_lines(lines.spread(found, most))] == rows


def test_known(reader: str) -> None:
    for text, *_ in CANONICAL:
        for form in FORMS:
            check_lines(text, form)
    for text, _ in REFUSED:
        with pytest.raises(dnorm.Refused):
            dnorm.read(text, lines=True)


def test_random(reader: str) -> None:
    chance = random.Random(5)
    for _ in range(ROUNDS):
        text = spelled(chance, lines_of(chance, made(chance, chance.choice([*COLUMNS]))))
        try:
            check_lines(text, chance.choice(FORMS))
        except dnorm.Refused:
            pass


def test_no_flow(reader: str) -> None:
    need_spread()
    found, lines = dnorm.read(FLOWS, lines=True)
    assert isinstance(found, dnorm.Min)
    for flow in [[*found.caps][1:], [-1, *found.caps][: len(found)], [it + 1 for it in found.caps]]:
        with pytest.raises(ValueError):
            lines.spread(found, flow)
    with pytest.raises(ValueError):
        [*lines.flow_lines([1])]
    with pytest.raises(ValueError):
        lines.spread(found, dnorm.from_arrays("sp", nodes=0, tails=[], heads=[], lengths=[]).lengths)


def test_other_flows(reader: str) -> None:
    """Flows of other sorts, lines and graphs that are copies, and a graph in another form."""
    need_spread()
    both: Any = dnorm.read(FLOWS, lines=True)
    found, lines = both
    other: Any = dnorm.read(FLOWS, 2)
    caps = found.caps.tolist()
    units = lines.spread(found, caps).tolist()
    for flow in [found.caps, tuple(caps), array("q", caps), memoryview(array("q", caps)), iter(caps)]:
        assert lines.spread(found, flow).tolist() == units, type(flow)
    if reader == "numpy":
        for flow in [found.caps.astype("int32"), found.caps.repeat(2)[::2]]:
            assert lines.spread(found, flow).tolist() == units, flow
    copies = pickle.loads(pickle.dumps((found, lines)))
    for graph, it in [copies, (found, copies[1]), (copies[0], lines)]:
        assert it.spread(graph, caps).tolist() == units
    assert lines.spread(other, other.caps).tolist() == units
    for wrong, error in [(0.5, "TypeError: flow[0]: "), (2**63, "OverflowError: flow[0]: ")]:
        assert told(lambda: lines.spread(found, [wrong, *caps[1:]])).startswith(error)


def test_without_spread(reader: str, c_library: str, monkeypatch: pytest.MonkeyPatch) -> None:
    """A library that cannot spread a flow does all else."""
    text, path = bytes_of(f"{c_library}/lib/libdnorm.so.3"), os.path.abspath("libdnorm.so.3")
    write(path, text.replace(b"dnorm_spread\0", b"dnorm_______\0"))
    monkeypatch.setenv("DNORM_LIBRARY", path)
    both: Any = dnorm.read(FLOWS, lines=True)
    found, lines = both
    assert (len(lines), len(found)) == (len(given_lines(FLOWS)), len([*found.arcs()]))
    wanted = f"NoLibrary: {path}: cannot be used (it has no dnorm_spread, which versions after 3.0.0 have)"
    assert told(lambda: lines.spread(found, found.caps)) == wanted


def test_star(reader: str) -> None:
    found = dnorm.read(ROADS)
    assert isinstance(found, dnorm.Sp)
    star = found.star()
    arcs = [*zip(found.tails, found.heads)]
    for node in range(1, found.nodes + 1):
        own = range(star.first[node - 1], star.first[node])
        assert [arcs[it][0] for it in own] == [node] * sum(tail == node for tail, _ in arcs)
        into = star.into[star.into_first[node - 1] : star.into_first[node]].tolist()
        assert into == [at for at, (_, head) in enumerate(arcs) if head == node]
    turned = dnorm.from_arrays("sp", nodes=3, tails=[2, 1], heads=[1, 1], lengths=[0, 0])
    with pytest.raises(ValueError):
        turned.star()
