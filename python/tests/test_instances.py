"""Tests the instances of the Python package: what is equal, what cannot be written, what constructors take, and the
texts that are written of random instances."""

import bz2
import contextlib
import copy
import dataclasses
import importlib
import io
import itertools
import os
import pickle
import random
import sys
import warnings
from array import array
from collections.abc import Callable
from concurrent.futures import ThreadPoolExecutor
from typing import Any

import pytest
from known import ROADS, ROADS_CANON
from needs import leave_out
from reading import GRAPHS, MOST, Fault, Text, canonical, read
from shared import ROOT, bytes_of, run
from test_calls import BOTH, COLUMNS, FORMS, PACKAGE, READS, has_numpy, python, told
from texts import lines_of, made, spelled

import dnorm

pytestmark = READS
CLASSES: dict[str, type[dnorm.Instance]] = {"min": dnorm.Min, "max": dnorm.Max, "sp": dnorm.Sp}
CLASSES |= {"ss": dnorm.Ss, "p2p": dnorm.P2p, "co": dnorm.Co}
SEED, ROUNDS = 64, 2000
FLOW = b"p min 3 2\nn 1 4\nn 3 -4\na 1 2 0 4 2\na 2 3 0 4 -1\n"
# An instance of each kind, the numbers of its arcs or items, and how it prints.
KINDS: list[tuple[bytes, list[tuple[int, ...]], str]] = [
    (ROADS, [(1, 2, 3), (2, 1, 4), (2, 2, 0), (2, 3, 9), (3, 1, -5)], "<dnorm.Sp: 3 nodes, 5 arcs>"),
    (b"p max 3 1\nn 1 s\nn 3 t\na 1 3 7\n", [(1, 3, 7)], "<dnorm.Max: 3 nodes, 1 arcs>"),
    (FLOW, [(1, 2, 0, 4, 2), (2, 3, 0, 4, -1)], "<dnorm.Min: 3 nodes, 2 arcs>"),
    (b"p aux sp ss 2\ns 3\ns 1\n", [(3,), (1,)], "<dnorm.Ss: 2 items>"),
    (b"p aux sp p2p 1\nq 3 1\n", [(3, 1)], "<dnorm.P2p: 1 items>"),
    (b"p aux sp co 1\nv 2 -7 8\n", [(2, -7, 8)], "<dnorm.Co: 1 items>"),
    (b"p sp 2 0\n", [], "<dnorm.Sp: 2 nodes, 0 arcs>"),
]


@BOTH
def test_values() -> None:
    """Instances of equal numbers are equal, also as copies, and that nothing of them can be written."""
    instances = [dnorm.read(text) for text, _, _ in KINDS]
    for (text, rows, shown), it in zip(KINDS, instances):
        again = dnorm.read(text)
        assert (it == again, it != again, hash(it) == hash(again)) == (True, False, True), f"{text!r} twice"
        for other in [pickle.loads(pickle.dumps(it)), copy.copy(it), copy.deepcopy(it)]:
            assert (it == other, hash(it) == hash(other)) == (True, True), f"a copy of {text!r}"
            assert is_fixed(other), f"a copy of {text!r} cannot be written"
        assert is_fixed(it), f"{text!r} cannot be written"
        assert (len(it), list(it.rows()), repr(it)) == (len(rows), rows, shown), f"rows of {text!r}"
        if isinstance(it, dnorm.Graph):
            assert list(it.arcs()) == rows, f"arcs of {text!r}"
    equal = [(at, to) for at, to in itertools.product(range(len(KINDS)), repeat=2) if instances[at] == instances[to]]
    assert equal == [(at, at) for at in range(len(KINDS))], "equal instances"
    for other in [b"p min 3 2\nn 1 4\nn 3 -4\na 1 2 0 4 2\na 2 3 0 4 1\n", b"p min 3 2\na 1 2 0 4 2\na 2 3 0 4 -1\n"]:
        assert dnorm.read(other) != dnorm.read(FLOW), f"{other!r} is another"
    flow = dnorm.read(FLOW)
    assert flow.kind == "min"
    assert flow.supply_column().tolist() == [4, 0, -4], "supplies as a column"
    assert cannot(lambda: flow.supplies.__setitem__(2, 1)), "supplies cannot be written"  # type: ignore


def is_fixed(it: dnorm.Instance) -> bool:
    """Whether neither the columns nor the attributes of an instance can be written."""
    names = COLUMNS[it.kind].split()
    fails = [cannot(lambda: getattr(it, name).__setitem__(0, 1)) for name in names if len(it)]
    return all(fails) and all(cannot(lambda: setattr(it, name, getattr(it, name))) for name in names)


def cannot(call: Callable[[], object]) -> bool:
    """Whether a call raises an error."""
    try:
        call()
    except (AttributeError, TypeError, ValueError):
        return True
    return False


def arrays(values: Any) -> Any:
    """Returns an `sp` graph of two nodes with these lengths, or another attribute."""
    return dnorm.from_arrays(dnorm.Sp, **{"nodes": 2, "tails": [1], "heads": [2], "lengths": [3], **values})


def ends(values: Any) -> Any:
    """Returns a `max` graph of two nodes with this source or sink."""
    return dnorm.from_arrays("max", nodes=2, tails=[], heads=[], capacities=[], **{"source": 1, "sink": 2, **values})


def flows(supplies: Any) -> Any:
    """Returns a `min` graph of two nodes with these supplies."""
    return dnorm.from_arrays("min", nodes=2, tails=[1], heads=[2], caps=[3], costs=[4], supplies=supplies)


NO_INTEGER = "object cannot be interpreted as an integer"
OF_KINDS = "kind is one of dnorm.Sp, dnorm.Max, dnorm.Min, dnorm.Ss, dnorm.P2p, dnorm.Co, or its name"


@BOTH
def test_notebooks() -> None:
    """What notebooks do with instances: as files, by their kinds, as rows, as tables and as dictionaries."""
    roads, flow = dnorm.read(ROADS), dnorm.read(FLOW)
    assert isinstance(flow, dnorm.Min)
    rows: list[tuple[Callable[[dnorm.File], object], dnorm.Instance, bytes]] = [
        (dnorm.check, roads, ROADS_CANON), (dnorm.checksum, roads, ROADS_CANON), (dnorm.canon, flow, FLOW),
        (lambda it: dnorm.compare(it, ROADS), roads, ROADS_CANON), (dnorm.read, flow, FLOW),
        (lambda it: dnorm.differences(ROADS, it), roads, ROADS_CANON),
        (lambda it: dnorm.differences(it, it, 1).both, flow, FLOW),
    ]  # fmt: skip
    for call, instance, text in rows:
        assert told(lambda: call(instance)) == told(lambda: call(text)), f"a call of {instance!r}"
    with contextlib.suppress(dnorm.Refused):
        dnorm.check(arrays({"heads": [3]}))
        pytest.fail("a faulty instance is accepted")
    told_ = "TypeError: a str is a path, and there is no such file: give a text as bytes"
    assert told(lambda: dnorm.read(ROADS.decode())) == told_, "a text as str"
    assert [dnorm.from_arrays("sp", nodes=2, tails=[1], heads=[2], lengths=[3])] == [arrays({})], "by name"
    assert vars(flows({}))["lows"].tolist() == [0], "by default"
    assert dnorm.from_arrays("min", nodes=2, tails=[], heads=[], caps=[], costs=[]).supplies == {}, "no supplies"
    # A memoryview cannot be copied so.
    attributes = dataclasses.asdict(flow) if has_numpy() else vars(flow)
    again = dnorm.from_arrays("min", **{**attributes, "supplies": flow.supply_column()})
    assert (again == flow, dict(again.supplies)) == (True, {1: 4, 3: -4}), "a column of supplies"
    assert list(roads) == list(roads.rows()), "iterating"
    shown = roads._repr_html_()
    assert "&lt;dnorm.Sp: 3 nodes, 5 arcs&gt;" in shown and shown.count("<tr>") == 6 and "<td>-5</td>" in shown, shown
    many = dnorm.from_arrays("ss", sources=range(1, 100))._repr_html_()
    assert many.count("<tr>") == 12 and many.endswith("<tr><td>...</td></tr></table>"), many


@BOTH
def test_copies() -> None:
    """Instances keep copies of what callers give, which callers can go on writing; and what is made of an instance is
    no part of it."""
    calls: list[Callable[[Any], Any]] = [
        lambda it: dnorm.Sp(1, it, it, it),
        lambda it: dnorm.from_arrays("sp", nodes=1, tails=it, heads=it, lengths=it),
        lambda it: dnorm.from_arrays("min", nodes=1, tails=it, heads=it, caps=it, costs=it, supplies=it),
        lambda it: dnorm.from_arrays("ss", sources=it),
    ]
    for call in calls:
        for wrap in [lambda it: it, memoryview, lambda it: memoryview(it).toreadonly(), *arrays_of_numpy()]:
            mine = array("q", [1])
            given = wrap(mine)
            instance = call(given)
            kept = pickle.dumps(instance)
            mine[0] = 7
            assert (pickle.dumps(instance), [*next(instance.rows())][:1]) == (kept, [1]), f"a copy of {type(given)}"
            if getattr(given, "flags", None) is not None and given.flags.writeable:
                given[0] = 8
                assert pickle.dumps(instance) == kept, f"a copy of {type(given)}, written itself"
            assert is_fixed(instance), f"columns of {type(given)}"
    mine_too = [1]
    listed = dnorm.from_arrays("ss", sources=mine_too)
    mine_too[0] = 7
    flows_too = {1: 5}
    flow = flows(flows_too)
    flows_too[1] = 6
    assert (list(listed), dict(flow.supplies)) == ([(1,)], {1: 5}), "a copy of a list, and of a dictionary"


def arrays_of_numpy() -> list[Callable[[Any], Any]]:
    """Returns what makes arrays of numpy that share the memory of an array, where numpy is there: one that can be
    written, one that cannot, and a view."""
    if not has_numpy():
        return []
    numpy = importlib.import_module("numpy")

    def fixed(numbers: Any) -> Any:
        made = numpy.asarray(numbers)
        made.setflags(write=False)
        return made

    return [numpy.asarray, fixed, lambda it: numpy.asarray(it)[::1]]


@pytest.mark.parametrize("reader", ["numpy"], indirect=True)
def test_numpy() -> None:
    """Arrays of numpy of other types and shapes, which stay what they are."""
    numpy = importlib.import_module("numpy")
    roads = dnorm.from_arrays("sp", nodes=3, tails=[1, 2], heads=[2, 3], lengths=[7, 9])
    for kind in ["int64", ">i8", "int32", "uint8", "uint64"]:
        wide = numpy.array([[1, 2, 7], [0, 0, 0], [2, 3, 9]], dtype=kind)
        columns = [wide[::2, at] for at in range(3)]
        made = dnorm.from_arrays("sp", nodes=3, tails=columns[0], heads=columns[1], lengths=columns[2])
        assert (made, wide.flags.writeable, columns[0].flags.writeable) == (roads, True, True), f"columns of {kind}"
        wide[:] = 1
        assert made == roads, f"a copy of {kind}"
    masked = numpy.ma.masked_array([7, 9], mask=[False, True])
    for call in [
        lambda: dnorm.from_arrays("ss", sources=masked),
        lambda: dnorm.Ss(masked),
        lambda: dnorm.from_arrays("ss", sources=numpy.ones((2, 2), int)),
        lambda: dnorm.from_arrays("ss", sources=numpy.array([1.0])),
        lambda: dnorm.Ss(numpy.ones(2, "int32")),
    ]:
        assert told(call).startswith("TypeError: sources"), "masked, nested and other numbers"
    found = told(lambda: dnorm.from_arrays("ss", sources=numpy.array([2**63], "uint64")))
    assert found.startswith("OverflowError: sources has 9223"), "2^63"


@BOTH
def test_checked_numbers() -> None:
    """Which numbers, kinds and arguments are refused."""
    given = arrays({})
    # Their types take none of these.
    graph_of: Any = dnorm.Sp
    write_it: Any = dnorm.write
    ones = (given.tails, given.tails, given.tails)
    other = "and not a list: from_arrays takes other numbers, too"
    listed: Any = [1]
    rows: list[tuple[Callable[[], object], str]] = [
        (lambda: arrays({"nodes": 3.0}), f"TypeError: nodes: 'float' {NO_INTEGER}"),
        (lambda: arrays({"nodes": "3 1\na 1 1 9\nc"}), f"TypeError: nodes: 'str' {NO_INTEGER}"),
        (lambda: arrays({"nodes": None}), f"TypeError: nodes: 'NoneType' {NO_INTEGER}"),
        (lambda: arrays({"nodes": -1}), "ValueError: nodes is -1"),
        (lambda: ends({"source": 1.5}), f"TypeError: source: 'float' {NO_INTEGER}"),
        (lambda: ends({"source": 0}), "ValueError: source is 0, which is no node of 1 to 2: nodes count from 1"),
        (lambda: ends({"sink": 3}), "ValueError: sink is 3, which is no node of 1 to 2: nodes count from 1"),
        (lambda: flows({1: 4.7}), f"TypeError: supplies[1]: 'float' {NO_INTEGER}"),
        (lambda: flows({"1 s": 4}), f"TypeError: node '1 s' of supplies: 'str' {NO_INTEGER}"),
        (lambda: flows({0: 5}), "ValueError: supplies has node 0, which is none of 1 to 2: nodes count from 1"),
        (lambda: flows({3: 5}), "ValueError: supplies has node 3, which is none of 1 to 2: nodes count from 1"),
        (lambda: flows([5]), "ValueError: supplies has 1 numbers, and there are 2 nodes"),
        (lambda: flows([5, "x"]), f"TypeError: supplies[1]: 'str' {NO_INTEGER}"),
        (lambda: dnorm.from_arrays("spp", nodes=2), f"TypeError: {OF_KINDS}"),  # type: ignore[call-overload]
        (lambda: dnorm.from_arrays(dict, nodes=2), f"TypeError: {OF_KINDS}"),  # type: ignore[type-var]
        (lambda: dnorm.from_arrays(dnorm.Graph, nodes=2), f"TypeError: {OF_KINDS}"),
        (lambda: graph_of(2.5, *ones), f"TypeError: nodes: 'float' {NO_INTEGER}"),
        (
            lambda: dnorm.Min(2, ones[0], ones[0], {0: 5}, *ones).supply_column(),
            "ValueError: supplies has node 0, which is none of 1 to 2: nodes count from 1",
        ),
        (lambda: write_it("a.gr", given), "TypeError: write takes an instance, and then a target, and not str"),
        (lambda: dnorm.Sp(2, listed, listed, listed), f"TypeError: tails is an array of 64 signed bits, {other}"),
        (lambda: arrays({"lengths": [1.5]}), f"TypeError: lengths[0]: 'float' {NO_INTEGER}"),
        (lambda: arrays({"lengths": ["3"]}), f"TypeError: lengths[0]: 'str' {NO_INTEGER}"),
        (lambda: arrays({"lengths": [[3]]}), f"TypeError: lengths[0]: 'list' {NO_INTEGER}"),
        (lambda: arrays({"lengths": [3, 4]}), "ValueError: tails and lengths have 1 and 2 numbers"),
        (lambda: arrays({"heads": []}), "ValueError: tails and heads have 1 and 0 numbers"),
    ]
    for call, wanted in rows:
        assert told(call) == wanted, wanted


@BOTH
def test_constructors() -> None:
    """What constructors and from_arrays take."""
    given = arrays({})
    for lengths in [(3,), iter([3]), range(3, 4), given.lengths, [True + 2], given.lengths[:1]]:
        assert arrays({"lengths": lengths}) == given, f"lengths {lengths!r}"
    wide: list[tuple[dict[str, Any], str]] = [({"lengths": [7, it]}, "lengths[1]: ") for it in (MOST + 1, -MOST - 2)]
    for attributes, begin in [*wide, ({"nodes": MOST + 1}, f"nodes is {MOST + 1}, which does not fit into 64 signed")]:
        try:
            found = repr(arrays(attributes))
        except OverflowError as error:
            found = str(error)
        assert found.startswith(begin), f"{attributes} is too large: {found}"
    assert cannot(lambda: dnorm.from_arrays(dnorm.Sp, nodes=2)), "an attribute is missing"
    assert cannot(lambda: arrays({"costs": [1]})), "an unknown attribute"
    mine = [1, 2]
    graph = arrays({"tails": mine, "heads": mine, "lengths": mine})
    mine[0] = 2
    assert graph.lengths.tolist() == [1, 2], "a column of its own"
    parallel = arrays({"tails": [1, 1], "heads": [2, 2], "lengths": [7, 4]})
    target = io.BytesIO()
    dnorm.write(parallel, target)
    assert target.getvalue() == b"p sp 2 2\na 1 2 7\na 1 2 4\n", "arcs in their order"
    assert dnorm.canon(target.getvalue()) == b"p sp 2 1\na 1 2 4\n", "read again"


def instance_of(text: Text) -> dnorm.Instance:
    """Returns the instance of a text that is accepted, with its items in their order."""
    columns = [list(it) for it in zip(*text.items)] or [[] for _ in COLUMNS[text.kind].split()]
    attributes: dict[str, Any] = dict(zip(COLUMNS[text.kind].split(), columns))
    if text.kind in GRAPHS:
        attributes["nodes"] = text.nodes
    if text.kind == "max":
        attributes |= {"source": text.terminals["s"], "sink": text.terminals["t"]}
    if text.kind == "min":
        attributes["supplies"] = text.flows
    return dnorm.from_arrays(CLASSES[text.kind], **attributes)


def test_written() -> None:
    """The texts of random instances: the program accepts them, and they pose the problem of the instance."""
    chance = random.Random(SEED)
    texts: list[Text] = []
    while len(texts) < ROUNDS:
        text = made(chance, chance.choice(list(COLUMNS)), chance.random() < 0.3)
        with contextlib.suppress(Fault):
            texts.append(read(spelled(chance, lines_of(chance, text))))

    def of(text: Text) -> tuple[bytes, bytes, bytes, bytes]:
        target, again = io.BytesIO(), io.BytesIO()
        dnorm.write(instance_of(text), target)
        form = FORMS[len(text.items) % 2]
        found = dnorm.read(target.getvalue(), form)
        dnorm.write(found, again)
        return target.getvalue(), again.getvalue(), dnorm.canon(target.getvalue(), form), canonical(text, form)

    with ThreadPoolExecutor(os.cpu_count()) as pool:
        for given, again, found, wanted in pool.map(of, texts):
            assert found == again == wanted, given


@BOTH
def test_faulty() -> None:
    """The text of an instance with a fault replaces no file, and targets of other sorts."""
    dnorm.write(dnorm.read(ROADS), "roads.gr")
    assert bytes_of("roads.gr") == ROADS_CANON, "a file"
    dnorm.write(dnorm.read(ROADS), "roads.gr.bz2")
    assert bz2.decompress(bytes_of("roads.gr.bz2")) == ROADS_CANON, "a compressed file"
    for name, node in [("heads", 3), ("tails", 0)]:
        found = told(lambda: dnorm.write(arrays({name: [node]}), "roads.gr"))
        wanted = "Refused: roads.gr:2: 13 NodeOutOfRange"
        assert (found, bytes_of("roads.gr")) == (wanted, ROADS_CANON), f"write {name} {node}"
    with warnings.catch_warnings(record=True) as seen:
        warnings.simplefilter("always")
        for name in ["flow.gr.gz", "flow.min", "flow.txt"]:
            dnorm.write(dnorm.read(FLOW), name)
    told_ = ["flow.gr.gz: its ending is that of sp, not of min"]
    assert [str(it.message) for it in seen] == told_, "a name of another kind"
    large = arrays({"nodes": 1, **dict.fromkeys(["tails", "heads", "lengths"], [1] * 300_000)})
    dnorm.write(large, "large.gr")
    assert dnorm.canon("large.gr") == b"p sp 1 1\na 1 1 1\n", "many arcs"
    found = told(lambda: dnorm.write(dnorm.read(ROADS), "none/roads.gr"))
    assert found == "Write: none/roads.gr: 33 Write (No such file or directory)", "no folder"
    found = told(lambda: dnorm.write(large, "/dev/full"))
    assert found == "Write: /dev/full: 33 Write (No space left on device)", "a full disk"


def test_typed() -> None:
    """Runs the page of ordinary use, which tools/lint gives to mypy."""
    own = {**os.environ, "PYTHONPATH": PACKAGE}
    found = run([sys.executable, f"{ROOT}/python/tests/typed.py"], cwd=f"{ROOT}/examples", env=own)
    wanted = "10 None 9\ncost of 1 2 same\n-1 at 5 from 1 MIN and SP\n(2, 'NodeOutOfRange') (None, 'sp (1, 2)')\n"
    wanted += "p sp 2 2\na 1 2 7\na 1 2 4\n2 [7, 4]\n90\n(11, 2)\n2 edges, 2 entries, 2 rows, 4 the least\n"
    lacking = [it for it in ["numpy", "networkx", "scipy", "pandas"] if python(f"import {it}").status]
    # Without one of these, the page ends before the line that needs it.
    assert (wanted.startswith(found.out.decode()), found.err, found.status) == (True, b"", 0), "typed.py"
    if lacking:
        leave_out(lacking[0])
    assert found.out.decode() == wanted, "typed.py"
