"""The library for C through ctypes, on the tables of known.py and on random texts: it gives the answers of the program.
The shared library reads each text in pieces of several sizes; it copies items and arcs in ranges of several sizes, from
which the canonical text is put together again, and the bytes of the canonical text; it refuses what is refused, at the
same place; it finds the same first differences with their values, and the same companions fit. It puts flows back on
the cheapest arc lines. Random orders of calls on three handles have the answers that the comments in dnorm.h say."""

import ctypes
import os
import random
import time
from collections.abc import Callable
from functools import partial
from typing import Any

import pytest
from bound import KINDS, NOT_BOTH, WRONG_CALL, Answer, Arc, Item, Library, Row, Rows, WrongCall
from known import CANONICAL, COMPARED, COSTS, FITTED, FLOWS, REFUSED, ROADS
from needs import seeds
from reading import COUNTED, NAMES
from shared import Quick
from texts import lines_of, made, spelled, spoilt

from dnorm.library import ABI, Handle, Place, number_of

pytestmark = pytest.mark.slow
# The random texts, those with flows, and the orders of calls of each seed; the calls of an order, and the places of a
# text.
RANDOM, CARRYING, ORDERS, LENGTH, PLACES = 100, 600, 750, 12, 2000
SEEDS = pytest.mark.parametrize("seed", seeds(4, 0))
TEXTS = pytest.mark.parametrize(
    "text, forms", [(text, forms) for text, *forms in CANONICAL], ids=[f"{it[0]!r:.60}" for it in CANONICAL]
)
# So many arcs of one pair, and four times as many.
MANY = [20_000, 80_000]
# The first words of the line of `compare`, by the number of the difference.
DIFFERS = ["same", "kind", "nodes", "supply", "source", "sink", "pair", "length", "item", "point"]
# What the arcs of a pair differ in, by kind.
MEANINGS = {"sp": "length", "max": "capacity", "min": "amount {} cost"}
# The numbers of an arc that its kind has.
NUMBERS = {"sp": 1, "max": 1, "min": 3}
# The code of a companion and a graph of other kinds, and that of no flow.
NOT_KINDS, NOT_A_FLOW = 36, 42
# The greatest number, and what an arc line carries by its numbers: the least, the most, and the cost of each unit.
MOST = 2**63 - 1
CARRIES: dict[str, Callable[..., tuple[int, int, int]]] = {
    "min": lambda low, cap, cost: (low, cap, cost),
    "max": lambda cap, *_: (0, cap, 0),
    "sp": lambda length, *_: (0, MOST, length),
}
# A text whose first two arc lines are parallel, a flow on its arcs in form 1 and its units; and what is none, as other
# arguments, or other handles, with its code.
CARRIED = b"p min 3 4\na 1 2 1 4 2\na 1 2 0 5 1\na 2 3 0 4 -1\na 3 3 0 0 1\n"
ROWS = [(2, 1, 2, 1, 4, 2), (3, 1, 2, 0, 5, 1), (4, 2, 3, 0, 4, -1), (5, 3, 3, 0, 0, 1)]
FLOW, UNITS = [1, 0, 6, 3], [2, 5, 3, 0]
NO_FLOWS: dict[str, tuple[dict[str, Any], int]] = {
    "a negative number": ({"flow": [1, -1, 7, 3]}, NOT_A_FLOW),
    "too few numbers": ({"flow": FLOW[:-1]}, NOT_A_FLOW),
    "too many numbers": ({"flow": [*FLOW, 0]}, NOT_A_FLOW),
    "above the capacity": ({"flow": [4, 3, 3, 3]}, NOT_A_FLOW),
    "far above it": ({"flow": [MOST, MOST, 3, 3]}, NOT_A_FLOW),
    "below the lower bound": ({"flow": [0, 0, 0, 3]}, NOT_A_FLOW),
    "a line too few": ({"lines": ROWS[:-1], "room": 3}, NOT_A_FLOW),
    "a line too many": ({"lines": [*ROWS, (6, 3, 3, 0, 0, 1)], "room": 5}, NOT_A_FLOW),
    "a line of another pair": ({"lines": [*ROWS[:3], (5, 3, 2, 0, 1, 1)]}, NOT_A_FLOW),
    "a line of less capacity": ({"lines": [ROWS[0], (3, 1, 2, 0, 4, 1), *ROWS[2:]]}, NOT_A_FLOW),
    "a line of a greater lower bound": ({"lines": [(2, 1, 2, 3, 4, 2), *ROWS[1:]]}, NOT_A_FLOW),
    "a lower bound above the capacity": ({"lines": [ROWS[0], (3, 1, 2, 6, 5, 1), *ROWS[2:]]}, NOT_A_FLOW),
    "a negative lower bound": ({"lines": [ROWS[0], (3, 1, 2, -1, 5, 1), *ROWS[2:]]}, NOT_A_FLOW),
    "lines in another order": ({"lines": [ROWS[1], ROWS[0], *ROWS[2:]]}, NOT_A_FLOW),
    "a line twice": ({"lines": [*ROWS[:3], ROWS[2]]}, NOT_A_FLOW),
    "too few shares": ({"shares": 1}, WRONG_CALL),
    "too few units": ({"room": 3}, WRONG_CALL),
    "too many units": ({"room": 5}, WRONG_CALL),
    "no handle": ({"graph": b""}, WRONG_CALL),
    "a companion": ({"graph": b"p aux sp ss 1\ns 1\n"}, WRONG_CALL),
    "a companion without items": ({"graph": b"p aux sp co 0\n", "flow": [], "lines": [], "room": 0}, WRONG_CALL),
}


@pytest.fixture(scope="module")
def library(request: pytest.FixtureRequest) -> Library:
    """The shared library, or one for another processor, if a variable names it."""
    path = os.environ.get("DNORM_TESTED_LIBRARY")
    return Library(path or f"{request.getfixturevalue('c_library')}/lib/libdnorm.so.{ABI}")


def lines_from(library: Library, handle: Handle, form: int, room: int) -> bytes:
    """Puts the canonical text of an instance together from its facts, items and arcs."""
    facts = library.facts(handle)
    kind = KINDS[facts.kind]
    numbers = library.items_of(handle, room)
    arcs = library.arcs(handle, form, room) if kind in NUMBERS else []
    count = library.arcs_counted(handle, form) if kind in NUMBERS else facts.items
    rows: list[list[Any]] = [["p", *NAMES[kind], *([facts.nodes, count] if kind in NUMBERS else [count])]]
    if kind == "min":
        rows += [["n", node, flow] for node, flow, _ in numbers]
    elif kind == "max":
        rows += [["n", numbers[0][0], "s"], ["n", numbers[0][1], "t"]]
    elif kind in ("ss", "p2p", "co"):
        rows += [[COUNTED[kind], *it[: ["ss", "p2p", "co"].index(kind) + 1]] for it in numbers]
    rows += [["a", *it[: 2 + NUMBERS[kind]]] for it in arcs]
    return "".join(" ".join(map(str, row)) + "\n" for row in rows).encode()


@TEXTS
@pytest.mark.parametrize("size, room", [(1, 1), (3, 2), (None, 1000)])
def test_canonical(library: Library, text: bytes, forms: list[bytes], size: int | None, room: int) -> None:
    """Canonical texts, in pieces and ranges of several sizes."""
    handle = Handle()
    assert library.read(handle, text, size or len(text)) == Answer(0, ""), f"{text!r} is read"
    for form, wanted in enumerate(forms, 1):
        assert library.text_of(handle, form, room) == wanted, f"{text!r}, form {form}"
        assert lines_from(library, handle, form, room) == wanted, f"{text!r}, lists in form {form}"
        ranges(library, handle, form, room)
    facts = library.facts(handle)
    assert facts.items == len(library.items_of(handle, room)), f"the items of {text!r}"
    library.free(handle)


def ranges(library: Library, handle: Handle, form: int, room: int) -> None:
    """Ranges of some size have the arcs that another range has. A companion has none."""
    if KINDS[library.facts(handle).kind] not in NUMBERS:
        assert answered(lambda: library.arcs(handle, form, room)) == WRONG_CALL, "arcs of a companion"
        assert answered(lambda: library.arcs_counted(handle, form)) == WRONG_CALL, "how many arcs a companion has"
        return
    arcs = library.arcs(handle, form, 7)
    assert library.arcs_counted(handle, form) == len(arcs), f"how many arcs there are in form {form}"
    assert library.arcs(handle, form, room) == arcs, f"ranges of {room} in form {form}"


def answered(call: Callable[[], object]) -> object:
    """Returns what a call returns, or the code of a wrong call."""
    try:
        return call()
    except WrongCall:
        return WRONG_CALL


@TEXTS
def test_declared(library: Library, text: bytes, forms: list[bytes]) -> None:
    """What a reader says of its text, before and after it has read the problem line."""
    handle = Handle()
    words: list[str] = []
    library.begin(handle)
    for line in text.splitlines(keepends=True):
        facts = library.facts(handle)
        found = [facts.kind, facts.nodes, facts.lines, facts.pairs, facts.items]
        kind = next((it for it in KINDS[1:] if words[1 : len(NAMES[it]) + 1] == NAMES[it]), "")
        numbers = [int(it) for it in words[len(NAMES[kind]) + 1 :]] if kind else [0]
        wanted = [KINDS.index(kind), *([0] * (2 - len(numbers))), *numbers, 0, 0]
        assert found == wanted, f"the facts of a reader of {text!r} before {line!r}"
        library.feed(handle, line, len(line))
        words = line.decode().split() if line.split()[:1] == [b"p"] else words
    library.free(handle)


def test_places(library: Library) -> None:
    """A call copies no more than there is room for from a place of any bits."""
    chance = random.Random(66)
    for text in [ROADS, FLOWS, COSTS, one_pair(50)]:
        handle = copy_of(library, text)
        known = set(library.arcs(handle, 1, 9)) | set(library.arcs(handle, 2, 9))
        most = 0
        for _ in range(PLACES):
            numbers = [chance.choice([0, 1, 2, chance.getrandbits(64)]) for _ in range(2)]
            numbers += [chance.choice([0, 1, 3, -1, chance.randrange(-(2**63), 2**63)]) for _ in range(3)]
            out, room = (Arc * 3)(), chance.randrange(4)
            made = library.next(handle, chance.randrange(256), ctypes.byref(Place(*numbers)), ctypes.byref(out), room)
            arcs = {tuple(getattr(it, name) for name, _ in Arc._fields_) for it in out[: made.count]}
            assert made.count <= room and arcs <= known, f"the arcs after {numbers}: {arcs}"
            items = (Item * 3)()
            made = library.items(handle, ctypes.byref(Place(*numbers)), ctypes.byref(items), room)
            most = max(most, made.count - room)
        assert most == 0, "items beyond the room"
        library.free(handle)


def one_pair(count: int) -> bytes:
    """Returns a text whose arcs are all of one pair and have different costs, in no order."""
    arcs = b"".join(b"a 1 2 0 1 %d\n" % (it * 7919 % count) for it in range(count))
    return b"p min 2 %d\n" % count + arcs


def points(count: int) -> bytes:
    """Returns a text of points whose IDs are dense, and then far apart."""
    ids = [it if it < count // 2 else it * 1000 for it in range(1, count + 1)]
    return b"p aux sp co %d\n" % count + b"".join(b"v %d %d 0\n" % (it, -it) for it in ids)


def supplies(count: int) -> bytes:
    """Returns a text of nodes with flows that are not 0 for every second one."""
    nodes = b"".join(b"n %d %d\n" % (it, it % 2) for it in range(1, 2 * count + 1))
    return b"p min %d 0\n" % (2 * count) + nodes


@pytest.mark.alone
@pytest.mark.parametrize("text", [one_pair, points, supplies], ids=["arcs", "points", "supplies"])
def test_many(library: Library, text: Callable[[int], bytes]) -> None:
    """Arcs of one pair, points and supplies are copied whole in rooms of many sizes, and where there are more, this
    takes no more time for each. Processor time is compared, the least of several rounds."""
    times = []
    for count in MANY:
        handle = copy_of(library, text(count))
        copy = partial(library.arcs, handle, 2) if text is one_pair else partial(library.items_of, handle)
        wanted = copy(count + 1)
        assert len(wanted) == count and wanted == sorted(wanted)
        for room in [3, 64, 65536]:
            assert copy(room) == wanted, f"{count} in rooms of {room}"
        rounds = []
        for _ in range(3):
            began = time.process_time()
            assert copy(1) == wanted
            rounds.append(time.process_time() - began)
        times.append(min(rounds))
        library.free(handle)
    assert times[1] < 10 * times[0], f"{MANY} one by one in {times} s"


@pytest.mark.parametrize("text, err", REFUSED, ids=[err.decode().strip() for _, err in REFUSED])
def test_refused(library: Library, text: bytes, err: bytes) -> None:
    """Refusals, in pieces of several sizes."""
    _, place, told = err.decode().split(":")
    wanted = Answer(int(told.split()[0]), place)
    for piece in [1, 5, len(text) or 1]:
        handle = Handle()
        assert library.read(handle, text, piece) == wanted, f"{text!r} is refused"
        library.free(handle)


@pytest.mark.parametrize("left, right, there, back", COMPARED, ids=[it[2].decode().strip() for it in COMPARED])
def test_compared(library: Library, left: bytes, right: bytes, there: bytes, back: bytes) -> None:
    """First differences, in both orders."""
    one, other = Handle(), Handle()
    library.read(one, left, len(left))
    library.read(other, right, len(right))
    for handles, line in zip([(one, other), (other, one)], [there, back]):
        kind = KINDS[library.facts(handles[0]).kind]
        assert line_of(library.compare(*handles), kind) == line.decode().strip(), f"{left!r} and {right!r}"
    assert library.compare(one, copy := copy_of(library, left)).what == 0, f"{left!r} and its copy"
    assert library.compare(one, one).what == 0, f"{left!r} and itself"
    assert library.fits(one, one).code == NOT_KINDS, f"{left!r} as its own companion"
    for it in (one, other, copy):
        library.free(it)


def line_of(found: Any, kind: str) -> str:
    """Returns the line of `compare` for a difference of two instances, the left one of this kind."""
    numbers = [number_of(found.left), number_of(found.right)]
    values = ["none" if it is None else str(it) for it in numbers]
    if found.what == 1:
        values = [KINDS[it] for it in numbers]
    what = DIFFERS[found.what]
    if what == "pair":
        what += f" {found.at} {found.to} " + MEANINGS[kind].format(found.amount)
    elif what in ("supply", "point"):
        what += f" {found.at}"
    elif what == "item":
        what += f" {found.index}"
    shown = [] if what.split()[0] in ("item", "point") else values
    return " ".join(["differ", what, *shown])


def names_of(words: str) -> list[str]:
    """Returns the names of a command, of which the graph's comes first where words have no equals sign."""
    return [it for it in words.split()[1:] if not it.startswith("--")]


FITTING = [
    (words, files, err)
    for words, files, _, err, _ in FITTED
    if len({*names_of(words)}) == 2 and {*names_of(words)} == {*files} and len(err.split(b":")) < 3
]


@pytest.mark.parametrize("words, files, err", FITTING, ids=[f"{words}: {err.decode()}" for words, _, err in FITTING])
def test_fitted(library: Library, words: str, files: dict[str, bytes], err: bytes) -> None:
    """Whether companions fit, as `check` says it."""
    graph, companion = (copy_of(library, files[it]) for it in names_of(words))
    fit = library.fits(graph, companion)
    told = err.decode().split()[1:]
    assert [fit.code, fit.node] == ([int(told[0]), int(told[2]) if told[2:] else 0] if told else [0, 0])
    for it in (graph, companion):
        library.free(it)


def copy_of(library: Library, text: bytes) -> Handle:
    """Returns a handle that holds the instance of this text."""
    handle = Handle()
    library.read(handle, text, len(text))
    return handle


@SEEDS
def test_random_texts(library: Library, often: Quick, seed: int) -> None:
    """Compares with the program on random texts, correct and faulty."""
    chance = random.Random(seed)
    for i in range(RANDOM):
        lines = lines_of(chance, made(chance, KINDS[i % 6 + 1], i % 4 == 0))
        text = spelled(chance, spoilt(chance, lines) if i % 3 == 0 else lines)
        handle = Handle()
        found = library.read(handle, text, chance.choice([1, 7, len(text) or 1]))
        for form in (1, 2):
            ran = often.run("canon", "--form", str(form), "-", given=text)
            if found.code == 0:
                assert (lines_from(library, handle, form, 3), b"") == (ran.out, ran.err), f"{text!r}, form {form}"
                assert library.text_of(handle, form, 64) == ran.out, f"the text of {text!r}, form {form}"
                ranges(library, handle, form, chance.choice([1, 2, 5, 64, 100]))
            else:
                _, place, told = ran.err.decode().split(":")
                assert found == Answer(int(told.split()[0]), place), f"{text!r}"
        library.free(handle)


def cheapest(kind: str, rows: Rows, sums: dict[tuple[int, ...], int]) -> list[int]:
    """Returns the units of lines that carry these sums at the least cost, of equal lines on the first ones."""
    carries = [CARRIES[kind](*it[3:]) for it in rows]
    units, left = [low for low, _, _ in carries], dict(sums)
    for it, low in zip(rows, units):
        left[it[1:3]] -= low
    for at in sorted(range(len(rows)), key=lambda at: carries[at][2]):
        some = min(left[rows[at][1:3]], carries[at][1] - units[at])
        units[at] += some
        left[rows[at][1:3]] -= some
    return units


def parted(chance: random.Random, arcs: Rows, sums: dict[tuple[int, ...], int]) -> list[int]:
    """Returns a flow on arcs with these sums by pair, in random parts."""
    flow, left = list[int](), dict(sums)
    for arc, after in zip(arcs, [*arcs[1:], (0, 0)]):
        some = chance.randint(0, left[arc[:2]]) if arc[:2] == after[:2] else left[arc[:2]]
        flow.append(some)
        left[arc[:2]] -= some
    return flow


@SEEDS
def test_spread(library: Library, seed: int) -> None:
    """Flows on the canonical arcs of random texts are put back on the cheapest arc lines. Any form but 2 is form 1."""
    chance = random.Random(seed)
    for i in range(CARRYING):
        kind, handle = [*CARRIES][i % 3], Handle()
        text = spelled(chance, lines_of(chance, made(chance, kind, i % 2 == 0)))
        rows = library.arc_lines(text, len(text), 4)[0] if library.read(handle, text, len(text)).code == 0 else []
        sums = dict.fromkeys((it[1:3] for it in rows), 0)
        for it in rows:
            low, cap, _ = CARRIES[kind](*it[3:])
            some = chance.choice([low, chance.randint(low, cap), cap])
            # In `sp`, the sum of a pair would be too large.
            sums[it[1:3]] = some if kind == "sp" else sums[it[1:3]] + some
        shares = library.facts(handle).pairs
        for form, arcs in [(it, library.arcs(handle, it, 9)) for it in (0, 1, 2, 7) if rows]:
            found = library.spread(handle, form, parted(chance, arcs, sums), rows, shares, len(rows))
            assert found == (0, cheapest(kind, rows, sums)), f"{text!r} in form {form}: {sums}"
        library.free(handle)


@pytest.mark.parametrize("case", NO_FLOWS)
def test_no_spread(library: Library, case: str) -> None:
    given: dict[str, Any] = {"graph": CARRIED, "form": 1, "flow": FLOW, "lines": ROWS, "shares": 2, "room": 4}
    changed, code = NO_FLOWS[case]
    for it, wanted in [(given, 0), (given | changed, code)]:
        graph = copy_of(library, it["graph"]) if it["graph"] else Handle()
        found, units = library.spread(**{**it, "graph": graph})
        assert found == wanted and (found != 0 or units == UNITS)
        library.free(graph)


class Model:
    """What handles hold after calls in any order, and what each call returns, as dnorm.h says."""

    def __init__(self, library: Library) -> None:
        self.library = library
        self.handles = [Handle() for _ in range(3)]
        self.held = ["nothing"] * 3
        self.texts = [b""] * 3
        self.expected = {ROADS: 0, FLOWS: 0, b"p sp 1 1\nq\n": 5, b"p sp 1 1\n": 20}

    def call(self, chance: random.Random) -> tuple[str, Any, Any]:
        """Makes a random call. Returns what was called, what it returned and what it must return."""
        at, to = chance.sample(range(3), 2)
        name = chance.choice([it.removeprefix("call_") for it in dir(self) if it.startswith("call_")])
        found, wanted = getattr(self, f"call_{name}")(chance, at, to)
        return name, found, wanted

    def call_begin(self, _: random.Random, at: int, __: int) -> tuple[Any, Any]:
        wanted = 0 if self.held[at] == "nothing" else WRONG_CALL
        if wanted == 0:
            self.held[at], self.texts[at] = "reader", b""
        return self.library.begin(self.handles[at]).code, wanted

    def call_feed(self, chance: random.Random, at: int, _: int) -> tuple[Any, Any]:
        text = self.texts[at] or chance.choice([*self.expected])
        found = self.library.feed(self.handles[at], text, 0 if self.texts[at] else len(text)).code
        if self.held[at] != "reader":
            return found, WRONG_CALL
        self.texts[at] = text
        return found, self.expected[text] if self.expected[text] < 18 else 0

    def call_finish(self, _: random.Random, at: int, __: int) -> tuple[Any, Any]:
        wanted = WRONG_CALL
        if self.held[at] == "reader":
            wanted = self.expected[self.texts[at]] if self.texts[at] else 18
            self.held[at] = "instance" if wanted == 0 else "refusal"
        return self.library.finish(self.handles[at]).code, wanted

    def call_facts(self, _: random.Random, at: int, __: int) -> tuple[Any, Any]:
        wanted = {ROADS: 3, FLOWS: 1}[self.texts[at]] if self.held[at] == "instance" else 0
        # What a reader says is tested by itself.
        return self.library.facts(self.handles[at]).kind if self.held[at] != "reader" else 0, wanted

    def call_arc_count(self, _: random.Random, at: int, __: int) -> tuple[Any, Any]:
        found = answered(lambda: self.library.arcs_counted(self.handles[at], 1))
        return found, 5 if self.held[at] == "instance" else WRONG_CALL

    def call_items(self, _: random.Random, at: int, __: int) -> tuple[Any, Any]:
        wanted = {ROADS: 0, FLOWS: 2}[self.texts[at]] if self.held[at] == "instance" else WRONG_CALL
        return answered(lambda: len(self.library.items_of(self.handles[at], 2))), wanted

    def call_canon(self, _: random.Random, at: int, to: int) -> tuple[Any, Any]:
        wanted = WRONG_CALL
        if self.held[at] == "instance" and self.held[to] == "nothing":
            wanted, self.held[to], self.texts[to] = 0, "text", self.texts[at]
        return self.library.canon(self.handles[at], 1, self.handles[to]).code, wanted

    def call_text(self, _: random.Random, at: int, __: int) -> tuple[Any, Any]:
        found = answered(lambda: self.library.bytes_of(self.handles[at], 7))
        is_text = self.held[at] == "text"
        return found, next(it[1] for it in CANONICAL if it[0] == self.texts[at]) if is_text else WRONG_CALL

    def call_compare(self, _: random.Random, at: int, to: int) -> tuple[Any, Any]:
        found = self.library.compare(self.handles[at], self.handles[to]).what
        both = self.held[at] == self.held[to] == "instance"
        return found, int(self.texts[at] != self.texts[to]) if both else NOT_BOTH

    def call_next(self, _: random.Random, at: int, __: int) -> tuple[Any, Any]:
        found = answered(lambda: len(self.library.arcs(self.handles[at], 1, 2)))
        return found, 5 if self.held[at] == "instance" else WRONG_CALL

    def call_spread(self, _: random.Random, at: int, __: int) -> tuple[Any, Any]:
        wanted = NOT_A_FLOW if self.held[at] == "instance" else WRONG_CALL
        return self.library.spread(self.handles[at], 1, [], [], 9, 0)[0], wanted

    def call_fits(self, _: random.Random, at: int, to: int) -> tuple[Any, Any]:
        both = self.held[at] == self.held[to] == "instance"
        return self.library.fits(self.handles[at], self.handles[to]).code, 36 if both else NOT_BOTH

    def call_lines_begin(self, _: random.Random, at: int, __: int) -> tuple[Any, Any]:
        wanted = 0 if self.held[at] == "nothing" else WRONG_CALL
        if wanted == 0:
            self.held[at] = "lines"
        return self.library.lines_begin(self.handles[at]).code, wanted

    def call_lines(self, _: random.Random, at: int, __: int) -> tuple[Any, Any]:
        # Each text begins anew, so that a second problem line follows the first arc.
        out = (Row * 3)()
        found = self.library.lines(self.handles[at], b"p sp 1 1\na 1 1 5\n", 17, ctypes.byref(out), 3)
        if self.held[at] != "lines":
            return (found.code, found.used, found.count, found.line), (WRONG_CALL, 0, 0, 0)
        self.texts[at] += b"a"
        return (found.code, found.used, found.count), (0, 17, 1) if self.texts[at] == b"a" else (3, found.used, 0)

    def call_free(self, _: random.Random, at: int, __: int) -> tuple[Any, Any]:
        self.library.free(self.handles[at])
        self.held[at], self.texts[at] = "nothing", b""
        return self.handles[at].full, False


@SEEDS
def test_orders(library: Library, seed: int) -> None:
    """Makes calls in random orders."""
    chance = random.Random(seed)
    for _ in range(ORDERS):
        model = Model(library)
        names = []
        for _ in range(LENGTH):
            name, found, wanted = model.call(chance)
            names.append(name)
            assert found == wanted, " ".join(names)
        for it in model.handles:
            library.free(it)


@pytest.mark.parametrize("piece", [1, 7, 4096])
@pytest.mark.parametrize("room", [1, 3, 1000])
def test_arc_lines(library: Library, piece: int, room: int) -> None:
    """The arc lines of a text are handed out in its order, with their line numbers, up to a fault of a line."""
    text = b"c x\np min 2 3\nn 1 1\nn 2 -1\n\na 2 1 0 3 -5\na 1 2 1 +3 5 \r\nc a 1 2 3 4 5\na 1  2 0 3 4"
    rows = [(6, 2, 1, 0, 3, -5), (7, 1, 2, 1, 3, 5), (9, 1, 2, 0, 3, 4)]
    assert library.arc_lines(text, piece, room) == (rows, 0, 0)
    assert library.arc_lines(text.replace(b"c a", b"x a"), piece, room) == (rows[:2], 1, 8)
    assert library.arc_lines(text + b" 9", piece, room) == (rows[:2], 8, 9)
    for kind, arcs in ((b"max", [(2, 1, 2, 7, 0, 0)]), (b"sp", [(2, 1, 2, 7, 0, 0)]), (b"aux", [])):
        assert library.arc_lines(b"p %s 2 1\na 1 2 7" % kind, piece, room)[0] == arcs
