"""Random small texts of all six kinds, correct and faulty, through the built program and through the second reading in
reading.py. Compared are first faults, canonical texts in both forms, the output of `show`, `check` and `compare`, and
whether companions fit. A canonical text must mean what its text means, by the costs of all amounts, and be its own
canonical text. The texts are the same each time; a quick run has half of them. hypothesis draws them, and looks for a
simpler text that fails in the same way."""

import copy
from collections.abc import Sequence
from random import Random

import pytest
from needs import drawn
from reading import GRAPHS, LINES, Fault, Item, Text, canonical, difference, forms, read, shown, unfit
from shared import Quick, said, write
from texts import lines_of, made, spelled, spoilt

# The texts of each kind: accepted and faulty ones, pairs to compare, and graphs with companions. Some are drawn twice.
ACCEPTED, FAULTY, COMPARED, COMPANIONS = 220, 850, 330, 45
KINDS = list(LINES)
EACH_KIND = pytest.mark.parametrize("kind", KINDS)


def varied(chance: Random, text: Text) -> Text:
    """Returns a text that means the same or nearly the same: arcs in another order, in parts, or with one number
    changed."""
    text = copy.deepcopy(text)
    if text.kind in GRAPHS:
        chance.shuffle(text.items)
    if chance.random() < 0.1:
        text.nodes += 1
    if text.flows and chance.random() < 0.2:
        text.flows[chance.choice(list(text.flows))] = chance.randint(-2, 2)
    if text.terminals and chance.random() < 0.2:
        text.terminals = dict(zip("st", chance.sample(range(1, 4), 2)))
    for _ in range(chance.choice([0, 0, 1, 1, 2])):
        if text.items:
            at = chance.randrange(len(text.items))
            text.items[at : at + 1] = parts(chance, text.kind, text.items[at])
    return text


def parts(chance: Random, kind: str, item: Item) -> list[Item]:
    """Returns an item in parts that mean the same, changed by one, or left out."""
    match chance.randrange(4):
        case 0:
            at = chance.choice([len(item) - 1, chance.randrange(len(item))])
            return [(*item[:at], item[at] + chance.choice([-1, 1]), *item[at + 1 :])]
        case 1:
            return []
        case 2 if kind == "min" and item[2] <= item[3]:
            src, dst, low, cap, cost = item
            share = chance.randint(0, cap - low)
            return [(src, dst, 0, share, cost), (src, dst, low, cap - share, cost)]
        case 2 if kind == "max":
            return [(*item[:2], item[2] // 2), (*item[:2], item[2] - item[2] // 2)]
        case 2 if kind == "sp":
            return [item, item]
    return [item]


def is_small(text: Text) -> bool:
    """Whether all splits of the text's capacities can be tried."""
    return text.kind != "min" or all(sum(it[1] for it in arcs) <= 60 for arcs in text.arcs().values())


class Search:
    """The program, and the texts so far, each a file of this folder."""

    def __init__(self, often: Quick) -> None:
        self.often, self.count = often, 0

    def file(self, text: bytes) -> str:
        """Makes a file with this text, and returns its name."""
        self.count += 1
        write(str(self.count), text)
        return str(self.count)

    def wants(self, words: list[str], text: object, out: str | bytes = b"", err: str = "", status: int = 0) -> None:
        """Runs the program with these arguments, and compares."""
        found = self.often.run(*words)
        assert found == said(out, err, status), f"{' '.join(words)}, of {text!r}"

    def text(self, given: bytes) -> None:
        """Tests a text alone: its first fault, or everything that the commands print for it."""
        name = self.file(given)
        try:
            text = read(given)
        except Fault as fault:
            command = ["canon", "show", "check"][self.count % 3]
            self.wants([command, name], given, err=f"{name}:{fault.line}\n", status=2)
            return
        self.wants(["show", name], given, shown(text))
        self.wants(["check", name], given, f"accepted {text.kind}\nforms {forms(text, given)}\n")
        # For kinds other than `min`, both forms are the same.
        for form in (1, 2) if text.kind == "min" else (1 + self.count % 2,):
            self.canonical(text, given, name, form)

    def canonical(self, text: Text, given: bytes, name: str, form: int) -> None:
        """Tests the canonical text: it means the same, and is its own canonical text."""
        wanted = canonical(text, form)
        self.wants(["canon", f"--form={form}", name], given, wanted)
        again = self.file(wanted)
        self.wants(["canon", f"--form={form}", again], wanted, wanted)
        self.wants(["check", again], wanted, f"accepted {text.kind}\nforms {forms(read(wanted), wanted)}\n")
        self.wants(["compare", name, again], given, b"same\n")
        if is_small(text):
            assert difference(text, read(wanted)) == "same", f"form {form} of {given!r}"

    def pair(self, left: bytes, right: bytes) -> None:
        """Tests `compare` on two texts."""
        names, texts = [self.file(left), self.file(right)], (left, right)
        found, fault = readings(names, texts)
        if fault:
            self.wants(["compare", *names], texts, err=fault, status=2)
        elif all(map(is_small, found)):
            line = difference(*found)
            self.wants(["compare", *names], texts, f"{line}\n", status=0 if line == "same" else 1)

    def companion(self, graph: bytes, companion: bytes) -> None:
        """Tests a text, and a companion that fits it or does not."""
        names, texts = [self.file(graph), self.file(companion)], (graph, companion)
        words = ["check", names[0], "--with", names[1]]
        found, fault = readings(names, texts)
        why = "" if fault else unfit(*found)
        if fault or why:
            self.wants(words, texts, err=fault or f"{names[1]}: {why}\n", status=2)
        else:
            self.wants(words, texts, f"accepted sp\nfits {found[1].kind}\nforms {forms(found[0], graph)}\n")


def readings(names: Sequence[str], texts: Sequence[bytes]) -> tuple[list[Text], str]:
    """Returns what texts read as, and the fault line of the first text that has a fault."""
    found = []
    for name, text in zip(names, texts):
        try:
            found.append(read(text))
        except Fault as fault:
            return found, f"{name}:{fault.line}\n"
    return found, ""


@pytest.fixture
def search(often: Quick, folder: str) -> Search:
    return Search(often)


@pytest.fixture
def share(quick: bool) -> int:
    """The share of texts that are tried is one of so many."""
    return 2 if quick else 1


@EACH_KIND
def test_accepted(search: Search, share: int, kind: str) -> None:
    def test(chance: Random) -> None:
        search.text(spelled(chance, lines_of(chance, made(chance, kind, chance.randrange(4) == 0))))

    drawn(ACCEPTED // share, test)


@EACH_KIND
def test_faulty(search: Search, share: int, kind: str) -> None:
    def test(chance: Random) -> None:
        lines = lines_of(chance, made(chance, kind, chance.randrange(4) == 0))
        search.text(spelled(chance, spoilt(chance, lines)))

    drawn(FAULTY // share, test)


@EACH_KIND
def test_compare(search: Search, share: int, kind: str) -> None:
    def test(chance: Random) -> None:
        left = made(chance, kind)
        right = varied(chance, left) if chance.randrange(10) else made(chance, chance.choice(KINDS))
        search.pair(*[spelled(chance, lines_of(chance, it)) for it in (left, right)])

    # Texts of `min` have the most to compare.
    drawn((4 if kind == "min" else 1) * COMPARED // share, test)


@EACH_KIND
def test_companion(search: Search, share: int, kind: str) -> None:
    """A companion of this kind, or another text in place of one, rarely with another kind of graph."""

    def test(chance: Random) -> None:
        graph = made(chance, "sp" if chance.randrange(20) else chance.choice(KINDS))
        search.companion(*[spelled(chance, lines_of(chance, it)) for it in (graph, made(chance, kind))])

    drawn((5 if kind in KINDS[3:] else 1) * COMPANIONS // share, test)
