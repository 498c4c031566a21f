"""A second implementation of docs/FORMAT.md, simple and slow. It computes what a text reads as or its first fault, what
the text means, its canonical texts, what `show` prints for it, the first difference of two texts, and whether a
companion fits. It finds the costs of the arcs of a `min` pair by trying all splits, unless there are many."""

import re
from collections.abc import Iterable, Sequence
from dataclasses import dataclass, field

MOST = 2**63 - 1
LETTERS = {"p", "n", "a", "s", "q", "v"}
# The greatest capacity of a `min` pair whose splits are all tried.
SMALL = 1000
NUMBER = re.compile(r"[+-]?[0-9]+")
# The lines of each kind: the fields of its problem line, then the fields of its other lines, by their letters.
LINES = {
    "min": {"p": "NODES ARCS", "n": "ID FLOW", "a": "SRC DST LOW CAP COST"},
    "max": {"p": "NODES ARCS", "n": "ID TERMINAL", "a": "SRC DST CAP"},
    "sp": {"p": "NODES ARCS", "a": "SRC DST LENGTH"},
    "ss": {"p": "K", "s": "ID"},
    "p2p": {"p": "K", "q": "ID1 ID2"},
    "co": {"p": "K", "v": "ID X Y"},
}
NAMES = {"min": ["min"], "max": ["max"], "sp": ["sp"]} | {it: ["aux", "sp", it] for it in ["ss", "p2p", "co"]}
GRAPHS = {"min", "max", "sp"}
# The letter of the lines that a problem line counts.
COUNTED = {"min": "a", "max": "a", "sp": "a", "ss": "s", "p2p": "q", "co": "v"}
CODES = (
    "BadLine EarlyLine SecondProblem UnknownProblem WrongLine LateNode TooManyLines FieldCount NotANumber OutOfRange "
    "Negative BadTerminal NodeOutOfRange RepeatedNode SameTerminal LowAboveCap SumTooLarge NoProblem MissingTerminal "
    "TooFewLines TooLong"
).split()

# The numbers of a counted line; and those of an arc after its pair.
Item = tuple[int, ...]
Numbers = Sequence[int]
Pair = tuple[int, int]
# What the arcs of a pair mean: a length or a total capacity; for `min` the forced units, their cost, and the free units
# at each cost.
Meaning = int | tuple[int, int, dict[int, int]]


@dataclass
class Text:
    """A text as far as it was read. `items` has its counted lines in file order, `flows` each node line of a `min`
    text, and `terminals` the source and the sink by their letters."""

    kind: str = ""
    nodes: int = 0
    declared: int = 0
    flows: dict[int, int] = field(default_factory=dict)
    terminals: dict[str, int] = field(default_factory=dict)
    items: list[Item] = field(default_factory=list)

    def arcs(self) -> dict[Pair, list[Numbers]]:
        """Returns the numbers of the arcs of each ordered pair."""
        found: dict[Pair, list[Numbers]] = {}
        for src, dst, *numbers in self.items:
            found.setdefault((src, dst), []).append(numbers)
        return found

    def supplies(self) -> dict[int, int]:
        return {node: flow for node, flow in self.flows.items() if flow}


class Fault(Exception):
    """The first fault of a text: its place, and its number."""

    def __init__(self, place: int | str, number: int) -> None:
        super().__init__()
        self.line = f"{place}: {number} {CODES[number - 1]}"


def read(text: bytes) -> Text:
    """Returns what a text, in bytes, reads as, or raises its first fault."""
    so_far = Text()
    for at, line in numbered(text.decode("latin-1")):
        read_line(so_far, at, line)
    number = fault_of_end(so_far)
    if number:
        raise Fault("end", number)
    return so_far


def numbered(text: str, first: int = 1) -> Iterable[tuple[int, str]]:
    """Returns the lines of a text, without their LFs, with their numbers."""
    pieces = text.split("\n")
    return enumerate(pieces[:-1] if pieces[-1] == "" else pieces, first)


def read_line(so_far: Text, at: int, line: str) -> None:
    """Adds a line to what was read, or raises its fault."""
    words = [it for it in re.split("[ \t\r]", line) if it]
    if words and not words[0].startswith("c"):
        number = fault_of_line(so_far, words)
        if number:
            raise Fault(at, number)
        take(so_far, words)


def value_of(word: str) -> int:
    """Returns the value of a number text, or another value out of range for one of more than 99 digits."""
    if 99 < len(word):
        # int refuses thousands of digits.
        word = re.sub("([+-]?)0*([0-9]{1,99}).*", r"\1\2", word)
    return int(word)


def kind_named(words: list[str]) -> str:
    """Returns the kind that the words after `p` begin with."""
    return next((kind for kind, names in NAMES.items() if words[: len(names)] == names), "")


def fields_of(so_far: Text, words: list[str]) -> tuple[list[str], list[str]]:
    """Returns the names of a line's fields, and their words."""
    letter, *rest = words
    kind = so_far.kind or kind_named(rest)
    return LINES[kind][letter].split(), rest if so_far.kind else rest[len(NAMES[kind]) :]


def fault_of_line(so_far: Text, words: list[str]) -> int:
    """Returns the number of the first fault of a line, or 0."""
    letter, kind = words[0], so_far.kind
    if letter not in LETTERS:
        return 1
    if not kind and letter != "p":
        return 2
    if kind and letter == "p":
        return 3
    if not kind and not kind_named(words[1:]):
        return 4
    if kind and letter not in LINES[kind]:
        return 5
    if letter == "n" and so_far.items:
        return 6
    if kind and letter == COUNTED[kind] and len(so_far.items) == so_far.declared:
        return 7
    names, values = fields_of(so_far, words)
    if len(names) != len(values):
        return 8
    return fault_of_fields(so_far, dict(zip(names, values)))


def fault_of_fields(so_far: Text, fields: dict[str, str]) -> int:
    """Returns the number of the first fault of a line's fields, from 9 on, or 0."""
    texts = [value for name, value in fields.items() if name != "TERMINAL"]
    if not all(NUMBER.fullmatch(it) for it in texts):
        return 9
    if not all(-MOST - 1 <= value_of(it) <= MOST for it in texts):
        return 10
    numbers = {name: value_of(value) for name, value in fields.items() if name != "TERMINAL"}
    if any(numbers.get(it, 0) < 0 for it in ["NODES", "ARCS", "K", "LOW", "CAP"]):
        return 11
    if fields.get("TERMINAL", "s") not in ("s", "t"):
        return 12
    greatest = so_far.nodes if so_far.kind in GRAPHS else MOST
    if not all(1 <= numbers[it] <= greatest for it in ["ID", "ID1", "ID2", "SRC", "DST"] if it in numbers):
        return 13
    return fault_of_item(so_far, numbers, fields.get("TERMINAL"))


def fault_of_item(so_far: Text, numbers: dict[str, int], terminal: str | None) -> int:
    """Returns the number of the first fault of a line that depends on earlier lines, from 14 on, or 0."""
    node = numbers.get("ID")
    if terminal in so_far.terminals or "FLOW" in numbers and node in so_far.flows:
        return 14
    if so_far.kind == "co" and node in [it[0] for it in so_far.items]:
        return 14
    if terminal and node in so_far.terminals.values():
        return 15
    if "CAP" in numbers:
        if numbers["CAP"] < numbers.get("LOW", 0):
            return 16
        at = {"min": 1, "max": 0}[so_far.kind]
        caps = [it[at] for it in so_far.arcs().get((numbers["SRC"], numbers["DST"]), [])]
        if MOST < sum(caps) + numbers["CAP"]:
            return 17
    return 0


def take(so_far: Text, words: list[str]) -> None:
    """Adds a line without a fault."""
    if words[0] == "p":
        _, values = fields_of(so_far, words)
        so_far.kind = kind_named(words[1:])
        *nodes, so_far.declared = map(value_of, values)
        so_far.nodes = nodes[0] if nodes else 0
    elif words[0] == "n" and so_far.kind == "max":
        so_far.terminals[words[2]] = value_of(words[1])
    elif words[0] == "n":
        so_far.flows[value_of(words[1])] = value_of(words[2])
    else:
        so_far.items.append(tuple(map(value_of, words[1:])))


def fault_of_end(so_far: Text) -> int:
    """Returns the number of the first fault at the end of the text, or 0."""
    if not so_far.kind:
        return 18
    if so_far.kind == "max" and len(so_far.terminals) < 2:
        return 19
    return 20 if len(so_far.items) < so_far.declared else 0


def forced(arcs: Iterable[Numbers]) -> tuple[int, int]:
    """Returns the forced units of `min` arcs, and their cost."""
    return sum(low for low, _, _ in arcs), sum(low * cost for low, _, cost in arcs)


def free(arcs: Iterable[Numbers]) -> dict[int, int]:
    """Returns the free units of `min` arcs at each cost that has any."""
    units: dict[int, int] = {}
    for low, cap, cost in arcs:
        units[cost] = units.get(cost, 0) + cap - low
    return {cost: units[cost] for cost in sorted(units) if units[cost]}


def curve(arcs: Iterable[Numbers]) -> dict[int, int]:
    """Returns the least cost of each amount, by trying all splits. Only for small capacities."""
    costs = {0: 0}
    for low, cap, cost in arcs:
        found: dict[int, int] = {}
        for amount, spent in costs.items():
            for share in range(low, cap + 1):
                whole = spent + share * cost
                found[amount + share] = min(whole, found.get(amount + share, whole))
        costs = found
    return costs


def meaning(kind: str, arcs: Sequence[Numbers]) -> Meaning | None:
    """Returns what the arcs of one pair mean, or None if they mean nothing."""
    if kind == "sp":
        return min(it[0] for it in arcs) if arcs else None
    if kind == "max":
        return sum(it[0] for it in arcs) or None
    units, cost = forced(arcs)
    return (units, cost, free(arcs)) if units or free(arcs) else None


def meanings(text: Text) -> dict[Pair, Meaning]:
    """Returns what each ordered pair means whose arcs mean something, by ascending pair."""
    found = {pair: meaning(text.kind, arcs) for pair, arcs in sorted(text.arcs().items())}
    return {pair: it for pair, it in found.items() if it is not None}


def canonical_arcs(units: int, cost: int, free_units: dict[int, int], form: int) -> list[Item]:
    """Returns the canonical arcs of a `min` pair: LOW, CAP and COST of each."""
    fixed = []
    if units:
        each, rest = cost // units, cost % units
        fixed = [(it, at) for it, at in [(units - rest, each), (rest, each + 1)] if it]
    if form == 1:
        return [*[(it, it, at) for it, at in fixed], *[(0, it, at) for at, it in free_units.items()]]
    lows = {at: it for it, at in fixed}
    return [(lows.get(at, 0), lows.get(at, 0) + free_units.get(at, 0), at) for at in sorted({*lows, *free_units})]


def canonical(text: Text, form: int) -> bytes:
    """Returns the canonical text."""
    heads: list[str] = []
    if text.kind not in GRAPHS:
        items = sorted(text.items) if text.kind == "co" else text.items
        lines = [" ".join(map(str, [COUNTED[text.kind], *it])) for it in items]
        counts = [len(lines)]
    else:
        heads += [f"n {node} {flow}" for node, flow in sorted(text.supplies().items())]
        heads += [f"n {text.terminals[it]} {it}" for it in "st" if text.kind == "max"]
        lines = []
        for (src, dst), it in meanings(text).items():
            arcs: list[Item] = [(it,)] if isinstance(it, int) else canonical_arcs(*it, form)
            lines += [" ".join(map(str, ["a", src, dst, *arc])) for arc in arcs]
        counts = [text.nodes, len(lines)]
    return "\n".join([" ".join(map(str, ["p", *NAMES[text.kind], *counts])), *heads, *lines, ""]).encode()


def shown(text: Text) -> bytes:
    """Returns what `show` prints."""
    rows = [f"kind {text.kind}", f"lines {len(text.items)}"]
    if text.kind in GRAPHS:
        rows.insert(1, f"nodes {text.nodes}")
        pairs = meanings(text)
        if text.kind == "min":
            rows.append(f"supplies {len(text.supplies())}")
        if text.kind == "max":
            rows += [f"source {text.terminals['s']}", f"sink {text.terminals['t']}"]
        rows.append(f"pairs {len(pairs)}")
        rows += [f"pair {src} {dst} {words_on(text.kind, it)}" for (src, dst), it in pairs.items()]
    return "\n".join([*rows, ""]).encode()


def words_on(kind: str, it: Meaning) -> str:
    """Returns the words that `show` prints for what a pair means."""
    if isinstance(it, int):
        return f"{'length' if kind == 'sp' else 'total'} {it}"
    return f"forced {it[0]} cost {it[1]} steps {len(it[2])}"


def difference(left: Text, right: Text) -> str:
    """Returns what `compare` prints for two texts."""
    if left.kind != right.kind:
        return f"differ kind {left.kind} {right.kind}"
    if left.nodes != right.nodes:
        return f"differ nodes {left.nodes} {right.nodes}"
    for node in sorted({*left.supplies(), *right.supplies()}):
        flows = [it.supplies().get(node, 0) for it in (left, right)]
        if flows[0] != flows[1]:
            return f"differ supply {node} {flows[0]} {flows[1]}"
    for letter, name in [("s", "source"), ("t", "sink")]:
        nodes = [it.terminals.get(letter) for it in (left, right)]
        if nodes[0] != nodes[1]:
            return f"differ {name} {nodes[0]} {nodes[1]}"
    return difference_of_pairs(left, right) if left.kind in GRAPHS else difference_of_items(left, right)


def difference_of_pairs(left: Text, right: Text) -> str:
    """Returns the line of the first ordered pair whose arcs differ in meaning. For `min` this compares the costs of all
    amounts."""
    for pair in sorted({*left.arcs(), *right.arcs()}):
        arcs = [it.arcs().get(pair, []) for it in (left, right)]
        how = how_of_min(*arcs) if left.kind == "min" else how_of_numbers(left.kind, *arcs)
        if how:
            return f"differ pair {pair[0]} {pair[1]} {how}"
    return "same"


def how_of_numbers(kind: str, left: Sequence[Numbers], right: Sequence[Numbers]) -> str:
    """Returns how the lengths or the capacities differ."""
    values = [meaning(kind, it) for it in (left, right)]
    if values[0] == values[1]:
        return ""
    name, nothing = ("length", "none") if kind == "sp" else ("capacity", 0)
    return " ".join([name, *[str(nothing if it is None else it) for it in values]])


def how_of_min(left: Sequence[Numbers], right: Sequence[Numbers]) -> str:
    """Returns how the costs of amounts differ."""
    is_small = all(sum(cap for _, cap, _ in arcs) <= SMALL for arcs in (left, right))
    return how_of_costs(curve(left), curve(right)) if is_small else how_of_steps(left, right)


def how_of_steps(left: Sequence[Numbers], right: Sequence[Numbers]) -> str:
    """Returns the same as how_of_costs, also for great capacities: an amount costs what the forced units cost, and what
    the cheapest free units above them cost."""
    units, costs = zip(*map(forced, (left, right)))
    if units[0] != units[1] or costs[0] != costs[1]:
        shown = [cost if own == min(units) else "none" for own, cost in zip(units, costs)]
        return f"amount {min(units)} cost {shown[0]} {shown[1]}"
    steps = [[*free(arcs).items()] for arcs in (left, right)]
    amount, spent = units[0], costs[0]
    while steps[0] and steps[1] and steps[0][0][0] == steps[1][0][0]:
        cost, most = steps[0][0][0], min(own[0][1] for own in steps)
        amount, spent = amount + most, spent + most * cost
        steps = [[*[(cost, own[0][1] - most)] * (own[0][1] > most), *own[1:]] for own in steps]
    if not steps[0] and not steps[1]:
        return ""
    shown = [spent + own[0][0] if own else "none" for own in steps]
    return f"amount {amount + 1} cost {shown[0]} {shown[1]}"


def how_of_costs(left: dict[int, int], right: dict[int, int]) -> str:
    """Returns the least amount at which two curves differ, and both costs there."""
    for amount in sorted({*left, *right}):
        if left.get(amount) != right.get(amount):
            return f"amount {amount} cost {left.get(amount, 'none')} {right.get(amount, 'none')}"
    return ""


def difference_of_items(left: Text, right: Text) -> str:
    """Returns the first difference of two lists, or of two maps of points."""
    if left.kind == "co":
        points = [{it[0]: it[1:] for it in text.items} for text in (left, right)]
        apart = [it for it in sorted({*points[0], *points[1]}) if points[0].get(it) != points[1].get(it)]
        return f"differ point {apart[0]}" if apart else "same"
    if len(left.items) != len(right.items):
        return f"differ length {len(left.items)} {len(right.items)}"
    apart = [at for at, (one, other) in enumerate(zip(left.items, right.items), 1) if one != other]
    return f"differ item {apart[0]}" if apart else "same"


def forms(text: Text, given: bytes) -> str:
    """Returns the forms in which a text, given with its bytes, is canonical."""
    return " ".join(str(it) for it in (1, 2) if canonical(text, it) == given) or "none"


def unfit(graph: Text, companion: Text) -> str:
    """Returns why a companion does not fit a graph, or nothing."""
    if graph.kind != "sp" or companion.kind in GRAPHS:
        return "36 NotKinds"
    items = sorted(it[:1] for it in companion.items) if companion.kind == "co" else companion.items
    above = [node for it in items for node in it if graph.nodes < node]
    return f"35 NotInGraph {above[0]}" if above else ""
