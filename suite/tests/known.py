"""Small texts with known answers: what each command prints for them, and the statuses. CANONICAL, COMPARED and REFUSED
have some cases of cases.json, and REFUSED has the texts of examples/refused/, too."""

import os
import re
from collections import Counter
from collections.abc import Callable, Iterator
from typing import Any, NamedTuple

from refusal_table import place_of
from shared import ROOT, text_of
from suite import Case, cases, told
from suite import texts as texts_of

EXAMPLES = f"{ROOT}/examples/refused"
# The arguments of a run, the texts by their names, the standard output and standard error, and the status.
Run = tuple[str, dict[str, bytes], bytes, bytes, int]
CASES = [it for it in cases() if it["rule"] != "long"]
# What differs between texts of one verdict, without the numbers.
SHAPE = re.compile(r"-?\d+")


def first(key: Callable[[Case], Any], count: int = 1, **more: int) -> Iterator[Case]:
    """Yields the first cases of each key, so many, or more of some; none of those with an empty key."""
    seen = Counter[str]()
    for case in CASES:
        name = key(case)
        if name and seen[name] < more.get(name, count):
            seen[name] += 1
            yield case


def of(case: Case) -> list[bytes]:
    """Returns the texts of a case."""
    return [it.encode("latin-1") for it in texts_of(case)]


def examples() -> Iterator[tuple[bytes, bytes]]:
    """Yields the texts in examples/refused/, and the line of the refusal of a text that is named `t`."""
    for name in sorted(os.listdir(EXAMPLES)):
        refusal, text = name.partition(".")[0], text_of(f"{EXAMPLES}/{name}")
        number, _, word = refusal.partition("-")
        yield text.encode(), f"t:{place_of(int(number), text)}: {int(number)} {word}\n".encode()


def runs(*given: tuple[Any, ...]) -> list[Run]:
    """Returns whole runs. A row has the arguments; the text that they name, or several, or the texts by their names;
    the standard output; and, unless they are empty and 0, the standard error and the status."""
    whole: list[Run] = []
    for words, texts, out, *end in given:
        names = [it for it in words.split()[1:] if not it.startswith("--")]
        if not isinstance(texts, dict):
            texts = dict(zip(names, texts if isinstance(texts, tuple) else [texts]))
        err, status = end or (b"", 0)
        whole.append((words, texts, out, err, status))
    return whole


def in_both_orders() -> Iterator[tuple[bytes, bytes, bytes, bytes]]:
    """Yields two texts with their verdicts in both orders. If the sides are exchanged, so are the last two words,
    unless these are the place of an item or a point."""
    for case in first(lambda it: SHAPE.sub("", it.get("verdict", "same").removeprefix("same")), 2):
        (left, right), there = of(case), f"{case['verdict']}\n".encode()
        *head, a, b = there.split()
        back = b" ".join([*head, b, a]) + b"\n" if len(head) > 1 else there
        yield left, right, there, back


# Parallel arcs, both directions, a self-loop and a negative length; the canonical text; and what `show` prints.
ROADS = b"p sp 3 7\na 1 2 7\na 1 2 3\na 2 1 4\na 1 2 3\na 2 2 0\na 3 1 -5\na 2 3 9\n"
ROADS_CANON = b"p sp 3 5\na 1 2 3\na 2 1 4\na 2 2 0\na 2 3 9\na 3 1 -5\n"
ROADS_SHOWN = (
    b"kind sp\nnodes 3\nlines 7\npairs 5\npair 1 2 length 3\npair 2 1 length 4\npair 2 2 length 0\n"
    b"pair 2 3 length 9\npair 3 1 length -5\n"
)
# An arc of capacity 0, two parallel arcs, and the sink before the source; and what `show` prints.
CAPACITIES = b"p max 3 4\nn 3 t\nn 1 s\na 2 3 0\na 1 2 4\na 1 3 2\na 1 2 5\n"
CAPACITIES_SHOWN = b"kind max\nnodes 3\nlines 4\nsource 1\nsink 3\npairs 2\npair 1 2 total 9\npair 1 3 total 2\n"
# Forced units and free capacity; and the canonical texts in form 1 and in form 2.
COSTS = next(of(it)[0] for it in CASES if it["id"] == "forced-remainder")
COSTS_ONE = b"p min 2 5\na 1 2 1 1 1\na 1 2 1 1 2\na 1 2 0 2 0\na 1 2 0 4 1\na 1 2 0 1 3\n"
COSTS_TWO = b"p min 2 4\na 1 2 0 2 0\na 1 2 1 5 1\na 1 2 1 1 2\na 1 2 0 1 3\n"
# A supply, a demand and a comment; and the canonical text.
FLOWS = b"c sample\np min 4 5\nn 1 4\nn 4 -4\na 1 2 0 4 2\na 1 3 0 2 2\na 2 3 0 2 1\na 2 4 0 3 3\na 3 4 0 5 1\n"
FLOWS_CANON = b"p min 4 5\nn 1 4\nn 4 -4\na 1 2 0 4 2\na 1 3 0 2 2\na 2 3 0 2 1\na 2 4 0 3 3\na 3 4 0 5 1\n"
# Two arcs with the greatest capacity, and the least and the greatest cost; and what `show` prints.
WIDE = (
    b"p min 2 2\na 1 2 4611686018427387904 4611686018427387904 -9223372036854775808\n"
    b"a 1 2 4611686018427387903 4611686018427387903 9223372036854775807\n"
)
WIDE_SHOWN = (
    b"kind min\nnodes 2\nlines 2\nsupplies 0\npairs 1\n"
    b"pair 1 2 forced 9223372036854775807 cost -13835058055282163711 steps 0\n"
)
# An arc without capacity, and a flow of 0.
IDLE = b"p min 2 2\nn 2 0\na 1 2 0 0 5\na 2 1 0 3 1\n"
# Capacities of one pair that sum past the limit.
FULL = next(of(it)[0] for it in CASES if it["id"] == "sum-above-max")

# Runs of `show`. Standard input is the text that is named `-`.
SHOWN = runs(
    ("show g.gr", ROADS, ROADS_SHOWN),
    ("show n.max", CAPACITIES, CAPACITIES_SHOWN),
    ("show h.min", COSTS, b"kind min\nnodes 2\nlines 3\nsupplies 0\npairs 1\npair 1 2 forced 2 cost 3 steps 3\n"),
    (
        "show -",
        b"p min 3 6\nn 1 4\nn 3 -4\nn 2 0\na 3 1 0 4 1\na 1 2 1 3 2\na 1 2 0 2 5\na 1 2 2 2 -7\na 2 3 0 0 9\n"
        b"a 1 2 0 1 2\n",
        b"kind min\nnodes 3\nlines 6\nsupplies 2\npairs 2\npair 1 2 forced 3 cost -12 steps 2\n"
        b"pair 3 1 forced 0 cost 0 steps 1\n",
    ),
    (
        "show m.min",
        FLOWS,
        b"kind min\nnodes 4\nlines 5\nsupplies 2\npairs 5\npair 1 2 forced 0 cost 0 steps 1\n"
        b"pair 1 3 forced 0 cost 0 steps 1\npair 2 3 forced 0 cost 0 steps 1\npair 2 4 forced 0 cost 0 steps 1\n"
        b"pair 3 4 forced 0 cost 0 steps 1\n",
    ),
    ("show z.min", IDLE, b"kind min\nnodes 2\nlines 2\nsupplies 0\npairs 1\npair 2 1 forced 0 cost 0 steps 1\n"),
    ("show x.min", WIDE, WIDE_SHOWN),
    (
        "show y.min",
        b"p min 9223372036854775807 1\n"
        b"a 9223372036854775807 9223372036854775807 9223372036854775807 9223372036854775807 "
        b"-9223372036854775808\n",
        b"kind min\nnodes 9223372036854775807\nlines 1\nsupplies 0\npairs 1\n"
        b"pair 9223372036854775807 9223372036854775807 forced 9223372036854775807 cost "
        b"-85070591730234615856620279821087277056 steps 0\n",
    ),
    ("show s.ss", b"p aux sp ss 3\ns 5\ns 2\ns 5\n", b"kind ss\nlines 3\n"),
    ("show q.p2p", b"p aux sp p2p 1\nq 1 9\n", b"kind p2p\nlines 1\n"),
    ("show c.co", b"p aux sp co 2\nv 4 5 6\nv 1 -2 3\n", b"kind co\nlines 2\n"),
    ("show n.max", FULL, b"", b"n.max:5: 17 SumTooLarge\n", 2),
)

# Runs of `check`.
CHECKED = runs(
    ("check m.min", FLOWS, b"accepted min\nforms none\n"),
    ("check m.min", FLOWS_CANON, b"accepted min\nforms 1 2\n"),
    ("check h.min", COSTS, b"accepted min\nforms none\n"),
    ("check h.min", COSTS_ONE, b"accepted min\nforms 1\n"),
    ("check h.min", COSTS_TWO, b"accepted min\nforms 2\n"),
    ("check h.min", b"p min 2 2\na 1 2 1 2 0\na 1 2 1 3 1\n", b"accepted min\nforms 2\n"),
    ("check g.gr", ROADS_CANON, b"accepted sp\nforms 1 2\n"),
    ("check n.max", b"p max 3 2\nn 1 s\nn 3 t\na 1 2 9\na 1 3 2\n", b"accepted max\nforms 1 2\n"),
    ("check n.max", CAPACITIES, b"accepted max\nforms none\n"),
    ("check s.ss", b"p aux sp ss 3\ns 5\ns 2\ns 5\n", b"accepted ss\nforms 1 2\n"),
    ("check q.p2p", b"p aux sp p2p 1\nq 1 9", b"accepted p2p\nforms none\n"),
    ("check c.co", b"p aux sp co 2\nv 4 5 6\nv 1 -2 3\n", b"accepted co\nforms none\n"),
    ("check n.max", FULL, b"", b"n.max:5: 17 SumTooLarge\n", 2),
)

# A query that fits.
QUERY = b"p aux sp p2p 1\nq 3 1\n"
# Runs of `check` with a companion.
FITTED = runs(
    ("check g.gr --with s.ss", (ROADS, b"p aux sp ss 1\ns 3\n"), b"accepted sp\nfits ss\nforms none\n"),
    ("check g.gr --with q.p2p", (ROADS, b"p aux sp p2p 2\nq 3 7\nq 9 1\n"), b"", b"q.p2p: 35 NotInGraph 7\n", 2),
    ("check m.min --with s.ss", (FLOWS, b"p aux sp ss 1\ns 3\n"), b"", b"s.ss: 36 NotKinds\n", 2),
    ("check n.max --with s.ss", (CAPACITIES, b"p aux sp ss 1\ns 3\n"), b"", b"s.ss: 36 NotKinds\n", 2),
    ("check g.gr --with c.co", (ROADS, b"p aux sp co 1\nv 4 0 0\n"), b"", b"c.co: 35 NotInGraph 4\n", 2),
    (
        "check g.gr --with c.co",
        (ROADS, b"p aux sp co 1\nv 9223372036854775807 0 0\n"),
        b"",
        b"c.co: 35 NotInGraph 9223372036854775807\n",
        2,
    ),
    ("check g.gr --with -", (ROADS, b"p aux sp ss 2\ns 9\ns 5\n"), b"", b"-: 35 NotInGraph 9\n", 2),
    ("check g.gr --with q.p2p", (ROADS, b"p aux sp p2p 2\nq 3 1\nq 7 1\n"), b"", b"q.p2p: 35 NotInGraph 7\n", 2),
    ("check g.gr --with q.p2p", (ROADS, b"p aux sp p2p 1\nq 1 4\n"), b"", b"q.p2p: 35 NotInGraph 4\n", 2),
    ("check g.gr --with c.co", (ROADS, b"p aux sp co 2\nv 9 0 0\nv 5 0 0\n"), b"", b"c.co: 35 NotInGraph 5\n", 2),
    ("check - --with s.ss", (ROADS_CANON, b"p aux sp ss 0\n"), b"accepted sp\nfits ss\nforms 1 2\n"),
    ("check --with=q.p2p g.gr", {"g.gr": ROADS, "q.p2p": QUERY}, b"accepted sp\nfits p2p\nforms none\n"),
    ("check g.gr --with c.co", (ROADS_CANON, b"p aux sp co 1\nv 3 -1 9\n"), b"accepted sp\nfits co\nforms 1 2\n"),
    ("check g.gr --with g.gr", ROADS, b"", b"g.gr: 36 NotKinds\n", 2),
    ("check g.gr --with x", (ROADS, b"x\n"), b"", b"x:1: 1 BadLine\n", 2),
    ("check x --with missing", b"x\n", b"", b"x:1: 1 BadLine\n", 2),
    ("check g.gr --with missing", ROADS, b"", b"missing: 31 Read\n", 4),
    ("check - --with -", ROADS, b"", b"dnorm: standard input named twice\n", 3),
)

# Runs of `compare` on texts that do not differ, and on texts that cannot be compared. `COMPARED` has texts that differ.
PAIRS = runs(
    ("compare - g.gr", (ROADS_CANON, ROADS), b"same\n"),
    ("compare g.gr g.gr", ROADS, b"same\n"),
    ("compare - -", ROADS, b"", b"dnorm: standard input named twice\n", 3),
    ("compare n.max missing", FULL, b"", b"n.max:5: 17 SumTooLarge\n", 2),
    ("compare g.gr n.max", (ROADS, FULL), b"", b"n.max:5: 17 SumTooLarge\n", 2),
    ("compare missing n.max", {"n.max": FULL}, b"", b"missing: 31 Read\n", 4),
    ("compare l r", (ROADS, ROADS_CANON), b"same\n"),
    ("compare l r", (IDLE, b"p min 2 1\na 2 1 0 3 1\n"), b"same\n"),
    ("compare l r", (b"p aux sp co 1\nv 2 0 0\n", b"p aux sp co 1\nv 2 0 0\n"), b"same\n"),
)

# Wrong command lines, in a folder with a text g.gr.
WRONG_WORDS = ["canon", "canon g.gr g.gr", "canon --form 3 g.gr", "canon --form=1 --form=2 g.gr", "canon -x"]
WRONG_WORDS += ["check g.gr --with", "canon --", "check g.gr --form 1", "compare g.gr", "toString g.gr"]
WRONG_WORDS += ["help nothing", "show g.gr g.gr", "-", "--", "g.gr", "Canon g.gr", "check", "toString -h"]
WRONG_WORDS += ["canon -- -h g.gr", "check g.gr --with -x", "check g.gr --with -h", "canon --form 3 --help"]
WRONG_WORDS += ["canon --form=1 --form=2 -h", "show g.gr g.gr -h", "canon -x -h", "help -h"]
# Runs of `canon`, and wrong command lines.
OTHERS = runs(
    ("canon -", ROADS, ROADS_CANON),
    ("canon g.gr", ROADS, ROADS_CANON),
    ("canon --form 1 h.min", {"h.min": COSTS}, COSTS_ONE),
    ("canon h.min --form=2", COSTS, COSTS_TWO),
    ("canon missing", {"g.gr": ROADS}, b"", b"missing: 31 Read\n", 4),
    ("canon .", {"g.gr": ROADS}, b"", b".: 31 Read\n", 4),
    *((it, {"g.gr": ROADS}, b"", b"dnorm: bad command line\n", 3) for it in WRONG_WORDS),
)

# Texts, and their canonical texts in form 1 and in form 2.
CANONICAL = [(COSTS, COSTS_ONE, COSTS_TWO), (FLOWS, FLOWS_CANON, FLOWS_CANON), (ROADS, ROADS_CANON, ROADS_CANON)]
for one in first(lambda it: it["rule"] if "canon" in it else "", ninth=4, forced=8):
    made = [it.encode() for it in told(one)["canon"]]
    CANONICAL.append((of(one)[0], made[0], made[-1]))
# A left text, a right text, and the line that `compare` prints, in both orders.
COMPARED = [*in_both_orders()]
# Texts, and the line of the refusal of a text that is named `t`.
REFUSED = [*examples()]
for one in first(lambda it: it.get("refusal", "") if "text" in it and "with" not in it else "", 2):
    REFUSED.append((of(one)[0], f"t:{one['place']}: {one['refusal']}\n".encode()))


class Row(NamedTuple):
    """A run: arguments, texts by their names (`-` is standard input), both streams and the status."""

    words: str
    named: dict[str, bytes]
    out: bytes
    err: bytes
    status: int

    def name(self) -> str:
        """Returns a name of the run: its words, and the first line that it prints."""
        return f"{self.words}: {(self.err or self.out).decode().partition(chr(10))[0]}"


def rows() -> Iterator[Row]:
    """Yields all runs of the tables."""
    yield Row("", {"-": ROADS}, ROADS_CANON, b"", 0)
    yield from (Row(*it) for it in [*SHOWN, *CHECKED, *FITTED, *PAIRS, *OTHERS])
    for text, err in REFUSED:
        yield Row("canon t", {"t": text}, b"", err, 2)
    for text, one, two in CANONICAL:
        for given in [text, one, two]:
            yield Row("canon t", {"t": given}, one, b"", 0)
            yield Row("canon --form 2 t", {"t": given}, two, b"", 0)
    for left, right, there, back in COMPARED:
        yield Row("compare l r", {"l": left, "r": right}, there, b"", 1)
        yield Row("compare l r", {"l": right, "r": left}, back, b"", 1)
