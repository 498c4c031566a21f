"""All differences between two texts, by the pairs of their instances."""

import contextlib
from array import array
from collections import Counter
from collections.abc import Iterator
from dataclasses import dataclass
from itertools import groupby
from operator import itemgetter
from typing import Any, NamedTuple, Optional, Union

from .answers import AnyDifference, Same, table
from .calls import both_read
from .columns import column, numpy_here
from .files import File, enough_memory, name_of
from .instances import AnyInstance, Graph, Instance, Min, whole
from .library import GRAPHS
from .limits import Limit, Seconds

# The columns of each kind: those of the key, and those of the values with their names.
KEYS = {"min": ("tails", "heads"), "max": ("tails", "heads"), "sp": ("tails", "heads"), "co": ("ids",)}
VALUES = {
    "min": {"low": "lows", "cap": "caps", "cost": "costs"}, "max": {"cap": "capacities"}, "sp": {"length": "lengths"},
    "co": {"x": "xs", "y": "ys"}, "ss": {"source": "sources"}, "p2p": {"source": "sources", "target": "targets"},
}  # fmt: skip
# Nodes up to this one have a number of 64 signed bits for each pair.
MOST = 3_000_000_000
# How many pairs are looked at between two looks at the time.
STEP = 10_000
Key = tuple[int, ...]
# The values of the arcs of a pair. There are none if the text has no such pair.
Arcs = tuple[tuple[int, ...], ...]
# Amounts with their least costs.
Curve = tuple[tuple[int, int], ...]


@dataclass(frozen=True)
class PairDifference:
    """A pair whose arcs differ. `key` is its tail and head; or the ID of a point, or the place of an item. `left` and
    `right` have LENGTH, CAP, or LOW, CAP and COST in form 2 of each arc, and are empty without such a pair."""

    key: Key
    left: Arcs
    right: Arcs

    def curves(self) -> tuple[Curve, Curve]:
        """Returns the least costs of the left and of the right arcs, if they are those of a `min` text.

        A curve is the corners (amount, least cost), by ascending amount. An amount is the units that the arcs of a pair
        carry together. The lower bounds are the least amount; each further unit takes the cheapest arc that has room,
        so the cost of an amount between two corners is on the line between them, and any other amount is infeasible. A
        pair without arcs carries no unit, at no cost."""
        return curve_of(self.left), curve_of(self.right)


def curve_of(arcs: Arcs) -> Curve:
    """Returns the least costs of the arcs of a pair, each with LOW, CAP and COST."""
    if any(len(it) != 3 for it in arcs):
        raise TypeError("only the arcs of a min text have costs")
    amount, cost = sum(low for low, _, _ in arcs), sum(low * each for low, _, each in arcs)
    corners = [(amount, cost)]
    for low, cap, each in sorted(arcs, key=itemgetter(2)):
        if cap > low:
            amount, cost = amount + cap - low, cost + (cap - low) * each
            corners.append((amount, cost))
    return tuple(corners)


class Rows(NamedTuple):
    """The arcs, points or items of an instance in columns: those of the key, by which they rise, and the values."""

    keys: list[Any]
    values: list[Any]

    def kept(self, mask: Any) -> "Rows":
        """Returns the rows for which an array of numpy is true."""
        return Rows([it[mask] for it in self.keys], [it[mask] for it in self.values])


def rows_of(it: Instance) -> Rows:
    """Returns the rows of an instance. Items have their places as keys."""
    keys = [getattr(it, name) for name in KEYS.get(it.kind, ())] or [column(array("q", range(1, len(it) + 1)))]
    return Rows(keys, [getattr(it, name) for name in VALUES[it.kind].values()])


def arcs_around(it: Graph, node: int) -> dict[Key, Arcs]:
    """Returns the arcs from a node and to it, by their pairs."""
    np = numpy_here()
    if np is None:
        places = [at for at, ends in enumerate(zip(it.tails, it.heads)) if node in ends]
    else:
        places = np.flatnonzero((it.tails == node) | (it.heads == node)).tolist()
    keys, values = ([[int(column[at]) for at in places] for column in columns] for columns in rows_of(it))
    arcs = zip(zip(*keys), zip(*values))
    return {key: tuple(arc for _, arc in group) for key, group in groupby(arcs, itemgetter(0))}


def paired(left: Instance, right: Instance, limit: Optional[int], time: Limit) -> dict[str, Any]:
    """Returns how the pairs of two canonical instances of one kind differ, as attributes of `Differences`, with at most
    `limit` of the differing pairs. With numpy, pairs that are the same are left out first, which takes less time."""
    time.left()
    ours, theirs, same = rows_of(left), rows_of(right), 0
    np = numpy_here()
    if np is not None and len(left) and len(right):
        ours, theirs, same = without_same(np, ours, theirs, time)
    counts = Counter(both=same)
    fields: Counter[str] = Counter()
    shared: list[PairDifference] = []
    alone: list[PairDifference] = []
    for at, (key, one, other) in enumerate(merged(pairs_of(ours), pairs_of(theirs))):
        if at % STEP == 0:
            time.left()
        where = "both" if one and other else "only_left" if one else "only_right"
        counts[where] += 1
        if where != "both":
            # It is compared with its opposite.
            alone.append(PairDifference(key, one, other))
        elif one != other:
            if limit is None or len(shared) < limit:
                shared.append(PairDifference(key, one, other))
            counts["different"] += 1
            named = zip(VALUES[left.kind], zip(*one), zip(*other))
            fields["arcs" if len(one) != len(other) else " ".join(name for name, a, b in named if a != b)] += 1
    # Those whose opposite with the same arcs only the right text has.
    others = {it.key[::-1]: it.right for it in alone if not it.left and isinstance(left, Graph)}
    turned = tuple(it.key for it in alone if it.left and others.get(it.key) == it.left)
    pairs, supplies = tuple((shared + alone)[:limit]), 0
    if isinstance(left, Min) and isinstance(right, Min):
        # No flow is 0, so a node that one text alone has differs.
        supplies = len(dict(left.supplies.items() ^ right.supplies.items()))
    told = {"fields": tuple(fields.most_common()), "reversed": turned, "pairs": pairs, "supplies": supplies}
    return {**counts, **told}


def without_same(np: Any, left: Rows, right: Rows, time: Limit) -> tuple[Rows, Rows, int]:
    """Returns the rows of the pairs that are not the same in both texts, and how many are the same."""
    if len(left.keys) > 1 and any(int(it.max()) > MOST for it in (*left.keys, *right.keys)):
        return left, right, 0
    ours, theirs = (it.keys[0] if len(it.keys) == 1 else it.keys[0] * (MOST + 1) + it.keys[1] for it in (left, right))
    unlike = [without_equal(np, ours, left, theirs, right)]
    time.left()
    unlike.append(without_equal(np, theirs, right, ours, left))
    time.left()
    pairs = np.unique(np.concatenate(unlike))
    mask, other_mask = (np.isin(it, pairs) for it in (ours, theirs))
    return left.kept(mask), right.kept(other_mask), len(np.unique(ours[~mask]))


def without_equal(np: Any, keys: Any, rows: Rows, others: Any, other_rows: Rows) -> Any:
    """Returns the keys of the rows for which another text has no equal row at the same place in its pair."""
    behind = np.arange(len(keys)) - np.searchsorted(keys, keys)
    places = np.searchsorted(others, keys) + behind
    at = np.minimum(places, len(others) - 1)
    is_equal = (places < len(others)) & (others[at] == keys)
    for one, other in zip(rows.values, other_rows.values):
        is_equal &= one == other[at]
    return keys[~is_equal]


def pairs_of(rows: Rows) -> Iterator[tuple[Key, Arcs]]:
    """Yields the pairs of rows, by ascending keys, with their arcs."""
    keys, values = (zip(*(it.tolist() for it in columns)) for columns in rows)
    for key, group in groupby(zip(keys, values), itemgetter(0)):
        yield key, tuple(arc for _, arc in group)


def merged(left: Iterator[tuple[Key, Arcs]], right: Iterator[tuple[Key, Arcs]]) -> Iterator[tuple[Key, Arcs, Arcs]]:
    """Yields each key that one of two texts has, by ascending keys, with the arcs of both."""
    ours, theirs = next(left, None), next(right, None)
    while ours or theirs:
        key, one, other = min(it[0] for it in (ours, theirs) if it), Arcs(), Arcs()
        if ours and ours[0] == key:
            (_, one), ours = ours, next(left, None)
        if theirs and theirs[0] == key:
            (_, other), theirs = theirs, next(right, None)
        yield key, one, other


@dataclass(frozen=True, repr=False)
class Differences:
    """How two texts differ.

    `first` is what `compare` returns, and `kind` is that of both texts. The pairs are counted: those that only one text
    has, those that `both` have, and how many of these are `different`. `reversed` has the pairs that only the left
    text has, and whose opposite with the same arcs only the right one has. `supplies` is the number of nodes whose
    flows differ. `fields` counts the different pairs by the fields that differ, as `low cap`, or `arcs` if the numbers
    of arcs do. `values` has the names `nodes`, `source` and `sink` with both values, where these differ. `pairs` has
    the first differing pairs: those that both texts have, and then the others. For companions, points or items are
    counted instead. `left` and `right` are the instances, in form 2. Texts of two kinds have only these and `first`."""

    first: Union[Same, AnyDifference]
    left: AnyInstance
    right: AnyInstance
    kind: Optional[str] = None
    only_left: int = 0
    only_right: int = 0
    both: int = 0
    different: int = 0
    reversed: tuple[Key, ...] = ()
    supplies: int = 0
    fields: tuple[tuple[str, int], ...] = ()
    values: tuple[tuple[str, int, int], ...] = ()
    pairs: tuple[PairDifference, ...] = ()

    def around(self, node: int) -> tuple[PairDifference, ...]:
        """Returns the pairs of two graphs from a node and to it, with the arcs of both, which may be the same."""
        if not isinstance(self.left, Graph) or not isinstance(self.right, Graph):
            raise TypeError("only graphs have arcs")
        one, other = arcs_around(self.left, node), arcs_around(self.right, node)
        return tuple(PairDifference(it, one.get(it, ()), other.get(it, ())) for it in sorted(one | other))

    def __repr__(self) -> str:
        counts = [f"{it}={getattr(self, it)}" for it in ("only_left", "only_right", "both", "different")]
        return f"<dnorm.Differences: {self.first}, {', '.join(counts)}>"

    def _repr_html_(self) -> str:
        return table(self, ("key", "left", "right"), ((it.key, it.left, it.right) for it in self.pairs))


def differences(left: File, right: File, limit: Optional[int] = None, *, timeout: Seconds = None) -> Differences:
    """Returns all differences between two texts, with both instances, and the arcs of the first `limit` pairs."""
    if limit is not None and whole("limit", limit) < 0:
        raise ValueError(f"limit is at least 0, and not {limit}")
    time = Limit(timeout, name_of(left))
    with enough_memory(time.name), contextlib.ExitStack() as later, contextlib.ExitStack() as sooner:
        one, other = both_read((left, right), (sooner, later), time)
        first, count = one.first_difference(other), one.pairs if one.kind in GRAPHS else one.lines
        ours = theirs = one.instance(2)
        # The library keeps the left text no longer than it is needed.
        sooner.close()
        if not first:
            theirs = other.instance(2)
        later.close()
        more: dict[str, Any] = {"kind": ours.kind, "both": count} if first else {}
        if not first and ours.kind == theirs.kind:
            # What a kind does not have is None on both sides.
            both = ((it, getattr(ours, it, None), getattr(theirs, it, None)) for it in ("nodes", "source", "sink"))
            more = {"kind": ours.kind, "values": tuple(it for it in both if it[1] != it[2])}
            more |= paired(ours, theirs, limit, time)
        found = Differences(first, ours, theirs, **more)
    return found
