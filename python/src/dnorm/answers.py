"""What the calls return."""

import html
from collections.abc import Iterable, Sequence
from dataclasses import dataclass
from itertools import islice
from typing import TYPE_CHECKING, Generic, Literal, Optional, TypeVar, Union

# A canonical form.
Form = Literal[1, 2]
# The line of `compare` for each difference, in which words in capitals stand for values; and a sentence on it.
DIFFERENCES = {
    "kind": ("differ kind LEFT RIGHT", "They are of two kinds."),
    "nodes": ("differ nodes LEFT RIGHT", "They differ in the number of nodes."),
    "supply": ("differ supply NODE LEFT RIGHT", "They differ in the flow of node {node}."),
    "source": ("differ source LEFT RIGHT", "They differ in the source."),
    "sink": ("differ sink LEFT RIGHT", "They differ in the sink."),
    "length": ("differ pair TAIL HEAD length LEFT RIGHT", "The least lengths {} differ."),
    "capacity": ("differ pair TAIL HEAD capacity LEFT RIGHT", "The total capacities {} differ."),
    "cost": ("differ pair TAIL HEAD amount AMOUNT cost LEFT RIGHT", "The least costs of {amount} units {} differ."),
    "items": ("differ length LEFT RIGHT", "They differ in the number of items."),
    "item": ("differ item PLACE", "They differ in item {place}."),
    "point": ("differ point NODE", "They differ in the point of node {node}."),
}
# How many rows a notebook shows.
ROWS = 10


def table(it: object, names: Sequence[str], rows: Iterable[Sequence[object]]) -> str:
    """Returns what a notebook shows of an answer or an instance: how it prints, and the first rows as a table."""
    first = [names, *islice(rows, ROWS + 1)]
    if len(first) > ROWS + 1:
        first[-1] = ["..."] * len(names)
    lines = (f"<tr>{''.join(f'<td>{html.escape(str(cell))}</td>' for cell in row)}</tr>" for row in first)
    return f"<p>{html.escape(repr(it))}</p><table>{''.join(lines)}</table>"


@dataclass(frozen=True)
class Checked:
    """What `check` found in an accepted text.

    `kind` is `min`, `max`, `sp`, `ss`, `p2p` or `co`. `fits` is the kind of the companion, or None if there is none.
    `forms` has the forms in which the text is canonical: 1, 2, both or none."""

    kind: str
    fits: Optional[str]
    forms: tuple[Form, ...]


@dataclass(frozen=True)
class Same:
    """Two texts pose the same problem. As a condition it is true."""

    def __bool__(self) -> Literal[True]:
        return True

    def __str__(self) -> str:
        return "same"


@dataclass(frozen=True)
class Difference:
    """The first difference between two texts. As a condition it is false. It prints as the line of the program.

    `left` and `right` are the values in both texts, and `what` says of what:

    - `kind`: the kinds
    - `nodes`: the numbers of nodes
    - `supply`: the flows of `node`
    - `source`, `sink`: the nodes
    - `length`: the least lengths of `pair`; None where it has no arc
    - `capacity`: the total capacities of `pair`
    - `cost`: the least costs of `amount` units of `pair`; None where it cannot carry exactly so many
    - `items`: the numbers of items of two lists
    - `item`: the items at `place`, counted from 1, without values
    - `point`: the points of `node`, without values

    `pair` is a tail and a head. What a difference does not have is None."""

    what: str
    left: Union[int, str, None] = None
    right: Union[int, str, None] = None
    node: Optional[int] = None
    pair: Optional[tuple[int, int]] = None
    amount: Optional[int] = None
    place: Optional[int] = None

    def __bool__(self) -> Literal[False]:
        return False

    def __str__(self) -> str:
        tail, head = self.pair or (None, None)
        values = {**{name.upper(): it for name, it in vars(self).items()}, "TAIL": tail, "HEAD": head}
        words = [values.get(it, it) for it in DIFFERENCES[self.what][0].split()]
        return " ".join("none" if it is None else str(it) for it in words)


if TYPE_CHECKING:
    # What a type checker knows of a difference once it knows `what` differs. There is one class only.
    What = TypeVar("What", bound=str)
    Value = TypeVar("Value", bound=Union[int, str, None])
    Node = TypeVar("Node", bound=Optional[int])
    Pair = TypeVar("Pair", bound=Optional[tuple[int, int]])
    Amount = TypeVar("Amount", bound=Optional[int])
    Place = TypeVar("Place", bound=Optional[int])

    class Known(Difference, Generic[What, Value, Node, Pair, Amount, Place]):
        what: What
        left: Value
        right: Value
        node: Node
        pair: Pair
        amount: Amount
        place: Place

    AnyDifference = Union[
        Known[Literal["kind"], str, None, None, None, None],
        Known[Literal["nodes", "source", "sink", "items"], int, None, None, None, None],
        Known[Literal["supply"], int, int, None, None, None],
        Known[Literal["capacity"], int, None, tuple[int, int], None, None],
        Known[Literal["length"], Optional[int], None, tuple[int, int], None, None],
        Known[Literal["cost"], Optional[int], None, tuple[int, int], int, None],
        Known[Literal["item"], None, None, None, None, int],
        Known[Literal["point"], None, int, None, None, None],
    ]
else:
    AnyDifference = Difference
