"""The arc lines of a text, on which a flow on canonical arcs is put back."""

from __future__ import annotations

import weakref
from array import array
from collections.abc import Iterator, Sequence
from dataclasses import dataclass, replace
from typing import Any, ClassVar, NamedTuple, Optional, Union

from .answers import Form
from .columns import Column, columns_of, taken
from .files import Text
from .instances import AnyInstance, Graph, column_names
from .library import WIDTH, Held, LinesRead, held
from .limits import Limit


class Kept(NamedTuple):
    """What the library needs to spread a flow: the instance, the rows of the lines, and the graph in its form."""

    held: Held
    rows: array[int]
    graph: weakref.ref[AnyInstance]
    form: int

    def form_of(self, graph: object) -> int:
        """Returns the form of the graph. Raises ValueError if the text poses another one."""
        if graph is self.graph():
            return self.form
        for form in (1, 2):
            if self.held.instance(form) == graph:
                return form
        raise ValueError("the arc lines are those of another text than the graph")


@dataclass(frozen=True, eq=False, repr=False)
class ArcLines:
    """The arc lines of a text of this kind, in its order. Line i has the number `numbers[i]`, counted from 1, in the
    file. It goes from `tails[i]` to `heads[i]`, and its numbers are those of an arc: the length (`sp`) or the capacity
    (`max`) in `a`; LOW, CAP and COST (`min`) in `a`, `b` and `c`. The numbers that the kind lacks are 0.

    The lines that `read` returns keep the memory of the library for the instance, too."""

    kind: str
    numbers: Column
    tails: Column
    heads: Column
    a: Column
    b: Column
    c: Column
    _kept: ClassVar[Optional[Kept]] = None

    def __len__(self) -> int:
        return len(self.numbers)

    def __repr__(self) -> str:
        return f"<dnorm.ArcLines: {len(self)} lines>"

    def __reduce__(self) -> tuple[Any, ...]:
        # What is kept belongs to this process.
        columns = (self.numbers, self.tails, self.heads, self.a, self.b, self.c)
        return ArcLines, (self.kind, *(array("q", it) if isinstance(it, memoryview) else it for it in columns))

    def spread(self, graph: Graph, flow: Union[Sequence[int], Column]) -> Column:
        """Puts a flow on the arcs of `graph`, the instance that `read` returned with these lines, back on the lines:
        `flow[i]` is the flow of arc i. Returns the units of each line. The lines of a pair share the flow of its arcs:
        in `min` each has its LOW, and the rest goes to the cheapest, so that the cost stays the same; in `max` the
        first ones are filled; in `sp` the first of the shortest has all. Raises ValueError for units out of bounds, and
        NoLibrary for a library of 3.0.0, which cannot spread a flow."""
        if not isinstance(graph, Graph):
            raise TypeError(f"a graph has a flow, and {type(graph).__name__} is none")
        given = taken("flow", flow)
        if len(given) != len(graph):
            raise ValueError(f"the graph has {len(graph)} arcs, and the flow {len(given)} numbers")
        kept = self._kept or self._read_again(graph)
        return kept.held.spread(kept.form_of(graph), given, kept.rows)

    def _read_again(self, graph: Graph) -> Kept:
        """Returns what is kept of a graph with these lines, which are no longer those that `read` returned."""
        values = zip(column_names(type(graph)), (self.tails, self.heads, self.a, self.b, self.c))
        kept = read_lines(Text(replace(graph, **dict(values)), Limit(None, "-")), 1)[1]._kept
        assert kept
        return kept

    def flow_lines(self, units: Union[Sequence[int], Column]) -> Iterator[bytes]:
        """Yields the line `f TAIL HEAD UNITS` of each arc line, in the order of the text."""
        if len(units) != len(self):
            raise ValueError(f"there are {len(self)} arc lines, and {len(units)} numbers of units")
        return map(b"f %d %d %d\n".__mod__, zip(self.tails.tolist(), self.heads.tolist(), map(int, units)))


def read_lines(text: Text, form: Form) -> tuple[AnyInstance, ArcLines]:
    """Returns the instance that a text poses, and its arc lines."""
    with LinesRead() as reader, held(text, reader.take) as found:
        reader.take(b"\n")
        graph, lines = found.instance(form), ArcLines(found.kind, *columns_of(reader.rows, WIDTH))
        # The class is frozen to its users.
        object.__setattr__(lines, "_kept", Kept(found.kept(), reader.rows, weakref.ref(graph), form))
    return graph, lines
