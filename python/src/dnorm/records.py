"""What reading a file once tells: its record. `dnorm-files` prints records, and views of them."""

import contextlib
import functools
import json
import os
import time
from collections import defaultdict
from collections.abc import Iterable, Mapping, Sequence
from dataclasses import dataclass, field
from operator import mul
from typing import Any, Literal, NamedTuple, Optional, Union

from .answers import Form
from .calls import Sum, forms_of
from .columns import Column, least_and_greatest, numpy_here
from .errors import DnormError, Read, Refused
from .files import Bounds, Copied, Text, reason_of
from .instances import AnyInstance, Co, Graph, Min
from .library import GRAPHS, Held, held
from .limits import Limit, Seconds
from .names import COMPANIONS, KINDS, parts_of, stem_of
from .pairs import VALUES

# The ends of the names of graphs that have companions.
WITH_COMPANIONS = (".gr", ".sp")
# What a record has of a canonical text besides its checksum.
SIZES = ("bytes", "nodes", "declared", "canonical", "merged", "self_loops")

# What a record tells: the kind alone, or the checksum, too; or all but contents, or these besides.
Tells = Literal["kind", "checksum", "whole", "contents"]


class Range(NamedTuple):
    """The least and the greatest number of a field, and whether 31, 32, 53 or 64 bits hold them without signs."""

    least: int
    greatest: int
    bits: int


class Contents(NamedTuple):
    """What `list` tells besides, of the canonical text: how many nodes have no arcs; the sums of the capacities, of
    each capacity times the absolute cost, and of the flows above and below 0; and the range of each field."""

    without_arcs: Optional[int]
    capacity: Optional[int]
    capacity_times_cost: Optional[int]
    supply: Optional[int]
    demand: Optional[int]
    fields: dict[str, Range]


class Record(NamedTuple):
    """What reading a file once tells. An accepted file has a `kind`, and any other one an `error`.

    `forms` are those in which the text is canonical. `bytes` is the size of the text, which may be behind a
    compression. `declared` is the number of counted lines, and `canonical` that of the canonical text. `merged` counts
    the arcs besides the first of each ordered pair, and those that mean nothing, and `self_loops` canonical arcs.
    `checksum` is that of the canonical text. `graphs` are those of its name that a companion fits, and `not_accepted`
    those that are refused or cannot be read. `named` is the kind that the ending of the name is for, if that is another
    one. What a kind does not have, or what was not asked for, is None."""

    name: str
    kind: Optional[str] = None
    forms: Optional[tuple[Form, ...]] = None
    error: Optional[DnormError] = None
    bytes: Optional[int] = None
    nodes: Optional[int] = None
    declared: Optional[int] = None
    canonical: Optional[int] = None
    merged: Optional[int] = None
    self_loops: Optional[int] = None
    checksum: Optional[str] = None
    graphs: Optional[tuple[str, ...]] = None
    not_accepted: tuple[str, ...] = ()
    named: Optional[str] = None
    seconds: float = 0
    contents: Optional[Contents] = None

    @property
    def status(self) -> Literal["accepted", "refused", "failed", "unchanged"]:
        """Whether the file is accepted. One that is unchanged since a manifest was not read."""
        if self.error:
            return "refused" if isinstance(self.error, Refused) else "failed"
        return "accepted" if self.kind else "unchanged"

    @property
    def is_alone(self) -> bool:
        """Whether a companion has no graph of its name."""
        return self.graphs == () and not self.not_accepted

    @property
    def remarks(self) -> list[str]:
        """What is odd about the file, although it is accepted."""
        found = ["no graph"] if self.is_alone else []
        found += [f"graph not accepted: {it}" for it in self.not_accepted]
        return found + ([f"its ending is that of {self.named}"] if self.named else [])

    @property
    def hint(self) -> Optional[str]:
        """A possible cause of the error."""
        return self.error.hint if isinstance(self.error, (Read, Refused)) else None

    @property
    def what(self) -> str:
        """What follows the name in the line of the error."""
        if not self.error:
            return ""
        return " ".join((self.error.rest if self.error.name == self.name else f": {self.error}").splitlines())

    def as_dict(self) -> dict[str, object]:
        """Returns the members of the JSON object."""
        found: dict[str, object] = {it: getattr(self, it) for it in ("name", "status", "kind", "forms")}
        found["error"] = f"{self.name}{self.what}" if self.error else None
        # Only a refusal has these.
        found |= {it: getattr(self.error, it, None) for it in ("line", "number", "word", "sentence", "text", "mark")}
        found |= {it: getattr(self, it) for it in ("hint", "remarks", *SIZES, "checksum", "graphs")}
        found["not_accepted"] = None if self.graphs is None else self.not_accepted
        found["seconds"] = round(self.seconds, 6)
        if self.contents:
            fields = {field: it._asdict() for field, it in self.contents.fields.items()}
            found |= {**self.contents._asdict(), "fields": fields}
        return found

    def as_json(self) -> str:
        return json.dumps(self.as_dict()) + "\n"


def counts_of(records: Iterable[Record]) -> dict[str, int]:
    """Returns how many files are accepted, refused and failed, and how many accepted ones have each sort of remark."""
    found = dict.fromkeys(("accepted", "refused", "failed", "without_graph", "graph_not_accepted", "other_kind"), 0)
    for it in records:
        if it.status in found:
            found[it.status] += 1
        found["without_graph"] += it.is_alone
        found["graph_not_accepted"] += bool(it.not_accepted)
        found["other_kind"] += it.named is not None
    return found


class Partners:
    """The graphs and the companions beside files, by their names without endings: roads.co belongs to roads.gr."""

    def __init__(self, names: Iterable[str]) -> None:
        self.graphs, self.companions = defaultdict[str, list[str]](list), defaultdict[str, list[str]](list)
        found = set(names)
        for folder in {os.path.dirname(it) for it in found}:
            # A folder that cannot be listed hides the partners of its files, except for those that are named.
            with contextlib.suppress(OSError):
                found.update(os.path.join(folder, it) for it in os.listdir(folder or "."))
        for name in sorted(found):
            ending = parts_of(name)[1]
            if ending in WITH_COMPANIONS:
                self.graphs[stem_of(name)].append(name)
            elif ending in COMPANIONS:
                self.companions[stem_of(name)].append(name)

    def graphs_of(self, name: str) -> Optional[list[str]]:
        """Returns the graphs of a companion, those of its own name if there are some, and None for any other file."""
        stem, ending = parts_of(name)
        graphs = self.graphs.get(stem_of(name), [])
        return ([it for it in graphs if parts_of(it)[0] == stem] or graphs) if ending in COMPANIONS else None


@dataclass(frozen=True)
class Reading:
    """How files are read: for checksums and sizes of the canonical text in a `form`; companions beside their graphs, if
    there are `partners`; and files that nobody named within `bounds`. A remark if it `is_strict`, taking more than
    `timeout` seconds, and what `files` know of a name are errors."""

    form: Form = 1
    partners: Optional[Partners] = None
    is_strict: bool = False
    tells: Tells = "whole"
    timeout: Seconds = None
    bounds: Optional[Bounds] = None
    files: Mapping[str, Optional[DnormError]] = field(default_factory=dict)

    def record(self, name: str) -> Record:
        """Reads a file, and returns its record, also if that fails."""
        start, known = time.monotonic(), self.files.get(name)
        if known:
            return Record(name, error=known)
        try:
            found = self._read(name, self.partners.graphs_of(name) if self.partners else None)
            expected = KINDS.get(parts_of(name)[1], found.kind)
            found = found if expected == found.kind else found._replace(named=expected)
            if self.is_strict and found.remarks:
                raise Read(name, f"accepted {found.kind}, {', '.join(found.remarks)}")
        except DnormError as error:
            found = Record(name, error=error)
        except OSError as error:
            # A limit of the system, as that of open files.
            found = Record(name, error=Read(name, reason_of(error)))
        return found._replace(seconds=time.monotonic() - start)

    def _read(self, name: str, graphs: Optional[Sequence[str]]) -> Record:
        limit = Limit(self.timeout, name)
        own, is_whole = Sum(), self.tells in ("whole", "contents")
        text = Text(Copied() if name == "-" else name, limit, self.bounds)
        with held(text, own.take if is_whole else None) as it:
            told, checksum = dict[str, Any](), functools.cache(it.checksum)
            if self.tells != "kind":
                told["checksum"] = checksum(self.form)
            if is_whole:
                told |= {"bytes": text.size, "declared": it.lines, "canonical": it.count(self.form)}
                told["forms"] = forms_of(it.kind, own.checksum, checksum)
            if is_whole and it.kind in GRAPHS:
                told |= {"nodes": it.nodes, "merged": it.lines - it.pairs, "self_loops": it.loops(self.form)}
            if self.tells == "contents":
                told["contents"] = contents_of(it.instance(self.form))
            if graphs is not None:
                told["graphs"], told["not_accepted"] = self._fitting(graphs, it, limit)
            return Record(name, it.kind, **told)

    def _fitting(self, graphs: Iterable[str], it: Held, limit: Limit) -> tuple[tuple[str, ...], tuple[str, ...]]:
        """Returns which graphs the limit's file fits, and which are not accepted. Raises Refused if it does not fit."""
        fits, others = [], []
        for graph in graphs:
            try:
                with held(Text(graph, limit, self.bounds)) as found:
                    found.check_fit(it)
                fits.append(graph)
            except (Refused, Read) as error:
                if error.name == limit.name:
                    raise
                others.append(graph)
        return tuple(fits), tuple(others)


def without_arcs(it: Graph) -> int:
    """Returns how many nodes of a graph have no arcs."""
    np = numpy_here()
    if np is None:
        return it.nodes - len({*it.tails.tolist(), *it.heads.tolist()})
    # Then few nodes have arcs.
    if it.nodes > 10 * len(it):
        return it.nodes - len(np.union1d(it.tails, it.heads))
    has_arcs = np.zeros(it.nodes + 1, bool)
    has_arcs[it.tails] = has_arcs[it.heads] = True
    return it.nodes - int(np.count_nonzero(has_arcs))


def contents_of(it: AnyInstance) -> Contents:
    columns: dict[str, Any] = {}
    costly = supply = demand = None
    if isinstance(it, Min):
        flows = columns["flow"] = list(it.supplies.values())
        costly = sum(map(mul, it.caps.tolist(), map(abs, it.costs.tolist())))
        supply, demand = sum(flow for flow in flows if flow > 0), -sum(flow for flow in flows if flow < 0)
    elif isinstance(it, Co):
        columns["id"] = it.ids
    columns.update((field, getattr(it, column)) for field, column in VALUES[it.kind].items())
    capacity = sum(columns["cap"].tolist()) if "cap" in columns else None
    without = without_arcs(it) if isinstance(it, Graph) else None
    ranges = {field: range_of(numbers) for field, numbers in columns.items() if len(numbers)}
    return Contents(without, capacity, costly, supply, demand, ranges)


def range_of(numbers: Union[Column, list[int]]) -> Range:
    least, greatest = least_and_greatest(numbers)
    bits = max(least.bit_length(), greatest.bit_length())
    # As many bits as readers and solvers have for a number without its sign.
    return Range(least, greatest, next((it for it in (31, 32, 53) if bits <= it), 64))
