"""Instances as columns of numbers."""

from __future__ import annotations

import importlib
import operator
from array import array
from collections.abc import Callable, Iterator, Mapping
from dataclasses import dataclass, fields
from itertools import accumulate, islice
from typing import TYPE_CHECKING, Any, ClassVar, Generic, Literal, NamedTuple, NoReturn, TypeVar, Union, overload

from .answers import table
from .columns import LEAST, MOST, Column, Own, column, column_of, frozen, least_and_greatest, numpy_here, read_only
from .columns import rises, zeros

if TYPE_CHECKING:
    from networkx import DiGraph, MultiDiGraph
    from pandas import DataFrame
    from scipy.sparse import csr_matrix
    from typing_extensions import TypeAlias

    # The nodes are numbers.
    Network: TypeAlias = "DiGraph[int]"
    MultiNetwork: TypeAlias = "MultiDiGraph[int]"
else:
    Network = MultiNetwork = DataFrame = csr_matrix = Any

# The letter of the counted lines of each kind.
LETTERS = {"min": "a", "max": "a", "sp": "a", "ss": "s", "p2p": "q", "co": "v"}
# How many rows are made of columns at a time, and how many lines of text.
STEP, LINES = 1 << 16, 1 << 12
Made = TypeVar("Made", bound="Instance")
Row = TypeVar("Row", bound=tuple[int, ...], covariant=True)


class Rows(Generic[Row]):
    """What the rows of an instance are."""

    if TYPE_CHECKING:
        rows: Callable[[], Iterator[Row]]

        def __iter__(self) -> Iterator[Row]:
            ...


class Arcs(Rows[Row]):
    """What the arcs of a graph are, which are its rows."""

    if TYPE_CHECKING:
        arcs: Callable[[], Iterator[Row]]


class Flows(dict[int, int]):
    """The flows of nodes, which cannot be written."""

    def _fixed(self, *_: object, **__: object) -> NoReturn:
        raise TypeError("the flows of an instance cannot be written")

    __setitem__ = __delitem__ = __ior__ = clear = pop = popitem = setdefault = update = _fixed  # type: ignore

    def __reduce__(self) -> tuple[Any, ...]:
        return Flows, (dict(self),)


@dataclass(frozen=True, eq=False, repr=False)
class Instance:
    """What a canonical text says. Each `kind` has a class of its own.

    Two instances are equal if all their numbers are, in the same order. `len` is the number of arcs or items, and
    iterating yields their rows. Neither attributes nor columns can be written. The numbers of columns are not checked:
    `write` does that. An instance is also a file for the calls that read texts."""

    kind: ClassVar[str]

    def __post_init__(self) -> None:
        names = column_names(type(self))
        for it in fields(self):
            checked = {"int": whole, "Column": frozen}.get(str(it.type))
            if checked:
                # The class is frozen to its users.
                object.__setattr__(self, it.name, checked(it.name, getattr(self, it.name)))
        for name, count in zip(names, map(len, self._columns())):
            if count != len(self):
                raise ValueError(f"{names[0]} and {name} have {len(self)} and {count} numbers")

    def __len__(self) -> int:
        return len(self._columns()[0])

    def __eq__(self, other: object) -> bool:
        if not isinstance(other, Instance) or type(other) is not type(self):
            return NotImplemented
        columns = zip(self._columns(), other._columns())
        names = {it.name for it in fields(self)}.difference(column_names(type(self)))
        others = ((getattr(self, it), getattr(other, it)) for it in names)
        return all(memoryview(a) == memoryview(b) for a, b in columns) and all(a == b for a, b in others)

    def __hash__(self) -> int:
        return hash((type(self), *(memoryview(it).tobytes() for it in self._columns())))

    def __reduce__(self) -> tuple[Any, ...]:
        # Pickle takes no memoryview.
        values = (getattr(self, it.name) for it in fields(self))
        return type(self), tuple(array("q", it) if isinstance(it, memoryview) else it for it in values)

    def __repr__(self) -> str:
        return f"<dnorm.{type(self).__name__}: {len(self)} items>"

    def _columns(self) -> list[Any]:
        return [getattr(self, it) for it in column_names(type(self))]

    def _repr_html_(self) -> str:
        return table(self, column_names(type(self)), self.rows())

    def __iter__(self) -> Iterator[tuple[int, ...]]:
        return self.rows()

    def rows(self) -> Iterator[tuple[int, ...]]:
        """Yields the numbers of each arc or item, in the order of the columns."""
        for at in range(0, len(self), STEP):
            yield from zip(*(it[at : at + STEP].tolist() for it in self._columns()))

    def pieces(self) -> Iterator[bytes]:
        """Yields a text of the instance in pieces, with its arcs or items in their order."""
        yield "".join([f"p {self._problem()} {len(self)}\n", *self._heads()]).encode()
        line, rows = LETTERS[self.kind] + " %d" * len(self._columns()) + "\n", self.rows()
        while piece := "".join(map(line.__mod__, islice(rows, LINES))):
            yield piece.encode()

    def _problem(self) -> str:
        """Returns the words of the problem line between its letter and its last number."""
        return f"aux sp {self.kind}"

    def _heads(self) -> Iterator[str]:
        return iter(())

    def to_pandas(self) -> DataFrame:
        """Returns a `pandas.DataFrame` with the columns, and a row for each arc or item."""
        numpy, pandas = importlib.import_module("numpy"), importlib.import_module("pandas")
        return pandas.DataFrame({it: numpy.array(getattr(self, it)) for it in column_names(type(self))})


def column_names(kind: type[Instance]) -> list[str]:
    """Returns the attributes of a class that are columns, in the order of the numbers on a counted line."""
    return [it.name for it in fields(kind) if str(it.type) == "Column"]


def whole(name: str, number: Any) -> int:
    """Returns a number of 64 signed bits, which errors call by this name."""
    try:
        found = operator.index(number)
    except TypeError as error:
        raise TypeError(f"{name}: {error}") from None
    if not LEAST <= found <= MOST:
        raise OverflowError(f"{name} is {found}, which does not fit into 64 signed bits")
    return found


class Star(NamedTuple):
    """The arcs of a graph by their nodes. Those with the tail v, counted from 1, have the indexes from `first[v - 1]`
    to `first[v]`, without the last one. Those with the head v have the indexes `into[i]`, which ascend, for each i from
    `into_first[v - 1]` to `into_first[v]`, without the last one."""

    first: Column
    into_first: Column
    into: Column


def star_of(nodes: int, tails: Any, heads: Any) -> Star:
    """Returns the stars of arcs with ends among these nodes, of which the tails rise."""
    np = numpy_here()
    if np is not None:
        first, into_first = (read_only(np.bincount(it, minlength=nodes + 1).cumsum()) for it in (tails, heads))
        return Star(first, into_first, read_only(np.argsort(heads, kind="stable")))
    counts = zeros(nodes + 1), zeros(nodes + 1)
    for count, ends in zip(counts, (tails, heads)):
        for it in ends:
            count[it] += 1
    first, into_first = (column(array("q", accumulate(it))) for it in counts)
    return Star(first, into_first, column(array("q", sorted(range(len(heads)), key=heads.tolist().__getitem__))))


@dataclass(frozen=True, eq=False, repr=False)
class Graph(Instance):
    """A graph with the nodes 1 to `nodes`. Arc i goes from `tails[i]` to `heads[i]`. The arcs of an instance that was
    read are in the order of the canonical text: by ascending tail, then head. `to_networkx` and `to_scipy` of
    `Sp` and `Max` raise ValueError if arcs are parallel, which no instance has that was read."""

    nodes: int
    tails: Column
    heads: Column

    def __repr__(self) -> str:
        return f"<dnorm.{type(self).__name__}: {self.nodes} nodes, {len(self)} arcs>"

    def _problem(self) -> str:
        return f"{self.kind} {self.nodes}"

    def arcs(self) -> Iterator[tuple[int, ...]]:
        """Yields the arcs: tail, head, and the length, the capacity, or LOW, CAP and COST."""
        return self.rows()

    def star(self) -> Star:
        """Returns where the arcs of each node are, those from it and those into it, as a forward and a reverse star.
        Raises ValueError if tails do not rise, as those of an instance that was read do, or an end is no node."""
        self.check_ends()
        if not rises(self.tails):
            raise ValueError("tails do not rise: dnorm.read of the text that dnorm.write makes sorts the arcs")
        return star_of(self.nodes, self.tails, self.heads)

    def flow_of(self, found: Mapping[int, Mapping[int, Any]]) -> Column:
        """Returns the flow of each arc that a solver of networkx found for `to_networkx`: {tail: {head: units}}, or for
        `Min` {tail: {head: {key: units}}}, to which the lower bounds are added. `ArcLines.spread` takes it. An arc that
        is not named has no units. Raises TypeError and OverflowError as `from_arrays` does."""
        ends = zip(self.tails.tolist(), self.heads.tolist())
        flow: Column = column_of("flow", [found.get(tail, {}).get(head, 0) for tail, head in ends])
        return flow

    def check_parallel(self, count: int) -> None:
        """Raises ValueError if what was made of the arcs has fewer of them, or an arc has an end that is no node."""
        self.check_ends()
        if count != len(self):
            raise ValueError("arcs are parallel: dnorm.read of the text that dnorm.write makes merges them")

    def _network(self, weight: str, **attributes: int) -> Network:
        """Returns a graph of networkx whose edges have their number by this name."""
        graph: Network = importlib.import_module("networkx").DiGraph(**attributes)
        graph.add_nodes_from(range(1, self.nodes + 1))
        graph.add_weighted_edges_from(self.arcs(), weight)
        self.check_parallel(graph.number_of_edges())
        return graph

    def _matrix(self, values: Column) -> csr_matrix:
        """Returns a matrix with a value for each arc."""
        numpy, sparse = importlib.import_module("numpy"), importlib.import_module("scipy.sparse")
        self.check_ends()
        tails, heads, data = (numpy.asarray(it, dtype=numpy.int64) for it in (self.tails, self.heads, values))
        found: csr_matrix = sparse.csr_matrix((data, (tails - 1, heads - 1)), shape=(self.nodes, self.nodes))
        self.check_parallel(found.nnz)
        return found

    def check_ends(self) -> None:
        """Raises ValueError if an arc has an end that is no node."""
        for name in ("tails", "heads"):
            least, greatest = least_and_greatest(getattr(self, name)) if len(self) else (1, 0)
            if least < 1 or greatest > self.nodes:
                raise ValueError(f"{name} has a node that is none of 1 to {self.nodes}: nodes count from 1")


@dataclass(frozen=True, eq=False, repr=False)
class Sp(Arcs[tuple[int, int, int]], Graph):
    """An `sp` graph: `lengths[i]` is the length of arc i. If it was read, each ordered pair has at most one arc."""

    kind: ClassVar[Literal["sp"]] = "sp"
    lengths: Column

    def to_networkx(self) -> Network:
        """Returns a `networkx.DiGraph`, with the lengths as the attribute `weight`."""
        return self._network("weight")

    def to_scipy(self) -> csr_matrix:
        """Returns a `scipy.sparse.csr_matrix` of the lengths. Node i has row and column i - 1. Arcs of length 0 are
        stored entries, which `scipy.sparse.csgraph` takes for arcs."""
        return self._matrix(self.lengths)


@dataclass(frozen=True, eq=False, repr=False)
class Max(Arcs[tuple[int, int, int]], Graph):
    """A `max` problem: `capacities[i]` is the capacity of arc i. If it was read, each pair has at most one arc."""

    kind: ClassVar[Literal["max"]] = "max"
    source: int
    sink: int
    capacities: Column

    def _heads(self) -> Iterator[str]:
        return iter([f"n {self.source} s\nn {self.sink} t\n"])

    def to_networkx(self) -> Network:
        """Returns a `networkx.DiGraph` with `capacity` of its edges, and `graph["source"]` and `graph["sink"]`."""
        return self._network("capacity", source=self.source, sink=self.sink)

    def to_scipy(self) -> csr_matrix:
        """Returns a `scipy.sparse.csr_matrix` of the capacities. Node i has row and column i - 1. Where
        `scipy.sparse.csgraph.maximum_flow` takes only 32 bits, convert it: `.astype("int32")`."""
        return self._matrix(self.capacities)


@dataclass(frozen=True, eq=False, repr=False)
class Min(Arcs[tuple[int, int, int, int, int]], Graph):
    """A `min` problem: `lows[i]`, `caps[i]` and `costs[i]` are LOW, CAP and COST of arc i. `supplies` has the flow of
    each node whose flow is not 0: above 0 for a supply, and below 0 for a demand."""

    kind: ClassVar[Literal["min"]] = "min"
    supplies: Mapping[int, int]
    lows: Column
    caps: Column
    costs: Column

    def __post_init__(self) -> None:
        super().__post_init__()
        object.__setattr__(self, "supplies", Flows(self.supplies))

    def _heads(self) -> Iterator[str]:
        return (f"n {node} {flow}\n" for node, flow in self.supplies.items())

    def supply_column(self) -> Column:
        """Returns the flow of each node. That of node i is at place i - 1."""
        flows = zeros(self.nodes)
        for node, flow in of_nodes(self.supplies, self.nodes).items():
            flows[node - 1] = flow
        found: Column = column(flows)
        return found

    def to_networkx(self) -> MultiNetwork:
        """Returns a `networkx.MultiDiGraph` for solvers that know no lower bounds, as `networkx.network_simplex`.

        The lower bounds are sent beforehand. An edge has as its key the number of its arc, i for `tails[i]`, and the
        attributes `weight`, its COST; `capacity`, its CAP minus its LOW; and `low`, its LOW. A node has the attribute
        `demand`, the flow that it then lacks. `graph["cost"]` is the cost of the lower bounds, which adds to the cost
        that a solver finds. `flow_of` adds `low` to the flow that it finds."""
        self.check_ends()
        fixed = sum(low * cost for _, _, low, _, cost in self.arcs())
        graph: MultiNetwork = importlib.import_module("networkx").MultiDiGraph(cost=fixed)
        demands = {**dict.fromkeys(range(1, self.nodes + 1), 0), **{it: -flow for it, flow in self.supplies.items()}}
        graph.add_nodes_from(demands)
        for key, (tail, head, low, cap, cost) in enumerate(self.arcs()):
            demands[tail] += low
            demands[head] -= low
            graph.add_edge(tail, head, key=key, weight=cost, capacity=cap - low, low=low)
        importlib.import_module("networkx").set_node_attributes(graph, demands, "demand")
        return graph

    def flow_of(self, found: Mapping[int, Mapping[int, Any]]) -> Column:
        arcs = enumerate(zip(self.tails.tolist(), self.heads.tolist(), self.lows.tolist()))
        flow: Column = column_of("flow", [low + found.get(u, {}).get(v, {}).get(key, 0) for key, (u, v, low) in arcs])
        return flow

    def to_scipy(self) -> tuple[csr_matrix, Column]:
        """Returns the incidence matrix of the arcs, a `scipy.sparse.csr_matrix`, and the supplies, a numpy array. Row
        i - 1 of both is that of node i. The column of an arc has 1 in the row of its tail and -1 in that of its head,
        or neither if they are the same node. So flows x along the arcs are a solution if the matrix times x is the
        supplies, and x is between `lows` and `caps`: what `scipy.optimize.linprog` takes, with `costs` to minimise."""
        numpy, sparse = importlib.import_module("numpy"), importlib.import_module("scipy.sparse")
        self.check_ends()
        rows = numpy.concatenate([numpy.asarray(self.tails) - 1, numpy.asarray(self.heads) - 1])
        columns = numpy.tile(numpy.arange(len(self)), 2)
        signs = numpy.repeat(numpy.array([1, -1]), len(self))
        incidence: csr_matrix = sparse.csr_matrix((signs, (rows, columns)), shape=(self.nodes, len(self)))
        incidence.eliminate_zeros()
        return incidence, numpy.asarray(self.supply_column())


@dataclass(frozen=True, eq=False, repr=False)
class Ss(Rows[tuple[int]], Instance):
    """An `ss` companion: the sources, in the order of the text."""

    kind: ClassVar[Literal["ss"]] = "ss"
    sources: Column


@dataclass(frozen=True, eq=False, repr=False)
class P2p(Rows[tuple[int, int]], Instance):
    """A `p2p` companion: query i is from `sources[i]` to `targets[i]`, in the order of the text."""

    kind: ClassVar[Literal["p2p"]] = "p2p"
    sources: Column
    targets: Column


@dataclass(frozen=True, eq=False, repr=False)
class Co(Rows[tuple[int, int, int]], Instance):
    """A `co` companion: node `ids[i]` is at (`xs[i]`, `ys[i]`). If it was read, the IDs rise."""

    kind: ClassVar[Literal["co"]] = "co"
    ids: Column
    xs: Column
    ys: Column


AnyInstance = Union[Sp, Max, Min, Ss, P2p, Co]
CLASSES: dict[str, Any] = {"sp": Sp, "max": Max, "min": Min, "ss": Ss, "p2p": P2p, "co": Co}


@overload
def from_arrays(kind: Literal["sp"], **values: Any) -> Sp:
    ...


@overload
def from_arrays(kind: Literal["max"], **values: Any) -> Max:
    ...


@overload
def from_arrays(kind: Literal["min"], **values: Any) -> Min:
    ...


@overload
def from_arrays(kind: Literal["ss"], **values: Any) -> Ss:
    ...


@overload
def from_arrays(kind: Literal["p2p"], **values: Any) -> P2p:
    ...


@overload
def from_arrays(kind: Literal["co"], **values: Any) -> Co:
    ...


@overload
def from_arrays(kind: type[Made], **values: Any) -> Made:
    ...


def from_arrays(kind: Any, **values: Any) -> Any:
    """Returns an instance of a class, which may be given by its kind, and of its attributes by their names. Columns may
    be lists, numpy arrays of any whole numbers, or other iterables, and are copied; so a DataFrame `df` with such
    columns is `**df`. Arcs may be in any order and parallel: `write` and `canon_to` take care of that.

        >>> dnorm.from_arrays("sp", nodes=3, tails=[1, 2], heads=[2, 3], lengths=[7, -1])
        <dnorm.Sp: 3 nodes, 2 arcs>

    For `Min`, `lows` are 0 and `supplies` none by default. These may also be a column with the flow of each node.

    Raises TypeError if an attribute is missing or a number is not whole, OverflowError if one does not fit into 64
    bits, and ValueError if columns differ in length, or if the nodes besides the arcs' are not in 1 to `nodes`."""
    made = class_of(kind)
    names = column_names(made)
    given = {name: column_of(name, it) if name in names else it for name, it in values.items()}
    given.update((it, whole(it, given[it])) for it in ("nodes", "source", "sink") if it in given)
    nodes = given.get("nodes", MOST)
    if nodes < 0:
        raise ValueError(f"nodes is {nodes}")
    for it in ("source", "sink"):
        if it in given and not 1 <= given[it] <= nodes:
            raise ValueError(f"{it} is {given[it]}, which is no node of 1 to {nodes}: nodes count from 1")
    if made is Min:
        given.setdefault("lows", column(zeros(len(given.get("tails", ())))))
        given["supplies"] = flows_of(given.get("supplies", {}), nodes)
    return made(**{name: Own(it) if name in names else it for name, it in given.items()})


def class_of(kind: object) -> Any:
    """Returns the class of instances that is given, or that of a kind."""
    found = CLASSES.get(kind, kind) if isinstance(kind, str) else kind
    if found in CLASSES.values():
        return found
    raise TypeError(f"kind is one of dnorm.{', dnorm.'.join(it.__name__ for it in CLASSES.values())}, or its name")


def flows_of(supplies: Any, nodes: int) -> Mapping[int, int]:
    """Returns the flows of nodes, which are given by node, or as a column."""
    if not isinstance(supplies, Mapping):
        flows = column_of("supplies", supplies).tolist()
        if len(flows) != nodes:
            raise ValueError(f"supplies has {len(flows)} numbers, and there are {nodes} nodes")
        return {node: flow for node, flow in enumerate(flows, 1) if flow}
    found = {whole(f"node {it!r} of supplies", it): whole(f"supplies[{it!r}]", flow) for it, flow in supplies.items()}
    return of_nodes(found, nodes)


def of_nodes(supplies: Mapping[int, int], nodes: int) -> Mapping[int, int]:
    """Returns the flows of nodes. Raises ValueError if one is none of 1 to `nodes`."""
    for node in supplies:
        if not 1 <= node <= nodes:
            raise ValueError(f"supplies has node {node}, which is none of 1 to {nodes}: nodes count from 1")
    return supplies
