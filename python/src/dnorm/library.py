"""Reads texts by the library for C, libdnorm, which comes with this package."""

import contextlib
import ctypes
import functools
import hashlib
import operator
import os
import platform
import weakref
from array import array
from collections.abc import Callable, Iterator
from importlib.machinery import EXTENSION_SUFFIXES
from itertools import starmap
from typing import Any, Optional, Union, cast

from .answers import AnyDifference, Difference, Same
from .columns import Column, Own, address, column, zeros
from .errors import DnormError, Endless, Memory, NoLibrary, Refused
from .files import Text, enough_memory
from .instances import CLASSES, AnyInstance, column_names
from .limits import Lease, Limit
from .program import page, place
from .refusals import REFUSALS

# The name of the library ends with the number of the interface that is known here. setuptools names it as a module.
ABI = 3
NAME = f"libdnorm.so.{ABI}"
NAMES = [NAME, *(f"libdnorm{it}" for it in EXTENSION_SUFFIXES)]
# Where the library is, from here, but for that of a wheel, which has any of the names: in an archive; in a clone, which
# has built one or has the released ones; below the prefix of `bin/install`; on Debian.
MACHINE = platform.machine()
PLACES = [f"../../../{it}" for it in ("lib", "build", f"released/{MACHINE}", "../lib", f"{MACHINE}-linux-gnu")]
# Kinds by their numbers.
KINDS = ["", "min", "max", "sp", "ss", "p2p", "co"]
GRAPHS = ("min", "max", "sp")
# What a difference is about, by its number; and a pair by the kind of the graphs.
WHAT = ["same", "kind", "nodes", "supply", "source", "sink", "pair", "items", "item", "point"]
OF_PAIR = {"sp": "length", "max": "capacity", "min": "cost"}
# Some codes, and the place of a status that has a line.
FINE, MEMORY, NOT_IN_GRAPH, AT_LINE = 0, 30, 35, 1
# How many arcs, items or arc lines, and how many bytes, are copied between two looks whether the time is over.
ROOM, BYTES = 1 << 14, 1 << 16
# How many numbers a dnorm_row and a dnorm_share have.
WIDTH, SHARE = 6, 3
# A text of so many bytes has no end.
ENDLESS = 1 << 40

U8, I64, U64, SIZE, ADDRESS = ctypes.c_uint8, ctypes.c_int64, ctypes.c_uint64, ctypes.c_size_t, ctypes.c_void_p


def struct(**fields: Any) -> Any:
    return type("Struct", (ctypes.Structure,), {"_fields_": [*fields.items()]})


# The structures of dnorm.h, which describes them: dnorm, dnorm_status, dnorm_summary, dnorm_count, dnorm_place,
# dnorm_lines_given, dnorm_value, dnorm_difference and dnorm_fit.
Handle = struct(work=ADDRESS, full=ctypes.c_bool)
Status = struct(code=U8, place=U8, line=U64)
Summary = struct(kind=U8, nodes=I64, lines=I64, pairs=U64, items=U64)
Count = struct(count=SIZE, code=U8)
Place = struct(pairs=SIZE, within=U64, a=I64, b=I64, c=I64)
Given = struct(used=SIZE, count=SIZE, code=U8, line=U64)
Value = struct(known=ctypes.c_bool, high=I64, low=U64)
First = struct(what=U8, at=I64, to=I64, index=U64, amount=I64, left=Value, right=Value)
Fit = struct(code=U8, node=I64)
HANDLE, PLACE = ctypes.POINTER(Handle), ctypes.POINTER(Place)
# The functions that are called: what each returns, and its arguments.
FUNCTIONS: dict[str, tuple[Any, ...]] = {
    "dnorm_begin": (Status, HANDLE),
    "dnorm_feed": (Status, HANDLE, ctypes.c_char_p, SIZE),
    "dnorm_finish": (Status, HANDLE),
    "dnorm_facts": (Summary, HANDLE),
    "dnorm_arc_count": (Count, HANDLE, U8),
    "dnorm_next": (Count, HANDLE, U8, PLACE, ADDRESS, SIZE),
    "dnorm_items": (Count, HANDLE, PLACE, ADDRESS, SIZE),
    "dnorm_lines_begin": (Status, HANDLE),
    "dnorm_lines": (Given, HANDLE, ADDRESS, SIZE, ADDRESS, SIZE),
    "dnorm_canon": (Status, HANDLE, U8, HANDLE),
    "dnorm_text": (Count, HANDLE, SIZE, ctypes.c_char_p, SIZE),
    "dnorm_compare": (First, HANDLE, HANDLE),
    "dnorm_fits": (Fit, HANDLE, HANDLE),
    "dnorm_free": (None, HANDLE),
}
# One that the library of 3.0.0 lacks.
SPREAD: tuple[Any, ...] = (Status, HANDLE, U8, *[ADDRESS, SIZE] * 4)


def find_library() -> str:
    """Returns the path of the library by which texts are read: that of `$DNORM_LIBRARY`, or else the one that came with
    this package. Raises `NoLibrary` if there is none, or if it cannot be used."""
    return str(library()._name)


def library() -> Any:
    return loaded(os.environ.get("DNORM_LIBRARY", ""))


@functools.lru_cache(maxsize=None)
def loaded(named: str) -> Any:
    """Returns the library of this path, or by default the one that came with this package. Raises NoLibrary."""
    error = NoLibrary(NAME, f"it is not there; {page()} says where to get it")
    places = [*((name, "") for name in NAMES), *((NAME, it) for it in PLACES)]
    for path in [os.path.abspath(named)] if named else filter(os.path.exists, starmap(place, places)):
        try:
            found = ctypes.CDLL(path)
            for name, (result, *arguments) in FUNCTIONS.items():
                call = getattr(found, name)
                call.restype, call.argtypes = result, arguments
            if hasattr(found, "dnorm_spread"):
                found.dnorm_spread.restype, found.dnorm_spread.argtypes = SPREAD[0], SPREAD[1:]
            return found
        # It is another file, or of an interface that lacks a function.
        except (OSError, AttributeError) as reason:
            error = NoLibrary(path, str(reason))
    raise error


class Held:
    """An instance that the library has read of a text: its kind, `nodes`, the numbers of counted `lines` that were read
    and of `pairs` with arcs, and its numbers as columns. Calls take the lease that may go on after the instance."""

    def __init__(self, found: Any, handle: Any, text: Text, lease: Lease) -> None:
        self._library, self._handle, self._text, self._lease = found, handle, text, lease
        facts = found.dnorm_facts(handle)
        self.kind = KINDS[facts.kind]
        self.nodes, self.lines, self.pairs = int(facts.nodes), int(facts.lines), int(facts.pairs)
        self._item_count = int(facts.items)

    def count(self, form: Optional[int]) -> int:
        """Returns the number of canonical arcs in a form; or of items, of a companion or beside the arcs of a graph."""
        is_arcs = form and self.kind in GRAPHS
        return self._counted(self._library.dnorm_arc_count(self._handle, form)) if is_arcs else self._item_count

    def columns(self, form: Optional[int], width: int) -> list[Any]:
        """Returns the first columns of the arcs in a form, or of the items."""
        columns = [array("q") for _ in range(width)]
        for numbers, some in self._rooms(form):
            for number, it in enumerate(columns):
                it.frombytes(some[number::numbers].tobytes())
        return [column(it) for it in columns]

    def loops(self, form: int) -> int:
        """Returns how many arcs in a form end where they begin."""
        return sum(sum(map(operator.eq, some[::5], some[1::5])) for _, some in self._rooms(form))

    def _rooms(self, form: Optional[int]) -> Iterator[tuple[int, memoryview]]:
        """Yields the arcs in a form, or the items, room by room: how many numbers each has, and the numbers."""
        is_arcs, count = form and self.kind in GRAPHS, self.count(form)
        items = functools.partial(self._library.dnorm_items, self._handle)
        call = functools.partial(self._library.dnorm_next, self._handle, form) if is_arcs else items
        place, numbers = Place(), 5 if is_arcs else 3
        room = zeros(numbers * min(count, ROOM))
        for done in range(0, count, ROOM):
            more = self._counted(call(ctypes.byref(place), room.buffer_info()[0], min(ROOM, count - done)))
            yield numbers, memoryview(room)[: numbers * more]
            self._text.limit.left()

    def _counted(self, found: Any) -> int:
        """Returns the count of a call. Raises an error if it has another code than that of success."""
        if found.code != FINE:
            raise error_of(self._text, found.code)
        return int(found.count)

    def canonical(self, form: int) -> Iterator[bytes]:
        """Yields the canonical text in a form, in pieces."""
        free, text = self._library.dnorm_free, Handle()
        lease = Lease(lambda: free(ctypes.byref(text)))
        try:
            make = functools.partial(self._library.dnorm_canon, self._handle, form, ctypes.byref(text))
            status = self._text.limit.during(make, self._lease, lease)
            if status.code != FINE:
                raise error_of(self._text, status.code)
            at, room = 0, ctypes.create_string_buffer(BYTES)
            while more := self._library.dnorm_text(ctypes.byref(text), at, room, BYTES).count:
                self._text.limit.left()
                yield ctypes.string_at(room, more)
                at += more
        finally:
            lease.end()

    def checksum(self, form: int) -> str:
        found = hashlib.sha256()
        for piece in self.canonical(form):
            found.update(piece)
        return found.hexdigest()

    def instance(self, form: int) -> AnyInstance:
        """Returns the instance, which keeps the columns."""
        names = column_names(CLASSES[self.kind])
        values: dict[str, Any] = dict(zip(names, map(Own, self.columns(form, len(names)))))
        if self.kind in GRAPHS:
            values["nodes"] = self.nodes
            items = [*zip(*(it.tolist() for it in self.columns(None, 2)))]
        if self.kind == "min":
            values["supplies"] = dict(items)
        if self.kind == "max":
            values["source"], values["sink"] = items[0]
        return cast(AnyInstance, CLASSES[self.kind](**values))

    def first_difference(self, right: "Held") -> Union[Same, AnyDifference]:
        """Returns where this instance and another one first differ."""
        compare = functools.partial(self._library.dnorm_compare, self._handle, right._handle)
        found = self._text.limit.during(compare, self._lease, right._lease)
        what = WHAT[found.what]
        if what == "same":
            return Same()
        one, other = number_of(found.left), number_of(found.right)
        if what == "kind":
            made = Difference(what, KINDS[one], KINDS[other])
        elif what == "pair":
            amount = found.amount if self.kind == "min" else None
            made = Difference(OF_PAIR[self.kind], one, other, pair=(found.at, found.to), amount=amount)
        else:
            node = found.at if what in ("supply", "point") else None
            made = Difference(what, one, other, node=node, place=found.index if what == "item" else None)
        return cast(AnyDifference, made)

    def check_fit(self, companion: "Held") -> None:
        """Raises `Refused` if a companion does not fit this graph."""
        found, text = self._library.dnorm_fits(self._handle, companion._handle), companion._text
        if found.code != FINE:
            raise error_of(text, found.code, None, found.node if found.code == NOT_IN_GRAPH else None)

    def kept(self) -> "Held":
        """Returns this instance without its text, which lasts as long as what is returned."""
        found = Held(self._library, self._handle, Text(b"", Limit(None, "-")), self._lease)
        self._lease.take()
        weakref.finalize(found, self._lease.end)
        return found

    def spread(self, form: int, flow: Any, rows: "array[int]") -> Column:
        """Puts a flow on the arcs in a form back on the arc lines, which are given as rows. Returns the units of each.
        Raises NoLibrary if the library has no such call, and ValueError if this is no flow."""
        if not hasattr(self._library, "dnorm_spread"):
            raise NoLibrary(self._library._name, "it has no dnorm_spread, which versions after 3.0.0 have")
        units, shares = zeros(len(rows) // WIDTH), zeros(SHARE * self.pairs)
        counted = [(flow, len(flow)), (rows, len(units)), (shares, self.pairs), (units, len(units))]
        words = [word for it, count in counted for word in (address(it), count)]
        if self._library.dnorm_spread(self._handle, form, *words).code != FINE:
            raise ValueError("no flow: an arc has less than 0 units, or a pair other units than its lines can have")
        found: Column = column(units)
        return found


def number_of(value: Any) -> Any:
    return (value.high << 64) + value.low if value.known else None


class LinesRead(contextlib.ExitStack):
    """Reads the arc lines of a text by the library, which has taken its pieces before, as rows of WIDTH numbers."""

    def __init__(self) -> None:
        super().__init__()
        self._library, self._handle = library(), Handle()
        self.rows, self._room = array("q"), zeros(WIDTH * ROOM)
        if self._library.dnorm_lines_begin(ctypes.byref(self._handle)).code != FINE:
            raise MemoryError
        self.callback(self._library.dnorm_free, ctypes.byref(self._handle))

    def take(self, piece: bytes) -> None:
        start, done = ctypes.cast(ctypes.c_char_p(piece), ADDRESS).value or 0, 0
        handle, to, some = ctypes.byref(self._handle), address(self._room), memoryview(self._room).cast("B")
        while done < len(piece):
            given = self._library.dnorm_lines(handle, start + done, len(piece) - done, to, ROOM)
            # A line that is refused by itself was refused before.
            if given.code != FINE:
                break
            done += given.used
            self.rows.frombytes(some[: 8 * WIDTH * given.count])


@contextlib.contextmanager
def held(text: Text, take: Optional[Callable[[bytes], object]] = None) -> Iterator[Held]:
    """Reads a text, whose pieces `take` gets as well, and frees its instance at the end. Raises Memory if it lacks."""
    found, handle = library(), Handle()
    address = ctypes.byref(handle)
    with enough_memory(text.limit.name), contextlib.ExitStack() as stack:
        stack.callback(text.close)
        lease = Lease(lambda: found.dnorm_free(address))
        stack.callback(lease.end)
        status = found.dnorm_begin(address)
        if status.code == FINE:
            status = fed(found, address, text, take)
        if status.code == FINE:
            status = text.limit.during(functools.partial(found.dnorm_finish, address), lease)
        if status.code != FINE:
            raise error_of(text, status.code, status.line if status.place == AT_LINE else None)
        text.limit.left()
        yield Held(found, address, text, lease)


def fed(found: Any, address: Any, text: Text, take: Optional[Callable[[bytes], object]]) -> Any:
    """Feeds a text to a reader up to its first fault, a compressed file to its end, which tells whether it is whole."""
    status, size = Status(), 0
    while (piece := text.next_piece()) is not None:
        text.limit.left()
        size += len(piece)
        if size >= ENDLESS:
            raise Endless(text.name)
        if status.code == FINE:
            status = found.dnorm_feed(address, piece, len(piece))
            if take and status.code == FINE:
                take(piece)
        if status.code != FINE and not text.ending:
            break
    text.stay_same()
    return status


def error_of(text: Text, number: int, line: Optional[int] = None, node: Optional[int] = None) -> DnormError:
    """Returns the error of a text that a code tells, with the cause of a refusal if that can be found."""
    if number == MEMORY:
        return Memory(text.name)
    return Refused(text.name, line, number, REFUSALS[number][0], node, *(text.cause(line, number, node) or ()))
