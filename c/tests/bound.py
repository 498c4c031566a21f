"""The library for C as ctypes calls it: its structs, its functions, and a reader, an instance or a text that is freed
with its handle."""

import ctypes
from typing import Any, NamedTuple

from dnorm.library import ADDRESS, FUNCTIONS, HANDLE, I64, SIZE, U8, U64, Count, Given, Handle, Place, Status, struct

WRONG_CALL, NOT_BOTH = 40, 255
KINDS = ["", "min", "max", "sp", "ss", "p2p", "co"]
Arc = struct(tail=I64, head=I64, a=I64, b=I64, c=I64)
Item = struct(id=I64, a=I64, b=I64)
Row = struct(line=U64, tail=I64, head=I64, a=I64, b=I64, c=I64)
Share = struct(cost=I64, rest=I64, left=I64)
# Functions that get texts and rooms in another way than those of the package: what they return, and their arguments.
OTHERS = {
    "dnorm_text": (Count, HANDLE, SIZE, ADDRESS, SIZE),
    "dnorm_lines": (Given, HANDLE, ctypes.c_char_p, SIZE, ADDRESS, SIZE),
    "dnorm_spread": (Status, HANDLE, U8, *[ADDRESS, SIZE] * 4),
}


class Answer(NamedTuple):
    """A status: the code, and the place as a refusal line of the program has it."""

    code: int
    place: str


def answer(status: Any) -> Answer:
    return Answer(status.code, {0: "", 1: str(status.line), 2: "end"}[status.place])


# Arcs, items or arc lines by their numbers.
Rows = list[tuple[int, ...]]


class WrongCall(Exception):
    """A handle is not for a call."""


def counted(made: Any) -> int:
    """Returns how many a call copied. Raises WrongCall, or AssertionError for any other code."""
    if made.code == WRONG_CALL:
        assert made.count == 0
        raise WrongCall
    assert made.code == 0, made.code
    return int(made.count)


class Library:
    """The functions of the library, without the prefix of their names."""

    def __init__(self, path: str) -> None:
        loaded = ctypes.CDLL(path)
        self.calls: dict[str, Any] = {}
        for name, (result, *arguments) in {**FUNCTIONS, **OTHERS}.items():
            self.calls[name.removeprefix("dnorm_")] = call = getattr(loaded, name)
            call.restype, call.argtypes = result, arguments

    def __getattr__(self, name: str) -> Any:
        return self.calls[name]

    def read(self, handle: Handle, text: bytes, piece: int) -> Answer:
        """Reads a text in pieces into a handle that holds nothing. A refusal is also that of every later call."""
        found = answer(self.begin(handle))
        for at in range(0, len(text), piece):
            if found.code == 0:
                found = answer(self.feed(handle, text[at : at + piece], len(text[at : at + piece])))
        ended = answer(self.finish(handle))
        return ended if found.code in (0, ended.code) else Answer(-1, "the end has another answer than a piece")

    def arc_lines(self, text: bytes, piece: int, room: int) -> tuple[Rows, int, int]:
        """Returns the arc lines of a text that is fed in pieces, and the first line that has a fault by itself."""
        reader, found, rows = Handle(), Given(), (Row * room)()
        assert self.lines_begin(reader).code == 0
        lines, at, all_bytes = Rows(), 0, text + b"\n"
        while at < len(all_bytes) and found.code == 0:
            some = all_bytes[at : at + piece]
            found = self.lines(reader, some, len(some), ctypes.byref(rows), room)
            assert found.code or len(some) == found.used or room == found.count
            lines += [(it.line, it.tail, it.head, it.a, it.b, it.c) for it in rows[: found.count]]
            at += found.used
        self.free(reader)
        return lines, found.code, found.line

    def spread(
        self, graph: Handle, form: int, flow: list[int], lines: Rows, shares: int, room: int
    ) -> tuple[int, list[int]]:
        """Puts a flow on arc lines, with so many shares, and room for so many units, which are 7 before. Returns the
        code and the units. A wrong call changes nothing."""
        numbers, rows, units = (I64 * len(flow))(*flow), (Row * len(lines))(*lines), (I64 * room)(*[7] * room)
        room_to_work = (Share * shares)(*[(7, 7, 7)] * shares)
        given = [bytes(it) for it in (graph, numbers, rows, room_to_work, units)]
        rooms = [numbers, len(flow), rows, len(lines), room_to_work, shares, units, room]
        code = self.calls["spread"](graph, form, *rooms).code
        if code == WRONG_CALL:
            assert given == [bytes(it) for it in (graph, numbers, rows, room_to_work, units)]
        return code, [*units]

    def rows(self, name: str, row: Any, room: int, *arguments: Any) -> Rows:
        """Returns all arcs or items, copied in ranges of `room`, each from the place where the last one ended. A range
        that has fewer is the last one."""
        found: Rows = []
        place, out, names = Place(), (row * room)(), [name for name, _ in row._fields_]
        while True:
            count = counted(self.calls[name](*arguments, ctypes.byref(place), ctypes.byref(out), room))
            found += [tuple(getattr(it, name) for name in names) for it in out[:count]]
            if count < room:
                return found

    def arcs(self, handle: Handle, form: int, room: int) -> Rows:
        return self.rows("next", Arc, room, handle, form)

    def items_of(self, handle: Handle, room: int) -> Rows:
        return self.rows("items", Item, room, handle)

    def arcs_counted(self, handle: Handle, form: int) -> int:
        return counted(self.arc_count(handle, form))

    def bytes_of(self, text: Handle, room: int) -> bytes:
        """Returns the bytes of a canonical text."""
        found, out = b"", (ctypes.c_uint8 * room)()
        while True:
            count = counted(self.text(text, len(found), ctypes.byref(out), room))
            found += bytes(out[:count])
            if count < room:
                return found

    def text_of(self, handle: Handle, form: int, room: int) -> bytes:
        """Returns the canonical text of the instance in a handle."""
        made = Handle()
        status = self.canon(handle, form, made)
        text = self.bytes_of(made, room) if status.code == 0 else b"status %d" % status.code
        self.free(made)
        return text
