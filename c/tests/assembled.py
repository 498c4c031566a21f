"""Assembles WebAssembly modules of random functions, in the form that c/file/wasm_to_c.py reads: a memory of 64 bits,
relocations, and the globals of the kit. Each function takes an address, from which on ROOM bytes are its own, and two
numbers, and returns a number. Loads and stores go to these bytes and to the data; blocks, branches and calls nest."""

from __future__ import annotations

import contextlib
import struct
from collections.abc import Iterator
from random import Random

I32, I64 = 0x7F, 0x7E
# Numeric operations by their operands and their result.
NUMERIC: dict[tuple[tuple[int, ...], int], list[int]] = {
    ((I32,), I32): [0x45, 0x67, 0x68, 0x69, 0xC0, 0xC1],
    ((I64,), I32): [0x50, 0xA7],
    ((I32,), I64): [0xAC, 0xAD],
    ((I64,), I64): [0x79, 0x7A, 0x7B, 0xC2, 0xC3, 0xC4],
    ((I32, I32), I32): [*range(0x46, 0x50), *range(0x6A, 0x79)],
    ((I64, I64), I32): [*range(0x51, 0x5B)],
    ((I64, I64), I64): [*range(0x7C, 0x8B)],
}
# Loads and stores by the type of the number, with the logarithm of their size in bytes.
LOADS = {I32: {0x28: 2, 0x2C: 0, 0x2D: 0, 0x2E: 1, 0x2F: 1}}
LOADS[I64] = {0x29: 3, 0x30: 0, 0x31: 0, 0x32: 1, 0x33: 1, 0x34: 2, 0x35: 2}
STORES = {I32: {0x36: 2, 0x3A: 0, 0x3B: 1}, I64: {0x37: 3, 0x3C: 0, 0x3D: 1, 0x3E: 2}}
# How many bytes a function has, and at most an offset within them.
ROOM, MOST = 512, 128
# Where the data are, which are bytes, an address of them, and bytes again.
BASE, BYTES, TARGET = 65536 - 256, 64, 24
# The module's stack in bytes, and a frame on it.
STACK, FRAME = 2048, 208
# The relocations: of a function, a global, an offset, a constant, a word of the data.
RELOCATIONS = FUNCTION, GLOBAL, OFFSET, ADDRESS, WORD = 0, 7, 14, 15, 16
# Arguments, and locals that are set; those behind them count the turns of loops.
SET = {I32: [3, 4], I64: [1, 2, 5]}
COUNTERS = [6, 7, 8]
# Numbers at the borders of the operations.
BORDERS = [0, 1, 2, 3, 5, 31, 32, 33, 63, 64, 65, 127, 128, 255, 256, 32767, 32768, 65535, 65536]
AROUND = {31: (-1, 0, 1), 32: (-2, -1, 0, 1), 62: (0,), 63: (-1, 0, 1)}
AROUND[64] = (-1, -2, -32, -128, -129, -(2**15), -(2**31))
BORDERS += [2**at + it for at, numbers in AROUND.items() for it in numbers] + [0x8000000080]


def leb(number: int, is_signed: bool = False) -> bytes:
    made = bytearray()
    while True:
        byte, number = number & 127, number >> 7
        if number == -(is_signed and byte >> 6):
            return bytes([*made, byte])
        made.append(byte | 128)


def vector(items: list[bytes]) -> bytes:
    return leb(len(items)) + b"".join(items)


def name(text: str) -> bytes:
    return leb(len(text)) + text.encode()


class Function:
    """A random function. `relocated` has the relocations: their numbers and their places in the code."""

    def __init__(self, chance: Random, callable_: int) -> None:
        self.chance, self.callable = chance, callable_
        self.code, self.relocated = bytearray(), list[tuple[int, int]]()
        # The results of the blocks around; False for a loop, to which nothing else branches.
        self.blocks: list[int | None | bool] = []
        self.loops = 0

    def put(self, *parts: int | bytes | tuple[int, bytes]) -> None:
        """Puts bytes behind the code. A number that the linker has placed comes with the kind of its relocation."""
        for it in parts:
            if isinstance(it, tuple):
                self.relocated.append((it[0], len(self.code)))
                it = it[1]
            self.code += bytes([it]) if isinstance(it, int) else it

    @contextlib.contextmanager
    def block(self, number: int, kind: int | None, is_loop: bool = False) -> Iterator[None]:
        """Begins a block with this result, and ends it."""
        self.put(number, kind or 0x40)
        self.blocks.append(False if is_loop else kind)
        yield
        self.blocks.pop()
        self.put(0x0B)

    def number(self, kind: int) -> None:
        bits = 32 if kind == I32 else 64
        number = self.chance.choice([*BORDERS, self.chance.getrandbits(64)]) % (1 << bits)
        self.put(0x41 if kind == I32 else 0x42, leb(number - (number >> (bits - 1) << bits), True))

    def value(self, kind: int, depth: int) -> None:
        """Puts a value of this type on the operand stack."""
        if depth <= 0 or self.chance.random() < 0.15:
            if self.chance.random() < 0.3:
                self.number(kind)
            else:
                self.put(0x20, self.chance.choice(SET[kind]))
            return
        ways = [self.computed] * 6 + [self.loaded] * 3 + [self.after] * 2
        ways += [self.teed, self.selected, self.blocked, self.chosen, self.called, self.repeated]
        self.chance.choice(ways)(kind, depth - 1)

    def computed(self, kind: int, depth: int) -> None:
        ways = [(operands, it) for (operands, result), all_ in NUMERIC.items() if result == kind for it in all_]
        operands, number = self.chance.choice(ways)
        for it in operands:
            self.value(it, depth)
        self.put(number)

    def address(self, depth: int, size: int) -> None:
        """Puts an address of the function's bytes on the operand stack, and what may be its alignment."""
        self.put(0x20, 0)
        self.value(I64, depth)
        self.put(0x42, leb(MOST - (1 << size), True), 0x83, 0x7C)

    def loaded(self, kind: int, depth: int) -> None:
        number, size = self.chance.choice([*LOADS[kind].items()])
        align = self.chance.randint(0, size)
        if self.chance.random() < 0.25:
            # Of the data, by an offset or by a constant that the linker has placed; or by an address in the data.
            how = self.chance.randrange(4)
            at = self.chance.randrange(BYTES >> size) << size
            if how < 2:
                # The second way adds up to 7 to the offset.
                before, at, align = ([0x20, 1, 0x42, 7, 0x83], 0, 0) if how else ([0x42, 0], at, align)
                self.put(*before, number, align, (OFFSET, leb(BASE + at)))
                return
            self.put(0x42, (ADDRESS, leb(BASE + (BYTES if how == 2 else at), True)))
            self.put(*([0x29, 3, 0] if how == 2 else []), number, align, 0)
            return
        self.address(depth, align)
        self.put(number, align, leb(self.chance.randrange(MOST >> align) << align))

    def teed(self, kind: int, depth: int) -> None:
        self.value(kind, depth)
        self.put(0x22, self.chance.choice(SET[kind]))

    def after(self, kind: int, depth: int) -> None:
        """A value behind a statement, which happens while others are on the operand stack."""
        if depth > 0:
            self.chance.choice([self.stores, self.tells, self.remembers, self.sets, self.moves])(depth - 1)
        self.value(kind, depth)

    def selected(self, kind: int, depth: int) -> None:
        for it in (kind, kind, I32):
            self.value(it, depth)
        self.put(0x1B)

    def blocked(self, kind: int, depth: int) -> None:
        with self.block(0x02, kind):
            self.statements(2, depth)
            self.value(kind, depth)
            self.value(I32, depth)
            self.put(0x0D, 0)
            self.statements(1, depth)

    def chosen(self, kind: int, depth: int) -> None:
        self.value(I32, depth)
        with self.block(0x04, kind):
            self.statements(1, depth)
            self.value(kind, depth)
            if self.chance.random() < 0.3:
                self.put(0x0C, 0)
            self.put(0x05)
            self.value(kind, depth)
            self.statements(1, depth)

    def repeated(self, kind: int | None, depth: int) -> None:
        """A loop, which may have a value that its turns leave behind."""
        if self.loops == len(COUNTERS):
            if kind:
                self.value(kind, 0)
            return
        counter = COUNTERS[self.loops]
        self.put(0x41, self.chance.randint(1, 3), 0x21, counter)
        self.loops += 1
        with self.block(0x03, kind, is_loop=True):
            self.statements(2 if kind else 3, depth)
            if kind:
                self.value(kind, depth)
            self.put(0x20, counter, 0x41, leb(-1, True), 0x6A, 0x22, counter, 0x0D, 0)
        self.loops -= 1

    def called(self, kind: int, depth: int) -> None:
        if not self.callable or self.loops:
            self.value(kind, 0)
            return
        self.put(0x20, 0)
        self.value(I64, depth)
        self.value(I64, depth)
        # The first function is the imported one.
        self.put(0x10, (FUNCTION, leb(1 + self.chance.randrange(self.callable))), *([0xA7] if kind == I32 else []))

    def statements(self, most: int, depth: int) -> None:
        ways = [self.sets, self.stores, self.stores, self.decides, lambda it: self.repeated(None, it), self.tables]
        ways += [self.tells, self.moves, self.drops, self.remembers, self.leaves]
        for _ in range(self.chance.randint(0, most) if depth > 0 else 0):
            self.chance.choice(ways)(depth - 1)

    def sets(self, depth: int) -> None:
        kind = self.chance.choice([I32, I64])
        self.value(kind, depth)
        self.put(0x21, self.chance.choice(SET[kind]))

    def stores(self, depth: int) -> None:
        kind = self.chance.choice([I32, I64])
        number, size = self.chance.choice([*STORES[kind].items()])
        align = self.chance.randint(0, size)
        self.address(depth, align)
        self.value(kind, depth)
        self.put(number, align, leb(self.chance.randrange(MOST >> align) << align))

    def decides(self, depth: int) -> None:
        self.value(I32, depth)
        with self.block(0x04, None):
            self.statements(2, depth)
            if self.chance.random() < 0.5:
                self.put(0x05)
                self.statements(2, depth)

    def tables(self, depth: int) -> None:
        """A branch by a table to the ends of three blocks, behind each of which something happens."""
        for _ in range(3):
            self.put(0x02, 0x40)
            self.blocks.append(None)
        self.value(I32, depth)
        self.put(0x41, 7, 0x71, 0x0E, 4, 2, 0, 1, 0, 2)
        for _ in range(3):
            self.blocks.pop()
            self.put(0x0B)
            self.sets(depth)

    def tells(self, depth: int) -> None:
        self.value(I64, depth)
        self.put(0x10, (FUNCTION, leb(0)))

    def moves(self, depth: int) -> None:
        """Bytes that are copied, also to where they are, or filled."""
        self.address(depth, 0)
        if self.chance.random() < 0.5:
            self.address(depth, 0)
            self.put(0x42, leb(self.chance.randrange(MOST), True), 0xFC, 10, 0, 0)
        else:
            self.value(I32, depth)
            self.put(0x42, leb(self.chance.randrange(MOST), True), 0xFC, 11, 0)

    def drops(self, depth: int) -> None:
        self.value(self.chance.choice([I32, I64]), depth)
        self.put(0x1A)

    def remembers(self, depth: int) -> None:
        """What a global has goes to a local, and something else to the global."""
        self.put(0x23, (GLOBAL, leb(1)))
        self.value(I32, depth)
        self.put(0x24, (GLOBAL, leb(1)), 0x21, self.chance.choice(SET[I32]))

    def leaves(self, depth: int) -> None:
        """Under a condition, a branch, a return or a trap, with something behind it that is never reached."""
        self.value(I32, depth)
        with self.block(0x04, None):
            if self.chance.random() < 0.05:
                self.put(0x00)
            targets = [at for at, it in enumerate(reversed(self.blocks)) if it is not False]
            target = self.chance.choice([*targets, len(self.blocks)])
            kind = I64 if target == len(self.blocks) else self.blocks[-1 - target]
            if kind:
                self.value(kind, depth)
            self.put(*([0x0F] if target == len(self.blocks) and self.chance.random() < 0.5 else [0x0C, target]))
            self.put(0x02, 0x40, 0x41, 1, 0x0D, 0, 0x0B)

    def result(self) -> None:
        """Returns a sum of all locals that are set."""
        for it in SET[I64]:
            self.put(0x20, it)
        self.put(0x85, 0x7C)
        for it in SET[I32]:
            self.put(0x20, it, 0xAD, 0x7C)

    def whole(self) -> bytes:
        """Returns the locals and the code."""
        locals_ = vector([leb(2) + bytes([I32]), leb(1) + bytes([I64]), leb(3) + bytes([I32])])
        self.relocated = [(kind, at + len(locals_)) for kind, at in self.relocated]
        return locals_ + bytes(self.code) + b"\x0b"


def operation(operands: tuple[int, ...], result: int, number: int) -> Function:
    """Returns a function that is one operation on its arguments."""
    made = Function(Random(0), 0)
    for at, kind in enumerate(operands):
        made.put(0x20, 1 + at, *([0xA7] if kind == I32 else []))
    made.put(number, *([0xAD] if result == I32 else []))
    return made


def filling() -> Function:
    """Returns a function that fills some of its bytes with its first argument."""
    made = Function(Random(0), 0)
    made.put(0x20, 0, 0x20, 1, 0xA7, 0x42, leb(100, True), 0xFC, 11, 0, 0x20, 2)
    return made


def drawn(chance: Random, callable_: int) -> Function:
    made = Function(chance, callable_)
    made.statements(6, 5)
    made.result()
    return made


def section(number: int, body: bytes) -> bytes:
    return bytes([number]) + leb(len(body)) + body


def relocations(of: str, number: int, found: list[tuple[int, int]]) -> bytes:
    more = {it: leb(0) for it in (OFFSET, ADDRESS, WORD)}
    entries = [bytes([kind]) + leb(at) + leb(0) + more.get(kind, b"") for kind, at in found]
    return section(0, name(f"reloc.{of}") + leb(number) + vector(entries))


def deep(number: int) -> Function:
    """Returns the function of this number, which calls itself as often as it is told, each time with a frame on the
    module's stack, as the kit compiles one."""
    made = Function(Random(0), 0)
    frame, pointer = leb(FRAME, True), (GLOBAL, leb(0))
    # As the kit may do, it writes into its frame before it checks that there is room.
    made.put(0x23, pointer, 0x42, frame, 0x7D, 0x22, 5, 0x42, leb(-1, True), 0x37, 3, 0)
    made.put(0x20, 5, 0x42, 16, 0x53, 0x04, 0x40, 0x00, 0x0B, 0x20, 5, 0x24, pointer)
    made.put(0x20, 1, 0x50, 0x04, 0x40, 0x05, 0x20, 0, 0x20, 1, 0x42, 1, 0x7D, 0x20, 2, 0x10)
    made.put((FUNCTION, leb(number)), 0x1A, 0x0B, 0x20, 5, 0x42, frame, 0x7C, 0x24, pointer, 0x42, 0)
    return made


def coded(made: list[Function]) -> tuple[bytes, list[tuple[int, int]]]:
    """Returns the code of functions, and its relocations."""
    code, found = bytearray(leb(len(made))), list[tuple[int, int]]()
    for it in made:
        body = it.whole()
        code += leb(len(body))
        found += [(kind, len(code) + at) for kind, at in it.relocated]
        code += body
    return bytes(code), found


def module(seed: int, count: int, **other: bytes) -> tuple[bytes, int]:
    """Returns a module with a function for each operation, so many random ones, and a deep one; and the number of the
    first ones. `other` has sections in place of its own, by their names."""
    chance = Random(seed)
    made = [operation(*kinds, number) for kinds, numbers in NUMERIC.items() for number in numbers] + [filling()]
    plain = len(made)
    made += [drawn(chance, plain) for _ in range(count)]
    made.append(deep(1 + len(made)))
    code, found = coded(made)
    constants = chance.randbytes(BYTES) + struct.pack("<Q", BASE + TARGET) + chance.randbytes(16)
    data = leb(1) + leb(0) + bytes([0x42]) + leb(BASE, True) + b"\x0b" + leb(len(constants))
    exports = [name(f"t{at}") + b"\0" + leb(1 + at) for at in range(len(made) - 1)]
    exports += [name("deep") + b"\0" + leb(len(made)), name("memory") + b"\2\0"]
    stack = b"\x7e\1\x42" + leb(STACK, True) + b"\x0b"
    sections = {
        "types": section(1, vector([b"\x60" + vector([bytes([I64])] * 3) + vector([bytes([I64])]), b"\x60\1\x7e\0"])),
        "imports": section(2, vector([name("env") + name("seen") + b"\0\1"])),
        "functions": section(3, vector([leb(0)] * len(made))),
        "memory": section(5, vector([b"\4\4"])),
        "globals": section(6, vector([stack, b"\x7f\1\x41\0\x0b", b"\x7e\0\x42\0\x0b"])),
        "exports": section(7, vector(exports)),
        "code": section(10, code),
        "data": section(11, data + constants),
        "in_code": relocations("CODE", 6, found),
        "in_data": relocations("DATA", 7, [(WORD, len(data) + BYTES)]),
    }
    return b"\0asm\1\0\0\0" + b"".join((sections | other).values()), plain
