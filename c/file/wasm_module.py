"""Reads a WebAssembly module that was linked with relocations, and stops at whatever it does not know.

The binary format is that of the WebAssembly Core Specification 2.0, chapter 5, with memories of 64 bits as the proposal
memory64 has them; sections of relocations are those of Linking.md of WebAssembly/tool-conventions."""

from __future__ import annotations

from collections.abc import Callable
from typing import NamedTuple, NoReturn, TypeVar

# Types of values (5.3.1), and how this module names them.
TYPES = {0x7F: "i32", 0x7E: "i64"}
# Sections (5.5.2): the known ones, of which `data count` says nothing that the data do not.
TYPE, IMPORT, FUNCTION, MEMORY, GLOBAL, EXPORT, CODE, DATA, DATA_COUNT = 1, 2, 3, 5, 6, 7, 10, 11, 12
CUSTOM = 0
KNOWN = {TYPE, IMPORT, FUNCTION, MEMORY, GLOBAL, EXPORT, CODE, DATA, DATA_COUNT}
# Custom sections: relocations, and those that change no function.
RELOCATIONS = {"reloc.CODE": CODE, "reloc.DATA": DATA}
PASSED_OVER = {"linking", "name", "producers", "target_features"}
# Relocations by their numbers: of an index of a function or a global; of an address in an instruction's offset, in a
# constant, and in the data. The last three have an addend.
FUNCTION_INDEX, GLOBAL_INDEX, OFFSET, ADDRESS, WORD = 0, 7, 14, 15, 16
WITH_ADDEND = {OFFSET, ADDRESS, WORD}
# A memory that has addresses of 64 bits, and no maximum.
MEMORY_64 = 4
# The number before an exported function, and before another thing that may be exported: the memory, a global.
EXPORTED_FUNCTION, EXPORTED_OTHERS = 0, {2, 3}
HEAD = b"\0asm\1\0\0\0"
END = 0x0B
CONSTANTS = {"i32": 0x41, "i64": 0x42}

Item = TypeVar("Item")


def stop(why: str) -> NoReturn:
    raise SystemExit(f"dnorm: the module cannot be made into C: {why}")


class Signature(NamedTuple):
    """The types of a function's arguments, and that of its result, if it has one."""

    arguments: list[str]
    result: str | None


class Global(NamedTuple):
    kind: str
    is_mutable: bool
    value: int


class Bytes:
    """Bytes that are read one after another."""

    def __init__(self, data: bytes, at: int = 0) -> None:
        self.data, self.at = data, at

    def is_over(self) -> bool:
        return self.at >= len(self.data)

    def take(self, count: int) -> bytes:
        if self.at + count > len(self.data):
            stop("it ends too early")
        self.at += count
        return self.data[self.at - count : self.at]

    def byte(self) -> int:
        return self.take(1)[0]

    def leb(self) -> tuple[int, int]:
        """Returns the value and the number of bits of a number by LEB128 (5.2.2)."""
        value = bits = 0
        while True:
            byte = self.byte()
            value |= (byte & 127) << bits
            bits += 7
            if byte < 128:
                return value, bits

    def unsigned(self) -> int:
        return self.leb()[0]

    def signed(self) -> int:
        value, bits = self.leb()
        return value - (1 << bits) if value >> (bits - 1) else value

    def name(self) -> str:
        return self.take(self.unsigned()).decode()

    def vector(self, read: Callable[[], Item]) -> list[Item]:
        return [read() for _ in range(self.unsigned())]

    def value_type(self) -> str:
        found = self.byte()
        return TYPES.get(found) or stop(f"a value of the type {found:#x}")

    def constant(self) -> tuple[str, int]:
        """Returns the type and the value of an expression that is one constant (5.4.9)."""
        op = self.byte()
        kinds = [it for it, other in CONSTANTS.items() if other == op]
        value = self.signed()
        if not kinds or self.byte() != END:
            stop(f"a value that begins with {op:#x}")
        return kinds[0], value


class Module:
    """What a module has."""

    def __init__(self, data: bytes) -> None:
        self.order: list[int] = []
        self.sections: dict[int, bytes] = {}
        self.custom: dict[str, bytes] = {}
        self.split(data)
        self.types = self.read(TYPE, self.signature)
        imported = self.read(IMPORT, self.imported)
        self.imports = [name for name, _ in imported]
        kinds = [*(kind for _, kind in imported), *self.read(FUNCTION, Bytes.unsigned)]
        self.signatures = [self.types[it] for it in kinds]
        self.globals = self.read(GLOBAL, self.glob)
        if self.read(MEMORY, lambda it: (it.byte(), it.unsigned())[0]) != [MEMORY_64]:
            stop("it has not one memory of 64 bits without a maximum")
        self.exports: dict[str, int] = {}
        self.others: set[str] = set()
        for name, kind, index in self.read(EXPORT, lambda it: (it.name(), it.byte(), it.unsigned())):
            self.export(name, kind, index)
        self.base, self.data = self.segment()
        # By the place in the section.
        self.in_code, self.in_data = (self.relocations(name, kind) for name, kind in RELOCATIONS.items())
        self.start_of_data = len(self.sections[DATA]) - len(self.data)

    def split(self, data: bytes) -> None:
        if not data.startswith(HEAD):
            stop("it does not begin as one of version 1")
        whole = Bytes(data, len(HEAD))
        while not whole.is_over():
            kind, body = whole.byte(), Bytes(whole.take(whole.unsigned()))
            self.order.append(kind)
            name = body.name() if kind == CUSTOM else ""
            if kind in self.sections or name in self.custom:
                stop(f"two sections {name or kind}")
            if kind == CUSTOM and name in {*RELOCATIONS, *PASSED_OVER}:
                self.custom[name] = body.data[body.at :]
            elif kind in KNOWN:
                self.sections[kind] = body.data
            else:
                stop(f"a section {name or kind}")

    def read(self, kind: int, item: Callable[[Bytes], Item]) -> list[Item]:
        """Reads a section that is a list."""
        section = Bytes(self.sections.get(kind, b"\0"))
        found = section.vector(lambda: item(section))
        if not section.is_over():
            stop(f"section {kind} has more than its list")
        return found

    def signature(self, section: Bytes) -> Signature:
        if section.byte() != 0x60:
            stop("a type that is none of a function")
        arguments, results = section.vector(section.value_type), section.vector(section.value_type)
        if len(results) > 1:
            stop("a function with two results")
        return Signature(arguments, results[0] if results else None)

    def imported(self, section: Bytes) -> tuple[str, int]:
        module, name, kind, index = section.name(), section.name(), section.byte(), section.unsigned()
        if module != "env" or kind:
            stop(f"it imports {module}.{name}")
        return name, index

    def glob(self, section: Bytes) -> Global:
        kind, is_mutable, (other, value) = section.value_type(), bool(section.byte()), section.constant()
        if kind != other:
            stop("a global whose value is of another type")
        return Global(kind, is_mutable, value)

    def export(self, name: str, kind: int, index: int) -> None:
        if kind == EXPORTED_FUNCTION:
            self.exports[name] = index
        elif kind in EXPORTED_OTHERS:
            self.others.add(name)
        else:
            stop(f"it exports {name}, a thing of the kind {kind}")

    def segment(self) -> tuple[int, bytes]:
        """Returns where the data begin in the memory, and the data."""
        section = Bytes(self.sections.get(DATA, b""))
        if section.unsigned() != 1 or section.unsigned() != 0:
            stop("it has not one segment of data, with its place")
        kind, base = section.constant()
        data = section.take(section.unsigned())
        if kind != "i64" or not section.is_over() or base % 8:
            stop("its data have no place that is a multiple of 8")
        return base, data

    def relocations(self, name: str, kind: int) -> dict[int, int]:
        """Returns the relocations of a section: their numbers by their places in it."""
        section, found = Bytes(self.custom.get(name, b"")), dict[int, int]()
        if self.order[section.unsigned()] != kind:
            stop(f"{name} is about another section")
        for _ in range(section.unsigned()):
            number, at, _ = section.byte(), section.unsigned(), section.unsigned()
            if number in WITH_ADDEND:
                section.signed()
            elif number not in (FUNCTION_INDEX, GLOBAL_INDEX):
                stop(f"{name} has a relocation of the kind {number}")
            if at in found:
                stop(f"{name} has two relocations at {at}")
            found[at] = number
        if not section.is_over():
            stop(f"{name} has more than its list")
        return found
