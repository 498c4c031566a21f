"""What makes the library for C one C file. Operations at their borders, and random functions, have the answers of the
same module in Node, under each compiler. Mistakes in what makes the file are found so, and a module with anything that
is not known is refused."""

import functools
import random
import runpy
import sys

import assembled
import pytest
from needs import need, need_here
from shared import ROOT, make, run, said, text_of, write

pytestmark = pytest.mark.slow
HERE = f"{ROOT}/c/tests"
MAKING = ["c/file/wasm_module.py", "c/file/wasm_operations.py", "c/file/wasm_to_c.py", "c/file/head.c"]
# Makes C of a module by the files in a folder.
MAKES = """
import sys
sys.path.insert(0, sys.argv[1])
from wasm_module import CODE, Bytes, Module
from wasm_to_c import functions
module = Module(open(sys.argv[2], "rb").read())
sys.stdout.write(functions(module, Bytes(module.sections[CODE])))
"""
SANITIZERS = ["-g", "-fsanitize=address,undefined", "-fno-sanitize-recover=all"]
# Compilers with their options. With __TINYC__, gcc takes what is for compilers that lack its builtins.
COMPILERS = [["gcc", "-O0"], ["gcc", "-O2"], ["gcc", "-O1", "-D__TINYC__"], ["clang", "-O2"], ["tcc"]]
COMPILERS += [["gcc", "-O1", *SANITIZERS]]
# Mistakes by the file: an old text, a new one, and options of gcc.
PLANTED: dict[str, list[tuple[str, str, list[str]]]] = {
    "c/file/wasm_to_c.py": [
        # What is on the operand stack is put away before what it reads changes, and before blocks.
        ("self.keep(lambda it: name in it.uses)\n", "pass\n", []),
        ("self.keep(lambda it: name in it.uses, depth)", "pass", []),
        ("self.keep_all()\n        self.labels", "self.labels", []),
        # What reads memory, may trap or changes is computed at once.
        ("access.kind), is_now=True", "access.kind)", []),
        ("is_frame or it.number in op.TRAPPING", "is_frame", []),
        ("index == STACK_POINTER), is_now=True", "index == STACK_POINTER)", []),
        # Branches, tables, halves of an `if`, and what cannot be reached.
        ('before = f"{name} = {self.of(value)}; "', 'before = ""', []),
        ("enumerate(cases)", "enumerate(cases, 1)", []),
        ("frame.number, self.dead = op.ELSE, 0", "frame.number = op.ELSE", []),
        ("{first.text} : {second.text}", "{second.text} : {first.text}", []),
        # Addresses of the data, and those that may be no multiple of the size.
        ('"DN_AT({offset}u)"', '"DN_AT({offset + 1}u)"', []),
        ('f" + {given}" if value.constant != 0', '"" if value.constant != 0', []),
        ("&dn_data + {offset}", "&dn_data + {offset + 8}", []),
        ("{given} + {offset}u", "{given}", []),
        ('"u" if align < size', '"" if align < size', SANITIZERS),
        ("if (DN_BELOW({self.of(self.stack[-1])})) DN_TRAP();", ";", []),
    ],
    "c/file/wasm_operations.py": [
        ("i64      i32  (u32){0}\n        AC", "i64      i32  {0}\n        AC", []),
        ("(u64)(s64)(s32){0}\n        AD", "(u64){0}\n        AD", []),
        ("({0} << ({1} & 63))", "({0} << ({1} & 31))", []),
        ("(u32)((s32){0} < (s32){1})", "(u32)({0} < {1})", []),
        ("i64  8   (u64)(s64)(s8)", "i64  8   (u64)", []),
        ("0xFC0A, 0xFC0B", "0xFC0B, 0xFC0A", []),
    ],
    "c/file/head.c": [
        ("byte & 255", "byte & 127", []),
        ("memmove(DN_P(to)", "memcpy(DN_P(to)", SANITIZERS),
        ("y ? x << y |", "y ? x << (y + 1) |", []),
        ("x * U64(0x0101010101010101) >> 56", "x * U64(0x0101010101010101) >> 55", []),
        ("(s##n)x / (s##n)y", "x / y", []),
        ("y == (u##n)-1 ? 0 : ", "", []),
        ("(x == (u##n)1 << (n - 1) && y == (u##n)-1)", "0", []),
        ("~x & (x - 1)", "~x & (x + 1)", ["-D__TINYC__"]),
        ("x |= x >> 32;", "", ["-D__TINYC__"]),
        ("if (!y) DN_TRAP(); return x % y", "return y ? x % y : 0", []),
        # The check of the module's stack.
        ("(p) - c->low > DN_STACK", "(p) < c->low", []),
        ("(p) - c->low > DN_STACK", "(s64)(p) < (s64)c->low", []),
        ("(p) - c->low > DN_STACK", "0", []),
    ],
}
FAULTS = [(it, *fault) for it, faults in PLANTED.items() for fault in faults]
# Why a module is refused, what is changed in it, and sections that it has in place of its own, or behind them.
SECTION = assembled.section
STOPS: list[tuple[str, bytes, bytes, dict[str, bytes]]] = [
    ("it does not begin as one of version 1", b"asm\1", b"asm\2", {}),
    ("a section 4", b"", b"", {"more": SECTION(4, b"\0")}),
    ("a section anything", b"", b"", {"more": SECTION(0, assembled.name("anything"))}),
    ("two sections 3", b"", b"", {"more": SECTION(3, b"\0")}),
    ("it has not one memory of 64 bits without a maximum", b"", b"", {"memory": SECTION(5, b"\1\0\4")}),
    ("it imports own.seen", b"\3env", b"\3own", {}),
    ("a function with two results", b"", b"", {"types": SECTION(1, b"\1\x60\0\2\x7e\x7e")}),
    ("a value of the type 0x7d", b"", b"", {"types": SECTION(1, b"\1\x60\1\x7d\0")}),
    ("it exports t, a thing of the kind 1", b"", b"", {"exports": SECTION(7, b"\1\1t\1\0")}),
    ("an instruction 0x43", b"\x20\x01\x50\xad", b"\x43\0\0\0", {}),
    ("an instruction 0xfc08", b"\xfc\x0b\0", b"\xfc\x08\0", {}),
    ("memory.copy or memory.fill of another memory", b"\xfc\x0b\0", b"\xfc\x0b\1", {}),
    ("the pointer to the module's stack is set to something else", b"\x20\5\x24\0", b"\x20\1\x24\0", {}),
    ("reloc.CODE has a relocation of the kind 3", b"", b"", {"in_code": assembled.relocations("CODE", 6, [(3, 1)])}),
    ("relocations that no instruction has", b"", b"", {"in_code": assembled.relocations("CODE", 6, [(7, 1)])}),
    ("reloc.CODE is about another section", b"", b"", {"in_code": assembled.relocations("CODE", 5, [])}),
    ("a relocation at 63 of the data", b"", b"", {"in_data": assembled.relocations("DATA", 7, [(16, 8 + 63)])}),
    ("data with the address of something else", b"", b"", {"in_data": assembled.relocations("DATA", 7, [(16, 8)])}),
]


class Assembled:
    """A module of random functions in a folder, with the numbers that they are called with."""

    def __init__(self, folder: str, seed: int, count: int) -> None:
        chance = random.Random(seed)
        self.folder, self.numbers = folder, [*assembled.BORDERS, *(chance.getrandbits(64) for _ in range(8))]
        module, self.plain = assembled.module(seed, count)
        self.count = self.plain + count
        write(f"{folder}/module.wasm", module)
        write(f"{folder}/numbers.json", str([str(it) for it in self.numbers]).replace("'", '"'))

    @functools.cached_property
    def by_node(self) -> bytes:
        """What Node prints, whose engine compiles the module itself."""
        need("node")
        words = ["node", "--no-warnings", "--experimental-wasm-memory64", f"{HERE}/assembled.mjs"]
        files = [f"{self.folder}/module.wasm", f"{self.folder}/numbers.json"]
        found = run([*words, *files, str(self.plain), str(assembled.ROOM)])
        assert (found.err, found.status, found.out.count(b"\n")) == (b"", 0, self.count + 1)
        return found.out

    def make(self, place: str, folder: str) -> bytes:
        """Makes C of it in a folder, by the files below a place. Returns why this stops, or nothing."""
        made = run([sys.executable, "-c", MAKES, f"{place}/c/file", f"{self.folder}/module.wasm"])
        if made.status:
            return made.err
        head, _, rest = text_of(f"{place}/c/file/head.c").partition("/* The functions that the module imports.")
        assert rest and "#define DN_TRAP() abort()" in head
        write(f"{folder}/head.c", head.replace("#define DN_TRAP() abort()", "#define DN_TRAP() longjmp(trap, 1)"))
        write(f"{folder}/functions.c", made.out)
        names = ", ".join(f"f{1 + it}" for it in range(self.count))
        numbers = ", ".join(f"U64({it})" for it in self.numbers)
        given = {"NUMBERS": numbers, "FUNCTIONS": names, "PLAIN": self.plain, "ROOM": assembled.ROOM}
        given |= {"DEEP": f"f{1 + self.count}", "STACK": assembled.STACK}
        write(f"{folder}/given.h", "".join(f"#define {name} {it}\n" for name, it in given.items()))
        return b""

    def by_c(self, folder: str, *words: str) -> bytes:
        """What the functions print that a compiler makes, or what goes wrong."""
        built = [*words, "-w", f"-I{folder}", f"-I{ROOT}/c", "-o", f"{folder}/calls", f"{HERE}/assembled.c"]
        compiled = run(built)
        found = run([f"{folder}/calls"]) if compiled.status == 0 else compiled
        return found.out if (found.err, found.status) == (b"", 0) else found.err or b"status %d" % found.status


@pytest.fixture(scope="module")
def random_functions(tmp_path_factory: pytest.TempPathFactory) -> Assembled:
    return Assembled(str(tmp_path_factory.mktemp("assembled")), 1, 300)


@pytest.fixture(scope="module")
def some_functions(tmp_path_factory: pytest.TempPathFactory) -> Assembled:
    return Assembled(str(tmp_path_factory.mktemp("assembled")), 2, 100)


@pytest.mark.parametrize("words", COMPILERS, ids=" ".join)
def test_operations(random_functions: Assembled, folder: str, words: list[str]) -> None:
    """Operations on numbers at their borders, and random functions, give what Node's engine gives."""
    need(words[0])
    assert random_functions.make(ROOT, folder) == b""
    assert random_functions.by_c(folder, *words) == random_functions.by_node


@pytest.mark.parametrize("file, old, new, more", FAULTS, ids=[f"{old!r:.40}" for _, old, _, _ in FAULTS])
def test_faults(some_functions: Assembled, folder: str, file: str, old: str, new: str, more: list[str]) -> None:
    """A mistake in what makes the file is found by these functions."""
    need("gcc")
    texts = {it: text_of(f"{ROOT}/{it}") for it in MAKING}
    assert old in texts[file]
    make(texts | {file: texts[file].replace(old, new, 1)})
    stops = some_functions.make(folder, folder)
    assert stops or some_functions.by_c(folder, "gcc", "-O0", *more) != some_functions.by_node


def test_whole_file() -> None:
    """The functions of a module stand between the two parts of the file that are written by hand."""
    need_here("tools/")
    script = runpy.run_path(f"{ROOT}/c/file/make")
    text = script["text"](script["Module"](assembled.module(1, 0)[0]))
    head, tail = (text_of(f"{ROOT}/c/file/{it}.c") for it in ("head", "tail"))
    assert text.startswith(head) and text.endswith(tail) and len(text) > len(head + tail)


@pytest.mark.parametrize("why, old, new, other", STOPS, ids=[it[0] for it in STOPS])
def test_stops(folder: str, why: str, old: bytes, new: bytes, other: dict[str, bytes]) -> None:
    """A module with what is not known is refused."""
    module, _ = assembled.module(1, 0, **other)
    assert old in module
    write("module.wasm", module.replace(old, new, 1))
    found = run([sys.executable, "-c", MAKES, f"{ROOT}/c/file", "module.wasm"])
    assert found == said("", f"dnorm: the module cannot be made into C: {why}\n", 1)
