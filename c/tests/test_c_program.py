"""The library for C as one C file, and the commands of c/dnorm.c over it. The file compiles without a warning, has no
variables, and exports only the library. The conformance suite passes, and the commands have the lines and statuses of
the program, under each compiler, also for other processors and for Windows, as far as these are emulated here.

If the program under test is one of c/dnorm.c, the program's own tests run on it as well, and c/tests over
libraries of the C file beside it."""

import json
import os
import random
import re
import shutil
import subprocess
import sys

import pytest
from known import ROADS, ROADS_CANON, WRONG_WORDS, rows
from needs import cases, need, pass_over, passes
from shared import ROOT, Answer, Words, make, pipe, run, said, text_of, write
from test_c_file import HERE, SANITIZERS
from texts import lines_of, made, spelled, spoilt

from dnorm.library import ABI

pytestmark = pytest.mark.slow
# Where the file is, made here or released.
PLACES = [f"{ROOT}/build", f"{ROOT}/released/c"]
# What runs a program for Windows: wine, without random addresses if the system allows that. With them, one of some
# 5,000 runs ends, since an address that wine needs is taken.
WINE = ["sh", "-c", 'setarch -R true 2> /dev/null && set -- setarch -R "$@"; exec "$@"', "sh", "/usr/lib/wine/wine64"]
# A text that is refused, and whose first two lines are not.
ENDS = b"p sp 3 1\na 1 2 3\n\x1ajunk\n"
# What compiles the program; what runs it, if that is not this machine; and of how many known runs one is made.
BUILDS: dict[str, tuple[list[str], list[str], int]] = {
    "gcc -O0": (["gcc", "-O0"], [], 1),
    "gcc -O2": (["gcc", "-O2"], [], 1),
    "sanitizers": (["gcc", "-O0", *SANITIZERS], [], 4),
    "clang": (["clang", "-O1"], [], 1),
    "tcc": (["tcc"], [], 1),
    "aarch64": (["aarch64-linux-gnu-gcc", "-O0", "-static"], ["qemu-aarch64"], 10),
    "riscv64": (["riscv64-linux-gnu-gcc", "-O0", "-static"], ["qemu-riscv64"], 10),
    "Windows": (["x86_64-w64-mingw32-gcc", "-O0", "-municode"], WINE, 40),
}
# Random texts, and their kinds.
RANDOM, KINDS = 200, ["min", "max", "sp", "ss", "p2p", "co"]
# Those on which the conformance suite runs, unless all is tested at length.
SUITE = ["gcc -O2", "sanitizers"]
# The names that a symbol table exports, and sections of variables with their sizes, unless these are 0.
EXPORTED = re.compile(r" [A-Z] (\w+)$", re.M)
VARIABLES = re.compile(r"^ *\d+ (\.(?:data|bss)) +0*[1-9a-f]", re.M)


def c_file(folder: str) -> str:
    """Copies the C file and what is beside it to a folder, and returns the name of the file."""
    found = [it for it in PLACES if os.path.exists(f"{it}/libdnorm.c")]
    if not found:
        pass_over("the C file (c/file/make makes it)")
    version = re.search(r'VERSION: &str = "(.+)"', text_of(f"{ROOT}/crates/dn_command/src/help.rt"))
    words = [folder, f"{found[0]}/libdnorm.c", version[1] if version else ""]
    assert run([f"{ROOT}/c/file/stage", *words]) == said()
    return f"{folder}/libdnorm.c"


def is_of_c(program: str) -> bool:
    """Whether a program is one of c/dnorm.c, which tells more than its version."""
    return run([program, "--version"]).out.count(b"\n") == 2


def in_wine(folder: str) -> dict[str, str]:
    """Starts wine, and returns the environment of runs: none prints what is wine's or makes menus, and names are UTF-8.
    The first run starts services, which keep its streams open until wine's server ends: 20 s after the last run."""
    env = {**os.environ, "WINEDEBUG": "-all", "DISPLAY": "", "LC_ALL": "C.UTF-8", "WINEPREFIX": f"{folder}/wine"}
    env["WINEDLLOVERRIDES"] = "winemenubuilder.exe=d"
    os.mkdir(env["WINEPREFIX"])
    for words in [[f"{os.path.dirname(WINE[-1])}/wineserver", "-p20"], [*WINE, "cmd", "/c", "exit"]]:
        run(["sh", "-c", 'exec "$@" > /dev/null 2>&1', "sh", *words], limit=300, env=env)
    return env


class Program:
    """A program of the C file in a folder: its path, the words that run it, and of how many known runs one is made."""

    def __init__(self, folder: str, build: str, is_long: bool) -> None:
        compiler, self.runner, self.sample = BUILDS[build]
        need(compiler[0], *self.runner[-1:])
        if is_long:
            self.sample = 1
            compiler = [it.replace("-O0", "-O2") if self.runner else it for it in compiler]
        self.path = f"{folder}/dnorm.exe"
        assert run([*compiler, "-w", "-o", self.path, f"{folder}/dnorm.c", c_file(folder)], limit=None) == said()
        self.env = in_wine(folder) if self.runner == WINE else dict(os.environ)

    def run(self, words: Words, given: bytes = b"") -> Answer:
        return run([*self.runner, self.path, *words], given, limit=300, env=self.env)


@pytest.mark.parametrize("words", ["gcc -O1 -std=c99", "clang -O0 -std=c17"])
def test_clean(folder: str, words: str) -> None:
    need(words.partition(" ")[0])
    options = ["-D_POSIX_C_SOURCE=200809L", "-Wall", "-Wextra", "-Wpedantic", "-Werror", "-o", "dnorm"]
    assert run([*words.split(), *options, c_file(folder), "dnorm.c"], limit=None) == said()


def test_symbols(folder: str) -> None:
    """The object has no variables that can be written, and exports the library alone."""
    need("gcc", "nm", "objdump")
    assert run(["gcc", "-O0", "-c", c_file(folder)], limit=None) == said()
    found = run(["nm", "--extern-only", "--defined-only", "libdnorm.o"]).out.decode()
    declared = re.findall(r"^ +(dnorm_\w+);$", text_of(f"{ROOT}/c/dnorm.map"), re.M)
    assert sorted(EXPORTED.findall(found)) == sorted(declared)
    assert VARIABLES.findall(run(["objdump", "-h", "libdnorm.o"]).out.decode()) == []


@pytest.mark.parametrize("macro, other", [("__BYTE_ORDER__", "__ORDER_BIG_ENDIAN__"), ("UINTPTR_MAX", "0xFFFFFFFF")])
def test_other_systems(folder: str, macro: str, other: str) -> None:
    """Where the file cannot run, one line says so."""
    need("gcc")
    write("other.h", f"#include <stdint.h>\n#undef {macro}\n#define {macro} {other}\n")
    found = run(["gcc", "-w", "-fsyntax-only", "-include", "other.h", c_file(folder)])
    assert found.err.count(b" error: ") == 1 and b"is for little endian systems with pointers of 64 bits" in found.err


@pytest.mark.parametrize("seed", ["1", "2"])
def test_same_bytes(folder: str, seed: str) -> None:
    """The file has the same bytes, in whatever order Python keeps sets."""
    here = c_file(folder)
    made = run([f"{ROOT}/c/file/make", "again.c"], env={**os.environ, "PYTHONHASHSEED": seed})
    if made.status == 125:
        pass_over("the kit, or the archive that make wasm makes")
    assert made == said()
    assert text_of("again.c") == text_of(here)


@pytest.mark.parametrize("build", [pytest.param(it, marks=[pytest.mark.wine] * (it == "Windows")) for it in BUILDS])
def test_program(tested: str, folder: str, build: str) -> None:
    """The known runs of the program, words that it refuses, files of Windows, and the conformance suite, or samples."""
    program = Program(folder, build, is_of_c(tested))
    runs(program)
    words(program, tested)
    files(program)
    if build in SUITE or is_of_c(tested):
        suite = [sys.executable, f"{ROOT}/suite/run.py", "--level=compare", "--limit=300", "--jobs=2"]
        suite += cases(program.sample)
        found = run([*suite, *program.runner, program.path], limit=None, env=program.env)
        assert re.fullmatch(rb"\d+ cases pass, 0 fail \(level compare\)\n", found.out) and found.status == 0, found


def runs(program: Program) -> None:
    for row in [*rows()][:: program.sample]:
        make(row.named)
        found = program.run(row.words.split(), row.named.get("-", b""))
        assert found == said(row.out, row.err, row.status), row.name()


def words(program: Program, tested: str) -> None:
    """Words that are refused, help, and the version."""
    write("g.gr", ROADS)
    for it in WRONG_WORDS[:: min(program.sample, 7)]:
        assert program.run(it.split()) == said(b"", "dnorm: bad command line\n", 3), it
    for it in ["help", "canon -h", "compare --help x"][: 4 - min(program.sample, 3)]:
        found = program.run(it.split())
        assert (b"Usage: dnorm" in found.out, found.err, found.status) == (True, b"", 0), it
    first, second = program.run(["--version"]).out.splitlines()
    assert first == run([tested, "--version"]).out.splitlines()[0] and second.startswith(b"The reader is proved")


def files(program: Program) -> None:
    """Bytes and names that Windows could take for others."""
    write("straße-日本.gr", ROADS.replace(b"\n", b"\r\n"))
    assert program.run(["canon", "straße-日本.gr"]) == said(ROADS_CANON)
    write("ends.gr", ENDS)
    assert program.run(["canon", "ends.gr"]) == said(b"", "ends.gr:3: 1 BadLine\n", 2)
    assert program.run([], ENDS) == said(b"", "-:3: 1 BadLine\n", 2)
    assert program.run(["show", "ümläut.gr"]) == said(b"", "ümläut.gr: 31 Read\n", 4)
    long = "/".join(["x" * 100] * 4)
    make({f"{long}/g.gr": ROADS})
    for name in [f"{long}/g.gr", os.path.abspath(f"{long}/g.gr")]:
        assert program.run(["canon", name]) == said(ROADS_CANON)


def test_as_module(folder: str) -> None:
    """On random texts, the module in Node and the C file have the same answers."""
    need("node")
    program, chance = Program(folder, "gcc -O0", False), random.Random(1)
    words = ["node", f"{ROOT}/web/tests/adapter.mjs"]
    with subprocess.Popen(words, stdin=subprocess.PIPE, stdout=subprocess.PIPE) as node:
        write("other", ROADS)
        for i in range(RANDOM):
            lines = lines_of(chance, made(chance, KINDS[i // 2 % 6], i % 4 == 0))
            write("other" if i % 2 else "text", spelled(chance, spoilt(chance, lines) if i % 3 == 0 else lines))
            for it in ["canon --form 1 text", "canon --form 2 other", "show text", "compare text other"]:
                asked, answers = pipe(node.stdin), pipe(node.stdout)
                asked.write(it.replace(" ", "\t").encode() + b"\n")
                asked.flush()
                found, line = program.run(it.split()), answers.readline().decode()
                told = json.loads(line) if line.startswith('"') else line
                assert (found.out + found.err).decode() == told, f"{it} of text {i}"


@pytest.fixture
def at_length(tested: str) -> str:
    if not is_of_c(tested):
        pass_over("a program under test that is one of c/dnorm.c")
    return tested


@pytest.mark.parametrize("name", ["answers", "host", "hostile", "memory", "samples", "search"])
def test_as_program(at_length: str, name: str) -> None:
    """The tests of the program, but for the one line of its version, and for those that `rt ci` builds of libraries."""
    others = ["host.py::test_command[--version]", "memory.py::test_libraries"]
    words = [f"--deselect=tests/program/test_{it}" for it in others]
    passes(at_length, f"{ROOT}/tests/program/test_{name}.py", *words)


def test_as_library(at_length: str, folder: str) -> None:
    """The tests of the library, and those of the package for Python, over both libraries of the C file."""
    need("gcc", "ar")
    prefix, library = f"{folder}/prefix", c_file(folder)
    assert run([f"{ROOT}/c/put", prefix], limit=None).status == 0
    shared = f"{prefix}/lib/libdnorm.so.{ABI}"
    linking = [f"-Wl,-soname,libdnorm.so.{ABI}", f"-Wl,--version-script={ROOT}/c/dnorm.map", "-Wl,-z,defs,-z,now"]
    for line in [
        ["gcc", "-O2", "-fPIC", "-c", library],
        ["ar", "rcs", "again.a", "libdnorm.o"],
        ["gcc", "-O2", "-fPIC", "-DDNORM_SHARED", "-shared", *linking, "-o", shared, library],
    ]:
        assert run(line, limit=None) == said()
    shutil.move("again.a", f"{prefix}/lib/libdnorm.a")
    # As in a clone, whose libraries the tests expect, this is no link.
    os.remove(f"{prefix}/lib/libdnorm.so")
    shutil.copy(shared, f"{prefix}/lib/libdnorm.so")
    others = [f"--ignore={HERE}/test_c_{it}.py" for it in ("file", "program")]
    passes(f"{ROOT}/bin/dnorm", HERE, *others, DNORM_TESTED_PREFIX=prefix)
    passes(f"{ROOT}/bin/dnorm", f"{ROOT}/python/tests", DNORM_TESTED_PREFIX=prefix)


# Reads a text by its name, by a stream and by standard input, as dnorm_tools.h does, and in C++ as dnorm.hpp does.
READS = """
#ifdef __cplusplus
#include "dnorm.hpp"
#else
#include "dnorm_tools.h"
#endif
int main(int count, char **words) {
    dnorm graph = DNORM_NONE;
    FILE *const file = fopen(words[1], "r");
    printf("%d ", dnorm_read_path(&graph, words[1]).code);
    dnorm_free(&graph);
    printf("%d ", dnorm_read_file(&graph, file).code);
    dnorm_free(&graph);
    printf("%d ", dnorm_read_fd(&graph, 0).code);
    dnorm_free(&graph);
#ifdef __cplusplus
    dnorm_status status;
    dnorm_cpp::Instance::read(dnorm_cpp::Path(words[1]), status);
    printf("%d", status.code);
#endif
    return count - 2;
}
"""


@pytest.mark.wine
@pytest.mark.parametrize("compiler, name, out", [("gcc", "reads.c", "1 1 1 "), ("g++", "reads.cc", "1 1 1 1")])
def test_headers_on_windows(folder: str, compiler: str, name: str, out: str) -> None:
    """The headers read a file as bytes: a byte 26 does not end it."""
    need(WINE[-1], f"x86_64-w64-mingw32-{compiler}", "x86_64-w64-mingw32-gcc")
    make({"ends.gr": ENDS, name: READS})
    standard = ["-std=c++17", "-static"] if compiler == "g++" else ["-std=c99"]
    linked = ["-Wall", "-Wextra", "-I.", "-o", "reads.exe", name, "libdnorm.o"]
    for one, *words in [("gcc", "-w", "-c", c_file(folder)), (compiler, *standard, *linked)]:
        assert run([f"x86_64-w64-mingw32-{one}", *words], limit=None) == said()
    assert run([*WINE, "reads.exe", "ends.gr"], ENDS, limit=300, env=in_wine(folder)) == said(out)
