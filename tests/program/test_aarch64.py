"""The program for Linux on aarch64, which qemu-aarch64 runs: the tables of known.py, and the conformance suite at level
`compare`. The C functions of c/runtime-aarch64.c, and those of the kit in whose place they are, do what their contracts
say (aarch64.c).

The program is the one under test, if that is for aarch64; or else the one that make has built, or the released one.
One that is under test is also tested at length. A static program runs random texts (test_search). One that is linked
dynamically from the object beside it runs with reads and writes cut to one byte (test_answers) and with allocations
refused (test_memory). The library for C beside it runs orders of calls, allocations that fail and threads
(c/tests/library.c). In a Python for arm64 that apt-get downloads, it runs the tests of the library through ctypes, and
the package for Python finds it where Debian has it.

This machine emulates the processor, so neither speed nor a limit of memory is tested."""

import os
import re
import shutil
import subprocess
from collections.abc import Sequence

import pytest
from known import ROADS
from needs import cases, leave_out, need, need_here, pass_over, passes
from shared import ROOT, run, said, write

pytestmark = [pytest.mark.slow, pytest.mark.arm]
BUILT = f"{ROOT}/build/aarch64/dnorm"
RELEASED, TESTS = f"{ROOT}/released", f"{ROOT}/tests"
COMPILER, QEMU, SYSTEM = "aarch64-linux-gnu-gcc", "qemu-aarch64", "/usr/aarch64-linux-gnu"
WARNINGS = ["-O2", "-std=c11", "-Wall", "-Wextra", "-Wpedantic", "-Werror", "-pthread"]
# The number of a processor in an ELF file, and what it is for aarch64.
PROCESSOR, AARCH64 = slice(18, 20), (183).to_bytes(2, "little")
# The arguments that aarch64.c expects, and the builds of it: for this machine, of the kit, and for aarch64.
ARGUMENTS = [b"", b"plain", b"\xff\x80\x01\xc3", b"x" * 131071, b"last"]
BUILDS = ["here", "in the kit", "static", "dynamic"]
SUITE = re.compile(r"\d+ cases pass, 0 fail \(level compare\)\n")
# The longest time that a part may take, in seconds.
MOST = 3600
# Runs a program by qemu-aarch64, with the arguments from a place on. Since this is static, a library that a test has
# preloaded is not loaded into it, nor into qemu-aarch64, but into the program.
WRAPPER = """
#define _GNU_SOURCE
#include <stdio.h>
#include <stdlib.h>
#include <string.h>
#include <unistd.h>

int main(int argc, char **argv) {
    char *given = getenv("LD_PRELOAD"), **words = calloc(argc + 8, sizeof *words);
    if (asprintf(&given, "LD_PRELOAD=%s", given ? given : "") < 0 || unsetenv("LD_PRELOAD"))
        return 126;
    char *const before[] = {"qemu-aarch64", "-0", "dnorm", "-L", SYSTEM, "-E", given, PROGRAM};
    memcpy(words, before, sizeof before);
    memcpy(words + 8, argv + FROM, (argc - FROM) * sizeof *words);
    execv(QEMU, words);
    return 126;
}
"""
# Reads a text by the package for Python, and says which library did it. Its argument is the path of the program.
BY_PACKAGE = """
import dnorm, sys
print(dnorm.find_library(), len(dnorm.read(sys.stdin.buffer)))
"""


def is_for_aarch64(path: str) -> bool:
    """Whether this file is a program for aarch64."""
    try:
        with open(path, "rb") as file:
            head = file.read(20)
    except OSError:
        return False
    return head[:4] == b"\x7fELF" and head[PROCESSOR] == AARCH64


def program_here() -> str:
    """Returns the built program, or else the released one."""
    return BUILT if os.path.exists(BUILT) else f"{RELEASED}/aarch64/dnorm"


class Emulated:
    """The program for aarch64, and a folder with a program `dnorm` that runs it."""

    def __init__(self, tested: str, folder: str) -> None:
        self.tested, self.folder, self.qemu = tested, folder, shutil.which(QEMU) or ""
        self.program = self.wrapper("dnorm", tested)

    def beside(self, name: str) -> str:
        """Returns the path of a file in the folder of the program."""
        return f"{os.path.dirname(self.tested)}/{name}"

    def wrapper(self, name: str, program: str, first: int = 1) -> str:
        """Makes a program for this machine that runs one for aarch64 with the arguments from this place on."""
        source = f"{self.folder}/{name}.c"
        write(source, WRAPPER)
        texts = {"SYSTEM": SYSTEM, "QEMU": self.qemu, "PROGRAM": program}
        macros = [f'-D{it}="{text}"' for it, text in texts.items()]
        return compiled(f"{self.folder}/{name}", ["cc", "-static", f"-DFROM={first}", *macros, source])


def compiled(result: str, words: Sequence[str]) -> str:
    """Compiles a C program, and returns its path."""
    assert run([words[0], *WARNINGS, "-o", result, *words[1:]]) == said(), words
    return result


@pytest.fixture(scope="module")
def emulated(tested: str, tmp_path_factory: pytest.TempPathFactory) -> Emulated:
    need(QEMU, "cc")
    folder = str(tmp_path_factory.mktemp("aarch64"))
    chosen = tested if is_for_aarch64(tested) else program_here()
    if not is_for_aarch64(chosen):
        pass_over(f"{chosen} (make aarch64 builds it)")
    return Emulated(chosen, folder)


@pytest.fixture
def at_length(tested: str, emulated: Emulated) -> Emulated:
    """The program, if it is the one under test."""
    if emulated.tested != tested:
        pass_over("a program under test that is for aarch64")
    need(COMPILER)
    return emulated


def test_answers(emulated: Emulated) -> None:
    passes(emulated.program, f"{TESTS}/program/test_answers.py", CI="", limit=MOST)


def test_conformance(tested: str, emulated: Emulated) -> None:
    """All cases on the program under test, and on another one, which a release has tested so, each eighth."""
    # A call that is emulated on a busy machine may take long.
    words = [f"{ROOT}/suite/run.py", "--level", "compare", "--limit", str(MOST)]
    words += cases(1 if emulated.tested == tested else 8)
    ran = run([*words, emulated.program], limit=MOST)
    assert SUITE.fullmatch(ran.out.decode()) and ran.status == 0, (ran.out + ran.err).decode()


@pytest.mark.parametrize("build", BUILDS)
def test_c_functions(emulated: Emulated, folder: str, build: str) -> None:
    """The C functions for aarch64 and for this machine, and those of the kit, for which they stand."""
    functions, words, before = [f"{ROOT}/c/runtime-aarch64.c"], ["cc"], list[str]()
    if build == "in the kit":
        found = run([f"{ROOT}/tools/kit.py"])
        if found.status:
            leave_out("the kit")
        functions = [f"{found.out.decode().strip()}/c/{it}.a" for it in ["libos_c", "liblibc_c"]]
    elif build != "here":
        need(COMPILER)
        words, before = [COMPILER], [emulated.qemu, "-L", SYSTEM]
        words += ["-static"] * (build == "static")
    built = compiled(f"{folder}/functions", [*words, f"{ROOT}/tests/program/aarch64.c", *functions])
    assert run([*before, built, *ARGUMENTS]) == said("61 passed, 0 failed\n")


def test_random_texts(at_length: Emulated) -> None:
    passes(at_length.program, f"{TESTS}/program/test_search.py", "-m", "not slow", CI="", limit=MOST)


@pytest.mark.parametrize("name, every", [("answers", 1), ("memory", 5)])
def test_preloaded(at_length: Emulated, folder: str, name: str, every: int) -> None:
    """Reads and writes of one byte, and allocations that are refused, on each fifth text, since each of a command takes
    a run. For this a test preloads a library, which has to be compiled for aarch64."""
    object, functions = at_length.beside("dnorm.o"), f"{ROOT}/c/runtime-aarch64.c"
    need_here(object)
    dynamic = compiled(f"{folder}/dynamic", [COMPILER, object, functions])
    os.mkdir("tools")
    write("tools/cc", f'#!/bin/sh\nexec {COMPILER} "$@"\n', 0o755)
    # A file of another kind than ELF may be a program that loads libraries.
    write("tools/dnorm", f"#!{at_length.wrapper('wrapper', dynamic, 2)}\n", 0o755)
    # The built test of the libraries is for this machine. In another folder than the repository, none is found.
    for it in ["tests", "examples/refused", "suite"]:
        shutil.copytree(f"{ROOT}/{it}", it)
    for it in ["conftest.py", "pytest.ini"]:
        shutil.copy(f"{ROOT}/{it}", it)
    path = f"{folder}/tools:{os.environ['PATH']}"
    words = [f"{folder}/tests/program/test_{name}.py", f"--every={every}"]
    passes(f"{folder}/tools/dnorm", *words, CI="", limit=MOST, PATH=path)


def test_library_in_c(at_length: Emulated, folder: str) -> None:
    """Orders of calls of the library for C, allocations that fail, and threads."""
    wraps = [f"-Wl,--wrap={it}" for it in ("malloc", "realloc", "free")]
    # gcc makes a calloc, which is not wrapped, of malloc and memset.
    words = [COMPILER, "-fno-builtin-malloc", f"-I{ROOT}/c", *wraps, f"{ROOT}/c/tests/library.c"]
    words.append(at_length.beside("libdnorm.a"))
    tested = [at_length.qemu, "-L", SYSTEM, compiled(f"{folder}/library", words)]
    assert run([*tested, "orders", "4"]) == said(f"{11**4} orders\n")
    number = run([*tested, "memory"])
    assert re.fullmatch(rb"[1-9]\d* allocations\n", number.out) and not number.status
    assert run([*tested, "readers", "100"]) == said("0 wrong\n")
    assert run([*tested, "nulls"]) == said("right\n")


def test_library_in_python(at_length: Emulated, folder: str) -> None:
    """The library for C through ctypes, in a Python for arm64."""
    root, library = f"{folder}/root", at_length.beside("libdnorm.so.3")
    if lack := fetched(root, f"{folder}/apt", ["python3", "python3-pytest", "python3-hypothesis"]):
        pass_over(lack)
    python = [at_length.qemu, "-L", root, f"{root}/usr/bin/python3"]
    own = {"DNORM_TESTED_LIBRARY": library, "PYTHONPATH": f"{root}/usr/lib/python3/dist-packages", "CI": ""}
    passes(at_length.program, f"{ROOT}/c/tests/test_library.py", python=python, limit=MOST, **own)
    own = {**os.environ, "PYTHONPATH": f"{ROOT}/python/src", "PYTHONDONTWRITEBYTECODE": "1", "DNORM_LIBRARY": library}
    assert run([*python, "-c", BY_PACKAGE], ROADS, env=own) == said(f"{library} 5\n")


def fetched(root: str, state: str, packages: list[str]) -> str:
    """Downloads Debian packages for arm64 and all that they depend on, and unpacks them below a root. apt-get keeps its
    lists and its state in a folder, and nothing on this machine changes. Returns what is missing, if it fails."""
    if not shutil.which("apt-get") or not shutil.which("dpkg-deb"):
        return "apt-get"
    for it in ["lists/partial", "cache/archives/partial"]:
        os.makedirs(f"{state}/{it}")
    write(f"{state}/status", "")
    places = {"Dir::State::Lists": "lists", "Dir::State::status": "status", "Dir::Cache": "cache"}
    options = {"APT::Architecture": "arm64", "APT::Architectures": "arm64", "APT::Sandbox::User": "root"}
    options |= {it: f"{state}/{place}" for it, place in places.items()}
    apt = ["apt-get", "-qq", *(word for it, value in options.items() for word in ("-o", f"{it}={value}"))]
    for words in [["update"], ["--yes", "--no-install-recommends", "--download-only", "install", *packages]]:
        ran = subprocess.run([*apt, *words], stdin=subprocess.DEVNULL, capture_output=True, timeout=MOST, check=False)
    if ran.returncode:
        return f"{packages[0]} for arm64, which apt-get downloads,"
    for file in os.scandir(f"{state}/cache/archives"):
        if file.name.endswith(".deb"):
            run(["dpkg-deb", "-x", file.path, root])
    return ""
