"""How programs are built with the library for C, and what they are given: texts with their canonical texts, and what
the headers say of refused ones."""

import json
import os
import re
import shutil

from known import CANONICAL, REFUSED
from needs import leave_out, need, need_here, pass_over
from shared import LIMIT, ROOT, Answer, bytes_of, run, said, text_of, within, write

# A project that finds the library, in this version.
PROJECT = """cmake_minimum_required(VERSION 3.13)
project(reads CXX)
set(CMAKE_CXX_STANDARD 17)
find_package(dnorm {version} REQUIRED)
add_executable(shared library.cc)
target_link_libraries(shared dnorm::dnorm)
add_executable(static library.cc)
target_link_libraries(static dnorm::static)
"""
# Texts that are given to programs: canonical in both forms, and longer than what is copied at a time.
LARGE = b"p sp 9000 9000\n" + b"".join(b"a %d 1 -7\n" % it for it in range(1, 9001))
POINTS = b"p aux sp co 20000\n" + b"".join(b"v %d -%d 7\n" % (it, it) for it in range(1, 20001))
GIVEN = [(text, forms) for text, *forms in [*CANONICAL, (LARGE, LARGE, LARGE), (POINTS, POINTS, POINTS)]]
# The calls that each language makes, by their names.
CALLS: dict[str, dict[str, str | None]] = {
    str(it["name"]): it for it in json.loads(text_of(f"{ROOT}/suite/calls.json"))["cases"]
}
# A number in the help, with its name and its sentence, which may go on in the next line.
IN_HELP = re.compile(r"^ {2,3}(\d+) (\w+) {2,}(.+(?:\n {22}.+)*)$", re.M)


# The solvers in c/examples, with what compiles each.
SOLVERS = {
    "cost_scaling.c": ["cc", "-std=c99"],
    "dijkstra.c": ["cc", "-std=c99"],
    "least_cost.cc": ["c++", "-std=c++17"],
}


def solver(name: str, library: str, folder: str) -> str:
    """Returns a solver of c/examples, built with the archive below a prefix. One needs LEMON."""
    if name == "least_cost.cc" and not os.path.exists("/usr/include/lemon/network_simplex.h"):
        leave_out("LEMON")
    return with_archive(library, f"{folder}/{name}.out", *SOLVERS[name], f"{ROOT}/c/examples/{name}")


def by_rustc(library: str, folder: str, *programs: str) -> None:
    """Builds the crates for Rust and these programs in a folder, by rustc alone."""
    need_here("rustc", "rust/")
    rustc = ["rustc", "--edition=2021", "-O", "-Dwarnings", "-L", folder, "--out-dir", folder]
    native, crates = ["-L", f"native={library}/lib", "-l", "static=dnorm"], f"{ROOT}/rust"
    for words in [
        ["--crate-type=rlib", "--crate-name=dnorm_sys", *native, f"{crates}/dnorm-sys/src/lib.rs"],
        ["--crate-type=rlib", "--crate-name=dnorm", "--extern=dnorm_sys", f"{crates}/dnorm/src/lib.rs"],
        *(["--extern=dnorm", it] for it in programs),
    ]:
        assert run([*rustc, *words]) == said(), words


def with_little_memory(program: str) -> list[Answer | None]:
    """Runs a program, which reads the file that it is told, in 20 MB of memory, on a short text and on one that needs
    more."""
    count, answers = 300_000, []
    rows = (b"a %d 1 7\n" % (it * 7919 % count + 1) for it in range(count))
    for text in [b"p sp 1 0\n", b"".join([b"p sp %d %d\n" % (count, count), *rows])]:
        write("text", text)
        answers.append(within(20_000, [program, "text"]))
    return answers


def has_spread(library: str) -> bool:
    """Whether the library below a prefix has dnorm_spread, which that of 3.0.0 lacks."""
    return b"\0dnorm_spread\0" in bytes_of(f"{library}/lib/libdnorm.so.3")


def with_spread(library: str, folder: str) -> str:
    """Returns a prefix whose archive has dnorm_spread. A library without it is copied, with one that ends a program."""
    if has_spread(library):
        return library
    need("cc", "ar")
    shutil.copytree(library, f"{folder}/prefix")
    write(f"{folder}/spread.c", "void dnorm_spread(void);\nvoid dnorm_spread(void) { __builtin_trap(); }\n")
    assert run(["cc", "-c", "-o", f"{folder}/spread.o", f"{folder}/spread.c"]) == said()
    assert run(["ar", "r", f"{folder}/prefix/lib/libdnorm.a", f"{folder}/spread.o"]) == said()
    return f"{folder}/prefix"


def check_call(program: str, library: str, name: str, answer: str | None = None) -> None:
    """Checks that a program prints the answer of a call of suite/calls.json, or this other answer."""
    it = CALLS[name]
    if it["call"] == "spread" and not has_spread(library):
        pass_over("dnorm_spread")
    texts = ["-" if text is None else text for text in (it["text"], it.get("other", it["text"]))]
    words = [str(it["call"]), it.get("form") or "1", *texts, *(it.get("flow") or "").split()]
    wanted = answer if answer is not None else it.get("answer", f"code {it.get('code')}\n")
    assert run([program, *words]) == said(wanted or "")


def version_of(tested: str) -> str:
    return run([tested, "--version"]).out.decode().split()[1]


def sentences_of(tested: str) -> dict[int, str]:
    """Returns the name and the sentence of each refusal, by its number, as the help has them."""
    found = IN_HELP.findall(run([tested, "help"]).out.decode())
    return {int(number): f"{name}: {' '.join(said.split())}" for number, name, said in found}


def refusal_lines(tested: str) -> dict[bytes, str]:
    """Returns what the headers say of each refused text of known.py."""
    sentences, lines = sentences_of(tested), {}
    for text, err in REFUSED:
        _, place, said = err.decode().split(":")
        number = said.split()[0]
        lines[text] = f"{'end' if place == 'end' else f'line {place}'}: {number} {sentences[int(number)]}"
    return lines


def compiled(*words: str) -> None:
    """Compiles a program with the headers, without a warning."""
    need(words[0])
    warnings = ["-O1", "-g", "-Wall", "-Wextra", "-Wpedantic", "-Werror"]
    assert run([words[0], *warnings, *words[1:]], limit=5 * LIMIT) == said(), words


def with_archive(library: str, made: str, *words: str) -> str:
    """Compiles a program with the headers and the archive below a prefix, and returns its path."""
    compiled(*words, f"-I{library}/include", "-o", made, f"{library}/lib/libdnorm.a")
    return made


def by_cmake(folder: str, prefix: str) -> None:
    """CMake builds a program with each library below a prefix."""
    need_cmake()
    os.makedirs(folder, exist_ok=True)
    shutil.copy(f"{ROOT}/c/tests/library.cc", f"{folder}/library.cc")
    write(f"{folder}/CMakeLists.txt", PROJECT.format(version=""))
    build = f"{folder}/build"
    for words in [["-S", folder, "-B", build, f"-DCMAKE_PREFIX_PATH={prefix}"], ["--build", build]]:
        ran = run(["cmake", *words])
        assert ran.status == 0, ran.err.decode()
    text, *forms = CANONICAL[0]
    for name in ["shared", "static"]:
        assert run([f"{build}/{name}"], text) == said(b"".join(forms)), name
    shutil.rmtree(build)


def need_cmake() -> None:
    if not all(map(shutil.which, ["cmake", "make", "c++"])):
        leave_out("cmake, make or c++")
