"""The crates for Rust over the library for C, whose functions they declare as dnorm.h does. These and all other Rust of
the repository need no later Rust than that of Debian 12."""

import glob
import os
import re
import shutil
from random import Random

import pytest
from builds import (
    CALLS,
    GIVEN,
    by_rustc,
    check_call,
    refusal_lines,
    sentences_of,
    version_of,
    with_little_memory,
    with_spread,
)
from known import CANONICAL, FLOWS
from needs import need, need_here
from shared import ROOT, run, said, text_of, write
from texts import lines_of, made, spelled

pytestmark = pytest.mark.slow
CRATES = f"{ROOT}/rust"
# What the crate dnorm-sys declares, and what dnorm.h does that the crate must have, too.
RUST_CONSTANT = re.compile(r"^pub const (DNORM_\w+): \w+ = (\d+);$", re.M)
RUST_FUNCTION = re.compile(r"^    pub fn (dnorm_\w+)\((.*?)\)\s*(?:-> (\w+))?;$", re.M | re.S)
RUST_STRUCT = re.compile(r"^pub struct (\w+) \{\n(.*?)^\}$", re.M | re.S)
IN_HEADER = [r"\b(DNORM_[A-Z0-9_]+) = \d+", r"^\w+ (dnorm_\w+)\(.*?\);$", r"^typedef struct \w+ \{\n.*?^\} (\w+);$"]
# How C names the types of Rust.
TYPES = {"u8": "uint8_t", "u32": "uint32_t", "u64": "uint64_t", "i64": "int64_t", "usize": "size_t", "c_void": "void"}
# A scope of Rust may end before the last of its threads does, whose stack memcheck then reports as possibly lost.
MEMCHECK = ["valgrind", "-q", "--error-exitcode=9", "--leak-check=full", "--errors-for-leak-kinds=definite"]
MEMCHECK += ["--show-leak-kinds=definite"]

# What tells cargo where the library is, below the prefix; whether the archive is linked; and the members of a workspace
# that has the crates below its root. Without members, the program is a workspace beside the crates.
WORKSPACES = [
    ("DNORM_LIB=/lib", "0", []),
    ("PKG_CONFIG_PATH=/lib/pkgconfig", "1", []),
    ("PKG_CONFIG_PATH=/lib/pkgconfig", "0", ["reads"]),
    ("DNORM_LIB=/lib", "1", ["dnorm-sys", "dnorm", "reads"]),
]

# What compiles for Rust 1.63: Debian's rustc, or clippy, which names what the standard library has had only since then.
OLDEST: dict[str, list[str]] = {"/usr/bin/rustc": [], "clippy-driver": ["-Aclippy::all", "-Dclippy::incompatible_msrv"]}
# Sources in Rust, the crates first, with the crates that they use.
LIBRARIES: dict[str, list[str]] = {f"{CRATES}/dnorm-sys/src/lib.rs": [], f"{CRATES}/dnorm/src/lib.rs": ["dnorm_sys"]}
USES, MAKES = f"{CRATES}/tests/library.rs", f"{CRATES}/tests/calls.rs"
PROGRAMS: dict[str, list[str]] = {it: [] for it in sorted(glob.glob(f"{ROOT}/bench/**/*.rs", recursive=True))}
PROGRAMS |= {it: ["dnorm"] for it in [USES, MAKES, *sorted(glob.glob(f"{ROOT}/c/examples/*.rs"))]}
PROGRAMS[f"{CRATES}/dnorm-sys/build.rs"] = []
# Calls of suite/calls.json that Rust has: each instance is one, a form is 1 or 2, and a flow is for the own lines.
OF_RUST = [
    name
    for name, it in CALLS.items()
    if it["text"] and it.get("other", "") is not None and it.get("form", "1") in ("1", "2")
    if it["call"] != "spread" or "other" not in it
]
# What Rust answers for a companion, which has no arcs: NotAFlow is its only error for a flow.
NO_ARCS = {"arc-count-ss": "0\n", "next-p2p": "", "spread-ss": "code 42\n"}


def in_c(kind: str) -> str:
    """Returns the type of C for one of Rust."""
    if kind.startswith("*"):
        how, _, to = kind.removeprefix("*").partition(" ")
        return f"{TYPES.get(to, to)} {'const ' if how == 'const' else ''}*"
    return TYPES.get(kind, kind)


def test_crate_declares(c_library: str, folder: str) -> None:
    """The crate dnorm-sys declares what dnorm.h does before its inline functions: in C, its declarations are none of
    others."""
    header, _, _ = text_of(f"{c_library}/include/dnorm.h").partition("\n}\n#endif\n")
    crate = text_of(f"{CRATES}/dnorm-sys/src/lib.rs")
    constants, functions, structs = (it.findall(crate) for it in (RUST_CONSTANT, RUST_FUNCTION, RUST_STRUCT))
    lines = ["#include <dnorm.h>", "#include <stddef.h>"]
    lines += [f'_Static_assert({name} == {value}, "{name}");' for name, value in constants]
    for name, text in structs:
        members = re.findall(r"pub (\w+): (.+),", text)
        lines.append(f"struct rust_{name} {{ {' '.join(f'{in_c(kind)} {it};' for it, kind in members)} }};")
        lines.append(f'_Static_assert(sizeof(struct rust_{name}) == sizeof({name}), "{name}");')
        for it, kind in members:
            same = f"offsetof(struct rust_{name}, {it}) == offsetof({name}, {it})"
            lines.append(f'_Static_assert({same} && _Generic((({name} *)0)->{it}, {in_c(kind)}: 1), "{name}");')
    for name, words, result in functions:
        arguments = ", ".join(in_c(it) for it in re.findall(r"\w+: ([^,]+)", words)) or "void"
        lines.append(f"{in_c(result) or 'void'} ({name})({arguments});")
    write("crate.c", "\n".join([*lines, ""]))
    assert run(["cc", "-std=c11", "-fsyntax-only", f"-I{c_library}/include", "crate.c"]) == said()
    declared = [{it[0] for it in found} - {"DNORM_ABI"} for found in (constants, functions, structs)]
    assert declared == [{*re.findall(it, header, re.M | re.S)} for it in IN_HEADER], "what dnorm-sys has"


@pytest.mark.parametrize("name", ["dnorm", "dnorm-sys"])
def test_version_of_crate(tested: str, name: str) -> None:
    assert re.findall(r'^version = "(.*)"', text_of(f"{CRATES}/{name}/Cargo.toml"), re.M) == [version_of(tested)]


@pytest.fixture(scope="module")
def uses(c_library: str, tmp_path_factory: pytest.TempPathFactory) -> str:
    """A program of library.rs and the crates, built by rustc alone."""
    folder = str(tmp_path_factory.mktemp("rust"))
    by_rustc(c_library, folder, USES)
    return f"{folder}/library"


@pytest.fixture(scope="module")
def makes(c_library: str, tmp_path_factory: pytest.TempPathFactory) -> str:
    """A program that makes a call of suite/calls.json."""
    folder = str(tmp_path_factory.mktemp("calls"))
    by_rustc(with_spread(c_library, folder), folder, MAKES)
    return f"{folder}/calls"


@pytest.mark.parametrize("name", OF_RUST)
def test_calls_in_rust(makes: str, c_library: str, name: str) -> None:
    check_call(makes, c_library, name, NO_ARCS.get(name))


@pytest.mark.parametrize("compiler", OLDEST)
def test_oldest_rust(folder: str, compiler: str) -> None:
    need_here(compiler)
    write("clippy.toml", 'msrv = "1.63"\n')
    environment = {**os.environ, "CLIPPY_CONF_DIR": folder}
    common = [compiler, "--edition=2021", "--emit=metadata", "-Dwarnings", *OLDEST[compiler], "-L."]
    for path, used in [*LIBRARIES.items(), *PROGRAMS.items()]:
        name = os.path.relpath(path, CRATES).partition("/")[0].replace("-", "_")
        words = ["--crate-type=rlib", f"--crate-name={name}"] if path in LIBRARIES else []
        words += [f"--extern={it}=lib{it}.rmeta" for it in used]
        assert run([*common, *words, path], env=environment) == said(), path


def test_memory_in_rust(uses: str, tested: str, folder: str) -> None:
    refused = said(b"", f"text: 30 {sentences_of(tested)[30]}\n", 2)
    assert with_little_memory(uses) == [said("p sp 1 0\n"), refused]


@pytest.mark.parametrize("text, forms", GIVEN, ids=[f"{it[0]!r:.60}" for it in GIVEN])
def test_rust(uses: str, folder: str, text: bytes, forms: list[bytes]) -> None:
    assert run([uses], text) == said(b"".join(forms))
    write("text", text)
    assert run([uses, "text"]) == said(forms[0]), "by a file"


def test_flows_in_rust(uses: str) -> None:
    """On random texts, library.rs finds what it checks of arcs, stars, and flows on arc lines."""
    chance = Random(1)
    for i in range(300):
        text = spelled(chance, lines_of(chance, made(chance, ["min", "max", "sp"][i % 3], i % 2 == 0)))
        assert run([uses], text).status in (0, 2), text


def test_refusals_in_rust(uses: str, tested: str) -> None:
    for text, line in refusal_lines(tested).items():
        assert run([uses], text) == said(b"", f"{line}\n", 2), text
    for name, cause in [("/none", "No such file or directory (os error 2)"), ("/", "Is a directory (os error 21)")]:
        assert run([uses, name]) == said(b"", f"{name}: {cause}\n", 4)


@pytest.mark.parametrize("text", [FLOWS, b"p sp 1 1\nq\n"], ids=["accepted", "refused"])
def test_memcheck_of_rust(uses: str, text: bytes) -> None:
    need("valgrind")
    assert run([*MEMCHECK, uses], text) == run([uses], text)


@pytest.mark.parametrize("place, is_static, members", WORKSPACES)
def test_cargo(c_library: str, folder: str, place: str, is_static: str, members: list[str]) -> None:
    """cargo builds a program that depends on the crate `dnorm`, from both libraries. Its workspace may have the crates
    as members, or merely below its root."""
    need_here("cargo")
    for name in ["dnorm", "dnorm-sys"]:
        shutil.copytree(f"{CRATES}/{name}", name)
    os.makedirs("reads/src")
    shutil.copy(USES, "reads/src/main.rs")
    manifest = '[package]\nname = "reads"\nversion = "0.1.0"\nedition = "2021"\n'
    write("reads/Cargo.toml", f'{manifest}\n[dependencies]\ndnorm = {{ path = "../dnorm" }}\n')
    with open("Cargo.toml" if members else "reads/Cargo.toml", "a", encoding="utf-8") as root:
        root.write(f"[workspace]\nmembers = {members}\n")
    need("pkg-config", "readelf")
    name, _, below = place.partition("=")
    own = {name: f"{c_library}{below}", "DNORM_STATIC": is_static, "LD_LIBRARY_PATH": f"{c_library}/lib"}
    environment = {**os.environ, **own, "CARGO_TARGET_DIR": f"{folder}/target"}
    for it in [*members, "reads"]:
        assert run(["cargo", "build", "--quiet", "--offline"], cwd=it, env=environment) == said(), it
    text, *forms = CANONICAL[0]
    assert run(["target/debug/reads"], text, env=environment) == said(b"".join(forms))
    assert (b"libdnorm.so" in run(["readelf", "-d", "target/debug/reads"]).out) == (is_static == "0")


def test_cargo_compiles(folder: str) -> None:
    """Without a library, the crate compiles the C file; what is wrong is said in a sentence."""
    need("cc", "ar")
    need_here("cargo", "released/c")
    shutil.copytree(CRATES, "rust")
    os.makedirs("released/c")
    for it in ["libdnorm.c", "dnorm.h"]:
        shutil.copy(f"{ROOT}/released/c/{it}", "released/c")
    own = {"CARGO_TARGET_DIR": f"{folder}/target", "PKG_CONFIG_LIBDIR": folder, "PKG_CONFIG_PATH": ""}
    kept = {it: value for it, value in os.environ.items() if it not in ("DNORM_LIB", "CC", "AR")} | own
    words = ["cargo", "build", "--quiet", "--offline"]
    for more, line in [
        ({"DNORM_LIB": "/none"}, "dnorm-sys: /none has no libdnorm: DNORM_LIB names the folder with it"),
        (
            {"CC": "false"},
            "dnorm-sys: false could not compile libdnorm.c: set CC and AR, or DNORM_LIB to the library's",
        ),
    ]:
        found = run(words, cwd="rust/dnorm-sys", env=kept | more, limit=None)
        assert found.status and line in found.err.decode(), found
    assert run(words, cwd="rust/dnorm-sys", env=kept, limit=None) == said()
    os.remove("released/c/libdnorm.c")
    found = run(words, cwd="rust/dnorm-sys", env=kept, limit=None)
    assert "dnorm-sys: there is no libdnorm: set DNORM_LIB to its folder, or PKG_CONFIG_PATH" in found.err.decode()
