"""The library as a WebAssembly module, by the script for Node: the conformance suite, the program's own tables and
random texts beside the program, every size of memory, what a text may come from, and the heap by itself."""

import itertools
import json
import os
import random
import re
import shutil
import subprocess
import sys
from collections.abc import Iterator
from typing import Any

import pytest
from builds import version_of
from known import ROADS, ROADS_CANON, Row, rows
from needs import cases, need, need_here, pass_over, seeds
from shared import ROOT, Quick, pipe, run, said, text_of, write
from texts import lines_of, made, spelled, spoilt

pytestmark = pytest.mark.slow
WEB, HERE = f"{ROOT}/web", f"{ROOT}/web/tests"
SCRIPT = f"{WEB}/cli.mjs"
# Where the module is, in the order of node.mjs.
MODULES = [f"{it}/dnorm.wasm.gz" for it in (WEB, f"{ROOT}/build", f"{ROOT}/released")]
KINDS = ["min", "max", "sp", "ss", "p2p", "co"]
# How many random texts a seed has.
RANDOM = 1000
# Mistakes in the heap: an old text, a new one.
HEAP_FAULTS = [
    ("if (all - bytes < LEAST) return;", "if (all - bytes < 16) return;"),
    ("rest->before = bytes;", ""),
    ("if (more == last) last = rest;", ""),
    ("b->bytes |= 1;", ""),
    ("if (b->next) b->next->back = b;", ""),
    ("else if (!(lists[i] = b->next)) filled &= ~(1ull << i);", "else lists[i] = b->next;"),
    ("(n + HEAD + 15) & ~(size)15", "(n + 15) & ~(size)15"),
    ("while (b && bytes_of(b) < bytes) b = b->next;", ""),
    ("set(b, b->bytes + more->bytes);", "set(b, more->bytes);"),
    ("kept < n ? kept : n", "n"),
    ("if (to > (size)MOST_PAGES * PAGE) return 0;", ""),
    ("n > (size)MOST_PAGES * PAGE ? 0 :", ""),
    ("if (at + bytes > (size)MOST_PAGES * PAGE || ", "if ("),
]


@pytest.fixture(scope="module", autouse=True, name="module")
def found_module() -> str:
    """The module that is tested."""
    need("node")
    found = [it for it in MODULES if os.path.exists(it)]
    if not found:
        pass_over("the module (make wasm makes it)")
    return found[0]


class Node:
    """The adapter, which answers calls in this folder."""

    def __init__(self) -> None:
        words = ["node", f"{HERE}/adapter.mjs"]
        self.process = subprocess.Popen(words, stdin=subprocess.PIPE, stdout=subprocess.PIPE)

    def ask(self, *words: str) -> str:
        told = pipe(self.process.stdin)
        told.write("\t".join(words).encode() + b"\n")
        told.flush()
        return pipe(self.process.stdout).readline().decode().removesuffix("\n")


@pytest.fixture(name="node")
def running_node(folder: str) -> Iterator[Node]:
    node = Node()
    yield node
    pipe(node.process.stdin).close()
    node.process.wait()


@pytest.mark.parametrize("pieces, every", [("", 4), ("1", 4), ("4096", 1)])
def test_suite(pieces: str, every: int) -> None:
    """All cases with the texts in pieces, and some with texts as Node gives them, and in single bytes."""
    words = [sys.executable, f"{ROOT}/suite/run.py", "--level=compare", "--limit=300", *cases(every, len(pieces) % 4)]
    found = run([*words, "--batch", "node", f"{HERE}/adapter.mjs"], env={**os.environ, "PIECES": pieces}, limit=None)
    assert re.fullmatch(rb"\d+ cases pass, 0 fail \(level compare\)\n", found.out) and found.status == 0, found


@pytest.mark.parametrize("row", [*rows()], ids=Row.name)
def test_as_program(folder: str, row: Row) -> None:
    """The command prints what the program prints."""
    for name, text in row.named.items():
        write(name, text)
    found = run(["node", SCRIPT, *row.words.split()], row.named.get("-", b""))
    assert found == said(row.out, row.err, row.status), row.named


def test_other_words(tested: str, folder: str) -> None:
    """Names behind --, help, the version, and an output that is full."""
    write("-g", ROADS)
    assert run(["node", SCRIPT, "canon", "--", "-g"]) == said(ROADS_CANON)
    assert run(["node", SCRIPT, "--version"]) == run([tested, "--version"])
    for words in ["help", "help canon", "help help", "-hx", "canon --help", "canon -hx", "check x -h", "compare -h x"]:
        found = run(["node", SCRIPT, *words.split()])
        assert (b"Usage: dnorm canon" in found.out, found.err, found.status) == (True, b"", 0), words
    if os.path.exists("/dev/full"):
        line = f"exec node {SCRIPT} canon -- -g > /dev/full"
        assert run(["bash", "-c", line]) == said(b"", "out: 33 Write\n", 4)


@pytest.mark.parametrize("seed", seeds(2, 0))
def test_random_texts(node: Node, often: Quick, seed: int) -> None:
    """What it says of texts, correct and faulty, is what the program says."""
    chance = random.Random(seed)
    for i in range(RANDOM):
        lines = lines_of(chance, made(chance, KINDS[i // 2 % 6], i % 4 == 0))
        write("other" if i % 2 else "text", spelled(chance, spoilt(chance, lines) if i % 3 == 0 else lines))
        if i == 0:
            write("other", ROADS)
        for words in ["check text", "canon --form 1 text", "canon --form 2 other", "show text", "compare text other"]:
            found, wanted = node.ask(*words.split()), often.run(*words.split())
            if found.startswith('"'):
                found = json.loads(found)
            out = wanted.out.decode("latin-1")
            is_check = words.startswith("check") and wanted.status == 0
            line = out.partition("\n")[0] if is_check or words.startswith("compare") else out
            assert found == (wanted.err.decode().strip() or line), f"{words} of seed {seed}, text {i}"


def test_memory(module: str) -> None:
    """A memory that ends at each of many sizes gives right answers, or says so."""
    found = run(["node", f"{HERE}/memory.mjs", module], limit=None)
    counts: dict[str, int] = json.loads(found.out)
    assert (counts.pop("other"), found.err, found.status) == (0, b"", 0), found
    assert all(counts.values()), f"modules and answers of each sort: {counts}"


def test_library() -> None:
    """What a text may come from, readers in turns, instances that are freed or of two modules, and types of results."""
    assert run(["node", f"{HERE}/library.mjs"]) == said("done\n")


def heap(folder: str, name: str, text: str) -> list[Any]:
    """Returns the statuses of the test of a heap for some seeds."""
    need("gcc")
    os.makedirs(f"{folder}/{name}/web/tests")
    write(f"{folder}/{name}/web/heap.c", text)
    shutil.copy(f"{HERE}/heap.c", f"{folder}/{name}/web/tests")
    place = f"{folder}/{name}/web/tests/heap"
    checks = ["-g", "-O1", "-fno-strict-aliasing", "-fsanitize=address,undefined", "-fno-sanitize-recover=all"]
    assert run(["gcc", *checks, "-o", place, f"{place}.c"]).status == 0, name
    return [run([place, str(seed)]).status for seed in range(1, 4)]


def test_heap(folder: str) -> None:
    """The heap at random, also where its memory ends, under the sanitizers; and it finds mistakes in it."""
    text = text_of(f"{WEB}/heap.c")
    assert heap(folder, "right", text) == [0, 0, 0]
    for i, (old, new) in enumerate(HEAP_FAULTS):
        assert old in text, old
        found = heap(folder, f"wrong-{i}", text.replace(old, new, 1))
        assert any(found), f"{old} made {new}"


# What the package for npm has of the repository besides this folder.
NOTICES = ["hints.json", "dnorm.wasm.gz", "LICENSE-MIT", "LICENSE-APACHE", "THIRD-PARTY"]
# What an app does that has loaded the library.
APP = "process.stdout.write(`${typeof load} ${process.argv.length}\\n`);\n"


def test_package(tested: str) -> None:
    """The package for npm has the program's version, and types of all that the script exports."""
    package = json.loads(text_of(f"{WEB}/package.json"))
    assert package["version"] == version_of(tested)
    exported = re.findall(r"^export (?:async )?(?:const|class|function\*?) (\w+)", text_of(f"{WEB}/dnorm.mjs"), re.M)
    typed = re.findall(r"^export (?:const|class|function) (\w+)", text_of(f"{WEB}/dnorm.d.ts"), re.M)
    assert sorted(exported) == sorted(typed)
    missing = itertools.filterfalse(lambda it: os.path.exists(f"{WEB}/{it}"), package["files"])
    assert {*missing} <= {*NOTICES} <= {*package["files"]}


def pack(folder: str) -> tuple[bytes, int]:
    """Packs the package of the folder web there, and returns what npm says, and its status."""
    quiet = ["--silent", "--offline", "--no-update-notifier", f"--cache={folder}/cache"]
    found = run(["npm", "pack", *quiet, "--pack-destination", folder], limit=None, cwd=f"{folder}/web")
    return found.out, found.status


def packed(folder: str) -> str:
    """Packs the package of a copy of what it is made of, and returns the folder of an app that has it."""
    need("npm")
    need_here("released/")
    for it in ["web", "released", "LICENSE-MIT", "LICENSE-APACHE", "THIRD-PARTY"]:
        assert run(["cp", "-R", f"{ROOT}/{it}", folder]) == said()
    os.makedirs(f"{folder}/python/src/dnorm")
    shutil.copy(f"{ROOT}/python/src/dnorm/hints.json", f"{folder}/python/src/dnorm")
    assert pack(folder) == (b"dnorm-3.1.0.tgz\n", 0)
    os.makedirs(f"{folder}/app/node_modules")
    assert run(["tar", "-C", f"{folder}/app/node_modules", "-xf", f"{folder}/dnorm-3.1.0.tgz"]) == said()
    os.rename(f"{folder}/app/node_modules/package", f"{folder}/app/node_modules/dnorm")
    return f"{folder}/app"


def test_npm_pack(folder: str) -> None:
    """The package is whole, or there is none. An app that has it by its name runs no command of it, and its command is
    that of the clone; so is dnorm.mjs, also by a link."""
    app = packed(folder)
    within = f"{app}/node_modules/dnorm"
    wanted = {*json.loads(text_of(f"{WEB}/package.json"))["files"], "package.json", "README.md"}
    assert {*os.listdir(within)} == wanted
    assert sorted(os.listdir(f"{folder}/web")) == sorted(os.listdir(WEB))
    shutil.copy(f"{HERE}/package.mjs", app)
    write("roads.gr", ROADS)
    assert run(["node", f"{app}/package.mjs", "roads.gr"]) == said("done\n")
    os.symlink(f"{within}/dnorm.mjs", "linked")
    for it in [f"{within}/cli.mjs", f"{within}/dnorm.mjs", "linked"]:
        assert run(["node", it, "canon", "roads.gr"]) == said(ROADS_CANON), it
        assert run(["node", it], ROADS) == said(ROADS_CANON), it
        assert run(["node", it, "canon"]) == said(b"", "dnorm: bad command line\n", 3), it
    # A bundle has the text of the modules, and its own place and arguments.
    text = text_of(f"{within}/dnorm.mjs")
    for name in ["bundle.mjs", "dnorm.mjs"]:
        write(f"{folder}/{name}", f"{text}{APP}")
        assert run(["node", name, "canon", "none"]) == said("function 4\n"), name
    write(f"{app}/app.mjs", f"import {{ load }} from 'dnorm';\n{APP}")
    assert run(["node", f"{app}/app.mjs", "canon"]) == said("function 3\n")
    os.remove(f"{folder}/released/dnorm.wasm.gz")
    os.remove(f"{folder}/dnorm-3.1.0.tgz")
    assert pack(folder)[1] and not os.path.exists(f"{folder}/dnorm-3.1.0.tgz")
