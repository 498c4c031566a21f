"""The examples in README.md and in the pages of docs/ for users: each block of commands that a block of output follows.
Both streams together must be this output. The blocks of a section run in one shell, in a fresh folder that has
examples/, web/, ./dnorm, ./dnorm-files and bin/dnorm-explain, with what `bin/install` installs on its path;
the shell is bash only if a block asks for it. Then the blocks of all sections of a page run in
one bash. A block that begins with a comment with the name of a file is written to that file first.

The recipes for a file have the status that the manual says for one that is refused or unreadable. Each text in
examples/refused/ is refused as its name says, and the section of this refusal in docs/REFUSALS.md runs it.

docs/FORMAT.md names the cases of each rule of the conformance suite, which is installed as it is here."""

import functools
import os
import re
import shutil
import stat
import subprocess
import sys
from collections.abc import Iterator
from dataclasses import dataclass
from typing import Any

import pytest
from needs import leave_out, need_proc, pass_over
from refusal_table import refusals, with_example
from shared import LIMIT, OF_GIT, PREFIX, ROOT, Answer, bytes_of, links_listed, listed, make, python_with, run, said
from shared import source_of, text_of, write
from suite import FOLDER, rules

from pages import anchors, anchors_in  # noqa: E402

README, REFUSALS, FORMAT = "README.md", "docs/REFUSALS.md", "docs/FORMAT.md"
PAGES = [README, "docs/MANUAL.md", "docs/FILES.md", "docs/LIBRARY.md", REFUSALS]
FENCED = re.compile(r"^```(\w*)\n((?:(?!```).*\n)*)```$", re.M)
FILE = re.compile(r"(?:#!.*\n)?(?:#|//) ([\w-]+\.\w+)\n")
# The tools that a plain system may lack, by the words that call them.
NEEDS = {it: it for it in ["git", "pv", "c++", "cc", "rustc", "node"]}
NEEDS |= {f"~/.local/lib/libdnorm.{it}": "libdnorm" for it in ["a", "so.3"]}
NEEDS |= {"static=dnorm": "libdnorm", "~/.local/share/doc/dnorm/c/examples/least_cost.cc": "LEMON"}
# The modules of Python that a plain system may lack, by their words.
MODULES = ["networkx", "scipy", "numpy"]
NEEDS |= {it: it for it in MODULES}
# What follows "Cases:" in FORMAT.md: names, or a range of names.
NAMED = re.compile(r"\*[Cc]ases\b[^`]*((?:`[\w-]+`(?: to |, and |, )?)+)")
RANGE = re.compile(r"`refusal-(\d+)` to `refusal-(\d+)`")
# Recipes for a file: their page and section, the beginning of the commands, the file, and the status for a file that is
# refused and for one that is unreadable.
RECIPES = [
    (README, "Try it", "./dnorm canon examples/roads.gr |", "examples/roads.gr", 2, 4),
    ("docs/MANUAL.md", "canon", "dnorm canon examples/flow.min > ", "examples/flow.min", 2, 4),
    ("docs/MANUAL.md", "Canonical checksums", "dnorm canon", "examples/roads.gr", 2, 4),
    ("docs/MANUAL.md", "Compressed files", "gzip -dc roads.gr.gz", "roads.gr.gz", 2, 2),
    ("docs/MANUAL.md", "In place", "dnorm canon town.gr > town.gr.new", "town.gr", 2, 4),
    ("docs/MANUAL.md", "Progress", "pv", "examples/roads.gr", 2, 2),
    ("docs/FILES.md", "Larger than memory", "canon-in-parts", "examples/roads.gr", 2, 4),
]
TEXTS = sorted(os.listdir(f"{ROOT}/examples/refused"))


@dataclass
class Block:
    """Commands with their output, or a file of the page, which has a name."""

    language: str
    text: str
    output: str = ""
    name: str = ""


def sections_of(page: str) -> list[tuple[str, str]]:
    """Returns the sections of a page, by its headings of the second and third level, after what precedes them."""
    parts = re.split(r"^###? ", page, flags=re.M)
    return [(head, text) for head, _, text in (it.partition("\n") for it in parts)]


def blocks_of(section: str) -> Iterator[Block]:
    """Yields the files of a section, and its commands that a block of output follows."""
    found = [*FENCED.finditer(section)]
    for it, following in zip(found, [*found[1:], None]):
        named = FILE.match(it[2])
        if named and it[1] != "sh":
            yield Block(it[1], it[2], name=named[1])
        elif it[1] in ("sh", "bash") and following and not following[1] and following.start() == it.end() + 2:
            yield Block(it[1], it[2], following[2])


@functools.cache
def sections_of_page(name: str) -> dict[str, list[Block]]:
    """Returns the sections of a page that have examples, with their files and commands."""
    found = {head: [*blocks_of(text)] for head, text in sections_of(text_of(f"{ROOT}/{name}"))}
    return {head: blocks for head, blocks in found.items() if any(not it.name for it in blocks)}


def is_there(tool: str) -> bool:
    """Whether this tool exists."""
    if tool in MODULES:
        return bool(python_with(*MODULES))
    if tool == "libdnorm":
        return os.path.exists(f"{PREFIX}/lib/libdnorm.a")
    if tool == "LEMON":
        return os.path.exists("/usr/include/lemon/network_simplex.h")
    return bool(shutil.which(tool))


def leave_out_lacking(lacking: list[str]) -> None:
    """Leaves the test out if tools are lacking. tools/setup does not install Rust."""
    if lacking == ["rustc"]:
        pass_over("rustc")
    if lacking:
        leave_out(", ".join(lacking))


class Examples:
    """The examples of a page, by sections, and the folder in which they run."""

    def __init__(self, name: str, tested: str, made: str, folder: str) -> None:
        self.name, self.folder = name, folder
        self.sections = sections_of_page(name)
        own = {**OF_GIT, "LC_ALL": "C", "HOME": f"{folder}/home"}
        # The user's folder must not hide the python3 that runs this test.
        path = [f"{folder}/home/.local/bin", os.path.dirname(sys.executable), os.environ["PATH"]]
        self.environment = {**os.environ, **own, "PATH": ":".join(path)}
        # rustup looks for Rust in the user's folder.
        self.environment.setdefault("RUSTUP_HOME", os.path.expanduser("~/.rustup"))
        # The package for Python, and a Python that has what its examples need.
        self.environment |= {"PYTHONPATH": f"{ROOT}/python/src", "PYTHONDONTWRITEBYTECODE": "1"}
        os.makedirs(path[0])
        os.symlink(python_with(*MODULES) or sys.executable, f"{path[0]}/python3")
        self.install(tested, made)

    def install(self, tested: str, made: str) -> None:
        """Installs below ~/.local by `bin/install`, and makes the folder that fresh folders are copies of."""
        for mode, place, to in listed():
            source = source_of(place, tested, made)
            if os.path.exists(source) or is_there("libdnorm"):
                make({f"{self.folder}/home/.local/{to}": bytes_of(source)}, mode)
        for to, target in links_listed().items() if is_there("libdnorm") else ():
            os.symlink(target, f"{self.folder}/home/.local/{to}")
        os.mkdir(f"{self.folder}/fresh")
        os.symlink(tested, f"{self.folder}/fresh/dnorm")
        for it in ["bin", "dnorm-files", "web"]:
            os.symlink(f"{ROOT}/{it}", f"{self.folder}/fresh/{it}")
        shutil.copytree(f"{ROOT}/examples", f"{self.folder}/fresh/examples")

    def lacking(self, blocks: list[Block]) -> list[str]:
        """Returns the missing tools that these blocks need."""
        text = "\n".join(it.text for it in blocks)
        words = [it for it in NEEDS if re.search(rf"(?<![\w./-]){re.escape(it)}(?![\w./-])", text)]
        return sorted({NEEDS[it] for it in words if not is_there(NEEDS[it])})

    def by_shell(self, shell: str, commands: str, **more: Any) -> Answer:
        """Returns what commands print, both streams together."""
        more = {"stdin": subprocess.DEVNULL, "stdout": subprocess.PIPE, "stderr": subprocess.STDOUT, **more}
        ran = subprocess.run([shell, "-c", commands], env=self.environment, timeout=5 * LIMIT, check=False, **more)
        return Answer(ran.stdout, b"", ran.returncode)

    def try_all(self, shell: str, blocks: list[Block]) -> None:
        """Tests the output of each of these blocks, which run in one shell in a fresh folder."""
        place, outputs = f"{self.folder}/work", f"{self.folder}/outputs"
        shutil.copytree(f"{self.folder}/fresh", place, symlinks=True)
        os.mkdir(outputs)
        for it in blocks:
            if it.name:
                write(f"{place}/{it.name}", it.text)
        commands = [it for it in blocks if not it.name]
        lines = [f"exec > {outputs}/{i} 2>&1\n{it.text}" for i, it in enumerate(commands)]
        # A shell that ends early leaves no files for the commands behind.
        for i in range(len(commands)):
            write(f"{outputs}/{i}", "")
        self.by_shell(shell, "".join(lines), cwd=place)
        found = [text_of(f"{outputs}/{i}", "replace") for i in range(len(commands))]
        shutil.rmtree(place)
        shutil.rmtree(outputs)
        for printed, it in zip(found, commands):
            assert printed == it.output, it.text


@pytest.fixture(scope="module")
def examples(
    request: pytest.FixtureRequest, tested: str, made: str, tmp_path_factory: pytest.TempPathFactory
) -> Examples:
    """The examples of a page, which is the parameter."""
    need_proc()
    return Examples(request.param, tested, made, str(tmp_path_factory.mktemp("examples")))


def test_pages() -> None:
    assert [it for it in PAGES if not sections_of_page(it)] == []


@pytest.mark.parametrize(
    "examples, head", [(page, head) for page in PAGES for head in sections_of_page(page)], indirect=["examples"]
)
def test_section(examples: Examples, head: str) -> None:
    blocks = examples.sections[head]
    leave_out_lacking(examples.lacking(blocks))
    is_bash = any(it.language == "bash" for it in blocks if not it.name)
    examples.try_all("bash" if is_bash else "sh", blocks)


@pytest.mark.slow
@pytest.mark.parametrize("examples", PAGES, indirect=True)
def test_sections_together(examples: Examples) -> None:
    examples.try_all("bash", [it for own in examples.sections.values() if not examples.lacking(own) for it in own])


@pytest.mark.parametrize(
    "examples, head, begin, name, refused, unreadable", RECIPES, indirect=["examples"], ids=[it[2] for it in RECIPES]
)
def test_recipe(
    examples: Examples, folder: str, head: str, begin: str, name: str, refused: int, unreadable: int
) -> None:
    """The recipes for a file end with the status of the program, and leave the file as it is."""
    blocks = examples.sections[head]
    leave_out_lacking(examples.lacking(blocks))
    text = "".join(it.text for it in blocks if not it.name)
    found = re.search(rf"^{re.escape(begin)}.*(?:(?<=&&)\n.*)*", text, re.M)
    commands = ("set -o pipefail\n" if "pipefail" in text else "") + (found[0] if found else "")
    for given, status in [(b"x\n", refused), (None, unreadable)]:
        place = f"{folder}/{status if given else 'none'}"
        os.mkdir(place)
        for it in blocks:
            if it.name:
                write(f"{place}/{it.name}", it.text)
        os.symlink(f"{examples.folder}/fresh/dnorm", f"{place}/dnorm")
        if given:
            write(f"{place}/given", given)
        ran = examples.by_shell("bash", commands.replace(name, "given"), cwd=place)
        left = [it for it in os.listdir(place) if it.startswith("given") and os.path.getsize(f"{place}/{it}")]
        assert (ran.status, left) == (status, ["given"] if given else []), f"{given!r}: {ran.out!r}"


def test_bad_links(folder: str) -> None:
    """tools/pages.py names the links that lead nowhere."""
    make({"a.md": "# A head\n[b](b.md) [up](#a-head) [c](c.md#a-head) [d](https://d.example)\n", "c.md": "# C\n"})
    told = "a.md: links to b.md, and there is no b.md\na.md: links to c.md#a-head, and c.md has no such heading\n"
    assert run([sys.executable, f"{ROOT}/tools/pages.py", folder]) == said(told)


@pytest.mark.slow
def test_installed_readme(tested: str, folder: str) -> None:
    """README.md as bin/install installs it: its commands run where it lies, by what is installed, and its links lead to
    what is there."""
    prefix = f"{folder}/a prefix"
    found = run([f"{ROOT}/bin/install", prefix], limit=5 * LIMIT)
    if found.status == 125:
        leave_out("the kit")
    assert (found.err, found.status) == (b"", 0), "bin/install"
    shutil.copy(tested, f"{prefix}/bin/dnorm")
    pages = f"{prefix}/share/doc/dnorm"
    assert run([sys.executable, f"{ROOT}/tools/pages.py", pages]) == said(), "links"
    own = {it: value for it, value in os.environ.items() if it not in ("DNORM", "PYTHONPATH")}
    own["PATH"] = f"{prefix}/bin:{own['PATH']}"
    here = " 274 lines of plain Rust (`bench/baselines/btree.rs`)."
    assert here in text_of(f"{pages}/{README}"), "a link to what is not installed"
    blocks = [*blocks_of(text_of(f"{pages}/{README}"))]
    assert len(blocks) == len([*blocks_of(text_of(f"{ROOT}/{README}"))]) > 5
    for it in blocks:
        ran = run(["bash", "-c", f"exec 2>&1\n{it.text}"], cwd=pages, env=own, limit=5 * LIMIT)
        assert ran.out.decode() == it.output, it.text


def test_refusal_sections() -> None:
    numbers = [int(it.split()[0]) for it, _ in sections_of(text_of(f"{ROOT}/{REFUSALS}")) if it[0].isdigit()]
    assert numbers == [it.number for it in refusals()]
    assert [int(it.split("-")[0]) for it in TEXTS] == [it.number for it in with_example()]


@pytest.mark.parametrize("path", TEXTS)
def test_refused_text(tested: str, path: str) -> None:
    """A text has the refusal of its name, a comment that names the line, and the section of this refusal runs it."""
    number, word = re.split(r"[-.]", path)[:2]
    found = run([tested, "check", path], cwd=f"{ROOT}/examples/refused")
    place = found.err.decode().split(":")[1]
    assert found == said(b"", f"{path}:{place}: {int(number)} {word}\n", 2)
    comment = text_of(f"{ROOT}/examples/refused/{path}").partition("\n")[0]
    assert comment.startswith("c ") and (place == "end" or f"Line {place} " in comment)
    section = dict(sections_of(text_of(f"{ROOT}/{REFUSALS}")))[f"{int(number)} {word}"]
    assert f"\ndnorm-explain check examples/refused/{path}\n" in section
    assert f"examples/refused/{path}" in [it for _, it, _ in listed()], "it is installed"


def test_rules_named() -> None:
    """Docs/FORMAT.md names the cases of each rule below the heading of the rule."""
    anchor_of = {it["rule"]: it["section"].partition("#")[2] for it in rules()}
    assert sorted({*anchor_of.values()} - anchors(FORMAT, ROOT)) == [], "headings of rules"
    parts = re.split(r"^## ", text_of(f"{ROOT}/{FORMAT}"), flags=re.M)[1:]
    for heading, _, section in (it.partition("\n") for it in parts):
        # Headings of the third level have rules of their own.
        for own, _, text in [(heading, "", ""), *(it.partition("\n") for it in section.split("### ")[1:])]:
            told = text if text else section.split("### ")[0]
            found = {name for it in NAMED.findall(told) for name in re.findall(r"`([\w-]+)`", it)}
            for low, high in RANGE.findall(told):
                found |= {f"refusal-{it}" for it in range(int(low), int(high) + 1)}
            wanted = {name for name, at in anchor_of.items() if {at} == anchors_in(f"# {own}\n")}
            assert sorted(found) == sorted(wanted), f"cases in {FORMAT}, {own}"


def test_suite_installed() -> None:
    """The conformance suite is installed as it is here."""
    tests = f"{FOLDER}/tests"
    below = [f"{at}/{it}" for at, _, names in os.walk(FOLDER) for it in names if not at.startswith(tests)]
    own = {os.path.relpath(it, FOLDER): stat.S_IMODE(os.stat(it).st_mode) & 0o111 > 0 for it in below}
    top = "suite/"
    known = {it.removeprefix(top): mode == 0o755 for mode, it, to in listed() if it.startswith(top)}
    assert known == own, "what is installed of suite"
