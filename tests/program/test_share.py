"""The help, and the manual pages that tools/generate makes of it. No line of the program's help is wider than 80
columns, and the examples in it print what it says. The pages have every line of it, every option and the version, and
groff shows them without a warning. The help and the sources have the same refusals."""

import re
import shutil
import sys
from collections.abc import Callable

import pytest
from builds import sentences_of
from needs import need
from refusal_table import faults, refusals
from shared import ROOT, Answer, run, said, text_of, write

from dnorm.commands.line import TASKS

FILES, PARTS = f"{ROOT}/bin/dnorm-files", f"{ROOT}/bin/canon-in-parts"
PAGES = [f"man1/{it}.1" for it in ["dnorm", "dnorm-files", "dnorm-explain", "canon-in-parts"]]
PAGES += [f"man3/{it}.3" for it in ["dnorm.h", "dnorm_tools.h"]]
WIDTH = 80
COMMAND = re.compile(r"^  (\w+)  ", re.M)
OPTION = re.compile(r"^  +(?:-\w(?: \w+)?, +)?(--[\w-]+)", re.M)
# An example in the help.
EXAMPLE = re.compile(r"^  \$ dnorm (.+)\n((?:  .+\n)+)", re.M)
# What a page has in place of a sign.
SIGNS = {"\\-": "-", "\\(ha": "^", "\\(aq": "'", "\\e": "\\", "\\&": "", "\\fB": "", "\\fI": "", "\\fR": ""}

COMMANDS = ["check", "canon", "compare", "show", "help"]
# All ways to ask for help.
CALLS = ["help", "-h", "--help", *(f"help {it}" for it in COMMANDS)]
CALLS += [f"{it} {option}" for it in COMMANDS if it != "help" for option in ["-h", "--help"]]


def plain(page: str) -> str:
    """Returns the words of a manual page."""
    text = re.sub(r"^\.(?:PP|TP|SH|in|EX|EE|nf|fi)\b.*\n", "", text_of(page), flags=re.M)
    for sign, it in SIGNS.items():
        text = text.replace(sign, it)
    return " ".join(text.split())


@pytest.fixture(name="help_of")
def helps(tested: str) -> Callable[[str], str]:
    """What a call that asks for help prints."""
    return lambda words: run([tested, *words.split()]).out.decode()


def test_commands(help_of: Callable[[str], str]) -> None:
    told = help_of("help").split("Commands:")[1].split("Options:")[0]
    assert sorted(COMMAND.findall(told)) == sorted(COMMANDS)


@pytest.mark.parametrize("words", CALLS)
def test_width(help_of: Callable[[str], str], words: str) -> None:
    lines = help_of(words).splitlines()
    assert lines and [it for it in lines if len(it) > WIDTH] == []


@pytest.mark.parametrize("command", COMMANDS)
def test_explained_lines(help_of: Callable[[str], str], tested: str, command: str) -> None:
    """The examples print what the help says."""
    examples = EXAMPLE.findall(f"{help_of(f'help {command}')}\n")
    assert len(examples) == int(command != "help")
    for line, lines in examples:
        found = run([tested, *line.split()], cwd=f"{ROOT}/examples")
        assert found.out.decode() == re.sub("^  ", "", lines, flags=re.M), line


@pytest.mark.parametrize("command", ["", *COMMANDS])
def test_page(help_of: Callable[[str], str], made: str, command: str) -> None:
    """The page has the whole help."""
    assert " ".join(help_of(f"help {command}").split()) in plain(f"{made}/share/man/{PAGES[0]}")


def test_pages_of_package(made: str) -> None:
    """The pages have all options, and no others."""
    told = run([FILES, "--help"]).out.decode() + "".join(
        run([FILES, it, "--help"]).out.decode() for it in (*TASKS, "parts")
    )
    for page, text in zip([PAGES[1], PAGES[3]], [told, run([PARTS, "--help"]).out.decode()]):
        paged = text_of(f"{made}/share/man/{page}").replace(r"\-", "-")
        found = re.findall(r"^\.TP\n(?:\\fB-\w\\fR, )?\\fB(--[\w-]+)", paged, re.M)
        assert {*OPTION.findall(text)} == {*found}, page


def test_page_of_header(made: str) -> None:
    """The page has each function of the library: in its name, with what it takes, and with what it does."""
    page = text_of(f"{made}/share/man/{PAGES[4]}")
    parts = [page.partition(f".SH {it}\n")[2].partition(".SH ")[0] for it in ("NAME", "SYNOPSIS", "FUNCTIONS")]
    for it in re.findall(r"^ +(dnorm_\w+);$", text_of(f"{ROOT}/c/dnorm.map"), re.M):
        assert [bool(re.search(rf"\b{it}\b", part)) for part in parts] == [True] * 3, it


def test_refusals(tested: str) -> None:
    """The help has the refusals of the table, and all other lists of them are as in the table."""
    assert [*sentences_of(tested).items()] == [(it.number, f"{it.name}: {it.sentence}") for it in refusals()]
    assert run([sys.executable, f"{ROOT}/tools/lists"]) == said()


@pytest.mark.parametrize("page", PAGES)
def test_groff(help_of: Callable[[str], str], made: str, page: str) -> None:
    need("groff")
    assert run(["groff", "-man", "-Tutf8", "-ww", f"{made}/share/man/{page}"]).err == b""
    assert f'"{help_of("--version").strip()}"' in plain(f"{made}/share/man/{page}")


# A row of a new rule, before this one, and the files in which the rule is then written by hand.
ROW = (
    '  {{"number": {}, "rank": 65, "name": "MadeUp", "constant": "DNORM_MADE_UP", "sentence": "A rule is made up."}},\n'
)
NEXT = '  {"number": 30,'
BY_HAND = {
    *("crates/dn_line/src/code.rt", "crates/dn_line/specs or crates/dn_instance/specs", "docs/FORMAT.md"),
    *("crates/dn_line/src or crates/dn_instance/src", "crates/dn_laws/src/instances/examples.rt", "examples/refused"),
    *("crates/dn_tests/src/commands.rt", "suite/cases.json", "bench/baselines/btree.rs"),
}


@pytest.mark.slow
def test_rule(folder: str) -> None:
    """What tools/lists names of a new rule, once it has written all lists; and that it refuses a gap in the numbers."""
    shutil.copytree(ROOT, "copy", ignore=shutil.ignore_patterns(".git", "out", "released", "__pycache__"))
    before, _, after = text_of("copy/python/src/dnorm/refusals.json").partition(NEXT)
    number = faults()[-1].number + 1
    write("copy/python/src/dnorm/refusals.json", f"{before}{ROW.format(number + 1)}{NEXT}{after}")
    gap = f"python/src/dnorm/refusals.json: {number} is missing, the number before {number + 1} MadeUp\n"
    assert run(["copy/tools/lists", "--write"]) == said(gap, status=1)
    write("copy/python/src/dnorm/refusals.json", f"{before}{ROW.format(number)}{NEXT}{after}")
    found = run(["copy/tools/lists", "--write"])
    assert (found.err, found.status, found.out.count(b": its order of checking is ")) == (b"", 1, 2)
    assert {it.partition(":")[0] for it in found.out.decode().splitlines()} == BY_HAND
    assert run(["copy/tools/lists"]) == found


def test_version_of_parts(tested: str) -> None:
    version = run([tested, "--version"]).out.replace(b"dnorm ", b"canon-in-parts (dnorm) ")
    for word in ["--version", "-V"]:
        assert run([PARTS, "--program", tested, word]) == Answer(version, b"", 0)
