"""The command line: `dnorm-files`, which is `python3 -m dnorm`."""

import argparse
import contextlib
import os
import signal
import sys
import traceback
from collections.abc import Callable, Sequence
from typing import Any, NoReturn, Optional

from .. import __version__
from ..causes import quoted
from ..console import SIGNALS, Console, Parser, Stopped, has_output, heed, number
from ..errors import DnormError, Read, Refused, Write
from ..files import failing
from ..library import find_library
from ..limits import LONGEST
from ..names import ENDINGS, is_text, real, unread_text
from ..parts import line as parts
from ..program import page, processors
from ..records import Record
from . import explain
from .explain import unknown_command
from .reports import causes_of, line_of
from .tasks import FAILED, REFUSED, Run

ABOUT = "Checks, lists and compares many files of DIMACS texts at the same time."
STATUSES = """\
exit statuses:
  0  success
  1  manifest --verify: a checksum differs, a file is gone or is not listed; compare: the files differ
  2  a file is refused
  3  the command line is refused
  4  a file cannot be read, a folder has no such file, or there is no library
The greatest one that applies counts.

$DNORM_LIBRARY names the library libdnorm that reads the files, by default the one that came with this command.
"""
TASKS = {
    "check": "Checks files, and prints a line for each: NAME: accepted KIND, or the refusal.",
    "manifest": "Prints the checksum of the canonical text of each file, or verifies such checksums.",
    "same": "Prints the names of files that pose the same problem, in groups.",
    "list": "Prints what each file contains: sizes, ranges and sums of its numbers, and its checksum.",
    "compare": "Prints the first difference between two files, how many pairs differ, and the first of these.",
    "canon": "Writes the canonical text of a file.",
    "show": "Prints what files contain, as the program does.",
    "look": "Prints a page of HTML: where two files differ, or what is in a folder.",
}
# Commands with a command line of their own, also called dnorm-explain and canon-in-parts.
OWN = {
    "explain": "Runs the program, or reads what it has printed, and prints what shows the cause of a refusal.",
    "parts": "Writes the canonical text of a graph that does not fit into memory.",
}


def seconds(word: str) -> float:
    with contextlib.suppress(ValueError):
        if 0 < float(word) <= LONGEST:
            return float(word)
    raise argparse.ArgumentTypeError(f"a number above 0, and at most {LONGEST}, is wanted, and not {word!r}")


# The commands that read many files, and those that do so at the same time.
FILES = "check manifest same list show"
MANY = "check manifest same list look"
NAME, FLAG, FORM = {"metavar": "FILE"}, {"action": "store_true"}, {"type": int, "choices": (1, 2)}
REPEATED, JSON = {"action": "append"}, {"dest": "format", "action": "store_const", "const": "json"}
# The words and options, in the order of the help: the commands that take one, its names, what it is for, and what
# argparse takes besides. Of those that a command with + takes, a command line has one at most.
OPTIONS: list[tuple[str, str, str, dict[str, Any]]] = [
    (FILES, "path", "a file; a folder, whose files are found by the ends of their names; - for standard input",
     {"nargs": "*", "metavar": "PATH"}),
    ("look", "path", "two files; or a folder", {"nargs": "+", "metavar": "PATH"}),
    ("compare", "left", "a file, or - for standard input", {"metavar": "LEFT"}),
    ("compare", "right", "another file", {"metavar": "RIGHT"}),
    ("canon", "file", "a file, or - for standard input", NAME),
    ("look", "--since", "of a folder: name the files that are new, gone, renamed or otherwise than in this manifest",
     NAME),
    ("look", "--markdown", "of a folder: also write a summary in Markdown into FILE", NAME),
    (FILES, "--files-from", "also the names in FILE, or with - on standard input, each ended by line end", NAME),
    (FILES, "--files0-from", "also the names in FILE, or with - on standard input, each ended by NUL", NAME),
    (FILES, "--ending", "search folders for names with this ending; repeatable; by default "
     f"{' '.join(ENDINGS)}; that of a compression may follow each", {**REPEATED, "metavar": "END"}),
    (f"{FILES} look", "--exclude", "leave out what folders have by this name or path, where * stands for any "
     "characters; repeatable", {**REPEATED, "metavar": "PATTERN", "default": []}),
    (FILES, "--within", "take the files for what is found in FOLDER, as a hook does", {"metavar": "FOLDER"}),
    (f"{FILES} look", "--follow", "of folders, also read links that lead out of them", FLAG),
    (FILES, "--strict", "other files of folders are failures, and for check files with a remark", FLAG),
    ("check", "-x --exit-first", "end after the first file that is refused or fails", FLAG),
    ("check", "--companions", "check that NAME.ss, NAME.p2p and NAME.co fit NAME.gr", FLAG),
    ("check manifest", "-q --quiet", "print no line for files without a fault", FLAG),
    ("compare+", "-q --quiet", "print nothing; the status tells", FLAG),
    ("check+ manifest same list+", "--json", "print JSON objects, one on a line, instead", JSON),
    ("compare+", "--json", "print a JSON object instead", JSON),
    ("check+", "--output-format", "the lines for each file: as text, as JSON objects, or as annotations of GitHub",
     {"dest": "format", "choices": ("text", "json", "github")}),
    ("check", "--junit", "also write a report for CI services into FILE", NAME),
    ("check", "--staged", "check what git has staged and COMMIT has otherwise, by default the last one; print faults "
     "only", {"nargs": "?", "const": "", "metavar": "COMMIT"}),
    ("list+", "--csv", "print a CSV table instead", FLAG),
    ("manifest list canon", "--form", "the canonical form, 1 by default", FORM),
    ("canon", "-o --output", "write into FILE, once all of it is known", NAME),
    ("manifest+", "--verify", "verify the checksums in FILE instead, and name files of the paths that FILE does not "
     "list", NAME),
    ("manifest+", "--output", "write into FILE, once everything is known", NAME),
    ("manifest+", "--incremental", "renew FILE, or make it, with sizes and times, and read only files that are new or "
     "were written", NAME),
    ("compare", "--limit", "print so many differing pairs, by default 3",
     {"type": number(0), "default": 3, "metavar": "N"}),
    (MANY, "-j --jobs", "files at the same time, by default one for each processor",
     {"type": number(1), "default": processors(), "metavar": "N"}),
    (" ".join(TASKS), "--timeout", "a file that takes longer is a failure", {"type": seconds, "metavar": "SECONDS"}),
]  # fmt: skip
LOOKS = "look takes two files, or one folder, and --since and --markdown one folder"
# What a command has no option for.
NONE = dict.fromkeys(["since", "markdown", "files_from", "files0_from", "ending", "within", "strict", "exit_first"])
NONE |= dict.fromkeys(["quiet", "junit", "staged", "form", "verify", "output", "incremental"])


def parser() -> Parser:
    epilog = f"{STATUSES}\n{page()} describes the commands.\n"
    layout: dict[str, Any] = {"formatter_class": argparse.RawDescriptionHelpFormatter, "epilog": epilog}
    top = Parser(prog="dnorm-files", description=ABOUT, allow_abbrev=False, **layout)
    top.add_argument("-V", "--version", action="version", version=f"dnorm for Python {__version__}")
    tasks = top.add_subparsers(dest="task", required=True, metavar="COMMAND")
    for task, about in TASKS.items():
        one = tasks.add_parser(task, help=about, description=about, allow_abbrev=False, **layout)
        one.set_defaults(parser=one, format="text", **NONE)
        alone: Any = None
        for commands, names, about, more in OPTIONS:
            if task in commands.split():
                one.add_argument(*names.split(), help=about, **more)
            elif f"{task}+" in commands.split():
                alone = alone or one.add_mutually_exclusive_group()
                alone.add_argument(*names.split(), help=about, **more)
    parents: dict[str, list[Any]] = {"explain": [], "parts": [parts.parser()]}
    for task, about in OWN.items():
        tasks.add_parser(task, help=about, parents=parents[task], add_help=False)
    return top


def ordered(words: Sequence[str], error: Callable[[str], NoReturn]) -> list[str]:
    """Returns the words of a command line with the command first: options may precede it, and `help` is one."""
    at = next((at for at, it in enumerate(words) if it in {**TASKS, **OWN}), 0)
    first = words[0] if words else ""
    if first == "help":
        return [*words[1:], "--help"]
    if first in ("-h", "--help", "-V", "--version") or first in {**TASKS, **OWN}:
        return [*words]
    if first.startswith("-") and at:
        return [words[at], *words[:at], *words[at + 1 :]]
    if not first or first.startswith("-"):
        error(f"{first or 'it'} needs a command: {', '.join({**TASKS, **OWN})}")
    error(unknown_command(first, "dnorm-files", [*TASKS, *OWN]).removeprefix("dnorm-files has "))


def parsed(words: Sequence[str]) -> argparse.Namespace:
    top, file = parser(), next((it for it in words if it[:1] == "-" and os.path.lexists(it)), "")
    Parser.more = f"; for the file: -- {quoted(file)}" if file else ""
    found, others = top.parse_known_args(ordered(words, top.error))
    error = found.parser.error
    for it in others:
        error(f"there is no option {it}" if it.startswith("-") else f"{it!r} is one word too many")
    if "path" in found:
        check_files(found, error)
    elif found.task == "compare" and found.left == found.right == "-":
        error("standard input is named twice")
    found.form = found.form or 1
    return found


def check_files(found: argparse.Namespace, error: Callable[[str], NoReturn]) -> None:
    """Completes the arguments of a command on many files."""
    sources = [found.files_from, found.files0_from]
    has_paths, is_staged = bool(found.path) or sources != [None, None], found.staged is not None
    is_verified, is_summed = found.verify is not None, found.since is not None or found.markdown
    for is_wrong, told in [
        ([*found.path, *sources, found.verify, found.since].count("-") > 1, "standard input is named twice"),
        (not has_paths and not is_verified and not is_staged, "at least one path is required"),
        (is_staged and (has_paths or found.quiet), "--staged goes without paths and --quiet"),
        (is_verified and found.form, "--verify goes without --form"),
        (found.task == "manifest" and found.quiet and not is_verified, "--quiet goes with --verify"),
        (found.incremental == "-", "--incremental names a file"),
        (found.task == "look" and len(found.path) > (1 if is_summed else 2), LOOKS),
    ]:
        if is_wrong:
            error(told)
    for option in ("junit", "output", "incremental", "markdown"):
        name = getattr(found, option)
        # A report never takes the place of a text, also through a link.
        if name and any(is_text(it) or unread_text(it) for it in (name, real(name))):
            error(f"--{option} {quoted(name)}: a file of such a name is a text, and no report takes its place")
    found.task = "verify" if is_verified else found.task
    found.ending = found.ending or ENDINGS


def named(found: argparse.Namespace) -> list[str]:
    """Returns the paths of the command line, and those that files name. Raises Read if such a file names none."""
    paths = [*found.path]
    for source, end in ((found.files_from, b"\n"), (found.files0_from, b"\0")):
        if source is None:
            continue
        with failing(Read, source):
            with open(0 if source == "-" else source, "rb", closefd=source != "-") as file:
                names = file.read().split(end)
        if not names[-1]:
            names.pop()
        if not names:
            raise Read(source, "it names no file")
        paths += map(os.fsdecode, names)
    return paths


def main(words: Optional[Sequence[str]] = None) -> int:
    """Runs a command, and returns the exit status."""
    is_open, words = has_output(), sys.argv[1:] if words is None else words
    if words[:1] and words[0] in OWN:
        return (explain.main if words[0] == "explain" else parts.main)(words[1:])
    console, run = Console(), None
    try:
        found = parsed(words)
        heed()
        if not is_open:
            raise Write("out")
        find_library()
        if "path" in found:
            found.path = named(found)
        run = Run(found, console)
        getattr(run, found.task)()
        return run.status
    except Stopped as stopped:
        console.hide()
        # Another signal ends this process at once.
        for it in {*SIGNALS, stopped.number}:
            signal.signal(it, signal.SIG_DFL)
        if run and stopped.number in SIGNALS:
            with contextlib.suppress(DnormError, Stopped):
                run.stop()
        os.kill(os.getpid(), stopped.number)
        return FAILED
    except DnormError as error:
        failed = Record(error.name, error=error)
        console.complain(line_of(failed) + causes_of(failed))
        return REFUSED if isinstance(error, Refused) else FAILED
    except Exception:
        console.complain(traceback.format_exc())
        return FAILED
