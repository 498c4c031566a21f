"""Explains what the program prints: `dnorm-explain`."""

import contextlib
import difflib
import functools
import os
import signal
import subprocess
import sys
from collections.abc import Iterable, Iterator, Sequence
from typing import Optional

from ..causes import Opener, cause_of, quoted
from ..console import for_terminal, is_open
from ..errors import DnormError, NoProgram, Read, Refused, Write
from ..files import Copied, of_stream, reason_of
from ..program import error_on, find_program
from ..refusals import REFUSALS

USAGE = """\
Prints what dnorm has printed, and below each refusal of a file what shows its cause: the line that it names; what it
depends on, such as NODES, how many lines are declared and found, or where a repeated node came first; whether the file
is compressed, a pointer of Git LFS or in another encoding; and a command that mends the file. Below 31 it prints why
the file cannot be read.

    dnorm check FILE 2>&1 | dnorm-explain
    dnorm-explain WORDS..

The second form runs dnorm with these words, keeps a copy of standard input if dnorm reads it, and also explains a
command line that is refused; the number or the name of a refusal prints its sentence. dnorm-explain reads the files
that the refusals name, so it runs in the folder of dnorm.

The status is that of dnorm, as its lines tell it; of several runs, the greatest one; 3 if there are no words and
standard input is a terminal.
"""
WRONG = ("dnorm: bad command line", "dnorm: standard input named twice")
# The option of each command, or none, with the number of its files, and the values that options take.
COMMANDS = {"canon": ("--form", 1), "check": ("--with", 1), "compare": ("", 2), "show": ("", 1), "help": ("", 0)}
VALUES: dict[str, tuple[str, ...]] = {"--form": ("1", "2"), "--with": ()}
# What other programs call these commands.
OTHER_NAMES = {"diff": "compare", "cmp": "compare", "validate": "check", "verify": "check", "lint": "check"}
OTHER_NAMES |= {"normalize": "canon", "normalise": "canon", "canonicalize": "canon", "info": "show", "stat": "show"}
OTHER_NAMES |= {"version": "--version", "-v": "--version", "explain": "help"}


def explain(words: Sequence[str]) -> int:
    """Explains standard input, or a run of the program with these words. Returns the status."""
    if words and words[0] in ("-h", "--help"):
        sys.stdout.write(USAGE)
        return 0
    if len(words) == 1 and sentence_of(words[0]):
        say(1, sentence_of(words[0]), ())
        return 0
    if words:
        return explain_run(words)
    if sys.stdin is None or sys.stdin.isatty():
        sys.stderr.write(USAGE)
        return 3
    status = 0
    for line in sys.stdin.buffer:
        told = os.fsdecode(line.removesuffix(b"\n"))
        status = max(status, status_of(told))
        say(1, told, causes_of(told))
    return status


def say(fd: int, told: str, causes: Iterable[str]) -> None:
    text = "".join(f"{it}\n" for it in [told, *(f"    {it}" for it in causes)])
    os.write(fd, os.fsencode(for_terminal(text) if os.isatty(fd) else text))


def explain_run(words: Sequence[str]) -> int:
    """Runs the program with these words, and explains what it prints on standard error. Copies what it reads of -."""
    program, copy = find_program(), Copied() if "-" in words and is_open(0) else None
    try:
        process = subprocess.Popen([program, *words], stdin=subprocess.PIPE if copy else None, stderr=subprocess.PIPE)
    except OSError as error:
        raise NoProgram(program, reason_of(error)) from error
    if copy and process.stdin:
        # The program reads no further once it has found a fault.
        signal.signal(signal.SIGPIPE, signal.SIG_IGN)
        with contextlib.suppress(BrokenPipeError):
            for piece in of_stream(copy):
                process.stdin.write(piece)
                process.stdin.flush()
    _, said = process.communicate()
    signal.signal(signal.SIGPIPE, signal.SIG_DFL)
    whole = os.fsdecode(said).removesuffix("\n")
    found = error_on(whole)
    # A name may have LF, and then all is one line.
    for told in [whole] if found and os.path.lexists(found.name) else whole.splitlines():
        say(2, told, wrong_words(words) if told == WRONG[0] else causes_of(told, copy))
    return process.returncode if process.returncode >= 0 else 128 - process.returncode


def status_of(told: str) -> int:
    """Returns the status of a run that prints this line."""
    error = error_on(told)
    if not error:
        return 3 if told in WRONG else int(told.startswith("differ "))
    return 2 if isinstance(error, Refused) else 4


def causes_of(told: str, copy: Optional[Copied] = None) -> Iterator[str]:
    """Yields what shows the cause of what a line tells, of standard input by its copy."""
    error = error_on(told)
    name = error.name if error else ""
    if isinstance(error, Refused):
        text: Optional[Opener] = copy.again if copy and name == "-" else None
        # Nothing else can be read twice.
        if name != "-" and os.path.isfile(name) and os.access(name, os.R_OK):
            text = functools.partial(pieces_of, name)
        cause = cause_of(text, None if name == "-" else name, error.line, error.number, error.node)
        yield from Refused(name, error.line, error.number, error.word, error.node, *cause).causes
    elif error:
        yield from (sentence for word, sentence in REFUSALS.values() if word == type(error).__name__)
        if isinstance(error, Read) and name != "-":
            try:
                next(pieces_of(name), b"")
            except OSError as failed:
                yield reason_of(failed)


def pieces_of(name: str) -> Iterator[bytes]:
    """Yields what a file has, and does not wait for the writer of a FIFO."""
    with open(name, "rb", buffering=0, opener=lambda it, flags: os.open(it, flags | os.O_NONBLOCK)) as file:
        yield from of_stream(file)


def wrong_words(words: Sequence[str]) -> Iterator[str]:
    command, *others = words
    if command not in COMMANDS:
        yield unknown_command(command, "dnorm", COMMANDS)
        return
    option, wanted = COMMANDS[command]
    files: list[str] = []
    is_given, rest = False, iter(others)
    for it in rest:
        name, has_value, value = it.partition("=")
        if it == "--":
            files += rest
        elif it == "-" or not it.startswith("-"):
            files.append(it)
        elif name != option:
            yield f"{command} has no option {name}: it has {option or 'none but --help'}"
            return
        elif is_given:
            yield f"{name} can be given once"
            return
        else:
            is_given, value = True, value if has_value else next(rest, "")
            if not value or VALUES[name] and value not in VALUES[name]:
                yield f"{name} takes {' or '.join(VALUES[name]) or 'the name of a file'}, and not {value!r}"
                return
    yield from wrong_files(command, files, wanted)


def wrong_files(command: str, files: Sequence[str], wanted: int) -> Iterator[str]:
    for it in files:
        if not it.isascii() and it != it.encode(errors="ignore").decode():
            yield f"dnorm takes no name that is not UTF-8: dnorm {command} - < {quoted(it)}"
    if command == "help":
        commands = ", ".join(it for it in COMMANDS if it != "help")
        yield sentence_of(" ".join(files)) or f"help takes one command: {commands}"
    elif len(files) != wanted:
        more = "; - is standard input" if len(files) < wanted else ""
        if command == "check" and len(files) > 1:
            more = "; for several: dnorm-files check FILES.."
        yield f"{command} takes {'two files' if wanted == 2 else 'one file'}, and not {len(files)}{more}"


def sentence_of(word: str) -> str:
    """Returns the sentence of a refusal, given by its number or its name, or nothing if the word is none."""
    found = [it for it in REFUSALS.items() if word in (str(it[0]), it[1][0])]
    return "".join(f"{number} {name}: {sentence}" for number, (name, sentence) in found)


def unknown_command(word: str, program: str, commands: Iterable[str]) -> str:
    """Returns what is wrong with a word that is no command of a program."""
    if word == "-" or os.path.exists(word):
        return f"a command comes before the file: {program} check {quoted(word)}"
    if sentence_of(word):
        return sentence_of(word)
    near = [OTHER_NAMES[word]] if word in OTHER_NAMES else difflib.get_close_matches(word, commands, 1)
    others = f": the nearest is {near[0]}" if near else f"; its commands are {', '.join(commands)}"
    return f"{program} has no command {word}{others}"


def main(words: Optional[Sequence[str]] = None) -> int:
    """Runs the command, which a signal ends like other tools, and returns the status."""
    for it in (signal.SIGINT, signal.SIGPIPE, signal.SIGCHLD):
        signal.signal(it, signal.SIG_DFL)
    try:
        return explain(sys.argv[1:] if words is None else words)
    except (DnormError, OSError) as error:
        failure = error if isinstance(error, DnormError) else Write("out", reason_of(error))
        with contextlib.suppress(OSError):
            say(2, str(failure), ())
        return 4
