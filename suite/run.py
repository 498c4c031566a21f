#!/usr/bin/env python3
"""Checks a reader of DIMACS network instances: runs it on the cases in cases.json, which is beside this script, and
compares its answers with those in the file.

    run.py [OPTION].. COMMAND..
    run.py [OPTION].. --write FOLDER

COMMAND is the reader, or a small adapter for it, with its arguments. It is called in these ways:

    COMMAND check -                    reads a text from standard input. For a text that it accepts, it prints
                                       'accepted KIND', and its status is 0. For a text that it refuses, it prints
                                       '-:LINE: NUMBER NAME' on standard error, with 'end' for LINE where the end of
                                       the text is at fault, and its status is 2.
    COMMAND canon --form 1 -           the same, but prints the canonical text of a text that it accepts, and nothing
    COMMAND canon --form 2 -           on standard output for one that it refuses
    COMMAND check - --with COMPANION   the same as 'check -', and then prints 'fits KIND' for the file of a companion;
                                       or prints 'COMPANION: 35 NotInGraph ID' or 'COMPANION: 36 NotKinds' on standard
                                       error, with status 2; or refuses the companion, with its name in place of '-'
    COMMAND compare LEFT RIGHT         prints 'same', with status 0, or how two files differ, with status 1: README.md
                                       lists the lines; or refuses the first of the files that is not well formed

Levels, each of which includes the ones before it:

    challenge  the status of 'check -', in cases that the DIMACS Challenges decide
    accept     the status of 'check -'
    line       the line of a refusal
    refusal    the number and the name of a refusal, and the kind of an accepted text
    canon      'canon', in both forms; the default
    compare    'compare', and 'check' with a companion

Standard input is a file, a pipe, or a pipe in pieces of 1, 7 or 4096 bytes, by the id of the case. With --batch,
COMMAND runs once for each job, with no more arguments, and answers each line of its standard input in a line:
README.md describes these. Its statuses are not tested then.

Further lines are ignored where 'check' prints them: on standard output after the expected ones, and on standard error
before the refusal. On a terminal, standard error shows the progress.

The status is 0 if all cases pass, 1 if one fails, and 3 if the command line is refused, or if COMMAND does not start or
ends with status 125, which says that it cannot work. SIGINT and SIGTERM end the calls; the report has the cases that
were tried, and the status is 128 and the number of the signal. A call that takes longer than the limit or prints more
than 1 MB is ended and fails; after ten of them no further case is tried."""

from __future__ import annotations

import argparse
import contextlib
import fcntl
import itertools
import json
import os
import re
import selectors
import signal
import struct
import subprocess
import sys
import tempfile
import termios
import threading
import time
import xml.etree.ElementTree
import zlib
from collections import Counter
from collections.abc import Iterable, Iterator, Sequence
from concurrent.futures import ThreadPoolExecutor, wait
from typing import Any, NamedTuple, NoReturn

CASES = os.path.join(os.path.dirname(os.path.abspath(__file__)), "cases.json")
LEVELS = ["challenge", "accept", "line", "refusal", "canon", "compare"]
FAILED, USAGE = 1, 3
# What a call may print, in bytes; how many calls may exceed the limit before no further case is tried; and how many
# failures of a rule are shown.
MOST, PATIENCE, SHOWN = 1_000_000, 10, 5
# The status of a reader or an adapter that cannot work, say because a program is missing.
BROKEN = 125
# How a text arrives: by a file, or by a pipe in pieces of a size, one of which is that of the whole text; and how many
# pieces a text has at most.
WAYS, MANY = [None, sys.maxsize, 1, 7, 4096], 200
# The seconds between two looks at whether a piece has been read, and at all else: signals, the time and the progress.
PAUSE, LOOK = 0.0002, 0.2

# The words after `p` of each kind.
KINDS = {"min": "min", "max": "max", "sp": "sp", "ss": "aux sp ss", "p2p": "aux sp p2p", "co": "aux sp co"}
# What only the cases of level compare have.
FILES = {"left", "with"}
# The texts of a case.
TEXTS = ["text", "with", "left", "right"]

Case = dict[str, Any]


class Answer(NamedTuple):
    """What a call printed, and its status: below 0 for the signal that ended it, None if this script ended it. In a
    batch, `aside` is what the reader printed on standard error while it answered."""

    out: bytes
    err: bytes
    status: int | None
    aside: bytes = b""


class Unusable(Exception):
    """The reader does not start, or no further case is tried."""


class Parser(argparse.ArgumentParser):
    """A parser with a status of its own for a command line that is refused."""

    def error(self, message: str) -> NoReturn:
        self.exit(USAGE, f"run.py: {message}\nrun.py --help describes the command line\n")


def positive(word: str) -> float:
    """Returns a number above 0."""
    value = float(word)
    if not 0 < value < float("inf"):
        raise ValueError
    return value


def joined(parts: Any) -> str:
    """Returns a text of cases.json, which may be a list of strings, and of strings with how often they are repeated."""
    if isinstance(parts, str):
        return parts
    return "".join(it if isinstance(it, str) else it[0] * it[1] for it in parts)


def status(word: str) -> int:
    """Returns a status of refusals, or 0 for any."""
    value = 0 if word == "any" else int(word)
    if not 0 <= value < 256 or word == "0":
        raise ValueError
    return value


def parser_of(rules: Sequence[str]) -> Parser:
    """Returns the parser of the command line."""
    layout: dict[str, Any] = {"formatter_class": argparse.RawDescriptionHelpFormatter, "allow_abbrev": False}
    parser = Parser(prog="run.py", usage="run.py [OPTION].. COMMAND..", description=__doc__, **layout)
    add = parser.add_argument
    add("--level", choices=LEVELS, default="canon", help="what is compared, by default canon")
    add("--rule", action="append", choices=rules, metavar="RULE", help="only the cases of this rule; repeatable")
    add("--kind", action="append", choices=list(KINDS), help="only texts of this kind, and of none; repeatable")
    add("--case", action="append", metavar="ID", help="only this case; repeatable")
    add("--accepted", action="store_true", help="only texts that are accepted")
    add("--refused", type=status, default=2, metavar="STATUS", help="the status of a refusal, by default 2; or any")
    add("--limit", type=positive, default=30, metavar="SECONDS", help="the time of a call, by default 30")
    add("--memory", type=int, metavar="MB", help="the address space of a call")
    add("--jobs", type=int, default=os.cpu_count() or 1, metavar="N", help="calls at the same time")
    add("--batch", action="store_true", help="COMMAND reads the calls from standard input")
    add("--expect", metavar="FILE", help="the ids of cases that are known to fail, one in a line")
    add("--expect-write", metavar="FILE", help="make such a file of the cases that fail; the status is then 0")
    add("--all", action="store_true", help=f"show all failures of a rule, and not only {SHOWN}")
    shapes = parser.add_mutually_exclusive_group()
    for name, about in {"junit": "as XML for JUnit", "json": "as JSON"}.items():
        shapes.add_argument(f"--{name}", dest="shape", action="store_const", const=name, help=f"print results {about}")
    add("--write", metavar="FOLDER", help="make files of the texts, and run nothing")
    add("--version", action="store_true", help="print the version of the cases")
    add("command", nargs=argparse.REMAINDER, metavar="COMMAND", help="the reader or its adapter, with its arguments")
    return parser


def parsed(words: Sequence[str] | None, rules: Sequence[Case]) -> argparse.Namespace:
    """Returns the arguments."""
    parser = parser_of([it["rule"] for it in rules])
    found = parser.parse_args(words)
    ids = {case["id"] for rule in rules for case in rule["cases"]}
    if found.command[:1] == ["--"]:
        del found.command[0]
    if not found.command and not found.write and not found.version:
        parser.error("COMMAND is missing")
    if found.write:
        # Texts of all levels.
        found.level = LEVELS[-1]
    if found.jobs < 1:
        parser.error("--jobs is at least 1")
    if found.memory is not None and found.memory < 1:
        parser.error("--memory is at least 1")
    found.expected = {}
    if found.expect:
        try:
            found.expected = expected(found.expect)
        except (OSError, UnicodeError) as error:
            parser.error(f"{found.expect}: {getattr(error, 'strerror', None) or error}")
    for name in found.case or []:
        if name not in ids:
            parser.error(f"no case has the id {name!r}")
    unknown = [(line, name) for name, line in found.expected.items() if name not in ids]
    printed([f"run.py: {found.expect}:{line}: warning: no case has the id {name!r}" for line, name in unknown], True)
    return found


def expected(path: str) -> dict[str, int]:
    """Returns the ids of a file, with their lines. What follows a `#` is a comment."""
    with open(path, encoding="utf-8") as file:
        lines = [(line.partition("#")[0].strip(), number) for number, line in enumerate(file, 1)]
    return {name: number for name, number in lines if name}


class Feed:
    """A pipe by which a text arrives in pieces, each of them after the one before has been read. With a path it is a
    named pipe, which the reader opens."""

    def __init__(self, text: bytes, size: int, path: str = "") -> None:
        self.left, self.size, self.path = memoryview(text), max(size, len(text) // MANY), path
        self.read_end = self.write_end = -1
        if path:
            os.mkfifo(path)
        else:
            self.read_end, self.write_end = os.pipe()
            os.set_blocking(self.write_end, False)

    def go_on(self) -> bool:
        """Writes the next piece if it is time, and returns whether more is to come."""
        if self.read_end < 0:
            try:
                self.write_end = os.open(self.path, os.O_WRONLY | os.O_NONBLOCK)
            except OSError:
                # The reader has not opened it yet.
                return True
            self.read_end = os.open(self.path, os.O_RDONLY | os.O_NONBLOCK)
        unread = struct.unpack("i", fcntl.ioctl(self.read_end, termios.FIONREAD, bytes(4)))[0]
        if self.write_end < 0 or unread:
            return self.write_end >= 0
        if self.left:
            self.left = self.left[os.write(self.write_end, self.left[: self.size]) :]
        if not self.left:
            os.close(self.write_end)
            self.write_end = -1
        return bool(self.left)

    def fileno(self) -> int:
        return self.read_end

    def close(self) -> None:
        for it in [self.read_end, self.write_end]:
            if it >= 0:
                os.close(it)
        if self.path:
            os.remove(self.path)


def opened(given: str, size: int | None, path: str = "") -> Any:
    """Returns the pipe of a text, or its file if there is no size of pieces, at a path if one is given."""
    text = given.encode("latin-1")
    if size:
        return contextlib.closing(Feed(text, size, path))
    file = open(path, "w+b") if path else tempfile.TemporaryFile()
    file.write(text)
    file.seek(0)
    return file


class Runner:
    """The reader that is tested."""

    def __init__(self, asked: argparse.Namespace) -> None:
        self.command, self.limit, self.level = asked.command, asked.limit, LEVELS.index(asked.level)
        self.memory, self.expected, self.refused = asked.memory, asked.expected, asked.refused
        self.refusal = f"status {asked.refused}" if asked.refused else "a status other than 0"
        # How many calls this script ended; why no further case is tried, and the status for that.
        self.stuck, self.why, self.status = 0, "", 0

    def prepare(self) -> None:
        """Lets signals end the calls. Writing to a reader that has ended is an error."""
        signal.signal(signal.SIGPIPE, signal.SIG_IGN)
        for it in (signal.SIGINT, signal.SIGTERM):
            signal.signal(it, self.end_by)
        if self.memory:
            self.command = ["sh", "-c", 'ulimit -v "$0" && exec "$@"', str(1024 * self.memory), *self.command]

    def end_by(self, number: int, _: object) -> None:
        """Ends the calls. A second signal ends this script."""
        signal.signal(number, signal.SIG_DFL)
        self.end(f"ended by {signal.Signals(number).name}", 128 + number)

    def end(self, why: str, status: int) -> None:
        """Lets no further case be tried, for the first reason that is told."""
        if not self.why:
            self.why, self.status = why, status

    def call(self, words: Sequence[str], given: str = "", size: int | None = None) -> Answer:
        """Runs the reader with these arguments on a text, which is a file or arrives by a pipe in pieces of a size."""
        with opened(given, size) as stdin, self.started(words, stdin) as process:
            try:
                return self.read(process, stdin if size else None)
            finally:
                # The reader may have started others, which would keep its streams open.
                stop(process)

    def started(self, words: Sequence[str], stdin: Any) -> subprocess.Popen[bytes]:
        """Starts the reader."""
        streams = {"stdin": stdin, "stdout": subprocess.PIPE, "stderr": subprocess.PIPE}
        try:
            return subprocess.Popen([*self.command, *words], start_new_session=True, **streams)
        except OSError as error:
            raise Unusable(f"{self.command[0]}: {error.strerror}") from None

    def read(self, process: subprocess.Popen[bytes], feed: Feed | None, is_line: bool = False) -> Answer:
        """Reads what a process prints until it ends, or until it ends a line, or exceeds a limit."""
        assert process.stdout and process.stderr
        end, found = time.monotonic() + self.limit, {process.stdout: b"", process.stderr: b""}
        status: int | None = 0
        with selectors.DefaultSelector() as streams:
            for stream in found:
                streams.register(stream, selectors.EVENT_READ, stream)
            while streams.get_map() and not (is_line and found[process.stdout].endswith(b"\n")):
                left = self.left(end)
                if not left or MOST < sum(map(len, found.values())):
                    status = None
                    break
                for key, _ in streams.select(min(PAUSE, left) if feed and feed.go_on() else left):
                    piece = os.read(key.fd, 65536)
                    found[key.data] += piece
                    if not piece:
                        streams.unregister(key.fileobj)
            if not streams.get_map():
                status = self.ended(process, end)
        return self.counted(Answer(found[process.stdout], found[process.stderr], status))

    def left(self, end: float) -> float:
        """Returns the seconds until the next look at a call, or 0 if it has had its time."""
        if self.why:
            raise Unusable(self.why)
        return max(0, min(LOOK, end - time.monotonic()))

    def ended(self, process: subprocess.Popen[bytes], end: float) -> int | None:
        """Waits until a process ends, and returns its status, or None if its time is over."""
        while left := self.left(end):
            with contextlib.suppress(subprocess.TimeoutExpired):
                return process.wait(left)
        return None

    def counted(self, found: Answer) -> Answer:
        """Returns an answer. After it, there may be no use in a further case."""
        self.stuck += found.status is None
        if self.stuck >= PATIENCE:
            stuck = f"{PATIENCE} calls did not end within {self.limit:g} seconds"
            self.end(f"{stuck}, and the other cases are not tried", FAILED)
        if found.status == BROKEN:
            (last,) = found.err.splitlines()[-1:] or [b""]
            raise Unusable(f"{self.command[0]} cannot work: {last.decode(errors='replace')}")
        return found

    def close(self) -> None:
        """Ends what was started. Whoever reads the output may stop before its end."""
        signal.signal(signal.SIGPIPE, signal.SIG_DFL)

    def judged(self, case: Case) -> Result:
        """Tries a case."""
        begun, failures = time.monotonic(), list[str]()
        is_tried = not self.why
        try:
            for it in self.failures(case) if is_tried else ():
                failures.append(it)
        except (Unusable, OSError) as error:
            self.end(str(error), USAGE)
            # A call before this one may have failed.
            is_tried = failures != []
        seconds = time.monotonic() - begun
        return Result(case, failures if is_tried else None, seconds, case["id"] in self.expected)

    def failures(self, case: Case) -> Iterator[str]:
        """Yields how the answers of the reader differ from those of a case."""
        if FILES & case.keys():
            with tempfile.TemporaryDirectory(prefix="conformance-") as folder:
                yield from self.files(case, folder)
            return
        # By the id alone, so that a case that is added changes no other one.
        given, size = joined(case["text"]), WAYS[zlib.crc32(case["id"].encode()) % len(WAYS)]
        wrong = [*self.wrong(f"check{self.by(size)}", self.call(["check", "-"], given, size), case)]
        yield from wrong
        if self.level < LEVELS.index("canon") or wrong:
            return
        for form, own in [(1, None if size else sys.maxsize), (2, sys.maxsize if size else None)]:
            found = self.call(["canon", "--form", str(form), "-"], given, own)
            call = f"canon --form {form}{self.by(own)}"
            if "kind" in case:
                text = joined(case["canon"][form - 1 if len(case["canon"]) == 2 else 0])
                if found.status != 0 or found.out != text.encode("latin-1"):
                    yield f"{call} printed {told(found)}; expected {brief(text)}{differing(found.out, text)}"
            else:
                yield from self.wrong(call, found, case)
                if found.out:
                    yield f"{call} printed {told(found)} before the refusal"

    def by(self, size: int | None) -> str:
        """Returns how a text arrived, for a person."""
        if size is None:
            return ""
        return " from a pipe" if size == sys.maxsize else f" from a pipe in pieces of {size} byte{'s' * (size > 1)}"

    def is_refusal(self, status: int | None) -> bool:
        return status is not None and status > 0 and self.refused in (0, status)

    def wrong(self, call: str, found: Answer, case: Case) -> Iterator[str]:
        """Yields how the answer of `check` differs from that of a case, or how another call refuses a text."""
        if "kind" in case:
            lines = found.out.splitlines()[:1]
            is_told = self.level < LEVELS.index("refusal") or lines == [f"accepted {case['kind']}".encode()]
            if found.status != 0 or not is_told:
                yield f"{call} printed {told(found)}; expected 'accepted {case['kind']}' and status 0"
            return
        line = f"-:{case['place']}: {case['refusal']}"
        (last,) = found.err.splitlines()[-1:] or [b""]
        is_right = True
        if self.level == LEVELS.index("line"):
            is_right = last.split(b":")[:2] == [b"-", str(case["place"]).encode()]
        elif self.level > LEVELS.index("line"):
            is_right = last == line.encode()
        if not self.is_refusal(found.status) or not is_right:
            yield f"{call} printed {told(found)}; expected '{line}' and {self.refusal}"

    def files(self, case: Case, folder: str) -> Iterator[str]:
        """Yields how the reader fails a case of two files, or of a text and the file of a companion."""
        paths = {it: os.path.join(folder, it) for it in ["left", "right", "with"] if it in case}
        for name, path in paths.items():
            with open(path, "wb") as file:
                file.write(joined(case[name]).encode("latin-1"))
        if "left" in case:
            call, found = "compare", self.call(["compare", paths["left"], paths["right"]])
        else:
            call, found = "check --with", self.call(["check", "-", "--with", paths["with"]], joined(case["text"]))
        if "verdict" in case:
            wanted = (f"{case['verdict']}\n".encode(), 0 if case["verdict"] == "same" else 1)
            if (found.out, found.status) != wanted:
                yield f"{call} printed {told(found)}; expected '{case['verdict']}' and status {wanted[1]}"
        elif "fits" in case:
            lines = [f"accepted {case['kind']}".encode(), f"fits {case['fits']}".encode()]
            if found.status != 0 or found.out.splitlines()[:2] != lines:
                yield f"{call} printed {told(found)}; expected 'accepted {case['kind']}', 'fits {case['fits']}'"
        else:
            name = case.get("refused", "with")
            line = f":{case['place']}: {case['refusal']}" if "refused" in case else f": {case['unfit']}"
            last = found.err.splitlines()[-1:]
            if not self.is_refusal(found.status) or last != [f"{paths.get(name, '-')}{line}".encode()]:
                yield f"{call} printed {told(found)}; expected '{name.upper()}{line}' and {self.refusal}"


class Batch(Runner):
    """A reader that runs once for each job, and answers a call in a line."""

    def __init__(self, asked: argparse.Namespace) -> None:
        super().__init__(asked)
        self.folder = tempfile.TemporaryDirectory(prefix="conformance-")
        self.processes: dict[int, subprocess.Popen[bytes]] = {}

    def call(self, words: Sequence[str], given: str = "", size: int | None = None) -> Answer:
        """Asks the reader of this thread to answer a call, in which a file or a named pipe is in place of standard
        input."""
        own = threading.get_ident()
        if own not in self.processes:
            self.processes[own] = self.started([], subprocess.PIPE)
        path, process = os.path.join(self.folder.name, f"{own}{'-pipe' if size else ''}"), self.processes[own]
        assert process.stdin
        with opened(given, size, path) as source:
            # A reader that has ended is seen where its answer is read.
            with contextlib.suppress(OSError):
                process.stdin.write("\t".join(path if it == "-" else it for it in words).encode() + b"\n")
                process.stdin.flush()
            found = self.read(process, source if size else None, True)
        if found.status == 0 and found.out.endswith(b"\n"):
            return self.answer(found.out[:-1], path.encode())._replace(aside=found.err)
        stop(self.processes.pop(own))
        return found._replace(status=FAILED) if found.status == 0 else found

    def answer(self, line: bytes, path: bytes) -> Answer:
        """Returns what a call of its own would have printed in place of a line."""
        if line.startswith(b'"'):
            try:
                return Answer(str(json.loads(line)).encode("latin-1"), b"", 0)
            except ValueError:
                return Answer(line, b"", FAILED)
        if line.startswith((b"accepted", b"same", b"differ ")):
            return Answer(line.replace(b" fits ", b"\nfits ") + b"\n", b"", int(line.startswith(b"differ ")))
        return Answer(b"", line.replace(path, b"-") + b"\n", self.refused or FAILED)

    def close(self) -> None:
        for it in self.processes.values():
            stop(it)
            it.communicate()
        self.folder.cleanup()
        super().close()


def stop(process: subprocess.Popen[bytes]) -> None:
    """Ends a process and those that it started."""
    try:
        os.killpg(process.pid, signal.SIGKILL)
    except (ProcessLookupError, PermissionError):
        # All of them have ended.
        pass


def told(found: Answer) -> str:
    """Returns what a call printed, for a person."""
    printed = brief((found.out + found.err).decode("latin-1"))
    aside = f", and {brief(found.aside.decode('latin-1'))} on standard error" if found.aside else ""
    if found.status is None:
        is_much = MOST < len(found.out) + len(found.err)
        return f"{printed}, and was ended: it printed too much" if is_much else f"{printed}, with no end"
    ended = f"ended by signal {-found.status}" if found.status < 0 else f"status {found.status}"
    return f"{printed}{aside}, {ended}"


def brief(text: str) -> str:
    """Returns a text in one line as `printf` of a shell takes it, without the middle of a long one."""
    spelled = {"\n": "\\n", "\t": "\\t", "\r": "\\r", "\\": "\\\\", "%": "%%", "'": "\\047"}
    shown = [spelled.get(it) or (it if " " <= it <= "~" else f"\\{ord(it):03o}") for it in shortened(text)]
    return f"'{''.join(shown)}'"


def shortened(text: str) -> str:
    return text if len(text) <= 240 else f"{text[:120]} .. {text[-100:]}"


def differing(printed: bytes, text: str) -> str:
    """Returns the first line in which what a call printed differs from a text, if both have lines."""
    ways = [it.split("\n") for it in (printed.decode("latin-1"), text)]
    for number, (own, wanted) in enumerate(itertools.zip_longest(*ways), 1):
        if own != wanted and printed:
            shown = ["nothing" if it is None else brief(it) for it in (own, wanted)]
            return f"; line {number} is {shown[0]} in place of {shown[1]}"
    return ""


def kind_of(text: str) -> str:
    """Returns the kind that the first problem line of a text names, or nothing."""
    for line in text.split("\n"):
        words = [it for it in re.split("[ \t\r]", line) if it]
        if words[:1] == ["p"]:
            return next((kind for kind, it in KINDS.items() if words[1:4][: len(it.split())] == it.split()), "")
    return ""


def is_chosen(case: Case, asked: argparse.Namespace) -> bool:
    """Whether the command line asks for a case."""
    if asked.case:
        return case["id"] in asked.case
    if FILES & case.keys() and asked.level != "compare" or asked.accepted and {"refusal", "unfit"} & case.keys():
        return False
    if asked.level == "challenge" and "profile" in case or asked.rule and case["rule"] not in asked.rule:
        return False
    if not asked.kind:
        return True
    texts = [joined(case[it]) for it in ("text", "left", "right") if it in case]
    kinds = {case["kind"]} if "kind" in case else {*map(kind_of, texts)}
    return kinds <= {*asked.kind, ""}


class Result(NamedTuple):
    """A case, how the reader fails it, or None if it was not tried, the seconds, and whether it is known to fail."""

    case: Case
    failures: list[str] | None
    seconds: float
    is_known: bool

    @property
    def outcome(self) -> str:
        if self.failures is None:
            return "not tried"
        if self.is_known:
            return "fails as expected" if self.failures else "passes unexpectedly"
        return "fails" if self.failures else "passes"

    @property
    def is_bad(self) -> bool:
        return self.outcome in ("fails", "passes unexpectedly")

    def messages(self) -> list[str]:
        """Returns what to tell of a case that is bad."""
        return self.failures or ["passes now, and should no longer be expected to fail"]


def shown(rule: Case, found: list[Result], is_all: bool) -> Iterator[str]:
    """Yields the lines on the failures of a rule, if there are any."""
    bad = [it for it in found if it.is_bad]
    if not bad:
        return
    yield f"{rule['rule']}: {rule['says']} ({rule['section']})"
    yield f"  {len(bad)} of {len(found)} cases fail"
    for it in bad if is_all else bad[:SHOWN]:
        yield f"  {it.case['id']}: {it.case['about']}"
        for name in TEXTS:
            if name in it.case:
                text = joined(it.case[name])
                cut = f" ({len(text)} bytes; --write makes a file)" if text != shortened(text) else ""
                yield f"    {name}: printf {brief(text)}{cut}"
        yield from (f"    {failure}" for failure in it.messages())
    if not is_all and SHOWN < len(bad):
        rest = " ".join(it.case["id"] for it in bad[SHOWN:])
        yield f"  and {rest} (--all shows them)"


def junit(found: list[Result], why: str) -> Iterator[str]:
    """Yields XML as tools for JUnit read it."""
    element = xml.etree.ElementTree.SubElement
    errors = sum(it.failures is None for it in found)
    counts = {"tests": len(found), "failures": sum(it.is_bad for it in found), "errors": errors}
    attributes = {"name": "conformance", **{name: str(count) for name, count in counts.items()}}
    suite = xml.etree.ElementTree.Element("testsuite", attributes, time=f"{sum(it.seconds for it in found):.3f}")
    for it in found:
        case = element(suite, "testcase", classname=it.case["rule"], name=it.case["id"], time=f"{it.seconds:.3f}")
        if it.failures is None:
            element(case, "error", message=f"not tried: {brief(why)}")
        elif it.is_bad:
            element(case, "failure", message=it.case["about"]).text = "\n".join(it.messages())
        elif it.is_known:
            element(case, "skipped", message="known to fail")
    yield xml.etree.ElementTree.tostring(suite, encoding="us-ascii", xml_declaration=True).decode()


def as_json(found: list[Result], _: str) -> Iterator[str]:
    """Yields a JSON object, with a case in each line."""
    fields = ({"id": it.case["id"], "rule": it.case["rule"], "outcome": it.outcome} for it in found)
    more = ({"failures": it.failures or [], "seconds": round(it.seconds, 3)} for it in found)
    yield '{"cases":[\n' + ",\n".join(json.dumps({**one, **two}) for one, two in zip(fields, more)) + "\n]}"


SHAPES = {"junit": junit, "json": as_json}


def write(cases: list[Case], folder: str) -> None:
    """Makes files of the texts of cases, and of what is expected."""
    os.makedirs(folder, exist_ok=True)
    for case in cases:
        files = {name: joined(case[name]) for name in TEXTS if name in case}
        forms = {f"canon-{form}": joined(it) for form, it in enumerate(case.get("canon", []), 1)}
        rest = {key: it for key, it in case.items() if key not in [*TEXTS, "canon"]}
        for name, text in {**files, **forms, "json": json.dumps(rest) + "\n"}.items():
            with open(os.path.join(folder, f"{case['id']}.{name}"), "wb") as file:
                file.write(text.encode("latin-1"))


def run_all(runner: Runner, chosen: list[Case], jobs: int) -> Iterator[Result]:
    """Yields the results of the cases, and shows on a terminal how many of them there are."""
    is_shown, drawn = sys.stderr is not None and sys.stderr.isatty(), 0.0
    with ThreadPoolExecutor(jobs) as pool:
        for count, it in enumerate([pool.submit(runner.judged, case) for case in chosen]):
            # Where a signal reaches another thread, this one handles it at the next look.
            while not it.done():
                wait([it], LOOK)
            if is_shown and drawn + LOOK <= time.monotonic():
                drawn = time.monotonic()
                print(f"\r{count} of {len(chosen)} cases", end="", flush=True, file=sys.stderr)
            yield it.result()
    if is_shown:
        print("\r\x1b[K", end="", flush=True, file=sys.stderr)


def summary(found: list[Result], asked: argparse.Namespace) -> str:
    """Returns the last line."""
    count, bad = Counter(it.outcome for it in found), sum(it.is_bad for it in found)
    known = f", {count['fails as expected']} fail as expected" if asked.expect else ""
    left = f", {count['not tried']} are not tried" if count["not tried"] else ""
    return f"{count['passes']} cases pass, {bad} fail{known}{left} (level {asked.level})"


def loaded() -> Any:
    """Returns cases.json."""
    try:
        # Unlike open, the loader of this module also reads from an archive, as a wheel is.
        return json.loads(globals()["__loader__"].get_data(CASES))
    except (OSError, ValueError) as error:
        raise Unusable(f"{CASES}: {error}") from None


def printed(lines: Iterable[str], is_aside: bool = False) -> None:
    """Prints lines on standard output, or aside on standard error."""
    print("".join(f"{it}\n" for it in lines), end="", flush=True, file=sys.stderr if is_aside else sys.stdout)


def tried(rules: list[Case], asked: argparse.Namespace) -> int:
    """Runs the cases, prints which of them fail, and returns the status."""
    cases = [{**case, "rule": rule["rule"]} for rule in rules for case in rule["cases"]]
    chosen = [it for it in cases if is_chosen(it, asked)]
    if asked.write:
        write(chosen, asked.write)
        return 0
    with contextlib.closing(Batch(asked) if asked.batch else Runner(asked)) as runner:
        runner.prepare()
        found = [*run_all(runner, chosen, asked.jobs)]
    if asked.shape:
        printed(SHAPES[asked.shape](found, runner.why))
    else:
        # In the order of FORMAT.md: a mistake in what the others rest on comes first.
        own = ((it, [one for one in found if one.case["rule"] == it["rule"]]) for it in rules)
        printed(line for it, results in own for line in shown(it, results, asked.all))
    printed([f"run.py: {runner.why}"] if runner.why else [], bool(asked.shape) or runner.status != FAILED)
    if runner.status == USAGE:
        return USAGE
    printed([summary(found, asked)], bool(asked.shape))
    if asked.expect_write and not runner.why:
        with open(asked.expect_write, "w", encoding="utf-8") as file:
            file.writelines(f"{it.case['id']}\n" for it in found if it.failures)
        return 0
    return runner.status or (FAILED if any(it.is_bad for it in found) else 0)


def main(words: Sequence[str] | None = None) -> int:
    """Runs what the command line asks for, and returns the status."""
    try:
        suite = loaded()
        asked = parsed(words, suite["rules"])
        if asked.version:
            printed([f"cases {suite['version']}"])
            return 0
        return tried(suite["rules"], asked)
    except (Unusable, OSError) as error:
        printed([f"run.py: {error}"], True)
        return USAGE


if __name__ == "__main__":
    sys.exit(main())
