"""The command line of canon-in-parts."""

import argparse
import contextlib
import os
import shutil
import signal
import subprocess
import sys
import tempfile
from collections.abc import Iterator, Sequence
from typing import Any, BinaryIO, ContextManager, Optional

from ..console import SIGNALS, Console, Parser, Stopped, has_output, heed, is_open, number
from ..errors import DnormError, Memory, Refused, Write
from ..files import reason_of, whole_file
from ..names import packed_of
from ..program import find_program, processors
from .chunks import Ended, Parts, children

ABOUT = """\
Writes the canonical text of a graph in parts: the bytes that `dnorm canon FILE` writes, without a process that keeps
the whole graph in memory.
"""
# What the help says after the options.
MORE = """\
It needs Python 3.9 or later. On a terminal it shows its progress.

Memory: a job takes what the program takes for one chunk or one range. All arcs of one tail are in one range. One
process reads the head of a text, which in `min` has all node lines, and a text without arcs. A line must fit into
memory. Disk: the text, and the canonical texts of its chunks and of its ranges (`sp`: twice the text).

Faults are reported as dnorm reports them, by the line of the whole text. Unlike one run of dnorm,
  - it reads FILE to its end before it checks any line, even if an early line has a fault, or there is no end;
  - it reports out of memory (30) as soon as a part runs out, even if an earlier part of the text has a fault;
  - if another tool or the disk fails, it prints a line `canon-in-parts: ..`.

Status: 0 done; 2 the text has a fault; 3 the command line is wrong; 4 out of memory, a source or standard output
that failed, or any other failure; 125 the program could not be built; 128 plus the number of a signal.
"""


def parser() -> Parser:
    layout: dict[str, Any] = {"formatter_class": argparse.RawDescriptionHelpFormatter, "epilog": MORE}
    made = Parser(prog="canon-in-parts", allow_abbrev=False, description=ABOUT, **layout)
    add = made.add_argument
    add("file", nargs="?", metavar="FILE", help="the text; - is standard input")
    add("-V", "--version", action="store_true", help="print the version")
    add("--form", type=int, choices=(1, 2), default=1, help="the canonical form, 1 by default")
    add("-o", "--output", metavar="FILE", help="write into FILE, once all of it is known, in place of standard output")
    about = "lines of a chunk, by default 1000000, or more if the text is large; a job takes some 40 bytes for each"
    add("--lines", type=number(1), metavar="N", help=about)
    about = "ranges of tails, by default as many as chunks; the memory of a job falls with it"
    add("--parts", type=number(1), metavar="N", help=about)
    about = "jobs at once, by default one for each processor"
    add("--jobs", type=number(1), default=processors(), metavar="N", help=about)
    about = "where temporary files go, by default $TMPDIR, or /tmp"
    add("--tmpdir", default=os.environ.get("TMPDIR") or "/tmp", metavar="DIR", help=about)
    about = "the built program, by default the one that came with this script; in a clone the one that ./dnorm runs"
    add("--program", metavar="PROGRAM", help=about)
    return made


def version_of(program: str) -> str:
    """Returns the version of a program. The `./dnorm` of a clone may first build it."""
    try:
        with children.running([program, "--version"], stdout=subprocess.PIPE) as process:
            found = os.fsdecode(process.communicate()[0])
    except DnormError as error:
        raise Ended(3, f"no program {program}") from error
    if process.returncode == 125:
        # What ran has said why.
        raise Ended(125, "", "")
    if not found.startswith("dnorm "):
        raise Ended(3, f"{program} is not the built program")
    return found.removeprefix("dnorm ")


def run(words: Sequence[str], has_input: bool, is_written: bool) -> None:
    found, error = parser().parse_args(words), parser().error
    program = os.path.abspath(found.program or find_program())
    version = version_of(program)
    if found.version:
        Console().print(f"canon-in-parts (dnorm) {version}")
        return
    if found.file is None:
        error("one FILE is wanted, or -")
    found.output = None if found.output == "-" else found.output
    if found.output and packed_of(found.output)[1]:
        raise Ended(3, f"-o {found.output}: the text is not compressed")
    try:
        if found.file == "-" and not has_input:
            raise OSError
        text = open(0 if found.file == "-" else found.file, "rb", buffering=0, closefd=found.file != "-")
    except OSError:
        raise Ended(4, f"{found.file}: 31 Read", "") from None
    with folder_in(found.tmpdir) as at:
        try:
            own: ContextManager[BinaryIO] = open(1, "wb", buffering=0, closefd=False)
            with whole_file(found.output) if found.output else own as out:
                Parts(found, at, program, out, is_written or bool(found.output)).run(text)
        except (Memory, Refused) as error:
            raise Ended(4 if isinstance(error, Memory) else 2, f"{found.file}{error.rest}", "") from error
        except Write as error:
            raise Ended(4, str(error), "") from error


@contextlib.contextmanager
def folder_in(place: str) -> Iterator[str]:
    """Makes a folder for temporary files, and removes it at the end. Signals wait while it is made, or is removed."""
    signal.pthread_sigmask(signal.SIG_BLOCK, SIGNALS)
    try:
        made = tempfile.mkdtemp(prefix="canon-in-parts.", dir=os.path.realpath(place))
    except OSError:
        raise Ended(4, f"{place} takes no files" if os.path.isdir(place) else f"no folder {place}") from None
    try:
        try:
            signal.pthread_sigmask(signal.SIG_UNBLOCK, SIGNALS)
            yield made
        finally:
            # After a signal that comes here, all others are ignored.
            signal.pthread_sigmask(signal.SIG_BLOCK, SIGNALS)
    finally:
        shutil.rmtree(made)
        signal.pthread_sigmask(signal.SIG_UNBLOCK, SIGNALS)


def main(words: Optional[Sequence[str]] = None) -> int:
    has_input, is_written = is_open(0), has_output()
    heed()
    status, line = 0, ""
    try:
        run(sys.argv[1:] if words is None else words, has_input, is_written)
    except Ended as ended:
        status, line = ended.status, ended.line
    except Stopped as stopped:
        children.stop()
        status = 128 + stopped.number
    except (DnormError, OSError) as error:
        status, line = 4, f"canon-in-parts: {error if isinstance(error, DnormError) else reason_of(error)}"
    except MemoryError:
        status, line = 4, "canon-in-parts: 30 Memory"
    if line:
        Console().complain(f"{line}\n")
    return status
