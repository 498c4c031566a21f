"""Where the program, pages and other files are, what the program tells, and how many processors there are."""

import os
import re
import shutil
from collections.abc import Sequence
from typing import Optional

from .errors import DnormError, Endless, Memory, NoProgram, Read, Refused, Write
from .refusals import REFUSALS

# Where the page on the commands and calls is, from here, in a wheel, in a clone or an archive, and where `bin/install`
# and Debian put it; where the program is in these or by pip; and where the files of pages of HTML are.
PAGES = ["", "../../../docs", "../../../doc/dnorm/docs", "../../../../share/doc/dnorm/docs"]
PROGRAMS = ["../../../bin", "../../..", "../../../../bin"]
WEB = ["", "../../../web", "../../web", "../../../../share/dnorm/web"]
# The line on standard error of a run that failed, by `dnorm help`. A name may have LF.
LINE = re.compile(r"(?as)(.*):(?:([1-9]\d{,18}|end): (?=[12]?\d )| (?=3[0-6] ))(\d+) ([A-Za-z]+)(?: ([1-9]\d{,18}))?")
FAILURES: "dict[str, type[DnormError]]" = {it.__name__: it for it in (Memory, Read, Endless, Write)}


def error_on(line: str) -> Optional[DnormError]:
    """Returns the error that a line of the program tells, without its LF, or None for any other line."""
    found = LINE.fullmatch(line)
    if not found or REFUSALS.get(int(found[3]), ("",))[0] != found[4]:
        return None
    name, place, number, word, node = found.groups()
    if (word == "NotInGraph") is not bool(node) or word == "Write" and name != "out":
        return None
    if word in FAILURES:
        return FAILURES[word](name)
    return Refused(name, None if place in (None, "end") else int(place), int(number), word, int(node) if node else None)


def find_program() -> str:
    """Returns the path of the program dnorm: the one that came with this package, or else the first one on `PATH`."""
    return placed("dnorm", PROGRAMS) or on_path("dnorm")


def on_path(name: str) -> str:
    """Returns the path of a command on `PATH`, but for folders that depend on the current one. Raises `NoProgram`."""
    folders = filter(os.path.isabs, os.environ.get("PATH", os.defpath).split(os.pathsep))
    found = shutil.which(name, path=os.pathsep.join(folders) or os.devnull)
    if not found:
        raise NoProgram(name, "there is no such program on PATH")
    return found


def page() -> str:
    """Returns the path of the page that describes the commands and the calls, or its name if it is not there."""
    return placed("FILES.md", PAGES) or "docs/FILES.md"


def placed(name: str, places: Sequence[str]) -> str:
    """Returns the path of a file that is in one of these places, or nothing."""
    return next(filter(os.path.isfile, (place(name, it) for it in places)), "")


def place(name: str, folder: str) -> str:
    """Returns the path of a file in a folder, which is named from here."""
    return os.path.normpath(os.path.join(os.path.dirname(os.path.realpath(__file__)), folder, name))


def processors() -> int:
    """Returns how many processors this process may use."""
    # Systems other than Linux lack the first call.
    found = getattr(os, "sched_getaffinity", None)
    return len(found(0)) if found else os.cpu_count() or 1
