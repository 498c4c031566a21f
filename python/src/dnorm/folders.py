"""The texts of folders, and a check of all of them."""

import os
from collections.abc import Iterable
from concurrent.futures import ThreadPoolExecutor
from dataclasses import dataclass
from typing import Optional, TypeVar, Union

from .answers import Form, table
from .calls import checked_form
from .errors import DnormError, Read
from .files import NO_FILE, Bounds, reason_of
from .limits import Limit, Seconds
from .manifests import Manifest
from .names import ENDINGS, HIDDEN, Names, is_excluded, is_text, real, unread_text
from .program import processors
from .records import Partners, Reading, Record, counts_of

EXCLUDES, LINK_TO_FOLDER = "--exclude leaves it out", "it is a link to a folder, which is not followed"
# The folder of CVS, which has a list in each.
CVS, CVS_LIST = "CVS", "Entries"
Result = TypeVar("Result")
# Files, each with the error of one that is not read.
Files = dict[str, Optional[DnormError]]


def find(
    paths: Iterable[str], endings: Names, excluded: Names = (), *, follow: bool = False, within: Optional[str] = None
) -> "Found":
    """Returns the files that these paths name. The path of a folder names all files below it that end in one of these
    endings, in any case, compressed or not, except what matches an excluded pattern. A folder that cannot be read, or
    has no such file, has an error, and so has a text behind another compression, and what is no file, as a pipe. Links
    lead to files below these folders, unless they are followed. Within a folder, the paths were found there."""
    found, folders, named = Found(endings, excluded), list[str](), set[str]()
    for path in paths:
        if within is not None:
            if not found.leaves_out(path):
                found.take(path)
        elif path != "-" and os.path.isdir(path):
            missing = Read(path, f"no file in it ends in {' '.join(endings)}; --ending names other endings")
            found.files.update(found.below(path) or {path: missing})
            folders.append(real(path))
        else:
            found.files[path] = None
            named.add(path)
    places = [real(within)] if within is not None else folders
    found.bounds = Bounds(("/",) if follow or not places else tuple(places), frozenset(named), is_search=within is None)
    others = {name: reason for name, reason in found.others.items() if name not in found.files}
    found.files, found.others = in_order_of_names(found.files), in_order_of_names(others)
    return found


def error_of(path: str, endings: Names) -> Optional[DnormError]:
    """Returns the error of what has the name of a text, and is not opened: another compression, or a pipe."""
    is_none = not os.path.isfile(path) and os.path.exists(path)
    reason = unread_text(path, endings) or (NO_FILE if is_none else "")
    return Read(path, reason, EXCLUDES) if reason else None


def in_order_of_names(found: dict[str, Result]) -> dict[str, Result]:
    return dict(sorted(found.items(), key=lambda it: os.fsencode(it[0])))


class Found:
    """What paths name: the `files` and the `others` below these paths, in the order of the names, each with an error or
    the reason why it is not read; how many were `excluded`, by which `patterns`; and the `bounds` of opened files."""

    def __init__(self, endings: Names, patterns: Names) -> None:
        self.endings, self.patterns, self.excluded, self.used = endings, patterns, 0, set[str]()
        self.files: Files = {}
        self.others: dict[str, str] = {}
        self.bounds: Optional[Bounds] = None

    def below(self, folder: str) -> Files:
        """Returns the files below a folder, also links that lead nowhere, and keeps the others, as links to folders."""
        files: Files = {}
        errors: list[OSError] = []
        for at, folders, names in os.walk(folder, onerror=errors.append):
            folders[:] = [it for it in folders if self.is_wanted(folder, at, it)]
            links = [os.path.join(at, it) for it in folders if os.path.islink(os.path.join(at, it))]
            self.others.update(dict.fromkeys(links, LINK_TO_FOLDER))
            for path in (os.path.join(at, it) for it in names if self.is_wanted(folder, at, it)):
                self.take(path, files)
        return files | {os.fsdecode(it.filename): Read(os.fsdecode(it.filename), reason_of(it)) for it in errors}

    def take(self, path: str, files: Optional[Files] = None) -> None:
        """Adds what was found at a path to the files, or else to the other files."""
        if os.path.isdir(path):
            self.others[path] = LINK_TO_FOLDER
        elif is_text(path, self.endings) or unread_text(path, self.endings):
            (self.files if files is None else files)[path] = error_of(path, self.endings)
        else:
            self.others[path] = "its name does not end like that of a DIMACS text"

    def is_wanted(self, folder: str, at: str, name: str) -> bool:
        """Whether a file or folder of this name is neither excluded nor of version control."""
        if name in HIDDEN or name == CVS and os.path.isfile(os.path.join(at, name, CVS_LIST)):
            return False
        path = os.path.relpath(os.path.join(at, name), folder) if self.patterns else ""
        return not self.leaves_out(path)

    def leaves_out(self, path: str) -> bool:
        """Whether a pattern excludes a path, which is then counted."""
        pattern = is_excluded(path, self.patterns)
        self.used |= {pattern or ""}
        self.excluded += pattern is not None
        return pattern is not None


@dataclass(frozen=True, repr=False)
class Collection:
    """What `check_folder` found: the `records` of the texts, in the order of their names; the `others`, files that it
    did not look at, with the reasons; and how many were `excluded`. The checksums are of this `form`."""

    records: tuple[Record, ...]
    others: dict[str, str]
    excluded: int
    form: Form

    @property
    def counts(self) -> dict[str, int]:
        """How many files are accepted, refused and failed; have each sort of remark; are others, and are excluded."""
        return {**counts_of(self.records), "other_files": len(self.others), "excluded": self.excluded}

    @property
    def manifest(self) -> Manifest:
        """The checksums of the accepted files by their names."""
        return Manifest(self.form, {it.name: it.checksum for it in self.records if it.checksum})

    def __repr__(self) -> str:
        return f"<dnorm.Collection: {', '.join(f'{count} {it}' for it, count in self.counts.items() if count)}>"

    def _repr_html_(self) -> str:
        faulty = ((it.name, it.what.lstrip(": "), it.hint or "") for it in self.records if it.error)
        return table(self, ("name", "error", "hint"), faulty)


def check_folder(
    *paths: Union[str, os.PathLike[str]],
    exclude: Names = (),
    form: Form = 1,
    timeout: Seconds = None,
    follow: bool = False,
) -> Collection:
    """Checks the texts of folders, and that companions fit the graphs of their names, as `dnorm-files check
    --companions` does. Reads each file once, as many at the same time as there are processors. The record of a file has
    its error, also if it takes more than `timeout` seconds. Links lead out of folders only if `follow` is true."""
    form = checked_form(form)
    # A wrong one is an error of the call, and not of each file.
    Limit(timeout, "-")
    found = find([os.fspath(it) for it in paths], ENDINGS, exclude, follow=follow)
    reading = Reading(form, Partners(found.files), timeout=timeout, bounds=found.bounds, files=found.files)
    with ThreadPoolExecutor(processors()) as pool:
        return Collection(tuple(pool.map(reading.record, found.files)), found.others, found.excluded, form)
