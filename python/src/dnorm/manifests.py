"""Manifests: the canonical checksums of files, one on a line, with marks that show which files have not changed."""

import contextlib
import hashlib
import os
import re
import time
from collections import defaultdict
from collections.abc import Callable, Iterable
from dataclasses import dataclass
from typing import NamedTuple, Optional

from .answers import Form, table
from .errors import Read
from .files import File, Text, failing, name_of, reason_of
from .limits import Limit
from .names import KINDS
from .records import Record

# The line that says the form of the checksums, how many files the manifest lists, and that these are not the checksums
# of the files, as sha256sum wants them. Earlier versions wrote no such words, no number, and for form 1 no line.
ABOUT = ": checksums of canonical texts, for dnorm-files manifest --verify"
HEAD = re.compile(rf"# form ([12])(?:, ([0-9]+) files?(?:{ABOUT})?)?")
# The line that earlier versions wrote before the line of a file, with its size, its time and its kind.
EARLIER = re.compile(rf"# file -?[0-9]+ -?[0-9]+ ({'|'.join(dict.fromkeys(KINDS.values()))})")
ENTRY = re.compile(r"(\\?)([0-9a-f]{64})  (.+)", re.S)
# What follows the name of a file, behind a tab: its mark, and a sum of the line up to there.
MARKED = re.compile(r"(.*)\t# ((?:-?[0-9]+ ){5})([0-9a-f]{16})", re.S)
# What differs once a file is written or another one has its name: its size; in nanoseconds when it was written, and
# when it was changed at all, which no program sets back as `touch -d` and `cp -p` do; its number and its device.
Mark = tuple[int, ...]
# How names are written that lines cannot have.
ESCAPES = {"\\": r"\\", "\n": r"\n", "\r": r"\r", "\t": r"\t"}
# A file that was written so few nanoseconds before may be written again without another time.
FRESH = 2_000_000_000


class Entry(NamedTuple):
    """A file, its canonical checksum, the form of that, and the mark that the file had then, if it is known."""

    name: str
    checksum: str
    form: Form
    mark: Optional[Mark] = None


def mark_of(name: str) -> Mark:
    """Returns the mark of a file, or of the one that a link leads to. Raises OSError if there is no such file."""
    it = os.stat(name)
    return it.st_size, it.st_mtime_ns, it.st_ctime_ns, it.st_ino, it.st_dev


def renewed(
    name: str, form: Form, read: Callable[[str], Record], known: Optional[Entry]
) -> tuple[Record, Optional[Mark]]:
    """Returns the record of a file, read unless its mark and form are known; and its mark, if it is sure to change."""
    try:
        before = mark_of(name)
    except OSError as error:
        return Record(name, error=Read(name, reason_of(error))), None
    if known and (known.mark, known.form) == (before, form):
        return Record(name, checksum=known.checksum), before
    record, after = read(name), None
    with contextlib.suppress(OSError):
        after = mark_of(name)
    # A time before 1970 or after now is none at which the file was written.
    is_sure = 0 <= min(before[1:3]) and max(before[1:3]) < time.time_ns() - FRESH
    return record, before if is_sure and after == before else None


def line_with(name: str, before: str = "", after: str = "", more: str = "", *, has_tabs: bool = True) -> str:
    """Returns a line with the name of a file, and at its end more with names. As in a line of sha256sum, a backslash,
    LF or CR in a name, or a tab if the line is to have none, is two characters, and a backslash begins the line."""
    table = str.maketrans({it: to for it, to in ESCAPES.items() if it != "\t" or not has_tabs})
    plain, others = name.translate(table), more.translate(table)
    return ("\\" if (plain, others) != (name, more) else "") + before + plain + after + others + "\n"


def sum_of(form: int, line: str) -> str:
    """Returns the sum at the end of a line with a mark, which shows that nothing else than this version wrote it."""
    return hashlib.sha256(f"{form} ".encode() + os.fsencode(line)).hexdigest()[:16]


def manifest_text(entries: Iterable[Entry], form: int, has_marks: bool = False) -> str:
    """Returns the text of a manifest in one form, with the marks of the files or without them."""
    lines = []
    for it in entries:
        # Only a mark follows a tab.
        line = line_with(it.name, before=f"{it.checksum}  ", has_tabs=False)
        if has_marks and it.mark:
            line = f"{line[:-1]}\t# {' '.join(map(str, it.mark))} "
            line += f"{sum_of(form, line)}\n"
        lines.append(line)
    return f"# form {form}, {len(lines)} {'file' if len(lines) == 1 else 'files'}{ABOUT}\n" + "".join(lines)


def entries_of(text: str) -> tuple[dict[str, Entry], bool]:
    """Returns the entries of a manifest by the names of the files, and whether it says its form. Raises ValueError for
    a line that no manifest has, or that was edited behind its tab; a file that is listed twice; and a cut manifest."""
    *lines, rest = text.split("\n")
    if rest:
        raise ValueError("its last line has no end: it is cut")
    if any(it.endswith("\r") for it in lines):
        raise ValueError("its lines end in CR LF, and those of a manifest in LF")
    heads = [head.groups() for head in map(HEAD.fullmatch, lines) if head]
    forms = {form for form, _ in heads}
    if len(forms) > 1:
        raise ValueError("it has checksums of both forms: keep two manifests")
    # Earlier versions wrote no number of files, and no marks in the lines.
    is_ours = bool(heads) and all(count for _, count in heads)
    entries, places = dict[str, Entry](), dict[str, int]()
    for at, line in enumerate(lines, 1):
        if HEAD.fullmatch(line) or EARLIER.fullmatch(line):
            continue
        entry = entry_on(line, at, 2 if forms == {"2"} else 1, is_ours)
        other = entries.get(entry.name)
        if other:
            what = "the file" if other.checksum == entry.checksum else "another checksum of the file"
            raise ValueError(f"line {at} has {what} of line {places[entry.name]} again")
        entries[entry.name], places[entry.name] = entry, at
    wanted = sum(int(count or 0) for _, count in heads)
    if is_ours and wanted != len(entries):
        raise ValueError(f"its head says {wanted}, and it lists {len(entries)}: it is cut, or was edited")
    return entries, bool(heads)


def entry_on(line: str, at: int, form: Form, is_ours: bool) -> Entry:
    """Returns the entry on a line of a manifest of this form, which this version wrote, or an earlier one."""
    marked = MARKED.fullmatch(line)
    entry = ENTRY.fullmatch(marked[1] if marked else line)
    # No name is written with other signs behind a backslash.
    if not entry or entry[1] and not re.fullmatch(r"(?:[^\\]|\\[\\nrt])*", entry[3]):
        raise ValueError(f"no manifest has the line {line!r}")
    if marked and not (is_ours and sum_of(form, line[: -len(marked[3])]) == marked[3]):
        raise ValueError(f"line {at} is not as it was written; without what follows its tab, the file is read")
    meant = {written: it for it, written in ESCAPES.items()}
    name = re.sub(r"\\.", lambda it: meant[it[0]], entry[3]) if entry[1] else entry[3]
    return Entry(name, entry[2], form, tuple(map(int, marked[2].split())) if marked else None)


@dataclass(frozen=True, repr=False)
class Manifest:
    """The canonical checksums of files, by their names; `min` texts are in this form."""

    form: Form
    checksums: dict[str, str]

    def __repr__(self) -> str:
        return f"<dnorm.Manifest: form {self.form}, {len(self.checksums)} files>"

    def _repr_html_(self) -> str:
        return table(self, ("name", "checksum"), self.checksums.items())


@dataclass(frozen=True, repr=False)
class Changes:
    """How a manifest differs from an older one: the names that are `new`, `gone`, or `changed`, with another checksum;
    and the `renamed` files, each with its old and its new name, whose checksum is the same."""

    new: tuple[str, ...]
    gone: tuple[str, ...]
    changed: tuple[str, ...]
    renamed: tuple[tuple[str, str], ...]

    def __repr__(self) -> str:
        return f"<dnorm.Changes: {', '.join(f'{len(names)} {it}' for it, names in vars(self).items())}>"

    def _repr_html_(self) -> str:
        rows = [(it, name) for it, names in vars(self).items() for name in names]
        return table(self, ("change", "file"), rows)


def read_manifest(file: File) -> Manifest:
    """Reads a manifest that `dnorm-files` wrote, also compressed. Raises `Read` for a text that is none, or is cut."""
    entries, has_form = manifest_in(file)
    if not entries and not has_form:
        raise Read(name_of(file), "it lists no file")
    form: Form = next((it.form for it in entries.values()), 1)
    return Manifest(form, {name: it.checksum for name, it in entries.items()})


def manifest_in(file: File) -> tuple[dict[str, Entry], bool]:
    """Returns the entries of a manifest, and whether it says its form."""
    with failing(Read, name_of(file)), contextlib.closing(Text(file, Limit(None, name_of(file)))) as text:
        return entries_of(os.fsdecode(b"".join(iter(text.next_piece, None))))


def manifest_changes(old: Manifest, new: Manifest) -> Changes:
    """Returns how a manifest differs from an older one of the same form. Names are compared as they are."""
    if old.form != new.form:
        raise ValueError(f"the manifests are of form {old.form} and of form {new.form}")
    gone, added = ([it for it in a.checksums if it not in b.checksums] for a, b in ((old, new), (new, old)))
    changed = [it for it, checksum in new.checksums.items() if old.checksums.get(it, checksum) != checksum]
    places = defaultdict[str, list[str]](list)
    for it in reversed(added):
        places[new.checksums[it]].append(it)
    renamed = [(it, places[old.checksums[it]].pop()) for it in gone if places[old.checksums[it]]]
    moved = {name for pair in renamed for name in pair}
    added, gone = ([it for it in names if it not in moved] for names in (added, gone))
    return Changes(tuple(added), tuple(gone), tuple(changed), tuple(renamed))
