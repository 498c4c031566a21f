"""What `dnorm-files` prints: a line for each file, how two files differ, and a report for CI services."""

import contextlib
import csv
import io
import os
import re
from collections import Counter, defaultdict
from collections.abc import Callable, Container, Iterable, Iterator, Mapping, Sequence
from xml.etree import ElementTree

from ..console import shown
from ..errors import Refused
from ..folders import LINK_TO_FOLDER
from ..instances import LETTERS, Graph, Max, Min
from ..library import Held
from ..manifests import line_with
from ..names import ending_of
from ..pairs import VALUES, Differences, pairs_of, rows_of
from ..records import SIZES, Contents, Range, Record

# The heads of the table of `list`.
FIELDS = ("flow", "id", *dict.fromkeys(field for fields in VALUES.values() for field in fields))
HEADS = ["name", "kind", *SIZES, *(it for it in Contents._fields if it != "fields"), "checksum"]
HEADS += [f"{it}_{of}" for it in FIELDS for of in Range._fields]
# How what is counted is told, one and several. All else is told by its name.
TOLD = {
    "same": ("the same", "the same"), "groups": ("group", "groups"), "links": ("link", "links"),
    "other_files": ("other file", "other files"),
    "without_graph": ("companion without a graph", "companions without a graph"),
    "graph_not_accepted": ("companion of a graph that is not accepted", "companions of graphs that are not accepted"),
    "other_kind": ("file of another kind than its ending", "files of another kind than their endings"),
}  # fmt: skip
# Characters that XML cannot contain, and half characters, which are bytes of names that are not UTF-8.
NO_XML = re.compile("[^\t\n\r\x20-\ud7ff\ue000-\ufffd\U00010000-\U0010ffff]")
# What a message of GitHub and its properties cannot contain.
NO_MESSAGE, NO_PROPERTY = re.compile("[%\r\n]"), re.compile("[%\r\n:,]")


def counted(counts: Mapping[str, int], always: Container[str]) -> str:
    """Returns counts in words: those above 0, and those that are always told."""
    told = [f"{n} {TOLD.get(it, (it,) * 2)[n != 1]}" for it, n in counts.items() if n or it in always]
    return ", ".join(told).replace("_", " ")


def told_others(others: Mapping[str, str], most: int = 6) -> str:
    """Returns the endings of other files with their numbers, the most frequent ones first."""
    kept = {name: shown(ending_of(name))[:16] or "no ending" for name in others}
    ends = Counter("links to folders" if why == LINK_TO_FOLDER else kept[name] for name, why in others.items())
    told = sorted(ends.items(), key=lambda it: (-it[1], it[0]))
    more = [f"more {sum(n for _, n in told[most:])}"] if len(told) > most else []
    return ", ".join([*(f"{it} {n}" for it, n in told[:most]), *more])


def groups_of(records: Iterable[Record]) -> dict[str, list[str]]:
    """Returns the names of accepted files by their checksums: of a file and links to it that of the file."""
    found = defaultdict[str, dict[tuple[int, int], str]](dict)
    for it in records:
        # A file may have gone meanwhile.
        with contextlib.suppress(OSError):
            if it.checksum:
                of = os.stat(it.name)
                name = found[it.checksum].setdefault((of.st_dev, of.st_ino), it.name)
                if os.path.islink(name) and not os.path.islink(it.name):
                    found[it.checksum][of.st_dev, of.st_ino] = it.name
    return {checksum: [*files.values()] for checksum, files in found.items()}


def line_of(it: Record) -> str:
    if it.error:
        return line_with(it.name, after=it.what)
    more = [*([f"fits {', '.join(it.graphs)}"] if it.graphs else []), *it.remarks]
    return line_with(it.name, after=f": accepted {it.kind}", more="".join(f", {one}" for one in more))


def cause_of(it: Record) -> list[str]:
    """Returns the lines that show the cause of a refusal, or of a compressed file that cannot be read."""
    return it.error.causes if isinstance(it.error, Refused) else it.hint.splitlines() if it.hint else []


def causes_of(it: Record) -> str:
    """Returns these lines as they stand below that of the error."""
    return "".join(f"    {line}\n" for line in cause_of(it))


def text_of(it: Record) -> str:
    """Returns the lines of `list` below the name of a file."""
    lines, more = [f"bytes {it.bytes}"], ""
    assert it.contents
    if it.nodes is not None:
        lines.append(f"nodes {it.nodes}, without arcs {it.contents.without_arcs}")
        more = f", merged {it.merged}, self-loops {it.self_loops}"
    lines.append(f"lines {it.declared}, canonical {it.canonical}{more}")
    lines += [f"{field} {of.least} to {of.greatest}, {of.bits} bits" for field, of in it.contents.fields.items()]
    sums = zip(Contents._fields[1:5], it.contents[1:5])
    told = [f"{name.replace('_', ' ')} {value}" for name, value in sums if value is not None]
    lines += [*([f"sums: {', '.join(told)}"] if told else []), f"checksum {it.checksum}"]
    return "".join(f"    {line}\n" for line in lines)


def row_of(it: Record) -> str:
    """Returns the row of a file in the CSV table of `list`."""
    ranges, text = it.contents.fields if it.contents else {}, io.StringIO()
    found = {f"{field}_{of}": value for field, range_ in ranges.items() for of, value in range_._asdict().items()}
    # Only a terminator with CR has a name with CR quoted.
    row = csv.DictWriter(text, HEADS, extrasaction="ignore", lineterminator="\r\n")
    row.writerow({**it.as_dict(), **found})
    return text.getvalue().removesuffix("\r\n") + "\n"


def annotation_of(it: Record) -> str:
    """Returns the line by which GitHub shows an error at a line of a file, or a warning of remarks, or nothing."""
    properties, level, told = {"file": os.path.normpath(it.name)}, "error", [f"{it.name}{it.what}", *cause_of(it)]
    if not it.error:
        level, told = "warning", [f"{it.name}: accepted {it.kind}, {', '.join(it.remarks)}"] * bool(it.remarks)
    if isinstance(it.error, Refused):
        properties |= {} if it.error.line is None else {"line": str(it.error.line)}
        properties["title"] = f"dnorm: {it.error.number} {it.error.word}"
    by_number: Callable[["re.Match[str]"], str] = lambda it: f"%{ord(it[0]):02X}"
    fields = (f"{key}={NO_PROPERTY.sub(by_number, value)}" for key, value in properties.items())
    text = NO_MESSAGE.sub(by_number, "\n".join(told))
    return f"::{level} {','.join(fields)}::{text}\n" if told else ""


def junit(records: Sequence[Record]) -> bytes:
    """Returns a report in the XML of JUnit, with a test case for each file."""
    counts = {"tests": len(records), "failures": 0, "errors": 0}
    suite = ElementTree.Element("testsuite", name="dnorm")
    for it in records:
        attributes = {"classname": "dnorm", "name": for_xml(it.name), "time": f"{it.seconds:.6f}"}
        case = ElementTree.SubElement(suite, "testcase", attributes)
        if it.error:
            refused = it.error if isinstance(it.error, Refused) else None
            what, kind = ("failure", refused.word) if refused else ("error", type(it.error).__name__)
            counts[f"{what}s"] += 1
            fault = ElementTree.SubElement(case, what, type=kind, message=for_xml(f"{it.name}{it.what}"))
            fault.text = for_xml("\n".join(cause_of(it))) or None
        elif it.remarks:
            ElementTree.SubElement(case, "system-out").text = for_xml(", ".join(it.remarks))
    suite.attrib.update((it, str(count)) for it, count in counts.items())
    suite.set("time", f"{sum(it.seconds for it in records):.6f}")
    suites = ElementTree.Element("testsuites")
    suites.append(suite)
    text: bytes = ElementTree.tostring(suites, encoding="utf-8", xml_declaration=True)
    return text + b"\n"


def for_xml(text: str) -> str:
    """Returns a text in which every character that XML cannot contain is written as \\xNN, as a byte of it."""
    text = os.fsencode(text).decode("utf-8", "backslashreplace")
    return NO_XML.sub(lambda it: "".join(f"\\x{byte:02x}" for byte in it[0].encode()), text)


def lines_of_differences(it: Differences) -> Iterator[str]:
    yield str(it.first)
    if it.kind is None:
        return
    letter, what = LETTERS[it.kind], {"co": "points", "ss": "items", "p2p": "items"}.get(it.kind, "pairs")
    for name, left, right in it.values:
        yield f"{name}: {left} left, {right} right"
    if it.supplies:
        yield f"supplies: {it.supplies} different"
    both = f"{it.both} in both, {it.different} of them different"
    yield f"{what}: {it.only_left} only left, {it.only_right} only right, {both}"
    for names, count in it.fields:
        yield f"different in {names}: {count}"
    if it.reversed:
        first = [f"{tail} {head}" for tail, head in it.reversed[: max(1, len(it.pairs))]]
        yield f"reversed: {len(it.reversed)}, from {', '.join(first)}{', ..' * (len(first) < len(it.reversed))}"
    for pair in it.pairs:
        # An item is told by its place.
        key, place = ((), f", item {pair.key[0]}") if letter in "sq" else (pair.key, "")
        for mark, arcs in (("<", pair.left), (">", pair.right)):
            yield from (f"{mark} {' '.join(map(str, (letter, *key, *values)))}{place}" for values in arcs)


def lines_of_show(it: Held) -> Iterator[str]:
    """Yields the lines that `dnorm show` prints of a text."""
    found = it.instance(2)
    yield f"kind {it.kind}\n" + (f"nodes {it.nodes}\n" if isinstance(found, Graph) else "") + f"lines {it.lines}\n"
    if isinstance(found, Min):
        yield f"supplies {len(found.supplies)}\n"
    if isinstance(found, Max):
        yield f"source {found.source}\nsink {found.sink}\n"
    if isinstance(found, Graph):
        yield f"pairs {it.pairs}\n"
        for (tail, head), arcs in pairs_of(rows_of(found)):
            (value, *_), *_ = arcs
            told = {"sp": f"length {value}", "max": f"total {value}"}.get(it.kind)
            if told is None:
                forced, cost = sum(low for low, _, _ in arcs), sum(low * each for low, _, each in arcs)
                told = f"forced {forced} cost {cost} steps {len({each for low, cap, each in arcs if cap > low})}"
            yield f"pair {tail} {head} {told}\n"
