"""The pages of HTML that `dnorm-files look` prints. web/report.html has their style; web/look.js and web/report.js draw
the pictures and the tables that need a script. The counts and the refusals are there without one."""

import base64
import contextlib
import hashlib
import html
import json
import os
import re
import time
from bisect import bisect_left
from collections import Counter, defaultdict
from collections.abc import Iterable, Sequence
from typing import Optional

from .. import __version__
from ..answers import DIFFERENCES, Difference
from ..console import shown
from ..errors import DnormError, NoProgram, Refused
from ..folders import Collection
from ..instances import Graph, Min
from ..library import GRAPHS
from ..manifests import Changes
from ..pairs import Arcs, Curve, Differences, PairDifference
from ..program import WEB, placed
from ..records import SIZES, Record
from .reports import counted, groups_of
from .staged import git

# How many corners of a curve, arcs of a pair, pairs around it, causes, files of one, and other names a page has.
CORNERS, ARCS, AROUND, CAUSES, FILES, LISTED = 5000, 10, 30, 100, 20, 300
# The colours of kinds and of files that are not accepted.
COLOURS = {"sp": "one", "min": "two", "max": "three", "ss": "four", "p2p": "five", "co": "six"}
COLOURS |= {"refused": "bad", "failed": "worst"}


def page(title: str, is_good: bool, sentence: str, parts: Iterable[str], data: object) -> str:
    """Returns a page in characters of ASCII, which are the same in each locale. Its policy allows only its scripts."""
    made = {"TITLE": escaped(title), "DATA": json.dumps(data).replace("<", "\\u003c")}
    head = f'<h1>{escaped(title)}</h1><p class="{"good" if is_good else "bad"} verdict">{escaped(sentence)}</p>'
    scripts = {"LOOK": shared("look.js"), "REPORT": shared("report.js")}
    hashes = (base64.b64encode(hashlib.sha256(it.encode()).digest()).decode() for it in scripts.values())
    made |= {"BODY": head + "".join(parts), **scripts, "HASHES": " ".join(f"'sha256-{it}'" for it in hashes)}
    text = re.sub("@(TITLE|BODY|LOOK|REPORT|DATA|HASHES)@", lambda it: made[it[1]], shared("report.html"))
    return text.encode("ascii", "xmlcharrefreplace").decode()


def shared(name: str) -> str:
    path = placed(name, WEB)
    if not path:
        raise NoProgram(name, "this copy of the package lacks it: wheels, archives and bin/install bring it")
    with open(path, encoding="utf-8") as file:
        return file.read()


def made_of(folder: str) -> str:
    """Returns when the page was made, by which version, and of which state of a folder."""
    seconds = os.environ.get("SOURCE_DATE_EPOCH", "")
    day = time.gmtime(int(seconds) if seconds.isdecimal() else None)
    told = [time.strftime("%Y-%m-%d", day), f"dnorm {__version__}"]
    # The folder may be gone, or in no repository, and there may be no git.
    with contextlib.suppress(OSError, DnormError):
        told.append(os.path.abspath(folder))
        told.append(f"commit {git('-C', folder, 'rev-parse', '--short', 'HEAD').decode().strip()}")
    return f"<p class=soft>{escaped(', '.join(told))}</p>"


def escaped(text: object) -> str:
    return html.escape(shown(str(text)))


def bar(parts: Iterable[tuple[str, int, str]]) -> str:
    """Returns counts as a bar, with a list of them below."""
    told = [(f"{name} {count}", count, f"background: var(--{colour})") for name, count, colour in parts if count]
    pieces = "".join(f'<span style="flex: {n} 0 0; {style}"></span>' for _, n, style in told)
    keys = "".join(f'<li><i style="{style}"></i>{escaped(it)}</li>' for it, _, style in told)
    return f'<div class="bar" aria-hidden="true">{pieces}</div><ul class="keys">{keys}</ul>'


def section(title: str, *parts: str) -> str:
    return f"<section><h2>{escaped(title)}</h2>{''.join(parts) or '<p>None.</p>'}</section>"


def table(heads: Sequence[str], cells: Iterable[Sequence[str]]) -> str:
    """Returns a table of cells, which are HTML."""
    lines = "".join("<tr>" + "".join(f"<td>{it}" for it in row) for row in cells)
    return f"<div class=wide><table><tr>{''.join(f'<th scope=col>{it}' for it in heads)}{lines}</table></div>"


def folded(title: str, names: Sequence[str], most: int = LISTED) -> str:
    """Returns a list of names that is folded, with at most so many of them."""
    more = f"<li>and {len(names) - most} more" if len(names) > most else ""
    items = "".join(f"<li>{escaped(it)}" for it in names[:most])
    told = f"<details><summary>{escaped(title)}: {len(names)}</summary><ul>{items}{more}</ul></details>"
    return told if names else ""


def page_of_pair(found: Differences, left: str, right: str) -> str:
    """Returns the page of where two files differ."""
    first = found.first
    names = f"<p><b class=left>Left</b> {escaped(left)}<br><b class=right>Right</b> {escaped(right)}"
    sides = ["left", "right"] if left == right else [shown(left), shown(right)]
    if not isinstance(first, Difference):
        return page("Two files of one problem", True, "Both files pose the same problem.", [names], {})
    title, ends = "Where two files differ", "from {} to {}".format(*first.pair or ("", ""))
    sentence = DIFFERENCES[first.what][1].format(ends, **vars(first))
    data: dict[str, object] = {"sides": sides}
    parts = [names, f"<p><code>{escaped(first)}</code></p>"]
    if found.kind:
        counts = [("only left", found.only_left, "left"), ("different", found.different, "bad")]
        counts += [("equal", found.both - found.different, "soft"), ("only right", found.only_right, "right")]
        parts.append(section("Pairs" if isinstance(found.left, Graph) else "Items or points", bar(counts)))
        parts.append(section("Remarks", *(f"<p>{escaped(it)}</p>" for it in remarks_of(found))))
        pair = next((it for it in found.around(first.pair[0]) if it.key == first.pair), None) if first.pair else None
        pair = pair or (found.pairs[0] if found.pairs else None)
        if pair and first.what == "cost":
            data["cost"] = costs_of(first, pair)
            parts.append(section("Costs of the pair", "<div id=costs></div>"))
        if pair and isinstance(found.left, Graph):
            data["around"] = around(found, pair)
            parts.append(section("Arcs around the pair", "<div id=around></div>"))
        cells = ([f"{it.key}".strip("(,)"), arcs(it.left, "<br>"), arcs(it.right, "<br>")] for it in found.pairs)
        shown_pairs = table(["Pair", "Left", "Right"], cells) if found.pairs else ""
        parts.append(section(f"The first {len(found.pairs)} that differ", shown_pairs))
    return page(title, False, sentence, parts, data)


def arcs(found: Arcs, between: str) -> str:
    """Returns the arcs of a pair in words."""
    told = between.join(" ".join(map(str, it)) for it in found[:ARCS]) or "none"
    return f"{told}{between}and {len(found) - ARCS} more" if len(found) > ARCS else told


def costs_of(first: Difference, pair: PairDifference) -> dict[str, object]:
    """Returns the difference and the curves as web/look.js takes them, with numbers as texts."""
    numbers = {"at": pair.key[0], "to": pair.key[1], "amount": first.amount, "left": first.left, "right": first.right}
    drawn = [near(curve, first.amount or 0) for curve in pair.curves()]
    corners = [[[str(n) for n in corner] for corner in curve] for curve, _ in drawn]
    cuts = [ends for _, ends in drawn]
    told = {"curves": corners, "cuts": cuts, "cut": CORNERS if any(map(any, cuts)) else 0}
    return {**{it: None if n is None else str(n) for it, n in numbers.items()}, **told}


def near(curve: Curve, amount: int) -> tuple[Sequence[tuple[int, int]], tuple[bool, bool]]:
    """Returns the corners of a curve around an amount, and at which ends there are more."""
    middle = bisect_left([it for it, _ in curve], amount)
    start = max(0, min(middle - CORNERS // 2, len(curve) - CORNERS))
    return curve[start : start + CORNERS], (start > 0, start + CORNERS < len(curve))


def remarks_of(found: Differences) -> list[str]:
    """Returns the values besides pairs that differ, and what is alike although it differs."""
    made = [f"{name}: {left} left, {right} right" for name, left, right in found.values]
    if found.reversed:
        example = "to".join(f" {it} " for it in found.reversed[0])
        made.append(f"Reversed pairs: {len(found.reversed)}, as from{example}, whose arcs the right file has backwards")
    if isinstance(found.left, Min) and isinstance(found.right, Min) and found.supplies:
        flows = found.right.supplies
        turned = [node for node, flow in found.left.supplies.items() if flows.get(node) == -flow]
        made.append(f"Nodes with other flows: {found.supplies}")
        made += [f"Of these, with the other sign: {len(turned)}, as node {turned[0]}"] if turned else []
    return made


def around(found: Differences, pair: PairDifference) -> dict[str, object]:
    """Returns the pairs around a pair: this one, then those that differ, and then the others."""
    near = {it.key: it for node in pair.key for it in found.around(node)}.values()
    ranked = sorted(near, key=lambda it: (it.key != pair.key, it.left == it.right, it.key))
    drawn = []
    for it in ranked[:AROUND]:
        side = "right" if not it.left else "left" if not it.right else "same" if it.left == it.right else "differs"
        drawn.append([*map(str, it.key), side, arcs(it.left, ", "), arcs(it.right, ", ")])
    return {"pair": [*map(str, pair.key)], "arcs": drawn, "more": max(0, len(ranked) - AROUND)}


def page_of_folder(it: Collection, folder: str, status: int, changes: Optional[Changes]) -> str:
    """Returns the page of what is in a folder, and what has changed there since a manifest."""
    kinds, groups = Counter(one.kind or one.status for one in it.records), graphs_in_groups(it.records)
    parts = [made_of(folder), section("Kinds", bar((name, kinds[name], colour) for name, colour in COLOURS.items()))]
    parts.append(section("Refused and failed files", *refusals(it.records)))
    if changes:
        parts.append(section("Since the manifest, of accepted files", *since(it, changes)))
    parts.append(section("Sizes", "<div id=sizes></div>"))
    told = (folded(one[0], one, FILES) for one in groups[:50])
    parts.append(section(f"Groups of files of one problem: {len(groups)}", *told))
    noted = defaultdict[str, list[str]](list)
    for one in it.records:
        for remark in one.remarks:
            noted[remark.partition(":")[0]].append(one.name)
    parts.append(section("Remarks", *(folded(remark, names, FILES) for remark, names in noted.items())))
    parts.append(section("Files", "<div id=files></div>"))
    is_good = status == 0 and it.counts["accepted"] > 0
    sentence = f"{counted(it.counts, ('accepted', 'refused', 'failed'))}; status {status}"
    return page(f"Collection {folder}", is_good, sentence, parts, table_of(it, groups, changes))


def lists_of(it: Collection, changes: Changes) -> dict[str, tuple[str, Sequence[str]]]:
    """Returns lists of what has changed since a manifest, and their colours. What is not accepted is not gone."""
    faulty = {one.name for one in it.records if one.error}
    return {
        "changed": ("two", changes.changed),
        "renamed": ("one", [f"{old} is now {new}" for old, new in changes.renamed]),
        "new": ("three", changes.new),
        "not accepted now": ("worst", [name for name in changes.gone if name in faulty]),
        "gone": ("bad", [name for name in changes.gone if name not in faulty]),
    }


def since(it: Collection, changes: Changes) -> list[str]:
    """Returns what has changed since a manifest."""
    lists = lists_of(it, changes)
    same = len(it.manifest.checksums) - sum(len(lists[name][1]) for name in ("changed", "renamed", "new"))
    counts = ((name, len(names), colour) for name, (colour, names) in lists.items())
    return [bar([("the same", same, "soft"), *counts]), *(folded(name, names) for name, (_, names) in lists.items())]


def summary_of(it: Collection, folder: str, status: int, changes: Optional[Changes]) -> str:
    """Returns a summary of a folder in Markdown: counts, faulty files, changes, and groups of one problem."""
    faults = sorted((one for one in it.records if one.error), key=lambda one: one.status != "refused")
    causes = [(one.name, getattr(one.error, "line", None) or "", cause_of(one), one.hint or "") for one in faults]
    lists = [(name, names) for name, (_, names) in (lists_of(it, changes) if changes else {}).items() if names]
    lists += [("one problem", names) for names in graphs_in_groups(it.records)]
    told = [(what, len(names), ", ".join(names[:FILES]) + ", .." * (len(names) > FILES)) for what, names in lists]
    counts = counted(it.counts, ("accepted", "refused", "failed"))
    parts = [f"### dnorm: {plain(folder)}", f"{counts}; status {status}"]
    tables: list[tuple[Sequence[str], Sequence[Sequence[object]]]] = [(("File", "Line", "Cause", "Hint"), causes)]
    for heads, rows in [*tables, (("Group", "Files", "Names"), told)]:
        lines = [heads, ["---"] * len(heads), *(map(plain, row) for row in rows[:LISTED])]
        parts += ["\n".join(f"| {' | '.join(line)} |" for line in lines)] if rows else []
        parts += [f"And {len(rows) - LISTED} more."] if len(rows) > LISTED else []
    return "\n\n".join(parts) + "\n"


def plain(text: object) -> str:
    """Returns a text for Markdown: only letters, digits and blanks stand for themselves; none begins a link or tag."""
    return re.sub(r"[^\w ]|_", lambda it: f"&#{ord(it[0])};", shown(str(text).replace("\n", "; ")))


def cause_of(it: Record) -> str:
    """Returns the cause of an error in few words, or nothing for an accepted file."""
    return f"{it.error.number} {it.error.word}" if isinstance(it.error, Refused) else it.what.lstrip(": ")[:100]


def refusals(records: Sequence[Record]) -> list[str]:
    """Returns the refused and failed files by their causes, with lines and hints."""
    causes, made = defaultdict[str, list[Record]](list), []
    for it in records:
        if it.error:
            causes[cause_of(it)].append(it)
    for cause, found in sorted(causes.items(), key=lambda it: -len(it[1]))[:CAUSES]:
        cells = []
        for it in found[:FILES]:
            line, text = (it.error.line, it.error.text) if isinstance(it.error, Refused) else (None, None)
            code, hint = escaped((text or "")[:120]), escaped((it.hint or "").replace("\n", "; "))
            cells.append([escaped(f"{it.name}:{line}" if line else it.name), f"<code>{code}</code>", hint])
        more = f"<p>And {len(found) - FILES} more, in the table of files.</p>" if len(found) > FILES else ""
        summary = f"<summary>{escaped(cause)}: {len(found)}</summary>{table(['File', 'Line', 'Hint'], cells)}{more}"
        made.append(f"<details{' open' * (len(causes) < 4)}>{summary}</details>")
    return made + [f"<p>And {len(causes) - CAUSES} more causes.</p>"] * (len(causes) > CAUSES)


def graphs_in_groups(records: Iterable[Record]) -> list[list[str]]:
    """Returns the names of graphs that pose the same problem, in groups, the largest first."""
    groups = groups_of(it for it in records if it.kind in GRAPHS).values()
    return sorted((names for names in groups if len(names) > 1), key=lambda it: -len(it))


def table_of(it: Collection, groups: Sequence[Sequence[str]], changes: Optional[Changes]) -> dict[str, object]:
    """Returns the table of files as columns: a text of names by lines, and of other cells, also of notes, by blanks."""
    kinds, places = [*COLOURS], {name: at for at, names in enumerate(groups, 1) for name in names}
    since = [changes.new, changes.changed, [new for _, new in changes.renamed]] if changes else []
    changed_as = {name: at for at, names in enumerate(since, 1) for name in names}
    notes = [cause_of(one) or "; ".join(remark.partition(":")[0] for remark in one.remarks) for one in it.records]
    numbers = {note: at for at, note in enumerate(dict.fromkeys(notes))}
    columns: dict[str, Iterable[Optional[int]]] = {"kind": (kinds.index(one.kind or one.status) for one in it.records)}
    columns |= {"note": map(numbers.__getitem__, notes), "group": (places.get(one.name) for one in it.records)}
    columns |= {size: [getattr(one, size) for one in it.records] for size in SIZES}
    lines = [one.error.line if isinstance(one.error, Refused) else None for one in it.records]
    columns |= {"line": lines} if any(lines) else {}
    columns |= {"since": (changed_as.get(one.name) for one in it.records)} if changes else {}
    texts = {name: ("" if n is None else str(n) for n in cells) for name, cells in columns.items()}
    told: dict[str, object] = {name: " ".join(cells) for name, cells in texts.items()}
    told |= {"kinds": kinds, "colours": [*COLOURS.values()], "notes": [*map(shown, numbers)]}
    told["sinces"] = ["", "new", "changed", "renamed"]
    told["names"] = "\n".join(shown(one.name) for one in it.records)
    return {"files": told}
