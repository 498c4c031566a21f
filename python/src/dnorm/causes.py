"""What shows the cause of a refusal: the refused line with its wrong word, the row that it is to have, and hints.

The hints are data, the file hints.json, which JavaScript can evaluate as well. It has

- `rows`: the lines of each kind by their letters, the counted line last. Words in capitals, and s|t, are fields.
- `marks`: which word of a refused line is wrong, by the number of the refusal: the one at the place `word`, counted
  from 0; or the first of these `fields`, by default all of numbers, that `unless` does not match, or that is no number
  from `least` to `most`, each of which may be missing or name a fact.
- `file`, of which the first hint that holds counts; `line`, all of them, if none of `file` holds; `fault`, all of
  them; and `remedy`, all of them, if no other hint holds.

A hint has facts with tests under `if`, all of which must hold, and under `unless`, none of which may; the text that it
says, and perhaps `run`, a command that prints the text that is meant of the file. A test is a number; a list of some;
or a regular expression to search, the same in Python with re.ASCII and in JavaScript without flags. The facts are

- `number`, that of the refusal; `line`, the refused line without LF, up to 4,096 bytes; `head`, the first 1,024 bytes
  of the text; `kind`, and `nodes` and `declared`, the last two numbers on the problem line; `word`, the wrong word;
  `rows`, the rows of the kind. Bytes are characters from U+0000 to U+00FF.
- only in texts, as {found}: `found`, the number of counted lines; `seen`, where the node or the terminal of the line
  comes first; `sum`, the sum of a pair; `naming`, the line that names a node; `file`, the name of the file as a word of
  a shell. A text whose fact is not known is not said.
"""

import json
import os
import re
from collections.abc import Callable, Iterator
from itertools import islice
from typing import Any, Optional, Union

from .names import ending_of

# Begins a text, and yields its pieces.
Opener = Callable[[], "Iterator[bytes]"]

# How many bytes of a line are kept and shown.
KEPT, SHOWN = 4096, 200
PROBLEM = re.compile(r"[ \t\r]*p[ \t\r]")
COUNTED = re.compile(r"[ \t\r]*[asqv](?:[ \t\r]|$)")
WORD = re.compile(r"[^ \t\r]+")
# The names of files that git-annex has.
ANNEX = "annex/objects/"
# How many bytes of a text hints look at.
HEAD = 1024
# The marks of the compressions that endings name.
PACKED = {".gz": b"\x1f\x8b", ".bz2": b"BZh", ".xz": b"\xfd7zX", ".zst": b"\x28\xb5\x2f\xfd"}
# The refusals that a row explains. A field that is no number is s|t.
ROWS = (1, 8, 9, 10, 11, 12, 13, 16, 17)
# What is known of a refusal, by the names in hints. A function finds what takes a look at the text.
FACTS = ("line", "head", "kind", "nodes", "declared", "rows", "word", "found", "seen", "sum", "naming", "file")
Fact = Union[None, int, str, Callable[[], Optional[str]]]
# The last members of a refusal: the refused line, made visible; the hints; where the wrong word begins and ends.
Cause = tuple[Optional[str], Optional[str], Optional[tuple[int, int]]]

with open(os.path.join(os.path.dirname(__file__), "hints.json"), encoding="ascii") as _file:
    DATA: Any = json.load(_file)


def visible(text: str) -> str:
    """Returns characters that are bytes as `cat -vT` prints these: as characters of ASCII."""

    def one(byte: int) -> str:
        if byte >= 128:
            return f"M-{one(byte - 128)}"
        return chr(byte) if 32 <= byte < 127 else f"^{chr(byte ^ 64)}"

    return "".join(map(one, map(ord, text)))


def quoted(name: str) -> str:
    """Returns a name as a word of bash."""
    if not name.isprintable():
        plain = {byte for byte in range(32, 127) if chr(byte) not in "'\\"}
        return f"$'{''.join(chr(it) if it in plain else f'{chr(92)}x{it:02x}' for it in os.fsencode(name))}'"
    return re.sub(r"([^\w@%+=:,./-])", r"\\\1", name)


def lines_of(pieces: Iterator[bytes]) -> Iterator[str]:
    """Yields the first bytes of each line, as characters, without the LF."""
    rest = ""
    for piece in pieces:
        first, *others = piece.decode("latin-1").split("\n")
        rest = (rest + first)[:KEPT]
        for it in others:
            yield rest
            rest = it[:KEPT]
    if rest:
        yield rest


def cause_of(
    text: Optional[Opener], name: Optional[str], line: Optional[int], number: int, node: Optional[int] = None
) -> Cause:
    """Returns the cause of a refusal, also without its text. Hints have commands if `name` is a file of these bytes."""
    if text is None:
        return None, "\n".join(hints_of({**dict.fromkeys(FACTS), "number": number})) or None, None
    again, head = text, next(text(), b"")
    refused, problem = scanned(lines_of(again()), line)
    words = WORD.findall(refused or "")
    kind = "".join(problem[3:4] if problem[1:2] == ["aux"] else problem[1:2])
    facts: dict[str, Fact] = {"number": number, "line": refused or "", "kind": kind}
    facts["head"] = head[:HEAD].decode("latin-1")
    facts |= {"nodes": dict(enumerate(problem)).get(2), "declared": problem[-1] if problem else None}
    facts |= {"rows": "; ".join(DATA["rows"].get(kind, {}).values()), "file": name and quoted(name)}
    facts |= {"found": lambda: str(sum(1 for it in lines_of(again()) if COUNTED.match(it)))}
    facts |= {"seen": lambda: seen(lines_of(again()), words), "sum": lambda: summed(lines_of(again()), line, words)}
    facts |= {"naming": lambda: named_by(lines_of(again()), node)}
    fields = fields_of(kind, words)
    at = place_of(number, words, fields, facts) if words else None
    facts["word"] = words[at] if at is not None and at < len(words) else None
    # A line of numbers lacks its letter.
    row = [row_of([fields[0], *words] if number == 1 else words, fields)] if fields and number in ROWS else []
    shown = None if refused is None else visible(refused[:SHOWN])
    hint = "\n".join(row + hints_of(facts)) or None
    return shown, hint, None if at is None else mark_of(refused or "", at)


def hints_of(facts: dict[str, Fact]) -> list[str]:
    """Returns what the hints say that hold."""
    lists = {name: [it for it in DATA[name] if holds(it, facts)] for name in ("file", "line", "fault", "remedy")}
    chosen = [*(lists["file"][:1] or lists["line"]), *lists["fault"]]
    told = [text for text in (said(it, facts) for it in chosen) if text]
    return told or [text for text in (said(it, facts) for it in lists["remedy"]) if text]


def holds(hint: Any, facts: dict[str, Fact]) -> bool:
    """Whether a hint holds with these facts."""

    def meets(fact: Fact, test: Any) -> bool:
        if isinstance(test, str):
            return isinstance(fact, str) and re.search(test, fact, re.ASCII) is not None
        return fact in (test if isinstance(test, list) else [test])

    is_met = all(meets(facts[it], test) for it, test in hint["if"].items())
    return is_met and not any(meets(facts[it], test) for it, test in hint.get("unless", {}).items())


def said(hint: Any, facts: dict[str, Fact]) -> Optional[str]:
    """Returns the text of a hint, with a command if the file has a name, or None if a fact is not known."""
    text = hint["say"] + (f": {hint['run']} | dnorm check -" if "run" in hint and facts["file"] else "")
    known = {it: fact() if callable(fact) else fact for it in re.findall(r"\{(\w+)\}", text) for fact in [facts[it]]}
    return text.format(**known) if all(known.values()) else None


def fields_of(kind: str, words: list[str]) -> list[str]:
    """Returns what the words of a line are called in this kind, its letter first, which a line of numbers lacks."""
    letter, rows = words[0] if words else "", DATA["rows"].get(kind, {})
    if rows and number_of(letter) is not None:
        # The counted line is the last one of a kind.
        return str([*rows.values()][-1]).split()
    if letter == "p":
        heads = [it["p"].split() for it in DATA["rows"].values()]
        return next((it for it in heads if all(w == f for w, f in zip(words, it) if not f.isupper())), [])
    return str(rows.get(letter, "")).split()


def row_of(words: list[str], fields: list[str]) -> str:
    """Returns the row that a line is to have, with the words that are there."""
    told = [f"{it}={visible(word[:40])}" if it.isupper() or "|" in it else it for it, word in zip(fields, words)]
    missing, extra = fields[len(words) :], words[len(fields) :]
    more = f": {' and '.join(missing)} {'is' if len(missing) == 1 else 'are'} missing" if missing else ""
    return " ".join([*told, *missing]) + (f": {visible(extra[0][:40])} is too many" if extra else more)


def place_of(number: int, words: list[str], fields: list[str], facts: dict[str, Fact]) -> Optional[int]:
    """Returns the place of the wrong word on a line, the number of words if one is missing, or None."""
    rule: dict[str, Any] = DATA["marks"].get(str(number), {})
    if number == 8 and fields:
        return min(len(words), len(fields))
    if not rule or "word" in rule:
        return int(rule["word"]) if rule else None
    bounds = (str(rule.get(it)) for it in ("least", "most"))
    least, most = (number_of(str(facts.get(it, it))) for it in bounds)
    for at, (name, word) in enumerate(zip(fields, words)):
        found = number_of(word)
        is_outside = found is not None and (least is not None and found < least or most is not None and found > most)
        is_other = "unless" in rule and not re.search(rule["unless"], word)
        if (name in rule["fields"] if "fields" in rule else name.isupper()) and (
            is_outside or is_other or len(rule) == 1 and "fields" in rule
        ):
            return at
    return None


def mark_of(line: str, at: int) -> Optional[tuple[int, int]]:
    """Returns where the word at this place, or the end of the words, is in what is shown of a line."""
    places = [it.span() for it in WORD.finditer(line)]
    start, end = places[at] if at < len(places) else (places[-1][1] + 1, places[-1][1] + 2)
    before = len(visible(line[:start].ljust(start)))
    return (before, before + max(1, len(visible(line[start : min(end, SHOWN)])))) if start < SHOWN else None


def scanned(lines: Iterator[str], line: Optional[int]) -> tuple[Optional[str], list[str]]:
    """Returns the refused line, and the words of the problem line, if that comes before."""
    problem: list[str] = []
    for at, it in enumerate(lines, 1):
        if not problem and PROBLEM.match(it):
            problem = [*map(visible, WORD.findall(it[:SHOWN]))]
        if at == line:
            return it, problem
        if problem and line is None:
            break
    return None if line is None else "", problem


def hint_of_compressed(head: bytes, name: str) -> str:
    """Returns what the first bytes of a file mean that cannot be decompressed as its name says."""
    if head.startswith(PACKED.get(ending_of(name), b"\0")):
        return "The file is cut or damaged: get it again"
    facts: dict[str, Fact] = {**dict.fromkeys(FACTS, ""), "number": 31, "file": quoted(name)}
    facts["head"] = head.decode("latin-1")
    for it in DATA["file"]:
        if holds(it, facts):
            more = ", and its name says another thing" if "run" in it else ""
            return str(said({**it, "say": it["say"] + more}, facts))
    if re.fullmatch(rb"[\t\n\r -~]+", head):
        return f"The file is not compressed: dnorm check - < {quoted(name)}"
    return "The file is not compressed as its name says" if head else "The file is empty"


def seen(lines: Iterator[str], words: list[str]) -> Optional[str]:
    """Returns where the node, the source or the sink of a refused line comes first."""
    terminal = words[2] if words[2:] and words[2] in ("s", "t") else None
    for at, it in enumerate(lines, 1):
        found = WORD.findall(it)
        if found[:1] != words[:1] or len(found) < 3:
            continue
        if terminal and found[2] == terminal:
            what = "source" if terminal == "s" else "sink"
            return f"The {what} is node {visible(found[1])}, by line {at}"
        if number_of(found[1]) == number_of(words[1]):
            return f"{'Point' if words[0] == 'v' else 'Node'} {visible(words[1])} came first in line {at}"
    return None


def summed(lines: Iterator[str], line: Optional[int], words: list[str]) -> Optional[str]:
    """Returns the sum of the capacities of a pair before the refused line."""
    if len(words) not in (4, 6) or not line:
        return None
    place = 3 if len(words) == 4 else 4
    tail, head, cap = (number_of(it) for it in (*words[1:3], words[place]))
    if tail is None or head is None or cap is None:
        return None
    arc = re.compile(rf"[ \t\r]*a[ \t\r]+\+?0*{tail}[ \t\r]+\+?0*{head}[ \t\r]")
    arcs = (WORD.findall(it) for it in islice(lines, line - 1) if arc.match(it))
    total = sum(number_of(it[place]) or 0 for it in arcs if len(it) > place)
    return f"The capacities from {tail} to {head} sum to {total} before this line, and with it to {total + cap}"


def named_by(lines: Iterator[str], node: Optional[int]) -> Optional[str]:
    """Returns the first line of a companion that names a node."""
    for at, it in enumerate(lines, 1):
        letter, *others = WORD.findall(it) or [""]
        names = {"s": 1, "q": 2, "v": 1}.get(letter, 0)
        if node is not None and node in map(number_of, others[:names]):
            return f"line {at} names it: {visible(it[:SHOWN])}"
    return None


def number_of(word: str) -> Optional[int]:
    """Returns the number that a word spells, if it does."""
    return int(word) if re.fullmatch("[+-]?[0-9]{1,4000}", word) else None
