"""The conformance suite as its tests read it: suite/cases.json, which is written by hand, and the answers
of suite/tests/reading.py.

    suite.py add RULE NAME ABOUT TEXT [SECOND]    adds a case with its answer at the end of a rule
    suite.py batch                                answers calls as a reader that run.py calls with --batch

In a TEXT, ` / ` stands for an LF, which also ends it, and escapes are those of Python."""

import json
import os
import sys
from collections.abc import Iterator
from types import ModuleType
from typing import Any

sys.path.append(os.path.join(os.path.dirname(os.path.realpath(__file__)), "../../tests"))
# The folder of the tests must be on the path before these imports.
import reading  # noqa: E402
from shared import ROOT, bytes_of, run, text_of, write  # noqa: E402

FOLDER = f"{ROOT}/suite"
FILE = f"{FOLDER}/cases.json"
Case = dict[str, Any]


def rules() -> list[Case]:
    found: list[Case] = json.loads(text_of(FILE))["rules"]
    return found


def cases() -> Iterator[Case]:
    """Yields the cases, each with its rule."""
    yield from ({**case, "rule": rule["rule"]} for rule in rules() for case in rule["cases"])


def joined(parts: Any) -> str:
    """Returns a text of cases.json, which may be a list of strings, and of strings with how often they are repeated."""
    return parts if isinstance(parts, str) else "".join(it if isinstance(it, str) else it[0] * it[1] for it in parts)


def texts(case: Case) -> list[str]:
    return [joined(case[it]) for it in ("text", "left", "right", "with") if it in case]


def answer(case: Case, reader: ModuleType = reading) -> Case:
    """Returns the answer of a case, as reading.py, or a changed copy of it, computes it."""
    read = []
    for name in ("text", "left", "right", "with"):
        if name in case:
            try:
                read.append(reader.read(joined(case[name]).encode("latin-1")))
            except reader.Fault as fault:
                place, _, refusal = fault.line.partition(": ")
                found = {"place": place if place == "end" else int(place), "refusal": refusal}
                return found if len(texts(case)) == 1 else {"refused": name, **found}
    if "left" in case:
        return {"verdict": reader.difference(*read)}
    if "with" in case:
        why = reader.unfit(*read)
        return {"unfit": why} if why else {"kind": read[0].kind, "fits": read[1].kind}
    forms = (1, 2) if read[0].kind == "min" else (1,)
    return {"kind": read[0].kind, "canon": [reader.canonical(read[0], it).decode() for it in forms]}


def told(case: Case) -> Case:
    """Returns the answer that cases.json has for a case."""
    names = ("place", "refusal", "refused", "verdict", "unfit", "kind", "fits", "canon")
    found = {it: case[it] for it in names if it in case}
    return {**found, "canon": [joined(it) for it in found["canon"]]} if "canon" in found else found


def released() -> dict[str, list[str]]:
    """Returns the texts of the cases of the last release, by their ids: an id is never given to other texts."""
    commit = run(["git", "-C", ROOT, "log", "-1", "--format=%H", "--", "released/buildinfo"]).out.decode().strip()
    paths = run(["git", "-C", ROOT, "ls-tree", "-r", "--name-only", commit]).out.decode().split()
    path = next((it for it in paths if it.endswith("/cases.json")), "")
    kept = run(["git", "-C", ROOT, "show", f"{commit}:{path}"])
    return {it["id"]: texts(it) for rule in json.loads(kept.out)["rules"] for it in rule["cases"]} if path else {}


def add(rule: str, name: str, about: str, *given: str) -> None:
    """Adds a case at the end of its rule."""
    values = [
        it.replace(" / ", "\n").encode("latin-1", "backslashreplace").decode("unicode_escape") + "\n" for it in given
    ]
    names = ["text"] if len(given) == 1 else ["left", "right"] if rule == "differ" else ["text", "with"]
    case: Case = {"id": f"{rule}-{name}", "about": about, "profile": True, **dict(zip(names, values))}
    line = json.dumps(case | answer(case), separators=(",", ":"))
    text = text_of(FILE)
    end = text.index("\n]}", text.index(f'{{"rule":"{rule}"'))
    write(FILE, f"{text[:end]},\n{line}{text[end:]}")


def reply(command: str, *words: str) -> str:
    """Returns the line that answers a call of --batch."""
    names = [it for at, it in enumerate(words) if not it.startswith("--") and words[at - 1 : at] != ("--form",)]
    read = []
    for name in names:
        try:
            read.append(reading.read(bytes_of(name)))
        except reading.Fault as fault:
            return f"{name}:{fault.line}"
    if command == "canon":
        return json.dumps(reading.canonical(read[0], int(words[1])).decode("latin-1"))
    if command == "compare":
        return reading.difference(*read)
    why = reading.unfit(*read) if read[1:] else ""
    fits = "".join(f" fits {it.kind}" for it in read[1:])
    return f"{names[1]}: {why}" if why else f"accepted {read[0].kind}{fits}"


if __name__ == "__main__":
    if sys.argv[1] == "add":
        add(*sys.argv[2:])
    for call in sys.stdin if sys.argv[1] == "batch" else ():
        print(reply(*call.rstrip("\n").split("\t")), flush=True)
