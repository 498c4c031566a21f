"""Reads edits of sources, the functions of a source by the names that the prover gives them, and what a check prints of
these functions."""

import re
from collections.abc import Collection, Iterable, Iterator, Mapping
from pathlib import Path
from typing import NamedTuple

import prover

# The head of a function, of a block of functions (an implementation or a trait), and of a type.
HEAD = re.compile(r'( *)(?:[\w()"]+ )*fn (\w+)')
BLOCK = re.compile(
    r"impl(?:<(?P<params>(?:[^<>]|<[^<>]*>)*)>)? (?:(?P<of>[^{]+) for )?(?P<type>[^{]+?) \{"
    r"|(?:pub(?:\(\w+\))? )?trait (?P<trait>\w+)"
)
TYPE = re.compile(r"^(?:pub(?:\(\w+\))? )?(?:struct|enum) (\w+)", re.M)
# What a check prints: a place in a source where a goal is open, a function with open goals, an answer that is refused,
# and what it says of each function.
PLACE = re.compile(r"^note: (src/\S+):(\d+):\d+: it is not proved .*\(`([^`]+)`\)", re.M)
GOALS = re.compile(r"^fn \w+::(\S+): .*?`search` did not prove `([^`]+)`", re.M)
ANSWER = re.compile(r"^\./proofs/(\S+)/(Answers|Invariants|Proof)\.antt:\d+:\d+: error: (?:`([^`]+)`: )?(.*)", re.M)
VERDICT = re.compile(r"^fn \w+::(\S+): (.*)", re.M)
# A proof file that cites what an edit has taken away, and an error for which the prover is not asked.
LOST = re.compile(r"has no field|is not in scope|has no `|was not admitted")
ERROR = re.compile(r"^(src/\S+):(\d+):\d+: error.*", re.M)


class Function(NamedTuple):
    """A function: its path below the crate, and the lines of its attributes, of the beginning of its body and of its
    end."""

    path: str
    first: int
    body: int
    last: int


class Edit(NamedTuple):
    """An edit: its name, its text, the functions that it changes, and whether it changes only their bodies. One that
    changes anything outside of functions has none."""

    name: str
    text: str
    functions: tuple[str, ...]
    is_body: bool


def block_of(line: str) -> tuple[str, str] | None:
    """Returns the name of the block of functions that a line begins, and the type that it is a part of. The methods of
    a trait are parts of no type."""
    found = BLOCK.match(line)
    if not found or found["trait"]:
        return (found["trait"], "") if found else None
    params = {it.split(":")[0].strip() for it in (found["params"] or "").split(",")}
    tuples = re.sub(r"\(([^()]*)\)", lambda it: f"Tuple{it[1].count(',') + 1} {it[1]}", found["type"])
    words = [it[0].upper() + it[1:] for it in re.findall(r"(?<!')\b\w+", tuples) if it not in params]
    if found["of"]:
        return "".join(words) + found["of"].split("<")[0].split("::")[-1], ""
    return "+".join(words), words[0]


def module_of(path: str) -> str:
    """Returns the module that a source of this path is."""
    return re.sub(r"(^|/)(lib|main|mod)$", "", path[len("src/") : -len(".rt")]).replace("/", "::")


def functions_of(path: str, text: str, homes: Mapping[str, str]) -> Iterator[Function]:
    """Yields the functions with a body in a source of this path, which is laid out as `rt fmt` does it. The methods of
    a type are named in the module of the type, which is its home."""
    lines, block, head, first, body = text.split("\n"), ("", ""), None, 0, 0
    homes = {**homes, **dict.fromkeys(TYPE.findall(text), module_of(path))}
    for at, line in enumerate(lines):
        if head and body:
            if line == f"{head[1]}}}":
                while lines[first - 1].lstrip().startswith("#["):
                    first -= 1
                parts = [homes.get(block[1], module_of(path)), block[0], head[2]]
                yield Function("::".join(it for it in parts if it), first, body, at)
                head, body = None, 0
            continue
        if found := HEAD.match(line):
            head, first = found, at
        elif line[:1].strip():
            block = ("", "") if line.endswith("}") else block_of(line) or block
        # A trait's method may have no body.
        if head and line.endswith("{") and (at == first or line.startswith((f"{head[1]}{{", f"{head[1]})"))):
            body = at


def applied(edit: str, texts: Mapping[str, str]) -> tuple[dict[str, str], list[tuple[str, int]]]:
    """Returns the texts, by path, with this edit, and the lines that it changes. Raises a ValueError if it cannot be
    applied to them."""
    path, old, changed, places = "", "", dict(texts), list[tuple[str, int]]()
    for line in edit.split("\n"):
        if line.startswith("file: "):
            path = line[len("file: ") :].strip()
        elif line.startswith("old: "):
            old = line[len("old: ") :]
        elif line.startswith("new:"):
            count = changed[path].count(old) if old and path in changed else 0
            if count != 1:
                raise ValueError(f"'{old}' stands {count} times in '{path}'")
            before, _, after = changed[path].partition(old)
            changed[path] = before + line[len("new:") :].removeprefix(" ") + after
            places.append((path, before.count("\n")))
            old = ""
    if changed == texts:
        raise ValueError("it changes nothing")
    return changed, places


class Sources:
    """The texts of a crate, by path, and its functions."""

    def __init__(self, texts: Mapping[str, str]) -> None:
        self.texts, code = texts, {it: text for it, text in texts.items() if it.endswith(".rt")}
        homes = {name: module_of(it) for it, text in code.items() for name in TYPE.findall(text)}
        self.functions = {it: [*functions_of(it, text, homes)] for it, text in code.items()}

    @classmethod
    def of(cls, crate: Path) -> "Sources":
        """Returns the sources in the folder of a crate."""
        return cls({str(it.relative_to(crate)): it.read_text("utf-8") for it in prover.sources_of(crate)})

    def at(self, path: str, line: int) -> Function | None:
        """Returns the function at a line of a source, counted from 0."""
        return next((it for it in self.functions.get(path, []) if it.first <= line <= it.last), None)

    def edit(self, name: str, text: str) -> Edit:
        """Returns the edit with this text. Raises a ValueError if it cannot be applied."""
        lines = [(self.at(*it), it[1]) for it in applied(text, self.texts)[1]]
        functions = {it.path for it, _ in lines if it} if all(it for it, _ in lines) else set[str]()
        return Edit(name, text, tuple(sorted(functions)), all(it and it.body < at < it.last for it, at in lines))

    def together(self, edits: Iterable[Edit]) -> tuple[list[Edit], dict[str, str]]:
        """Returns the first of these edits and those that can be applied with it, each of other functions, and the
        texts with all of them."""
        chosen, texts, taken = list[Edit](), {**self.texts}, set[str]()
        for it in edits:
            if taken.isdisjoint(it.functions):
                try:
                    texts, _ = applied(it.text, texts)
                except ValueError:
                    # Its old text stands in the new text of another edit, too.
                    continue
                taken.update(it.functions)
                chosen.append(it)
        return chosen, texts


class Said:
    """What a check of these sources printed, and what it says of their functions."""

    def __init__(self, sources: Sources, text: str) -> None:
        self.sources, self.text, self.verdicts = sources, text, dict(VERDICT.findall(text))
        # A goal of each function that is refused, and a line of each one whose proof files cite what is not there.
        refused, self.lost = dict[str, str](), dict[str, str]()
        for path, line, goal in PLACE.findall(text):
            if found := sources.at(path, int(line) - 1):
                refused.setdefault(found.path, f"{goal} at {path}:{line}")
        for name, goal in GOALS.findall(text):
            refused.setdefault(self.function(name), goal)
        for folder, file, goal, why in ANSWER.findall(text):
            # The proofs of functions that call one another are in a folder whose name begins with +.
            name = self.function(re.sub(r"(^|/)\+", r"\1", folder).replace("/", "::"))
            if file == "Invariants" or LOST.search(why):
                self.lost.setdefault(name, f"{goal}: {why}")
            elif goal:
                refused.setdefault(name, f"the answer of {goal}")
        # Where a proof file cites what is not there, a goal can be open only for want of its answer or an invariant.
        self.refused = {name: goal for name, goal in refused.items() if name not in self.lost}

    @staticmethod
    def function(name: str) -> str:
        """Returns the function that a closure of this name stands in. The name of another function stays."""
        return re.sub(r"\bfn::(\w+)::.*", r"\1", name)

    def refusal(self, functions: Collection[str]) -> str:
        """Returns what refuses one of these functions, or any function if there are none."""
        return next((f"{it}, {self.refused[it]}" for it in functions or self.refused if it in self.refused), "")

    def is_proved(self, functions: Collection[str]) -> bool:
        """Whether all of these functions are proved, or all functions of the check if there are none."""
        names = functions or self.verdicts
        return bool(names) and all(self.verdicts.get(it) == "proved" for it in names)

    def error(self, functions: Collection[str]) -> str:
        """Returns an error in these functions, or anywhere if there are none, for which the prover was not asked."""
        for found in ERROR.finditer(self.text):
            at = self.sources.at(found[1], int(found[2]) - 1)
            if not functions or at and at.path in functions:
                return found[0]
        return ""

    def why_not(self, functions: Collection[str]) -> str:
        """Returns why these functions, or any if there are none, are not refused."""
        if error := self.error(functions):
            return f"it does not compile: {error}"
        if self.is_proved(functions):
            return "it is still proved"
        if lost := next((f"{it}, {self.lost[it]}" for it in functions or self.lost if it in self.lost), ""):
            return f"it takes away a name that a proof file cites: {lost}"
        said = next((f"{it}: {self.verdicts[it]}" for it in functions if it in self.verdicts), "")
        return f"no goal of its function is refused: {said or (self.text.splitlines() or ['no verdict'])[-1]}"
