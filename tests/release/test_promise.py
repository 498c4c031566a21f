"""Tests that nothing that others build on goes: each line of promise.txt, which was made from releases, still holds. A
line is a declaration of C, a name of Python with what it takes, a declaration of Rust or of TypeScript, an option of a
command, a value of the records of --json, or a refusal.

    python3 tests/release/test_promise.py ROOT    prints the lines of the clone ROOT: a release adds what is new."""

import inspect
import json
import os
import re
import subprocess
import sys
from collections.abc import Iterator

ROOT = os.path.dirname(os.path.dirname(os.path.dirname(os.path.realpath(__file__))))
HEADERS = ("dnorm.h", "dnorm_tools.h")
COMMANDS = {
    "dnorm": ("", "canon", "check", "compare", "show"),
    "dnorm-files": ("", "check", "manifest", "same", "list", "compare", "canon", "show", "look", "explain", "parts"),
    "dnorm-explain": ("",),
    "canon-in-parts": ("",),
}


def run(*words: str) -> list[str]:
    return subprocess.run(words, capture_output=True, text=True, check=True).stdout.split("\n")


def in_one_line(text: str) -> str:
    return " ".join(text.split())


def of_c(root: str) -> Iterator[str]:
    """The declarations of the headers for C, as the preprocessor leaves them, and each constant and member."""
    for header in HEADERS:
        kept, own = [], False
        for line in run("gcc", "-E", "-std=c11", f"{root}/c/{header}"):
            own = f"/c/{header}" in line if line.startswith("#") else own
            kept += [line] if own and not line.startswith("#") else []
        text = in_one_line(" ".join(kept))
        for name, members in re.findall(r"typedef struct ((?!dnorm_inline)\w+) \{(.*?)\} \1;", text):
            yield from (f"{name}: {member.strip()}" for member in members.split(";") if member.strip())
        for constants in re.findall(r"enum \{(.*?)\}", text):
            yield from (constant.strip() for constant in constants.split(","))
        for found in re.findall(r"(?:[\w*]+ )+\**dnorm_(?!inline)\w+\([^()]*\)(?= ?[;{])", text):
            if not found.startswith("return"):
                yield found


def of_python(root: str) -> Iterator[str]:
    """The public names, what their calls take, and the public names of classes."""
    script = f"import sys; sys.path[:0] = [{root + '/python/src'!r}, {os.path.dirname(__file__)!r}]\n"
    script += "import test_promise, dnorm; print(*test_promise.names(dnorm), sep='\\n')"
    yield from run(sys.executable, "-c", script)


def names(of: object, before: str = "") -> Iterator[str]:
    for name in getattr(of, "__all__", None) or vars(of):
        it = getattr(of, name)
        if name.startswith("_"):
            continue
        if inspect.isclass(it):
            yield f"{before}{name}"
            yield from names(it, f"{name}.")
        elif inspect.isfunction(it):
            parameters = inspect.signature(it).parameters.values()
            yield from (f"{before}{name}({'*' * (one.kind == one.KEYWORD_ONLY)}{one.name})" for one in parameters)
        else:
            yield f"{before}{name}"


def of_rust(root: str) -> Iterator[str]:
    for path in sorted(os.listdir(f"{root}/rust/dnorm/src")):
        with open(f"{root}/rust/dnorm/src/{path}", encoding="utf-8") as file:
            found = re.findall(r"^ *(pub (?:const )?(?:fn|struct|enum) [^{;]+)", file.read(), re.M)
        yield from (in_one_line(it) for it in found)


def of_typescript(root: str) -> Iterator[str]:
    with open(f"{root}/web/dnorm.d.ts", encoding="utf-8") as file:
        text = re.sub(r"/\*.*?\*/", "", file.read(), flags=re.S)
    yield from (in_one_line(it) for it in re.findall(r"^ *(?! |private )([\w ]+[(:?=].*?);$", text, re.M | re.S))


def of_commands(root: str) -> Iterator[str]:
    """The options that the help of each command names."""
    for command, subs in COMMANDS.items():
        for sub in subs:
            words = [f"{root}/bin/{command}", *([sub] if sub else []), "--help"]
            answer = subprocess.run(words, capture_output=True, text=True)
            if answer.returncode:
                continue
            for option in sorted({*re.findall(r"(?<![\w-])--?[a-z0-9][a-z0-9-]*", answer.stdout)}):
                yield in_one_line(f"{command} {sub} {option}")


def of_records(root: str) -> Iterator[str]:
    """The values of each name of the records."""
    with open(f"{root}/python/records.json", encoding="utf-8") as file:
        schema = json.load(file)
    for record, it in schema["definitions"].items():
        properties = {**it.get("properties", {})}
        for pattern, value in it.get("patternProperties", {}).items():
            properties |= dict.fromkeys(pattern.strip("^()$").split("|"), value)
        for name, value in properties.items():
            kinds = [value, *value.get("anyOf", [])]
            kinds += [schema["definitions"][os.path.basename(kind["$ref"])] for kind in kinds if "$ref" in kind]
            told = [one for kind in kinds for key in ("enum", "type") for one in as_list(kind.get(key, []))]
            yield from (f"{record}.{name}: {one}" for one in told)


def as_list(it: object) -> list[object]:
    return it if isinstance(it, list) else [it]


def of_refusals(root: str) -> Iterator[str]:
    script = f"import sys; sys.path.insert(0, {root + '/python/src'!r})\n"
    script += "from dnorm.refusals import REFUSALS\nprint(*REFUSALS, sep='\\n')"
    yield from run(sys.executable, "-c", script)


SURFACES = {
    "C": of_c,
    "Python": of_python,
    "Rust": of_rust,
    "TypeScript": of_typescript,
    "command": of_commands,
    "record": of_records,
    "refusal": of_refusals,
}


def promised(root: str) -> list[str]:
    return [f"{of}: {it}" for of, lines in SURFACES.items() for it in sorted({*lines(root)}) if it]


def test_promise() -> None:
    with open(f"{ROOT}/tests/release/promise.txt", encoding="utf-8") as file:
        lines = [line.rstrip("\n") for line in file if not line.startswith("#")]
    kept = {*promised(ROOT)}
    assert len(lines) > 400 and [it for it in lines if it not in kept] == []


if __name__ == "__main__":
    print(*promised(sys.argv[1]), sep="\n")
