#!/usr/bin/env python3
"""Finds the kit that proves the sources: the one that the `rt` on the path speaks for, whatever its version.

    tools/kit.py

prints its folder. If there is none, the script says which source differs from the release, what can be done without a
kit, and what is missing; the status is 125."""

import platform
import re
import shutil
import subprocess
import sys
from pathlib import Path

import usage

ROOT = Path(__file__).resolve().parent.parent
INFO = ROOT / "released" / "buildinfo"
# The processors that the program and the library for C are built for: every one of x86-64. The kit's default is
# x86-64-v2, which processors have since about 2009.
CPU = "x86-64"
# What `rt version` prints of a kit, and how long it may take, in seconds.
LINE = re.compile(r"\S+ logic [0-9a-f]{16}")
LIMIT = 20
# What the proofs are made from.
SOURCES = ["crates", "crates.txt"]


def printed(rt: str, word: str) -> str:
    """Returns what a program that is named `rt` prints first if it is called with this word."""
    quiet, given = subprocess.STDOUT, subprocess.DEVNULL
    try:
        ran = subprocess.run([rt, word], stdin=given, stdout=subprocess.PIPE, stderr=quiet, timeout=LIMIT, check=False)
    except (OSError, subprocess.TimeoutExpired) as error:
        return f"nothing ({error.__class__.__name__})"
    lines = [it.strip() for it in ran.stdout.decode("ascii", "replace").splitlines() if it.strip()]
    return lines[0][:100] if lines else "nothing"


def find() -> tuple[Path | None, str]:
    """Returns the folder of the kit and its line, or else nothing and what is missing."""
    rt = shutil.which("rt")
    if not rt:
        return None, "there is no rt on the PATH"
    line = printed(rt, "version")
    # The page to read first is at the top of the kit.
    at = Path(printed(rt, "doc")).parent if LINE.fullmatch(line) else Path()
    if not (at / "WHAT").exists():
        return None, f"{rt} is another program, which belongs to no kit: `rt version` prints {line!a}"
    return at, line


def of_release(what: str) -> str:
    """Returns what released/buildinfo says of something, or nothing."""
    found = re.search(rf"^{what}: (.+)$", INFO.read_text("utf-8"), re.M) if INFO.exists() else None
    return found[1] if found else ""


def git(*words: str) -> list[str]:
    """Returns the lines that git prints, or none if it fails or is missing."""
    try:
        ran = subprocess.run(["git", *words], cwd=ROOT, capture_output=True, check=True)
    except (OSError, subprocess.CalledProcessError):
        return []
    return ran.stdout.decode("utf-8", "replace").splitlines()


def edited(*paths: str) -> list[str]:
    """Returns which files below these paths are not as they were committed, as far as git knows."""
    return [it[3:] for it in git("status", "--porcelain", "--", *paths)]


def changed(*paths: str) -> list[str]:
    """Returns which files below these paths differ from those of the release, as far as git knows: those that are not
    committed come first. What the release was made from is named by git's own sums."""
    first = edited(*paths)
    found = set[str]()
    for it in paths:
        was, (now, *_) = of_release(it), [*git("rev-parse", f"HEAD:{it}"), ""]
        if was and now and was != now:
            below = git("diff-tree", "-r", "--name-only", was, now)
            found |= {f"{it}/{name}" for name in below} or {it}
    return [*first, *sorted(found - {*first})]


def told() -> str:
    """Returns what to say where there is no kit, in lines."""
    _, why = find()
    version, lines = of_release("version"), list[str]()
    program = f"released/{platform.machine()}/dnorm"
    found = changed(*SOURCES)
    if found and version:
        more = f" and {len(found) - 1} more differ" if found[1:] else " differs"
        lines.append(f"{found[0]}{more} from release {version}")
    if (ROOT / program).exists() and version:
        undo = f", and `git checkout {found[0]}` undoes the change" if edited(*SOURCES) else ""
        lines.append(f"{program} is the proved program {version}, which runs as it is{undo}")
    return "\n".join([*lines, f"proving and building needs a kit of Rattle (see docs/PROVED.md), and {why}"])


def folder() -> Path:
    """Returns the folder of the kit. Without one, prints why, and ends the program with status 125."""
    at, _ = find()
    if not at:
        print(*(f"dnorm: {it}" for it in told().splitlines()), sep="\n", file=sys.stderr)
        sys.exit(125)
    return at


if __name__ == "__main__":
    usage.words(__doc__, most=0)
    print(folder())
