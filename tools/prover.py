#!/usr/bin/env python3
"""Reads crates.txt, and runs the kit's prover over crates.

    tools/prover.py rules                   prints for make what each crate is proved from
    tools/prover.py build CRATE [OPTION..]  proves a crate, and makes its library or its object
    tools/prover.py check CRATE [OPTION..]  proves a crate, or with `--only FUNCTION` a function and what it calls

What it stands on is found where make puts it, or, if CHECKED is set, where `rt ci` or `rt check` has proved it."""

from __future__ import annotations

import contextlib
import fcntl
import os
import signal
import subprocess
import sys
import time
from collections.abc import Mapping
from pathlib import Path
from typing import Any, NamedTuple

import kit
import usage

ROOT = kit.ROOT
# `rt ci` refuses sources elsewhere, and a library has some; it makes none of the program.
PROVED = ROOT / "crates" / "dnorm" / "out" / "rlib"
IS_CHECKED = bool(os.environ.get("CHECKED"))
# The prover's allocator, mimalloc, keeps memory that is freed, rather than returning it to the system and asking for it
# again.
KEEPING = {**os.environ, "MIMALLOC_PURGE_DELAY": "-1"}
# How often a script looks whether a run has ended, in seconds.
PAUSE = 0.2
PROCESSORS = len(os.sched_getaffinity(0))
# The most processes of a proof: a further one takes some seconds of processor time.
MOST = 4


class Row(NamedTuple):
    """A row of crates.txt: a crate, the words for its kind, the libraries that it names, and the crates of the
    repository that it stands on, directly or not."""

    name: str
    kind: list[str]
    stands_on: list[str]
    below: set[str]

    @property
    def folder(self) -> Path:
        return ROOT / "crates" / self.name

    def size(self) -> int:
        """Returns how many bytes the code of the crate has."""
        return sum(it.stat().st_size for it in (self.folder / "src").rglob("*.rt"))

    def source(self) -> str:
        return "src/main.rt" if (self.folder / "src" / "main.rt").exists() else "src/lib.rt"

    def place(self, is_checked: bool = IS_CHECKED) -> Path:
        """Returns where its library is: where `rt` has proved it, or else make."""
        return self.folder / "out" / "rlib" if is_checked else PROVED

    def made(self) -> str:
        """Returns what make makes of it."""
        if self.source() == "src/main.rt":
            return f"build/{self.name}.o"
        return f"build/{self.name}.a" if self.kind else f"crates/dnorm/out/rlib/{self.name}.proved"


def sources_of(crate: Path) -> list[Path]:
    """Returns all that the proof of a crate in this folder depends on, besides other crates, in order."""
    return sorted(it for part in ("src", "specs", "proofs") for it in (crate / part).rglob("*") if it.is_file())


def rows() -> dict[str, Row]:
    """Returns the rows of crates.txt by crate. Each crate comes after those that it stands on."""
    found: dict[str, Row] = {}
    for line in (ROOT / "crates.txt").read_text("utf-8").splitlines():
        words, colon, names = line.split("#")[0].partition(":")
        if colon:
            name, *kind = words.split()
            below = {other for it in names.split() if it in found for other in (it, *found[it].below)}
            found[name] = Row(name, kind, names.split(), below)
    return found


def rules() -> None:
    """Prints what each crate is made from. A new or lost file changes its folder, which counts as well."""
    at, _ = kit.find()
    every = rows()
    for row in every.values():
        # Make does not see when `rt` has proved a crate below, so the sources of such a crate stand for it.
        below = [every[it].folder for it in row.below] if IS_CHECKED else []
        files = [file for it in (row.folder, *below) for file in sources_of(it)]
        needs = [str(it.relative_to(ROOT)) for it in {*files, *(it.parent for it in files)}]
        needs += [every[it].made() for it in row.stands_on if it in every and not IS_CHECKED]
        ready = f"{at}/WHAT".replace(" ", "\\ ") if at else "| kit"
        print(f"{row.made()}: {' '.join(sorted(needs))} {ready}")


def command(
    at: Path, verb: str, name: str, source: str, places: Mapping[str, Path], folders: list[Path], *options: str
) -> list[str]:
    """Returns the command by which the kit there checks or builds a crate, over libraries in these places. What these
    stand on is found in the first of the folders that has it."""
    words = [f"{at}/bin/rattle", verb, "--crate-name", name, source]
    for it, place in places.items():
        words += ["--extern", f"{it}={place}/{it}.rlib"]
    for place in folders:
        words += ["-L", f"dependency={place}"]
    return [
        *words,
        "--antt-project",
        f"{at}/rattle/logic/antt-project.json",
        "--logic-built",
        f"{at}/logic_built",
        *options,
    ]


def over(at: Path, verb: str, row: Row, libraries: Mapping[str, Path], *options: str) -> list[str]:
    """Returns the command for a crate of the repository, over the crates below it in these places."""
    places = {it: libraries.get(it, at / "rlibs") for it in ["std", *row.stands_on]}
    folders = sorted({*(libraries[it] for it in row.below), at / "rlibs"})
    kind = [word for it in row.kind for word in ("--crate-type", it)]
    # It is linked with no C code of the repository, so it may declare none.
    return command(at, verb, row.name, row.source(), places, folders, *kind, "--links", f"{row.name}=", *options)


def libraries_below(row: Row) -> dict[str, Path]:
    """Returns where the libraries of the crates below one are. Ends this script if one is not proved."""
    every = rows()
    found = {it: every[it].place() for it in row.below}
    if lacking := [it for it, place in found.items() if not (place / f"{it}.rlib").is_dir()]:
        sys.exit(
            f"dnorm: {', '.join(sorted(lacking))} is not proved here: `make {sorted(lacking)[0]}.proved` proves it"
        )
    return found


def end_by_signals() -> None:
    """Lets signals end this process as an exit does, so that it ends the proofs as well, and removes what it made."""
    for number in (signal.SIGINT, signal.SIGTERM, signal.SIGHUP):
        # nohup and background jobs of scripts have it ignored.
        if signal.getsignal(number) is not signal.SIG_IGN:
            signal.signal(number, lambda it, _: sys.exit(128 + it))


class Run:
    """A run of such a command in a folder. What it prints goes to a file."""

    def __init__(self, words: list[str], folder: Path, printed: Path) -> None:
        self.printed = printed
        # Once it has ended: its status, and the processor time in seconds.
        self.status: int | None = None
        self.seconds = 0.0
        with printed.open("wb") as file:
            streams: dict[str, Any] = {"stdin": subprocess.DEVNULL, "stdout": file, "stderr": file}
            # It can fork. Its processes are a group, so that they can be ended together.
            self.process = subprocess.Popen(words, cwd=folder, env=KEEPING, preexec_fn=os.setpgrp, **streams)

    def has_ended(self) -> bool:
        if self.status is None and os.waitid(os.P_PID, self.process.pid, os.WEXITED | os.WNOHANG | os.WNOWAIT):
            # What is left of the group is ended while no other process can have its number.
            os.killpg(self.process.pid, signal.SIGKILL)
            _, status, usage = os.wait4(self.process.pid, 0)
            self.status = self.process.returncode = os.waitstatus_to_exitcode(status)
            self.seconds = usage.ru_utime + usage.ru_stime
        return self.status is not None

    def wait(self) -> None:
        """Waits until it has ended. If an exception ends this, it is ended as well."""
        try:
            while not self.has_ended():
                time.sleep(PAUSE)
        finally:
            self.end()

    def text(self) -> str:
        """Returns what it has printed. If it came to no verdict, the last line has its status."""
        text = self.printed.read_text("utf-8", "replace").rstrip()
        return text if self.status in (0, 1) else f"{text}\nit ended with status {self.status}"

    def end(self) -> None:
        """Ends it, if it has not ended."""
        if not self.has_ended():
            os.killpg(self.process.pid, signal.SIGKILL)
            self.status = self.process.wait()


def available_memory() -> int:
    """Returns the memory that new processes can take, in bytes."""
    with contextlib.suppress(OSError):
        for line in Path("/proc/meminfo").read_text().splitlines():
            if line.startswith("MemAvailable:"):
                return int(line.split()[1]) << 10
    return 0


def share() -> int:
    """Returns how many processes a proof takes, which begins now: its share of the processors. Each proof that make
    runs has locked a file of its own."""
    # make starts all that are ready at once.
    time.sleep(PAUSE)
    running = 0
    for it in PROVED.glob("*.lock"):
        with it.open() as file, contextlib.suppress(BlockingIOError):
            fcntl.flock(file, fcntl.LOCK_SH | fcntl.LOCK_NB)
            continue
        running += 1
    return max(1, min(MOST, -(-PROCESSORS // max(1, running))))


def build(row: Row, options: list[str]) -> None:
    """Proves a crate. If it fails, prints the last lines that the prover has printed."""
    end_by_signals()
    at, libraries = kit.folder(), libraries_below(row)
    PROVED.mkdir(parents=True, exist_ok=True)
    with (PROVED / f"{row.name}.lock").open("w") as lock:
        fcntl.flock(lock, fcntl.LOCK_EX)
        words = over(at, "build", row, libraries, *options, "--jobs", str(share()))
        run = Run(words, row.folder, PROVED / f"{row.name}.said")
        run.wait()
    if run.status:
        print(*run.text().splitlines()[-20:], sep="\n", file=sys.stderr)
        sys.exit(f"dnorm: {row.name} could not be proved and built")


def check(row: Row, options: list[str]) -> int:
    """Proves a crate, and prints what the prover prints. What it can keep stays below build/."""
    own = ["--jobs", str(min(MOST, PROCESSORS)), "--incremental", f"{row.folder}/out/prove"]
    own += ["--test"] * any("#[cfg(test)]" in it.read_text("utf-8") for it in (row.folder / "src").rglob("*.rt"))
    (row.folder / "out").mkdir(exist_ok=True)
    words = over(kit.folder(), "check", row, libraries_below(row), *own, *options)
    return subprocess.call(words, cwd=row.folder, env=KEEPING)


def main() -> int:
    if sys.argv[1:2] != ["build"] and sys.argv[1:2] != ["check"]:
        usage.words(__doc__, most=1)
    verb, *words = sys.argv[1:] or [""]
    if verb == "rules" and not words:
        rules()
        return 0
    every = rows()
    if verb not in ("build", "check") or not words or words[0] not in every:
        print("prover.py: it takes a verb and a crate of crates.txt: --help says more", file=sys.stderr)
        return 2
    if verb == "check":
        return check(every[words[0]], words[1:])
    build(every[words[0]], words[1:])
    return 0


if __name__ == "__main__":
    sys.exit(main())
