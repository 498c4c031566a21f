"""What the tests of the built program share with each other and with tools/: which program is tested, and how it is
run. What a tool takes from here it finds by adding tests/ to its path; no test imports a tool."""

import contextlib
import glob
import os
import resource
import signal
import struct
import subprocess
import sys
import tempfile
from collections.abc import Callable, Iterator, Mapping, Sequence
from typing import IO, Any, NamedTuple

if sys.version_info < (3, 10):
    sys.exit("this script needs Python 3.10 or later")

ROOT = os.path.dirname(os.path.dirname(os.path.realpath(__file__)))
# Where the library for C is.
PREFIX = os.environ.get("DNORM_TESTED_PREFIX") or f"{ROOT}/build/prefix"
# A run that takes longer, in seconds, is ended and fails the test.
LIMIT = 60
# The page of the definitions, which a release has.
DEFINITIONS = "docs/DEFINITIONS.md"
# The signals that end a test as an exit does.
ENDING = (signal.SIGINT, signal.SIGTERM, signal.SIGHUP)
# The arguments of a command, after its name.
Words = Sequence[str | bytes]


class Answer(NamedTuple):
    """The standard output and the standard error of a run, and its status: below 0 for the signal that ended it."""

    out: bytes
    err: bytes
    status: int


def said(out: str | bytes = b"", err: str | bytes = b"", status: int = 0) -> Answer:
    """Returns the answer of a run that prints this, and ends with this status."""
    return Answer(os.fsencode(out), os.fsencode(err), status)


def program_at(given: str | None) -> str:
    """Returns the path of a program that is given, or else of $DNORM, or else of what bin/dnorm runs."""
    built = f"{ROOT}/build/dnorm"
    run_by_default = built if os.access(built, os.X_OK) else f"{ROOT}/released/{os.uname().machine}/dnorm"
    path = os.path.abspath(given or os.environ.get("DNORM") or run_by_default)
    if not os.path.isfile(path) or not os.access(path, os.X_OK):
        sys.exit(f"{path} is not a program")
    return path


def program() -> str:
    """Returns the program of a command line: the first argument, or else what bin/dnorm runs. From then on
    signals end this process as an exit does."""
    end_by_signals()
    return program_at(sys.argv[1] if sys.argv[1:] else None)


def exit_by(number: int, _: object) -> None:
    """Ends this process as an exit does, with the status that a shell gives to a process ended by this signal."""
    sys.exit(128 + number)


def end_by_signals() -> None:
    """Lets signals end this process as an exit does, so that it removes its folders and ends what it started. Signals
    that are ignored, as by nohup, stay ignored."""
    for it in ENDING:
        if signal.getsignal(it) is not signal.SIG_IGN:
            signal.signal(it, exit_by)


@contextlib.contextmanager
def own_folder(name: str, place: str | None = None) -> Iterator[str]:
    """Makes a folder for a test, and removes it at the end. Programs that the test starts put their temporary files
    into another one, which is removed, too, since a program that is killed leaves its files."""
    made = [tempfile.TemporaryDirectory(prefix=f"dnorm-{name}-", dir=place) for _ in range(2)]
    folder, os.environ["TMPDIR"] = (it.name for it in made)
    os.chmod(os.environ["TMPDIR"], 0o1777)
    try:
        yield folder
    finally:
        os.environ["TMPDIR"] = tempfile.gettempdir()
        # A second signal must not end the removal.
        before = signal.pthread_sigmask(signal.SIG_BLOCK, ENDING)
        for it in made:
            it.cleanup()
        signal.pthread_sigmask(signal.SIG_SETMASK, before)


def rows_of_list() -> list[list[str]]:
    """Returns the rows of packaging/installed.txt."""
    return [it.split() for it in text_of(f"{ROOT}/packaging/installed.txt").splitlines() if not it.startswith("#")]


def listed() -> list[tuple[int, str, str]]:
    """Returns the files that packaging/installed.txt lists: modes, paths in the repository and paths below a prefix."""
    rows = [(mode, to, it) for mode, to, *names in rows_of_list() if mode != "link" for it in names]
    # What git does not have stands there by its name.
    found = {(mode, path, to) for mode, to, it in rows for path in glob.glob(it, root_dir=ROOT) or [it]}
    return [(int(mode, 8), path, f"{to}/{os.path.basename(path)}") for mode, path, to in sorted(found)]


def links_listed() -> dict[str, str]:
    """Returns the links that packaging/installed.txt lists: targets by paths below a prefix."""
    return {to: target for mode, to, target in (it[:3] for it in rows_of_list()) if mode == "link"}


def source_of(place: str, tested: str, made: str = "") -> str:
    """Returns the file that a listed path means in this repository, where the program is the tested one, and this
    folder has what tools/generate makes."""
    if place == "bin/dnorm":
        return tested
    if made and os.path.exists(f"{made}/{place}"):
        return f"{made}/{place}"
    # What make makes.
    if place.startswith("released/dnorm.") and os.path.exists(module := f"{ROOT}/build/{os.path.basename(place)}"):
        return module
    # What c/put makes.
    return f"{PREFIX}/{place}" if place.startswith(("include/", "lib/")) else f"{ROOT}/{place}"


def run(words: Words, given: bytes = b"", limit: float | None = LIMIT, **more: Any) -> Answer:
    """Runs the program that these words begin with on the bytes given."""
    ran = subprocess.run(words, input=given, capture_output=True, timeout=limit, check=False, **more)
    return Answer(ran.stdout, ran.stderr, ran.returncode)


def within(level: int, words: Words, given: bytes = b"", **more: Any) -> Answer | None:
    """Runs a program with this memory, in kB. Returns None if the program does not start."""
    limit = (level * 1024, level * 1024)
    try:
        return run(words, given, preexec_fn=lambda: resource.setrlimit(resource.RLIMIT_AS, limit), **more)
    except OSError:
        return None


def least_level(is_enough: Callable[[int], bool]) -> int:
    """Returns the least memory, in kB, that is enough."""
    low, high = 0, 1 << 20
    while high - low > 16:
        level = (low + high) // 2
        low, high = (low, level) if is_enough(level) else (level, high)
    return high


class Quick:
    """Runs a program many times at little cost. Its streams are files in memory, which are emptied before each run."""

    def __init__(self, tested: str) -> None:
        self.program = tested
        self.streams = [os.memfd_create(it) for it in ["in", "out", "err"]]

    def run(self, *words: str, given: bytes = b"") -> Answer:
        for it in self.streams:
            os.ftruncate(it, 0)
            os.lseek(it, 0, os.SEEK_SET)
        os.pwrite(self.streams[0], given, 0)
        actions = [(os.POSIX_SPAWN_DUP2, it, to) for to, it in enumerate(self.streams)]
        child = os.posix_spawn(self.program, [self.program, *words], os.environ, file_actions=actions)
        _, ended = os.waitpid(child, 0)
        out, err = [os.pread(it, os.fstat(it).st_size, 0) for it in self.streams[1:]]
        return Answer(out, err, os.waitstatus_to_exitcode(ended))


def pipe(stream: IO[bytes] | None) -> IO[bytes]:
    """Returns a stream of a process that was started with a pipe for it."""
    assert stream is not None
    return stream


def text_of(path: str, errors: str = "strict") -> str:
    """Returns the text of a file. `errors` says what becomes of bytes that are not UTF-8, as for `open`."""
    with open(path, encoding="utf-8", errors=errors) as file:
        return file.read()


def bytes_of(path: str) -> bytes:
    """Returns the bytes of a file."""
    with open(path, "rb") as file:
        return file.read()


def write(path: str | bytes, text: str | bytes, mode: int | None = None) -> None:
    """Makes a file, and gives it a mode."""
    with open(path, "wb") as file:
        file.write(text if isinstance(text, bytes) else text.encode())
    if mode is not None:
        os.chmod(path, mode)


def make(texts: Mapping[str, str | bytes], mode: int | None = None) -> None:
    """Makes files with these names and texts, and their folders."""
    for name, text in texts.items():
        os.makedirs(os.path.dirname(name) or ".", exist_ok=True)
        write(name, text, mode)


# What git takes from the environment in a scratch repository, and nothing from this machine.
OF_GIT = {f"GIT_{one}_{it}": "a@example.org" for one in ["AUTHOR", "COMMITTER"] for it in ["NAME", "EMAIL"]}
OF_GIT |= {"GIT_CONFIG_GLOBAL": "/dev/null", "GIT_CONFIG_NOSYSTEM": "1"}
# Runs `main` of a module with these arguments. A signal comes while the main thread waits for a thread that starts, and
# has let the lock go.
IN_A_WAIT = """
import signal, sys, threading
from {} import main
waited = threading.Condition.wait
def wait(self, timeout=None):
    if threading.current_thread() is threading.main_thread():
        self._release_save()
        signal.raise_signal(signal.SIGTERM)
    return waited(self, timeout)
threading.Condition.wait = wait
sys.exit(main(sys.argv[1:]))
"""


def python_with(*modules: str) -> str | None:
    """Returns a Python that has these modules: this one, or /usr/bin/python3, which has what Debian packages install.
    Returns None if neither has them."""
    for it in [sys.executable, "/usr/bin/python3"]:
        if os.path.exists(it) and not run([it, "-c", f"import {', '.join(modules)}"]).status:
            return it
    return None


def is_static(path: str) -> bool:
    """Whether a program loads no libraries: it is an ELF file of 64 bits without the header PT_INTERP, which names the
    loader. Any other program, such as a script, may load some."""
    with open(path, "rb") as file:
        head = file.read(64)
        if not head.startswith(b"\x7fELF\x02\x01") or len(head) < 64:
            return False
        start, size, count = struct.unpack_from("<Q14xHH", head, 32)
        file.seek(start)
        table = file.read(size * count)
    return all(table[at : at + 4] != struct.pack("<I", 3) for at in range(0, len(table), max(size, 1)))
