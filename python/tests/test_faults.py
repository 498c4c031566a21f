"""Tests the calls of the Python package where something fails: compressed files, streams and targets, limits, and
processes whose standard streams are closed or that are interrupted."""

import contextlib
import gzip
import io
import os
import signal
import stat
import subprocess
import sys
import time
from collections.abc import Callable
from fractions import Fraction
from pathlib import Path
from typing import Any

import pytest
from known import COSTS, ROADS, ROADS_CANON
from needs import need
from shared import LIMIT, bytes_of, run, write
from test_calls import COMPRESS, PACKAGE, READS, python, standing_in, told

import dnorm

pytestmark = READS


class Parts:
    """A stream that returns these pieces, one after another, and raises those that are exceptions."""

    def __init__(self, *pieces: object) -> None:
        self.pieces = list(pieces)

    def read(self, size: int, /) -> bytes:
        piece = self.pieces.pop(0) if self.pieces else b""
        if isinstance(piece, Exception):
            raise piece
        # Some tests return what is no piece.
        return piece  # type: ignore[return-value]


def test_compressed() -> None:
    """Compressed files, also of several streams. Cut after each byte, and with each byte changed, they cannot be read,
    even if their text seems to have a fault."""
    for end, compress in COMPRESS.items():
        data, name = compress(ROADS), f"t{end}"
        for whole in [data, compress(ROADS[:30]) + compress(b"") + compress(ROADS[30:])]:
            write(name, whole)
            assert told(lambda: dnorm.canon(name)) == ROADS_CANON.decode(), f"{end} of {len(whole)} bytes"
        for at in range(len(data)):
            write(name, data[:at])
            wanted = f"Read: {name}: 31 Read (the compressed data end too early)"
            assert told(lambda: dnorm.check(name)) == wanted, f"{end} of {at} bytes"
            write(name, data[:at] + bytes([data[at] ^ 85]) + data[at + 1 :])
            found = told(lambda: dnorm.canon(name))
            # In the header of gzip, no checksum secures the time and the system.
            is_right = found.startswith("Read: ") or end == ".gz" and 4 <= at < 10 and found == ROADS_CANON.decode()
            assert is_right, f"{end} with another byte {at}: {found}"
        write(name, compress(b"x\n" * 100_000)[:-3])
        assert told(lambda: dnorm.read(name)).startswith(f"Read: {name}: 31 Read ("), f"a fault in {end} that is cut"
    large = b"".join(b"c %d\n" % it for it in range(200_000)) + ROADS
    for end, compress in COMPRESS.items():
        write(f"large{end}", compress(large))
        assert told(lambda: dnorm.canon(f"large{end}")) == ROADS_CANON.decode(), f"a large {end}"
        write(f"zeros{end}", compress(b"c" * 50_000_000 + b"\n" + ROADS))
        assert told(lambda: dnorm.canon(f"zeros{end}")) == ROADS_CANON.decode(), f"a long line in {end}"


# The tool of each compression, which prints the text of its standard input.
TOOLS = {".gz": ["gzip", "-dc"], ".bz2": ["bzip2", "-dc"], ".xz": ["xz", "-dc", "--format=xz"]}


@pytest.mark.parametrize("end", TOOLS)
def test_as_tools(end: str) -> None:
    """A file is read if the tool of its compression reads it to its end, and neither fails nor warns: with zeros or
    other bytes before, between and behind two streams."""
    need(TOOLS[end][0])
    first, second = COMPRESS[end](ROADS[:30]), COMPRESS[end](ROADS[30:])
    fillings = [bytes(it) for it in (0, 1, 2, 3, 4, 5, 7, 8, 12, 511, 512, 70_000, 70_001)]
    fillings += [b"x", b"\0x", b"\0\0\0\0x", first[:1], first[:2], b"\0" + first[:2], COMPRESS[end](b"")]
    for at, whole in enumerate(
        it for x in fillings for it in (x + first + second, first + x + second, first + second + x)
    ):
        write(f"t{end}", whole)
        by_tool = run(TOOLS[end], whole)
        is_read = (by_tool.out, by_tool.err, by_tool.status) == (ROADS, b"", 0)
        found = told(lambda: dnorm.canon(f"t{end}"))
        wanted = ROADS_CANON.decode() if is_read else f"Read: t{end}: 31 Read ("
        assert found.startswith(wanted), f"filling {fillings[at // 3][:9]!r}, place {at % 3}, {by_tool.err!r}: {found}"


def test_streams() -> None:
    """Streams: in pieces, from where they are, and failing. A fault of a whole line stands if the stream fails
    later; nothing else is told of such a text."""
    accepted, error = "accepted sp\nforms none\n", OSError(5, "Input/output error")
    failed = "Read: -: 31 Read (Input/output error)"
    rows: list[tuple[Parts, str]] = [
        (Parts(*(bytes([it]) for it in ROADS)), accepted),
        (Parts(bytearray(ROADS[:9]), memoryview(ROADS)[9:]), accepted), (Parts(), "Refused: -:end: 18 NoProblem"),
        (Parts(error), failed), (Parts(ROADS, error), failed), (Parts(ROADS[:9], error), failed),
        (Parts(ROADS + b"z\n", error), "Refused: -:9: 1 BadLine"), (Parts(ROADS + b"z", error), failed),
        (Parts(ROADS + b"a 9", error), failed), (Parts(b"c " * 200_000, error), failed),
        (Parts(b"z\n" * 200_000, error), "Refused: -:1: 1 BadLine"),
        (Parts(ROADS, EOFError()), "Read: -: 31 Read (EOFError)"),
        (Parts(ROADS, BrokenPipeError(32, "Broken pipe")), "Read: -: 31 Read (Broken pipe)"),
        (Parts(ROADS, KeyError("key")), "Read: -: 31 Read ('key')"),
        (Parts(ROADS, None), "Read: -: 31 Read (the stream has no data yet, and does not wait for them)"),
        (Parts(ROADS, "text"), "TypeError: the stream is not binary: its read() returned str"),
        (Parts(ROADS, 5), "TypeError: the stream is not binary: its read() returned int"),
        (Parts(ROADS, MemoryError()), "Memory: -: 30 Memory"),
    ]  # fmt: skip
    for stream, wanted in rows:
        parts = list(stream.pieces)
        assert told(lambda: dnorm.check(stream)) == wanted, f"check of {parts!r:.80}"
        as_right = "same\n" if wanted == accepted else wanted
        assert told(lambda: dnorm.compare(ROADS, Parts(*parts))) == as_right, f"compare with {parts!r:.80}"
        first = told(lambda: dnorm.compare(Parts(*parts), b"x\n"))
        assert first == ("Refused: -:1: 1 BadLine" if wanted == accepted else wanted), f"compare of {parts!r:.80}"
        if not wanted.startswith("TypeError"):
            found = told(lambda: dnorm.compare(b"x\n", Parts(*parts)))
            assert found == "Refused: -:1: 1 BadLine", f"left before {parts!r:.80}"


def test_open_files() -> None:
    """Open files as streams: their names, where they are read from, and text files."""
    accepted = "accepted sp\nforms none\n"
    write("named.gr", b"x\n" + ROADS)
    with open("named.gr", "rb") as file:
        assert told(lambda: dnorm.check(file)) == "Refused: named.gr:1: 1 BadLine", "a file"
    with open("named.gr", "rb") as file:
        file.read(2)
        assert told(lambda: dnorm.check(file)) == accepted, "a file past its first line"
        assert not file.closed, "it is not closed"
    with open("named.gr", encoding="utf-8") as text:
        found = told(lambda: dnorm.check(text))  # type: ignore[arg-type]
        assert found == "TypeError: the stream is not binary: its read() returned str", "a text stream"


class Takes(io.RawIOBase):
    """A stream that takes at most `size` bytes at once, and fails after `most` bytes. If it does not wait, it says that
    it takes none."""

    def __init__(self, size: int, most: int, waits: bool = True) -> None:
        super().__init__()
        self.taken, self.size, self.most, self.waits = bytearray(), size, most, waits

    def writable(self) -> bool:
        return True

    def write(self, data: Any, /) -> int | None:
        if len(self.taken) >= self.most:
            raise OSError(28, "No space left on device")
        self.taken += data[: self.size]
        return min(len(data), self.size) if self.waits else None


def test_targets() -> None:
    """Targets: files, compressed files, streams and devices. A path has the whole text or what it had before."""
    for end in ["", *COMPRESS]:
        names: list[str | Path] = [f"new{end}", Path(f"old{end}"), f"link{end}"]
        for name in names:
            if not str(name).startswith("new"):
                write(f"old{end}", b"old")
                os.chmod(f"old{end}", 0o604)
            if str(name).startswith("link"):
                os.symlink(f"old{end}", name)
            dnorm.canon_to(ROADS, name)
            assert told(lambda: dnorm.canon(name)) == ROADS_CANON.decode(), f"canon_to {name}"
        assert stat.S_IMODE(os.stat(f"old{end}").st_mode) == 0o604, "the mode of a file"
        assert os.path.islink(f"link{end}"), "a link"
        first = bytes_of(f"new{end}")
        dnorm.canon_to(f"new{end}", f"new{end}")
        assert bytes_of(f"new{end}") == first, f"{end} in place, with the same bytes"
        files: list[dnorm.File] = [b"x", "missing", Parts(ROADS, OSError(5, "I/O")), Parts("text")]
        for file in files:
            found = told(lambda: dnorm.canon_to(file, f"old{end}"))
            assert not found.startswith("None") and bytes_of(f"old{end}") == first, f"nothing is written: {found}"
    before = os.umask(0o077)
    dnorm.canon_to(ROADS, "private")
    os.umask(before)
    assert stat.S_IMODE(os.stat("private").st_mode) == 0o600, "the mode by umask"
    os.symlink("/dev/full", "full.gz")
    rows = {**dict.fromkeys(["/dev/full", "full.gz"], " (No space left on device)"), ".": " (Is a directory)"}
    rows |= {"no/x": " (No such file or directory)", "private/x": " (Not a directory)"}
    for path, reason in rows.items():
        assert told(lambda: dnorm.canon_to(ROADS, path)) == f"Write: {path}: 33 Write{reason}", f"canon_to {path}"
    assert [it for it in os.listdir(".") if it.startswith(".")] == [], "what is left"
    assert told(lambda: dnorm.canon_to(ROADS, "/dev/null")) == "None\n", "/dev/null"
    os.mkfifo("pipe")
    with subprocess.Popen(["cat", "pipe"], stdout=subprocess.PIPE) as cat:
        dnorm.canon_to(ROADS, "pipe")
        assert cat.communicate()[0] == ROADS_CANON, "a pipe"


def test_synced(monkeypatch: pytest.MonkeyPatch) -> None:
    """A new file is on the disk before it takes the place of the old one."""
    steps: list[tuple[str, int]] = []
    replace = os.replace

    def replaced(one: str, to: str) -> None:
        steps.append(("replace", os.stat(one).st_ino))
        replace(one, to)

    monkeypatch.setattr(os, "fsync", lambda fd: steps.append(("sync", os.fstat(fd).st_ino)))
    monkeypatch.setattr(os, "replace", replaced)
    for name in ["t.gr", "t.gr.gz", "t.gr"]:
        steps.clear()
        dnorm.canon_to(ROADS, name)
        inode = os.stat(name).st_ino
        assert steps == [("sync", inode), ("replace", inode)], name


FORMED: list[Callable[[dnorm.File, Any], object]] = [dnorm.canon, dnorm.checksum, dnorm.read]


def test_sinks() -> None:
    """Streams as targets: with short writes, full, failing, and such as do not wait."""
    text = b"p sp 99999 99999\n" + b"".join(b"a %d 1 1\n" % it for it in range(1, 100_000))
    for size, given, wanted in [(1, ROADS, ROADS_CANON), (1000, text, text), (10**7, text, text)]:
        taken = Takes(size, 10**7)
        dnorm.canon_to(given, taken)
        assert taken.taken == wanted, f"a stream that takes {size} bytes"
    full = "Write: -: 33 Write (No space left on device)"
    assert told(lambda: dnorm.canon_to(text, Takes(10**6, 100_000))) == full, "a full stream"
    waits = "Write: -: 33 Write (the stream takes no data now, and does not wait)"
    assert told(lambda: dnorm.canon_to(text, Takes(9, 10**7, False))) == waits, "a stream that does not wait"
    with open("/dev/full", "wb", buffering=0) as file:
        assert told(lambda: dnorm.canon_to(text, file)) == full.replace("-", "/dev/full"), "a full device"
    found = told(lambda: dnorm.canon_to(ROADS, io.StringIO()))  # type: ignore[arg-type]
    assert found == "TypeError: string argument expected, got 'bytes'", "a text stream"
    forms: list[Any] = [0, 3, "1", None]
    for form in forms:
        error = f"ValueError: form is 1 or 2, and not {form!r}"
        for call in FORMED:
            assert told(lambda: call(ROADS, form)) == error, f"form {form!r}"
        found = told(lambda: dnorm.canon_to(ROADS, "none", form))
        assert (found, os.path.exists("none")) == (error, False), f"form {form!r}"
    # Other numbers of Python, as those of numpy, name a form as well.
    write("t.min", COSTS)
    forms = [1.0, 2.0, True, Fraction(2)]
    for form in forms:
        for call in FORMED:
            assert told(lambda: call(COSTS, form)) == told(lambda: call(COSTS, int(form))), f"form {form!r}"
        (record,) = dnorm.check_folder("t.min", form=form).records
        assert record.checksum == dnorm.checksum(COSTS, 1 if form == 1 else 2), f"form {form!r}"


# A process that writes the canonical text of a large text where no file may have more than 1,024 bytes.
SHORT = """
import dnorm, resource
resource.setrlimit(resource.RLIMIT_FSIZE, (1024, 1024))
try:
    dnorm.canon_to("large.gr", "kept")
except dnorm.DnormError as error:
    print(error)
"""


def test_limits() -> None:
    """A limit on the size of files, by which writing a file fails halfway."""
    count = 99_999
    write("large.gr", f"p sp {count} {count}\n" + "".join(f"a {it} 1 1\n" for it in range(1, count + 1)))
    write("kept", b"old")
    assert python(SHORT).out == b"kept: 33 Write (File too large)\n", "a file that grows too large"
    assert (bytes_of("kept"), [it for it in os.listdir(".") if it[0] == "."]) == (b"old", []), "what is left"


# Calls in a process of its own, which write what they lead to into a file; and the arguments are the closed streams.
CLOSED = """
import os, sys
for fd in map(int, sys.argv[1:]):
    os.close(fd)
import dnorm
answers = [dnorm.compare("g.gr", "h.gr"), dnorm.check("g.gr", "s.ss"), dnorm.compare("g.gr.gz", b"p sp 3 0\\n")]
dnorm.canon_to("g.gr", "new.gr")
answers += [dnorm.compare("new.gr", "g.gr")]
with open("answers", "w") as file:
    print(*answers, sep="\\n", file=file)
"""
# A process that is interrupted.
INTERRUPTED = """
import dnorm
try:
    dnorm.canon_to(b"p sp 0 0\\n", "new.gr")
except KeyboardInterrupt:
    print("interrupted")
"""


# A process that checks a compressed text, and says how much memory it took, in kB.
LARGE = """
import dnorm, resource, sys
dnorm.check("small.gr" + sys.argv[1])
before = resource.getrusage(resource.RUSAGE_SELF).ru_maxrss
dnorm.check("large.gr" + sys.argv[1])
print(resource.getrusage(resource.RUSAGE_SELF).ru_maxrss - before)
"""


def test_memory() -> None:
    """A compressed text of 200 MB takes little memory."""
    for end, compress in COMPRESS.items():
        write(f"small.gr{end}", compress(ROADS))
        write(f"large.gr{end}", compress(b"c" * 10_000_000) * 20 + compress(b"\n" + ROADS))
        out = python(LARGE, end).out
        assert 0 <= int(out) < 30_000, f"memory of a large text in {end}: {out!r} kB"


# A process in which the standard library lacks the formats, as in a Python that was built without their libraries.
WITHOUT = """
import sys
sys.modules.update(zlib=None, bz2=None, lzma=None, gzip=None)
import dnorm
print(dnorm.check("roads.gr").kind)
for end in [".gz", ".bz2", ".xz"]:
    for call in [lambda: dnorm.check("roads.gr" + end), lambda: dnorm.canon_to("roads.gr", "new" + end)]:
        try:
            print(call())
        except dnorm.DnormError as error:
            print(type(error).__name__)
"""


def test_formats() -> None:
    """A Python that lacks the modules for compressed files."""
    for end in ["", *COMPRESS]:
        write(f"roads.gr{end}", COMPRESS[end](ROADS) if end else ROADS)
    assert python(WITHOUT).out == b"sp\n" + b"Read\nWrite\n" * 3, "a Python without formats"
    assert sorted(os.listdir(".")) == sorted(f"roads.gr{end}" for end in ["", *COMPRESS]), "what is left"


def test_processes(stand_in: str) -> None:
    """Processes whose standard streams are closed, and that are interrupted."""
    texts = {"g.gr": ROADS, "h.gr": b"p sp 2 0\n", "s.ss": b"p aux sp ss 0\n"}
    for name, text in texts.items():
        write(name, text)
        write(f"{name}.gz", gzip.compress(text))
    wanted = b"differ nodes 3 2\nChecked(kind='sp', fits='ss', forms=())\ndiffer pair 1 2 length 3 none\nsame\n"
    for closed in ["", "0", "1", "2", "0 1", "0 2", "1 2", "0 1 2"]:
        write("answers", b"")
        python(CLOSED, *closed.split())
        assert bytes_of("answers") == wanted, f"without streams {closed}"
    os.mkdir("empty")
    with standing_in(stand_in, LOG="started", WAIT=60_000):
        own = {**os.environ, "PYTHONPATH": PACKAGE}
        process = subprocess.Popen([sys.executable, "-c", INTERRUPTED], env=own, stdout=subprocess.PIPE, cwd="empty")
    while process.poll() is None and not os.path.exists("empty/started"):
        time.sleep(0.01)
    # A signal just before a call of the system waits for its end, so another one may be needed.
    while process.poll() is None:
        process.send_signal(signal.SIGINT)
        with contextlib.suppress(subprocess.TimeoutExpired):
            process.wait(1)
    out = process.communicate(timeout=LIMIT)[0]
    found = out, process.returncode, os.listdir("empty")
    assert found == (b"interrupted\n", 0, ["started"]), "an interrupted call"
