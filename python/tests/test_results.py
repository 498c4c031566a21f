"""Tests what people who read results get: causes of refusals, lists of names, time limits, lists of what texts contain,
differences, manifests of folders, links, and names on a terminal."""

import contextlib
import csv
import gzip
import io
import json
import os
import re
import signal
import sys
import time
from collections.abc import Callable
from fractions import Fraction
from typing import Any
from xml.etree import ElementTree

import pytest
from collection import zstd
from known import COSTS, FLOWS, ROADS, ROADS_CANON
from needs import leave_out
from shared import ROOT, bytes_of, make, python_with, run, said, write
from test_calls import BOTH, COMPRESS, PACKAGE, READS, error_of, python, standing_in, told
from test_folders import LETTERS, X, ENVIRONMENT, module, on_terminal, prints
from test_records import records_of

import dnorm
from dnorm.files import Text
from dnorm.library import Status, held
from dnorm.limits import Limit

pytestmark = READS
INFINITE = float("inf")
# Refused texts, with the line and the hint of the refusal; others are in tests/program/test_explain.py. A file is
# "t.gr".
MANY = b"p max 3 3\nn 1 s\nn 3 t\na 1 2 9223372036854775800\na 1 3 1\na 1 2 8\n"
NUL_WITHIN = "The line has NUL within, where data may be lost: get the file again"
CAUSES: list[tuple[bytes, str | None, str | None]] = [
    (b"p aux sp ss 1\ns 0\n", "s 0", "IDs count from 1"),
    (b"p sp 2 1\na 1 2 7.0\n", "a 1 2 7.0", "Remove the fraction, which is 0"),
    (b"c\n", None, "The text has only comments, or the command that wrote it failed"),
    (b"p sp 2 1\na 1 2 7\r\n\ta\t1 1 1\r\n", "^Ia^I1 1 1^M", "declared 1, found 2: only a, s, q and v lines count"),
    (b"p min 3 0\nc\nn 2 1\nn +02 5\n", "n +02 5", "Node +02 came first in line 3"),
    (b"p max 3 0\nn 2 t\nn 1 t\n", "n 1 t", "The sink is node 2, by line 2"),
    (b"p max 3 0\nn 2 s\nn 1 t\nn 3 s\n", "n 3 s", "The source is node 2, by line 2"),
    (b"p aux sp co 2\nv 7 0 0\nv 7 1 1\n", "v 7 1 1", "Point 7 came first in line 2"),
    (MANY, "a 1 2 8", "The capacities from 1 to 2 sum to 9223372036854775800 before this line, and with it to "
        "9223372036854775808"),
    (b"p min 2 2\na 1 2 0 9223372036854775807 0\na 1 2 1 1 0\n", "a 1 2 1 1 0",
        "The capacities from 1 to 2 sum to 9223372036854775807 before this line, and with it to 9223372036854775808"),
    (b"p sp 0 0\nx" + b"\xe9" * 300, "x" + "M-i" * 199, LETTERS),
    (b"p sp 2 1\na 1 2" + bytes(200) + b"7 9\n", "a 1 2" + "^@" * 195, NUL_WITHIN),
    (b"p sp 2 1\na 1 2 3\0 ", "a 1 2 3^@ ", NUL_WITHIN),
    (b"p sp 2 1\na 1 2 3" + bytes(9000), "a 1 2 3" + "^@" * 193, NUL_WITHIN),
    (b"p sp 2 1\na 1 2 3" + bytes(900), "a 1 2 3" + "^@" * 193,
        "The line ends in NUL or Ctrl-Z: tr -d '\\0\\032' < {} | dnorm check -"),
    ("p sp 0 0\n".encode("utf-32"), "M-^?M-~^@^@" + "".join(f"{it}^@^@^@" for it in "p sp 0 0"),
        "The file is in UTF-32: iconv -f UTF-32 -t UTF-8 < {} | dnorm check -"),
]  # fmt: skip


def test_causes() -> None:
    """The line and the hint of refusals of files, compressed files, bytes and streams."""
    for text, line, hint in CAUSES:
        write("t.gr", text)
        write("t.gr.gz", gzip.compress(text))
        # A command applies to a file that is not compressed.
        plain = hint and re.split(": (?:tr|tail|iconv) ", hint)[0]
        rows: list[tuple[dnorm.File, str | None, str | None]] = [("t.gr", line, hint and hint.format("t.gr"))]
        rows += [("t.gr.gz", line, plain), (text, line, plain), (io.BytesIO(text), None, None)]
        for file, wanted, more in rows:
            calls: list[Callable[[dnorm.File], object]] = [dnorm.check, lambda it: dnorm.compare(ROADS, it)]
            for call in calls:
                error = error_of(lambda: call(file))
                # The row, which tests of hints know.
                hints = [it for it in (error.hint or "").split("\n") if not re.match("[a-z] [A-Z]", it)]
                assert (error.text, "\n".join(hints) or None) == (
                    wanted,
                    more,
                ), f"the cause in {text!r:.60} as {file!r:.20}"
                if isinstance(file, io.BytesIO):
                    file.seek(0)
    write("s.ss", b"p aux sp p2p 3\nc 9\nq 2 1\nq 3 +009\nq 9 9\n")
    companions: list[dnorm.File] = ["s.ss", bytes_of("s.ss")]
    for file in companions:
        error = error_of(lambda: dnorm.check(ROADS, file))
        found = (error.number, error.node, error.text, error.hint)
        assert found == (35, 9, None, "line 4 names it: q 3 +009"), "a companion"
    long = b"c\n" * 300_000
    write("t.gr", long + b"x" * 100_000 + b"\n")
    error = error_of(lambda: dnorm.check("t.gr"))
    assert (error.line, error.text) == (300_001, "x" * 200), "a line behind others"
    begin = f"::error file=t.gr,line=300001,title=dnorm%3A 1 BadLine::t.gr:300001: 1 BadLine%0A{dnorm.REFUSALS[1][1]}"
    lines = f"{begin}%0Aline 300001: {'x' * 200}%0A{' ' * 13}{'^' * 200}%0A{LETTERS}\n"
    missing = "::error file=missing%2C%3A%25.gr::missing,:%25.gr: 31 Read (No such file or directory)\n"
    count = "0 accepted, 1 refused, 1 failed\n"
    prints("check --output-format github t.gr missing,:%.gr", missing + lines, count, 4)


# Files that are not what their names say, with the hint that they have.
PACKED: dict[str, tuple[bytes, str]] = {
    "plain.gr.gz": (ROADS, "The file is not compressed: dnorm check - < plain.gr.gz"),
    "lfs.gr.gz": (b"version https://git-lfs.github.com/spec/v1\noid sha256:0\n",
                  "The file is a pointer of Git LFS, and the text is missing: git lfs pull"),
    "cut.gr.bz2": (COMPRESS[".bz2"](ROADS)[:-5], "The file is cut or damaged: get it again"),
    "zip.gr.xz": (b"PK\x03\x04..", "The file is a zip archive, and its name says another thing: unzip -p zip.gr.xz | "
                  "dnorm check -"),
    "empty.gr.gz": (b"", "The file is empty"),
    "noise.gr.gz": (b"\x80\x81", "The file is not compressed as its name says"),
}  # fmt: skip


def test_hints_of_failures() -> None:
    """The hints of files that are not compressed as their names say, in each format."""
    for name, (data, _hint) in PACKED.items():
        write(name, data)
    names = sorted(PACKED)
    hints = [PACKED[it][1] for it in names]
    found = module("check", *names)
    assert [it.strip() for it in found.err.decode().splitlines() if it.startswith("    ")] == hints, "hints as text"
    assert [it["hint"] for it in records_of("check", "--json", *names)[0]] == hints, "hints in JSON"
    lines = module("check", "--output-format", "github", *names).out.decode().splitlines()
    assert [it.partition("%0A")[2] for it in lines] == hints, "hints for GitHub"
    module("check", "--junit", "report", *names)
    assert [it.text for it in ElementTree.parse("report").iter("error")] == hints, "hints in XML"
    error = error_of(lambda: dnorm.read("plain.gr.gz"), dnorm.Read)
    assert error.hint == PACKED["plain.gr.gz"][1], "a hint of a call"
    write("a.ss", b"p aux sp ss 0\n")
    write("a.gr", ROADS)
    error = error_of(lambda: dnorm.check("a.ss", "a.gr"))
    wanted = "The graph comes first, an sp text, and then the companion, an ss, p2p or co text"
    assert (error.number, error.hint) == (36, wanted), "swapped arguments"
    found = run([f"{ROOT}/bin/dnorm-explain"], b"a.gr: 36 NotKinds\n", env={**os.environ, **ENVIRONMENT})
    assert wanted.encode() in found.out, f"dnorm-explain of 36: {found.out!r}"


def test_compressions() -> None:
    """Names of compressed files in capitals, those of unknown compressions, and zstd where a module reads it."""
    for end, compress in COMPRESS.items():
        dnorm.canon_to(ROADS, f"t{end.upper()}")
        assert bytes_of(f"t{end.upper()}")[:3] == compress(ROADS_CANON)[:3], f"canon_to {end.upper()}"
        assert told(lambda: dnorm.canon(f"t{end.upper()}")) == ROADS_CANON.decode(), f"canon {end.upper()}"
    unknown = {".Z": "compress", ".z": "compress", ".lz4": "lz4", ".zip": "zip", ".BR": "brotli", ".7z": "7-Zip"}
    unknown |= {".lzma": "lzma", ".zstd": ".zstd", ".tgz": ".tgz", ".gz.xz": ".gz.xz", ".tar.gz": ".tar.gz"}
    for end, what in unknown.items():
        write(f"t{end}", ROADS)
        for name in [f"t{end}", f"none{end}"]:
            reason = f"{what} is not supported"
            if name in os.listdir("."):
                assert told(lambda: dnorm.check(name)) == f"Read: {name}: 31 Read ({reason})", f"check {name}"
            found = told(lambda: dnorm.canon_to(ROADS, name))
            assert found == f"Write: {name}: 33 Write ({reason})", f"canon_to {name}"
            found_ = module("manifest", "--output", name, f"{ROOT}/examples/roads.gr")
            assert (found_.err, found_.status) == (f"{name}: 33 Write ({reason})\n".encode(), 4), f"--output {name}"
        assert bytes_of(f"t{end}") == ROADS, f"t{end} is kept"
    assert sorted(os.listdir(".")) == sorted([*(f"t{it}" for it in unknown), "t.GZ", "t.BZ2", "t.XZ"]), "no other file"
    for name, what in {"t.gr.gz.gz": ".gz.gz", "t.grz": ".grz"}.items():
        found = told(lambda: dnorm.canon_to(ROADS, name))
        assert found == f"Write: {name}: 33 Write ({what} is not supported)", f"canon_to {name}"
        assert not os.path.exists(name), f"no {name}"
    write("t.gr.old", ROADS)
    assert told(lambda: dnorm.check("t.gr.old")) == "accepted sp\nforms none\n", "another name is read"
    dnorm.canon_to(ROADS, "jquery.min.js")
    assert bytes_of("jquery.min.js") == ROADS_CANON, "a page's name"
    zstandard()


BY_ZSTANDARD = """
import dnorm, sys
print(dnorm.check("t.gr.zst"), dnorm.checksum("t.gr.zst") == dnorm.checksum("t.gr"))
dnorm.canon_to("large.gr", "large.gr.ZST")
print(dnorm.checksum("large.gr.ZST") == dnorm.checksum("large.gr"))
data = open("large.gr.ZST", "rb").read()
for end in range(0, len(data), len(data) // 50 + 1):
    open("cut.zst", "wb").write(data[:end])
    open("damaged.zst", "wb").write(data[:end] + bytes([data[end] ^ 85]) + data[end + 1:])
    open("more.zst", "wb").write(data + data[: end + 1])
    for name in ["cut.zst", "damaged.zst", "more.zst"]:
        try:
            dnorm.canon(name)
            print(name, end, "is read")
        except dnorm.Read:
            pass
frame, skipped = open("t.gr.zst", "rb").read(), bytes.fromhex("502a4d1802000000") + b"ab"
open("two.zst", "wb").write(skipped + frame + skipped)
print(dnorm.check("two.zst").kind)
open("zeros.zst", "wb").write(frame + bytes(9))
try:
    dnorm.check("zeros.zst")
except dnorm.Read as error:
    print(error)
"""


# A module with the members of `compression.zstd` in Python 3.14 that the package uses, as its documentation has them.
OF_3_14 = """
import zstandard
ZstdError = zstandard.ZstdError

class CompressionParameter:
    checksum_flag = 201

class ZstdDecompressor:
    def __init__(self):
        self._it, self._rest, self.eof, self.unused_data = zstandard.ZstdDecompressor().decompressobj(), b"", False, b""

    def decompress(self, data, max_length=-1):
        if self.eof:
            raise EOFError("the end was reached before")
        self._rest += b"" if self._it.eof else self._it.decompress(data)
        found, self._rest = self._rest[:max_length], self._rest[max_length:]
        self.eof = self._it.eof and not self._rest
        self.unused_data = self._it.unused_data if self.eof else b""
        return found

class ZstdFile:
    def __init__(self, file, mode, *, level=None, options=None):
        assert mode == "wb" and options == {201: 1}
        self._it = zstandard.ZstdCompressor(write_checksum=True).stream_writer(file, closefd=False)
        self.write, self.close = self._it.write, self._it.close
"""


def zstandard() -> None:
    """Zstd by a Python that has the module zstandard, as Python 3.14 does it, and without a module."""
    write("t.gr.zst", zstd(ROADS))
    write("t.gr", ROADS)
    write("large.gr", "p sp 50000 50000\n" + "".join(f"a {it} 1 {it * it % 9973}\n" for it in range(1, 50_001)))
    wanted = "Checked(kind='sp', fits=None, forms=()) True\nTrue\nsp\n"
    wanted += "zeros.zst: 31 Read (9 zero bytes follow the compressed data)\n"
    by = python_with("zstandard") or leave_out("the module zstandard")
    make({"later/compression/__init__.py": b"", "later/compression/zstd.py": OF_3_14})
    for path in [PACKAGE, f"{os.getcwd()}/later:{PACKAGE}"]:
        found = run([by, "-c", BY_ZSTANDARD], env={**os.environ, **ENVIRONMENT, "PYTHONPATH": path})
        assert found == said(wanted), f"zstd by {path}"
    if sys.version_info < (3, 14):
        found = python("import sys; sys.modules['zstandard'] = None; import dnorm; dnorm.check('t.gr.zst')")
        line = found.err.decode().splitlines()[-1]
        reason = "t.gr.zst: 31 Read (zstd needs Python 3.14 or the module zstandard)"
        assert line == f"dnorm.errors.Read: {reason}", "zstd without a module"


def test_names_given() -> None:
    """Names from standard input and from a file."""
    make({"a/x.gr": ROADS, "a/y\nz.gr": ROADS, "b.min": COSTS})
    lines = {it: f"{it}: accepted {kind}\n" for it, kind in [("a/x.gr", "sp"), ("b.min", "min")]}
    lines["a/y\nz.gr"] = "\\a/y\\nz.gr: accepted sp\n"
    all_ = "".join(lines[it] for it in sorted(lines))
    write("list", "a/y\nz.gr\0b.min\0a/x.gr")
    for words, given, out in [
        ("check --files-from -", b"b.min\na/x.gr\n", lines["a/x.gr"] + lines["b.min"]),
        ("check --files-from -", b"b.min\na/x.gr", lines["a/x.gr"] + lines["b.min"]),
        ("check --files-from - a/x.gr", b"b.min\n", lines["a/x.gr"] + lines["b.min"]),
        ("check --files-from -", b"a\nb.min\n", all_),
        ("check --files0-from -", b"a\0b.min\0", all_),
        ("check --files0-from list", b"", all_),
        ("check --files0-from list --files-from -", b"b.min\n", all_),
    ]:
        prints(words, out, f"{out.count(': accepted ')} accepted, 0 refused, 0 failed\n", given=given)
    for words, name, reason in [
        ("check --files-from -", "-", "it names no file"),
        ("list --files0-from -", "-", "it names no file"),
        ("same --files0-from none", "none", "No such file or directory"),
    ]:
        prints(words, "", f"{name}: 31 Read ({reason})\n", 4)
    found = module("check", "--files-from", "-", given=b"\nb.min\n")
    is_told = found.out.startswith(b": 31 Read (No such file or directory)\n")
    assert (is_told, found.status) == (True, 4), "a name without a character"


def test_time_limits(stand_in: str) -> None:
    """Calls and commands that take too long: a FIFO without a writer, one whose writer waits, and a slow library."""
    os.mkfifo("pipe.gr")
    os.mkfifo("pipe.gr.gz")
    write("t.gr", ROADS)
    rows: list[tuple[str, Callable[[], object], str]] = [
        ("a FIFO", lambda: dnorm.canon("pipe.gr", timeout=0.3), "pipe.gr"),
        ("a compressed FIFO", lambda: dnorm.checksum("pipe.gr.gz", timeout=0.3), "pipe.gr.gz"),
        ("a second FIFO", lambda: dnorm.compare("t.gr", "pipe.gr", timeout=0.3), "t.gr"),
        ("no time", lambda: dnorm.read("t.gr", timeout=0), "t.gr"),
        ("differences", lambda: dnorm.differences("t.gr", "pipe.gr", timeout=0.3), "t.gr"),
    ]
    with open("pipe.gr", "rb+", buffering=0), open("pipe.gr.gz", "rb+", buffering=0) as file:
        file.write(gzip.compress(ROADS)[:20])
        waiting = [*rows]
        before(waiting)
    before(rows)
    write("bad.gr", b"x\n")
    start = time.monotonic()
    first = told(lambda: dnorm.compare("bad.gr", "pipe.gr", timeout=20))
    assert (first, time.monotonic() - start < 10) == ("Refused: bad.gr:1: 1 BadLine", True), "left before a FIFO"
    with standing_in(stand_in, WAIT=1000):
        before([("a slow library", lambda: dnorm.check("t.gr", timeout=0.3), "t.gr")])
        before([("a slow library and bytes", lambda: dnorm.canon(ROADS, timeout=0.3), "-")])
    kept = signal.signal(signal.SIGALRM, ring)
    signal.setitimer(signal.ITIMER_REAL, 0.2)
    try:
        dnorm.check("pipe.gr")
        pytest.fail("a FIFO is opened")
    except TimeoutError as error:
        assert str(error) == "mine", "an alarm while a FIFO is opened"
    signal.signal(signal.SIGALRM, kept)
    kinds = [dnorm.check("t.gr", timeout=60).kind, dnorm.read("t.gr", timeout=60).kind]
    assert (dnorm.canon("t.gr", timeout=60), kinds) == (ROADS_CANON, ["sp", "sp"]), "calls in time"
    late, count = "pipe.gr: took more than 0.5 seconds\n", "1 accepted, 0 refused, 1 failed\n"
    prints("check --timeout 0.5 t.gr pipe.gr", f"{late}t.gr: accepted sp\n", late + count, 4)


def ring(*_: object) -> None:
    raise TimeoutError("mine")


def lack_memory(*_: object) -> None:
    raise MemoryError


class SlowLibrary:
    """Stands for a library whose last step takes a second. It says how often it was freed."""

    def __init__(self) -> None:
        self.freed = 0
        self.dnorm_begin = self.dnorm_feed = lambda *_: Status()

    def dnorm_finish(self, _: object) -> Any:
        time.sleep(1)
        return Status()

    def dnorm_free(self, _: object) -> None:
        self.freed += 1


def test_long_steps(monkeypatch: pytest.MonkeyPatch) -> None:
    """A step of the library that takes long ends no later than the limit, and frees its memory at its end."""
    library: Any = SlowLibrary()
    start = time.monotonic()
    with contextlib.ExitStack() as stack, monkeypatch.context() as patched:
        patched.setattr(dnorm.library, "library", lambda: library)
        text = Text(ROADS, Limit(0.2, "-"))
        found = told(lambda: stack.enter_context(held(text)))
    took = time.monotonic() - start
    assert (found, library.freed) == ("TimedOut: -: took more than 0.2 seconds", 0), "a long step"
    assert took < 0.6, f"it takes {took} s"
    time.sleep(1)
    assert library.freed == 1, "it is freed once"
    monkeypatch.setattr(dnorm.library.Held, "instance", lack_memory)
    assert told(lambda: dnorm.read(ROADS)) == "Memory: -: 30 Memory", "little memory for columns"


# Limits that no call takes.
NO_LIMITS: list[Any] = [-1, INFINITE, -INFINITE, float("nan"), 1e300, 10**400, 10**9 + 1, "5", b"5", [5]]
TIMED: list[Callable[[Any], object]] = [
    lambda it: dnorm.check(ROADS, timeout=it), lambda it: dnorm.canon(ROADS, timeout=it),
    lambda it: dnorm.canon_to(ROADS, io.BytesIO(), timeout=it), lambda it: dnorm.checksum(ROADS, timeout=it),
    lambda it: dnorm.compare(ROADS, FLOWS, timeout=it), lambda it: dnorm.differences(ROADS, FLOWS, timeout=it),
    lambda it: dnorm.read(ROADS, timeout=it), lambda it: dnorm.write(dnorm.read(ROADS), io.BytesIO(), timeout=it),
]  # fmt: skip


@BOTH
def test_limits() -> None:
    """Limits that are no number of seconds, or one that no clock reaches, and the greatest limit."""
    for call in TIMED:
        for limit in NO_LIMITS:
            wanted = "TypeError: timeout is a number of seconds, "
            if isinstance(limit, (int, float)):
                wanted = f"ValueError: timeout is at least 0 and at most 1000000000 seconds, and not {limit}"
            found = told(lambda: call(limit))
            assert found.startswith(wanted), found
        for limit in [10**9, 1e9, Fraction(10**9)]:
            assert told(lambda: call(limit)) == told(lambda: call(None)), "the greatest limit"
    for pairs in [-1, 1.5, INFINITE, "1"]:
        wanted = "ValueError: limit is at least 0, and not -1" if pairs == -1 else "TypeError: limit: "
        found = told(lambda: dnorm.differences(ROADS, FLOWS, pairs))  # type: ignore[arg-type]
        assert found.startswith(wanted), "a limit of pairs"


def before(rows: list[tuple[str, Callable[[], object], str]]) -> None:
    """Calls end soon."""
    for what, call, name in rows:
        start = time.monotonic()
        timeout = "0" if what == "no time" else "0.3"
        assert told(call) == f"TimedOut: {name}: took more than {timeout} seconds", what
        assert time.monotonic() - start < 10, f"{what} ends soon"


def test_folders_of_manifests() -> None:
    """What `manifest --verify` says of files that are gone and of files that the manifest lacks; and JSON."""
    make({"set/a.gr": ROADS, "set/b.min": COSTS, "set/c.gr": b"p sp 1 0\n", "set/notes": b"x"})
    module("manifest", "--output", "list", "set")
    sums = {name: it for it, name in (line.split() for line in bytes_of("list").decode().splitlines()[1:])}
    os.remove("set/a.gr")
    write("set/b.min", FLOWS)
    make({"set/below/new.gr": ROADS, "set/bad.gr": b"x\n"})
    lines = "set/a.gr: gone\nset/b.min: differs\nset/c.gr: same\n"
    count, other = (
        "1 the same, 1 different, 0 refused, 0 failed, 1 gone",
        "1 other file: no ending 1; --strict refuses them\n",
    )
    prints("manifest --verify list", lines, f"{count}\n", 1)
    more = "set/bad.gr: not listed\nset/below/new.gr: not listed\n"
    for path in ["set", "./set/", os.path.abspath("set")]:
        lines_ = lines + more.replace("set/", os.path.join(path, ""))
        prints(f"manifest --verify list {path}", lines_, f"{count}, 2 not listed\n{other}", 1)
    lines = lines.replace("set/c.gr: same\n", "") + "set/below/new.gr: not listed\n"
    count += ", 1 not listed, 1 excluded\n"
    prints("manifest --verify list -q --exclude bad.gr set", lines, count + other, 1)
    records = records_of("manifest", "--verify", "list", "--json", "set", "none")[0]
    wanted_ = {"set/a.gr": "gone", "set/b.min": "differs", "set/c.gr": "same", "none": "failed"}
    wanted_ |= dict.fromkeys(["set/bad.gr", "set/below/new.gr"], "not listed")
    assert {it["name"]: it["status"] for it in records} == wanted_, "statuses in JSON"
    assert records[0] == {"name": "set/a.gr", "status": "gone", "checksum": sums["set/a.gr"], "form": 1}, "a record"
    records = records_of("manifest", "--json", "--form", "2", "set")[0]
    told_ = [f"{it['name']} {it['status']}" for it in records]
    names = ["set/b.min accepted", "set/bad.gr refused", "set/below/new.gr accepted", "set/c.gr accepted"]
    assert told_ == names, "a manifest in JSON"
    assert (records[3]["checksum"], records[3]["nodes"]) == (sums["set/c.gr"], 1), "a record"


def test_links() -> None:
    """That `same` takes no link for a file of its own, and its groups in JSON."""
    make({"set/b.gr": ROADS, "set/sub/c.gr": ROADS_CANON, "set/one.min": COSTS})
    os.symlink("b.gr", "set/a.gr")
    os.link("set/sub/c.gr", "set/sub/d.gr")
    os.symlink("one.min", "set/also-one.min")
    prints("same set", "set/b.gr\nset/sub/c.gr\n", "6 accepted, 0 refused, 0 failed, 1 group, 3 links\n")
    wanted = {"checksum": dnorm.checksum(ROADS), "names": ["set/b.gr", "set/sub/c.gr"]}
    assert records_of("same", "--json", "set")[0] == [wanted], "same --json"


def test_on_terminal() -> None:
    """Names cannot command a terminal, and reach a file as they are."""
    names = ["a\x1b[31m\t.gr", "b\x7f\x9b\u202e.gr", os.fsdecode(b"c\x9b\xff.gr"), "dé.gr"]
    shown = [r"a\x1b[31m\x09.gr", r"b\x7f\xc2\x9b\xe2\x80\xae.gr", r"c\x9b\xff.gr", "dé.gr"]
    for it in names:
        write(it, b"x\n")
    lines = [it.rpartition("\r")[2] for it in on_terminal("check", *names)[0].split("\n")]
    assert [it for it in lines if "BadLine" in it] == [f"{it}:1: 1 BadLine" for it in shown], "names on a terminal"
    found = module("check", "-q", *names)
    assert found.out == b"".join(os.fsencode(f"{it}:1: 1 BadLine\n") for it in names), "names in a pipe"


LARGE = b"p min 4 4\nn 1 9000000000\nn 4 -7\na 1 2 0 9223372036854775807 -2147483649\na 2 2 1 1 0\na 1 2 0 0 5\n"
LARGE += b"a 3 1 0 2 1\n"
# Texts, and what `list` says of them below the line of the name.
LISTED: dict[str, tuple[bytes, str]] = {
    "a.gr": (ROADS, "nodes 3, without arcs 0|lines 7, canonical 5, merged 2, self-loops 1|length -5 to 9, 31 bits"),
    "b.min": (LARGE, "nodes 4, without arcs 1|lines 4, canonical 3, merged 1, self-loops 1|"
              "flow -7 to 9000000000, 53 bits|low 0 to 1, 31 bits|cap 1 to 9223372036854775807, 64 bits|"
              "cost -2147483649 to 1, 32 bits|"
              f"sums: capacity {2**63 + 2}, capacity times cost {(2**63 - 1) * 2147483649 + 2}, supply 9000000000, "
              "demand 7"),
    "c.max": (b"p max 5 3\nn 5 s\nn 1 t\na 5 1 3000000000\na 5 1 3000000000\na 1 5 0\n",
              "nodes 5, without arcs 3|lines 3, canonical 1, merged 2, self-loops 0|cap 6000000000 to 6000000000, "
              "53 bits|sums: capacity 6000000000"),
    "d.co": (b"p aux sp co 2\nv 9 -4294967295 1\nv 3 7 4294967296\n", "lines 2, canonical 2|id 3 to 9, 31 bits|"
             "x -4294967295 to 7, 32 bits|y 1 to 4294967296, 53 bits"),
    "e.p2p": (b"p aux sp p2p 2\nq 1 7\nq 1 2\n", "lines 2, canonical 2|source 1 to 1, 31 bits|target 2 to 7, 31 bits"),
    "f.sp": (b"p sp 2 0\n", "nodes 2, without arcs 2|lines 0, canonical 0, merged 0, self-loops 0"),
    "g.ss": (b"p aux sp ss 0\n", "lines 0, canonical 0"),
}  # fmt: skip


def test_lists() -> None:
    """Tests `list`: its lines, its JSON objects and its table."""
    make({f"set/{name}": text for name, (text, _) in LISTED.items()})
    packed = b"c\n\tp sp  2 1\na 1 2 3\n"
    make({"set/h.gr.gz": gzip.compress(packed), "set/x.gr": b"x\n"})
    more_ = "nodes 2, without arcs 0|lines 1, canonical 1, merged 0, self-loops 0|length 3 to 3, 31 bits"
    rows = {**LISTED, "h.gr.gz": (packed, more_)}
    lines, sums = "", {}
    for name, (text, more) in rows.items():
        sums[name] = dnorm.checksum(text)
        kind = dnorm.check(text).kind
        told_of = [f"bytes {len(text)}", *more.split("|"), f"checksum {sums[name]}"]
        below = "".join(f"    {it}\n" for it in told_of)
        lines += f"set/{name}: {kind}\n{below}"
    count = "8 listed, 1 refused, 0 failed\n"
    prints("list set", lines, f"set/x.gr:1: 1 BadLine\n{count}", 2)
    records = records_of("list", "--json", "set")[0]
    names = [*((f"set/{name}", sums[name]) for name in rows), ("set/x.gr", None)]
    assert [(it["name"], it["checksum"]) for it in records] == names, "list --json"
    wanted = {"name": "set/c.max", "kind": "max", "bytes": len(LISTED["c.max"][0]), "nodes": 5, "declared": 3}
    wanted |= {"canonical": 1, "merged": 2, "self_loops": 0}
    wanted |= {"without_arcs": 3, "capacity": 6000000000, "capacity_times_cost": None, "supply": None, "demand": None}
    wanted |= {"fields": {"cap": {"least": 6000000000, "greatest": 6000000000, "bits": 53}}, "checksum": sums["c.max"]}
    assert {it: records[2][it] for it in wanted} == wanted, "a record"
    found = module("list", "--csv", "set")
    table = list(csv.DictReader(io.StringIO(found.out.decode())))
    assert [(it["name"], it["checksum"]) for it in table] == [(f"set/{it}", sums[it]) for it in rows], "list --csv"
    told_ = [table[1][it] for it in ["kind", "nodes", "cost_least", "cost_bits", "length_bits", "capacity_times_cost"]]
    assert told_ == ["min", "4", "-2147483649", "32", "", str((2**63 - 1) * 2147483649 + 2)], "a row"
    (it,) = records_of("list", "--form", "2", "--json", "set/b.min")[0]
    assert it["checksum"] == dnorm.checksum(LARGE, 2), "list --form 2"


# Changes of a text with the arcs below, and the lines that `compare` prints below the first one.
ARCS = {(1, 2): "2 40 331", (2, 3): "0 7 1", (3, 1): "0 5 2"}


def costly(arcs: dict[tuple[int, int], str], nodes: int = 3, flow: int = 4) -> bytes:
    """Returns a text with these arcs."""
    lines = "".join(f"a {tail} {head} {more}\n" for (tail, head), more in arcs.items())
    return f"p min {nodes} {len(arcs)}\nn 1 {flow}\nn 3 -4\n{lines}".encode()


def pairs(*counts: int, what: str = "pairs") -> str:
    return f"{what}: %d only left, %d only right, %d in both, %d of them different" % counts


LEFT, CHANGED = costly(ARCS), costly({it: f"{more}0" for it, more in ARCS.items()}, 4)
REVERSED = costly({(2, 1): "2 40 331", (3, 2): "0 7 1", (3, 1): "0 5 2"})
WITHOUT = {(2, 3): "0 7 1", (3, 1): "0 5 2"}
# Two texts, options of `compare`, and the lines that it prints below the first one.
COMPARED: list[tuple[bytes, bytes, str, list[str]]] = [
    (LEFT, LEFT, "", [pairs(0, 0, 3, 0)]),
    (LEFT, costly({**ARCS, (1, 2): "0 40 331"}), "",
     [pairs(0, 0, 3, 1), "different in low: 1", "< a 1 2 2 40 331", "> a 1 2 0 40 331"]),
    (LEFT, costly({**ARCS, (1, 2): "0 7 5"}), "",
     [pairs(0, 0, 3, 1), "different in low cap cost: 1", "< a 1 2 2 40 331", "> a 1 2 0 7 5"]),
    (LEFT, costly(WITHOUT), "", [pairs(1, 0, 2, 0), "< a 1 2 2 40 331"]),
    (LEFT, costly({(2, 1): "2 40 331", **WITHOUT}), "",
     [pairs(1, 1, 2, 0), "reversed: 1, from 1 2", "< a 1 2 2 40 331", "> a 2 1 2 40 331"]),
    (LEFT, costly({(2, 1): "2 40 332", **WITHOUT}), "", [pairs(1, 1, 2, 0), "< a 1 2 2 40 331", "> a 2 1 2 40 332"]),
    (b"p min 2 1\na 1 2 0 5 1\n", b"p min 2 2\na 1 2 0 3 1\na 1 2 0 2 4\n", "",
     [pairs(0, 0, 1, 1), "different in arcs: 1", "< a 1 2 0 5 1", "> a 1 2 0 3 1", "> a 1 2 0 2 4"]),
    (b"p min 2 3\na 1 2 0 3 1\na 1 2 0 2 4\na 2 1 0 1 1\n", b"p min 2 3\na 1 2 0 3 1\na 1 2 0 2 4\na 2 1 0 1 2\n", "",
     [pairs(0, 0, 2, 1), "different in cost: 1", "< a 2 1 0 1 1", "> a 2 1 0 1 2"]),
    (b"p sp 3000000002 1\na 1 3000000002 5\n", b"p sp 3000000002 1\na 2 1 5\n", "",
     [pairs(1, 1, 0, 0), "< a 1 3000000002 5", "> a 2 1 5"]),
    (LEFT, CHANGED, "", ["nodes: 3 left, 4 right", pairs(0, 0, 3, 3), "different in cost: 3", "< a 1 2 2 40 331",
     "> a 1 2 2 40 3310", "< a 2 3 0 7 1", "> a 2 3 0 7 10", "< a 3 1 0 5 2", "> a 3 1 0 5 20"]),
    (LEFT, CHANGED, "--limit 0", ["nodes: 3 left, 4 right", pairs(0, 0, 3, 3), "different in cost: 3"]),
    (LEFT, REVERSED, "--limit 1", [pairs(2, 2, 1, 0), "reversed: 2, from 1 2, ..", "< a 1 2 2 40 331"]),
    (LEFT, REVERSED, "--limit 2",
     [pairs(2, 2, 1, 0), "reversed: 2, from 1 2, 2 3", "< a 1 2 2 40 331", "> a 2 1 2 40 331"]),
    (LEFT, costly(ARCS, flow=5), "", ["supplies: 1 different", pairs(0, 0, 3, 0)]),
    (LEFT, LEFT.replace(b"n 1 4", b"n 2 4"), "", ["supplies: 2 different", pairs(0, 0, 3, 0)]),
    (LEFT, ROADS, "", []),
    (b"p max 3 1\nn 1 s\nn 2 t\na 1 2 5\n", b"p max 3 1\nn 3 s\nn 1 t\na 2 1 5\n", "",
     ["source: 1 left, 3 right", "sink: 2 left, 1 right", pairs(1, 1, 0, 0), "reversed: 1, from 1 2", "< a 1 2 5",
      "> a 2 1 5"]),
    (b"p aux sp ss 2\ns 1\ns 5\n", b"p aux sp ss 1\ns 2\n", "", [pairs(1, 0, 1, 1, what="items"),
     "different in source: 1", "< s 1, item 1", "> s 2, item 1", "< s 5, item 2"]),
    (b"p aux sp p2p 2\nq 1 2\nq 1 3\n", b"p aux sp p2p 2\nq 1 2\nq 1 4\n", "",
     [pairs(0, 0, 2, 1, what="items"), "different in target: 1", "< q 1 3, item 2", "> q 1 4, item 2"]),
    (b"p aux sp co 1\nv 7 1 2\n", b"p aux sp co 1\nv 7 1 3\n", "",
     [pairs(0, 0, 1, 1, what="points"), "different in y: 1", "< v 7 1 2", "> v 7 1 3"]),
]  # fmt: skip


def test_comparisons(tested: str) -> None:
    """Tests `compare` on mistakes of writers, and the repr of what `differences` returns."""
    for left, right, options, lines in COMPARED:
        make({"left": left, "right": right})
        first = run([tested, "compare", "left", "right"])
        wanted = said(first.out.decode() + "".join(f"{it}\n" for it in lines), "", first.status)
        assert module("compare", *options.split(), "left", "right") == wanted, f"compare {left!r} {right!r} {options}"
    for name, text, line, status in [
        ("bad", b"x\n", f"bad:1: 1 BadLine\n{X}", 2),
        ("bad.lz4", b"x\n", "bad.lz4: 31 Read (lz4 is not supported)\n", 4),
    ]:
        write(name, text)
        prints(f"compare left {name}", "", line, status)
    short = "<dnorm.Differences: differ pair 1 2 length 3 none, only_left=5, only_right=0, both=0, different=0>"
    found = dnorm.differences(ROADS, b"p sp 3 0\n")
    assert (repr(found), len(dnorm.differences(ROADS, b"p sp 3 0\n", 2).pairs)) == (short, 2), "differences"
    html = found._repr_html_()
    assert html.startswith("<p>&lt;dnorm.Differences: ") and html.count("<tr>") == 6 and "<td>(1, 2)</td>" in html, html


def test_compared_quietly() -> None:
    """Tests `compare` as JSON, without output, and with standard input."""
    make({"left": LEFT, "right": CHANGED})
    record = json.loads(module("compare", "--json", "--limit", "1", "left", "right").out)
    wanted_ = (False, "differ nodes 3 4", 3, [["nodes", 3, 4]], [1, 2])
    told_ = (record["same"], record["first"], record["different"], record["values"], record["pairs"][0]["key"])
    assert told_ == wanted_, "compare --json"
    for words, status in [("left right", 1), ("left left", 0)]:
        prints(["compare", "-q", *words.split()], "", "", status)
    for words in ["- left", "left -"]:
        prints(["compare", "-q", *words.split()], "", "", given=bytes_of("left"))
