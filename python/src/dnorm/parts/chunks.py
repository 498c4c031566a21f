"""Writes the canonical text of a graph that does not fit into memory: the bytes that one run of dnorm over the whole
text would write. `canon-in-parts --help` explains its use.

The text is cut into a head and chunks of whole lines. Each chunk is canonicalised by itself. Its arcs, then sorted by
tail, are cut into ranges of tails, at the same tails in each chunk. For each range, the slices of all chunks are
canonicalised again, one after another; the ranges, one after another, are the arcs of the whole.

All files of a run are in one folder: head.raw and chunk.N as they are, chunk.N.arcs and range.N.arcs canonical."""

import contextlib
import mmap
import os
import re
import signal
import subprocess
import threading
from argparse import Namespace
from array import array
from bisect import bisect_left
from collections.abc import Iterable, Iterator, Sequence
from concurrent.futures import FIRST_EXCEPTION, ThreadPoolExecutor, wait
from dataclasses import dataclass
from io import BytesIO
from itertools import chain, islice
from typing import Any, BinaryIO, NamedTuple, Optional, Union, cast
from weakref import WeakSet

from ..console import Console
from ..errors import DnormError, Memory, NoProgram, Refused, Write
from ..files import of_stream, reason_of, write_all
from ..limits import heeding_signals
from ..program import error_on
from ..refusals import REFUSALS

# The number of bytes that are read at a time.
BLOCK = 1 << 20
# A line whose first word is `a`.
ARC = re.compile(rb"^[ \t\r]*a(?:[ \t\r]|$)", re.M)
# How many lines precede the arcs in the canonical text of a part.
HEAD = {"min": 1, "max": 3, "sp": 1}
# The lines of a part between its problem line and its arcs, which make it a text of its own: in `max` any source and
# sink; in `max` and `min` an arc that means nothing, so that a later node line is a LateNode, as in the whole text.
FRONT = {"min": b"a 1 1 0 0 0\n", "max": b"n 1 s\nn 2 t\na 1 1 0\n", "sp": b""}
# A line whose first word is `p`.
PROBLEM = re.compile(rb"^[ \t\r]*p[ \t\r].*", re.M)
# A part is given by its pieces, and by the name of its files.
Part = tuple[Iterable["Piece"], str]
# The longest wait for a job, in seconds. A signal that comes just before a wait does not end it.
PAUSE = 0.1
# About how many tails of a chunk are looked at, to choose the ranges; and how many lines a chunk has at least.
TAILS, LINES = 100, 1_000_000


class Children:
    """The processes that run, in all threads, and perhaps some that have ended."""

    def __init__(self) -> None:
        self._lock = threading.Lock()
        self._running = WeakSet[subprocess.Popen[bytes]]()
        self._is_stopped = False

    @contextlib.contextmanager
    def running(self, words: Sequence[str], **streams: Any) -> Iterator[subprocess.Popen[bytes]]:
        """Starts a process, and waits for its end. Kills it if anything is raised."""
        # `stop` waits for a process that is being started.
        with self._lock:
            if self._is_stopped:
                raise NoProgram(words[0], "all runs were stopped")
            try:
                process = subprocess.Popen(words, bufsize=0, **streams)
            except (OSError, ValueError) as error:
                raise NoProgram(words[0], reason_of(error)) from error
            self._running.add(process)
        with process:
            try:
                yield process
            except BaseException:
                process.kill()
                raise

    def stop(self) -> None:
        """Kills all processes that run, and lets no other start."""
        with self._lock:
            self._is_stopped = True
            for it in self._running:
                it.kill()


children = Children()


def canon(program: str, text: Iterable[bytes], form: int, to: Union[int, BinaryIO]) -> None:
    """Writes the canonical text of a text in blocks into a file. Raises Refused, Memory, Write or others."""
    words = [program, "canon", "--form", str(form), "-"]
    with children.running(words, stdin=subprocess.PIPE, stdout=to, stderr=subprocess.PIPE) as process:
        if process.stdin and process.stderr:
            # The program reads no further once it has found a fault.
            with contextlib.suppress(BrokenPipeError):
                for block in text:
                    write_all(cast(BinaryIO, process.stdin), block)
            process.stdin.close()
            error = error_of(process.stderr.read().decode("ascii", "backslashreplace"), process.wait())
            if error:
                raise error


def error_of(line: str, status: int) -> Optional[DnormError]:
    """Returns the error that a run with this line on standard error has ended with, if any."""
    error = error_on(line[:-1])
    is_of_text = status == 2 and isinstance(error, Refused) and error.name == "-"
    is_written = status == 4 and isinstance(error, Write) and error.name == "out"
    if is_of_text or is_written or status == 4 and isinstance(error, Memory) and error.name in ("-", "dnorm"):
        return error
    names = {it.value: f" ({it.name})" for it in signal.Signals}
    broken, ended = DnormError(""), f"was ended by signal {-status}{names.get(-status, '')}"
    odd = f"did not answer as it should (its status was {status}, and it printed {line!r})"
    broken.what = f"dnorm {ended if status < 0 else odd}"
    return broken if status else None


class Piece(NamedTuple):
    """Bytes of a file that are whole lines."""

    path: str
    start: int
    end: int


class Result(NamedTuple):
    """What became of a part: `arcs` arc lines gave `made` canonical arcs, from byte `start` of a file of `size` bytes.
    `line` of the part has the first fault, the refusal `number`; without a fault both are 0."""

    arcs: int
    made: int
    line: int
    start: int
    size: int
    number: int


def whole(path: str) -> Piece:
    return Piece(path, 0, os.path.getsize(path))


def blocks(piece: Piece) -> Iterator[bytes]:
    with open(piece.path, "rb", buffering=0) as file:
        file.seek(piece.start)
        rest = piece.end - piece.start
        while rest > 0 and (block := file.read(min(BLOCK, rest))):
            rest -= len(block)
            yield block


def lines(blocks: Iterable[bytes]) -> Iterator[bytes]:
    """Yields bytes in blocks of whole lines. Only the last line may lack its end."""
    rest = b""
    for block in blocks:
        end = block.rfind(b"\n") + 1
        if end:
            yield rest + block[:end]
            rest = b""
        rest += block[end:]
    if rest:
        yield rest


def arcs_in(block: bytes) -> int:
    """Returns how many of these whole lines are arc lines."""
    count = block.count(b"\na ") + block.startswith(b"a ")
    # No line can be missing in this count if it has all of them.
    is_all = count == block.count(b"\n") + (not block.endswith(b"\n"))
    return count if is_all else len(ARC.findall(block))


def canon_part(program: str, kind: str, nodes: int, form: int, pieces: Iterable[Piece], to: str) -> Result:
    """Writes the canonical text of a part into a file, and returns the result."""
    arcs = sum(arcs_in(block) for piece in pieces for block in lines(blocks(piece)))
    head = f"p {kind} {nodes} {arcs + (kind != 'sp')}\n".encode() + FRONT[kind]
    with open(to, "wb") as file:
        try:
            canon(program, chain([head], *map(blocks, pieces)), form, file)
        except Refused as error:
            if error.line is None:
                raise
            line = error.line - head.count(b"\n")
            return Result(arcs, 0, line, 0, os.path.getsize(to), error.number)
    with open(to, "rb") as made:
        first = [made.readline() for _ in range(HEAD[kind])]
    return Result(arcs, int(first[0].split()[3]), 0, sum(map(len, first)), os.path.getsize(to), 0)


class Ended(Exception):
    """The run ends with this status, after this line is printed, if it is not empty."""

    def __init__(self, status: int, line: str, before: str = "canon-in-parts: ") -> None:
        super().__init__(status, line)
        self.status, self.line = status, before + line


@dataclass
class Chunk:
    """Lines of the text in a file, which so many lines precede. `arcs` are the canonical arcs of it in `path`.arcs."""

    path: str
    before: int
    arcs: Piece = Piece("", 0, 0)


class Parts:
    """A run of this program, in a folder of its own, with the parsed `options`, that writes to `out` if it is open."""

    def __init__(self, options: Namespace, folder: str, program: str, out: BinaryIO, has_output: bool) -> None:
        self.options, self.folder, self.program, self.out, self.has_output = options, folder, program, out, has_output
        self.console = Console()
        self.head = f"{folder}/head.raw"
        # The refusal of a `max` text without a source or a sink, which is reported only at the end.
        self.missing: Optional[Refused] = None

    def run(self, text: BinaryIO) -> None:
        """Reads the text, and writes its canonical text."""
        chunks = self.cut_text(text)
        if chunks:
            self.read_head(chunks[0])
        if not chunks or self.kind == "max" and self.nodes <= 1:
            # A part needs a source and a sink. A graph of one node has at most one pair.
            paths = [self.head, *(it.path for it in chunks)]
            canon(self.program, (it for path in paths for it in blocks(whole(path))), self.options.form, self.out)
            if not self.has_output:
                raise Write("out")
            return
        results = self.canon("canonicalising chunks", [([whole(it.path)], it.path) for it in chunks], 1)
        chunks, seen, made, fault = self.judged(chunks, results)
        ranges = ranges_of(chunks, self.options.parts or len(chunks))
        parts: list[Part] = [(it, f"{self.folder}/range.{at:07}") for at, it in enumerate(ranges)]
        results = self.canon("canonicalising ranges", parts, self.options.form)
        for it in [self.too_large(chunks, ranges, results), fault, self.missing]:
            if it:
                raise it
        if seen != self.declared:
            raise self.refused(None, 20)
        if made != sum(it.arcs for it in results):
            raise Ended(4, "a part was lost on its way")
        self.write_text(parts, results)

    def refused(self, line: Optional[int], number: int) -> Refused:
        """Returns the error of the whole text, as dnorm would tell it."""
        return Refused(self.options.file, line, number, REFUSALS[number][0])

    def tell(self, what: str) -> None:
        if self.console.is_terminal and what:
            self.console.complain(f"canon-in-parts: {what}\n")

    def cut_text(self, text: BinaryIO) -> list[Chunk]:
        """Cuts the text into the head, with all lines before the first arc line, and chunks of whole lines."""
        self.tell("cutting the text")
        chunks: list[Chunk] = []
        left = before = 0
        with text, contextlib.ExitStack() as stack:
            file = stack.enter_context(open(self.head, "wb", buffering=0))
            for block in lines(of_stream(text)):
                first = None if chunks else ARC.search(block)
                # So much of the block belongs to the file that is open.
                end = 0 if chunks else first.start() if first else len(block)
                while block:
                    write_all(file, block[:end])
                    count, block = block.count(b"\n", 0, end), block[end:]
                    before, left = before + count, max(0, left - count)
                    if block and not left:
                        stack.close()
                        # Each chunk is cut at the bounds of all ranges, so their number grows slower than the text.
                        left = self.options.lines or max(LINES, LINES * len(chunks) // 100)
                        chunks.append(Chunk(f"{self.folder}/chunk.{len(chunks):07}", before))
                        file = stack.enter_context(open(chunks[-1].path, "wb", buffering=0))
                    end = len(block) if block.count(b"\n") < left else end_of(BytesIO(block), left)
        return chunks

    def read_head(self, first: Chunk) -> None:
        """Takes what the problem line says, once the head with the first arc line has no fault but late ones."""
        with open(first.path, "rb") as chunk:
            arc = chunk.readline()
        try:
            canon(self.program, chain(blocks(whole(self.head)), [arc]), 1, subprocess.DEVNULL)
        except Refused as error:
            if error.number == 19:
                self.missing = self.refused(None, 19)
            elif error.number != 20:
                raise
        problem = next(filter(None, map(PROBLEM.search, lines(blocks(whole(self.head))))))
        _, kind, nodes, declared, *_ = re.split(rb"[ \t\r]+", problem[0].strip(b" \t\r"))
        self.kind, self.nodes, self.declared = kind.decode(), int(nodes), int(declared)

    def canon(self, what: str, parts: Sequence[Part], form: int) -> list[Result]:
        """Canonicalises parts, as many at once as there are jobs, and returns their results."""

        def one(pieces: Iterable[Piece], path: str) -> Result:
            found = canon_part(self.program, self.kind, self.nodes, form, pieces, f"{path}.arcs")
            self.console.step()
            return found

        self.tell(what)
        self.console.expect(len(parts))
        with ThreadPoolExecutor(self.options.jobs) as pool:
            try:
                with heeding_signals():
                    futures = [pool.submit(one, *it) for it in parts]
                    rest = set(futures)
                    while rest:
                        done, rest = wait(rest, PAUSE, FIRST_EXCEPTION)
                        for it in done:
                            it.result()
            except BaseException as error:
                children.stop()
                pool.shutdown(wait=False, cancel_futures=True)
                # The system may let no thread start, which is a RuntimeError.
                if isinstance(error, (DnormError, RuntimeError)) and not isinstance(error, Memory):
                    why = error.rest.lstrip(": ") if isinstance(error, DnormError) else error
                    raise Ended(4, f"a part failed: {why}") from error
                raise
            finally:
                self.console.hide()
        results = [it.result() for it in futures]
        for (_, path), result in zip(parts, results):
            if os.path.getsize(f"{path}.arcs") != result.size:
                raise Ended(4, "a part was lost on its way")
        return results

    def judged(
        self, chunks: Sequence[Chunk], results: Sequence[Result]
    ) -> tuple[list[Chunk], int, int, Optional[Refused]]:
        """Returns the chunks up to the first line that has a fault in its chunk, or is one arc line too many, of which
        only the lines before are kept; how many arc lines and canonical arcs they have; and the fault."""
        kept, seen, made = [], 0, 0
        for chunk, result in zip(chunks, results):
            line, number = result.line, result.number
            if seen + result.arcs > self.declared:
                with open(chunk.path, "rb") as file:
                    arc_lines = (at for at, it in enumerate(file, 1) if ARC.match(it))
                    over = next(islice(arc_lines, self.declared - seen, None))
                if not line or line >= over:
                    line, number = over, 7
            seen += result.arcs
            kept.append(chunk)
            if line:
                # In `sp` no sum can be too large in the lines before.
                fault = self.refused(chunk.before + line, number)
                if self.kind == "sp":
                    raise fault
                with open(chunk.path, "rb+") as file:
                    file.truncate(end_of(file, line - 1))
                result = self.canon("", [([whole(chunk.path)], chunk.path)], 1)[0]
            chunk.arcs = Piece(f"{chunk.path}.arcs", result.start, result.size)
            made += result.made
            if line:
                return kept, seen, made, fault
            if self.kind == "sp":
                os.remove(chunk.path)
        return kept, seen, made, None

    def too_large(
        self, chunks: Sequence[Chunk], ranges: Sequence["Slices"], results: Sequence[Result]
    ) -> Optional[Refused]:
        """Returns the earliest line of the text at which the sum of a pair is too large across chunks."""
        found = []
        for slices, result in zip(ranges, results):
            if result.line:
                pieces = [*slices]
                # The slices before that of the line, followed by the lines of its chunk, show which line it is.
                at, before = 0, 0
                while before + (count := sum(it.count(b"\n") for it in blocks(pieces[at]))) < result.line:
                    at, before = at + 1, before + count
                chunk = next(it for it in chunks if it.arcs.path == pieces[at].path)
                shown = self.canon("", [([*pieces[:at], whole(chunk.path)], f"{self.folder}/sum")], 1)[0]
                found.append((chunk.before + shown.line - before, result.number))
        return self.refused(*min(found)) if found else None

    def write_text(self, parts: Sequence[Part], results: Sequence[Result]) -> None:
        """Writes the canonical text: the head with the count of all arcs, and the ranges."""
        at = f"{self.folder}/head.canon"
        problem = f"p {self.kind} {self.nodes} 0".encode()
        with open(at, "wb") as head:
            canon(self.program, (PROBLEM.sub(problem, it, 1) for it in lines(blocks(whole(self.head)))), 1, head)
        with open(at, "rb") as head:
            end = len(head.readline())
        count = sum(it.made for it in results)
        try:
            if not self.has_output:
                raise OSError
            write_all(self.out, f"p {self.kind} {self.nodes} {count}\n".encode())
            arcs = (Piece(f"{path}.arcs", result.start, result.size) for (_, path), result in zip(parts, results))
            for piece in chain([Piece(at, end, os.path.getsize(at))], arcs):
                for block in blocks(piece):
                    write_all(self.out, block)
                os.remove(piece.path)
        except OSError as error:
            raise Write(self.options.output or "out", reason_of(error) if self.options.output else "") from error


def end_of(file: Iterable[bytes], number: int) -> int:
    """Returns where the line of this number ends in a file."""
    return sum(map(len, islice(file, number)))


class Tails(Sequence[int]):
    """Canonical arcs as a sequence of their tails, of which each counts for as many places as its line has bytes."""

    def __init__(self, path: str) -> None:
        with open(path, "rb") as file:
            self._data = mmap.mmap(file.fileno(), 0, access=mmap.ACCESS_READ)

    def __len__(self) -> int:
        return len(self._data)

    def __getitem__(self, place: Any) -> Any:
        start = self._data.rfind(b"\n", 0, place) + 1
        return int(self._data[start : self._data.find(b"\n", place) + 1].split(b" ", 2)[1])


@dataclass
class Slices:
    """The slices of all chunks, in their order, that are one range and not empty. Each chunk is cut at its `cuts`."""

    chunks: Sequence[Chunk]
    cuts: Sequence[Sequence[int]]
    number: int

    def __iter__(self) -> Iterator[Piece]:
        for chunk, places in zip(self.chunks, self.cuts):
            start, end = places[self.number : self.number + 2]
            if start < end:
                yield Piece(chunk.arcs.path, start, end)


def ranges_of(chunks: Sequence[Chunk], count: int) -> list[Slices]:
    """Cuts the canonical arcs of the chunks into ranges of tails with about the same number of arcs. Returns these."""
    found: list[int] = []
    for arcs in (it.arcs for it in chunks):
        step = max(1, (arcs.end - arcs.start) // TAILS)
        found += map(Tails(arcs.path).__getitem__, range(arcs.start, arcs.end, step))
    found.sort()
    count = min(count, len(found))
    bounds = sorted({found[at * len(found) // count] for at in range(1, count)})
    cuts = []
    for arcs in (it.arcs for it in chunks):
        # Where the arcs begin, where the first one begins whose tail is not below each bound, and where they end.
        tails, places = Tails(arcs.path), array("q", [arcs.start])
        for it in bounds:
            places.append(bisect_left(tails, it, places[-1], arcs.end))
        cuts.append(array("q", [*places, arcs.end]))
    return [Slices(chunks, cuts, it) for it in range(len(bounds) + 1)]
