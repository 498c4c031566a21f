"""The files that are read, and the targets that canonical texts are written to."""

import contextlib
import functools
import io
import os
import secrets
import stat
import tempfile
from collections.abc import Callable, Iterator
from typing import BinaryIO, NamedTuple, Optional, Protocol, Union

from .causes import ANNEX, SHOWN, Cause, cause_of, hint_of_compressed
from .compressed import COMPRESSORS, SIZE, Reads, compression_of, pieces
from .errors import DnormError, Memory, Read, Write
from .instances import Instance
from .limits import Limit, Timed
from .names import HIDDEN, real

# Why what is found is not opened.
NO_FILE = "it is neither a file nor a link to one"


class Readable(Protocol):
    """A binary stream that is read."""

    def read(self, size: int, /) -> Optional[bytes]:
        """Returns at most so many bytes, and none at the end."""


class Writable(Protocol):
    """A binary stream that is written."""

    def write(self, data: bytes, /) -> Optional[int]:
        """Writes bytes, and returns how many. None means all of them, except for an `io.RawIOBase`."""


# A path, whose bytes need not be UTF-8; the bytes of a text; a binary stream; or an instance.
Path = Union[str, os.PathLike[str], os.PathLike[bytes]]
File = Union[Path, bytes, bytearray, memoryview, Readable, Instance]
Target = Union[Path, Writable]


def name_of(file: Union[File, Target]) -> str:
    """Returns the name by which errors call a file: its path, the name of a stream, or `-`."""
    if isinstance(file, (str, os.PathLike)):
        return os.fsdecode(file)
    name = getattr(file, "name", None)
    return os.fsdecode(name) if isinstance(name, (str, bytes)) and name else "-"


def reason_of(error: Exception) -> str:
    return (isinstance(error, OSError) and error.strerror) or str(error) or type(error).__name__


@contextlib.contextmanager
def failing(kind: Union[type[Read], type[Write]], name: str) -> Iterator[None]:
    """Raises an error of this kind if anything fails, but for an error of this package, a wrong type, lack of memory,
    or the error of a handler of an alarm."""
    try:
        yield
    except (DnormError, TypeError, MemoryError):
        raise
    except Exception as error:
        # That of the system has a number.
        if isinstance(error, TimeoutError) and error.errno is None:
            raise
        raise kind(name, reason_of(error)) from error


@contextlib.contextmanager
def enough_memory(name: str) -> Iterator[None]:
    """Raises Memory if Python or numpy has too little memory for what is kept of the file of this name."""
    try:
        yield
    except MemoryError as error:
        raise Memory(name) from error


def write_all(file: BinaryIO, data: bytes) -> None:
    """Writes all of these bytes to a file without a buffer, whose writes can take less."""
    rest = memoryview(data)
    while rest:
        rest = rest[file.write(rest) :]


class Copied:
    """Standard input, of which a copy is kept as far as it is read: it can be read again from its beginning."""

    name = "-"

    def __init__(self) -> None:
        self._file = open(0, "rb", buffering=0, closefd=False)
        self._copy = tempfile.TemporaryFile()

    def read(self, size: int, /) -> bytes:
        data = self._file.read(size)
        self._copy.write(data)
        return data

    def again(self) -> Iterator[bytes]:
        self._copy.seek(0)
        return of_stream(self._copy)


def of_stream(stream: Readable) -> Iterator[bytes]:
    """Yields what a stream has from where it is to its end, in pieces."""
    while True:
        piece = stream.read(SIZE)
        if piece is None:
            raise BlockingIOError("the stream has no data yet, and does not wait for them")
        if not isinstance(piece, (bytes, bytearray, memoryview)):
            raise TypeError(f"the stream is not binary: its read() returned {type(piece).__name__}")
        if not piece:
            return
        yield bytes(piece)


class Bounds(NamedTuple):
    """What is opened of files that were found, and that nobody named: regular files whose real path is below one of
    these folders, and not among what version control keeps for itself. `out` is the reason for any other one."""

    folders: tuple[str, ...]
    named: frozenset[str] = frozenset()
    out: str = "it leads out of the folder; --follow reads it"
    # Whether a search has found the files, so that no folder on their way is a link.
    is_search: bool = False

    def real(self, name: str) -> str:
        """Returns the real path of a file that was found. Raises OSError if it leads out of the folders."""
        if self.is_search and not os.path.islink(name):
            return name
        path = real(name)
        ways = [path[len(it) :] for it in self.folders if f"{path}/".startswith(f"{it.rstrip('/')}/")]
        # What git-annex has of a text is there.
        inside = [it for it in ways if not HIDDEN.intersection(it.split("/")) or it.startswith(f"/.git/{ANNEX}")]
        if not inside and self.folders != ("/",):
            raise OSError(self.out)
        return path


def opened(path: Path, limit: Limit, bounds: Optional[Bounds] = None) -> io.FileIO:
    is_found = bounds is not None and path not in bounds.named
    if limit.seconds is None and not is_found:
        return open(path, "rb", buffering=0)
    real = bounds.real(os.fsdecode(path)) if bounds and is_found else path
    # Opening a FIFO waits for its writer, which nothing could end.
    more = os.O_NONBLOCK | (os.O_NOFOLLOW if is_found else 0)
    file = open(real, "rb", buffering=0, opener=lambda it, flags: os.open(it, flags | more))
    try:
        if is_found and not stat.S_ISREG(os.fstat(file.fileno()).st_mode):
            raise OSError(NO_FILE)
        Timed(file, limit).wait()
        os.set_blocking(file.fileno(), True)
    except BaseException:
        file.close()
        raise
    return file


def mark_of(file: BinaryIO) -> Optional[tuple[int, int]]:
    """Returns what changes when a regular file is written: its size and its time. Returns None for any other file."""
    found = os.fstat(file.fileno())
    return (found.st_size, found.st_mtime_ns) if stat.S_ISREG(found.st_mode) else None


class Text:
    """A text that is read once, from its beginning. The file of a path is opened once, at the first piece, within the
    bounds of what was found, if there are any. It has the `ending` of a compression, and `size` bytes were read."""

    def __init__(self, file: File, limit: Limit, bounds: Optional[Bounds] = None) -> None:
        self.file, self.name, self.limit = file, name_of(file), limit
        self.ending, self.size = "", 0
        self._bounds, self._is_wanted = bounds, True
        self._opened: Optional[io.FileIO] = None
        self._mark: Optional[tuple[int, int]] = None
        self._pieces = self._begun()

    def _begun(self) -> Iterator[bytes]:
        """Yields the pieces of the text, of an open file from where it is."""
        file = self.file
        if isinstance(file, (str, os.PathLike)):
            if isinstance(file, str) and "\n" in file and not os.path.lexists(file):
                raise TypeError("a str is a path, and there is no such file: give a text as bytes")
            if not self._opened:
                self._opened = opened(file, self.limit, self._bounds)
                self._mark, self.ending = mark_of(self._opened), compression_of(self.name)
            timed = Timed(self._opened, self.limit)
            yield from self._decompressed(self._opened, timed.read) if self.ending else of_stream(timed)
        elif isinstance(file, (bytes, bytearray, memoryview)):
            data = memoryview(file).cast("B")
            yield from (bytes(data[at : at + SIZE]) for at in range(0, len(data), SIZE))
        elif isinstance(file, Instance):
            yield from file.pieces()
        elif hasattr(file, "read"):
            yield from of_stream(file)
        else:
            kinds = "a path, bytes, a binary stream or an instance"
            raise TypeError(f"a file is {kinds}, and not {type(file).__name__}")

    def _decompressed(self, file: io.FileIO, read: Reads) -> Iterator[bytes]:
        try:
            yield from pieces(read, self.ending)
        except (DnormError, MemoryError):
            raise
        except Exception as error:
            head = os.pread(file.fileno(), SHOWN, 0) if self._mark else b""
            hint = hint_of_compressed(head, self.name) if self._mark else None
            raise Read(self.name, reason_of(error), hint) from error

    def next_piece(self) -> Optional[bytes]:
        if not self._is_wanted:
            raise Read(self.name, "it is no longer wanted")
        try:
            with failing(Read, self.name):
                piece = next(self._pieces, None)
        except Read as error:
            hint = error.hint
            with contextlib.suppress(OSError, ValueError):
                if ANNEX in os.readlink(self.name) and not os.path.exists(self.name):
                    hint = "The file is a pointer of git-annex, and the text is missing: git annex get"
            raise Read(error.name, error.reason, hint) from error.__cause__
        self.size += len(piece or b"")
        return piece

    def stop(self) -> None:
        """Lets reading the text fail from the next piece on, for a thread whose answer is no longer wanted."""
        self._is_wanted = False

    def close(self) -> None:
        """Closes the file of a path."""
        if self._opened:
            self._opened.close()

    def stay_same(self) -> None:
        """Raises Read if the file of the text was written since it was opened."""
        if self._opened and self._mark and mark_of(self._opened) != self._mark:
            raise Read(self.name, "it changed while it was read")

    def cause(self, line: Optional[int], number: int, node: Optional[int]) -> Optional[Cause]:
        """Returns the cause of a refusal, if the text can be read again."""
        if self._mark is None and not isinstance(self.file, (bytes, bytearray, memoryview, Instance, Copied)):
            return None
        with contextlib.suppress(DnormError, OSError, EOFError):
            name = self.name if self._opened and not self.ending else None
            return cause_of(self._again, name, line, number, node)
        return None

    def _again(self) -> Iterator[bytes]:
        """Begins the text once more, by the file that is open."""
        if isinstance(self.file, Copied):
            return self.file.again()
        if self._opened:
            self._opened.seek(0)
        return self._begun()


@contextlib.contextmanager
def sink_of(target: Target) -> Iterator[Callable[[bytes], object]]:
    """Opens a target, and yields what takes its pieces. A path gets all of the file, or nothing."""
    name, stream, start = name_of(target), target, None
    with contextlib.ExitStack() as stack:
        if isinstance(stream, (str, os.PathLike)):
            with failing(Write, name):
                start = COMPRESSORS.get(compression_of(name, is_written=True))
            stream = stack.enter_context(whole_file(name))
            stream = stack.enter_context(written_file(functools.partial(start, stream), name)) if start else stream
        to = stream

        @failing(Write, name)
        def take(piece: bytes) -> None:
            while piece:
                count = to.write(piece)
                if count is None and isinstance(to, io.RawIOBase):
                    raise BlockingIOError("the stream takes no data now, and does not wait")
                # What compresses takes all.
                piece = piece[len(piece) if count is None or start else count :]

        yield take
        if to is target:
            with failing(Write, name):
                getattr(to, "flush", lambda: None)()


@contextlib.contextmanager
def written_file(start: Callable[[], BinaryIO], name: str) -> Iterator[BinaryIO]:
    """Opens a file to be written, and closes it. Raises Write, with this name, if that fails and nothing else did."""
    with failing(Write, name):
        file = start()
    try:
        yield file
    except BaseException:
        with contextlib.suppress(Exception):
            file.close()
        raise
    with failing(Write, name):
        file.close()


@contextlib.contextmanager
def whole_file(name: str) -> Iterator[BinaryIO]:
    """Opens a new file, which takes the place and the mode of the file of this name at the end, or is removed if
    anything is raised before. A device or a pipe cannot be replaced, so it is written itself."""
    if os.path.exists(name) and not os.path.isfile(name):
        with written_file(lambda: open(name, "wb"), name) as file:
            yield file
        return
    path = real(name)
    new = os.path.join(os.path.dirname(path), f".dnorm-{secrets.token_hex(8)}")
    try:
        with written_file(lambda: open(new, "xb"), name) as file:
            with failing(Write, name):
                if os.path.exists(path):
                    os.fchmod(file.fileno(), stat.S_IMODE(os.stat(path).st_mode))
            yield file
            with failing(Write, name):
                file.flush()
                os.fsync(file.fileno())
        with failing(Write, name):
            os.replace(new, path)
    except BaseException:
        with contextlib.suppress(OSError):
            os.unlink(new)
        raise
