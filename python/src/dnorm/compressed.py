"""Compressed files, by the endings of their names, in small letters or capitals."""

import contextlib
from collections.abc import Callable, Iterator
from importlib import import_module
from typing import Any, BinaryIO

from .names import packed_of, unknown_compression, unread_text

# The number of bytes that are read and written at a time.
SIZE = 1 << 16
# Returns at most so many bytes of a file, and none at its end.
Reads = Callable[[int], bytes]


class Zstandard:
    """A decompressor of the module `zstandard` with the members that those of the standard library have."""

    def __init__(self, module: Any) -> None:
        self._it = module.ZstdDecompressor().decompressobj()
        self._ahead = self._rest = self.unused_data = b""
        self.eof = False

    def decompress(self, data: bytes, size: int) -> bytes:
        self._rest += data
        while self._rest and not self._it.eof and len(self._ahead) < size:
            # So few bytes can have some 8 MB of text.
            self._ahead += self._it.decompress(self._rest[:256])
            self._rest = self._rest[256:]
        found, self._ahead = self._ahead[:size], self._ahead[size:]
        self.eof, self.unused_data = bool(self._it.eof) and not self._ahead, bytes(self._it.unused_data) + self._rest
        return found


def by_zstd(make: Callable[[Any], Any], other: Callable[[Any], Any]) -> Any:
    """Returns what is made of the module of the standard library, or else of the other one."""
    for name, it in (("compression.zstd", make), ("zstandard", other)):
        with contextlib.suppress(ImportError):
            return it(import_module(name))
    raise OSError("zstd needs Python 3.14 or the module zstandard")


# How the files of each ending are read and written, by modules that some builds of Python lack.
DECOMPRESSORS: dict[str, Callable[[], Any]] = {
    # 15 is the greatest window, and 16 asks for the header and the checksum of gzip.
    ".gz": lambda: import_module("zlib").decompressobj(15 + 16),
    ".bz2": lambda: import_module("bz2").BZ2Decompressor(),
    ".xz": lambda: import_module("lzma").LZMADecompressor(import_module("lzma").FORMAT_XZ),
    ".zst": lambda: by_zstd(lambda it: it.ZstdDecompressor(), Zstandard),
}
# Closing such a file ends the compressed data, and leaves the file below open.
COMPRESSORS: dict[str, Callable[[BinaryIO], Any]] = {
    # Without a name and a time, equal texts make equal files.
    ".gz": lambda file: import_module("gzip").GzipFile(filename="", mode="wb", fileobj=file, mtime=0),
    ".bz2": lambda file: import_module("bz2").BZ2File(file, "wb"),
    ".xz": lambda file: import_module("lzma").LZMAFile(file, "wb"),
    # The checksum lets a reader notice damage.
    ".zst": lambda file: by_zstd(
        lambda it: it.ZstdFile(file, "wb", options={it.CompressionParameter.checksum_flag: 1}),
        lambda it: it.ZstdCompressor(write_checksum=True).stream_writer(file, closefd=False),
    ),
}


def compression_of(name: str, is_written: bool = False) -> str:
    """Returns the ending of the compression of this file, or nothing. Raises OSError for one that is not supported."""
    if reason := unknown_compression(name) or (unread_text(name) if is_written else ""):
        raise OSError(reason)
    return packed_of(name)[1]


def pieces(read: Reads, ending: str) -> Iterator[bytes]:
    """Yields what a compressed file of one or several streams decompresses to. Raises EOFError if the last one is cut,
    an error of its module if one is corrupt, and OSError if anything follows one that the tool of the format does not
    take: the functions of the standard library ignore what follows a stream of bzip2 and xz, even a corrupt stream."""
    data = read(SIZE)
    while True:
        stream, size = DECOMPRESSORS[ending](), 0
        while not stream.eof:
            if not data and size < SIZE:
                raise EOFError("the compressed data end too early")
            # zlib hands back what it has not used yet, and the others keep it.
            piece = bytes(stream.decompress(getattr(stream, "unconsumed_tail", b"") + data, SIZE))
            size = len(piece)
            yield piece
            data = read(SIZE) if size < SIZE and not stream.eof else b""
        zeros, data = 0, bytes(stream.unused_data) or read(SIZE)
        while data[:1] == b"\0":
            rest = data.lstrip(b"\0")
            zeros, data = zeros + len(data) - len(rest), rest or read(SIZE)
        # The tool of the format neither fails nor warns at such zeros, and reads on.
        are_allowed = ending == ".gz" and not data or ending == ".xz" and zeros % 4 == 0
        if zeros and not are_allowed:
            raise OSError(f"{zeros} zero {'byte follows' if zeros == 1 else 'bytes follow'} the compressed data")
        if not data:
            return
