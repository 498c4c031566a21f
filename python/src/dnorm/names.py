"""What the names of files say: the kinds of DIMACS texts, and compressions, by their endings in any case."""

import os
import re
from collections.abc import Iterable, Sequence
from fnmatch import fnmatchcase
from typing import Optional

Names = Sequence[str]
# The kinds of texts by the ends of their names.
KINDS = {".gr": "sp", ".sp": "sp", ".min": "min", ".max": "max", ".ss": "ss", ".p2p": "p2p", ".co": "co"}
COMPANIONS = (".ss", ".p2p", ".co")
ENDINGS = (*KINDS,)
# What version control keeps for itself: branches can have names like texts.
HIDDEN = {".git", ".hg", ".svn", ".bzr", ".jj", "_darcs"}
# The compressions that are read and written, and others by what they are called.
COMPRESSIONS = (".gz", ".bz2", ".xz", ".zst")
OTHERS = {".z": "compress", ".lz4": "lz4", ".zip": "zip", ".br": "brotli", ".7z": "7-Zip", ".lzma": "lzma"}
OTHERS |= {".lz": "lzip", ".lzo": "lzop", ".tar": "tar", ".rar": "rar"}
OTHERS |= {it: it for it in (".gzip", ".bzip2", ".bz", ".zstd", ".tgz", ".tbz", ".tbz2", ".txz", ".tzst")}


def ending_of(name: str) -> str:
    """Returns the ending of a name in small letters, as `.gz`. Dots that begin a name begin no ending."""
    return os.path.splitext(name)[1].lower()


def parts_of(name: str) -> tuple[str, str]:
    """Returns the name of a text without its ending, and the ending, both without that of a compression."""
    plain, ending = os.path.splitext(name)
    if ending.lower() in (*COMPRESSIONS, *OTHERS):
        plain, ending = os.path.splitext(plain)
    return plain, ending.lower()


def is_text(name: str, endings: Names = ENDINGS) -> bool:
    """Whether a name ends like that of a text, which may be compressed."""
    return name.lower().endswith(tuple(f"{it.lower()}{more}" for it in endings for more in ("", *COMPRESSIONS)))


def packed_of(name: str) -> tuple[str, str]:
    """Returns a name without the endings of compressions, and these endings."""
    plain, ending = os.path.splitext(name)
    if ending.lower() not in (*COMPRESSIONS, *OTHERS):
        return name, ""
    plain, packed = packed_of(plain)
    return plain, packed + ending.lower()


def unknown_compression(name: str) -> str:
    """Returns why a file of this name is not decompressed, or nothing if it is, or if it is not compressed."""
    _, packed = packed_of(name)
    return "" if packed in ("", *COMPRESSIONS) else f"{OTHERS.get(packed, packed)} is not supported"


def unread_text(name: str, endings: Names = ENDINGS) -> str:
    """Returns why the text of this name is not read: several compressions, or another one, follow its ending; or ''."""
    plain = packed_of(os.path.basename(name))[0].lower()
    # As .svgz is the ending of a compressed .svg.
    if plain.endswith(tuple(f"{it.lower()}z" for it in endings)):
        return f"{ending_of(plain)} is not supported"
    return unknown_compression(name) if plain.endswith(tuple(map(str.lower, endings))) else ""


def stem_of(name: str) -> str:
    """Returns the name that a graph and its companions share, as USA-road-d.NY and USA-road-t.NY do."""
    return re.sub(r"-[dt](?=(\.[^/.]*)?$)", "-", parts_of(name)[0])


def real(path: str) -> str:
    """Returns the real path of a file, or the path itself where the current folder is gone."""
    try:
        return os.path.realpath(path)
    except OSError:
        return path


def place_of(name: str) -> str:
    """Returns the path of a file by which names of it are compared: in its real folder, where it may be a link."""
    return os.path.join(real(os.path.dirname(name)), os.path.basename(name))


def is_excluded(path: str, patterns: Iterable[str]) -> Optional[str]:
    """Returns the first pattern that matches a path, a folder of it, or the name of either; or None."""
    parts = path.split("/")
    names = {*parts, *("/".join(parts[:at]) for at in range(1, len(parts) + 1))}
    return next((it for it in patterns if any(fnmatchcase(name, it.rstrip("/")) for name in names)), None)
