"""Checks, compares and canonicalises DIMACS network instances.

    >>> import dnorm
    >>> dnorm.checksum("roads.gr")
    '4fe844f97748d4b1a5592a2ec3d9d374d1e1b96c471f2fac1ef2b0ae1780b470'

All calls read texts by the library libdnorm, which comes with the package; `$DNORM_LIBRARY` can name another one. They
open each file once. They take a file as a path, as bytes, or as a binary stream, which they read from where it is to
its end, and do not close. A path that ends in `.gz`, `.bz2` or `.xz` is decompressed meanwhile, also one that ends in
`.zst` if Python or the module `zstandard` can; other compressions are errors. `write` writes what `read` returns, and
what `from_arrays`, `from_networkx` and `from_scipy` make; such an instance is a file as well. With the keyword
`timeout`, a call that takes more seconds raises `TimedOut`.

A text that is not accepted raises `Refused`, and any other failure another `DnormError`. If reading a text fails, or a
compressed file is corrupt, no call returns an answer for it.

`check_folder` checks all texts of a folder, and `read_manifest` and `manifest_changes` tell how checksums have changed.
`dnorm-files`, or `python3 -m dnorm`, does more with folders."""

from . import alone  # noqa: F401
from .answers import Checked, Difference, Same
from .calls import canon, canon_to, check, checksum, compare, read, write
from .columns import Column
from .errors import DnormError, Endless, Memory, NoLibrary, Read, Refused, TimedOut, Write
from .files import File, Readable, Target, Writable
from .folders import Collection, check_folder
from .instances import Co, Graph, Instance, Max, Min, P2p, Sp, Ss, Star, from_arrays
from .library import find_library
from .lines import ArcLines
from .manifests import Changes, Manifest, manifest_changes, read_manifest
from .networks import from_networkx, from_scipy
from .pairs import Differences, PairDifference, differences
from .records import Contents, Range, Record
from .refusals import REFUSALS

# The version of the program that this package belongs to, as Python packages spell it.
__version__ = "3.1.0"

__all__ = [
    "ArcLines", "Changes", "Checked", "Co", "Collection", "Column", "Contents", "Difference", "Differences",
    "DnormError", "Endless", "File", "Graph", "Instance", "Manifest", "Max", "Memory", "Min", "NoLibrary", "P2p",
    "PairDifference", "REFUSALS", "Range", "Read", "Readable", "Record", "Refused", "Same", "Sp", "Ss", "Star",
    "Target", "TimedOut", "Writable", "Write", "canon", "canon_to", "check", "check_folder", "checksum", "compare",
    "differences", "find_library", "from_arrays", "from_networkx", "from_scipy", "manifest_changes", "read",
    "read_manifest", "write",
]  # fmt: skip
