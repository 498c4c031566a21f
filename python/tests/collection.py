"""A collection for the tests of the guards (guards.py): 300 instances that are accepted, and beside them what keepers
of collections have met: texts with faults, with names in capitals, behind compressions that are read and others, cut or
damaged, pointers of Git LFS, companions that do not fit or have no graph, texts under the ending of another kind, and
links."""

import gzip
import io
import lzma
import os
import random
import socket
import zipfile
from collections.abc import Callable

from known import ROADS
from reading import Fault, read
from shared import ROOT, make, write
from test_calls import COMPRESS
from texts import lines_of, made, spelled

SEED, COUNT = 64, 300
KINDS = ["min", "max", "sp", "ss", "p2p", "co"]
ENDS = {"sp": ".gr"}
GRAPH = b"p sp 30 2\na 1 30 5\na 30 1 5\n"
POINTER = b"version https://git-lfs.github.com/spec/v1\noid sha256:" + 64 * b"0" + b"\nsize 12345\n"
BAD = b"p sp 2 1\na 1 3 5\n"


def zstd(text: bytes) -> bytes:
    """Returns a file of zstd with this short text, as it is."""
    return b"\x28\xb5\x2f\xfd\x20" + bytes([len(text)]) + (len(text) << 3 | 1).to_bytes(3, "little") + text


def refused_texts() -> dict[str, tuple[bytes, str]]:
    """Returns 18 texts with faults, with what follows their names: those of examples/refused except for 2."""
    found = {}
    for name in sorted(os.listdir(f"{ROOT}/examples/refused"))[:18]:
        with open(f"{ROOT}/examples/refused/{name}", "rb") as file:
            number, word = name.partition(".")[0].split("-")
            found[f"coll/refused/{name}"] = (file.read(), rf":(\d+|end): {int(number)} {word}")
    return found


def zipped(text: bytes) -> bytes:
    """Returns a zip archive of one text, which gzip decompresses as well."""
    archive = io.BytesIO()
    with zipfile.ZipFile(archive, "w", zipfile.ZIP_DEFLATED) as file:
        file.writestr("text", text)
    return archive.getvalue()


NO = ": 31 Read "
# What follows the ending of a text in names of texts that are not read, and of other files.
FOLLOWS = [".lzma", ".lz", ".zstd", ".gzip", ".bz", ".tgz", ".gz.gz", ".gz.xz", ".xz.gz", ".tar.gz", ".lz4.gz", "z"]
BESIDE = [
    ".part", ".orig", ".", " ", "~", "-old", "_1", " (1)", " (1).gz", ",v", ".gz~", "2", "001", "1.gz", "old", "old2",
    ".bak", "orig.zst", "_old.xz", "~.zst", ".md5", ".gz.sha256", ".gz.asc", ".sig", ".sol", ".log", ".lp", ".json",
    ".torrent", ".license", ".swp", ".canon", ".aux.xml",
]  # fmt: skip
GZIP = gzip.compress(GRAPH, mtime=0)
# Zeros between two streams, where the tool of the format fails, warns or leaves out the second one.
GAPS: list[tuple[str, Callable[[bytes], bytes], bytes]] = [
    (".gr.gz", gzip.compress, bytes(512)),
    (".gr.bz2", COMPRESS[".bz2"], bytes(1)),
    (".gr.xz", COMPRESS[".xz"], bytes(6)),
    (".gr.zst", zstd, bytes(4)),
]
# Compressed files that are cut, damaged or followed by other bytes, or that hold another compression.
CUT_OR_DAMAGED = {
    "cut8.gr.gz": GZIP[:-8], "cut20.gr.gz": GZIP[:-20], "sum.gr.gz": GZIP[:-6] + bytes([GZIP[-6] ^ 1]) + GZIP[-5:],
    "more.gr.bz2": COMPRESS[".bz2"](GRAPH) + b"garbage", "xz.gr.gz": COMPRESS[".xz"](GRAPH),
    "more.gr.zst": zstd(GRAPH) + b"xx", **{f"zeros.gr{it}": COMPRESS[it](GRAPH) + bytes(8) for it in [".bz2"]},
    "zeros.gr.zst": zstd(GRAPH) + bytes(8),
    **{f"zeros{it}.gr.xz": COMPRESS[".xz"](GRAPH) + bytes(it) for it in (1, 2, 3, 7)},
    **{f"gap{it}": pack(GRAPH) + zeros + pack(b"a 1 1 1\n") for it, pack, zeros in GAPS},
    "cut.gr.zst": zstd(GRAPH)[:-9], **{f"empty.gr{it}": b"" for it in (".gz", ".bz2", ".xz", ".zst")},
}  # fmt: skip
# Compressed texts with faults: twice compressed, of several members, and empty.
PACKED_FAULTS: dict[str, tuple[bytes, str]] = {
    "twice.gr.gz": (gzip.compress(GZIP), ":1: 1 BadLine"),
    "member.gr.gz": (GZIP + gzip.compress(b"a 1 1 1\n"), ":4: 7 TooManyLines"),
    "nothing.gr.gz": (gzip.compress(b""), ":end: 18 NoProblem"),
    "utf16.gr.gz": (gzip.compress(GRAPH.decode().encode("utf-16")), ":1: 1 BadLine"),
    "gzip.gr": (GZIP, ":1: 1 BadLine"),
    "zstd.min": (zstd(GRAPH), ":1: 1 BadLine"),
}
# Texts that were damaged on their way, by an editor, a server or version control.
TEXT_FAULTS: dict[str, tuple[bytes, str]] = {
    "empty.gr": (b"", ":end: 18 NoProblem"), "cr.gr": (GRAPH.replace(b"\n", b"\r"), ":1: 8 FieldCount"),
    "bom.gr": (b"\xef\xbb\xbf" + GRAPH, ":1: 1 BadLine"),
    "bom-comment.gr": (b"\xef\xbb\xbfc hi\n" + GRAPH, ":1: 1 BadLine"),
    "utf16.gr": (GRAPH.decode().encode("utf-16"), ":1: 1 BadLine"),
    "utf16-be.gr": (GRAPH.decode().encode("utf-16-be"), ":1: 1 BadLine"),
    "utf32.gr": (GRAPH.decode().encode("utf-32"), ":1: 1 BadLine"), "zeros.gr": (GRAPH + bytes(100), ":4: 1 BadLine"),
    "zeros-within.gr": (b"p sp 30 1\na 1 2" + bytes(200) + b"7 9\n", ":2: (8|9) "),
    "html.gr": (b"<!DOCTYPE html>\n<html><head><title>404 Not Found</title>\n", ":1: 1 BadLine"),
    "annex.gr": (b"/annex/objects/SHA256E-s1234--abcdef.gr\n", ":1: 1 BadLine"),
    "conflict.gr": (b"p sp 2 1\n<<<<<<< HEAD\na 1 2 3\n=======\na 1 2 4\n>>>>>>> x\n", ":2: 1 BadLine"),
    "many.gr": (b"p sp 3 9223372036854775807\na 1 2 3\n", ":end: 20 TooFewLines"),
    "many.min": (b"p min 9223372036854775807 9223372036854775807\n", ":end: 20 TooFewLines"),
    "long.gr": (b"x" * 500_000 + b"\n" + GRAPH, ":1: 1 BadLine"),
    "arabic.gr": ("p sp 2 1\na 1 2 \u0663\n".encode(), ":2: 9 NotANumber"),
    "no-break.gr": ("p sp 2 1\na\u00a01 2 3\n".encode(), ":2: 1 BadLine"),
    "minus.gr": ("p sp 2 1\na 1 2 \u22123\n".encode(), ":2: 9 NotANumber"),
    "form-feed.gr": (b"p sp 2 1\na 1 2 3\f\n", ":2: 9 NotANumber"),
    "next-line.gr": ("p sp 2 1\u0085a 1 2 3\n".encode(), ":1: "), "twice.gr": (GRAPH + GRAPH, ":4: 3 SecondProblem"),
    "underscore.gr": (b"p sp 2 1\na 1 2 1_000\n", ":2: 9 NotANumber"),
}  # fmt: skip
# Texts that are accepted, although they look odd.
ODD = {
    "coll/packed/two.gr.gz": gzip.compress(GRAPH[:13]) + gzip.compress(GRAPH[13:]),
    "coll/packed/none-first.gr.gz": gzip.compress(b"") + GZIP, "coll/packed/zeros.gr.gz": GZIP + bytes(513),
    "coll/packed/zeros.gr.xz": COMPRESS[".xz"](GRAPH[:13]) + bytes(4) + COMPRESS[".xz"](GRAPH[13:]) + bytes(512),
    "coll/packed/two.gr.xz": COMPRESS[".xz"](GRAPH[:13]) + COMPRESS[".xz"](GRAPH[13:]),
    "coll/packed/two.gr.bz2": COMPRESS[".bz2"](GRAPH[:13]) + COMPRESS[".bz2"](GRAPH[13:]),
    "coll/packed/long.gr.gz": gzip.compress(b"c" * 30_000_000 + b"\n" + GRAPH),
    "coll/text/crlf.gr": GRAPH.replace(b"\n", b"\r\n"), "coll/text/nodes.gr": b"p sp 9223372036854775807 0\n",
    "coll/text/last.min": b"p min 9223372036854775807 1\na 1 9223372036854775807 0 1 1\n",
    "coll/text/long-comment.gr": b"c " + b"x" * 500_000 + b"\n" + GRAPH, f"coll/{'x' * 247}.gr": GRAPH,
}  # fmt: skip
# Files that every guard must refuse, with an expression for what follows their names.
BROKEN: dict[str, tuple[bytes, str]] = {
    **refused_texts(), "coll/a.gr.gz": (gzip.compress(BAD), ":2: 13 NodeOutOfRange"),
    "coll/b.gr.bz2": (COMPRESS[".bz2"](BAD), ":2: 13 NodeOutOfRange"),
    "coll/c.gr.xz": (COMPRESS[".xz"](BAD), ":2: 13 NodeOutOfRange"), "coll/cut.gr.gz": (gzip.compress(ROADS)[:-3], NO),
    "coll/damaged.gr.xz": (COMPRESS[".xz"](ROADS)[:-9] + b"damaged!!", NO),
    "coll/behind.gr.gz": (gzip.compress(ROADS) + b"x", NO), "coll/plain.gr.gz": (ROADS, NO),
    "coll/UP.GR": (BAD, ":2: 13 NodeOutOfRange"), "coll/Up2.Gr.gz": (gzip.compress(BAD), ":2: 13 NodeOutOfRange"),
    "coll/d.MIN.GZ": (gzip.compress(b"p min 1 1\n"), ":end: 20 TooFewLines"),
    "coll/z.gr.zst": (zstd(BAD), f":2: 13 NodeOutOfRange|{NO}"), "coll/bad.gr.Z": (b"\x1f\x9d\x90", NO),
    "coll/l.gr.lz4": (b"\x04\x22\x4d\x18", NO), "coll/y.gr.zip": (b"PK\x03\x04", NO), "coll/w.gr.br": (b"x", NO),
    "coll/s.gr.7z": (b"7z\xbc\xaf\x27\x1c", NO), **{f"coll/f{at}.gr{it}": (GRAPH, NO) for at, it in enumerate(FOLLOWS)},
    "coll/z.grz": (gzip.compress(GRAPH), NO), "coll/Z.P2PZ": (gzip.compress(GRAPH), NO),
    "coll/alone.gr.xz": (lzma.compress(GRAPH, lzma.FORMAT_ALONE), NO), "coll/zipped.gr.gz": (zipped(GRAPH), NO),
    "coll/gzipped.gr.zst": (gzip.compress(GRAPH), NO), "coll/gzipped.gr.xz": (gzip.compress(GRAPH), NO),
    "coll/pointer.gr.gz": (POINTER, f"{NO}|: it is a pointer of Git LFS, and its text is missing "),
    "coll/worse.gr": (BAD, ":2: 13 NodeOutOfRange"), "coll/data/CVS/x.gr": (BAD, ":2: 13 NodeOutOfRange"),
    "coll/pointer.min": (POINTER, ":1: 1 BadLine|: it is a pointer of Git LFS, and its text is missing "),
    "coll/fit.ss": (b"p aux sp ss 1\ns 999\n", ": 35 NotInGraph 999"),
    "coll/Fit2.p2p": (b"p aux sp p2p 1\nq 1 31\n", ": 35 NotInGraph 31"),
    "coll/fit3.co.gz": (gzip.compress(b"p aux sp co 1\nv 40 1 1\n"), ": 35 NotInGraph 40"),
    "coll/fit4.ss": (b"p aux sp ss 1\ns 1\n", ": 36 NotKinds"),
    "coll/a b:7: 9 NotANumber.gr": (b"p sp 2 1\na 1 3 5\n", ":2: 13 NodeOutOfRange"),
    "coll/.hidden.gr": (BAD, ":2: 13 NodeOutOfRange"), "coll/.gr": (BAD, ":2: 13 NodeOutOfRange"),
    "coll/-dash.gr": (BAD, ":2: 13 NodeOutOfRange"), "coll/sp ace'q\"$x.gr": (BAD, ":2: 13 NodeOutOfRange"),
    **{f"coll/packed/{name}": (data, NO) for name, data in CUT_OR_DAMAGED.items()},
    **{f"coll/packed/{name}": it for name, it in PACKED_FAULTS.items()},
    **{f"coll/text/{name}": it for name, it in TEXT_FAULTS.items()},
}  # fmt: skip
# Links that every guard must refuse, with what they lead to and an expression for what follows their names.
BROKEN_LINKS = {
    "coll/dangling.gr": ("nowhere.gr", NO),
    "coll/loop.gr": ("loop.gr", NO),
    "coll/link.gr": ("UP.GR", ":2: 13 NodeOutOfRange"),
    "coll/inst/up.gr": ("../a.gr.gz", ":1: 1 BadLine"),
}
FAULTS = {name: fault for name, (_, fault) in BROKEN.items()}
FAULTS |= {name: fault for name, (_, fault) in BROKEN_LINKS.items()}
SOURCES, POINTS = b"p aux sp ss 1\ns 2\n", b"p aux sp co 1\nv 1 0 0\n"
# Texts that are accepted and named: of another kind than their endings, without a graph, and with one that is refused.
OTHER_KIND, NO_GRAPH, REFUSED_GRAPH = "its ending is that of (sp|min|max|ss|co)", "no graph", "graph not accepted: "
REMARKED = {
    "coll/kind-min.gr": (b"p min 3 0\n", OTHER_KIND), "coll/kind-max.min": (b"p max 2 0\nn 1 s\nn 2 t\n", OTHER_KIND),
    "coll/kind-sp.max.gz": (gzip.compress(GRAPH), OTHER_KIND), "coll/kind-sp.min": (GRAPH, OTHER_KIND),
    "coll/kind-ss.gr": (SOURCES, OTHER_KIND), "coll/kind-sp.co": (GRAPH, f"{NO_GRAPH}, {OTHER_KIND}"),
    "coll/kind-co.ss": (POINTS, f"{NO_GRAPH}, {OTHER_KIND}"), "coll/fit4.gr": (b"p min 3 0\n", OTHER_KIND),
    "coll/lone.ss": (b"p aux sp ss 1\ns 5\n", NO_GRAPH), "coll/lone.p2p": (b"p aux sp p2p 0\n", NO_GRAPH),
    "coll/d.ss": (SOURCES, NO_GRAPH), "coll/v.ss": (SOURCES, NO_GRAPH),
    "coll/worse.co": (POINTS, f"{REFUSED_GRAPH}(\\./)?coll/worse\\.gr"),
}  # fmt: skip
# The graphs of companions, which are accepted, and companions that fit.
GRAPHS = {
    "coll/fit.gr": GRAPH, "coll/Fit2.GR": GRAPH, "coll/fit3.gr.xz": COMPRESS[".xz"](GRAPH), "coll/D.GR": GRAPH,
    "coll/v.v1.gr": GRAPH, "coll/good.gr.gz": gzip.compress(GRAPH), "coll/good.ss": b"p aux sp ss 1\ns 30\n",
    "coll/good.co": b"p aux sp co 1\nv 1 0 0\n",
}  # fmt: skip
# Files that the guards count, and do not look at.
OTHERS = ["coll/x.net", "coll/noend", "coll/bad.dimacs", "coll/bad.txt", "coll/README.md", "coll/x.zst"]
OTHERS += ["coll/a.graph", "coll/b.co2x", "coll/c.minold-x9a.txt", "coll/d.newer", "coll/e.groldest"]
OTHERS += ["coll/jquery.min.js", "coll/page.min.css.map", "coll/gr.d/notes", "coll/a.grid", "coll/a.max-flow.csv"]
OTHERS += ["coll/bbc.co.uk.html", "coll/values.min.yaml", "coll/emissions.co2", "coll/index.sp500", "coll/notes.gr.d/x"]
OTHERS += [f"coll/beside/b{at}.gr{it}" for at, it in enumerate(BESIDE)]
# What no version control keeps, and no guard opens: a pipe and a socket.
PIPES = {"coll/pipe.gr": NO, "coll/socket.min.gz": NO}


def make_pipes() -> dict[str, str]:
    """Makes the pipe and the socket, and returns their faults."""
    pipe, end = PIPES
    os.mkfifo(pipe)
    with socket.socket(socket.AF_UNIX) as it:
        it.bind(end)
    return PIPES


def make_collection() -> dict[str, str]:
    """Makes the collection in the folder `coll`, and returns its instances that are accepted, with an expression for
    what is remarked about them."""
    chance, found = random.Random(SEED), {**GRAPHS, **ODD, **{name: text for name, (text, _) in REMARKED.items()}}
    remarks = {name: REMARKED[name][1] if name in REMARKED else "" for name in found}
    while len(found) < COUNT:
        kind = chance.choice(KINDS)
        text = spelled(chance, lines_of(chance, made(chance, kind)))
        try:
            read(text)
        except Fault:
            continue
        name = f"coll/inst/i{len(found):03}{ENDS.get(kind, f'.{kind}')}"
        packed = chance.choice(["", "", "", *COMPRESS])
        found[name + packed] = COMPRESS[packed](text) if packed else text
        remarks[name + packed] = NO_GRAPH if kind in ("ss", "p2p", "co") else ""
    make({**found, **{name: text for name, (text, _) in BROKEN.items()}, **dict.fromkeys(OTHERS, BAD)})
    for name, (to, _) in BROKEN_LINKS.items():
        os.symlink(to, name)
    os.makedirs("coll/.git/refs/heads/feature")
    write("coll/.git/refs/heads/feature/fix.gr", 40 * "1")
    make({"coll/inst/CVS/Entries": b"", "coll/inst/CVS/Base.gr": BAD})
    return remarks
