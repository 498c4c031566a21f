"""Tests what is said of 130 sorts of files that people take for DIMACS texts, or write by mistake: the wrong word, the
row that the line is to have, and what the file may be. Each hint of hints.json is found by one of them, and
JavaScript evaluates the tests of all hints as Python does."""

import bz2
import gzip
import io
import json
import lzma
import re
import tarfile
import zipfile
from typing import Any

import pytest
from known import ROADS as OTHER
from needs import need
from shared import run
from test_calls import READS

import dnorm
from dnorm import causes

pytestmark = READS
ROADS = b"p sp 3 3\na 1 2 3\na 2 3 4\na 3 1 5\n"
MAX, MIN = b"p max 3 1\nn 1 s\nn 3 t\n", b"p min 3 1\nn 1 4\nn 3 -4\n"


def tarred() -> bytes:
    archive = io.BytesIO()
    with tarfile.open(fileobj=archive, mode="w") as file:
        entry = tarfile.TarInfo("roads.gr")
        entry.size = len(ROADS)
        file.addfile(entry, io.BytesIO(ROADS))
    return archive.getvalue()


def zipped() -> bytes:
    archive = io.BytesIO()
    with zipfile.ZipFile(archive, "w") as file:
        file.writestr("roads.gr", ROADS)
    return archive.getvalue()


# Texts by what they are, with the word that is marked (None for a long one), and the hints. The first one may be a row.
TEXTS: dict[str, tuple[bytes, "str | None", list[str]]] = {
    "gzip": (gzip.compress(ROADS), None, ["The file is compressed by gzip"]),
    "compress": (b"\x1f\x9d\x90x", "^_M-^]M-^Px", ["The file is compressed by compress"]),
    "xz": (lzma.compress(ROADS), None, ["The file is compressed by xz"]),
    "bzip2": (bz2.compress(ROADS), None, ["The file is compressed by bzip2"]),
    "zstd": (b"\x28\xb5\x2f\xfd\x20", "(M-5/M-}", ["The file is compressed by zstd"]),
    "lz4": (b"\x04\x22\x4d\x18x", '^D"M^Xx', ["The file is compressed by lz4"]),
    "lzip": (b"LZIP\x01", "LZIP^A", ["The file is compressed by lzip"]),
    "lzop": (b"\x89LZO\x00", "M-^ILZO^@", ["The file is compressed by lzop"]),
    "zip": (zipped(), None, ["The file is a zip archive"]),
    "7z": (b"7z\xbc\xaf\x27\x1c", "7zM-<M-/'^\\", ["The file is an archive of 7-Zip"]),
    "tar": (tarred(), None, ["The file is a tar archive"]),
    "bom": (b"\xef\xbb\xbf" + ROADS, "M-oM-;M-?p", ["The file begins with a byte order mark"]),
    "utf32": (ROADS.decode().encode("utf-32"), "M-^?M-~^@^@p^@^@^@", ["The file is in UTF-32"]),
    "utf16": (ROADS.decode().encode("utf-16"), "M-^?M-~p^@", ["The file is in UTF-16"]),
    "utf16le": (ROADS.decode().encode("utf-16-le"), "p^@", ["The file is in UTF-16 without a mark"]),
    "utf16be": (ROADS.decode().encode("utf-16-be"), "^@p^@", ["The file is in UTF-16 without a mark"]),
    "png": (b"\x89PNG\r\n\x1a\n", "M-^IPNG", ["The file is a binary file of another program, and no text"]),
    "numpy": (b"\x93NUMPY\x01", "M-^SNUMPY^A", ["The file is a binary file of another program, and no text"]),
    "sqlite": (b"SQLite format 3\0", "SQLite", ["The file is a binary file of another program, and no text"]),
    "lfs": (
        b"version https://git-lfs.github.com/spec/v1\noid",
        "version",
        ["The file is a pointer of Git LFS, and the text is missing: git lfs pull"],
    ),
    "annex": (
        b"/annex/objects/SHA256E-s1--x.gr\n",
        "/annex/objects/SHA256E-s1--x.gr",
        ["The file is a pointer of git-annex, and the text is missing: git annex get"],
    ),
    "graphml": (b'<?xml version="1.0"?>\n<graphml xmlns="x">\n', "<?xml", ["The file is XML of another graph format"]),
    "html": (
        b"<!DOCTYPE html>\n<html>",
        "<!DOCTYPE",
        ["The file is a page of the web, as a server sends for an error or a login: get the file again"],
    ),
    "xml": (
        b'<?xml version="1.0"?>\n<Error>',
        "<?xml",
        ["The file is a page of the web, as a server sends for an error or a login: get the file again"],
    ),
    "postscript": (b"%!PS-Adobe-3.0\n", "%!PS-Adobe-3.0", ["The file is a document, and no text"]),
    "rtf": (b"{\\rtf1\\ansi\n", "{\\rtf1\\ansi", ["The file is a document, and no text"]),
    "matrix": (
        b"%%MatrixMarket matrix coordinate integer general\n3 3 2\n1 2 3\n2 3 4\n",
        "%%MatrixMarket",
        ["The file is a matrix in the Matrix Market format: write each entry as an arc"],
    ),
    "lgf": (
        b"# made by LEMON\n@nodes\nlabel\n1\n2\n@arcs\n length\n1 2 3\n",
        "#",
        ["The file is in LEMON's format (LGF)"],
    ),
    "pajek": (b'*Vertices 3\n1 "a"\n*Arcs\n1 2 3\n', "*Vertices", ["The file is in Pajek's format"]),
    "gml": (b"graph [\n  directed 1\n  node [ id 1 ]\n]\n", "graph", ["The file is in GML"]),
    "gml2": (b'Creator "x"\ngraph\n[\n', "Creator", ["The file is in GML"]),
    "dot": (b"digraph roads {\n 1 -> 2;\n}\n", "digraph", ["The file is in DOT, the format of Graphviz"]),
    "json": (b'{"nodes": [{"id": 1}]}\n', '{"nodes":', ["The file is JSON"]),
    "jsonlist": (b"[[1, 2, 3],\n[2, 3, 4]]\n", "[[1,", ["The file is JSON"]),
    "graph6": (b">>graph6<<D?{\n", ">>graph6<<D?{", ["The file is in graph6 or sparse6"]),
    "sparse6": (b":Fa@x^\n", ":Fa@x^", ["The file is in graph6 or sparse6"]),
    "pem": (b"-----BEGIN PGP MESSAGE-----\n", "-----BEGIN", ["The file is encoded for mail: decode it first"]),
    "uu": (b"begin 644 roads.gr\nM...\n", "begin", ["The file is encoded for mail: decode it first"]),
    "patch": (b"diff --git a/x.gr b/x.gr\n", "diff", ["The file is a patch: apply it to the text"]),
    "failed": (
        b"gzip: roads.gr.gz: No such file or directory\n",
        "gzip:",
        ["The file has the message of a command or a server that failed: get the text again"],
    ),
    "404": (
        b"404: Not Found",
        "404:",
        ["The file has the message of a command or a server that failed: get the text again"],
    ),
    "tsplib": (b"NAME : a280\nTYPE : TSP\n", "NAME", ["The file is in the format of TSPLIB"]),
    "mps": (b"NAME          TESTPROB\nROWS\n N  COST\n", "NAME", ["The file is a linear program in MPS"]),
    "lp": (b"\\ Problem\nMinimize\n obj: x1 + 2 x2\n", "\\", ["The file is a linear program in LP"]),
    "lpsolve": (b"max: 3x+2y;\nc1: x<=4;\n", "max:", ["The file is a linear program in LP"]),
    "gmpl": (b"param n;\nset V;\n", "param", ["The file is a model of AMPL or GMPL"]),
    "script": (b"#!/bin/sh\necho p sp 1 0\n", "#!/bin/sh", ["The file is a script: run it, and check what it writes"]),
    "python": (b"import networkx\n", "import", ["The file is a script: run it, and check what it writes"]),
    "yaml": (b"---\nnodes: 3\n", "---", ["The file is YAML"]),
    "solution": (
        b"c made by a solver\ns 14\nf 1 2 4\nf 2 3 4\n",
        "s",
        ["The file is a solution, as a solver writes it: check the instance that was solved"],
    ),
    "edges": (
        b"1 2 3\n2 3 4\n3 1 5\n",
        "1",
        ["The file is a list of edges: begin it with p sp NODES ARCS, and each line with a"],
    ),
    "edges2": (
        b"# Directed graph\n# FromNodeId ToNodeId\n1\t2\n2\t3\n3\t1\n",
        "#",
        ["The file is a list of edges: begin it with p sp NODES ARCS, and each line with a"],
    ),
    "edges head": (
        b"3 3\n1 2 3\n2 3 4\n3 1 5\n",
        "3",
        ["The file is a list of edges: begin it with p sp NODES ARCS, and each line with a"],
    ),
    "csv": (
        b"source,target,weight\n1,2,3\n",
        "source,target,weight",
        ["The file is a table (CSV): write each row as a line, with blanks between the words"],
    ),
    "csv2": (
        b"1;2;3\n2;3;4\n",
        "1;2;3",
        ["The file is a table (CSV): write each row as a line, with blanks between the words"],
    ),
    "metis": (
        b"% a comment\n4 5 001\n2 1 3 2\n1 1 3 2 4 3\n",
        "%",
        ["The file may be in the format of METIS: its edges have no direction, so each is two arcs"],
    ),
    "conflict": (
        b"p sp 2 1\n<<<<<<< HEAD\na 1 2 3\n=======\na 1 2 4\n>>>>>>> x\n",
        "<<<<<<<",
        ["The line is of a conflict that git could not merge: keep one side, and remove such lines"],
    ),
    "cr": (ROADS.replace(b"\n", b"\r"), "a", ["p sp NODES=3 ARCS=3: a is too many", "CR alone ends lines"]),
    "ctrl-z": (ROADS + b"\x1a", "^Z", ["The line ends in NUL or Ctrl-Z"]),
    "nuls": (ROADS + bytes(3), "^@^@^@", ["The line ends in NUL or Ctrl-Z"]),
    "nul within": (
        b"p sp 2 1\na 1\0\0 2 3\n",
        "1^@^@",
        ["a SRC=1^@^@ DST=2 LENGTH=3", "The line has NUL within, where data may be lost: get the file again"],
    ),
    "nbsp": (
        b"p sp 2 1\na\xc2\xa01 2 3\n",
        "aM-BM- 1",
        ["The line has a blank or a mark that is not ASCII: only space, tab and CR separate words"],
    ),
    "minus": (
        "p sp 2 1\na 1 2 \u22123\n".encode(),
        "M-bM-^HM-^R3",
        ["a SRC=1 DST=2 LENGTH=M-bM-^HM-^R3", "The sign is no minus sign of ASCII: write -"],
    ),
    "hash": (b"# roads\n" + ROADS, "#", ["A comment begins with c"]),
    "percent": (b"% roads\np sp 2 1\na 1 2 3\n", "%", ["A comment begins with c"]),
    "slashes": (b"p sp 2 1\n// x\na 1 2 3\n", "//", ["A comment begins with c"]),
    "upper": (b"P SP 2 1\n", "P", ["Letters and words are in lower case"]),
    "upper a": (b"p sp 2 1\nA 1 2 3\n", "A", ["Letters and words are in lower case"]),
    "no letter": (
        b"p sp 2 1\n1 2 3\n",
        "1",
        ["a SRC=1 DST=2 LENGTH=3", "The line lacks its letter, which says what it is"],
    ),
    "no letter co": (
        b"p aux sp co 1\n1 5 6\n",
        "1",
        ["v ID=1 X=5 Y=6", "The line lacks its letter, which says what it is"],
    ),
    "commas": (b"p sp 2 1\na,1,2,3\n", "a,1,2,3", ["Blanks separate words"]),
    "e line": (
        b"p sp 2 1\ne 1 2 3\n",
        "e",
        ["Lines with e are edges of the colouring format: an edge without a direction is two arcs"],
    ),
    "title": (b"t roads\n" + ROADS, "t", ["A title is a comment here: write c in place of t"]),
    "words": (b"p sp 2 1\narc 1 2 3\n", "arc", ["Letters stand for words: p, n and a"]),
    "flow line": (
        b"p max 2 1\nf 1 2 3\n",
        "f",
        ["Such lines are of solutions or of other formats, and not of an instance"],
    ),
    "unknown": (b"p sp 2 1\nroads\n", "roads", ["Lines begin with p, n, a, s, q or v, and comments with c"]),
    "cut head": (
        b"a 1 2 3\na 2 3 4\n",
        "a",
        ["The problem line comes first: the head of the file may be cut off, or follow"],
    ),
    "late p": (
        b"n 1 s\np max 2 0\n",
        "n",
        ["The problem line comes first: the head of the file may be cut off, or follow"],
    ),
    "s first": (b"s 1\np aux sp ss 1\n", "s", ["Only comments and blank lines may precede the problem line"]),
    "two": (ROADS + ROADS, "p", ["Separate the files, or keep one problem line with the sums of the counts"]),
    "edge": (b"p edge 3 2\ne 1 2\n", "edge", ["The file is in the format of graph colouring and cliques"]),
    "col": (b"p col 3 2\n", "col", ["The file is in the format of graph colouring and cliques"]),
    "cnf": (b"p cnf 3 2\n1 -3 0\n", "cnf", ["The file is a formula for SAT (CNF)"]),
    "asn": (
        b"p asn 4 2\nn 1\na 1 2 3\n",
        "asn",
        ["The file is an assignment problem: as p min, each arc has LOW 0 and CAP 1, and nodes have flows"],
    ),
    "tw": (b"p tw 3 2\n1 2\n", "tw", ["The file is in a format of PACE or of another challenge"]),
    "kind in capitals": (b"p SP 2 1\n", "SP", ["The kind is in lower case"]),
    "no kind": (b"p 3 2\na 1 2 3\n", "3", ["The problem line lacks the kind"]),
    "aux alone": (b"p aux\n", "aux", ["A companion begins with p aux sp, and then ss, p2p or co"]),
    "aux sp alone": (b"p aux sp\n", "aux", ["A companion begins with p aux sp, and then ss, p2p or co"]),
    "aux": (b"p aux ss 2\n", "aux", ["A companion begins with p aux sp, and then ss, p2p or co"]),
    "mincost": (
        b"p mincost 3 2\n",
        "mincost",
        ["The kinds are min, max, sp, aux sp ss, aux sp p2p and aux sp co, in lower case"],
    ),
    "p alone": (b"p\n", "", ["The kinds are min, max, sp, aux sp ss, aux sp p2p and aux sp co, in lower case"]),
    "n in sp": (
        b"p sp 2 1\nn 1 s\n",
        "n",
        ["Old sp files name their source in an n line: move it into an ss companion"],
    ),
    "s in max": (
        b"p max 2 1\ns 1\n",
        "s",
        ["Sources and queries stand in a companion of an sp graph, a file of its own"],
    ),
    "v in sp": (b"p sp 2 1\nv 1 0 0\n", "v", ["Coordinates stand in a co companion of an sp graph, a file of its own"]),
    "a in ss": (b"p aux sp ss 1\na 1 2 3\n", "a", ["The lines of ss are p aux sp ss K; s ID"]),
    "late node": (b"p min 2 1\na 1 2 0 5 3\nn 1 5\n", "n", ["Put all node lines before the arcs"]),
    "too many": (ROADS + b"a 1 2 3\n", "a", ["declared 3, found 4: only a, s, q and v lines count"]),
    "too few": (ROADS[:20], "", ["a SRC=2 DST LENGTH: DST and LENGTH are missing"]),
    "comment behind": (
        b"p sp 2 1\na 1 2 3 # fast\n",
        "#",
        ["a SRC=1 DST=2 LENGTH=3: # is too many", "A comment stands on a line of its own"],
    ),
    "commas between": (
        b"p sp 2 1\na 1, 2, 3\n",
        "1,",
        ["a SRC=1, DST=2, LENGTH=3", "Blanks separate words, and no commas"],
    ),
    "no length": (
        b"p sp 2 1\na 1 2\n",
        "",
        ["a SRC=1 DST=2 LENGTH: LENGTH is missing", "An arc of sp has a LENGTH: 1, if the graph has none"],
    ),
    "no low": (
        MIN + b"a 1 2 4 7\n",
        "",
        ["a SRC=1 DST=2 LOW=4 CAP=7 COST: COST is missing", "An arc of min has LOW before CAP: 0, if there is none"],
    ),
    "max in min": (MIN + b"a 1 2 4\n", "", ["a SRC=1 DST=2 LOW=4 CAP COST: CAP and COST are missing"]),
    "min in max": (
        MAX + b"a 1 2 0 4 7\n",
        "4",
        ["a SRC=1 DST=2 CAP=0: 4 is too many", "Arcs with LOW, CAP and COST are those of p min"],
    ),
    "short p": (b"p sp 3\n", "", ["p sp NODES=3 ARCS: ARCS is missing"]),
    "long p": (b"p sp 3 2 1\n", "1", ["p sp NODES=3 ARCS=2: 1 is too many"]),
    "short n": (b"p max 3 1\nn 1\n", "", ["n ID=1 s|t: s|t is missing"]),
    "fraction 0": (b"p sp 2 1\na 1 2 3.0\n", "3.0", ["a SRC=1 DST=2 LENGTH=3.0", "Remove the fraction, which is 0"]),
    "fraction": (b"p sp 2 1\na 1 2 3.25\n", "3.25", ["a SRC=1 DST=2 LENGTH=3.25", "Scale to whole numbers"]),
    "exponent": (
        b"p sp 2 1\na 1 2 1e5\n",
        "1e5",
        ["a SRC=1 DST=2 LENGTH=1e5", "Write the number with all its digits, without an exponent"],
    ),
    "hex": (b"p sp 2 1\na 1 2 0x10\n", "0x10", ["a SRC=1 DST=2 LENGTH=0x10", "Numbers are decimal"]),
    "underscore": (
        b"p sp 2 1\na 1 2 1_000\n",
        "1_000",
        ["a SRC=1 DST=2 LENGTH=1_000", "Digits have no signs between them"],
    ),
    "quotes": (b'p sp 2 1\na "1" 2 3\n', '"1"', ['a SRC="1" DST=2 LENGTH=3', "Numbers have no quotation marks"]),
    "inf": (
        MAX + b"a 1 2 inf\n",
        "inf",
        [
            "a SRC=1 DST=2 CAP=inf",
            "For no limit, write a capacity that no flow exceeds; leave out an arc that cannot be used",
        ],
    ),
    "nan": (
        b"p sp 2 1\na 1 2 NaN\n",
        "NaN",
        ["a SRC=1 DST=2 LENGTH=NaN", "The number is missing where the file was written"],
    ),
    "names": (
        b"p sp 2 1\na Rome Oslo 3\n",
        "Rome",
        ["a SRC=Rome DST=Oslo LENGTH=3", "Nodes have numbers from 1 on, and no names; no field has a name"],
    ),
    "plus": (
        b"p sp 2 1\na 1 2 ++3\n",
        "++3",
        ["a SRC=1 DST=2 LENGTH=++3", "Scale to whole numbers; remove a fraction that is 0"],
    ),
    "arabic": (
        "p sp 2 1\na 1 2 \u0663\n".encode(),
        "M-YM-#",
        ["a SRC=1 DST=2 LENGTH=M-YM-#", "Scale to whole numbers; remove a fraction that is 0"],
    ),
    "unsigned": (
        MAX + b"a 1 2 18446744073709551615\n",
        "18446744073709551615",
        [
            "a SRC=1 DST=2 CAP=18446744073709551615",
            "Scale the numbers down; for no limit, write a capacity that no flow exceeds",
        ],
    ),
    "minus one": (
        MAX + b"a 1 2 -1\n",
        "-1",
        [
            "a SRC=1 DST=2 CAP=-1",
            "Costs, lengths and flows may be below 0; for no limit, write a capacity that no flow exceeds",
        ],
    ),
    "negative low": (
        MIN + b"a 1 2 -1 4 7\n",
        "-1",
        [
            "a SRC=1 DST=2 LOW=-1 CAP=4 COST=7",
            "Costs, lengths and flows may be below 0; for no limit, write a capacity that no flow exceeds",
        ],
    ),
    "negative nodes": (
        b"p sp -3 2\n",
        "-3",
        [
            "p sp NODES=-3 ARCS=2",
            "Costs, lengths and flows may be below 0; for no limit, write a capacity that no flow exceeds",
        ],
    ),
    "terminal": (b"p max 2 1\nn 1 S\n", "S", ["n ID=1 s|t=S", "Write s for the source and t for the sink"]),
    "terminal 1": (b"p max 2 1\nn 1 1\n", "1", ["n ID=1 s|t=1", "Write s for the source and t for the sink"]),
    "node 0": (b"p sp 2 1\na 0 1 3\n", "0", ["a SRC=0 DST=1 LENGTH=3", "NODES 2: nodes count from 1"]),
    "node above": (b"p sp 2 1\na 1 3 3\n", "3", ["a SRC=1 DST=3 LENGTH=3", "NODES 2: nodes count from 1"]),
    "ss 0": (b"p aux sp ss 1\ns 0\n", "0", ["s ID=0", "IDs count from 1"]),
    "node twice": (b"p min 3 0\nn 2 1\nn 2 2\n", "2", ["Node 2 came first in line 2"]),
    "two sources": (b"p max 3 0\nn 1 s\nn 2 s\n", "2", ["The source is node 1, by line 2"]),
    "point twice": (b"p aux sp co 2\nv 1 0 0\nv 1 5 5\n", "1", ["Point 1 came first in line 2"]),
    "one terminal": (b"p max 2 0\nn 1 s\nn 1 t\n", "1", ["The source and the sink are two different nodes"]),
    "low above": (
        MIN + b"a 1 2 7 4 2\n",
        "7",
        [
            "a SRC=1 DST=2 LOW=7 CAP=4 COST=2",
            "The order is LOW, CAP, COST; for no limit, write a capacity that no flow exceeds",
        ],
    ),
    "sum": (
        b"p max 3 2\nn 1 s\nn 3 t\na 1 2 9223372036854775807\na 1 2 1\n",
        "1",
        [
            "a SRC=1 DST=2 CAP=1",
            f"The capacities from 1 to 2 sum to {2**63 - 1} before this line, and with it to {2**63}",
        ],
    ),
    "empty": (b"", "", ["The file is empty"]),
    "comments": (b"c only\n", "", ["The text has only comments, or the command that wrote it failed"]),
    "no sink": (b"p max 2 1\nn 1 s\na 1 2 3\n", "", ["Add the line n ID s or n ID t, before the arcs"]),
}
# Evaluates the hints of the file that is given on lists of facts, as causes.py says, and prints which hold.
IN_JAVASCRIPT = """
const [data, lists] = JSON.parse(require('fs').readFileSync(0, 'utf8'));
const meets = (fact, test) => typeof test === 'string'
  ? typeof fact === 'string' && new RegExp(test).test(fact) : [].concat(test).includes(fact);
const holds = (hint, facts) => Object.entries(hint.if).every(([name, test]) => meets(facts[name], test))
  && !Object.entries(hint.unless ?? {}).some(([name, test]) => meets(facts[name], test));
const all = ['file', 'line', 'fault', 'remedy'].flatMap((name) => data[name]);
console.log(JSON.stringify(lists.map((facts) => all.flatMap((it, at) => holds(it, facts) ? [at] : []))));
"""


def refusal(text: bytes) -> dnorm.Refused:
    with pytest.raises(dnorm.Refused) as found:
        dnorm.check(text)
    return found.value


@pytest.mark.parametrize("text, word, hints", TEXTS.values(), ids=[*TEXTS])
def test_text(text: bytes, word: "str | None", hints: list[str]) -> None:
    error = refusal(text)
    assert (error.hint or "").split("\n") == hints
    shown = [error.sentence, *([f"line {error.line}: {error.text}"] if error.text else [])]
    if error.mark and error.text and word is not None:
        start, end = error.mark
        assert error.text[start:end] == word
        shown.append(" " * (len(shown[1]) - len(error.text) + start) + "^" * (end - start))
    assert error.causes[: len(shown)] == shown and error.causes[-len(hints) :] == hints


def test_every_hint() -> None:
    """Each hint is found by a text, or by a refusal of two files."""
    told = {hint for _, _, hints in TEXTS.values() for hint in hints}
    told |= {*(causes.cause_of(None, None, None, 36)[1] or "").splitlines()}
    graph = b"p sp 2 0\n"
    with pytest.raises(dnorm.Refused) as found:
        dnorm.check(graph, b"p aux sp ss 2\ns 1\ns 7\n")
    assert found.value.hint == "line 3 names it: s 7"
    begins = [it["say"].partition("{")[0] for name in ("file", "line", "fault", "remedy") for it in causes.DATA[name]]
    assert [it for it in begins if not any(hint.startswith(it) for hint in told)] == []


def test_odd_lines() -> None:
    """Marks and rows of lines with odd bytes, of long ones, and of a text that is right up to there."""
    rows: list[tuple[bytes, str, list[str]]] = [
        (b"a \x001\x7f 2 3", "^@1^?", ["a SRC=^@1^? DST=2 LENGTH=3"]),
        (b"\ta\t1  2 \xff ", "M-^?", ["a SRC=1 DST=2 LENGTH=M-^?"]),
        (b"a 1 " + 300 * b"9" + b" 3", 196 * "9", [f"a SRC=1 DST={40 * '9'} LENGTH=3"]),
        (b"a 1 2" + 300 * b" " + b"x", "", ["a SRC=1 DST=2 LENGTH=x"]),
    ]
    for line, word, first in rows:
        error = refusal(OTHER.replace(b"a 2 1 4", line))
        start, end = error.mark or (0, 0)
        assert (error.mark is None, end - start) == (word == "", len(word)), line
        assert ((error.text or "")[start:end], (error.hint or "").split("\n")[:1]) == (word, first), line
    # dnorm-explain may read another text than dnorm has refused.
    _, hint, _ = causes.cause_of(lambda: iter([b"p max 2 3\na 1 2 \na 1 2 3\na 1 2 4\n"]), None, 4, 17)
    assert (hint or "").endswith("The capacities from 1 to 2 sum to 3 before this line, and with it to 7"), hint


def test_in_javascript(monkeypatch: pytest.MonkeyPatch) -> None:
    """What the schema promises: the same hints hold in JavaScript."""
    need("node")
    data, lists, wanted = causes.DATA, list[dict[str, Any]](), list[list[int]]()
    hints = [it for name in ("file", "line", "fault", "remedy") for it in data[name]]
    for it in hints:
        for test in [*it["if"].values(), *it.get("unless", {}).values()]:
            # What has another meaning there.
            assert not isinstance(test, str) or not re.search(r"\\[AZbBdDsSwW]|\(\?[P<i]", test), test

    def noted(facts: Any) -> list[str]:
        lists.append({name: it for name, it in facts.items() if not callable(it)})
        wanted.append([at for at, it in enumerate(hints) if causes.holds(it, facts)])
        return []

    monkeypatch.setattr(causes, "hints_of", noted)
    for text, _, _ in TEXTS.values():
        refusal(text)
    found = run(["node", "-e", IN_JAVASCRIPT], json.dumps([data, lists]).encode())
    assert json.loads(found.out) == wanted, found.err
    assert len(wanted) == len(TEXTS)
