"""dnorm-explain shows what is wrong in a file or in a command line, the commands that it prints mend the file, and its
status is that of dnorm."""

import bz2
import gzip
import io
import lzma
import os
import re
import shutil
import subprocess
import zipfile
from collections.abc import Callable

import pytest
from known import ROADS
from needs import leave_out, pass_over, terminal
from shared import LIMIT, ROOT, Answer, bytes_of, listed, make, run, said, source_of, write

from dnorm.refusals import REFUSALS

EXPLAIN = f"{ROOT}/bin/dnorm-explain"
SENTENCES = {it[1] for it in REFUSALS.values()}
pytestmark = pytest.mark.usefixtures("folder")
# Refused files, and the lines that dnorm-explain prints below their refusals.
ROWS_OF_LETTERS = "Lines begin with p, n, a, s, q or v, and comments with c"
COUNTS = "only a, s, q and v lines count"
PAGE = "The file is a page of the web, as a server sends for an error or a login: get the file again"
SUM = f"The capacities from 1 to 2 sum to {2**63 - 1} before this line, and with it to {2**63}"
CONFLICT = "The line is of a conflict that git could not merge: keep one side, and remove such lines"
EXPLAINED: list[tuple[str, bytes, list[str]]] = [
    ("a.gr", b"p sp 2 1\na 1 2 7\n \ta 2 1 4\r\n", ["line 3:  ^Ia 2 1 4^M", f"declared 1, found 2: {COUNTS}"]),
    ("b c.ss", b"c p\n\tp aux sp ss 2\r\ns 1\nab\n", ["line 4: ab", ROWS_OF_LETTERS]),
    ("d.ss", b"c p\n\tp aux sp ss 2\r\ns 1\n", [f"declared 2, found 1: {COUNTS}"]),
    ("e.gr", b"p sp 2 1\na 0 1 7\n", ["line 2: a 0 1 7", "NODES 2: nodes count from 1"]),
    ("f.ss", b"p aux sp ss 1\ns 0\n", ["line 2: s 0", "IDs count from 1"]),
    ("g.gr", b"p sp 2 1\n" + 900 * b"x\xff", [f"line 2: {100 * 'xM-^?'}", ROWS_OF_LETTERS]),
    ("h.gr", b"", ["The file is empty"]),
    ("i.min", b"p min 2 0\nn 2 1\nn 2 2\n", ["line 3: n 2 2", "Node 2 came first in line 2"]),
    ("j.max", b"p max 2 2\nn 1 s\nn 2 t\na 1 2 9223372036854775807\na 1 2 1\n", ["line 5: a 1 2 1", SUM]),
    ("k.gr", b"version https://git-lfs.github.com/spec/v1\noid sha256:0\n", ["line 1: version https://git-lfs.github"
     ".com/spec/v1", "The file is a pointer of Git LFS, and the text is missing: git lfs pull"]),
    ("l.gr", b"/annex/objects/SHA256E-s12--0.gr\n", ["line 1: /annex/objects/SHA256E-s12--0.gr",
     "The file is a pointer of git-annex, and the text is missing: git annex get"]),
    *[(f"m{at}.gr", text, [f"line 1: {text.splitlines()[0].decode()}", PAGE]) for at, text in
        enumerate([b"<!DOCTYPE html>\n", b"<HTML><body>\n", b'<?xml version="1.0"?>\n<html>'])],
    *[(f"n{at}.gr", b"p sp 2 1\n" + text + b"\na 1 2 3\n", [f"line 2: {text.decode()}", CONFLICT]) for at, text in
        enumerate([b"<<<<<<< HEAD", b"||||||| 1234567", b"=======", b">>>>>>> branch"])],
    ("o.gr", b"p sp 2 1\n==\n", ["line 2: ==", ROWS_OF_LETTERS]),
]  # fmt: skip
# Command lines that dnorm refuses, in a folder with the files t.gr and u.gr, and what dnorm-explain says of them.
WRONG_WORDS = [
    ("t.gr", "a command comes before the file: dnorm check t.gr"),
    ("chek t.gr", "dnorm has no command chek: the nearest is check"),
    ("diff t.gr u.gr", "dnorm has no command diff: the nearest is compare"),
    ("version", "dnorm has no command version: the nearest is --version"),
    ("frobnicate", "dnorm has no command frobnicate; its commands are canon, check, compare, show, help"),
    ("check t.gr u.gr", "check takes one file, and not 2; for several: dnorm-files check FILES.."),
    ("check", "check takes one file, and not 0; - is standard input"),
    ("-", "a command comes before the file: dnorm check -"),
    ("13 14", "13 NodeOutOfRange: A node is not in 1 to NODES; in a companion, below 1."),
    ("explain 13", "dnorm has no command explain: the nearest is help"),
    ("canon t.gr -o out", "canon has no option -o: it has --form"),
    ("check \udcff.gr", "dnorm takes no name that is not UTF-8: dnorm check - < $'\\xff.gr'"),
    ("canon t.gr u.gr", "canon takes one file, and not 2"),
    ("compare t.gr", "compare takes two files, and not 1; - is standard input"),
    ("check -q t.gr", "check has no option -q: it has --with"),
    ("compare --limit=3 t.gr u.gr", "compare has no option --limit: it has none but --help"),
    ("canon --form 3 t.gr", "--form takes 1 or 2, and not '3'"),
    ("canon t.gr --form", "--form takes 1 or 2, and not ''"),
    ("canon --form=1 --form 1 t.gr", "--form can be given once"),
    ("check t.gr --with", "--with takes the name of a file, and not ''"),
    ("help 13", "13 NodeOutOfRange: A node is not in 1 to NODES; in a companion, below 1."),
    ("help me", "help takes one command: canon, check, compare, show"),
]


def zipped(text: bytes) -> bytes:
    """Returns a zip archive of one file with this text."""
    archive = io.BytesIO()
    with zipfile.ZipFile(archive, "w") as file:
        file.writestr("roads.gr", text)
    return archive.getvalue()


# Texts of a file "a b", which dnorm refuses, and the last line that dnorm-explain prints of each: it has a command that
# mends the file.
MENDED = [
    (gzip.compress(ROADS), "The file is compressed by gzip: gzip -dc < a\\ b"),
    (
        bytes.fromhex("28b52ffd20") + bytes([len(ROADS)]) + (len(ROADS) << 3 | 1).to_bytes(3, "little") + ROADS,
        "The file is compressed by zstd: zstd -dc < a\\ b",
    ),
    (lzma.compress(ROADS), "The file is compressed by xz: xz -dc < a\\ b"),
    (bz2.compress(ROADS), "The file is compressed by bzip2: bzip2 -dc < a\\ b"),
    (zipped(ROADS), "The file is a zip archive: unzip -p a\\ b"),
    (b"\xef\xbb\xbf" + ROADS, "The file begins with a byte order mark: tail -c +4 < a\\ b"),
    (ROADS.decode().encode("utf-16"), "The file is in UTF-16: iconv -f UTF-16 -t UTF-8 < a\\ b"),
    (b"\xfe\xff" + ROADS.decode().encode("utf-16-be"), "The file is in UTF-16: iconv -f UTF-16 -t UTF-8 < a\\ b"),
    (ROADS.decode().encode("utf-16-le"), "The file is in UTF-16 without a mark: iconv -f UTF-16LE -t UTF-8 < a\\ b"),
    (ROADS.decode().encode("utf-16-be"), "The file is in UTF-16 without a mark: iconv -f UTF-16BE -t UTF-8 < a\\ b"),
    (ROADS.replace(b"\n", b"\r"), "CR alone ends lines: tr '\\r' '\\n' < a\\ b"),
    (ROADS + b"\x1a", "The line ends in NUL or Ctrl-Z: tr -d '\\0\\032' < a\\ b"),
    (ROADS + bytes(3), "The line ends in NUL or Ctrl-Z: tr -d '\\0\\032' < a\\ b"),
]
# The first bytes of other files, and the last line that dnorm-explain prints of them.
MARKED = [
    (b"\x1f\x9d\x90", "The file is compressed by compress: gzip -dc < a\\ b"),
    (b"\x04\x22\x4d\x18", "The file is compressed by lz4: lz4 -dc < a\\ b"),
    (b"7z\xbc\xaf\x27\x1c", "The file is an archive of 7-Zip: 7z e -so a\\ b"),
]
# What dnorm prints, and its status.
STATUSES = [
    ("", 0), ("accepted sp\nforms none\n", 0), ("differ nodes 2 3\n", 1), ("-:1: 1 BadLine\n", 2),
    ("there is no such file:end: 20 TooFewLines\n", 2), ("t: 34 CountTooLarge\n", 2), ("s.ss: 35 NotInGraph 7\n", 2),
    ("dnorm: bad command line\n", 3), ("dnorm: standard input named twice\n", 3), ("dnorm: 30 Memory\n", 4),
    ("-: 31 Read\n", 4), ("t: 32 Endless\n", 4), ("out: 33 Write\n", 4),
    ("t:1: 1 BadLine\n-: 31 Read\nt:1: 1 BadLine\n", 4),
]  # fmt: skip
REASONS = {"none": "No such file or directory", "below": "Is a directory", "secret": "Permission denied"}


def test_help() -> None:
    assert b"dnorm check FILE 2>&1 | dnorm-explain" in run([EXPLAIN, "--help"]).out


@pytest.mark.parametrize("given, status", STATUSES, ids=repr)
def test_status(given: str, status: int) -> None:
    """The status, and that each line is printed, with the sentence of its refusal below it."""
    found, wanted = run([EXPLAIN], given.encode()), ""
    for line in given.splitlines(True):
        number = re.search(r": (\d+) [A-Z]", line)
        wanted += line + (f"    {REFUSALS[int(number[1])][1]}\n" if number else "")
    told = found.out.decode().splitlines(True)
    kept = [it for it in told if not it.startswith("    ") or it.strip() in SENTENCES]
    assert ("".join(kept), found.err, found.status) == (wanted, b"", status)


def test_name_with_line_end(prefix: str) -> None:
    write("new\nline.gr", b"p sp 2 1\na 1 3 5\n")
    found = run([f"{prefix}/bin/dnorm-explain", "check", "new\nline.gr"])
    assert b"\n    line 2: a 1 3 5\n                ^\n" in found.err


def test_swapped_files() -> None:
    swapped = b"s.ss: 36 NotKinds\n    FILE is not an sp graph, or COMPANION is no companion.\n"
    hint = b"    The graph comes first, an sp text, and then the companion, an ss, p2p or co text\n"
    assert run([EXPLAIN], swapped.splitlines(True)[0]) == said(swapped + hint, b"", 2)


@pytest.mark.parametrize("text, line", MARKED, ids=repr)
def test_other_file(text: bytes, line: str) -> None:
    write("a b", text)
    assert run([EXPLAIN], b"a b:1: 1 BadLine\n").out.decode().splitlines()[-1] == f"    {line} | dnorm check -"


@pytest.mark.parametrize("name, text, lines", EXPLAINED, ids=[it[0] for it in EXPLAINED])
def test_refused_file(tested: str, name: str, text: bytes, lines: list[str]) -> None:
    write(name, text)
    told = run([tested, "check", name]).err.decode()
    found = run([EXPLAIN], told.encode())
    first, sentence, *others = found.out.decode().splitlines(True)
    number = int(re.findall(r": (\d+) ", told)[-1])
    assert (first, sentence, found.err, found.status) == (told, f"    {REFUSALS[number][1]}\n", b"", 2)
    # What tests of the package know: the mark below the line, and the row.
    others = [it[4:-1] for it in others if it.strip(" ^\n") and not re.match(r"    [a-z] [A-Z0-9|]+=", it)]
    assert others == lines


@pytest.mark.parametrize("text, line", MENDED, ids=[line for _, line in MENDED])
def test_mended_file(tested: str, folder: str, text: bytes, line: str) -> None:
    write("a b", text)
    os.symlink(tested, "dnorm")
    last = run([EXPLAIN], run([tested, "check", "a b"]).err).out.decode().splitlines()[-1]
    assert last == f"    {line} | dnorm check -"
    command = last.partition(": ")[2]
    if not shutil.which(command.split()[0]):
        leave_out(command.split()[0])
    found = run(["bash", "-c", command], env={**os.environ, "PATH": f"{folder}:{os.environ['PATH']}"})
    assert found == said(b"accepted sp\nforms none\n")


@pytest.mark.parametrize("name", REASONS)
def test_unreadable_file(name: str) -> None:
    if name == "secret" and os.geteuid() == 0:
        pass_over("a user who may not read all files")
    os.mkdir("below")
    write("secret", b"x\n")
    os.chmod("secret", 0)
    line = f"{name}: 31 Read\n"
    wanted = f"{line}    {REFUSALS[31][1]}\n    {REASONS[name]}\n"
    assert run([EXPLAIN], line.encode()) == said(wanted, b"", 4)


def test_terminal() -> None:
    """dnorm-explain does not wait for a terminal."""
    upper, lower = terminal()
    ran = subprocess.run([EXPLAIN], stdin=lower, capture_output=True, timeout=LIMIT, check=False)
    os.close(lower)
    os.close(upper)
    assert (ran.stdout, ran.returncode) == (b"", 3)
    assert b"\n    dnorm-explain WORDS..\n" in ran.stderr


def modules_below(folder: str) -> set[str]:
    """Returns the paths of the modules below a folder, and of what marks their package as typed and what it reads."""
    found = (os.path.join(at, it) for at, _, names in os.walk(folder) for it in names)
    return {os.path.relpath(it, folder) for it in found if it.endswith((".py", ".typed", ".json"))}


@pytest.fixture(scope="module")
def prefix(tested: str, tmp_path_factory: pytest.TempPathFactory) -> str:
    """The program and the package where bin/install puts them."""
    made = str(tmp_path_factory.mktemp("prefix"))
    for mode, place, to in listed():
        if place.startswith("python/") or place in ("bin/dnorm", "bin/dnorm-explain", "bin/dnorm-files"):
            make({f"{made}/{to}": bytes_of(source_of(place, tested))}, mode)
    return made


@pytest.fixture
def explained(prefix: str) -> Callable[..., Answer]:
    """Runs the installed dnorm-explain with these words, in a folder with some files."""
    write("t.gr", ROADS)
    write("u.gr", b"x\n")
    write("s.ss", b"p aux sp ss 2\ns 1\ns 7\n")
    os.mkdir("below")
    environment = {it: value for it, value in os.environ.items() if it != "PYTHONPATH"}
    return lambda words, **own: run([f"{prefix}/bin/dnorm-explain", *words.split()], env={**environment, **own})


def test_installed_modules(prefix: str, explained: Callable[..., Answer]) -> None:
    assert modules_below(f"{prefix}/share/dnorm/python") == modules_below(f"{ROOT}/python/src")
    explained("check t.gr")
    compiled = [it for _, below, _ in os.walk(prefix) for it in below if it == "__pycache__"]
    assert compiled == [], "compiled modules beside the installed ones"


@pytest.mark.parametrize("command", ["canon", "check", "compare", "show"])
def test_options(tested: str, explained: Callable[..., Answer], command: str) -> None:
    help_text = run([tested, "help", command]).out.decode()
    told = explained(f"{command} --other").err.decode().partition(": it has ")[2]
    options = set(re.findall(r"^ +(--\w+)", help_text, re.M))
    assert set(re.findall(r"--\w+", told)) - {"--help"} == options - {"--help"}


@pytest.mark.parametrize("words, line", WRONG_WORDS, ids=[repr(it[0]) for it in WRONG_WORDS])
def test_wrong_words(explained: Callable[..., Answer], words: str, line: str) -> None:
    assert explained(words) == said(b"", f"dnorm: bad command line\n    {line}\n", 3)


def test_unread_input(prefix: str) -> None:
    """Standard input is neither read nor waited for if dnorm does not read it."""
    write("u.gr", b"x\n")
    words = [f"{prefix}/bin/dnorm-explain", "check", "u.gr"]
    with subprocess.Popen(words, stdin=subprocess.PIPE, stderr=subprocess.DEVNULL) as process:
        try:
            assert process.wait(LIMIT) == 2
        finally:
            process.kill()


def test_right_words(explained: Callable[..., Answer]) -> None:
    """dnorm-explain runs dnorm, explains what it refuses, and has its status."""
    assert explained("check t.gr") == said(b"accepted sp\nforms none\n")
    lines = [
        f"u.gr:1: 1 BadLine\n    {REFUSALS[1][1]}\n    line 1: x\n            ^\n    Lines begin with p, n, a, s, q or"
    ]
    assert explained("canon u.gr") == said(b"", f"{lines[0]} v, and comments with c\n", 2)
    wanted = f"s.ss: 35 NotInGraph 7\n    {REFUSALS[35][1]}\n    line 3 names it: s 7\n"
    assert explained("check t.gr --with s.ss") == said(b"", wanted, 2)
    wanted = f"below: 31 Read\n    {REFUSALS[31][1]}\n    Is a directory\n"
    assert explained("compare t.gr below") == said(b"", wanted, 4)
