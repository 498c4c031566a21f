"""Tests `python3 -m dnorm`: its lines, reports and exit statuses, manifests, groups of files of one problem, odd names,
2,000 files in one call, the progress bar, signals, and streams that fail."""

import contextlib
import csv
import ctypes
import functools
import hashlib
import io
import json
import os
import re
import shutil
import signal
import socket
import subprocess
import sys
import time
from typing import Any
from xml.etree import ElementTree

import pytest
from known import COSTS, COSTS_TWO, ROADS, ROADS_CANON
from needs import need_here, terminal
from shared import IN_A_WAIT, LIMIT, ROOT, Answer, bytes_of, make, run, said, text_of, write
from test_calls import COMPRESS, PACKAGE, READS, python, standing_in

import dnorm
from dnorm.records import SIZES
from dnorm.refusals import REFUSALS

pytestmark = READS
ENVIRONMENT = {"PYTHONPATH": PACKAGE, "PYTHONDONTWRITEBYTECODE": "1"}
MODULE = [sys.executable, "-m", "dnorm"]
FIELD = re.compile(r"^[- ] (\w+): (?:>-\n((?: {4}.*\n)+)|(.*)$)", re.M)


def fields_of_hook() -> dict[str, str]:
    """Returns the fields of the hook for pre-commit. One that has several lines is joined by blanks."""
    need_here("./.pre-commit-hooks.yaml")
    found = FIELD.findall(text_of(f"{ROOT}/.pre-commit-hooks.yaml"))
    return {name: value.strip("'") or " ".join(lines.split()) for name, lines, value in found}


def module(*words: str | bytes, **more: Any) -> Answer:
    """Runs `python3 -m dnorm` with these arguments."""
    return run([*MODULE, *words], env={**os.environ, **ENVIRONMENT}, **more)


def make_clone(place: str, program: str = "") -> str:
    """Makes the folder `clone` with the commands and the package of this repository, and with the library and perhaps a
    program in this folder of it. Returns its path."""
    for it in ["bin", "python"]:
        shutil.copytree(f"{ROOT}/{it}", f"clone/{it}", ignore=shutil.ignore_patterns("__pycache__", "tests"))
    os.makedirs(f"clone/{place}")
    shutil.copy(os.environ["DNORM_LIBRARY"], f"clone/{place}")
    if program:
        os.symlink(program, f"clone/{place}/dnorm")
    return os.path.abspath("clone")


def prints(words: str | list[str], out: str, err: str = "", status: int = 0, **more: Any) -> None:
    """`python3 -m dnorm` prints this with these arguments, and ends with this status."""
    found = module(*(words.split() if isinstance(words, str) else words), **more)
    assert found == said(out, err, status), words


def started(*words: str, **more: Any) -> "subprocess.Popen[bytes]":
    """Starts `python3 -m dnorm` with these arguments."""
    return subprocess.Popen([*MODULE, *words], env={**os.environ, **ENVIRONMENT}, **more)


# The files of a folder with what a check says of them, in the order of their names; and other files in it.
SET: dict[str, tuple[bytes, str]] = {
    "set/a-b.gr": (ROADS_CANON, ": accepted sp"), "set/a/b/roads.sp": (ROADS, ": accepted sp"),
    "set/a/flow.min": (COSTS_TWO, ": accepted min"), "set/a/x.GR": (ROADS, ": accepted sp"),
    "set/bad.max": (b"p max 2 1\nn 1 s\na 1 2 5\n", ":end: 19 MissingTerminal"),
    "set/flow.min": (COSTS, ": accepted min"), "set/p.p2p": (b"p aux sp p2p 0\n", ": accepted p2p"),
    "set/roads.gr": (ROADS, ": accepted sp"), "set/roads.gr.bz2": (ROADS, ": accepted sp"),
    "set/roads.gr.gz": (ROADS, ": accepted sp"), "set/roads.gr.xz": (ROADS, ": accepted sp"),
    "set/s.ss": (b"p aux sp ss 1\ns 1\n", ": accepted ss"), "set/v.co": (b"p aux sp co 1\ns 1\n", ":2: 5 WrongLine"),
}  # fmt: skip
OTHERS = ["set/notes.txt", "set/gr", "none/below/notes.txt", "set/.git/x.gr", "set/a/.svn/x.gr"]
LINES = "".join(f"{name}{what}\n" for name, (_, what) in SET.items())
LINES_A = LINES[LINES.index("set/a/") : LINES.index("set/bad")]
MISSING = "missing: 31 Read (No such file or directory)\n"
NAMES_OTHERS = "; --ending names other endings)"
NONE = f"none: 31 Read (no file in it ends in .gr .sp .min .max .ss .p2p .co{NAMES_OTHERS}\n"
# What follows the lines of refused files where they are printed again.
TERMINAL = "Add the line n ID s or n ID t, before the arcs"
SENTENCES = {number: f"    {sentence}\n" for number, (_, sentence) in REFUSALS.items()}
LETTERS = "Lines begin with p, n, a, s, q or v, and comments with c"
X = f"{SENTENCES[1]}    line 1: x\n            ^\n    {LETTERS}\n"
BAD = X.replace(" x\n", " bad\n").replace("^", "^^^")
WRONG_LETTER = "The lines of co are p aux sp co K; v ID X Y"
CAUSES = {"v.co:2": f"{SENTENCES[5]}    line 2: s 1\n            ^\n    {WRONG_LETTER}\n", "gr:1": X, "notes.txt:1": X}
CAUSES["bad.max:end"] = f"{SENTENCES[19]}    {TERMINAL}\n"
# The other files of the set, and why they are not looked at.
NO_ENDING = "its name does not end like that of a DIMACS text"
NOT_LOOKED_AT = {
    "set/a/loop.gr": "it is a link to a folder, which is not followed",
    "set/gr": NO_ENDING,
    "set/notes.txt": NO_ENDING,
    "set/pipe": NO_ENDING,
}
STRICT_LINES = [*LINES.splitlines(True), *(f"{name}: 31 Read ({why})\n" for name, why in NOT_LOOKED_AT.items())]
STRICT = "".join(sorted(STRICT_LINES, key=lambda it: it.partition(":")[0]))
# The lines that count other files: all of the set, and those in set/a.
FOUR = "\n4 other files: no ending 2, .txt 1, links to folders 1; --strict refuses them"
LINK = "\n1 other file: links to folders 1; --strict refuses them"
THREE = "\n3 other files: no ending 2, .txt 1; --strict refuses them"
NOTES = "\n1 other file: .txt 1; --strict refuses them"
FIVE = FOUR.replace("4 other", "5 other").replace("no ending 2, .txt 1", ".txt 2, no ending 2")
SIXTEEN = "\n16 other files: .gr 3, .min 2, no ending 2, .bz2 1, .co 1, .gz 1, more 6; --strict refuses them"
# Arguments of `check`, the lines and the count that it prints, and the status.
CHECKS = [
    ("set", LINES, f"11 accepted, 2 refused, 0 failed{FOUR}", 2),
    ("set set/roads.gr set", LINES, f"11 accepted, 2 refused, 0 failed{FOUR}", 2),
    ("--strict set", STRICT, "11 accepted, 2 refused, 4 failed", 4),
    ("--strict --exclude gr --exclude *.txt --exclude *pipe* --exclude a/l* --exclude bad.max --exclude v.co set",
        LINES.replace("set/bad.max:end: 19 MissingTerminal\n", "").replace("set/v.co:2: 5 WrongLine\n", ""),
        "11 accepted, 0 refused, 0 failed, 6 excluded", 0),
    ("--exclude a --exclude *.gr* --exclude *.?o set", "set/bad.max:end: 19 MissingTerminal\nset/flow.min: accepted min"
        "\nset/p.p2p: accepted p2p\nset/s.ss: accepted ss\n",
        f"3 accepted, 1 refused, 0 failed, 7 excluded{THREE}", 2),
    ("set/a", LINES_A, f"3 accepted, 0 refused, 0 failed{LINK}", 0),
    ("set/a set/s.ss", f"{LINES_A}set/s.ss: accepted ss\n", f"4 accepted, 0 refused, 0 failed{LINK}", 0),
    ("set/gr set/a", f"{LINES_A}set/gr:1: 1 BadLine\n", f"3 accepted, 1 refused, 0 failed{LINK}", 2),
    ("set/s.ss set/gr", "set/gr:1: 1 BadLine\nset/s.ss: accepted ss\n", "1 accepted, 1 refused, 0 failed", 2),
    ("missing set/s.ss", f"{MISSING}set/s.ss: accepted ss\n", "1 accepted, 0 refused, 1 failed", 4),
    ("missing", MISSING, "0 accepted, 0 refused, 1 failed", 4),
    ("none", NONE, f"0 accepted, 0 refused, 1 failed{NOTES}", 4),
    ("none set", NONE + LINES, f"11 accepted, 2 refused, 1 failed{FIVE}", 4),
    ("--ending .TXT --ending=.zip set", "set/notes.txt:1: 1 BadLine\n",
        f"0 accepted, 1 refused, 0 failed{SIXTEEN}", 2),
    ("--ending .x none", f"none: 31 Read (no file in it ends in .x{NAMES_OTHERS}\n",
        f"0 accepted, 0 refused, 1 failed{NOTES}", 4),
    ("-- set/s.ss", "set/s.ss: accepted ss\n", "1 accepted, 0 refused, 0 failed", 0),
]  # fmt: skip
COMMANDS = ["check", "manifest", "same", "list", "compare", "canon", "show", "look"]
# Numbers of Linux.
PR_CAPBSET_DROP, CAP_DAC_OVERRIDE, CAP_DAC_READ_SEARCH = 24, 1, 2
# Arguments that are refused.
NO_SECONDS = ["inf", "nan", "-1", "-inf", "1e400", "1000000001", "x", "''"]
WRONG = [
    *["", "x", "check", "check --jobs 0 set", "check --jobs x set", "check --jobs", "check --js set"],
    *["check --form 2 set", "check --junit", "check --timeout 0 set", "check --json --output-format github set"],
    *[f"{it} --timeout {seconds} set" for it in ("check", "list", "compare set") for seconds in NO_SECONDS],
    *[f"check --jobs {it} set" for it in ("nan", "-1", "1.5", "1e3")],
    *["look", "look set set set", "look --since x set set", "look --timeout 0 set"],
    *["check --output-format xml set", "check --csv set", "check --files0-from", "check --files0-from - -"],
    *["check --staged=x set", "check --staged -q", "check --incremental x set", "manifest --staged"],
    *["manifest", "manifest --form 3 set", "manifest --verify x --form 2", "manifest --verify x --output y"],
    *["manifest --verify x --incremental y", "manifest --output x --incremental y z"],
    *["manifest -q set", "manifest --junit x set", "same", "same --csv x", "same -q x", "same --companions x"],
    *["list", "list --csv --json x", "compare", "compare x", "compare x y z", "compare --limit x y z",
        "compare --limit -1 x y", "compare - -", "compare -q --json x y", "check --output-format sarif x",
        "version", "conformance", "13", "canon", "canon x y", "canon --form 3 x", "--foo", "--jobs 2",
        "check --foo set", "check - --files-from -", "manifest --verify - --files0-from -", "look --since - -"],
    *[f"{it} {name}" for it in ("check --junit", "manifest --output", "manifest --incremental")
        for name in ("set/roads.gr set", "x.MIN.gz set", "to-text set")], "manifest --incremental - set",
]  # fmt: skip


def make_set() -> None:
    """Makes the files of the folder, and others that a check of the folder leaves out."""
    make({name: COMPRESS.get(os.path.splitext(name)[1], bytes)(text) for name, (text, _) in SET.items()})
    make(dict.fromkeys(OTHERS, b"x\n"))
    os.symlink("..", "set/a/loop.gr")
    os.mkfifo("set/pipe")


def again(lines: str) -> str:
    """Returns the lines of refused and failed files as they are printed again, with their causes. A failure alone has
    none, and is not printed again."""
    found = [it for it in lines.splitlines(True) if ": accepted " not in it]
    causes = [next((cause for name, cause in CAUSES.items() if f"/{name}:" in it), "") for it in found]
    return "" if lines in found and not any(causes) else "".join(f"{it}{cause}" for it, cause in zip(found, causes))


@pytest.mark.parametrize("words, out, count, status", CHECKS, ids=[it[0] for it in CHECKS])
def test_check(words: str, out: str, count: str, status: int) -> None:
    """Which files are checked, in which order, and the statuses."""
    make_set()
    prints(f"check {words}", out, f"{again(out)}{count}\n", status)
    quiet = "".join(it for it in out.splitlines(True) if ": accepted " not in it)
    prints(["check", "-q", *words.split()], quiet, f"{count}\n", status)


def test_check_here() -> None:
    make_set()
    lines, count = LINES.replace("set/", "./"), f"11 accepted, 2 refused, 0 failed{FOUR}\n"
    prints("check .", lines, again(lines) + count, 2, cwd="set")


@pytest.mark.parametrize("words", WRONG)
def test_wrong_words(words: str) -> None:
    make_set()
    os.symlink("set/new.gr", "to-text")
    found = module(*words.split())
    command = f"{words.split()[0]} " if words.split()[:1] and words.split()[0] in COMMANDS else ""
    begin = f"dnorm-files {command}".strip().encode() + b": "
    assert (found.out, found.status, found.err[: len(begin)], found.err.count(b"\n")) == (b"", 3, begin, 1)


@pytest.mark.parametrize("words", ["-h", "--help", *(f"{it} {way}" for it in COMMANDS for way in ("-h", "--help"))])
def test_help(words: str) -> None:
    found = module(*words.split())
    assert (found.err, found.status, b"exit statuses:" in found.out) == (b"", 0, True)


def give_up_rights() -> None:
    """Gives up the rights by which root reads all files, from the next program on."""
    if os.geteuid() == 0:
        for right in [CAP_DAC_OVERRIDE, CAP_DAC_READ_SEARCH]:
            ctypes.CDLL(None).prctl(PR_CAPBSET_DROP, right, 0, 0, 0)


def test_permission() -> None:
    """Files and folders that may not be read."""
    make_set()
    os.chmod("set/a/b", 0)
    os.chmod("set/s.ss", 0)
    no = ": 31 Read (Permission denied)\n"
    lines = f"set/a/b{no}set/a/flow.min: accepted min\nset/a/x.GR: accepted sp\nset/s.ss{no}"
    count = f"2 accepted, 0 refused, 2 failed{LINK}\n"
    prints("check set/a set/s.ss", lines, again(lines) + count, 4, preexec_fn=give_up_rights)
    make({"mute/d.gr": ROADS, "mute/d.ss": b"p aux sp ss 1\ns 9\n", "mute/e.ss": b"p aux sp ss 1\ns 9\n"})
    os.chmod("mute", 0o311)
    words = ["check", "--companions", "mute/d.gr", "mute/d.ss", "mute/e.ss"]
    found = module(*words, preexec_fn=give_up_rights)
    lines = "mute/d.gr: accepted sp\nmute/d.ss: 35 NotInGraph 9\nmute/e.ss: accepted ss, no graph\n"
    assert (found.out.decode(), found.status) == (lines, 2), "a graph in a folder that cannot be listed"
    os.chmod("mute", 0o755)
    os.chmod("set/a/b", 0o755)


# Links in a folder `set/below` that lead out of it, with what they lead to, {} being the folder of the test; and links
# that do not.
LEAD_OUT = {
    "env.gr": "/proc/self/environ", "secret.gr": "{}/secret", "near.gr": "../secret", "pipe.gr": "../pipe",
    "socket.gr.gz": "../socket", "zero.gr": "/dev/zero", "text.gr": "../beside.gr", "by.gr": "sub/up/../../secret",
    "by-folder.gr": "out.gr/secret", "by-link.gr": "near.gr", "git.gr": ".git/config", "v.gr": "{}/pipe",
    "w.gr": "/dev/zero",
}  # fmt: skip
LEAD_IN = {"in.gr": "{}/set/below/own.gr", "around.gr": "../below/sub/up/own.gr", "annex.gr": ".git/annex/objects/x.gr"}


@pytest.mark.parametrize("words", ["check", "check --companions", "manifest", "list", "same", "look", "by pre-commit"])
def test_bounds(folder: str, words: str) -> None:
    """No command opens what a link in a folder leads to outside of it: it would print a secret, or not end."""
    make(
        {"set/secret": b"undisclosed\n", "set/beside.gr": ROADS, "set/below/own.gr": ROADS, "set/below/sub/x.gr": ROADS}
    )
    make({"set/below/.git/config": b"undisclosed\n", "set/below/.git/annex/objects/x.gr": ROADS})
    make({"set/below/v.ss": b"p aux sp ss 0\n", "set/below/w.ss": b"p aux sp ss 0\n", "secret": b"undisclosed\n"})
    os.chmod("secret", 0o600)
    for pipe in ["pipe", "set/pipe"]:
        os.mkfifo(pipe)
    with socket.socket(socket.AF_UNIX) as it:
        it.bind("set/socket")
    links = {"sub/up": "..", "out.gr": folder, "away": "{}/set", **LEAD_OUT, **LEAD_IN}
    for name, to in links.items():
        os.symlink(to.format(folder), f"set/below/{name}")
    os.chdir("set/below")
    named = sorted(LEAD_OUT) + sorted(LEAD_IN) + ["v.ss", "w.ss", "out.gr", "own.gr", "sub/x.gr", "away/beside.gr"]
    if words == "look":
        need_here("web/")
    if words == "by pre-commit":
        found = run([f"{ROOT}/{fields_of_hook()['entry']}", *named], env={**os.environ, **ENVIRONMENT})
    else:
        found = module(*words.split(), ".")
    out = (found.out + found.err).decode()
    assert "undisclosed" not in out and "PATH=" not in out and found.status == 4, out
    if words != "look":
        named = re.findall(r"^(?:\./)?(\S+\.gr\S*): 31 Read \((?:it leads out of the folder|it is neither)", out, re.M)
        assert sorted({*named} - {"away/beside.gr"}) == sorted(LEAD_OUT), out
        assert ("away/beside.gr" in named) is (words == "by pre-commit"), out
    if words == "check --companions":
        assert all(f"./{it}.ss: accepted ss, graph not accepted: ./{it}.gr\n" in out for it in "vw")
        followed = module("check", "-q", "--follow", "--companions", ".", limit=30).out.decode()
        assert all(f"./{it}.gr:1: 1 BadLine\n" in followed for it in ("secret", "git")), "links that are followed"
        assert "./text.gr" not in followed, "links that are followed"
        assert module("check", "-q", "secret.gr", "text.gr").out == b"secret.gr:1: 1 BadLine\n", "links that are named"
        records = {it.name: it.status for it in dnorm.check_folder(".").records}
        assert {name for name, it in records.items() if it == "failed"} == {f"./{it}" for it in LEAD_OUT}


# Names of files, and how lines begin with them.
ODD = {
    os.fsdecode(b"\xff\xfe.gr"): os.fsdecode(b"\xff\xfe.gr"), " .gr": " .gr", "-x.gr": "-x.gr", "a b.gr": "a b.gr",
    "a:7: 9 NotANumber.gr": "a:7: 9 NotANumber.gr", "x\ny.gr": r"\x\ny.gr", "x\r.gr": r"\x\r.gr",
    r"x\ny.gr": r"\x\\ny.gr", "B.gr": "B.gr", 'é<&\x01">.gr': 'é<&\x01">.gr', 'e",.gr': 'e",.gr',
}  # fmt: skip


def test_odd_names() -> None:
    """Odd names in lines, in JSON, in CSV, in the XML of JUnit, in manifests and in groups."""
    names = sorted(ODD, key=os.fsencode)
    for at, name in enumerate(names):
        write(name, f"p sp {at // 2} 0\n")
    count = f"{len(ODD)} accepted, 0 refused, 0 failed\n"
    accepted = "".join(f"{ODD[it]}: accepted sp\n" for it in names)
    prints(["check", "--", *names], accepted, count)
    found = module("check", "--json", "--", *names)
    told = [json.loads(it)["name"] for it in found.out.splitlines()[:-1]]
    assert told == names, "odd names in JSON"
    listed = io.StringIO(os.fsdecode(module("list", "--csv", "--", *names).out), newline="")
    assert [(it["name"], it["kind"]) for it in csv.DictReader(listed)] == [(it, "sp") for it in names], "in CSV"
    module("check", "--junit", "report", "--", *names)
    cases = [str(it.get("name")) for it in ElementTree.parse("report").iter("testcase")]
    wanted = [os.fsencode(it).decode("utf-8", "backslashreplace").replace("\x01", r"\x01") for it in names]
    assert cases == wanted, "odd names in XML"
    prints(["manifest", "--output", "list", "--", *names], "", f"{len(ODD)} listed, 0 refused, 0 failed\n")
    same = "".join(f"{ODD[it]}: same\n" for it in names)
    prints("manifest --verify list", same, f"{len(ODD)} the same, 0 different, 0 refused, 0 failed\n")
    pairs = ["".join(f"{ODD[it]}\n" for it in names[at : at + 2]) for at in range(0, len(names) - 1, 2)]
    prints(["same", "--", *names], "\n".join(pairs), count.replace("\n", ", 5 groups\n"))


def test_reports() -> None:
    """The lines of JSON, and the report in the XML of JUnit."""
    make_set()
    found = module("check", "--json", "--junit", "report", "set", "missing")
    assert (found.err, found.status) == (f"11 accepted, 2 refused, 1 failed{FOUR}\n".encode(), 4), "--json"
    records = [json.loads(it) for it in found.out.splitlines()]
    names = sorted(["missing", *SET])
    assert [it["name"] for it in records[:-1]] == names, "names in JSON"
    ended: dict[str, object] = {"accepted": 11, "refused": 2, "failed": 1}
    ended |= dict.fromkeys(("without_graph", "graph_not_accepted", "other_kind", "excluded"), 0)
    ended |= {"other_files": 4, "status": 4, "form": 1, "unfinished": None}
    assert records[-1] == {"summary": ended}, "the counts in JSON"
    of = {it["name"]: it for it in records[:-1]}
    assert all(it.pop("seconds") > 0 for name, it in of.items() if name != "missing"), "seconds"
    nothing = dict.fromkeys(
        ["kind", "forms", "error", "line", "number", "word", "sentence", "text", "mark", "hint", "graphs"]
    )
    nothing |= {"not_accepted": None, "remarks": [], "checksum": None, **dict.fromkeys(SIZES)}
    wanted: dict[str, object] = {**nothing, "name": "set/a-b.gr", "status": "accepted", "kind": "sp", "nodes": 3}
    wanted |= {"forms": [1, 2], "bytes": len(ROADS_CANON), "declared": 5, "canonical": 5, "merged": 0}
    wanted |= {"self_loops": 1, "checksum": hashlib.sha256(ROADS_CANON).hexdigest()}
    assert of["set/a-b.gr"] == wanted, "an accepted file in JSON"
    wanted = {**nothing, "name": "set/bad.max", "status": "refused", "error": "set/bad.max:end: 19 MissingTerminal"}
    wanted |= {"number": 19, "word": "MissingTerminal", "sentence": "A max file has no source or no sink."}
    wanted |= {"hint": TERMINAL}
    assert of["set/bad.max"] == wanted, "a refused file in JSON"
    found_ = [of["set/v.co"][it] for it in ("line", "text", "mark")]
    assert found_ == [2, "s 1", [0, 1]], "the line of a fault in JSON"
    wanted = {**nothing, "name": "missing", "status": "failed", "error": MISSING[:-1], "seconds": 0}
    assert {**of["missing"], "seconds": 0} == wanted, "a missing file in JSON"
    suite = ElementTree.parse("report").find("testsuite")
    assert suite is not None
    times = [float(it.attrib.pop("time")) for it in [*suite, suite]]
    assert all(it > 0 for it in times[1:]) and abs(sum(times[:-1]) - times[-1]) < 0.01, f"times in XML: {times}"
    assert suite.attrib == {"name": "dnorm", "tests": "14", "failures": "2", "errors": "1"}, "JUnit"
    cases = {it.get("name"): [(one.tag, one.attrib, one.text) for one in it] for it in suite}
    bad = {"type": "MissingTerminal", "message": "set/bad.max:end: 19 MissingTerminal"}
    refused = [("failure", bad, f"A max file has no source or no sink.\n{TERMINAL}")]
    assert cases["set/bad.max"] == refused, "a refused file in XML"
    lost = {"type": "Read", "message": MISSING[:-1]}
    told = "\n".join(it[4:] for it in CAUSES["v.co:2"].splitlines())
    assert cases["set/v.co"][0][2] == told, "a refused line in XML"
    assert (cases["missing"], cases["set/a-b.gr"]) == ([("error", lost, None)], []), "other files in XML"
    for name, reason in {"/dev/full": "No space left on device", "no/x": "No such file or directory"}.items():
        found = module("check", "--junit", name, "set/a")
        assert (found.err, found.status) == (f"{name}: 33 Write ({reason})\n".encode(), 4), f"a report in {name}"


# Runs dnorm-files with these arguments, in a process that lets so many threads start.
FEW_THREADS = """
import sys, threading
from dnorm.commands.line import main
start, left = threading.Thread.start, int(sys.argv.pop(1))
def begin(thread):
    global left
    if not left:
        raise RuntimeError("can't start new thread")
    left -= 1
    start(thread)
threading.Thread.start = begin
sys.exit(main())
"""


def test_few_threads() -> None:
    """All files are checked, in their order, where the system lets few threads start or none, or has little memory."""
    make_set()
    wanted, own = module("check", "set"), {**os.environ, **ENVIRONMENT}
    for most in "013":
        assert python(FEW_THREADS, most, "check", "-j", "4", "set") == wanted, most
    for kilobytes in [50_000, 60_000]:
        command = ["bash", "-c", f'ulimit -v {kilobytes}; exec "$@"', "bash", *MODULE, "check", "-j", "4", "set"]
        found = run(command, env=own)
        assert b"Traceback" not in found.err, f"no traceback in {kilobytes} kB: {found.err!r}"


def test_many() -> None:
    """2,000 files in one call, of which each hundredth is refused."""
    os.mkdir("many")
    names = sorted(f"many/{it}.gr" for it in range(2000))
    bad = set(names[::100])
    for at, name in enumerate(names):
        write(name, f"p sp 9 2\na 1 {at % 9 + 1} {at}\na 1 2 {'x' if name in bad else 3}\n")
    lines = "".join(f"{it}:3: 9 NotANumber\n" if it in bad else f"{it}: accepted sp\n" for it in names)
    told = [it for it in lines.splitlines() if "accepted" not in it]
    cause = f"{SENTENCES[9]}    line 3: a 1 2 x\n                  ^\n    a SRC=1 DST=2 LENGTH=x\n"
    causes = [f"{cause}    Nodes have numbers from 1 on, and no names; no field has a name\n" for _ in told]
    end = "".join(f"{it}\n{cause}" for it, cause in zip(told, causes))
    prints("check many", lines, f"{end}1980 accepted, 20 refused, 0 failed\n", 2)


def on_terminal(*words: str) -> tuple[str, int]:
    """Runs a command on a terminal. Returns what it writes there, and its status."""
    upper, lower = terminal()
    process, told = started(*words, stdout=lower, stderr=lower), b""
    os.close(lower)
    with contextlib.suppress(OSError):
        while piece := os.read(upper, 4096):
            told += piece
    os.close(upper)
    return told.decode().replace("\r\n", "\n"), process.wait(LIMIT)


def test_progress(stand_in: str) -> None:
    """The progress bar, which is drawn on a terminal only, and its removal before each line."""
    names = [f"{it}.gr" for it in range(4)]
    make(dict.fromkeys(names, ROADS))
    with standing_in(stand_in, WAIT=300):
        told, status = on_terminal("check", "--jobs", "1", *names)
    assert status == 0, "the status on a terminal"
    bars = re.findall(r"\r\[(#*)\.*\] (\d) of 4, \d+ %", told)
    shares = [int(it) for it in re.findall(r"of 4, (\d+) %", told)]
    assert shares == sorted(shares) and shares[:1] < [50] and shares[-1:] > [50], f"shares rise: {shares}"
    assert {len(it) for it, _ in bars} == {30 * int(at) // 4 for _, at in bars}, "bars on a terminal"
    assert bars, "there are bars on a terminal"
    wanted = [*(f"{it}: accepted sp" for it in names), "4 accepted, 0 refused, 0 failed", ""]
    assert [it.rpartition("\r")[2] for it in told.split("\n")] == wanted, "lines on a terminal"


def test_together(stand_in: str) -> None:
    """As many files are read at once as was asked for."""
    names = [f"{it}.gr" for it in range(9)]
    make(dict.fromkeys(names, ROADS))
    for jobs in [1, 3]:
        write("log", "")
        with standing_in(stand_in, WAIT=300, LOG="log"):
            module("check", "--jobs", str(jobs), *names)
        steps = [1 if it == b"+" else -1 for it in bytes_of("log").split()]
        most = max(sum(steps[:at]) for at in range(len(steps) + 1))
        assert (most, len(steps)) == (jobs, 18), f"files at once with --jobs {jobs}"


RUNS = ["check", "check --junit kept", "manifest --output kept", "manifest", "same", "manifest --verify list"]


def test_signals(stand_in: str) -> None:
    """A signal ends a run, and leaves nothing half-written."""
    names = [f"{it}.gr" for it in range(9)]
    make(dict.fromkeys(names, ROADS))
    write("list", "# form 1\n" + "".join(f"{'0' * 64}  {it}\n" for it in names))
    for words in RUNS:
        for number in [signal.SIGINT, signal.SIGTERM, signal.SIGHUP, signal.SIGQUIT]:
            write("log", b"")
            write("kept", b"old")
            paths = names if "--verify" not in words else []
            with standing_in(stand_in, WAIT=60_000, LOG="log"):
                process = started(*words.split(), "--jobs", "2", *paths, stdout=-1, stderr=-1)
            while len(bytes_of("log")) < 4 and process.poll() is None:
                time.sleep(0.01)
            process.send_signal(number)
            out, err = process.communicate(timeout=LIMIT)
            done = "the same" if "--verify" in words else "listed" if words.startswith("manifest") else "accepted"
            line = f"0 {done}, 0 refused, 0 failed, 0 of 9 done\n".encode()
            assert (out, err, process.returncode) == (b"", line, -number), f"{words} after {number.name}"
            assert (bytes_of("kept"), hidden()) == (b"old", []), f"{words} leaves"
    write("log", b"")
    with standing_in(stand_in, WAIT=500, LOG="log"):
        ignores = functools.partial(signal.signal, signal.SIGHUP, signal.SIG_IGN)
        ignoring = started("check", names[0], stdout=-1, stderr=-1, preexec_fn=ignores)
    while not bytes_of("log"):
        time.sleep(0.01)
    ignoring.send_signal(signal.SIGHUP)
    ignoring.communicate(timeout=LIMIT)
    assert ignoring.returncode == 0, "a signal that is ignored, as by nohup"


@pytest.mark.parametrize("words", ["check a.gr", "compare a.gr a.gr", "compare --timeout 60 a.gr pipe"])
def test_signal_as_a_thread_starts(stand_in: str, words: str) -> None:
    """A signal ends a run also where `threading` makes an error of its own of it."""
    make({"a.gr": ROADS})
    # Nothing writes it.
    os.mkfifo("pipe")
    with standing_in(stand_in, WAIT=200 if "compare" in words else 60_000):
        ran = python(IN_A_WAIT.format("dnorm.commands.line"), *words.split(), limit=30)
    told = b"" if "compare" in words else b"0 accepted, 0 refused, 0 failed, 0 of 1 done\n"
    assert ran == Answer(b"", told, -signal.SIGTERM)


def test_known_so_far(stand_in: str) -> None:
    """A signal lets a check print what is known, also of files behind one that takes long; and that -x ends
    a check after the first fault."""
    names = [f"{it}.gr" for it in range(6)]
    make(dict.fromkeys(names, ROADS))
    os.remove("1.gr")
    # Nothing writes it.
    os.mkfifo("1.gr")
    write("3.gr", b"bad\n")
    for number in [signal.SIGINT, signal.SIGTERM]:
        write("log", "")
        with standing_in(stand_in, LOG="log"):
            process = started("check", "--jobs", "2", *names, stdout=-1, stderr=-1)
        while bytes_of("log").count(b"-") < 4 and process.poll() is None:
            time.sleep(0.01)
        # The last file may not have ended.
        time.sleep(0.3)
        process.send_signal(number)
        out, err = process.communicate(timeout=LIMIT)
        lines = [f"{it}: accepted sp\n" for it in names if it not in ("1.gr", "3.gr")]
        lines.insert(2, "3.gr:1: 1 BadLine\n")
        cause = f"3.gr:1: 1 BadLine\n{BAD}4 accepted, 1 refused, 0 failed, 5 of 6 done\n"
        wanted = ("".join(lines).encode(), cause.encode(), -number)
        assert (out, err, process.returncode) == wanted, f"what is known at {number.name}"
    os.remove("1.gr")
    write("1.gr", ROADS)
    for option in ["-x", "--exit-first"]:
        lines = [*(f"{it}.gr: accepted sp\n" for it in range(3)), "3.gr:1: 1 BadLine\n"]
        cause = f"3.gr:1: 1 BadLine\n{BAD}3 accepted, 1 refused, 0 failed, 4 of 6 done\n"
        prints(["check", option, *names], "".join(lines), cause, 2)
    prints("check -x 0.gr 1.gr", "0.gr: accepted sp\n1.gr: accepted sp\n", "2 accepted, 0 refused, 0 failed\n")


def hidden() -> list[str]:
    """Returns the hidden files of this folder."""
    return [it for it in os.listdir(".") if it.startswith(".")]


# Commands that print.
PRINTING = ["check set/a", "check --json set/a", "manifest set/a", "manifest --verify list"]
PRINTING += ["same set/roads.gr set/a-b.gr"]


def by_shell(text: str, given: bytes = b"") -> Answer:
    """Runs a command of a shell, in which `dnorm` is `python3 -m dnorm`."""
    environment = {**os.environ, **ENVIRONMENT, "PYTHON": sys.executable}
    return run(["bash", "-c", f'dnorm() {{ "$PYTHON" -m dnorm "$@"; }}; {text}'], given, env=environment)


def timeless(text: bytes) -> bytes:
    """Returns records without their times."""
    return re.sub(rb'"seconds": [0-9.e-]+', b"", text)


@pytest.mark.parametrize("words", PRINTING)
def test_outputs(words: str) -> None:
    """Streams that are closed, full or broken."""
    make_set()
    module("manifest", "--output", "list", "set/s.ss")
    for to, reason in [("> /dev/full", " (No space left on device)"), (">&-", "")]:
        assert by_shell(f"dnorm {words} {to}") == said("", f"out: 33 Write{reason}\n", 4), to
    reading, writing = os.pipe()
    os.close(reading)
    process = started(*words.split(), stdout=writing, stderr=subprocess.PIPE)
    os.close(writing)
    err = process.communicate(timeout=LIMIT)[1]
    assert (err, process.returncode) == (b"", -signal.SIGPIPE), "unread"
    right = module(*words.split())
    for to in ["2>&-", "2> /dev/full", "<&-", "<&- 2>&-"]:
        found = by_shell(f"dnorm {words} {to}")
        assert (timeless(found.out), found.status) == (timeless(right.out), right.status), to


def test_all_streams() -> None:
    make_set()
    assert by_shell("dnorm check set/a <&- >&- 2>&-") == said("", "", 4), "nothing open"
    words = ["-X", "dev", "-W", "error", *MODULE[1:], "check", "set/a"]
    warned = run([sys.executable, *words], env={**os.environ, **ENVIRONMENT})
    assert (warned.err, warned.status) == (f"3 accepted, 0 refused, 0 failed{LINK}\n".encode(), 0), "with all warnings"


def test_no_library(stand_in: str) -> None:
    """A library that is missing, and one that runs out of memory."""
    make_set()
    for words in [["check", "set"], ["manifest", "set"], ["same", "set"]]:
        with standing_in("/none"):
            found = module(*words)
        is_told = found.err.startswith(b"/none: cannot be used (/none: cannot open shared object file")
        assert (found.out, is_told, found.err.count(b"\n"), found.status) == (b"", True, 1, 4), f"{words} by no library"
    lines = "set/a-b.gr: 30 Memory\nset/roads.gr: 30 Memory\n"
    with standing_in(stand_in, CODE=30):
        prints("check set/roads.gr set/a-b.gr", lines, f"{again(lines)}0 accepted, 0 refused, 2 failed\n", 4)
