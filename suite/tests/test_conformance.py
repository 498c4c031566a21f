"""The conformance suite in suite: its answers are those of reading.py; the cases find each mistake of
mutants.py that changes an answer; what each level of run.py compares, and what it does with readers that fail."""

import contextlib
import importlib
import json
import os
import random
import re
import shlex
import shutil
import signal
import subprocess
import sys
import time
from typing import NoReturn
from xml.etree import ElementTree

import mutants
import pytest
from needs import leave_out, terminal
from shared import LIMIT, ROOT, Answer, bytes_of, run, said, text_of, write
from suite import FOLDER, answer, cases, released, texts, told

pytestmark = pytest.mark.slow
RUN = f"{FOLDER}/run.py"
# Readers in sh, made of the program P: what each does, the level that it passes, and the rules with which it is tried.
READERS = [
    ("refuses without a line", '[ "$1" = check ] && exec "$P" "$@" 2> /dev/null', "accept"),
    ("names no refusal", 't=$("$P" "$@" 2>&1) && echo "$t" || { echo "${t%% *} fault" >&2; exit 2; }', "line"),
    ("fails after a canonical text", '"$P" "$@" || exit; [ "$1" != canon ] || exit 1', "refusal"),
    ("has no canonical texts", '[ "$1" = check ] && exec "$P" "$@"', "refusal"),
    ("does not compare", 'case "$*" in compare* | *--with*) ;; *) exec "$P" "$@" ;; esac', "canon"),
    ("warns before a refusal", 'echo "reading" >&2; exec "$P" "$@"', "compare"),
    ("tells more", '"$P" "$@" && { [ "$1" != check ] || echo more; }', "compare"),
]
TRIED = ["form", "refusal-4", "differ", "fit"]
# Readers that fail, in sh, with a part of what run.py prints.
FAILING = [
    ("does nothing", "exit 0", "first-min: a `min` text with a supply and a demand"),
    ("does nothing", "exit 0", " printed '', status 0; expected 'accepted min' and status 0"),
    ("ends by a signal", "kill -9 $$", " printed '', ended by signal 9; expected"),
    ("does not end", "exec sleep 60", "10 calls did not end within 0.3 seconds, and the other cases are not tried"),
    ("leaves a process that does not end", "sleep 60 & exit 0", "10 calls did not end within 0.3 seconds"),
    ("closes its streams and does not end", "exec sleep 60 > /dev/null 2>&1",
        "10 calls did not end within 0.3 seconds"),
    ("prints without end", "exec yes accepted min", "and was ended: it printed too much; expected"),
    ("refuses everything", 'echo "-:1: 1 BadLine" >&2; exit 2', "-:1: 1 BadLine\\n', status 2; expected"),
    ("writes before a refusal", 'echo p; exec "$P" "$@"', "expected 'accepted min' and status 0"),
    ("has another status", '"$P" "$@" || exit 1', "status 1; expected '-:3: 15 SameTerminal' and status 2"),
]  # fmt: skip
# Readers in sh that fail with --batch, with a part of what run.py prints.
BATCHES = [
    ("read line; echo lost >&2; exit 7", " printed 'lost\\n', status 7; expected"),
    ("while read it; do echo hm >&2; echo yes; done", " printed 'yes\\n', and 'hm\\n' on standard error, status 2;"),
    ("exec sleep 60", " printed '', with no end; expected"),
    ("exit 0", " printed '', status 1; expected"),
]
# Readers in sh that do not answer: what each does, how many cases fail before no further one is tried, and the status
# of run.py.
UNFINISHED = [
    ("does not end", "while :; do :; done", 10, 1),
    ("dies", "kill -9 $$", 99, 1),
    ("prints 10 MB", "head -c 10000000 /dev/zero", 10, 1),
    ("prints 10 MB on standard error", "head -c 10000000 /dev/zero >&2", 10, 1),
    ("cannot work", "exit 125", 0, 3),
    ("is there when SIGTERM comes", "kill -TERM $PPID; exec sleep 60", 0, 143),
    ("is there when SIGINT comes", "kill -INT $PPID; exec sleep 60 > /dev/null 2>&1", 0, 130),
]
# Faults of reading, in place of the function that reads a file of a batch.
FAULTS = [
    ("one read", "os.read(file.fileno(), 1 << 24)"),
    ("the size of a file", "file.read(os.fstat(file.fileno()).st_size)"),
    ("a place in a file", "file.read() if file.seekable() else b''"),
]
# Wrong command lines, and a part of what is said of them.
WRONG: list[tuple[list[str], str]] = [
    ([], "COMMAND is missing"), (["--level", "all", "true"], "invalid choice: 'all'"),
    (["--rule", "all", "true"], "invalid choice: 'all'"), (["--kind", "all", "true"], "invalid choice: 'all'"),
    (["--limit", "0", "true"], "invalid positive value: '0'"),
    (["--limit", "inf", "true"], "invalid positive value: 'inf'"), (["--jobs", "0", "true"], "--jobs is at least 1"),
    (["--case", "first-mi", "true"], "no case has the id 'first-mi'"),
    (["--refused", "0", "true"], "invalid status value: '0'"),
    (["--refused", "256", "true"], "invalid status value: '256'"),
    (["--memory", "0", "true"], "--memory is at least 1"),
    (["--expect", "/nowhere/list", "true"], "/nowhere/list: No such file or directory"),
    (["--junit", "--json", "true"], "--json: not allowed with argument --junit"),
    (["--lev", "accept", "true"], "unrecognized arguments: --lev"),
    (["/nowhere/reader"], "/nowhere/reader: No such file or directory"),
    (["/etc/passwd"], "/etc/passwd: Permission denied"),
]  # fmt: skip


CASES = [*cases()]
# The cases in another order, in which a mistake is found soon.
MIXED = random.Random(7).sample(CASES, len(CASES))
# What begins the mistakes that change no answer, by their functions: they save time, or another test decides. The suite
# does not ask for what the last functions print.
SAME = {
    "numbered": ("test of pieces",),
    "value_of": ("test of if 99 <", "ops of 99 <"),
    "fault_of_item": ("values of terminal and", "values of 'FLOW' in"),
    "meaning": ("test of (units, cost",),
    "how_of_min": ("test of how_of_costs", "ops of sum("),
    "how_of_steps": ("values of units", "values of steps", "values of not steps", "op of own[0][1] - most"),
    **dict.fromkeys(["shown", "words_on", "forms"], ("",)),
}
MUTANTS = [it for it in mutants.mutants() if not it.what.startswith(SAME.get(it.function, ()))]


# Readers that use other statuses, or time: what each does, in sh, the words of run.py, and its status.
OTHER = '"$P" "$@" || exit 255'
PLAIN = 't=$(cat; echo x); case "$t" in *+*) exit 2;; esac; printf %s "${t%x}" | "$P" "$@"'
LIMITED = [
    ("another status", OTHER, "--rule refusal-8 --refused 255", 0),
    ("any status", OTHER, "--rule refusal-8 --refused any", 0),
    ("no refusal", '"$P" "$@" || exit 0', "--level accept --rule refusal-8 --refused any", 1),
    ("a choice of FORMAT.md, level challenge", PLAIN, "--rule number --level challenge", 0),
    ("a choice of FORMAT.md", PLAIN, "--rule number --level accept", 1),
]


class Conformance:
    """The program and a folder."""

    def __init__(self, tested: str, folder: str) -> None:
        self.tested, self.folder = tested, folder

    def run(self, *words: str, script: str = RUN) -> Answer:
        return run([sys.executable, script, *words], limit=5 * LIMIT, cwd=self.folder)

    def reader(self, script: str) -> str:
        """Returns the path of a reader in sh."""
        path = f"{self.folder}/reader.sh"
        write(path, f"#!/bin/sh\nP={shlex.quote(self.tested)}\n{script}\n", 0o755)
        return path


@pytest.fixture
def made(tested: str, folder: str) -> Conformance:
    return Conformance(tested, folder)


def ids_of(rule: str) -> list[str]:
    """Returns the ids of the cases of a rule."""
    return [it["id"] for it in CASES if it["rule"] == rule]


def test_answers() -> None:
    """The answers of cases.json are those of reading.py."""
    assert [it["id"] for it in CASES if answer(it) != told(it)] == []


class Late(Exception):
    """A reader does not end."""


def late(*_: object) -> NoReturn:
    raise Late


def is_found(source: str) -> bool:
    """Whether a wrong reader answers some case otherwise, fails, or does not end."""
    wrong = mutants.reader(source)
    kept = signal.signal(signal.SIGALRM, late)
    try:
        for at, it in enumerate(MIXED):
            # A case takes some milliseconds.
            signal.alarm(4)
            if answer(it, wrong) != told(it):
                # It most likely finds the next one, too.
                MIXED.insert(0, MIXED.pop(at))
                return True
        return False
    except Exception:
        return True
    finally:
        signal.alarm(0)
        signal.signal(signal.SIGALRM, kept)


@pytest.mark.parametrize("function", sorted({it.function for it in MUTANTS}))
def test_wrong_readers(function: str) -> None:
    """The cases find each mistake in this function of reading.py."""
    assert [it.what for it in MUTANTS if it.function == function and not is_found(it.source)] == []


def test_ids_kept() -> None:
    """Each case has an id of its own, which no release has given to other texts."""
    kept, ids = released(), [it["id"] for it in CASES]
    assert len({*ids}) == len(ids)
    assert [it["id"] for it in CASES if kept.get(it["id"], texts(it)) != texts(it)] == []


def test_schema() -> None:
    """Cases.json is as its schema says, and that the schema refuses a case without an answer."""
    try:
        jsonschema = importlib.import_module("jsonschema")
    except ImportError:
        leave_out("python3-jsonschema")
    validator = jsonschema.Draft202012Validator(json.loads(text_of(f"{FOLDER}/schema.json")))
    made = json.loads(text_of(f"{FOLDER}/cases.json"))
    assert [it.message for it in validator.iter_errors(made)][:5] == [], "faults of cases.json by its schema"
    del made["rules"][0]["cases"][0]["canon"]
    assert not validator.is_valid(made), "a case without an answer"


@pytest.mark.parametrize("what, script, passed", READERS, ids=[it[0] for it in READERS])
def test_levels(made: Conformance, what: str, script: str, passed: str) -> None:
    """What each level compares, on readers that pass one level and fail the next one."""
    rules = [word for it in TRIED for word in ("--rule", it)]
    order = ["accept", "line", "refusal", "canon", "compare"]
    for level in order[order.index(passed) :][:2]:
        found = made.run("--level", level, *rules, made.reader(script))
        assert found.status == (0 if level == passed else 1), level


def test_parts(made: Conformance) -> None:
    """The kinds and the accepted texts are parts of the cases."""
    counts = []
    for words in ["", "--accepted", "--kind sp", "--kind sp --kind max"]:
        found = made.run("--level", "accept", "--rule", "pair", "--rule", "keyword", *words.split(), "--", made.tested)
        assert found.out.endswith(b" cases pass, 0 fail (level accept)\n")
        counts.append(int(found.out.split()[0]))
    assert 0 < counts[2] < counts[3] < counts[0] and 0 < counts[1] < counts[0]


def test_by_text(made: Conformance) -> None:
    """The adapter for programs that write what they have read, with one that writes canonical texts."""
    os.symlink(made.tested, f"{made.folder}/dnorm")
    path = f"{made.folder}:{os.environ['PATH']}"
    adapter = f"{FOLDER}/adapters/by-text"
    for words in ["--level accept --rule byte --rule refusal-13", "--accepted --rule form --rule point --rule list"]:
        command = [sys.executable, RUN, *words.split(), adapter, "dnorm canon -"]
        found = run(command, env={**os.environ, "PATH": path})
        assert (found.err, found.status) == (b"", 0), f"by-text {words}: {found}"
    for ending in ["exit 1", "exit 129", "exit 137", "exit 142", "exit 255", "kill -ALRM $$", "kill -KILL $$"]:
        found = run([adapter, made.reader(ending), "check", "-"])
        signals = {"kill -ALRM $$": -14, "kill -KILL $$": -9}
        assert found == Answer(b"", b"", signals.get(ending, 2)), f"by-text, {ending}"
    found = run([sys.executable, RUN, adapter, "cat"], env={**os.environ, "PATH": "/usr/bin:/bin"})
    told = f"run.py: {adapter} cannot work: by-text: dnorm is not on PATH\n"
    if not shutil.which("dnorm", path="/usr/bin:/bin"):
        assert (found.out, found.err.decode(), found.status) == (b"", told, 3), "by-text without dnorm"


def test_progress(made: Conformance) -> None:
    """How many cases are done, on a terminal alone."""
    upper, lower = terminal()
    words = [sys.executable, RUN, "--rule", "form", made.reader('sleep 0.1; exec "$P" "$@"')]
    with subprocess.Popen(words, stdout=subprocess.PIPE, stderr=lower) as process:
        os.close(lower)
        out, drawn = process.communicate(timeout=LIMIT)[0], b""
    with contextlib.suppress(OSError):
        while piece := os.read(upper, 4096):
            drawn += piece
    os.close(upper)
    count = len(ids_of("form"))
    assert out == f"{count} cases pass, 0 fail (level canon)\n".encode()
    *counts, end = re.split(rb" of %d cases|\r\x1b" % count, drawn)
    numbers = [int(it.removeprefix(b"\r")) for it in counts if it]
    assert (end, numbers) == (b"[K", sorted(numbers)) and len(numbers) > 1, drawn


@pytest.mark.parametrize("what, script, part", FAILING)
def test_failing(made: Conformance, what: str, script: str, part: str) -> None:
    """What run.py prints for readers that fail, and that it ends them."""
    begun = time.monotonic()
    found = made.run("--rule", "first", "--rule", "terminal", "--limit", "0.3", made.reader(script))
    assert time.monotonic() - begun < 20
    assert part.encode() in found.out
    assert (found.err, found.status) == (b"", 1)


@pytest.mark.parametrize("words, part", WRONG, ids=[" ".join(it[0]) for it in WRONG])
def test_wrong_words(made: Conformance, words: list[str], part: str) -> None:
    found = made.run(*words)
    assert (found.out, found.status) == (b"", 3) and part.encode() in found.err


def test_help(made: Conformance) -> None:
    assert made.run("--help").out.startswith(b"usage: run.py [OPTION].. COMMAND..")


def test_all(made: Conformance) -> None:
    found = made.run("--rule", "refusal-8", "--all", made.reader('[ "$1" = check ] && echo accepted sp'))
    told = {it.split(b":")[0].strip().decode() for it in found.out.splitlines()}
    assert {*ids_of("refusal-8")} - told == set()


def test_known_failures(made: Conformance) -> None:
    """A case that is expected to fail fails nothing, that a new failure does, and that one that passes now
    is told."""
    reader = made.reader('[ "$1" = check ] && exec "$P" "$@"; exit 2')
    words = ["--case", "first-min", "--case", "first-max", "--expect", f"{made.folder}/expected"]
    for names, status, end in [
        ("first-min # a reason\nfirst-max\n", 0, "0 cases pass, 0 fail, 2 fail as expected (level canon)\n"),
        ("# nothing\nfirst-min\n", 1, "0 cases pass, 1 fail, 1 fail as expected (level canon)\n"),
    ]:
        write(f"{made.folder}/expected", names)
        found = made.run(*words, reader)
        assert (found.out.decode().endswith(end), found.status) == (True, status), f"--expect {names!r}: {found}"
    write(f"{made.folder}/expected", "first-min\nfirst-max\n")
    found = made.run("--junit", *words, reader)
    assert (found.out.count(b'<skipped message="known'), found.status) == (2, 0), f"known failures: {found}"
    write(f"{made.folder}/expected", "first-min\n")
    found = made.run(*words, made.tested)
    told = "    passes now, and should no longer be expected to fail\n1 cases pass, 1 fail, 0 fail as expected"
    assert (told in found.out.decode(), found.status) == (True, 1), f"a case that passes now: {found}"
    write(f"{made.folder}/expected", "first-min\nfirst-one\nfirst-max\n")
    found = made.run(*words, reader)
    told = f"run.py: {made.folder}/expected:2: warning: no case has the id 'first-one'\n"
    assert (found.err.decode(), found.status) == (told, 0), f"an id of no case: {found}"
    for words in [["--rule", "first"], ["--rule", "first", "--expect", "made"]]:
        found = made.run(*words, "--expect-write", "made", reader)
        assert (text_of("made").split(), found.status) == (ids_of("first"), 0), f"{words}: {found}"
    found = made.run("--rule", "pair", "--limit", "0.1", "--expect-write", "made", made.reader("exec sleep 60"))
    assert (text_of("made").split(), found.status) == (ids_of("first"), 1), f"cases that are not tried: {found}"


def test_shapes(made: Conformance) -> None:
    """The results for other programs, and the files of cases."""
    words = ["--rule", "form", made.reader('case "$*" in *"form 2"*) set -- canon -;; esac; exec "$P" "$@"')]
    ids = ids_of("form")
    text = made.run("--all", *words).out.decode()
    bad = [it for it in ids if f"\n  {it}: " in text]
    assert 0 < len(bad) < len(ids), f"cases that fail and cases that pass: {len(bad)} of {len(ids)}"
    tree = ElementTree.fromstring(made.run("--junit", *words).out)
    failed = [it.get("name") for it in tree if it.find("failure") is not None]
    assert (tree.get("tests"), tree.get("failures"), failed) == (str(len(ids)), str(len(bad)), bad), "--junit"
    cases = json.loads(made.run("--json", *words).out)["cases"]
    found = [it["id"] for it in cases if it["outcome"] == "fails" and it["failures"]]
    assert (len(cases), found) == (len(ids), bad), "--json"
    tree = ElementTree.fromstring(made.run("--case", "first-min", "--junit", made.reader("sleep 0.2")).out)
    assert [0.2 < float(it.get("time", "")) < LIMIT for it in (tree, tree[0])] == [True, True], "times"
    written = f"{made.folder}/texts"
    assert made.run("--rule", "form", "--rule", "fit", "--write", written) == said(), "--write"
    for case in (it for it in CASES if it["rule"] in ("form", "fit")):
        own = {name: case[name] for name in ("text", "with") if name in case}
        files = {name: bytes_of(f"{written}/{case['id']}.{name}").decode("latin-1") for name in own}
        assert files == own, f"--write, {case['id']}"
    assert made.run("--version").out.decode() == "cases 3\n", "--version"


def test_messages(made: Conformance) -> None:
    """A text of a message gives its bytes back in a shell, that the first line that differs is told, and
    that rules come in the order of FORMAT.md."""
    for name, text in [("byte-sp-a-between-a0", b"a 20 30\xa0-14\n"), ("comment-ends-in-percent", b"a 1 2 7 % x\n")]:
        found = made.run("--level", "accept", "--case", name, made.reader("exit 0")).out.decode()
        printed = run(["sh", "-c", re.findall("text: (printf .*)", found)[0]]).out
        assert printed.endswith(text), f"the text of {name}: {found}"
    reader = made.reader('[ "$1" = check ] && exec "$P" "$@"; "$P" "$@" | sed "s/2 3 5/2 3 6/"')
    found = made.run("--case", "first-max", reader).out.decode()
    told = "; line 5 is 'a 2 3 6' in place of 'a 2 3 5'"
    assert found.count(told) == 2, f"the line that differs in both forms: {found}"
    reader = made.reader('[ "$1 $3" = "canon 2" ] && set -- canon -; exec "$P" "$@"')
    found = made.run("--rule", "range", "--rule", "form", reader).out.decode()
    heads = [it.partition(":")[0] for it in found.splitlines()[:-1] if not it.startswith(" ")]
    assert heads == ["range", "form"], "the rules of a mistake in form 2"


@pytest.mark.parametrize("what, script, words, status", LIMITED, ids=[it[0] for it in LIMITED])
def test_limits(made: Conformance, what: str, script: str, words: str, status: int) -> None:
    """Statuses of refusals, the level that only the Challenges decide, and the limit of time."""
    found = made.run(*words.split(), made.reader(script))
    assert (found.err, found.status) == (b"", status)


def test_memory(made: Conformance) -> None:
    found = made.run("--case", "first-min", "--memory", "123", made.reader("ulimit -v"))
    assert f"printed '{123 * 1024}\\n'".encode() in found.out


def test_batch(made: Conformance) -> None:
    """A reader that answers many calls: reading.py passes with --batch."""
    found = made.run("--batch", "--level", "compare", sys.executable, f"{ROOT}/suite/tests/suite.py", "batch")
    assert found == said(f"{len(CASES)} cases pass, 0 fail (level compare)\n")


@pytest.mark.parametrize("what, expression", FAULTS, ids=[it[0] for it in FAULTS])
def test_batch_by_pipe(made: Conformance, what: str, expression: str) -> None:
    """A reader in a batch that reads files right, but not pipes."""
    reader = f"def bytes_of(name):\n with open(name, 'rb') as file: return {expression}\n"
    loop = "for it in sys.stdin: print(suite.reply(*it.rstrip('\\n').split('\\t')), flush=True)"
    write("own.py", f"import os, suite, sys\n{reader}suite.bytes_of = bytes_of\n{loop}\n")
    words = ["--batch", "--rule", "first", "--rule", "ninth", "--rule", "line-end", "--json"]
    found = made.run(*words, "env", f"PYTHONPATH={ROOT}/suite/tests", sys.executable, "own.py")
    failures = [it for case in json.loads(found.out)["cases"] for it in case["failures"]]
    # A file may be read so.
    assert (found.status, {"from a pipe" in it for it in failures}) == (1, {True}), failures


@pytest.mark.parametrize("shape", ["--json", "--junit", "--json --batch", "--junit --batch"])
@pytest.mark.parametrize("what, script, most, status", UNFINISHED, ids=[it[0] for it in UNFINISHED])
def test_reports(made: Conformance, what: str, script: str, most: int, status: int, shape: str) -> None:
    """Reports have all cases and nothing else when a reader does not answer them."""
    limit = "0.3" if what == "does not end" else str(LIMIT)
    words = ["--rule", "first", "--rule", "terminal", "--limit", limit, "--jobs", "1"]
    found = made.run(*shape.split(), *words, made.reader(script))
    if shape.startswith("--json"):
        rows = [(it["id"], it["outcome"]) for it in json.loads(found.out)["cases"]]
    else:
        names = {"failure": "fails", "error": "not tried"}
        tree = ElementTree.fromstring(found.out)
        rows = [(it.get("name", ""), names[it[0].tag]) for it in tree]
        assert tree.get("errors") == str(sum(it == "not tried" for _, it in rows))
    ids = [*ids_of("first"), *ids_of("terminal")]
    wanted = [(it, "fails" if at < most else "not tried") for at, it in enumerate(ids)]
    assert (rows, found.status, found.err != b"") == (wanted, status, True)


@pytest.mark.parametrize("script, told", BATCHES)
def test_failing_batch(made: Conformance, script: str, told: str) -> None:
    """What is told of readers that end or answer nothing."""
    found = made.run("--batch", "--limit", "1", "--case", "first-min", "--case", "first-max", made.reader(script))
    assert (found.err, found.status, found.out.decode().count(told)) == (b"", 1, 2)
