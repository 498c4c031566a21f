"""canon-in-parts against one run of the built program: the bytes, the line on standard error and the status are
the same. The texts are of all kinds, clean, noisy and with unusual spelling. They are cut into chunks of one line up
to more than the text, and into one range up to more ranges than lines."""

import os
import random
import re
import shlex
import shutil
import signal
import subprocess
import sys
import time
from typing import Any

import pytest
from needs import leave_out, need, pass_over, seeds
from reading import MOST
from shared import IN_A_WAIT, LIMIT, ROOT, Answer, bytes_of, pipe, run, said, text_of, write
from texts import lines_of, made, spelled, spoilt

pytestmark = pytest.mark.slow
SCRIPT = f"{ROOT}/bin/canon-in-parts"
HALF = MOST // 2 + 1

NOISY = (
    b"\r\r\n \t \nc p sp 1 1\np\tsp  +4 006 \r\n\n\r \t a \t+3 02\r-007 \r\nca 1 2\n  a 1 2 -7\nc \0\xff\n"
    b"a 4 4 0\na 3 2 00000000000000000000000000000000000000000000000001\n\na 2 1 -0\nc a 9 9 9\n a 1 2 8"
)
SUPPLIES = (
    b"c in both forms\np min 4 8\nn 3 -2\nn 1 2\nn 2 0\na 3 1 0 4 1\na 1 2 1 3 2\na 1 2 0 2 5\na 1 2 2 2 -7\n"
    b"a 2 3 0 0 9\na 1 2 0 1 2\na 4 4 1 1 1\na 4 4 2 3 0\n"
)
CAPACITIES = b"p max 5 7\nn 5 t\nn 1 s\na 2 3 0\na 1 2 4\na 1 3 2\na 1 2 5\na 5 5 1\na 4 1 3\na 4 1 0\n"
FAR_NODES = (
    b"p sp 9223372036854775807 6\na 9223372036854775807 1 3\na 9223372036854775806 2 1\na 9223372036854775805 1 1\n"
    b"a 9007199254740993 5 5\na 9007199254740992 5 5\na 1 9223372036854775807 2\n"
)


def terminals(count: int, *arcs: str) -> bytes:
    """Returns a `max` text of three nodes."""
    return "\n".join([f"p max 3 {count}", "n 1 s", "n 3 t", *[f"a {it}" for it in arcs], ""]).encode()


# Texts that one process reads whole, and texts whose head has a fault. No part of them is made.
WHOLE = [
    b"", b"c only\n\n", b"p sp 0 0", b"p min 5 0\nn 2 7\nn 1 -7\nn 3 0\n", b"p max 2 0\nn 2 s\nn 1 t\n",
    b"p max 2 1\nn 1 s\n", b"p aux sp ss 3\ns 3\ns 1\ns 1\n", b"p aux sp co 2\nv 2 1 1\nv 1 5 5\n",
    b"p aux sp co 2\nv 2 1 1\nv 2 5 5\n", b"p max 1 2\na 1 1 5\na 1 1 6\n", b"p max 1 2\nn 1 s\nn 1 t\na 1 1 5\n",
    b"p sp 0 1\na 1 1 1\n", b"a 1 2 3\np sp 2 1\n", b"p aux sp ss 1\na 1 2 3\n", b"p sp 2 0\na 1 2 3\n",
    b"c\nq 1\np sp 2 1\na 1 2 3\n", b"p sp 2 1\na 1 2 x\nb\n",
]  # fmt: skip
# Texts in parts: the lines of a chunk, the number of ranges (0 for as many as chunks), the form, and the text.
PARTS = [
    (1, 0, 1, NOISY),
    (3, 40, 2, NOISY),
    (1000, 3, 1, NOISY),
    (1, 2, 1, SUPPLIES),
    (4, 0, 2, SUPPLIES),
    (2, 50, 1, CAPACITIES),
    (2, 3, 2, FAR_NODES),
    # No arc means anything.
    (1, 2, 1, b"p min 2 2\na 1 2 0 0 9\na 2 1 0 0 9\n"),
    # Faults in the first, a middle and the last chunk, and two faults.
    (3, 2, 1, b"p sp 2 4\na 1 2 3\na 1 2 x\na 1 2 3\na 1 2 3\n"),
    (2, 0, 1, b"p min 2 4\na 1 2 0 3 1\na 1 2 0 3 1\na 2 1 4 3 1\na 1 2 0 3 1\n"),
    (1, 3, 1, b"p max 2 4\nn 1 s\nn 2 t\na 1 2 3\na 1 2 3\na 1 2 3\na 1 5 3"),
    (2, 1, 2, b"p min 2 4\na 1 2 0 3 1\na 1 2 0 3 1\na 2 1 0 3 1\nn 1 0\np sp 1 1\n"),
    (2, 1, 2, b"p sp 2 3\na 1 2 3\nc\np sp 2 3\na 1 2 3\nx\n"),
    # One arc line too many, with another fault in it, before it and after it; one arc line too few; no sink.
    (2, 2, 1, b"p sp 2 2\na 1 2 3\na 1 2\na x\n"),
    (2, 2, 1, b"p sp 2 2\na 1 2 3\na 1 2 3\na x\nb\n"),
    (1, 2, 1, b"p sp 2 2\na 1 2 3\na 1 2 3\nb\na x\n"),
    (2, 2, 1, b"p sp 2 4\na 1 2 3\na 1 2 3\na 2 2 2\n"),
    (1, 2, 1, b"p max 2 3\nn 1 s\na 1 2 5\na 1 2 6\na 2 2 2\n"),
    (1, 2, 1, b"p max 2 3\nn 1 s\na 1 2 5\na 1 2 -6\na 2 2 2\n"),
    # Sums that are too large only across chunks, in two ranges, before another fault and after it.
    (2, 2, 1, terminals(3, f"1 2 {MOST}", "2 3 1", "1 2 1")),
    (2, 2, 1, terminals(3, f"1 2 {MOST}", "2 3 1", "1 2 0")),
    (1, 3, 1, terminals(4, f"1 2 {MOST}", f"2 3 {MOST}", "2 3 1", "1 2 1")),
    (3, 3, 1, terminals(4, f"1 2 {MOST}", f"2 3 {MOST}", "1 2 1", "2 3 1")),
    (2, 2, 1, terminals(3, f"1 2 {MOST}", "1 2 1", "1 2 x")),
    (2, 2, 1, terminals(3, f"1 2 {MOST}", "1 2 x", "1 2 1")),
    (2, 0, 1, terminals(5, f"1 2 {MOST}", "1 2 1")),
    # A node line behind an arc, in a chunk of its own.
    (1, 2, 1, terminals(2, "1 2 3") + b"n 2 s\na 1 2 3\n"),
    (1, 2, 2, f"p min 3 3\na 1 2 {HALF} {HALF} {MOST}\na 1 2 0 5 -4\na 1 2 0 {HALF} 4\n".encode()),
    (1, 2, 2, f"p min 3 3\na 1 2 {HALF} {HALF} {MOST}\na 1 2 0 5 -4\na 1 2 0 {HALF - 6} 4\n".encode()),
]

# Wrong command lines.
BAD_WORDS = [
    *["", "a b", "--color -", "-x", "- --lines", "--form 3 -", "--form nan -", "--lines 0 -", "--lines inf -"],
    *["--parts x -", "--parts -1 -", "--jobs many -", "--jobs nan -", "--jobs 1.5 -", "--jobs +5 -", "--jobs 50% -"],
]

# What a part does that fails, and what is said of it.
FAILING = [
    ("kill -9 $$", "dnorm was ended by signal 9 (SIGKILL)"),
    ("echo 'out: 33 Write' >&2; exit 4", "33 Write"),
    ("exit 7", "dnorm did not answer as it should (its status was 7, and it printed '')"),
]
# Lines on standard error that no run prints, with their status.
OTHER_LINES = [
    ("-:7: 17 SumTooLarge", 4), ("-:7: 17 SumTooLarge", 3), ("-:7: 17 SumTooSmall", 2), ("-:7: 22 SumTooLarge", 2),
    ("-: 17 SumTooLarge", 2), ("-:seven: 17 SumTooLarge", 2), ("x:7: 17 SumTooLarge", 2), ("-:7: 34 CountTooLarge", 2),
    ("-: 30 Memory", 2), ("-:7: 30 Memory", 4), ("out: 30 Memory", 4), ("-: 33 Write", 4), ("differ nodes 1 2", 1),
]  # fmt: skip
ODD = "dnorm did not answer as it should (its status was {}, and it printed {!r})"
FAILING += [(f"echo '{line}' >&2; exit {it}", ODD.format(it, f"{line}\n")) for line, it in OTHER_LINES]
# Signals that end the script while it reads, or makes parts of this text. Without a text, the script waits for it.
SIGNALS = [(signal.SIGTERM, SUPPLIES), (signal.SIGINT, b""), (signal.SIGHUP, b""), (signal.SIGINT, SUPPLIES)]
# A program that runs the command in braces for a part. Its other runs are those of the built program: for the version,
# and for the head of the text, which comes first.
STAND_IN = '#!/bin/bash\nif [[ $1 == canon ]] && ! mkdir "$0.head" 2> /dev/null; then {}; fi\nexec {} "$@"\n'


class Scale:
    """The script with a program, a folder for its temporary files, and another folder for the files of the test."""

    def __init__(self, tested: str, folder: str) -> None:
        self.program, self.folder = tested, folder
        self.temporary = f"{folder}/temporary"
        os.mkdir(self.temporary)

    def words(self, *options: str, tested: str = "") -> list[str]:
        return [SCRIPT, "--program", tested or self.program, "--tmpdir", self.temporary, *options]

    def run(self, *options: str, given: bytes = b"", tested: str = "", **more: Any) -> Answer:
        """Runs the script, which must leave no temporary files."""
        found = run(self.words(*options, tested=tested), given, **more)
        assert os.listdir(self.temporary) == [], "files left"
        return found

    def parts(self, text: bytes, lines: int, parts: int, form: int, *options: str) -> None:
        """Compares a text made in parts with one run."""
        words = ["--jobs", "2", "--lines", f"{lines}", f"--form={form}", *options]
        words += ["--parts", f"{parts}"] if parts else []
        wanted = run([self.program, "canon", "--form", f"{form}", "-"], text)
        assert self.run(*words, "-", given=text) == wanted, f"{' '.join(words)}, of {text!r}"

    def stand_in(self, does: str) -> str:
        """Makes a program that runs this command in place of canonicalising a part."""
        path = f"{self.folder}/stand-in"
        shutil.rmtree(f"{path}.head", ignore_errors=True)
        write(path, STAND_IN.format(does, shlex.quote(self.program)), 0o755)
        return path


@pytest.fixture
def scale(tested: str, folder: str) -> Scale:
    write("-n.min", SUPPLIES)
    return Scale(tested, folder)


@pytest.mark.parametrize("text", WHOLE, ids=repr)
def test_in_one(scale: Scale, text: bytes) -> None:
    scale.parts(text, 2, 0, 1)


@pytest.mark.parametrize("lines, parts, form, text", PARTS)
def test_in_parts(scale: Scale, lines: int, parts: int, form: int, text: bytes) -> None:
    scale.parts(text, lines, parts, form)


@pytest.mark.parametrize("seed", seeds(8, 0))
def test_random(scale: Scale, seed: int) -> None:
    chance = random.Random(seed)
    plain = lines_of(chance, made(chance, ["min", "max", "sp"][seed % 3], seed % 2 == 0))
    text = spelled(chance, spoilt(chance, plain) if seed % 4 == 3 else plain)
    scale.parts(text, chance.choice([1, 2, 3, 5, 50]), chance.choice([0, 1, 2, 3, 20]), 1 + seed % 2)


def test_early_fault(scale: Scale) -> None:
    """The program reads a long part no further once it has found a fault."""
    scale.parts(b"p sp 2 40002\na 1 2 3\na 1 2 x\n" + b"a 1 2 3\n" * 40_000, 100_000, 0, 1)


def test_names(scale: Scale) -> None:
    """Names of texts and of the folder for temporary files."""
    wanted = run([scale.program, "canon", "--", "-n.min"])
    assert scale.run("--lines=3", "--", "-n.min") == wanted
    write("two words.min", SUPPLIES)
    os.mkdir("two words")
    assert scale.run("--lines=3", "--tmpdir", f"{scale.folder}/two words", "two words.min") == wanted
    assert os.listdir("two words") == []


def test_refusals(scale: Scale) -> None:
    write("faulty", b"p sp 2 2\na 1 2 3\na 1 2\n")
    assert scale.run("faulty", "--lines", "2") == said(b"", b"faulty:3: 8 FieldCount\n", 2)
    for name in ["missing", "."]:
        assert scale.run(name) == said(b"", f"{name}: 31 Read\n", 4)


@pytest.mark.parametrize("stream", ["> /dev/full", ">&-", "<&-"])
def test_streams(scale: Scale, stream: str) -> None:
    name, line = ("-", "-: 31 Read\n") if stream == "<&-" else ("./-n.min", "out: 33 Write\n")
    found = run(["bash", "-c", f"{shlex.join(scale.words('--lines=3'))} {name} {stream}"])
    assert found == said(b"", line, 4)
    assert os.listdir(scale.temporary) == []


@pytest.mark.parametrize("text", [SUPPLIES, b"p sp 0 0\n", b"p max 1 2\na 1 1 5\na 1 1 6\n"])
def test_output(scale: Scale, text: bytes) -> None:
    """-o writes all of the text into a file, which stays as it was if the text is refused or a signal ends the run."""
    write("made.min", b"old", 0o640)
    os.symlink("made.min", "link")
    wanted = run([scale.program, "canon", "-"], text)
    for name in ["link", "new.min", "-"]:
        found = scale.run("--lines=3", "-o", name, "-", given=text)
        assert found == Answer(wanted.out if name == "-" else b"", wanted.err, wanted.status)
    texts = [bytes_of(it) if os.path.exists(it) else b"old" for it in ("made.min", "new.min")]
    assert texts == [b"old" if wanted.status else wanted.out] * 2 and os.path.islink("link")
    assert os.path.exists("new.min") is not bool(wanted.status) and os.stat("made.min").st_mode & 0o777 == 0o640
    assert [it for it in os.listdir(".") if it.startswith(".")] == [], "files left"


def test_no_output(scale: Scale) -> None:
    write("kept", b"old")
    waits = scale.stand_in("kill -TERM $PPID; exec sleep 30")
    assert scale.run("--lines=3", "-o", "kept", "./-n.min", tested=waits) == said(b"", b"", 128 + signal.SIGTERM)
    assert (bytes_of("kept"), [it for it in os.listdir(".") if it.startswith(".")]) == (b"old", [])
    for name, line, status in [
        ("no/x.min", b"no/x.min: 33 Write (No such file or directory)\n", 4),
        ("/dev/full", b"/dev/full: 33 Write (No space left on device)\n", 4),
        ("x.min.gz", b"canon-in-parts: -o x.min.gz: the text is not compressed\n", 3),
    ]:
        found = scale.run("-o", name, "./-n.min")
        assert (found.out, found.err, found.status) == (b"", line, status), name


@pytest.mark.parametrize("chunks", [1, 30, 300])
def test_many_chunks(scale: Scale, monkeypatch: pytest.MonkeyPatch, chunks: int) -> None:
    """Arcs in many chunks and ranges, with tails that are far apart and at the ends of ranges."""
    chance = random.Random(chunks)
    tails = [1, 2, MOST, *(10**it for it in range(19))]
    arcs = "".join(f"a {chance.choice(tails)} {chance.choice(tails)} {at}\n" for at in range(300))
    scale.parts(f"p sp {MOST} 300\n{arcs}".encode(), 300 // chunks, 0, 1)


def test_growing_chunks(scale: Scale) -> None:
    """Without --lines, chunks grow with the text, so that their number does not."""
    code = "import sys; from dnorm.parts import chunks, line; chunks.LINES = 2; sys.exit(line.main())"
    own = {**os.environ, "PYTHONPATH": f"{ROOT}/python/src", "PYTHONDONTWRITEBYTECODE": "1"}
    write("log", "")
    counting = scale.stand_in('echo + >> log; exec "$P" "$@"'.replace('"$P"', shlex.quote(scale.program)))
    text = b"p sp 9 2000\n" + b"".join(b"a %d %d 1\n" % (at % 9 + 1, at % 7 + 1) for at in range(2000))
    words = [sys.executable, "-c", code, "--parts", "1", *scale.words("-", tested=counting)[1:]]
    assert run(words, text, env=own) == run([scale.program, "canon", "-"], text)
    assert 100 < len(text_of("log").split()) < 500, "half as many chunks as of 2 lines"


def test_disk(scale: Scale) -> None:
    """Of sp, no chunk of the text is on the disk any more once ranges are made, as the help says."""
    write("log", "")
    listing = scale.stand_in(f'ls {scale.temporary}/* >> log; echo = >> log; exec {shlex.quote(scale.program)} "$@"')
    text = b"p sp 9 9\n" + b"".join(b"a %d 1 1\n" % at for at in range(1, 10))
    scale.run("--lines", "3", "--parts", "2", "--jobs", "1", "-", given=text, tested=listing)
    last = text_of("log").split("=")[-2].split()
    assert [it for it in last if re.fullmatch(r"chunk\.\d+", it)] == [] != [it for it in last if "range" in it], last


@pytest.mark.parametrize("words", BAD_WORDS)
def test_wrong_words(scale: Scale, words: str) -> None:
    found = run(scale.words(*words.split()))
    told = found.err.startswith(b"canon-in-parts: ") and found.err.count(b"\n") == 1
    assert (found.out, told, found.status) == (b"", True, 3)


def test_help() -> None:
    found = run([SCRIPT, "--help"])
    assert (found.out.startswith(b"usage: canon-in-parts "), found.err, found.status) == (True, b"", 0)


def test_out_of_memory(scale: Scale) -> None:
    wanted = said(b"", b"./-n.min: 30 Memory\n", 4)
    lacks = scale.stand_in("echo '-: 30 Memory' >&2; exit 4")
    assert scale.run("--lines", "3", "./-n.min", tested=lacks) == wanted
    # Only the last chunk runs out of memory, while the first one is still in progress.
    lacks = scale.stand_in("grep -q '^a 4 4 2' || exec sleep 30; echo '-: 30 Memory' >&2; exit 4")
    started = time.monotonic()
    assert scale.run("--lines", "8", "--jobs", "2", "./-n.min", tested=lacks) == wanted
    assert time.monotonic() - started < 20, "it ends at once"


@pytest.mark.parametrize("does, line", FAILING)
def test_failing_part(scale: Scale, does: str, line: str) -> None:
    found = scale.run("--lines", "3", "./-n.min", tested=scale.stand_in(does))
    assert found == said(b"", f"canon-in-parts: a part failed: {line}\n", 4)


def test_lost_status(scale: Scale) -> None:
    """Whoever ignores SIGCHLD gets no status of children, so the commands do not inherit that: a part that fails is not
    taken for whole, and dnorm-explain has the status of dnorm."""
    ignoring = ["bash", "-c", "trap '' CHLD; exec \"$@\"", "bash"]
    fails = scale.stand_in("exit 9")
    wanted = said(
        b"",
        b"canon-in-parts: a part failed: dnorm did not answer as it should (its status was 9, and it printed '')\n",
        4,
    )
    assert run([*ignoring, *scale.words("--lines", "3", "./-n.min", tested=fails)]) == wanted
    whole = run([scale.program, "canon", "-"], SUPPLIES)
    assert run([*ignoring, *scale.words("--lines", "3", "./-n.min")]) == whole
    assert run([*ignoring, f"{ROOT}/bin/dnorm-explain", "check", "missing"]).status == 4


@pytest.mark.parametrize("number, text", SIGNALS)
def test_signal(scale: Scale, heeded: None, number: signal.Signals, text: bytes) -> None:
    """A script that a signal ends, while it makes parts or reads, leaves no files and no processes."""
    begun = f"{scale.folder}/begun"
    waits = scale.stand_in(f"echo $$ >> {shlex.quote(begun)}; exec sleep 30")
    write(begun, "")
    started = subprocess.Popen(scale.words("--lines", "3", "-", tested=waits), stdin=subprocess.PIPE)
    if text:
        pipe(started.stdin).write(text)
        pipe(started.stdin).close()
    while started.poll() is None and not (os.path.getsize(begun) if text else os.listdir(scale.temporary)):
        time.sleep(0.02)
    started.send_signal(number)
    assert started.wait(LIMIT) == 128 + number
    assert os.listdir(scale.temporary) == []
    assert [it for it in text_of(begun).split() if is_running(it)] == [], "processes left"


def test_signal_in_a_wait(scale: Scale, heeded: None) -> None:
    """A signal ends the script also where `threading` makes an error of its own of it."""
    words = scale.words("--lines", "3", "./-n.min", tested=scale.stand_in("exec sleep 30"))[1:]
    own = {**os.environ, "PYTHONPATH": f"{ROOT}/python/src", "PYTHONDONTWRITEBYTECODE": "1"}
    found = run([sys.executable, "-c", IN_A_WAIT.format("dnorm.parts.line"), *words], env=own)
    assert found == said(b"", b"", 128 + signal.SIGTERM)
    assert os.listdir(scale.temporary) == []


def is_running(process: str) -> bool:
    """Whether a process has not ended. One that has ended, but was not waited for, has no arguments any more."""
    try:
        with open(f"/proc/{process}/cmdline", "rb") as words:
            return bool(words.read())
    except FileNotFoundError:
        return False


@pytest.mark.parametrize("own, status", [('exec "$P" "$@"', 0), ("exit 125", 125)])
def test_clone(tested: str, folder: str, own: str, status: int) -> None:
    """canon-in-parts of a clone takes the `./dnorm` of it, and has its status where it cannot build the program."""
    shutil.copytree(f"{ROOT}/python", "clone/python", ignore=shutil.ignore_patterns("__pycache__"))
    os.mkdir("clone/bin")
    for it in [SCRIPT, f"{ROOT}/bin/dnorm-files"]:
        shutil.copy(it, "clone/bin")
    write("clone/bin/dnorm", f"#!/bin/sh\nP={shlex.quote(tested)}\n{own}\n", 0o755)
    wanted = run([tested, "canon", "-"], SUPPLIES).out if not status else b""
    assert run(["clone/bin/canon-in-parts", "--lines", "2", "-"], SUPPLIES) == said(wanted, b"", status)


@pytest.mark.parametrize("count", [1, 3])
def test_jobs_at_once(scale: Scale, count: int) -> None:
    """As many jobs run at once as were asked for."""
    write("log", "")
    own = scale.stand_in("echo + >> log; sleep 0.3; echo - >> log")
    scale.run("--lines=1", f"--jobs={count}", "-", given=SUPPLIES, tested=own)
    steps = [1 if it == "+" else -1 for it in text_of("log").split()]
    assert max(sum(steps[:at]) for at in range(len(steps) + 1)) == count


@pytest.mark.parametrize("name", ["python2.7", "python3.6", "python3.7", "python3.8"])
def test_old_python(scale: Scale, name: str) -> None:
    # A shim of pyenv is there for a Python that is not.
    if not shutil.which(name) or run([name, "--version"]).status:
        pass_over(name)
    words = [name, f"{ROOT}/python/src/__main__.py", "canon-in-parts", *scale.words("-")[1:]]
    assert run(words, SUPPLIES) == said(b"", b"canon-in-parts: it needs Python 3.9 or later\n", 4)


# A host of GNU parallel in place of ssh: a folder, which is home there, and a network of its own. A login sets SHELL:
# without it, GNU parallel runs nothing and says nothing.
HOST = """#!/bin/bash
while [[ $1 == -* ]]; do
    [[ $1 == -[lopFSi] ]] && shift
    shift
done
host=$1
shift
[[ $1 != -- ]] || shift
echo "$host" >> "$HOSTS/log"
cd "$HOSTS/$host" && HOME=$PWD SHELL=$BASH exec unshare --map-root-user --net bash -c "$*"
"""


def test_many_machines(scale: Scale, folder: str) -> None:
    """The recipe of the page, copied, on two hosts: whole files, a log of all texts, and no text after a failure."""
    for it in ["parallel", "rsync", "unshare"]:
        need(it)
    if run(["unshare", "--map-root-user", "--net", "true"]).status:
        leave_out("user namespaces")
    (recipe,) = re.findall(r"^parallel .*", text_of(f"{ROOT}/docs/FILES.md"), re.M)
    for it in ["bin", "hosts/one", "hosts/two", "citation", "texts"]:
        os.makedirs(it)
    write("bin/ssh", HOST, 0o755)
    write("citation/will-cite", "")
    for name, target in [("canon-in-parts", SCRIPT), ("dnorm", scale.program)]:
        os.symlink(target, f"bin/{name}")
    texts = {f"texts/t{at}.gr": f"p sp {at + 9} 2\na {at + 2} 1 4\na {at + 1} {at + 2} 3\n" for at in range(6)}
    for name, text in texts.items():
        write(name, text)
    own = {**os.environ, "PATH": f"{folder}/bin:{os.environ['PATH']}", "HOSTS": f"{folder}/hosts", "HOME": folder}
    own |= {"PARALLEL_HOME": f"{folder}/citation", "PARALLEL_SSH": f"{folder}/bin/ssh"}
    command = ["bash", "-c", recipe.replace("HOST,:", "1/one,1/two")]
    found = run(command, cwd="texts", env=own)
    assert (found.status, os.listdir("hosts/one"), os.listdir("hosts/two")) == (0, [], []), found.err
    for name, text in texts.items():
        assert bytes_of(f"texts/canon/{name[6:-3]}.form1.gr") == run([scale.program, "canon", "-"], text.encode()).out
    log = [it.split("\t") for it in text_of("texts/canon.log").splitlines()[1:]]
    assert ({it[1] for it in log}, {it[6] for it in log}, len(log)) == ({"one", "two"}, {"0"}, 6)
    shutil.rmtree("texts/canon")
    write("texts/t0.gr", "x\n")
    found = run([*command[:2], recipe.replace("HOST,:", "1/one")], cwd="texts", env=own)
    assert (b"t0.gr:1: 1 BadLine" in found.err, found.status != 0) == (True, True), found.err
    assert not os.path.exists("texts/canon/t0.form1.gr") and len(text_of("texts/canon.log").splitlines()) < 7
