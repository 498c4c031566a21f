"""The built program on the files and streams of the host: which names open which texts, streams that are closed, full
or broken, files that cannot be read, little memory, little stack, a long line, and runs that known.py has not. No
signal may ever end the program."""

import fcntl
import os
import resource
import shutil
import subprocess
import sys
import termios
import time
from collections.abc import Callable, Iterator
from typing import IO, Any

import pytest
from known import COSTS, COSTS_ONE, ROADS, ROADS_CANON, ROADS_SHOWN
from needs import need_proc
from shared import LIMIT, Answer, least_level, own_folder, pipe, run, said, within, write

# What starts the program with these words, and ends it with the test.
Starts = Callable[..., "subprocess.Popen[bytes]"]

FILES = {
    "g.gr": ROADS,
    "c.gr": ROADS_CANON,
    "h.min": COSTS,
    "f.min": COSTS_ONE,
    "m.min": b"c supplies\np min 3 1\nn 1 4\nn 3 -4\na 1 3 0 4 2\n",
    "n.max": b"p max 2 2\nn 1 s\nn 2 t\na 1 2 9223372036854775807\na 1 2 1\n",
    "s.ss": b"p aux sp ss 1\ns 3\n",
    "q.p2p": b"p aux sp p2p 2\nq 3 7\nq 9 1\n",
    "v.co": b"p aux sp co 1\nv 3 0 -5\n",
    "w.max": b"p max 2 1\nn 1 s\nn 2 t\na 1 2 7\n",
    "a b c.gr": ROADS,
    "-x": ROADS,
    "-": COSTS,
    "empty": b"",
}

# Arguments, the expected standard output and standard error, and the status.
COMMANDS = [
    ("check m.min", b"accepted min\nforms none\n", b"", 0),
    ("check --with=s.ss c.gr", b"accepted sp\nfits ss\nforms 1 2\n", b"", 0),
    ("check m.min --with s.ss", b"", b"s.ss: 36 NotKinds\n", 2),
    ("canon n.max", b"", b"n.max:5: 17 SumTooLarge\n", 2),
    ("canon --form 3 h.min", b"", b"dnorm: bad command line\n", 3),
    ("canon g.gr h.min", b"", b"dnorm: bad command line\n", 3),
    ("compare g.gr h.min", b"differ kind sp min\n", b"", 1),
    ("compare h.min m.min", b"differ nodes 2 3\n", b"", 1),
    ("compare g.gr missing", b"", b"missing: 31 Read\n", 4),
    ("compare - -", b"", b"dnorm: standard input named twice\n", 3),
    ("check - --with -", b"", b"dnorm: standard input named twice\n", 3),
    ("show empty", b"", b"empty:end: 18 NoProblem\n", 2),
    ("--version", b"dnorm 3.1.0\n", b"", 0),
]

# Commands on texts that need memory, and one that reads none.
LARGE = ["canon many.gr", "show many.gr", "check many.gr", "compare many.gr many.gr", "canon many.min", "help"]

# Long texts: what precedes the counted lines, and a counted line. N is their number, and I differs in each of them.
LONG = {
    "lines.gr": ("p sp N N", "a I 1 I"),
    "lines.max": ("p max N N\nn 1 s\nn 2 t", "a I 1 I"),
    "lines.min": ("p min N N", "a I 1 1 I I"),
    "curve.min": ("p min 2 N", "a 1 2 0 1 I"),
    "lines.ss": ("p aux sp ss N", "s I"),
    "lines.p2p": ("p aux sp p2p N", "q I 1"),
    "lines.co": ("p aux sp co N", "v I I -1"),
}
# The number of these lines, and the stack in which each command reads them, in kB.
COUNT, STACK = 100_000, 128


# Command lines for a shell, in which "$p" is the program, what they print on both streams, and the status.
BY_SHELL = [
    ('"$p" <&-', b"", b"-: 31 Read\n", 4),
    ('"$p" canon g.gr <&-', ROADS_CANON, b"", 0),
    ('"$p" compare g.gr - <&-', b"", b"-: 31 Read\n", 4),
    ('"$p" check g.gr --with - <&-', b"", b"-: 31 Read\n", 4),
    ('"$p" canon g.gr 2>&-', ROADS_CANON, b"", 0),
    ('"$p" canon n.max 2>&-', b"", b"", 2),
    ('"$p" 2>&- <&-', b"", b"", 4),
    ('"$p" canon n.max >&- 2>&- <&-', b"", b"", 2),
    ('"$p" canon g.gr >&- 2>&- <&-', b"", b"", 4),
    ('"$p" canon n.max 2> /dev/full', b"", b"", 2),
    ('"$p" canon n.max > /dev/full', b"", b"n.max:5: 17 SumTooLarge\n", 2),
    ('"$p" canon g.gr > /dev/full 2> /dev/full', b"", b"", 4),
    ('"$p" canon --form 3 g.gr 2>&-', b"", b"", 3),
    ('mkdir folder; "$p" < folder', b"", b"-: 31 Read\n", 4),
]
# Each output is shorter than the buffer, so a full device fails only as the program flushes.
KINDS = ["g.gr", "h.min", "w.max", "s.ss", "q.p2p", "v.co"]
WRITING = [f"{command} {name}" for command in ["canon", "show", "check"] for name in KINDS]
WRITING += [f"compare {name} {name}" for name in KINDS] + ["canon --form 2 h.min", "check g.gr --with s.ss"]
WRITING += ["compare g.gr c.gr", "compare g.gr h.min", "help", "-V"]
BY_SHELL += [(f'"$p" {it} {to}', b"", b"out: 33 Write\n", 4) for it in WRITING for to in [">&-", "> /dev/full"]]
BAD = said(b"", b"dnorm: bad command line\n", 3)
# Words that name texts, what standard input has, and the answer. FOLDER is the folder of the files.
NAMES: list[tuple[list[str | bytes], bytes, Answer]] = [
    (["canon", "-"], ROADS, said(ROADS_CANON)),
    (["canon", "--", "-"], ROADS, said(ROADS_CANON)),
    (["compare", "-", "c.gr"], ROADS, said(b"same\n")),
    (["check", "c.gr", "--with", "-"], FILES["s.ss"], said(b"accepted sp\nfits ss\nforms 1 2\n")),
    (["canon", "a b c.gr"], b"", said(ROADS_CANON)),
    (["canon", "--", "-x"], b"", said(ROADS_CANON)),
    (["canon", "./-x"], b"", said(ROADS_CANON)),
    (["canon", "./-"], b"", said(COSTS_ONE)),
    (["canon", "FOLDER/g.gr"], b"", said(ROADS_CANON)),
    (["canon", "-x"], b"", BAD),
    (["canon", ""], b"", said(b"", b": 31 Read\n", 4)),
    ([b"canon", b"\xff"], b"", BAD),
    ([b"\xff", b"g.gr"], b"", BAD),
    ([b"check", b"g.gr", b"--with", b"s\xc3.ss"], b"", BAD),
]


@pytest.fixture(autouse=True)
def files(folder: str) -> None:
    """Makes the files."""
    for name, text in FILES.items():
        write(name, text)


@pytest.fixture
def starts(tested: str) -> Iterator[Starts]:
    started: list[subprocess.Popen[bytes]] = []

    def start(*words: str, **streams: Any) -> subprocess.Popen[bytes]:
        started.append(subprocess.Popen([tested, *words], **streams))
        return started[-1]

    yield start
    for it in started:
        it.kill()
        it.wait()


@pytest.mark.parametrize("words, out, err, status", COMMANDS, ids=[it[0] for it in COMMANDS])
def test_command(tested: str, words: str, out: bytes, err: bytes, status: int) -> None:
    assert run([tested, *words.split()]) == Answer(out, err, status)


@pytest.mark.parametrize("words", ["--help", "-h", "help", "help check", "compare --help", "show -h"])
def test_help(tested: str, words: str) -> None:
    found = run([tested, *words.split()])
    assert (b"Usage: dnorm" in found.out, found.err, found.status) == (True, b"", 0)


@pytest.mark.parametrize("words, given, answer", NAMES, ids=[" ".join(map(str, words)) for words, _, _ in NAMES])
def test_name(tested: str, folder: str, words: list[str | bytes], given: bytes, answer: Answer) -> None:
    own: list[str | bytes] = [it.replace("FOLDER", folder) if isinstance(it, str) else it for it in words]
    assert run([tested, *own], given) == answer


def test_no_words(tested: str) -> None:
    assert run([tested], ROADS) == said(ROADS_CANON)
    with open("g.gr", "rb") as file:
        ran = subprocess.run([tested], stdin=file, capture_output=True, timeout=LIMIT, check=False)
    assert Answer(ran.stdout, ran.stderr, ran.returncode) == said(ROADS_CANON), "standard input from a file"


@pytest.mark.parametrize("name", ["folder", "missing", "g.gr/x", "x" * 5000], ids="{:.20}".format)
def test_unreadable(tested: str, name: str) -> None:
    os.mkdir("folder")
    assert run([tested, "canon", name]) == said(b"", f"{name}: 31 Read\n", 4)


def test_permission(tested: str) -> None:
    # Root may read all files, so another user runs a copy of the program.
    other: dict[str, Any] = {"user": 65534, "group": 65534, "extra_groups": []} if os.geteuid() == 0 else {}
    with own_folder("host") as place:
        os.chmod(place, 0o755)
        for name, mode in [("open.gr", 0o644), ("closed.gr", 0)]:
            write(f"{place}/{name}", ROADS)
            os.chmod(f"{place}/{name}", mode)
        copied = shutil.copy(tested, f"{place}/program")
        os.chmod(copied, 0o755)
        assert run([copied, "canon", "open.gr"], cwd=place, **other) == said(ROADS_CANON)
        assert run([copied, "canon", "closed.gr"], cwd=place, **other) == said(b"", b"closed.gr: 31 Read\n", 4)


@pytest.mark.parametrize("line, out, err, status", BY_SHELL, ids=[it[0] for it in BY_SHELL])
def test_streams(tested: str, line: str, out: bytes, err: bytes, status: int) -> None:
    """Streams that are closed, full or broken."""
    assert run(["bash", "-c", line], env={**os.environ, "p": tested}) == Answer(out, err, status)


@pytest.mark.parametrize("command", ["canon", "show"])
def test_leaving_reader(starts: Starts, command: str) -> None:
    """The reader of a pipe closes it before everything is written."""
    count = 30000
    write("long.gr", f"p sp {count} {count}\n" + "".join(f"a {i} {i} 1\n" for i in range(1, count + 1)))
    started = starts(command, "long.gr", stdout=subprocess.PIPE, stderr=subprocess.PIPE)
    out = pipe(started.stdout)
    out.read(10)
    out.close()
    err = pipe(started.stderr).read()
    assert Answer(b"", err, started.wait(LIMIT)) == said(b"", b"out: 33 Write\n", 4)


def test_nobody_reads_errors(starts: Starts) -> None:
    reading, writing = os.pipe()
    os.close(reading)
    started = starts("canon", "n.max", stdout=subprocess.PIPE, stderr=writing)
    os.close(writing)
    out = pipe(started.stdout).read()
    assert Answer(out, b"", started.wait(LIMIT)) == said(status=2)


def waiting(stream: IO[bytes]) -> int:
    """Returns the number of bytes in a pipe."""
    return int.from_bytes(fcntl.ioctl(stream, termios.FIONREAD, bytes(4)), sys.byteorder)


@pytest.mark.parametrize("command, out", [("canon", ROADS_CANON), ("show", ROADS_SHOWN)], ids=["canon", "show"])
def test_slow_pipe(starts: Starts, command: str, out: bytes) -> None:
    """A named pipe gives a byte at a time."""
    os.mkfifo("pipe")
    started = starts(command, "pipe", stdout=subprocess.PIPE, stderr=subprocess.PIPE)
    with open("pipe", "wb", buffering=0) as into:
        for byte in ROADS:
            into.write(bytes([byte]))
            while waiting(into):
                time.sleep(0.0002)
    assert Answer(*started.communicate(timeout=LIMIT), started.returncode) == said(out)


@pytest.mark.parametrize("command", ["canon", "show", "check"])
def test_open_pipe(starts: Starts, command: str) -> None:
    """A run that refuses a text reads no more of it: it ends while the pipe is still open, and would block else."""
    started = starts(command, "-", stdin=subprocess.PIPE, stdout=subprocess.PIPE, stderr=subprocess.PIPE)
    pipe(started.stdin).write(b"p sp 2 1\na 1 3 5\n")
    pipe(started.stdin).flush()
    status = started.wait(LIMIT)
    found = Answer(pipe(started.stdout).read(), pipe(started.stderr).read(), status)
    assert found == said(b"", b"-:2: 13 NodeOutOfRange\n", 2)


def test_long_comment(starts: Starts) -> None:
    """A comment of 2 GB takes no more memory than a short one."""
    need_proc()
    started = starts("canon", "-", stdin=subprocess.PIPE, stdout=subprocess.PIPE, stderr=subprocess.PIPE)
    part = b"c " * 500_000
    for _ in range(2000):
        pipe(started.stdin).write(part)
    pipe(started.stdin).flush()
    with open(f"/proc/{started.pid}/status", encoding="utf-8") as lines:
        peak = next((int(it.split()[1]) for it in lines if it.startswith("VmHWM:")), 0)
    out, err = started.communicate(b"\n" + ROADS, timeout=LIMIT)
    assert Answer(out, err, started.returncode) == said(ROADS_CANON)
    assert 0 < peak < 20_000, "kB"


def is_started(tested: str, level: int) -> bool:
    """Whether the program starts with this memory, in kB."""
    found = within(level, [tested, "canon", "g.gr"])
    return found is not None and 0 <= found.status <= 4


def test_little_memory(tested: str) -> None:
    """With little memory the answer is right, or out of memory: a status of 4, and nothing on standard output."""
    count = 20000
    arcs = "".join(f"a {i * 7919 % count + 1} {i % 5 + 1} {i}\n" for i in range(count))
    write("many.gr", f"p sp {count} {count}\n{arcs}")
    costs = "".join(f"a 1 2 0 1 {i * 7919 % count}\n" for i in range(count))
    write("many.min", f"p min 2 {count}\n{costs}")
    # The memory of a start varies by some kB.
    least = least_level(lambda level: is_started(tested, level)) + 64
    levels = [least + 200 * i for i in range(12)] + [least + 40_000]
    for words in LARGE:
        right, wants = run([tested, *words.split()]), 0
        told = [said(b"", f"{name}: 30 Memory\n", 4) for name in ["dnorm", *words.split()[1:]]]
        for level in levels:
            found = within(level, [tested, *words.split()])
            wants += found in told
            assert found in [right, *told], f"{words} in {level} kB"
        assert words == "help" or 0 < wants < len(levels), f"{words}: some levels have too little memory, some enough"


@pytest.mark.parametrize("name", LONG)
def test_little_stack(tested: str, name: str) -> None:
    """Long texts need little stack. The environment is on the stack, so it is empty."""
    limit, (head, line) = (STACK * 1024, STACK * 1024), LONG[name]
    lines = [line.replace("I", str(i * 7919 % COUNT + 1)) for i in range(COUNT)]
    write(name, "\n".join([head.replace("N", str(COUNT)), *lines, ""]))
    for words in ["canon NAME", "show NAME", "check NAME", "compare NAME NAME", "canon --form 2 NAME"]:
        own = words.replace("NAME", name).split()
        found = run([tested, *own], env={}, preexec_fn=lambda: resource.setrlimit(resource.RLIMIT_STACK, limit))
        assert (found.err, found.status) == (b"", 0), words
