"""The built program on texts at the limits of the formats, truncated texts and adversarial texts. Every byte value at
each place of a small text of each kind, and every prefix of some texts, are compared with the second reading in
reading.py; in a quick run some byte values stand for all. Numbers and bytes at the limits are read at once and one byte
a pull, and some texts in pieces of each size. Declared counts that are not met take no memory. Texts made to take long
do not; bench/measure hostile measures how long they take."""

import fcntl
import functools
import os
import random
import subprocess
import termios
import time
from collections.abc import Iterable, Iterator

import pytest
from known import CAPACITIES, FLOWS, ROADS, WIDE, WIDE_SHOWN
from reading import MOST, Fault, Item, canonical, read
from shared import LIMIT, Answer, Quick, Words, least_level, pipe, run, said, within, write

SOURCES = b"p aux sp ss 3\ns 5\ns 2\ns 5\n"
# A text of each kind, of which each byte is changed.
SMALL = [
    b"p min 2 1\nn 2 5\na 1 2 1 3 4\n",
    b"p max 2 1\nn 1 s\nn 2 t\na 1 2 3\n",
    b"p sp 2 1\na 1 2 3\n",
    b"p aux sp ss 1\ns 2\n",
    b"p aux sp p2p 1\nq 1 2\n",
    b"p aux sp co 1\nv 1 2 3\n",
]
# The byte values by which each byte of these is changed, and those that stand for them: what ends and parts words, what
# numbers and letters are made of, and what follows these.
BYTES, SOME = bytes(range(256)), b"\0\t\n\v\r !+,-./01289:abcnpqstvx\x7f\x80\xff"
# Texts of which every prefix is refused, except the whole text and the text without its last LF.
CUT = [FLOWS, CAPACITIES, ROADS, SOURCES, b"p aux sp co 2\nv 3 -73530767 41085396\nv 1 5 -6\n"]

WIDE_CANON = (
    b"p min 2 2\na 1 2 4611686018427387904 4611686018427387904 -2\n"
    b"a 1 2 4611686018427387903 4611686018427387903 -1\n"
)
# Arguments, a text on standard input, the expected standard output and standard error, and the status. `far.co` names
# the greatest node.
EDGES = [
    ("canon -", WIDE, WIDE_CANON, b"", 0),
    ("canon --form 2 -", WIDE, WIDE_CANON, b"", 0),
    ("show -", WIDE, WIDE_SHOWN, b"", 0),
    ("canon -", b"p sp 9223372036854775807 0\n", b"p sp 9223372036854775807 0\n", b"", 0),
    ("canon -", b"p sp 1 9223372036854775807\n", b"", b"-:end: 20 TooFewLines\n", 2),
    ("canon -", b"\xef\xbb\xbfp sp 0 0\n", b"", b"-:1: 1 BadLine\n", 2),
    ("canon -", b"p sp 0 0\rp sp 0 0\n", b"", b"-:1: 8 FieldCount\n", 2),
    ("canon -", b"p sp 1 1\na 1 1\x0b1\n", b"", b"-:2: 8 FieldCount\n", 2),
    ("canon -", b"p sp 1 1\na 1 1 1\x00\n", b"", b"-:2: 9 NotANumber\n", 2),
    ("canon -", b"c\xff\x00\x80\np sp 0 0\n", b"p sp 0 0\n", b"", 0),
    ("check - --with far.co", ROADS, b"", b"far.co: 35 NotInGraph 9223372036854775807\n", 2),
]
FAR = b"p aux sp co 1\nv 9223372036854775807 0 0\n"

# Arguments, a text with large declared numbers, and one with small ones, which takes as much memory.
DECLARED = [
    *[("canon -", f"p {kind} {MOST} {MOST}\n", f"p {kind} 0 0\n") for kind in ["sp", "min"]],
    *[(f"{words} -", f"p sp {MOST} {MOST}\n", "p sp 0 0\n") for words in ["show", "check", "compare zero.gr"]],
    ("canon -", f"p max {MOST} {MOST}\nn 1 s\nn {MOST} t\n", "p max 2 0\nn 1 s\nn 2 t\n"),
    *[("canon -", f"p aux sp {kind} {MOST}\n", f"p aux sp {kind} 0\n") for kind in ["ss", "p2p", "co"]],
    ("canon -", f"p sp {MOST} 1\na {MOST} {MOST} 5\n", "p sp 1 1\na 1 1 5\n"),
    ("canon -", f"p min {MOST} 1\nn {MOST} 5\na 1 {MOST} 5 {MOST} 5\n", "p min 2 1\nn 2 5\na 1 2 5 9 5\n"),
]
# How much the memory of a start varies, in kB.
SLACK = 64

# The number of arcs or lines of the texts that are made to take long, and the number of bytes of the long lines.
COUNT, LONG = 200_000, 20_000_000
# The greatest ratio of the time per byte of a text to that of a plain one. If each arc looked at all earlier arcs, at a
# nanosecond each, the ratio would be above a hundred.
TIMES = 20


def reads(often: Quick, text: bytes, form: int) -> bool:
    """Runs the program on a text, and compares with reading.py. Returns whether the text is accepted."""
    try:
        answer = said(canonical(read(text), form))
    except Fault as fault:
        answer = said(b"", f"-:{fault.line}\n", 2)
    found = often.run("canon", f"--form={form}", "-", given=text)
    assert found == answer, f"canon --form={form} of {text!r}"
    return answer.status == 0


@pytest.mark.parametrize("text", SMALL, ids=repr)
def test_every_byte(often: Quick, quick: bool, text: bytes) -> None:
    """Other byte values at each place of a small text."""
    for at in range(len(text)):
        for byte in SOME if quick else BYTES:
            if byte != text[at]:
                reads(often, text[:at] + bytes([byte]) + text[at + 1 :], 1 + (at + byte) % 2)


@pytest.mark.parametrize("text", CUT, ids=repr)
def test_every_prefix(often: Quick, text: bytes) -> None:
    """Only the whole text is accepted, with or without its last LF."""
    accepted = [size for size in range(len(text) + 1) if reads(often, text[:size], 1 + size % 2)]
    assert accepted == [len(text) - 1, len(text)]


def by_pieces(words: Words, text: bytes, size: int) -> Answer:
    """Runs a program that gets this number of bytes of the text at each pull."""
    started = subprocess.Popen(words, stdin=subprocess.PIPE, stdout=subprocess.PIPE, stderr=subprocess.PIPE)
    with pipe(started.stdin) as into:
        try:
            for at in range(0, len(text), size):
                os.write(into.fileno(), text[at : at + size])
                while started.poll() is None and any(fcntl.ioctl(into, termios.FIONREAD, bytes(4))):
                    time.sleep(0.0001)
        except BrokenPipeError:
            pass  # The program has reported a fault, and reads no more.
    out, err = pipe(started.stdout).read(), pipe(started.stderr).read()
    return Answer(out, err, started.wait(LIMIT))


@pytest.mark.parametrize("line, text, out, err, status", EDGES, ids=[f"{it[0]} of {it[1]!r:.40}" for it in EDGES])
def test_limits(tested: str, folder: str, line: str, text: bytes, out: bytes, err: bytes, status: int) -> None:
    """Numbers and bytes at the limits, read at once and one byte a pull."""
    write("far.co", FAR)
    words, answer = [tested, *line.split()], Answer(out, err, status)
    assert run(words, text) == answer
    assert by_pieces(words, text, 1) == answer, "a byte a pull"


@pytest.mark.parametrize("text", CUT, ids=repr)
def test_short_pulls(tested: str, text: bytes) -> None:
    """Texts in pieces of each size, from one byte to one more than the longest of them has."""
    words = [tested, "canon", "--form=2", "-"]
    whole = run(words, text)
    for size in range(1, max(map(len, CUT)) + 2):
        assert by_pieces(words, text, size) == whole, f"{size} bytes a pull"


def answers(level: int, words: Words, text: bytes, wanted: Answer) -> bool:
    """Whether a program gives this answer with this memory, in kB."""
    return within(level, words, text) == wanted


@pytest.mark.parametrize("line, large, small", DECLARED, ids=[f"{it[0]} of {it[1]!r:.40}" for it in DECLARED])
def test_declared(tested: str, folder: str, line: str, large: str, small: str) -> None:
    """Declared counts take no memory: the least memory for a small text is enough. (The greatest resident size would be
    less exact: the host counts it from that of the process that starts the program.)"""
    write("zero.gr", b"p sp 0 0\n")
    words = [tested, *line.split()]
    answer, wanted = run(words, large.encode()), run(words, small.encode())
    assert answer.status in (0, 1, 2)
    level = SLACK + least_level(functools.partial(answers, words=words, text=small.encode(), wanted=wanted))
    assert within(level, words, large.encode()) == answer, f"{level} kB"


def arcs(kind: str, nodes: int, rows: Iterable[Item]) -> bytes:
    """Returns a graph with these arcs, each the numbers of its line."""
    lines = [" ".join(map(str, it)) for it in rows]
    heads = {"max": "n 1 s\nn 2 t\n"}.get(kind, "")
    return f"p {kind} {nodes} {len(lines)}\n{heads}a ".encode() + "\na ".join(lines).encode() + b"\n"


def long_texts() -> Iterator[tuple[str, bytes]]:
    """Yields texts made to take long, with their names. The first one is plain."""
    chance, count = random.Random(COUNT), COUNT
    shuffled = chance.sample(range(count), count)
    few = b"p sp 2 1\na 1 2 3\n"
    yield "random pairs", arcs("sp", count, [(1 + it, 1 + it * 7 % count, it % 1000) for it in shuffled])
    yield "one pair", arcs("sp", 2, [(1, 2, 1000 - it % 1000) for it in range(count)])
    yield "one pair of max", arcs("max", 2, [(1, 2, it % 1000) for it in range(count)])
    yield "falling pairs", arcs("sp", count, [(count - it // 4, 4 - it % 4, 5) for it in range(count)])
    ends = [it // 2 + 1 if it % 2 else count - it // 2 for it in range(count)]
    yield "alternating ends", arcs("sp", count, [(it, ends[-1 - at], 5) for at, it in enumerate(ends)])
    # 4 * tail + head is the same for all of them.
    yield "one sum of nodes", arcs("sp", 4 * count, [(1 + it, 4 * (count - it) - 3, 5) for it in shuffled])
    yield "one tail", arcs("sp", count, [(1, 1 + it, 5) for it in shuffled])
    yield "falling costs", arcs("min", 2, [(1, 2, it % 3, 9, count - it) for it in range(count)])
    yield "costs in no order", arcs("min", 2, [(1, 2, it % 3, 9, it) for it in shuffled])
    lines = [f"{count - it} 5" for it in range(count)]
    yield "falling node lines", "\n".join([f"p min {count} 0", *[f"n {it}" for it in lines], ""]).encode()
    yield "falling points", "\n".join([f"p aux sp co {count}", *[f"v {it} 5" for it in lines], ""]).encode()
    yield "a long comment", b"c" + b" 1" * (LONG // 2) + b"\n" + few
    yield "long blanks", few[:-2] + b" " * LONG + b"3\n"
    yield "a long number", few[:-2] + b"0" * LONG + b"3\n"
    yield "empty lines", b"\n" * (LONG // 2) + few


def time_of(words: Words, path: str) -> tuple[int, float]:
    """Returns the status and the processor time of a run on a file."""
    with open(path, "rb") as file:
        started = subprocess.Popen(words, stdin=file, stdout=subprocess.DEVNULL)
        _, status, usage = os.wait4(started.pid, 0)
        started.returncode = os.waitstatus_to_exitcode(status)
    return started.returncode, usage.ru_utime + usage.ru_stime


@pytest.mark.alone
def test_adversarial(tested: str, folder: str) -> None:
    """Adversarial texts take about as much time per byte as a plain one, within a wide bound."""
    plain = 0.0
    for name, text in long_texts():
        write("long", text)
        (status, spent), (_, again) = [time_of([tested, "canon", "-"], "long") for _ in range(2)]
        each = min(spent, again) / len(text)
        plain = plain or each
        assert status == 0 and each <= TIMES * plain, f"{name}: {each / plain:.1f} times the time of a plain text"
