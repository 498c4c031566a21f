"""Tests the calls of the Python package on examples/refused and on random texts, with files as paths, bytes, streams
and compressed files, also beside the program, and with too little memory."""

import bz2
import contextlib
import gzip
import importlib.util
import io
import lzma
import multiprocessing
import os
import pickle
import random
import re
import signal
import sys
from collections import Counter
from collections.abc import Callable
from concurrent.futures import ThreadPoolExecutor
from pathlib import Path
from typing import Any, Literal
from unittest import mock

import pytest
from known import CANONICAL, COSTS, ROADS, ROADS_CANON
from reading import COUNTED, Fault, Text, canonical, read
from shared import ROOT, Answer, bytes_of, run, write
from texts import lines_of, made, spelled

import dnorm

PACKAGE = f"{ROOT}/python/src"
FORMS: tuple[Literal[1, 2], ...] = (1, 2)
# How a test reads instances: the parameters of the fixture `reader`.
READS = [pytest.mark.slow, pytest.mark.usefixtures("reader")]
BOTH = pytest.mark.parametrize("reader", ["plain", "numpy"], indirect=True)
pytestmark = READS


def has_numpy() -> bool:
    """Whether numpy is found here."""
    return importlib.util.find_spec("numpy") is not None


COMPRESS: dict[str, Callable[[bytes], bytes]] = {".gz": gzip.compress, ".bz2": bz2.compress, ".xz": lzma.compress}
REFUSED = f"{ROOT}/examples/refused"
SEED, ROUNDS = 55, 150


def python(code: str, *words: str, **more: Any) -> Answer:
    """Runs this Python on this code, with the package."""
    own = {"PYTHONPATH": PACKAGE, "PYTHONDONTWRITEBYTECODE": "1"}
    return run([sys.executable, "-c", code, *words], env={**os.environ, **own}, **more)


def told(call: Callable[[], object]) -> str:
    """Returns the lines that the program prints where a call returns this, or else the kind and the line of the error
    that the call raises."""
    try:
        answer = call()
    except (dnorm.DnormError, TypeError, ValueError, OverflowError, MemoryError) as error:
        return f"{type(error).__name__}: {error}"
    if isinstance(answer, dnorm.Checked):
        fits = f"fits {answer.fits}\n" if answer.fits else ""
        return f"accepted {answer.kind}\n{fits}forms {' '.join(map(str, answer.forms)) or 'none'}\n"
    return answer.decode() if isinstance(answer, bytes) else f"{answer}\n"


def error_of(call: Callable[[], object], kind: type[dnorm.DnormError] = dnorm.Refused) -> Any:
    """Returns the error of this kind that a call raises."""
    with pytest.raises(kind) as caught:
        call()
    return caught.value


CALLS: dict[str, Callable[[dnorm.File], object]] = {
    "check": dnorm.check, "canon": dnorm.canon, "canon_to": lambda file: dnorm.canon_to(file, io.BytesIO()),
    "checksum": dnorm.checksum, "read": dnorm.read,
    "compare, left": lambda file: dnorm.compare(file, ROADS), "compare, right": lambda file: dnorm.compare(ROADS, file),
    "check, companion": lambda file: dnorm.check(ROADS, file),
}  # fmt: skip


@pytest.mark.parametrize("name", sorted(os.listdir(REFUSED)))
def test_refused(tested: str, name: str) -> None:
    """Every call with every text of examples/refused: as a path, bytes, a stream and compressed files. Errors name a
    path by itself, and what has no name by `-`."""
    text = bytes_of(f"{REFUSED}/{name}")
    line = run([tested, "check", f"{REFUSED}/{name}"]).err.decode().rpartition(f"{name}:")[2].rstrip()
    number, word = re.split("[-.]", name)[:2]
    assert line.partition(": ")[2] == f"{int(number)} {word}"
    write(name, text)
    for end, pack in COMPRESS.items():
        write(name + end, pack(text))
    for call, of in CALLS.items():
        for path in [name, *(name + end for end in COMPRESS)]:
            assert told(lambda: of(path)) == f"Refused: {path}:{line}", f"{call} of {path}"
        files: list[dnorm.File] = [text, io.BytesIO(text)]
        for file in files:
            assert told(lambda: of(file)) == f"Refused: -:{line}", f"{call} of a {type(file).__name__}"


def standing_in(library: str, **settings: object) -> contextlib.AbstractContextManager[object]:
    """Lets calls and commands read by the library of the fixture `stand_in`, with these settings."""
    return mock.patch.dict(os.environ, {"DNORM_LIBRARY": library, **{name: str(it) for name, it in settings.items()}})


def test_no_memory(stand_in: str) -> None:
    """Every call says that a text needs more memory than there is."""
    write("a.gr", ROADS)
    write("kept", b"old")
    with standing_in(stand_in, CODE=30):
        for call, of in CALLS.items():
            name = "-" if call == "compare, right" or call == "check, companion" else "a.gr"
            assert told(lambda: of("a.gr")) == f"Memory: {name}: 30 Memory", call
        assert told(lambda: dnorm.canon_to("a.gr", "kept")) == "Memory: a.gr: 30 Memory", "canon_to"
        assert told(lambda: dnorm.write(dnorm.from_arrays("ss", sources=[1]), "kept")) == "Memory: kept: 30 Memory"
    assert bytes_of("kept") == b"old", "what a file had"


def test_as_program(tested: str) -> None:
    """`check` and `compare` answer what the program prints, also of canonical texts and of texts near them."""
    chance = random.Random(SEED)
    texts = [text for row in CANONICAL for text in row]
    texts += [spelled(chance, lines_of(chance, made(chance, chance.choice([*COLUMNS])))) for _ in range(ROUNDS)]
    texts.append(b"p sp 20000 20000\n" + b"".join(b"a %d 1 7\n" % it for it in range(1, 20_001)))
    texts += [b"", b"p", b"c\n" + ROADS, ROADS_CANON + b"c\n", ROADS_CANON[:-1], b" " + ROADS_CANON]
    forms: Counter[str] = Counter()
    for at, text in enumerate(texts):
        ran = run([tested, "check", "-"], text)
        found = told(lambda: dnorm.check(text))
        assert found == (ran.out.decode() or f"Refused: {ran.err.decode()[:-1]}"), f"check {text!r:.80}"
        forms[found.partition("forms ")[2][:-1]] += 1
        write("other", texts[at - 1])
        ran = run([tested, "compare", "-", "other"], text)
        found = told(lambda: dnorm.compare(text, "other"))
        assert found == (ran.out.decode() or f"Refused: {ran.err.decode()[:-1]}"), f"compare {text!r:.80}"
    assert min(forms[it] for it in ("1 2", "1", "2", "none")) > 1, f"forms: {forms}"


# Names of files. The bytes of some are not UTF-8, and some look like the line of a refusal or an option.
NAMES = [
    "a b", " ", "x\ny", "-", "--", "-x", "--form", "a:7: 9 NotANumber", "b: 31 Read", "dnorm", "out", "é", "\\",
    "x" * 250,
]  # fmt: skip


def test_names() -> None:
    """Files of odd names, as str, as paths and in a folder."""
    for name in [*NAMES, os.fsdecode(b"\xff.gr"), os.fsdecode(b"a\x80\xfe\n")]:
        write(name, ROADS)
        files: list[str | Path] = [name, Path(name), f"./{name}", os.path.abspath(name)]
        for file in files:
            assert told(lambda: dnorm.check(file)) == "accepted sp\nforms none\n", f"check {file!r}"
            assert told(lambda: dnorm.compare(ROADS_CANON, file)) == "same\n", f"compare {file!r}"
            assert told(lambda: dnorm.check(file, file)) == f"Refused: {file}: 36 NotKinds", f"companion {file!r}"
        write(name, b"x\n")
        assert told(lambda: dnorm.check(name)) == f"Refused: {name}:1: 1 BadLine", f"check {name!r}"
        dnorm.canon_to(ROADS, name)
        assert bytes_of(name) == ROADS_CANON, f"canon_to {name!r}"
    os.mkdir("folder")
    reasons = {"": "No such file or directory", "folder": "Is a directory", "x/y": "No such file or directory"}
    reasons |= {"a b/c": "Not a directory", "a\0b": "embedded null byte", "y" * 300: "File name too long"}
    for name, reason in reasons.items():
        wanted = f"Read: {name}: 31 Read ({reason})"
        assert told(lambda: dnorm.check(name)) == wanted, f"check {name!r:.20}"
        assert told(lambda: dnorm.compare(ROADS, name)) == wanted, f"compare with {name!r:.20}"
    assert told(lambda: dnorm.compare(b"x", "missing")) == "Refused: -:1: 1 BadLine", "left before right"
    found = told(lambda: dnorm.check(5))  # type: ignore[arg-type]
    assert found == "TypeError: a file is a path, bytes, a binary stream or an instance, and not int", "a number"


def end_at_once() -> None:
    """Lets SIGTERM, by which a pool ends its processes, end this one. An exit could wait for another process."""
    signal.signal(signal.SIGTERM, signal.SIG_DFL)


def test_threads() -> None:
    """Calls from several threads, and from several processes."""
    texts = [b"p sp %d 0\n" % it for it in range(200)]
    with ThreadPoolExecutor(8) as pool:
        found = list(pool.map(lambda it: (dnorm.canon(it), str(dnorm.compare(it, io.BytesIO(texts[7])))), texts))
    wanted = [(it, "same" if at == 7 else f"differ nodes {at} 7") for at, it in enumerate(texts)]
    assert found == wanted, "calls from eight threads"
    with multiprocessing.get_context("fork").Pool(4, end_at_once) as processes:
        assert processes.map(dnorm.canon, texts) == texts, "calls from four processes"
        error = told(lambda: processes.map(dnorm.canon, [*texts, b"x\n"]))
        assert error == "Refused: -:1: 1 BadLine", "an error from another process"


def test_errors() -> None:
    """Errors can be pickled, and what they say of themselves."""
    found: list[dnorm.DnormError] = [dnorm.Refused("a.gr", 3, 13, "NodeOutOfRange")]
    found += [dnorm.Refused("a.gr", None, 18, "NoProblem"), dnorm.Refused("s.ss", None, 35, "NotInGraph", 7)]
    found += [dnorm.Memory("a.gr"), dnorm.Endless("a.gr")]
    found += [dnorm.Read("a.gr"), dnorm.Read("a.gr", "why"), dnorm.Write("out", "why"), dnorm.NoLibrary("lib", "why")]
    found += [dnorm.TimedOut("a.gr", 0.5), dnorm.Read("a.gr.gz", "why", "a hint")]
    found += [dnorm.Refused("a.gr", 3, 13, "NodeOutOfRange", None, "a 1 3 7", "NODES 2: nodes count from 1")]
    for error in found:
        again = pickle.loads(pickle.dumps(error))
        assert (type(again), str(again), vars(again)) == (type(error), str(error), vars(error)), f"{error!r}, pickled"
    lines = ["a.gr:3: 13 NodeOutOfRange", "a.gr:end: 18 NoProblem", "s.ss: 35 NotInGraph 7", "a.gr: 30 Memory"]
    lines += ["a.gr: 32 Endless", "a.gr: 31 Read", "a.gr: 31 Read (why)", "out: 33 Write (why)"]
    lines += ["lib: cannot be used (why)", "a.gr: took more than 0.5 seconds", "a.gr.gz: 31 Read (why)", lines[0]]
    assert [str(it) for it in found] == lines, "lines of errors"
    first = dnorm.Refused("a.gr", 3, 13, "NodeOutOfRange")
    assert first.sentence == "A node is not in 1 to NODES; in a companion, below 1.", "a sentence"
    conditions = [bool(dnorm.compare(ROADS, it)) for it in [ROADS_CANON, COSTS]]
    assert conditions == [True, False], "comparisons as conditions"


def rebuilt(it: dnorm.Instance) -> bytes:
    """Returns the canonical text that an instance was read from."""
    heads: list[str] = []
    if isinstance(it, dnorm.Min):
        heads = [f"n {node} {flow}" for node, flow in it.supplies.items()]
    if isinstance(it, dnorm.Max):
        heads = [f"n {it.source} s", f"n {it.sink} t"]
    names = COLUMNS[it.kind].split()
    letter = COUNTED[it.kind]
    items = [f"{letter} {' '.join(map(str, row))}" for row in zip(*(getattr(it, name).tolist() for name in names))]
    problem = f"p {it.kind} {it.nodes}" if isinstance(it, dnorm.Graph) else f"p aux sp {it.kind}"
    return "\n".join([f"{problem} {len(items)}", *heads, *items, ""]).encode()


COLUMNS = {
    "min": "tails heads lows caps costs", "max": "tails heads capacities", "sp": "tails heads lengths", "ss": "sources",
    "p2p": "sources targets", "co": "ids xs ys",
}  # fmt: skip


@BOTH
def test_columns() -> None:
    """The columns of instances: random ones, and ones whose texts have many pieces."""
    chance = random.Random(SEED)
    texts: list[Text] = []
    while len(texts) < ROUNDS:
        text = made(chance, chance.choice(list(COLUMNS)))
        with contextlib.suppress(Fault):
            texts.append(read(spelled(chance, lines_of(chance, text))))
    large = Text("min", 5000, flows={it: it for it in range(1, 5001)})
    large.items = [(it, it, 0, 1, -it) for it in range(1, 5001)]
    texts += [large, Text("co", items=[(it, -it, it) for it in range(1, 30_000)])]
    for text in texts:
        given = spelled(chance, lines_of(chance, text))
        for form in FORMS:
            found = dnorm.read(given, form)
            assert rebuilt(found) == canonical(text, form), f"read {given!r}, {form}"
            kinds = {type(getattr(found, it)).__name__ for it in COLUMNS[text.kind].split()}
            assert kinds == {"ndarray" if has_numpy() else "memoryview"}, "what columns are"
    assert repr(dnorm.read(ROADS)) == "<dnorm.Sp: 3 nodes, 5 arcs>", "an instance prints"
