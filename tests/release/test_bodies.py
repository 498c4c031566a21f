"""tools/wrong-bodies on a small crate, with edits that are to be refused and others that are to fail: what it tells of
each, that it keeps what was refused and takes no damaged result, what it says of wrong arguments, and that it leaves
nothing behind if a signal ends it. And tools/prover.py, which proves functions of this crate."""

import contextlib
import glob
import os
import re
import shutil
import signal
import subprocess
import time
from collections.abc import Iterator

import pytest
from needs import need
from shared import LIMIT, ROOT, Answer, bytes_of, make, said, text_of, write

# How long a run of the script may take, in seconds.
MOST = 600

pytestmark = [pytest.mark.slow, pytest.mark.proof]
CRATE = {
    "crates.txt": "# A crate.\nsmall:\n",
    "crates/small/src/lib.rt": """// Numbers after others.
#![tactic(auto)]
ghost use Rattle.std.specs.Prelude.{◌≡◌, ◌+◌};

const ONE: u32 = 1;

/// Returns the number after `n`.
pub fn next(n: u8) -> u32
    ensures { result ≡ n + 1 }
{
    n as u32 + ONE
}

/// Returns the second number after `n`.
pub fn second(n: u8) -> u32
    ensures { result ≡ n + 2 }
{
    next(n) + 1
}

/// Counts up to `n`.
pub fn counted(n: u8) -> u32
    ensures { result ≡ n }
{
    let mut count = 0u32;
    for i in 0..n { count = i as u32 + 1; }
    count
}

/// Returns the third number after `n`.
pub fn third(n: u8) -> u32
    ensures { result ≡ n + 3 }
{
    second(n) + 1
}
""",
    "crates/small/proofs/counted/Invariants.antt": """use Rattle.std.proofs.Common.{◌≡◌}
use Rattle.small.proofs.counted.Given as goal

abbrev pub invariant-loop-i : goal.invariant-loop-i
invariant-loop-i l = l.count ≡ l.i
""",
    "crates/small/proofs/second/Answers.antt": """use Rattle.std.proofs.Common.{rules}
use Rattle.small.proofs.second.Goals as goal

pub returns : goal.returns
returns c = search rules
""",
}
# Edits by name: an old text, a new one, and what is told of the edit. `alike` stands in a function that calls that of
# `other-number`, both are tried beside one another, and only the latter is refused.
EDITS = {
    "alike": ("second(n) + 1", "1 + second(n)", "FAILED: it is still proved"),
    "constant": ("ONE: u32 = 1", "ONE: u32 = 2", "refused by next, returns at src/lib.rt:8"),
    "no-code": ("second(n) + 1", "fourth(n) + 1", r"FAILED: it does not compile: src/lib.rt:34:5: error\[.*"),
    "other-name": ("for i in 0..n { count = i as u32 + 1; }", "for k in 0..n { count = k as u32 + 1; }",
                   "FAILED: it takes away a name that a proof file cites: counted, invariant-loop-i: .*"),
    "other-number": ("next(n) + 1", "next(n) + 2", "refused by second, the answer of returns"),
    "twice": ("n: u8", "n: u16", "FAILED: it cannot be applied: 'n: u8' stands 4 times in 'src/lib.rt'"),
    "two-ways": ("next(n) + 1", "if n == 0 { 2 } else { next(n) + 1 }",
                 "FAILED: it takes away a name that a proof file cites: second, returns: .*"),
}  # fmt: skip
REFUSED = ["constant", "other-number"]


class Tried:
    """A repository of the small crate, with a folder for what the script keeps and one for what it leaves behind."""

    def __init__(self, top: str) -> None:
        self.top, self.kept, self.left = top, f"{top}/cache/dnorm/wrong-bodies", f"{top}/left"
        self.folder = f"{top}/crates/small/wrong-bodies"
        self.environment = {**os.environ, "XDG_CACHE_HOME": f"{top}/cache", "TMPDIR": self.left}
        for folder in [f"{top}/tools", self.folder, self.left]:
            os.makedirs(folder)
        for it in ["edits.py", "kit.py", "prover.py", "tally.py", "usage.py", "wrong-bodies"]:
            shutil.copy(f"{ROOT}/tools/{it}", f"{top}/tools/{it}")
        make({f"{top}/{path}": text for path, text in CRATE.items()})
        self.words = [f"{top}/tools/wrong-bodies", "--checked"]

    def edit(self, *names: str) -> None:
        """Makes these edits, and no others."""
        shutil.rmtree(self.folder)
        os.mkdir(self.folder)
        for it in names:
            old, new, _ = EDITS[it]
            write(f"{self.folder}/{it}.edit", f"An edit.\nfile: src/lib.rt\nold: {old}\nnew: {new}\n")

    def run(self, *words: str) -> tuple[Answer, dict[str, str]]:
        """Runs the script. Returns its answer, and what it tells of each edit."""
        words = (*self.words, *words)
        ran = subprocess.run(words, env=self.environment, capture_output=True, timeout=MOST, check=False)
        told = re.findall(r"^small/(\S+)\.edit: (.*)$", ran.stdout.decode(), re.M)
        return Answer(ran.stdout, ran.stderr, ran.returncode), dict(told)


@pytest.fixture
def tried(folder: str, heeded: None) -> Tried:
    need("rt")
    return Tried(folder)


def test_tells(tried: Tried) -> None:
    """Tries all edits, and then those that are refused, also with a damaged result."""
    tried.edit(*EDITS)
    ran, told = tried.run()
    assert sorted(told) == sorted(EDITS), "edits that are told of"
    for name, (_, _, wanted) in EDITS.items():
        assert re.fullmatch(wanted, told.get(name, "")), f"{name}: {told.get(name)}"
    assert ran.out.splitlines()[-1:] == [b"2 passed, 5 failed"], "last line"
    assert (ran.status, ran.err) == (1, b""), "status"
    tried.edit(*REFUSED)
    ran, told = tried.run("small")
    assert [name for name, it in sorted(told.items()) if it.endswith(", in an earlier run")] == REFUSED, "edits kept"
    assert (ran.out.splitlines()[2:], ran.status) == ([b"2 passed, 0 failed"], 0), "their number and checks"
    for name in os.listdir(tried.kept):
        text = text_of(f"{tried.kept}/{name}")
        write(f"{tried.kept}/{name}", text.replace("next", "text"))
    ran, told = tried.run()
    kept = {name: it.endswith(", in an earlier run") for name, it in told.items()}
    assert (kept, ran.status) == ({"constant": False, "other-number": True}, 0), "a damaged result"


def test_proves(tried: Tried) -> None:
    """Proves one function and what it calls, one with a wrong body, and all; and asks for what is not there."""

    def proved(*words: str) -> Answer:
        ran = subprocess.run(
            [f"{tried.top}/tools/prover.py", "check", *words], capture_output=True, timeout=MOST, check=False
        )
        return Answer(ran.stdout, ran.stderr, ran.returncode)

    def verdicts(ran: Answer) -> list[bytes]:
        return sorted(re.findall(rb"^fn small::(\w+: proved)$", ran.out + ran.err, re.M))

    ran = proved("small", "--only", "second")
    assert (ran.status, verdicts(ran)) == (0, [b"next: proved", b"second: proved"]), "one function"
    ran = proved("small")
    functions = [b"counted: proved", b"next: proved", b"second: proved", b"third: proved"]
    assert (ran.status, verdicts(ran)) == (0, functions), "all functions"
    source = f"{tried.top}/crates/small/src/lib.rt"
    text = text_of(source)
    write(source, text.replace("next(n) + 1", "next(n) + 2"))
    ran = proved("small", "--only", "second")
    assert (ran.status == 0, verdicts(ran)) == (False, [b"next: proved"]), "a wrong body"
    write(source, text)
    write(f"{tried.top}/crates.txt", "base:\nsmall: base\n")
    ran = proved("small")
    assert (ran.status, ran.err.startswith(b"dnorm: base is not proved here")) == (1, True), "no library below"
    ran = proved("large")
    assert (ran.status, ran.err.startswith(b"prover.py: it takes a verb and a crate")) == (2, True), "no such crate"
    write(f"{tried.top}/crates.txt", CRATE["crates.txt"])


def commands() -> Iterator[bytes]:
    """Yields the commands that run."""
    for it in glob.glob("/proc/[0-9]*/cmdline"):
        # One may end meanwhile.
        with contextlib.suppress(OSError):
            yield bytes_of(it)


def test_ends(tried: Tried) -> None:
    """Ends a run by a signal while a check runs, and looks for what is left of it."""
    tried.edit("constant")
    process = subprocess.Popen([*tried.words, "--anew"], env=tried.environment, stdout=subprocess.DEVNULL)
    most = time.monotonic() + LIMIT
    while not (began := [at for at, _, names in os.walk(tried.left) if "printed" in names]) and time.monotonic() < most:
        time.sleep(0.05)
    process.send_signal(signal.SIGTERM)
    assert process.wait(LIMIT) == 128 + signal.SIGTERM, "status after a signal"
    assert (len(began), os.listdir(tried.left)) == (1, []), "checks that were ended, and what is left"
    # What was killed may take a moment to end.
    most = time.monotonic() + LIMIT
    while (left := [it for it in commands() if tried.left.encode() in it]) and time.monotonic() < most:
        time.sleep(0.05)
    assert left == [], "checks that go on"


@pytest.mark.parametrize(
    "word, line, status",
    [
        ("large", "wrong-bodies: crates.txt has no crate large\n", 1),
        ("--al", "wrong-bodies: unknown word --al: --help says what there is\n", 2),
    ],
)
def test_wrong_words(tried: Tried, word: str, line: str, status: int) -> None:
    ran, _ = tried.run(word)
    assert ran == said("", line, status)
