"""Tests manifests: what they list, what verifying them says, which texts are none, and `--incremental`, which reads
only what is new or was written."""

import hashlib
import os
import shutil
import time

import pytest
from known import COSTS, FLOWS, ROADS
from shared import bytes_of, make, run, said, text_of, write
from test_calls import READS, python
from test_folders import FOUR, MISSING, SET, hidden, make_set, module, prints

import dnorm

pytestmark = READS
ZEROS, ONES = 64 * "0", 64 * "1"
# Texts that are no manifests, and why. H and J stand for checksums, and TAB for what follows the name of a file.
NO_LINE = "no manifest has the line "
NO_MANIFESTS = {
    "": "it lists no file", "# form 2\n": "it lists no file", "H  a\n\n": f"{NO_LINE}''", "H a\n": f"{NO_LINE}'H a'",
    "H  \n": f"{NO_LINE}'H  '", "# form 3\nH  a\n": f"{NO_LINE}'# form 3'", "HH  a\n": f"{NO_LINE}'HH  a'",
    "\\H  a\\x\n": rf"{NO_LINE}'\\H  a\\x'", "x  a\n": f"{NO_LINE}'x  a'",
    "# file 1 2 net\nH  a\n": f"{NO_LINE}'# file 1 2 net'", "<<<<<<< HEAD\nH  a\n": f"{NO_LINE}'<<<<<<< HEAD'",
    "# form 1, 2 files\nH  a\n": "its head says 2, and it lists 1: it is cut, or was edited",
    "# form 1, 1 file\nH  a\nH  b\n": "its head says 1, and it lists 2: it is cut, or was edited",
    "# form 1, 1 file\nH  a\n# form 1, 2 files\nJ  b\n": "its head says 3, and it lists 2: it is cut, or was edited",
    "# form 1, 2 files\nH  a\nH  b": "its last line has no end: it is cut",
    "H  a\r\nH  b\r\n": "its lines end in CR LF, and those of a manifest in LF",
    "# form 1\nH  a\n# form 2\nH  b\n": "it has checksums of both forms: keep two manifests",
    "H  a\nH  b\nH  a\n": "line 3 has the file of line 1 again",
    "H  a\nJ  a\n": "line 2 has another checksum of the file of line 1 again",
    "# form 1, 1 file\nH  aTAB\n": "line 2 is not as it was written; without what follows its tab, the file is read",
}  # fmt: skip
TAB = "\t# 1 2 3 4 5 0123456789abcdef"
ABOUT = ": checksums of canonical texts, for dnorm-files manifest --verify"
UNKNOWN_FORM = "it does not say its form, which is taken for 1"


def with_sums(text: str) -> str:
    return text.replace("H", ZEROS).replace("J", ONES).replace("TAB", TAB)


def sum_of(tested: str, text: bytes, form: str) -> str:
    """Returns the canonical checksum of a text."""
    return hashlib.sha256(run([tested, "canon", "--form", form, "-"], text).out).hexdigest()


def test_manifests(tested: str) -> None:
    """Manifests: what they list, and what verifying them says."""
    make_set()
    accepted = {name: text for name, (text, what) in SET.items() if "accepted" in what}
    refused = "set/bad.max:end: 19 MissingTerminal\nset/v.co:2: 5 WrongLine\n"
    for form in "12":
        lines = "".join(f"{sum_of(tested, text, form)}  {name}\n" for name, text in accepted.items())
        told = f"{refused}11 listed, 2 refused, 0 failed{FOUR}\n"
        prints(f"manifest --form {form} set", f"# form {form}, 11 files{ABOUT}\n{lines}", told, 2)
        same = "".join(f"{name}: same\n" for name in accepted)
        # The last two are of earlier versions.
        for head in [
            f"# form {form}, 11 files{ABOUT}\n",
            f"# form {form}, 11 files\n",
            f"# form {form}\n",
            *([""] if form == "1" else []),
        ]:
            write("list", head + lines)
            told = "" if head else f"list: {UNKNOWN_FORM}\n"
            prints("manifest --verify list", same, f"{told}11 the same, 0 different, 0 refused, 0 failed\n")
    changes = [("set/flow.min", FLOWS, ": differs", 1), ("set/s.ss", b"p\n", ":1: 4 UnknownProblem", 2)]
    changes.append(("set/roads.gr.gz", b"", ": 31 Read (the compressed data end too early)", 4))
    for name, text, what, status in changes:
        write(name, text)
        same = same.replace(f"{name}: same\n", f"{name}{what}\n")
        found = module("manifest", "--verify", "list")
        assert (found.out.decode(), found.status) == (same, status), f"a manifest with another {name}"
    assert found.err == b"8 the same, 1 different, 1 refused, 1 failed\n", "its counts"


def test_no_manifests() -> None:
    """Texts that are no manifests, each by both options that read one."""
    write("b.gr", ROADS)
    for other, reason in NO_MANIFESTS.items():
        write("other", with_sums(other))
        wanted = f"other: 31 Read ({with_sums(reason)})\n"
        for words in [["--verify", "other"], *([["--incremental", "other", "b.gr"]] if "H" in other else [])]:
            prints(["manifest", *words], "", wanted, 4)
    prints("manifest --verify missing", "", MISSING, 4)
    for name, reason in {"/dev/full": "No space left on device", "no/x": "No such file or directory"}.items():
        found = module("manifest", "--output", name, "b.gr")
        assert (found.err, found.status) == (f"{name}: 33 Write ({reason})\n".encode(), 4), f"a manifest in {name}"


def test_joined_manifests() -> None:
    """Manifests that are put together, sorted, compressed, or have names that look like marks."""
    odd = f"a{TAB}"
    make({"b.gr": ROADS, odd: ROADS, "c.gr": COSTS})
    time.sleep(AGE)
    module("manifest", "--incremental", "one", "b.gr", odd)
    module("manifest", "--output", "two", "c.gr")
    count = "3 the same, 0 different, 0 refused, 0 failed\n"
    for first, second in [("one", "two"), ("two", "one")]:
        write(f"{first}-{second}", bytes_of(first) + bytes_of(second))
        prints(f"manifest --verify {first}-{second} -q", "", count)
    write("sorted", b"".join(sorted(bytes_of("one-two").splitlines(True))))
    prints("manifest --verify sorted -q", "", count)
    for packed in ["both.gz", "both.xz"]:
        module("manifest", "--output", packed, "b.gr", odd, "c.gr")
        prints(f"manifest --verify {packed} -q", "", count)
    write("plain", bytes_of("both.gz"))
    found = module("manifest", "--verify", "plain")
    assert found.status == 4 and found.err.startswith(b"plain: 31 Read ("), "a compressed manifest of another name"


def test_kept_manifests() -> None:
    """A file that fails takes no entry out of a manifest."""
    make({f"set/{it}.gr": ROADS for it in "abc"})
    module("manifest", "--output", "list", "set")
    before = bytes_of("list")
    os.rename("set/b.gr", "b.gr")
    os.symlink("nowhere", "set/b.gr")
    for target in ["list", "new"]:
        wanted = (
            f"set/b.gr: 31 Read (No such file or directory)\n{target}: not written, since it would lack what failed\n"
        )
        wanted += "2 listed, 0 refused, 1 failed\n"
        prints(f"manifest --output {target} set", "", wanted, 4)
    assert (bytes_of("list"), os.path.exists("new"), hidden()) == (before, False, []), "the manifest"
    os.replace("b.gr", "set/b.gr")
    prints("manifest --verify list -q set", "", "3 the same, 0 different, 0 refused, 0 failed\n")
    write("set/c.gr", b"x\n")
    prints("manifest --output list set", "", "set/c.gr:1: 1 BadLine\n2 listed, 1 refused, 0 failed\n", 2)
    assert len(bytes_of("list").splitlines()) == 3, "its lines"


# How old a file is, in seconds, before it has a mark.
AGE = 2.1
BEGIN = "manifest --follow --incremental list set".split()
# What earlier versions wrote before the line of a file, also of before 1970.
OLD = [b"# file 12 1600000000000000000 sp\n", b"# file 12 -5000000000 sp\n"]


def rewritten(name: str, text: bytes) -> None:
    """Writes a file again, with its size and the time of writing that it had."""
    found = os.stat(name)
    assert found.st_size == len(text)
    write(name, text)
    os.utime(name, ns=(found.st_atime_ns, found.st_mtime_ns))


def moved(source: str, name: str) -> None:
    """Moves another file to this name, with the time of writing of that which had it, as `cp -p` and `mv` do."""
    found = os.stat(name)
    os.utime(source, ns=(found.st_atime_ns, found.st_mtime_ns))
    time.sleep(AGE)
    os.replace(source, name)


def test_renewed() -> None:
    """That `manifest --incremental` reads only what is new or was written, whatever its size, its time and its name
    are."""
    other = ROADS.replace(b"a 2 1 4", b"a 2 1 5")
    make({f"set/{it}.gr": ROADS for it in "abcd"} | {"aside.gr": other, "f/link.gr": ROADS, "g/link.gr": other})
    os.symlink("../f/link.gr", "set/link.gr")
    # A file of before 1970.
    write("set/past.gr", ROADS)
    os.utime("set/past.gr", ns=(-(10**18), -(10**18)))
    time.sleep(AGE)
    make({"set/fresh.gr": ROADS})
    prints(BEGIN, "", "7 listed, 0 refused, 0 failed\n")
    lines = text_of("list").splitlines()
    marked = [it[66:].partition("\t")[0] for it in lines if "\t# " in it]
    assert marked == [f"set/{it}.gr" for it in ("a", "b", "c", "d", "link")], "files with marks"
    # Where a run takes long, the file is no longer fresh.
    make({"set/fresh.gr": ROADS})
    prints(BEGIN, "", "2 listed, 5 unchanged, 0 refused, 0 failed\n")
    rewritten("set/a.gr", other)
    moved("aside.gr", "set/b.gr")
    times = os.stat("f/link.gr")
    os.utime("g/link.gr", ns=(times.st_atime_ns, times.st_mtime_ns))
    os.remove("set/link.gr")
    os.symlink("../g/link.gr", "set/link.gr")
    os.remove("set/c.gr")
    prints(BEGIN, "", "5 listed, 1 unchanged, 0 refused, 0 failed\n")
    sums = {it[66:].partition("\t")[0]: it[:64] for it in text_of("list").splitlines()[1:]}
    old, new = dnorm.checksum(ROADS), dnorm.checksum(other)
    wanted = {"a": new, "b": new, "d": old, "fresh": old, "link": new, "past": old}
    assert sums == {f"set/{it}.gr": checksum for it, checksum in wanted.items()}, "their checksums"
    found = module(*BEGIN, "--form", "2")
    assert (found.status, b"unchanged" in found.err) == (0, False), "another form is read"
    shutil.copytree("set", "elsewhere/set", copy_function=shutil.copy2)
    os.chdir("elsewhere")
    found = module("manifest", "--incremental", "../list", "--form", "2", "set/d.gr")
    assert b"unchanged" not in found.err, "another file of the same name, size and time"


def test_edited_marks() -> None:
    """A line with a mark is kept only as it was written; the marks of earlier versions are not believed."""
    make({"set/a.gr": ROADS, "set/b.gr": ROADS})
    time.sleep(AGE)
    module(*BEGIN)
    text = text_of("list")
    number = str(os.stat("set/a.gr").st_ino)
    for before, after in [(text[len(ABOUT) + 25 :][:10], "0123456789"), ("set/a.gr", "set/c.gr"), (number, "7")]:
        assert before in text
        write("list", text.replace(before, after, 1))
        for words in (BEGIN, ["manifest", "--verify", "list"]):
            found = module(*words)
            line = b"list: 31 Read (line 2 is not as it was written; without what follows its tab, the file is read)\n"
            assert (found.err, found.status) == (line, 4), f"{after} for {before}, {words}"
    write("list", text.replace("# form 1", "# form 2"))
    assert module(*BEGIN).status == 4, "a mark of another form"
    write("list", text.replace(f"# form 1, 2 files{ABOUT}\n", "# form 1\n"))
    assert module(*BEGIN).status == 4, "a mark below the head of an earlier version"
    write("list", text.replace(f"# form 1, 2 files{ABOUT}\n", ""))
    assert module(*BEGIN).status == 4, "a mark without a head"
    plain = [it.partition("\t")[0] for it in text.splitlines()[1:]]
    write("list", b"".join(old + it.encode() + b"\n" for old, it in zip(OLD, plain)))
    found = module(*BEGIN)
    told = f"list: {UNKNOWN_FORM}\n2 listed, 0 refused, 0 failed\n"
    assert (found, text_of("list")) == (said("", told, 0), text), "marks of an earlier version"


# Runs dnorm-files with these arguments, in a process that runs a command each time it has opened a file.
WRITES = """
import os, sys
import dnorm.files
from dnorm.commands.line import main
mark_of = dnorm.files.mark_of
def marked(file):
    found = mark_of(file)
    os.system({!r})
    return found
dnorm.files.mark_of = marked
sys.exit(main())
"""


@pytest.mark.parametrize("meanwhile", ["", "; touch -r kept set/a.gr"])
def test_written_meanwhile(meanwhile: str) -> None:
    """A file that is written while it is listed has no mark, even if it gets back its size and its time."""
    make({"set/a.gr": ROADS, "kept": ROADS})
    shutil.copy2("set/a.gr", "kept")
    time.sleep(AGE)
    code = WRITES.format(f"cat kept > set/a.gr{meanwhile}")
    assert python(code, *BEGIN).status in (0, 4)
    found = text_of("list") if os.path.exists("list") else ""
    assert "\t" not in found, f"a mark, {meanwhile}"
