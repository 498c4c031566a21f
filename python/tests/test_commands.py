"""Tests what `dnorm-files` has in common with `dnorm`: `canon` and `show` of files as people have them, standard input
and output as `-`, options before the command, what is said of a command line that is refused, and that a terminal shows
each refusal once."""

import gzip
import os
import re
import shlex
import shutil

import pytest
from known import COSTS, FLOWS, ROADS, ROADS_CANON
from needs import need_here
from shared import bytes_of, make, run, said, write
from test_calls import COMPRESS, READS, python
from test_folders import LETTERS, SENTENCES, X, by_shell, hidden, make_clone, module, on_terminal, prints
from test_manifests import ABOUT

import dnorm

pytestmark = READS
TEXTS = {"a.gr": ROADS, "b.min": COSTS, "c.max": FLOWS, "d.ss": b"p aux sp ss 2\ns 3\ns 1\n"}
TEXTS |= {"e.p2p": b"p aux sp p2p 1\nq 1 2\n", "f.co": b"p aux sp co 1\nv 1 -5 0\n", "g.gr": b"p sp 0 0\n"}
TEXTS |= {"h.min": b"p min 3 3\nn 2 0\nn 1 4\na 1 2 3 9 -2\na 1 2 1 1 7\na 3 3 0 0 1\n"}


def test_as_program(tested: str) -> None:
    """`canon` and `show` print what the program prints, also of compressed files and of standard input."""
    for name, text in TEXTS.items():
        ending, compress = list(COMPRESS.items())[len(name + str(len(text))) % 3]
        make({name: text, f"packed/{name}{ending}": compress(text)})
        for words in (["canon"], ["canon", "--form", "2"], ["show"]):
            wanted = run([tested, *words, name])
            assert module(*words, name) == wanted, f"{words} {name}"
            assert module(*words, f"packed/{name}{ending}") == wanted, f"{words} of a compressed {name}"
            assert module(*words, "-", given=text) == wanted, f"{words} of standard input, {name}"
    one, other = (run([tested, "show", it]).out.decode() for it in ("a.gr", "b.min"))
    prints("show b.min a.gr", f"a.gr:\n{one}b.min:\n{other}", "2 shown, 0 refused, 0 failed\n")
    make({"bad.gr": b"x\n", "one/a.gr": ROADS, "one/a.gr.md5": b""})
    prints("show bad.gr", "", f"bad.gr:1: 1 BadLine\n{X}", 2)
    prints("show one", one, "1 shown, 0 refused, 0 failed\n1 other file: .md5 1; --strict refuses them\n")


def test_output() -> None:
    """`canon -o` writes all of a text or nothing."""
    make({"a.gr": ROADS, "bad.gr": b"x\n", "out.gr": b"old"})
    prints("canon a.gr -o out.gr.gz", "")
    assert gzip.decompress(bytes_of("out.gr.gz")) == ROADS_CANON
    prints("canon a.gr --output -", ROADS_CANON.decode())
    prints("canon bad.gr -o out.gr", "", f"bad.gr:1: 1 BadLine\n{X}", 2)
    assert (bytes_of("out.gr"), hidden()) == (b"old", [])
    prints("canon none -o out.gr", "", "none: 31 Read (No such file or directory)\n", 4)
    assert by_shell("dnorm canon a.gr > /dev/full") == said("", "out: 33 Write (No space left on device)\n", 4)


def test_standard_streams(tested: str) -> None:
    """`-` is standard input or output wherever a file may stand."""
    make({"a.gr": ROADS, "bad.gr": b"p sp 2 1\na 1 3 5\n"})
    os.mkdir("-")
    prints("check -", "-: accepted sp\n", "1 accepted, 0 refused, 0 failed\n", given=ROADS)
    cause = (
        f"-:2: 13 NodeOutOfRange\n{SENTENCES[13]}    line 2: a 1 3 5\n                ^\n    a SRC=1 DST=3 LENGTH=5\n"
    )
    cause += "    NODES 2: nodes count from 1\n"
    count = "0 accepted, 1 refused, 0 failed\n"
    for given in ["< bad.gr", "< <(cat bad.gr)"]:
        wanted = said("-:2: 13 NodeOutOfRange\n", cause + count, 2)
        assert by_shell(f"dnorm check - {given}") == wanted, f"standard input by {given}"
    listed = module("list", "-", given=ROADS).out.decode()
    assert listed == module("list", "a.gr").out.decode().replace("a.gr", "-", 1)
    sums = module("manifest", "a.gr").out
    assert module("manifest", "--output", "-", "a.gr").out == sums
    prints("manifest --verify -", "a.gr: same\n", "1 the same, 0 different, 0 refused, 0 failed\n", given=sums)
    os.mkdir("s")
    os.rename("a.gr", "s/b.gr")
    prints("check --files-from - bad.gr -q", "bad.gr:2: 13 NodeOutOfRange\n", f"1{count[1:]}", 2, given=b"s/b.gr\n")
    report = module("check", "--junit", "-", "s/b.gr").out
    assert (report[:5], report.count(b"<testcase")) == (b"<?xml", 1)
    write("e.max", ROADS)
    assert b"<system-out>its ending is that of max</system-out>" in module("check", "--junit", "-", "e.max").out
    prints("compare - s/b.gr", "same\npairs: 0 only left, 0 only right, 5 in both, 0 of them different\n", given=ROADS)
    prints("compare - s/b.gr", "", f"-:1: 1 BadLine\n{X}", 2, given=b"x\n")
    need_here("web/")
    assert b"a.gr is now ./b.gr" in module("look", "--since", "-", ".", cwd="s", given=sums).out


def test_words() -> None:
    """Options may precede the command, and a command line that is refused is told in a line."""
    make({"a.gr": ROADS, "-x.gr": ROADS})
    for words in ["-q check a.gr", "check -q a.gr", "--jobs 2 -q check a.gr"]:
        prints(words, "", "1 accepted, 0 refused, 0 failed\n")
    needs = "needs a command: check, manifest, same, list, compare, canon, show, look, explain, parts"
    for words, line in {
        "": f"dnorm-files: it {needs}", "--foo": f"dnorm-files: --foo {needs}",
        "check --foo a.gr": "dnorm-files check: there is no option --foo",
        "compare a b c": "dnorm-files compare: 'c' is one word too many",
        "chek a.gr": "dnorm-files: no command chek: the nearest is check",
        "diff a b": "dnorm-files: no command diff: the nearest is compare",
        "a.gr": "dnorm-files: a command comes before the file: dnorm-files check a.gr",
        "check -x.gr": "dnorm-files check: argument -x/--exit-first: ignored explicit argument '.gr'"
                       "; for the file: -- -x.gr",
    }.items():  # fmt: skip
        prints(words, "", f"{line} (--help tells more)\n", 3)
    prints("check -- -x.gr", "-x.gr: accepted sp\n", "1 accepted, 0 refused, 0 failed\n")
    write("b.gr", ROADS.replace(b"a 2 1 4", b"a 2 1 5"))
    for limit, arcs in [("0", 0), ("1", 1)]:
        found = module("compare", "--limit", limit, "a.gr", "b.gr")
        assert (found.status, found.out.count(b"\n< ")) == (1, arcs), f"--limit {limit}"
    assert module("help", "check") == module("check", "--help") and module("help") == module("--help")
    for words in ["--help", "check --help", "--version"]:
        found = by_shell(f"dnorm {words} > /dev/full")
        assert (found.err, found.status) == (b"out: 33 Write (No space left on device)\n", 4), words


def test_own_names(tested: str) -> None:
    """`explain` and `parts` are dnorm-explain and canon-in-parts."""
    write("a.gr", ROADS)
    package = f"PYTHONPATH={make_clone('build', tested)}/python/src"
    own = f"{package} dnorm"
    cause = f"-:1: 1 BadLine\n{X}"
    assert by_shell(f"{own} explain check -", given=b"x\n") == said("", cause, 2)
    long = by_shell(f"(echo x; yes) | {package} timeout 20 $PYTHON -m dnorm explain check -")
    assert (long.err.decode().replace(X, ""), long.status) == ("-:1: 1 BadLine\n", 2), "a stream without an end"
    assert by_shell(f"{own} explain check - < a.gr") == said("accepted sp\nforms none\n")
    assert (
        by_shell("dnorm explain", given=b"-:1: 1 BadLine\n").out.decode()
        == f"-:1: 1 BadLine\n{SENTENCES[1]}    {LETTERS}\n"
    )
    for word in ["13", "NodeOutOfRange"]:
        prints(f"explain {word}", f"13 NodeOutOfRange: {SENTENCES[13].strip()}\n")
    assert by_shell(f"{own} parts --lines 3 a.gr") == said(ROADS_CANON)
    write("killed", "#!/bin/sh\nkill -9 $$\n", 0o755)
    code = "from dnorm.commands import explain; explain.find_program = lambda: './killed'; "
    assert python(f"{code}raise SystemExit(explain.main(['check', 'a.gr']))").status == 137, "a signal ended dnorm"


def test_explained() -> None:
    """`explain` takes a line for a refusal only if it has the form of those that dnorm prints."""
    refusals = ["x:1: 1 BadLine", "x:end: 20 TooFewLines", "x: 34 CountTooLarge", "s.ss: 35 NotInGraph 7"]
    failures = ["dnorm: 30 Memory", "-: 31 Read", "out: 33 Write"]
    others = ["m.c:10: 5 errors", "m.c:10: 30 errors", "m.c: 31 lines", "x: 33 Write", "x: 1 BadLine", "x:0: 1 BadLine"]
    others += ["x:1: 22 BadLine", "x:1: 1 BadLine 7", "x: 34 CountTooLarge 7", "x: 35 NotInGraph", "x: 35 NotInGraph 0"]
    others += [f"x:{9 * '9999'}: 1 BadLine", "x:-1: 1 BadLine", "x:1: 01 BadLine", "x:1:1 BadLine", "x: 31 Read (gone)"]
    for lines, status in [(refusals, 2), (failures, 4), (others, 0)]:
        for it in lines:
            found = module("explain", given=f"{it}\n".encode())
            assert (found.status, found.out.count(b"\n") > 1) == (status, status != 0), it
            assert found.out.startswith(f"{it}\n".encode()) and not found.err, it


@pytest.mark.parametrize(
    "does, what",
    [
        ("exit 9", "did not answer as it should (its status was 9, and it printed '')"),
        ("kill -9 $$", "was ended by signal 9 (SIGKILL)"),
    ],
)
def test_broken_off(tested: str, does: str, what: str) -> None:
    """`parts` names the program once if it breaks off, at the head of a text as in a part."""
    write("a.gr", ROADS)
    for runs, before in [(0, ""), (1, "a part failed: ")]:
        write("left", runs * "x")
        code = f"if [ $1 = canon ]; then [ -s left ] || {does}; : > left; fi"
        write("breaks", f'#!/bin/bash\n{code}\nexec {shlex.quote(tested)} "$@"\n', 0o755)
        line = f"canon-in-parts: {before}dnorm {what}\n"
        prints("parts --jobs 1 --lines 3 --program ./breaks a.gr", "", line, 4)


def test_once() -> None:
    """A terminal shows a refusal once, with its cause below it; a stream first all lines, and then the causes."""
    make({"a.gr": ROADS, "x.gr": b"x\n"})
    told, status = on_terminal("check", "a.gr", "x.gr", "none")
    lines = re.sub(r"\r[^\n]*\r", "", told)
    wanted = f"a.gr: accepted sp\nnone: 31 Read (No such file or directory)\nx.gr:1: 1 BadLine\n{X}"
    assert (lines, status) == (f"{wanted}1 accepted, 1 refused, 1 failed\n", 4)
    assert on_terminal("check", "-q", "x.gr")[0].count("BadLine") == 1


def test_one_and_two() -> None:
    """Words and numbers on each side of their borders: one file and two, a byte and bytes, a supply of one unit."""
    make({"a.gr": ROADS, "b.gr": ROADS})
    heads = [module("manifest", *names).out.decode().partition("\n")[0] for names in (["a.gr"], ["a.gr", "b.gr"])]
    assert heads == [f"# form 1, 1 file{ABOUT}", f"# form 1, 2 files{ABOUT}"]
    found = dnorm.check_folder("a.gr").manifest
    assert "<td>name</td><td>checksum</td>" in found._repr_html_()
    for zeros, what in [(1, "1 zero byte follows"), (2, "2 zero bytes follow")]:
        write("z.gr.bz2", COMPRESS[".bz2"](ROADS) + bytes(zeros))
        prints(
            "check -q z.gr.bz2",
            f"z.gr.bz2: 31 Read ({what} the compressed data)\n",
            "0 accepted, 0 refused, 1 failed\n",
            4,
        )
    for units in [0, 1, 2]:
        told = module("list", "-", given=f"p min 2 0\nn 1 {units}\nn 2 -{units}\n".encode()).out.decode()
        assert f" supply {units}, demand {units}\n" in told
    for text, fields in [(b"p sp 1 1\n", "file=-"), (b"p sp 1 1\nx\n", "file=-,line=2")]:
        assert module("check", "--output-format", "github", "-", given=text).out.startswith(
            f"::error {fields},title=".encode()
        )
    make({"set/a.gr.Z": b"", "set/b.gr.gz.Z": b"", "set/c.GRZ": b"", "set/d.md5": b"", "set/e.MD5": b"", "set/f": b""})
    lines = ["a.gr.Z: 31 Read (compress is not supported)", "b.gr.gz.Z: 31 Read (.gz.z is not supported)"]
    lines.append("c.GRZ: 31 Read (.grz is not supported)")
    count = "0 accepted, 0 refused, 3 failed\n3 other files: .md5 2, no ending 1; --strict refuses them\n"
    prints("check -q set", "".join(f"set/{it}\n" for it in lines), count, 4)
    make({"two/a.gr": ROADS, "two/b": ROADS})
    prints("check two two/b", "two/a.gr: accepted sp\ntwo/b: accepted sp\n", "2 accepted, 0 refused, 0 failed\n")


def test_gone_folder() -> None:
    """A current folder that is gone is a failure, and no traceback."""
    make({"a.gr": ROADS})
    for words in ["check --junit x.xml .", "manifest --output x .", "check .", "list x.gr", "look .", "canon x -o y"]:
        found = by_shell(f"mkdir gone; cd gone; rmdir ../gone; dnorm {words}")
        assert (found.status, b"Traceback" in found.err) == (4, False), found.err
    found = module("check", "-q", "--exclude", "old/", "--exclude", "*.max", "--exclude", "a.*", "a.gr", ".")
    assert found.err.decode().splitlines()[:2] == [f"--exclude {it}: nothing matches it" for it in ("old/", "*.max")]


def test_one_place() -> None:
    """`look --since` and `manifest --verify` know a file by its place, however it is named."""
    make({"maps/a.gr": ROADS, "maps/b.min": COSTS})
    module("manifest", "--output", "list", "maps")
    os.symlink("maps", "link")
    paths = ["./maps", os.path.abspath("maps"), "maps/../maps", "link"]
    for path in paths:
        prints(f"manifest --verify list -q {path}", "", "2 the same, 0 different, 0 refused, 0 failed\n")
    need_here("web/")
    for path in paths:
        page = module("look", "--since", "list", path).out.decode()
        assert "is now" not in page and ">the same 2<" in page, path


def test_groups() -> None:
    """`same` sorts the names of a group, also where a link comes before its file, and a page has all groups."""
    make({"pool/m.gr": ROADS, "pool/z.gr": ROADS, "pool/n.min": COSTS, "pool/o.min": COSTS})
    os.symlink("z.gr", "pool/a.gr")
    count = "5 accepted, 0 refused, 0 failed, 2 groups, 1 link\n"
    prints("same pool", "pool/m.gr\npool/z.gr\n\npool/n.min\npool/o.min\n", count)
    need_here("web/")
    assert module("look", "pool").out.count(b"<details><summary>pool/") == 2


def test_twins() -> None:
    """A companion of -d or -t belongs to the graph of the other one, if there is none of its own name."""
    points = b"p aux sp co 1\nv 1 0 0\n"
    make({"USA-road-t.NY.gr": ROADS, "USA-road-d.NY.co": points, "x-d.gr": b"p sp 1 0\n", "x-t.gr": ROADS})
    make(
        {
            "x-t.ss": b"p aux sp ss 1\ns 3\n",
            "x-d.p2p": b"p aux sp p2p 1\nq 1 3\n",
            "y-d.x.y.gr": ROADS,
            "y-t.x.y.co": points,
        }
    )
    os.mkdir("links")
    for name in ["x-t.gr", "x-t.ss"]:
        os.symlink(f"../{name}", f"links/{name}")
    beside = "links/x-t.gr: accepted sp\nlinks/x-t.ss: accepted ss, fits links/x-t.gr\n"
    prints("check --companions links/x-t.gr", beside, "2 accepted, 0 refused, 0 failed\n")
    shutil.rmtree("links")
    found = module("check", "--companions", ".")
    lines = [it for it in found.out.decode().splitlines() if not it.endswith(": accepted sp")]
    assert lines == [
        "./USA-road-d.NY.co: accepted co, fits ./USA-road-t.NY.gr", "./x-d.p2p: 35 NotInGraph 3",
        "./x-t.ss: accepted ss, fits ./x-t.gr", "./y-t.x.y.co: accepted co, no graph",
    ]  # fmt: skip
