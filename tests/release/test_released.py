"""What a clone does with what make has built and with released/: which program ./dnorm runs, which library c/put takes,
what is said where there is no kit, what tools/released compares, and what every script says of its words. Further,
what ./check counts, and that it ends what it has started.

All of this happens in scratch repositories with crates of one line and objects that no kit has made. An `rt` that
prints the version of a kit stands for one."""

import contextlib
import hashlib
import os
import re
import runpy
import shutil
import signal
import subprocess
import sys
import time
from collections.abc import Iterator

import kit
import pytest
from known import ROADS, ROADS_CANON
from needs import leave_out, need, pass_over
from shared import LIMIT, OF_GIT, ROOT, Answer, bytes_of, make, run, said, text_of, write

pytestmark = pytest.mark.slow
# What a scratch repository has of this one.
FILES = ["bin/dnorm", "c/put", "tools/kit.py", "tools/prover.py", "tools/released", "tools/usage.py", "tools/usage.sh"]
FILES += [f"c/dnorm{it}" for it in [".h", "_codes.h", "_tools.h", ".hpp", ".pc", ".map"]]
FILES += ["c/free.c", "c/dnorm-config.cmake", "c/dnorm-config-version.cmake", "crates/dn_command/src/help.rt"]
FILES += ["Makefile", "packaging/third-party"]
LIBRARIES = ["libdnorm.a", "libdnorm.so.3"]
SOURCES = ["crates", "crates.txt", "c/dnorm.map", "c/free.c"]
# A path of commands without `rt`, and what a kit prints of itself.
WITHOUT_RT, KIT = "/usr/bin:/bin", "rattle-kit-13x logic 0123456789abcdef"
NO_KIT = "dnorm: proving and building needs a kit of Rattle (see docs/PROVED.md), and "


class Clone:
    """A scratch repository whose released/ was made from its sources, by a kit."""

    def __init__(self, folder: str, tested: str) -> None:
        self.folder, self.released = folder, f"{folder}/released"
        for it in FILES:
            self.write(it, bytes_of(f"{ROOT}/{it}"), os.stat(f"{ROOT}/{it}").st_mode & 0o777)
        for it in ["dn_num", "dnorm"]:
            self.write(f"crates/{it}/src/lib.rt", "// a source\n")
        self.write("crates.txt", "dn_num:\ndnorm: dn_num\n")
        self.write("released/c/libdnorm.c", "int dnorm_begin(void) { return 7; }\n")
        self.write(".gitignore", "build/\n")
        for it in ["dnorm", *LIBRARIES]:
            for place in ["build/static" if it == "dnorm" else "build", "released/x86_64"]:
                self.write(f"{place}/{it}", bytes_of(tested) if it == "dnorm" else it, 0o755)
        for it in ["dnorm.o", "dn_c.a"]:
            self.write(f"build/{it}", it)
        self.rt(f"echo {KIT}")
        self.write("kit/WHAT", "")
        run(["git", "init", "-q", folder])
        self.commit()
        self.tell()

    def write(self, name: str, text: str | bytes, mode: int | None = None) -> None:
        make({f"{self.folder}/{name}": text}, mode)

    def rt(self, does: str) -> None:
        """Makes an `rt` that does this when it is asked for its version, and stands in front of a kit."""
        names = f"[ $1 != doc ] || exec echo '{self.folder}/kit/START-HERE.md'"
        self.write("front/rt", f"#!/bin/sh\n{names}\n{does}\n", 0o755)

    def git(self, *words: str) -> str:
        return run(["git", "-C", self.folder, *words], env={**os.environ, **OF_GIT}).out.decode().strip()

    def commit(self) -> None:
        self.git("add", "-A")
        self.git("commit", "-q", "-m", "a commit")

    def tell(self) -> None:
        """Writes what released/ is made from, and its sums."""
        lines = ["version: 1.0", f"kit: {KIT}", *(f"{it}: {self.git('rev-parse', f'HEAD:{it}')}" for it in SOURCES)]
        linker, libc = (
            run(["gcc", f"-print-{it}"]).out.decode().strip() for it in ["prog-name=ld", "file-name=libc.a"]
        )
        for it in ["gcc", linker]:
            lines.append(f"{os.path.basename(it)}: {run([it, '--version']).out.decode().splitlines()[0]}")
        for it in [f"{self.folder}/build/dnorm.o", f"{self.folder}/build/dn_c.a", libc]:
            lines.append(f"{run(['sha256sum', it]).out.decode().split()[0]}  {os.path.basename(it)}")
        self.write("released/buildinfo", "".join(f"{it}\n" for it in lines))
        self.sum()

    def sum(self) -> None:
        """Writes the sums of the files of released/."""
        below = ((at, name) for at, _, names in os.walk(self.released) for name in names)
        found = {os.path.relpath(f"{at}/{name}", self.released) for at, name in below} - {"SHA256SUMS"}
        self.write("released/SHA256SUMS", run(["sha256sum", *sorted(found)], cwd=self.released).out)

    @contextlib.contextmanager
    def other(self, name: str, text: str | bytes | None = None) -> Iterator[None]:
        """Gives a file another text, or one more line, and at the end its own text again."""
        kept = bytes_of(f"{self.folder}/{name}")
        self.write(name, kept + b"\n" if text is None else text)
        yield
        self.write(name, kept)

    def run(self, name: str, *words: str, given: bytes = b"", path: str = WITHOUT_RT) -> Answer:
        """Runs a script of the clone from another folder, with this path of commands."""
        return run([f"{self.folder}/{name}", *words], given, cwd="/", env={**os.environ, "PATH": path})


@pytest.fixture
def clone(tested: str, folder: str) -> Clone:
    need("git", "gcc")
    if shutil.which("rt", path=WITHOUT_RT) or os.uname().machine != "x86_64":
        pass_over(f"x86-64, and {WITHOUT_RT} without rt")
    return Clone(f"{folder}/a clone", tested)


def test_program(clone: Clone) -> None:
    """./dnorm runs what is built, else what is released for this processor, and looks at nothing else."""
    clone.write("build/dnorm", '#!/bin/sh\necho built "$@"\nexit 9\n', 0o755)
    assert clone.run("bin/dnorm", "a b", "") == said("built a b \n", status=9)
    os.symlink("bin/dnorm", f"{clone.folder}/dnorm")
    assert clone.run("dnorm") == said("built\n", status=9)
    shutil.rmtree(f"{clone.folder}/build")
    clone.write("crates/dnorm/src/lib.rt", "// another source\n")
    before = {it: os.stat(it).st_mtime_ns for it, _, _ in os.walk(clone.folder)}
    for it in ["bin/dnorm", "dnorm"]:
        assert clone.run(it, given=ROADS) == said(ROADS_CANON), it
    # A clone that cannot be written to serves as well.
    assert {it: os.stat(it).st_mtime_ns for it, _, _ in os.walk(clone.folder)} == before
    os.remove(f"{clone.released}/x86_64/dnorm")
    wants = "dnorm: released/ has no program for x86_64, and none is built: make builds it\n"
    assert clone.run("bin/dnorm") == said("", wants, 125)


# What stands for `rt`, and what is said of it.
OTHER = "another program, which belongs to no kit: `rt version` prints"
NO_KITS = [
    ("echo 'RT 4.4'", f"{OTHER} 'RT 4.4'"),
    ("exit 1", f"{OTHER} 'nothing'"),
    ("printf '\\0\\377'", f"{OTHER} '\\x00\\ufffd'"),
    (f"echo {KIT}", f"{OTHER} {KIT!r}"),
]


def test_no_kit(clone: Clone) -> None:
    """What is said without a kit: which source differs, what runs as it is, and what is missing."""
    runs = "dnorm: released/x86_64/dnorm is the proved program 1.0, which runs as it is"
    assert clone.run("tools/kit.py") == said("", f"{runs}\n{NO_KIT}there is no rt on the PATH\n", 125)
    differs = "dnorm: crates/dn_num/src/lib.rt differs from release 1.0\n"
    undo = ", and `git checkout crates/dn_num/src/lib.rt` undoes the change"
    with clone.other("crates/dn_num/src/lib.rt"):
        wants = said("", f"{differs}{runs}{undo}\n{NO_KIT}there is no rt on the PATH\n", 125)
        assert clone.run("tools/kit.py") == wants, "an edit"
    clone.write("crates/dn_num/src/lib.rt", "// another source\n")
    clone.commit()
    wants = said("", f"{differs}{runs}\n{NO_KIT}there is no rt on the PATH\n", 125)
    assert clone.run("tools/kit.py") == wants, "a commit"
    assert clone.run("tools/prover.py", "build", "dn_num") == wants
    os.remove(f"{clone.folder}/kit/WHAT")
    path = f"{clone.folder}/front:{WITHOUT_RT}"
    for does, why in NO_KITS:
        clone.rt(does)
        found = clone.run("tools/kit.py", path=path)
        assert (found.out, found.status) == (b"", 125), does
        assert found.err.decode().splitlines()[-1] == f"{NO_KIT}{clone.folder}/front/rt is {why}", does


def test_slow_rt(clone: Clone, monkeypatch: pytest.MonkeyPatch) -> None:
    """An `rt` that does not end belongs to no kit."""
    monkeypatch.setattr(kit, "LIMIT", 0.2)
    clone.rt("exec sleep 1000")
    assert kit.printed(f"{clone.folder}/front/rt", "version") == "nothing (TimeoutExpired)"


def test_any_kit(clone: Clone) -> None:
    """A kit of any name is taken."""
    clone.rt("echo another-kit logic fedcba9876543210")
    found = clone.run("tools/kit.py", path=f"{clone.folder}/front:{WITHOUT_RT}")
    assert found == said(f"{clone.folder}/kit\n")


def test_half_a_proof(clone: Clone) -> None:
    """A kit that fails half way: its last lines, and nothing that counts as proved."""
    clone.write("kit/bin/rattle", "#!/bin/sh\necho a goal is open\nexit 1\n", 0o755)
    found = clone.run("tools/prover.py", "build", "dn_num", path=f"{clone.folder}/front:{WITHOUT_RT}")
    assert found == said("", "a goal is open\ndnorm: dn_num could not be proved and built\n", 1)


def test_proved_once(clone: Clone) -> None:
    """`make CHECKED=1` proves no crate below the program again, which `rt ci` has proved, and makes the program again
    after a change of one."""
    env = {**os.environ, "PATH": f"{clone.folder}/front:{WITHOUT_RT}"}
    made, source = f"{clone.folder}/crates/dnorm/out/rlib/dnorm.proved", f"{clone.folder}/crates/dn_num/src/lib.rt"
    cases = [
        ("", "", [True, True]),
        ("1", "", [False, True]),
        ("1", made, [False, False]),
        ("1", source, [False, True]),
    ]
    for after, (checked, change, wants) in enumerate(cases):
        if change:
            make({change: ""})
            os.utime(change, (os.stat(clone.folder).st_mtime + 9 * after,) * 2)
        found = run(["make", "-n", "-C", clone.folder, f"CHECKED={checked}", "dnorm.proved"], env=env)
        builds = [f" build {it} --statements".encode() in found.out for it in ("dn_num", "dnorm")]
        assert (found.status, builds) == (0, wants), (checked, change)


def test_rules(clone: Clone) -> None:
    """What make proves a crate of: its files, its folders, so that a new file counts, the crates below, and the kit."""
    found = clone.run("tools/prover.py", "rules", path=f"{clone.folder}/front:{WITHOUT_RT}")
    place, ready = "crates/dnorm/out/rlib", f"{clone.folder}/kit/WHAT".replace(" ", "\\ ")
    first = f"{place}/dn_num.proved: crates/dn_num/src crates/dn_num/src/lib.rt {ready}\n"
    second = f"{place}/dnorm.proved: {place}/dn_num.proved crates/dnorm/src crates/dnorm/src/lib.rt {ready}\n"
    assert found == said(first + second)


def test_third_party(clone: Clone) -> None:
    """packaging/third-party names a library of the kit whose notice is missing."""
    shutil.rmtree(f"{clone.folder}/build")
    made = {"crates.txt": "dn_num: itoa\n", "kit/rlibs/itoa.rlib/format": "", "kit/rattle/itoa/LICENSE": "terms\n"}
    make({f"{clone.folder}/{it}": text for it, text in {**made, "docs/PROVED.md": ""}.items()})
    told = "THIRD-PARTY lacks the notice of itoa: packaging/third-party --write adds it\n"
    assert clone.run("packaging/third-party", path=f"{clone.folder}/front:{WITHOUT_RT}") == said(told, status=1)


def test_words_of_make() -> None:
    """make passes on a prefix, and words for pytest."""
    for words, end in [("install PREFIX=/x", b"bin/install /x\n"), ("test TESTS=--x", b" -rfEs --x\n")]:
        found = run(["make", "-n", "-C", ROOT, "--no-print-directory", *words.split()])
        assert (found.out.endswith(end), found.status) == (True, 0), found


def test_setup(folder: str) -> None:
    """tools/setup installs what is missing, and fails as long as something is."""
    last, *here = text_of(f"{ROOT}/tools/setup").partition("packages=(")[2].partition(")")[0].split()
    make({"bin/sudo": '#!/bin/sh\nshift 2\nexec "$@"\n', "bin/dpkg-query": "#!/bin/sh\ncat here\n"}, 0o755)
    make({"bin/apt-get": '#!/bin/sh\necho "$@" >> called\n'}, 0o755)
    own = {**os.environ, "PATH": f"{folder}/bin:{os.environ['PATH']}"}
    for installed, status in [(here, 1), ([last, *here], 0)]:
        write("here", "".join(f"installed {it}\n" for it in installed))
        assert run([f"{ROOT}/tools/setup"], env=own).status == status
    assert {it.partition(" install ")[2] for it in text_of("called").splitlines()} == {"", last}


def test_figures(folder: str) -> None:
    """bench/figures names a table that its file does not give."""
    for it in ["bench", "docs/img", "tools"]:
        shutil.copytree(f"{ROOT}/{it}", it, ignore=shutil.ignore_patterns("__pycache__"))
    write("README.md", text_of(f"{ROOT}/README.md"))
    assert run(["bench/figures"]) == said()
    write("README.md", text_of("README.md").replace("| ns an arc |", "| ns |"))
    assert run(["bench/figures"]) == said("README.md has not the table that bench/figures --write makes\n", status=1)


def test_catalogue(c_library: str, folder: str) -> None:
    """bench/catalogue has a row for each file, with its checksum or its refusal."""
    make({"it/a|b.gr": ROADS, "it/x.gr": b"x\n"})
    own = {**os.environ, "DNORM_LIBRARY": f"{c_library}/lib/libdnorm.so.3"}
    ran = run([f"{ROOT}/bench/catalogue", "it"], env=own)
    head, _, *rows = ran.out.decode().splitlines()
    assert (head[:8], head[-20:], ran.status) == ("2 files ", ": 1 accepted, 1 not.", 2), head
    assert rows[2:] == [
        f"| it/a\\|b.gr | sp | 3 | 7 | 5 | `{hashlib.sha256(ROADS_CANON).hexdigest()}` |",
        "| it/x.gr |  |  |  |  | 1: 1 BadLine |",
    ]


def test_lint(folder: str, capfd: pytest.CaptureFixture[str], monkeypatch: pytest.MonkeyPatch) -> None:
    """What no tool finds in scripts and sources."""
    make({"a.sh": f"#!/bin/sh\n#{'x' * 120}\n", "b": "#!/usr/bin/perl\n", "c.sh": f"rt --allow-{'holes'}\n"})
    make({"d": "#!/usr/bin/env python3\ndef f() -> None: ...\n", "crates/e/src/lib.rt": f"/{'/' * 120}\n"})
    lint = runpy.run_path(f"{ROOT}/tools/lint")
    for it in ["scripts", "files"]:
        monkeypatch.setitem(lint[it].__globals__, "ROOT", folder)
    lint["no_tool_finds"](tally := lint["Tally"](), lint["scripts"]())
    found = re.findall(r"'([^']+)'", capfd.readouterr().out)
    assert (found, tally.failed) == (["a.sh:2", "crates/e/src/lib.rt:1", "b", "d: f", "c.sh"], 4)


def test_library(clone: Clone) -> None:
    """c/put takes what is built, else what is released for this processor, else it compiles the released C file."""
    to = f"{clone.folder}/prefix"
    for place, text in [("build", "built"), ("released/x86_64", "libdnorm.a")]:
        clone.write(f"{place}/libdnorm.a", text)
        assert clone.run("c/put", to) == said()
        assert text_of(f"{to}/lib/libdnorm.a") == text
        shutil.rmtree(f"{clone.folder}/build", ignore_errors=True)
    clone.write("other/uname", "#!/bin/sh\necho riscv64\n", 0o755)
    assert clone.run("c/put", to, path=f"{clone.folder}/other:{WITHOUT_RT}") == said()
    use = "import ctypes, sys; print(ctypes.CDLL(sys.argv[1]).dnorm_begin())"
    assert run([sys.executable, "-c", use, f"{to}/lib/libdnorm.so.3"]) == said("7\n")
    version = text_of(f"{to}/lib/pkgconfig/dnorm.pc").partition("Version: ")[2].partition("\n")[0]
    assert version == run([f"{clone.released}/x86_64/dnorm", "--version"]).out.decode().split()[1]


def finds(clone: Clone, what: str, line: str, *counts: int) -> None:
    """Tools/released prints this line, and how many of its checks pass, fail and are left out."""
    found = clone.run("tools/released", path=f"{clone.folder}/front:{os.environ['PATH']}")
    passed, failed, left = counts
    wants = f"{passed} passed, {failed} failed, {left} skipped\n"
    told = found.out.decode()
    assert line in told and told.endswith(wants) and found.status == (failed > 0), f"{what}: {found}"


def test_compared(clone: Clone) -> None:
    """Tools/released finds what is not made again, and leaves out what other sources or another kit has made."""
    finds(clone, "as it was made", "", 6, 0, 3)
    for name in ["dnorm", *LIBRARIES]:
        with clone.other(f"released/x86_64/{name}"):
            finds(clone, f"a byte of {name}", "do not have the sums", 4, 2, 3)
            clone.sum()
            finds(clone, f"a byte of {name}, with its sum", f"x86_64/{name} has other bytes", 5, 1, 3)
        clone.sum()
    for name, passed in [("build/dnorm.o", 4), ("build/dn_c.a", 3)]:
        with clone.other(name):
            finds(clone, f"another {name}", f"{name} is not the object of the release", passed, 1, 3)
            clone.rt("echo another-kit logic fedcba9876543210")
            finds(clone, f"another {name} by another kit", f"left out: what is made of {name}", passed, 0, 4)
            clone.rt(f"echo {KIT}")
    clone.rt("echo another-kit logic fedcba9876543210")
    finds(clone, "another kit that makes the same", "", 6, 0, 3)
    clone.write("released/x86_64/more", "")
    finds(clone, "a file more", "do not have the sums", 5, 1, 3)
    os.remove(f"{clone.released}/x86_64/more")
    with clone.other("crates/dnorm/src/lib.rt"):
        finds(clone, "another source that makes the same", "", 6, 0, 3)
        with clone.other("build/dnorm.o"), clone.other("build/dn_c.a"):
            finds(clone, "another source", "left out: the released program, which", 1, 0, 5)
    with clone.other("c/dnorm.map"):
        finds(clone, "another c/dnorm.map", "left out: the released library, which", 3, 0, 4)
    clone.write("docs/PROVED.md", "- GNU ld, and what it links:\n  - `open` and `__divti3`\n- For the library for C\n")
    table = "Cross Reference Table\n\nSymbol File\n"
    for name, users in [("open", "build/dnorm.o"), ("__divti3", "k.a(o.o)\n build/dnorm.o"), ("exit", "libc.a(o.o)")]:
        table += f"{name} lib.a({name}.o)\n {users}\n"
    clone.write("build/static/dnorm.map", table)
    finds(clone, "what the linker took", "", 7, 0, 3)
    clone.write("build/static/dnorm.map", f"{table}close lib.a(close.o)\n build/dnorm.o\n")
    finds(clone, "a function that the page does not list", "docs/PROVED.md does not list", 6, 1, 3)


SCRIPTS = "check bin/install c/put c/link c/file/make tools/released tools/setup tools/lint tools/definitions"
SCRIPTS += " tools/generate tools/lists tools/plants tools/wrong-bodies tools/wrong-definitions tools/wasm"
SCRIPTS += " tools/kit.py tools/prover.py packaging/release packaging/third-party bench/catalogue bench/figures"
SCRIPTS += " bench/measure c/file/stage web/make-page"


@pytest.mark.parametrize("script", SCRIPTS.split())
def test_help(folder: str, script: str) -> None:
    """`-h` and `--help` print what a script is for, before anything is looked at; another option is refused."""
    for word in ["-h", "--help"]:
        found = run([f"{ROOT}/{script}", word], env={"PATH": os.environ["PATH"]})
        assert (found.err, found.status) == (b"", 0) and len(found.out.splitlines()) > 2, word
    found = run([f"{ROOT}/{script}", "--nonsense"], env={"PATH": os.environ["PATH"]})
    assert (found.out, len(found.err.splitlines()), found.status) == (b"", 1, 2), found


def test_all_have_help() -> None:
    """Each script of these folders has its row above."""
    found = [f"{at}/{it}" for at in ["bin", "tools", "packaging", "bench"] for it in os.listdir(f"{ROOT}/{at}")]
    ours = {it for it in found if os.access(f"{ROOT}/{it}", os.X_OK) and os.path.isfile(f"{ROOT}/{it}")}
    commands = {f"bin/{it}" for it in ["dnorm", "dnorm-files", "dnorm-explain", "canon-in-parts"]}
    assert ours - commands <= {*SCRIPTS.split()}


def test_without_python(folder: str) -> None:
    """./check says once what it lacks."""
    os.mkdir("bin")
    for it in ["bash", "dirname", "realpath", "env"]:
        os.symlink(shutil.which(it) or "", f"bin/{it}")
    found = run([f"{ROOT}/check"], env={"PATH": f"{folder}/bin"})
    assert found == said("", "check: it needs Python 3.10 or later, and there is no python3 on the path\n", 127)


def test_read_only(folder: str, clone: Clone) -> None:
    """In a clone that cannot be written to, ./check and make say so at once, and what only reads runs."""
    shutil.copy(f"{ROOT}/check", clone.folder)
    shutil.rmtree(f"{clone.folder}/build")
    mounts = f'mount --bind -o ro "{clone.folder}" "{clone.folder}" && cd "{clone.folder}" && "$@"'
    if run(before := ["unshare", "--map-root-user", "--mount", "sh", "-c", mounts, "sh"]).status:
        leave_out("user namespaces")
    assert run([*before, "./check"]) == said("", "check: it writes into build/, and cannot\n", 1)
    found = run([*before, "make", "program"])
    assert re.fullmatch(rb"Makefile:\d+: \*\*\* it writes into build/, and cannot\.  Stop\.\n", found.err), found
    assert run([*before, "make", "help"]).status == 0
    assert run([*before, "bin/dnorm"], ROADS) == said(ROADS_CANON)


CALLED = ["tools/lint", "tools/definitions", "bench/figures", "bin/rt", "tools/released", "packaging/third-party"]
CALLED += ["tools/wrong-bodies", "bin/make", "bin/coqc", "bin/ocamlfind"]
STANDS = """#!/bin/bash
echo $$ >> "$LOG"
cd "$TMPDIR"
if [[ ${0##*/} == "$STAYS" ]]; then
    sleep 1000 &
    echo $! >> "$LOG"
    bash -c 'echo $$ >> "$LOG"; touch "$LOG.ready"; sleep 1000; :' &
    wait
fi
echo '1 passed, 0 failed'
"""


def scratch_check(folder: str, kit_is: str = "exit 0") -> dict[str, str]:
    """Makes ./check with what stands for all that it calls, and returns its environment."""
    shutil.copy(f"{ROOT}/check", "check")
    os.mkdir("temporary")
    make(dict.fromkeys(CALLED, STANDS) | {"tools/kit.py": f"#!/bin/sh\n{kit_is}\n"}, 0o755)
    write("tools/usage.sh", text_of(f"{ROOT}/tools/usage.sh"))
    own = {"PATH": f"{folder}/bin:{os.environ['PATH']}", "LOG": f"{folder}/log", "TMPDIR": f"{folder}/temporary"}
    return {**os.environ, **own, "STAYS": "", "RT_JOBS": "1", "CI": ""}


ENDED = [("lint", signal.SIGTERM), ("rt", signal.SIGINT), ("make", signal.SIGHUP)]


@pytest.mark.parametrize("stays, number", ENDED)
def test_ended_check(folder: str, heeded: None, stays: str, number: int) -> None:
    """./check that is ended by a signal, which it alone gets, ends all that it has started, and leaves no file."""
    own = scratch_check(folder) | {"STAYS": stays}
    process = subprocess.Popen(["./check"], env=own, stdout=subprocess.DEVNULL)
    try:
        while process.poll() is None and not os.path.exists("log.ready"):
            time.sleep(0.05)
        process.send_signal(number)
        assert process.wait(LIMIT) == -number
        time.sleep(0.2)
        assert [it for it in text_of("log").split() if os.path.exists(f"/proc/{it}/exe")] == []
        assert os.listdir("temporary") == []
    finally:
        for it in [str(process.pid), *text_of("log").split()]:
            with contextlib.suppress(ProcessLookupError):
                os.kill(int(it), signal.SIGKILL)


# What fails a part, in place of its count; and how many checks of ./check then pass and fail.
FAILS = "0 passed, 1 failed'; exit 1", 27, 9
FAILING = [("", "1 passed, 0 failed'", 28, 8), *((it, *FAILS) for it in ["bench/figures", "tools/wrong-bodies"])]
FAILING += [("bin/rt", *FAILS), ("tools/lint", "1 passed, 0 failed'; exit 3", 28, 9)]
FAILING += [("bin/rt", "refused, as it must be (only because a proof file names it)\n1 passed, 0 failed'", 27, 9)]


@pytest.mark.parametrize("failing, count, passed, failed", FAILING)
def test_counts_of_check(folder: str, heeded: None, failing: str, count: str, passed: int, failed: int) -> None:
    """What ./check counts, of its own scripts and of pytest, and its status."""
    own = scratch_check(folder)
    make({"bin/make": STANDS.replace("1 passed, 0 failed", "1 failed, 5 passed, 2 skipped, 1 error in 0.1s")}, 0o755)
    if failing:
        write(failing, STANDS.replace("1 passed, 0 failed'", count))
    # Libraries that `rt check` has left, and make's.
    make({f"crates/{it}/{file}": "" for it in ("a", "dnorm") for file in ("src/main.rt", "out/rlib/it.rlib/format")})
    write("crates/a/src/lib.rt", "")
    found = run(["./check"], env=own)
    assert [os.listdir(f"crates/{it}/out") for it in ("a", "dnorm")] == [[], ["rlib"]]
    last = f"{passed} passed, {failed} failed, 8 skipped"
    assert (found.out.decode().splitlines()[-1], found.status) == (last, 1), found
    told = [it for it in found.out.decode().splitlines() if it.endswith(" failed:")]
    part = "shows_contracts" if "as it must be" in count else failing.removeprefix("bin/")
    assert any(it.startswith(part) for it in told) or not failing, told
    assert os.listdir("temporary") == []


@pytest.mark.parametrize("ci, failed", [("", 0), ("true", 1)])
def test_nothing_proved(folder: str, heeded: None, ci: str, failed: int) -> None:
    """Without a kit, the line before the count says that nothing was proved."""
    why = "dnorm: proving and building needs a kit of Rattle (see docs/PROVED.md), and there is no rt on the PATH"
    own = scratch_check(folder, f"echo '{why}' >&2; exit 125") | {"CI": ci}
    found = run(["./check"], env=own)
    told = "left out: all proofs, since there is no rt on the PATH: nothing was proved"
    assert found.out.decode().splitlines()[-2:] == [told, f"5 passed, {failed} failed, 1 skipped"]
    assert found.status == failed
