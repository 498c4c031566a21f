"""The scripts for git do in a repository what they say."""

import bz2
import gzip
import lzma
import os
import re
import shutil
import socket

import pytest
from known import ROADS, ROADS_CANON
from needs import need
from shared import OF_GIT, ROOT, Answer, make, run, write

from dnorm.refusals import REFUSALS


# Counts at the end.
ONE = b"0 accepted, 1 refused, 0 failed\n"
ONE_OF_TWO = b"1 accepted, 1 refused, 0 failed\n"
ALONE = b"1 accepted, 0 refused, 0 failed, 1 companion without a graph\n"
# What is printed below the refusal of a line `x`, and that of a link.
CAUSE = f"    {REFUSALS[1][1]}\n    line 1: x\n            ^\n"
CAUSE += "    Lines begin with p, n, a, s, q or v, and comments with c\n"
EARLY = f"link.gr:1: 2 EarlyLine\n    {REFUSALS[2][1]}\n    line 1: a 1 2 3\n            ^\n".encode()
EARLY += b"    The problem line comes first: the head of the file may be cut off, or follow\n"
EXCLUDE = b"git config --add dnorm.exclude PATTERN leaves files out of this check\n"
BAD = b"p aux sp ss 1\ns 9\n"


class Repository:
    """A repository that has the scripts for git, with dnorm and dnorm-files on the path."""

    def __init__(self, tested: str, c_library: str, folder: str) -> None:
        self.top = f"{folder}/top"
        os.makedirs(f"{folder}/bin")
        os.mkdir(self.top)
        os.symlink(tested, f"{folder}/bin/dnorm")
        os.symlink(f"{ROOT}/bin/dnorm-files", f"{folder}/bin/dnorm-files")
        self.environment = {**os.environ, **OF_GIT, "PATH": f"{folder}/bin:{os.environ['PATH']}"}
        self.environment["DNORM_LIBRARY"] = f"{c_library}/lib/libdnorm.so.3"
        self.temporary = self.environment["TMPDIR"] = f"{folder}/temporary"
        os.mkdir(self.temporary)
        self.git("init", "-q")
        self.git("config", "diff.dnorm.textconv", f"{ROOT}/python/git/textconv")
        self.put(".gitattributes", b"*.gr diff=dnorm\n")
        shutil.copy(f"{ROOT}/python/git/pre-commit", f"{self.top}/.git/hooks/pre-commit")

    def run(self, *words: str) -> Answer:
        return run(words, cwd=self.top, env=self.environment)

    def git(self, *words: str) -> Answer:
        return self.run("git", *words)

    def put(self, name: str, text: bytes) -> None:
        """Writes a file, and stages it."""
        make({f"{self.top}/{name}": text})
        self.git("add", "--", name)

    def blob(self, text: bytes) -> str:
        """Keeps a text in the repository, and returns its name there."""
        found = run(["git", "hash-object", "-w", "--stdin"], text, cwd=self.top, env=self.environment)
        return found.out.decode().strip()

    def commits(self, what: str, err: bytes = b"") -> None:
        """Tests that what is staged is committed, or is refused with these lines."""
        found = self.git("commit", "-q", "-m", what)
        status = 1 if b" 0 refused, 0 failed" not in (err or b" 0 refused, 0 failed") else 0
        err += EXCLUDE if status else b""
        assert (found.err, found.status) == (err, status), f"a commit of {what}"

    def differs(self, what: str, lines: list[bytes]) -> None:
        """Tests which lines `git diff` shows as removed and added."""
        found = self.git("diff", "HEAD")
        shown = [it for it in found.out.split(b"\n") if re.match(rb"[+-](?![+-])", it)]
        assert (shown, found.err, found.status) == (lines, b"", 0), f"git diff of {what}"


@pytest.fixture
def repository(tested: str, c_library: str, folder: str) -> Repository:
    need("git")
    return Repository(tested, c_library, folder)


def test_hook(repository: Repository) -> None:
    """The hook that is called before a commit."""
    repository.put("roads.gr", ROADS)
    repository.put("notes.txt", b"a 1 2 3\n")
    repository.commits("a first text")
    repository.put("a b:7.gr", b"x\n")
    repository.put("c.min", b"p min 1 1\n")
    refused = f"a b:7.gr:1: 1 BadLine\n{CAUSE}c.min:end: 20 TooFewLines\n    {REFUSALS[20][1]}\n".encode()
    refused += b"    declared 1, found 0: only a, s, q and v lines count\n0 accepted, 2 refused, 0 failed\n"
    repository.commits("refused texts", refused)
    write(f"{repository.top}/a b:7.gr", ROADS)
    repository.commits("what is staged still", refused)
    for it in ["a b*", "d/"]:
        repository.git("config", "--add", "dnorm.exclude", it)
    repository.put("d.d.gr", b"x\n")
    repository.put("d/e.gr", b"x\n")
    only = f"d.d.gr:1: 1 BadLine\n{CAUSE}".encode() + b"0 accepted, 2 refused, 0 failed\n"
    repository.commits("excluded texts", refused[refused.index(b"c.min") : refused.index(b"0 acc")] + only)
    repository.git("config", "--unset-all", "dnorm.exclude")
    given = repository.run("dnorm-files", "check", "--staged", "--exclude", "*.gr")
    assert given.err.startswith(b"c.min:end: ") and b"0 accepted, 1 refused" in given.err, "patterns that are given"
    repository.git("rm", "-q", "-f", "d.d.gr", "d/e.gr")
    repository.put("a b:7.gr", ROADS)
    repository.git("rm", "-q", "--cached", "c.min")
    repository.commits("texts that are mended")
    repository.git("rm", "-q", "a b:7.gr")
    repository.commits("a removed text")
    repository.put("UP.GR", b"x\n")
    os.chmod(f"{repository.top}/UP.GR", 0o755)
    repository.git("add", "UP.GR")
    refused = f"UP.GR:1: 1 BadLine\n{CAUSE}".encode() + ONE
    repository.commits("an executable text with a name in capitals", refused)
    repository.git("rm", "-q", "-f", "UP.GR")
    os.symlink("notes.txt", f"{repository.top}/link.gr")
    repository.git("add", "link.gr")
    repository.commits("a link to a refused text", EARLY + ONE)
    os.remove(f"{repository.top}/link.gr")
    os.symlink("roads.gr", f"{repository.top}/link.gr")
    repository.git("add", "link.gr")
    repository.git("update-index", "--add", "--cacheinfo", f"160000,{40 * '1'},module.gr")
    repository.commits("a link and a submodule")
    write(f"{repository.top}/later.gr", b"x\n")
    repository.git("add", "-N", "later.gr")
    repository.put("later.ss", b"p aux sp ss 1\ns 1\n")
    told = b"later.ss: accepted ss, no graph\n"
    repository.commits("what is announced for later", told + ALONE)


def test_filter(repository: Repository) -> None:
    """The hook on a text that git stores elsewhere, as Git LFS does: the repository has a pointer."""
    repository.git("config", "filter.elsewhere.clean", "tee .git/stored > .git/last; echo pointer")
    repository.git("config", "filter.elsewhere.smudge", "cat .git/stored")
    repository.put(".gitattributes", b"*.gr diff=dnorm\n/stored.gr filter=elsewhere\n")
    repository.put("stored.gr", b"x\n")
    assert repository.git("cat-file", "blob", ":0:stored.gr").out == b"pointer\n", "what is staged"
    repository.commits("a refused text elsewhere", f"stored.gr:1: 1 BadLine\n{CAUSE}".encode() + ONE)
    repository.put("stored.gr", ROADS)
    repository.commits("a text elsewhere")


def test_textconv(repository: Repository) -> None:
    """The script of `git diff`, by itself and called by git."""
    repository.put("roads.gr", ROADS)
    repository.commits("a first text")
    rows = [("-a b.gr", ROADS, ROADS_CANON), ("x.gr", b"a\0 1\n", b"a\0 1\n"), ("e", b"", b"")]
    rows += [("a.GR.GZ", gzip.compress(ROADS), ROADS_CANON), ("b.gr.gz", ROADS, ROADS_CANON)]
    rows += [("cut.gr.gz", cut, cut) for cut in [gzip.compress(ROADS)[:-9]]]
    rows += [("c.gr.xz", lzma.compress(ROADS), ROADS_CANON), ("d.gr.bz2", bz2.compress(ROADS), ROADS_CANON)]
    if shutil.which("zstd"):
        rows.append(("e.gr.zst", run(["zstd", "-c"], ROADS).out, ROADS_CANON))
    for name, text, wanted in rows:
        write(f"{repository.top}/{name}", text)
        assert repository.run(f"{ROOT}/python/git/textconv", name) == Answer(wanted, b"", 0), f"textconv {name}"
        assert os.listdir(repository.temporary) == [], f"a file that textconv {name} has left"
    write(f"{repository.top}/roads.gr", ROADS_CANON)
    repository.differs("the same problem", [])
    write(f"{repository.top}/roads.gr", ROADS.replace(b"a 2 1 4", b"a 2 1 5"))
    repository.differs("another problem", [b"-a 2 1 4", b"+a 2 1 5"])
    write(f"{repository.top}/roads.gr", b"x\n" + ROADS_CANON)
    repository.differs("a refused text", [b"+x"])


def test_push(repository: Repository) -> None:
    """The hook of a bare repository: it refuses a push of refused texts, to a branch and as a new one."""
    repository.put("roads.gr", ROADS)
    repository.put("roads.ss", b"p aux sp ss 1\ns 1\n")
    repository.commits("texts")
    repository.git("clone", "-q", "--bare", ".", "../bare.git")
    repository.git("switch", "-q", "-c", "legacy")
    repository.put("old.gr", b"x\n")
    repository.git("commit", "-q", "--no-verify", "-m", "a refused text")
    repository.git("push", "-q", "../bare.git", "legacy")
    shutil.copy(f"{ROOT}/python/git/pre-receive", f"{repository.top}/../bare.git/hooks/pre-receive")
    repository.put("more.gr", ROADS)
    repository.commits("another text")
    found = repository.git("push", "-q", "../bare.git", "legacy")
    assert (found.err, found.status) == (b"", 0), "a push beside a text that was refused before"
    repository.git("switch", "-q", "-")
    repository.put("x.gr", b"x\n")
    repository.put("roads.ss", b"p aux sp ss 1\ns 9\n")
    repository.git("commit", "-q", "--no-verify", "-m", "refused texts")
    told = ["roads.ss: 35 NotInGraph 9", REFUSALS[35][1], "line 2 names it: s 9", "x.gr:1: 1 BadLine"]
    told += [it.strip() for it in CAUSE.splitlines()]
    told += ["0 accepted, 2 refused, 0 failed", EXCLUDE.decode().strip()]
    for branch in ["main", "new"]:
        found = repository.git("push", "-q", "../bare.git", f"HEAD:refs/heads/{branch}")
        lines = [it.removeprefix("remote:").strip() for it in found.err.decode().splitlines()]
        assert (
            lines[: len(told) + 1] == [*told, f"refs/heads/{branch} is refused"] and found.status == 1
        ), f"a push to {branch}"
    repository.git("rm", "-q", "x.gr")
    repository.put("roads.ss", b"p aux sp ss 1\ns 2\n")
    repository.commits("texts that are mended")
    for branch in ["main", "new"]:
        found = repository.git("push", "-q", "../bare.git", f"HEAD:refs/heads/{branch}")
        assert (found.err, found.status) == (b"", 0), f"a push to {branch}"
    assert repository.git("push", "-q", "../bare.git", ":refs/heads/new").status == 0, "a branch that is removed"
    repository.put("x.gr", b"x\n")
    repository.git("commit", "-q", "--no-verify", "-m", "a refused text")
    found = repository.git("push", "-q", "../bare.git", ":refs/heads/legacy", "HEAD:refs/heads/other")
    assert found.status == 1, "a branch that is removed, and a refused text in another one"
    repository.git("reset", "-q", "--hard", "HEAD~")
    assert os.listdir(repository.temporary) == [], "a folder that the hook has left"
    repository.put("lone.co", b"p aux sp co 0\n")
    repository.commits("a companion alone", b"lone.co: accepted co, no graph\n" + ALONE)
    repository.git("-C", "../bare.git", "config", "dnorm.strict", "true")
    found = repository.git("push", "-q", "../bare.git", "HEAD:refs/heads/main")
    assert (b"lone.co: 31 Read (accepted co, no graph)" in found.err, found.status) == (True, 1), "a strict push"


# Links that others have pushed, by the names of the pushes: {} stands for the folder that has the repository, and also
# a file of mode 600, a good text, a pipe and a socket. With each, what is said of the last one: that it leads out of
# the repository, or nowhere.
OUT, NOWHERE = "it leads out of the repository", "(No such file or directory|Too many levels of symbolic links)"
HOSTILE: dict[str, tuple[dict[str, str], str]] = {
    "the environment": ({"e.gr": "/proc/self/environ"}, OUT), "a stream": ({"e.gr": "/proc/self/fd/0"}, OUT),
    "a system file": ({"m.gr": "/etc/passwd"}, OUT), "from afar": ({"a/m.gr": f"{40 * '../'}etc/passwd"}, OUT),
    "a file of the user": ({"s.gr": "{}/secret"}, OUT), "by a relative path": ({"s.min": "../secret"}, OUT),
    "a pipe": ({"f.gr": "{}/pipe"}, OUT), "a compressed pipe": ({"f.gr.gz": "{}/pipe"}, OUT),
    "a socket": ({"k.gr": "{}/socket"}, OUT), "no end": ({"z.gr": "/dev/zero"}, OUT),
    "a compressed device": ({"z.gr.xz": "/dev/zero"}, OUT), "a text beside": ({"b.gr": "{}/good.gr"}, OUT),
    "by a folder": ({"d": "/etc", "x.gr": "d/passwd"}, f"({OUT}|{NOWHERE})"),
    "by a text": ({"d.gr": "{}", "x.gr": "d.gr/secret"}, OUT),
    "by another link": ({"a.gr": "/etc/passwd", "b.gr": "a.gr"}, OUT), "git": ({"g.gr": ".git/config"}, OUT),
    "git-annex": ({"g.gr": ".git/annex/objects/../../config"}, OUT), "a folder": ({"x.gr": "/etc"}, OUT),
    "a folder of git": ({"x.gr": "{}/top/.git/hooks"}, OUT),
    "a graph of a companion": ({"roads.gr": "{}/pipe"}, OUT), "a loop": ({"l.gr": "l.gr"}, NOWHERE),
    "nothing": ({"l.gr": "nowhere"}, NOWHERE), "a long link": ({"l.gr": 5000 * "x/"}, ""),
    "an odd name": ({"\x1b[2J\n.gr": "/etc/passwd"}, OUT),
}  # fmt: skip


@pytest.fixture
def server(repository: Repository, folder: str) -> Repository:
    """A repository and a bare one with the hook, beside what the user of the server has."""
    repository.put("roads.ss", b"p aux sp ss 1\ns 1\n")
    repository.git("commit", "-q", "--no-verify", "-m", "first")
    repository.git("clone", "-q", "--bare", ".", "../bare.git")
    shutil.copy(f"{ROOT}/python/git/pre-receive", f"{folder}/bare.git/hooks/pre-receive")
    write(f"{folder}/secret", b"hidden\n", 0o600)
    write(f"{folder}/good.gr", ROADS)
    os.mkfifo(f"{folder}/pipe")
    with socket.socket(socket.AF_UNIX) as it:
        it.bind(f"{folder}/socket")
    return repository


@pytest.mark.parametrize("links, why", HOSTILE.values(), ids=[*HOSTILE])
def test_hostile(server: Repository, folder: str, links: dict[str, str], why: str) -> None:
    """Both hooks refuse a link that leads out of the repository, open nothing there, and end."""
    for name, to in links.items():
        server.git("update-index", "--add", "--cacheinfo", f"120000,{server.blob(to.format(folder).encode())},{name}")
    committed = server.git("commit", "-q", "-m", "links")
    server.git("commit", "-q", "--no-verify", "-m", "links")
    pushed = server.git("push", "-q", "../bare.git", "HEAD:refs/heads/links")
    for what, found in [("a commit", committed), ("a push", pushed)]:
        assert found.status == 1 and re.search(rf": 31 Read \({why}", found.err.decode()), f"{what}: {found.err!r}"
        assert not re.search(rb"hidden|root:|PATH|repositoryformat|line 1", found.err), f"{what}: {found.err!r}"


def test_hostile_trees(server: Repository, folder: str) -> None:
    """Trees that git makes of no folder: a folder that is also a link, and one that leads out of the repository."""
    text, link = server.blob(b"written\n"), server.blob(folder.encode())

    def tree(*rows: str) -> str:
        told = "".join(f"{it}\n" for it in rows).encode()
        return run(["git", "mktree"], told, cwd=server.top, env=server.environment).out.decode().strip()

    below = tree(f"100644 blob {text}\tx.gr")
    for rows in [[f"120000 blob {link}\td", f"040000 tree {below}\td"], [f"040000 tree {below}\t.."]]:
        commit = server.git("commit-tree", "-m", "odd", tree(*rows)).out.decode().strip()
        found = server.git("push", "-q", "../bare.git", f"{commit}:refs/heads/odd")
        assert (found.status, os.path.exists(f"{folder}/x.gr")) == (1, False), found
    found = server.git("push", "-q", "../bare.git", f"{text}:refs/tags/blob")
    assert (found.status, b"refs/tags/blob is refused: it is neither a commit nor a folder" in found.err) == (1, True)


def test_sparse(repository: Repository) -> None:
    """A link to a file outside of a sparse checkout, and a graph there."""
    repository.put("roads.gr", ROADS)
    os.mkdir(f"{repository.top}/far")
    repository.put("far/x.gr", ROADS)
    repository.put("far/y.gr", ROADS)
    repository.commits("texts")
    repository.git("sparse-checkout", "set", "near")
    assert not os.path.exists(f"{repository.top}/far/x.gr")
    os.symlink("far/x.gr", f"{repository.top}/link.gr")
    repository.git("add", "link.gr")
    repository.git("update-index", "--add", "--cacheinfo", f"100644,{repository.blob(BAD)},far/y.ss")
    wanted = f"far/y.ss: 35 NotInGraph 9\n    {REFUSALS[35][1]}\n    line 2 names it: s 9\n".encode()
    repository.commits("a link and a companion", wanted + ONE_OF_TWO)


def test_no_library(repository: Repository) -> None:
    """Nothing is accepted without the library."""
    repository.put("x.gr", b"x\n")
    library = repository.environment["DNORM_LIBRARY"]
    for it in ["/bin/true", "/none", library.replace(".so.3", ".a")]:
        repository.environment["DNORM_LIBRARY"] = it
        found = repository.git("commit", "-q", "-m", "x")
        assert (found.status, found.err.count(b"\n")) == (1, 1), f"a commit by {it}: {found.err.decode()}"
    repository.environment["DNORM_LIBRARY"] = library
    assert repository.git("commit", "-q", "-m", "x").status == 1, "a refused text"


def test_no_room(repository: Repository) -> None:
    """A text that cannot be written to a temporary file, as on a full disk."""
    repository.put("big.gr", b"c " + 100_000 * b"x" + b"\n" + ROADS)
    found = repository.run("bash", "-c", "ulimit -f 8; exec .git/hooks/pre-commit")
    wanted = b"big.gr: 31 Read (File too large)\n0 accepted, 0 refused, 1 failed\n" + EXCLUDE
    assert (found.err, found.status) == (wanted, 4)
