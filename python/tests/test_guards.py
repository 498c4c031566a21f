"""Tests the guards of a collection: `python3 -m dnorm check`, the hook for git at a commit and at a merge, and the hook
for pre-commit. The collection has 300 instances, and beside them texts with faults, with
names in capitals, behind compressions that are read and others, cut or damaged, pointers of Git LFS, companions that do
not fit, and links. Each guard refuses each of these files, or counts it among the other files. It names a text of
another kind than its ending and a companion without a graph that is accepted, and refuses them if it is strict.
"""

import gzip
import os
import re
import shutil
import sys

from collection import BAD, COUNT, FAULTS, NO, NO_GRAPH, OTHER_KIND, OTHERS, make_collection, make_pipes
from known import ROADS
from needs import need
from shared import OF_GIT, ROOT, Answer, make, run, write
from test_calls import READS, standing_in
from test_folders import ENVIRONMENT, fields_of_hook, module

pytestmark = READS


def are_named(what: str, lines: list[str], faults: dict[str, str], besides: tuple[str, ...] = ()) -> None:
    """These lines name each of these files with its fault, and nothing else but what begins so."""
    for name, fault in faults.items():
        pattern = re.compile(re.escape(name) + f"(?:{fault})")
        told = [it for it in lines if pattern.match(it)]
        assert len(told) == 1, f"{what} names {name}"
        lines = [it for it in lines if it not in told]
    assert [it for it in lines if not it.startswith(besides or ("\0",))] == [], f"{what} names others"


def remarked(remarks: dict[str, str], before: str = ": accepted [a-z0-9]+, ") -> dict[str, str]:
    """Returns what follows the names of the files with remarks."""
    return {name: f"{before}{it}$" for name, it in remarks.items() if it}


# What follows the name of a file with a remark, if the guard is strict.
STRICT = r": 31 Read \(accepted [a-z0-9]+, "


def test_by_package() -> None:
    """Tests `python3 -m dnorm check`, also with links to folders, with --strict and with names that are given."""
    remarks, faults = make_collection(), {**FAULTS, **make_pipes()}
    os.symlink("inst", "coll/linked")
    found = module("check", "--companions", "-q", "coll")
    lines = found.out.decode().splitlines()
    are_named("check", lines, {**faults, **remarked(remarks)})
    failed = sum(": 31 Read " in it for it in lines)
    alone, kinds = (sum(it in remark for remark in remarks.values()) for it in (NO_GRAPH, OTHER_KIND))
    count = f"{len(remarks)} accepted, {len(faults) - failed} refused, {failed} failed"
    count += f", {alone} companions without a graph, 1 companion of a graph that is not accepted"
    count += f", {kinds} files of another kind than their endings\n{len(OTHERS) + 1} other files: "
    assert (found.err.decode()[: len(count)], found.status) == (count, 4), "the count"
    assert len(remarks) == COUNT, "accepted files"
    found = module("check", "--strict", "--companions", "-q", "coll")
    others = {it: NO for it in [*OTHERS, "coll/linked"]}
    strict = remarked(remarks, STRICT)
    strict = {name: it.replace("$", r"\)$") for name, it in strict.items()}
    are_named("--strict", found.out.decode().splitlines(), {**faults, **strict, **others})
    # A file that is named is read, whatever its name is.
    faults = {name: fault for name, fault in FAULTS.items() if not re.search("(?i)\\.(gr|p2p)z$", name)}
    names = "\0".join([*remarks, *faults]).encode()
    found = module("check", "--companions", "-q", "--files0-from", "-", given=names)
    are_named("check of named files", found.out.decode().splitlines(), {**faults, **remarked(remarks)})
    assert module("check", "-q", OTHERS[-1]).out.decode() == f"{OTHERS[-1]}:2: 13 NodeOutOfRange\n"


class Repository:
    """A repository with the collection, in the folder `coll`."""

    def __init__(self) -> None:
        os.mkdir("bin")
        os.symlink(f"{ROOT}/bin/dnorm-files", "bin/dnorm-files")
        path = f"{os.getcwd()}/bin:{os.environ['PATH']}"
        self.environment = {**os.environ, **OF_GIT, "LC_ALL": "C.UTF-8", "PATH": path}
        self.git("init", "-q", "-b", "main")
        write("first.txt", "first")
        self.git("add", "first.txt")
        self.git("commit", "-q", "-m", "first")

    def git(self, *words: str) -> Answer:
        return run(["git", *words], env=self.environment)

    def lines(self, *words: str) -> tuple[list[str], int]:
        """Returns the lines of a command of git on standard error, and its status."""
        found = self.git(*words)
        return found.err.decode().splitlines(), found.status


def test_by_git() -> None:
    """The hook for git: it refuses a commit with these files, and a merge that brings them."""
    need("git")
    remarks = make_collection()
    for it in ["coll/.git", "coll/inst/CVS"]:
        shutil.rmtree(it)
    repository = Repository()
    repository.git("switch", "-q", "-c", "branch")
    repository.git("add", "coll")
    repository.git("commit", "-q", "-m", "a collection")
    repository.git("switch", "-q", "main")
    for it in ["pre-commit", "pre-merge-commit"]:
        shutil.copy(f"{ROOT}/python/git/pre-commit", f".git/hooks/{it}")
    lines, status = repository.lines("merge", "--no-ff", "-q", "-m", "merged", "branch")
    told = {**FAULTS, **remarked(remarks)}
    are_named("a merge", lines, told, (*BESIDES, "Not committing merge; "))
    assert (status, repository.git("log", "--format=%s").out) == (1, b"first\n"), "a merge"
    lines, status = repository.lines("commit", "-q", "-m", "a collection")
    are_named("a commit", lines, told, BESIDES)
    assert {"    line 2: a 1 3 5", f"    {POINTER_HINT}"} <= {*lines}, "a commit shows causes"
    assert (status, repository.git("log", "--format=%s").out) == (1, b"first\n"), "a commit"
    repository.git("rm", "-q", "--cached", "--", *FAULTS)
    repository.git("config", "dnorm.strict", "true")
    lines, status = repository.lines("commit", "-q", "-m", "the others")
    remarks["coll/worse.co"] = NO_GRAPH
    strict = {name: it.replace("$", r"\)$") for name, it in remarked(remarks, STRICT).items()}
    are_named("a strict commit of the others", lines, strict, BESIDES)
    assert status == 1, "its status"
    repository.git("config", "dnorm.strict", "false")
    lines, status = repository.lines("commit", "-q", "-m", "the others")
    are_named("a commit of the others", lines, remarked(remarks), BESIDES)
    assert status == 0, "its status"
    later_links(repository)
    later_pairs(repository)


# What the hook for git prints besides: causes and the count.
BESIDES = ("    ", "git config --add dnorm.exclude ", *(f"{it} accepted, " for it in range(COUNT + 1)))
NOT_IN = "    The companion names a node above NODES of the graph."
EXCLUDE = "git config --add dnorm.exclude PATTERN leaves files out of this check"
POINTER_HINT = "The file is a pointer of Git LFS, and the text is missing: git lfs pull"


def later_links(repository: Repository) -> None:
    """Links that lead out of what is committed, to folders, and to git-annex."""
    outside = f"{os.getcwd()}-outside"
    make({"below/x.gr": ROADS, "notes/x": b"", "untracked": ROADS, outside: ROADS})
    lost = ".git/annex/objects/AB/cd/SHA256E-s12--0.gr/SHA256E-s12--0.gr"
    links = {"a.gr": "below/x.gr", "b.gr": "untracked", "c.gr": os.path.relpath(outside), "d.gr": "below", "e.gr": lost}
    links["f.gr"] = "notes"
    for name, to in links.items():
        os.symlink(to, name)
    repository.git("add", "below", "notes", *links)
    lines, status = repository.lines("commit", "-q", "-m", "links")
    wanted = ["b.gr: 31 Read (No such file or directory)", "c.gr: 31 Read (it leads out of the repository)"]
    wanted += ["e.gr: 31 Read (No such file or directory)"]
    wanted += ["    The file is a pointer of git-annex, and the text is missing: git annex get"]
    assert (lines[:-1], status) == ([*wanted, "2 accepted, 0 refused, 3 failed"], 1), "a commit of links"
    repository.git("rm", "-q", "--cached", "b.gr", "c.gr", "e.gr")
    assert repository.lines("commit", "-q", "-m", "links") == ([], 0), "a commit of links"
    repository.git("rm", "-q", "coll/good.gr.gz")
    orphans = ["coll/good.co: accepted co, no graph", "coll/good.ss: accepted ss, no graph"]
    orphans.append("2 accepted, 0 refused, 0 failed, 2 companions without a graph")
    assert repository.lines("commit", "-q", "-m", "x") == (orphans, 0), "a graph that is removed"
    repository.git("reset", "-q", "--hard", "HEAD~1")
    repository.git("mv", "coll/good.gr.gz", "coll/better.gr.gz")
    renamed = [*orphans[:2], orphans[2].replace("2 accepted", "3 accepted")]
    assert repository.lines("commit", "-q", "-m", "x") == (renamed, 0), "a graph that is renamed"
    os.remove(outside)
    repository.git("reset", "-q", "--hard", "HEAD~1")


def later_pairs(repository: Repository) -> None:
    """A graph or a companion is checked against what is committed before; and texts that git has lost."""
    count = "1 accepted, 1 refused, 0 failed"
    for name, text, lines in [
        (
            "coll/good.gr.gz",
            gzip.compress(b"p sp 29 0\n"),
            ["coll/good.ss: 35 NotInGraph 30", NOT_IN, "    line 2 names it: s 30", f"2 {count[2:]}"],
        ),
        (
            "coll/good.p2p",
            b"p aux sp p2p 1\nq 31 1\n",
            ["coll/good.p2p: 35 NotInGraph 31", NOT_IN, "    line 2 names it: q 31 1", f"0 {count[2:]}"],
        ),
    ]:
        write(name, text)
        repository.git("add", "--", name)
        assert repository.lines("commit", "-q", "-m", "x") == ([*lines, EXCLUDE], 1), f"a commit of {name}"
        repository.git("reset", "-q", "--hard")
    make({"old/a.gr": BAD, "old/b.gr.gz": b"not compressed"})
    repository.git("add", "old")
    repository.git("commit", "-q", "--no-verify", "-m", "refused graphs")
    make({"old/a.ss": b"p aux sp ss 1\ns 9\n", "old/b.co": b"p aux sp co 0\n"})
    repository.git("add", "old")
    lines, status = repository.lines("commit", "-q", "-m", "their companions")
    told = ["old/a.ss: accepted ss, graph not accepted: old/a.gr"]
    told += ["old/b.co: accepted co, graph not accepted: old/b.gr.gz"]
    told += ["2 accepted, 0 refused, 0 failed, 2 companions of graphs that are not accepted"]
    assert (lines, status) == (told, 0), "companions of refused graphs"
    repository.git("config", "filter.lfs.clean", "cat > /dev/null; cat pointer")
    repository.git("config", "filter.lfs.smudge", "echo 'the object is missing' >&2; false")
    repository.git("config", "filter.lfs.required", "true")
    write(".gitattributes", "lost.gr filter=lfs\n")
    make({"lost.gr": ROADS, "kept.gr": ROADS, "pointer": b"elsewhere\n"})
    repository.git("add", ".gitattributes", "lost.gr", "kept.gr")
    lost = "lost.gr: 31 Read (git cannot read it: fatal: lost.gr: smudge filter lfs failed)"
    wanted = ([lost, "1 accepted, 0 refused, 1 failed", EXCLUDE], 1)
    assert repository.lines("commit", "-q", "-m", "x") == wanted, "a commit of a text that is lost"


def test_time(stand_in: str) -> None:
    """What git has staged may take a minute for each file: less in this test."""
    need("git")
    repository = Repository()
    write("late.gr", ROADS)
    repository.git("add", "late.gr")
    code = "import sys; from dnorm.commands import line, tasks; tasks.MINUTE = 0.3; sys.exit(line.main())"
    with standing_in(stand_in, WAIT=3000):
        own = {**repository.environment, **ENVIRONMENT, **os.environ}
        found = run([sys.executable, "-c", code, "check", "--staged"], env=own)
    assert (found.err.splitlines()[:1], found.status) == ([b"late.gr: took more than 0.3 seconds"], 4)


def test_by_pre_commit() -> None:
    """The hook for pre-commit, called as pre-commit calls it: with the files that match its expressions."""
    remarks = make_collection()
    fields = fields_of_hook()
    names = [os.path.join(at, it) for at, _, below in os.walk("coll") for it in below]
    names = [it for it in names if not it.startswith(("coll/.git/", "coll/inst/CVS/"))]
    chosen = [it for it in names if re.search(fields["files"], it)]
    assert {*FAULTS, *remarks} <= {*chosen}, "files that are chosen"
    environment = {it: value for it, value in os.environ.items() if it != "PYTHONPATH"}
    environment["PYTHONDONTWRITEBYTECODE"] = "1"
    found = run([f"{ROOT}/{fields['entry']}", *sorted(chosen)], env=environment)
    are_named("pre-commit", found.out.decode().splitlines(), {**FAULTS, **remarked(remarks)})
    assert found.status == 4, "its status"
    # Its companions are checked with a graph that is named.
    for it in FAULTS:
        os.remove(it)
    accepted = sorted({*chosen} - {*FAULTS} - {*OTHERS})
    rows: list[tuple[list[str], int]] = [([], 0), (["--strict"], 4)]
    for words, status in rows:
        found = run([f"{ROOT}/{fields['entry']}", *words, *accepted], env=environment)
        assert found.status == status, f"pre-commit {words} of the others"
