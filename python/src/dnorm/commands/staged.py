"""The texts that git has staged, as it writes them to the working tree."""

import os
import subprocess
import tempfile
from collections.abc import Iterable, Sequence
from contextlib import ExitStack, suppress
from typing import Optional

from ..causes import ANNEX
from ..errors import DnormError, Read
from ..files import Bounds, failing, reason_of
from ..folders import Found, error_of
from ..names import COMPANIONS, ENDINGS, is_excluded, is_text, parts_of, stem_of, unread_text
from ..program import on_path
from ..records import WITH_COMPANIONS

# What the modes of files and of links begin with. All others are submodules.
FILE, LINK = "100", "120"
LEADS_OUT = "it leads out of the repository"


def git(*words: str, given: bytes = b"", top: Optional[str] = None) -> bytes:
    """Returns what a command of git prints. Raises Read if it fails, with the last line of its standard error."""
    ran = subprocess.run([on_path("git"), *words], input=given, capture_output=True, cwd=top, check=False)
    if ran.returncode:
        lines = os.fsdecode(ran.stderr).strip().splitlines() or [f"its status was {ran.returncode}"]
        raise Read("git", lines[-1])
    return ran.stdout


def named(listed: bytes) -> list[str]:
    """Returns names that each end in NUL."""
    return [os.fsdecode(it) for it in listed.split(b"\0")[:-1]]


class Index:
    """The index of a repository: `modes` has the mode of each file by its name from `top`, the top of the working tree.
    Files are written into `folder`, the current one, and `errors` has those that git cannot read."""

    def __init__(self, folder: str) -> None:
        self.top, self.folder = os.path.realpath(os.fsdecode(git("rev-parse", "--show-toplevel"))[:-1]), folder
        rows = (it.split("\t", 1) for it in named(self.git("ls-files", "--stage", "-z")))
        # A file that `git add -N` has announced is not committed.
        later = {*named(self.git("diff-files", "--ita-invisible-in-index", "--diff-filter=A", "--name-only", "-z"))}
        self.modes = {name: row[:3] for row, name in rows if name not in later}
        self.errors: dict[str, DnormError] = {}

    def git(self, *words: str, given: bytes = b"") -> bytes:
        return git(*words, given=given, top=self.top)

    def changed_from(self, commit: Optional[str]) -> list[str]:
        """Returns the names of the files that the commit, by default the last one, has otherwise, or alone, or not."""
        if commit is None:
            try:
                commit = os.fsdecode(self.git("rev-parse", "--verify", "--quiet", "HEAD"))[:-1]
            except Read:
                commit = os.fsdecode(self.git("hash-object", "-t", "tree", os.devnull))[:-1]
        only = ("--cached", "--ita-invisible-in-index", "--name-only", "--no-renames", "-z")
        return named(self.git("diff-index", *only, commit, "--"))

    def write(self, names: Iterable[str]) -> None:
        """Writes these files, and those of the index that links among them lead to."""
        wanted, done = set(names), set[str]()
        while wanted:
            given = "".join(f"{it}\0" for it in sorted(wanted))
            try:
                self.git("checkout-index", "-z", "--stdin", f"--prefix={self.folder}/", given=os.fsencode(given))
            except Read:
                # What it has written may be cut, so all are written one by one.
                for it in wanted:
                    with suppress(OSError):
                        os.remove(it)
            for it in wanted:
                if not os.path.lexists(it):
                    self.write_one(it)
            done |= wanted
            links = [it for it in wanted if self.modes[it] == LINK and os.path.islink(it)]
            wanted = {it for it in map(self.turned, links) if it is not None} - done

    def write_one(self, name: str) -> None:
        """Writes a file that git does not write by itself, as one outside of a sparse checkout."""
        try:
            os.makedirs(os.path.dirname(name) or ".", exist_ok=True)
            if self.modes[name] == LINK:
                os.symlink(self.git("cat-file", "blob", f":0:{name}"), os.fsencode(name))
                return
            data = self.git("cat-file", "--filters", f":0:{name}")
            with open(name, "xb") as file:
                file.write(data)
        except Read as error:
            self.errors[name] = Read(name, f"git cannot read it: {error.reason}")
        except OSError as error:
            self.errors[name] = Read(name, reason_of(error))

    def turned(self, link: str) -> Optional[str]:
        """Turns a link to what it leads to from the working tree, and returns its name if it is a file of the index."""
        to = os.readlink(link)
        path = os.path.realpath(os.path.join(self.top, os.path.dirname(link), to))
        name = os.path.relpath(path, self.top)
        is_tracked, is_annexed = self.modes.get(name, "") in (FILE, LINK), name.startswith(f".git/{ANNEX}")
        # What is not tracked is not committed: the link leads nowhere then.
        if is_tracked or is_annexed:
            os.remove(link)
            os.symlink(os.path.join(self.folder, name) if is_tracked else path, link)
        elif name.split("/")[0] in ("..", ".git"):
            self.errors[link] = Read(link, LEADS_OUT)
        return name if is_tracked else None

    def is_folder(self, link: str) -> bool:
        """Whether a link leads to a folder of the repository, which is not followed."""
        to = os.path.normpath(os.path.join(os.path.dirname(link), os.readlink(link)))
        return os.path.isdir(link) or any(it.startswith(f"{to}/") for it in self.modes)


def staged(commit: Optional[str], excluded: Sequence[str], stack: ExitStack) -> Found:
    """Returns the staged texts that the commit has not so, and the companions of such graphs, without what the patterns
    and git's configuration exclude, by their names in a folder, which is the current one until the stack ends."""
    folder = stack.enter_context(tempfile.TemporaryDirectory(prefix="dnorm-staged-"))
    with failing(Read, "git"):
        index, patterns = Index(os.path.realpath(folder)), [*excluded]
        # The status of git tells that there is no such variable.
        with suppress(Read):
            patterns += named(git("config", "--null", "--get-all", "dnorm.exclude"))
        stack.callback(os.chdir, os.getcwd())
        os.chdir(folder)
        changed = [it for it in index.changed_from(commit) if is_text(it) or unread_text(it)]
        stems = {stem_of(it) for it in changed}
        near = [it for it in index.modes if stem_of(it) in stems and (is_text(it) or unread_text(it))]
        index.write(it for it in near if index.modes[it] in (FILE, LINK))
    found = Found(ENDINGS, patterns)
    found.bounds = Bounds((index.folder, os.path.join(index.top, ".git", ANNEX)), out=LEADS_OUT)
    graphs = {stem_of(it) for it in changed if parts_of(it)[1] in WITH_COMPANIONS}
    names = {*changed} | {it for it in near if parts_of(it)[1] in COMPANIONS and stem_of(it) in graphs}
    names -= {it for it in near if index.modes[it] == LINK and it not in index.errors and index.is_folder(it)}
    files = [it for it in near if it in names and index.modes[it] in (FILE, LINK) and not is_excluded(it, patterns)]
    found.files = {it: index.errors.get(it) or error_of(it, ENDINGS) for it in files}
    return found
