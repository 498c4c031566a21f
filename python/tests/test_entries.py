"""Tests that no command runs a file of the folder that it looks at: a folder with a module of each name that the
package imports, and with a program of each name that the commands run, is checked by each entry."""

import os
import shutil
import subprocess
import sys

import pytest
from known import ROADS
from needs import need
from shared import OF_GIT, ROOT, Answer, run, text_of, write
from test_calls import READS, python
from test_folders import ENVIRONMENT, make_clone

pytestmark = READS
BAD = b"p sp 2 1\na 1 3 5\n"
REFUSED = "bad.gr:2: 13 NodeOutOfRange"
# Prints the modules that Python has imported once it has those that are named. numpy and others are imported only where
# they are there.
IMPORTED = """
import importlib, sys
for it in sys.argv[1:]:
    importlib.import_module(it)
print(*{it.partition(".")[0] for it in sys.modules})
"""
COMMANDS = ["dnorm.commands.line", "dnorm.commands.explain", "dnorm.parts.line", "dnorm.parts.chunks", "fnmatch"]
OPTIONAL = ["numpy", "pandas", "scipy", "networkx", "igraph", "zstandard", "compression", "sitecustomize"]
PROGRAMS = ["python3", "dnorm", "dnorm-files", "git", "readlink", "dirname", "sed", "find", "parallel", "gzip", "sh"]
# The ways to name the current folder in a list of folders.
LISTS = ["{}", ".:{}", ":{}", "{}:", "{}::/usr/bin", "./:{}"]


def imported(*modules: str) -> set[str]:
    """Returns the names of the modules that Python has imported with these."""
    ran = python(IMPORTED, *modules)
    assert ran.status == 0, ran.err
    return set(ran.out.decode().split()) - {"dnorm", "__main__"}


def make_traps(modules: set[str]) -> None:
    """Makes a folder with a refused file, and with modules and programs that would make it look accepted. Each writes
    its name into the file `ran`."""
    os.mkdir("coll")
    write("coll/bad.gr", BAD)
    ran = os.path.abspath("ran")
    for it in sorted(modules):
        code = f"import sys; open({ran!r}, 'a').write('{it}.py '); sys.exit(0)\n"
        if it in ("numpy", "json"):
            os.mkdir(f"coll/{it}")
            write(f"coll/{it}/__init__.py", code)
        else:
            write(f"coll/{it}.py", code)
    for it in PROGRAMS:
        write(f"coll/{it}", f"#!/bin/sh\necho '{it} ' >> '{ran}'\n", 0o755)
    write(ran, "")
    os.chdir("coll")


def is_refused(what: str, found: Answer) -> None:
    """The refused file is named, and nothing of the folder ran."""
    assert text_of("../ran") == "", f"{what} ran a file of the folder"
    assert REFUSED in (found.out + found.err).decode(), f"{what} names the refused file: {found}"
    assert found.status, f"the status of {what}"


def environment(folders: str = "{}") -> dict[str, str]:
    """Returns an environment in which lists of folders have this form."""
    # Without $DNORM_LIBRARY, the package looks for its library, which the clone has.
    others = {it: value for it, value in os.environ.items() if it not in ("PYTHONPATH", "DNORM_LIBRARY")}
    lists = {"PATH": folders.format(os.environ["PATH"]), "PYTHONPATH": folders.format("/none")}
    return {**others, **lists, "PYTHONDONTWRITEBYTECODE": "1"}


@pytest.mark.parametrize("folders", LISTS)
def test_scripts(tested: str, folders: str) -> None:
    """The scripts, where $PATH and $PYTHONPATH name the current folder, too."""
    clone = make_clone("build", tested)
    make_traps(imported(*COMMANDS) | {*OPTIONAL})
    own = environment(folders)
    rows = [[f"{clone}/bin/dnorm-files", "check", "."], [f"{clone}/python/ci/check-files", "bad.gr"]]
    rows += [[f"{clone}/bin/dnorm-files", it, "bad.gr"] for it in ("manifest", "same", "list")]
    rows += [
        [f"{clone}/bin/dnorm-files", "compare", "bad.gr", "bad.gr"],
        [f"{clone}/bin/dnorm-explain", "check", "bad.gr"],
    ]
    for words in rows:
        is_refused(words[0], run(words, env=own))
    refusal = run([f"{clone}/bin/dnorm-explain"], REFUSED.encode(), env=own)
    assert (text_of("../ran"), b"line 2: a 1 3 5" in refusal.out) == ("", True), "dnorm-explain of what dnorm printed"


def test_python_scripts(tested: str) -> None:
    """The scripts in Python, with modules in the current folder."""
    clone = make_clone("build", tested)
    make_traps(imported(*COMMANDS, "json", "xml.etree.ElementTree") | {*OPTIONAL})
    own = environment()
    given = run([f"{clone}/bin/canon-in-parts", "bad.gr"], env=own)
    assert (text_of("../ran"), given.out, given.status) == ("", b"", 2), "canon-in-parts"
    given = run([f"{ROOT}/suite/run.py", "--level", "accept", "--rule", "BadLine", tested], env=own)
    assert text_of("../ran") == "", "the conformance suite"
    own["PYTHONPATH"] = f"{clone}/python/src"
    script = "import sys; sys.argv[0] = 'dnorm-files'; from dnorm.__main__ import main; sys.exit(main())"
    write("../dnorm-files", f"#!{sys.executable}\n{script}\n")
    is_refused("the script of pip", run([sys.executable, "../dnorm-files", "check", "bad.gr"], env=own))


@pytest.mark.parametrize("words", [["-m", "dnorm"], ["-Bm", "dnorm"], ["-mdnorm"], ["-P", "-m", "dnorm"]])
def test_module(words: list[str]) -> None:
    """`python3 -m dnorm`: no module of the current folder runs but those that Python imports before the package."""
    if words[0] == "-P" and sys.version_info < (3, 11):
        need("Python 3.11")
    before = set() if words[0] == "-P" else imported("runpy", "pkgutil")
    clone = make_clone("build")
    make_traps((imported(*COMMANDS) | {*OPTIONAL}) - before)
    own = {**environment(), "PYTHONPATH": f"{clone}/python/src"}
    is_refused("python3 -m dnorm", run([sys.executable, *words, "check", "."], env=own))


def test_module_beside() -> None:
    """Other modules that are run by -m keep their own folder."""
    write("beside.py", "")
    write("other.py", "import dnorm, sys, beside; print('dnorm')\n")
    found = run([sys.executable, "-m", "other", "dnorm"], env={**os.environ, **ENVIRONMENT})
    assert (found.out, found.status) == (b"dnorm\n", 0), found.err
    for argv in [[], ["-m"], ["-m", *9 * ["dnorm"]]]:
        found = python(f"import sys; sys.argv = {argv}; import dnorm")
        assert (found.err, found.status) == (b"", 0), f"a program whose arguments are {argv}"
    os.makedirs("package")
    write("package/__init__.py", "import dnorm\n")
    write("package/__main__.py", "import beside; print('package')\n")
    found = run([sys.executable, "-m", "package"], env={**os.environ, **ENVIRONMENT})
    assert (found.out, found.status) == (b"package\n", 0), found.err


@pytest.mark.parametrize("folders", LISTS)
def test_git(folders: str) -> None:
    """The hook for git, in a repository with such files."""
    need("git")
    clone = make_clone("build")
    make_traps(imported(*COMMANDS) | {*OPTIONAL})
    os.mkdir("../bin")
    os.symlink(f"{clone}/bin/dnorm-files", "../bin/dnorm-files")
    git = shutil.which("git") or ""
    own = environment() | OF_GIT
    own["PATH"] = folders.format(f"{os.path.abspath('../bin')}:{os.environ['PATH']}")
    subprocess.run([git, "init", "-q"], check=True, env=own)
    shutil.copy(f"{clone}/python/git/pre-commit", ".git/hooks/pre-commit")
    subprocess.run([git, "add", "."], check=True, env=own)
    is_refused("the hook", run([git, "commit", "-q", "-m", "x"], env=own))
    write("bad.gr", ROADS)
    subprocess.run([git, "add", "."], check=True, env=own)
    found = run([git, "commit", "-q", "-m", "x"], env=own)
    assert (text_of("../ran"), found.err, found.status) == ("", b"", 0), "a commit"
