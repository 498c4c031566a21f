"""The Python package beside the program: its table of refusals, its version and its names; the examples in its pages;
and some calls by each Python on the path."""

import doctest
import os
import re
import shutil
import sys

import pytest
from known import ROADS
from needs import leave_out, need_here, pass_over
from shared import ROOT, python_with, run, said, text_of, write
from test_calls import PACKAGE, READS, python
from test_folders import ENVIRONMENT, make_clone, module

import dnorm

pytestmark = READS
# The Pythons that the package supports, and a call of each sort.
PYTHONS = [f"python3.{it}" for it in range(9, 20)]
SOME_CALLS = """
import dnorm, io, pathlib
text = pathlib.Path("examples/flow.min").read_bytes()
print(dnorm.check("examples/roads.gr", "examples/sources.ss"), dnorm.checksum(io.BytesIO(text)))
print(dnorm.compare(text, "examples/flow-cheaper.min"), dnorm.read(text, 2).costs[0])
try:
    dnorm.canon_to("examples/refused/17-SumTooLarge.max", "none")
except dnorm.Refused as error:
    print(error)
"""
SOME_ANSWERS = """\
Checked(kind='sp', fits='ss', forms=()) 431fd9d3cad523055ba5c48c5b077b8082c33c818c1bfafb875379504e475092
differ pair 1 2 amount 5 cost 4 3 0
examples/refused/17-SumTooLarge.max:6: 17 SumTooLarge
"""
# Evaluates the hints of all public names, and of the methods that the package gives them. Those of an error are none of
# a call.
HINTS = """
import dnorm, inspect, typing
for it in (getattr(dnorm, name) for name in dnorm.__all__):
    if inspect.isfunction(it) or inspect.isclass(it):
        typing.get_type_hints(it)
    for method in vars(it).values() if inspect.isclass(it) and not issubclass(it, Exception) else []:
        if inspect.isfunction(method) and method.__module__.startswith("dnorm."):
            typing.get_type_hints(method)
print("evaluated")
"""


def test_same_as_program(tested: str) -> None:
    version = run([tested, "--version"]).out.decode().split()[1]
    assert dnorm.__version__ == version.replace("-dev", ".dev0")


def test_names() -> None:
    modules = {name for name, it in vars(dnorm).items() if isinstance(it, type(sys))}
    assert sorted(dnorm.__all__) == sorted(it for it in {*vars(dnorm)} - modules if not it.startswith("_"))


@pytest.mark.parametrize("name", PYTHONS)
def test_python(name: str) -> None:
    """Some calls and a command with each Python on the path."""
    environment = {**os.environ, **ENVIRONMENT}
    # A shim of pyenv is there for a Python that is not.
    if not shutil.which(name) or run([name, "--version"]).status:
        pass_over(name)
    for words, out in [(["-c", SOME_CALLS], SOME_ANSWERS), (["-c", HINTS], "evaluated\n")]:
        assert run([name, "-W", "error", *words], cwd=ROOT, env=environment) == said(out)
    found = run([name, "-m", "dnorm", "check", "examples/roads.gr"], cwd=ROOT, env=environment)
    assert (found.out, found.status) == (b"examples/roads.gr: accepted sp\n", 0)


@pytest.mark.parametrize("place", ["build", f"released/{os.uname().machine}"])
def test_clone(place: str) -> None:
    """dnorm-files of a clone reads by the library that is built there, or else released, and writes nothing there."""
    make_clone(place)
    dropped = ("DNORM_LIBRARY", "PYTHONDONTWRITEBYTECODE")
    environment = {it: value for it, value in os.environ.items() if it not in dropped}
    files = [f"{ROOT}/examples/{it}" for it in ("roads.gr", "flow.min")]
    before = sorted(os.walk("clone"))
    assert run(["clone/bin/dnorm-files", "check", "-q", *files], env=environment).status == 0
    assert sorted(os.walk("clone")) == before


def test_program(tested: str) -> None:
    """Where the program is that dnorm-explain and canon-in-parts run: beside the package, or on an absolute `PATH`."""
    code = "from dnorm.program import find_program; print(find_program())"
    os.makedirs("path")
    os.symlink(tested, "path/dnorm")
    os.symlink(tested, "dnorm")
    rows = [
        ("lib/python3/site-packages", "bin"),
        ("python/src", "."),
        ("python/src", "bin"),
        ("share/dnorm/python", "bin"),
    ]
    for at, (package, place) in enumerate(rows):
        shutil.copytree(f"{PACKAGE}/dnorm", f"{at}/{package}/dnorm", ignore=shutil.ignore_patterns("__pycache__"))
        own = {"PYTHONPATH": os.path.abspath(f"{at}/{package}"), "PYTHONDONTWRITEBYTECODE": "1"}
        for path, line in [(f"/none:{os.getcwd()}/path", f"{os.getcwd()}/path/dnorm\n"), (".:path", ""), ("", "")]:
            found = run([sys.executable, "-c", code], env={**own, "PATH": path})
            assert (found.out.decode(), found.status) == (line, 0 if line else 1), f"PATH {path}"
        os.makedirs(f"{at}/{place}", exist_ok=True)
        os.symlink(tested, f"{at}/{place}/dnorm")
        found = run([sys.executable, "-c", code], env={**own, "PATH": f"{os.getcwd()}/path"})
        assert found == said(f"{os.path.abspath(f'{at}/{place}')}/dnorm\n"), package


# Removes what some systems lack, and runs a command of the package.
LACKING = """
import os, runpy
del os.sched_getaffinity
runpy.run_module("dnorm", run_name="__main__")
"""


def test_lacking() -> None:
    """The package without a call that other systems lack."""
    write("b.gr", ROADS)
    write("x.gr", b"p sp 2 1\na 1 3 5\n")
    found = python(LACKING, "check", "b.gr", "x.gr")
    assert (found.out, found.status) == (b"b.gr: accepted sp\nx.gr:2: 13 NodeOutOfRange\n", 2)


def test_source() -> None:
    """What setuptools builds from the files of the source distribution reads texts."""
    need_here("released/c/")
    by = python_with("setuptools") or leave_out("setuptools")
    shutil.copytree(f"{ROOT}/python", "it", ignore=shutil.ignore_patterns("__pycache__"))
    shutil.copytree(f"{ROOT}/released/c", "it/c")
    ran = run([by, "setup.py", "-q", "build_ext", "--inplace"], cwd="it", env={**os.environ, "CFLAGS": "-O0"})
    assert ran.status == 0, ran.err
    write("roads.gr", ROADS)
    own = {**os.environ, "PYTHONPATH": "it/src", "DNORM_LIBRARY": "", "PYTHONDONTWRITEBYTECODE": "1"}
    code = "import dnorm; print(dnorm.find_library(), dnorm.check('roads.gr'))"
    place, told = run([by, "-c", code], env=own).out.decode().split(" ", 1)
    assert re.fullmatch(r"\S+/it/src/dnorm/libdnorm\.\S+\.so", place), place
    assert told == "Checked(kind='sp', fits=None, forms=())\n"


# What pip makes of a command of the package.
BY_PIP = "import sys; sys.argv[0] = {!r}; from {} import {} as it; sys.exit(it())"


def test_commands() -> None:
    """The commands of wheels, which do what those of `bin/install` do."""
    text = text_of(f"{ROOT}/python/pyproject.toml").partition("[project.scripts]\n")[2].partition("\n\n")[0]
    commands = dict(re.findall(r'^([\w-]+) = "(.*)"$', text, re.M))
    assert sorted(commands) == ["canon-in-parts", "dnorm-explain", "dnorm-files"]
    environment = {**os.environ, **ENVIRONMENT}
    for name, place in commands.items():
        code = BY_PIP.format(name, *place.split(":"))
        for words in ["--help", "--none", f"check {ROOT}/examples/refused/13-NodeOutOfRange.gr", "--lines 2 -"]:
            own = run([f"{ROOT}/bin/{name}", *words.split()], ROADS, env=environment)
            assert run([sys.executable, "-c", code, *words.split()], ROADS, env=environment) == own, f"{name} {words}"


def test_page() -> None:
    """The help names the page that describes the commands, where it is."""
    for package, place in [
        ("lib/python3/dist-packages/dnorm", "share/doc/dnorm/docs/FILES.md"),
        ("share/dnorm/python/dnorm", "share/doc/dnorm/docs/FILES.md"),
        ("site-packages/dnorm", "site-packages/dnorm/FILES.md"),
        ("nowhere/dnorm", "docs/FILES.md"),
    ]:
        os.makedirs(os.path.dirname(f"usr/{package}"))
        shutil.copytree(f"{PACKAGE}/dnorm", f"usr/{package}", ignore=shutil.ignore_patterns("__pycache__"))
        wanted = place
        if place != "docs/FILES.md":
            os.makedirs(os.path.dirname(f"usr/{place}"), exist_ok=True)
            write(f"usr/{place}", "")
            wanted = os.path.abspath(f"usr/{place}")
        own = {**os.environ, **ENVIRONMENT, "PYTHONPATH": os.path.dirname(os.path.abspath(f"usr/{package}"))}
        found = run([sys.executable, "-m", "dnorm", "--help"], env=own).out.decode()
        assert f"\n{wanted} describes the commands.\n" in found, package
    need_here("docs/")
    assert f"\n{ROOT}/docs/FILES.md describes the commands.\n" in module("--help").out.decode()


@pytest.mark.parametrize("name", ["dnorm-files", "dnorm-explain", "canon-in-parts"])
def test_without_python(folder: str, name: str) -> None:
    os.mkdir("bin")
    for it in ["sh", "dirname", "readlink"]:
        os.symlink(shutil.which(it) or "", f"bin/{it}")
    found = run([f"{ROOT}/bin/{name}", "check", "t.gr"], env={"PATH": f"{folder}/bin"})
    (line,) = found.err.decode().splitlines()
    assert (found.out, found.status, "python3" in line) == (b"", 127, True), line


def test_examples(monkeypatch: pytest.MonkeyPatch) -> None:
    """The examples in python/README.md and in the package."""
    monkeypatch.chdir(f"{ROOT}/examples")
    for told in [doctest.testfile(f"{ROOT}/python/README.md", module_relative=False), doctest.testmod(dnorm)]:
        assert told.failed == 0 and told.attempted
