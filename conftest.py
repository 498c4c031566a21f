"""The options of the tests, and what all of them share: the program under test, folders, and what is left out."""

import importlib.util
import os
import signal
import sys
from collections import Counter
from collections.abc import Iterator
from unittest import mock

import pytest
from needs import leave_out, need
from shared import ENDING, PREFIX, ROOT, Quick, exit_by, program_at, run, said


def pytest_addoption(parser: pytest.Parser) -> None:
    own = "by default $DNORM, or else what make has built, or else the released one"
    parser.addoption("--program", help=f"the program that is tested: {own}")
    parser.addoption("--every", type=int, default=1, metavar="N", help="run each Nth case of a test")


def pytest_report_header(config: pytest.Config) -> str:
    return f"tested: {program_at(config.getoption('--program'))}"


def pytest_configure(config: pytest.Config) -> None:
    """Puts the library for C where the tests find it, before the processes of pytest-xdist begin."""
    putting = f"{ROOT}/c/put"
    if not hasattr(config, "workerinput") and "DNORM_TESTED_PREFIX" not in os.environ and os.path.exists(putting):
        put = run([putting, PREFIX], limit=None)
        assert put.status == 0, put.err.decode()


def pytest_collection_modifyitems(config: pytest.Config, items: list[pytest.Item]) -> None:
    """Leaves out what one of each Nth case does not do. Tests that measure times run one after another."""
    every = config.getoption("--every")
    for it in items:
        if it.get_closest_marker("alone"):
            it.add_marker(pytest.mark.xdist_group("alone"))
    before, chosen, left_out = Counter[str](), list[pytest.Item](), list[pytest.Item]()
    for it in items:
        test = it.nodeid.partition("[")[0]
        (left_out if before[test] % every else chosen).append(it)
        before[test] += 1
    config.hook.pytest_deselected(items=left_out)
    items[:] = chosen


@pytest.fixture(scope="session")
def tested(request: pytest.FixtureRequest) -> str:
    """The path of the program under test."""
    return program_at(request.config.getoption("--program"))


@pytest.fixture(scope="session")
def quick(request: pytest.FixtureRequest) -> bool:
    """Whether the test is to take less time."""
    return "not slow" in request.config.getoption("markexpr")


@pytest.fixture(scope="session")
def often(tested: str) -> Quick:
    """The program under test, run many times at little cost."""
    return Quick(tested)


@pytest.fixture(scope="session")
def made(tested: str, tmp_path_factory: pytest.TempPathFactory) -> str:
    """The folder of the files of a release that git does not have."""
    folder = str(tmp_path_factory.mktemp("made"))
    assert run([sys.executable, f"{ROOT}/tools/generate", folder, tested]) == said()
    return folder


@pytest.fixture(scope="session")
def c_library() -> str:
    """The prefix below which the library for C is: what make has built, or else the released one, or another one that a
    variable names."""
    return PREFIX


@pytest.fixture
def folder(tmp_path: os.PathLike[str], monkeypatch: pytest.MonkeyPatch) -> str:
    """A new folder, in which the test runs."""
    monkeypatch.chdir(tmp_path)
    return str(tmp_path)


@pytest.fixture
def heeded() -> Iterator[None]:
    """Lets the programs that the test starts heed signals, even if this process ignores them, as by nohup."""
    kept = {it: signal.signal(it, exit_by) for it in (*ENDING, signal.SIGQUIT)}
    yield
    for it, handler in kept.items():
        signal.signal(it, handler)


@pytest.fixture
def reader(
    request: pytest.FixtureRequest, c_library: str, folder: str, heeded: None, monkeypatch: pytest.MonkeyPatch
) -> Iterator[str]:
    """What the package for Python has in a test: the library, and numpy or no numpy."""
    how: str = getattr(request, "param", "plain")
    if how == "numpy" and not importlib.util.find_spec("numpy"):
        leave_out("numpy")
    if how != "numpy":
        monkeypatch.setitem(vars(sys)["modules"], "numpy", None)
    with mock.patch.dict(os.environ, {"DNORM_LIBRARY": f"{c_library}/lib/libdnorm.so.3"}):
        yield how


@pytest.fixture(scope="session")
def stand_in(c_library: str, tmp_path_factory: pytest.TempPathFactory) -> str:
    """The path of a library that notes each text that has ended in the file $LOG, waits for $WAIT milliseconds, and
    returns the code $CODE, if that is not 0. All else is the library's own."""
    need("cc")
    place = tmp_path_factory.mktemp("stand-in") / "libdnorm.so.3"
    words = ["cc", "-shared", "-fPIC", "-o", str(place), f"{ROOT}/python/tests/stand_in.c", f"-I{c_library}/include"]
    words += ["-Wl,--no-as-needed", f"{c_library}/lib/libdnorm.so.3", f"-Wl,-rpath,{c_library}/lib"]
    assert run(words) == said()
    return str(place)
