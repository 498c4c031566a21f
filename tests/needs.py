"""Random cases, tests that other tests run, and what a test needs and the machine may lack. A test without it is
skipped, with the reason. With CI=true, which says that tools/setup has installed everything, a missing tool is a
failure."""

import json
import os
import shutil
import sys
from collections.abc import Callable
from random import Random
from typing import Any, NoReturn

import hypothesis
import pytest
from hypothesis import strategies
from shared import ROOT, Words, run, text_of


def seeds(count: int, quick: int) -> list[Any]:
    """Returns so many seeds as parameters of a test, of which a run without slow tests has the first ones."""
    return [pytest.param(it, marks=[pytest.mark.slow] * (quick <= it)) for it in range(count)]


def drawn(count: int, test: Callable[[Random], None]) -> None:
    """Calls a test with so many sources of random numbers. They are the same each time. If the test fails, hypothesis
    looks for simpler numbers with which it fails, and tells of the simplest."""
    given = hypothesis.given(strategies.randoms(use_true_random=False))(test)
    checks = [*hypothesis.HealthCheck]
    same = hypothesis.settings(deadline=None, database=None, derandomize=True, suppress_health_check=checks)
    hypothesis.settings(same, max_examples=count)(given)()


def cases(every: int, first: int = 0) -> list[str]:
    """Returns the options by which the conformance suite runs one of so many cases of each kind."""
    found = json.loads(text_of(f"{ROOT}/suite/cases.json"))["rules"]
    ids = [it["id"] for rule in found for it in rule["cases"]]
    return [word for it in ids[first::every] for word in ("--case", it)] if every > 1 else []


def leave_out(tool: str) -> NoReturn:
    """Skips the test, since this tool is missing. If CI=true is set, the test fails."""
    if os.environ.get("CI") == "true":
        pytest.fail(f"left out, since {tool} is missing")
    pytest.skip(f"{tool} is missing", allow_module_level=True)


def pass_over(needs: str) -> NoReturn:
    """Skips the test because this machine or the program under test does not allow it. `needs` is what it lacks."""
    pytest.skip(f"{needs} is not here", allow_module_level=True)


def leave_out_unless_all() -> None:
    """Passes over a test that takes minutes in ./check, but not in ./check --all."""
    if os.environ.get("DNORM_BRIEF"):
        pass_over("./check --all")


def need(*tools: str) -> None:
    """Leaves the test out if one of these commands is missing."""
    for it in tools:
        if not shutil.which(it):
            leave_out(it)


def need_here(*them: str) -> None:
    """Passes over the test if one of these is not here: a command that tools/setup does not install, or a path, which
    may begin at the top of the repository."""
    for it in them:
        if not (os.path.exists(os.path.join(ROOT, it)) if "/" in it else shutil.which(it)):
            pass_over(it)


def need_proc() -> None:
    """Passes over the test if the system has no /proc, which it needs by itself or by bash's <(..)."""
    if not os.path.exists("/proc/self/fd"):
        pass_over("/proc")


def passes(program: str, path: str, *words: str, python: Words = (), limit: int | None = None, **own: str) -> None:
    """Runs the tests in a file or a folder of tests/ on a program, with these words and variables, without those that
    measure times."""
    line = [*(python or [sys.executable]), "-m", "pytest", "-q", "-m", "not alone", "-pno:cacheprovider", "-pno:xdist"]
    line += [f"--rootdir={path.rpartition('/tests/')[0]}", path, f"--program={program}", *words]
    ran = run(line, limit=limit, env={**os.environ, **own}, cwd=ROOT)
    assert ran.status == 0, ran.out.decode()


def terminal() -> tuple[int, int]:
    """Returns both ends of a terminal. Passes over the test if the system has none, as without /dev/pts."""
    try:
        return os.openpty()
    except OSError:
        pass_over("a terminal (/dev/pts)")
