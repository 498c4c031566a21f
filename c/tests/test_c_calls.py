"""The calls of suite/calls.json, by functions in C and by classes in C++."""

import pytest
from builds import CALLS, check_call, with_archive, with_spread
from needs import pass_over
from shared import ROOT

pytestmark = pytest.mark.slow
LANGUAGES = {"calls.c": ["cc", "-std=c99"], "calls.cc": ["c++", "-std=c++17"]}


@pytest.fixture(scope="module", params=LANGUAGES)
def calls(request: pytest.FixtureRequest, c_library: str, tmp_path_factory: pytest.TempPathFactory) -> str:
    """A program that makes a call."""
    folder, name = str(tmp_path_factory.mktemp("calls")), request.param
    library = with_spread(c_library, folder)
    return with_archive(library, f"{folder}/{name}.out", *LANGUAGES[name], f"{ROOT}/c/tests/{name}")


@pytest.mark.parametrize("name", CALLS)
def test_calls(calls: str, c_library: str, name: str) -> None:
    """In C++, a form that is none is an error, and an instance has its own lines."""
    is_form = CALLS[name].get("form", "1") in ("1", "2")
    if calls.endswith(".cc.out") and CALLS[name]["call"] == "spread" and "other" in CALLS[name]:
        pass_over("a call in C++ with other lines")
    check_call(calls, c_library, name, None if is_form or calls.endswith(".c.out") else "form\n")
