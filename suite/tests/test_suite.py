"""All cases of the conformance suite on the built program. suite/run.py tries all of them in one run."""

import json
import sys

import pytest
from shared import LIMIT, ROOT, run, text_of

FOLDER = f"{ROOT}/suite"
IDS = [it["id"] for rule in json.loads(text_of(f"{FOLDER}/cases.json"))["rules"] for it in rule["cases"]]


@pytest.fixture(scope="module")
def failures(tested: str) -> dict[str, list[str]]:
    """What is wrong in each case, by its id."""
    found = run([sys.executable, f"{FOLDER}/run.py", "--level", "compare", "--json", tested], limit=5 * LIMIT)
    return {it["id"]: it["failures"] for it in json.loads(found.out)["cases"]}


# One process runs the suite.
@pytest.mark.xdist_group("suite")
@pytest.mark.parametrize("case", IDS)
def test_case(failures: dict[str, list[str]], case: str) -> None:
    assert failures[case] == []
