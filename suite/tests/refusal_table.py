"""Reads the table of refusals, which the package for Python has."""

import json
import re
from typing import NamedTuple

from shared import ROOT, text_of

TABLE = "python/src/dnorm/refusals.json"
# The faults at the end of a text, and the line that the comment of an example names.
AT_END, LINE = range(18, 21), re.compile(r"Line (\d+) ")
# The fault that no example has, since no example has so many lines.
TOO_LONG = "TooLong"


class Refusal(NamedTuple):
    """A row of the table. Only faults of a text have a rank, and only codes of a dnorm_status a constant."""

    number: int
    rank: int | None
    name: str
    constant: str | None
    sentence: str


def refusals() -> list[Refusal]:
    """Returns the rows of the table, in the order of their numbers."""
    return sorted(Refusal(**it) for it in json.loads(text_of(f"{ROOT}/{TABLE}"))["refusals"])


def faults() -> list[Refusal]:
    """Returns the faults of a text, in the order of their numbers."""
    return [it for it in refusals() if it.rank is not None]


def with_example() -> list[Refusal]:
    """Returns the faults that have a text in examples/refused/."""
    return [it for it in faults() if it.name != TOO_LONG]


def place_of(number: int, example: str) -> str:
    """Returns where an example in examples/refused/ has this fault: the line that its comment names, or its end."""
    found = LINE.search(example)
    return found[1] if found and number not in AT_END else "end"
