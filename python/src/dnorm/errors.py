"""The errors that the calls raise."""

from typing import Optional

from .refusals import REFUSALS


class DnormError(Exception):
    """The base of all errors of this package. `name` is the file that the error is about: its path; or the name of a
    stream, if it has one; or `-`. Each error can be pickled, and prints as a line that begins with the name."""

    # What follows the name in the line of the error, before the reason.
    what = ""

    def __init__(self, name: str, *others: object) -> None:
        # Pickle makes an error from these arguments, so they are those of its class.
        super().__init__(name, *others)
        self.name = name

    @property
    def rest(self) -> str:
        """What follows the name in the line of the error."""
        return self.what

    def __str__(self) -> str:
        return self.name + self.rest


class Refused(DnormError):
    """A text has a fault, or a companion does not fit.

    `line` counts from 1. It is None for a fault at the end of a text, and for the refusals 34 to 36. `number` and
    `word` are those of the refusal. For 35, `node` is the node that the companion names and the graph does not have.
    `text` is the line, up to 200 bytes of it, as `cat -vT` prints them, `mark` says where the wrong word begins and
    ends there, and `hint` what in the text may be the cause. Each is None where there is nothing to say, and for a
    stream, which cannot be read again. `causes` has all of it in lines. The error prints as the line of the program,
    as `roads.gr:3: 13 NodeOutOfRange`."""

    def __init__(
        self,
        name: str,
        line: Optional[int],
        number: int,
        word: str,
        node: Optional[int] = None,
        text: Optional[str] = None,
        hint: Optional[str] = None,
        mark: Optional[tuple[int, int]] = None,
    ) -> None:
        super().__init__(name, line, number, word, node, text, hint, mark)
        self.line, self.number, self.word, self.node = line, number, word, node
        self.text, self.hint, self.mark = text, hint, mark

    @property
    def sentence(self) -> str:
        """What is refused, in a sentence of `dnorm help`."""
        return REFUSALS[self.number][1]

    @property
    def causes(self) -> list[str]:
        """The lines that show the cause: the sentence, the refused line with its wrong word marked, and the hint."""
        found, before = [self.sentence], f"line {self.line}: "
        if self.text:
            found.append(before + self.text)
            if self.mark:
                start, end = self.mark
                found.append((len(before) + start) * " " + (end - start) * "^")
        return found + (self.hint.splitlines() if self.hint else [])

    @property
    def rest(self) -> str:
        place = "" if self.number >= 30 else ":end" if self.line is None else f":{self.line}"
        return f"{place}: {self.number} {self.word}" + ("" if self.node is None else f" {self.node}")


class Memory(DnormError):
    """There is too little memory."""

    what = ": 30 Memory"


class Endless(DnormError):
    """A text has no end."""

    what = ": 32 Endless"


class TimedOut(DnormError):
    """A call took longer than its `timeout`, in seconds."""

    def __init__(self, name: str, timeout: float) -> None:
        super().__init__(name, timeout)
        self.timeout, self.what = timeout, f": took more than {timeout:g} seconds"


class Failed(DnormError):
    """The base of the errors that have a `reason`."""

    def __init__(self, name: str, reason: str = "") -> None:
        super().__init__(name, reason)
        self.reason = reason

    @property
    def rest(self) -> str:
        return self.what + (f" ({self.reason})" if self.reason else "")


class Read(Failed):
    """A file cannot be opened, reading it failed, or a compressed file is cut or corrupt. `hint` says what the first
    bytes of a file that is not compressed as its name says may mean, or is None."""

    what = ": 31 Read"

    def __init__(self, name: str, reason: str = "", hint: Optional[str] = None) -> None:
        super().__init__(name, reason)
        self.hint = hint


class Write(Failed):
    """Writing to a target failed."""

    what = ": 33 Write"


class NoLibrary(Failed):
    """The library cannot be found, or is another one. `name` is its path."""

    what = ": cannot be used"


class NoProgram(Failed):
    """A program that a command runs, as git, cannot be found or started. `name` is the name of the program."""

    what = ": cannot be run"
