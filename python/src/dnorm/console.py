"""What commands share: standard output and standard error, the signals that end a run, and numbers of options."""

import argparse
import contextlib
import os
import re
import signal
import sys
import threading
import time
from collections.abc import Callable
from typing import IO, NoReturn, Optional, Union

from .errors import Write
from .files import reason_of, write_all
from .limits import Timed

# The signals that end a run.
SIGNALS = (signal.SIGINT, signal.SIGTERM, signal.SIGHUP, signal.SIGQUIT)
# The columns of a full progress bar, and the time between two drawings in seconds.
BAR, PAUSE = 30, 0.1


class Stopped(BaseException):
    """A signal ends the run."""

    def __init__(self, number: int) -> None:
        super().__init__(number)
        self.number = number


def stop(number: int, _: object) -> NoReturn:
    """Handles a signal. A second one must not disturb how the run ends."""
    for it in SIGNALS:
        signal.signal(it, signal.SIG_IGN)
    raise Stopped(number)


def heed() -> None:
    """Lets signals end the run. What is ignored stays so, but for SIGCHLD, without which no child has a status."""
    signal.signal(signal.SIGCHLD, signal.SIG_DFL)
    for it in SIGNALS:
        if signal.getsignal(it) != signal.SIG_IGN:
            signal.signal(it, stop)


def is_open(fd: int) -> bool:
    with contextlib.suppress(OSError):
        return bool(os.fstat(fd))
    return False


def has_output() -> bool:
    """Whether standard output is open. No file that is opened later gets the number of a standard stream."""
    found = is_open(1)
    while (fd := os.open(os.devnull, os.O_RDWR)) <= 2:
        pass
    os.close(fd)
    return found


class Console:
    """Standard output and standard error, where a terminal has a progress bar of tasks, whose threads call `step`."""

    def __init__(self) -> None:
        self._out = open(1, "wb", buffering=0, closefd=False)
        self._lock = threading.Lock()
        self.is_shown, self.is_terminal = os.isatty(1), os.isatty(2)
        self._done = self._total = self._size = 0
        self._drawn, self._at = "", 0.0

    def expect(self, total: int, size: int = 0) -> None:
        """Starts the progress bar for so many tasks, which read files of this size together, if that is known."""
        self._done, self._total, self._size = 0, total, size

    def step(self) -> None:
        with self._lock:
            self._done += 1
        self.draw()

    def draw(self) -> None:
        """Draws the progress bar, unless it was drawn just before."""
        if not self.is_terminal:
            return
        with self._lock:
            now = time.monotonic()
            if now >= self._at + PAUSE:
                self._at = now
                filled = BAR * self._done // self._total
                drawn = f"[{'#' * filled}{'.' * (BAR - filled)}] {self._done} of {self._total}"
                if self._size:
                    drawn += f", {min(100, 100 * Timed.read_bytes // self._size)} %"
                self._complain(f"\r{drawn.ljust(len(self._drawn))}")
                self._drawn = drawn

    def print(self, text: Union[str, bytes]) -> None:
        """Writes text to standard output, or bytes as they are. Raises Write, and Stopped if nothing reads it."""
        self.hide()
        try:
            if isinstance(text, str):
                text = os.fsencode(for_terminal(text) if self.is_shown else text)
            write_all(self._out, text)
        except BrokenPipeError as error:
            raise Stopped(signal.SIGPIPE) from error
        except OSError as error:
            raise Write("out", reason_of(error)) from error

    def complain(self, text: str) -> None:
        """Writes text to standard error. It does not matter if that fails."""
        self.hide()
        self._complain(for_terminal(text) if self.is_terminal else text)

    def hide(self) -> None:
        """Removes the progress bar until it is drawn again."""
        with self._lock:
            if self._drawn:
                self._complain("\r" + " " * len(self._drawn) + "\r")
            self._drawn = ""

    def _complain(self, text: str) -> None:
        with contextlib.suppress(OSError):
            os.write(2, os.fsencode(text))


def for_terminal(text: str) -> str:
    """Returns lines in which `shown` writes every character that a terminal could take for a command."""
    return "\n".join(map(shown, text.split("\n")))


def shown(text: str) -> str:
    """Returns a text in which each character that cannot be printed is written as \\xNN, as a byte of it."""
    if text.isprintable():
        return text
    return "".join(it if it.isprintable() else "".join(f"\\x{byte:02x}" for byte in os.fsencode(it)) for it in text)


class Parser(argparse.ArgumentParser):
    """A parser with a status of its own for a command line that is refused. It fails where it cannot print its help."""

    # What is said of a file whose name is taken for an option.
    more = ""

    def error(self, message: str) -> NoReturn:
        self.exit(3, f"{self.prog}: {message}{Parser.more} (--help tells more)\n")

    def _print_message(self, message: str, file: Optional[IO[str]] = None) -> None:
        (Console().complain if file is sys.stderr else Console().print)(message)


def number(least: int) -> Callable[[str], int]:
    """Returns what reads the number of an option, which is at least this one."""

    def read(word: str) -> int:
        found = int(word) if re.fullmatch("[0-9]{1,9}", word, re.ASCII) else -1
        if found < least:
            raise argparse.ArgumentTypeError(f"a whole number from {least} on is wanted, and not {word!r}")
        return found

    return read
