"""A library that programs load before all others. It says in a file that it was loaded, and that it has acted: a test
whose program does not load it tests nothing, and fails."""

import os
import shutil
from typing import Any

from needs import need, pass_over
from shared import Answer, Words, is_static, run, said, text_of, write

# What precedes the C source of a library: the file TOLD gets a line whenever the library is loaded.
TELLING = """
#include <fcntl.h>
#include <string.h>
#include <sys/syscall.h>
#include <unistd.h>

static void tell(const char *line) {
    int told = open(TOLD, O_APPEND | O_CREAT | O_WRONLY, 0600);
    syscall(SYS_write, told, line, strlen(line));
    close(told);
}

__attribute__((constructor)) static void tell_of_load(void) {
    tell("loaded\\n");
}
"""


class Preloaded:
    """A library, and the results of its runs."""

    def __init__(self, folder: str) -> None:
        self.path, self.told = f"{folder}/first.so", f"{folder}/told"

    def lines(self, words: Words, given: bytes = b"", **more: Any) -> tuple[Answer, list[str]]:
        """Runs a program with the library. Returns what it printed, and the lines that the library has told."""
        write(self.told, b"")
        environment = {**more.pop("env", os.environ), "LD_PRELOAD": self.path}
        found = run(words, given, env=environment, **more)
        return found, text_of(self.told).split()

    def run(self, words: Words, given: bytes = b"", **more: Any) -> tuple[Answer, bool]:
        """Runs a program with the library. Returns what it printed, and whether the library has acted. A program that
        does not load the library fails the test."""
        found, told = self.lines(words, given, **more)
        assert "loaded" in told, "the program does not load the library of this test"
        return found, "acted" in told


def preloaded(folder: str, tested: str, source: str) -> Preloaded:
    """Makes a library from a C source, which calls `tell("acted\\n")` when it acts. What needs it is left out without
    a C compiler, and for a static program that starts none that loads the library."""
    library = Preloaded(folder)
    if not shutil.which("cc") and is_static(tested):
        pass_over("a program under test that loads libraries, as no static one does,")
    need("cc")
    write(f"{folder}/first.c", f'#define TOLD "{library.told}"\n{TELLING}{source}')
    made = run(["cc", "-shared", "-fPIC", "-o", library.path, f"{folder}/first.c"])
    assert made == said(), "cc"
    if is_static(tested) and not library.lines([tested, "--version"])[1]:
        pass_over("a program under test that loads libraries, as no static one does,")
    return library
