"""How a tool counts its checks. It prints a line for each failure, and at the end how many checks passed and failed."""

import os


class Tally:
    """The number of checks that passed and failed."""

    def __init__(self) -> None:
        self.passed = self.failed = 0

    def same(self, name: str, found: object, wanted: object) -> None:
        """Checks that both are the same, and otherwise prints what differs."""
        if found == wanted:
            self.passed += 1
        else:
            self.fail(f"{name}: wanted {wanted!r:.300}, found {found!r:.300}")

    def holds(self, name: str, is_so: object) -> None:
        """Checks that this holds, and otherwise prints that it does not."""
        self.same(name, bool(is_so), True)

    def fail(self, line: str) -> None:
        self.failed += 1
        print(line, flush=True)

    def leave_out(self, what: str, tool: str) -> None:
        """Prints that a part is left out, and which tool it needs. If CI=true is set, that is a failure."""
        if os.environ.get("CI") == "true":
            self.fail(f"left out, since {tool} is missing: {what}")
        else:
            self.pass_over(what, tool)

    def pass_over(self, what: str, needs: str) -> None:
        """Prints that a part is left out because this machine does not allow it, and what it needs."""
        print(f"left out, since {needs} is missing: {what}", flush=True)

    def end(self) -> int:
        """Prints how many checks passed and failed, and returns the status."""
        print(f"{self.passed} passed, {self.failed} failed")
        return 0 if self.failed == 0 else 1
