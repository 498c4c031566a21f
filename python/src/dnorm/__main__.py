"""Runs `dnorm-files`, as `python3 -m dnorm`."""

import sys

from .commands.line import main

if __name__ == "__main__":
    sys.exit(main())
