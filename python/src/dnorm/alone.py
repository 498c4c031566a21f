"""Takes the current folder out of where Python looks for modules, if this is `python3 -m dnorm`: Python has put it
before its own modules, and a folder of networks may have a `random.py` that makes them. Python has imported some
modules before this one, as `contextlib`, so only the other commands never run a file of the current folder."""

import contextlib
import os
import sys

# While Python imports the package, `-m` stands for the name of the script. Python 3.9 does not have the words.
words = getattr(sys, "orig_argv", [])
module = words[-len(sys.argv)] if sys.argv[:1] == ["-m"] and len(words) >= len(sys.argv) else ""
if module == "dnorm" or module.startswith("-") and module.endswith("mdnorm"):
    # The folder may be gone, and nothing in it can be found then.
    with contextlib.suppress(OSError):
        if not getattr(sys.flags, "safe_path", False) and sys.path[:1] == [os.getcwd()]:
            del sys.path[0]
