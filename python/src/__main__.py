"""Runs `dnorm-files`, `dnorm-explain` or `canon-in-parts`, as `python3 FILE NAME ..` with this file and the name of the
command. Python then looks for modules in the folder of the file, and not in the current one."""

# Python's own part of signal takes no time. Until the command is there, Ctrl-C ends the process, unless it is ignored.
import _signal  # type: ignore[import]
import sys

handler = _signal.getsignal(_signal.SIGINT)
if handler is _signal.default_int_handler:
    _signal.signal(_signal.SIGINT, _signal.SIG_DFL)
if getattr(sys.flags, "safe_path", False):
    # Python has not put the folder there.
    sys.path.insert(0, __file__.rpartition("/")[0])

name = sys.argv.pop(1)
if sys.version_info < (3, 9):
    sys.stderr.write("%s: it needs Python 3.9 or later\n" % name)
    sys.exit(4)
# What takes the time comes after this.
if name == "dnorm-explain":
    from dnorm.commands.explain import main
elif name == "canon-in-parts":
    from dnorm.parts.line import main
else:
    from dnorm.commands.line import main

_signal.signal(_signal.SIGINT, handler)
sys.exit(main())
