"""For scripts in Python: what `--help` prints, and words that a script does not know."""

import os
import sys


def words(about: str | None, *options: str, most: int | None = None) -> list[str]:
    """Returns the words that the script was called with. `-h` or `--help` first prints what the script is about, and
    ends it; an option that is not among these, and a word more than `most` besides options, end it with status 2."""
    given = sys.argv[1:]
    name = os.path.basename(sys.argv[0])
    if given[:1] in (["-h"], ["--help"]):
        print((about or "").strip())
        sys.exit(0)
    wrong = [it for it in given if it.startswith("-") and it != "-" and it not in options]
    others = [it for it in given if not it.startswith("-") or it == "-"]
    if most is not None and not wrong:
        wrong = others[most:]
    if wrong:
        print(f"{name}: unknown word {wrong[0]}: --help says what there is", file=sys.stderr)
        sys.exit(2)
    return given
