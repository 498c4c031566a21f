"""The completions that tools/generate makes: bash, zsh and fish complete commands, options, forms and files, each with
the file where `bin/install` installs it."""

import argparse
import os
import re
from collections.abc import Callable, Iterator

import pytest
from needs import leave_out, need, need_proc, terminal
from shared import Answer, run, said, write
from test_share import FILES, PARTS

from dnorm.commands.line import OWN, TASKS, parser
from dnorm.parts.line import parser as parts_parser

# Command lines, and the completions of the last word of each, in a folder with the files check, g.gr and s.ss.
COMPLETED = [
    ("dnorm c", "check canon compare"),
    ("dnorm -", "-h --help -V --version"),
    ("dnorm canon --f", "--form"),
    ("dnorm canon --form ", "1 2"),
    ("dnorm canon --form=", "1 2"),
    ("dnorm canon --form=2", "2"),
    ("dnorm canon --form 2 ", "check g.gr s.ss"),
    ("dnorm canon check --f", "--form"),
    ("dnorm canon check --w", ""),
    ("dnorm check g.gr --", "--with --help"),
    ("dnorm check g.gr --with ", "check g.gr s.ss"),
    ("dnorm check --with s.ss g", "g.gr"),
    ("dnorm check --with=s", "s.ss"),
    ("dnorm show ", "check g.gr s.ss"),
    ("dnorm show -", "-h --help"),
    ("dnorm compare g.gr s", "s.ss"),
    ("dnorm help ", "show check canon compare help"),
    ("dnorm help s", "show"),
    ("dnorm help show ", ""),
    ("dnorm-files c", "canon check compare"),
    ("dnorm-files sh", "show"),
    ("dnorm-files canon --o", "--output"),
    ("dnorm-files --v", "--version"),
    ("dnorm-files check --ex", "--exclude --exit-first"),
    ("dnorm-files check g", "g.gr"),
    ("dnorm-files check --output-format=g", "github"),
    ("dnorm-files manifest --verify s", "s.ss"),
    ("dnorm-files list --c", "--csv"),
    ("dnorm-files look --s", "--since"),
    ("dnorm-files compare g.gr s", "s.ss"),
    ("dnorm-files compare --l", "--limit"),
    ("canon-in-parts --f", "--form"),
    ("canon-in-parts --l", "--lines"),
    ("canon-in-parts --form=2", "2"),
    ("canon-in-parts --form 2 ", "check g.gr s.ss"),
    ("canon-in-parts --program s", "s.ss"),
    ("canon-in-parts --lines 5 g", "g.gr"),
]
FILES_HERE = "check g.gr s.ss"


def values() -> Iterator[tuple[str, str]]:
    """Yields lines for each option of the package, which end in the option and a blank or =, with its completions: a
    file follows an option without a value or with that of a file, and nothing that is known another value; and a line
    with the beginning of all options of a command."""
    (tasks,) = (it for it in parser()._actions if isinstance(it, argparse._SubParsersAction))
    found = {f"dnorm-files {task}": tasks.choices[task] for task in {**TASKS, **OWN}}
    for words, one in {**found, "canon-in-parts": parts_parser()}.items():
        options = [it for it in one._actions if it.option_strings]
        yield f"{words} --", " ".join(it.option_strings[-1] for it in options)
        for it in options:
            # A value that may be missing stands behind a sign.
            is_file = it.nargs in (0, "?") or it.metavar in ("FILE", "PROGRAM")
            known = " ".join(map(str, it.choices)) if it.choices else FILES_HERE if is_file else ""
            for name in it.option_strings:
                yield f"{words} {name} ", known
                if name[1] == "-" and it.nargs not in (0, "?"):
                    yield f"{words} {name}=", known


# Completes the last word of each line, whose words a sign ends, as bash does.
IN_BASH = r"""
for line; do
    mapfile -d $'\x1f' -t COMP_WORDS <<< "$line"
    unset "COMP_WORDS[-1]"
    source "$SHARE/bash-completion/completions/${COMP_WORDS[0]}"
    COMP_CWORD=$((${#COMP_WORDS[@]} - 1))
    "_${COMP_WORDS[0]//-/_}"
    printf '%s\n' "${COMPREPLY[@]}" END
done
"""
# Completes each line. A match has its option before = and a description after a tab.
IN_FISH = r"""
for line in $argv
    complete -C $line | string replace -r '\t.*' '' | string replace -r '.*=' ''
    echo END
end
"""
# Has the package's loader find the file of a command, and prints what it has set.
LOADED_BY_BASH = 'source /usr/share/bash-completion/bash_completion; _completion_loader "$1"; complete -p "$1"'
# The set-up of a zsh in a terminal of its own, since zsh completes only in a terminal. A key completes the line, and
# writes each match and then END into a file.
KEY_OF_ZSH = """
PROMPT= fpath=($SHARE/zsh/site-functions $fpath)
autoload -Uz compinit
compinit -u -D
compadd() {
    local -a hits
    # By these options a function asks what would match, and adds nothing.
    if [[ ${@[1,(i)(-|--)]} != *-(O|A|D)\\ * ]]; then
        builtin compadd -A hits "$@"
        print -l -- $hits >> $FOUND
    fi
    builtin compadd "$@"
}
matches() {
    _main_complete
    print END >> $FOUND
}
zle -C matches complete-word matches
bindkey '^I' matches
"""
# Starts such a shell, which completes each of the lines given. Another key removes the line before.
IN_ZSH = """
until_end() {
    repeat 1000; do
        [[ $(tail -n 1 $FOUND) != END ]] || return
        sleep 0.01
    done
}
zmodload zsh/zpty
zpty shell zsh -f -i
: > $FOUND
zpty -w shell "source ${(q)KEY}; print END >> ${(q)FOUND}"
until_end
for line; do
    : > $FOUND
    zpty -w -n shell $'\\x15'$line$'\\t'
    until_end
    # A terminal that nobody reads holds little.
    while zpty -r -t shell; do :; done > /dev/null
    cat $FOUND
done
zpty -d shell
"""


COMPLETED += values()
# What runs a shell with these words.
Shell = Callable[..., Answer]


@pytest.fixture
def environment(tested: str, folder: str, made: str) -> dict[str, str]:
    """Variables of shells that find the program on their path, and its completions below share/."""
    for name in ["files", "bin", "home"]:
        os.mkdir(name)
    for name in ["check", "g.gr", "s.ss"]:
        write(f"files/{name}", "")
    for path, name in [(tested, "dnorm"), (PARTS, "canon-in-parts"), (FILES, "dnorm-files")]:
        os.symlink(path, f"bin/{name}")
    write("key", KEY_OF_ZSH)
    own = {"PATH": f"{folder}/bin:{os.environ['PATH']}", "HOME": f"{folder}/home", "XDG_DATA_DIRS": f"{made}/share"}
    own |= {"SHARE": f"{made}/share", "KEY": f"{folder}/key", "FOUND": f"{folder}/found", "TERM": "vt100"}
    # The folders in which fish and the package of bash look first.
    others = ("XDG_DATA_HOME", "XDG_CONFIG_HOME", "BASH_COMPLETION_USER_DIR")
    return {name: value for name, value in os.environ.items() if name not in others} | own


@pytest.fixture
def shell(environment: dict[str, str], folder: str) -> Shell:
    return lambda *words: run(words, cwd=f"{folder}/files", env=environment)


def compare(found: Answer) -> None:
    """Compares the matches of all lines, after each of which stands END."""
    parts = [it.splitlines() for it in found.out.decode().split("END\n")]
    assert (found.err, len(parts)) == (b"", len(COMPLETED) + 1)
    for (line, wanted), lines in zip(COMPLETED, parts):
        assert sorted(filter(None, (it.strip() for it in lines))) == sorted(wanted.split()), line


def test_bash(shell: Shell) -> None:
    """bash passes = as a word of its own."""
    need("bash")
    need_proc()
    lines = [[*re.findall(r"=|[^ =]+", line), *([""] if line.endswith(" ") else [])] for line, _ in COMPLETED]
    compare(shell("bash", "-c", IN_BASH, "bash", *("".join(f"{it}\x1f" for it in words) for words in lines)))


@pytest.mark.parametrize("command", ["dnorm", "dnorm-files", "canon-in-parts"])
def test_bash_loads(shell: Shell, command: str) -> None:
    """The package of bash finds the file."""
    if not os.path.exists("/usr/share/bash-completion/bash_completion"):
        leave_out("bash-completion")
    found = shell("bash", "--norc", "-c", LOADED_BY_BASH, "bash", command)
    assert found == said(f"complete -F _{command.replace('-', '_')} {command}\n")


def test_zsh(shell: Shell) -> None:
    need("zsh")
    for it in terminal():
        os.close(it)
    compare(shell("zsh", "-f", "-c", IN_ZSH, "zsh", *[line for line, _ in COMPLETED]))


def test_fish(shell: Shell) -> None:
    need("fish")
    compare(shell("fish", "-c", IN_FISH, *[line for line, _ in COMPLETED]))
