"""The completions of a command for bash, zsh and fish, made of its options."""

import re
from collections.abc import Callable
from typing import NamedTuple

# What the values of options are called that name files and folders.
FILES, FOLDERS = ("FILE", "PROGRAM", "COMPANION"), ("DIR",)
IN_BASH = """\
# Completions of {command} for bash, by tools/generate.
_{function}() {{
    local word=${{COMP_WORDS[COMP_CWORD]}} before=${{COMP_WORDS[COMP_CWORD - 1]}} command=${{COMP_WORDS[1]}} options
    COMPREPLY=()
    # bash passes = as a word of its own.
    if [[ $word == = ]]; then
        word=
    elif [[ $before == = ]]; then
        before=${{COMP_WORDS[COMP_CWORD - 2]}}
    fi
{subs}    case $command in
{options}    esac
    case $before in
{values}    esac
    if [[ $word == -* ]]; then
        mapfile -t COMPREPLY < <(compgen -W "$options" -- "$word")
    else
        compopt -o filenames 2> /dev/null
        mapfile -t COMPREPLY < <(compgen -f -- "$word")
    fi
}}
complete -F _{function} {command}
"""
SUBS_IN_BASH = """\
    if ((COMP_CWORD == 1)) && [[ $word != -* ]] || [[ $command == help && $word != -* ]]; then
        ((COMP_CWORD > 2)) || mapfile -t COMPREPLY < <(compgen -W '{}' -- "$word")
        return
    fi
"""
IN_ZSH = """\
#compdef {command}
# By tools/generate.
local -a more
{subs}case $words[2] in
{options}esac
{shift}_arguments $more '*:file:_files'
"""
SUBS_IN_ZSH = """\
if ((CURRENT == 2)) && [[ $words[2] != -* ]] || [[ $words[2] == help && $words[CURRENT] != -* ]]; then
    ((CURRENT > 3)) || compadd {}
    return
fi
"""
SHIFT_IN_ZSH = """\
if [[ $words[2] != -* ]]; then
    shift words
    ((CURRENT--))
fi
"""
ALONE, BELOW = "test (count (commandline -opc)) -eq 1", 'set -l w (commandline -opc); test "$w[2]" = {}'


class Option(NamedTuple):
    """An option: its names, what its value is called, the values that are possible, what it is for, and whether the
    value can be missing, which then stands behind a sign."""

    names: list[str]
    takes: str
    choices: list[str]
    about: str
    is_optional: bool = False

    def value(self, file: str, folder: str, words: str, other: str) -> str:
        """Returns what completes the value: a file, a folder, one of some words, or nothing that is known."""
        if self.choices:
            return words.format(" ".join(self.choices))
        return file if self.takes in FILES else folder if self.takes in FOLDERS else other

    def plain(self) -> str:
        """Returns what it is for, without what shells read as more than a text."""
        return re.sub(r"['\[\]:]", "", self.about.partition("; ")[0])


class Command(NamedTuple):
    """A command: its name, its subcommands with what each is for, and the options of each, and without any."""

    name: str
    subs: dict[str, str]
    options: dict[str, list[Option]]

    def arms(self, row: str, made: Callable[[list[Option]], str]) -> str:
        """Returns the arms of a `case` by subcommands, of which those without any are the last one."""
        found = sorted(self.options.items(), key=lambda it: not it[0])
        return "".join(row.format(sub or "*", made(options)) for sub, options in found)


def bash(command: Command) -> str:
    """Returns the file for bash."""
    complete = 'mapfile -t COMPREPLY < <(compgen {} -- "$word")'
    how = ("compopt -o filenames 2> /dev/null\n" + " " * 12 + complete.format("-f"), complete.format("-d"))
    values = {}
    for it in (it for options in command.options.values() for it in options if it.takes and not it.is_optional):
        found = it.value(*how, complete.format("-W '{}'"), ":")
        values[
            "|".join(it.names)
        ] = f"        {' | '.join(it.names)})\n            {found}\n            return\n            ;;\n"
    return IN_BASH.format(
        command=command.name,
        function=command.name.replace("-", "_"),
        subs=SUBS_IN_BASH.format(" ".join(command.subs)) if command.subs else "",
        options=command.arms("        {}) options='{}' ;;\n", lambda it: " ".join(n for one in it for n in one.names)),
        values="".join(values.values()),
    )


def zsh(command: Command) -> str:
    """Returns the file for zsh."""

    def words(options: list[Option]) -> str:
        made = ""
        for it in options:
            value = it.value(":file:_files", ":folder:_path_files -/", ":word:({})", f":{it.takes.lower()}:")
            for name in it.names:
                sign = "" if not it.takes else "=-" if it.is_optional else "=" if name[1] == "-" else "+"
                action = f":{value}" if it.is_optional else value if it.takes else ""
                made += f"\n        '*{name}{sign}[{it.plain()}]{action}'"
        return made

    return IN_ZSH.format(
        command=command.name,
        subs=SUBS_IN_ZSH.format(" ".join(command.subs)) if command.subs else "",
        options=command.arms("    {}) more=({}) ;;\n", words),
        shift=SHIFT_IN_ZSH if command.subs else "",
    )


def fish(command: Command) -> str:
    """Returns the file for fish."""
    made = [f"# Completions of {command.name} for fish, by tools/generate."]

    def add(when: str, words: str) -> None:
        made.append(f"complete -c {command.name}{f' -n {chr(39)}{when}{chr(39)}' if when else ''} {words}")

    for sub, about in command.subs.items():
        add(ALONE, f"-f -a {sub} -d '{Option([], '', [], about).plain()}'")
    if "help" in command.subs:
        add(BELOW.format("help"), "-f")
        add(f"{BELOW.format('help')}; and test (count $w) -eq 2", f"-f -a '{' '.join(command.subs)}'")
    for sub, options in command.options.items():
        when = BELOW.format(sub) if sub else ALONE if command.subs else ""
        for it in options:
            names = " ".join(f"-l {name[2:]}" if name[1] == "-" else f"-s {name[1:]}" for name in it.names)
            value = it.value("-r -F", "-x -a '(__fish_complete_directories)'", "-x -a '{}'", "-x")
            add(when, f"{names} {value if it.takes and not it.is_optional else ''} -d '{it.plain()}'")
    return "\n".join(made) + "\n"


# The files, with what makes each.
FOR_SHELLS = {
    "share/bash-completion/completions/{}": bash,
    "share/zsh/site-functions/_{}": zsh,
    "share/fish/vendor_completions.d/{}.fish": fish,
}
