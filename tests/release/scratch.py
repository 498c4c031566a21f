"""Scratch repositories that have what a release is made of, and the files of a release."""

import os
import re
import shutil
import sys
from typing import NamedTuple

from needs import leave_out
from shared import OF_GIT, ROOT, Answer, bytes_of, links_listed, listed, run, text_of, write

OUT = "build"
# What released/ has, besides its page.
RELEASED = ["SHA256SUMS", "buildinfo", "c/dnorm.h", "c/libdnorm.c", "dnorm.html", "dnorm.wasm.gz"]
RELEASED += [f"{one}/{it}" for one in ["aarch64", "x86_64"] for it in ["dnorm", "libdnorm.a", "libdnorm.so.3"]]
# What packaging/release runs on the program for aarch64.
FOR_AARCH64 = "tests/program/test_aarch64.py"
# What it runs on the program of the C file, and what compiles that for Windows.
FOR_C_FILE, MINGW = "c/tests/test_c_program.py", "x86_64-w64-mingw32-gcc"
NO_MINGW = f"release: Windows is left out: there is no {MINGW} on the path\n".encode()
# A declaration of dnorm.h: the type, the name and the arguments.
DECLARED = re.compile(r"^(\w+) (dnorm_\w+)(\([^;]*\));$", re.M)
# What takes the place of the Makefile in a scratch repository: it says whether what is made is there, and whether the
# tests are called for the program among it.
MAKES = f"""\
program static library wasm page:
aarch64: {OUT}/aarch64/dnorm
c-file: {OUT}/libdnorm.c
{OUT}/aarch64/dnorm {OUT}/libdnorm.c:
\t@exit 1
test:
\t@test "$$CI" = true
\t@case '$(TESTS)' in */{OUT}/aarch64/dnorm\\ {FOR_AARCH64} | *c-program\\ {FOR_C_FILE}) ;; *) exit 1 ;; esac
"""
# What a scratch repository does not have of this one.
WITHOUT = shutil.ignore_patterns(".git", "out", "build", "dist", "released", "__pycache__", ".*_cache")
# The author of the commits and their time; and that time as tar prints it.
WHO = {"NAME": "A B", "EMAIL": "a@example.org", "DATE": "2026-01-02T03:04:05+00:00"}
TIME = 1767323045
# How many seconds a release may take.
MOST = 300
# What the conformance suite prints for its rule `first`.
FIRST = "6 cases pass, 0 fail (level canon)\n"
# The folders of what the packages of the library have.
OF_LIBRARY = ("include/", "lib/", "share/man/man3/", "share/dnorm/rust/")
# What the package of the Python package has: the commands, with their pages and completions, and these.
COMMANDS = ["canon-in-parts", "dnorm-explain", "dnorm-files"]
OF_PYTHON = tuple(f"share/dnorm/{it}" for it in ("ci/", "conformance/", "git/pre-", "python/", "records.json"))
OF_PYTHON += ("share/dnorm/web/look.js", "share/dnorm/web/report.")
# Where its modules are, and its links.
DIST = "usr/lib/python3/dist-packages"
LINKS = {
    "usr/share/doc/python3-dnorm": "dnorm",
    "usr/share/python3-dnorm/dnorm": "../../lib/python3/dist-packages/dnorm",
    f"{DIST}/dnorm/conformance.py": "../../../../share/dnorm/conformance/run.py",
    f"{DIST}/dnorm/cases.json": "../../../../share/dnorm/conformance/cases.json",
}
# Files that only the package has.
ADDED = ["share/doc/dnorm/changelog.Debian.gz", "share/doc/dnorm/copyright", "share/lintian/overrides/dnorm"]
# The files of the Python package, below python/src/, and what it is built with. The file beside it only runs it.
SOURCES = "python/src/dnorm/"
MODULES = sorted(it.removeprefix("python/src/") for _, it, _ in listed() if it.startswith(SOURCES))
# The conformance suite, which the wheels have as a module.
SUITE = {"dnorm/cases.json": "suite/cases.json", "dnorm/conformance.py": "suite/run.py"}


def is_of_python(path: str) -> bool:
    """Whether the package of the Python package has a file that bin/install puts at this path."""
    is_of_command = any(it in os.path.basename(path) for it in COMMANDS)
    return is_of_command and not path.startswith("share/doc/") or path.startswith(OF_PYTHON)


def in_package(path: str) -> str:
    """Returns where a package has a file that bin/install puts at this path."""
    for own, other in {
        "zsh/site-functions": "zsh/vendor-completions",
        "CHANGELOG.md": "changelog.gz",
        "share/dnorm/python/dnorm/": f"{DIST.removeprefix('usr/')}/dnorm/",
        "share/dnorm/python/": "share/python3-dnorm/",
    }.items():
        path = path.replace(own, other)
    return f"{path}.gz" if path.startswith("share/man/") else path


def make_traps(folder: str) -> None:
    """Makes a folder with a module of each name that Python itself has a module of. Each ends the process that imports
    it."""
    os.makedirs(folder)
    for it in [*sys.stdlib_module_names, "dnorm", "numpy", "sitecustomize"]:
        write(f"{folder}/{it}.py", "import os\nos._exit(99)\n")


def all_below(folder: str) -> dict[str, int]:
    """Returns everything below a folder, with its mode."""
    found = [f"{at}/{it}" for at, folders, files in os.walk(folder) for it in [*folders, *files]]
    return {os.path.relpath(it, folder): os.stat(it).st_mode & 0o7777 for it in sorted(found)}


def all_listed() -> list[str]:
    """Returns the paths of what bin/install installs."""
    return [*(it for _, _, it in listed()), *links_listed()]


def files_of(paths: dict[str, int]) -> dict[str, int]:
    """Returns those of these paths that are not folders of another one."""
    return {it: mode for it, mode in paths.items() if not any(other.startswith(f"{it}/") for other in paths)}


class Machine(NamedTuple):
    """An architecture: its name, Debian's, and those of its processor in readelf and of its platforms in a wheel."""

    name: str
    debian: str
    processor: str
    platforms: list[str]


MACHINES = [
    Machine("x86_64", "amd64", "Advanced Micro Devices X86-64", ["manylinux2014_x86_64", "musllinux_1_1_x86_64"]),
    Machine("aarch64", "arm64", "AArch64", ["manylinux2014_aarch64", "musllinux_1_1_aarch64"]),
]


class Port:
    """The files of a release for one architecture, and where the archive is unpacked."""

    def __init__(self, machine: Machine, version: str, folder: str) -> None:
        self.machine, self.name = machine, f"dnorm-{version}-{machine.name}-linux"
        self.archive = f"{self.name}.tar.gz"
        self.package = f"dnorm_{version.replace('-', '~')}-1_{machine.debian}.deb"
        self.shared, self.headers = (self.package.replace("dnorm", it, 1) for it in ["libdnorm3", "libdnorm-dev"])
        self.wheel = f"dnorm-{version.replace('-dev', '.dev0')}-py3-none-{'.'.join(machine.platforms)}.whl"
        self.files = [self.archive, self.package, self.shared, self.headers, self.wheel]
        self.root = f"{folder}/{machine.name}"
        self.tree = f"{self.root}/{self.name}"


class Place:
    """A scratch repository that contains the built program."""

    def __init__(self, folder: str, tested: str, origin: str = "") -> None:
        self.folder, self.dist, self.has_commit = folder, f"{folder}/dist", bool(origin)
        if origin:
            os.makedirs(folder)
            self.git("clone", "-q", origin, ".")
        else:
            shutil.copytree(ROOT, folder, ignore=WITHOUT)
            self.git("init", "-q")
            write(f"{folder}/Makefile", MAKES)
        # What is built here, which git does not have.
        os.makedirs(f"{folder}/{OUT}/static")
        if os.path.exists(f"{ROOT}/{OUT}/aarch64"):
            shutil.copytree(f"{ROOT}/{OUT}/aarch64", f"{folder}/{OUT}/aarch64")
        for it in ["dnorm.o", "dn_c.a", "libdnorm.a", "libdnorm.so.3"]:
            if os.path.exists(f"{ROOT}/{OUT}/{it}"):
                shutil.copy(f"{ROOT}/{OUT}/{it}", f"{folder}/{OUT}/{it}")
        linked = f"{ROOT}/{OUT}/static/dnorm"
        shutil.copy(tested, f"{folder}/{OUT}/dnorm")
        shutil.copy(linked if os.path.exists(linked) else tested, f"{folder}/{OUT}/static/dnorm")
        self.put_module()

    def put_module(self) -> None:
        """Puts the module and the page where make makes them, and into released/: what it has made here, or what is
        released."""
        os.makedirs(f"{self.folder}/released", exist_ok=True)
        for it in ["dnorm.wasm.gz", "dnorm.html"]:
            found = [at for at in [f"{ROOT}/{OUT}/{it}", f"{ROOT}/released/{it}"] if os.path.exists(at)]
            for to in [OUT, "released"]:
                write(f"{self.folder}/{to}/{it}", bytes_of(found[0]) if found else "")
        for it in ["dnorm.wasm", "wasm.a", "wasm.said"]:
            write(f"{self.folder}/{OUT}/{it}", f"{it}\n")
        # A C file whose functions do nothing is compiled in no time.
        declared = DECLARED.findall(text_of(f"{ROOT}/c/dnorm.h"))
        bodies = {it: f"static {it} none; return none;" if it != "void" else "" for it, _, _ in declared}
        functions = "".join(f"{it} ({name}){words} {{ {bodies[it]} }}\n" for it, name, words in declared)
        write(f"{self.folder}/{OUT}/libdnorm.c", f'#include "dnorm.h"\n{functions}')

    def git(self, *words: str) -> None:
        who = {f"GIT_{one}_{it}": value for one in ["AUTHOR", "COMMITTER"] for it, value in WHO.items()}
        done = run(["git", *words], cwd=self.folder, env={**os.environ, **OF_GIT, **who})
        if done.status:
            raise OSError(f"git {words}: {done.err!r}")

    def commit(self, *entries: str, is_next: bool = False) -> None:
        """Commits a CHANGELOG.md with these entries, as the only commit, or as the next one."""
        write(f"{self.folder}/CHANGELOG.md", "# Changes\n" + "".join(f"\n## {it}\n\n- A change.\n" for it in entries))
        self.git("add", "-A")
        self.git("commit", "-q", "-m", "entries", *(["--amend"] if self.has_commit and not is_next else []))
        self.has_commit = True

    def release(self, *words: str) -> Answer:
        return run([f"{self.folder}/packaging/release", *words], cwd="/", limit=MOST)


class Made:
    """A scratch repository, and the release that it makes."""

    def __init__(self, tested: str, folder: str) -> None:
        self.tested, self.folder, self.lacks_aarch64 = tested, folder, ""
        self.version = run([tested, "--version"]).out.decode().split()[1]
        self.info = f"dnorm-{self.version}.buildinfo"
        self.stem = f"dnorm-{self.version.replace('-dev', '.dev0')}"
        self.source = f"{self.stem}.tar.gz"
        self.python_package = f"python3-dnorm_{self.version.replace('-', '~')}-1_all.deb"
        self.ports = [Port(it, self.version, folder) for it in MACHINES]
        self.tree = self.ports[0].tree
        self.one = Place(f"{folder}/one", tested)

    def files(self) -> list[str]:
        """Returns the names of all files but SHA256SUMS, sorted."""
        ends = ["-objects.tar.gz", "-c.tar.gz", "-notes.md", ".tgz"]
        ends += ["-x86_64-windows.exe"] * bool(shutil.which(MINGW))
        own = [self.info, self.source, self.python_package, *(f"dnorm-{self.version}{it}" for it in ends)]
        return sorted([*own, *(it for port in self.ports for it in port.files)])

    def release(self, place: Place) -> Answer:
        """Makes a release in the folder `dist`. Without aarch64 it can only be a trial."""
        return place.release() if len(self.ports) > 1 else place.release("--trial", place.dist)

    def try_release(self) -> None:
        """Makes a trial release. If only the files for aarch64 cannot be made, they are left out."""
        to = f"{self.folder}/trial"
        self.one.commit("Unreleased", self.version)
        found = self.one.release("--trial", to)
        line = found.err.decode(errors="replace").partition("\n")[0]
        if found.status and line.startswith("release: there is no"):
            leave_out(tool_of(line))
        if line.startswith("release: aarch64 is left out: "):
            self.lacks_aarch64 = line.removeprefix("release: aarch64 is left out: ")
            self.ports.pop()
            found = found._replace(err=b"".join(found.err.splitlines(True)[1:]))
        if not shutil.which(MINGW):
            found = found._replace(err=found.err.replace(NO_MINGW, b""))
        assert (found.err, found.status) == (b"", 0), "a trial"
        assert sorted(os.listdir(to)) == sorted([*self.files(), "SHA256SUMS"]), "files of a trial"


def tool_of(line: str) -> str:
    """Returns the tool that a line of packaging/release says is missing."""
    return line.removeprefix("release: ").removeprefix("there is no ").removesuffix(" on the path")
