"""packaging/release on the built program, and bin/install: the archive's program in an empty root, its conformance
suite, two releases of one commit in two folders, the packages' paths, fields and commands, the links of all pages,
programs that are built with the library of the archive, of bin/install and of the packages, what is installed and
uninstalled, also after a failure, by busybox and without /proc, and when no release is made. All of this happens in
scratch repositories, which have the files that a release is made of.

Of what is made for aarch64, the paths, the fields and the processor of the files are tested, and nothing is proved or
run: the scratch repositories have what make has built, and another Makefile. The tests run in one process, in this
order, since they share the releases."""

import glob
import os
import re
import shutil
import sys
import tarfile
import time
import zipfile

import kit
import pytest
from builds import by_cmake
from known import CANONICAL, ROADS, ROADS_CANON, rows
from needs import leave_out, need, pass_over
from scratch import ADDED, DIST, FIRST, FOR_AARCH64, LINKS, MACHINES, MAKES, MODULES, OF_LIBRARY, OUT, RELEASED
from scratch import SUITE, TIME, WHO, Made, Place, Port
from scratch import all_below, all_listed, files_of, in_package, is_of_python, make_traps, tool_of
from shared import ROOT, Answer, bytes_of, links_listed, listed, python_with, run, said, text_of, write

pytestmark = [pytest.mark.slow, pytest.mark.proof, pytest.mark.xdist_group("release")]
# What the package for Python has besides modules and the suite.
SHOWN = {f"dnorm/{it}" for it in ["FILES.md", "look.js", "report.html", "report.js"]}
# The functions that the shared library exports, each with the release that added it.
NODES = re.findall(r"^DNORM_(\S+) {(.*?)^}", text_of(f"{ROOT}/c/dnorm.map"), re.M | re.S)
EXPORTED = sorted(f" {it}@DNORM_{node} {node}.0~" for node, names in NODES for it in re.findall(r"(dnorm_\w+);", names))


@pytest.fixture(scope="module")
def scratch(tested: str, tmp_path_factory: pytest.TempPathFactory) -> Made:
    need("git")
    if not os.path.exists(f"{ROOT}/{OUT}/libdnorm.a"):
        leave_out("the library that make builds")
    return Made(tested, f"{tmp_path_factory.mktemp('release')}/it")


@pytest.fixture(scope="module")
def made(scratch: Made) -> Made:
    """A scratch repository that can make a release."""
    scratch.try_release()
    return scratch


def test_aarch64(made: Made) -> None:
    """The files for aarch64 can be made, without which the other tests leave them out."""
    if made.lacks_aarch64.startswith("there is no "):
        leave_out(tool_of(made.lacks_aarch64))
    if made.lacks_aarch64.startswith(f"{OUT}/aarch64 is not up to date"):
        pass_over(f"{OUT}/aarch64 (make aarch64 builds it)")
    assert not made.lacks_aarch64


def test_refusals(made: Made) -> None:
    """When no release is made."""
    one, version = made.one, made.version
    wants = f"release: the first entry of CHANGELOG.md is 'Unreleased', and the program is {version}\n"
    assert one.release() == said("", wants, 1), "no entry"
    one.commit()
    wants = f"release: the first entry of CHANGELOG.md is '', and the program is {version}\n"
    assert one.release() == said("", wants, 1), "no entries"
    one.commit(version, "0.9.0")
    for name in ["more", "README.md"]:
        kept = bytes_of(f"{ROOT}/{name}") if name == "README.md" else b""
        write(f"{one.folder}/{name}", "changed")
        wants = "release: the tree has changes that are not committed\n"
        assert one.release() == said("", wants, 1), f"a changed {name}"
        write(f"{one.folder}/{name}", kept)
    os.remove(f"{one.folder}/more")
    for words in [["x"], ["--trial"], ["--trial", ""], ["--trial", "x", "y"]]:
        wants = "release: it takes no words but --trial FOLDER: --help says more\n"
        assert one.release(*words) == said("", wants, 2), f"{words}"
    if len(made.ports) > 1:
        os.rename(f"{one.folder}/{OUT}/aarch64", f"{one.folder}/{OUT}/away")
        line = b"release: the program for aarch64 could not be built\n"
        assert one.release().err.endswith(line), "nothing for aarch64"
        os.rename(f"{one.folder}/{OUT}/away", f"{one.folder}/{OUT}/aarch64")
        write(f"{one.folder}/Makefile", MAKES.replace("test:\n", "test:\n\t@exit 1\n"))
        one.commit(version, "0.9.0")
        line = f"release: the program for aarch64 does not pass {FOR_AARCH64}\n".encode()
        assert one.release().err.endswith(line), "a test for aarch64 that fails"
        write(f"{one.folder}/Makefile", MAKES)
        one.commit(version, "0.9.0")
    assert not os.path.exists(one.dist), "nothing is made"


def test_versions(made: Made) -> None:
    """A version without a dash names one state of the files, to which released/ may be added."""
    one, program = made.one, f"{made.one.folder}/{OUT}/dnorm"
    kept = bytes_of(program)
    write(program, "#!/bin/sh\necho dnorm 9.0.1\n")
    one.commit("9.0.10", "9.0.1-dev")
    one.commit("9.0.1", "0.9.0", is_next=True)
    first = run(["git", "rev-parse", "--short", "HEAD"], cwd=one.folder).out.decode().strip()
    assert b"aarch64" in one.release().err, "a new version"
    os.makedirs(f"{one.folder}/released", exist_ok=True)
    write(f"{one.folder}/released/new", "")
    one.commit("9.0.1", "0.9.0", is_next=True)
    assert b"aarch64" in one.release().err, "released/ added to it"
    one.commit("9.0.1", "0.9.0", "0.8.0", is_next=True)
    wants = f"release: commit {first} has the version 9.0.1, too, and other files: take another version\n"
    assert one.release() == said("", wants, 1), "a version given before"
    os.remove(f"{one.folder}/released/new")
    write(program, kept)
    one.commit(made.version, "0.9.0")


@pytest.fixture(scope="module")
def two(made: Made) -> Place:
    """Another repository of the same commit. In both a release is made."""
    made.one.commit(made.version, "0.9.0")
    two = Place(f"{made.folder}/another folder/of it", made.tested, made.one.folder)
    for place in [made.one, two]:
        found = made.release(place)
        told = found.err if len(made.ports) > 1 else b""
        assert (told, found.status) == (b"", 0), f"a release in {place.folder}"
        assert sorted(os.listdir(place.dist)) == sorted([*made.files(), "SHA256SUMS"]), "its files"
    for port in made.ports:
        with tarfile.open(f"{made.one.dist}/{port.archive}") as tar:
            tar.extractall(port.root)
    return two


def test_c_file(made: Made, two: Place, folder: str) -> None:
    """The archive of the C file has what c/file/stage makes, of which c/tests/test_builds.py builds the library."""
    name = f"dnorm-{made.version}-c"
    with tarfile.open(f"{two.dist}/{name}.tar.gz") as tar:
        tar.extractall(folder)
    assert run([f"{two.folder}/c/file/stage", "staged", f"{two.folder}/{OUT}/libdnorm.c", made.version]) == said()
    assert all_below(name) == all_below("staged")
    assert all(bytes_of(f"{name}/{it}") == bytes_of(f"staged/{it}") for it in all_below("staged"))


def test_notes(made: Made, two: Place) -> None:
    """The notes have the entry of this version, and no other."""
    assert text_of(f"{two.dist}/dnorm-{made.version}-notes.md") == f"# dnorm {made.version}\n\n- A change.\n"


@pytest.fixture(params=range(len(MACHINES)), ids=[it.name for it in MACHINES])
def port(request: pytest.FixtureRequest, made: Made, two: Place) -> Port:
    """The files of the release for an architecture."""
    number: int = request.param
    if len(made.ports) <= number:
        pass_over(made.lacks_aarch64)
    return made.ports[number]


def test_equal_bytes(made: Made, two: Place) -> None:
    """Two releases of one commit, in folders of different names, have the same bytes."""
    for name in [*made.files(), "SHA256SUMS"]:
        same = bytes_of(f"{made.one.dist}/{name}") == bytes_of(f"{two.dist}/{name}")
        assert same, f"{name} of two releases has the same bytes"
    sums = run(["sha256sum", "--strict", "-c", "SHA256SUMS"], cwd=two.dist)
    assert sums == said("".join(f"{it}: OK\n" for it in made.files())), "SHA256SUMS"
    told = text_of(f"{two.dist}/{made.info}")
    head = run(["git", "rev-parse", "HEAD"], cwd=two.folder).out.decode().strip()
    lines = [f"version: {made.version}", f"commit: {head}", f"time: {TIME}", f"kit: {kit_line()}"]
    lines += [f"linked for {it.machine.name}:" for it in made.ports]
    for line in lines:
        assert line in told.splitlines(), f"{made.info} has: {line}"
    named = {it: two.dist for it in made.files() if it != made.info}
    if len(made.ports) > 1:
        named |= {it: f"{two.folder}/{OUT}/aarch64" for it in ["dnorm.o", "dn_c.a", "runtime.o", "heap.o"]}
        named["runtime-aarch64.c"] = f"{two.folder}/c"
    for name, folder in named.items():
        line = run(["sha256sum", name], cwd=folder).out.decode()
        assert line in told, f"{made.info} has the sum of {name}"


def test_released(made: Made, two: Place) -> None:
    """In released/ both releases wrote the same, of the archives' files, and another release with it changes
    nothing."""
    if made.lacks_aarch64:
        pass_over(made.lacks_aarch64)
    found = [{it: bytes_of(f"{place.folder}/released/{it}") for it in RELEASED} for place in [made.one, two]]
    assert found[0] == found[1], "released/ of two releases has the same bytes"
    assert sorted(files_of(all_below(f"{two.folder}/released"))) == sorted(RELEASED), "released/"
    sums = run(["sha256sum", "--strict", "-c", "SHA256SUMS"], cwd=f"{two.folder}/released")
    assert (sums.err, sums.status) == (b"", 0), "SHA256SUMS of released/"
    with tarfile.open(f"{two.dist}/{made.ports[1].archive}") as tar:
        file = tar.extractfile(f"{made.ports[1].name}/bin/dnorm")
        program = file.read() if file else b""
    assert found[0]["aarch64/dnorm"] == program, "the released program for aarch64"
    lines = found[0]["buildinfo"].decode().splitlines()
    wanted = [f"version: {made.version}", f"kit: {kit_line()}"]
    for it in ["crates", "c/free.c"]:
        wanted.append(f"{it}: {run(['git', 'rev-parse', f'HEAD:{it}'], cwd=two.folder).out.decode().strip()}")
    for line in wanted:
        assert line in lines, f"released/buildinfo has: {line}"
    two.git("add", "-A")
    two.git("commit", "-q", "-m", "released")
    assert made.release(two).status == 0, "another release"
    changes = run(["git", "status", "--porcelain"], cwd=two.folder)
    assert changes == said(), "what another release changes"


def kit_line() -> str:
    return run(["rt", "version"]).out.decode().strip()


def test_archive(made: Made, port: Port) -> None:
    """The archive of an architecture: its files, their owners and times, and that it contains no path of the place
    where it was made."""
    with tarfile.open(f"{made.one.dist}/{port.archive}") as tar:
        members = tar.getmembers()
    names = [it.name for it in members]
    assert names == sorted(names, key=lambda it: it.split("/")), "the archive's order"
    assert {(it.uid, it.gid, it.uname, it.gname, int(it.mtime)) for it in members} == {(0, 0, "", "", TIME)}
    wanted = archived()
    found_links = {it: os.readlink(f"{port.tree}/{it}") for it in wanted if os.path.islink(f"{port.tree}/{it}")}
    assert {at: to for at, to in found_links.items() if "/" in at} == links_listed()
    assert files_of(all_below(port.tree)) == wanted
    assert {it.mode for it in members if it.isdir()} == {0o755}, "its folders' modes"
    for name in ["bin/dnorm", "lib/libdnorm.a", "lib/libdnorm.so.3"]:
        linked = bytes_of(f"{port.tree}/{name}")
        for it in [made.folder, ROOT, str(kit.find()[0] or ROOT)]:
            assert it.encode() not in linked, f"{it} is in {name}"
        told = run(["readelf", "-hW", f"{port.tree}/{name}"]).out.decode()
        assert set(re.findall(r"^ *Machine: +(.*)$", told, re.M)) == {port.machine.processor}, name
    told = run(["readelf", "-lW", f"{port.tree}/dnorm"]).out.decode()
    assert "LOAD" in told and "INTERP" not in told, "the program is static"


def archived() -> dict[str, int]:
    """Returns the files that the archive is to have, with their modes."""
    wanted = {place: mode for mode, place, _ in listed()} | {"packaging/installed.txt": 0o644}
    commands = [*(os.path.basename(it) for it in wanted if it.startswith("bin/")), "install"]
    wanted |= {"bin/install": 0o755, **dict.fromkeys(commands, 0o755)}
    return wanted | dict.fromkeys(links_listed(), 0o644)


def test_runs_of_archive(made: Made, two: Place) -> None:
    """What the archive for this machine has runs, and leaves nothing behind."""
    uses_library(made, made.tree)
    words = [f"{made.tree}/suite/run.py", "--rule", "first", f"{made.tree}/dnorm"]
    assert run(words) == said(FIRST)
    parts(made, f"{made.tree}/canon-in-parts")
    assert files_of(all_below(made.tree)) == archived()
    assert [it for it in os.listdir(f"{made.tree}/python/src") if it.endswith(".py")] == ["__main__.py"]
    links(made, made.tree)


def uses_library(made: Made, prefix: str, root: str = "") -> None:
    """Tests a program that is built with the library below a prefix, as pkg-config finds it; below a root, the file for
    pkg-config names it by its path in this root."""
    need("c++", "pkg-config")
    found = [it for it, _, names in os.walk(prefix) if "dnorm.pc" in names]
    own = {**os.environ, "PKG_CONFIG_LIBDIR": ":".join(found), "PKG_CONFIG_SYSROOT_DIR": root}
    own |= {"PKG_CONFIG_ALLOW_SYSTEM_CFLAGS": "1", "PKG_CONFIG_ALLOW_SYSTEM_LIBS": "1"}
    told = run(["pkg-config", "--cflags", "--libs", "dnorm"], env=own)
    assert (told.err, told.status) == (b"", 0), f"pkg-config below {prefix}"
    words = [
        "c++", "-std=c++17", "-o", f"{made.folder}/uses", f"{ROOT}/c/tests/library.cc",
        *told.out.decode().split(),
    ]  # fmt: skip
    assert run(words) == said(), f"{words}"
    text, *forms = CANONICAL[0]
    environment = {**os.environ, "LD_LIBRARY_PATH": os.path.dirname(found[0])}
    assert run([f"{made.folder}/uses"], text, env=environment) == said(b"".join(forms)), f"its run, {prefix}"


def links(made: Made, folder: str) -> None:
    """Each link in the pages below a folder leads to a file there, and that links to sources name them."""
    found = run([sys.executable, f"{ROOT}/tools/pages.py", folder])
    assert found == said(), "pages with links that lead nowhere"
    for source in ["crates/dn_num/specs/Number.antt", "crates/dn_arc_theory/specs/Meanings.antt"]:
        assert f"(`{source}`)" in text_of(f"{folder}/docs/PROVED.md"), f"{folder}/docs/PROVED.md names {source}"


def test_in_empty_root(made: Made, two: Place) -> None:
    """The archive's program in a root that has nothing else: the tables of known.py, and the help."""
    if os.geteuid() or run(["chroot", "/", "true"]).status:
        pass_over("the right to call chroot (root has it)")
    for number, (words, named, out, err, status) in enumerate(rows()):
        os.mkdir(f"{made.ports[0].root}/{number}")
        for name in named.keys() - {"-"}:
            write(f"{made.ports[0].root}/{number}/{name}", named[name])
        found = by_root(made, number, words.split(), named.get("-", b""))
        assert found == Answer(out, err, status), f"{words} of {named}, in an empty root"
    for words in ["help", "help canon", "--version", "check --help"]:
        assert by_root(made, 0, words.split(), b"") == run([made.tested, *words.split()]), words


def by_root(made: Made, number: int, words: list[str], given: bytes) -> Answer:
    """Runs the archive's program in a folder of its root."""

    def enter() -> None:
        os.chroot(made.ports[0].root)
        os.chdir(f"/{number}")

    return run([f"/{made.ports[0].name}/dnorm", *words], given, preexec_fn=enter)


def test_python_wheel(made: Made, port: Port) -> None:
    """The wheel for an architecture: its files, their modes and times, what it is for, and that it has the archive's
    program and library."""
    path = f"{made.one.dist}/{port.wheel}"
    python = python_with("setuptools", "wheel") or sys.executable
    # This compares the sum of each file with RECORD.
    assert run([python, "-m", "wheel", "unpack", "-d", f"{made.folder}/wheel-{port.machine.name}", path]).status == 0
    with zipfile.ZipFile(path) as wheel:
        infos = {it.filename: it for it in wheel.infolist()}
        texts = {it: wheel.read(it) for it in infos}
    script, library = f"{made.stem}.data/scripts/dnorm", "dnorm/libdnorm.so.3"
    modules = {*MODULES, *SUITE, *SHOWN, library}
    assert {it for it in texts if not it.startswith(f"{made.stem}.dist-info/")} == {*modules, script}, "its files"
    for name, place in {**SUITE, script: "bin/dnorm", library: "lib/libdnorm.so.3"}.items():
        assert texts[name] == bytes_of(f"{port.tree}/{place}"), f"{name} is {place}"
    for it in [made.folder, ROOT]:
        assert not any(it.encode() in texts[name] for name in {*texts} - {script, library}), f"{it} is not in the wheel"
    told = texts[f"{made.stem}.dist-info/WHEEL"].decode()
    tags = "".join(f"Tag: py3-none-{it}\n" for it in port.machine.platforms)
    assert "Root-Is-Purelib: false\n" in told and tags in told and told.count("Tag: ") == tags.count("Tag: "), told
    assert b"Requires-Dist" not in texts[f"{made.stem}.dist-info/METADATA"], "it needs only Python"
    # manylinux2014 has the C library in version 2.17.
    least = [int(it) for it in least_libc(f"{port.tree}/lib/libdnorm.so.3").split(".")]
    assert least <= [2, 17] and all(it.startswith(("manylinux2014_", "musllinux_")) for it in port.machine.platforms)
    assert {it.date_time for it in infos.values()} == {time.gmtime(TIME - 1)[:6]}, "its times"
    assert {infos.pop(script).external_attr >> 16} == {0o100755}, "the mode of its program"
    assert {it.external_attr >> 16 & 0o111 for it in infos.values()} == {0}, "nothing else is run"


def test_python_source(made: Made, two: Place) -> None:
    """The source distribution: its files, and that it has the C file of the release."""
    with tarfile.open(f"{made.one.dist}/{made.source}") as tar:
        members = {it.name.removeprefix(f"{made.stem}/"): it for it in tar.getmembers() if it.isfile()}
        one = tar.extractfile(members["c/libdnorm.c"])
        with tarfile.open(f"{made.one.dist}/dnorm-{made.version}-c.tar.gz") as beside:
            other = beside.extractfile(f"dnorm-{made.version}-c/libdnorm.c")
            assert one and other and one.read() == other.read()
    found = {it.removeprefix("src/") for it in members if it.startswith("src/dnorm/")}
    assert found == {*MODULES, *SUITE, *SHOWN}, "its package"
    wanted = {"LICENSE-APACHE", "LICENSE-MIT", "MANIFEST.in", "PKG-INFO", "README.md", "THIRD-PARTY"}
    wanted |= {"c/dnorm.h", "c/libdnorm.c"}
    wanted |= {"pyproject.toml", "setup.cfg", "setup.py"}
    assert {it for it in members if not it.startswith("src/")} == wanted, "its other files"
    assert {it.mtime for it in members.values()} == {TIME}, "its times"


def test_by_pip(made: Made, two: Place) -> None:
    """What pip installs from the wheel and from the source distribution into environments that are not activated, and
    uninstalls: the wheel brings the program, and the other one compiles the library. That answers nothing here, since
    scratch repositories have a C file of empty functions."""
    # setuptools fails after pip.
    python = python_with("setuptools", "pip", "venv", "wheel")
    if not python:
        leave_out("pip")
        return
    write(f"{made.folder}/roads.gr", ROADS)
    for file, has_program in [(made.ports[0].wheel, True), (made.source, False)]:
        place = f"{made.folder}/environment{has_program}"
        assert run([python, "-m", "venv", "--without-pip", "--system-site-packages", place]) == said(), "an environment"
        pip = [python, "-m", "pip", "--python", f"{place}/bin/python", "--disable-pip-version-check"]
        before = all_below(f"{place}/bin")
        words = ["install", "--quiet", "--no-index", "--no-deps", "--no-build-isolation", f"{made.one.dist}/{file}"]
        found = run([*pip, *words], limit=None)
        assert (found.out, found.status) == (b"", 0), f"pip install {file}"
        commands = ["canon-in-parts", *["dnorm"] * has_program, "dnorm-explain", "dnorm-files"]
        assert sorted(all_below(f"{place}/bin").keys() - before) == commands, "its commands"
        runs_installed(made, place, has_program)
        found = run([*pip, "uninstall", "--quiet", "--yes", "dnorm"])
        assert (found.status, all_below(f"{place}/bin")) == (0, before), "pip uninstall"


def runs_installed(made: Made, place: str, has_program: bool) -> None:
    """Runs of what pip has installed into an environment."""
    own = {"PATH": "/none"}
    (library,) = glob.glob(f"{place}/lib/python*/site-packages/dnorm/libdnorm*.so*")
    ran = run([f"{place}/bin/python", "-c", "import dnorm; print(dnorm.find_library())"], env=own)
    assert ran == said(f"{library}\n"), "the library"
    for command in [[f"{place}/bin/dnorm-files"], [f"{place}/bin/python", "-m", "dnorm"]]:
        found = run([*command, "check", "roads.gr"], cwd=made.folder, env=own)
        accepted = said("roads.gr: accepted sp\n", "1 accepted, 0 refused, 0 failed\n")
        assert found == accepted or not has_program and not found.status, f"{command}: {found}"
    (page,) = glob.glob(f"{place}/lib/python*/site-packages/dnorm/FILES.md")
    assert f"{page} describes the commands" in run([f"{place}/bin/dnorm-files", "--help"], env=own).out.decode()
    found = run([f"{place}/bin/dnorm-explain", "canon", "roads.gr"], cwd=made.folder, env=own)
    none = "dnorm: cannot be run (there is no such program on PATH)\n"
    assert found == (said(ROADS_CANON) if has_program else said("", none, 4)), "dnorm-explain runs the program"
    assert run([f"{place}/bin/canon-in-parts", "--help"], env=own).status == 0


def runs_module(made: Made, where: str) -> None:
    """A run of the Python package in this folder, by the archive's library."""
    write(f"{made.folder}/roads.gr", ROADS)
    environment = {**os.environ, "PYTHONPATH": where, "PYTHONDONTWRITEBYTECODE": "1"}
    environment["DNORM_LIBRARY"] = f"{made.tree}/lib/libdnorm.so.3"
    found = run([sys.executable, "-m", "dnorm", "check", "roads.gr"], cwd=made.folder, env=environment)
    assert found == said("roads.gr: accepted sp\n", "1 accepted, 0 refused, 0 failed\n"), f"check by {where}"
    words = [sys.executable, "-m", "dnorm.conformance", "--rule", "first", made.tested]
    found = run(words, cwd=made.folder, env=environment)
    assert found == said(FIRST), f"conformance by {where}"


def package_of(made: Made, name: str, wanted: dict[str, str]) -> str:
    """Unpacks a package that has these fields, and returns the folder. Its files have the sums that it says, and are
    root's."""
    path, to = f"{made.one.dist}/{name}", f"{made.folder}/package-{name}"
    if not os.path.exists(to):
        assert run(["dpkg-deb", "-R", path, to]) == said(), "dpkg-deb -R"
        shutil.move(f"{to}/DEBIAN", f"{to}-control")
    lines = run(["dpkg-deb", "-f", path]).out.decode().splitlines()
    fields = dict(it.split(": ", 1) for it in lines if not it.startswith(" "))
    wanted = {"Version": f"{made.version.replace('-', '~')}-1", **wanted}
    assert {it: fields.get(it) for it in wanted} == wanted, f"fields of {name}"
    assert run(["md5sum", "--quiet", "--strict", "-c", f"{to}-control/md5sums"], cwd=to) == said(), "md5sums"
    rows = run(["dpkg-deb", "-c", path]).out.decode().splitlines()
    assert {it.split()[1] for it in rows} == {"root/root"}, "its owners"
    return to


def test_python_package(made: Made, two: Place) -> None:
    """The package of the Python package: its paths, modes and fields, and that it has the wheel's files once."""
    version = f"{made.version.replace('-', '~')}-1"
    fields = {"Package": "python3-dnorm", "Architecture": "all", "Source": "dnorm"}
    fields |= {"Depends": f"dnorm (= {version}), libdnorm3 (= {version}), python3 (>= 3.9)"}
    fields |= dict.fromkeys(["Breaks", "Replaces"], "dnorm (<< 3.0.0~)")
    to = package_of(made, made.python_package, fields)
    with zipfile.ZipFile(f"{made.one.dist}/{made.ports[0].wheel}") as wheel:
        names = [it for it in wheel.namelist() if not it.endswith(("/RECORD", "/WHEEL", "/dnorm", "/libdnorm.so.3"))]
        texts = {f"{DIST}/{it}": wheel.read(it) for it in names}
    info = next(os.path.dirname(it) for it in texts if it.endswith("/METADATA"))
    texts[f"{info}/INSTALLER"] = b"dpkg\n"
    # Its commands read these where their documents and the files for browsers are.
    elsewhere = {it: texts.pop(f"{DIST}/dnorm/{it}") for it in ["FILES.md", "look.js", "report.html", "report.js"]}
    wanted = {f"usr/{in_package(it)}": mode for mode, _, it in listed() if is_of_python(it)}
    wanted |= dict.fromkeys([f"{info}/WHEEL", *(it for it in texts if it.startswith(f"{info}/"))], 0o644)
    added = {"usr/share/lintian/overrides/python3-dnorm": 0o644}
    added["usr/share/python3/runtime.d/python3-dnorm.rtupdate"] = 0o755
    names = [os.path.relpath(f"{at}/{it}", to) for at, folders, files in os.walk(to) for it in [*folders, *files]]
    found = {it: os.readlink(f"{to}/{it}") for it in names if os.path.islink(f"{to}/{it}")}
    assert found == LINKS, "its links"
    modes = files_of({it: os.lstat(f"{to}/{it}").st_mode & 0o7777 for it in names})
    assert {it: modes[it] for it in modes.keys() - found} == wanted | added, "the files of python3-dnorm"
    assert {it: bytes_of(f"{to}/{it}") for it in texts} == texts, "its modules"
    for it in ["look.js", "report.html", "report.js"]:
        assert bytes_of(f"{to}/usr/share/dnorm/web/{it}") == elsewhere[it], it
    scripts = {it: os.stat(f"{to}-control/{it}").st_mode & 0o777 for it in ["postinst", "prerm"]}
    assert scripts == dict.fromkeys(scripts, 0o755), "its scripts"


def together(made: Made) -> str:
    """Unpacks the packages for this machine into one root, if that was not done before, and returns the root. No file
    is in two of them."""
    to, port = f"{made.folder}/together", made.ports[0]
    if not os.path.exists(to):
        rows = []
        for it in [port.package, port.shared, port.headers, made.python_package]:
            path = f"{made.one.dist}/{it}"
            assert run(["dpkg-deb", "-x", path, to]) == said(), f"dpkg-deb -x {it}"
            rows += [it.split(maxsplit=5)[5] for it in run(["dpkg-deb", "-c", path]).out.decode().splitlines()]
        files = [it.partition(" -> ")[0] for it in rows if not it.endswith("/")]
        assert sorted(files) == sorted(set(files)), "files of two packages"
    return to


def test_commands_of_packages(made: Made, two: Place) -> None:
    """All packages together in one root: the commands run, and nothing of the current folder does. They have the
    program, the library and the pages of the root."""
    to = together(made)
    modules, program = f"{to}/{DIST}", f"{to}/usr/bin/dnorm"
    assert text_of(f"{to}/usr/share/doc/python3-dnorm/copyright"), "the documents of python3-dnorm"
    runs_module(made, modules)
    code = "import dnorm; print(dnorm.__file__, dnorm.find_library())"
    own = {"PYTHONPATH": modules, "PYTHONDONTWRITEBYTECODE": "1"}
    library = f"{to}/usr/lib/{made.ports[0].machine.name}-linux-gnu/libdnorm.so.3"
    assert run([sys.executable, "-c", code], env=own) == said(f"{modules}/dnorm/__init__.py {library}\n")
    at = f"{made.folder}/traps"
    make_traps(at)
    for name, text in {"roads": ROADS, "other": b"p sp 2 1\na 1 2 5\n", "bad": b"p sp 2 1\na 1 3 5\n"}.items():
        write(f"{at}/{name}.gr", text)
    for own in [{"PATH": os.environ["PATH"]}, {"PATH": f".:{os.environ['PATH']}:", "PYTHONPATH": ".:/none:"}]:
        runs_commands(to, at, own)
    words = [f"{to}/usr/share/dnorm/conformance/run.py", "--rule", "first", program]
    assert run(words, cwd=at, env={"PATH": os.environ["PATH"]}) == said(FIRST), "the conformance suite"


def runs_commands(root: str, at: str, own: dict[str, str]) -> None:
    """The commands of this root, in a folder with files that have the names of modules."""
    bin_ = f"{root}/usr/bin"
    found = run([f"{bin_}/dnorm-files", "check", "roads.gr"], cwd=at, env=own)
    assert found == said("roads.gr: accepted sp\n", "1 accepted, 0 refused, 0 failed\n"), "dnorm-files check"
    told = run([f"{bin_}/dnorm-files", "--help"], cwd=at, env=own).out.decode()
    assert f"{root}/usr/share/doc/dnorm/docs/FILES.md describes the commands" in told, "dnorm-files --help"
    page = run([f"{bin_}/dnorm-files", "look", "roads.gr", "other.gr"], cwd=at, env=own).out
    assert bytes_of(f"{root}/usr/share/dnorm/web/look.js") in page, "dnorm-files look"
    found = run([f"{bin_}/dnorm-explain", "check", "bad.gr"], cwd=at, env=own)
    assert b"line 2: a 1 3 5" in found.err and found.status == 2, f"dnorm-explain: {found}"
    found = run([f"{bin_}/canon-in-parts", "--lines", "2", "roads.gr"], cwd=at, env=own)
    assert found == said(ROADS_CANON.decode()), "canon-in-parts"


def unpacked(made: Made, port: Port) -> str:
    """Unpacks the package of the program for an architecture."""
    fields = {"Package": "dnorm", "Architecture": port.machine.debian, "Maintainer": f"{WHO['NAME']} <{WHO['EMAIL']}>"}
    # For python3-dnorm, also where it is for another architecture than the machine's.
    fields |= {"Multi-Arch": "foreign", "Suggests": "python3-dnorm, libdnorm-dev"}
    return package_of(made, port.package, fields)


def test_package(made: Made, port: Port) -> None:
    """The package of an architecture: its paths and its program. It depends on nothing, and all architectures have the
    same files but for the program."""
    to, sums = unpacked(made, port), []
    own = [(mode, it) for mode, _, it in listed() if not it.startswith(OF_LIBRARY) and not is_of_python(it)]
    wanted = {f"usr/{in_package(it)}": mode for mode, it in own}
    assert files_of(all_below(to)) == wanted | {f"usr/{it}": 0o644 for it in ADDED}, "the package's files"
    same = bytes_of(f"{to}/usr/bin/dnorm") == bytes_of(f"{port.tree}/dnorm")
    assert same, "the package has the archive's program"
    assert "Depends" not in text_of(f"{to}-control/control"), "it depends on nothing"
    for it in [port, made.ports[0]]:
        sums.append({*text_of(f"{unpacked(made, it)}-control/md5sums").splitlines()})
    assert {it.split()[1] for it in sums[0] ^ sums[1]} <= {"usr/bin/dnorm"}


def test_runs_of_packages(made: Made, two: Place) -> None:
    """What the packages for this machine have runs, and programs are built with the library's, by pkg-config and by
    CMake."""
    parts(made, f"{together(made)}/usr/bin/canon-in-parts")
    links(made, f"{unpacked(made, made.ports[0])}/usr/share/doc/dnorm")
    to = library_below(made, made.ports[0])
    uses_library(made, f"{to}/usr", to)
    by_cmake(f"{made.folder}/by cmake", f"{to}/usr")


def library_below(made: Made, port: Port) -> str:
    """Unpacks both packages of the library into one root, if that was not done before, and returns the root."""
    to, version = f"{made.folder}/library-{port.machine.name}", f"{made.version.replace('-', '~')}-1"
    fields = {"Source": "dnorm", "Multi-Arch": "same", "Architecture": port.machine.debian}
    least, is_new = f"libc6 (>= {least_libc(f'{port.tree}/lib/libdnorm.so.3')})", not os.path.exists(to)
    for name, own in {
        port.shared: {"Package": "libdnorm3", "Depends": least, "Section": "libs"},
        port.headers: {"Package": "libdnorm-dev", "Depends": f"libdnorm3 (= {version})", "Section": "libdevel"},
    }.items():
        package = package_of(made, name, {**fields, **own})
        if is_new:
            shutil.copytree(package, to, symlinks=True, dirs_exist_ok=True)
    return to


def test_packages_of_library(made: Made, port: Port) -> None:
    """The packages of the library for an architecture: their paths and fields."""
    folder, to = f"lib/{port.machine.name}-linux-gnu", library_below(made, port)
    places = [it.replace("lib/", f"{folder}/", 1) for _, _, it in listed() if it.startswith(OF_LIBRARY)]
    wanted = {f"usr/{it}{'.gz' * ('/man3/' in it)}" for it in [*places, f"{folder}/libdnorm.so"]}
    own_documents = ["LIBRARY.md", *(f"examples/{it}" for it in os.listdir(f"{ROOT}/c/examples"))]
    wanted |= {f"usr/share/doc/libdnorm-dev/{it}" for it in own_documents}
    for it in ["libdnorm3", "libdnorm-dev"]:
        added = [f"doc/{it}/{name}" for name in ["changelog.Debian.gz", "changelog.gz", "copyright", "THIRD-PARTY"]]
        wanted |= {f"usr/share/{name}" for name in [*added, f"lintian/overrides/{it}"]}
    names = {
        "shlibs": f"libdnorm 3 libdnorm3 (>= {made.version.replace('-', '~')})",
        "triggers": "activate-noawait ldconfig",
    }
    for it, line in names.items():
        assert text_of(f"{made.folder}/package-{port.shared}-control/{it}").splitlines()[-1] == line, it
    table = text_of(f"{made.folder}/package-{port.shared}-control/symbols").splitlines()
    assert table[-len(EXPORTED) :] == EXPORTED and len(EXPORTED) == 15, "symbols"
    found = {os.path.relpath(f"{at}/{it}", to) for at, _, files in os.walk(to, followlinks=True) for it in files}
    assert found == wanted, "the files of both packages"
    # Code has brackets, too.
    page = re.sub(r"^```.*?^```", "", text_of(f"{to}/usr/share/doc/libdnorm-dev/LIBRARY.md"), flags=re.M | re.S)
    local = [it for it in re.findall(r"\]\(([^#)][^)]*)\)", page) if "://" not in it]
    assert sorted(local) == sorted(own_documents[1:]), "links of the page on the library"
    is_whole = page.startswith("# The library for C, C++ and Rust\n") and "## What a caller" in page
    assert is_whole, "the page on the library is whole"
    for name in ["libdnorm.a", "libdnorm.so.3"]:
        same = bytes_of(f"{to}/usr/{folder}/{name}") == bytes_of(f"{port.tree}/lib/{name}")
        assert same, f"the packages have the archive's {name}"


def least_libc(library: str) -> str:
    """Returns the least version of the C library that has all that a shared library needs."""
    told = run(["readelf", "-W", "--dyn-syms", library]).out.decode()
    versions: list[str] = re.findall(r"GLIBC_([\d.]+)", told)
    return max(versions, key=lambda it: [*map(int, it.split("."))])


def parts(made: Made, script: str) -> None:
    """The output of this canon-in-parts, called by its name and by a link."""
    link = f"{made.folder}/link"
    os.symlink(script, link)
    for it in [script, link]:
        assert run([it, "--lines", "2", "-"], ROADS, cwd="/") == said(ROADS_CANON.decode()), it
    os.remove(link)


def install(folder: str, *words: str, below: str = "", path: str = "") -> Answer:
    """Runs bin/install of this folder, with the umask of a single user, with DESTDIR if it is given, and with this path
    of commands."""
    own = {**os.environ, "DESTDIR": below, "PATH": path or os.environ["PATH"]}
    return run(["sh", "-c", 'umask 077; exec "$@"', "sh", f"{folder}/bin/install", *words], cwd="/", env=own)


def test_fails(scratch: Made) -> None:
    """A failed bin/install leaves a list by which --uninstall works, and removes nothing else; and bin/install
    without bash and without /proc."""
    prefix = f"{scratch.folder}/failing"
    for path in ["share/fish", "bin/dnorm-explain/x"]:
        os.makedirs(os.path.dirname(f"{prefix}/{path}"))
        write(f"{prefix}/{path}", "mine")
        before = all_below(prefix)
        found = install(scratch.one.folder, prefix)
        assert found.status == 1 and len(all_below(prefix)) > len(before), f"bin/install fails: {found.err!r}"
        assert install(scratch.one.folder, "--uninstall", prefix) == said(), "--uninstall after a failure"
        assert all_below(prefix) == before, "what is left after a failure"
        shutil.rmtree(prefix)
    # To the script this is a shell other than bash.
    found = run(["sh", "-c", 'unset BASH_VERSION; . "$0"', f"{scratch.one.folder}/bin/install", prefix])
    assert found == said("", "install: this script needs bash\n", 3), "bin/install without bash"
    hidden = ["unshare", "-m", "sh", "-c", 'mount -t tmpfs tmpfs /proc && "$@"', "sh"]
    if os.geteuid() or run([*hidden, "true"]).status:
        pass_over("the right to mount (root has it)")
    found = run([*hidden, f"{scratch.one.folder}/bin/install", prefix])
    assert (found.err, found.status) == (b"", 0), "bin/install without /proc"
    assert (
        run([*hidden, f"{scratch.one.folder}/bin/install", "--uninstall", prefix]) == said()
    ), "--uninstall without /proc"
    assert not os.path.exists(prefix), "nothing is left without /proc"


def compiles(made: Made, modules: str) -> None:
    """Lets Python compile modules in this folder, which it keeps beside them."""
    code = "import dnorm; print(dnorm.__name__)"
    kept = {
        it: value for it, value in os.environ.items() if it not in ("PYTHONDONTWRITEBYTECODE", "PYTHONPYCACHEPREFIX")
    }
    assert run([sys.executable, "-c", code], env={**kept, "PYTHONPATH": modules}) == said("dnorm\n"), "the modules"
    assert glob.glob(f"{glob.escape(modules)}/dnorm/__pycache__/*.pyc") != [], "compiled modules"


def by_busybox(made: Made) -> str:
    """Returns a path on which there are only bash and the commands of busybox, of which Debian's has no `install`."""
    need("bash", "busybox")
    os.mkdir(f"{made.folder}/busybox")
    names = {*run(["busybox", "--list"]).out.decode().split()} - {"bash", "busybox", "install"}
    for it in ["bash", *names]:
        os.symlink(shutil.which("bash" if it == "bash" else "busybox") or "", f"{made.folder}/busybox/{it}")
    return f"{made.folder}/busybox"


@pytest.mark.parametrize("what", ["archive", "repository", "archive, by busybox"])
def test_installs(made: Made, two: Place, what: str) -> None:
    """What bin/install installs from the archive and from the repository, and uninstalls again."""
    folder, linked = (made.one.folder, made.tested) if what == "repository" else (made.tree, f"{made.tree}/dnorm")
    prefix, path = f"{made.folder}/a prefix", by_busybox(made) if "busybox" in what else os.environ["PATH"]
    os.makedirs(f"{prefix}/share/man")
    write(f"{prefix}/share/other", "")
    before, quoted = all_below(prefix), prefix.replace(" ", "\\ ")
    for _ in range(2):
        found = install(folder, prefix, path=path)
        told = found.out.decode().splitlines()
        assert sorted(told[:-4]) == sorted(f"{prefix}/{it}" for it in all_listed()), "files that are printed"
        assert told[-3] == f"export PATH={quoted}/bin:$PATH", "the path is printed"
        assert told[-1] == f"fpath=({quoted}/share/zsh/site-functions $fpath)", "fpath is printed"
        assert (found.err, found.status) == (b"", 0), "bin/install"
    found = install(folder, prefix, path=f"{path}:{prefix}/bin")
    assert len(found.out.splitlines()) == len(all_listed()) + 2, "the path is not printed"
    below, wanted = all_below(prefix), {it: mode for mode, _, it in listed()} | dict.fromkeys(links_listed(), 0o644)
    wanted |= {"share/dnorm/installed.txt": 0o644, "share/other": before["share/other"]}
    assert files_of(below) == wanted, "what is installed"
    assert {mode for it, mode in below.items() if os.path.isdir(f"{prefix}/{it}")} == {0o755}, "its folders' modes"
    assert bytes_of(f"{prefix}/bin/dnorm") == bytes_of(linked), "the program"
    if "busybox" not in what:
        by_cmake(f"{made.folder}/by cmake", prefix)
        parts(made, f"{prefix}/bin/canon-in-parts")
        compiles(made, f"{prefix}/share/dnorm/python")
    assert install(folder, "--uninstall", prefix, path=path) == said(), "bin/install --uninstall"
    assert all_below(prefix) == before, "what is left"
    shutil.rmtree(prefix)


def test_stages(scratch: Made) -> None:
    """Installing below DESTDIR and moving the result, a prefix that did not exist, and what bin/install refuses."""
    stage, prefix = f"{scratch.folder}/stage", f"{scratch.folder}/moved"
    os.mkdir(stage)
    found = install(scratch.one.folder, "/usr", below=stage)
    told = sorted(f"/usr/{it}" for it in all_listed())
    # It has no advice for the shell of whoever makes a package.
    assert (sorted(found.out.decode().splitlines()), found.err, found.status) == (told, b"", 0), "DESTDIR"
    shutil.copytree(f"{stage}/usr", prefix, symlinks=True)
    assert install(scratch.one.folder, "--uninstall", "/usr", below=stage) == said(), "--uninstall below DESTDIR"
    assert all_below(stage) == {}, "what is left below DESTDIR"
    assert install(scratch.one.folder, "--uninstall", prefix) == said(), "--uninstall of what was moved"
    assert not os.path.exists(prefix), "nothing is left"
    lost = f"install: there is no {prefix}/share/dnorm/installed.txt, so nothing is known to be installed there\n"
    assert install(scratch.one.folder, "--uninstall", prefix) == said("", lost, 1), "--uninstall of nothing"
    for words in [[""], ["-x"], ["a", "b"], ["--uninstall", "a", "b"], ["--uninstall", "-x"], ["a", "--uninstall"]]:
        assert install(scratch.one.folder, *words) == said(
            "", "install: it takes [--uninstall] [PREFIX]: --help says more\n", 2
        ), f"{words}"
