"""Tests the files for CI services: the steps of python/ci/github.yml run on a repository with texts, with the files of
a release that is made of the tested program and the package; and the hook in .pre-commit-hooks.yaml checks files as
pre-commit calls it."""

import html
import os
import re
import shutil
import tarfile
import textwrap
from typing import Any
from xml.etree import ElementTree

import pytest
from known import COSTS, ROADS
from needs import leave_out, need_here
from shared import ROOT, Answer, listed, make, run, said, text_of, write
from test_calls import READS
from test_folders import fields_of_hook, module

import dnorm
from dnorm.commands import look

pytestmark = READS
WORKFLOW = f"{ROOT}/python/ci/github.yml"
VERSION = "1.2.3"
# A step that runs commands, perhaps always, and a value of the job's environment.
STEP = re.compile(r"^( +if: always\(\)\n)? +run: \|\n((?: {10}.*\n)+)", re.M)
VALUE = re.compile(r"^ {6}(\w+): (\S+)$", re.M)


def make_release(tested: str, c_library: str) -> None:
    """Makes the files of a release in the folder `release`."""
    os.mkdir("release")
    name = f"dnorm-{VERSION}-x86_64-linux"
    with tarfile.open(f"release/{name}.tar.gz", "w:gz") as archive:
        archive.add(os.path.realpath(tested), f"{name}/bin/dnorm")
        archive.add(f"{ROOT}/bin/dnorm-files", f"{name}/bin/dnorm-files")
        link = tarfile.TarInfo(f"{name}/dnorm-files")
        link.type, link.linkname = tarfile.SYMTYPE, "bin/dnorm-files"
        archive.addfile(link)
        archive.add(f"{c_library}/lib/libdnorm.so.3", f"{name}/lib/libdnorm.so.3")
        for _, place, _ in listed():
            if place.startswith(("python/src/", "web/")):
                archive.add(f"{ROOT}/{place}", f"{name}/{place}")
    sums = run(["bash", "-c", "cd release && sha256sum dnorm-*"]).out
    write("release/SHA256SUMS", sums)


class Runner:
    """Runs the steps of the workflow as the service does, in the folder `texts`."""

    def __init__(self) -> None:
        text = text_of(WORKFLOW)
        self.steps = [(bool(always), textwrap.dedent(it)) for always, it in STEP.findall(text)]
        here = os.getcwd()
        self.environment = {it: value for it, value in os.environ.items() if it not in ("DNORM_LIBRARY", "PYTHONPATH")}
        self.environment |= dict(VALUE.findall(text))
        self.environment |= {"RELEASE": f"file://{here}/release", "VERSION": VERSION, "PYTHONDONTWRITEBYTECODE": "1"}
        self.environment |= {"RUNNER_TEMP": f"{here}/temp", "GITHUB_PATH": f"{here}/path", "GITHUB_ENV": f"{here}/env"}
        self.environment["GITHUB_STEP_SUMMARY"] = f"{here}/summary"

    def run(self) -> list[Answer]:
        """Returns what the steps print: those up to the first that fails, and those that run always."""
        shutil.rmtree("temp", ignore_errors=True)
        os.mkdir("temp")
        found: list[Answer] = []
        for name in ["path", "env"]:
            write(name, "")
        for always, step in self.steps:
            if any(it.status for it in found) and not always:
                continue
            added = dict(it.split("=", 1) for it in text_of("env").splitlines())
            path = ":".join([*text_of("path").splitlines(), os.environ["PATH"]])
            environment = {**self.environment, **added, "PATH": path}
            found.append(run(["bash", "-e", "-c", step], cwd="texts", env=environment))
        return found


def test_workflow(tested: str, c_library: str) -> None:
    """The steps of the workflow, and that it fetches the release of this version."""
    version = run([tested, "--version"]).out.decode().split()[1]
    # Between releases, it fetches the last one.
    if "-" not in version:
        assert dict(VALUE.findall(text_of(WORKFLOW)))["VERSION"] == version, "the release that it fetches"
    if not shutil.which("curl"):
        leave_out("curl")
    need_here("packaging/", "web/")
    make_release(tested, c_library)
    os.makedirs("texts/below")
    write("texts/below/roads.gr", ROADS)
    runner = Runner()
    assert len(runner.steps) == 3, "the steps"
    assert re.search(r"checkout@.*\n +with:\n +lfs: true\n +submodules: recursive\n", text_of(WORKFLOW)), "all of it"
    found = runner.run()
    wanted = Answer(b"", b"1 accepted, 0 refused, 0 failed\n", 0)
    assert (found[1], found[2].status, len(found)) == (wanted, 0, 3), "a repository of accepted texts"
    assert ">1 accepted, 0 refused, 0 failed; status 0<" in text_of("temp/dnorm.html"), "its page"
    write("texts/bad.gr", b"p sp 1 1\n")
    write("texts/a:b,c.ss", b"p aux sp ss 0\n")
    lines = b"::warning file=a%3Ab%2Cc.ss::./a:b,c.ss: accepted ss, no graph\n"
    lines += b"::error file=bad.gr,title=dnorm%3A 20 TooFewLines::./bad.gr:end: 20 TooFewLines%0AThere are fewer "
    lines += b"counted lines than declared.%0Adeclared 1, found 0: only a, s, q and v lines count\n"
    wanted = Answer(lines, b"2 accepted, 1 refused, 0 failed, 1 companion without a graph\n", 2)
    assert runner.run()[1] == wanted, "a repository with a refused text and a companion alone"
    assert ">2 accepted, 1 refused, 0 failed, " in text_of("temp/dnorm.html"), "its page"
    assert "\n2 accepted, 1 refused, 0 failed, " in text_of("summary"), "its summary"
    suite = ElementTree.parse("temp/dnorm.xml").find("testsuite")
    assert (suite is not None and suite.get("failures")) == "1", "its report"
    shutil.rmtree("texts")
    os.mkdir("texts")
    assert runner.run()[1].status == 4, "a repository without texts"
    write(f"release/dnorm-{VERSION}-x86_64-linux.tar.gz", b"other")
    found = runner.run()
    assert (len(found), found[0].status) == (2, 1), "a release with another checksum"


def test_summary(monkeypatch: pytest.MonkeyPatch) -> None:
    """The summary in Markdown has refused files, then failed ones, what has changed since a manifest, and groups, and
    not too many of them. No character of a name or a text has a meaning there."""
    name = "m/|a`<img src=x>[l](http:e)*_ww_~~&amp;@u #1!\\\x1b.gr"
    make(
        {
            "m/b.gr": ROADS,
            "m/c.gr.gz": b"\x1f\x8b",
            "m/d.gr": ROADS,
            "m/e.min": COSTS,
            name: b"p sp 2 1\na 1 2 </td>|\n",
        }
    )
    os.symlink("nowhere", "m/f.gr")
    write("list", "".join(f"{0:064}  m/{it}.gr\n" for it in "bx"))
    found = module("look", "--since", "list", "--markdown", "-", "m")
    told = found.out.decode()
    assert (told.isascii(), found.status) == (True, 4) and not re.search(r"[^\w\n |&#;:,-]|_", told), told
    head, _, counts, _, *rows = html.unescape(told).splitlines()
    assert (head, counts) == ("### dnorm: m", "3 accepted, 1 refused, 2 failed; status 4")
    hint = "a SRC=1 DST=2 LENGTH=</td>|"
    assert rows == [
        "| File | Line | Cause | Hint |", "| --- | --- | --- | --- |",
        f"| {name[:-4]}\\x1b.gr | 2 | 9 NotANumber | {hint}; Scale to whole numbers; remove a fraction that is 0 |",
        "| m/c.gr.gz |  | 31 Read (the compressed data end too early) | The file is cut or damaged: get it again |",
        "| m/f.gr |  | 31 Read (No such file or directory) |  |",
        "", "| Group | Files | Names |", "| --- | --- | --- |", "| changed | 1 | m/b.gr |",
        "| new | 2 | m/d.gr, m/e.min |", "| gone | 1 | m/x.gr |", "| one problem | 2 | m/b.gr, m/d.gr |",
    ]  # fmt: skip
    assert module("look", "--markdown", "m/b.gr", "m").status == 3, "no summary takes the place of a text"
    monkeypatch.setattr(look, "FILES", 1)
    monkeypatch.setattr(look, "LISTED", 2)
    found_now = dnorm.check_folder("m")
    *_, one, _, more, _, _, _, group = html.unescape(look.summary_of(found_now, "m", 4, None)).splitlines()
    assert (one[:12], more, group) == ("| m/c.gr.gz ", "And 1 more.", "| one problem | 2 | m/b.gr, .. |"), group
    files: Any = look.table_of(found_now, [], None)["files"]
    assert files["kind"].count(" ") == len(found_now.records) - 1, "the page has a kind for each file"
    need_here("web/")
    page = module("look", "m").out.decode()
    assert f"{html.escape(hint)}; Scale to" in page, "the page has the hint in one line, too"
    assert page.count("<details open>") == 3, "up to three causes are open"


def test_pre_commit() -> None:
    """The hook for pre-commit, and how it is called."""
    fields = fields_of_hook()
    wanted = {"id": "dnorm", "language": "script", "require_serial": "true"}
    assert {it: fields.get(it) for it in wanted} == wanted, "the hook"
    assert [fields["types"], fields["types_or"]] == ["[]", "[file, symlink]"], "its types"
    script = f"{ROOT}/{fields['entry']}"
    environment = {it: value for it, value in os.environ.items() if it != "PYTHONPATH"}
    environment["PYTHONDONTWRITEBYTECODE"] = "1"
    write("a.gr", ROADS)
    write("-b.gr", b"x\n")
    write("a.max", ROADS)
    other = "its ending is that of max"
    rows: list[tuple[list[str], str, str, int]] = [
        (["a.gr"], "", "1 accepted, 0 refused, 0 failed", 0),
        (["a.gr", "-b.gr"], "-b.gr:1: 1 BadLine\n", "1 accepted, 1 refused, 0 failed", 2),
        (["a.max"], f"a.max: accepted sp, {other}\n",
         "1 accepted, 0 refused, 0 failed, 1 file of another kind than its ending", 0),
        (["--strict", "a.max"], f"a.max: 31 Read (accepted sp, {other})\n", "0 accepted, 0 refused, 1 failed", 4),
    ]  # fmt: skip
    for words, out, count, status in rows:
        assert run([script, *words], env=environment) == said(out, f"{count}\n", status), words
    os.makedirs("copy/python/ci")
    shutil.copy(script, "copy/python/ci")
    os.mkdir("copy/bin")
    write("copy/bin/dnorm-files", '#!/bin/sh\necho "$@"\n', 0o755)
    assert b" --timeout 60 " in run(["sh", "copy/python/ci/check-files", "a.gr"]).out, "its limit"
