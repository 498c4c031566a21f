"""The pages of `dnorm-files look` in Chromium and Firefox, as files: pictures, filter, sort and keys; names that look
like HTML; 100,000 files; and what they say without a script."""

import hashlib
import json
import html.parser
import os
import re
import time
from collections.abc import Iterator
from typing import Any

import pytest
from browsers import Chromium, Firefox, browsing
from known import COSTS, ROADS
from shared import ROOT, make, run, said, text_of, write
from test_page import NAMELESS

from dnorm.commands.look import page_of_folder
from dnorm.errors import Refused
from dnorm.folders import Collection
from dnorm.records import Record

pytestmark = [pytest.mark.slow, pytest.mark.browser, pytest.mark.xdist_group("page"), pytest.mark.usefixtures("reader")]
MOST = 2**63 - 1
WIDE = "p min 3 2\nn 1 4\nn 2 -4\na 1 2 0 {0} {1}\na 2 3 0 4 1\n"
ROWS = "return [...document.querySelectorAll('#files tbody tr')].map((it) => it.children[arguments[0]].textContent)"
TOLD = "return document.getElementById('told').textContent"
FILTER = """const it = document.getElementById('filter');
it.value = arguments[0];
it.dispatchEvent(new Event('input'));"""
SORTED = """const it = document.querySelector('[aria-sort]');
return it ? it.textContent + it.getAttribute('aria-sort') : ''"""
SORT = """const began = performance.now();
[...document.querySelectorAll('th button')].find((it) => it.textContent === arguments[0]).click();
return performance.now() - began;"""
# Names that a page must not take for HTML, or for a part of its own.
NAMES = ["<script>document.title='x'<", "<img src=x onerror=alert(1)>.gr", "@DATA@ @LOOK@.gr", "a\nb.gr", "\u2028é.gr"]
NAMES += [os.fsdecode(b"\xff\xfe.gr"), "\x1b[31m.gr", "&amp;\"'.gr", "x" * 240 + ".gr"]
NAMES[0] += "/script>.gr"


class Shown(html.parser.HTMLParser):
    """The text of a page without a script."""

    def __init__(self, page: str) -> None:
        super().__init__()
        self.text, self.tags, self.within = "", list[str](), ""
        self.feed(page)

    def handle_starttag(self, tag: str, attrs: object) -> None:
        self.within = tag
        self.tags.append(tag)

    def handle_data(self, data: str) -> None:
        self.text += "" if self.within in ("script", "style") else data


def looked(*words: str | bytes, status: int = 0) -> str:
    """Returns the page that `dnorm-files look` prints, and writes it into page.html."""
    ran = run([f"{ROOT}/bin/dnorm-files", "look", *words])
    assert ran.status == status, ran.err
    write("page.html", ran.out)
    return ran.out.decode("ascii")


@pytest.fixture(scope="module", name="browser", params=[Chromium, Firefox])
def opened(request: pytest.FixtureRequest, tmp_path_factory: pytest.TempPathFactory) -> Iterator[Any]:
    name = f"look-{request.param.__name__}"
    with browsing(request.param, str(tmp_path_factory.mktemp("browser")), name) as browser:
        yield browser


def go(browser: Any) -> None:
    browser.go(f"file://{os.path.abspath('page.html')}")


def press(browser: Any, head: str, key: str) -> None:
    """Goes on by keys to the head of this name, and presses a key there that sorts by it."""
    before = browser.js(SORTED)
    for _ in range(12):
        browser.press("TAB")
        if browser.js("return document.activeElement.textContent") == head:
            break
    browser.press(key)
    most = time.monotonic() + 30
    while browser.js(SORTED) == before and time.monotonic() < most:
        time.sleep(0.05)
    assert browser.js("return document.activeElement.textContent") == head


def test_pair(browser: Any) -> None:
    """Two files that differ: the sentence, the pictures and the table, with exact numbers of 128 bits."""
    write("a.min", WIDE.format(MOST, MOST))
    write("b.min", WIDE.format(MOST, -MOST).replace("n 1 4\nn 2 -4", "n 1 -4\nn 2 4"))
    write("c.min", WIDE.format(MOST, -MOST))
    for right, sentence in [("c.min", "The least costs of 1 units from 1 to 2 differ."), ("b.min", "flow of node 1")]:
        page = looked("a.min", right, status=1)
        assert sentence in Shown(page).text
        go(browser)
        said_ = browser.js("return [...document.querySelectorAll('svg')].map((it) => it.getAttribute('aria-label'))")
        counts = f"1 in both, 0 only a.min, 0 only {right}, 1 different."
        assert said_[-1] == f"Pairs with arcs around the pair from 1 to 2: {counts}"
        assert len(said_) == (3 if right == "c.min" else 1)
        assert browser.js(NAMELESS) == []
        text = browser.js("return document.body.textContent").replace("\u202f", "")
        assert right == "b.min" or all(str(it) in text for it in (MOST * MOST, -MOST * MOST))
    assert "Of these, with the other sign: 2, as node 1" in Shown(page).text
    write("d.min", "p min 3 1\na 2 1 0 4 1\n")
    write("e.min", "p min 3 1\na 1 2 0 4 1\n")
    assert "Reversed pairs: 1, as from 2 to 1" in Shown(looked("d.min", "e.min", status=1)).text
    write("f.gr", ROADS)
    assert "Both files pose the same problem." in Shown(looked("f.gr", "f.gr")).text
    assert "They are of two kinds." in Shown(looked("f.gr", "e.min", status=1)).text


def test_folder(browser: Any) -> None:
    """A folder of odd names and of texts with long lines: escaped, counted, filtered and sorted, by keys as well."""
    texts = {it: b"p sp %d 1\na 1 1 %d\n" % (9 - at % 4, at) for at, it in enumerate(NAMES)}
    texts |= {"line.min": b"p min 2 1\n" + b"<b>" * 44_000 + b"\n", "flow.min": COSTS}
    texts |= {"lone.ss": b"p aux sp ss 0\n", "<b>bad.gr": b"p sp 1 1\n"}
    make({f"set/{name}": text for name, text in texts.items()})
    page = looked("set", status=2)
    without = Shown(page)
    assert without.tags.count("script") == 3 and "img" not in without.tags
    wanted = ["11 accepted, 2 refused, 0 failed", "1 BadLine: 1", "set/line.min:2", "<b><b>", "20 TooFewLines: 1"]
    for it in [*wanted, "set/<b>bad.gr", "no graph: 1", "sp 9"]:
        assert it in without.text, it
    assert '<p class="bad verdict">' in page
    go(browser)
    assert browser.js("return document.title") == "Collection set"
    assert browser.js(NAMELESS) == []
    names = browser.js(ROWS, 0)
    assert len(names) == len(NAMES) + 4 and {"set/a\\x0ab.gr", "set/@DATA@ @LOOK@.gr", "set/\\xff\\xfe.gr"} < {*names}
    browser.js(FILTER, "badline")
    assert (browser.js(ROWS, 0), browser.js(TOLD)) == (["set/line.min"], "1 of 13 files")
    browser.js(FILTER, "")
    browser.js("document.getElementById('filter').focus()")
    # What is not accepted comes first.
    kinds = browser.js(ROWS, 1)
    assert kinds[:2] == ["refused", "refused"] and "refused" not in kinds[2:]
    assert sorted(browser.js(ROWS, 3))[-2:] == ["", "2"]
    press(browser, "Name", "ENTER")
    assert browser.js(ROWS, 0) == sorted(names)
    browser.js(SORT, "Name")
    assert browser.js(ROWS, 0) == sorted(names, reverse=True)
    press(browser, "Nodes", "SPACE")
    nodes = browser.js(ROWS, 5)
    assert nodes == sorted(nodes, key=lambda it: int(it or -1)), nodes
    assert browser.js("return document.querySelectorAll('[aria-sort=ascending]').length") == 1


def test_cut() -> None:
    """Of two files with 6,000 costs that differ in the last one, the page has the corners around the amount."""
    for name, last in [("a.min", 9000), ("b.min", 9001)]:
        arcs = "".join(f"a 1 2 0 1 {at}\n" for at in range(5999))
        write(name, f"p min 2 6000\n{arcs}a 1 2 0 1 {last}\n")
    cost = json.loads(re.findall(r'id="data">(.*?)</script>', looked("a.min", "b.min", status=1))[0])["cost"]
    assert (cost["amount"], cost["cuts"], cost["cut"]) == ("6000", [[True, False]] * 2, 5000)
    assert [curve[-1][0] for curve in cost["curves"]] == ["6000"] * 2
    assert int(cost["curves"][1][-1][1]) - int(cost["curves"][0][-1][1]) == 1


def test_made_of(monkeypatch: pytest.MonkeyPatch) -> None:
    """When and of what a page was made. Companions that are equal are no group."""
    monkeypatch.setenv("SOURCE_DATE_EPOCH", "86400")
    make({"set/a.ss": b"p aux sp ss 0\n", "set/b.ss": b"p aux sp ss 0\n", "set/a.gr": ROADS, "set/b.gr": ROADS})
    for words in ["init -q", "-c user.name=A -c user.email=a@b.c commit -q --allow-empty -m x"]:
        assert run(["git", "-C", "set", *words.split()]).status == 0
    text = Shown(looked("set")).text
    assert re.search(
        rf"1970-01-02, dnorm [\d.]+, {re.escape(os.path.abspath('set'))}, commit [0-9a-f]{{7,}}", text
    ), text
    assert "Groups of files of one problem: 1" in text


def test_longest_path() -> None:
    """A file whose path has 4,095 bytes, the most that the system takes, and a folder beyond."""
    here = os.getcwd()
    os.mkdir("set")
    os.chdir("set")
    for _ in range(16):
        os.mkdir("d" * 239)
        os.chdir("d" * 239)
    name = "x" * (4095 - len("set/" + 16 * ("d" * 239 + "/")) - 3) + ".gr"
    write(name, b"p sp 7 0\n")
    os.mkdir("e" * 255)
    os.chdir(here)
    page = looked("set", status=4)
    assert "1 accepted, 0 refused, 1 failed" in Shown(page).text and "31 Read (File name too long)" in page
    assert f"{'d' * 239}/{name}" in page


def test_since() -> None:
    """What has changed since a manifest, and collections without files."""
    make({f"set/{it}.gr": b"p sp %d 0\n" % at for at, it in enumerate("abcde")})
    assert run([f"{ROOT}/bin/dnorm-files", "manifest", "--output", "old", "set"]).status == 0
    os.rename("set/a.gr", "set/moved.gr")
    os.remove("set/b.gr")
    make({"set/c.gr": b"p sp 77 0\n", "set/new.gr": b"p sp 78 0\n", "set/e.gr": b"p sp 4 1\n"})
    text = Shown(looked("set", "--since", "old", status=2)).text
    assert "not accepted now: 1set/e.gr" in text and "gone: 1set/b.gr" in text, text
    make({"set/e.gr": b"p sp 4 0\n"})
    page = looked("set", "--since", "old")
    text = Shown(page).text
    assert "not accepted now" not in text
    told = ["the same 2", "changed: 1", "set/c.gr", "renamed: 1", "set/a.gr is now set/moved.gr", "new: 1", "gone: 1"]
    for it in told:
        assert it in text, it
    assert '<p class="good verdict">' in page
    os.makedirs("none")
    for words in [["none"], ["missing.gr"], ["set", "--exclude", "*"]]:
        page = looked(*words, status=4)
        assert '<p class="bad verdict">0 accepted, 0 refused, 1 failed' in page and "good verdict" not in page, words
    assert run([f"{ROOT}/bin/dnorm-files", "look", "set", "old"]).status == 4


def many(count: int) -> Collection:
    """Returns a collection of so many files, of which each hundredth is refused."""
    records = []
    for at in range(count):
        name = f"collection/part{at % 97:02}/network{at:06}.gr"
        sum_ = hashlib.sha256(b"%d" % at).hexdigest()
        size = at * 7919 % 999_983
        if at % 100 == 7:
            error = Refused(name, 3, 9, "NotANumber", None, "a 1 2 x", "Scale to whole numbers; remove a fraction")
            records.append(Record(name, error=error))
        else:
            records.append(Record(name, "sp", (), None, 20 * size, size // 4 + 1, size, size, 0, 3, sum_))
    return Collection(tuple(records), {}, 0, 1)


def test_many(browser: Any) -> None:
    """100,000 files: the size of the page, and the times of a filter and of a sort."""
    found = many(100_000)
    page = page_of_folder(found, "collection", 2, None)
    room = len(page) - sum(len(it.name) for it in found.records)
    assert room < 40_000 + 100 * len(found.records), f"{room / len(found.records)} bytes a file"
    write("page.html", page)
    began = time.monotonic()
    go(browser)
    assert len(browser.js(ROWS, 0)) == 300 and time.monotonic() - began < 60
    assert browser.js(SORT, "Bytes") < 20_000
    assert browser.js(ROWS, 4)[:2] == ["", ""]
    browser.js(SORT, "Bytes")
    sizes = [int(it) for it in browser.js(ROWS, 4)]
    assert sizes == sorted((it.bytes or 0 for it in found.records), reverse=True)[:300]
    browser.js(FILTER, "part07/network0000")
    assert re.fullmatch(r"\d+ of 100\u202f000 files", browser.js(TOLD)), browser.js(TOLD)
    browser.js(FILTER, "")
    browser.js("document.getElementById('more').click()")
    assert len(browser.js(ROWS, 0)) == 600


def test_one_picture() -> None:
    """The page has web/look.js as it is."""
    write("a.min", COSTS)
    write("b.min", "p min 2 0\n")
    assert text_of(f"{ROOT}/web/look.js") in looked("a.min", "b.min", status=1)
    missing = said("", "none: 31 Read (No such file or directory)\n", 4)
    assert run([f"{ROOT}/bin/dnorm-files", "look", "a.min", "none"]) == missing
