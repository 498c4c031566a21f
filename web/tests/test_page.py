"""The page released/dnorm.html in Chromium and Firefox, as a file: what it says of one file, of two and of faults, by
mouse and by keys; that it connects to nothing; and that its controls have names."""

import gzip
import hashlib
import os
import random
import time
from collections.abc import Iterator
from typing import Any

import pytest
from browsers import Chromium, Firefox, browsing
from known import COSTS, ROADS
from needs import pass_over
from shared import ROOT, Quick, bytes_of, run, write
from test_web import KINDS
from texts import lines_of, made, spelled, spoilt

pytestmark = [pytest.mark.slow, pytest.mark.browser, pytest.mark.xdist_group("page")]
PAGES = [f"{ROOT}/{it}/dnorm.html" for it in ("web", "build", "released")]
IS_DONE = "return element('working').hidden && element('answers').children.length > 0"
GIVE = "start(arguments[0].map(([name, text]) => new File([text], name)))"
DROP = """const given = new DataTransfer();
for (const [name, text] of arguments[0]) given.items.add(new File([text], name));
document.dispatchEvent(new DragEvent('drop', { dataTransfer: given, bubbles: true, cancelable: true }));"""
# Tries to reach another machine from the page, or from a worker.
LEAK = "fetch('http://127.0.0.1:9/').then(() => 'it went out', () => 'refused')"
FROM_PAGE = f"{LEAK}.then((it) => {{ document.body.dataset.leak = it; }});"
FROM_WORKER = f"""const text = "{LEAK}.then((it) => postMessage(it))";
const worker = new Worker(URL.createObjectURL(new Blob([text])));
worker.onmessage = (event) => {{ document.body.dataset.leak = event.data; }};"""
# The names of buttons that are there more than once, and controls whose name lacks what is seen.
NAMED_TWICE = """const names = [...document.querySelectorAll('button, a, input')]
  .map((it) => it.getAttribute('aria-label') ?? (it.labels?.[0] ?? it).textContent);
const unlike = [...document.querySelectorAll('button[aria-label], a[aria-label]')].filter((it) =>
  !it.getAttribute('aria-label').startsWith(it.textContent)).map((it) => it.outerHTML);
return [...names.filter((it, i) => names.indexOf(it) !== i && it !== 'What is this?'), ...unlike]"""
NAMELESS = """return [...document.querySelectorAll('button, a, input, svg, progress, textarea')].filter((it) =>
  !((it.labels?.[0] ?? it).textContent.trim() || it.getAttribute('aria-label') || it.getAttribute('aria-labelledby')))
  .map((it) => it.outerHTML)"""
CLICK = "[...document.querySelectorAll('button, a')].find((it) => it.textContent.startsWith(arguments[0])).click()"
# Asks for the canonical texts of two files.
CLICKS = """const [first, second] = document.querySelectorAll('button.ask');
first.click();
const isThere = () => document.querySelectorAll('.canon')[1].children.length > 0;
const clicking = setInterval(() => { second.click(); if (isThere()) clearInterval(clicking); }, 2);"""
FAR, MOST = 2**62, 2**63 - 1
SP, MAX = ("a.gr", "p sp 2 3\na 1 2 7\na 2 1 4\na 1 2 3\n"), "p max 2 %d\nn 1 s\nn 2 t\n"
MIN = "p min 2 3\na 1 2 1 {} -{}\na 1 2 0 5 3\na 1 2 5 {} {}\n"
# Files by their names, and what the page says of them.
SHOWN: list[tuple[list[tuple[str, str]], list[str]]] = [
    ([SP], ["a.gr is accepted", "Kind: sp", "Arc lines: 3", "Canonical arcs: 2"]),
    ([SP, ("b.gr", "p sp 2 2\na 2 1 4\na 1 2 3\n")], ["Both files pose the same problem"]),
    (
        [("a.gr", "p sp 2 2\na 1 2 7\na 2 1 4\n"), ("b.gr", "p sp 2 2\na 2 1 5\na 1 2 7\n")],
        ["The files differ", "The arcs from 2 to 1 differ first: in their least length.", "a.gr: 4", "b.gr: 5"],
    ),
    ([("a.max", MAX % 1 + "a 1 2 7\n"), ("b.max", MAX % 0)], ["in their total capacity", "a.max: 7", "b.max: 0"]),
    ([("a.max", MAX % 0), ("b.gr", "p sp 2 0\n")], ["They are of two kinds.", "a.max: max", "b.gr: sp"]),
    ([("a.min", "p min 2 1\nn 1 0\na 1 2 0 1 1\n"), ("b.min", "p min 2 1\nn 1 5\na 1 2 0 1 1\n")], ["flow of node 1"]),
    ([("a.ss", "p aux sp ss 1\ns 1\n"), ("b.ss", "p aux sp ss 1\ns 2\n")], ["They differ in item 1."]),
    ([("a.co", "p aux sp co 1\nv 7 0 0\n"), ("b.co", "p aux sp co 1\nv 7 0 1\n")], ["the point of node 7"]),
    ([("a.gr", "p sp 3 1\na 1 2 7\n"), ("b.ss", "p aux sp ss 1\ns 3\n")], ["The companion fits the graph"]),
    ([("a.gr", "p sp 3 1\na 1 2 7\n"), ("b.ss", "p aux sp ss 1\ns 4\n")], ["does not fit", "It names node 4"]),
    (
        [("a.gr", "p sp 3 1\na 1 2 7\n"), ("b.gr", "p sp 3 1\n")],
        ["b.gr has a fault at its end", "(20 TooFewLines)", "declared 1, found 0", "Problem line: p sp 3 1"],
    ),
    (
        [("a.gr", "p sp 3 1\n\ta 1\r 2 x\x00<b>é\n")],
        ["a.gr has a fault at line 2", "\u2192a 1\u21b5 2 x\\u{0}<b>é", "LENGTH=x^@<b>M-CM-)"],
    ),
    ([("a.gr", "p sp 3 1\r\na 1 2 9\r\n")], ["a.gr is accepted"]),
    ([("<img src=x onerror=alert(1)>.gr", "p sp 1 0\n")], ["<img src=x onerror=alert(1)>.gr is accepted"]),
    ([("empty", "")], ["(18 NoProblem)"]),
    ([("a", "p sp 1 0\n"), ("b", "p sp 1 0\n"), ("c", "p sp 1 0\n")], ["Drop one file, or two"]),
    (
        [("a.min", MIN.format(FAR, FAR, FAR // 2, 9)), ("b.min", MIN.format(FAR, FAR, FAR // 2, 8))],
        ["at amount 6", f"a.min: {45 - FAR}", f"b.min: {40 - FAR}", "Least costs by amount of the arcs from 1 to 2"],
    ),
    (
        [("a.min", f"p min 1 1\na 1 1 {MOST} {MOST} {MOST}\n"), ("b.min", f"p min 1 1\na 1 1 {MOST} {MOST} -{MOST}\n")],
        [f"a.min: {MOST * MOST}", f"b.min: {-MOST * MOST}"],
    ),
    (
        [("a.min", "p min 2 1\na 1 2 4 4 7\n"), ("b.min", "p min 2 0\n")],
        ["at amount 0", "a.min: it is infeasible", "b.min: 0"],
    ),
    ([("same.gr", "p sp 1 0\n"), ("same.gr", "p sp 2 0\n")], ["same.gr (first): 1", "same.gr (second): 2"]),
    ([("b.co", "p aux sp co 1\nv 3 0 0\n"), ("b.gr", "p sp 3 1\na 1 2 7\n")], ["The companion fits the graph"]),
    ([("b.co", "p aux sp co 1\nv 4 0 0\n"), ("b.gr", "p sp 3 1\na 1 2 7\n")], ["does not fit", "It names node 4"]),
    ([("a.gr", "\ufeffp sp 3 1\n")], ["a.gr has a fault at line 1", "\\u{feff}p sp 3 1"]),
    ([("a.gr", "p\u00a0sp\u202e3 1\u200b\n")], ["p\\u{a0}sp\\u{202e}3 1\\u{200b}"]),
    ([("bad.gr.gz", "no gzip")], ["bad.gr.gz has a fault at line 1"]),
    ([("bad.gr", "\x1f\u008b")], ["(1 BadLine)"]),
]


class Page:
    """The page in a browser."""

    def __init__(self, browser: Any) -> None:
        self.browser, self.url = browser, f"file://{next((it for it in PAGES if os.path.exists(it)), '')}"

    def until(self, script: str) -> None:
        most = time.monotonic() + 120
        while not self.browser.js(script):
            assert time.monotonic() < most, f"never: {script}"
            time.sleep(0.05)

    def answer(self) -> str:
        """Waits for the answer, and returns it as text."""
        self.until(IS_DONE)
        return str(self.browser.js("return asText()"))

    def give(self, files: list[tuple[str, str]], script: str = GIVE) -> str:
        self.browser.js(script, [[*it] for it in files])
        return self.answer()

    def click(self, label: str) -> None:
        self.browser.js(CLICK, label)


@pytest.fixture(scope="module", name="page", params=[Chromium, Firefox])
def opened_page(request: pytest.FixtureRequest, tmp_path_factory: pytest.TempPathFactory) -> Iterator[Page]:
    if not any(os.path.exists(it) for it in PAGES):
        pass_over("the page (make wasm makes it)")
    with browsing(request.param, str(tmp_path_factory.mktemp("browser")), request.param.__name__) as browser:
        page = Page(browser)
        browser.go(page.url)
        yield page


@pytest.mark.parametrize("files, wanted", SHOWN, ids=lambda it: it[0][0] if isinstance(it[0], tuple) else "")
def test_shows(page: Page, files: list[tuple[str, str]], wanted: list[str]) -> None:
    found = page.give(files)
    for it in wanted:
        assert it in found, found


def test_dropped(page: Page) -> None:
    """Two files take the places of two others; and one that of a file that is being read, while the other waits."""
    files = [("a.gr", ROADS.decode()), ("b.gr", ROADS.decode())]
    for _ in range(2):
        assert "Both files pose the same problem\na.gr and b.gr\n" in page.give(files, DROP)
    for at, names in enumerate(["c.gr and b.gr", "a.gr and c.gr"]):
        script = f"{GIVE}; fill([new File([arguments[0][0][1]], 'c.gr')], {at})"
        assert f"Both files pose the same problem\n{names}\n" in page.give(files, script)


def test_keys(page: Page) -> None:
    """By keys alone: the first controls are the choices of both files, and then come the examples, since nothing else
    can be pressed. The heading of an answer has the focus."""
    wanted = ["roads.gr is accepted", "towns.gr has a fault at line 3", "The files differ"]
    for i, key in enumerate(["ENTER", "SPACE", "ENTER"]):
        page.browser.go(page.url)
        for name in ["choose", "second"]:
            page.browser.press("TAB")
            assert page.browser.js("return document.activeElement.id") == name
        page.browser.press(*["TAB"] * (i + 1), key)
        assert page.answer().startswith(wanted[i])
        assert page.browser.js("return document.activeElement.textContent") == wanted[i]
        assert page.browser.js("return element('told').textContent").startswith(wanted[i])
    found = page.answer()
    assert "The arcs from 1 to 2 differ first, at amount 8." in found and "before.min is accepted" in found
    assert "The program prints: differ pair 1 2 amount 8 cost 16 18" in found
    assert "Command: dnorm compare before.min after.min" in found
    assert page.browser.js("return document.querySelectorAll('svg').length") == 3


def test_canonical_text(page: Page, tested: str, folder: str) -> None:
    """The checksum of the canonical text, also of a packed file that the page reads itself."""
    write("costs.min", COSTS)
    write("costs.min.gz", gzip.compress(COSTS))
    # Two members one behind another, of which the second has what a member may begin with.
    members = [COSTS[:9], COSTS[9:] + b"c " + bytes([31, 139, 8, 0]) + b"\n"]
    write("joined.min", b"".join(gzip.compress(it, 0) for it in members))
    for name in ["costs.min", "costs.min.gz", "joined.min"]:
        page.browser.go(page.url)
        page.browser.choose(f"{folder}/{name}")
        assert f"{name} is accepted" in page.answer()
        for form in [1, 2]:
            page.click(f"Canonical text, form {form}")
            wanted = run([tested, "canon", f"--form={form}", "costs.min"]).out
            page.until(f"return asText().includes('SHA-256: {hashlib.sha256(wanted).hexdigest()}')")
            assert f"Size: {len(wanted)} bytes" in page.answer()


def test_two_texts(page: Page, tested: str, folder: str) -> None:
    """The canonical texts of two files: the second one is asked for again and again while the first one comes."""
    arcs = [
        (f"{it}.gr", "p sp 900000 300000\n" + "".join(f"a {i} 1 {it}\n" for i in range(1, 300_001))) for it in (7, 8)
    ]
    assert "The files differ" in page.give(arcs)
    page.browser.js(CLICKS)
    for it in range(2):
        write("given", arcs[it][1])
        wanted = hashlib.sha256(run([tested, "canon", "given"]).out).hexdigest()
        page.until(f"return document.querySelectorAll('.canon')[{it}].textContent.includes('{wanted}')")


# How many random pairs a seed has.
PAIRS = 50
# Asks for a canonical text; and the checksum of the text that was asked for.
ASK = "[...document.querySelectorAll('#answers .ask')][arguments[0]]"
SUM = f"return {ASK}.closest('section').querySelector('.canon code').textContent"


def said_of(program: Quick, names: list[str]) -> list[str]:
    """Returns what the page is to say of two files."""
    checks = {it: program.run("check", it) for it in names}
    kinds = {name: it.out.decode().split()[1] for name, it in checks.items() if not it.status}
    told = []
    if len(kinds) == 2:
        graphs = [it for it in names if kinds[it] in ("min", "max", "sp")]
        [other] = {*names} - {*graphs} if len(graphs) == 1 else [""]
        fits = program.run("check", graphs[0], "--with", other) if other and kinds[graphs[0]] == "sp" else None
        line = (fits.err or fits.out.splitlines()[1]) if fits else program.run("compare", *names).out
        told.append(line.decode().strip())
    told += [it.err.decode().strip() for it in checks.values() if it.status]
    forms = [(name, form) for name in kinds for form in ("12" if kinds[name] == "min" else "1")]
    return told + [hashlib.sha256(program.run("canon", f"--form={form}", it).out).hexdigest() for it, form in forms]


@pytest.mark.parametrize("seed", range(2))
def test_random_pairs(page: Page, often: Quick, folder: str, seed: int) -> None:
    """What the page says of random files, correct and faulty, and their canonical texts, are the program's."""
    chance = random.Random(seed)
    page.browser.go(page.url)
    for i in range(PAIRS):
        kinds = [KINDS[i % 6], KINDS[i % 6] if i % 4 else chance.choice(KINDS)]
        texts = [lines_of(chance, made(chance, it, i % 3 == 0)) for it in kinds]
        # One of some pairs is the other with another number.
        if i % 5 < 2 and kinds[0] == kinds[1]:
            texts[1] = [[*it] for it in texts[0]]
            texts[1][-1][-1] = str(chance.randrange(4))
        given = [spelled(chance, spoilt(chance, it) if chance.random() < 0.15 else it) for it in texts]
        for name, text in zip("ab", given):
            write(name, text)
        page.browser.choose(f"{folder}/a", f"{folder}/b")
        begin = "The program prints: "
        said = [it.removeprefix(begin) for it in page.answer().splitlines() if it.startswith(begin)]
        for at in range(page.browser.js("return document.querySelectorAll('#answers .ask').length")):
            page.browser.js(f"{ASK}.click()", at)
            page.answer()
            said.append(page.browser.js(SUM, at))
        assert said == said_of(often, ["a", "b"]), given


def test_many_costs(page: Page) -> None:
    """A pair with more arcs than are drawn, which differs in the last one: the picture has the difference."""
    arcs = "".join(f"a 1 2 0 1 {it}\n" for it in range(6000))
    found = page.give([(f"{it}.min", f"p min 2 6001\n{arcs}a 1 2 0 1 {it}\n") for it in (7000, 8000)])
    assert "at amount 6001" in found and "only 500 corners on each side of the difference are drawn" in found
    # Each curve has a ring at the difference, and the second picture one where it is not 0; both go on at the left.
    assert page.browser.js("return document.querySelectorAll('circle[r=\"7\"]').length") == 3
    assert page.browser.js("return document.querySelectorAll('svg')[1].textContent.includes('1\u202f000')")
    assert page.browser.js("return document.querySelectorAll('.more').length") == 6


# Drops a text that is no file.
DROP_TEXT = """const given = new DataTransfer();
given.setData('text/plain', arguments[0]);
document.dispatchEvent(new DragEvent('drop', { dataTransfer: given, bubbles: true, cancelable: true }));"""
ASKING = "[...document.querySelectorAll('#answers .ask')]"
# Presses all buttons of answers, also behind Cancel, and returns after each step whether nothing is at work, and
# whether no button of an answer can be pressed.
PRESS = f"""const asking = {ASKING};
const press = () => asking.forEach((it) => it.click());
const told = () => [element('working').hidden, asking.every((it) => it.disabled || !it.isConnected)];
const steps = [press, press, () => element('cancel').click(), press];
return steps.map((it) => {{ it(); return told(); }});"""


def test_dropped_text(page: Page) -> None:
    """What is dropped without a file takes nothing away."""
    page.give([("a.gr", "p sp 1 0\n")])
    page.browser.js(DROP_TEXT, "a word")
    assert "a.gr is accepted" in page.answer()


def test_states(page: Page, folder: str) -> None:
    """Every button of an answer is pressed while a file is read, while a text is written, and behind Cancel: none
    begins what cannot end."""
    lines = b"".join(b"a %d %d 1234567\n" % (1 + i * 7919 % 999983, 1 + i % 999) for i in range(100_000))
    write("large.gr", b"p sp 1000000 4000000\n" + lines * 40)
    write("small.gr", ROADS)
    for names in [["small", "large"], ["large"]]:
        page.browser.go(page.url)
        page.browser.choose(*[f"{folder}/{it}.gr" for it in names])
        is_reading = len(names) == 2
        page.until(f"return {ASKING}.length && element('working').hidden !== {str(is_reading).lower()}")
        found = page.browser.js(PRESS)
        assert found == [[False, True], [False, True], [True, True], [True, True]], names
        assert page.answer().startswith("Cancelled\n")
        assert "b.gr is accepted" in page.give([("b.gr", "p sp 1 0\n")])
    os.remove("large.gr")


def test_large(page: Page, folder: str) -> None:
    """A file of 100 MB: its progress, an end by key and by button, and its answer. Then the next file is read."""
    lines = b"".join(b"a %d %d 1234567\n" % (1 + i * 7919 % 999983, 1 + i % 999) for i in range(100_000))
    count = 100 * 10**6 // len(lines) + 1
    write("large.gr", b"p sp 1000000 %d\n" % (count * 100_000) + lines * count)
    for end in ["ESCAPE", "cancel", ""]:
        page.browser.choose(f"{folder}/large.gr")
        page.until("return 0 < element('bar').value && element('bar').value < 1")
        assert "arcs declared" in page.browser.js("return element('done').textContent")
        if end == "ESCAPE":
            page.browser.press(end)
        elif end:
            page.browser.js(f"element('{end}').click()")
        assert ("Cancelled" if end else "large.gr is accepted") in page.answer()
    assert "is accepted" in page.give([("a.gr", "p sp 1 0\n")])
    os.remove("large.gr")


def test_first_answer(page: Page) -> None:
    """An example has its answer soon after the page."""
    took = []
    for _ in range(3):
        page.browser.go(page.url)
        began = time.monotonic()
        page.click("Two files that differ")
        page.answer()
        took.append(time.monotonic() - began)
    assert min(took) < 1, f"seconds: {took}"


def test_alone(page: Page) -> None:
    """Neither the page nor a worker can reach another machine, and the page names none."""
    for script in [FROM_PAGE, FROM_WORKER]:
        page.browser.js(f"delete document.body.dataset.leak; {script}")
        page.until("return document.body.dataset.leak")
        assert page.browser.js("return document.body.dataset.leak") == "refused"
    if isinstance(page.browser, Chromium):
        told = page.browser.complaints()
        assert told and all("Content Security Policy" in it or "127.0.0.1:9" in it for it in told), told
    text = bytes_of(page.url.removeprefix("file://"))
    assert text.count(b"http") == sum(map(text.count, [b"http://www.w3.org/2000/svg", b"http-equiv", b"by http"]))


def test_readable(page: Page) -> None:
    """Every control has a name, what is said is announced, and a narrow page does not scroll sideways."""
    page.give([("a.min", COSTS.decode()), ("b.min", "p min 2 0\n")])
    assert page.browser.js(NAMELESS) == []
    assert page.browser.js(NAMED_TWICE) == []
    # What is announced is one sentence, and no control.
    assert page.browser.js(
        "return [...document.querySelectorAll('[role=status], [aria-live]')].map((it) => it.id)"
    ) == ["told"]
    assert page.browser.js("return element('told').children.length") == 0
    page.browser.js("document.body.style.width = '320px'")
    assert page.browser.js("return document.body.scrollWidth <= 320")
    page.browser.js("document.body.style.width = ''")
    page.browser.js("element('told').textContent = ''")
    page.click("Copy all as text")
    page.until("return element('told').textContent !== ''")
    assert page.browser.js("return element('text').value === asText()")
    assert page.browser.js("return element('text').value.startsWith('The files differ')")


# Pastes a text, or files by their names.
PASTE = """const given = new DataTransfer();
if (typeof arguments[0] === 'string') given.setData('text/plain', arguments[0]);
else for (const [name, text] of arguments[0]) given.items.add(new File([text], name));
const event = new ClipboardEvent('paste', { clipboardData: given, bubbles: true, cancelable: true });
if (!event.clipboardData.types.length) Object.defineProperty(event, 'clipboardData', { value: given });
document.dispatchEvent(event);"""
NAMED = "return [0, 1].map((i) => element(`slot${i}`).firstElementChild.textContent)"


def test_slots(page: Page, folder: str) -> None:
    """Each slot is filled by a choice, by what is pasted, or where there is room; a third file takes the second place.
    Values change places with the files, which need not be read again."""
    page.browser.go(page.url)
    for name, text in [("old", b"p sp 2 1\na 1 2 7\n"), ("new", b"p sp 2 1\na 1 2 8\n")]:
        os.mkdir(name)
        write(f"{name}/x.gr", text)
    page.browser.choose(f"{folder}/new/x.gr", at="second")
    assert "x.gr is accepted" in page.answer()
    assert page.browser.js(NAMED) == ["Choose the first file", "x.gr"]
    page.browser.choose(f"{folder}/old/x.gr")
    page.until("return asText().includes('The files differ')")
    found = page.answer()
    assert page.browser.js(NAMED) == ["x.gr", "x.gr"] and found.count("x.gr is accepted") == 2
    values = [it for it in found.splitlines() if it.startswith("x.gr (")]
    page.click("Swap the files")
    page.until("return element('working').hidden && element('swap').disabled === false")
    swapped = [it for it in page.answer().splitlines() if it.startswith("x.gr (")]
    assert [it.split(": ")[1] for it in swapped] == [it.split(": ")[1] for it in values][::-1], (values, swapped)
    page.give([("new.gr", "p sp 2 0\n")], PASTE)
    page.until("return asText().includes('new.gr is accepted')")
    assert page.browser.js(NAMED) == ["x.gr", "new.gr"]
    page.click("Begin anew")
    assert page.browser.js(NAMED) == ["Choose the first file", "Choose the second file"]
    page.browser.js(PASTE, "p sp 2 0\n")
    assert "pasted text is accepted" in page.answer()
    page.browser.js(PASTE, "p sp 3 0\n")
    page.until("return asText().includes('pasted text (second): 3')")


def test_link(page: Page) -> None:
    """A link has the names and the texts, also where they look like HTML, and a damaged one is told."""
    page.give([("<b>&=#.gr", "p sp 1 0\nc \x00\u2028\n"), ("b.gr", "p sp 2 0\n")])
    page.browser.js("linkOf().then((it) => { document.body.dataset.link = it; })")
    page.until("return document.body.dataset.link")
    link = page.browser.js("return document.body.dataset.link")
    assert len(link) < 8192 and link.startswith(page.url)
    page.browser.go("about:blank")
    page.browser.go(link)
    found = page.answer()
    assert "<b>&=#.gr: 1" in found and "b.gr: 2" in found
    page.browser.js("location.hash = '#a=*'")
    page.until("return element('told').textContent.startsWith('The link is damaged')")
    page.browser.js("location.hash = ''")


def test_differences(page: Page) -> None:
    """How many pairs differ, and the arcs around the first one, by random graphs beside a count of their pairs."""
    chance = random.Random(5)
    for _ in range(5):
        graphs = [
            {(chance.randrange(1, 9), chance.randrange(1, 9)): chance.randrange(3) for _ in range(30)} for _ in "ab"
        ]
        texts = [f"p sp 9 {len(it)}\n" + "".join(f"a {u} {v} {n}\n" for (u, v), n in it.items()) for it in graphs]
        found = page.give([("a.gr", texts[0]), ("b.gr", texts[1])])
        a, b = graphs
        both = a.keys() & b.keys()
        different = sorted(it for it in a.keys() | b.keys() if a.get(it) != b.get(it))
        counts = [sum(a[it] != b[it] for it in both), len(a.keys() - both), len(b.keys() - both)]
        names = ["Different", "Only in a.gr", "Only in b.gr", "Equal"]
        for name, count in zip(names, [*counts, sum(a[it] == b[it] for it in both)]):
            assert f"\n{name}: {count}\n" in found, found
        for u, v in different:
            assert f"{u} to {v} | {a.get((u, v), 'none')} | {b.get((u, v), 'none')}\n" in found
        u, v = different[0]
        assert f"around the pair from {u} to {v}:" in found


def test_names(page: Page) -> None:
    """What the browser tells a screen reader: each control has a name of its own that begins with the words seen, each
    picture a sentence, and the answer's headings are headings."""
    page.give([("a.min", COSTS.decode()), ("b.min", "p min 2 0\n")])
    found = page.browser.named("button, #choose, #second, summary, progress, textarea, svg")
    names = [name for _, name in found if name]
    # What is hidden has no name.
    hidden = page.browser.js("return [...document.querySelectorAll('[hidden] *, [hidden]')].length")
    assert len(names) >= 18 and len(found) - len(names) <= hidden, found
    assert len({*names}) == len(names), sorted(names)
    wanted = {"Canonical text, form 2, of b.min", "Swap the files", "What canonical, form 1 and form 2 mean"}
    assert wanted <= {*names}, names
    # Firefox adds the words of its own button.
    assert names[0].startswith(f"a.min the first file, {len(COSTS)} bytes: choose another one"), names
    assert page.browser.named("#answers h2") == [
        ["heading", it] for it in ["The files differ", "a.min is accepted", "b.min is accepted"]
    ]


# Notes what fails in the page, which nothing else may tell.
WATCH = """for (const it of ['error', 'unhandledrejection']) {
  window.addEventListener(it, (event) => { document.body.dataset.fault = event.message ?? String(event.reason); });
}"""
BUTTONS = "[...document.querySelectorAll('button')].filter((it) => it.checkVisibility() && !it.disabled)"


def test_every_button(page: Page, folder: str) -> None:
    """Each button that can be pressed, in each state: the page comes to rest, and the next file works."""
    lines = b"".join(b"a %d %d 1234567\n" % (1 + i * 7919 % 999983, 1 + i % 999) for i in range(100_000))
    write("large.min", b"p min 1000000 400000\n" + lines.replace(b" 1234567", b" 1 5 3") * 4)
    write("small.min", COSTS)
    small, large = f"{folder}/small.min", f"{folder}/large.min"
    states: dict[str, tuple[list[str], str, str]] = {
        "empty": ([], "", "return true"),
        "one": ([small], "", IS_DONE),
        "two": ([small, small.replace("small", "large")], "", f"{IS_DONE} && asText().includes('differ')"),
        "reading": ([small, large], "", f"return !element('working').hidden && {ASKING}.length > 0"),
        "writing": ([large], f"{ASKING}[0].click()", "return !element('working').hidden"),
        "cancelled": ([small, large], "element('cancel').click()", "return element('working').hidden"),
    }
    for name, (files, press, is_there) in states.items():
        at, count = 0, 1
        while at < count:
            page.browser.go(page.url)
            page.browser.js(WATCH)
            if files:
                page.browser.choose(*files)
                page.until(IS_DONE if name in ("one", "two", "writing") else f"return {ASKING}.length > 0")
            page.browser.js(press)
            if name != "writing":
                page.until(is_there)
            labels = page.browser.js(
                f"const all = {BUTTONS}; all[{at}]?.click(); return all.map((it) => it.textContent)"
            )
            count = max(count, len(labels))
            page.until("return element('working').hidden")
            assert "next.gr is accepted" in page.give([("next.gr", "p sp 1 0\n")]), (name, labels)
            assert page.browser.js("return document.body.dataset.fault ?? ''") == "", (name, labels[at : at + 1])
            at += 1
    os.remove("large.min")


def test_no_other_script(page: Page) -> None:
    """A script that comes into the page does not run."""
    page.browser.go(page.url)
    page.browser.js(
        """const it = document.createElement('script');
it.textContent = 'document.body.dataset.ran = 1';
document.body.append(it);
document.body.insertAdjacentHTML('beforeend', '<img src=x onerror="document.body.dataset.ran = 2">');"""
    )
    time.sleep(0.3)
    assert page.browser.js("return document.body.dataset.ran ?? ''") == ""
    page.browser.go(page.url)
    if isinstance(page.browser, Chromium):
        assert all("Content Security Policy" in it or "/x" in it for it in page.browser.complaints())
