"""The pages, and what they say of the repository: each link leads to a file and a heading, each block of code that is
quoted is in its source, and each path below a folder of the repository exists. tools/definitions calls `complaints`;
each complaint is a line that begins with the page. By itself,

    python3 tools/pages.py FOLDER

complains of links in the pages below a folder. tools/generate takes from here the pages of a release."""

import glob
import os
import re
import sys
from collections.abc import Callable, Iterator

import prover

HERE = os.path.dirname(os.path.realpath(__file__))
sys.path += [os.path.join(HERE, "../tests"), os.path.join(HERE, "../suite/tests")]
# The tests' folders must be on the path before this import.
from shared import DEFINITIONS, ROOT, listed, text_of  # noqa: E402

# The pages of the repository, and those that a release has.
PAGES = sorted({it for _, it, _ in listed() if it.endswith(".md")})
LINKING = [*(it for it in PAGES if it != DEFINITIONS), "released/README.md"]
# The page whose blocks of code are all quoted from a source, and which explains the signs in them.
QUOTING = "docs/PROVED.md"
# Where a release has its pages and examples.
HOME = "share/doc/dnorm/"

FENCE = re.compile(r"^```[^\n]*\n(.*?)^```$\n?", re.M | re.S)
QUOTE = re.compile(r"^<!-- from (\S+) -->\n```[^\n]*\n(.*?)^```$", re.M | re.S)
HEADING = re.compile(r"^#+ +(.*)$", re.M)
# Code, which has no links, or a link.
LINK = re.compile(r"`[^`\n]*`|\[(?P<text>(?:`[^`\n]*`|[^]`\n])*)\]\((?P<to>[^)\s]+)\)")
PATH = re.compile(
    r"`((?:bin|c|crates|docs|tools|tests|suite|rust|python|web|packaging|bench|examples|released)/[\w./*-]+)`"
)
WORD = re.compile(r"[^\W\d]\w*")
COMMENT = re.compile(r"^\s*(?:--|//).*$", re.M)
IMPORTS = re.compile(r"^(?:pub )?use .*$", re.M)
# The files that list the others of a folder.
LISTS = {"Lib.antt", "State.antt"}


def page_text(page: str, top: str = ROOT) -> str:
    return text_of(f"{top}/{page}")


def files(top: str) -> list[str]:
    """Returns the files below a folder, except generated ones, by their paths from the top of the repository."""
    found = []
    for at, folders, names in os.walk(top):
        folders[:] = sorted(set(folders) - {".git", "out", "build", "__pycache__"})
        found += [os.path.relpath(f"{at}/{name}", ROOT) for name in sorted(names)]
    return found


def anchors(page: str, top: str) -> set[str]:
    """Returns what a link to a page can name."""
    return anchors_in(page_text(page, top))


def anchors_in(text: str) -> set[str]:
    """Returns the headings of a text, as GitHub spells them in links."""
    heads = [re.sub(r"\]\([^)]*\)", "]", it) for it in HEADING.findall(FENCE.sub("", text))]
    return {re.sub(r"[^\w\- ]", "", it.lower()).strip().replace(" ", "-") for it in heads}


def path_from(page: str, link: str) -> str:
    """Returns the path that a link of a page leads to."""
    path = link.partition("#")[0]
    return os.path.normpath(os.path.join(os.path.dirname(page), path)) if path else page


def bad_links(page: str, top: str = ROOT) -> Iterator[str]:
    """Yields links of a page below a folder to files or anchors that do not exist there."""
    for link in (it["to"] or "://" for it in LINK.finditer(FENCE.sub("", page_text(page, top)))):
        target, anchor = path_from(page, link), link.partition("#")[2]
        if "://" in link or link.startswith("mailto:"):
            continue
        if not os.path.exists(f"{top}/{target}"):
            yield f"{page}: links to {link}, and there is no {target}"
        elif anchor and anchor not in anchors(target, top):
            yield f"{page}: links to {link}, and {target} has no such heading"


def bad_quotes(page: str) -> Iterator[str]:
    """Yields blocks of code that are not lines of the source that they name."""
    quotes = QUOTE.findall(page_text(page))
    if len(quotes) != len(FENCE.findall(page_text(page))):
        yield f"{page}: a block of code has no line '<!-- from FILE -->' before it"
    for path, code in quotes:
        if not os.path.exists(f"{ROOT}/{path}"):
            yield f"{page}: quotes {path}, which is not there"
        elif f"\n{code}" not in f"\n{page_text(path)}":
            yield f"{page}: {code.splitlines()[0]!r} and what follows are not lines of {path}"


def bad_paths(page: str) -> Iterator[str]:
    """Yields paths that do not exist, here or below a prefix."""
    installed = "".join(f"{it}\n" for _, _, it in listed())
    for path in dict.fromkeys(PATH.findall(FENCE.sub("", page_text(page)))):
        is_made = "/out/" in path or re.search(rf"^{re.escape(path.rstrip('/'))}(/|$)", installed, re.M)
        if not is_made and not glob.glob(f"{ROOT}/{path.replace('NAME', '*')}"):
            yield f"{page}: there is no {path}"


def unexplained(page: str) -> Iterator[str]:
    """Yields the signs of the definitions in specs/ that this page does not have."""
    files = [it for it in glob.glob(f"{ROOT}/crates/*/specs/*.antt") if os.path.basename(it) not in LISTS]
    signs = {it for path in files for it in COMMENT.sub("", IMPORTS.sub("", text_of(path))) if not it.isascii()}
    for it in sorted(signs - set(page_text(page))):
        yield f"{page}: does not explain {it}"


def bad_dependencies() -> Iterator[str]:
    """Yields crates that crates.txt lists for a crate whose files do not cite them."""
    for crate, row in prover.rows().items():
        paths = glob.glob(f"{ROOT}/crates/{crate}/[sp]*/**/*.*", recursive=True)
        for name in {*row.stands_on} - {word for path in paths for word in WORD.findall(text_of(path))}:
            yield f"crates.txt: {crate} cites nothing of {name}"


def complaints() -> Iterator[str]:
    """Yields all wrong statements of the pages."""
    yield from bad_quotes(QUOTING)
    yield from bad_dependencies()
    yield from unexplained(QUOTING)
    for page in LINKING:
        yield from bad_links(page)
        yield from () if page == "CHANGELOG.md" else bad_paths(page)


def relinked(page: str, changed: Callable[[str, str], str]) -> str:
    """Returns a page in which the links outside of code are those that a function returns, given text and target."""

    def one(found: re.Match[str]) -> str:
        is_own = found["to"] is None or found["to"].startswith("#") or "://" in found["to"]
        return found[0] if is_own else changed(found["text"], found["to"])

    text, made, at = page_text(page), "", 0
    for fence in FENCE.finditer(text):
        made += LINK.sub(one, text[at : fence.start()]) + fence[0]
        at = fence.end()
    return made + LINK.sub(one, text[at:])


def for_release(page: str) -> str:
    """Returns a page as a release has it: a link to what a release does not have becomes its text, with the path."""
    known = {source for _, source, to in listed() if to.startswith(HOME)}

    def changed(text: str, to: str) -> str:
        path = path_from(page, to)
        return f"[{text}]({to})" if path in known else f"{text} (`{path}`)"

    return relinked(page, changed)


def alone(page: str) -> str:
    """Returns a page that stands without the others, beside the programs of c/examples in a folder examples/."""

    def changed(text: str, to: str) -> str:
        return f"[{text}]({to.removeprefix('../c/')})" if to.startswith("../c/examples/") else text

    return relinked(page, changed)


def main() -> int:
    if len(sys.argv) != 2:
        sys.exit(__doc__)
    top = sys.argv[1]
    for path in sorted(glob.glob(f"{top}/**/*.md", recursive=True)):
        for complaint in bad_links(os.path.relpath(path, top), top):
            print(complaint)
    return 0


if __name__ == "__main__":
    sys.exit(main())
