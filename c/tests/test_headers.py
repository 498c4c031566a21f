"""The library for C in programs that use its headers: dnorm.h and dnorm_tools.h in C99 with the archive, and dnorm.hpp
in C++17 with the shared library. The headers have the refusals and the version of the program.

library.c tries orders of calls, failing allocations and threads, and counts what is not freed; library_tools.c uses the
inline functions of dnorm_tools.h, and library.cc the classes. valgrind finds no fault in these. The headers compile
without a warning in each standard, and beside R's macro `dnorm`."""

import ctypes
import os
import re
import subprocess

import pytest
from builds import GIVEN, compiled, refusal_lines, sentences_of, solver, version_of, with_archive, with_little_memory
from known import CANONICAL, COSTS, FLOWS, ROADS, ROADS_CANON
from needs import need, need_proc
from shared import ROOT, run, said, text_of, write

from dnorm.library import ABI, FUNCTIONS

pytestmark = [pytest.mark.slow, pytest.mark.usefixtures("folder")]
VERSION, INTERFACE = (re.compile(rf"^#define DNORM_{it} (\d+)$", re.M) for it in ("VERSION", "ABI"))
DECLARED = re.compile(r"^\w+ (dnorm_\w+)\(", re.M)
SOURCES = f"{ROOT}/c/tests"
TOOLS = ["cc", "-std=c99", f"{SOURCES}/library_tools.c"]
# valgrind, and how it says that it found something.
CHECKERS = {
    "memcheck": ["valgrind", "-q", "--error-exitcode=9", "--leak-check=full", "--show-leak-kinds=all"],
    "helgrind": ["valgrind", "-q", "--error-exitcode=9", "--tool=helgrind"],
}
STRICT = ["-Wall", "-Wextra", "-pedantic-errors", "-Wconversion", "-Wshadow", "-Werror", "-fsyntax-only"]
# What only C++ warns of.
STRICT_CPP = ["-Wold-style-cast"]
# Compilers with their standards, and the headers that compile in them.
STANDARDS = {
    "gcc": (["c99", "c11", "c17"], ["dnorm.h", "dnorm_tools.h"]),
    "clang": (["c99", "c11", "c17"], ["dnorm.h", "dnorm_tools.h"]),
    "g++": (["c++11", "c++14", "c++17", "c++20"], ["dnorm.h", "dnorm_tools.h", "dnorm.hpp"]),
    "clang++": (["c++11", "c++14", "c++17", "c++20"], ["dnorm.h", "dnorm_tools.h", "dnorm.hpp"]),
}
# The standards that have what dnorm.hpp needs.
FOR_CLASSES = ["c++17", "c++20"]
# What Rmath.h does.
RMATH = "#define dnorm dnorm4\ndouble dnorm(double, double, double, int);\n"
# A program that uses a header, in C and C++; with the macro of R before and after it.
USES = """
static dnorm_handle graph = DNORM_NONE;
static dnorm_place first = DNORM_FIRST;
int main(void) {
    dnorm_arc arc;
    dnorm_free(NULL);
    return dnorm_next(&graph, 1, &first, &arc, 1).code == DNORM_WRONG_CALL ? 0 : DNORM_VERSION;
}
"""
# Functions in place of the library's, which count what the macros of dnorm.h must not give them.
MACROS = """
#include <dnorm.h>
static const dnorm_count none;
static const dnorm_status fine;
static int wrong;
dnorm_status (dnorm_feed)(dnorm *it, const uint8_t *bytes, size_t length) { wrong += !bytes; return fine; }
dnorm_count (dnorm_next)(const dnorm *it, uint8_t form, dnorm_place *place, dnorm_arc *out, size_t room) {
    wrong += !out;
    return none;
}
dnorm_count (dnorm_items)(const dnorm *it, dnorm_place *place, dnorm_item *out, size_t room) {
    wrong += !out;
    return none;
}
dnorm_status (dnorm_canon)(const dnorm *it, uint8_t form, dnorm *text) { wrong += it == text; return fine; }
dnorm_count (dnorm_text)(dnorm *it, size_t from, uint8_t *out, size_t room) { wrong += !out; return none; }
dnorm_lines_given (dnorm_lines)(dnorm *it, const uint8_t *bytes, size_t length, dnorm_row *out, size_t room) {
    static const dnorm_lines_given nothing;
    wrong += !bytes + !out;
    return nothing;
}
dnorm_status (dnorm_spread)(const dnorm *it, uint8_t form, const int64_t *flow, size_t flow_count,
                            const dnorm_row *lines, size_t line_count, dnorm_share *shares, size_t share_count,
                            int64_t *units, size_t unit_count) {
    wrong += !flow + !lines + !shares + !units;
    return fine;
}
int main(void) {
    dnorm it = DNORM_NONE;
    dnorm_place place = DNORM_FIRST;
    const dnorm_arc_columns columns = {NULL, NULL, NULL, NULL, NULL};
    dnorm_feed(&it, NULL, 0);
    dnorm_next(&it, 1, &place, NULL, 0);
    dnorm_columns(&it, 1, &place, columns, 0);
    dnorm_items(&it, &place, NULL, 0);
    dnorm_text(&it, 0, NULL, 0);
    dnorm_lines(&it, NULL, 0, NULL, 0);
    dnorm_spread(&it, 1, NULL, 0, NULL, 0, NULL, 0, NULL, 0);
    return wrong + (dnorm_canon(&it, 1, &it).code != DNORM_WRONG_CALL);
}
"""
# A part of another file of a program.
OTHER = "int other(void);\nint other(void) {\n    return dnorm_code_name(1)[0];\n}\n"
# Statements of C++, with what does not compile in them and what does; `text` is a std::string_view, `name` a
# std::string, `chars` an array, `path` a std::filesystem::path and `graph` a const Instance.
WRONG = {
    "arcs that outlive an instance": ("for (auto &it : std::make_unique<Instance>(text)->{}) (void)it;", "each_arc()",
                                      "arcs()"),
    "a literal as a text": ("Instance it{{{}}};", '"roads.gr"', 'dnorm_cpp::Path("roads.gr")'),
    "an array as a text": ("Instance it{{{}}};", "chars", "std::string_view(chars)"),
    "a string as a text": ("Instance it{{{}}};", "name", "std::string_view(name)"),
    "a string that is moved as a text": ("Instance it{{{}}};", "std::move(name)", "dnorm_cpp::Path(std::move(name))"),
    "the end of a name as a text": ("Instance it{{{}}};", "name.c_str()", "text.substr(1)"),
    "a name of other memory as a text": ("Instance it{{{}}};", "std::pmr::string(name)", "dnorm_cpp::Path(name)"),
    "a path as a text": ("Instance it{{{}}};", "path", "dnorm_cpp::Path(path)"),
    "a name to be read": ("dnorm_status it; Instance::read({}, it);", "name", "dnorm_cpp::Path(name)"),
    "a change of a const instance": ("{};", "graph = Instance(text)", "graph.columns()"),
    "a copy": ("Instance it({});", "graph", "text"),
    "a handle without const": ("const dnorm_handle it = DNORM_NONE; {};", "dnorm_free(&it)", "dnorm_facts(&it)"),
}  # fmt: skip
# A plugin that uses the archive, and exports one function.
PLUGIN = """
#include <dnorm.h>
int plugin_reads(const char *text, size_t length);
int plugin_reads(const char *text, size_t length) {
    dnorm graph = DNORM_NONE;
    int code = dnorm_begin(&graph).code || dnorm_feed(&graph, (const uint8_t *)text, length).code;
    code = code || dnorm_finish(&graph).code;
    dnorm_free(&graph);
    return !code;
}
"""
# Texts, and the forward star and the columns of 32 bits that library_tools.c prints, in form 1 in ranges of 2.
STARS = {
    ROADS: ("0 1 4 5 \n2 3\n1 4\n2 0\n3 9\n1 -5\n", "1 2 3 0\n2 1 4 0\n2 2 0 0\n2 3 9 0\n3 1 -5 0\n", 0),
    COSTS: (
        "0 5 5 \n2 1 1 1\n2 1 1 2\n2 0 2 0\n2 0 4 1\n2 0 1 3\n",
        "1 2 1 1\n1 2 1 2\n1 2 0 0\n1 2 0 1\n1 2 0 3\n",
        0,
    ),
    b"p sp 4 1\na 3 1 2147483648\n": (
        "0 0 0 1 1 \n1 2147483648\n",
        "3 1 2147483648: 41 TooWide: A number does not fit 32 bits.\n",
        2,
    ),
    b"p sp 4 3\na 3 1 2147483647\na 4 1 -2147483648\na 4 2 -2147483649\n": (
        "0 0 0 1 3 \n1 2147483647\n1 -2147483648\n2 -2147483649\n",
        "3 1 2147483647 0\n4 1 -2147483648 0\n4 2 -2147483649: 41 TooWide: A number does not fit 32 bits.\n",
        2,
    ),
    b"p max 0 0\n": ("end: 19 MissingTerminal: A max file has no source or no sink.\n",) * 2 + (2,),
    b"p sp 0 0\n": ("0 \n", "", 0),
    b"p aux sp ss 0\n": ("40 WrongCall: The handle is not for this call.\n",) * 2 + (2,),
}  # fmt: skip


# Texts of the solvers in c/examples, with what these print and their status; FULL is a standard output that takes
# nothing.
FULL = "/dev/full"
UNMET = b"p min 2 1\nn 1 %d\nn 2 %d\na 1 2 0 4 2\n"
SOLVED = [
    ("dijkstra.c", ROADS.replace(b" -5", b" 5"), "-", b"node 2, distance 3\nnode 1, distance 0\n", 0),
    ("dijkstra.c", ROADS.replace(b" -5", b" 5"), FULL, b"", 4),
    ("cost_scaling.c", UNMET % (2, -2), "-", b"s 4\nf 1 2 2\n", 0),
    ("cost_scaling.c", UNMET % (2, -2), FULL, b"", 4),
    ("cost_scaling.c", UNMET % (2, -1), "-", b"there is no flow\n", 1),
    ("cost_scaling.c", UNMET % (5, -5), "-", b"there is no flow\n", 1),
    ("least_cost.cc", UNMET % (2, -2), "-", b"s 4\nf 1 2 2\n", 0),
    ("least_cost.cc", UNMET % (2, -2), FULL, b"", 4),
    ("least_cost.cc", UNMET % (2, -1), "-", b"no flow\n", 1),
    ("least_cost.cc", UNMET % (1, -2), "-", b"no flow\n", 1),
]

# What library.c does: its arguments, what it prints, and what watches it.
CALLS = [
    ("orders 5", f"{11**5} orders\n", []), ("orders 3", f"{11**3} orders\n", ["memcheck"]),
    ("memory", "", ["memcheck"]), ("nulls", "right\n", ["memcheck"]),
    ("readers 100000", "0 wrong\n", []), ("readers 200", "0 wrong\n", ["memcheck", "helgrind"]),
]  # fmt: skip
# Headers, by compilers and standards, and what stands beside them.
COMPILED = [
    (compiler, standard, header)
    for compiler, (standards, headers) in STANDARDS.items()
    for header in headers
    for standard in (FOR_CLASSES if header == "dnorm.hpp" else standards)
]


def header() -> str:
    return text_of(f"{ROOT}/c/dnorm.h")


def test_version(tested: str) -> None:
    first, second, third = map(int, version_of(tested).partition("-")[0].split("."))
    assert VERSION.findall(header()) == [str(10000 * first + 100 * second + third)]
    assert INTERFACE.findall(header()) == [str(ABI)]


def test_declared(c_library: str) -> None:
    assert sorted(DECLARED.findall(header())) == sorted([*FUNCTIONS, "dnorm_spread"])
    # `rt ci` refuses a repository with links in it.
    may_link = not c_library.startswith(ROOT)
    files = sorted(it.name for it in os.scandir(f"{c_library}/lib") if it.is_file(follow_symlinks=may_link))
    assert files == ["libdnorm.a", "libdnorm.so", f"libdnorm.so.{ABI}"]


def test_exported(c_library: str) -> None:
    """The shared library exports only what dnorm.h declares, and needs the C library alone."""
    need("nm", "readelf")
    shared = f"{c_library}/lib/libdnorm.so.{ABI}"
    rows = [it.split() for it in run(["nm", "-D", "--defined-only", shared]).out.decode().splitlines()]
    exported = [it[2].partition("@@DNORM_") for it in rows if it[1] in "TDBR"]
    assert sorted(it[0] for it in exported) == sorted(DECLARED.findall(header()))
    assert all(re.fullmatch(r"\d+\.\d+", it[2]) for it in exported), "each by a release"
    dynamic = run(["readelf", "-d", shared]).out.decode()
    assert re.findall(r"NEEDED.*\[(.*)\]", dynamic) == ["libc.so.6"]
    assert re.findall(r"SONAME.*\[(.*)\]", dynamic) == [f"libdnorm.so.{ABI}"]
    assert "BIND_NOW" in dynamic


def check(words: list[str], out: str | bytes, checkers: list[str], status: int = 0, given: bytes = b"") -> None:
    """Tests what a program prints, by itself and under valgrind."""
    assert run(words, given) == said(out, b"", status), words
    for name in checkers:
        need("valgrind")
        assert run([*CHECKERS[name], *words], given) == said(out, b"", status), f"{name} of {words}"


def large_texts() -> dict[str, bytes]:
    """Returns a text of many lines for each kind."""
    count = 40_000
    texts = {
        "min": (f"p min {count} {count}\nn 1 9\nn 2 -9\n", "a {0} {1} 0 {2} {2}\n"),
        "max": (f"p max {count} {count}\nn 1 s\nn 2 t\n", "a {0} {1} {2}\n"),
        "sp": (f"p sp {count} {count}\n", "a {0} {1} {2}\n"),
        "ss": (f"p aux sp ss {count}\n", "s {0}\n"),
        "p2p": (f"p aux sp p2p {count}\n", "q {0} {1}\n"),
        "co": (f"p aux sp co {count}\n", "v {0} {1} {2}\n"),
    }
    numbers = [(i, i * 7919 % count + 1, i % 9 + 1) for i in range(1, count + 1)]
    return {kind: (head + "".join(line.format(*it) for it in numbers)).encode() for kind, (head, line) in texts.items()}


@pytest.fixture(scope="module")
def in_c(c_library: str, tmp_path_factory: pytest.TempPathFactory) -> str:
    more = ["-pthread", *(f"-Wl,--wrap={it}" for it in ("malloc", "realloc", "free"))]
    return with_archive(c_library, f"{tmp_path_factory.mktemp('c')}/c", "cc", "-std=c99", *more, f"{SOURCES}/library.c")


@pytest.mark.parametrize("words, out, checkers", CALLS, ids=[it[0] for it in CALLS])
def test_calls(in_c: str, words: str, out: str, checkers: list[str]) -> None:
    """Orders of calls, failing allocations and threads."""
    if words == "memory":
        out = run([in_c, words]).out.decode()
        assert re.fullmatch(r"[1-9]\d* allocations\n", out)
    check([in_c, *words.split()], out, checkers)


def test_stack(in_c: str) -> None:
    for kind, text in large_texts().items():
        assert run([in_c, "stack"], text) == said("right\n"), kind


@pytest.fixture(scope="module")
def in_cpp(c_library: str, tmp_path_factory: pytest.TempPathFactory) -> str:
    """The classes, with the shared library as pkg-config names it."""
    need("pkg-config")
    built = f"{tmp_path_factory.mktemp('cc')}/cc"
    found = run(["pkg-config", "--cflags", "--libs", f"{c_library}/lib/pkgconfig/dnorm.pc"]).out.decode().split()
    assert "-ldnorm" in found
    words = ["-std=c++17", "-o", built, f"{SOURCES}/library.cc", *found, f"-Wl,-rpath,{c_library}/lib"]
    compiled("c++", *words, f"-I{c_library}/include")
    return built


@pytest.mark.parametrize("text, forms", GIVEN, ids=[f"{it[0]!r:.60}" for it in GIVEN])
def test_cpp(in_cpp: str, text: bytes, forms: list[bytes]) -> None:
    assert run([in_cpp], text) == said(b"".join(forms))


def test_refusals_in_cpp(in_cpp: str, tested: str) -> None:
    for text, line in refusal_lines(tested).items():
        assert run([in_cpp], text) == said(b"", f"code {line.split(': ')[1].split()[0]}: {line}\n", 2), text


def test_files_in_cpp(in_cpp: str, tested: str, folder: str) -> None:
    write("text", ROADS)
    assert run([in_cpp, "text"]) == said(ROADS_CANON)
    write("text", b"p sp 1 1\nq\n")
    assert run([in_cpp, "text"]) == said(b"", f"text: line 2: 5 {sentences_of(tested)[5]}\n", 2)
    assert run([in_cpp, "-"], ROADS) == said(ROADS_CANON)
    for name, cause in {"none": "No such file or directory", folder: "Is a directory"}.items():
        assert run([in_cpp, name]) == said(b"", f"{name}: {cause}\n", 4)
    failed = run(["sh", "-c", 'exec "$1" - < /', "sh", in_cpp])
    assert failed.status == 4 and b"the stream cannot be read" in failed.err


# What a program in C++ expects of the classes: stars without arcs, lines and arcs as ranges, and wrong arguments.
EXPECTS = """
#include "dnorm.hpp"
#include <cassert>
#include <sstream>
using namespace dnorm_cpp;
template <typename Call> bool is_refused(Call call) {
    try { call(); } catch (const std::invalid_argument &) { return true; }
    return false;
}
int main() {
    Star none;
    none.reverse();
    assert(none.into_first.empty());
    Instance graph(std::string_view("p sp 3 3\\na 1 2 4\\na 2 3 1\\na 1 3 9\\n"), with_lines);
    Star star = graph.star(), taken = std::move(star);
    star.reverse();
    taken.reverse();
    assert(taken.into_first == (std::vector<std::size_t>{0, 0, 1, 3}));
    std::size_t count = 0;
    for (auto arc : graph) count += arc.a == graph.arcs()[count].a;
    assert(count == 3 && graph.lines()[2].a == 9);
    const std::vector<dnorm_row> copied = graph.lines();
    assert(copied.size() == 3 && graph.lines().data() == graph.lines().data());
    for (auto arc : Instance(std::string_view("p sp 3 0\\n"))) assert(arc.a != arc.a);
    for (int form : {0, 3, 7}) {
        assert(is_refused([&] { graph.arc_count(form); }));
        assert(is_refused([&] { graph.text(form); }));
        assert(is_refused([&] { graph.spread({1, 1, 1}, form); }));
    }
    std::ostringstream out;
    for (std::size_t units : {0, 2, 4})
        assert(is_refused([&] { write_flow(out, graph.lines(), std::vector<std::int64_t>(units)); }));
    assert(out.str().empty());
}
"""


def test_expects_of_cpp(c_library: str) -> None:
    write("expects.cc", EXPECTS)
    words = ["c++", "-std=c++17", "-fsanitize=address,undefined", "-fno-sanitize-recover", "expects.cc"]
    assert run([with_archive(c_library, "./expects", *words)]) == said()


def test_memory_in_cpp(in_cpp: str, folder: str) -> None:
    assert with_little_memory(in_cpp) == [said("p sp 1 0\n"), said(status=5)]


@pytest.mark.parametrize("text", [FLOWS, b"p sp 1 1\nq\n"], ids=["accepted", "refused"])
def test_memcheck_of_cpp(in_cpp: str, text: bytes) -> None:
    need("valgrind")
    assert run([*CHECKERS["memcheck"], in_cpp], text) == run([in_cpp], text)


@pytest.mark.parametrize("compiler, standard, header", COMPILED)
def test_clean_headers(c_library: str, compiler: str, standard: str, header: str) -> None:
    """The headers compile without a warning, by themselves and beside R's macro."""
    need(compiler)
    write("Rmath.h", RMATH)
    own, other = f"#include <{header}>\n", '#include "Rmath.h"\n'
    source = f"uses.{'cc' if '+' in compiler else 'c'}"
    warnings = [*STRICT, *STRICT_CPP] if "+" in compiler else STRICT
    for text in [own, other + own, own + other]:
        write(source, text + USES)
        assert run([compiler, f"-std={standard}", *warnings, f"-I{c_library}/include", source]) == said(), text


@pytest.mark.parametrize("words, header", [("cc -std=c99", "dnorm_tools.h"), ("c++ -std=c++17", "dnorm.hpp")])
def test_two_files(c_library: str, words: str, header: str) -> None:
    """Two files of a program include the headers."""
    end = "cc" if "++" in words else "c"
    for name, text in [("uses", USES), ("other", OTHER)]:
        write(f"{name}.{end}", f"#include <{header}>\n{text}")
    with_archive(c_library, "two", *words.split(), f"uses.{end}", f"other.{end}")
    assert run(["./two"]) == said()


def test_macros(c_library: str) -> None:
    """By the macros of dnorm.h, no function gets a null pointer, nor its own text."""
    write("macros.c", MACROS)
    compiled("cc", "-std=c99", "-Wno-unused-parameter", f"-I{c_library}/include", "-o", "macros", "macros.c")
    assert run(["./macros"]) == said()


@pytest.mark.parametrize("name", WRONG)
def test_wrong_use(c_library: str, name: str) -> None:
    """Wrong uses of the classes do not compile, and the right ones beside them do."""
    need("c++")
    statement, wrong, right = WRONG[name]
    statuses = []
    for given in [wrong, right]:
        lines = [f"#include <{it}>" for it in ("dnorm.hpp", "filesystem", "memory", "memory_resource")]
        lines += ["using dnorm_cpp::Instance;", "void f(std::string_view text, const Instance &graph) {"]
        lines += ['    std::string name; std::filesystem::path path; char chars[] = "roads.gr";']
        lines += ["    (void)text, (void)graph, (void)chars;", f"    {statement.format(given)}", "}"]
        write("wrong.cc", "\n".join([*lines, ""]))
        ran = run(["c++", "-std=c++17", "-fsyntax-only", f"-I{c_library}/include", "wrong.cc"])
        statuses.append(ran.status != 0)
    assert statuses == [True, False], "whether the wrong and the right use are refused"


@pytest.mark.parametrize("name, text, to, out, status", SOLVED)
def test_solvers(c_library: str, folder: str, name: str, text: bytes, to: str, out: bytes, status: int) -> None:
    """The solvers of c/examples say that there is no flow, and that their output failed."""
    made = solver(name, c_library, folder)
    write("text", text)
    write("points", b"p aux sp co 0\n")
    others = ["points", "1", "2"] if name == "dijkstra.c" else []
    shell = ["sh", "-c", f'exec "$@" > {FULL}', "sh"] if to == FULL else []
    ran = run([*shell, made, "text", *others])
    assert (ran.out, ran.status, ran.err != b"") == (out, status, to == FULL)


def test_plugin(c_library: str, folder: str) -> None:
    """A plugin that is linked with the archive works, and exports none of its functions."""
    need("nm")
    write("plugin.c", PLUGIN)
    with_archive(c_library, "plugin.so", "cc", "-std=c99", "-shared", "-fPIC", "-Wl,-z,defs", "plugin.c")
    assert run(["nm", "-D", "--defined-only", "plugin.so"]).out.decode().split()[2::3] == ["plugin_reads"]
    reads_text = ctypes.CDLL(f"{folder}/plugin.so").plugin_reads
    reads_text.argtypes = [ctypes.c_char_p, ctypes.c_size_t]
    assert [reads_text(text, len(text)) for text in (ROADS, b"x\n")] == [1, 0]


@pytest.fixture(scope="module")
def tools(c_library: str, tmp_path_factory: pytest.TempPathFactory) -> str:
    """A program that uses the functions of dnorm_tools.h."""
    return with_archive(c_library, f"{tmp_path_factory.mktemp('tools')}/tools", *TOOLS)


def test_sentences(tools: str, tested: str) -> None:
    """The names and sentences of all codes."""
    sentences = sentences_of(tested)
    sentences |= {0: "Fine: The call did what it is for.", 40: "WrongCall: The handle is not for this call."}
    sentences[41] = "TooWide: A number does not fit 32 bits."
    sentences[42] = "NotAFlow: The flow is none on the arc lines, or these are of another text."
    assert run([tools, "codes"]) == said("".join(f"{it} {sentences.get(it, 'Unknown: ')}\n" for it in range(256)))


def test_failing_streams(tools: str, tested: str) -> None:
    sentences = sentences_of(tested)
    check([tools, "signals"], "interrupted 1\n" * 2, [])
    lines = [f"31 {sentences[31]}: Input/output error\n", f"line 2: 5 {sentences[5]}\n"]
    check([tools, "broken"], "".join(lines), ["memcheck"])


@pytest.mark.parametrize("text", STARS, ids=repr)
def test_star(tools: str, text: bytes) -> None:
    star, columns, status = STARS[text]
    is_made = status == 0 or star.startswith("0 ")
    check([tools, "star", "1"], star, ["memcheck"] * (text in [ROADS, COSTS]), 0 if is_made else 2, text)
    assert run([tools, "narrow", "1", "2"], text) == said(columns, status=status), "columns of 32 bits"


def test_endless(c_library: str, folder: str, tested: str) -> None:
    """A file without an end is read no more often than DNORM_READS says, and one with an end to that."""
    with_archive(c_library, "tools", *TOOLS, "-DDNORM_READS=20")
    ended = said(f"32 {sentences_of(tested)[32]}\n", status=2)
    for how in ["fd", "file", "path", "lines"]:
        assert run(["./tools", "read", how, "/dev/zero"]) == ended, how
    assert run(["./tools", "read", "fd"], ROADS) == said(ROADS_CANON)


def test_alone(c_library: str) -> None:
    """The archive needs the C library alone, and no functions of a compiler; and a machine of 64 bits."""
    write("alone.c", f"#include <dnorm.h>\n{USES}")
    need("cc")
    words = ["cc", "-std=c99", f"-I{c_library}/include"]
    linked = ["-o", "alone", "-nodefaultlibs", "alone.c", f"{c_library}/lib/libdnorm.a", "-lc"]
    assert run([*words, *linked]) == said()
    assert run(["./alone"]) == said()
    write("narrow.c", f"#include <stdint.h>\n#undef SIZE_MAX\n#define SIZE_MAX 0xffffffffU\n#include <dnorm.h>\n{USES}")
    ran = run([*words, "-fsyntax-only", "narrow.c"])
    assert ran.status == 1 and b"libdnorm needs a compiler for a machine of 64 bits" in ran.err


def test_large_star(tools: str, tested: str) -> None:
    large = b"p sp 9223372036854775807 0\n"
    assert run([tools, "star", "1"], large) == said(f"30 {sentences_of(tested)[30]}\n", status=2), "without memory"
    many = b"p sp 600 1200\n" + b"".join(b"a %d %d %d\n" % (it // 2, it % 2 + 1, it) for it in range(2, 1202))
    ran = run([tools, "star", "2"], many).out.decode().splitlines()
    assert ran[0] == " ".join(str(2 * it) for it in range(601)) + " "
    rows = "".join(f"{it // 2} {it % 2 + 1} {it} 0\n" for it in range(2, 1202))
    assert run([tools, "narrow", "1", "1400"], many) == said(rows), "columns of 1200 arcs"


def is_kept(fifo: str, tools: str) -> bool:
    """Whether a file that is read by its name would not be passed on to another program, and is closed. It is a pipe
    with a name, so that it is open until the text is written."""
    os.mkfifo(fifo)
    with subprocess.Popen([tools, "read", "path", fifo], stdout=subprocess.PIPE) as process:
        with open(fifo, "wb") as text:
            folder = f"/proc/{process.pid}"
            own: list[str] = []
            while not own and process.poll() is None:
                own = [it for it in os.listdir(f"{folder}/fd") if os.path.realpath(f"{folder}/fd/{it}") == fifo]
            flags = [int(text_of(f"{folder}/fdinfo/{it}").split()[3], 8) for it in own]
            text.write(ROADS)
        is_read = process.communicate()[0] == ROADS_CANON and process.returncode == 0
        return is_read and len(flags) == 1 and flags[0] & os.O_CLOEXEC != 0


def test_reads(tools: str, tested: str) -> None:
    """What is read from a path, a descriptor and a stream, and written by dnorm_write."""
    texts = {text: (b"".join(forms[:1]).decode(), 0) for text, *forms in CANONICAL}
    texts |= {text: (f"{line}\n", 2) for text, line in refusal_lines(tested).items()}
    for text, (wanted, status) in texts.items():
        write("text", text)
        for how in ["path", "fd", "file"]:
            assert run([tools, "read", how, "text"]) == said(wanted, status=status), f"{text!r:.200} by {how}"
            if how != "path":
                found = run([tools, "read", how], text)
                assert found == said(wanted, status=status), f"{text!r:.200} of a pipe by {how}"
    large = ROADS.replace(b"p sp", b"c " + b"x" * 100_000 + b"\np sp")
    for how in ["fd", "file"]:
        assert run([tools, "read", how], large) == said(ROADS_CANON), f"a text of several pieces by {how}"
    for text in [ROADS, b"x\n"]:
        write("text", text)
        wanted, status = texts.get(text, (f"line 1: 1 {sentences_of(tested)[1]}\n", 2))
        check([tools, "read", "path", "text"], wanted, ["memcheck"], status)


def test_open_files(tools: str, folder: str) -> None:
    """A file stays with its process."""
    need_proc()
    assert is_kept(os.path.realpath(f"{folder}/fifo"), tools)


def test_unreadable(tools: str, tested: str, folder: str) -> None:
    failed = [("path", "none", "No such file or directory")]
    failed += [(how, folder, "Is a directory") for how in ["path", "fd", "file"]]
    for how, name, cause in failed:
        line = f"31 {sentences_of(tested)[31]}: {cause}\n"
        assert run([tools, "read", how, name]) == said(line, status=2), f"{name} by {how}"
