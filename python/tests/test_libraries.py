"""Tests where the Python package finds the library for C and that it takes no other one; and reads with little memory,
from several threads, of two files at once, and without an end."""

import functools
import itertools
import os
import shutil
import signal
import sys
import threading
import types
from collections.abc import Callable
from concurrent.futures import ThreadPoolExecutor
from importlib.machinery import EXTENSION_SUFFIXES

import pytest
from known import ROADS
from needs import need
from shared import LIMIT, run, said, write
from test_calls import PACKAGE, READS, python, told
from test_folders import module

import dnorm
import dnorm.library
import dnorm.limits

pytestmark = READS
# A process that says which library it finds, as on a machine of this sort.
FINDS = """
import platform, sys
if len(sys.argv) > 1:
    platform.machine = lambda: sys.argv[1]
import dnorm
try:
    print(dnorm.find_library())
except dnorm.NoLibrary as error:
    print(error)
"""
# Other files of the name of the library: what each is made of, by a C compiler or as it is, and why it is none.
OTHERS = {
    "half": ("void dnorm_begin(void) {}", "undefined symbol: dnorm_feed"),
    "foreign": ("int other(void) { return 1; }", "undefined symbol: dnorm_begin"),
    "text": (None, "file too short"),
}
# Where the package and the library may be: in a wheel, in one that setuptools has built, in an archive, in a clone,
# below the prefix of bin/install, and on Debian.
PLACES = [
    ("venv/lib/python3/site-packages", "venv/lib/python3/site-packages/dnorm/libdnorm.so.3"),
    ("built/lib/python3/site-packages", f"built/lib/python3/site-packages/dnorm/libdnorm{EXTENSION_SUFFIXES[0]}"),
    ("archive/python/src", "archive/lib/libdnorm.so.3"),
    ("clone/python/src", "clone/build/libdnorm.so.3"),
    ("usual/share/dnorm/python", "usual/lib/libdnorm.so.3"),
    ("debian/lib/python3/dist-packages", "debian/lib/riscv64-linux-gnu/libdnorm.so.3"),
]
# A process that reads texts until there is too little memory, with more of it each time.
LITTLE = """
import dnorm, resource, sys
dnorm.read(b"p sp 0 0\\n")
text = open("large.gr", "rb").read()
now = int(open("/proc/self/statm").read().split()[0]) * resource.getpagesize()
answers = []
for more in range(0, 64 << 20, 1 << 20):
    resource.setrlimit(resource.RLIMIT_AS, (now + more, resource.RLIM_INFINITY))
    try:
        answers.append(len(dnorm.read(text)))
    except (dnorm.Memory, MemoryError) as error:
        answers.append(type(error).__name__)
print(*sorted({str(it) for it in answers}))
"""
# A process that reads many texts, and says how much memory that took, in kB.
MANY = """
import dnorm, resource
text = open("large.gr", "rb").read()
peaks = []
for _ in range(2):
    for _ in range(20):
        dnorm.read(text)
    peaks.append(resource.getrusage(resource.RUSAGE_SELF).ru_maxrss)
print(peaks[1] - peaks[0])
"""


@pytest.mark.parametrize("package, library", PLACES)
def test_places(c_library: str, package: str, library: str) -> None:
    """The places of the library beside the package."""
    shutil.copytree(f"{PACKAGE}/dnorm", f"{package}/dnorm", ignore=shutil.ignore_patterns("__pycache__"))
    own = {"PYTHONPATH": os.path.abspath(package), "PYTHONDONTWRITEBYTECODE": "1"}
    none = "libdnorm.so.3: cannot be used (it is not there; docs/FILES.md says where to get it)\n"
    assert run([sys.executable, "-c", FINDS, "riscv64"], env=own) == said(none)
    os.makedirs(os.path.dirname(library), exist_ok=True)
    shutil.copy(f"{c_library}/lib/libdnorm.so.3", library)
    found = run([sys.executable, "-c", FINDS, "riscv64"], env=own)
    assert found == said(f"{os.path.abspath(library)}\n")
    # A link to the package is the package, and another library may be named.
    os.symlink(f"{package}/dnorm", "dnorm")
    assert run([sys.executable, "-c", FINDS, "riscv64"], env={**own, "PYTHONPATH": os.getcwd()}) == found
    shutil.copy(library, "other")
    for named in ["other", os.path.abspath("other")]:
        found = run([sys.executable, "-c", FINDS], env={**own, "DNORM_LIBRARY": named})
        assert found == said(f"{os.path.abspath('other')}\n"), named


@pytest.mark.parametrize("name", OTHERS)
def test_others(c_library: str, name: str) -> None:
    """Another library than this one is an error where it is named, and passed over where another one is found."""
    need("cc")
    (source, reason), path = OTHERS[name], os.path.abspath("libdnorm.so.3")
    write("it.c", source or "")
    if source:
        assert run(["cc", "-shared", "-fPIC", "-o", path, "it.c"]) == said(), f"cc {name}"
    else:
        write(path, "text")
    os.environ["DNORM_LIBRARY"] = path
    found = told(lambda: dnorm.read(ROADS))
    assert found.startswith(f"NoLibrary: {path}: cannot be used (") and reason in found, found
    assert module("check", "it.c").status == 4, "a command"
    os.environ["DNORM_LIBRARY"] = "/none"
    found = told(lambda: dnorm.read(ROADS))
    assert found.startswith("NoLibrary: /none: cannot be used (/none: cannot open shared object"), found
    shutil.copytree(f"{PACKAGE}/dnorm", "a/b/c/dnorm", ignore=shutil.ignore_patterns("__pycache__"))
    shutil.copy(path, "a/b/c/dnorm/libdnorm.so.3")
    os.makedirs("a/lib")
    shutil.copy(f"{c_library}/lib/libdnorm.so.3", "a/lib")
    own = {"PYTHONPATH": os.path.abspath("a/b/c"), "PYTHONDONTWRITEBYTECODE": "1"}
    assert run([sys.executable, "-c", FINDS], env=own) == said(f"{os.path.abspath('a/lib/libdnorm.so.3')}\n")


def test_in_rooms() -> None:
    """Columns are copied whole in rooms of several sizes, and that after each room it is seen whether the
    time is over: looks at the clock are counted."""
    texts = {
        b"p sp 1000 1000\n" + b"".join(b"a %d 1 7\n" % it for it in range(1, 1001)): 1000,
        b"p aux sp co 1000\n" + b"".join(b"v %d 1 7\n" % it for it in range(1, 1001)): 1000,
        b"p min 2 300\n" + b"".join(b"a 1 2 0 1 %d\n" % it for it in range(300)): 300,
    }
    kept, names = dnorm.library.ROOM, vars(dnorm.limits)
    clock = names["time"]
    for text, count in texts.items():
        whole, looks = dnorm.read(text), set()
        for room in [1, 7, 300, 1000, 1001]:
            dnorm.library.ROOM = room
            assert dnorm.read(text) == whole, f"{count} rows in rooms of {room}"
            clock_looks = itertools.count()
            names["time"] = types.SimpleNamespace(monotonic=clock_looks.__next__)
            dnorm.read(text, timeout=9999)
            looks.add(next(clock_looks) - -(-count // room))
            names["time"] = clock
        assert len(looks) == 1, f"looks at the clock beside one a room, {whole.kind}"
    dnorm.library.ROOM = kept


def test_in_threads() -> None:
    """Reads from several threads, that all of them stop, little memory, and a text without an end."""
    texts = [b"p sp 9 2\na %d 2 7\na %d 3 7\n" % (it % 9 + 1, it % 9 + 1) for it in range(200)] + [b"p sp 1 1\nq\n"]
    with ThreadPoolExecutor(8) as pool:
        found = list(pool.map(lambda it: told(lambda: [*dnorm.read(it).rows()]), texts))
    wanted = [f"{[(it % 9 + 1, 2, 7), (it % 9 + 1, 3, 7)]}\n" for it in range(200)] + ["Refused: -:2: 5 WrongLine"]
    assert found == wanted, "reads from eight threads"
    count = 100_000
    write("large.gr", f"p sp {count} {count}\n" + "".join(f"a {it} 1 1\n" for it in range(1, count + 1)))
    found_little = {*python(LITTLE).out.decode().split()}
    is_known = {str(count), "Memory"} <= found_little <= {str(count), "Memory", "MemoryError"}
    assert is_known, f"little memory: {found_little}"
    more = int(python(MANY).out)
    assert more < 2000, f"forty reads take {more} kB more than twenty"
    kept, dnorm.library.ENDLESS = dnorm.library.ENDLESS, len(ROADS)
    assert told(lambda: dnorm.read(ROADS)) == "Endless: -: 32 Endless", "a text without an end"
    dnorm.library.ENDLESS = kept


def test_at_once(monkeypatch: pytest.MonkeyPatch) -> None:
    """Two calls at the same time, of which either may fail, also where no thread starts; and which refusal is told of
    two files that are read so."""
    wanted = threading.Event()

    def fail() -> str:
        raise ValueError("it fails")

    def wait() -> bool:
        return wanted.wait(LIMIT)

    def both(one: Callable[[], object], other: Callable[[], object]) -> str:
        return told(lambda: dnorm.limits.at_once(one, other, wanted.set))

    def not_started(_: threading.Thread) -> None:
        raise RuntimeError("can't start new thread")

    assert both(fail, wait) == "ValueError: it fails", "the first one fails, and the other one is asked to end"
    wanted.clear()
    # A signal comes while the first call has ended, and the second one has not. The handler of the tests would end this
    # process.
    handler = signal.signal(signal.SIGINT, signal.default_int_handler)
    main = threading.main_thread().ident
    assert main
    threading.Timer(0.3, signal.pthread_kill, [main, signal.SIGINT]).start()
    with pytest.raises(KeyboardInterrupt):
        both(lambda: 1, wait)
    signal.signal(signal.SIGINT, handler)
    assert wanted.is_set(), "the other one is asked to end"
    for start in [threading.Thread.start, not_started]:
        with monkeypatch.context() as patched:
            patched.setattr(threading.Thread, "start", start)
            assert both(lambda: 1, lambda: 2) == "(1, 2)\n", "two calls"
            assert both(lambda: 1, fail) == "ValueError: it fails", "the second one fails"
    for name, text in {"good.gr": ROADS, "bad.gr": b"p sp 2 1\na 1 3 5\n", "worse.gr": b"x\n"}.items():
        write(name, text)
    told_of = {"good.gr": "same\n", "bad.gr": "Refused: bad.gr:2: 13 NodeOutOfRange"}
    told_of |= {"worse.gr": "Refused: worse.gr:1: 1 BadLine"}
    told_of |= {"none.gr": "Read: none.gr: 31 Read (No such file or directory)"}
    for left, right in itertools.product(told_of, told_of):
        first = told_of[left if left != "good.gr" else right]
        assert told(functools.partial(first_of, left, right)) == first, f"{left} and {right}"


def first_of(left: str, right: str) -> object:
    """Returns the first difference of two files."""
    return dnorm.differences(left, right).first
