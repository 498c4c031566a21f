"""The theory in model/: its proofs are checked, the reference program answers as dnorm does, and wrong definitions have
no proof. The known texts and the search of tests/program run on it as well. ./check without --all leaves out the wrong
definitions and most random texts, which take minutes."""

import os
import re
import shutil
import subprocess
import sys
from collections.abc import Iterator, Sequence
from concurrent.futures import ThreadPoolExecutor
from random import Random

import pytest
from needs import leave_out_unless_all, need, passes
from reading import LINES
from shared import ROOT, Answer
from texts import lines_of, made, spelled, spoilt

pytestmark = [pytest.mark.slow, pytest.mark.xdist_group("model")]
MODEL = f"{ROOT}/model"
BUILD, SUITE, REFUSED = f"{MODEL}/build", f"{ROOT}/suite", f"{ROOT}/examples/refused"
# How many runs are made on random texts, of which a run has one or two, and in how many parts.
RUNS, PARTS = 20000, 20
# What differs among the files of which a wrong definition is made: the file, a text in it, and what replaces it.
WRONG = {
    "a share below LOW": ("Meaning", "low a <= s <= cap a", "0 <= s <= cap a"),
    "the greatest length": ("Meaning", "Forall (fun w' => w <= w') B", "Forall (fun w' => w' <= w) B"),
    "arcs of both directions in a bundle": (
        "Meaning",
        "(fst p =? fst q) && (snd p =? snd q)",
        "(fst p =? fst q) && (snd p =? snd q) || (fst p =? snd q) && (snd p =? fst q)",
    ),
    "sums of capacities past the range": ("Text", "2 ^ 63 <=? total", "2 ^ 63 <? total"),
    "a line after the last LF": ("Text", "[p] => if is_empty p then [] else [p]", "[p] => [p]"),
    "a comment that wants a blank": (
        "Text",
        '(c :: _) :: _ => Ascii.eqb c "c"',
        'w :: _ => is_text w (bytes "c"%string)',
    ),
    "a supply of 0 that is kept": ("Text", "if amount =? 0 then [] else [(id, amount)]", "[(id, amount)]"),
    "terminals turned": (
        "Text",
        "(hd 0 (flat_map (terminal_in 0) l)) (hd 0 (flat_map (terminal_in 1) l))",
        "(hd 0 (flat_map (terminal_in 1) l)) (hd 0 (flat_map (terminal_in 0) l))",
    ),
    "the range before the numbers": (
        "Text",
        "(NotANumber, lacks (fun f => negb (is_terminal f)));\n    (OutOfRange, "
        "existsb (fun n => negb (fits n)) ns);",
        "(OutOfRange, existsb (fun n => negb "
        "(fits n)) ns);\n    (NotANumber, lacks (fun f => negb (is_terminal f)));",
    ),
    "equal costs in a canonical list": ("Canon", "cost a < cost b", "cost a <= cost b"),
    "fixed arcs at costs c and c + 2": ("Canon", "cost b = cost a + 1", "cost b = cost a + 2"),
    "an arc of capacity 0": ("Canon", "Forall (fun c => 1 <= c) B", "Forall (fun c => 0 <= c) B"),
    "r and L - r turned": (
        "Curve",
        "[(F / L, L - F mod L); (F / L + 1, F mod L)]",
        "[(F / L, F mod L); (F / L + 1, L - F mod L)]",
    ),
    "a gap at any amount": ("Difference", "forall y k, y < x ->", "forall y k, y < x - 1 ->"),
    "a companion that names node NODES": ("Difference", "nodes <? id", "nodes <=? id"),
    "an entry for each forced arc": ("Canon", "nodup ends_dec (map fst (filter", "id (map fst (filter"),
    "an entry for a pair without LOW": ("Canon", "0 <? low (snd a)) arcs", "0 <=? low (snd a)) arcs"),
    "an entry for each free arc": ("Canon", "nodup price_dec (map", "id (map"),
    "an entry for the cost of a fixed arc": ("Canon", "low (snd a) <? cap (snd a)", "low (snd a) <=? cap (snd a)"),
    "one entry for a cost of two pairs": ("Canon", "(fst a, cost (snd a))", "((0, 0), cost (snd a))"),
    "an entry for a total CAP of 0": ("Canon", "0 <? total (bundle arcs p)", "0 <=? total (bundle arcs p)"),
    "an entry for each length": ("Canon", "_ arcs => len (nodup ends_dec (map fst arcs))", "_ arcs => len arcs"),
    "an entry for each node with lengths": (
        "Canon",
        "len (nodup ends_dec (map fst arcs))",
        "len (nodup Z.eq_dec (map (fun a => fst (fst a)) arcs))",
    ),
    "one entry for equal items": ("Canon", "Sources ids => len ids", "Sources ids => len (nodup Z.eq_dec ids)"),
    "a walk on arcs that are not there": ("Answers", "incl walk arcs", "incl walk walk"),
    "a walk that jumps": ("Answers", "=> fst (fst a) = u", "=> fst (fst a) = fst (fst a)"),
    "a walk that ends anywhere": ("Answers", "[] => u = v", "[] => u = u"),
    "a walk against its arcs": (
        "Answers",
        "fst (fst a) = u /\\ Leads (snd (fst a)) walk v",
        "snd (fst a) = u /\\ Leads (fst (fst a)) walk v",
    ),
    "a walk from a node that is not there": ("Answers", "IsNode nodes u", "IsNode u u"),
    "a length of 1 for each arc": (
        "Answers",
        "total (map snd walk) <= bound",
        "total (map (fun _ => 1) walk) <= bound",
    ),
    "any bound for the distance": ("Answers", "arcs u v bound -> d <= bound", "arcs u v bound -> bound <= bound"),
    "a flow above CAP": ("Answers", "0 <= f <= snd a) arcs flow /\\ net", "0 <= f <= f) arcs flow /\\ net"),
    "a flow below 0": ("Answers", "0 <= f <= snd a) arcs flow /\\ net", "f <= f <= snd a) arcs flow /\\ net"),
    "inflow less outflow": (
        "Answers",
        "fst (fst e) =? v) - Z.b2z (snd (fst e) =? v)",
        "snd (fst e) =? v) - Z.b2z (fst (fst e) =? v)",
    ),
    "outflow alone": ("Answers", "- Z.b2z (snd (fst e) =? v)", "- 0"),
    "a sink that lets nothing out": ("Answers", "v <> sink -> net", "v <> source -> net"),
    "a source that lets nothing out": ("Answers", "v <> source -> v <> sink ->", "v <> sink -> v <> sink ->"),
    "units that get lost": (
        "Answers",
        "net_outflow v arcs flow = 0.",
        "net_outflow v arcs flow = net_outflow v arcs flow.",
    ),
    "the value at the sink": ("Answers", "net_outflow source arcs flow = value", "net_outflow sink arcs flow = value"),
    "any value for the greatest": ("Answers", "arcs other -> other <= value", "arcs other -> other <= other"),
    "the least value": ("Answers", "arcs other -> other <= value", "arcs other -> value <= other"),
    "a feasible flow below LOW": ("Answers", "low (snd a) <= f <= cap (snd a)) arcs", "f <= f <= cap (snd a)) arcs"),
    "a feasible flow above CAP": ("Answers", "low (snd a) <= f <= cap (snd a)) arcs", "low (snd a) <= f <= f) arcs"),
    "demands for supplies": (
        "Answers",
        "(forall v, net_outflow v arcs flow =",
        "(forall v, - net_outflow v arcs flow =",
    ),
    "supplies not used up": (
        "Answers",
        "(forall v, net_outflow v arcs flow =",
        "(forall v, net_outflow v arcs flow <=",
    ),
    "a supply of 1 where none is listed": ("Answers", "None => 0 end) /\\", "None => 1 end) /\\"),
    "units for costs": ("Answers", "cost_of (map snd arcs) flow <= bound", "total flow <= bound"),
    "any cost for the least": ("Answers", "supplies arcs bound -> k <= bound", "supplies arcs bound -> bound <= bound"),
    "answers of different companions": ("Answers", "| _, _ => I = J", "| _, _ => True"),
    "the same walks in all graphs": (
        "Answers",
        "(HasWalkWithin n a u v k <-> HasWalkWithin m b u v k) /\\",
        "True \\/",
    ),
    "the same values in all graphs": ("Answers", "(HasValue s t a x <-> HasValue q r b x) /\\", "True \\/"),
    "the same costs in all graphs": ("Answers", "(HasFlowWithin s a k <-> HasFlowWithin t b k) /\\", "True \\/"),
}


def run(*words: str, folder: str = ".") -> Answer:
    """Runs a command in a folder, without the reference program's second start."""
    env = {**os.environ, "REFERENCE_STACK": "1"}
    done = subprocess.run(words, capture_output=True, check=False, cwd=folder, env=env)
    return Answer(done.stdout, done.stderr, done.returncode)


def files() -> list[str]:
    """Returns the files of the theory, in the order in which they need each other."""
    return run("make", "-s", "-C", MODEL, "files").out.decode().split()


def outside_sections(text: str) -> str:
    """Returns a file without its sections, whose hypotheses become premises."""
    return re.sub(r"^Section (\w+)\..*?^End \1\.", "", text, flags=re.M | re.S)


@pytest.fixture(scope="module")
def reference() -> str:
    """The path of the reference program, made anew if the model has changed."""
    need("coqc", "ocamlfind", "make")
    built = run("make", "-C", MODEL)
    assert built.status == 0, built
    return f"{BUILD}/reference"


def test_admitted(reference: str, tmp_path: str) -> None:
    """No theorem is admitted. If one were, `make` would fail."""
    leave_out_unless_all()
    for it in files():
        with open(f"{MODEL}/{it}.v", encoding="ascii") as file:
            text = file.read()
        assert not re.search(r"\b(Admitted|admit|Axiom|Parameter|Conjecture|Hypothesis)\b", outside_sections(text)), it
        if it == "Headline":
            text, count = re.subn(r"Qed\.(?=\n\n\(\*\* \*\* What this rests on)", "Admitted.", text)
            assert count == 1
        with open(f"{tmp_path}/{it}.v", "w", encoding="ascii") as file:
            file.write(text)
    shutil.copy(f"{MODEL}/Makefile", tmp_path)
    found = run("make", "-C", str(tmp_path), "build/checked")
    assert found.status != 0 and b"Axioms:" in found.out, found


def test_suite(reference: str) -> None:
    """The reference program passes the conformance suite whole."""
    found = run(sys.executable, f"{SUITE}/run.py", "--level", "compare", reference)
    assert found.status == 0 and b" 0 fail (level compare)" in found.out, found


@pytest.mark.parametrize("name", ["answers", "search"])
def test_as_the_program(reference: str, name: str) -> None:
    """The reference program passes tests of the program: the known texts, and the search with the second reading."""
    passes(reference, f"{ROOT}/tests/program/test_{name}.py", "-m", "not slow and not alone", CI="")


def test_long(reference: str, tmp_path: str) -> None:
    """A text of 10 MB, in one word or in many lines, needs no more stack than there is, and takes little time."""
    for number, text in enumerate(
        [f"p sp 1 1\na 1 1 {'7' * 10**7}\n", "c\n" * 5 * 10**6, f"p aux sp ss {10**6}\n" + "s 1234567\n" * 10**6]
    ):
        path = f"{tmp_path}/{number}"
        with open(path, "w", encoding="ascii") as file:
            file.write(text)
        # Started as users do, by itself.
        found = subprocess.run([reference, "check", path], capture_output=True, check=False, timeout=60)
        wanted = [f"{path}:2: 10 OutOfRange\n", f"{path}:end: 18 NoProblem\n", "accepted ss\nforms 1 2\n"][number]
        assert (found.stdout or found.stderr).decode() == wanted, path


def test_examples(reference: str, tested: str) -> None:
    """Each refused example has the refusal in its name."""
    for name in sorted(os.listdir(REFUSED)):
        words = ["check", f"{REFUSED}/{name}"]
        found = run(reference, *words)
        assert found == run(tested, *words), name
        assert name.partition(".")[0] == "-".join(found.err.decode().split(": ", 1)[1].split()).zfill(
            len(name.partition(".")[0])
        ), found


def random_text(seed: int) -> bytes:
    """Returns a random text, the same each time, which is accepted or faulty."""
    chance = Random(f"model {seed}")
    lines = lines_of(chance, made(chance, chance.choice(list(LINES)), chance.randrange(4) == 0))
    return spelled(chance, spoilt(chance, lines) if chance.randrange(2) else lines)


def asked(seed: int, folder: str) -> Sequence[str]:
    """Makes files of random texts, and returns the arguments of a run on them."""
    names = [f"{folder}/{seed}.{it}" for it in range(2)]
    for at, name in enumerate(names):
        with open(name, "wb") as file:
            file.write(random_text(2 * seed + at))
    left, right = names
    shapes = [
        ["canon", left],
        ["canon", "--form", "2", left],
        ["show", left],
        ["check", left],
        ["compare", left, right],
        ["check", left, "--with", right],
    ]
    return shapes[seed % len(shapes)]


@pytest.mark.parametrize("part", range(PARTS))
def test_random(reference: str, tested: str, tmp_path: str, part: int) -> None:
    """The reference program answers random texts as dnorm does: out, err and status."""
    if part > 2:
        leave_out_unless_all()

    def tried(seed: int) -> bool:
        words = asked(seed, str(tmp_path))
        one, other = run(reference, *words), run(tested, *words)
        assert one == other, (words, one, other, [open(it, "rb").read() for it in words if "/" in it])
        for it in range(2):
            os.remove(f"{tmp_path}/{seed}.{it}")
        return other.status < 2

    with ThreadPoolExecutor(os.cpu_count()) as pool:
        done = list(pool.map(tried, range(part, RUNS, PARTS)))
    assert len(done) / 10 < sum(done) < len(done), "some are accepted, and some are refused"


def checked(folder: str, names: Sequence[str]) -> Iterator[tuple[str, Answer]]:
    """Checks files in order, up to the first that has no proof."""
    for it in names:
        found = run("coqc", "-q", "-Q", ".", "Model", f"{it}.v", folder=folder)
        yield it, found
        if found.status:
            return


def in_proof(path: str, err: bytes) -> bool:
    """Whether an error is in a proof, and not in a definition or in what a theorem says."""
    place = re.search(rb"line (\d+), characters (\d+)", err)
    assert place, err
    line, column = int(place[1]), int(place[2])
    with open(path, encoding="ascii") as file:
        rows = file.read().split("\n")
    before = "\n".join([*rows[: line - 1], rows[line - 1][:column]])
    return before.rfind("Proof.") > max(before.rfind("Qed."), before.rfind("Defined."))


@pytest.mark.parametrize("what", WRONG)
def test_wrong(reference: str, tmp_path: str, what: str) -> None:
    """With a wrong definition, a theorem has no proof, or an example is false."""
    leave_out_unless_all()
    name, old, new = WRONG[what]
    names = files()
    folder = str(shutil.copytree(os.path.dirname(reference), f"{tmp_path}/model"))
    with open(f"{folder}/{name}.v", encoding="ascii") as file:
        text = file.read()
    assert text.count(old) == 1, "what is replaced is there once"
    with open(f"{folder}/{name}.v", "w", encoding="ascii") as file:
        file.write(text.replace(old, new))
    *_, (last, found) = checked(folder, names[names.index(name) :])
    assert found.status != 0, "all proofs are checked"
    assert in_proof(f"{folder}/{last}.v", found.err), found
