"""Tests the records of files against the program and a second reading of the texts, on a collection with broken files,
and against their schema; what `check_folder` returns of the same files; how manifests differ; and what `differences`
tells of pairs and of nodes."""

import bz2
import gzip
import hashlib
import importlib
import importlib.util
import json
import lzma
import os
import random
import re
from collections.abc import Callable
from typing import Any

from collection import FAULTS, OTHERS, make_collection, make_pipes
from known import CANONICAL, COSTS, ROADS
from needs import leave_out
from reading import GRAPHS, canonical, read
from shared import ROOT, bytes_of, make, run, text_of, write
from test_calls import BOTH, FORMS, READS, standing_in, told
from test_folders import module
from test_manifests import ONES, ZEROS

import dnorm
from dnorm.records import Record

pytestmark = READS
SCHEMA = f"{ROOT}/python/records.json"
PLAIN: dict[str, Callable[[bytes], bytes]] = {".gz": gzip.decompress, ".bz2": bz2.decompress, ".xz": lzma.decompress}
SEED, ROUNDS = 91, 60


def records_of(*words: str) -> tuple[list[dict[str, Any]], dict[str, Any]]:
    """Returns the records that a command prints, and its last one."""
    *found, last = [json.loads(it) for it in module(*words).out.splitlines()]
    assert [*last] == ["summary"]
    return found, last["summary"]


def expected(text: bytes) -> dict[str, object]:
    """Returns what the record of an accepted text says of it, by the second reading."""
    found = read(text)
    whole = canonical(found, 1)
    arcs = [it.split() for it in whole.splitlines() if it.startswith(b"a ")]
    is_graph = found.kind in GRAPHS
    pairs = {(it[1], it[2]) for it in arcs}
    return {
        "kind": found.kind, "bytes": len(text), "nodes": found.nodes if is_graph else None,
        "declared": len(found.items), "canonical": int(whole.partition(b"\n")[0].split()[-1]),
        "merged": len(found.items) - len(pairs) if is_graph else None,
        "self_loops": sum(it[1] == it[2] for it in arcs) if is_graph else None,
        "checksum": hashlib.sha256(whole).hexdigest(),
    }  # fmt: skip


def test_of_collection(tested: str) -> None:
    """The records of 300 files that are accepted and of all that are broken, and the last one's counts."""
    remarks = make_collection()
    pipes = make_pipes()
    found, last = records_of("check", "--json", "--companions", "coll")
    of = {it["name"]: it for it in found}
    faults = {**FAULTS, **pipes}
    assert {*of} == {*faults, *remarks}
    for name, fault in faults.items():
        it = of[name]
        assert it["status"] in ("refused", "failed") and re.match(fault, it["error"].removeprefix(name)), it
        assert it["checksum"] is it["kind"] is None, name
    for name in remarks:
        it, data = of[name], bytes_of(name)
        end = os.path.splitext(name)[1].lower()
        text = PLAIN[end](data) if end in PLAIN and name.startswith("coll/inst/") else data
        if name.startswith("coll/inst/"):
            wanted = expected(text)
            assert {key: it[key] for key in wanted} == wanted, name
            told_ = run([tested, "check", "-"], text).out.decode().splitlines()[0]
            assert told_ == f"accepted {it['kind']}", name
        assert it["status"] == "accepted", name
        assert re.fullmatch(remarks[name] or "", ", ".join(it["remarks"])), it
        is_companion = re.search(r"\.(ss|p2p|co)(\.|$)", name.lower())
        assert bool(is_companion) != (it["graphs"] is None), name
    assert of["coll/good.ss"]["graphs"] == ["coll/good.gr.gz"]
    assert of["coll/lone.ss"]["graphs"] == []
    statuses = [it["status"] for it in found]
    counts = {it: statuses.count(it) for it in ("accepted", "refused", "failed")}
    counts |= {"other_files": len(OTHERS), "status": 4}
    counts["without_graph"] = sum("no graph" in it["remarks"] for it in found)
    assert {it: last[it] for it in counts} == counts
    same = dnorm.check_folder("coll")
    assert [plain(it.as_dict()) for it in same.records] == [plain(it) for it in found], "check_folder"
    assert {it: last[it] for it in same.counts} == same.counts
    assert Record("x.ss", error=dnorm.Read("x.ss", "no\ngraph")).what == ": 31 Read (no graph)", "a line for each"
    html = same._repr_html_()
    assert html.startswith("<p>&lt;dnorm.Collection: ") and html.count("<tr>") == 12, html


def test_forms(stand_in: str) -> None:
    """The forms in which texts are canonical, whichever form the checksums are of; and files that take too long."""
    make({f"set/{at}-{place}.gr": text for at, row in enumerate(CANONICAL) for place, text in enumerate(row)})
    found = set()
    for form in FORMS:
        for it in dnorm.check_folder("set", form=form).records:
            text = bytes_of(it.name)
            assert it.forms == tuple(one for one in FORMS if dnorm.canon(text, one) == text), it
            assert it.checksum == dnorm.checksum(text, form), it
            found.add(it.forms)
    assert found == {(), (1,), (2,), (1, 2)}
    make({"one/t.gr": ROADS})
    with standing_in(stand_in, WAIT=1000):
        (late,) = dnorm.check_folder("one", timeout=0.3).records
    assert str(late.error) == "one/t.gr: took more than 0.3 seconds"
    assert told(lambda: dnorm.check_folder("one", timeout=-1)).startswith("ValueError: timeout is at least 0 ")


def plain(record: dict[str, Any]) -> dict[str, Any]:
    """Returns a record as JSON has it, without its time."""
    again: dict[str, Any] = json.loads(json.dumps({**record, "seconds": 0}))
    return again


def test_schema() -> None:
    """All that `--json` prints of files is as the schema says, and what is otherwise is not."""
    if not importlib.util.find_spec("jsonschema"):
        leave_out("jsonschema")
    schema = json.loads(text_of(SCHEMA))
    check: Any = importlib.import_module("jsonschema").Draft7Validator(schema)
    make({"set/a.gr": ROADS, "set/b.gr": ROADS, "set/c.min": COSTS, "set/d.ss": b"p aux sp ss 0\n", "set/e.gr": b"x\n"})
    os.symlink("nowhere", "set/f.gr")
    module("manifest", "--output", "kept", "set/a.gr", "set/c.min")
    write("kept", bytes_of("kept").replace(b"  set/a.gr", b"  set/a.gr").replace(b"4fe8", b"0fe8"))
    calls = [
        "check set",
        "check --companions set",
        "list set",
        "manifest set",
        "same set",
        "manifest --verify kept set",
    ]
    lines = [line for words in calls for line in module(*words.split(), "--json").out.splitlines()]
    assert len(lines) > 30
    for line in lines:
        assert [it.message for it in check.iter_errors(json.loads(line))] == [], line
    whole = json.loads(lines[0])
    for key in whole:
        assert not check.is_valid({it: value for it, value in whole.items() if it != key}), f"without {key}"
        assert not check.is_valid({**whole, key: {}}), f"another {key}"
    assert not check.is_valid({**whole, "more": 1})


def test_changes() -> None:
    """How two manifests differ, and texts that are none."""
    make({f"set/{it}.gr": b"p sp %d 0\n" % at for at, it in enumerate("abcdef")} | {"set/a2.gr": b"p sp 0 0\n"})
    module("manifest", "--output", "old.gz", "set")
    for old, new in [("a", "moved"), ("b", "also")]:
        os.rename(f"set/{old}.gr", f"set/{new}.gr")
    os.remove("set/c.gr")
    make({"set/d.gr": b"p sp 99 0\n", "set/new.gr": b"p sp 98 0\n"})
    found = dnorm.manifest_changes(dnorm.read_manifest("old.gz"), dnorm.check_folder("set").manifest)
    assert (found.new, found.gone, found.changed) == (("set/new.gr",), ("set/c.gr",), ("set/d.gr",))
    assert found.renamed == (("set/a.gr", "set/moved.gr"), ("set/b.gr", "set/also.gr"))
    assert found._repr_html_().count("<tr>") == 6
    twins = (dnorm.Manifest(1, dict.fromkeys(names, ONES)) for names in ("ab", "cd"))
    assert dnorm.manifest_changes(*twins).renamed == (("a", "c"), ("b", "d")), "two files of one problem"
    assert dnorm.read_manifest(b"# form 1, 0 files\n").checksums == {}, "a manifest of an empty collection"
    one, two = dnorm.Manifest(1, {"a": ZEROS}), dnorm.Manifest(2, {"a": ZEROS})
    assert told(lambda: dnorm.manifest_changes(one, two)) == "ValueError: the manifests are of form 1 and of form 2"
    for text in ["", "x\n", f"{ZEROS}  a", f"# form 1, 2 files\n{ONES}  a\n"]:
        assert told(lambda: dnorm.read_manifest(text.encode())).startswith("Read: -: 31 Read ("), text
    assert dnorm.read_manifest(f"# form 2, 1 file\n{ONES}  a\n".encode()).checksums == {"a": ONES}


def flows(arcs: dnorm.pairs.Arcs) -> dict[int, int]:
    """Returns the least cost of each amount that arcs carry, by trying all."""
    found = {0: 0}
    for low, cap, cost in arcs:
        more: dict[int, int] = {}
        for amount, paid in found.items():
            for units in range(low, cap + 1):
                at, cost_of = amount + units, paid + units * cost
                more[at] = min(more.get(at, cost_of), cost_of)
        found = more
    return found


def on_curve(curve: dnorm.pairs.Curve) -> dict[int, int]:
    """Returns the costs of all amounts of a curve."""
    found = dict(curve[:1])
    for (low, cost), (high, more) in zip(curve, curve[1:]):
        found.update((it, cost + (more - cost) // (high - low) * (it - low)) for it in range(low, high + 1))
    return found


@BOTH
def test_curves_and_arcs() -> None:
    """The curves of pairs against all flows and the verdict of the program, the arcs around nodes, and which pairs come
    first."""
    chance = random.Random(SEED)

    def text() -> bytes:
        arcs = []
        for _ in range(chance.randint(0, 9)):
            low = chance.choice([0, 0, 1, 2])
            arcs.append((*chance.sample(range(1, 4), 2), low, low + chance.randint(0, 3), chance.randint(-2, 3)))
        return b"p min 3 %d\n" % len(arcs) + b"".join(b"a %d %d %d %d %d\n" % it for it in arcs)

    for _ in range(ROUNDS):
        one, other = text(), text()
        found = dnorm.differences(one, other)
        assert (found.left, found.right) == (dnorm.read(one, 2), dnorm.read(other, 2))
        shared = [bool(it.left and it.right) for it in found.pairs]
        assert shared == sorted(shared, reverse=True), "pairs that both have come first"
        for pair in found.pairs:
            left, right = map(on_curve, pair.curves())
            assert (left, right) == (flows(pair.left), flows(pair.right)), pair
            first = found.first
            if isinstance(first, dnorm.Difference) and pair.key == first.pair:
                amount = first.amount or 0
                assert (left.get(amount), right.get(amount)) == (first.left, first.right), pair
        for node in range(1, 5):
            wanted = {it[:2] for side in (found.left, found.right) for it in side if node in it[:2]}
            near = found.around(node)
            assert [it.key for it in near] == sorted(wanted)
            for it in near:
                for arcs, side in [(it.left, found.left), (it.right, found.right)]:
                    assert arcs == tuple(row[2:] for row in side if row[:2] == it.key)
    lists = dnorm.differences(b"p aux sp ss 1\ns 1\n", b"p aux sp ss 1\ns 2\n")
    assert told(lambda: lists.around(1)) == "TypeError: only graphs have arcs"
    assert told(lambda: lists.pairs[0].curves()) == "TypeError: only the arcs of a min text have costs"
    kinds = dnorm.differences(ROADS, b"p aux sp ss 0\n")
    assert (kinds.left.kind, kinds.right.kind, kinds.kind) == ("sp", "ss", None)
