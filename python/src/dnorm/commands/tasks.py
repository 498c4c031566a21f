"""The commands of `dnorm-files` on many files. Each reads its files once, and prints their records or views."""

import contextlib
import errno
import json
import os
from argparse import Namespace
from collections import Counter
from collections.abc import Callable, Iterable
from itertools import chain, islice
from typing import Optional

from ..calls import canon_into
from ..console import Console
from ..errors import DnormError, Read
from ..files import Bounds, Copied, File, Text, sink_of
from ..folders import Collection, Found, find, in_order_of_names
from ..library import held
from ..limits import Limit, Workers
from ..manifests import Entry, Manifest, Mark, line_with, manifest_changes, manifest_in, manifest_text, read_manifest
from ..manifests import renewed
from ..names import parts_of, place_of, real, stem_of
from ..pairs import differences
from ..records import WITH_COMPANIONS, Partners, Reading, Record, Tells, counts_of
from .look import page_of_folder, page_of_pair, summary_of
from .reports import HEADS, annotation_of, causes_of, counted, groups_of, junit, line_of, lines_of_differences
from .reports import lines_of_show, row_of, text_of, told_others
from .staged import git, staged

# The exit statuses besides 0. The greatest one that applies counts.
DIFFERS, REFUSED, FAILED = 1, 2, 4
# How long the check of a staged file may take.
MINUTE = 60
# What the accepted files are called at the end, by commands that call them otherwise.
DONE = {"manifest": "listed", "verify": "same", "list": "listed", "show": "shown"}
# What is told also if there is none of it.
ALWAYS = {*DONE.values(), "accepted", "different", "refused", "failed"}
REMARKS = ("without_graph", "graph_not_accepted", "other_kind")


class Incomplete(Exception):
    """A file is not written, since it would not be complete."""


class Run:
    """A run of a command, with the parsed arguments `words`. `own` is the status of what has no record."""

    def __init__(self, words: Namespace, console: Console) -> None:
        self.words, self.console = words, console
        self.records: list[Record] = []
        self.own = self.excluded = 0
        self.others: dict[str, str] = {}
        # How many files are done, if not all of them; the results that a signal has left; and what takes a result.
        self.unfinished = ""
        self.rest: list[Record] = []
        self.take: Callable[[Record], None] = lambda _: None

    @property
    def status(self) -> int:
        found = {it.status for it in self.records}
        return FAILED if "failed" in found else REFUSED if "refused" in found else self.own

    @property
    def is_json(self) -> bool:
        return bool(self.words.format == "json")

    def reading(self, found: Found, tells: Tells, partners: Optional[Partners] = None) -> Reading:
        """Returns how these files are read whose records tell so much, and more as JSON."""
        words, tells = self.words, "whole" if self.is_json and tells != "contents" else tells
        is_strict = words.task == "check" and words.strict
        return Reading(words.form, partners, is_strict, tells, words.timeout, found.bounds, found.files)

    def sink(self, name: str) -> contextlib.AbstractContextManager[Callable[[bytes], object]]:
        """Opens what an option names to be written: a file, or standard output."""
        return contextlib.nullcontext(self.console.print) if name == "-" else sink_of(name)

    def check(self) -> None:
        """Checks files, and prints a line for each, and at the end the refusals with their causes."""
        words, is_staged = self.words, self.words.staged is not None
        with contextlib.ExitStack() as stack:
            if is_staged:
                # The texts are in another folder, which becomes the current one.
                words.junit = words.junit if words.junit in (None, "-") else os.path.abspath(words.junit)
                words.strict = words.strict or git("config", "--bool", "--default=false", "dnorm.strict") != b"false\n"
                words.timeout = words.timeout or MINUTE
            found = staged(words.staged or None, words.exclude, stack) if is_staged else self.found()
            report = stack.enter_context(self.sink(words.junit)) if words.junit else None
            reading = self.reading(found, "kind", self.partners(found) if words.companions else None)
            self.read(in_order_of_names(found.files), reading.record, self.print_record)
            if report:
                report(junit(self.records))
        self.print_end()
        if not is_staged or self.status or any(it.remarks for it in self.records):
            self.sum_up({}, remarks=REMARKS)
        if is_staged and self.status:
            self.console.complain("git config --add dnorm.exclude PATTERN leaves files out of this check\n")

    def partners(self, found: Found) -> Partners:
        """Returns the partners of files, and adds the companions of graphs that are named."""
        partners = Partners(found.files)
        graphs = [it for it in self.words.path if it in found.files and parts_of(it)[1] in WITH_COMPANIONS]
        beside = (it for name in graphs for it in partners.companions.get(stem_of(name), ()))
        found.files = {**dict.fromkeys(beside), **found.files}
        return partners

    def print_record(self, it: Record) -> None:
        """Prints what the check of a file leads to. Of what is staged, refused and failed files come at the end."""
        words = self.words
        if words.junit == "-" or not it.error and not it.remarks and (words.quiet or words.staged is not None):
            return
        if words.format != "text":
            self.console.print(it.as_json() if self.is_json else annotation_of(it))
        elif not it.error or words.staged is None:
            self.console.print(line_of(it) + (causes_of(it) if self.is_once and not words.quiet else ""))

    @property
    def is_once(self) -> bool:
        """Whether a terminal shows each error once, with its causes below its line."""
        return self.console.is_shown and self.console.is_terminal and self.words.staged is None

    def print_end(self) -> None:
        """Prints the refused and failed files again, with the causes, on standard error."""
        if self.words.format != "text" or self.words.quiet or self.is_once:
            return
        for it in self.records:
            causes = causes_of(it)
            # A line that is the only one and has no cause would say the same once more.
            if it.error and (causes or len(self.records) > 1 or self.words.staged is not None):
                self.console.complain(line_of(it) + causes)

    def manifest(self) -> None:
        """Prints the canonical checksum of each file, or writes them into a file, whose marks leave files out."""
        words, found = self.words, self.found()
        reading, output = self.reading(found, "checksum"), words.incremental or words.output
        # There may be no such file yet.
        is_renewed = words.incremental is not None and os.path.lexists(words.incremental)
        known = self.listed(words.incremental, is_empty=True) if is_renewed else {}
        entries: list[Entry] = []
        marks: dict[str, Optional[Mark]] = {}

        def record(name: str) -> Record:
            one, marks[name] = renewed(name, words.form, reading.record, known.get(name))
            return one

        def take(it: Record) -> None:
            if it.checksum:
                entries.append(Entry(it.name, it.checksum, words.form, marks[it.name]))
            self.tell(it)

        with contextlib.suppress(Incomplete), contextlib.ExitStack() as stack:
            target = stack.enter_context(self.sink(output)) if output else None
            self.read(found.files, record, take)
            if target and any(it.status == "failed" for it in self.records):
                self.console.complain(line_with(output, after=": not written, since it would lack what failed"))
                raise Incomplete
            text = manifest_text(entries, words.form, has_marks=words.incremental is not None)
            if target:
                target(os.fsencode(text))
            elif not self.is_json:
                self.console.print(text)
        unchanged = sum(it.status == "unchanged" for it in self.records)
        self.sum_up({"listed": len(entries) - unchanged, "unchanged": unchanged})

    def verify(self) -> None:
        """Prints how checksums of files differ from those of a manifest, and files of paths that it does not name."""
        entries = self.listed(self.words.verify)
        form = next(it.form for it in entries.values())
        # Others may have written the manifest.
        bounds = Bounds((real(self.words.within or "/"),))
        reading = Reading(form, tells="checksum", timeout=self.words.timeout, bounds=bounds)
        counts: Counter[str] = Counter()

        def take(it: Record) -> None:
            if isinstance(it.error, Read) and not os.path.lexists(it.name):
                self.records.pop()
                status = "gone"
            else:
                status = "" if it.error else "same" if it.checksum == entries[it.name].checksum else "different"
            counts[status] += 1
            self.say(it, status, {"checksum": entries[it.name].checksum, "form": form})

        self.read(entries, reading.record, take)
        known = set(map(place_of, entries))
        for name, error in self.found().files.items():
            if not error and not os.path.lexists(name):
                error = Read(name, os.strerror(errno.ENOENT))
            if error:
                self.records.append(Record(name, error=error))
                self.say(self.records[-1], "", {})
            elif place_of(name) not in known:
                counts["not_listed"] += 1
                self.say(Record(name), "not listed", {})
        first, more = ({it: counts[it] for it in names} for names in (("same", "different"), ("gone", "not_listed")))
        self.sum_up(first, more)

    def say(self, it: Record, status: str, more: dict[str, object]) -> None:
        """Prints what verifying a file leads to: the same, another difference, or an error."""
        if status in ("gone", "different", "not listed"):
            self.own = DIFFERS
        told = "differs" if status == "different" else status
        if self.is_json:
            self.console.print(json.dumps({"name": it.name, "status": told, **more}) + "\n" if told else it.as_json())
        elif it.error and not told:
            self.console.print(line_of(it))
        elif told != "same" or not self.words.quiet:
            self.console.print(line_with(it.name, after=f": {told}"))

    def listed(self, name: str, is_empty: bool = False) -> dict[str, Entry]:
        """Returns the entries of a manifest, which may be empty or not, and tells what is odd about it."""
        found, has_form = manifest_in(self.given(name))
        if not found and not is_empty:
            raise Read(name, "it lists no file")
        if found and not has_form:
            self.console.complain(line_with(name, after=": it does not say its form, which is taken for 1"))
        return found

    def same(self) -> None:
        """Prints groups of files that pose the same problem. A link to a file of a group is none of them."""
        found = self.found()
        self.read(found.files, self.reading(found, "checksum").record, self.complain_of)
        groups = groups_of(self.records)
        links = sum(it.checksum is not None for it in self.records) - sum(map(len, groups.values()))
        same = [(sum_, sorted(names, key=os.fsencode)) for sum_, names in groups.items() if len(names) > 1]
        if self.is_json:
            lines = (json.dumps({"checksum": sum_, "names": names}) + "\n" for sum_, names in same)
            self.console.print("".join(lines))
        else:
            self.console.print("\n".join("".join(map(line_with, names)) for _, names in same))
        self.sum_up({}, {"groups": len(same), "links": links})

    def list(self) -> None:
        heads = iter([",".join(HEADS) + "\n"])

        def take(it: Record) -> None:
            if it.error or self.is_json:
                self.tell(it)
            elif self.words.csv:
                self.console.print(next(heads, "") + row_of(it))
            else:
                self.console.print(line_with(it.name, after=f": {it.kind}") + text_of(it))

        found = self.found()
        self.read(found.files, self.reading(found, "contents").record, take)
        self.sum_up({})

    def compare(self) -> None:
        """Prints the first difference between two files, how many pairs differ, and the arcs of the first ones."""
        words = self.words
        left, right = map(self.given, (words.left, words.right))
        found = differences(left, right, words.limit, timeout=words.timeout)
        if self.is_json:
            told = {name: value for name, value in vars(found).items() if name not in ("left", "right")}
            told |= {"same": bool(found.first), "first": str(found.first), "pairs": [*map(vars, found.pairs)]}
            self.console.print(json.dumps(told) + "\n")
        elif not words.quiet:
            self.console.print("".join(f"{it}\n" for it in lines_of_differences(found)))
        self.own = 0 if found.first else DIFFERS

    def canon(self) -> None:
        words = self.words
        with self.sink(words.output or "-") as take:
            canon_into(take, self.given(words.file), words.form, words.timeout)

    def show(self) -> None:
        """Prints what `dnorm show` prints of each file, below its name if there are several."""
        found = self.found()
        for name, error in found.files.items():
            with contextlib.ExitStack() as stack:
                try:
                    if error:
                        raise error
                    text = Text(self.given(name), Limit(self.words.timeout, name), found.bounds)
                    it = stack.enter_context(held(text))
                except DnormError as failed:
                    self.records.append(Record(name, error=failed))
                    self.console.complain(line_of(self.records[-1]) + causes_of(self.records[-1]))
                    continue
                self.records.append(Record(name, it.kind))
                lines = chain([line_with(name, after=":")] if len(found.files) > 1 else [], lines_of_show(it))
                while piece := "".join(islice(lines, 1000)):
                    self.console.print(piece)
        if len(found.files) > 1 or self.others:
            self.sum_up({})

    def given(self, name: str) -> File:
        """Returns the file that a word names: - is standard input, which can be read again."""
        return Copied() if name == "-" else name

    def look(self) -> None:
        """Prints a page of HTML: of where two files differ, or of what is in folders."""
        words = self.words
        if len(words.path) == 2:
            left, right = words.path
            compared = differences(self.given(left), self.given(right), 50, timeout=words.timeout)
            self.console.print(page_of_pair(compared, left, right))
            self.own = 0 if compared.first else DIFFERS
            return
        older = None if words.since is None else read_manifest(self.given(words.since))
        words.form = older.form if older else words.form
        found, changes = self.found(), None
        reading = self.reading(found, "whole", self.partners(found))
        self.read(in_order_of_names(found.files), reading.record, lambda _: None)
        collection = Collection(tuple(self.records), found.others, found.excluded, words.form)
        if older:
            places = {place_of(it): it for it in collection.manifest.checksums}
            sums = {places.get(place_of(it), it): checksum for it, checksum in older.checksums.items()}
            changes = manifest_changes(Manifest(older.form, sums), collection.manifest)
        known = (collection, words.path[0], self.status, changes)
        if words.markdown:
            with self.sink(words.markdown) as take:
                take(summary_of(*known).encode())
        if words.markdown != "-":
            self.console.print(page_of_folder(*known))
        self.sum_up({}, remarks=REMARKS)

    def found(self) -> Found:
        """Returns the files that the command line names. Other files are counted, or have errors if it is strict."""
        words = self.words
        found = find(words.path, words.ending, words.exclude, follow=words.follow, within=words.within)
        self.excluded += found.excluded
        for it in [it for it in words.exclude if it not in found.used]:
            self.console.complain(line_with(it, before="--exclude ", after=": nothing matches it"))
        if words.strict:
            errors = {name: Read(name, reason) for name, reason in found.others.items()}
            found.files, found.others = in_order_of_names({**found.files, **errors}), {}
        self.others = found.others
        return found

    def read(self, files: Iterable[str], record: Callable[[str], Record], take: Callable[[Record], None]) -> None:
        """Reads files, several at the same time, and takes their records in this order."""

        def one(name: str) -> Record:
            found = record(name)
            self.console.step()
            return found

        names, self.take = [*files], take
        size = sum(os.path.getsize(it) for it in names if os.path.isfile(it)) if self.console.is_terminal else 0
        self.console.expect(len(names), size)
        workers, ended = Workers(one, names, self.words.jobs), 0
        try:
            for at in range(len(names)):
                found = workers.result(at, self.console.draw)
                ended += 1
                self.records.append(found)
                take(found)
                if self.words.exit_first and found.error:
                    self.unfinished = f"{ended} of {len(names)} done"
                    workers.stop()
                    break
        except BaseException:
            self.rest = workers.stop()
            self.unfinished = f"{ended + len(self.rest)} of {len(names)} done"
            raise

    def stop(self) -> None:
        """Prints what is known of a run that a signal ends."""
        for it in self.rest:
            self.records.append(it)
            self.take(it)
        if self.unfinished:
            if self.words.task == "check":
                self.print_end()
            self.sum_up({})

    def tell(self, it: Record) -> None:
        """Prints a record as a JSON object, or an error on standard error."""
        if self.is_json:
            self.console.print(it.as_json())
        else:
            self.complain_of(it)

    def complain_of(self, it: Record) -> None:
        if it.error:
            self.console.complain(line_of(it))

    def sum_up(self, first: dict[str, int], more: Optional[dict[str, int]] = None, remarks: Iterable[str] = ()) -> None:
        """Prints what was counted, before and after the refused and failed files: as a last JSON object, too."""
        found = counts_of(self.records)
        counts = first or {DONE.get(self.words.task, "accepted"): found["accepted"]}
        counts |= {it: found[it] for it in ("refused", "failed", *remarks)} | (more or {})
        counts |= {"other_files": len(self.others), "excluded": self.excluded}
        if self.is_json:
            ended = {"status": self.status, "form": self.words.form, "unfinished": self.unfinished or None}
            self.console.print(json.dumps({"summary": {**counts, **ended}}) + "\n")
        del counts["other_files"]
        told = [counted(counts, ALWAYS), *([self.unfinished] if self.unfinished else [])]
        self.console.complain(", ".join(told) + "\n")
        if self.others:
            end = "; --strict refuses them" if self.words.task != "look" else ""
            count = counted({"other_files": len(self.others)}, ())
            self.console.complain(f"{count}: {told_others(self.others)}{end}\n")
