"""The calls that read, check, canonicalise, compare and write texts. Each reads a text once."""

import hashlib
import os
import warnings
from collections.abc import Callable
from contextlib import ExitStack, suppress
from typing import Literal, Optional, Union, overload

from .answers import AnyDifference, Checked, Form, Same
from .errors import Refused
from .files import File, Target, Text, enough_memory, name_of, sink_of
from .instances import AnyInstance, Instance
from .library import Held, held
from .limits import Limit, Seconds, at_once
from .lines import ArcLines, read_lines
from .names import KINDS, parts_of


@overload
def read(file: File, form: Form = 1, *, lines: Literal[False] = False, timeout: Seconds = None) -> AnyInstance:
    ...


@overload
def read(file: File, form: Form = 1, *, lines: Literal[True], timeout: Seconds = None) -> tuple[AnyInstance, ArcLines]:
    ...


def read(
    file: File, form: Form = 1, *, lines: bool = False, timeout: Seconds = None
) -> Union[AnyInstance, tuple[AnyInstance, ArcLines]]:
    """Returns the instance that a text poses: an `Sp`, `Max`, `Min`, `Ss`, `P2p` or `Co`. `form` is 1 or 2, and matters
    only for `Min`. With `lines`, returns the instance and the arc lines of the text, which is read once."""
    form, limit = checked_form(form), Limit(timeout, name_of(file))
    with enough_memory(limit.name):
        if lines:
            return read_lines(Text(file, limit), form)
        with held(Text(file, limit)) as found:
            return found.instance(form)


def check(file: File, companion: Optional[File] = None, *, timeout: Seconds = None) -> Checked:
    """Checks a text, and with a companion that the companion fits.

    Returns the kind of the text, the kind of the companion, and the forms in which the text is canonical. Raises
    `Refused` if the text or the companion has a fault, or if the companion does not fit."""
    limit, own, fits = Limit(timeout, name_of(file)), Sum(), None
    with held(Text(file, limit), own.take) as found:
        if companion is not None:
            with held(Text(companion, limit)) as beside:
                found.check_fit(beside)
                fits = beside.kind
        return Checked(found.kind, fits, forms_of(found.kind, own.checksum, found.checksum))


def canon(file: File, form: Form = 1, *, timeout: Seconds = None) -> bytes:
    """Returns the canonical text of a text. `form` is 1 or 2, and matters only for `min`."""
    parts: list[bytes] = []
    with enough_memory(name_of(file)):
        canon_into(parts.append, file, form, timeout)
        return b"".join(parts)


def canon_to(file: File, target: Target, form: Form = 1, *, timeout: Seconds = None) -> None:
    """Writes the canonical text of a text to a path or a binary stream.

    A path gets a new file once all of it is written, and keeps what it had if anything is raised; it may be the path of
    `file`. A path that ends in `.gz`, `.bz2`, `.xz` or `.zst` gets a compressed file. A stream, a device or a pipe has
    got a prefix of the text if writing fails. Raises `Write` then, and for the ending of another compression."""
    with sink_of(target) as take:
        canon_into(take, file, form, timeout)


def checksum(file: File, form: Form = 1, *, timeout: Seconds = None) -> str:
    """Returns the SHA-256 checksum of the canonical text, in hexadecimal: the same for texts of the same problem."""
    found = hashlib.sha256()
    canon_into(found.update, file, form, timeout)
    return found.hexdigest()


def write(instance: Instance, target: Target, *, timeout: Seconds = None) -> None:
    """Writes a text that poses the problem of an instance, with its arcs or items in their order, to a path or a binary
    stream, as `canon_to` does. The text of an instance that was read is the canonical text.

    A path whose ending is that of another kind leads to a warning. The library reads the text as well. If the text has
    a fault, as a node that the graph does not have, `Refused` is raised with the line, and a path keeps what it had."""
    if not isinstance(instance, Instance):
        raise TypeError(f"write takes an instance, and then a target, and not {type(instance).__name__}")
    name = name_of(target)
    expected = KINDS.get(parts_of(name)[1], instance.kind)
    if expected != instance.kind:
        warnings.warn(f"{name}: its ending is that of {expected}, not of {instance.kind}", stacklevel=2)
    with sink_of(target) as take:
        text = Text(instance, Limit(timeout, name))
        text.name = name
        with held(text, take):
            pass


def canon_into(take: Callable[[bytes], object], file: File, form: Form, timeout: Seconds) -> None:
    """Gives the pieces of the canonical text of a text to `take`."""
    form, limit = checked_form(form), Limit(timeout, name_of(file))
    with held(Text(file, limit)) as found:
        for piece in found.canonical(form):
            take(piece)


def checked_form(number: int) -> Form:
    """Returns the form that a number names, which may be one of numpy. Raises ValueError if it names none."""
    if number not in (1, 2):
        raise ValueError(f"form is 1 or 2, and not {number!r}")
    return 1 if number == 1 else 2


def compare(left: File, right: File, *, timeout: Seconds = None) -> Union[Same, AnyDifference]:
    """Returns `Same`, which is true, if both texts pose the same problem, or else a `Difference`, which is false."""
    limit = Limit(timeout, name_of(left))
    with enough_memory(limit.name), ExitStack() as stack:
        one, other = both_read((left, right), (stack, stack), limit)
        answer = one.first_difference(other)
    return answer


def both_read(files: tuple[File, File], stacks: tuple[ExitStack, ExitStack], limit: Limit) -> tuple[Held, Held]:
    """Reads two texts, whose instances the stacks free: files at the same time, others, as pipes, in their order."""
    texts = [Text(it, limit) for it in files]

    def read(at: int) -> Held:
        return stacks[at].enter_context(held(texts[at]))

    if not all(isinstance(it, (str, os.PathLike)) and os.path.isfile(it) for it in files):
        return read(0), read(1)
    return at_once(lambda: read(0), lambda: read(1), texts[1].stop)


class Sum:
    """Takes the pieces of a text. `checksum` is that of its bytes, or None if no canonical text begins as it does."""

    def __init__(self) -> None:
        self._sum, self._first = hashlib.sha256(), b""

    def take(self, piece: bytes) -> None:
        self._first = self._first or piece[:1]
        if self._first == b"p":
            self._sum.update(piece)

    @property
    def checksum(self) -> Optional[str]:
        return self._sum.hexdigest() if self._first == b"p" else None


def forms_of(kind: str, own: Optional[str], checksum: Callable[[Form], str]) -> tuple[Form, ...]:
    """Returns the forms in which a text is canonical, by its own checksum and those of its canonical texts."""
    forms: tuple[Form, ...] = (1, 2)
    found: list[Form] = []
    # Both forms are the same but for `min`.
    for it in (forms if kind == "min" else forms[:1]) if own else ():
        # The canonical text may have too many lines.
        with suppress(Refused):
            found += [it] * (own == checksum(it))
    return tuple(found) if kind == "min" or not found else forms
