"""Columns of numbers of 64 signed bits, which cannot be written."""

import importlib
import operator
from array import array
from collections.abc import Callable, Iterable
from typing import TYPE_CHECKING, Any, NamedTuple, Protocol

if TYPE_CHECKING:
    import numpy
    from numpy.typing import NDArray

    Column = NDArray[numpy.int64]
else:

    class Column(Protocol):
        """Numbers of 64 signed bits, read-only: a numpy array of `int64`, or a `memoryview` where numpy is missing. It
        has a length, indexes from 0, and yields its numbers."""

        def tolist(self) -> list[int]:
            """Returns the numbers as integers of Python."""


# The least and the greatest number of a column.
LEAST, MOST = -(2**63), 2**63 - 1


def numpy_here() -> Any:
    try:
        return importlib.import_module("numpy")
    except ImportError:
        return None


def column(numbers: "array[int]") -> Any:
    np = numpy_here()
    return memoryview(numbers).toreadonly() if np is None else read_only(np.asarray(numbers).view(np.int64))


def columns_of(rows: "array[int]", width: int) -> list[Any]:
    """Returns the columns of rows of so many numbers, as views of them."""
    np = numpy_here()
    if np is None:
        return [memoryview(rows).toreadonly()[at::width] for at in range(width)]
    return [*read_only(np.asarray(rows).view(np.int64).reshape(-1, width)).T]


def zeros(count: int) -> "array[int]":
    return array("q", [0]) * count


def read_only(numbers: Any) -> Any:
    """Returns an array of numpy that cannot be written. Nothing else must write it."""
    numbers.setflags(write=False)
    return numbers


class Own(NamedTuple):
    """A column whose memory nothing else writes, so that an instance may keep it without a copy."""

    numbers: Any


def frozen(name: str, given: Any) -> Any:
    """Returns a read-only column of the same numbers: a copy, except of an `Own`, since a read-only array may be a view
    of one that can be written. Raises TypeError, with this name, for what is not an array of 64 signed bits."""
    np = numpy_here()
    if isinstance(given, Own):
        return given.numbers
    if isinstance(given, (array, memoryview)) and memoryview(given).format == "q" and memoryview(given).ndim == 1:
        return column(array("q", given))
    if is_array(np, given) and given.dtype == np.int64:
        return read_only(np.array(given))
    kind = f"{type(given).__name__} of {given.dtype}" if hasattr(given, "dtype") else type(given).__name__
    raise TypeError(f"{name} is an array of 64 signed bits, and not a {kind}: from_arrays takes other numbers, too")


def is_array(np: Any, given: Any) -> bool:
    """Whether this is an array of numpy of one dimension in which no numbers are masked."""
    is_plain = np is not None and isinstance(given, np.ndarray) and not hasattr(given, "mask")
    return is_plain and given.ndim == 1


def column_of(name: str, given: Any) -> Any:
    """Returns a column of its own with these numbers. Raises the errors of `numbers_of`."""
    np = numpy_here()
    if is_array(np, given) and given.dtype.kind in "iu":
        if given.size and int(given.max()) > MOST:
            raise OverflowError(f"{name} has {given.max()}, which is above 2^63-1")
        return read_only(np.array(given, np.int64))
    return column(numbers_of(given, lambda place: f"{name}[{place}]"))


def numbers_of(given: Iterable[Any], name_at: Callable[[int], str]) -> "array[int]":
    """Returns an array of numbers. Raises TypeError, by `name_at`, if one is not whole, OverflowError if it is wide."""
    found = array("q")
    try:
        found.extend(map(operator.index, given))
    except (TypeError, OverflowError) as error:
        # The numbers before this one are in the array.
        raise type(error)(f"{name_at(len(found))}: {error}") from None
    return found


def least_and_greatest(numbers: Any) -> tuple[int, int]:
    if hasattr(numbers, "max"):
        return int(numbers.min()), int(numbers.max())
    return min(numbers), max(numbers)


def rises(numbers: Any) -> bool:
    """Whether no number is above the next one."""
    if hasattr(numbers, "max"):
        return bool((numbers[:-1] <= numbers[1:]).all())
    return all(map(operator.le, numbers, numbers[1:]))


def taken(name: str, given: Any) -> Any:
    """Returns a column of these numbers for a call that only reads it, of an array without a copy where that is one."""
    np = numpy_here()
    if is_array(np, given) and given.dtype == np.int64:
        return np.require(given, np.int64, "CA")
    return column_of(name, given)


def address(numbers: Any) -> int:
    """Returns where the numbers of an array, or of a whole column, are: never at 0, also where there are none."""
    if isinstance(numbers, memoryview):
        numbers = numbers.obj
    return int(numbers.buffer_info()[0] if isinstance(numbers, array) else numbers.ctypes.data) or numbers.itemsize
