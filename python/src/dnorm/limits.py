"""How long a call may take, and tasks that run at the same time."""

import contextlib
import numbers
import select
import threading
import time
from collections.abc import Callable, Iterator, Sequence
from concurrent.futures import Future, ThreadPoolExecutor, wait
from queue import Empty, SimpleQueue
from typing import BinaryIO, Generic, Optional, TypeVar, Union

from .errors import Memory, TimedOut

Result = TypeVar("Result")
Seconds = Optional[float]
# The longest limit, some 30 years, which all calls of the system take; and the longest wait of one call of poll.
LONGEST, WAIT = 10**9, 10**6
# How many tasks begin before the first result is taken, and the longest wait: a signal just before does not end it.
AHEAD, PAUSE = 1000, 0.1


class Lease:
    """Something that is freed once nothing uses it any more."""

    def __init__(self, free: Callable[[], object]) -> None:
        self._free, self._users, self._lock = free, 1, threading.Lock()

    def take(self) -> None:
        with self._lock:
            self._users += 1

    def end(self, _: object = None) -> None:
        with self._lock:
            self._users -= 1
            if not self._users:
                self._free()


class Limit:
    """So many seconds from now, or no limit. `name` is what the error of a call calls its file."""

    def __init__(self, seconds: Seconds, name: str) -> None:
        is_number = seconds is None or isinstance(seconds, numbers.Real)
        if not is_number:
            raise TypeError(f"timeout is a number of seconds, and not {type(seconds).__name__}")
        # No clock reaches others.
        if seconds is not None and not 0 <= seconds <= LONGEST:
            raise ValueError(f"timeout is at least 0 and at most {LONGEST} seconds, and not {seconds}")
        self.seconds, self.name = seconds, name
        self._end = None if seconds is None else time.monotonic() + seconds

    def left(self) -> Seconds:
        """Returns the seconds that are left. Raises TimedOut if there are none."""
        if self._end is None or self.seconds is None:
            return None
        left = self._end - time.monotonic()
        if left <= 0:
            raise TimedOut(self.name, self.seconds)
        return left

    def during(self, call: Callable[[], Result], *leases: Lease) -> Result:
        """Returns what a call returns that nothing can end. After TimedOut it goes on, with what is leased to it."""
        left = self.left()
        if left is None:
            return call()
        later: Future[Result] = Future()

        def run() -> None:
            try:
                later.set_result(call())
            except BaseException as error:
                later.set_exception(error)

        for it in leases:
            it.take()
            later.add_done_callback(it.end)
        try:
            with heeding_signals():
                threading.Thread(target=run, daemon=True).start()
        except RuntimeError as error:
            raise Memory(self.name) from error
        with heeding_signals():
            wait([later], left)
        self.left()
        return later.result()


@contextlib.contextmanager
def heeding_signals() -> Iterator[None]:
    """Raises what a signal has raised while `threading` had let a lock go for a wait: the lock, which is then released
    a second time, complains in its place. What ends a run, as KeyboardInterrupt, is no Exception."""
    try:
        yield
    except RuntimeError as error:
        if error.__context__ and not isinstance(error.__context__, Exception):
            raise error.__context__ from None
        raise


def at_once(one: Callable[[], Result], other: Callable[[], Result], end: Callable[[], None]) -> tuple[Result, Result]:
    """Returns what two calls return, the second one in a thread, which `end` ends soon if the first one fails."""
    with heeding_signals(), ThreadPoolExecutor(1) as pool:
        try:
            with heeding_signals():
                later = pool.submit(other)
        except RuntimeError:
            return one(), other()
        try:
            return one(), later.result()
        except BaseException:
            # What the thread reads must not be closed before it ends, for which the pool waits.
            end()
            raise


class Timed:
    """A file, pipe or device that is read within a limit. `read_bytes`, without a lock, counts those of all files."""

    read_bytes = 0

    def __init__(self, file: BinaryIO, limit: Limit) -> None:
        self._file, self._limit = file, limit

    def wait(self) -> None:
        """Waits until reading does not wait."""
        poll = select.poll()
        poll.register(self._file, select.POLLIN)
        while (left := self._limit.left()) is not None and not poll.poll(min(WAIT, left) * 1000):
            pass
        self._limit.left()

    def read(self, size: int, /) -> bytes:
        self.wait()
        data = self._file.read(size)
        Timed.read_bytes += len(data or b"")
        return data


class Workers(Generic[Result]):
    """Threads, at most `jobs`, that run a task on items. Nothing waits for their end. No task returns an exception."""

    def __init__(self, task: Callable[[str], Result], items: Sequence[str], jobs: int) -> None:
        self._task, self._items, self._jobs = task, items, jobs
        self._begun = self._threads = 0
        self._is_stopped = False
        self._wanted: SimpleQueue[int] = SimpleQueue()
        self._came: SimpleQueue[tuple[int, Union[Result, BaseException]]] = SimpleQueue()
        self._done: dict[int, Union[Result, BaseException]] = {}

    def _work(self) -> None:
        while not self._is_stopped:
            self._do(self._wanted.get())

    def _do(self, at: int) -> None:
        try:
            self._came.put((at, self._task(self._items[at])))
        except BaseException as error:
            self._came.put((at, error))

    def result(self, at: int, idle: Callable[[], None] = lambda: None) -> Result:
        """Returns the result of this item, the next one, or raises what its task raised. A long wait calls `idle`."""
        while self._begun < min(at + AHEAD, len(self._items)):
            self._wanted.put(self._begun)
            self._begun += 1
            if self._threads < self._jobs:
                # If the system lets no more threads start, those that there are do all.
                try:
                    with heeding_signals():
                        threading.Thread(target=self._work, daemon=True).start()
                    self._threads += 1
                except (RuntimeError, MemoryError):
                    self._jobs = self._threads
        while at not in self._done:
            if not self._threads:
                self._do(self._wanted.get())
            try:
                place, found = self._came.get(timeout=PAUSE)
                self._done[place] = found
            except Empty:
                idle()
        found = self._done.pop(at)
        if isinstance(found, BaseException):
            raise found
        return found

    def stop(self) -> list[Result]:
        """Lets no thread begin another item. Returns the results that were not taken, in the order of the items."""
        self._is_stopped = True
        while not self._came.empty():
            self._done.update([self._came.get()])
        return [it for _, it in sorted(self._done.items()) if not isinstance(it, BaseException)]
