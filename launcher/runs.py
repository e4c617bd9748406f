"""What `judge` and `simulate --seeds` share: runs side by side until they are stopped, how far they have come, and what is written."""
from __future__ import annotations

import errno
import os
import queue
import signal
import threading
from collections.abc import Callable, Iterable, Iterator

import running
from running import say, write

STOPPED, WRITE_FAULT = 130, 5


class Stopped(Exception):
    """Nobody wants to know any more how a run ends."""


class Over(threading.Event):
    """The end of some runs, which comes with the stop of the call, too."""

    def __init__(self, stopped: threading.Event):
        super().__init__()
        self.stopped = stopped

    def is_set(self) -> bool:
        """Whether no more is to be begun."""
        return super().is_set() or self.stopped.is_set()


def processors() -> int:
    """How many there are for this call."""
    return len(os.sched_getaffinity(0))


def take_signals(stopped: threading.Event) -> None:
    """Has what would stop the launcher end the runs, so that it can say what was found so far."""
    for number in running.STOPS:
        if signal.getsignal(number) != signal.SIG_IGN:
            signal.signal(number, lambda *_: stopped.set())


def side_by_side(items: Iterable, do: Callable, jobs: int, is_over: threading.Event) -> Iterator:
    """Does this with each item, so many at once, and gives what comes of each, until that is over. An item that fails ends all."""
    left, lock, answers, lanes = iter(items), threading.Lock(), queue.SimpleQueue(), []

    def lane() -> None:
        try:
            while not is_over.is_set():
                with lock:
                    item = next(left, None)
                if item is None:
                    break
                answers.put(do(item))
        except Stopped:
            pass
        except BaseException as error:
            answers.put(error)
        answers.put(None)

    try:
        for _ in range(jobs):
            lanes.append(threading.Thread(target=lane, daemon=True))
            try:
                lanes[-1].start()
            except RuntimeError:
                # This machine has no room for more of them.
                lanes.pop()
                if not lanes:
                    raise
                break
        ended = 0
        while ended < len(lanes):
            answer = answers.get()
            if isinstance(answer, BaseException):
                raise answer
            if answer is None:
                ended += 1
            else:
                yield answer
    finally:
        is_over.set()
        for it in lanes:
            it.join()


class Shown:
    """How far it has come, where someone reads along, in one line that is rewritten."""

    def __init__(self):
        self.shown = ""

    def show(self, text: str) -> None:
        """Shows this in place of what stands there."""
        if text != self.shown and os.isatty(2):
            write(2, f"\rtaskenv: {text:<68}".encode())
            self.shown = text

    def clear(self) -> None:
        """Removes that line."""
        if self.shown:
            write(2, f"\r{'':78}\r".encode())
            self.shown = ""


def write_file(file: str, data: bytes) -> None:
    """Writes a new file."""
    with open(file, "xb") as it:
        it.write(data)


def is_written(text: str) -> bool:
    """Writes all of it to standard output. Where nobody reads that any more, nothing is said."""
    rest = memoryview(text.encode("utf-8", "backslashreplace"))
    try:
        while rest:
            rest = rest[os.write(1, rest) :]
    except OSError as error:
        if error.errno != errno.EPIPE:
            say(f"standard output can't be written: {error.strerror}")
        return False
    return True


def many(count: int, what: str) -> str:
    """`1 run`, or `1,000 runs`."""
    return f"{count:,} {what}{'s' * (count != 1)}"
