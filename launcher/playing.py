"""Plays a script on another pool: starts its command, takes the log that it writes, and ends what hangs or floods."""
from __future__ import annotations

import contextlib
import os
import select
import shutil
import signal
import subprocess
import tempfile
import time
from collections import namedtuple
from collections.abc import Callable

from inputs import MOST
from runs import Stopped

# The words in a command that stand for the files.
SCRIPT, LOG = "{script}", "{log}"
# What the program reads besides a script and a log: the line between them, and a total.
ROOM = 64
# So much of what a pool says besides its log is kept, and of a log that is too long, in bytes; and so often, in seconds, a run is
# looked after.
MOST_SAID = 65_536
MOST_OF_FLOOD = 1 << 20
BETWEEN = 0.05

FLOOD = f"wrote a log of more than {(MOST - 1) >> 20} MiB, the most that is read"

# A run: what its log is, what else it said, how it ended, which is empty where it ended well, and whether it did so by itself.
Played = namedtuple("Played", "log said end is_by_itself")


class NotStarted(Exception):
    """Why a command could not be started, as one line."""


class Command:
    """The command of a pool, and how long a run of it may take."""

    def __init__(self, words: list[str], seconds: int):
        self.words, self.seconds = words, seconds
        self.reads_file, self.writes_file = (any(name in word for word in words) for name in (SCRIPT, LOG))

    def play(self, script: bytes, is_over: Callable[[], bool]) -> Played:
        """Runs it once, on files of its own, and ends all of it."""
        folder = tempfile.mkdtemp(prefix="taskenv-")
        try:
            files = {SCRIPT: os.path.join(folder, "script.task"), LOG: os.path.join(folder, "log")}
            with open(files[SCRIPT], "wb") as it:
                it.write(script)
            with self._started(files) as process:
                return Run(self, process, files[LOG], _most_with(script)).ended(is_over)
        finally:
            shutil.rmtree(folder, ignore_errors=True)

    def _started(self, files: dict[str, str]) -> subprocess.Popen:
        words = [word.replace(SCRIPT, files[SCRIPT]).replace(LOG, files[LOG]) for word in self.words]
        with open(os.devnull if self.reads_file else files[SCRIPT], "rb") as stdin:
            streams = {"stdin": stdin, "stdout": subprocess.PIPE, "stderr": subprocess.STDOUT if self.writes_file else subprocess.PIPE}
            try:
                return subprocess.Popen(words, bufsize=0, start_new_session=True, **streams)
            except (OSError, ValueError) as error:
                raise NotStarted(_why_not(self.words[0], error))


def played_before(log: bytes, script: bytes) -> Played:
    """A run of which nothing is left but its log."""
    is_flood = len(log) > _most_with(script)
    return Played(log[:MOST_OF_FLOOD] if is_flood else log, b"", FLOOD if is_flood else "", not is_flood)


def _most_with(script: bytes) -> int:
    """How long a log may be that the program reads with this script."""
    return MOST - ROOM - len(script)


def _why_not(name: str, error: Exception) -> str:
    if isinstance(error, FileNotFoundError) and not os.path.exists(name):
        return f"no such command: {name}"
    if isinstance(error, FileNotFoundError):
        why = "what its first line names is not there" if "/" in name else f"did you mean ./{name}?"
        return f"{name} can't be started: {why}"
    return f"{name} can't be started: {getattr(error, 'strerror', None) or error}"


class Run:
    """A run that goes on."""

    def __init__(self, command: Command, process: subprocess.Popen, log_file: str, most: int):
        self.command, self.process, self.log_file, self.most = command, process, log_file, most
        self.log = Stream(process.stdout, MOST_SAID if command.writes_file else most)
        self.streams = [self.log] if command.writes_file else [self.log, Stream(process.stderr, MOST_SAID)]

    def ended(self, is_over: Callable[[], bool]) -> Played:
        """Waits for its end, and makes one where it has none."""
        try:
            end = self._wait(is_over)
        finally:
            # All that it started is of its group, and goes with it.
            with contextlib.suppress(ProcessLookupError, PermissionError):
                os.killpg(self.process.pid, signal.SIGKILL)
            self.process.wait()
        for stream in self.streams:
            stream.read()
        log, said = (self._log_of_file(), self.log.data) if self.command.writes_file else (self.log.data, self.streams[1].data)
        flood = self._flood(len(log))
        kept = bytes(log[:MOST_OF_FLOOD] if flood else log)
        is_by_itself = not end and not flood and self.process.returncode >= 0
        return Played(kept, bytes(said), end or flood or _ending(self.process.returncode), is_by_itself)

    def _wait(self, is_over: Callable[[], bool]) -> str:
        """Takes what comes, until it has ended, or why it has to be ended."""
        ends = time.monotonic() + self.command.seconds
        poll = select.poll()
        for stream in self.streams:
            poll.register(stream.number, select.POLLIN)
        while self.process.poll() is None:
            if is_over():
                raise Stopped
            poll.poll(BETWEEN * 1000 if any(stream.is_open for stream in self.streams) else 1)
            for stream in self.streams:
                if stream.is_open and not stream.read():
                    poll.unregister(stream.number)
            flood = self._flood(self._size())
            if flood:
                return flood
            if time.monotonic() > ends:
                return f"had not ended after {self.command.seconds} s"
        return ""

    def _flood(self, size: int) -> str:
        return FLOOD if size > self.most else ""

    def _size(self) -> int:
        """How many bytes of the log are there."""
        if not self.command.writes_file:
            return len(self.log.data)
        try:
            return os.stat(self.log_file).st_size
        except OSError:
            return 0

    def _log_of_file(self) -> bytes:
        try:
            with open(os.open(self.log_file, os.O_RDONLY | os.O_NONBLOCK), "rb") as it:
                return it.read(self.most + 1) or b""
        except OSError:
            return b""


class Stream:
    """What comes from a stream of a run. Of what is more than so many bytes, only that it is more is known."""

    def __init__(self, file: object, most: int):
        self.number, self.most, self.data, self.is_open = file.fileno(), most, bytearray(), True
        os.set_blocking(self.number, False)

    def read(self) -> bool:
        """Reads what is there, and returns whether more may come."""
        try:
            while self.is_open and len(self.data) <= self.most:
                piece = os.read(self.number, 1 << 16)
                self.data += piece
                self.is_open = bool(piece)
            if self.is_open and len(self.data) > self.most:
                self.is_open = bool(os.read(self.number, 1 << 16))
        except BlockingIOError:
            pass
        del self.data[self.most + 1 :]
        return self.is_open


def _ending(status: int) -> str:
    """How a process ended, by its status; nothing where that is 0."""
    if status >= 0:
        return f"ended with status {status}" if status else ""
    try:
        return f"was ended by signal {-status} ({signal.Signals(-status).name})"
    except ValueError:
        return f"was ended by signal {-status}"
