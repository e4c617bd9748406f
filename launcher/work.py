"""The work of a build: the folder that it is done in, its lock and its log, what runs for it, and how far it has come."""
from __future__ import annotations

import contextlib
import errno
import fcntl
import os
import re
import shutil
import signal
import subprocess
import time

from programs import CannotBuild
from running import say, write

# Stands in the environment of all that runs for a build, and names the folder of its work.
MARK = "TASKENV_BUILD"
FULL = (errno.ENOSPC, errno.EDQUOT)


class Work:
    """A build's work, which is done alone in its folder. What is left of it at the end is ended and removed."""

    def __init__(self, folders: list[str], advice: str):
        """It is done in the first folder that can be written; where none can, the advice says what to do."""
        self.folders, self.advice, self.progress, self.shown = folders, advice, None, (0, "")

    def __enter__(self) -> Work:
        """Waits until no other launcher builds there."""
        self.folder, self.lock = self._open()
        self.log_file, self.room = os.path.join(self.folder, "build.log"), os.path.join(self.folder, "work")
        try:
            fcntl.flock(self.lock, fcntl.LOCK_EX | fcntl.LOCK_NB)
        except BlockingIOError:
            say("another taskenv builds the program: waiting for it")
            fcntl.flock(self.lock, fcntl.LOCK_EX)
        except OSError:
            # Some file systems have no locks.
            pass
        return self

    def __exit__(self, _kind: object, error: BaseException | None, _trace: object) -> None:
        if self.shown[1] and os.isatty(2):
            write(2, f"\r{'':78}\r".encode())
        self._clear()
        os.close(self.lock)
        if isinstance(error, OSError):
            raise CannotBuild(_why(error, self.folder))

    def _open(self) -> tuple[str, int]:
        """The folder, and the lock in it."""
        faults = []
        for folder in self.folders:
            try:
                os.makedirs(folder, exist_ok=True)
                return folder, os.open(os.path.join(folder, "lock"), os.O_RDWR | os.O_CREAT, 0o666)
            except OSError as error:
                if error.errno in FULL:
                    raise CannotBuild(_why(error, folder))
                faults.append(f"{folder} ({error.strerror})")
        raise CannotBuild(f"the program is not built, since nothing can be written to {', nor to '.join(faults)}: {self.advice}")

    def begin(self, progress: Callable[[], tuple[int, str]] | None) -> None:
        """Makes the folder for its files, and begins the log. How far it has come is told by a count, and in words."""
        self._clear()
        os.makedirs(self.path("tmp"))
        open(self.log_file, "wb").close()
        self.progress, self.began = progress, time.monotonic()

    def call(
        self, command: list[str], folder: str | None = None, is_enough: Callable[[], bool] = lambda: False, streams: tuple | None = None
    ) -> int | None:
        """Runs a command until it ends, or until that is enough. Nothing that it started goes on. Returns its status, if it ended."""
        environment = {**os.environ, MARK: self.room, "TMPDIR": self.path("tmp")}
        with open(self.log_file, "ab") as log:
            stdin, stdout = streams or (subprocess.DEVNULL, log)
            how = {"stdin": stdin, "stdout": stdout, "stderr": log, "cwd": folder, "env": environment}
            try:
                process = subprocess.Popen(command, start_new_session=True, **how)
                while process.poll() is None and not is_enough():
                    self._show()
                    time.sleep(0.1)
                return process.returncode
            finally:
                self._end_all()

    def path(self, name: str) -> str:
        """Where a file of that name is that goes with the work."""
        return os.path.join(self.room, name)

    def seconds(self) -> float:
        """For how long it has gone on."""
        return time.monotonic() - self.began

    def log(self) -> bytes:
        """What its commands wrote."""
        with open(self.log_file, "rb") as it:
            return it.read()

    def said(self, form: bytes) -> re.Match | None:
        """The line of this form that a command wrote, if one did."""
        return re.search(form, self.log(), re.M)

    def is_full(self) -> bool:
        """Whether there is no room for it."""
        free = os.statvfs(self.folder)
        return free.f_bavail * free.f_frsize < 1_000_000 or any(os.strerror(it).encode() in self.log() for it in FULL)

    def failure(self) -> CannotBuild:
        """What is said where a command failed."""
        if self.is_full():
            return CannotBuild(_why(OSError(errno.ENOSPC, ""), self.folder))
        return CannotBuild(f"the program could not be built: the end of {self.log_file} says why; mend that, and call again")

    def _show(self) -> None:
        """Shows how far it has come: where someone reads along in one line that is rewritten, and else in a line for each count."""
        shown, self.shown = self.shown, self.progress() if self.progress else self.shown
        if os.isatty(2) and shown != self.shown:
            write(2, f"\rtaskenv: {self.shown[1]:<68}".encode())
        elif shown[0] < self.shown[0]:
            say(self.shown[1])

    def _clear(self) -> None:
        self._end_all()
        shutil.rmtree(self.room, ignore_errors=True)

    def _end_all(self) -> None:
        """Ends what runs for it, in whatever session, also where a launcher that was killed left it. What was just being started
        has its mark a moment later, so it looks twice."""
        mark, looks = f"{MARK}={self.room}".encode(), 0
        while looks < 2:
            left = [it for it in os.listdir("/proc") if it.isdigit() and mark in _environment(it)]
            for process in left:
                with contextlib.suppress(ProcessLookupError):
                    os.kill(int(process), signal.SIGKILL)
            looks = 0 if left else looks + 1
            time.sleep(0.05)


def _environment(process: str) -> list[bytes]:
    try:
        with open(f"/proc/{process}/environ", "rb") as it:
            return it.read().split(b"\0")
    except OSError:
        return []


def _why(error: OSError, folder: str) -> str:
    place = error.filename or folder
    if error.errno in FULL:
        return f"the program is not built, since the disk is full: make room for {place}, and call again"
    return f"the program is not built: {place}: {error.strerror}"
