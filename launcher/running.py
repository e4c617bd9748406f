"""Runs the program with its streams, its signals and its status passed on."""
from __future__ import annotations

# What `signal` stands on, and takes no time to load.
import _signal
import os
import time
from collections import namedtuple

NULL = "/dev/null"
EMPTY_LOG = b"taskenv log 2\ntotal 0\n"
# What Python ignores, and the program should not.
RESTORED = (_signal.SIGPIPE, _signal.SIGXFSZ)
STOPS = (_signal.SIGINT, _signal.SIGTERM, _signal.SIGHUP)

# How a run ended, what it wrote, where that was kept, and its time: on the clock, of the processors, and of the system.
Ran = namedtuple("Ran", "status log times")

# The process of the program, while it runs.
_running: list[int] = []


def say(*lines: str) -> None:
    """Writes lines of the launcher's own to standard error, as far as that takes them."""
    for line in lines:
        shown = "".join(it if it.isprintable() else ascii(it)[1:-1] for it in line)
        write(2, f"taskenv: {shown}\n".encode("utf-8", "backslashreplace"))


def write(stream: int, data: bytes) -> bool:
    """Writes all of it, and returns whether that went well."""
    rest = memoryview(data)
    try:
        while rest:
            rest = rest[os.write(stream, rest) :]
    except OSError:
        return False
    return True


def hold_streams() -> None:
    """Keeps the numbers of streams that are closed from any file of the launcher's. To the program they are closed."""
    for stream in range(3):
        try:
            os.fstat(stream)
        except OSError:
            os.open(NULL, os.O_RDONLY if stream else os.O_WRONLY)


def take_signals() -> None:
    """Has what would stop the launcher stop the program, where that runs. What the caller ignores stays ignored."""
    for number in STOPS:
        if _signal.getsignal(number) != _signal.SIG_IGN:
            _signal.signal(number, _stop)


def _stop(number: int, _frame: object) -> None:
    if _running:
        try:
            os.kill(_running[0], number)
        except ProcessLookupError:
            # It has just ended.
            pass
        return
    for other in STOPS:
        _signal.signal(other, _signal.SIG_IGN)
    raise KeyboardInterrupt


def run(command: list[str], data: bytes | None, is_watched: bool) -> Ran:
    """Runs the program on these bytes, or on the launcher's own standard input. Where it is watched what it writes is kept, too."""
    log, is_whole, actions, began = None, True, [], time.monotonic()
    if is_watched:
        output, into = os.pipe()
        actions = [(os.POSIX_SPAWN_DUP2, into, 1)]
    process = _start(command, data, actions)
    if is_watched:
        os.close(into)
        log, is_whole = _pass_on(output)
    status, usage = _wait(process)
    if status == 0 and not is_whole:
        write(2, b"write fault\n")
        status = 5
    return Ran(status, log, (time.monotonic() - began, usage.ru_utime, usage.ru_stime))


def ask(command: list[str], data: bytes, stream: int, is_apart: bool = False) -> tuple[int, bytes]:
    """Runs the program on these bytes unseen, and returns its status, and what it writes to that stream. Apart, it is of no group that
    a terminal stops."""
    output, into = os.pipe()
    other = (os.POSIX_SPAWN_OPEN, 3 - stream, NULL, os.O_WRONLY, 0)
    process = _start(command, data, [(os.POSIX_SPAWN_DUP2, into, stream), other], {"setpgroup": 0} if is_apart else {})
    os.close(into)
    with open(output, "rb") as it:
        said = it.read()
    return _wait(process)[0], said


def works(file: str) -> bool:
    """Whether the program runs on this machine at all: it then runs an empty script rightly."""
    return ask([file, "run"], b"", 1) == (0, EMPTY_LOG)


def _start(command: list[str], data: bytes | None, actions: list[tuple], how: dict[str, int] = {}) -> int:
    """Starts it. A signal waits until it is known what runs."""
    if data is not None:
        source = _file_of(data)
        actions = [(os.POSIX_SPAWN_DUP2, source, 0), *actions]
    mask = _signal.pthread_sigmask(_signal.SIG_BLOCK, STOPS)
    try:
        process = os.posix_spawn(command[0], command, os.environ, file_actions=actions, setsigmask=mask, setsigdef=RESTORED, **how)
        _running.append(process)
    finally:
        _signal.pthread_sigmask(_signal.SIG_SETMASK, mask)
    if data is not None:
        os.close(source)
    return process


def _file_of(data: bytes) -> int:
    """A file with these bytes that has no name. It is whole before anyone reads it, so no one takes a part of it for all."""
    try:
        file = os.memfd_create("input")
    except (AttributeError, OSError):
        import tempfile

        with tempfile.TemporaryFile() as it:
            file = os.dup(it.fileno())
    with open(file, "wb", buffering=0, closefd=False) as it:
        rest = memoryview(data)
        while rest:
            rest = rest[it.write(rest) :]
    os.lseek(file, 0, os.SEEK_SET)
    return file


def _wait(process: int) -> tuple[int, resource.struct_rusage]:
    """Its status, once it has ended, and what it used."""
    _, ended, usage = os.wait4(process, 0)
    _running.remove(process)
    return 128 + os.WTERMSIG(ended) if os.WIFSIGNALED(ended) else os.WEXITSTATUS(ended), usage


def _pass_on(output: int) -> tuple[bytes, bool]:
    """Writes what comes to standard output at once, and returns it. Where that takes no more, nor does this."""
    pieces, is_whole = [], True
    while is_whole:
        piece = os.read(output, 65536)
        if not piece:
            break
        pieces.append(piece)
        is_whole = write(1, piece)
    os.close(output)
    return b"".join(pieces), is_whole
