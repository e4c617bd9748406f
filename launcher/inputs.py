"""What the program reads: the files that the words name, a line `%%` between two, or standard input."""
from __future__ import annotations

import os
import stat

from running import say

# One byte more than the program takes: with so many it says `too large`.
MOST = 33_554_433
# What fills the place of a file.
WHAT = {"SCRIPT": "a script", "NEST": "a nest script", "LOG": "a log", "REPLIES": "replies", "EVENTS": "events"}
MISSING = {"LOG": "a log is missing", "REPLIES": "replies are missing", "EVENTS": "events are missing"}
# How the lines of a script begin that are no actions.
DECLARATIONS = ("workers", "groups", "threshold", "runner", "queue", "task", "job")
# Of what the words in a log are made that are no numbers.
LETTERS = set("abcdefghijklmnopqrstuvwxyz_-")
# How events begin, which no log does, nor one in JSON: with two times in brackets, or with a seat and a word.
EVENTS = rb"\[[^][,\s]+ [^][,\s]+\]|\d+ [a-z]"


class BadInput(Exception):
    """Why there is nothing that the program could be given, as one line."""


class Given:
    """What the program is given: bytes, or the launcher's own standard input as it is."""

    def __init__(self, data: bytes | None, starts_at: int | None = None):
        """Without bytes it is standard input, which is a file where there is a place in it at which it starts."""
        self.data = data
        self.starts_at = starts_at

    def again(self) -> bytes | None:
        """The bytes once more, where there is a way to them."""
        if self.data is not None or self.starts_at is None:
            return self.data
        return _read(0, self.starts_at)


def gather(files: list[str], places: list[str]) -> Given:
    """What the program reads where these files fill these places. `-` is standard input, which is waited for here."""
    parts = [None if file == "-" else _read_file(file, file) for file in files]
    if not places:
        return Given(None)
    if parts in ([], [None]):
        return _own_input(places)
    if len(places) == 1:
        return Given(parts[0])
    if len(parts) == 1 and _is_cut(parts[0]):
        return Given(parts[0])
    names = ["standard input" if it == "-" else it for it in (*files, "-")]
    if len(parts) == 1:
        parts = [*parts, b"" if os.isatty(0) else _standard_input(places[1:])]
        if not parts[1]:
            raise BadInput(f"{names[0]} has no line %%, and {MISSING[places[1]]}: name a second file, or - for standard input")
    script, behind = (_standard_input([place]) if part is None else part for part, place in zip(parts, places))
    if _is_cut(script):
        raise BadInput(f"{names[0]} has a line %% itself: give the script alone, or this file alone")
    if places[1] == "LOG":
        behind = log_text(names[1], behind)
    return Given(script + (b"" if script.endswith(b"\n") or not script else b"\n") + b"%%\n" + behind)


def only_declares(data: bytes) -> bool:
    """Whether the script has no actions, and something stands after it."""
    script, log = parted(data)
    words = [line.split() for line in script.decode("latin-1").split("\n")]
    return bool(log.strip()) and all(it[0] in DECLARATIONS for it in words if it and not it[0].startswith("#"))


def parted(data: bytes) -> tuple[bytes, bytes]:
    """What stands before the first line that is exactly `%%`, and behind it."""
    at = data.find(b"%%")
    while at >= 0:
        end = data.find(b"\n", at)
        end = len(data) if end < 0 else end
        if data[at:end] in (b"%%", b"%%\r") and data[max(at - 1, 0) : at] in (b"", b"\n"):
            return data[:at], data[end + 1 :]
        at = data.find(b"%%", at + 1)
    return data, b""


def gather_logs(files: list[str]) -> list[tuple[str, bytes]]:
    """A script and a log of it, once for each log that the files name, or that standard input has, with the log's name."""
    given = gather(files[:2], ["SCRIPT", "LOG"])
    data = given.again()
    if data is None:
        return []
    logs = [("standard input" if name == "-" else name, data) for name in (files[1:2] or files[:1] or ["-"])]
    for name in files[2:]:
        log = log_text(name, part(name, "LOG"))
        logs.append(("standard input" if name == "-" else name, parted(data)[0] + b"%%\n" + log))
    return logs


def part(file: str, place: str) -> bytes:
    """What stands in a file, or on standard input where its name is `-`."""
    return _standard_input([place]) if file == "-" else _read_file(file, file)


def _own_input(places: list[str]) -> Given:
    """Standard input. A file is handed on as it is; all else is read here, so that it is known afterwards."""
    try:
        if stat.S_ISREG(os.fstat(0).st_mode):
            return Given(None, os.lseek(0, 0, os.SEEK_CUR))
        return Given(_standard_input(places))
    except (OSError, BadInput):
        # The program meets the same fault, and has a status for it.
        return Given(None)


def _standard_input(places: list[str]) -> bytes:
    """Reads standard input to its end, or as much of it as the program takes."""
    if os.isatty(0) and os.isatty(2):
        what = ", a line %% and ".join(WHAT[place] for place in places)
        say(f"waiting for {what}, line by line; Ctrl-D at the start of a line ends it")
    return _read_file("standard input", 0)


def _read_file(name: str, file: int | str) -> bytes:
    """Reads a file of this name, which is given by its path or by the number of a stream."""
    try:
        with open(file, "rb", buffering=0, closefd=isinstance(file, str)) as it:
            return _read(it.fileno())
    except OSError as error:
        why = "no such file" if isinstance(error, FileNotFoundError) else error.strerror.lower()
        raise BadInput(f"{name}: {why}")


def _read(stream: int, starts_at: int | None = None) -> bytes:
    """Reads what comes, or what stands in a file from that place on and leaves the file's own place as it is."""
    pieces, count = [], 0
    while count < MOST:
        size = min(MOST - count, 1 << 20)
        piece = os.read(stream, size) if starts_at is None else os.pread(stream, size, starts_at + count)
        if not piece:
            break
        pieces.append(piece)
        count += len(piece)
    return b"".join(pieces)


def _is_cut(part: bytes) -> bool:
    """Whether it has a line at which the program would cut it."""
    return b"%%" in part and any(line in (b"%%", b"%%\r") for line in part.split(b"\n"))


def is_events(log: bytes) -> bool:
    """Whether this is no log, but what each seat saw."""
    import re

    return bool(re.match(EVENTS, log))


def log_text(name: str, log: bytes) -> bytes:
    """The text of a log that `run --json` wrote; any other one as it is."""
    if not log.lstrip().startswith(b"["):
        return log
    if is_events(log):
        raise BadInput(f"{name} is no log, but what each seat saw: the mode arrange makes a log of it")
    import json

    try:
        lines = [_line(entry) for entry in json.loads(log)]
    except (ValueError, RecursionError):
        raise BadInput(f"{name} begins as JSON does, and is no log as run --json writes it")
    return "\n".join(["taskenv log 2", *lines, f"total {len(lines)}", ""]).encode()


def _line(entry: object) -> str:
    """The line of an entry, which is an array of numbers and words."""
    parts = entry if isinstance(entry, list) else [None]
    if not all(type(it) is int and it >= 0 or isinstance(it, str) and it and set(it) <= LETTERS for it in parts):
        raise ValueError
    return " ".join(map(str, parts))
