"""Which program a call runs: the proved one, where no source is newer, or one that was built without its proof and is kept.

A program without its proof is kept under the sum of its sources, so it is never that of other ones."""
from __future__ import annotations

import os
from collections import namedtuple

# `hashlib` loads far more than that one, and takes longer for it than the sum takes.
try:
    from _blake2 import blake2b
except ImportError:
    from hashlib import blake2b

# A program by its file. Where the kit leaves no program that could be kept, the file is empty.
Program = namedtuple("Program", "file is_kept")


class CannotBuild(Exception):
    """Why there is no program, and what to do, as one line."""


def find(home: str, is_unproved: bool) -> Program | None:
    """The program that a call runs, where it is there."""
    if not is_unproved and is_proved(home):
        return Program(proved_file(home), True)
    name = name_of(sources(home))
    for folder in folders(home):
        file = os.path.join(folder, name)
        if os.access(file, os.X_OK):
            return Program(file, os.path.getsize(file) > 0)
    return None


def proved_file(home: str) -> str:
    """Where the proved program is."""
    return os.path.join(home, "crates/taskenv/out/taskenv")


def is_proved(home: str) -> bool:
    """Whether the proved program is there, and nothing that its proof reads is newer."""
    file = proved_file(home)
    return os.access(file, os.X_OK) and newest(home) <= os.stat(file).st_mtime_ns


def newest(home: str) -> int:
    """When the newest of the files that a proof reads was changed, in nanoseconds."""
    listed = os.stat(os.path.join(home, "crates.txt")).st_mtime_ns
    read = (_files(home, crate, folder) for crate in crates(home) for folder in ("src", "specs", "proofs"))
    return max(listed, *(entry.stat().st_mtime_ns for files in read for entry in files))


def sizes(home: str, top: str = "taskenv") -> dict[str, int]:
    """The crates that are proved for one of them, lowest first, each with the size of its sources."""
    return {crate: sum(entry.stat().st_size for entry in _files(home, crate, "src")) for crate in crates(home, top)}


def folders(home: str) -> list[str]:
    """The folders that keep programs without a proof, the first choice first."""
    cache = os.environ.get("XDG_CACHE_HOME", "")
    if not os.path.isabs(cache):
        cache = os.path.expanduser("~/.cache")
    return [os.path.join(home, "out/unproved"), os.path.join(cache, "taskenv")]


def sources(home: str) -> dict[str, bytes]:
    """All that a build without a proof reads, by its path in the repository."""
    lines = crates(home)
    paths = [entry.path for crate in lines for entry in _files(home, crate, "src")]
    found = {"crates.txt": "".join(lines.values()).encode()}
    for path in sorted(paths):
        with open(path, "rb", buffering=0) as it:
            found[path[len(home) + 1 :]] = it.read()
    return found


def name_of(found: dict[str, bytes]) -> str:
    """The name of the program that is built of these sources."""
    total = blake2b(digest_size=8)
    for path, text in found.items():
        total.update(f"{path} {len(text)}\n".encode() + text)
    return f"taskenv-{total.hexdigest()}"


def crates(home: str, top: str = "taskenv") -> dict[str, str]:
    """The crates that one is made of, by default the program, lowest first, each with its line in `crates.txt`."""
    needed, found, file = {top}, {}, os.path.join(home, "crates.txt")
    with open(file, encoding="utf-8") as it:
        lines = it.readlines()
    for line in reversed(lines):
        head, _, below = line.partition(":")
        # A static library says so after its name.
        name = head.partition(" ")[0]
        if name in needed:
            needed.update(below.split())
            found[name] = line
    if not found:
        raise CannotBuild(f"nothing was run, since the repository is not whole: {file} has no crate {top}")
    return dict(reversed(list(found.items())))


def _files(home: str, crate: str, folder: str) -> Iterator[os.DirEntry]:
    """The Rattle files in that folder of a crate."""
    left = [os.path.join(home, "crates", crate, folder)]
    while left:
        try:
            entries = list(os.scandir(left.pop()))
        except FileNotFoundError:
            continue
        for entry in entries:
            if entry.is_dir():
                left.append(entry.path)
            elif entry.name.endswith((".rt", ".antt")):
                yield entry
