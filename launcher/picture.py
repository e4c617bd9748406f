"""The mode picture: what a log says of a run, to be drawn, as far as the rules allow the log.

The program judges the log, by `explain`; what is drawn is what stands before the line that it names."""
from __future__ import annotations

from collections import defaultdict, namedtuple
from collections.abc import Callable, Iterator

from inputs import parted

# An entry of a log: its place, its seat, its word and what stands behind that, its line, and the number of its line in the script.
Entry = namedtuple("Entry", "place seat word rest text line")
# What stands on a seat for some places: its sort, its names from the longest to the shortest, where it begins and ends, and the entries
# that it is made of. Where it has no end in the log it goes on to the end of what is drawn.
Span = namedtuple("Span", "sort key names seat begin end entries")
# What is said of a wrong log: its line, counted from 1, why, and what it is and which entries matter, a line each.
Fault = namedtuple("Fault", "line words more")

HEAD = b"taskenv log 2\n"
# The lines of a script that each of its entries comes from: the first word of the line, by that of the entry.
ACTION_OF = {"idle": "flush", "joined": "join", "cancelled": "cancel", "done": "shutdown"}
POSTS = ("post", "main")
TAKES = ("take", "maintake")
ENDS = ("end", "mainend")


class Script:
    """The lines of a script, and which of them each entry comes from."""

    def __init__(self, text: bytes):
        self.lines = text.decode("latin-1").split("\n")
        self.workers = 2
        self.declared: dict[tuple[str, str], int] = {}
        self.actions: dict[str, list[int]] = defaultdict(list)
        # Of each pump its line, and how many tasks it runs at most.
        self.pumps: list[tuple[int, int]] = []
        for number, words in enumerate(map(str.split, self.lines), 1):
            if words and not words[0].startswith("#"):
                self._read(number, words)

    def _read(self, number: int, words: list[str]) -> None:
        """Notes what a line declares, or does."""
        first, *rest = words
        if first == "workers":
            self.workers = int(rest[0])
        elif first in ("task", "runner", "queue", "job"):
            self.declared[first, str(int(rest[0]))] = number
            for word, task in zip(rest[1:], rest[2:]):
                if word in POSTS:
                    self.declared["post", str(int(task))] = number
        elif first in POSTS:
            self.declared["post", str(int(rest[0]))] = number
        elif first == "pump":
            self.pumps.append((number, int(rest[0])))
        else:
            self.actions[first] += [number] * (int(rest[0]) if first == "tick" else 1)

    def line_of(self, word: str, rest: list[str], counts: dict[str, int]) -> int | None:
        """The line that an entry of this word comes from, where as many entries came before as the counts say, which go on by it."""
        if word in POSTS:
            return self.declared.get(("post", rest[0]))
        if word.startswith("job"):
            return self.declared.get(("job", rest[0]))
        if word in (*TAKES, *ENDS, "block", "unblock"):
            counts["mainend"] += word == "mainend"
            return self.declared.get(("task", rest[0]))
        counts[word] += 1
        if word == "mainnone":
            return self._pump_at(counts)
        lines = self.actions[ACTION_OF.get(word, word)]
        return lines[counts[word] - 1] if counts[word] <= len(lines) else None

    def _pump_at(self, counts: dict[str, int]) -> int | None:
        """The line of the pump that finds no task: those before it ran as many as they may, or found none either."""
        while counts["pumps"] < len(self.pumps):
            line, most = self.pumps[counts["pumps"]]
            counts["pumps"] += 1
            if counts["mainend"] - counts["pumped"] < most:
                counts["pumped"] = counts["mainend"]
                return line
            counts["pumped"] += most
        return None

    def quoted(self, number: int | None) -> str:
        """A line with its number, or nothing."""
        return f"script line {number}: {' '.join(self.lines[number - 1].split())}" if number else ""


class Story:
    """A log, as far as the rules allow it, and what is wrong with it."""

    def __init__(self, name: str, script: Script, text: bytes, faults: list[Fault]):
        self.name, self.script, self.faults = name, script, faults
        lines = text.decode("latin-1").split("\n")
        skipped = 1 if text.startswith(HEAD) else 0
        until = min((fault.line for fault in faults), default=len(lines)) - 1
        self.entries = list(self._entries(line for line in lines[skipped:until] if line[:1].isdigit()))
        self.count = len(self.entries)
        self.seats = max([script.workers, *(entry.seat for entry in self.entries)]) + 1
        self.spans = list(self._spans())
        self.posts = {entry.rest[0]: entry for entry in self.entries if entry.word in POSTS}
        self.takes = {entry.rest[0]: entry for entry in self.entries if entry.word in TAKES}

    def _entries(self, lines: Iterator[str]) -> Iterator[Entry]:
        counts: dict[str, int] = defaultdict(int)
        for line in lines:
            place, seat, word, *rest = line.split()
            yield Entry(int(place), int(seat), word, rest, line, self.script.line_of(word, rest, counts))

    def _spans(self) -> Iterator[Span]:
        """The tasks, items and scopes, in the order in which they end; those without an end come last."""
        open_at: dict[tuple[int, str], Entry] = {}
        for entry in self.entries:
            if entry.word in ("block", "jobtake", *TAKES):
                open_at[entry.seat, "block" if entry.word == "block" else "work"] = entry
            elif entry.word in ("unblock", "jobstep", *ENDS):
                begun = open_at.pop((entry.seat, "block" if entry.word == "unblock" else "work"), None)
                if begun:
                    yield self._span(begun, entry)
                if entry.word == "jobstep" and entry.rest[4] != "-":
                    open_at[entry.seat, "work"] = entry
        for begun in open_at.values():
            yield self._span(begun, None)

    def _span(self, begun: Entry, ended: Entry | None) -> Span:
        first = begun.rest[0]
        entries = tuple(filter(None, (begun, ended)))
        places = (begun.seat, begun.place, ended.place if ended else None, entries)
        if begun.word == "block":
            return Span("scope", ("scope", first), (f"{begun.rest[1]} block", begun.rest[1]), *places)
        if begun.word in ("jobtake", "jobstep"):
            item = begun.rest[2 if begun.word == "jobtake" else 4]
            return Span("item", ("item", first, item), (f"job {first} item {item}", f"item {item}", item), *places)
        return Span("main" if begun.word == "maintake" else "task", ("task", first), (f"task {first}", first), *places)

    def bands(self, word: str) -> Iterator[tuple[int, int | None, str]]:
        """From where to where a policy other than `all` is in force, or from where on shutdown is asked for, with what is said of it."""
        begun = None
        for entry in self.entries:
            if entry.word == word:
                if begun:
                    yield begun[0], entry.place, begun[1]
                begun = None if entry.rest == ["all"] else (entry.place, " ".join([word, *entry.rest]))
        if begun:
            yield begun[0], None, begun[1]

    def counts(self) -> Iterator[tuple[int, int, int]]:
        """At each place how many tasks of the pool wait after its entry, accepted and not taken, and how many run."""
        waiting = running = 0
        for entry in self.entries:
            waiting += (entry.word == "post" and entry.rest[3] == "ok") - (entry.word == "take")
            running += (entry.word == "take") - (entry.word == "end")
            yield entry.place, waiting, running

    def outcomes(self) -> dict[tuple, tuple]:
        """Of each task and item that began: its seat, and what it found and left, as far as the log says so."""
        return {span.key: (span.seat, *(entry.rest[-1] if entry.word != "jobstep" else entry.rest[3] for entry in span.entries))
                for span in self.spans if span.sort != "scope"}


def stories(data: list[tuple[str, bytes]], ask: Callable[[list[str], bytes], tuple[int, bytes]]) -> list[Story] | None:
    """What each of these logs, which have a script before them, says. `ask` runs the program on bytes. Where it judges one of them
    neither right nor wrong there is none."""
    told = []
    for name, parts in data:
        script, log = parted(parts)
        status, said = ask(["explain"], parts)
        if status not in (0, 1):
            return None
        faults = [_fault(said, log)] if status else []
        if faults:
            # Where a line is none of a log, no one has judged the entries before it.
            beginning = _beginning(log, faults[0].line)
            before = (script if script.endswith(b"\n") or not script else script + b"\n") + b"%%\n" + beginning
            status, said = ask(["explain", "--prefix"], before)
            if status == 1:
                faults.append(_fault(said, log))
        told.append(Story(name, Script(script), log, faults))
    return told


def _fault(said: bytes, log: bytes) -> Fault:
    """What `explain` says of a wrong log: on its second line why, and then which entries matter. Of a line that is none of a log it says
    no more than why, so the line itself is added."""
    first, words, *more = said.decode("latin-1").strip().split("\n")
    line = int(first.split()[1])
    lines = log.decode("latin-1").split("\n")[line - 1: line]
    return Fault(line, words, more or [f"the line is: {it}" for it in lines if it])


def _beginning(log: bytes, line: int) -> bytes:
    """The whole lines of the log before a line."""
    return b"".join(it + b"\n" for it in log.split(b"\n")[: line - 1])
