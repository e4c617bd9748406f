"""Makes a script as short as a pool still fails on it for the same cause: leaves out what it can, and makes numbers small.

Each try plays a shorter script some times, and holds where enough runs fail for that cause. How many, is told from how often the pool
fails on the first script: one on which it fails far more seldom is of little use. So by bad luck a line may stay that is not needed."""
from __future__ import annotations

from collections import namedtuple
from collections.abc import Callable, Iterable, Iterator
from itertools import islice

from runs import Stopped

# What a line or a step names, word by word after the first, and which lines declare.
NAMES = {
    "post": ("task", "runner"), "main": ("task", "queue"), "reprio": ("runner",), "fence": ("queue",), "unfence": ("queue",),
    "vote": ("queue",), "rank": ("queue",), "close": ("queue",), "startjob": ("job",), "join": ("job",), "cancel": ("job",),
}
DECLARED = ("runner", "queue", "task", "job")
CONFIGURED = ("workers", "groups", "threshold")
# Where the steps of a line begin.
STEPS_AT = {"task": 2, "job": 6}
# What holds where no line says it.
WORKERS, GROUPS = ("workers", "2"), ("groups", "4", "2", "0")
# Which words of a line are numbers that may be smaller, by its first word, and how small.
SMALLER = {"job": {4: 1, 5: 1}, "pump": {1: 1}, "tick": {1: 1}, "post": {3: 0}, "main": {3: 0}}
# A try plays a script so often at least, and else so often that the first script would fail so many times on the average.
LEAST_PLAYED, EXPECTED = 20, 10
# It holds with so many failures, or with a quarter of those that are expected, where these are fewer.
MOST_WANTED = 3
# So often all of it is done, as long as something goes.
ROUNDS = 4

# A line: its words up to its steps, and the steps, each as words.
Line = namedtuple("Line", "words steps")
Lines = "tuple[Line, ...]"


class Shrunk:
    """What is left of a script: its text, which is empty where the pool did not fail again, a failing run of it, and how often it fails."""

    def __init__(self, text: bytes, case: object, failed: int, runs: int, before: int):
        self.text, self.case, self.failed, self.runs, self.before = text, case, failed, runs, before
        self.lines = text.count(b"\n")

    def says(self) -> str:
        """The script, with what is to be known of it."""
        if not self.text:
            return "not shrunk: played again, the pool did not fail for that cause often enough\n"
        head = f"shrunk from {self.before:,} lines to {self.lines:,}"
        head += f"; of {self.runs:,} runs {self.failed:,} failed for that cause:\n" if self.runs else ", when it was stopped:\n"
        return head + "".join(f"  {line}\n" for line in self.text.decode("ascii").splitlines())

    def as_json(self) -> dict[str, object]:
        """The same, for a program."""
        return {"script": self.text.decode("ascii"), "lines": self.lines, "from": self.before, "runs": self.runs, "failed": self.failed}


class Shrinking:
    """The work on one script."""

    def __init__(self, judging: object, case: object, cause: str, rate: float):
        self.judging, self.cause, self.case = judging, cause, None
        self.runs = min(judging.runs, max(LEAST_PLAYED, int(EXPECTED / rate)))
        self.wanted = max(1, min(MOST_WANTED, int(rate * self.runs / 4)))
        self.before = case.script.text
        self.lines = read(self.before)
        self.tried: set[bytes] = set()
        self.tries = 0

    def done(self) -> Shrunk:
        """Goes through all that may go, until nothing does."""
        before = len(self.lines)
        if self._holds(self.lines):
            for _ in range(ROUNDS):
                lines = self.lines
                self._leave_out()
                self._lessen()
                if lines == self.lines or self._is_stopped():
                    break
        if not self.case:
            return Shrunk(b"", None, 0, self.judging.runs, before)
        return Shrunk(text_of(self.lines), self.case, *self._rate(), before)

    def _is_stopped(self) -> bool:
        return self.judging.stopped.is_set()

    # ---- a try

    def _holds(self, lines: Lines) -> bool:
        """Whether the pool still fails on these lines. Then they are the script from now on."""
        text = text_of(lines)
        if text in self.tried or self._is_stopped():
            return False
        self.tried.add(text)
        self.tries += 1
        self.judging.show(f"shrinking: {len(self.lines):,} lines left, try {self.tries:,}")
        if not lines or not self._is_script(text):
            return False
        failures = self._failures(text, self.runs)
        found = list(islice(failures, self.wanted))
        failures.close()
        is_failing = len(found) == self.wanted
        if is_failing:
            self.case, self.lines = found[0], lines
        return is_failing

    def _is_script(self, text: bytes) -> bool:
        try:
            return self.judging.ask(["lint"], text)[0] == 0
        except Stopped:
            return False

    def _failures(self, text: bytes, runs: int) -> Iterator[object]:
        """Of so many runs of a script those that fail for the cause."""
        plays = self.judging.plays_of(text, runs)
        try:
            yield from (case for case in plays if case.found.cause == self.cause)
        finally:
            plays.close()

    def _rate(self) -> tuple[int, int]:
        """How many of so many runs of what is left fail for the cause."""
        self.judging.show(f"shrinking: {len(self.lines):,} lines left, and how often they fail is counted")
        cases = list(self.judging.plays_of(text_of(self.lines), self.judging.runs))
        return sum(case.found.cause == self.cause for case in cases), len(cases)

    # ---- what is left out

    def _leave_out(self) -> None:
        """Leaves out lines and steps, first those that take most with them."""
        for sort in ("runner",), ("job",), ("queue",), ("task",):
            self._thin(lambda lines, sort=sort: [(at, None) for at, line in enumerate(lines) if line.words[0] in sort])
        self._thin(lambda lines: [(at, None) for at, line in enumerate(lines) if line.words[0] not in (*DECLARED, *CONFIGURED)])
        self._thin(lambda lines: [(at, None) for at, line in enumerate(lines) if line.words[0] in CONFIGURED])
        self._thin(lambda lines: [(at, step) for at, line in enumerate(lines) for step in range(len(line.steps))])

    def _thin(self, parts: Callable[[Lines], list]) -> None:
        """Leaves out what it can of these parts: half of them at once, then a quarter, and at last one by one."""
        size = len(parts(self.lines))
        while size:
            at = 0
            while at < len(parts(self.lines)) and not self._is_stopped():
                gone = parts(self.lines)[at : at + size]
                if not self._holds(without(self.lines, gone)):
                    at += size
            size //= 2

    # ---- what becomes less

    def _lessen(self) -> None:
        """Makes the limits and the numbers small: at first workers and groups, which go together."""
        for limits in _less_limits(self.lines):
            if self._holds(limits):
                break
        self._holds(tuple(Line(line.words, tuple(map(_plain, line.steps))) for line in self.lines))
        at = 0
        while at < len(self.lines) and not self._is_stopped():
            self._lessen_line(at)
            at += 1

    def _lessen_line(self, at: int) -> None:
        """Makes the numbers of a line as small as one of 1, 2, 4 and so on."""
        for place, least in SMALLER.get(self.lines[at].words[0], {}).items():
            for value in _less(int(self.lines[at].words[place]), least):
                if self._holds(_with_word(self.lines, at, place, str(value))):
                    break


# ---- scripts


def read(text: bytes) -> Lines:
    """The lines of a sound script that say something."""
    found = []
    for raw in text.decode("latin-1").split("\n"):
        words = raw.replace("\t", " ").rstrip("\r").split(" ")
        words = [word for word in words if word]
        if words and not words[0].startswith("#"):
            at = STEPS_AT.get(words[0], len(words))
            found.append(Line(tuple(words[:at]), tuple(_steps(words[at:]))))
    return tuple(found)


def _steps(words: list[str]) -> Iterator[tuple[str, ...]]:
    while words:
        end = words.index(";") if ";" in words else len(words)
        yield tuple(words[:end])
        words = words[end + 1 :]


def text_of(lines: Lines) -> bytes:
    """The text of a script."""
    told = (" ".join([*line.words, " ; ".join(map(" ".join, line.steps))]).strip() for line in lines)
    return "".join(f"{line}\n" for line in told).encode("ascii", "replace")


def without(lines: Lines, gone: Iterable[tuple[int, int | None]]) -> Lines:
    """What is left without these lines and steps, and without all that names what they declare. Numbers are given anew."""
    gone = set(gone)
    numbers = _numbers_of([line for at, line in enumerate(lines) if (at, None) not in gone])
    left, started = [], set()
    for at, line in enumerate(lines):
        if (at, None) in gone:
            continue
        steps = [step for number, step in enumerate(line.steps) if (at, number) not in gone]
        if len(steps) < len(line.steps) and any(line.steps[number][0] in ("block", "unblock") for where, number in gone if where == at):
            steps = [step for step in steps if step[0] not in ("block", "unblock")]
        words = _renumbered(line.words, numbers)
        # A job has to be started before it is joined or cancelled.
        if words is None or words[0] in ("join", "cancel") and words[1] not in started:
            continue
        if words[0] == "startjob":
            started.add(words[1])
        left.append(Line(words, tuple(filter(None, (_renumbered(step, numbers) for step in steps)))))
    return tuple(left)


def _numbers_of(lines: list[Line]) -> dict[tuple[str, int], str]:
    """What number each thing gets that is declared, by its sort and its number so far."""
    numbers, counts = {}, {}
    for line in lines:
        sort = line.words[0]
        if sort in DECLARED:
            numbers[sort, int(line.words[1])] = str(counts.get(sort, 0))
            counts[sort] = counts.get(sort, 0) + 1
    return numbers


def _renumbered(words: tuple[str, ...], numbers: dict[tuple[str, int], str]) -> tuple[str, ...] | None:
    """The words with the new numbers, or nothing where they name what is gone."""
    sorts = words[:1] if words[0] in DECLARED else NAMES.get(words[0], ())
    named = [numbers.get((sort, int(word))) for sort, word in zip(sorts, words[1:])]
    return None if None in named else (words[0], *named, *words[1 + len(named) :])


def _with_word(lines: Lines, at: int, place: int, word: str) -> Lines:
    words = lines[at].words
    return (*lines[:at], Line((*words[:place], word, *words[place + 1 :]), lines[at].steps), *lines[at + 1 :])


def _less(number: int, least: int) -> Iterator[int]:
    """The numbers from the least one on that are tried in place of a number."""
    value = least
    while value < number:
        yield value
        value = value * 2 or 1


def _plain(step: tuple[str, ...]) -> tuple[str, ...]:
    """A step with a small number, where it computes."""
    return (step[0], str(min(int(step[1]), 2))) if step[0] in ("add", "mul", "set") else step


def _less_limits(lines: Lines) -> Iterator[Lines]:
    """The lines with fewer workers, and groups that are as much smaller; and with groups that have no limits of their own."""
    said = {line.words[0]: line.words for line in lines if line.words[0] in ("workers", "groups")}
    if not said:
        return
    workers, groups = said.get("workers", WORKERS), said.get("groups", GROUPS)
    rest = tuple(line for line in lines if line.words[0] not in ("workers", "groups"))
    for count in range(1, int(workers[1])):
        for background in dict.fromkeys(("0", groups[3])):
            foreground = min(count, int(groups[1]))
            limits = ("groups", str(foreground), str(min(foreground, int(groups[2]))), background)
            yield (Line(("workers", str(count)), ()), Line(limits, ()), *rest)
