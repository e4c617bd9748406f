"""Why a run of another pool failed, without the numbers that differ from run to run: so two failures of one bug have one cause.

A cause is the sentence of `explain` with the letters of docs/formats.md in place of numbers, and what the log has there instead. Where a
run left no log, but what each seat saw, it is a sentence of `arrange`."""
from __future__ import annotations

import re
from collections import namedtuple
from collections.abc import Callable

import faults
from inputs import is_events
from playing import Played

# The numbers of an entry by its kind. A word among them stands for itself.
NUMBERS = {
    "post": "T R D", "main": "T Q D", "tick": "NOW", "take": "T R FOUND", "end": "T LEFT", "block": "T", "unblock": "T", "reprio": "R",
    "fence": "Q", "unfence": "Q", "vote": "Q V", "rank": "Q CLASS", "close": "Q", "maintake": "T Q FOUND", "mainend": "T LEFT",
    "startjob": "J", "jobtake": "J ID ITEM", "jobstep": "J ID ITEM VALUE NEXT", "cancel": "J", "cancelled": "J", "joined": "J STATUS SUM",
}
# Where two entries differ in several numbers, the first of these says most.
MOST_TELLING = ("R", "Q", "J", "T")
LETTERS = {"seat": "S", "task": "T", "job": "J", "line": "L", "total": "N"}
ENTRY = re.compile(r"\d+ \d+ ([a-z]+)((?: (?:\d+|-|[a-z_]+))*)")
EVENT = re.compile(r"(?:\[\d+ \d+\] )?(\d+) ([a-z]+)((?: (?:\d+|-|[a-z_]+))*)$")
VERSION = b"taskenv log 2\n"
TOTAL = re.compile(rb"(?:^|\n)total \d+\n\Z")
UNFINISHED = "unfinished: "

# What `arrange` answers where there is no order, or none was found, and where a line is no event.
NO_ORDER, GAVE_UP, BAD_EVENTS = 1, 8, 3
# What stands against an event, but is no more than that another one has to come first.
WAITS = ("by its times this came before it", "the pool is not idle", "the driver waits", "it may come")
# What stands in a sentence on a seat that took another source than its best one, which may be left over by what went wrong elsewhere;
# most of all where that source is not ready yet.
LEFT_OVER = (" (the other is not ready)", " (")

# What is said of a run: its cause, which is empty where it is legal; whether it was judged as a beginning; what `explain` or `arrange`
# says; whether the run left events, in place of a log; and the log to be drawn of them, as far as there is one.
Finding = namedtuple("Finding", "cause is_beginning explanation is_of_events drawn", defaults=(False, b""))


def told(found: Finding) -> list[str]:
    """The lines of what is said of a run, without a log that was made of its events."""
    lines = found.explanation.decode("latin-1").splitlines()
    head = VERSION.decode().strip()
    return lines[: lines.index(head)] if found.is_of_events and head in lines else lines


def finding(ask: Callable[..., tuple[int, bytes]], script: bytes, played: Played) -> Finding:
    """What is to be said of a run. One that did not end well, or left no whole log, is judged as a beginning. `ask` runs the program
    with some words on a script and a log: its status, and what it writes. Other statuses than 0 and 1 that may come are named, and the
    stream that it is asked for."""
    log = played.log
    if not log:
        return Finding(f"{played.end or 'ended with status 0'}, and wrote no log", True, b"")
    if is_events(log):
        return _of_events(ask, script, played)
    has_no_total = log.startswith(VERSION) and not TOTAL.search(log)
    fault = "the log ends within a line" if not log.endswith(b"\n") else "the log ends without its total" if has_no_total else ""
    is_beginning = bool(fault)
    status, said = ask(["explain", "--prefix"] if is_beginning else ["explain"], script, log)
    why = "" if status == 0 else _why(said.decode("latin-1"), log)
    if status == 1 and not is_beginning and played.end and why.startswith(UNFINISHED):
        status, why, is_beginning = 0, "", True
    if not played.end and not fault:
        return Finding(why, is_beginning, said)
    legal = "its log is legal and whole"
    if is_beginning:
        legal = "what it wrote is legal as far as it goes" if b"\n" in log else "no line of it is whole"
    return Finding("; ".join(filter(None, [played.end or fault, why or legal])), is_beginning, said)


def _why(said: str, log: bytes) -> str:
    """The sentence of `explain`, which is its second line, and what the log has on that line instead."""
    verdict, sentence = [line.strip() for line in [*said.split("\n"), ""][:2]]
    wanted = ENTRY.search(sentence)
    if sentence.startswith(UNFINISHED):
        return _lettered(sentence.partition(";")[0].partition(":")[0] + ": " + _unfinished(sentence[len(UNFINISHED) :]))
    told = _lettered(sentence[: wanted.start()] + _form(wanted) + sentence[wanted.end() :] if wanted else sentence)
    lines, number = log.split(b"\n"), int(verdict.split()[1])
    found = ENTRY.fullmatch(lines[number - 1].decode("latin-1")) if number <= len(lines) else None
    if not found or "line L" in told:
        return told
    is_alike = wanted and _form(wanted) == _form(found)
    return f"{told}; the log has " + (f"another {_first_difference(wanted, found)}" if is_alike else _form(found))


def _of_events(ask: Callable[..., tuple[int, bytes]], script: bytes, played: Played) -> Finding:
    """What is to be said of a run that left events. Whether a log is whole depends on what each seat did, and not on the order: so it is
    asked for an order first, and then whether its log is whole."""
    whole, fault = played.log, ""
    if not whole.endswith(b"\n"):
        whole, fault = whole[: whole.rfind(b"\n") + 1], "the events end within a line"
    end = played.end or fault
    if not whole:
        return Finding(f"{end}; no line of it is whole", True, b"", True)
    status, said = ask(["arrange", "--prefix"], script, whole, also=(BAD_EVENTS, GAVE_UP))
    if status:
        why, said, drawn = _why_not_arranged(ask, script, whole, status, said)
        return Finding("; ".join(filter(None, [end, why])), bool(end), said, True, drawn)
    log, (status, said) = said, ask(["explain"], script, said)
    if end:
        legal = "its events are legal as far as they go" if status or fault else "its events are those of a legal and whole log"
        return Finding(f"{end}; {legal}", True, log, True, log)
    return Finding(_why(said.decode("latin-1"), log) if status else "", False, said + log, True, log)


def _why_not_arranged(ask: Callable[..., tuple[int, bytes]], script: bytes, events: bytes, status: int, said: bytes) -> tuple:
    """Why there is no log of the events, where `arrange` answers with this status and this output; that output, or what is said of a bad
    line; and what can be drawn."""
    if status == BAD_EVENTS:
        note = ask(["arrange", "--prefix"], script, events, also=(BAD_EVENTS,), stream=2)[1].decode("latin-1").strip()
        first, *rest = faults.of_events(note, events)
        why = re.sub(r"line \d+ of", "line E of", _lettered(first.replace("events", "bad events:", 1)))
        return why, "".join(f"{line}\n" for line in (note, first, *rest)).encode("latin-1"), b""
    why, drawn = _why_no_order(said.decode("latin-1"))
    return why if status == NO_ORDER else "gave up: whether there is an order is not known", said, drawn


def _why_no_order(said: str) -> tuple[str, bytes]:
    """Of the sentences of `arrange` the first one that says more than that another event has to come first, or else the first one, with
    what the seat saw; and the longest beginning with that event after it, to be drawn."""
    lines, _, beginning = said.partition(VERSION.decode())
    pairs = re.findall(r"^saw: (.*)\n  (.*)$", lines, re.MULTILINE)
    if not pairs:
        return "no order", b""
    saw, sentence = min(pairs, key=lambda pair: (pair[1].startswith(WAITS), *(words in pair[1] for words in LEFT_OVER)))
    event = EVENT.match(saw)
    place = beginning.count("\n")
    entry = ENTRY.fullmatch(f"{place} {event[1]} {event[2]}{event[3]}") if event else None
    wanted = ENTRY.search(sentence) or EVENT.search(sentence)
    told = _lettered(sentence[: wanted.start()] + _form(_entry(wanted)) + sentence[wanted.end() :] if wanted else sentence)
    drawn = (VERSION.decode() + beginning + (f"{entry[0]}\n" if entry else "")).encode("latin-1")
    if not entry:
        return f"no order: {told}", drawn
    is_alike = wanted and not sentence.startswith(WAITS) and _form(_entry(wanted)) == _form(entry)
    saw = f"another {_first_difference(wanted, entry)}" if is_alike else _form(entry)
    return f"no order: {told}; the seat saw {saw}", drawn


def _entry(found: re.Match) -> re.Match:
    """An entry that was found with its place, or an event as if it had one."""
    return found if found.re is ENTRY else ENTRY.fullmatch(f"0 {found[1]} {found[2]}{found[3]}")


def _unfinished(sentence: str) -> str:
    """What is left to be done, without by which entry: that is where the log happens to end."""
    return re.sub(r"(,| by)?:? *$", "", (ENTRY.split(sentence)[0].split(";")[0]))


def _lettered(sentence: str) -> str:
    """The sentence without numbers. Seat 0 is the driver in each run, so it stays."""
    sentence = re.sub(r"[:;] (?:at work|seats inside|what blocks it): \d+(; something may be taken)?", "", sentence)
    sentence = re.sub(r"\b(seat|task|job|line|total) (\d+)", lambda it: f"{it[1]} {LETTERS[it[1]] if it[0] != 'seat 0' else 0}", sentence)
    return re.sub(r"; something may be taken$", "", sentence)


def _form(entry: re.Match) -> str:
    """`take T R FOUND`, of an entry."""
    names = NUMBERS.get(entry[1], "").split()
    words = entry[2].split()
    letters = [*names, *["N"] * len(words)]
    return " ".join([entry[1], *(letters[at] if word.isdigit() else word for at, word in enumerate(words))])


def _first_difference(wanted: re.Match, found: re.Match) -> str:
    """The name of the number in which they differ that says most. Where none differs it is the seat or the place."""
    names = NUMBERS.get(wanted[1], "").split()
    differ = [name for name, one, other in zip(names, wanted[2].split(), found[2].split()) if one != other]
    return next((name for name in MOST_TELLING if name in differ), (differ or ["seat"])[0])
