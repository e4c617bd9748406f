"""What is said behind status 3: the bad word, its line with a mark under it, what was meant, and which trap it fell into."""
from __future__ import annotations

import io
from collections.abc import Callable
from itertools import islice

from guesses import nearest, plain_number
from inputs import parted
from words import MODES

# What the form of a line or a step is, by its first word, in each of the three languages.
POST = "post T R D: a task, a runner, and a delay in microseconds"
MAIN = "main T Q D: a task, a main queue, and a delay in microseconds"
FORMS = {
    "script": {
        "workers": "workers N", "groups": "groups F FB B: the limits of foreground work, of best effort in it, and of background work",
        "threshold": "threshold U: microseconds", "runner": "runner R KIND PRIORITY BEHAVIOUR, and mayblock or nothing",
        "queue": "queue Q CLASS VOTERS", "task": "task T STEPS, with the word ; between two steps",
        "job": "job J PRIORITY BEHAVIOUR ITEMS CAP STEPS", "post": POST, "main": MAIN, "tick": "tick N: how many readings of the clock",
        "policy": "policy all, policy foreground, or policy none", "reprio": "reprio R PRIORITY",
        "fence": "fence Q now, or fence Q start", "unfence": "unfence Q", "vote": "vote Q V on, or vote Q V off", "rank": "rank Q CLASS",
        "close": "close Q", "pump": "pump N: how many main tasks at most", "flush": "flush, alone",
        "startjob": "startjob J", "join": "join J", "cancel": "cancel J", "shutdown": "shutdown, alone",
        "add": "add K", "mul": "mul K", "set": "set K", "block": "block may, or block will", "unblock": "unblock, alone",
    },
    "nest": {
        "queue": "queue Q CLASS", "task": "task T nestable STEPS, or task T deferred STEPS", "post": "post T Q: a task and a main queue",
        "run": "run N: how many tasks at most", "say": "say K", "loop": "loop N: how many tasks at most",
    },
    "replies": {"reply": "reply T U runner R, or reply T U queue Q: task U is the reply of task T"},
}
# Which word of a line is the first of its steps, what the first words of steps are, and the words that may stand at a wrong place.
STEPS_AT = {"script": {"task": 2, "job": 6}, "nest": {"task": 3}, "replies": {}}
STEPS = {"add", "mul", "set", "block", "unblock", "say", "loop"}
PLACED = STEPS | {"parallel", "sequenced", "best_effort", "user_visible", "user_blocking", "continue", "skip", "mayblock", ";"}

# The columns that a quoted line takes, and how many of them stand before the mark.
WIDTH = 96
BEFORE = 48
BLANKS = " \t"
# The ends of the ranges in what `lint` says: of ids, of times in microseconds, and of values.
MOST_ID = 4294967295
MOST_MICROSECONDS = 1000000000000
MOST_VALUE = 18446744073709551615


def lines(note: str, mode: str, parts_known: bool, data: bytes, lint: Callable[[list[str], bytes], tuple[int, bytes]]) -> list[str]:
    """What is said behind the program's note of status 3. `data` was its input, and `lint` runs the mode of that name on bytes."""
    if note.startswith("bad events"):
        return of_events(note, parted(data)[1])
    if note.startswith("bad plan"):
        return of_plan(note, parted(data)[0])
    fault = Fault(note, mode, parts_known, data)
    fault.ask(lint)
    of_line, of_word = (next(filter(None, (trap(fault) for trap in traps)), None) for traps in (LINE_TRAPS[fault.language], WORD_TRAPS))
    return [fault.said, *fault.quoted(None if of_line else fault.meant()), *filter(None, [of_line or of_word])]


class Fault:
    """A bad line, and what is known of it."""

    def __init__(self, note: str, mode: str, parts_known: bool, data: bytes):
        """Finds the line that a note `bad LANGUAGE: line L: reason R NAME` speaks of."""
        head, line, reason = note.strip().split(": ")
        self.language = head.split()[-1]
        self.number = int(line.split()[-1])
        self.reason = reason.split()[-1]
        self.mode, self.parts_known = mode, parts_known
        script, behind = parted(data) if MODES[mode].files[1:] else (data, b"")
        self.part = behind if self.language == "replies" else script
        self.linted = data if self.language == "replies" else script
        raw = next(islice(io.BytesIO(self.part), self.number - 1, None), b"").rstrip(b"\n")
        self.line = (raw[:-1] if raw.endswith(b"\r") else raw).decode("latin-1")
        self.starts = [at for at, it in enumerate(self.line) if it not in BLANKS and self.line[at - 1 : at] in ("", *BLANKS)]
        self.words = list(filter(None, self.line.replace("\t", " ").split(" ")))
        self.command = self.words[0] if self.words else ""

    def ask(self, lint: Callable[[list[str], bytes], tuple[int, bytes]]) -> None:
        """Asks the program which word is bad, counted from 0, and why. For want of memory it may have no answer."""
        status, output = lint([] if self.language == "script" else [f"--{self.language}"], self.linted)
        where, _, self.text = output.decode("latin-1").strip().partition(": ")
        if status == 1 and f"line {self.number}, word " in where:
            self.said = f"{where}: {self.text}"
            self.index = int(where.split()[-1]) - 1
        else:
            self.said = f"line {self.number}: docs/formats.md says what {self.reason} means"
            self.index, self.text = None, ""

    @property
    def word(self) -> str:
        """The bad word, or nothing where one is missing."""
        return self.words[self.index] if self.index is not None and self.index < len(self.words) else ""

    @property
    def range(self) -> tuple[int, int] | None:
        """The least and the greatest number that may stand for the word, where that is none."""
        said, _, taken = self.text.rpartition("number: ")
        return tuple(map(int, taken.split(" to "))) if " is no " in said else None

    def quoted(self, meant: str | None) -> list[str]:
        """The line, cut where it is long, and below it a mark under the word, with what was meant."""
        if not self.line.strip(BLANKS):
            return []
        behind = self.starts[-1] + len(self.words[-1]) + 1
        start = 0 if self.index is None else self.starts[self.index] if self.word else behind
        first = 0 if len(self.line) <= WIDTH else max(0, start - BEFORE)
        last = first + WIDTH
        quote = f"  {'..' * (first > 0)}{_shown(self.line[first:last])}{'..' * (last < len(self.line))}".expandtabs().rstrip()
        if self.index is None:
            return [quote]
        before = f"  {'..' * (first > 0)}{_shown(self.line[first:start].ljust(start - first))}".expandtabs()
        mark = "^" * max(1, len(_shown(self.word[: last - start])))
        return [quote, " " * len(before) + mark + (f" did you mean {meant}?" if meant else "")]

    def meant(self) -> str | None:
        """What stands for the word, where that is likely: one of those that its place takes, or a number in digits alone."""
        if self.range:
            low, high = self.range
            counts = "microseconds" if high == MOST_MICROSECONDS else None
            number = plain_number(self.word.encode("latin-1").decode("utf-8", "replace"), counts)
            return str(number) if number is not None and low <= number <= high else None
        # A word that is right at another place is no slip of the pen.
        if " is no " not in self.text or self.word in PLACED:
            return None
        # Names have no blank, as `where W is 1 to 64` has, or `so far 1`.
        taken = self.text.rpartition(": ")[2].replace(" or ", ", ").split(", ")
        return nearest(self.word, [name for name in taken if " " not in name])

    def form(self) -> str | None:
        """The form of the step that the word is of, or of the line."""
        forms, first = FORMS[self.language], STEPS_AT[self.language].get(self.command)
        name = self.command
        if first and self.index is not None and self.index >= first:
            while ";" in self.words[first : self.index]:
                first += self.words[first:].index(";") + 1
            name = self.words[first] if first < len(self.words) else name
        return forms.get(name) or forms.get(self.command)


def of_plan(note: str, script: bytes) -> list[str]:
    """What is said of a script that is not that of an open plan: which line it is, and the line."""
    _, _, sort, number, *_ = note.split()
    lines = [line.rstrip("\r") for line in script.decode("latin-1").split("\n")]
    if sort == "line":
        place, said = int(number), "with --open a script only declares, and the log says what was done"
    else:
        is_runner = [line.split()[:1] == ["runner"] for line in lines]
        place = next(at for at, it in enumerate(is_runner, 1) if it and sum(is_runner[:at]) == int(number) + 1)
        said = "with --open the last seat is the guest's, which takes nothing"
    return [f"line {place}: {said}", f"  {_shown(lines[place - 1])[:WIDTH]}"]


def of_events(note: str, events: bytes) -> list[str]:
    """What is said of a bad line of what each seat saw: why, and the line."""
    _, where, *why = note.strip().split(": ")
    line = next(islice(io.BytesIO(events), int(where.split()[-1]) - 1, None), b"").decode("latin-1")
    words = line.split()
    if not why and not line.endswith("\n"):
        why = ["it has no line feed at its end, so it may be cut off"]
    elif not why and line.endswith("\r\n"):
        why = ["it ends in CR LF; the lines of events end in LF alone"]
    elif not why and words[:1] and (words[0] in ("taskenv", "total") or len(words) > 2 and words[0].isdigit() and words[1].isdigit()):
        why = ["that is a line of a log; an event has no place before its seat, and events have no first line and no total"]
    said = why[0] if why else "that is no event: the form is [FROM TO] SEAT WORD ARGUMENTS, where [FROM TO] may be left out"
    quoted = _shown(line.rstrip("\r\n"))
    return [f"events {where}: {said}"] + ([f"  {quoted[:WIDTH]}{'..' * (len(quoted) > WIDTH)}"] if quoted.strip() else [])


def _shown(text: str) -> str:
    """The text, with each byte in hexadecimal that is no visible one, no blank and no tab."""
    return "".join(it if it == "\t" or " " <= it <= "~" else f"\\x{ord(it):02x}" for it in text)


# ---- traps of a line: each answers its sentence where the line fell into it


def _encoding(fault: Fault) -> str | None:
    if fault.part[:2] in (b"\xff\xfe", b"\xfe\xff") or b"\0" in fault.part[:4]:
        return "the input looks like UTF-16: save it as UTF-8 or ASCII"
    if fault.part.startswith(b"\xef\xbb\xbf") and fault.number == 1:
        return "the input begins with a byte order mark: save it without one"
    return "carriage returns alone end no line: put line feeds in their place" if "\r" in fault.line else None


def _parting_line(fault: Fault) -> str | None:
    if fault.line == "%%":
        return "a script alone has no line %%: check, explain, arrange, trace and reply read what stands after it"
    if "%" in fault.line and not fault.line.strip("%" + BLANKS):
        return "the line between the parts is exactly %%, without a blank"
    return f"line {fault.number} ran into %%: the script needs a line feed at its end" if fault.line.endswith("%%") else None


def _other_part(fault: Fault) -> str | None:
    """A line of a log, or a reply, where a script stands."""
    words = fault.words
    is_entry = len(words) > 2 and words[0].isdigit() and words[1].isdigit() and words[2].isalpha()
    is_total = len(words) == 2 and words[0] == "total" and words[1].isdigit()
    is_timed = len(words) > 3 and words[0][:1] == "[" and words[0][1:].isdigit() and words[1][-1:] == "]"
    if is_timed or len(words) > 1 and words[0].isdigit() and words[1].isalpha():
        sort, part, modes, readers = "event", "events", ("arrange",), "the mode arrange reads"
    elif is_entry or is_total or fault.line.startswith(("taskenv log ", "[[")):
        sort, part, modes, readers = "log line", "log", ("check", "explain", "trace"), "check, explain and trace read"
    elif fault.command == "reply":
        sort, part, modes, readers = "reply", "replies", ("reply",), "the mode reply reads"
    else:
        return None
    said = f"line {fault.number} looks like a{'n' * (sort == 'event')} {sort}: "
    if fault.mode not in modes:
        return said + f"{readers} such lines, after a script"
    if fault.parts_known:
        return said + f"the first file is the script, and the second the {part}"
    if fault.number == 1:
        return said + f"the script comes first, then a line %%, and then the {part}"
    return said + "is the line %% missing before it?"


def _nest_line(fault: Fault) -> str | None:
    is_nest = b" nestable" in fault.part or b" deferred" in fault.part
    is_line = fault.command == "run" or is_nest and fault.command in ("queue", "task")
    return "this looks like a nest script: the mode nest reads it" if is_line else None


def _script_line(fault: Fault) -> str | None:
    if fault.command not in FORMS["script"].keys() - FORMS[fault.language].keys():
        return None
    at = "the mode run reads it" if fault.language == "nest" else "that stands before the line %%"
    return f"this looks like a line of a script: {at}"


def _other_format(fault: Fault) -> str | None:
    if fault.command.startswith(("{", "[")):
        return "this looks like JSON: a script has lines of words, as examples/first_run.task"
    return "a comment begins with #" if fault.command.startswith(("//", "--", "/*", "%", "!", ";")) else None


LINE_TRAPS = {
    "script": (_encoding, _parting_line, _other_part, _nest_line, _other_format),
    "nest": (_encoding, _parting_line, _other_part, _script_line, _other_format),
    "replies": (_encoding, _script_line, _other_format),
}


# ---- traps of a word


def _comment(fault: Fault) -> str | None:
    return "a comment has a line of its own" if any(word.startswith(("#", "//")) for word in fault.words[1:]) else None


def _character(fault: Fault) -> str | None:
    if fault.line.isascii():
        return None
    import unicodedata

    other = next(it for it in fault.line.encode("latin-1").decode("utf-8", "replace") if it > "\x7f")
    name = unicodedata.name(other, "") if other != "\ufffd" else ""
    return f"it has U+{ord(other):04X}, {name}: a script is ASCII, but for its comments" if name else None


def _glued(fault: Fault) -> str | None:
    if fault.command not in STEPS_AT[fault.language]:
        return "each line stands alone: the word ; parts the steps of a task or a job" if ";" in fault.line else None
    if all(word == ";" or ";" not in word for word in fault.words):
        return None
    return f"the word ; needs blanks around it: {_shown(' '.join(fault.line.replace(';', ' ; ').split()))[:WIDTH]}"


def _number(fault: Fault) -> str | None:
    if not fault.range:
        return None
    high = fault.range[1]
    if fault.word.startswith("-") and fault.word[1:].isdigit():
        if high == MOST_VALUE:
            return f"values count modulo 2^64, where {fault.word} is {int(fault.word) % 2 ** 64}"
        return "no number is below 0"
    if fault.word.isdigit():
        return "a number has 20 digits at most"
    if fault.meant():
        return "numbers are digits alone" + (", and times are in microseconds" if high == MOST_MICROSECONDS else "")
    if high == MOST_ID and fault.word[:1].isalpha() and fault.word not in PLACED:
        return "tasks, runners, queues and jobs have no names: they are numbers, from 0"
    return None


def _punctuation(fault: Fault) -> str | None:
    if any(sign in word for word in fault.words for sign in ",:=()&|\"'" if not word.startswith("single:")):
        return "words stand without commas, colons and quotes: blanks part them, and the word ; parts steps"
    return None


def _below(fault: Fault) -> str | None:
    """A declaration that stands behind the line that needs it."""
    if " that is declared: " not in fault.text:
        return None
    sort = fault.text.partition(" that is declared: ")[0].split()[-1]
    below = islice(enumerate(io.BytesIO(fault.part), 1), fault.number, None)
    found = next((number for number, line in below if line.decode("latin-1").split()[:2] == [sort, fault.word]), None)
    return f"{sort} {fault.word} is declared below, on line {found}: what a line names stands above it" if found else None


def _form(fault: Fault) -> str | None:
    """The form of the line or the step, where a word is missing, one is too many, or stands at a wrong place."""
    if " is no command: " in fault.text:
        return f"{fault.word} is a step, and stands in the line of a task" if fault.word in STEPS else None
    is_count = " missing: " in fault.text or " one word too many" in fault.text or fault.reason == "WordCount"
    is_placed = " is no " in fault.text and " is no step" not in fault.text and (fault.word in PLACED or fault.word.isdigit())
    form = fault.form() if is_count or is_placed else None
    return f"the form is {form}" if form else None


WORD_TRAPS = (_comment, _character, _glued, _number, _punctuation, _below, _form)
