"""Runs the program, and looks at what each run may show from outside."""
import re
import subprocess
from dataclasses import dataclass

REASONS = (
    "NotAscii UnknownWord WordCount BadNumber OutOfRange OutOfOrder Undeclared PostedTwice "
    "DeclarationLate BadBlock JobUse ShutdownTwice ConfigTwice TooMany"
).split()

# For each status the notes that come with it, and whether the output is empty. A fault of writing leaves any front.
NOTES = {
    0: b"",
    1: b"",
    2: b"bad words\n",
    3: rb"bad script: line [1-9]\d*: reason (\d+) (\w+)\n",
    4: b"read fault\n",
    5: b"write fault\n",
    6: b"no memory\n",
    7: b"too large\n",
}
SILENT = {2, 3, 4, 6, 7}
# A verdict of status 1, and what stands in its place where `trace` finds a log wrong.
VERDICT = rb"illegal [1-9]\d*\n([^\n]+\n){0,11}|line [1-9]\d*, word [1-9]\d*: [^\n]+\n"
NOT_TRACED = rb"not legal: line [1-9]\d*\n"


class Wrong(Exception):
    """A run that is not as it should be: what kind of thing is wrong, and what was seen."""

    def __init__(self, kind, seen=""):
        super().__init__(f"{kind}: {seen}" if seen else kind)
        self.kind = kind


@dataclass
class Told:
    """What a run answered and wrote."""

    status: int
    output: bytes
    notes: bytes


def clipped(text):
    return text if len(text) <= 200 else text[:200] + b".."


def look_at(told, mode):
    """Refuses a status outside 0 to 7, and output or notes beside what its status allows in this mode."""
    if told.status not in NOTES:
        raise Wrong(f"status {told.status}", clipped(told.notes))
    not_traced = mode == "trace" and told.status == 1
    notes = re.fullmatch(NOT_TRACED if not_traced else NOTES[told.status], told.notes)
    if not notes:
        raise Wrong(f"notes under status {told.status}", clipped(told.notes))
    if told.status == 3 and REASONS[int(notes[1]) - 1 :][:1] != [notes[2].decode()]:
        raise Wrong("a reason of another name", told.notes)
    if (not_traced or told.status in SILENT) and told.output:
        raise Wrong(f"output under status {told.status}", clipped(told.output))
    if told.status == 1 and not not_traced and not re.fullmatch(VERDICT, told.output):
        raise Wrong("a verdict of another form", clipped(told.output))


class Program:
    """The built program, each run of which has so many seconds."""

    def __init__(self, path, seconds):
        self.path = path
        self.seconds = seconds
        self.runs = 0

    def run(self, words, data, output=subprocess.PIPE):
        """Runs it on these words and this input, and refuses what no status allows."""
        self.runs += 1
        try:
            ran = subprocess.run(
                [self.path, *words], input=data, stdout=output, stderr=subprocess.PIPE, timeout=self.seconds
            )
        except subprocess.TimeoutExpired:
            raise Wrong(f"more than {self.seconds} seconds", " ".join(words)) from None
        told = Told(ran.returncode, ran.stdout or b"", ran.stderr)
        look_at(told, words[0] if words else "")
        return told
