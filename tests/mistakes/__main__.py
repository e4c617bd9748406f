"""Plays tables of mistakes through the launcher: python3 -B tests/mistakes LAUNCHER [TABLE..]

A table is a file of rows beside this one; without a name all are played. A row is one mistake, with all that has to come on standard
error. Rows are parted by empty lines, and lines that begin with `#` between them say nothing.

    == NAME          begins a row
    $ WORDS          the words behind the launcher, as a shell cuts them; the folder that it is called in is the row's own
    $tty WORDS       likewise, where standard error is a terminal
    | TEXT           a line of the input; `|- TEXT` has no line feed, `|x EF BB BF` are bytes, and `|* 0..9 task #` is a line for each
                     number from 0 to 8 in place of `#`
    @ FILE           the next lines are those of a file in that folder
    > TEXT           standard output has this line
    STATUS           ends what is given: behind it stand the lines of standard error

The first line of a row that is not as it should be is printed, and at the end how many rows passed and failed. The status is 0 where
none failed.
"""
import os
import pathlib
import shlex
import subprocess
import sys
import tempfile

HERE = pathlib.Path(__file__).resolve().parent
# So many seconds a call may take.
PATIENCE = 60


class Row:
    """One mistake: what is given, and what has to come."""

    def __init__(self, table, number, lines):
        self.table, self.number = table, number
        self.words, self.is_watched, self.files, self.shown = [], False, {"": b""}, []
        file = ""
        while not lines[0].isdigit():
            number, mark, _, text = number + 1, *lines.pop(0).partition(" ")
            if mark in ("$", "$tty"):
                self.words, self.is_watched = shlex.split(text), mark == "$tty"
            elif mark == "@":
                file = text
                self.files[file] = b""
            elif mark == ">":
                self.shown.append(text)
            elif mark.startswith("|"):
                self.files[file] += bytes_of(mark[1:], text)
            elif mark != "==":
                raise SystemExit(f"{table}:{number - 1}: a line that no row has: {mark}")
        # The number of the line with the status, and what has to come, from that line on.
        self.told_at, self.told = number, [f"status {lines[0]}", *lines[1:]]

    def complaint(self, launcher):
        """What is not as it should be, if anything is."""
        with tempfile.TemporaryDirectory() as room:
            for name, data in self.files.items():
                if name:
                    pathlib.Path(room, name).write_bytes(data)
            status, output, notes = call([launcher, *self.words], self.files[""], room, self.is_watched)
        got = [f"status {status}", *notes.decode("utf-8", "backslashreplace").splitlines()]
        for at in range(max(len(got), len(self.told))):
            wanted, came = (lines[at] if at < len(lines) else "nothing" for lines in (self.told, got))
            if wanted != came:
                return f"FAILED {self.table}:{self.told_at + at}: wanted {wanted}, got {came}"
        missing = [line for line in self.shown if line not in output.decode().splitlines()]
        return f"FAILED {self.table}:{self.number}: wanted > {missing[0]}, got none" if missing else None


def bytes_of(sort, text):
    """The bytes that a line of a row says."""
    if sort == "x":
        return bytes.fromhex(text)
    if sort == "*":
        span, _, form = text.partition(" ")
        first, end = map(int, span.split(".."))
        return "".join(form.replace("#", str(number)) + "\n" for number in range(first, end)).encode()
    return text.encode() + b"\n" * (sort != "-")


def call(command, data, room, is_watched):
    """Runs the launcher: its status, its output, and what it writes to standard error, which may be a terminal."""
    if not is_watched:
        ran = subprocess.run(command, input=data, cwd=room, capture_output=True, timeout=PATIENCE)
        return ran.returncode, ran.stdout, ran.stderr
    ours, theirs = os.openpty()
    process = subprocess.Popen(command, stdin=subprocess.PIPE, stdout=subprocess.PIPE, stderr=theirs, cwd=room)
    os.close(theirs)
    output, _ = process.communicate(data, timeout=PATIENCE)
    notes = b""
    try:
        while True:
            notes += os.read(ours, 65536)
    except OSError:  # so a terminal ends that nobody writes to
        os.close(ours)
    return process.returncode, output, notes


def rows_of(table):
    """The rows of a table."""
    lines, at = (HERE / f"{table}.rows").read_text().splitlines() + [""], 0
    while at < len(lines):
        end = lines.index("", at)
        if lines[at].startswith("== "):
            yield Row(table, at + 1, lines[at:end])
        at = end + 1


def main(launcher, *tables):
    """Plays the tables, or all."""
    launcher = os.path.abspath(launcher)
    # The first call may have to build, and says so.
    subprocess.run([launcher, "gen", "--size", "1"], stdout=subprocess.DEVNULL, check=True)
    rows = [row for table in tables or sorted(it.stem for it in HERE.glob("*.rows")) for row in rows_of(table)]
    complaints = list(filter(None, (row.complaint(launcher) for row in rows)))
    print("".join(f"{it}\n" for it in complaints), end="", file=sys.stderr)
    print(f"{len(rows) - len(complaints)} passed, {len(complaints)} failed")
    return 1 if complaints or not rows else 0


if __name__ == "__main__":
    sys.exit(main(*sys.argv[1:]))
