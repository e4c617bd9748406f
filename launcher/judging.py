"""The mode judge: plays scripts on another pool, again and again, and says why its logs are wrong, by their causes.

Each run's log is judged by the program, with `explain`, or where the run left no whole log with `explain --prefix`. What each seat saw,
where a run left that in place of a log, is judged with `arrange`."""
from __future__ import annotations

import json
import os
import shlex
import threading
from collections import namedtuple
from collections.abc import Callable, Iterable, Iterator

import causes
import inputs
import page
import picture
import running
import shrinking
from causes import Finding
from playing import Command, NotStarted, Played, played_before
from running import say
from runs import STOPPED, WRITE_FAULT, Over, Shown, Stopped, is_written, many, processors, side_by_side, take_signals, write_file

SOME_FAILED, NOTHING_JUDGED = 1, 2
# What holds where no option says it.
DEFAULTS = {"--runs": "100", "--timeout": "20", "--keep": "judged"}
# How many bytes of a log are drawn at most.
MOST_DRAWN = 1 << 20
# By what the name of a log may go on after that of its script.
PARTING = (".", "-", "_")

Script = namedtuple("Script", "name text")
# A run: its number, from 1, or the name of its log; its script, what it left, and what is found of that.
Case = namedtuple("Case", "name script played found")


class CannotJudge(Exception):
    """Why nothing can be judged, as one line."""


def judge(request: object, file: str, launcher: str) -> int:
    """Does what the words ask for, by the program in that file, and returns the exit status."""
    return Judging(request, file, launcher).done()


def _fault_of(do: Callable, *arguments: object) -> str | None:
    """Does that, and returns why it could not be done, as one line, if so."""
    try:
        do(*arguments)
    except Stopped:
        return None
    except (CannotJudge, NotStarted, inputs.BadInput) as error:
        return str(error)
    except OSError as error:
        return f"nothing more can be judged: {error.filename or 'a file of a run'}: {error.strerror}"
    except RuntimeError as error:
        return f"nothing more can be judged: {error}"
    return None


class Group:
    """The failures of one cause."""

    def __init__(self, cause: str):
        self.cause, self.count, self.first, self.folder, self.shrunk = cause, 0, None, None, None

    def add(self, case: Case, order: int) -> None:
        """Counts one more. The first one is that of the least number."""
        self.count += 1
        if self.first is None or order < self.order:
            self.first, self.order = case, order


def usual_steps(events: bytes) -> str:
    """How many steps a search takes at most where nothing is said. A step that goes back costs a replay of what was placed, so of more
    events there are fewer: a search that finds nothing ends within some ten seconds."""
    count = events.count(b"\n")
    return str(2 * count + 1_000 + 100_000_000 // max(count, 1))


class Judging(Shown):
    """A call of the mode."""

    def __init__(self, request: object, file: str, launcher: str):
        super().__init__()
        values = {**DEFAULTS, "--jobs": str(processors()), **request.options}
        self.runs, self.jobs, self.seconds = (int(values[name]) for name in ("--runs", "--jobs", "--timeout"))
        self.keep, self.logs, self.most = values["--keep"], values.get("--logs"), values.get("--most")
        self.is_json, self.is_shrunk = "--json" in values, "--shrink" in values
        self.command, self.files = Command(request.command, self.seconds), request.files
        self.file, self.launcher = file, launcher
        self.groups: dict[str, Group] = {}
        self.count, self.total, self.failed, self.silent = 0, 0, 0, 0
        self.stopped = threading.Event()

    def done(self) -> int:
        """Judges all, and says what was found, also where not all could be judged."""
        fault = _fault_of(self._count_all)
        for group in self._sorted():
            self._keep(group)
        if self.is_shrunk and self.groups and not fault and not self.stopped.is_set():
            fault = _fault_of(self._shrink, self._sorted()[0])
        self.clear()
        if self.groups and self.silent == self.count:
            self._say_silence()
        is_told = fault and not self.count or is_written(self._told())
        if fault:
            say(fault)
        return NOTHING_JUDGED if fault else self._status() if is_told else WRITE_FAULT

    def _count_all(self) -> None:
        """Judges each run, or each log."""
        scripts = [self._script(file) for file in self.files]
        take_signals(self.stopped)
        for case in self._logs(scripts) if self.logs is not None else self._plays(scripts):
            self._count(*case)
        if not self.count and not self.stopped.is_set():
            raise CannotJudge(f"{self.logs} has no *.log of a script")

    def _status(self) -> int:
        if self.stopped.is_set():
            return STOPPED
        # Where no run wrote anything, and all ended by themselves, the command is likely to be none that plays a script.
        return NOTHING_JUDGED if self.silent == self.count else SOME_FAILED if self.failed else 0

    def _script(self, file: str) -> Script:
        """A script that can be played."""
        text = inputs.part(file, "SCRIPT")
        name = "standard input" if file == "-" else file
        if not text.split():
            raise CannotJudge(f"{name} is empty: of an empty script nothing is legal too")
        status, said = self.ask(["lint"], text)
        if status == 1:
            raise CannotJudge(f"{name} is no script: {said.decode('latin-1').strip()}")
        return Script(name, text)

    # ---- the program

    def ask(self, words: list[str], script: bytes, log: bytes | None = None, also: tuple = (), stream: int = 1) -> tuple[int, bytes]:
        """Runs the program on a script, or on a script and a log: its status, which is 0, 1 or one of some more, and what it writes to a
        stream."""
        words = [*words, *(["--most", self.most or usual_steps(log or b"")] if words[0] == "arrange" else [])]
        status, said = running.ask([self.file, *words], script if log is None else _joined(script, log), stream, is_apart=True)
        is_known = status in (0, 1, *also)
        # What stops this call may stop a program that is just being started, too.
        if not is_known and self.stopped.wait(0.5):
            raise Stopped
        if not is_known:
            raise CannotJudge(f"nothing more can be judged: {words[0]} of the program ended with status {status}")
        return status, said

    def found(self, script: bytes, played: Played) -> Finding:
        """What is found of a run. A log may be one in JSON, as `run --json` writes it."""
        try:
            if not inputs.is_events(played.log):
                played = played._replace(log=inputs.log_text("the log", played.log))
        except inputs.BadInput:
            pass
        return causes.finding(self.ask, script, played)

    # ---- the runs

    def _plays(self, scripts: list[Script]) -> Iterator[tuple[int, Case]]:
        """Plays each script so many times, and finds what each run left."""
        items = ((number, script) for number in range(1, self.runs + 1) for script in scripts)
        self.total = self.runs * len(scripts)

        return self._played(items)

    def plays_of(self, text: bytes, runs: int) -> Iterator[Case]:
        """Plays the text of a script so many times. Where no more of these cases are wanted, all runs are ended."""
        script = Script("shrunk.task", text)
        played = self._played((number, script) for number in range(1, runs + 1))
        try:
            yield from (case for _, case in played)
        finally:
            played.close()

    def _played(self, items: Iterable[tuple[int, Script]]) -> Iterator[tuple[int, Case]]:
        """Plays these scripts, side by side: each run with its place among them."""
        over = Over(self.stopped)

        def played(item: tuple[int, tuple[int, Script]]) -> tuple[int, Case]:
            order, (number, script) = item
            ran = self.command.play(script.text, over.is_set)
            return order, Case(f"run {number}", script, ran, self.found(script.text, ran))

        return side_by_side(enumerate(items), played, self.jobs, over)

    def _logs(self, scripts: list[Script]) -> Iterator[tuple[int, Case]]:
        """Finds what the logs of a folder say, each by its script."""
        files = sorted(name for name in os.listdir(self.logs) if name.endswith(".log"))
        names = [name for name in files if os.path.isfile(os.path.join(self.logs, name))]
        matched = [(name, script_of(name, scripts)) for name in names]
        left = [name for name, script in matched if script is None]
        if left:
            say(f"{many(len(left), 'log')} of no script, by the name: {', '.join(left[:4])}{' ..' * (len(left) > 4)}")
        self.total = len(names) - len(left)
        for order, (name, script) in enumerate((it for it in matched if it[1])):
            if self.stopped.is_set():
                break
            played = played_before(inputs.part(os.path.join(self.logs, name), "LOG"), script.text)
            yield order, Case(name, script, played, self.found(script.text, played))

    def _count(self, order: int, case: Case) -> None:
        self.count += 1
        if case.found.cause:
            self.failed += 1
            self.silent += not case.played.log and case.played.is_by_itself
            self.groups.setdefault(case.found.cause, Group(case.found.cause)).add(case, order)
        self.show(f"{self.count:,} of {many(self.total, 'log' if self.logs else 'run')}, {self.failed:,} not legal")

    # ---- what is kept

    def _keep(self, group: Group) -> None:
        """Keeps the first failure of a group in a folder of its own."""
        case = group.first
        files = {"script.task": case.script.text, _kept_as(case): case.played.log, "explanation": case.found.explanation}
        if case.played.said:
            files["said"] = case.played.said
        if drawn := self._picture(case):
            files["picture.html"] = drawn
        try:
            group.folder = _new_folder(self.keep)
            for name, data in {**files, "how": self._how(group, case).encode("utf-8", "backslashreplace")}.items():
                write_file(os.path.join(group.folder, name), data)
        except OSError as error:
            self.clear()
            say(f"the first failure can't be kept: {error.filename or self.keep}: {error.strerror}")

    def _picture(self, case: Case) -> bytes:
        """The page of the mode picture, of a log that is not too long for one: of events the longest beginning that there is."""
        log = case.found.drawn if case.found.is_of_events else case.played.log
        if not 0 < len(log) <= MOST_DRAWN:
            return b""
        try:
            told = picture.stories([(case.name, _joined(case.script.text, log))], self.ask)
        except (CannotJudge, Stopped):
            return b""
        return page.page(told) if told else b""

    def _how(self, group: Group, case: Case) -> str:
        """How the failure came to be, and how to judge it again."""
        it = shlex.quote(os.path.abspath(self.launcher))
        prefix = " --prefix" if case.found.is_beginning else ""
        lines = [f"cause: {group.cause}", f"script: {case.script.name}, kept here as script.task"]
        if self.logs is not None:
            lines.append(f"log: {os.path.join(self.logs, case.name)}, kept here as {_kept_as(case)}")
        else:
            lines += [f"run: {case.name} of {self.runs}", f"command: {shlex.join(self.command.words)}", f"called in: {os.getcwd()}"]
            lines.append(f"it {case.played.end or 'ended with status 0'}")
        if case.played.said:
            lines.append("what else it said is kept here as said")
        if case.played.log:
            lines += ["", "To judge it again, in this folder:", ""]
            if not case.found.is_of_events:
                lines += [f"  {it} {mode}{prefix} script.task log" for mode in ("check", "explain")]
            elif case.played.log.endswith(b"\n"):
                lines.append(f"  {it} arrange{prefix} script.task events")
            else:
                lines.append(f"  sed '$d' events | {it} arrange{prefix} script.task -")
        return "\n".join(lines) + "\n"

    # ---- shrinking

    def _shrink(self, group: Group) -> None:
        """Makes the script of a group's first failure as short as the pool still fails for the same cause."""
        group.shrunk = shrunk = shrinking.Shrinking(self, group.first, group.cause, group.count / self.count).done()
        if group.folder and shrunk.text:
            try:
                files = {"task": shrunk.text, _kept_as(shrunk.case): shrunk.case.played.log, "explanation": shrunk.case.found.explanation}
                for name, data in files.items():
                    write_file(os.path.join(group.folder, f"shrunk.{name}"), data)
            except OSError as error:
                self.clear()
                say(f"the shrunk script can't be kept: {error.filename}: {error.strerror}")

    # ---- what is said

    def _say_silence(self) -> None:
        """Says that no run wrote a log, and what the first one said instead."""
        said = self._sorted()[0].first.played.said.decode("utf-8", "replace").split("\n")[0].strip()
        say("no run wrote a log, so nothing was judged" + (f"; the first one said: {said}" if said else ""))

    def _sorted(self) -> list[Group]:
        """The groups, the largest one first."""
        return sorted(self.groups.values(), key=lambda group: (-group.count, group.order))

    def _told(self) -> str:
        """The summary."""
        return self._json() if self.is_json else self._text()

    def _text(self) -> str:
        """A line that counts, and one for each group."""
        what = "log" if self.logs is not None else "run"
        stopped = f"stopped after {self.count:,} of {many(self.total, what)}\n" if self.count < self.total else ""
        if not self.count:
            return stopped
        if not self.groups:
            return f"{stopped}{many(self.count, what)}: all legal\n"
        text = f"{stopped}{many(self.count, what)}, {self.failed:,} not legal, for {many(len(self.groups), 'cause')}\n"
        width = len(f"{max(group.count for group in self.groups.values()):,}")
        for group in self._sorted():
            kept = f" (the first, {group.first.name}, in {group.folder})" if group.folder else f" (the first: {group.first.name})"
            text += f"  {group.count:{width},}  {group.cause}{kept}\n"
        for group in filter(lambda it: it.shrunk, self._sorted()):
            text += f"\n{group.shrunk.says()}"
        return text

    def _json(self) -> str:
        groups = []
        for group in self._sorted():
            case = group.first
            told = {"count": group.count, "cause": group.cause, "first": case.name, "script": case.script.name, "end": case.played.end,
                    "explanation": causes.told(case.found), "kept": group.folder}
            groups.append({**told, **({"shrunk": group.shrunk.as_json()} if group.shrunk else {})})
        whole = {"count": self.count, "legal": self.count - self.failed, "failed": self.failed, "stopped": self.stopped.is_set()}
        return json.dumps({**whole, "groups": groups}, separators=(",", ":")) + "\n"


def script_of(name: str, scripts: list[Script]) -> Script | None:
    """The script that a log of this name is of: the only one, or the one with the longest name that the log's name begins with."""
    if len(scripts) == 1:
        return scripts[0]
    stem, found = name[: -len(".log")], None
    for script in scripts:
        begin = os.path.splitext(os.path.basename(script.name))[0]
        is_so_called = stem == begin or stem.startswith(tuple(begin + sign for sign in PARTING))
        if is_so_called and (found is None or len(begin) > len(found[0])):
            found = begin, script
    return found[1] if found else None


def _kept_as(case: Case) -> str:
    """The name of the file in which what a run wrote is kept."""
    return "events" if case.found.is_of_events else "log"


def _joined(script: bytes, log: bytes) -> bytes:
    """A script with a log after it."""
    return script + (b"" if script.endswith(b"\n") else b"\n") + b"%%\n" + log


def _new_folder(parent: str) -> str:
    """A new folder with the next number, so that nothing is ever overwritten."""
    os.makedirs(parent, exist_ok=True)
    number = 1 + max((int(name) for name in os.listdir(parent) if name.isdigit()), default=0)
    while True:
        folder = os.path.join(parent, str(number))
        try:
            os.mkdir(folder)
            return folder
        except FileExistsError:
            number += 1
