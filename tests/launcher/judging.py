"""Cases of the mode judge, on small pools in Python: each call with all that it writes. The pools stand in `pools.py` beside this file,
and play the script of the cases rightly or wrongly."""
from __future__ import annotations

import json
import os
import pty
import signal
import subprocess
import sys

from clones import Called, Clone, wait_for

SCRIPT = "workers 1\nrunner 0 sequenced user_visible skip\ntask 0 add 5\ntask 1 add 1\npost 0 0 0\npost 1 0 0\nflush\n"
LOG = (
    "taskenv log 2\n0 0 post 0 0 0 ok\n1 0 post 1 0 0 ok\n2 1 take 0 0 0\n3 1 end 0 5\n4 1 take 1 0 5\n5 1 end 1 6\n6 0 idle\ntotal 7\n"
)
TAKE = "the best source of seat S is taken by: take T R FOUND; the log has another FOUND"
EVENTS = (
    "[0 15] 0 post 0 0 0 ok\n[10 25] 0 post 1 0 0 ok\n[60 75] 0 idle\n"
    "[20 35] 1 take 0 0 0\n[30 45] 1 end 0 5\n[40 55] 1 take 1 0 5\n[50 65] 1 end 1 6\n"
)
NO_ORDER = """no order
4 of 7 events can be arranged
saw: [60 75] 0 idle
  by its times this came before it: [40 55] 1 take 1 0 0
saw: [40 55] 1 take 1 0 0
  the best source of seat 1 is taken by: 4 1 take 1 0 5
"""
DRAWN = "picture.html"
POOLS = os.path.join(os.path.dirname(os.path.abspath(__file__)), "pools.py")


def case_legal(room: str, home: str, program: str) -> bool:
    """where each run is legal it is status 0 and one line, whatever way the pool takes the script and gives the log"""
    pool = Pool(room, home, program)
    files = pool.judged("--runs", "4", "script.task", pool="right {script} {log}")
    named = pool.judged("--runs", "4", "script.task", "other.task", pool="right")
    piped = pool.clone.call("judge", "--runs=4", "-", "--", sys.executable, POOLS, "right", data=SCRIPT.encode(), cwd=pool.folder)
    told = [(it.status, it.output, it.notes) for it in (files, named, piped)]
    return told == [(0, b"4 runs: all legal\n", ""), (0, b"8 runs: all legal\n", ""), (0, b"4 runs: all legal\n", "")] and not pool.kept()


def case_grouped(room: str, home: str, program: str) -> bool:
    """what fails is counted by its cause, and the first of each is kept, with what judges it again; nothing is overwritten"""
    pool = Pool(room, home, program)
    called = pool.judged("--runs", "10", "--jobs", "1", "script.task", pool="thirds")
    if not says(called, 1, f"10 runs, 3 not legal, for 1 cause\n  3  {TAKE} (the first, run 3, in judged/1)\n"):
        return False
    kept = {name: pool.read(f"judged/1/{name}") for name in pool.kept("1")}
    drawn = kept.pop("picture.html")
    wrong = LOG.replace("take 1 0 5", "take 1 0 0").replace("end 1 6", "end 1 1")
    told = (
        "illegal 6\nthe best source of seat 1 is taken by: 4 1 take 1 0 5\nthe line is: 4 1 take 1 0 0\n"
        "it was posted by: 1 0 post 1 0 0 ok\nthe value that is found there was left by: 3 1 end 0 5\n"
    )
    how = f"""cause: {TAKE}
script: script.task, kept here as script.task
run: run 3 of 10
command: {sys.executable} {POOLS} thirds
called in: {pool.folder}
it ended with status 0

To judge it again, in this folder:

  {pool.quoted} check script.task log
  {pool.quoted} explain script.task log
"""
    if kept != {"script.task": SCRIPT, "log": wrong, "explanation": told, "how": how}:
        raise AssertionError(str(kept))
    if not drawn.startswith("<!DOCTYPE html>") or "the best source of seat 1 is taken by" not in drawn:
        raise AssertionError(drawn[:200])
    again = pool.ran_again("judged/1")
    second = pool.judged("--runs", "3", "--jobs", "1", "script.task", pool="thirds")
    return again == ["illegal 6\n", told] and pool.kept() == ["1", "2"] and b"judged/2" in second.output


def case_two_causes(room: str, home: str, program: str) -> bool:
    """two bugs have two causes, and the same one is the same on another script"""
    pool = Pool(room, home, program)
    for way, cause in ("loses", TAKE), ("last", TAKE.replace("another FOUND", "another T")):
        called = pool.judged("--runs", "2", "--keep", way, "script.task", "other.task", pool=way)
        if not says(called, 1, f"4 runs, 4 not legal, for 1 cause\n  4  {cause} (the first, run 1, in {way}/1)\n"):
            return False
    return True


def case_ends(room: str, home: str, program: str) -> bool:
    """a run that hangs, dies, fails, floods, or leaves half a log is a failure, with how it ended, and what it wrote is judged"""
    pool = Pool(room, home, program)
    legal = "what it wrote is legal as far as it goes"
    causes = {
        "hangs": f"had not ended after 1 s; {legal}",
        "dies": f"was ended by signal 9 (SIGKILL); {legal}",
        "fails": "ended with status 3; its log is legal and whole",
        "half": f"the log ends within a line; {legal}",
        "floods": "wrote a log of more than 32 MiB, the most that is read; line L is a total, and lines stand after it",
    }
    for way, cause in causes.items():
        for how in way, f"{way} {{script}} {{log}}":
            called = pool.judged("--runs", "1", "--timeout", "1" if way == "hangs" else "20", "script.task", pool=how)
            folder = f"judged/{len(pool.kept())}"
            if not says(called, 1, f"1 run, 1 not legal, for 1 cause\n  1  {cause} (the first, run 1, in {folder})\n"):
                return False
            is_legal = legal in cause or "whole" in cause
            if pool.ran_again(folder)[0].startswith("legal\n") != is_legal:
                return False
    return not pool.left()


def case_silent(room: str, home: str, program: str) -> bool:
    """where no run writes a log nothing was judged, and what the pool said is told"""
    pool = Pool(room, home, program)
    nothing = pool.judged("--runs", "2", "script.task", pool="nothing")
    refuses = pool.judged("--runs", "2", "script.task", pool="refuses")
    text = "2 runs, 2 not legal, for 1 cause\n  2  {}, and wrote no log (the first, run 1, in judged/{})\n"
    said = "taskenv: no run wrote a log, so nothing was judged"
    return says(nothing, 2, text.format("ended with status 0", 1), f"{said}\n") and says(refuses, 
        2, text.format("ended with status 2", 2), f"{said}; the first one said: pools: no such way\n"
    )


def case_no_command(room: str, home: str, program: str) -> bool:
    """a command that can't be started, and a script that is none, are status 2, and one line says why"""
    pool = Pool(room, home, program)
    for file, text in ("pool", "#!/no/such/program\n"), ("bad.task", "runner 0\n"), ("empty.task", "\n"):
        pool.clone.write(os.path.join(pool.folder, file), text)
    os.chmod(os.path.join(pool.folder, "pool"), 0o755)
    calls = {
        "script.task -- no-such-pool": "no such command: no-such-pool",
        "script.task -- ./pool": "./pool can't be started: what its first line names is not there",
        "script.task -- pool": "pool can't be started: did you mean ./pool?",
        "script.task -- ./script.task": "./script.task can't be started: Permission denied",
        "bad.task -- ./pool": "bad.task is no script: line 1, word 3: ",
        "empty.task -- ./pool": "empty.task is empty: of an empty script nothing is legal too",
    }
    for words, said in calls.items():
        called = pool.clone.call("judge", *words.split(), cwd=pool.folder)
        if not called.is_refused(said, status=2):
            raise AssertionError(f"{words}: {called.status} {called.notes}")
    return not pool.kept()


def case_logs(room: str, home: str, program: str) -> bool:
    """logs of a folder are judged by the script that their names begin with; one without its total is a beginning"""
    pool = Pool(room, home, program)
    cut = LOG[: LOG.index("6 0 idle")]
    logs = {"script.log": LOG, "script-2.log": cut, "other.7.log": LOG, "scripted.log": LOG, "script.txt": "no log"}
    for name, text in logs.items():
        pool.clone.write(os.path.join(pool.folder, "logs", name), text)
    one = pool.clone.call("judge", "--logs", "logs", "script.task", cwd=pool.folder)
    two = pool.clone.call("judge", "--logs", "logs", "--json", "script.task", "other.task", cwd=pool.folder)
    cause = "the log ends without its total; what it wrote is legal as far as it goes"
    text = f"4 logs, 1 not legal, for 1 cause\n  1  {cause} (the first, script-2.log, in judged/1)\n"
    group = {"count": 1, "cause": cause, "first": "script-2.log", "script": "script.task", "end": "", "explanation": ["legal"]}
    whole = {"count": 3, "legal": 2, "failed": 1, "stopped": False, "groups": [{**group, "kept": "judged/2"}]}
    if not says(one, 1, text) or two.notes != "taskenv: 1 log of no script, by the name: scripted.log\n":
        return False
    os.mkdir(os.path.join(pool.folder, "none"))
    none = pool.clone.call("judge", "--logs", "none", "script.task", cwd=pool.folder)
    return two.status == 1 and json.loads(two.output) == whole and none.is_refused("none has no *.log of a script", status=2)


def case_events(room: str, home: str, program: str) -> bool:
    """what each seat saw is judged by arrange, in place of a log; the first failure is kept with the answer, and judged again"""
    pool = Pool(room, home, program)
    for way in "seen-right", "seen-right {script} {log}":
        if not says(pool.judged("--runs", "2", "script.task", pool=way), 0, "2 runs: all legal\n"):
            return False
    called = pool.judged("--runs", "2", "--jobs", "1", "--most", "1000", "script.task", pool="seen-loses")
    cause = f"no order: {TAKE.replace('the log has', 'the seat saw')}"
    if not says(called, 1, f"2 runs, 2 not legal, for 1 cause\n  2  {cause} (the first, run 1, in judged/1)\n"):
        return False
    kept = {name: pool.read(f"judged/1/{name}") for name in pool.kept("1")}
    wrong = EVENTS.replace("take 1 0 5", "take 1 0 0").replace("end 1 6", "end 1 1")
    told = NO_ORDER + "".join(LOG.splitlines(keepends=True)[:5])
    if sorted(kept) != ["events", "explanation", "how", DRAWN, "script.task"] or (kept["events"], kept["explanation"]) != (wrong, told):
        raise AssertionError(str(kept))
    if "the best source of seat 1 is taken by" not in kept[DRAWN] or "arrange script.task events\n" not in kept["how"]:
        raise AssertionError(kept["how"])
    found = pool.judged("--runs", "1", "--json", "script.task", pool="seen-loses")
    group = json.loads(found.output)["groups"][0]
    return pool.ran_again("judged/1") == [told] and group["explanation"] == NO_ORDER.splitlines() and group["cause"] == cause


def case_events_ends(room: str, home: str, program: str) -> bool:
    """a run that leaves events and hangs, dies, fails, stops early, or leaves half of them or bad ones, is a failure, with its cause"""
    pool = Pool(room, home, program)
    legal = "its events are legal as far as they go"
    idle = "no order: the pool is not idle; the seat saw idle"
    causes = {
        "hangs": f"had not ended after 1 s; {legal}",
        "dies": f"was ended by signal 9 (SIGKILL); {legal}",
        "fails": "ended with status 3; its events are those of a legal and whole log",
        "short": "unfinished: the script wants of the driver",
        "half": f"the events end within a line; {idle}",
        "bad": "bad events: line L: FROM is after TO",
    }
    for number, (way, cause) in enumerate(causes.items(), 1):
        called = pool.judged("--runs", "1", "--timeout", "1" if way == "hangs" else "20", "script.task", pool=f"seen-{way}")
        text = f"1 run, 1 not legal, for 1 cause\n  1  {cause} (the first, run 1, in judged/{number})\n"
        if called.status != 1 or not called.output.decode().startswith(text) or called.notes:
            raise AssertionError(f"{way}: {called.status} {called.output} {called.notes}")
        again = pool.ran_again(f"judged/{number}")
        wanted = {"short": "no order\n6 of 6", "half": "no order\n5 of 6", "bad": ""}.get(way, "taskenv log 2\n")
        if len(again) != 1 or not again[0].startswith(wanted):
            raise AssertionError(f"{way}: {again}")
    return True


def case_events_given_up(room: str, home: str, program: str) -> bool:
    """where arrange gives up that is a cause of its own; logs of a folder may be events too, and its shrunk script has them"""
    pool = Pool(room, home, program)
    cause = "gave up: whether there is an order is not known"
    called = pool.judged("--runs", "1", "--most", "1", "script.task", pool="seen-loses")
    if called.status != 1 or f"  1  {cause} (" not in called.output.decode():
        raise AssertionError(called.output)
    for name, text in ("script-1.log", EVENTS), ("script-2.log", LOG):
        pool.clone.write(os.path.join(pool.folder, "logs", name), text)
    folder = pool.clone.call("judge", "--logs", "logs", "script.task", cwd=pool.folder)
    shrunk = pool.judged("--runs", "1", "--shrink", "script.task", pool="seen-loses")
    is_kept = {"shrunk.task", "shrunk.events", "shrunk.explanation"} <= set(pool.kept("2"))
    return says(folder, 0, "2 logs: all legal\n") and b"shrunk from 7 lines to" in shrunk.output and is_kept


def case_shrunk(room: str, home: str, program: str) -> bool:
    """--shrink leaves out what is not needed, and gives numbers anew; the shortest script is said and kept"""
    pool = Pool(room, home, program)
    lines = ["# a comment", "workers 1", "threshold 7", *(f"runner {it} sequenced user_visible skip" for it in range(2)), "queue 0 3 0"]
    lines += [f"task {it} add 100 ; add {it}" for it in range(5)] + [f"post {it} {it % 2} 0" for it in range(5)] + ["flush"]
    pool.clone.write(os.path.join(pool.folder, "long.task"), "\n".join(lines) + "\n")
    called = pool.judged("--runs", "1", "--shrink", "long.task", pool="loses")
    shrunk = "runner 0 sequenced user_visible skip\ntask 0 add 1\ntask 1\npost 0 0 0\npost 1 0 0\nflush\n"
    text = f"""1 run, 1 not legal, for 1 cause
  1  {TAKE} (the first, run 1, in judged/1)

shrunk from 16 lines to 6; of 1 runs 1 failed for that cause:
""" + "".join(f"  {line}\n" for line in shrunk.splitlines())
    return says(called, 1, text) and pool.read("judged/1/shrunk.task") == shrunk and "shrunk.log" in pool.kept("1")


def case_stopped(room: str, home: str, program: str) -> bool:
    """what stops it ends the runs, and it says what was found so far, with status 130"""
    pool = Pool(room, home, program)
    for number in signal.SIGINT, signal.SIGTERM, signal.SIGHUP:
        words = ["judge", "--jobs", "2", "--timeout", "99", "script.task", "--", sys.executable, POOLS, "hangs"]
        process = pool.clone.start(*words, cwd=pool.folder)
        wait_for(lambda: len(pool.left()) >= 4)
        process.send_signal(number)
        output, notes = process.communicate(timeout=20)
        # What is killed is gone a moment later, on a busy machine.
        is_left = not wait_for(lambda: not pool.left(), 5)
        if (process.returncode, output, notes) != (130, b"stopped after 0 of 100 runs\n", b"") or is_left:
            raise AssertionError(f"{process.returncode} {output} {notes}")
    return not pool.kept()


def case_streams(room: str, home: str, program: str) -> bool:
    """an output that is closed ends it quietly, and a folder that can't be written is said"""
    pool = Pool(room, home, program)
    command = ["judge", "--runs", "2", "script.task", "--", sys.executable, POOLS, "loses"]
    piped = pool.clone.call(*command, before=("bash", "-c", '"$0" "$@" | true; exit "${PIPESTATUS[0]}"'), cwd=pool.folder)
    pool.clone.write(os.path.join(pool.folder, "file"), "a file, and no folder")
    kept = pool.judged("--runs", "2", "--keep", "file", "script.task", pool="loses")
    text = f"2 runs, 2 not legal, for 1 cause\n  2  {TAKE} (the first: run 1)\n"
    full = pool.clone.call(*command, before=("sh", "-c", '"$0" "$@" >/dev/full'), cwd=pool.folder)
    is_right = piped.status in (1, 5) and not piped.notes and full.is_refused("standard output can't be written: No space", status=5)
    return is_right and says(kept, 1, text, "taskenv: the first failure can't be kept: file: File exists\n")


def case_progress(room: str, home: str, program: str) -> bool:
    """on a terminal it shows how far it has come, and else nothing"""
    pool = Pool(room, home, program)
    ours, theirs = pty.openpty()
    command = [os.path.join(pool.clone.folder, "taskenv"), "judge", "--runs", "3", "script.task", "--", sys.executable, POOLS, "right"]
    ended = subprocess.run(command, stdin=subprocess.DEVNULL, stdout=subprocess.PIPE, stderr=theirs, cwd=pool.folder, timeout=60)
    os.close(theirs)
    shown = _all_shown(ours)
    os.close(ours)
    return ended.stdout == b"3 runs: all legal\n" and b"3 of 3 runs, 0 not legal" in shown and shown.endswith(b" \r")


def _all_shown(terminal: int) -> bytes:
    """What was written to a terminal whose other side is closed. It may come in parts."""
    shown = b""
    while True:
        try:
            part = os.read(terminal, 65536)
        except OSError:
            return shown
        if not part:
            return shown
        shown += part


class Pool:
    """A folder with scripts, in which the mode judge is called on the pool."""

    def __init__(self, room: str, home: str, program: str):
        self.clone = Clone.with_program(room, home, program)
        self.folder = os.path.join(self.clone.top, "mine")
        self.quoted = f"'{os.path.join(self.clone.folder, 'taskenv')}'"
        for name in "script.task", "other.task":
            self.clone.write(os.path.join(self.folder, name), SCRIPT)

    def judged(self, *words: str, pool: str) -> Called:
        """What a call says, of a pool that plays in this way."""
        return self.clone.call("judge", *words, "--", sys.executable, POOLS, *pool.split(), cwd=self.folder)

    def kept(self, folder: str = "") -> list[str]:
        """What is kept in a folder of the failures, or which folders there are."""
        folder = os.path.join(self.folder, "judged", folder)
        return sorted(os.listdir(folder)) if os.path.isdir(folder) else []

    def read(self, file: str) -> str:
        """The text of a file in the folder."""
        with open(os.path.join(self.folder, file), encoding="utf-8") as it:
            return it.read()

    def ran_again(self, folder: str) -> list[str]:
        """What the commands write by which a failure is judged again."""
        lines = [line.strip() for line in self.read(f"{folder}/how").splitlines() if line.startswith("  ")]
        how = {"cwd": os.path.join(self.folder, folder), "env": self.clone.environment(), "capture_output": True, "text": True}
        return [subprocess.run(["sh", "-c", line], **how).stdout for line in lines]

    def left(self) -> list[str]:
        """What processes of the pool go on."""
        found = []
        for process in filter(str.isdigit, os.listdir("/proc")):
            try:
                with open(f"/proc/{process}/cmdline", "rb") as it:
                    is_pool = f"\0{POOLS}\0hangs".encode() in it.read()
                if is_pool and os.readlink(f"/proc/{process}/cwd") == self.folder:
                    found.append(process)
            except OSError:
                pass
        return found


def says(called: Called, status: int, output: str, notes: str = "") -> bool:
    """Whether a call ended so, with all of this and no more."""
    got = (called.status, called.output.decode(), called.notes)
    if got != (status, output, notes):
        raise AssertionError(f"wanted {(status, output, notes)}, got {got}")
    return True
