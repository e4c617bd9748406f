"""Cases of the mode simulate with a range of seeds. What it sums up is told here from the logs that the program writes by each seed."""
from __future__ import annotations

import json
import os
import signal
import subprocess
from collections import Counter

from clones import Clone, wait_for

# Two tasks post to one sequence, in either order: it ends with 2 or with 1. Task 4 is posted after shutdown, and task 5 never runs.
SCRIPT = """workers 2
runner 0 parallel user_visible skip
runner 1 sequenced user_visible skip
job 0 user_visible block 2 2 add 5
task 0 add 1
task 1 mul 2
task 2 post 0 1 0
task 3 post 1 1 0
task 4
task 5
post 5 0 1
post 2 0 0
post 3 0 0
startjob 0
flush
join 0
shutdown
post 4 0 0
"""
SAME = ["job 0 done 11", "never taken: task 5", "posts refused: task 4"]
# A program that runs each script, at its own speed, and fails by one seed.
SLOW = """#!/bin/sh
case "$*" in
    *seed=9*) exit 6 ;;
    simulate*) sleep 0.05 ;;
esac
printf 'taskenv log 2\\ntotal 0\\n'
"""


def case_summed_up(room: str, home: str, program: str) -> bool:
    """simulate --seeds counts runs, different logs and outcomes, and the seed beside an outcome shows it"""
    clone = Clone.with_program(room, home, program)
    script = _script(clone)
    for words in [], ["--favour", "driver"], ["--step=7"]:
        logs = {seed: _log(program, seed, *words) for seed in range(5, 30)}
        left = {seed: _left(log) for seed, log in logs.items()}
        counts = Counter(left.values()).most_common()
        lines = [f"25 runs, {len(set(logs.values()))} different logs, {len(counts)} outcome{'s' * (len(counts) > 1)}", "in each run"]
        if len(counts) == 1:
            told = [f"runner 1 left {counts[0][0]}", *SAME]
            lines += [f"  {it}" for it in told]
        else:
            first = {value: min(seed for seed, it in left.items() if it == value) for value, _ in counts}
            counts.sort(key=lambda it: (-it[1], first[it[0]]))
            lines += [f"  {it}" for it in SAME] + ["in some runs"]
            wide = len(str(counts[0][1]))
            lines += [f"  {count:{wide}}  runner 1 left {value} (--seed {first[value]})" for value, count in counts]
        called = clone.call("simulate", *words, "--seeds", "5..29", script)
        if (called.status, called.output.decode().splitlines(), called.notes) != (0, lines, ""):
            raise AssertionError(f"wanted {lines}, got {called.status} {called.output} {called.notes}")
    return True


def case_ways_in(room: str, home: str, program: str) -> bool:
    """simulate --seeds takes the script as a file or as standard input; a range may be one seed, and the greatest one"""
    clone = Clone.with_program(room, home, program)
    script, last = _script(clone), 2**64 - 1
    file = clone.call("simulate", "--seeds", "0..9", script)
    piped = [clone.call("--seeds=0..9", "simulate", *words, data=SCRIPT.encode()) for words in ([], ["-"])]
    one = clone.call("simulate", "--seeds", f"{last}..{last}", script)
    is_last = f"runner 1 left {_left(_log(program, last))}" in one.output.decode() and one.output.startswith(b"1 run, 1 different log, 1 outcome\n")
    return is_last and all((it.status, it.output, it.notes) == (0, file.output, "") for it in piped) and file.output.startswith(b"10 runs")


def case_in_json(room: str, home: str, program: str) -> bool:
    """simulate --seeds --json writes the counts, each part's values, the outcomes, and where the logs are kept"""
    clone = Clone.with_program(room, home, program)
    told = json.loads(clone.call("simulate", "--json", "--seeds", "0..19", _script(clone)).output)
    left = Counter(_left(_log(program, seed)) for seed in range(20))
    values = {it["value"]: it["count"] for it in told["parts"]["runner 1"]}
    same = {part: [it["value"] for it in them] for part, them in told["parts"].items() if part != "runner 1"}
    wanted = {"job 0": ["done 11"], "never taken": ["task 5"], "refused": ["task 4"]}
    outcomes = {it["outcome"]["runner 1"]: it["count"] for it in told["outcomes"]}
    seeds = all(_left(_log(program, it["seed"])) == it["outcome"]["runner 1"] for it in told["outcomes"])
    head = (told["runs"], told["stopped"], told["kept"])
    return head == (20, False, None) and values == outcomes == left and same == wanted and seeds


def case_kept(room: str, home: str, program: str) -> bool:
    """simulate --seeds --keep keeps each different log in a new folder, by its first seed, and overwrites nothing"""
    clone = Clone.with_program(room, home, program)
    script, folder = _script(clone), os.path.join(clone.top, "kept", "logs")
    logs = [_log(program, seed) for seed in range(40)]
    called = clone.call("simulate", "--seeds", "0..39", "--keep", folder, script)
    kept = {}
    for name in os.listdir(folder):
        with open(os.path.join(folder, name), "rb") as it:
            kept[name] = it.read()
    wanted = {f"{logs.index(log)}.log": log for log in logs}
    again = clone.call("simulate", "--seeds", "0..39", "--keep", folder, script)
    said = f"taskenv: --keep {folder}: that is there already, and nothing is overwritten: name a new folder"
    is_refused = (again.status, again.output, again.lines) == (2, b"", ["bad words", said])
    judged = clone.call("judge", "--logs", folder, script)
    last = called.output.decode().splitlines()[-1]
    return kept == wanted and is_refused and judged.status == 0 and last == f"each different log is in {folder}, called by its first seed"


def case_no_run(room: str, home: str, program: str) -> bool:
    """simulate --seeds says of a bad script what simulate says, and keeps nothing; a folder that can't be made is said"""
    clone = Clone.with_program(room, home, program)
    folder, script = os.path.join(clone.top, "kept"), os.path.join(clone.top, "bad.task")
    clone.write(script, "workers 1\nrunner 0 parallel\n")
    ways = [clone.call("simulate", *words, script) for words in ([], ["--seeds", "0..9", "--keep", folder])]
    clone.write(os.path.join(clone.top, "file"), "a file, and no folder")
    refused = clone.call("simulate", "--seeds", "0..9", "--keep", os.path.join(clone.top, "file", "logs"), _script(clone))
    is_same = ways[0].status == ways[1].status == 3 and ways[0].notes == ways[1].notes and not ways[1].output
    return is_same and not os.path.exists(folder) and refused.is_refused("no more is run: ", "Not a directory", status=5)


def case_not_all(room: str, home: str, program: str) -> bool:
    """simulate --seeds says by which seed the program failed, with its status; what stops it is status 130, with what came so far"""
    clone = Clone.with_program(room, home, program)
    clone.keep_text(SLOW)
    script = _script(clone)
    failed = clone.call("simulate", "--seeds", "0..9", script)
    note = "taskenv: no more is run, since the program ended with status 6 by --seed 9\n"
    if failed.status != 6 or failed.notes != note or not failed.output.startswith(b"stopped after "):
        raise AssertionError(f"{failed.status} {failed.output} {failed.notes}")
    for number in signal.SIGINT, signal.SIGTERM, signal.SIGHUP:
        kept = os.path.join(clone.top, f"kept {number}")
        process = clone.start("simulate", "--seeds", "10000..19999", "--keep", kept, script)
        wait_for(lambda: os.path.isdir(kept) and os.listdir(kept))
        process.send_signal(number)
        output, notes = process.communicate(timeout=20)
        lines = output.decode().splitlines()
        if process.returncode != 130 or notes or not lines[0].startswith("stopped after ") or ", 1 different log, " not in lines[1]:
            raise AssertionError(f"{process.returncode} {output} {notes}")
    return True


def case_output(room: str, home: str, program: str) -> bool:
    """simulate --seeds ends quietly where its output is closed, and says where it can't be written"""
    clone = Clone.with_program(room, home, program)
    words = ("simulate", "--seeds", "0..3", _script(clone))
    piped = clone.call(*words, before=("bash", "-c", '"$0" "$@" | true; exit "${PIPESTATUS[0]}"'))
    full = clone.call(*words, before=("sh", "-c", '"$0" "$@" >/dev/full'))
    return piped.status in (0, 5) and not piped.notes and full.is_refused("standard output can't be written: No space", status=5)


def _script(clone: Clone) -> str:
    """A file with the script."""
    file = os.path.join(clone.top, "script.task")
    clone.write(file, SCRIPT)
    return file


def _log(program: str, seed: int, *words: str) -> bytes:
    """What the program writes by a seed."""
    return subprocess.run([program, "simulate", "--seed", str(seed), *words], input=SCRIPT.encode(), capture_output=True, check=True).stdout


def _left(log: bytes) -> str:
    """What the sequence of runner 1 holds at the end: what the last of its two tasks left."""
    ends = [line.split() for line in log.decode().splitlines() if " end " in line]
    return [words[4] for words in ends if words[3] in ("0", "1")][-1]
