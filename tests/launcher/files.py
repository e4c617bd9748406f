"""Cases of files as words. The program that runs is the one that was given, as if it were proved."""
from __future__ import annotations

import json
import os
import subprocess

from clones import Clone

SCRIPT = "workers 1\nrunner 0 parallel user_visible skip\ntask 0 add 5\npost 0 0 0\nflush\n"
LOG = "taskenv log 2\n0 0 post 0 0 0 ok\n1 1 take 0 0 0\n2 1 end 0 5\n3 0 idle\ntotal 4\n"
BEGUN = "taskenv log 2\n0 0 post 0 0 0 ok\ntotal 1\n"
REPLIES = "reply 1 0 runner 0\n"
EVENTS = "[7 9] 1 take 0 0 0\n[0 3] 0 post 0 0 0 ok\n[3 9] 0 idle\n1 end 0 5\n"


def case_each_mode(room: str, home: str, program: str) -> bool:
    """each mode takes its files, and answers as it does on the same bytes from standard input"""
    clone = Clone.with_program(room, home, program)
    replied = SCRIPT.replace("task 0", "task 0 add 1\ntask 1").replace("post 0", "post 1")
    wrong = LOG.replace("end 0 5", "end 0 6")
    with open(os.path.join(home, "examples/nested.nest"), encoding="utf-8") as it:
        cases = [("nest", it.read(), None)]
    cases += [("run", SCRIPT, None), ("run --json", SCRIPT, None), ("lint", SCRIPT, None), ("reply", replied, REPLIES)]
    cases += [("simulate", SCRIPT, None), ("simulate --seed 5 --favour=driver --json", SCRIPT, None), ("simulate --jump", "walk", None)]
    cases += [("check", SCRIPT, LOG), ("check", SCRIPT, wrong), ("check", SCRIPT + "walk", LOG), ("check", "", "")]
    cases += [("check --prefix", SCRIPT, BEGUN), ("explain", SCRIPT, wrong), ("trace", SCRIPT, LOG)]
    cases += [("arrange", SCRIPT, EVENTS), ("arrange --prefix --most 9", SCRIPT, "0 post 0 0 0 ok\n"), ("arrange", SCRIPT, LOG)]
    cases += [("arrange", SCRIPT, EVENTS.replace("end 0 5", "end 0 6")), ("arrange", SCRIPT + "walk", EVENTS)]
    for words, script, behind in cases:
        for script in script, script.rstrip("\n"):
            ends = "" if not script or script.endswith("\n") else "\n"
            joined = script if behind is None else f"{script}{ends}%%\n{behind}"
            wanted = subprocess.run([program, *words.split()], input=joined.encode(), capture_output=True)
            called = clone.call(*words.split(), *_written(clone, script, *([] if behind is None else [behind])))
            is_same = (called.status, called.output) == (wanted.returncode, wanted.stdout)
            if not is_same or not called.notes.startswith(wanted.stderr.decode()):
                raise AssertionError(f"{words}: {called.status} {called.output} {called.notes}")
    return True


def case_standard_input(room: str, home: str, program: str) -> bool:
    """- stands for standard input, as either file or as both joined, and so does a second file that is not named"""
    clone = Clone.with_program(room, home, program)
    joined = f"{SCRIPT}%%\n{LOG}"
    script, log, both = _written(clone, SCRIPT, LOG, joined)
    tried = [(["-", log], SCRIPT), ([script, "-"], LOG), ([script], LOG), (["-"], joined), ([], joined), ([both], "")]
    if any(clone.call("check", *words, data=text.encode()).output != b"legal\n" for words, text in tried):
        return False
    is_run = clone.call("run", "-", data=SCRIPT.encode()).output.decode() == LOG
    return is_run and clone.call("check", script).is_refused("a log is missing", status=2)


def case_json(room: str, home: str, program: str) -> bool:
    """a log may be one that run --json wrote, of each example; other JSON is refused"""
    clone = Clone.with_program(room, home, program)
    for name in sorted(os.listdir(os.path.join(home, "examples"))):
        if name.endswith(".task"):
            script = os.path.join(home, "examples", name)
            written = clone.call("run", "--json", "--step", "10", script)
            if clone.call("check", script, "-", data=written.output).output != b"legal\n":
                return False
    (script,) = _written(clone, SCRIPT)
    right = json.loads(clone.call("run", "--json", script).output)
    if clone.call("check", script, "-", data=json.dumps(right, indent=2).encode()).output != b"legal\n":
        return False
    wrong = right[:2] + [[2, 1, "end", 0, 6]] + right[3:]
    told = clone.call("explain", script, "-", data=json.dumps(wrong).encode())
    refused = ["[", "[[0,0", '[["a b"]]', "[[1.0]]", "[[true]]", "[[-1]]", '["take"]', '[["5"]]', "[" * 100000]
    tried = [clone.call("check", script, "-", data=it.encode()) for it in refused]
    is_refused = all(it.is_refused("standard input", "JSON", status=2) for it in tried)
    return told.status == 1 and told.output.startswith(b"illegal 4\n") and is_refused


def case_cut(room: str, home: str, program: str) -> bool:
    """a script that has a line %% itself is refused beside a second file"""
    clone = Clone.with_program(room, home, program)
    for cut in "%%\n", "%%\r\n":
        script, log = _written(clone, f"{SCRIPT}{cut}{LOG}", LOG)
        if not clone.call("check", script, log).is_refused(script, "%%", status=2):
            return False
    script, log = _written(clone, f"# %%\n %%\n{SCRIPT}", LOG)
    return clone.call("check", script, log).status == 3


def case_unread(room: str, home: str, program: str) -> bool:
    """a file that can't be read is status 2, and one line says why"""
    clone = Clone.with_program(room, home, program)
    (script,) = _written(clone, SCRIPT)
    for words in ["run", "no.task"], ["check", script, "no.log"], ["run", room], ["check", "-", "-"]:
        called = clone.call(*words)
        if called.status != 2 or called.output or not called.lines[-1].startswith("taskenv: "):
            return False
    return True


def _written(clone: Clone, *texts: str) -> list[str]:
    """Files with these texts."""
    files = [os.path.join(clone.top, f"file {number}") for number in range(len(texts))]
    for file, text in zip(files, texts):
        clone.write(file, text)
    return files
