"""Cases of the streams and the status, which the launcher passes on."""
from __future__ import annotations

import os
import pty
import signal
import subprocess

from clones import Clone, wait_for

SCRIPT = b"workers 1\nrunner 0 parallel user_visible skip\ntask 0 add 5\npost 0 0 0\nflush\n"
LOG = b"taskenv log 2\n0 0 post 0 0 0 ok\n1 1 take 0 0 0\n2 1 end 0 5\n3 0 idle\ntotal 4\n"


def case_bytes(room: str, home: str, program: str) -> bool:
    """the program is given the bytes that come, from a file and a pipe, up to its limit"""
    clone = Clone.with_program(room, home, program)
    for data in b"", SCRIPT, b"\0\xff", b"#" * 33_554_432, b"#" * 33_554_433:
        file = os.path.join(clone.top, "input")
        with open(file, "wb") as it:
            it.write(data)
        wanted = subprocess.run([program, "run"], input=data, capture_output=True)
        piped = clone.call("run", data=data)
        with open(file, "rb") as it:
            process = clone.start("run", stdin=it)
            output, notes = process.communicate()
        for status, out, said in (piped.status, piped.output, piped.notes.encode()), (process.returncode, output, notes):
            if (status, out) != (wanted.returncode, wanted.stdout) or not said.startswith(wanted.stderr):
                return False
    return True


def case_left_alone(room: str, home: str, program: str) -> bool:
    """standard input is left alone where the words are refused, or the mode reads nothing"""
    clone = Clone.with_program(room, home, program)
    and_rest = ("sh", "-c", '"$0" "$1" >&2; cat')
    return all(clone.call(mode, data=b"rest\n", before=and_rest).output == b"rest\n" for mode in ("walk", "gen", "bench"))


def case_closed(room: str, home: str, program: str) -> bool:
    """closed streams are closed to the program, and a note on a pipe that is closed is one line"""
    clone = Clone.with_program(room, home, program)
    closed = [("<&-", 4, "read fault\n"), (">&-", 5, "write fault\n"), ("2>&-", 0, ""), ("<&- >&- 2>&-", 4, "")]
    closed += [("</", 4, "read fault\n"), ("1</", 5, "write fault\n"), ("2</", 0, ""), (">/dev/full", 5, "write fault\n")]
    for how, status, notes in closed:
        called = clone.call("run", data=SCRIPT, before=("sh", "-c", f'"$0" "$@" {how}'))
        if (called.status, called.notes) != (status, notes):
            raise AssertionError(f"{how}: {called.status}, {called.notes}")
    long = clone.call("gen", "--size", "8192", before=("bash", "-c", '"$0" "$@" | head -n 1 >&2; exit "${PIPESTATUS[0]}"'))
    return len(long.lines) <= 2


def case_no_memory(room: str, home: str, program: str) -> bool:
    """where memory is scarce the verdict is right or there is none"""
    clone = Clone.with_program(room, home, program)
    for kilobytes in range(14_000, 24_000, 1_000):
        called = clone.call("check", data=SCRIPT + b"%%\n" + LOG, before=("bash", "-c", f'ulimit -v {kilobytes} && exec "$0" "$@"'))
        is_right = (called.status, called.output) == (0, b"legal\n") or called.status not in (0, 1) and not called.output
        if not is_right:
            raise AssertionError(f"{kilobytes}: {called.status}, {called.output}, {called.notes}")
    return True


def case_killed(room: str, home: str, program: str) -> bool:
    """a program that a signal ends is 128 and its number, and what stops the launcher stops the program"""
    clone = Clone.with_program(room, home, program)
    clone.keep_text("#!/bin/sh\nkill -KILL $$\n")
    if clone.call("bench").status != 137:
        return False
    clone.keep_text("#!/bin/sh\necho began\nexec sleep 79\n")
    for number in signal.SIGINT, signal.SIGTERM, signal.SIGHUP:
        process = clone.start("bench")
        process.stdout.readline()
        process.send_signal(number)
        if process.wait(timeout=20) != 128 + number:
            return False
    return True


def case_ignored(room: str, home: str, program: str) -> bool:
    """what the caller ignores stays ignored"""
    clone = Clone.with_program(room, home, program)
    clone.keep_text("#!/bin/sh\nkill -HUP $$\nkill -HUP $PPID\nsleep 0.2\necho ended\n")
    return clone.call("bench", before=("nohup",)).output == b"ended\n"


def case_timed(room: str, home: str, program: str) -> bool:
    """--time writes one line behind a run"""
    called = Clone.with_program(room, home, program).call("--time", "run", data=SCRIPT)
    return called.output == LOG and len(called.lines) == 1 and " s on the clock, " in called.notes


def case_terminal(room: str, home: str, program: str) -> bool:
    """on a terminal it is said what is waited for, where the words are right, and lines are read up to Ctrl-D"""
    clone = Clone.with_program(room, home, program)
    right = _typed(clone, ["run"], [b"post 0", SCRIPT, b"\x04"])
    return (
        b"waiting for a script, line by line; Ctrl-D" in right
        and right.count(b"waiting") == 1
        and b"a script, a line %% and a log" in _typed(clone, ["check"], [b"\x04"])
        and b"waiting" not in _typed(clone, ["run", "--walk"], [])
        and b"a log is missing" in _typed(clone, ["check", os.path.join(home, "examples/first_run.task")], [])
    )


def case_watched(room: str, home: str, program: str) -> bool:
    """where someone reads along a log is passed on as it is, also to a pipe that is closed"""
    clone = Clone.with_program(room, home, program)
    with open(os.path.join(clone.top, "input"), "wb") as it:
        it.write(SCRIPT)
    whole, notes = _watched(clone, 'exec "$0" run <"$1"')
    lines, closed = _watched(clone, '"$0" run <"$1" | true; exit "${PIPESTATUS[0]}"')
    return whole == LOG and not notes and not lines and closed in (b"write fault\r\n", b"")


def _typed(clone: Clone, words: list[str], lines: list[bytes]) -> bytes:
    """What a terminal shows of a call, at which these lines are typed."""
    ours, theirs = pty.openpty()
    process = clone.start(*words, stdin=theirs, stdout=theirs, stderr=theirs)
    os.close(theirs)
    shown = b""
    if lines:
        while b"waiting" not in shown:
            shown += os.read(ours, 4096)
        for line in lines:
            os.write(ours, line)
    while True:
        try:
            piece = os.read(ours, 4096)
        except OSError:
            piece = b""
        if not piece:
            break
        shown += piece
    process.wait(timeout=20)
    os.close(ours)
    return shown


def _watched(clone: Clone, text: str) -> tuple[bytes, bytes]:
    """What a shell's command writes to a pipe, and what a terminal shows of it that its standard error goes to."""
    ours, theirs = pty.openpty()
    command = ["bash", "-c", text, os.path.join(clone.folder, "taskenv"), os.path.join(clone.top, "input")]
    streams = {"stdin": subprocess.DEVNULL, "stdout": subprocess.PIPE, "stderr": theirs}
    ended = subprocess.run(command, env=clone.environment(), timeout=60, **streams)
    os.close(theirs)
    try:
        shown = os.read(ours, 4096)
    except OSError:
        shown = b""
    os.close(ours)
    return ended.stdout, shown
