"""A pool in Python that plays scripts with one worker, where no task is taken before the flush, rightly or in one of these ways:

    python3 pools.py WAY [SCRIPT LOG]

Without files it reads the script from standard input, and writes the log to standard output. With `seen-` before WAY it writes what each
seat saw, in place of a log: seat by seat, with two times of a clock."""
import os
import signal
import sys
import time


def log_of(script, way):
    """The log of a script of sequenced runners of one priority, which posts and then flushes."""
    lines, posted, bodies, cells = [], [], {}, {}
    for words in map(str.split, script):
        if words[:1] == ["task"]:
            bodies[words[1]] = words[2:]
        elif words[:1] == ["post"]:
            posted.append(words[1:3])
            lines.append(f"0 post {words[1]} {words[2]} {words[3]} ok")
        elif words[:1] == ["flush"]:
            for task, runner in reversed(posted) if way == "last" else posted:
                found = cells.get(runner, 0)
                left = found + sum(map(int, bodies[task][1::3]))
                cells[runner] = 0 if way == "loses" else left
                lines += [f"1 take {task} {runner} {found}", f"1 end {task} {left}"]
            lines.append("0 idle")
            posted = []
    return ["taskenv log 2", *(f"{place} {line}" for place, line in enumerate(lines)), f"total {len(lines)}"]


def events_of(lines):
    """What each seat saw of a log, each event with two times, of which those of neighbours overlap."""
    entries = [line.split(" ", 1) for line in lines if line[0].isdigit()]
    timed = [f"[{10 * int(place)} {10 * int(place) + 15}] {entry}" for place, entry in entries]
    return sorted(timed, key=lambda event: event.split("] ")[1][0])


def main(way, script="/dev/stdin", log="/dev/stdout"):
    """Plays once, in that way."""
    is_seen, way = way.startswith("seen-"), way.replace("seen-", "", 1)
    if way == "nothing":
        return 0
    if way == "refuses":
        print("pools: no such way", file=sys.stderr)
        return 2
    if way == "thirds":
        # Each third run loses what a task left: a file beside the call counts them.
        with open("runs", "a+") as it:
            it.write("x")
            way = "right" if it.tell() % 3 else "loses"
    with open(script) as it:
        lines = log_of(it.read().splitlines(), way)
    with open(log, "w") as it:
        if way in ("hangs", "dies"):
            lines = lines[:4]
        elif way == "short":
            lines = lines[:-2]
        lines = events_of(lines) if is_seen else lines
        if way == "bad":
            lines[1] = "[30 20] 0 post 1 0 0 ok"
        text = "\n".join(lines) + "\n"
        it.write(text[:-9] if way == "half" else text)
        it.flush()
        while way == "floods":
            it.write("7 0 idle\n" * 100000)
    if way == "hangs":
        if os.fork():
            os.wait()
        time.sleep(77)
    if way == "dies":
        os.kill(os.getpid(), signal.SIGKILL)
    return 3 if way == "fails" else 0


if __name__ == "__main__":
    sys.exit(main(*sys.argv[1:]))
