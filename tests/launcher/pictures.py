"""Cases of the mode picture: the page of a right log and of wrong ones, and what is said where there is none."""
from __future__ import annotations

import html
import os
import re
import shutil
import subprocess

from clones import Called, Clone

SCRIPT = (
    "workers 1\nrunner 0 sequenced user_visible skip\nqueue 0 3 1\ntask 0 add 5\ntask 1 set 2\njob 0 user_visible block 1 1 add 7\n"
    "policy foreground\npost 0 0 0\nmain 1 0 0\npump 1\nflush\nstartjob 0\njoin 0\nshutdown\n"
)
LINES = (
    "0 0 policy foreground", "1 0 post 0 0 0 ok", "2 0 main 1 0 0 ok", "3 0 maintake 1 0 0", "4 1 take 0 0 0", "5 0 mainend 1 2",
    "6 1 end 0 5", "7 0 idle", "8 0 startjob 0 ok", "9 1 jobtake 0 0 0", "10 1 jobstep 0 0 0 7 -", "11 0 joined 0 done 7",
    "12 0 shutdown", "13 0 done",
)
BROWSER = shutil.which("chromium") or shutil.which("chromium-browser") or shutil.which("google-chrome")


def log_of(lines: tuple[str, ...]) -> str:
    return "\n".join(["taskenv log 2", *lines, f"total {len(lines)}", ""])


class Gallery:
    """A clone with a script and logs."""

    def __init__(self, room: str, home: str, program: str):
        self.room, self.clone = room, Clone.with_program(room, home, program)
        self.write("a.task", SCRIPT)
        self.write("a.log", log_of(LINES))

    def write(self, name: str, text: str) -> None:
        with open(os.path.join(self.room, name), "w", encoding="utf-8") as it:
            it.write(text)

    def call(self, *words: str, data: str = "") -> Called:
        return self.clone.call(*words, data=data.encode(), cwd=self.room)

    def said(self, called: Called) -> list[str]:
        """What the page says of each thing that one can go to."""
        return [html.unescape(it) for it in re.findall(r'tabindex="0" role="img" aria-label="([^"]*)"', called.output.decode())]


def case_right(room: str, home: str, program: str) -> bool:
    """the picture of a right log is one page, status 0, that asks nothing of a network, with all that the log and the script say"""
    gallery = Gallery(room, home, program)
    called = gallery.call("picture", "a.task", "a.log")
    page, said = called.output.decode(), gallery.said(called)
    apart = re.search(r"(src|href)=|url\((?!#)|https?:|@import", page)
    task = ("task 0 on seat 1, from place 4 to 6\nrunner 0, found 0, left 5, posted at place 1 by seat 0\n"
            "script line 2: runner 0 sequenced user_visible skip\nlog: 4 1 take 0 0 0\nlog: 6 1 end 0 5\nscript line 4: task 0 add 5")
    main = "main task 1 on seat 0, from place 3 to 5\nqueue 0, found 0, left 2, posted at place 2 by seat 0\n"
    item = "job 0 item 0 on seat 1, from place 9 to 10\nlog: 9 1 jobtake 0 0 0\nlog: 10 1 jobstep 0 0 0 7 -\nscript line 6: "
    # Two posts, two tasks, an item, and six other entries, in the order of their places.
    is_told = len(said) == 11 and task in said and any(it.startswith(main) for it in said) and any(it.startswith(item) for it in said)
    drawn = [page.count(f'class="{it}"') for it in ("task", "main", "item", "post", "flow", "waiting", "running", "bad")]
    bands = all(f">{it}</text>" in page for it in ("policy foreground", "shutdown"))
    kept = called.status == 0 and called.notes == "" and page.startswith("<!DOCTYPE html>") and not apart
    return kept and is_told and bands and drawn == [1, 1, 1, 2, 2, 2, 2, 0]


def case_illegal(room: str, home: str, program: str) -> bool:
    """the picture of an illegal log ends before the bad entry, which has a sign, a word and what explain says; the status is 1"""
    gallery = Gallery(room, home, program)
    gallery.write("bad.log", log_of(LINES).replace("6 1 end 0 5", "6 1 end 0 6"))
    called = gallery.call("picture", "a.task", "bad.log")
    page = called.output.decode()
    why, *more = gallery.call("explain", "a.task", "bad.log").output.decode().splitlines()[1:]
    words = "\n".join([f"illegal, at line 8 of the log: {why}", *more])
    is_marked = gallery.said(called)[-1] == words and 'class="bad"' in page and "✖ illegal" in page
    is_told = more == ["the line is: 6 1 end 0 6", "this seat is at work since: 4 1 take 0 0 0"]
    is_shown = all(f"<code>{line}</code>" in page for line in more) and why in page
    ends = "7 0 idle" not in page and "task 0 on seat 1, from place 4 on, and does not end" in page
    return called.status == 1 and is_marked and is_told and is_shown and ends


def case_no_line(room: str, home: str, program: str) -> bool:
    """where a line is none of a log, the entries before it are judged too, and the first bad one ends the picture"""
    gallery = Gallery(room, home, program)
    gallery.write("late.log", log_of(LINES).replace("12 0 shutdown", "12 0 shut down"))
    gallery.write("both.log", log_of(LINES).replace("12 0 shutdown", "12 0 shut down").replace("6 1 end 0 5", "6 1 end 0 6"))
    late, both = (gallery.call("picture", "a.task", name) for name in ("late.log", "both.log"))
    one, two = (re.findall(r"illegal</b>, at line (\d+)", it.output.decode()) for it in (late, both))
    is_quoted = "<code>the line is: 12 0 shut down</code>" in late.output.decode()
    return (late.status, both.status, one, two) == (1, 1, ["14"], ["14", "8"]) and is_quoted and "11 0 joined" in late.output.decode()


def case_cut(room: str, home: str, program: str) -> bool:
    """a log of version 1, and one that is cut, have pictures too"""
    gallery = Gallery(room, home, program)
    first = gallery.call("picture", "a.task", "-", data="".join(f"{line}\n" for line in LINES))
    cut = gallery.call("picture", "a.task", "-", data="".join(f"{line}\n" for line in LINES[:5]))
    whole = gallery.call("picture", "-", data=SCRIPT + "%%\n" + log_of(LINES))
    ends = "illegal</b>, at line 6 of the log: unfinished"
    return [it.status for it in (first, cut, whole)] == [0, 1, 0] and ends in cut.output.decode() and b"place 4 on" in cut.output


def case_pumps(room: str, home: str, program: str) -> bool:
    """a pump that finds no task is the one of the script that does: those before it ran as many as they may, or found none either"""
    gallery = Gallery(room, home, program)
    gallery.write("b.task", "queue 0 3 1\ntask 0 add 1\ntask 1 add 1\npump 1\nmain 0 0 0\npump 1\nmain 1 0 0\npump 2\npump 3\n")
    lines = ("0 0 mainnone", "1 0 main 0 0 0 ok", "2 0 maintake 0 0 0", "3 0 mainend 0 1", "4 0 main 1 0 0 ok", "5 0 maintake 1 0 1",
             "6 0 mainend 1 2", "7 0 mainnone", "8 0 mainnone")
    gallery.write("b.log", log_of(lines))
    called = gallery.call("picture", "b.task", "b.log")
    return called.status == 0 and [it.split("\n")[-1] for it in gallery.said(called) if it.startswith("mainnone")] == [
        "script line 4: pump 1", "script line 8: pump 2", "script line 9: pump 3"
    ]


def case_two_logs(room: str, home: str, program: str) -> bool:
    """of two logs it is marked from where on they differ, and which tasks and items have another seat or other values"""
    gallery = Gallery(room, home, program)
    other = [*LINES[:8], "8 0 startjob 0 ok", "9 0 jobtake 0 0 0", "10 0 jobstep 0 0 0 7 -", *LINES[11:]]
    gallery.write("b.log", log_of(tuple(other)))
    called, same = (gallery.call("picture", "a.task", "a.log", name) for name in ("b.log", "a.log"))
    page = called.output.decode()
    is_said = "the same entries before place 9" in page and "(≠, with a broken border): job 0 item 0." in page
    is_drawn = page.count('class="item differs"') == 2 and page.count('class="parts"') == 2 and page.count('<tr class="other">') == 4
    return (called.status, same.status) == (0, 0) and is_said and is_drawn and b"Both logs have the same entries" in same.output


def case_refused(room: str, home: str, program: str) -> bool:
    """where the script or the words are bad there is no page, and what check says; so where nothing can be written"""
    gallery = Gallery(room, home, program)
    gallery.write("bad.task", SCRIPT.replace("user_visible skip", "user-visible skip"))
    drawn, checked = (gallery.call(mode, "bad.task", "a.log") for mode in ("picture", "check"))
    is_same = (drawn.status, drawn.output, drawn.notes) == (checked.status, checked.output, checked.notes) and drawn.status == 3
    three, none = gallery.call("picture", "a.task", "a.log", "a.log", "a.log"), gallery.call("picture", "a.task", "b.log")
    many = gallery.call("picture", "--json", "a.task", "a.log")
    words = [(it.status, it.output, it.lines[-1]) for it in (three, none, many)]
    with open("/dev/full", "wb") as full:
        process = gallery.clone.start("picture", "a.task", "a.log", stdout=full, cwd=gallery.room)
        process.communicate()
    return is_same and process.returncode == 5 and words == [
        (2, b"", "taskenv: picture takes SCRIPT, LOG and [LOG]: a.log is one file too many"),
        (2, b"", "taskenv: no such file: b.log; did you mean a.log?"),
        (2, b"", "taskenv: picture takes --open, and no --json"),
    ]


def case_in_a_browser(room: str, home: str, program: str) -> bool:
    """in a browser the page says what has the focus, and the arrow keys go on (skipped where there is no Chromium)"""
    if not BROWSER:
        return True
    gallery = Gallery(room, home, program)
    called = gallery.call("picture", "a.task", "a.log")
    # The page's own script runs, and then this one, as a reader's keys would.
    keys = "const them = document.querySelectorAll('[tabindex]'); them[0].focus();"
    keys += "them[0].dispatchEvent(new KeyboardEvent('keydown', {key: 'ArrowRight', bubbles: true}));"
    gallery.write("page.html", called.output.decode().replace("</body>", f"<script>{keys}</script></body>"))
    command = [BROWSER, "--headless=new", "--no-sandbox", "--disable-gpu", f"--user-data-dir={room}/profile", "--dump-dom"]
    ended = subprocess.run([*command, f"file://{room}/page.html"], capture_output=True, timeout=60)
    shown = html.unescape(re.search(r'<output id="said"[^>]*>(.*?)</output>', ended.stdout.decode(), re.S)[1])
    return shown == gallery.said(called)[1]
