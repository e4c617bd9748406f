"""Edits of the log of a whole run, and the lines at which a checker must find them.

An entry is its words behind the place: the seat, the word of its kind, and the arguments. An edit takes the entries, the
place of one, and the seats that are busy before it. It gives the lines of another log, and the place that can't be allowed;
or nothing, where it doesn't apply.
"""
import json

LARGEST = 2**64 - 1
# Where the value stands that an entry found, left or summed up.
VALUES = {"take": 4, "end": 3, "maintake": 4, "mainend": 3, "jobstep": 5, "joined": 4}
TURNED = {"ok": "no", "no": "ok"}


def entries_of(log):
    """The entries of a log's text: its lines that begin with a place."""
    return [line.split(" ")[1:] for line in log.decode().splitlines() if line[:1].isdigit()]


def entries_of_json(text):
    """The entries of a log in its JSON form."""
    return [[str(part) for part in entry[1:]] for entry in json.loads(text)]


def lines_of(entries):
    """The lines of a log of these entries."""
    return [" ".join([str(place), *entry]) for place, entry in enumerate(entries)]


def text_of(entries):
    """The text of a log of these entries, of version 1."""
    return "".join(line + "\n" for line in lines_of(entries)).encode()


def numbered(lines):
    """The lines of a log of version 2, of which these are the lines of its entries."""
    return ["taskenv log 2", *lines, f"total {len(lines)}"]


def open_plan(lines):
    """The text of a script's declarations with one worker seat more, which is the guest's, and the number of that seat."""
    words = [line.split() for line in lines]
    guest = next((int(line[1]) for line in words if line[:1] == ["workers"]), 2) + 1
    kept = [" ".join(line) for line in words if line and line[0] in ("groups", "threshold", "runner", "queue", "task", "job")]
    return "".join(f"{line}\n" for line in [f"workers {guest}", *kept]).encode(), guest


def late_entry(entries):
    """The place of the driver's first entry after shutdown is done that is no post, if there is one."""
    done = next((place for place, entry in enumerate(entries) if entry[1] == "done"), len(entries))
    return next((place for place in range(done + 1, len(entries)) if entries[place][0] == "0" and entries[place][1] not in ("post", "main")), None)


def busy_seats(entries):
    """The seats that run a task or hold an item, before each entry."""
    busy, before = set(), []
    for seat, word, *arguments in entries:
        before.append(set(busy))
        if word in ("take", "maintake", "jobtake"):
            busy.add(seat)
        elif word in ("end", "mainend") or word == "jobstep" and arguments[-1] == "-":
            busy.discard(seat)
    return before


def replaced(entries, place, entry):
    return lines_of(entries[:place] + [entry] + entries[place + 1 :])


def another_value(rng, entries, place, busy):
    entry = list(entries[place])
    at = VALUES.get(entry[1])
    if at is None or at >= len(entry):
        return None
    entry[at] = str((int(entry[at]) + rng.choice([1, LARGEST, 2**32])) & LARGEST)
    return replaced(entries, place, entry), place


def another_reply(rng, entries, place, busy):
    entry = list(entries[place])
    if entry[1] not in ("post", "main", "startjob"):
        return None
    entry[-1] = TURNED[entry[-1]]
    return replaced(entries, place, entry), place


def busy_seat(rng, entries, place, busy):
    """A worker that is at work takes."""
    seat, word, *arguments = entries[place]
    others = sorted(busy[place] - {"0", seat})
    if word not in ("take", "jobtake") or seat == "0" or not others:
        return None
    return replaced(entries, place, [rng.choice(others), word, *arguments]), place


def another_place(rng, entries, place, busy):
    lines = lines_of(entries)
    lines[place] = " ".join([rng.choice([str(place + 1), f"0{place}", ""]), *entries[place]])
    return lines, place


def another_spelling(rng, entries, place, busy):
    lines = lines_of(entries)
    lines[place] = rng.choice([lines[place].replace(" ", "  ", 1), lines[place] + " ", lines[place] + "\r", "", "%%"])
    return lines, place


def left_out(rng, entries, place, busy):
    """Of the main tasks that were not there another pump may tell as well: so such an entry stays."""
    if entries[place][1] == "mainnone":
        return None
    return lines_of(entries[:place] + entries[place + 1 :]), place


def put_twice(rng, entries, place, busy):
    if entries[place][1] == "mainnone":
        return None
    return lines_of(entries[: place + 1] + entries[place:]), place + 1


def swapped(rng, entries, place, busy):
    """Two entries of one seat, one behind the other, in the other order."""
    pair = entries[place : place + 2]
    if len(pair) < 2 or pair[0] == pair[1] or pair[0][0] != pair[1][0]:
        return None
    return lines_of(entries[:place] + pair[::-1] + entries[place + 2 :]), place


def cut_off(rng, entries, place, busy):
    return lines_of(entries[:place]), place


def gone_on(rng, entries, place, busy):
    """An entry behind the last one."""
    return lines_of(entries + [["0", "idle"]]), len(entries)


# The edits behind which the place that they name is the first that is not allowed, and those behind which it is no earlier one.
EXACT = [another_value, another_reply, busy_seat, another_place, another_spelling, cut_off, gone_on]
EARLIEST = [left_out, put_twice, swapped]
