"""Damage to one line of a good script, and the fault that must be told of it.

A damage takes the script's lines and the place of one. It gives other lines in place of that line, which of them is the bad one,
and the number of its reason; or nothing, where it does not apply.
"""

FIXED = ("tick", "policy", "reprio", "fence", "unfence", "vote", "rank", "close", "pump", "join", "cancel", "startjob", "post", "main")
CONFIGURED = ("workers", "groups", "threshold")
DECLARED = ("runner", "queue", "task", "job")


def count(lines, word):
    """How many lines declare one of this sort."""
    return sum(line.split(" ")[0] == word for line in lines)


def no_text(rng, lines, place):
    line, at = lines[place], rng.randint(1, len(lines[place]))
    return [line[:at] + chr(rng.randint(128, 255)) + line[at:]], 0, 1


def unknown_word(rng, lines, place):
    return [rng.choice(["x", "X"]) + lines[place]], 0, 2


def word_too_many(rng, lines, place):
    word = lines[place].split(" ")[0]
    if word in ("task", "job"):
        return [lines[place] + " ;"], 0, 3
    return ([lines[place] + " 0"], 0, 3) if word != "runner" else ([lines[place] + " mayblock mayblock"], 0, 3)


def word_too_few(rng, lines, place):
    words = lines[place].split(" ")
    return ([" ".join(words[:-1])], 0, 3) if words[0] in FIXED + CONFIGURED else None


def of_number(rng, lines, place, numbers, reason):
    """Another word in the place of a number."""
    words = lines[place].split(" ")
    places = [at for at, word in enumerate(words) if word.isdigit()]
    if not places:
        return None
    words[rng.choice(places)] = rng.choice(numbers)
    return [" ".join(words)], 0, reason


def no_number(rng, lines, place):
    return of_number(rng, lines, place, ["+1", "-1", "0x1", "1,", "0" * 21, "all"], 4)


def number_too_large(rng, lines, place):
    return of_number(rng, lines, place, [str(2**64), "9" * 20], 5)


def out_of_order(rng, lines, place):
    words = lines[place].split(" ")
    if words[0] not in DECLARED:
        return None
    words[1] = str(int(words[1]) + rng.choice([1, 2**31]))
    return [" ".join(words)], 0, 6


def undeclared(rng, lines, place):
    """An action that names what is not declared, in place of another action."""
    word = lines[place].split(" ")[0]
    if word not in ("flush", "pump", "tick", "policy"):
        return None
    bad = [f"unfence {count(lines, 'queue')}", f"join {count(lines, 'job')}", f"post {count(lines, 'task')} 0 0"]
    bad.append(f"reprio {count(lines, 'runner')} user_visible")
    return [rng.choice(bad)], 0, 7


def put_twice(rng, lines, place):
    word = lines[place].split(" ")[0]
    reasons = {"post": 8, "main": 8, "startjob": 11, "shutdown": 12, **dict.fromkeys(CONFIGURED, 13)}
    return ([lines[place]] * 2, 1, reasons[word]) if word in reasons else None


def too_late(rng, lines, place):
    """A line of those that stand first, behind an action."""
    if lines[place].split(" ")[0] not in FIXED:
        return None
    word = rng.choice(["queue", "task", "job", "threshold"])
    late = {"queue": " 0 0", "task": "", "job": " user_visible skip 1 1", "threshold": ""}
    return [lines[place], f"{word} {count(lines, word) if word != 'threshold' else 5}{late[word]}"], 1, 9


def open_scope(rng, lines, place):
    words = lines[place].split(" ")
    if words[0] != "task":
        return None
    return [" ".join(words + [";"] * (len(words) > 2) + ["block may"])], 0, 10


def joined_before_start(rng, lines, place):
    words = lines[place].split(" ")
    return ([f"{rng.choice(['join', 'cancel'])} {words[1]}", lines[place]], 0, 11) if words[0] == "startjob" else None


KINDS = [
    no_text,
    unknown_word,
    word_too_many,
    word_too_few,
    no_number,
    number_too_large,
    out_of_order,
    undeclared,
    put_twice,
    too_late,
    open_scope,
    joined_before_start,
]
