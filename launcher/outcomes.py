"""What a run left, told from its log: the last cell of each sequence of several tasks and of each main queue, which posts were refused,
the reply of each job that was joined, and which tasks were accepted and never taken."""
from __future__ import annotations

from collections.abc import Iterator

# Parts that each run has; the others are called by a runner, a main queue or a job.
REFUSED, LEFT_OVER = "refused", "never taken"
NONE = "none"


class Reader:
    """Reads logs of one script."""

    def __init__(self, script: bytes):
        words = (line.split() for line in script.decode("latin-1").split("\n"))
        kinds = [it[2] for it in words if it[:1] == ["runner"]]
        # Each task of a parallel runner is a sequence of its own, and leaves the same in each run in which it runs.
        self.one_sequence = {str(runner) for runner, kind in enumerate(kinds) if kind != "parallel"}

    def outcome(self, log: bytes) -> dict[str, str]:
        """What the run of this log left, by its parts. A part that the log says nothing of is not there."""
        parts: dict[str, str] = {}
        refused: dict[str, list[str]] = {"task": [], "job": []}
        waiting: dict[str, None] = {}
        homes: dict[str, str] = {}
        for word, *rest in _entries_of(log):
            if word in ("post", "main"):
                if rest[3] == "ok":
                    waiting[rest[0]] = None
                else:
                    refused["task"].append(rest[0])
            elif word in ("take", "maintake"):
                waiting.pop(rest[0], None)
                homes[rest[0]] = f"runner {rest[1]}" if word == "take" else f"main queue {rest[1]}"
            elif word == "mainend" or word == "end" and homes[rest[0]].split()[1] in self.one_sequence:
                parts[homes[rest[0]]] = rest[1]
            elif word == "startjob" and rest[1] == "no":
                refused["job"].append(rest[0])
            elif word == "joined":
                parts[f"job {rest[0]}"] = " ".join(rest[1:])
        them = [_named(what, numbers) for what, numbers in refused.items() if numbers]
        return {**parts, REFUSED: " and ".join(them) or NONE, LEFT_OVER: _named("task", list(waiting)) or NONE}


def order_of(part: str) -> tuple[int, str, int]:
    """Where a part stands among others: runners, main queues and jobs by their numbers, and then the rest."""
    name, _, number = part.rpartition(" ")
    return (0, {"runner": "0", "main queue": "1", "job": "2"}[name], int(number)) if number.isdigit() else (1, part, 0)


def said(part: str, value: str | None) -> str:
    """What a part is said to be, where that is its value, or where the log says nothing of it."""
    if part == REFUSED:
        return "no post refused" if value == NONE else f"posts refused: {value}"
    if part == LEFT_OVER:
        return "all accepted tasks taken" if value == NONE else f"never taken: {value}"
    if part.startswith("job "):
        return f"{part} not joined" if value is None else f"{part} {value}"
    return f"no task of {part} ended" if value is None else f"{part} left {value}"


def _entries_of(log: bytes) -> Iterator[list[str]]:
    """The entries of a log, each as the words behind its place and its seat."""
    return (line.split(" ")[2:] for line in log.decode("ascii").splitlines() if line[0].isdigit())


def _named(what: str, numbers: list[str]) -> str:
    """`task 3`, or `tasks 0 1`, or nothing."""
    if not numbers:
        return ""
    return f"{what}{'s' * (len(numbers) > 1)} {' '.join(sorted(numbers, key=int))}"
