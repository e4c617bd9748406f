"""What is said at the end of a run: which tasks were posted and never taken, and why, by the rules of docs/model.md."""
from __future__ import annotations

from collections import namedtuple
from collections.abc import Iterator

from inputs import parted

# At most so many causes have a line, and so many tasks are named in it.
MOST_CAUSES = 2
MOST_NAMED = 8

# An accepted post: its place in the log, whether it is to the pool, the number of its runner or main queue, and its ripe moment.
Post = namedtuple("Post", "place is_pooled home ripe")


def lines(words: list[str], data: bytes, log: bytes) -> list[str]:
    """A line for each cause that left tasks behind, where these words made this log of this input."""
    end = End(_entries_of(log), _priorities_in(parted(data)[0]), words)
    left: dict[str, list[str]] = {}
    for task, post in end.posts.items():
        left.setdefault(end.cause_of_pooled(post) if post.is_pooled else end.cause_of_main(post), []).append(task)
    left.pop("", None)
    causes = sorted(left, key=lambda cause: -len(left[cause]))
    said = [f"{_named(left[cause])} posted and never taken: {cause}" for cause in causes[:MOST_CAUSES]]
    others = sum(len(left[cause]) for cause in causes[MOST_CAUSES:])
    return said + ([f"{others} more, for other causes"] if others else [])


def _named(tasks: list[str]) -> str:
    if len(tasks) > MOST_NAMED:
        return f"{len(tasks)} tasks ({' '.join(tasks[:MOST_NAMED])} ..) were"
    return f"tasks {' '.join(tasks)} were" if tasks[1:] else f"task {tasks[0]} was"


def _entries_of(log: bytes) -> Iterator[list[str]]:
    """The entries of a log, as text or in JSON, each as the words behind its place and its seat."""
    if log.startswith(b"["):
        import json

        return ([str(part) for part in entry[2:]] for entry in json.loads(log))
    return (line.split(" ")[2:] for line in log.decode("ascii").splitlines() if line[0].isdigit())


def _priorities_in(script: bytes) -> dict[str, str]:
    """The priority that each runner is declared with."""
    words = (line.split() for line in script.decode("latin-1").split("\n"))
    declared = (it[3] for it in words if it[:1] == ["runner"])
    return {str(runner): priority for runner, priority in enumerate(declared)}


class End:
    """What holds at the end of a run."""

    def __init__(self, entries: Iterator[list[str]], priorities: dict[str, str], words: list[str]):
        self.priorities = priorities
        self.words = words
        self.posts: dict[str, Post] = {}
        self.ticks: list[tuple[int, int]] = [(0, 0)]
        self.policy = "all"
        self.has_shutdown = False
        self.closed: set[str] = set()
        self.fences: dict[str, int] = {}
        self.votes: dict[tuple[str, str], str] = {}
        for place, (kind, *rest) in enumerate(entries):
            self._follow(place, kind, rest)

    def _follow(self, place: int, kind: str, rest: list[str]) -> None:
        """Notes what an entry changes."""
        if kind in ("take", "maintake"):
            self.posts.pop(rest[0], None)
        elif kind in ("post", "main"):
            if rest[3] == "ok":
                self.posts[rest[0]] = Post(place, kind == "post", rest[1], self.ticks[-1][0] + int(rest[2]))
        elif kind == "tick":
            self.ticks.append((int(rest[0]), place))
        elif kind == "policy":
            self.policy = rest[0]
        elif kind == "reprio":
            self.priorities[rest[0]] = rest[1]
        elif kind == "fence":
            self.fences[rest[0]] = place if rest[1] == "now" else -1
        elif kind == "unfence":
            self.fences.pop(rest[0], None)
        elif kind == "vote":
            self.votes[rest[0], rest[1]] = rest[2]
        elif kind == "close":
            self.closed.add(rest[0])
        elif kind == "shutdown":
            self.has_shutdown = True

    def cause_of_pooled(self, post: Post) -> str:
        """Why no worker took a task; nothing where shutdown forbids it, as it should."""
        if self.has_shutdown:
            return ""
        if post.ripe > self.ticks[-1][0]:
            return self._unripe()
        if self.policy == "none" or self.policy == "foreground" and self.priorities.get(post.home) == "best_effort":
            return f"the policy {self.policy} holds such work back"
        return "no flush came at the end, which waits for the pool"

    def cause_of_main(self, post: Post) -> str:
        """Why the driver took no main task."""
        if post.home in self.closed:
            return f"main queue {post.home} was closed"
        if post.ripe > self.ticks[-1][0]:
            return self._unripe()
        if any(queue == post.home and vote == "off" for (queue, _), vote in self.votes.items()):
            return f"a voter of main queue {post.home} votes off"
        ordered = max(post.place, next(place for moment, place in self.ticks if moment >= post.ripe))
        if self.fences.get(post.home, ordered) < ordered:
            return f"main queue {post.home} has a fence in the way"
        return "no pump was left for that; pump N runs up to N main tasks"

    def _unripe(self) -> str:
        """A tick that came too early, or none."""
        if len(self.ticks) == 1:
            return "not ripe, since time comes by tick alone, and none came"
        is_clock = "run" in self.words and not any(word.startswith("--step") for word in self.words)
        advice = "; with --step 10 ticks read 10, 20 and so on" if is_clock else ""
        return f"not ripe, since the last tick read {self.ticks[-1][0]}{advice}"
