"""Promises of a log that are looked at without the program: what tasks and items compute, who takes what, and how often."""
from program import Wrong

LARGEST = 2**64 - 1


class Declared:
    """What a script declares: the compute steps of its tasks and jobs, and which runners are parallel."""

    def __init__(self, lines):
        words = [line.split() for line in lines]
        self.tasks = [steps_of(line[2:]) for line in words if line[0] == "task"]
        self.jobs = [(int(line[4]), steps_of(line[6:])) for line in words if line[0] == "job"]
        self.parallel = [line[2] == "parallel" for line in words if line[0] == "runner"]

    def cell(self, word, task, home):
        """Whose value a task works on: its own, its runner's or its main queue's."""
        if word == "take" and self.parallel[int(home)]:
            return "task", task
        return word, home


def steps_of(words):
    steps = [step.split() for step in " ".join(words).split(";")]
    return [(step[0], int(step[1])) for step in steps if step and step[0] in ("add", "mul", "set")]


def after(steps, value):
    """What steps leave of a value."""
    for word, number in steps:
        value = {"add": value + number, "mul": value * number, "set": number}[word] & LARGEST
    return value


class Followed:
    """The log so far: what was accepted and taken, what runs on each seat, and the values."""

    def __init__(self, lines):
        self.script = Declared(lines)
        self.accepted, self.taken, self.moment = set(), set(), 0
        self.running, self.cells = {}, {}
        self.items = [{} for _ in self.script.jobs]

    def entered(self, entry):
        """Takes in one more entry, and answers whether it keeps the promises."""
        seat, word, *arguments = entry
        if word in ("post", "main"):
            self.accepted |= {arguments[0]} if arguments[-1] == "ok" else set()
        elif word in ("take", "maintake"):
            return self.took(seat, word, *arguments)
        elif word in ("end", "mainend"):
            return self.ended(seat, *arguments)
        elif word == "jobstep":
            return self.stepped(*arguments)
        elif word == "joined" and arguments[1] == "done":
            values = self.items[int(arguments[0])].values()
            count, _ = self.script.jobs[int(arguments[0])]
            return len(values) == count and sum(values) & LARGEST == int(arguments[2])
        elif word == "tick":
            last, self.moment = self.moment, int(arguments[0])
            return last <= self.moment <= 2**62
        return True

    def took(self, seat, word, task, home, found):
        cell = self.script.cell(word, task, home)
        free = task in self.accepted and task not in self.taken and seat not in self.running
        alone = all(other != cell for _, other, _ in self.running.values())
        self.taken.add(task)
        self.running[seat] = (task, cell, int(found))
        return free and alone and int(found) == self.cells.get(cell, 0)

    def ended(self, seat, task, left):
        running, cell, found = self.running.pop(seat, (None, None, 0))
        self.cells[cell] = int(left)
        return running == task and int(left) == after(self.script.tasks[int(task)], found)

    def stepped(self, job, number, item, value, following):
        items = self.items[int(job)]
        is_new = item not in items
        items[item] = int(value)
        return is_new and int(value) == after(self.script.jobs[int(job)][1], int(item))


def look_at(lines, entries):
    """Refuses a log that breaks one of them."""
    followed = Followed(lines)
    for place, entry in enumerate(entries):
        if not followed.entered(entry):
            raise Wrong("a promise is broken", f"entry {place}, {' '.join(entry)}")
    if followed.running:
        raise Wrong("a task that runs at the end", followed.running)
