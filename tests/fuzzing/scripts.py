"""Random scripts of the whole language, each a list of lines."""
PRIORITIES = ["best_effort", "user_visible", "user_blocking"]
BEHAVIOURS = ["continue", "skip", "block"]
WORKERS = [1, 2, 4, 64]
LARGEST = 2**64 - 1
LONGEST = 10**12


class Maker:
    """Makes a script line by line, and knows of the lines so far what the next one may name."""

    def __init__(self, rng):
        self.rng = rng
        self.lines = []
        self.workers = rng.choice(WORKERS)
        self.may_block = []  # of each runner
        self.voters = []  # of each main queue
        self.opens = []  # of each task, whether it opens scopes
        self.unposted = []
        self.jobs = self.started = 0

    def chance(self, part):
        return self.rng.random() < part

    def value(self):
        return self.rng.choice([0, 1, 2, 3, self.rng.randrange(1000), self.rng.randrange(LARGEST), LARGEST])

    def delay(self):
        return self.rng.choice([0] * 8 + [1, self.rng.randrange(50), LONGEST])

    def configuration(self):
        foreground = self.rng.choice([1, 2, self.rng.randint(1, 64)])
        best = self.rng.randint(1, foreground)
        lines = [
            f"workers {self.workers}",
            f"groups {foreground} {best} {self.rng.choice([0, 1, self.rng.randint(0, 64)])}",
            f"threshold {self.rng.choice([0, 5, LONGEST])}",
        ]
        self.rng.shuffle(lines)
        # Without the first of them there are two workers.
        kept = [line for line in lines if self.chance(0.7) or line.startswith("workers") and self.workers != 2]
        self.lines += kept

    def runner(self):
        kind = self.rng.choice(["parallel", "sequenced", f"single:{self.rng.randint(1, self.workers)}"])
        traits = f"{self.rng.choice(PRIORITIES)} {self.rng.choice(BEHAVIOURS)}"
        may_block = self.chance(0.5)
        self.lines.append(f"runner {len(self.may_block)} {kind} {traits}{' mayblock' if may_block else ''}")
        self.may_block.append(may_block)

    def queue(self):
        voters = self.rng.choice([0, 1, 2, 16])
        self.lines.append(f"queue {len(self.voters)} {self.rng.randint(0, 7)} {voters}")
        self.voters.append(voters)

    def compute(self):
        return f"{self.rng.choice(['add', 'mul', 'set'])} {self.value()}"

    def posting(self):
        """A post of a task that nothing posts yet to a home that may have it, or none."""
        if not self.unposted:
            return None
        task = self.rng.choice(self.unposted)
        runners = [place for place, may_block in enumerate(self.may_block) if may_block or not self.opens[task]]
        queues = [] if self.opens[task] else list(range(len(self.voters)))
        homes = [("post", place) for place in runners] + [("main", place) for place in queues]
        if not homes:
            return None
        self.unposted.remove(task)
        word, home = self.rng.choice(homes)
        return f"{word} {task} {home} {self.delay()}"

    def task(self):
        steps, is_open = [], False
        opens = self.chance(0.3)
        for _ in range(self.rng.choice([0, 1, 1, 2, 4])):
            if opens and self.chance(0.4):
                steps.append("unblock" if is_open else f"block {self.rng.choice(['may', 'will'])}")
                is_open = not is_open
            else:
                steps.append(self.chance(0.3) and self.posting() or self.compute())
        if is_open:
            steps.append("unblock")
        task = len(self.opens)
        self.lines.append(f"task {task} {' ; '.join(steps)}".rstrip())
        self.opens.append("unblock" in steps)
        self.unposted.append(task)

    def job(self):
        items = self.rng.choice([0, 1, 5, self.rng.randrange(100)])
        steps = " ; ".join(self.compute() for _ in range(self.rng.choice([0, 1, 2])))
        traits = f"{self.rng.choice(PRIORITIES)} {self.rng.choice(BEHAVIOURS)}"
        self.lines.append(f"job {self.jobs} {traits} {items} {self.rng.choice([1, 2, 64])} {steps}".rstrip())
        self.jobs += 1

    def of_queue(self):
        queue = self.rng.randrange(len(self.voters))
        lines = [
            f"fence {queue} now",
            f"fence {queue} start",
            f"unfence {queue}",
            f"rank {queue} {self.rng.randint(0, 7)}",
        ]
        if self.voters[queue]:
            lines.append(f"vote {queue} {self.rng.randrange(self.voters[queue])} {self.rng.choice(['on', 'off'])}")
        return self.rng.choice(lines) if self.chance(0.9) else f"close {queue}"

    def of_job(self):
        if self.started == self.jobs or self.started and self.chance(0.5):
            return f"{self.rng.choice(['join', 'join', 'cancel'])} {self.rng.randrange(self.started)}"
        self.started += 1
        return f"startjob {self.started - 1}"

    def of_runner(self):
        return f"reprio {self.rng.randrange(len(self.may_block))} {self.rng.choice(PRIORITIES)}"

    def action(self):
        kind = self.rng.choice(["posting"] * 10 + ["queue", "job", "pump", "reprio"] * 2 + ["tick", "policy", "flush"])
        if kind == "posting":
            return self.posting()
        if kind == "queue":
            return self.of_queue() if self.voters else None
        if kind == "job":
            return self.of_job() if self.jobs else None
        if kind == "reprio":
            return self.of_runner() if self.may_block else None
        return {
            "tick": f"tick {self.rng.choice([1, 1, 3, 20])}",
            "policy": f"policy {self.rng.choice(['all', 'all', 'all', 'foreground', 'none'])}",
            "pump": f"pump {self.rng.choice([1, 2, 5, 16384])}",
            "flush": "flush",
        }[kind]

    def script(self):
        self.configuration()
        declarations = [self.runner] * self.rng.randint(0, 5) + [self.queue] * self.rng.randint(0, 3)
        declarations += [self.task] * self.rng.choice([0, 5, 10, 30]) + [self.job] * self.rng.randint(0, 3)
        self.rng.shuffle(declarations)
        for declare in declarations:
            declare()
        actions = [self.action() for _ in range(self.rng.choice([5, 15, 40]))]
        actions = [action for action in actions if action]
        if self.chance(0.3):
            actions.insert(self.rng.randint(0, len(actions)), "shutdown")
        if self.chance(0.7):
            actions.append("flush")
        self.lines += actions
        return self.lines


def random_script(rng):
    return Maker(rng).script()


def spelled(rng, line):
    """Another spelling of a line: more blanks, zeros in front of numbers, a carriage return."""
    words = [word.zfill(rng.randint(1, 20)) if word.isdigit() else word for word in line.split(" ")]
    blanks = [rng.choice([" ", "  ", "\t"]) for _ in words]
    blanks[0] = rng.choice(["", " "])
    return "".join(map("".join, zip(blanks, words))) + rng.choice(["", " ", "\r"])


def spelled_anew(rng, lines):
    """The same script in another spelling, with lines between that say nothing."""
    spelling = []
    for line in lines:
        spelling += rng.choice([[], [], ["# a note"], ["\t"]]) + [spelled(rng, line)]
    return spelling


def text_of(lines):
    """The bytes of a script; a character stands for the byte of its number."""
    return "".join(line + "\n" for line in lines).encode("latin-1")
