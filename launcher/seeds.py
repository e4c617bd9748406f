"""The option --seeds of the mode simulate: runs a script once for each seed of a range, and sums up what came: how many different logs,
and which outcomes how often, each with a seed that shows it."""
from __future__ import annotations

import json
import os
import threading
from collections import namedtuple
from collections.abc import Iterable
from hashlib import blake2b

import outcomes
import running
import words
from running import say
from runs import STOPPED, WRITE_FAULT, Over, Shown, Stopped, is_written, many, processors, side_by_side, take_signals, write_file

# What the program is not asked for: what is kept, and how all of it is written, is the launcher's own.
OWN = ("--seeds", "--keep", "--json")
# Of so many values of a part, and of so many outcomes, the most frequent ones have a line.
MOST_VALUES, MOST_OUTCOMES = 12, 20

# A run: its seed, its log, and what that says was left, by its parts.
Ran = namedtuple("Ran", "seed log outcome")


class NotRun(Exception):
    """A run of the program that did not end well: what is said of it, and its status."""

    def __init__(self, says: str, status: int):
        super().__init__(says)
        self.status = status


class Counted:
    """How often each of some values came, and the least seed by which it did."""

    def __init__(self):
        self.them: dict[object, list[int]] = {}

    def add(self, value: object, count: int, seed: int) -> None:
        """Counts a value so many times."""
        found = self.them.setdefault(value, [0, seed])
        found[0] += count
        found[1] = min(found[1], seed)

    def sorted(self) -> list[tuple[object, int, int]]:
        """Each value with its number and its seed, the most frequent one first."""
        return sorted(((value, *them) for value, them in self.them.items()), key=lambda it: (-it[1], it[2]))


class Seeds(Shown):
    """A call with a range of seeds."""

    def __init__(self, file: str, options: dict[str, str | None], script: bytes | None):
        super().__init__()
        self.file, self.script, self.seeds = file, script, words.seeds_in(options["--seeds"])
        self.words = ["simulate", *(name if value is None else f"{name}={value}" for name, value in options.items() if name not in OWN)]
        self.keep, self.is_json = options.get("--keep"), "--json" in options
        self.reader = outcomes.Reader(script or b"")
        self.outcomes, self.logs, self.count = Counted(), {}, 0
        self.stopped = threading.Event()

    # ---- the runs

    def words_of_first(self) -> list[str]:
        """What the program is asked for the first seed."""
        return self._words_of(self.seeds[0])

    def first_is_run(self) -> bool:
        """Whether the script is run by the first seed. If not, and nobody stopped it, all others fail likewise."""
        take_signals(self.stopped)
        status, _ = running.ask([self.file, *self.words_of_first()], self.script, 1, is_apart=True)
        return status == 0 or self.stopped.is_set()

    def _words_of(self, seed: int) -> list[str]:
        return [*self.words, f"--seed={seed}"]

    def _ran(self, seed: int) -> Ran:
        status, log = running.ask([self.file, *self._words_of(seed)], self.script, 1, is_apart=True)
        # What stops this call may stop a program that is just being started, too.
        if status and self.stopped.wait(0.5):
            raise Stopped
        if status:
            raise NotRun(f"no more is run, since the program ended with status {status} by --seed {seed}", status)
        return Ran(seed, log, self.reader.outcome(log))

    def done(self) -> int:
        """Runs all, and says what came, also where not all could be run."""
        fault = self._run_all()
        self.clear()
        is_told = not self.count and fault or is_written(self._as_json() if self.is_json else self._as_text())
        if fault:
            say(str(fault))
            return fault.status
        return WRITE_FAULT if not is_told else STOPPED if self.stopped.is_set() else 0

    def _run_all(self) -> NotRun | None:
        """Runs the script by each seed, and counts what comes; why not all of them were run, if so."""
        runs = side_by_side(self.seeds, self._ran, processors(), Over(self.stopped))
        try:
            if self.keep is not None:
                os.makedirs(self.keep)
            for ran in runs:
                self._count(ran)
        except NotRun as fault:
            return fault
        except OSError as error:
            return NotRun(f"no more is run: {error.filename or self.keep or 'a run'}: {error.strerror}", WRITE_FAULT)
        except RuntimeError as error:
            return NotRun(f"no more is run: {error}", 6)
        finally:
            runs.close()
        return None

    def _count(self, ran: Ran) -> None:
        self.count += 1
        self.outcomes.add(tuple(sorted(ran.outcome.items())), 1, ran.seed)
        name = blake2b(ran.log, digest_size=16).digest()
        first = self.logs.get(name)
        if first is None or ran.seed < first:
            self.logs[name] = ran.seed
            if self.keep is not None and first is None:
                write_file(self._kept(ran.seed), ran.log)
            elif self.keep is not None:
                os.rename(self._kept(first), self._kept(ran.seed))
        self.show(f"{self.count:,} of {many(len(self.seeds), 'run')}, {many(len(self.logs), 'different log')}")

    def _kept(self, seed: int) -> str:
        """Where a log is kept, by the first seed that gives it."""
        return os.path.join(self.keep, f"{seed}.log")

    # ---- what is said

    def _parts(self) -> dict[str, Counted]:
        """Of each part how often it had which value."""
        sorted_outcomes = self.outcomes.sorted()
        names = {part for outcome, _, _ in sorted_outcomes for part, _ in outcome}
        parts = {part: Counted() for part in sorted(names, key=outcomes.order_of)}
        for outcome, count, seed in sorted_outcomes:
            values = dict(outcome)
            for part, counted in parts.items():
                counted.add(values.get(part), count, seed)
        return parts

    def _as_text(self) -> str:
        """A line that counts; what is the same in each run; and what came how often."""
        stopped = f"stopped after {self.count:,} of {many(len(self.seeds), 'run')}\n" if self.count < len(self.seeds) else ""
        if not self.count:
            return stopped
        parts = self._parts()
        same = [outcomes.said(part, *counted.them) for part, counted in parts.items() if len(counted.them) == 1]
        varied = {part: counted for part, counted in parts.items() if len(counted.them) > 1}
        head = [many(self.count, "run"), many(len(self.logs), "different log"), many(len(self.outcomes.them), "outcome")]
        text = f"{stopped}{', '.join(head)}\nin each run\n" + "".join(f"  {it}\n" for it in same)
        text += "in some runs\n" * bool(varied)
        for part, counted in varied.items():
            text += _table(((outcomes.said(part, it), *rest) for it, *rest in counted.sorted()), MOST_VALUES, f"value{{}} of {part}")
        if len(varied) > 1:
            whole = (("; ".join(outcomes.said(part, dict(it).get(part)) for part in varied), *rest) for it, *rest in self.outcomes.sorted())
            text += "together\n" + _table(whole, MOST_OUTCOMES, "outcome{}")
        return text + (f"each different log is in {self.keep}, called by its first seed\n" if self.keep is not None else "")

    def _as_json(self) -> str:
        parts = {part: [dict(zip(("value", "count", "seed"), it)) for it in counted.sorted()] for part, counted in self._parts().items()}
        whole = [{"outcome": dict(it), "count": count, "seed": seed} for it, count, seed in self.outcomes.sorted()]
        counts = {"runs": self.count, "logs": len(self.logs), "stopped": self.stopped.is_set()}
        return json.dumps({**counts, "parts": parts, "outcomes": whole, "kept": self.keep}, separators=(",", ":")) + "\n"


def _table(rows: Iterable[tuple[str, int, int]], most: int, what: str) -> str:
    """A line for each of the first rows, with its number, its words and a seed, and one for the rest."""
    rows = list(rows)
    wide, left = len(f"{rows[0][1]:,}"), rows[most:]
    text = "".join(f"  {count:{wide},}  {said} (--seed {seed})\n" for said, count, seed in rows[:most])
    if left:
        text += f"  and {len(left):,} more {what.format('s' * (len(left) > 1))}, in {many(sum(row[1] for row in left), 'run')}: --json has all\n"
    return text
