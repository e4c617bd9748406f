"""The kinds of input that are tried. A case has lines, which may be cut down, and judges what the program makes of them."""
import re

import damage
import logs
import promises
from program import REASONS, Wrong
from scripts import spelled_anew, text_of

MARK = b"%%\n"
FAVOURS = ("driver", "workers", "none")
LEFT_OUT = ("--no-jobs", "--no-main", "--no-delays", "--no-scopes", "--no-shutdown")
BYTES = b" \t\r\n;#%-0123456789abc\x00\x80\xff"


def script_fault(told):
    """The line and the reason of a bad script."""
    line, reason = re.findall(rb"\d+", told.notes)
    return int(line), int(reason)


def want(told, status, output=b""):
    """Refuses another status than this, and other output."""
    if told.status != status or told.output != output:
        raise Wrong(f"not status {status}, {output}", f"status {told.status}, {told.output[:200]}, {told.notes}")


class Case:
    """Lines of a script, and the random choices of this input, which are the same each time it is judged."""

    def __init__(self, program, lines, choices):
        self.program = program
        self.lines = lines
        self.choices = choices

    def line(self, line):
        """How a line is shown."""
        return line

    def run_words(self, rng):
        """The words of a run, with or without a step, and the step."""
        step = rng.choice([None, 1, 7, 10**12])
        return (["run"] if step is None else ["run", "--step", str(step)]), step

    def run_good(self, words, lines):
        """The output of a run of a good script."""
        told = self.program.run(words, text_of(lines))
        if told.status == 3:
            line, reason = script_fault(told)
            raise Wrong(f"a good script is refused: reason {reason}: {lines[line - 1 : line]}", told.notes)
        if told.status != 0:
            raise Wrong(f"a good script ends with status {told.status}")
        return told.output


    def simulate_words(self, rng):
        """The words of a simulated run, with or without a step, and the step."""
        step = rng.choice([None, 1, 7, 10**12])
        words = ["simulate", "--seed", str(rng.randrange(2**64)), *rng.choice([[], ["--favour", rng.choice(FAVOURS)]])]
        return words + (["--step", str(step)] if step else rng.choice([[], ["--jump"]])), step

    def look_at(self, lines, entries, step):
        """Refuses a log that breaks a promise. With a step, the moments are its multiples, as far as a moment may go."""
        promises.look_at(lines, entries)
        moments = [int(entry[2]) for entry in entries if entry[1] == "tick"]
        if step and moments != [min(step * (place + 1), 2**62) for place in range(len(moments))]:
            raise Wrong("other moments than those of the step", moments)


class GoodScript(Case):
    """A run of a good script writes a log that is legal, in whatever spelling, and in JSON too."""

    def judge(self, lines):
        rng = self.choices()
        words, step = self.run_words(rng)
        script = text_of(lines)
        log = self.run_good(words, lines)
        self.look_at(lines, logs.entries_of(log), step)
        want(self.program.run(["check"], script + MARK + log), 0, b"legal\n")
        spelling = spelled_anew(rng, lines)
        entries = logs.entries_of_json(self.run_good(words + ["--json"], spelling))
        self.look_at(lines, entries, step)
        want(self.program.run(["check"], text_of(spelling) + MARK + logs.text_of(entries)), 0, b"legal\n")


class Simulated(Case):
    """A simulated run of a good script writes a log that is legal, and by the same seed the same one, in whatever spelling, and in JSON."""

    def judge(self, lines):
        rng = self.choices()
        words, step = self.simulate_words(rng)
        script = text_of(lines)
        log = self.run_good(words, lines)
        entries = logs.entries_of(log)
        self.look_at(lines, entries, step)
        want(self.program.run(["check"], script + MARK + log), 0, b"legal\n")
        spelling = spelled_anew(rng, lines)
        if self.run_good(words, spelling) != log or logs.entries_of_json(self.run_good(words + ["--json"], spelling)) != entries:
            raise Wrong("another log by the same seed", " ".join(words))


class EditedLog(Case):
    """A log with one edit is judged at the line that the edit made bad, or no earlier one. Where the explanation names an entry,
    the log goes on past that line with this one."""

    def judge(self, lines):
        rng = self.choices()
        log = self.run_good(rng.choice([["run"], self.simulate_words(rng)[0]]), lines)
        entries = logs.entries_of(log)
        busy = logs.busy_seats(entries)
        for edit in rng.sample(logs.EXACT + logs.EARLIEST, 5):
            places = [edit(rng, entries, place, busy) for place in range(len(entries))]
            places = [edited for edited in places if edited]
            if places:
                self.judge_edit(lines, edit, *rng.choice(places), rng.choice([1, 2]))
        if log:
            last = b"illegal %d\n" % log.count(b"\n")
            want(self.program.run(["check"], text_of(lines) + MARK + log[:-1]), 1, last)

    def judge_edit(self, lines, edit, edited, place, version):
        log = "".join(line + "\n" for line in (edited if version == 1 else logs.numbered(edited))).encode()
        told = self.program.run(["check"], text_of(lines) + MARK + log)
        found = int(told.output.split()[1]) if told.status == 1 else 0
        line = place + version
        if found < line or edit in logs.EXACT and found != line:
            raise Wrong(f"an edit is not found: {edit.__name__}", f"line {line}, {told.output}\n{log.decode()}")
        if found:
            self.judge_explanation(lines, log, told.output, edited, found - version)

    def judge_explanation(self, lines, log, verdict, edited, place):
        told = self.program.run(["explain"], text_of(lines) + MARK + log)
        first, reason, *facts = told.output.splitlines(keepends=True)
        before = edited[:place]
        if first != verdict or len(reason) > 256 or len(facts) > 10:
            raise Wrong("another verdict, or a long explanation", f"{verdict}, {told.output}")
        for fact in facts:
            self.judge_fact(lines, edited, place, fact.decode())
        if reason.startswith(b"the pool is not idle") and reason.endswith(b"taken\n") and len(facts) < 8 and not any(b" taken by: " in it for it in facts):
            raise Wrong("no seat is named that may take", told.output)
        named = re.search(rb": (\d+ \d+ [a-z].*\n)$", reason)
        if named and not reason.startswith(b"line "):
            begun = "".join(line + "\n" for line in before).encode() + named[1]
            want(self.program.run(["check", "--prefix"], text_of(lines) + MARK + begun), 0, b"legal\n")


    def judge_fact(self, lines, edited, place, fact):
        """An entry that is shown stands in the log, or may come in place of the bad one, where it says so; where it says that the bad
        one would have been allowed, it would."""
        words, _, shown = fact.rstrip("\n").rpartition(": ")
        if not re.fullmatch(r"\d+ \d+ [a-z].*", shown):
            return
        if words == "it may be taken by":
            begun = "".join(f"{line}\n" for line in [*edited[:place], shown])
            want(self.program.run(["check", "--prefix"], text_of(lines) + MARK + begun.encode()), 0, b"legal\n")
            return
        if shown not in edited:
            raise Wrong("an entry is shown that is none of the log", fact)
        other = edited.index(shown)
        moved = {"it would have been allowed before": edited[:other], "it would have been allowed after": edited[:place] + edited[place + 1 : other + 1]}
        if words in moved:
            begun = "".join(f"{n} {line.split(' ', 1)[1]}\n" for n, line in enumerate([*moved[words], edited[place]]))
            want(self.program.run(["check", "--prefix"], text_of(lines) + MARK + begun.encode()), 0, b"legal\n")


class OpenLog(Case):
    """The log of a simulated run is one of the open plan that its script declares, with one worker seat more, the guest's: up to the first
    entry of the driver after shutdown is done that is no post. What the guest posts next is accepted or refused, and not both. What the
    seats saw of it, with times, is arranged again. An edited log is illegal at the edit or later, or legal; where the explanation names an
    entry, the log goes on past that line with this one."""

    def judge(self, lines):
        rng = self.choices()
        plan, guest = logs.open_plan(lines)
        if guest > 64:
            return
        log = self.run_good(self.simulate_words(rng)[0], lines)
        entries = logs.entries_of(log)
        late = logs.late_entry(entries)
        expected = (0, b"legal\n") if late is None else (1, b"illegal %d\n" % (late + 2))
        want(self.program.run(["check", "--open"], plan + MARK + log), *expected)
        begun = entries[: rng.randint(0, len(entries) if late is None else late)]
        want(self.program.run(["check", "--open", "--prefix"], plan + MARK + logs.text_of(begun)), 0, b"legal\n")
        self.judge_guest(rng, plan, guest, begun)
        self.judge_events(rng, plan, begun)
        busy = logs.busy_seats(entries)
        for edit in rng.sample(logs.EXACT + logs.EARLIEST, 3):
            places = [edit(rng, entries, place, busy) for place in range(len(begun))]
            places = [edited for edited in places if edited]
            if places:
                edited, place = rng.choice(places)
                self.judge_edit(plan, edited, place if late is None else min(place, late))

    def judge_guest(self, rng, plan, guest, begun):
        """The guest posts a task that is left, and takes none."""
        declared = [line.split() for line in plan.decode().splitlines()]
        kept = {word for line in declared if line[0] == "task" for place, word in enumerate(line) if line[place - 1] in ("post", "main")}
        posted = {entry[2] for entry in begun if entry[1] in ("post", "main")}
        left = [line[1] for line in declared if line[0] == "task" and line[1] not in kept | posted]
        homes = [(word, line[1]) for line in declared for word, sort in (("post", "runner"), ("main", "queue")) if line[0] == sort]
        if left and homes:
            word, home = rng.choice(homes)
            posts = [[str(guest), word, rng.choice(left), home, rng.choice(["0", "7"]), reply] for reply in ("ok", "no")]
            told = [self.judged(plan, [*begun, post]) for post in posts]
            if sorted(told) != [0, 1]:
                raise Wrong("a post of the guest is both accepted and refused, or neither", f"{posts}, {told}")
        for entry in begun:
            if entry[1] in ("take", "jobtake") and self.judged(plan, [*begun, [str(guest), *entry[1:]]]) == 0:
                raise Wrong("the guest takes something", entry)

    def judge_events(self, rng, plan, begun):
        """The order of what the seats saw, each for itself, at such times."""
        timed = [(entry[0], f"[{10 * place} {10 * place + rng.randint(0, 15)}] {' '.join(entry)}\n") for place, entry in enumerate(begun)]
        events = "".join(event for _, event in sorted(timed, key=lambda it: it[0])).encode()
        told = self.program.run(["arrange", "--open", "--prefix"], plan + MARK + events)
        if told.status != 0 or sorted(logs.entries_of(told.output)) != sorted(begun):
            raise Wrong("the events of an open log are not arranged", f"{told.status}, {told.output[:200]}\n{events.decode()}")
        want(self.program.run(["check", "--open", "--prefix"], plan + MARK + told.output), 0, b"legal\n")

    def judged(self, plan, entries):
        return self.program.run(["check", "--open", "--prefix"], plan + MARK + logs.text_of(entries)).status

    def judge_edit(self, plan, edited, place):
        log = "".join(line + "\n" for line in edited).encode()
        told = self.program.run(["check", "--open"], plan + MARK + log)
        if told.status not in (0, 1) or told.status == 1 and int(told.output.split()[1]) < place + 1:
            raise Wrong("an open log is illegal before its edit", f"line {place + 1}, {told.output}\n{log.decode()}")
        if self.program.run(["trace", "--open"], plan + MARK + log).status != told.status:
            raise Wrong("another verdict of the trace of an open log", told.output)
        if told.status == 1:
            self.judge_explanation(plan, edited, told.output)

    def judge_explanation(self, plan, edited, verdict):
        log = "".join(line + "\n" for line in edited).encode()
        first, reason, *facts = self.program.run(["explain", "--open"], plan + MARK + log).output.splitlines(keepends=True)
        if first != verdict or len(reason) > 256 or len(facts) > 10:
            raise Wrong("another verdict on an open log, or a long explanation", f"{verdict}, {reason}")
        named = re.search(rb": (\d+ \d+ [a-z].*\n)$", reason)
        if named and not reason.startswith(b"line "):
            begun = "".join(line + "\n" for line in edited[: int(verdict.split()[1]) - 1]).encode() + named[1]
            want(self.program.run(["check", "--open", "--prefix"], plan + MARK + begun), 0, b"legal\n")


class DamagedScript(Case):
    """Of a script with one bad line, this line is told, with its reason. Its lines are numbered, to know the bad one."""

    def __init__(self, program, lines, choices):
        super().__init__(program, list(enumerate(lines)), choices)
        rng = choices()
        self.bad = rng.randrange(len(lines)) if lines else None
        self.damage = rng.choice(damage.KINDS)

    def line(self, line):
        return line[1]

    def judge(self, lines):
        rng = self.choices()
        place = next((place for place, (number, _) in enumerate(lines) if number == self.bad), None)
        lines = [line for _, line in lines]
        damaged = place is not None and self.damage(rng, lines, place)
        if not damaged or self.program.run(["run"], text_of(lines)).status != 0:
            return
        parts, offset, reason = damaged
        lines[place : place + 1] = parts
        told = self.program.run(rng.choice([["run"], ["check"], ["run", "--json"]]), text_of(lines))
        note = f"bad script: line {place + offset + 1}: reason {reason} {REASONS[reason - 1]}\n".encode()
        if told.status != 3 or told.notes != note:
            raise Wrong(f"{self.damage.__name__}: {parts}: not {note}", f"status {told.status}, {told.notes}")
        said = self.program.run(["lint"], text_of(lines))
        if said.status != 1 or not said.output.startswith(f"line {place + offset + 1}, word ".encode()):
            raise Wrong(f"{self.damage.__name__}: {parts}: another line of lint", f"status {said.status}, {said.output[:200]}")


class AnyBytes(Case):
    """Whatever bytes are broken: the first bad line is none before them, and what is a script still runs."""

    def judge(self, lines):
        rng = self.choices()
        good = text_of(lines)
        script = bytearray(good + rng.choice([b"", MARK, MARK + b"0 0 idle\n"]))
        first = len(good)
        for _ in range(rng.choice([1, 1, 3])):
            at, length = rng.randrange(len(script) + 1), rng.choice([0, 1, 1, 10])
            script[at : at + length] = bytes(rng.choices(BYTES, k=rng.choice([0, 1, 2])))
            first = min(first, at)
        words, _ = self.run_words(rng)
        told = self.program.run(words, bytes(script))
        if told.status == 0:
            told = self.program.run(["check"], bytes(script) + b"\n" + MARK + told.output)
            want(told, 0, b"legal\n")
        elif told.status != 3 or script_fault(told)[0] <= script[:first].count(b"\n"):
            raise Wrong("broken bytes", f"status {told.status}, {told.notes}, of {bytes(script)}")
        told = self.program.run(["check"], bytes(script))
        if told.status not in (0, 1, 3):
            raise Wrong(f"a check ends with status {told.status}")


class FullDevice(Case):
    """Where the output can't be written the status says so."""

    def judge(self, lines):
        rng = self.choices()
        words, _ = self.run_words(rng)
        words += rng.choice([[], ["--json"]])
        if self.run_good(words, lines):
            with open("/dev/full", "wb") as full:
                want(self.program.run(words, text_of(lines), full), 5)


class Words(Case):
    """Words are accepted or not, whatever the input is."""

    def judge(self, lines):
        rng = self.choices()
        mode = rng.choice(["gen", "bench", "run", "simulate"])
        options = [("--number", str(rng.randrange(2**64))), ("--size", str(rng.choice([1, 2, rng.randint(1, 300)])))]
        if mode == "bench":
            options.append(("--work", str(rng.choice([0, 1, 1000]))))
        if mode in ("run", "simulate"):
            options = [("--step", str(rng.randint(1, 10**12)))]
        if mode == "simulate":
            options += [("--seed", str(rng.randrange(2**64))), ("--favour", rng.choice(FAVOURS))]
        options = rng.sample(options, rng.randint(0, len(options)))
        words = [rng.choice([[name, value], [f"{name}={value}"]]) for name, value in options] + [[mode]]
        rng.shuffle(words)
        told = self.program.run(sum(words, []), text_of(lines))
        if told.status != 0:
            raise Wrong(f"good words: {words}", f"status {told.status}")
        if mode == "gen":
            self.run_good(["run"], told.output.decode().splitlines())
        bad = [["run"], ["--step", "0"], ["--size", "8193"], ["--help"], ["--fast"], [""], ["--number", "1x"], ["--favour", "all"]]
        bad = rng.choice([*bad, ["--seed", "-1"], ["--jump=1"], ["--shake", "0"], ["--work", "1000000001"], ["--seeds", "0..9"]])
        want(self.program.run(sum(words, bad), text_of(lines)), 2)


KINDS = [GoodScript] * 4 + [Simulated] * 3 + [EditedLog] * 3 + [OpenLog] * 3 + [DamagedScript] * 3 + [AnyBytes] * 2 + [FullDevice, Words]
