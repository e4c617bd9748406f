"""The words of the command line: what they ask for, the help, and what is wrong with them."""
from __future__ import annotations

import os
from collections import namedtuple
from collections.abc import Iterable, Iterator

from guesses import nearest, plain_number

VERSION = "taskenv 1.0"

# An option takes a value of this name, which is a number of a range, one of some words, the name of a folder, or a range of seeds; or it
# is a flag and has none.
Option = namedtuple("Option", "value takes says")
SEED = (0, 2 ** 64 - 1)
OPTIONS = {
    "--step": Option("N", (1, 10 ** 12), "ticks read N, 2N, 3N and so on, in microseconds; without it the system's clock, from 0"),
    "--jump": Option(None, None, "each tick goes on to where something ripens, or a scope comes to count, as it does without --step"),
    "--json": Option(None, None, "writes JSON in place of text"),
    "--seed": Option("N", SEED, "what the turns of the seats are drawn from, by default 0"),
    "--favour": Option("WHO", ("driver", "workers", "none"), "whose turn it is 8 times as often, by default none"),
    "--seeds": Option("A..B", None, "runs it once for each seed from A to B, and writes what came how often"),
    "--shake": Option("N", (1, 10 ** 6), "threads pause up to N microseconds before what they do, so that they overlap"),
    "--prefix": Option(None, None, "a log is right too where the run isn't over"),
    "--open": Option(None, None, "the script only declares, and the log is what a process did with that environment"),
    "--replies": Option(None, None, "reads a script and replies"),
    "--nest": Option(None, None, "reads a nest script"),
    "--most": Option("N", (1, 10 ** 12), "how many steps the search takes at most, by default 10,000,000"),
    "--full": Option(None, None, "the events say all that the log and the script tell, with flows, marks and counters"),
    "--number": Option("N", (0, 2 ** 64 - 1), "what the script is made from, by default 0"),
    "--size": Option("N", (1, 8192), "how many tasks it has, by default 16"),
    "--wide": Option(None, None, "a script with everything that a script may have"),
    "--no-jobs": Option(None, None, "a wide script without jobs"),
    "--no-main": Option(None, None, "one without main queues"),
    "--no-delays": Option(None, None, "one without delays and ticks"),
    "--no-scopes": Option(None, None, "one whose tasks don't block"),
    "--no-shutdown": Option(None, None, "one without a shutdown"),
    "--work": Option("N", (0, 10 ** 9), "how many nanoseconds each task of the pool works, by default 0"),
    "--runs": Option("N", (1, 10 ** 6), "how often each script is played, by default 100"),
    "--jobs": Option("N", (1, 256), "how many runs go on at once, by default one for each processor"),
    "--timeout": Option("S", (1, 3600), "after so many seconds a run is stopped, by default 20"),
    "--keep": Option("DIR", None, "where the first failure of each cause is kept, by default judged"),
    "--logs": Option("DIR", None, "judges the logs of that folder, in place of a command's"),
    "--shrink": Option(None, None, "makes the script of the most frequent cause as short as it still fails"),
}
# What an option says at one mode alone.
SAYS = {
    ("run", "--seed"): "what the pauses are drawn from, by default 0; with --shake alone",
    ("simulate", "--step"): "ticks read N, 2N, 3N and so on, in microseconds",
    ("simulate", "--keep"): "the new folder in which each different log is kept; with --seeds alone",
    ("arrange", "--prefix"): "an order is right too where the run isn't over",
}
# Which options do not go together, and which of a mode goes with another one alone.
APART = (("--replies", "--nest"), ("--step", "--jump"), ("--seed", "--seeds"))
LEAVES_OUT = ("--no-jobs", "--no-main", "--no-delays", "--no-scopes", "--no-shutdown")
NEEDED = {("run", "--seed"): "--shake", ("simulate", "--keep"): "--seeds", **{("gen", option): "--wide" for option in LEAVES_OUT}}
# So many seeds are run at most.
MOST_SEEDS = 1_000_000
# What a number counts, where it is a time.
UNITS = {"--step": "microseconds", "--shake": "microseconds", "--work": "nanoseconds"}

# What the launcher alone takes, before the mode.
LAUNCHER = {
    "--prove": "proves all and builds the proved program, some 40 minutes on four processors",
    "--unproved": "runs the program that is built without a proof, also where the proved one is there",
    "--time": "writes the time of the mode to standard error",
}
# What it takes alone.
LIBRARY = "--library"
LIBRARY_SAYS = "proves what C and C++ link, and writes the archive and its headers to DIR, by default out/library; alone"
HELP = ("-h", "--help")
ASKS_VERSION = ("-V", "--version")

# The files that a mode may be given, its options, what it does, what its exit statuses say, and an example, in which {it} is the
# launcher and {at} the folder of the examples. The modes judge and picture are the launcher's own, and so is the option --seeds.
Mode = namedtuple("Mode", "files options says statuses example")
RUNS = "0 the script was run   3 the script is bad"
MAKES = "0 the script was made"
JUDGES = "0 the log is legal and whole   1 it is not   3 the script is bad"
REPLIED = r"runner 0 parallel user_visible skip\ntask 0 add 1\ntask 1 add 2\npost 1 0 0\nflush\n%%%%\nreply 1 0 runner 0\n"
MODES = {
    "run": Mode(("SCRIPT",), ("--step", "--json", "--shake", "--seed"), "reads a script, runs it, and writes the log of the run",
                RUNS, "{it} run {at}/first_run.task"),
    "simulate": Mode(("SCRIPT",), ("--seed", "--seeds", "--favour", "--step", "--jump", "--json", "--keep"),
                     "reads a script, runs it on one thread, on which the seats take turns by a seed, and writes the log",
                     RUNS, "{it} simulate --seeds 0..999 {at}/race.task"),
    "check": Mode(("SCRIPT", "LOG"), ("--open", "--prefix"), "reads a script and a log, and writes whether the rules allow that log",
                  JUDGES, "{it} check {at}/first_run.task {at}/first_run.log"),
    "explain": Mode(("SCRIPT", "LOG"), ("--json", "--open", "--prefix"), "reads a script and a log, and writes why a wrong log is wrong",
                    JUDGES, "sed 's/end 0 5/end 0 6/' {at}/first_run.log | {it} explain {at}/first_run.task -"),
    "arrange": Mode(("SCRIPT", "EVENTS"), ("--open", "--prefix", "--most"),
                    "reads a script and what each seat saw, and writes a log of it in an order that the rules allow",
                    "0 the log was written   1 there is no such order   3 the script or an event is bad   8 none was found so far",
                    "{it} arrange {at}/own_pool/one_runner.task {at}/own_pool/one_runner.events"),
    "judge": Mode(("SCRIPT..", "-- COMMAND.."), ("--runs", "--jobs", "--timeout", "--keep", "--json", "--shrink", "--logs", "--most"),
                  "plays scripts on another pool, again and again, and writes why its logs are wrong",
                  "0 each log is legal and whole   1 some log is not, or some run failed   2 nothing was judged",
                  "{it} judge --runs 20 {at}/own_pool/one_runner.task -- ./own_pool"),
    "trace": Mode(("SCRIPT", "LOG"), ("--full", "--open", "--prefix"), "reads a script and a log, and writes a right log as trace events",
                  JUDGES, "{it} trace {at}/first_run.task {at}/first_run.log"),
    "picture": Mode(("SCRIPT", "LOG", "[LOG]"), ("--open",), "reads a script and a log, or two, and writes a page that shows them",
                    JUDGES, "{it} picture {at}/scopes.task {at}/scopes.log > page.html"),
    "reply": Mode(("SCRIPT", "REPLIES"), (), "reads a script and replies, runs the script with them, and writes the log",
                  RUNS, f"printf '{REPLIED}' | {{it}} reply"),
    "nest": Mode(("SCRIPT",), (), "reads a nest script, runs it, and writes its log",
                 RUNS, "{it} nest {at}/nested.nest"),
    "lint": Mode(("SCRIPT",), ("--replies", "--nest"), "reads a script, and writes which word of it is bad, and why",
                 "0 it is a script   1 it is none", "echo 'worker 2' | {it} lint"),
    "gen": Mode((), ("--number", "--size", "--wide", *LEAVES_OUT), "makes a script from a number, and writes it",
                MAKES, "{it} gen --size 2"),
    "bench": Mode((), ("--number", "--size", "--work"), "makes the script that gen makes, runs it, and writes what its log adds up to",
                  MAKES, "{it} bench --size 2"),
}
# What is said of the words of the mode judge.
JUDGED = """Without SCRIPT it reads nothing; the word - is standard input. COMMAND reads the script from its standard input, and writes the
log to its standard output, or to the files that {script} and {log} stand for in it. In place of a log it may write what each seat
saw, as arrange reads it. With --logs there is no COMMAND: of one SCRIPT each file DIR/*.log is a log; of several, those are the
logs of NAME.task that are called NAME.log, or NAME, one of the signs . - _, and more up to .log.
"""
# Among so many names in a folder a near one is looked for.
MOST_LOOKED_AT = 1000
STATUSES = "2 bad words   4 read fault   5 write fault   6 no memory   7 too large   125 not built   130 the build was stopped"

# What the words ask for: a text to answer with, what they ask of the launcher, the folder of the library if it is asked for (empty where
# none is named), the mode if one is named, the words that the program gets, the files after the mode, what is wrong, if anything is, and
# of the mode judge its command and its options with their values.
# Where something is wrong the program gets all words, and refuses them.
Request = namedtuple("Request", "answer prove unproved timed library mode words files fault command options")

# A part of the command line: its sort, the words that it is, and of an option its name and its value, if it has one.
Part = namedtuple("Part", "sort words name value")


def read(arguments: list[str], launcher_name: str, home: str) -> Request:
    """What the arguments ask for."""
    parts = list(_parts_of(arguments))
    given = {part.name for part in parts if part.sort == "launcher"}
    mode = next((part.name for part in parts if part.sort == "mode" and part.name in MODES), None)
    fault = next(_faults_of(parts, mode), None)
    files = [] if fault else [part.name for part in parts if part.sort == "file"]
    kept = ("option", "mode", "end", "file" if fault else "")
    words = [word for part in parts if part.sort in kept for word in part.words]
    answer = _answer_to(parts, mode, launcher_name, home)
    command = [part.name for part in parts if part.sort == "command"]
    options = {part.name: part.value for part in parts if part.sort == "option"}
    library = next((part.value for part in parts if part.sort == "library"), None)
    return Request(answer, *(name in given for name in LAUNCHER), library, mode, words, files, fault, command, options)


def bad_words_line(request: Request) -> str:
    """What is said behind the program's `bad words`."""
    return request.fault or "--help shows the words"


def files_of(mode: str, options: Iterable[str]) -> tuple[str, ...]:
    """The files that a mode may be given with these options."""
    return MODES["reply" if "--replies" in options else mode].files


def _parts_of(arguments: list[str]) -> Iterator[Part]:
    """The arguments, cut as the program cuts them. After the word -- the mode judge has its command."""
    words, mode, has_ended = list(arguments), None, False
    while words:
        word = words.pop(0)
        if has_ended or not _is_option(word):
            sort = "mode" if mode is None else "command" if has_ended and mode == "judge" else "file"
            yield Part(sort, [word], word, None)
            mode = word if mode is None else mode
        elif word == "--":
            yield Part("end", [word], word, None)
            has_ended = True
        elif word in LAUNCHER and mode is None:
            yield Part("launcher", [word], word, None)
        elif word.partition("=")[0] == LIBRARY and mode is None:
            rest = [words.pop(0)] if word == LIBRARY and words and not _is_option(words[0]) else []
            yield Part("library", [word, *rest], LIBRARY, rest[0] if rest else word.partition("=")[2])
        else:
            name, equals, value = word.partition("=")
            is_apart = not equals and name in OPTIONS and OPTIONS[name].value and words and not _is_option(words[0])
            rest = [words.pop(0)] if is_apart else []
            yield Part("option", [word, *rest], name, rest[0] if rest else value if equals else None)


def _is_option(word: str) -> bool:
    """Whether the word is an option: no standard input, and no number below 0."""
    return word.startswith("-") and word != "-" and not word[1:].isdigit()


# ---- help


def _answer_to(parts: list[Part], mode: str | None, launcher_name: str, home: str) -> str | None:
    """The help or the version, where one is asked for."""
    asked = {part.words[0] for part in parts if part.sort == "option"}
    first, topic, *_ = *(part.name for part in parts if part.sort in ("mode", "file")), None, None
    if first == "help" and topic in (None, "help", *MODES):
        asked, mode = set(HELP), topic if topic in MODES else None
    if not parts or asked & set(HELP):
        places = {"it": launcher_name, "at": os.path.relpath(os.path.join(home, "examples"))}
        return _help_of(mode, places) if mode else _help(places)
    return _version(home) if asked & set(ASKS_VERSION) else None


def _version(home: str) -> str:
    """The version, with the revision where git knows it."""
    revision = ""
    if os.path.exists(os.path.join(home, ".git")):
        import subprocess

        try:
            revision = subprocess.run(["git", "-C", home, "rev-parse", "--short", "HEAD"], capture_output=True, text=True).stdout.strip()
        except OSError:
            pass
    return VERSION + (f" (revision {revision})\n" if revision else "\n")


def _with_value(option: str) -> str:
    return " ".join(filter(None, (option, OPTIONS[option].value)))


def _taken(option: str) -> str:
    """The numbers of its range, or its words."""
    takes = OPTIONS[option].takes
    return _any_of(takes) if isinstance(takes[0], str) else "{:,} to {:,}".format(*takes)


def _usage(name: str, is_short: bool = False) -> str:
    """`run [--step N] [--json] [SCRIPT]`"""
    options = ["OPTION.."] if is_short and len(MODES[name].options) > 2 else map(_with_value, MODES[name].options)
    files = " ".join(MODES[name].files)
    return " ".join([name, *(f"[{it}]" for it in options), *filter(None, [files if name == "judge" else files and f"[{files}]"])])


def _table(rows: Iterable[tuple[str, str]]) -> str:
    """Lines with two columns."""
    rows = list(rows)
    width = max(len(left) for left, _ in rows)
    return "".join(f"  {left:{width}}   {right}\n" for left, right in rows)


def _help_of(name: str, places: dict[str, str]) -> str:
    """The help of a mode."""
    mode = MODES[name]
    text = f"usage: {places['it']} {_usage(name)}\n\n{name} {mode.says}.\n"
    if name == "judge":
        text += JUDGED
    elif mode.files:
        text += f"Without {' and '.join(mode.files[:2])} it reads standard input"
        text += f", with a line %% between them, and with SCRIPT alone {mode.files[1]} is standard input" if mode.files[1:] else ""
        text += ". The word - is standard input too.\n"
    if mode.options:
        taken = {option: f"; {OPTIONS[option].value} is {_taken(option)}" if OPTIONS[option].takes else "" for option in mode.options}
        says = {option: SAYS.get((name, option), OPTIONS[option].says) + taken[option] for option in mode.options}
        text += "\nOptions\n" + _table((_with_value(option), said) for option, said in says.items())
    return text + f"\nExit statuses\n  {mode.statuses}\n  {STATUSES}\n\nExample\n  {mode.example.format(**places)}\n"


def _help(places: dict[str, str]) -> str:
    """The help of the launcher."""
    others = {"--version": "shows the version", "--help": "shows this; after a mode, what the mode does, with an example"}
    examples = "".join(f"  {MODES[name].example.format(**places)}\n" for name in ("run", "check", "explain"))
    return f"""usage: {places['it']} {' '.join(f'[{it}]' for it in LAUNCHER)} MODE [OPTION..] [FILE..]

Modes
{_table((_usage(name, True), mode.says) for name, mode in MODES.items())}
Words of the launcher, before the mode
{_table({**LAUNCHER, f"{LIBRARY} [DIR]": LIBRARY_SAYS, **others}.items())}
Exit statuses
  0 done   1 check, explain, trace, picture, judge: a log is wrong; arrange: there is no order; lint: the script is bad
  3 the script is bad   8 arrange: none was found so far
  {STATUSES}

Examples
{examples}
docs/formats.md has the script, the log and the rest.
"""


# ---- what is wrong


def _faults_of(parts: list[Part], mode: str | None) -> Iterator[str]:
    """What is wrong with the words, the first thing first."""
    if any(part.sort == "library" for part in parts):
        yield from (f"{LIBRARY} stands alone, so without {it}" for it in _words_beside_library(parts))
        return
    named = [part.name for part in parts if part.sort in ("mode", "file")]
    named = named[1:] if named[:1] == ["help"] else named
    if named and not mode:
        yield _fault_of_mode(named[0])
    seen: set[str] = set()
    for part in parts:
        if part.sort == "option":
            yield from _faults_of_option(part, mode, seen)
            seen.add(part.name)
    if not mode:
        yield f"a mode is missing: {_any_of(MODES)}"
    yield from (f"{one} and {other} do not go together" for one, other in APART if {one, other} <= seen)
    for (needing, option), needed in NEEDED.items():
        if needing == mode and option in seen and needed not in seen:
            yield f"{mode} takes {option} with {needed} alone" + (f": {_with_value(needed)}" if OPTIONS[needed].value else "")
    if mode == "judge":
        yield from _faults_of_judge(parts, named[1:], seen)
    else:
        yield from _faults_of_files(named[1:], mode, files_of(mode, seen))


def _words_beside_library(parts: list[Part]) -> list[str]:
    """All words but the first that asks for the library."""
    place = next(place for place, part in enumerate(parts) if part.sort == "library")
    return [part.words[0] for part in parts[:place] + parts[place + 1 :]]


def _faults_of_judge(parts: list[Part], scripts: list[str], seen: set[str]) -> Iterator[str]:
    """What is wrong with the scripts and the command of the mode judge, or with what stands in the command's place."""
    command = [part.name for part in parts if part.sort == "command"]
    played = [option for option in ("--runs", "--jobs", "--timeout", "--shrink") if option in seen]
    for part in parts:
        if part.name == "--logs" and not os.path.isdir(part.value):
            yield f"--logs {part.value}: " + ("that is no folder" if os.path.exists(part.value) else "no such folder")
    if not scripts:
        yield "a script is missing: judge SCRIPT.. -- COMMAND.."
    elif "--logs" in seen and command:
        yield f"--logs stands in place of a command, and one is given: {command[0]}"
    elif "--logs" in seen and played:
        yield f"with --logs nothing is run, so there is no {played[0]}"
    elif "--logs" not in seen and not command:
        yield "a command is missing: judge SCRIPT.. -- COMMAND.., or --logs DIR in its place"
    yield from _faults_of_files(scripts, "judge", ("SCRIPT",) * len(scripts))


def _any_of(names: Iterable[str], joined_by: str = "or") -> str:
    """`a, b or c`, or nothing."""
    names = list(names)
    return f" {joined_by} ".join(filter(None, [", ".join(names[:-1]), *names[-1:]]))


def _fault_of_mode(word: str) -> str:
    if os.path.isfile(word):
        return f"{word} is a file: a mode stands before it, {_any_of(MODES)}"
    near = nearest(word, [*MODES, *LAUNCHER, LIBRARY, HELP[-1], ASKS_VERSION[-1]])
    return f'"{word}" is no mode: ' + (f"did you mean {near}?" if near else _any_of(MODES))


def _taken_by(mode: str) -> str:
    """What options the mode takes."""
    return f"{mode} takes {_any_of(map(_with_value, MODES[mode].options), 'and') or 'no options'}"


def _faults_of_option(part: Part, mode: str | None, seen: set[str]) -> Iterator[str]:
    name, value, taken = part.name, part.value, MODES[mode].options if mode else OPTIONS
    if name in (*LAUNCHER, LIBRARY) and value is None:
        yield f"{name} stands before the mode: {name} {mode}"
    elif name not in (*OPTIONS, *LAUNCHER, LIBRARY, *HELP, *ASKS_VERSION):
        near = nearest(name, [*taken, *LAUNCHER, LIBRARY, HELP[-1], ASKS_VERSION[-1]])
        yield f"{name} is no option: " + (f"did you mean {near}?" if near else _taken_by(mode) if mode else "--help shows them")
    elif name in OPTIONS and name not in taken:
        yield f"{_taken_by(mode)}, and {'' if taken else 'so '}no {name}"
    elif name in seen:
        yield f"{name} stands twice"
    elif name == "--seeds":
        yield from _faults_of_seeds(value or "")
    elif name == "--seed" and mode == "simulate" and seeds_in(value or ""):
        yield f"--seed {value}: did you mean --seeds {value}?"
    elif name in OPTIONS and OPTIONS[name].takes:
        yield from (_faults_of_word if isinstance(OPTIONS[name].takes[0], str) else _faults_of_number)(name, value)
    elif name in OPTIONS and OPTIONS[name].value:
        if not value:
            yield f"{name} needs a folder"
        elif mode == "simulate" and os.path.lexists(value):
            yield f"{name} {value}: that is there already, and nothing is overwritten: name a new folder"
    elif value is not None:
        yield f"{name} takes no value"


def _faults_of_number(name: str, value: str | None) -> Iterator[str]:
    low, high = OPTIONS[name].takes
    number = plain_number(value or "", UNITS.get(name))
    if not value:
        yield f"{name} needs a number: {_taken(name)}"
    elif number is None or not low <= number <= high:
        yield f"{name} {value}: the number is {_taken(name)}" + ("" if value.isdigit() else ", in digits alone")
    elif value != str(number):
        yield f"{name} {value}: write {number}, in {UNITS[name] + ' and ' if name in UNITS else ''}digits alone"


def _faults_of_word(name: str, value: str | None) -> Iterator[str]:
    if not value:
        yield f"{name} needs a word: {_taken(name)}"
    elif value not in OPTIONS[name].takes:
        near = nearest(value, list(OPTIONS[name].takes))
        yield f"{name} {value}: " + (f"did you mean {near}?" if near else f"the word is {_taken(name)}")


def seeds_in(value: str) -> range | None:
    """The seeds of a range `A..B`, both ends included, which may be none, or more than there are."""
    first, parting, last = value.partition("..")
    is_range = all(it.isascii() and it.isdigit() for it in (first, last)) and parting
    return range(int(first), int(last) + 1) if is_range else None


def _faults_of_seeds(value: str) -> Iterator[str]:
    seeds = seeds_in(value)
    if not value:
        yield "--seeds needs a range of seeds: A..B, as 0..999"
    elif seeds is None:
        yield f"--seeds {value}: a range of seeds is A..B, as 0..999, in digits alone"
    elif max(seeds.start, seeds.stop - 1) > SEED[1]:
        yield f"--seeds {value}: a seed is {_taken('--seed')}"
    elif not seeds:
        yield f"--seeds {value}: that range is empty, since its first seed is above its last one"
    elif seeds.stop - seeds.start > MOST_SEEDS:
        yield f"--seeds {value}: those are {seeds.stop - seeds.start:,} seeds, and at most {MOST_SEEDS:,} are run"
    elif value != f"{seeds.start}..{seeds.stop - 1}":
        yield f"--seeds {value}: write {seeds.start}..{seeds.stop - 1}"


def _faults_of_files(files: list[str], mode: str, places: tuple[str, ...]) -> Iterator[str]:
    for file in files:
        if file != "-" and not os.path.isfile(file):
            yield from _faults_of_no_file(file, mode, places)
    if files and not places:
        yield f"{_taken_by(mode)}, and no file: {files[0]}"
    elif len(files) > len(places):
        yield f"{mode} takes {_any_of(places, 'and')}: {files[len(places)]} is one file too many"
    elif files.count("-") > 1:
        yield "- stands twice: standard input is read once"


def _faults_of_no_file(file: str, mode: str, places: tuple[str, ...]) -> Iterator[str]:
    """What a word behind the mode was meant to be that is no plain file; a pipe or a device may be one, too."""
    option = "--" + file.lower().partition("=")[0]
    if os.path.isdir(file):
        yield f"{file} is a folder, and no file"
    elif os.path.exists(file):
        return
    elif _is_option(file):
        yield f"after -- there are no options: {file}"
    elif option in MODES[mode].options:
        yield f"{file} is no file: did you mean {option}?"
    elif file in MODES:
        yield f"one mode at a time: {file} stands after {mode}"
    elif places:
        folder, name = os.path.split(file)
        near = nearest(name, os.listdir(folder or ".")[:MOST_LOOKED_AT]) if os.path.isdir(folder or ".") else None
        yield f"no such file: {file}" + (f"; did you mean {os.path.join(folder, near)}?" if near else "")
