"""Refuses each request for memory, and each thread, of a run in turn: memory PROGRAM EXAMPLES

Of each command the requests are counted, and then the first, the second and so on up to the last is refused, one a run. It
prints what is not as it should be, and a last line that counts. The status is 0 where all is, and where no C compiler is found,
which it says: the requests are refused by requests.c, which is loaded into the program.
"""
import json
import os
import re
import shutil
import subprocess
import sys
import tempfile
from pathlib import Path

HERE = Path(__file__).parent
# The seconds that a run may take.
LIMIT = 30


class Memory:
    """The program, with the library that refuses."""

    def __init__(self, program, compiler, room):
        self.program = program
        self.library = f"{room}/requests.so"
        self.letters = f"{room}/letters"
        subprocess.run([compiler, "-O1", "-shared", "-fPIC", "-o", self.library, HERE / "requests.c", "-ldl"], check=True)

    def run(self, words, data, what="REFUSED", number=0):
        """The status, the output and the notes, where the request of this number is refused, and the letters of the requests."""
        settings = {"LD_PRELOAD": self.library, what: str(number), "REQUESTS": self.letters}
        ran = subprocess.run(
            [self.program, *words], input=data, capture_output=True, timeout=LIMIT, env={**os.environ, **settings}
        )
        return (ran.returncode, ran.stdout, ran.stderr), Path(self.letters).read_bytes().rstrip(b"\0").decode()

    def is_legal(self, script, output):
        """Whether the program, with all the memory that it wants, finds this the log of a run of the script."""
        judged = subprocess.run([self.program, "check"], input=script + b"%%\n" + output, capture_output=True, timeout=LIMIT)
        return judged.stdout == b"legal\n"


def text_of_json(log):
    """The text of a log, of which this is the JSON form."""
    return "".join(" ".join(map(str, entry)) + "\n" for entry in json.loads(log)).encode()


def outcome(memory, words, data, what, number):
    """6 where the program says that there was no memory and writes nothing else, - where it says so by its status alone, and 0
    where the run goes on and its log is legal, or another command comes to what it always comes to. It is empty where this run makes
    fewer requests: another log has another text in JSON."""
    told, letters = memory.run(words, data, what, number)
    if what == "REFUSED" and number > len(requests_in(letters)):
        return ""
    if told[:2] == (6, b""):
        return {b"no memory\n": "6", b"": "-"}.get(told[2], "?")
    if told[0] == 0 and words[0] == "run":
        log = text_of_json(told[1]) if "--json" in words else told[1]
        return "0" if memory.is_legal(data, log) else "?"
    return "0" if words[0] != "run" and told == memory.run(words, data)[0] else "?"


def requests_in(letters):
    """The requests for memory among the letters."""
    return re.sub("[sej]", "", letters)


def are_told(outcomes):
    """Whether each refusal is told. Of want of memory for the words or the buffer of the output, which come first, there is no
    note."""
    return re.fullmatch("-*6+", outcomes)


def complaint_about(letters, outcomes, words):
    """What is wrong with what was asked for and with what came of the refusals, if anything is."""
    if "w" in letters:
        return "a worker asks for memory"
    if words[0] != "run":
        return None if are_told(outcomes) else "not each refusal is told"
    parts = re.fullmatch("(.*e)([^j]*)(j.*)", letters)
    if not parts:
        return "no thread is started, or none is waited for"
    starts, run, behind = map(requests_in, parts.groups())
    if run:
        return "memory is asked for between the first entry and the last"
    if behind and "--json" not in words:
        return "the text of a log takes memory"
    told = outcomes[: len(starts)].rstrip("0")
    if not are_told(told) or "t" in starts[: len(told)]:
        return "not each refusal before the run is told, or that of a thread's start is"
    if (len(starts) - len(told)) % letters.count("s") or len(told) == len(starts):
        return "the threads don't ask for the same, or for nothing"
    return None if set(outcomes[len(starts) :]) <= {"6"} else "not each refusal after the run is told"


def commands(examples):
    """The commands that are tried, and the input of each."""
    for name in ("first_run.task", "page_load.task"):
        script = Path(examples, name).read_bytes()
        yield ["run"], script
        yield ["run", "--json"], script
        yield ["simulate"], script
        yield ["simulate", "--json"], script
        yield ["check"], script + b"%%\n0 0 idle\n"
    yield ["gen", "--size", "3"], b""


def outcomes(memory, words, data, what, count):
    """What comes of each refusal, one a run."""
    return "".join(outcome(memory, words, data, what, number) for number in range(1, count + 1))


def try_all(memory, examples):
    """Tries each command, and answers how many requests were refused and how many commands are not as they should be."""
    refused = failed = 0
    for words, data in commands(examples):
        _, letters = memory.run(words, data)
        count, threads = len(requests_in(letters)), letters.count("s")
        told = outcomes(memory, words, data, "REFUSED", count)
        wrong = complaint_about(letters, told, words) if count else "no request is seen"
        if set(outcomes(memory, words, data, "UNSTARTED", threads)) > {"0"}:
            wrong = "the refusal of a thread is told"
        refused += count + threads
        if wrong:
            failed += 1
            print(f"FAILED: {' '.join(words)}: {wrong}: of the requests {letters} came {told}", file=sys.stderr)
    return refused, failed


def main():
    program, examples = sys.argv[1:]
    compiler = shutil.which("cc") or shutil.which("clang") or shutil.which("gcc")
    if not compiler:
        print("memory: skipped, since there is no C compiler")
        return 0
    with tempfile.TemporaryDirectory() as room:
        refused, failed = try_all(Memory(program, compiler, room), examples)
    print(f"memory: {refused} requests for memory and threads were refused, {failed} commands failed")
    return 1 if failed else 0


sys.exit(main())
