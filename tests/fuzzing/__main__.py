"""Tries a program with random input: fuzzing PROGRAM SEED COUNT [SECONDS]

Input 0 to COUNT - 1 of a seed are the same each time; after so many seconds no more are begun. It prints each input that fails,
cut down to the fewest lines that still fail so, and a last line that counts. The status is 0 where none failed.
"""
import random
import sys
import time

import cases
from program import Program, Wrong
from scripts import random_script

# The seconds that a run may take.
LIMIT = 10
# How often an input is tried before it is said to pass, while it is cut down: runs differ by what the threads do.
TRIES = 3
# For so many seconds an input is cut down.
PATIENCE = 120


def complaint_about(case, lines):
    """What is wrong with these lines of a case, if anything is."""
    try:
        case.judge(lines)
    except Wrong as wrong:
        return wrong
    except (LookupError, ValueError) as error:
        return Wrong("output of another form", repr(error))
    return None


def cut_down(case, wrong):
    """The fewest lines that still fail in the same way: ever smaller parts are left out, single lines as long as one can be."""

    def fails(lines):
        complaints = (complaint_about(case, lines) for _ in range(TRIES))
        return any(complaint and complaint.kind == wrong.kind for complaint in complaints)

    lines, size, end = case.lines, len(case.lines), time.monotonic() + PATIENCE
    while size:
        start, before = 0, len(lines)
        while start < len(lines) and time.monotonic() < end:
            rest = lines[:start] + lines[start + size :]
            if fails(rest):
                lines = rest
            else:
                start += size
        if size > 1 or len(lines) == before:
            size //= 2
    return lines


def script_of(program, rng):
    """A script of the whole language; one of four is a wide one of the program's own."""
    if rng.random() < 0.75:
        return random_script(rng)
    words = ["gen", "--wide", "--number", str(rng.randrange(2**64)), "--size", str(rng.choice([1, 4, 16, 64]))]
    return program.run(words + rng.sample(cases.LEFT_OUT, rng.choice([0, 0, 1, 2])), b"").output.decode().splitlines()


def case_of(program, seed, number):
    """The input of this number."""
    rng = random.Random(f"{seed} {number}")
    kind, lines, choices = rng.choice(cases.KINDS), script_of(program, rng), rng.random()
    return kind(program, lines, lambda: random.Random(choices))


def try_input(program, seed, number):
    """Tries the input of this number, and answers whether it is as it should be."""
    case = case_of(program, seed, number)
    wrong = complaint_about(case, case.lines)
    if not wrong:
        return True
    print(f"FAILED: input {number} of seed {seed}, {type(case).__name__}: {wrong}")
    for line in cut_down(case, wrong):
        print(f"    {case.line(line)}")
    return False


def main():
    path, seed, count, *seconds = sys.argv[1:]
    program, start, tried, failed = Program(path, LIMIT), time.monotonic(), 0, 0
    for number in range(int(count)):
        if seconds and time.monotonic() - start > float(seconds[0]):
            break
        tried += 1
        failed += not try_input(program, seed, number)
    print(f"seed {seed}: {tried} inputs in {program.runs} runs and {time.monotonic() - start:.0f} seconds, {failed} failed")
    return 1 if failed else 0


sys.exit(main())
