"""Calls the launcher as a user does, and in the ways in which a program can't be built or started. With a built program as its word
it writes a line `ok NAME` or `FAILED NAME` for each case, and `all tried` at the end.

    python3 -B tests/launcher PROGRAM"""
from __future__ import annotations

import os
import sys
import tempfile

import building
import files
import judging
import pictures
import ranges
import streams

HOME = os.path.dirname(os.path.dirname(os.path.dirname(os.path.abspath(__file__))))


def main(program: str) -> None:
    """Tries all cases, each in a room of its own."""
    for module in building, files, judging, pictures, ranges, streams:
        for name, case in list(vars(module).items()):
            if name.startswith("case_"):
                with tempfile.TemporaryDirectory() as room:
                    try:
                        is_right = case(room, HOME, os.path.abspath(program))
                    except Exception as error:
                        print(f"{name}: {type(error).__name__}: {error}", file=sys.stderr)
                        is_right = False
                print("ok" if is_right else "FAILED", case.__doc__.splitlines()[0], flush=True)
    print("all tried")


main(sys.argv[1])
