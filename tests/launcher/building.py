"""Cases of building: when it is done, by what, and how it is refused or stopped."""
from __future__ import annotations

import ast
import os
import shutil
import signal
import subprocess
import sys

from clones import Called, Clone, wait_for

EMPTY = b"taskenv log 2\ntotal 0\n"
ONCE = "building the program without its proof, once"


def case_first(room: str, home: str, program: str) -> bool:
    """the first call builds the program without its proof and says so, and the second one runs what was kept"""
    clone = Clone(room, home, program)
    first, second = clone.call("run"), clone.call("run")
    is_said = len(first.lines) == 1 and ONCE in first.notes and "--prove" in first.notes
    is_right = (first.output, second.output, second.notes) == (EMPTY, EMPTY, "")
    return is_said and is_right and clone.calls() == ["try --seconds 1 -- run"] and not clone.left()


def case_sources(room: str, home: str, program: str) -> bool:
    """only sources make it old, and only those that it is made of"""
    clone = Clone(room, home, program)
    clone.call("run")
    for file in ("README.md", "crates/taskenv/must-fail/x.edit", "crates/low/specs/Low.antt", "crates/beside/src/lib.rt"):
        clone.write(file, "changed")
    is_kept = ONCE not in clone.call("run").notes
    clone.write("crates/low/src/lib.rt", "changed")
    is_changed = ONCE in clone.call("run").notes
    clone.write("crates/low/src/lib.rt", "// low/src/lib.rt\n")
    return is_kept and is_changed and ONCE not in clone.call("run").notes and len(clone.kept()) == 2


def case_proved(room: str, home: str, program: str) -> bool:
    """--prove proves and builds; the proved program runs until a source is newer, and not with --unproved"""
    clone = Clone(room, home, program)
    alone, again, ran = clone.call("--prove"), clone.call("--prove"), clone.call("run")
    is_said = [
        "taskenv: proving the program, 2 crates: some 40 minutes on four processors, and 7 GB of disk",
        "taskenv: 1 of 2 crates proved after 0 min, some 0 min left",
    ] == alone.lines[:2] and again.lines == ["taskenv: the program is proved, and no source is newer"]
    is_proved = (alone.status, alone.output, ran.output, ran.notes) == (0, b"", EMPTY, "")
    clone.write("crates/low/README.md", "changed")
    is_kept = not clone.call("run").notes
    is_forced = ONCE in clone.call("--unproved", "run").notes
    clone.write("crates/low/specs/Low.antt", "changed")
    is_old = clone.call("run").output == EMPTY and len(clone.calls()) == 3
    is_anew = clone.call("--prove", "run").output == EMPTY and len(clone.calls()) == 5
    return is_said and is_proved and is_kept and is_forced and is_old and is_anew


def case_not_proved(room: str, home: str, program: str) -> bool:
    """a proof that fails is status 125, and leaves no program that counts as proved"""
    clone = Clone(room, home, program, "fails")
    proved = os.path.join(clone.folder, "crates/taskenv/out/taskenv")
    clone.write(proved, "half")
    called = clone.call("--prove", "run")
    return called.status == 125 and "crates/taskenv/out/build.log" in called.lines[-1] and not os.path.exists(proved)


def case_library(room: str, home: str, program: str) -> bool:
    """--library proves what C links, and writes one archive with its headers; it stands alone"""
    clone = Clone(room, home, program)
    clone.write("crates.txt", "low:\nlive_c staticlib: low\n")
    clone.write("clients/c/taskenv.h", "a header")
    made, named = clone.call("--library"), clone.call("--library", os.path.join(room, "made of it"))
    folders = os.path.join(clone.folder, "out/library"), os.path.join(room, "made of it")
    are_there = all(sorted(os.listdir(folder)) == ["libtaskenv.a", "taskenv.h"] for folder in folders)
    with open(os.path.join(folders[1], "libtaskenv.a"), encoding="utf-8") as it:
        is_whole = it.read() == "the environment\nthe heap\n"
    is_said = made.lines[0].startswith("taskenv: proving the library, 2 crates") and "libtaskenv.a needs no other archive" in named.lines[-1]
    refused = clone.call("--prove", "--library")
    is_alone = refused.status == 2 and "stands alone" in refused.lines[-1] and len(clone.calls()) == 4
    clone.does("fails")
    return (made.status, named.status) == (0, 0) and are_there and is_whole and is_said and is_alone and clone.call("--library").status == 125


def case_no_rt(room: str, home: str, program: str) -> bool:
    """where no rt is on the path it is status 125"""
    clone = Clone(room, home, program)
    environment = clone.environment(_path_of(room, "python3", "readlink", "sh"))
    return all(clone.call(word, env=environment).is_refused("no rt is on the path") for word in ("run", "--prove"))


def case_no_python(room: str, home: str, program: str) -> bool:
    """where no python3 is on the path it is status 125, and where it is too old"""
    clone = Clone(room, home, program)
    with open(os.path.join(clone.folder, "taskenv"), encoding="utf-8") as it:
        text = it.read()
    clone.write("taskenv", text.replace("/usr/bin/python3", "/usr/bin/no-python3"))
    without = clone.call("check", env=clone.environment(_path_of(room, "readlink", "sh")))
    old = os.path.join(room, "old")
    runs = "import runpy, sys; sys.version_info = (3, 7, 9); sys.argv = sys.argv[4:]; runpy.run_path(sys.argv[0], run_name='__main__')"
    clone.write(f"{old}/python3", f'#!/bin/sh\nexec "{sys.executable}" -c "{runs}" "$@"\n')
    os.chmod(f"{old}/python3", 0o755)
    too_old = clone.call("check", env=clone.environment(f"{old}:/usr/bin:/bin"))
    return without.is_refused("no python3") and too_old.is_refused("version 3.7", "3.8 or later")


def case_python(_room: str, home: str, _program: str) -> bool:
    """the launcher is written in the Python of version 3.8, and its first file in that of any"""
    for name in os.listdir(os.path.join(home, "launcher")):
        if name.endswith(".py"):
            with open(os.path.join(home, "launcher", name), encoding="utf-8") as it:
                tree = ast.parse(it.read(), feature_version=(3, 4) if name == "__main__.py" else (3, 8))
            if name == "__main__.py" and any(isinstance(it, ast.JoinedStr) for it in ast.walk(tree)):
                return False
    return True


def case_fails(room: str, home: str, program: str) -> bool:
    """a build that fails is status 125, and its log is named"""
    clone = Clone(room, home, program, "fails")
    called = clone.call("check")
    log = os.path.join(clone.folder, "out/unproved/build.log")
    with open(log, encoding="utf-8") as it:
        said = it.read()
    is_named = len(called.lines) == 2 and log in called.lines[1] and said == "error: there is no such name\n"
    return called.status == 125 and not called.output and is_named


def case_full(room: str, home: str, program: str) -> bool:
    """a full disk is status 125, as the toolchain meets it"""
    called = Clone(room, home, program, "full").call("check")
    return called.status == 125 and not called.output and "the disk is full" in called.lines[-1]


def case_full_indeed(room: str, home: str, program: str) -> bool:
    """a full disk is status 125, as the launcher meets it, where such a disk can be made"""
    clone = Clone(room, home, program)
    os.mkdir(os.path.join(clone.folder, "out"))
    full = _mounted(clone, "mount -t tmpfs -o size=4k,nr_inodes=4 none out", "check")
    return full is None or full.status == 125 and not full.output and "the disk is full" in full.lines[-1]


def case_unwritable(room: str, home: str, program: str) -> bool:
    """where the clone can't be written the program is kept in the cache folder"""
    clone = Clone(room, home, program)
    clone.write("out", "a file, and no folder")
    first, second = clone.call("run"), clone.call("run")
    is_kept = any(it.startswith("taskenv-") for it in os.listdir(os.path.join(clone.cache, "taskenv")))
    return ONCE in first.notes and (first.output, second.output, second.notes) == (EMPTY, EMPTY, "") and is_kept


def case_unwritable_indeed(room: str, home: str, program: str) -> bool:
    """the same on a file system that is read alone, where one can be made; and proving is refused there"""
    clone = Clone(room, home, program)
    read_alone = "mount --bind . . && cd . && mount -o remount,bind,ro ."
    first = _mounted(clone, read_alone, "run")
    proved = _mounted(clone, read_alone, "--prove")
    return first is None or first.output == EMPTY and not clone.kept() and proved.is_refused("Read-only file system", "can be written")


def case_nowhere(room: str, home: str, program: str) -> bool:
    """where the cache folder can't be written either it is status 125"""
    clone = Clone(room, home, program)
    clone.write("out", "a file, and no folder")
    clone.write(clone.cache, "a file, and no folder")
    return clone.call("check").is_refused(f"{clone.folder}/out/unproved", f"{clone.cache}/taskenv", "XDG_CACHE_HOME")


def case_stopped(room: str, home: str, program: str) -> bool:
    """a build that is stopped is status 130, leaves nothing that runs or counts as built, and the next call begins it anew"""
    clone = Clone(room, home, program, "slow")
    for word in "check", "--prove":
        for number, stop in (signal.SIGINT, os.killpg), (signal.SIGTERM, os.kill), (signal.SIGHUP, os.kill):
            process = clone.start(word)
            wait_for(lambda: len(clone.left()) >= 3)
            stop(process.pid, number)
            output, notes = process.communicate(timeout=20)
            is_stopped = process.returncode == 130 and not output and b"stopped" in notes.splitlines()[-1]
            if not is_stopped or clone.left() or clone.kept():
                return False
    clone.does("works")
    return clone.call("run").output == EMPTY and not clone.left()


def case_two(room: str, home: str, program: str) -> bool:
    """of two at once the second one waits for the first one's build, says so, and uses it"""
    clone = Clone(room, home, program, "held")
    first, second = _two(clone)
    clone.does("works")
    said = [it.communicate(timeout=30) for it in (first, second)]
    return [it for it, _ in said] == [EMPTY, EMPTY] and said[1][1] == b"" and len(clone.calls()) == 1


def case_two_killed(room: str, home: str, program: str) -> bool:
    """where the first of two is killed the second one ends what that left, and builds"""
    clone = Clone(room, home, program, "slow")
    first, second = _two(clone)
    clone.does("works")
    os.kill(first.pid, signal.SIGKILL)
    first.communicate()
    output, notes = second.communicate(timeout=30)
    return output == EMPTY and ONCE.encode() in notes and not clone.left() and len(clone.calls()) == 2


def case_other_kit(room: str, home: str, program: str) -> bool:
    """a kit that leaves no module builds at each call, and that is said"""
    clone = Clone(room, home, program, "other")
    judged = [clone.call("check", data=b"%%\nwrong\n") for _ in range(2)]
    refused = clone.call("check", "--json")
    clone.does("fails")
    failed = clone.call("check")
    is_said = all("at each call" in it.notes and "run=" not in it.notes for it in judged)
    is_right = all((it.status, it.output) == (1, b"illegal 1\n") for it in judged) and refused.status == 2
    return is_said and is_right and failed.status == 125 and "build.log" in failed.lines[-1] and len(clone.calls()) == 5


def case_tools(room: str, home: str, program: str) -> bool:
    """where the kit's compiler or linker fails it is status 125, nothing is kept, and the next call builds"""
    for tool in "toolchain/bin/clang", "bin/rattle-link":
        clone = Clone(room, home, program)
        file = os.path.join(clone.kit, tool)
        os.rename(file, f"{file} aside")
        clone.write(file, "#!/bin/sh\nexit 1\n")
        os.chmod(file, 0o755)
        failed = clone.call("check")
        is_named = failed.status == 125 and not failed.output and "build.log" in failed.lines[-1]
        is_kept = bool(clone.kept())
        os.replace(f"{file} aside", file)
        if not is_named or is_kept or clone.call("run").output != EMPTY:
            return False
    return True


def case_not_whole(room: str, home: str, program: str) -> bool:
    """a list of crates that is empty, or has no taskenv, is status 125, and nothing is built"""
    clone = Clone(room, home, program)
    for text in "", "low:\n":
        clone.write("crates.txt", text)
        if not all(clone.call(word).is_refused("crates.txt has no crate taskenv") for word in ("run", "--prove")):
            return False
    return not clone.calls()


def case_not_run(room: str, home: str, program: str) -> bool:
    """a program that can't be run is status 125, also where it is the loader that says so, by a status of its own"""
    clone = Clone(room, home, program)
    clone.call("run")
    file = os.path.join(clone.folder, "out/unproved", clone.kept()[0])
    clone.write(file, "no program")
    refused = clone.call("check")
    clone.write(file, "#!/bin/sh\nexit 1\n")
    return refused.is_refused(file, "remove it") and clone.call("check").is_refused(file, "remove it")


def case_bad_words(room: str, home: str, program: str) -> bool:
    """nothing is built for words that are refused, or ask for help"""
    clone = Clone(room, home, program)
    refused, missing, helped = clone.call("walk"), clone.call("run", "no such file"), clone.call("--help")
    is_right = refused.status == missing.status == 2 and refused.lines[0] == "bad words" and not refused.output + missing.output
    return is_right and helped.status == 0 and helped.output.startswith(b"usage: ") and not clone.calls()


def _two(clone: Clone) -> list[subprocess.Popen]:
    """Two launchers, of which the first one builds, and the second one waits for it and has said so."""
    first = clone.start("run")
    wait_for(clone.calls)
    second = clone.start("run")
    if b"waiting for it" not in second.stderr.readline():
        raise AssertionError("the second one does not wait")
    return [first, second]


def _path_of(room: str, *tools: str) -> str:
    """A folder with these tools alone, for the path."""
    folder = os.path.join(room, f"path of {len(tools)}")
    os.makedirs(folder)
    for tool in tools:
        os.symlink(sys.executable if tool == "python3" else shutil.which(tool), os.path.join(folder, tool))
    return folder


def _mounted(clone: Clone, mount: str, word: str) -> Called | None:
    """How a call ended where that is mounted, unseen by others, or None where the machine doesn't let us."""
    alone = ["unshare", "--mount", "--map-root-user", "sh", "-c"]
    try:
        is_allowed = subprocess.run([*alone, mount], cwd=clone.folder, capture_output=True).returncode == 0
    except OSError:
        is_allowed = False
    return clone.call(word, before=(*alone, f'{mount} && exec "$0" "$@"'), cwd=clone.folder) if is_allowed else None
