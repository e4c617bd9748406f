"""Builds the program: with its proof, by `rt`, or without it, of a copy of its sources, to be kept; and the library that C links.

`rt try` writes the whole program as one LLVM module, of which the kit's compiler and linker make the program. Where another kit
leaves no such file, or lacks one of these tools, an empty file is kept in its place, and `rt try` builds and runs the program at each
call."""
from __future__ import annotations

import glob
import os
import re
import shlex
import shutil

import programs
from programs import CannotBuild, Program
from running import Ran, say, works, write
from work import Work

# How many programs without a proof are kept, the newest ones.
KEPT = 8
# What a build takes on four processors: without a proof in seconds, with it in minutes.
SECONDS = 120
MINUTES = 40
LIBRARY_MINUTES = 20
ARCHIVE = "libtaskenv.a"
TARGET = "x86_64-unknown-linux-gnu"
# What is to be done where nothing can be written.
ELSEWHERE = "set XDG_CACHE_HOME to a folder that can be written"
COPIED = "call it in a copy of the repository that can be written"


def build(home: str, launcher: str) -> Program:
    """Builds the program without its proof, and keeps it."""
    rt = _rt()
    with Work(programs.folders(home), ELSEWHERE) as work:
        # Another launcher may have built it meanwhile.
        program = programs.find(home, True)
        if program:
            return program
        say(
            f"building the program without its proof, once, in some two minutes; {launcher} --prove proves all"
            f" and builds the proved program, in some {MINUTES} minutes on four processors"
        )
        sources = programs.sources(home)
        made = _make(work, rt, sources)
        program = Program(os.path.join(work.folder, programs.name_of(sources)), os.path.getsize(made) > 0)
        os.replace(made, program.file)
        _forget_old(work.folder)
        return program


def _make(work: Work, rt: str, sources: dict[str, bytes]) -> str:
    """Makes the program of these sources, or an empty file where the kit leaves nothing that could be kept."""
    work.begin(lambda: (0, f"building the program, {work.seconds():.0f} s of some {SECONDS}"))
    for path, text in sources.items():
        os.makedirs(os.path.dirname(work.path(path)), exist_ok=True)
        with open(work.path(path), "wb") as it:
            it.write(text)
    module, code, made = map(work.path, ("module.bc", "module.o", "taskenv"))
    seen: list[str] = []
    tried = work.call([rt, "try", "--seconds", "1", "--", "run"], work.path("crates/taskenv"), lambda: _takes_module(work, module, seen))
    # A module that came and went, while this machine did not get to look, says nothing of the kit either.
    if tried is not None and (seen or not work.said(rb"^run=ended status=0 ")):
        raise work.failure()
    kit = os.path.dirname(os.path.dirname(os.path.realpath(rt)))
    compiler, linker = f"{kit}/toolchain/bin/clang", f"{kit}/bin/rattle-link"
    compiling = [compiler, "-O2", "-c", "-x", "ir", module, "-o", code]
    linking = [linker, "--target", TARGET, "--toolchain", f"{kit}/toolchain", "-o", made]
    linking += [code, f"{kit}/c/libos_c.a", f"{kit}/c/liblibc_c.a"]
    if tried is not None or not all(os.access(tool, os.X_OK) for tool in (compiler, linker)):
        os.close(os.open(made, os.O_CREAT | os.O_TRUNC | os.O_WRONLY, 0o777))
    elif work.call(compiling) != 0 or work.call(linking) != 0 or not works(made):
        # That may pass, as a lack of memory does, so it says nothing of the kit.
        raise work.failure()
    return made


def _takes_module(work: Work, module: str, seen: list[str]) -> bool:
    """Takes the program's module, once it is whole: that is when the object file beside it has been begun. Notes where it was seen."""
    for folder, _, names in os.walk(work.path("tmp")):
        if "module.bc" in names and _has_main(os.path.join(folder, "module.bc")):
            seen.append(folder)
            if any(re.match(r"module-.*\.o", name) for name in names):
                shutil.copyfile(os.path.join(folder, "module.bc"), module)
                return True
    return False


def _has_main(module: str) -> bool:
    """Whether a module is the program's. Before it the kit compiles, in a blink, one of its own, which has no `main`."""
    try:
        with open(module, "rb") as it:
            return b"main" in it.read()
    except FileNotFoundError:
        return False


def _forget_old(folder: str) -> None:
    """Removes all but the newest programs."""
    kept = [os.path.join(folder, name) for name in os.listdir(folder) if name.startswith("taskenv-")]
    for file in sorted(kept, key=os.path.getmtime)[:-KEPT]:
        os.remove(file)


def run_by_try(home: str, words: list[str], data: bytes | None) -> Ran:
    """Runs the program by `rt try`, which builds it first. Where it has no status, it could not be built, or did not end."""
    say("this kit leaves no program that could be kept, so it is built without its proof at each call, in some two minutes")
    with Work(programs.folders(home), ELSEWHERE) as work:
        work.begin(None)
        stdin, before = None, os.times()
        if data is not None:
            stdin = open(work.path("input"), "w+b")
            stdin.write(data)
            stdin.seek(0)
        work.call([_rt(), "try", "--seconds", "600", "--", *words], os.path.join(home, "crates/taskenv"), streams=(stdin, None))
        times = [now - then for now, then in zip(os.times(), before)]
        ended = work.said(rb"^run=ended status=(\d+) ")
        if not ended:
            raise work.failure()
        write(2, re.sub(rb"(?m)^(checked: |races: |run=).*\n", b"", work.log()))
        return Ran(int(ended[1]), None, (times[4], times[2], times[3]))


def prove(home: str) -> None:
    """Proves all crates of the program, and builds it. It counts as being as old as the newest source was before."""
    rt, file, sizes = _rt(), programs.proved_file(home), programs.sizes(home)
    with Work([os.path.dirname(file)], COPIED) as work:
        if programs.is_proved(home):
            say("the program is proved, and no source is newer")
            return
        newest = programs.newest(home)
        say(f"proving the program, {len(sizes)} crates: some {MINUTES} minutes on four processors, and 7 GB of disk")
        work.begin(lambda: _proved_so_far(sizes, work))
        is_done = False
        try:
            for command in [rt, "all", "check", "--jobs", str(_lanes())], [rt, "run", "--", "run"]:
                if work.call(command, os.path.join(home, "crates/taskenv")) != 0:
                    raise work.failure()
            os.utime(file, ns=(newest, newest))
            is_done = True
        finally:
            # What was left half-way would count as built.
            if not is_done and os.path.exists(file):
                os.remove(file)


def library(home: str, folder: str) -> None:
    """Proves all that C and C++ link, and writes it to a folder: one archive that needs no other, and the headers."""
    rt, made, sizes = _rt(), os.path.join(home, "crates/live_c/out"), programs.sizes(home, "live_c")
    kit, folder = os.path.dirname(os.path.dirname(os.path.realpath(rt))), os.path.abspath(folder or os.path.join(home, "out/library"))
    with Work([made], COPIED) as work:
        say(f"proving the library, {len(sizes)} crates: some {LIBRARY_MINUTES} minutes on four processors, if none of them is proved yet")
        work.begin(lambda: _proved_so_far(sizes, work, LIBRARY_MINUTES))
        for command in [rt, "all", "check", "--jobs", str(_lanes())], [rt, "lib"]:
            if work.call(command, os.path.join(home, "crates/live_c")) != 0:
                raise work.failure()
        os.makedirs(folder, exist_ok=True)
        archive = os.path.join(folder, ARCHIVE)
        _merge(work, kit, [os.path.join(made, "liblive_c.a"), f"{kit}/c/liblibc_c.a"], archive)
        for header in glob.glob(os.path.join(glob.escape(home), "clients/*/*.h*")):
            shutil.copyfile(header, os.path.join(folder, os.path.basename(header)))
    say(f"{archive} needs no other archive: cc -I {shlex.quote(folder)} PROGRAM.c {shlex.quote(archive)}")


def _merge(work: Work, kit: str, archives: list[str], merged: str) -> None:
    """Makes one archive of some. It is there once it is whole."""
    # What the archiver is told has no room for signs that a path may have, so it works on links of plain names.
    for place, archive in enumerate(archives):
        os.symlink(archive, work.path(f"{place}.a"))
    with open(work.path("merge"), "w+", encoding="ascii") as told:
        told.write("create whole.a\n" + "".join(f"addlib {place}.a\n" for place in range(len(archives))) + "save\nend\n")
        told.seek(0)
        if work.call([f"{kit}/toolchain/bin/llvm-ar", "-M"], work.path("."), streams=(told, None)) != 0:
            raise work.failure()
    shutil.copyfile(work.path("whole.a"), merged + ".new")
    os.replace(merged + ".new", merged)


def _proved_so_far(sizes: dict[str, int], work: Work, all_minutes: int = MINUTES) -> tuple[int, str]:
    """How many crates are proved, and that in words. How long the rest takes is told from the sizes of their sources, and until a twentieth
    of them is proved from what all usually take."""
    done = sizes.keys() & set(re.findall(r"(?m)^== (\w+)$", work.log().decode("utf-8", "replace")))
    share = sum(sizes[crate] for crate in done) / sum(sizes.values())
    minutes = work.seconds() / 60
    left = minutes * (1 - share) / share if share > 0.05 else all_minutes * (1 - share)
    return len(done), f"{len(done)} of {len(sizes)} crates proved after {minutes:.0f} min, some {left:.0f} min left"


def _lanes() -> int:
    """How many crates are proved side by side: one for each processor, as long as there are 2 GB of memory for each."""
    with open("/proc/meminfo", encoding="ascii") as it:
        free = int(re.search(r"MemAvailable: *(\d+)", it.read())[1])
    return max(1, min(len(os.sched_getaffinity(0)), free // 2_000_000))


def _rt() -> str:
    rt = shutil.which("rt")
    if not rt:
        raise CannotBuild("the program is not built, and no rt is on the path to build it: put the toolchain's folder bin there")
    return rt
