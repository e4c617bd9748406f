"""What a call does, from its words to its exit status."""
from __future__ import annotations

import os
from collections.abc import Callable

import inputs
import programs
import running
import words
from programs import CannotBuild, Program
from running import Ran, say

NOT_LEGAL = 1
BAD_WORDS = 2
BAD_SCRIPT = 3
WRITE_FAULT = 5
NOT_BUILT = 125


def main(launcher: str, arguments: list[str], home: str) -> int:
    """Does what the arguments ask for, and returns the exit status."""
    running.hold_streams()
    running.take_signals()
    request = words.read(arguments, launcher, home)
    if request.answer is not None:
        return 0 if running.write(1, request.answer.encode()) else WRITE_FAULT
    try:
        return _answer(request, launcher, home)
    except CannotBuild as error:
        say(str(error))
        return NOT_BUILT
    except inputs.BadInput as error:
        say(str(error))
        return BAD_WORDS
    except OSError as error:
        say(f"nothing was run, since the repository is not whole: {error.filename}: {error.strerror}")
        return NOT_BUILT


def _answer(request: words.Request, launcher: str, home: str) -> int:
    if request.library is not None:
        return _library(request, home)
    is_alone = not request.words
    if request.prove and (is_alone or not request.fault):
        _building("prove", home)
        if is_alone:
            return 0
    program = programs.find(home, request.unproved)
    if request.fault and not program:
        # No one waits for a build whose program refuses its words.
        running.write(2, b"bad words\n")
        say(words.bad_words_line(request))
        return BAD_WORDS
    own = {"judge": _judge, "picture": _picture, "simulate": _seeds if "--seeds" in request.options else None}.get(request.mode)
    if own and not request.fault:
        program = program or _building("build", home, launcher)
        return _timed(request, own, program, request, launcher, home)
    given = inputs.Given(None) if request.fault else inputs.gather(request.files, _places(request))
    program = program or _building("build", home, launcher)
    ran = _run(program, request, given, home)
    if request.timed:
        _say_times(*ran.times)
    try:
        say(*_hints(program, request, given, ran))
    except Exception as error:
        # What is said behind a run changes nothing of it.
        say(f"no more can be said of it: {type(error).__name__}: {error}")
    return ran.status


def _library(request: words.Request, home: str) -> int:
    """Makes the library, which takes no program."""
    if request.fault:
        running.write(2, b"bad words\n")
        say(words.bad_words_line(request))
        return BAD_WORDS
    _building("library", home, request.library)
    return 0


def _judge(program: Program, request: words.Request, launcher: str, _home: str) -> int:
    """Has the mode judge done, which asks the program many times."""
    _see_that_it_works(program, "nothing is judged, since this kit leaves no program that could be kept, and each log would take minutes")
    import judging

    return judging.judge(request, program.file, launcher)


def _picture(program: Program, request: words.Request, _launcher: str, home: str) -> int:
    """Has the mode picture done. Where there is nothing to be drawn, it is what `check` says and answers."""
    _see_that_it_works(program, "nothing is drawn, since this kit leaves no program that could be kept, and it is asked more than once")
    import picture

    logs = inputs.gather_logs(request.files)
    by = ["--open"] if "--open" in request.options else []
    told = picture.stories(logs, lambda asked, data: running.ask([program.file, *asked, *by], data, 1))
    if not told:
        return _done_plainly(program, request, ["check", *by], logs[-1][1] if logs else None, home)
    import page

    is_written = running.write(1, page.page(told))
    return WRITE_FAULT if not is_written else int(any(story.faults for story in told))


def _seeds(program: Program, request: words.Request, _launcher: str, home: str) -> int:
    """Runs a script once for each seed of a range, and sums up what came. Where the first run fails, it is what that one says."""
    _see_that_it_works(program, "nothing is run, since this kit leaves no program that could be kept, and each seed would take minutes")
    import seeds

    data = inputs.gather(request.files, _places(request)).again()
    them = seeds.Seeds(program.file, request.options, data)
    if data is None or not them.first_is_run():
        return _done_plainly(program, request, them.words_of_first(), data, home)
    return them.done()


def _see_that_it_works(program: Program, why: str) -> None:
    """What a mode of the launcher's own needs; `why` says what it is not done for, where there is no program."""
    if not program.is_kept:
        raise CannotBuild(why)
    if not running.works(program.file):
        raise _not_run(program, "it is none for this machine")


def _timed(request: words.Request, do: Callable[..., int], *arguments: object) -> int:
    """Does a mode of the launcher's own, and says its time where that is asked for."""
    began = os.times()
    status = do(*arguments)
    if request.timed:
        times = [now - then for now, then in zip(os.times(), began)]
        _say_times(times[4], times[0] + times[2], times[1] + times[3])
    return status


def _done_plainly(program: Program, request: words.Request, asked: list[str], data: bytes | None, home: str) -> int:
    """Does what the program does by these words, of which the first is the mode, with these bytes, or with standard input."""
    plain, given = request._replace(mode=asked[0], words=asked), inputs.Given(data)
    ran = _run(program, plain, given, home)
    say(*_hints(program, plain, given, ran))
    return ran.status


def _say_times(clock: float, processors: float, system: float) -> None:
    say(f"{clock:.3f} s on the clock, {processors:.3f} s and {system:.3f} s (system) of the processors")


def _building(what: str, *arguments: str) -> Program | None:
    """Builds, which few calls do, and says so where that is stopped."""
    import building

    try:
        return getattr(building, what)(*arguments)
    except KeyboardInterrupt:
        say("stopped: nothing of the build is left, and the next call begins anew")
        raise


def _places(request: words.Request) -> list[str]:
    """What the mode reads, part by part."""
    if request.mode == "nest" or "--nest" in request.words:
        return ["NEST"]
    return list(words.files_of(request.mode, set(request.words)))


def _run(program: Program, request: words.Request, given: inputs.Given, home: str) -> Ran:
    """Runs the program. Where someone reads along, the log of a run is kept, to tell how it ended."""
    if not program.is_kept:
        return _building("run_by_try", home, request.words, given.data)
    is_watched = request.mode in ("run", "simulate", "reply") and os.isatty(2)
    try:
        ran = running.run([program.file, *request.words], given.data, is_watched)
    except OSError as error:
        raise _not_run(program, error.strerror)
    # The loader answers so, too, where the program was built for another machine.
    if ran.status in (1, 127) and not running.works(program.file):
        raise _not_run(program, "it is none for this machine")
    return ran


def _not_run(program: Program, why: str) -> CannotBuild:
    return CannotBuild(f"{program.file} can't be run ({why}): remove it, and the next call builds one")


def _hints(program: Program, request: words.Request, given: inputs.Given, ran: Ran) -> list[str]:
    """What is said behind a run."""
    if ran.status == BAD_WORDS:
        return [words.bad_words_line(request)]
    may_be_open = ran.status == NOT_LEGAL and "--open" in words.MODES[request.mode].options and "--open" not in request.words
    data = given.again() if (ran.status in (0, BAD_SCRIPT) or may_be_open) and program.is_kept else None
    if data is None:
        return []
    if may_be_open:
        return ["the script has no actions: what a process did is judged with --open"] if inputs.only_declares(data) else []
    if ran.status == BAD_SCRIPT:
        import faults

        def lint(options: list[str], text: bytes) -> tuple[int, bytes]:
            return running.ask([program.file, "lint", *options], text, 1)

        note = running.ask([program.file, *request.words], data, 2)[1].decode("ascii", "replace")
        return faults.lines(note, request.mode, bool(request.files), data, lint)
    if ran.log is not None:
        import ends

        return ends.lines(request.words, data, ran.log)
    return []
