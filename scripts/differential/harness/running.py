"""Runs the program over cases and compares all that it leaves with what the model answers."""

import contextlib
import os
import signal
import stat
from dataclasses import dataclass, field

from model.program import Program

# The seconds of a processor within which a small case is answered, and how often it is tried that takes longer; the seconds
# after which a run is ended.
SECONDS, TRIES, WAITED = 0.25, 4, 120
# An emulator's time says nothing of the program's (scripts/arm.py sets this)
IS_EMULATED = "EMULATED" in os.environ

PROGRAM = ""


@dataclass
class Cut:
    """How a stream is cut (scripts/cut_streams.c): a descriptor or the path that is opened, perhaps not for the first time; the call
    is read, write or sync; it moves `step` bytes a call, or all, and after so many bytes, or syncs, it fails, ends, or pauses."""

    stream: object
    call: str
    after: object = None
    then: str = "fail"
    step: int = 0
    opening: int = 1

    def words(self):
        if isinstance(self.stream, int):
            found = {"CUT_FD": str(self.stream)}
        else:
            found = {"CUT_PATH": os.fsdecode(self.stream), "CUT_OPEN": str(self.opening)}
        found |= {"CUT_CALL": self.call, "CUT_STEP": str(self.step or ""), "CUT_THEN": self.then}
        return found | {"CUT_AFTER": "" if self.after is None else str(self.after)}


@dataclass
class Case:
    """A call: its arguments, the files by their names, standard input, and perhaps a stream that is cut, of which `moved` are the
    wanted calls and bytes. `wanted` is an answer that is given by hand, which the model has to have too if it is asked for the
    same, and `accepts` is used in its place if there are several.

    `prefix` is the start of a command that runs the program, `preload` is a library that is preloaded with the environment
    `variables`, and `around` makes of the runner what is done before the program and after it: as a context it gives other
    streams, a descriptor for each or None for one that is closed. With `check` that function of the runner is called in place
    of all this, and answers what is wrong, if anything is."""

    name: str
    arguments: list
    files: dict = field(default_factory=dict)
    given: bytes = b""
    cut: Cut = None
    moved: tuple = None
    wanted: object = None
    accepts: object = None
    is_modelled: bool = True
    seconds: float = SECONDS
    weight: int = 1
    prefix: tuple = ()
    preload: str = "cut"
    variables: dict = field(default_factory=dict)
    around: object = None
    check: object = None

    def fails(self):
        """Whether standard input fails after its bytes."""
        return self.cut is not None and self.cut.stream == 0 and self.cut.then == "fail" and self.cut.after is not None

    def answer(self):
        return Program(self.files, self.given, self.fails()).answer(self.arguments)

    def tells_on_model(self):
        """Whether the model has to have the answer that is given by hand: it doesn't model streams that are cut."""
        return self.wanted is not None and self.is_modelled and self.cut is None


@dataclass
class Found:
    """What the program left; `seconds` of a processor were taken."""

    status: int
    output: bytes
    errors: bytes
    files: dict
    seconds: float

    def is_as(self, answer):
        if answer.errors is None:
            is_said = self.errors is None or self.errors.startswith(b"error: ")
        else:
            is_said = self.errors == answer.errors
        return is_said and (self.status, self.output, self.files) == (answer.status, answer.output, answer.files)


class Runner:
    """Runs the program in a folder of its own, which is the current one. The streams are files outside of it."""

    def __init__(self, program, preloads, folder):
        self.program, self.preloads = program, preloads
        self.there = {}
        os.makedirs(folder + "/files")
        os.chdir(folder + "/files")
        self.moved = folder + "/moved"
        self.streams = [os.open(f"{folder}/{name}", os.O_RDWR | os.O_CREAT, 0o600) for name in ("in", "out", "err")]

    def put(self, files):
        for name, content in self.there.items():
            if content is None or name not in files:
                (os.rmdir if stat.S_ISDIR(os.lstat(name).st_mode) else os.unlink)(name)
        for name, content in files.items():
            if self.there.get(name) != content:
                with open(name, "wb") as file:
                    file.write(content)
        self.there = dict(files)

    def left(self):
        """The files as they are now; None for what is no file."""
        found = {}
        for name in os.listdir(b"."):
            found[name] = None
            if stat.S_ISREG(os.lstat(name).st_mode):
                with open(name, "rb", 0) as file:
                    found[name] = file.read()
        self.there = found
        return dict(found)

    def fill_streams(self, given):
        for stream, text in zip(self.streams, (given, b"", b"")):
            os.ftruncate(stream, 0)
            os.pwrite(stream, text, 0)
            os.lseek(stream, 0, os.SEEK_SET)

    def run(self, case):
        self.put(case.files)
        # (after a cut the input would go on)
        is_input = case.cut is not None and case.cut.stream == 0 and case.cut.after == len(case.given)
        self.fill_streams(case.given + b"\n.save\n" * is_input)
        words = [*case.prefix, self.program] if case.prefix else [b"fwenv"]
        with case.around(self) if case.around else contextlib.nullcontext({}) as given:
            moves = [move(given.get(at, stream), at) for at, stream in enumerate(self.streams)]
            process = os.posix_spawnp(
                case.prefix[0] if case.prefix else self.program,
                [*words, *case.arguments],
                self.environment(case),
                file_actions=moves,
                setsigdef=[signal.SIGPIPE],
            )
            signal.signal(signal.SIGALRM, lambda *_: os.kill(process, signal.SIGKILL))
            signal.alarm(WAITED)
            _, status, usage = os.wait4(process, 0)
            signal.alarm(0)
        output, errors = [os.pread(stream, os.fstat(stream).st_size, 0) for stream in self.streams[1:]]
        seconds = usage.ru_utime + usage.ru_stime
        return Found(os.waitstatus_to_exitcode(status), output, errors, self.left(), seconds)

    def environment(self, case):
        """The environment variables that cut a stream."""
        variables = {**os.environ, **case.variables}
        if case.cut is not None:
            variables |= {**case.cut.words(), "CUT_COUNT": self.moved}
        if case.cut is not None or case.variables:
            variables["LD_PRELOAD"] = f"{self.preloads}/{case.preload}.so"
        return variables

    def is_moved(self, case):
        """Whether the cut stream moved what it had to, in as many calls."""
        if case.moved is None:
            return True
        with open(self.moved) as file:
            return tuple(map(int, file.read().split())) == case.moved

    def failure(self, case, wanted):
        """What is wrong with a case, as a text; None if nothing is."""
        if case.check:
            return case.check(self)
        if case.tells_on_model() and not Found(**vars(case.wanted), seconds=0).is_as(wanted):
            return told(case, wanted, case.wanted).replace("found", "of the model")
        wanted = case.wanted or wanted
        for _ in range(TRIES):
            found = self.run(case)
            if not (case.accepts(found) if case.accepts else found.is_as(wanted)) or not self.is_moved(case):
                return told(case, found, wanted)
            if found.seconds <= case.seconds or IS_EMULATED:
                return None
        return f"{case.name}: {found.seconds} seconds of a processor\n  {shown(case.arguments)}"


def named(name):
    """The start of a command that runs the program under another name."""
    return ("bash", "-c", 'exec -a "$0" "$@"', name)


def move(stream, at):
    """What gives a process this stream, or closes it."""
    return (os.POSIX_SPAWN_CLOSE, at) if stream is None else (os.POSIX_SPAWN_DUP2, stream, at)


def shown(value):
    return f"{value!r:.900}"


def told(case, found, wanted):
    lines = [case.name, f"arguments {shown(case.arguments)}", f"input {shown(case.given)}, {case.cut}, {case.moved}"]
    for name in sorted(case.files):
        lines.append(f"file {name!r}: {shown(case.files[name])}")
    for part in ("status", "output", "errors"):
        if getattr(found, part) != getattr(wanted, part):
            lines += [f"found {part} {shown(getattr(found, part))}", f"wanted {part} {shown(getattr(wanted, part))}"]
    for name in sorted(found.files.keys() | wanted.files.keys()):
        if found.files.get(name) != wanted.files.get(name):
            lines += [f"found {name!r}: {shown(found.files.get(name))}", f"wanted {name!r}: {shown(wanted.files.get(name))}"]
    return "\n  ".join(lines)
