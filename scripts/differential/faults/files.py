"""Files that are faulty, that may not be read or written, that are cut while the program runs, and full file systems. Each row looks
at every byte of the device afterwards."""

import contextlib
import fcntl
import functools
import os
import shutil
import subprocess
import threading

from differential.faults.streams import MILLION, at, device, over_copies, read_by, row
from differential.harness.boards import EMPTIED, FIRST, SECOND
from differential.harness.running import Case
from model.program import CANNOT_READ, CANNOT_WRITE, CANNOT_WRITE_OUTPUT, CHANGED, DENIED, NO_SPACE, NO_SUCH_FILE, Answer, explained

# Configurations: a name, their text, and the message, or None for the variables. The device has 33 bytes
ABSENT, SHORT = CANNOT_READ % b"absent", b"fwenv: device is too short\n"
CONFIGURED = [
    ("an empty configuration", b"", b"fwenv: fw.config: NoCopy\n"),
    (
        "a configuration in YAML",
        b"uboot:\n  size : 0x4000\n  devices: \r\n    - path : device\n",
        b"fwenv: fw.config is YAML: fwenv reads lines of DEVICE OFFSET SIZE\n",
    ),
    ("a colon in another place", b"# one:\n: 0x4000\n", b"fwenv: fw.config: NoCopy\n"),
    ("a colon that ends no line", b"a: 0x4000\n", b"fwenv: fw.config: NoCopy\n"),
    ("a copy beside a colon", b"uboot:\ndevice 7 a\ndevice 20 a\n", b""),
    ("a UBI volume", b"/dev/ubi0:env 0 a\n", b"fwenv: /dev/ubi0:env is a UBI volume by its name: fwenv reads files and block devices\n"),
    ("a size that no image has", b"# one\ndevice 0 7\n", b"fwenv: fw.config: Size in line 2\n"),
    ("sizes that differ", b"device 7 a\ndevice 20 b\n", b"fwenv: fw.config: Unequal\n"),
    ("places that share one byte", b"device 7 a\ndevice 16 a\n", b"fwenv: fw.config: Overlap\n"),
    ("places that share one byte, the later one first", b"device 16 a\ndevice 7 a\n", b"fwenv: fw.config: Overlap\n"),
    ("places that overlap from both ends", b"device 7 a\ndevice -22 a\n", b"fwenv: copies overlap\n"),
    ("the same copy from the end", b"device 7 a\ndevice -13 a\n", b""),
    ("a copy past the end", b"device 7 a\ndevice 24 a\n", SHORT),
    ("the first fault of two", b"absent 0 a\ndevice 24 a\n", ABSENT),
    ("the second device is not there", b"device 7 a\nabsent 0 a\n", ABSENT),
    ("a folder as the device", b"/ 0 a\n", CANNOT_READ % b"/"),
    ("a configuration of 16,777,217 bytes", bytes(2**24 + 1), CANNOT_READ % b"fw.config"),
    ("a configuration of 16,777,216 bytes", b"device 7 a\ndevice 20 a\n".ljust(2**24, b"\n"), b""),
]
CALLS = [
    ("a configuration that is not there", [b"printenv", b"-c", b"absent"], ABSENT),
    ("a configuration of a restore that is not there", [b"restore", b"-c", b"absent", b"absent-too"], explained(ABSENT, NO_SUCH_FILE)),
    ("a folder as the configuration", [b"printenv", b"-c", b"/"], CANNOT_READ % b"/"),
    ("the configuration first of all", [b"setenv", b"-c", b"absent", b"-s", b"absent-too", b"--default", b"absent-three"], ABSENT),
    ("the default text before the own file", [b"setenv", b"-c", b"fw.config", b"-s", b"absent-too", b"--default", b"absent"], ABSENT),
]
NOBODY = ("setpriv", "--reuid=65534", "--regid=65534", "--clear-groups")
PRINTENV, EXPORT = [b"printenv", b"-c", b"fw.config"], [b"export", b"-c", b"fw.config"]
SETENV, IMPORT = [b"setenv", b"-c", b"fw.config", b"a"], [b"import", b"-c", b"fw.config", b"../pipe"]
# Subcommands that report why
STATUS, RUN = [b"status", b"-c", b"fw.config"], [b"run", b"-c", b"fw.config", b"--write", b"-e", b"setenv a c; saveenv"]
UNTRIED = []
if os.getuid() == 0 and not shutil.which("setpriv"):
    UNTRIED.append("a device without the rights of root: setpriv is not installed (Debian: util-linux)")
CAN_MOUNT = os.getuid() == 0 and subprocess.run(["unshare", "-m", "mount", "-t", "tmpfs", "tmpfs", "/mnt"], capture_output=True).returncode == 0
if not CAN_MOUNT:
    UNTRIED.append("a device on a full file system: no tmpfs can be mounted here")


def faulty(name, arguments, errors, files=(), around=None):
    return row(name, arguments, b"", int(errors != b""), b"" if errors else b"a=b\n", errors, around, over_copies() | dict(files))


def faults():
    """Each fault of a file, and which of several comes first."""
    for name, arguments, errors in CALLS:
        yield faulty(name, arguments, errors)
    for name, text, errors in CONFIGURED:
        # (the model would take long for 16 MiB of lines)
        yield faulty(name, PRINTENV, errors, {b"fw.config": text}, as_it_is if len(text) > 2**20 else None)
    yield faulty("a pipe as the device", PRINTENV, CANNOT_READ % b"../pipe", {b"fw.config": b"../pipe 0 a\n"}, with_pipe)


# What is done around a run


def as_it_is(_runner):
    return contextlib.nullcontext({})


@contextlib.contextmanager
def with_pipe(_runner):
    """There is a pipe that nobody writes."""
    os.mkfifo("../pipe")
    yield {}
    os.unlink("../pipe")


@contextlib.contextmanager
def with_mode(mode, _runner):
    """The device has these rights, and each may go to its folder."""
    folder = os.getcwd()
    while os.stat(folder).st_uid == os.getuid() and folder not in ("/", "/dev/shm", "/tmp"):
        os.chmod(folder, 0o755)
        folder = os.path.dirname(folder)
    os.chmod("device", mode)
    yield {}
    os.chmod("device", 0o644)


@contextlib.contextmanager
def beside_another(runner):
    """The device may not be written, and the other one may."""
    os.chmod("other", 0o666)
    with with_mode(0o444, runner) as given:
        yield given


def through_pipe(*steps, given={}):
    """What is done as soon as the program opens a pipe: a step is a text that is written into it, or a function. `given` are
    other streams."""

    @contextlib.contextmanager
    def around(runner):
        os.mkfifo("../pipe")
        thread = threading.Thread(target=written, args=(steps, runner), daemon=True)
        thread.start()
        yield given
        # (the program may not have opened it)
        with contextlib.suppress(OSError):
            os.close(os.open("../pipe", os.O_RDONLY | os.O_NONBLOCK))
        thread.join()
        os.unlink("../pipe")

    return around


def written(steps, runner):
    with contextlib.suppress(BrokenPipeError), open("../pipe", "wb", 0) as pipe:
        for step in steps:
            if callable(step):
                step(runner)
            else:
                pipe.write(step)


def cut_to(length):
    return lambda _runner: os.truncate("device", length)


# The rows


def without_rights():
    """Files that may not be written or read, by a user to whom access can be denied, unlike root."""
    if os.getuid() == 0 and not shutil.which("setpriv"):
        return
    session = [b"session", b"-c", b"fw.config", b"--write"]
    for name, mode, words, given, output, text in (
        ("a device that may not be written", 0o444, SETENV, b"", b"", CANNOT_WRITE),
        ("a device that may not be read", 0o000, PRINTENV, b"", b"", CANNOT_READ),
        ("a device that may not be reported on", 0o000, STATUS, b"", b"", explained(CANNOT_READ, DENIED)),
        ("a run whose device may not be written", 0o444, RUN, b"", b"Saved copy 2\n", explained(CANNOT_WRITE, DENIED)),
        ("a session whose device may not be written", 0o444, session, b".save\n", b"Saved copy 2\n", CANNOT_WRITE),
    ):
        case = row(name, words, given, 1, output, text % b"device", functools.partial(with_mode, mode), over_copies())
        case.prefix = NOBODY if os.getuid() == 0 else ()
        yield case
    # both copies would change, and neither does
    files = {b"fw.config": b"other 0 a\ndevice 0 a\n", b"other": FIRST, b"device": SECOND}
    saved = b"Saved copy 2\nSaved copy 1\n"
    case = row("the second of two devices may not be written", session, b".save\n.save\n", 1, saved, CANNOT_WRITE % b"device", beside_another, files)
    case.prefix = NOBODY if os.getuid() == 0 else ()
    yield case


def outputs():
    """Standard output that can't be written."""
    for words in (PRINTENV, EXPORT):
        yield row("a full disk", words, b"", 1, b"", CANNOT_WRITE_OUTPUT, at(1, "/dev/full"), over_copies())
    million = {b"device": MILLION, b"fw.config": b"device 0 100000\n"}
    yield row("a pipe that nobody reads", PRINTENV, b"", 1, b"", CANNOT_WRITE_OUTPUT, functools.partial(read_by, 0), million)


@contextlib.contextmanager
def with_link(_runner):
    os.symlink("device", "link")
    yield {}


def links():
    files, left = {b"device": device(), b"fw.config": b"link 7 a\nlink 20 a\n"}, {b"device": device(second=EMPTIED), b"link": None}
    yield row("a device through a symbolic link", SETENV, b"", 0, b"", b"", with_link, files, left)


def cut_devices():
    """A device that is cut short after its copies were read: the pipe is opened then."""
    left, cannot = {b"device": device()[:25]}, CANNOT_WRITE % b"device"
    around = through_pipe(cut_to(25), b"a=c\n")
    yield row("a device that is cut before it is written", IMPORT, b"", 1, b"", cannot, around, over_copies(), left)
    words, around = [*RUN[:4], b"-f", b"../pipe"], through_pipe(cut_to(25), b"saveenv")
    yield row("a run whose device is cut", words, b"", 1, b"Saved copy 2\n", explained(cannot, CHANGED), around, over_copies(), left)
    yield Case("a session whose device is cut", [], check=cut_session, is_modelled=False)


def cut_session(runner):
    """Its first answer is printed when the device is cut."""
    runner.put(over_copies())
    words = [runner.program, b"session", b"-c", b"fw.config", b"--write"]
    with subprocess.Popen(words, stdin=subprocess.PIPE, stdout=subprocess.PIPE, stderr=subprocess.PIPE) as process:
        process.stdin.write(b".x\n")
        process.stdin.flush()
        first = process.stdout.read(10)
        os.truncate("device", 25)
        rest, errors = process.communicate(b".save\n")
    wanted = (1, b"[Unknown]\nSaved copy 2\n", CANNOT_WRITE % b"device", device()[:25])
    found = (process.returncode, first + rest, errors, runner.left()[b"device"])
    return None if found == wanted else f"{found} in place of {wanted}"


def write_at(place, text):
    def write(_runner):
        with open("device", "r+b", 0) as it:
            it.seek(place)
            it.write(text)

    return write


def other_writers():
    """What another program writes is kept: one that takes no lock, after the copies were read, and four that wait for each other."""
    around, left = through_pipe(write_at(7, b"x"), b"a=c\n"), {b"device": device()[:7] + b"x" + device()[8:]}
    yield row("a device that another program has written", IMPORT, b"", 1, b"", CANNOT_WRITE % b"device", around, over_copies(), left)
    for turn in range(20):
        yield Case("four writers at once", [], check=functools.partial(written_at_once, turn), is_modelled=False)


def locks():
    for words in (PRINTENV, SETENV):
        yield Case("the device of the first copy is locked", [], check=functools.partial(under_locks, words), is_modelled=False)


def under_locks(words, runner):
    """Another program's lock on the device of the second copy doesn't matter, and one on that of the first is waited for."""
    runner.put({b"first": FIRST, b"second": SECOND, b"fw.config": b"first 0 a\nsecond 0 a\n"})
    for name, is_waited_for in ((b"second", False), (b"first", True)):
        with open(name, "rb") as held:
            fcntl.flock(held, fcntl.LOCK_EX)
            process = subprocess.Popen([runner.program, *words], stdout=subprocess.DEVNULL)
            has_ended = ended_within(process, 0.5 if is_waited_for else 20)
        status = process.wait() if ended_within(process, 20) else process.kill()
        if has_ended == is_waited_for or status != 0:
            return f"a lock on the device of the {name.decode()} copy: ended {has_ended}, status {status}"
    runner.left()
    return None


def ended_within(process, seconds):
    with contextlib.suppress(subprocess.TimeoutExpired):
        process.wait(seconds)
    return process.returncode is not None


def written_at_once(turn, runner):
    """Four programs of 25 names each, one after the other, at the same time: every name is there afterwards."""
    runner.put({b"device": bytes(8192), b"fw.config": b"device 0 1000\ndevice 0x1000 1000\n"})
    failed = []

    def write(writer):
        for name in range(25):
            words = [runner.program, b"setenv", b"-c", b"fw.config", b"%s%d" % (writer, name), b"%d" % turn]
            if subprocess.run(words, capture_output=True).returncode:
                failed.append(words[-2])

    threads = [threading.Thread(target=write, args=(writer,)) for writer in (b"a", b"b", b"c", b"d")]
    for thread in threads:
        thread.start()
    for thread in threads:
        thread.join()
    left = subprocess.run([runner.program, *PRINTENV], capture_output=True).stdout.split()
    runner.left()
    wanted = sorted(b"%s%d=%d" % (writer, name, turn) for writer in (b"a", b"b", b"c", b"d") for name in range(25))
    return None if (sorted(left), failed) == (wanted, []) else f"{len(left)} of 100 variables, and failed were {failed}"


def full():
    if CAN_MOUNT:
        yield Case("a device on a full file system", [], check=on_full_system, is_modelled=False)


def on_full_system(runner):
    """The copy that was never written can't be, and the other one stays."""
    folder = os.path.abspath("../full")
    os.makedirs(folder, exist_ok=True)
    subprocess.run(["mount", "-t", "tmpfs", "-o", "size=16k", "tmpfs", folder], check=True)
    try:
        with open(f"{folder}/device", "wb") as it:
            it.truncate(12_288)
            it.write(FIRST)
        with contextlib.suppress(OSError), open(f"{folder}/rest", "wb", 0) as it:
            while it.write(bytes(4096)):
                pass
        files = {b"fw.config": f"{folder}/device 0 a\n{folder}/device 8192 a\n".encode()}
        errors = CANNOT_WRITE % f"{folder}/device".encode()
        found = runner.run(Case("", [*SETENV, b"c"], files))
        explaining = runner.run(Case("", RUN, files))
        with open(f"{folder}/device", "rb") as it:
            left = it.read()
    finally:
        subprocess.run(["umount", folder], check=True)
    is_right = found.is_as(Answer(1, b"", errors, files)) and left == FIRST.ljust(12_288, b"\0")
    is_right = is_right and explaining.is_as(Answer(1, b"Saved copy 2\n", explained(errors, NO_SPACE), files))
    return None if is_right else f"a device on a full file system: {found}, {explaining}, {left[:40]}"


def chunks():
    return [faults, without_rights, outputs, links, cut_devices, other_writers, locks, full]
