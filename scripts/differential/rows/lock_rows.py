"""Locks: on the device and on the lock files, held by others, waited for and reported; and writers of several programs at once, of which
none loses what another one wrote."""

import contextlib
import fcntl
import functools
import os
import shutil
import subprocess
import threading
import time

from differential.faults.files import CAN_MOUNT, NOBODY
from differential.harness.boards import CONFIG, EMPTIED, FIRST, PAIR, SECOND, board
from differential.harness.running import Case, named
from differential.rows.client_rows import link_of
from differential.rows.other_tools import HAS_LIBUBOOTENV
from model.program import Answer, waiting_for

# A hold that is waited for in silence, and one that isn't
SHORT, LONG = 0.2, 3
FILES = board(PAIR, [FIRST, SECOND])
AFTER = board(PAIR, [FIRST, EMPTIED])
UNTRIED = []
if not CAN_MOUNT:
    UNTRIED.append("the usual lock files: no tmpfs can be mounted here")
if not HAS_LIBUBOOTENV:
    UNTRIED.append("writers of libubootenv at the same time: it is not installed (Debian: libubootenv-tool)")
if "TOOLS_ENV" not in os.environ:
    UNTRIED.append("writers of U-Boot's tools/env at the same time: TOOLS_ENV doesn't name its fw_printenv")


def held(path, how, seconds):
    """Another program has this lock on a file when the program begins, and for so long."""

    @contextlib.contextmanager
    def around(_runner):
        file = os.open(path, os.O_RDONLY)
        fcntl.flock(file, how)
        thread = threading.Timer(seconds, os.close, (file,))
        thread.start()
        yield {}
        thread.join()

    return around


def waits():
    """A lock on the device or on the lock file of `-l` is waited for, and after a second that is reported."""
    alone, shared = fcntl.LOCK_EX, fcntl.LOCK_SH
    of_device, of_file = waiting_for(b"device"), waiting_for(b"./fw_printenv.lock")
    lock = {b"fw_printenv.lock": b""}
    for name, path, how, seconds, words, errors in (
        (None, "device", alone, SHORT, [b"printenv", b"-c", CONFIG], b""),
        (None, "device", alone, LONG, [b"printenv", b"-c", CONFIG], of_device),
        (None, "device", shared, LONG, [b"printenv", b"-c", CONFIG], b""),
        (None, "device", shared, LONG, [b"setenv", b"-c", CONFIG, b"a"], of_device),
        (b"fw_printenv", "fw_printenv.lock", alone, LONG, [b"-c", CONFIG, b"-l", b"."], of_file),
        (b"fw_printenv", "fw_printenv.lock", shared, LONG, [b"-c", CONFIG, b"-l", b"."], b""),
        (b"fw_setenv", "fw_printenv.lock", shared, LONG, [b"-c", CONFIG, b"-l", b".", b"a"], of_file),
        (b"fw_setenv", "device", alone, LONG, [b"-c", CONFIG, b"-l", b"", b"a"], of_device),
    ):
        more, prefix = (lock, named(name)) if name else ({}, ())
        is_set = words[-1] == b"a"
        wanted = Answer(0, b"" if is_set else b"a=b\n", errors, (AFTER if is_set else FILES) | more)
        around = held(path, how, seconds)
        yield Case("a lock that is held", words, FILES | more, wanted=wanted, prefix=prefix, around=around, is_modelled=False)


# The usual lock files, in folders that only one call sees: what is done before, the call, its status and errors, and which of the two are
# there afterwards
RUN, VAR_LOCK = "/run/fw_printenv.lock", "/var/lock/fw_printenv.lock"
BEGIN = "mount -t tmpfs -o mode=755 tmpfs /run && mkdir -p /run/lock && { [ -L /var/lock ] || mount -t tmpfs tmpfs /var/lock; } && chmod 1777 /var/lock/ && { %s; }"
HELD = "{ flock %s sleep 4 & } && sleep 0.3"
CANNOT_LOCK = b"fwenv: cannot lock %s: permission denied\n"
SET, SHOW = [b"setenv", b"-c", CONFIG, b"a"], [b"printenv", b"-c", CONFIG]
CLIENT_SET, CLIENT_SHOW = [b"-c", CONFIG, b"a"], [b"-c", CONFIG]
USUAL = [
    ("true", b"fwenv", SET, 0, b"", [RUN, VAR_LOCK]),
    ("true", b"fwenv", SHOW, 0, b"", []),
    ("true", b"fwenv", [b"status", b"-c", CONFIG], 0, b"", []),
    ("true", b"fw_setenv", CLIENT_SET, 0, b"", [RUN, VAR_LOCK]),
    ("true", b"fw_printenv", CLIENT_SHOW, 0, b"", [RUN, VAR_LOCK]),
    ("true", b"fw_setenv", [*CLIENT_SET[:2], b"-l", b"/run", b"a"], 0, b"", [RUN]),
    ("true", b"fw_setenv", [*CLIENT_SET[:2], b"-l", b"", b"a"], 0, b"", []),
    ("mount -o remount,ro /run; mount -o remount,ro /var/lock 2>/dev/null; true", b"fw_setenv", CLIENT_SET, 0, b"", []),
    (f"touch {RUN} && ln -s {RUN} {VAR_LOCK}", b"fw_setenv", CLIENT_SET, 0, b"", [RUN, VAR_LOCK]),
    (f"touch {RUN} && ln {RUN} {VAR_LOCK}", b"fwenv", SET, 0, b"", [RUN, VAR_LOCK]),
    (f"mkfifo {RUN}", b"fwenv", SET, 0, b"", [RUN, VAR_LOCK]),
    (f"touch {RUN}; {HELD % RUN}", b"fwenv", SET, 0, waiting_for(RUN.encode()), [RUN, VAR_LOCK]),
    (f"touch {VAR_LOCK}; {HELD % VAR_LOCK}", b"fwenv", SHOW, 0, waiting_for(VAR_LOCK.encode()), [VAR_LOCK]),
    (f"touch {VAR_LOCK}; {HELD % VAR_LOCK}", b"fw_setenv", CLIENT_SET, 0, waiting_for(VAR_LOCK.encode()), [RUN, VAR_LOCK]),
    (f"touch {RUN}; {HELD % ('-s ' + RUN)}", b"fwenv", SET, 0, b"", [RUN, VAR_LOCK]),
]
if os.path.realpath("/var/lock") == "/run/lock":
    USUAL.append(("rmdir /run/lock", b"fw_setenv", CLIENT_SET, 0, b"", [RUN]))
    USUAL.append(("rmdir /run/lock", b"fwenv", SHOW, 0, b"", []))
# The same by a user to whom access can be denied
BY_NOBODY = [
    ("true", b"fwenv", SET, 0, b"", [VAR_LOCK]),
    ("true", b"fw_setenv", CLIENT_SET, 0, b"", [VAR_LOCK]),
    (f"touch {VAR_LOCK}; chmod 600 {VAR_LOCK}", b"fwenv", SET, 0, b"", [VAR_LOCK]),
    (f"touch {VAR_LOCK}; chmod 600 {VAR_LOCK}", b"fw_setenv", CLIENT_SET, 1, CANNOT_LOCK % VAR_LOCK.encode(), [VAR_LOCK]),
    (f"touch {VAR_LOCK}; chmod 600 {VAR_LOCK}", b"fw_printenv", CLIENT_SHOW, 1, CANNOT_LOCK % VAR_LOCK.encode(), [VAR_LOCK]),
    (f"touch {VAR_LOCK}; chmod 644 {VAR_LOCK}", b"fw_setenv", CLIENT_SET, 0, b"", [VAR_LOCK]),
]


def usual_files():
    if CAN_MOUNT:
        for each in USUAL:
            yield Case("the usual lock files", [], check=functools.partial(with_usual, (), *each), is_modelled=False)
        if shutil.which("setpriv"):
            for each in BY_NOBODY:
                yield Case("the usual lock files", [], check=functools.partial(with_usual, NOBODY, *each), is_modelled=False)


def with_usual(prefix, before, name, words, status, errors, there, runner):
    runner.put(FILES)
    for path in (b"device", CONFIG):
        os.chmod(path, 0o666)
    folder = os.getcwd()
    while folder not in ("/", "/dev/shm", "/tmp"):
        os.chmod(folder, 0o755)
        folder = os.path.dirname(folder)
    script = f'{BEGIN % before}; "$@"; echo "$? $(ls {RUN} {VAR_LOCK} 2>/dev/null)" >&2; kill $(jobs -p) 2>/dev/null'
    words = ["unshare", "-m", "timeout", "10", "bash", "-c", script, "bash", *prefix, "bash", "-c", 'exec -a "$0" "$@"', name, runner.program, *words]
    begun = time.monotonic()
    found = subprocess.run(words, capture_output=True)
    wanted = b"%s%d %s\n" % (errors, status, "\n".join(there).encode())
    left = runner.left()
    is_right = found.stderr == wanted and left == (AFTER if status == 0 and words[-1] == b"a" else FILES)
    return None if is_right else f"{before}: {name} {words[-4:]}: {found.stderr!r} in place of {wanted!r}, {time.monotonic() - begun:.1f} s"


# ---- writers of several programs at once


def writers():
    """What each of them says that it wrote is there afterwards."""
    others = []
    if HAS_LIBUBOOTENV:
        others.append((b"fw_setenv",))
    if "TOOLS_ENV" in os.environ:
        others.append(("bash", "-c", 'exec -a fw_setenv "$0" "$@"', os.environ["TOOLS_ENV"]))
    for other in others:
        for count in (1, 4):
            yield Case("writers of two programs", [], check=functools.partial(written_together, other, count), is_modelled=False)


def written_together(other, count, runner):
    """So many writers of the other program, and three times as many of this one by its three names, of 10 names each."""
    runner.put({b"device": bytes(8192), CONFIG: b"device 0 1000\ndevice 0x1000 1000\n"})
    subprocess.run([runner.program, b"setenv", b"-c", CONFIG, b"start", b"1"], capture_output=True, check=True)
    client = link_of(runner, b"fw_setenv")
    programs = [
        lambda name: [*other, b"-c", CONFIG, name, b"1"],
        lambda name: [runner.program, b"setenv", b"-c", CONFIG, name, b"1"],
        lambda name: [client, b"-c", CONFIG, name, b"1"],
        lambda name: [runner.program, b"run", b"-c", CONFIG, b"--write", b"-e", b"setenv %s 1; saveenv" % name],
    ]
    done = []

    def write(which, writer):
        for turn in range(10):
            name = b"n%d-%d-%d" % (which, writer, turn)
            if subprocess.run(programs[which](name), capture_output=True).returncode == 0:
                done.append(name)

    threads = [threading.Thread(target=write, args=(which, writer)) for which in range(4) for writer in range(count)]
    for thread in threads:
        thread.start()
    for thread in threads:
        thread.join()
    printed = subprocess.run([runner.program, b"printenv", b"-c", CONFIG], capture_output=True).stdout.split()
    runner.left()
    lost = [name for name in done if name + b"=1" not in printed]
    return None if not lost and len(done) == 40 * count else f"{len(done)} of {40 * count} writes ended with status 0, of which are lost {lost}"


def chunks():
    return [waits, usual_files, writers]
