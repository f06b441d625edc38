"""What isn't a file or is empty, pipes, raw flash, and files that change under the program. Each row looks at every byte of the device
afterwards."""

import contextlib
import os

from differential.faults.files import IMPORT, PRINTENV, SETENV, as_it_is, cut_to, through_pipe, write_at
from differential.faults.streams import SESSION, device, over_copies, row
from differential.harness.boards import BLANK, EMPTIED, SAVED, calls
from differential.harness.running import named
from model.program import CANNOT_READ, CANNOT_WRITE, CHANGED, DIRECTORY, LONGER, NO_SUCH_FILE, WARNING, explained, stopped_status

# Each option and argument that names a text
TEXTS = calls(
    "printenv -c / import -c fw.config / setenv -c fw.config -s / session -c fw.config --write --stubs / "
    "export -c fw.config --default / session -c fw.config --write --default"
)
# The same for subcommands that report why, and what they report of what isn't a file
EXPLAINED = calls(
    "status / status -c / restore -c fw.config / restore -c fw.config text --default / run -e true --env / run -e true --env-source / "
    "run -c fw.config -e true --stubs / run -c fw.config -f / check -c fw.config --stubs / check -f"
)
REASONS = [
    (b"/dev/zero", LONGER),
    (b"/dev/full", LONGER),
    (b"../folder", DIRECTORY),
    (b"absent", NO_SUCH_FILE),
    (b"../loop", b""),
    (b"device/inside", b""),
]


@contextlib.contextmanager
def with_odd_files(_runner):
    """A folder, and a link that leads to itself."""
    os.mkdir("../folder")
    os.symlink("loop", "../loop")
    yield {}
    os.rmdir("../folder")
    os.unlink("../loop")


def refused(name, words, errors, files=()):
    """Nothing is printed, and no byte changes."""
    return row(name, words, b".save\n", stopped_status(words), b"", errors, with_odd_files, over_copies() | dict(files))


def none():
    """What isn't a file, in the place of each text and device."""
    large = {b"large": b"\n" * (2**24 + 1)}
    for path, reason in REASONS:
        cannot, because = CANNOT_READ % path, explained(CANNOT_READ % path, reason)
        for words in TEXTS:
            yield refused(f"{path} after {words}", [*words, path], cannot)
        for words in EXPLAINED:
            yield refused(f"{path} after {words}", [*words, path], because, {b"text": b""})
        if path.startswith(b"/dev"):
            cannot = because = b"fwenv: %s is too short\n" % path
        for config in (b"%s 0 a\ndevice 20 a\n" % path, b"device 7 a\n%s 0 a\n" % path):
            yield refused(f"{path} as a device", PRINTENV, cannot, {b"fw.config": config})
            yield refused(f"{path} as a device", [b"status", *PRINTENV[1:]], because, {b"fw.config": config})
    for words in TEXTS:
        yield refused("16,777,217 newlines", [*words, b"large"], CANNOT_READ % b"large", large)
    for words in EXPLAINED[1:]:
        errors = explained(CANNOT_READ % b"large", LONGER)
        yield refused("16,777,217 newlines", [*words, b"large"], errors, large | {b"text": b""})


def empty():
    """An empty file in the place of each."""
    for path, files in ((b"/dev/null", {}), (b"empty", {b"empty": b""})):
        files = over_copies() | files
        yield row("an empty configuration", [b"printenv", b"-c", path], b"", 1, b"", b"fwenv: %s: NoCopy\n" % path, as_it_is, files)
        config = files | {b"fw.config": b"%s 0 a\n" % path}
        yield row("an empty device", PRINTENV, b"", 1, b"", b"fwenv: %s is too short\n" % path, as_it_is, config)
        yield row("an empty default text", [*TEXTS[4], path], b"", 0, b"a=b\n", b"", as_it_is, files)
        output = b"Unknown command 'mmc' - try 'help'\n[Finished 1 1]\n"
        yield row("empty stand-ins", [*TEXTS[3], path], b"mmc\n", 0, output, b"", as_it_is, files)
        for words in TEXTS[1:3]:
            yield row("an empty text", [*words, path], b"", 0, b"", b"", as_it_is, files, {b"device": device(second=SAVED)})


def forever(text):
    """The text again and again, until nobody reads it."""
    return text * 4096, lambda runner: write_on(text * 4096)


def write_on(text):
    with open("../pipe", "wb", 0) as pipe:
        while pipe.write(text):
            pass


# Pipes in the place of texts, which may end at once, or never: what is written, the call, its input, and what is printed
PIPED = [
    ("the configuration", [b"device 7 a\ndevice 20 a\n"], TEXTS[0], b"", (0, b"a=b\n", b"")),
    ("an empty configuration", [], TEXTS[0], b"", (1, b"", b"fwenv: ../pipe: NoCopy\n")),
    ("a configuration that never ends", forever(b"#\n"), TEXTS[0], b"", (1, b"", CANNOT_READ % b"../pipe")),
    ("a text for import that never ends", forever(b"a=b\n"), TEXTS[1], b"", (1, b"", CANNOT_READ % b"../pipe")),
    ("stand-ins", [b"mmc 7\n"], TEXTS[3], b"mmc\n", (0, b"+ mmc\n[Finished 7 1]\n", b"")),
]


def pipes():
    for name, steps, words, given, answer in PIPED:
        yield row(f"a pipe: {name}", [*words, b"../pipe"], given, *answer, through_pipe(*steps), over_copies())
    slow, left = through_pipe(b"a", b"=", b"b", b"\n", b"q", b"\n"), {b"device": device(second=SAVED)}
    yield row("a pipe that gives little at a time", IMPORT, b"", 0, b"", b"", slow, over_copies(), left)
    words, left = [*TEXTS[2], b"../pipe"], {b"device": device(second=EMPTIED)}
    yield row("a pipe as a set script", words, b"", 0, b"", b"", through_pipe(b"a\n"), over_copies(), left)
    words = [*PRINTENV, b"--default", b"../pipe"]
    yield row("a pipe as the default text", words, b"", 0, b"p=1\n", WARNING, through_pipe(b"p=1\n"), over_copies(BLANK, BLANK))


def raw_flash():
    """Raw flash, which would have to be erased first: it is read, and no byte of it is written."""
    cannot = CANNOT_WRITE % b"device"
    image = [b"image", b"--env", b"text", b"--size", b"0x40", b"--output", b"device"]
    for name, words, status, output, errors in (
        ("raw flash that is read", PRINTENV, 0, b"a=b\n", b""),
        ("raw flash that would be written", [*SETENV, b"c"], 1, b"", cannot),
        ("raw flash that a session would write", SESSION, 1, b"Saved copy 2\n", cannot),
        ("raw flash in the place of a new image", image, 1, b"", cannot),
    ):
        case = row(name, words, b".save\n", status, output, errors, as_it_is, over_copies() | {b"text": b"a=b\n"})
        case.preload, case.variables = "raw", {"RAW_PATH": "device"}
        yield case


def replaced(make=None, *words):
    """The device is gone, or something else is in its place."""

    def step(_runner):
        os.unlink("device")
        if make:
            make(*words, "device")

    return step


def appended(more):
    def step(_runner):
        with open("device", "ab") as it:
            it.write(more)

    return step


# What is done to the device between what is read and what is written: why it can't be written then, if it can't, and its bytes
# afterwards
ENDING = device(second=EMPTIED)
CHANGES = [
    ("is emptied", cut_to(0), CHANGED, b""),
    ("lacks a byte of a copy", cut_to(29), CHANGED, device()[:29]),
    ("ends with a copy", cut_to(30), None, ENDING[:30]),
    ("was written by another", write_at(7, b"0123456789"), CHANGED, device(b"0123456789")),
    ("was written by another in its second copy", write_at(21, b"x"), CHANGED, device()[:21] + b"x" + device()[22:]),
    ("is a folder now", replaced(os.mkdir), DIRECTORY, None),
    ("is a pipe now", replaced(os.mkfifo), b"", None),
    ("is /dev/full now", replaced(os.symlink, "/dev/full"), CHANGED, None),
    ("is /dev/zero now", replaced(os.symlink, "/dev/zero"), CHANGED, None),
    ("is /dev/null now", replaced(os.symlink, "/dev/null"), CHANGED, None),
]


def changed(name, step, reason, after, config=None, gone=None):
    """Each call that takes `a` away. Some report why they can't."""
    cannot = CANNOT_WRITE % b"device"
    because = explained(cannot, reason or b"")
    files = over_copies() | (config or {})
    left = {path: text for path, text in (files | {b"device": after}).items() if path != gone}
    for words, told, errors in (
        (IMPORT, b"fwenv", cannot),
        ([*SETENV, b"--default", b"../pipe"], b"fwenv", cannot),
        ([b"restore", *IMPORT[1:]], b"fwenv", because),
        ([*SETENV[1:-1], b"-l", b"", b"-s", b"../pipe"], b"fw_setenv", because),
    ):
        status, errors = (0, b"") if reason is None else (1, errors)
        case = row(name, words, b"", status, b"", errors, through_pipe(step, b"a=\n"), files)
        case.prefix = named(told)
        case.wanted.files = left
        yield case


def changes():
    for name, step, reason, after in CHANGES:
        yield from changed(f"a device that {name}", step, reason, after)
    current = over_copies(second=SAVED)
    after = current[b"device"][:21] + b"x" + current[b"device"][22:]
    yield from changed("a device whose second copy, which is current, was written by another", write_at(21, b"x"), CHANGED, after, current)
    yield from changed("a device that is gone", replaced(), NO_SUCH_FILE, None, gone=b"device")
    grown = {b"fw.config": b"device -26 a\ndevice -13 a\n"}
    # (its copies, which count from its end, are elsewhere then, even if they are the same there)
    for more in (b"more-bytes", device()[7:]):
        yield from changed("a device that has grown", appended(more), CHANGED, device() + more, grown)
    yield from changed("a configuration that is gone", lambda _runner: os.unlink("fw.config"), None, ENDING, gone=b"fw.config")
    cut, errors = through_pipe(cut_to(25), b"device 7 a\ndevice 20 a\n"), b"fwenv: device is too short\n"
    left = {b"device": device()[:25]}
    yield row("a device that is cut before it is read", [*TEXTS[0], b"../pipe"], b"", 1, b"", errors, cut, over_copies(), left)


def chunks():
    return [none, empty, pipes, raw_flash, changes]
