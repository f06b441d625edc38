"""fw_printenv and fw_setenv by hand: the program called through links, what each call prints, and what it leaves."""

import functools
import os
import subprocess

from differential.faults.files import CAN_MOUNT
from differential.harness.boards import BLANK, CONFIG, EMPTIED, FIRST, PAIR, SECOND, board
from differential.harness.running import Case, named
from differential.rows.tool_rows import NO_ROOM_A
from model.arguments import NAME_AND_SCRIPT, NO_NAME, VERSION
from model.image import Geometry
from model.program import LOOK_AT, NO_GOOD_COPY, WARNING, Answer
from model.report import FAULTS

WRONG = FAULTS["BadCrc"]
NO_COPIES = NO_GOOD_COPY + WRONG + b" in the first copy, " + WRONG + b" in the second" + LOOK_AT
NO_NAMES = b"""error: the following required arguments were not provided:
  <NAMES>...

Usage: fw_printenv [OPTIONS] [NAMES]...

For more information, try '--help'.
"""
# Name and arguments, status, output, errors; the second copy afterwards (SECOND), and what is in the file `text`
OVER_GOOD_COPIES = [
    (b"fw_printenv", [], 0, b"a=b\n", b""),
    (b"fw_printenv", [b"a", b"a"], 0, b"a=b\na=b\n", b""),
    (b"fw_printenv", [b"-n", b"a"], 0, b"b\n", b""),
    (b"fw_printenv", [b"a", b"--noheader", b"a"], 0, b"b\nb\n", b""),
    (b"fw_printenv", [b"--no-header", b"q", b"a"], 1, b"b\n", b'## Error: "q" not defined\n'),
    (b"fw_printenv", [b"-n"], 1, b"", NO_NAMES),
    (b"fw_printenv", [b"-f", b"text"], 0, b"a=b\n", b"", SECOND, b"p=1\n"),
    (b"fw_printenv", [b"--defenv", b"absent"], 0, b"a=b\n", b""),
    (b"fw_printenv", [b"--defenv", b"/"], 0, b"a=b\n", b""),
    (b"fw_printenv", [b"-f", b"text"], 0, b"a=b\n", b"", SECOND, b"=x\n"),
    (b"fw_setenv", [b"-f", b"absent", b"a"], 0, b"", b"", EMPTIED),
    (b"fw_setenv", [b"-f", b"text", b"a"], 0, b"", b"", EMPTIED, b"p=%s\n" % (b"0" * 99)),
    (b"fw_setenv", [b"--overwrite", b"a"], 0, b"", b"", EMPTIED),
    (b"fw_printenv", [b"--overwrite"], 1, b"", None),
    (b"fw_setenv", [b"-s", b"absent"], 1, b"", b"fwenv: cannot read absent: no such file\n"),
    (b"fw_setenv", [b"a"], 0, b"", b"", EMPTIED),
    (b"fw_setenv", [b"a", b""], 0, b"", b"", EMPTIED),
    (b"fw_setenv", [b"a", b"b"], 0, b"", b""),
    (b"fw_setenv", [b"q"], 0, b"", b""),
    (b"fw_setenv", [b"a", b"bc"], 1, b"", NO_ROOM_A),
    (b"fw_setenv", [b"-s", b"text"], 0, b"", b"", EMPTIED, b"a c\na\n"),
    (b"fw_setenv", [b"--script=text"], 0, b"", b"", SECOND, b"# nothing\n"),
    (b"fw_setenv", [b"-s", b"-"], 0, b"", b"", EMPTIED, b"a=\n"),
    (b"fw_setenv", [b"a", b"-x"], 1, b"", None),
    (b"fw_setenv", [], 1, b"", NO_NAME % (b"--script", b"fw_setenv")),
    (b"fw_setenv", [b"-s", b"text", b"a"], 1, b"", NAME_AND_SCRIPT % (b"--script", b"fw_setenv"), SECOND, b"a c\n"),
    (b"fw_printenv", [b"-a", b"key"], 1, b"", None),
    (b"fw_printenv", [b"-m", b"name"], 1, b"", None),
    # the last of an option counts
    (b"fw_printenv", [b"-n", b"-n", b"a"], 0, b"b\n", b""),
    (b"fw_printenv", [b"a", b"--config", CONFIG, b"a"], 0, b"a=b\na=b\n", b""),
    (b"fw_printenv", [b"--config=absent"], 1, b"", b"fwenv: cannot read absent: no such file\n"),
    (b"fw_printenv", [b"-c", b"absent", b"-c", CONFIG, b"-l", b"absent", b"-l", b""], 0, b"a=b\n", b""),
    (b"fw_setenv", [b"-s", b"absent", b"--script", b"text"], 0, b"", b"", EMPTIED, b"a\n"),
]
# The same if no copy is good; the first copy afterwards
OVER_BLANK_COPIES = [
    (b"fw_printenv", [], 1, b"", NO_COPIES),
    (b"fw_setenv", [b"a", b"b"], 1, b"", NO_COPIES),
    (b"fw_setenv", [b"--overwrite", b"a", b"b"], 1, b"", NO_COPIES),
    (b"fw_printenv", [b"-f", b"absent"], 1, b"", WARNING + b"fwenv: cannot read absent: no such file\n"),
    (b"fw_printenv", [b"-f", b"/"], 1, b"", WARNING + b"fwenv: cannot read /: it is a directory\n"),
    (b"fw_setenv", [b"-f", b"text", b"a", b"b"], 1, b"", WARNING + b"fwenv: text: EmptyName in line 1\n", BLANK, b"=x\n"),
    (b"fw_printenv", [b"-f", b"text"], 0, b"p=\\\n", WARNING, BLANK, b"p=\\\n"),
    (b"fw_setenv", [b"-f", b"text", b"a", b"b"], 0, b"", WARNING, PAIR.image(1, b"a=b\0"), b"# nothing\n"),
    (b"fw_setenv", [b"-f", b"text", b"a", b"b"], 0, b"", WARNING, PAIR.image(1, b"a=b\0"), b"a=b\n"),
]
UNTRIED = [] if CAN_MOUNT else ["the usual default environment: no tmpfs can be mounted here"]
# Single images whose checksum is wrong
SINGLE = Geometry(1, 9)
BAD_SINGLES = [b"\xff" * 9, b"\x26\x39\xf4\xcb" + b"12345", SINGLE.image(0, b"a=b\0\0")[:4] + b"a=c\0\0"]


def row(name, words, files, status, output, errors, left=(), given=b""):
    """A call of the program under this name; some error of the library that reads arguments is None."""
    wanted = Answer(status, output, errors, files | dict(left))
    return Case("a name of another tool", words, files, given, wanted=wanted, prefix=named(name), is_modelled=False)


def over_pair(copies, side, name, words, status, output, errors, left=None, text=None):
    files = board(PAIR, copies) | ({} if text is None else {b"text": text})
    after = list(copies)
    after[side] = left or copies[side]
    return row(name, [b"-c", CONFIG, b"-l", b"", *words], files, status, output, errors, board(PAIR, after), text if b"-" in words else b"")


def over_pairs():
    for each in OVER_GOOD_COPIES:
        yield over_pair([FIRST, SECOND], 1, *each)
    for each in OVER_BLANK_COPIES:
        yield over_pair([BLANK, BLANK], 0, *each)


def over_singles():
    for image in BAD_SINGLES:
        yield row(b"fw_printenv", [b"--config", CONFIG, b"--lock", b""], board(SINGLE, [image]), 1, b"", NO_GOOD_COPY + WRONG + LOOK_AT)


def faults():
    for name, words in ((b"fw_printenv", [b"a"]), (b"fw_setenv", [b"a", b"c"])):
        yield row(name, [b"-c", b"absent", b"-l", b"", *words], {}, 1, b"", b"fwenv: cannot read absent: no such file\n")


def locks():
    """The lock file is made if need be, one that is there is used, and one that can't be opened ends the run."""
    files = board(PAIR, [FIRST, SECOND])
    for there in (b"", b"x"):
        lock = {b"fw_printenv.lock": there}
        yield row(b"fw_printenv", [b"-c", CONFIG, b"-l", b".", b"a"], files | (lock if there else {}), 0, b"a=b\n", b"", lock)
    errors = b"fwenv: cannot lock absent/fw_printenv.lock: no such file\n"
    yield row(b"fw_setenv", [b"-c", CONFIG, b"--lock", b"absent", b"a", b"c"], files, 1, b"", errors)


def names():
    """Help and version are those of the name; a name that isn't the whole last part is fwenv's."""
    for name in (b"fw_printenv", b"fw_setenv"):
        for word in (b"-V", b"-v", b"--version"):
            yield row(name, [word], {}, 0, VERSION.replace(b"fwenv", name), b"")
    files, words = board(PAIR, [FIRST, SECOND]), [b"-c", CONFIG, b"-l", b"", b"-n", b"a"]
    for name in (b"fw_printenv", b"./fw_printenv", b"/usr/bin/fw_printenv", b"x//fw_printenv"):
        yield row(name, words, files, 0, b"b\n", b"")
    for name in (b"", b"my_fw_printenv", b"fw_printenv/", b"fw_printenv2", b"fw_printenv/x", b"FW_PRINTENV"):
        yield row(name, words, files, 1, b"", None)


def through_links():
    """The name of a link to the program is its own."""
    for name, words in ((b"fw_printenv", []), (b"fw_setenv", [b"a", b"b"]), (b"my_fw_printenv", [])):
        yield Case("a link", [], check=functools.partial(through_link, name, words), is_modelled=False)


def through_link(name, words, runner):
    files = board(PAIR, [FIRST, SECOND])
    runner.put(files)
    found = subprocess.run([link_of(runner, name), b"-c", CONFIG, b"-l", b"", *words], capture_output=True)
    wanted = {b"fw_printenv": (0, b"a=b\n"), b"fw_setenv": (0, b"")}.get(name, (1, b""))
    is_right = (found.returncode, found.stdout) == wanted and runner.left() == files
    return None if is_right else f"{name}: {found} in place of {wanted}"


def link_of(runner, name):
    """A link of this name to the program."""
    link = b"../" + name
    if not os.path.lexists(link):
        os.symlink(runner.program, link)
    return link


def usual_environment():
    rows = [
        ([BLANK, BLANK], "p=\\\n", (0, b"p=\\\n", WARNING)),
        ([BLANK, BLANK], "=x\n", (1, b"", WARNING + b"fwenv: /etc/u-boot-initial-env: EmptyName in line 1\n")),
        ([FIRST, SECOND], "=x\n", (0, b"a=b\n", b"")),
    ]
    if CAN_MOUNT:
        for each in rows:
            yield Case("the usual default environment", [], check=functools.partial(with_usual_environment, *each), is_modelled=False)


def with_usual_environment(copies, text, wanted, runner):
    """Without `-f` it is that of /etc, over which a folder is mounted that only this call sees."""
    files = board(PAIR, copies)
    runner.put(files)
    script = 'mount -t tmpfs tmpfs /etc && printf %s "$0" > /etc/u-boot-initial-env && exec "$@"'
    words = ["unshare", "-m", "sh", "-c", script, text, link_of(runner, b"fw_printenv"), b"-c", CONFIG, b"-l", b""]
    found = subprocess.run(words, capture_output=True)
    is_right = (found.returncode, found.stdout, found.stderr) == wanted and runner.left() == files
    return None if is_right else f"the usual default environment: {found}"


def chunks():
    return [over_pairs, over_singles, faults, locks, names, through_links, usual_environment]
