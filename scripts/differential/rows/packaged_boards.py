"""The environments of the boards in Debian's packages of U-Boot (scripts/uboot/packaged): each is imported, checked, and started as
by a board, with four kinds of hardware, next to the model. What hardware answers is a board file (docs/runs.md, "Board files")."""

import functools
import os
import pathlib
import re

from differential.harness.boards import ERASED, arguments, board, lines_of, text_of
from differential.harness.running import Case
from model.image import Geometry
from model.texts import BUILTINS

FOLDER = pathlib.Path(os.environ.get("PACKAGED_BOARDS", "/usr/local/lib/u-boot-boards"))
KEYWORDS = set(b"if then else elif fi for do done while until in".split())
# What loads a file or a script of the network, and what starts one
LOADS = re.compile(rb"\w*load|\w*boot[pd]?|dhcp|tftp\w*|nfs|pxe|sysboot|source")
BOOTS = re.compile(rb"boot[imz]?|bootefi|bootelf|bootvx|go|reset|sysboot|bootflow|pxe")
SIZE = 0x40000
WHOLE = Geometry(1, SIZE)
# A list of partitions is one word; what is loaded has a size
FOUND = b"part list * * -bootable * -> setenv ${5} 1 2\npart -> 0\n"
LOADED = b"%s -> setenv filesize 1c4a00\n"
UNTRIED = [] if FOLDER.is_dir() else ["the boards of Debian's packages: they are not there (scripts/uboot/packaged)"]


def status_of(name, fails, boots):
    return b"%s -> %s\n" % (name, b"1" if fails else b"boots" if boots else b"0")


def nothing_answers(name):
    return status_of(name, True, False)


def everything_does(name):
    return FOUND if name == b"part" else LOADED % name if name == b"load" else status_of(name, False, BOOTS.fullmatch(name))


def loads_fail(name):
    return FOUND if name == b"part" else status_of(name, LOADS.fullmatch(name), BOOTS.fullmatch(name))


def no_boot_succeeds(name):
    return FOUND if name == b"part" else LOADED % name if name == b"load" else status_of(name, BOOTS.fullmatch(name), False)


# What answers, and whether files are there
HARDWARE = {nothing_answers: b"1", everything_does: b"0", loads_fail: b"1", no_boot_succeeds: b"0"}


def read(path):
    """The variables of a board, and the commands that it has beside the builtins."""
    entries, _, names = path.read_bytes().partition(b"\0\n\n")
    # a board takes what is after a backslash as it is
    pairs = [re.sub(rb"\\(.)", rb"\1", entry, flags=re.S).partition(b"=")[::2] for entry in entries.split(b"\0")]
    variables = {name: value for name, value in pairs if value}
    return variables, set(names.split()) - BUILTINS - KEYWORDS


def of_board(path):
    variables, names = read(path)
    files = {b"env": text_of(variables)}
    copies = board(WHOLE, [ERASED * SIZE])
    yield Case(f"{path.name} imported", arguments(b"import", b"env"), copies | files, seconds=1)
    shown = [b"run", b"--env", b"env", b"--size=%x" % SIZE, b"-e", b"printenv"]
    case = Case(f"{path.name} printed", shown, files, seconds=1)
    assert case.answer().output == lines_of(variables), path
    yield case
    yield Case(f"{path.name} checked", [b"check", b"--env", b"env", b"--size=%x" % SIZE], files, seconds=1)
    starts = [name for name in (b"preboot", b"bootcmd", b"altbootcmd") if name in variables]
    for hardware, there in HARDWARE.items():
        rules = b"test -e -> %s\n" % there + b"".join(map(hardware, sorted(names)))
        for name in starts:
            words = [b"run", b"--env", b"env", b"--size=%x" % SIZE, b"--board", b"board", b"--steps=5000", name]
            yield Case(f"{path.name}: {name.decode()}, {hardware.__name__}", words, files | {b"board": rules}, seconds=1)


def chunks():
    return [functools.partial(of_board, path) for path in sorted(FOLDER.glob("*.*"))]
