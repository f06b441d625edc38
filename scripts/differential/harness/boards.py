"""Boards: a device with one copy or two, bytes around them, and the configuration that names them."""

import shlex

from differential.harness.running import Case
from model.image import ERASED, Geometry
from model.program import WARNING, Answer

CONFIG = b"fw.config"
STRICT = [b"--shell", b"strict"]
DEVICE = b"device"
BEFORE, BETWEEN, AFTER = b"XXX", b"YY", b"ZZZZ"
# Two copies of 10 bytes, of which the first is current; the second after a save, and after one without variables; one that was never
# written
PAIR = Geometry(2, 10)
FIRST, SECOND = PAIR.image(7, b"a=b\0"), PAIR.image(7, b"\0")
SAVED, EMPTIED = PAIR.image(8, b"a=b\0"), PAIR.image(8, b"\0")
BLANK = ERASED * PAIR.size


def board(geometry, copies):
    """The files of a board with these copies."""
    places = [len(BEFORE), len(BEFORE) + geometry.size + len(BETWEEN)]
    lines = [b"%s %d %x\n" % (DEVICE, at, geometry.size) for at in places[: len(copies)]]
    return {DEVICE: BEFORE + BETWEEN.join(copies) + AFTER, CONFIG: b"".join(lines)}


def calls(text):
    """The arguments of each call in a text, in which ` / ` is between them."""
    return [[word.encode() for word in shlex.split(call)] for call in text.split(" / ")]


def arguments(tool, *words, order="little"):
    big_endian = [b"--big-endian"] if order == "big" else []
    return [tool, b"-c", CONFIG, *big_endian, *words]


def in_each_shell(words):
    """The words of a call by the board's shell, which is the usual one of `run` and `check`, and by the strict one; or only as they are if
    they name a shell."""
    return [words] if any(word.startswith(b"--shell") for word in words) else [words, [*STRICT, *words]]


def unwritten(name, form, given, output, *words, files=(), errors=b"", **rest):
    """A session over copies that were never written, which are left so."""
    files = board(form, [ERASED * form.size] * form.copies) | dict(files)
    wanted = Answer(int(errors != b""), output, WARNING + errors, files)
    return Case(name, arguments(b"session", *words), files, given, wanted=wanted, **rest)


def lines_of(variables):
    """Variables as they are printed."""
    return b"".join(name + b"=" + value + b"\n" for name, value in sorted(variables.items()))


def text_of(variables):
    """Variables as a text for import."""
    return b"".join(name + b"=" + value.replace(b"\\", b"\\\\").replace(b"\n", b"\\\n") + b"\n" for name, value in variables.items())
