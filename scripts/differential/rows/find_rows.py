"""Searches of dumps: each row is a dump that is put together by hand or at random, and what is printed of it."""

import random

from differential.harness.boards import calls
from differential.harness.running import Case
from model.dump import found_lines
from model.image import Geometry
from model.program import Answer

ONE, TWO = b"a=1\0", b"boot.cmd=run x\0z=\xfc 2\0"
NONE = b"# no environment in dump\n"
# Copies, a size, a byte order, a flag, the bytes of the area, and the comment that is printed
KINDS = [
    (1, 0x200, "little", 0, ONE, b"# good as a single image, 1 variables"),
    (1, 0x8000, "big", 0, TWO, b"# good as a single image with --big-endian, 2 variables"),
    (2, 0x7C00, "little", 255, TWO, b"# good as a copy with a flag, flag 255, 2 variables"),
    (2, 0x1F000, "big", 0, ONE, b"# good as a copy with a flag with --big-endian, flag 0, 1 variables"),
    (2, 0x40000, "little", 7, ONE, b"# good as a copy with a flag, flag 7, 1 variables"),
    (1, 0x80000, "little", 0, ONE, b"# good as a single image, 1 variables"),
    (1, 0x100000, "little", 0, TWO, b"# good as a single image, 2 variables"),
    (2, 0x1000, "little", 1, b"a=1\0b=2\0a=3\0c\0b=\0", b"# good as a copy with a flag, flag 1, 1 variables"),
]
# Sizes of no environment that is looked for
OTHER_SIZES = [0x100, 0x1FF, 0x201, 0x8200, 0x8800, 0x41000, 0x7F000, 0xFF000]
# Areas that don't begin with an entry
OTHER_AREAS = [b"\0a=1\0", b"=1\0a=1\0", b"a\0b=1\0", b"a b=1\0", b"\xe9=1\0", b"a=1\nb=2\0", b"a=\t\0", b"a\x7f=1\0"]
NOISE = random.Random(9).randbytes(2048)


def row(name, dump, output, status, words=(b"find", b"dump"), errors=b"", given=b""):
    files = {} if dump is None else {b"dump": dump}
    return Case(name, list(words), files, given, wanted=Answer(status, output, errors, files), seconds=5)


def kinds():
    for copies, size, order, flag, area, comment in KINDS:
        image = Geometry(copies, size, order).image(flag, area)
        for place in (0, 0x200, 0x600):
            for behind in (b"", NOISE[:99], NOISE):
                text = comment + b"\ndump 0x%x 0x%x\n" % (place, size)
                yield row("an environment", NOISE[:place] + image + behind, text, 0)
        yield row("standard input", None, comment + b"\n- 0x0 0x%x\n" % size, 0, [b"find", b"-"], given=image)


def nothing():
    image = Geometry(2, 0x400).image(3, ONE)
    for place in (1, 256, 511, 513):
        yield row("another place", NOISE[:place] + image, NONE, 1)
    for length in (0, 1, 511, 512, 0x3FF):
        yield row("cut off", image[:length], NONE, 1)
    for at in (0, 3, 5, 0x3FF):
        yield row("a wrong byte", image[:at] + bytes([image[at] ^ 4]) + image[at + 1 :], NONE, 1)
    yield row("another flag", image[:4] + b"\7" + image[5:], b"# good as a copy with a flag, flag 7, 1 variables\ndump 0x0 0x400\n", 0)
    for size in OTHER_SIZES:
        yield row("another size", Geometry(1, size).image(0, ONE), NONE, 1)
    for area in OTHER_AREAS:
        yield row("another front", Geometry(1, 0x200).image(0, area), NONE, 1)
    yield row("no end", Geometry(1, 0x200).image(0, b"a=".ljust(0x1FB, b"x") + b"\0"), NONE, 1)
    yield row("noise", random.Random(4).randbytes(1 << 18), NONE, 1)
    yield row("zeros", bytes(1 << 18), NONE, 1)
    yield row("no file", None, b"", 1, errors=b"fwenv: cannot read dump: no such file\n")
    for path, fault in ((b".", b"it is a directory"), (b"/dev/zero", b"it is longer than 1073741824 bytes")):
        case = row("no dump", None, b"", 1, [b"find", path], b"fwenv: cannot read " + path + b": " + fault + b"\n")
        case.is_modelled, case.seconds = False, 60
        yield case


def random_environment(numbers):
    """The geometry, flag, number of variables and bytes of one."""
    copies, size = numbers.choice((1, 2)), 512 * numbers.randint(1, 64)
    geometry = Geometry(copies, size, numbers.choice(("little", "big")))
    count, flag = numbers.randint(1, 9), numbers.randrange(256)
    area = b"".join(b"name%d=%s\0" % (at, b"value " * numbers.randint(0, 4) + b"=") for at in range(count))
    return geometry, flag * (copies == 2), count, geometry.image(flag, area)


def at_random():
    numbers = random.Random(69)
    for _ in range(60):
        dump, text = b"", b""
        for _ in range(numbers.randint(0, 6)):
            dump += numbers.randbytes(512 * numbers.randint(0, 40))
            geometry, flag, count, image = random_environment(numbers)
            text += found_lines(b"dump", len(dump), geometry, flag, count)
            dump += image
        dump += numbers.randbytes(numbers.randint(0, 5000))
        yield row("a dump at random", dump, text or NONE, 0 if text else 1)


def words():
    for given in calls("find / find dump dump / find -c x dump / find --big-endian dump / find --copy 1 dump"):
        yield row("wrong words of a search", b"", b"", 1, given, errors=None)
    [given] = calls("--big-endian find dump")
    yield row("each byte order is looked for", Geometry(1, 0x200).image(0, ONE), b"# good as a single image, 1 variables\ndump 0x0 0x200\n", 0, given)


def chunks():
    return [kinds, nothing, at_random, words]
