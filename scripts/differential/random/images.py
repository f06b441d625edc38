"""Stored copies: each bit of images and of pairs turned, and images that are changed at random."""

import functools

from differential.harness.boards import arguments, board, calls
from differential.harness.damage import at_random, mutant, numbers_of, turned
from differential.harness.running import Case
from model.image import ERASED, Geometry

SPARE = 4
SHAPES = [(1, "little"), (1, "big"), (2, "little"), (2, "big")]
FLAGS = [(7, 8), (8, 7), (255, 0), (0, 255), (5, 5)]
DEFAULT = {b"text": b"d=1\n"}
AREAS = [
    b"\0",
    b"a=1\0bb=22\0\0",
    b"a=1\0a=2\0b\0c=\0=x\0d=4=5\0\0left=over\0",
    b".flags=a:d,b:sr\0a=12\0b=x y\0\0",
    b"one=\xc3\xa9\xff\0two=a\nb\0three=\x01\0\0",
    b"z=1\0y=2\0x=3\0w=4\0v=5\0u=6\0t=7\0\0",
]
TOKENS = [b"\0", b"\0\0", b"=", b"==", b"a=\0", b"a=1\0", b"a\0", b"=x\0", b".flags=a:d\0", b"\xff\xff\xff\xff"]
TOOLS = calls("printenv / export / setenv a 7 / setenv b / session --write")
OFTEN = {"BadCrc": 0.03, "Unterminated": 0.0002, "too short": 0.0005, "status 0": 0.3}


def geometry(shape, area):
    copies, order = shape
    return Geometry(copies, 3 + copies + len(area) + SPARE, order)


def shown(form, copy):
    """An image on standard input."""
    words = [b"--big-endian"] if form.order == "big" else []
    return Case("an image", words, given=copy)


def read(form, copies, tool=(b"printenv",)):
    """A tool over copies, and a default environment that differs from them."""
    words = arguments(*tool, b"--default", b"text", order=form.order)
    given = b".print\n.save\n.print\n" if tool[0] == b"session" else b""
    return Case("copies", words, board(form, copies) | DEFAULT, given)


def turned_image(shape, area):
    form = geometry(shape, area)
    for copy in turned(form.image(7, area)):
        yield shown(form, copy) if form.copies == 1 else read(form, [copy, ERASED * form.size])


def turned_pair(shape, area, flags):
    form = geometry(shape, area)
    first, second = form.image(flags[0], area), form.image(flags[1], b"i=0\0")
    for copy in turned(first):
        yield read(form, [copy, second])
    for copy in turned(second):
        yield read(form, [first, copy])


def changed_image(seed, number):
    """A copy that is changed at random. Most are brought back to their length, and most of these get the checksum of
    what then is in them; some are alone on standard input."""
    numbers = numbers_of("images", seed, number)
    shape, area = numbers.choice(SHAPES), numbers.choice(AREAS)
    form = geometry(shape, area)
    copy = mutant(form.image(numbers.randrange(256), area), TOKENS, numbers)
    if numbers.randrange(8):
        copy = copy[: form.size].ljust(form.size, b"\0")
    if numbers.randrange(8) and len(copy) == form.size:
        copy = form.image(copy[4], copy[form.head :])
    if form.copies == 1 and numbers.randrange(2):
        return shown(form, copy)
    other = numbers.choice([ERASED * form.size, form.image(numbers.randrange(256), b"i=0\0")])
    copies = [copy, other] if numbers.randrange(2) else [other, copy]
    return read(form, copies[: form.copies] if form.copies == 2 else [copy], numbers.choice(TOOLS))


def chunks(count, seed):
    images = [functools.partial(turned_image, shape, area) for shape in SHAPES for area in AREAS]
    pairs = [functools.partial(turned_pair, shape, area, flags) for shape in SHAPES[2:] for area in AREAS for flags in FLAGS]
    return images + pairs + at_random(count, functools.partial(changed_image, seed))
