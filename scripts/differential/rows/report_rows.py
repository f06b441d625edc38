"""Reports of what is stored by hand: each row is a call over a device, and what it prints. Nothing is written."""

from differential.harness.boards import CONFIG, DEVICE, arguments, board
from differential.harness.running import Case
from model.arguments import CONFIG_AND_FILE
from model.image import ERASED, LARGEST, Geometry
from model.program import Answer

# Two copies of 32 bytes, and a single image
PAIR, BIG_PAIR, SINGLE = Geometry(2, 32), Geometry(2, 32, "big"), Geometry(1, 32)
ONE, TWO = b"a=b\0", b"a=b\0c=1\0"
FIRST, SECOND = PAIR.image(3, ONE), PAIR.image(4, TWO)
FIRST_LINE = b"first copy   device at 0x3, 32 bytes: "
SECOND_LINE = b"second copy  device at 0x25, 32 bytes: "
CURRENT = b"good, flag 3, current\n"
AFTER_FIRST = b"variables    1, 5 of 27 bytes used\nnext save    second copy, flag 4\n"
NONE = b"variables    none, no copy is good\n"
BOTH = (
    FIRST_LINE
    + b"good, flag 3\n"
    + SECOND_LINE
    + b"good, flag 4, current\n"
    + (b"variables    2, 9 of 27 bytes used\nnext save    first copy, flag 5\n")
)


def turned(image):
    """The image with its last bit turned."""
    return image[:-1] + bytes([image[-1] ^ 1])


# The first copy is good, with flag 3 and one variable: the second one, and what is reported of it
SECONDS = [
    (SECOND[:-1] + b"x", b"checksum is wrong"),
    (PAIR.image(4, b"a=" + b"b" * 25), b"list of entries isn't ended"),
    (PAIR.image(4, b"a=" + b"b" * 24), b"list of entries isn't ended"),
    (ERASED * 32, b"checksum is wrong, erased (all bytes FF)"),
    (turned(ERASED * 32), b"checksum is wrong"),
    (bytes(32), b"checksum is wrong, erased (all bytes 00)"),
    (turned(bytes(32)), b"checksum is wrong"),
    (BIG_PAIR.image(4, TWO), b"checksum is wrong, good with --big-endian"),
    (turned(BIG_PAIR.image(4, TWO)), b"checksum is wrong"),
    (SINGLE.image(0, TWO), b"checksum is wrong, good as a single image"),
    (turned(SINGLE.image(0, TWO)), b"checksum is wrong"),
    (Geometry(1, 32, "big").image(0, TWO), b"checksum is wrong, good as a single image with --big-endian"),
    (PAIR.image(2, TWO), b"good, flag 2"),
]
# Both copies, and what is printed, status 0
PAIRS = [
    (FIRST, SECOND, BOTH),
    (
        PAIR.image(255, ONE), PAIR.image(0, b"\0"), FIRST_LINE + b"good, flag 255\n" + SECOND_LINE + b"good, flag 0, current\n"
        b"variables    0, 1 of 27 bytes used\nnext save    first copy, flag 1\n",
    ),
    (
        PAIR.image(255, ONE), PAIR.image(9, TWO), FIRST_LINE + b"good, flag 255, current\n" + SECOND_LINE + b"good, flag 9\n"
        b"variables    1, 5 of 27 bytes used\nnext save    second copy, flag 0\n",
    ),
]  # fmt: skip
# The flags of two good copies, the one that is current, and what is said of the next save
CHOSEN = [
    ((3, 9), 1, b"first copy, flag 10"),
    ((9, 3), 0, b"second copy, flag 10"),
    ((7, 7), 0, b"second copy, flag 8"),
    ((255, 0), 1, b"first copy, flag 1"),
    ((0, 255), 0, b"second copy, flag 1"),
    ((254, 255), 1, b"first copy, flag 0"),
    ((255, 1), 0, b"second copy, flag 0"),
    ((254, 0), 0, b"second copy, flag 255"),
]
# A single image, its state, and the lines that follow; the status is 0 if it is good
SINGLES = [
    (SINGLE.image(0, TWO), b"good", b"variables    2, 9 of 28 bytes used\n"),
    (FIRST, b"checksum is wrong, good as a copy with a flag", NONE),
    (turned(FIRST), b"checksum is wrong", NONE),
    (BIG_PAIR.image(3, ONE), b"checksum is wrong, good as a copy with a flag with --big-endian", NONE),
]
# An area that a single image holds whole, how many variables it has, and how many of its bytes they use
USED = [
    (b"\0\0\0\0", 0, 1),
    (b"a=1\0a=2\0b\0c=\0\0", 1, 5),
    (b"a=1\0b=xxxxx\0\0", 2, 13),
    (b".flags=p:sc\0p=1\0\0" + bytes(43), 2, 17),
]
# A device, its one line of configuration, and what is reported of the copy
LARGE, LARGE_PAIR = Geometry(1, 8192), Geometry(2, 65536, "big")
SIZES = [
    (LARGE.image(0, ONE) + b"Z", b"0 0x1000", b"at 0x0, 4096 bytes: checksum is wrong, good with size 0x2000"),
    (Geometry(1, 4096).image(0, ONE), b"0 0x40", b"at 0x0, 64 bytes: checksum is wrong, good with size 0x1000"),
    (Geometry(1, LARGEST).image(0, ONE), b"0 0x40", b"at 0x0, 64 bytes: checksum is wrong, good with size 0x100000"),
    (Geometry(1, LARGEST).image(0, ONE)[:-1], b"0 0x40", b"at 0x0, 64 bytes: checksum is wrong"),
    (LARGE.image(0, ONE)[:-1], b"0 0x1000", b"at 0x0, 4096 bytes: checksum is wrong"),
    (b"XX" + LARGE.image(0, ONE), b"2 0x40", b"at 0x2, 64 bytes: checksum is wrong, good with size 0x2000"),
    (b"XX" + LARGE.image(0, ONE), b"1 0x40", b"at 0x1, 64 bytes: checksum is wrong"),
    (LARGE.image(0, ONE), b"-0x2000 0x1000", b"at 0x0, 4096 bytes: checksum is wrong, good with size 0x2000"),
    (b"XX" + SINGLE.image(0, ONE), b"-0x20 0x10", b"at 0x2, 16 bytes: checksum is wrong"),
    (LARGE_PAIR.image(9, ONE), b"0 0x2000", b"at 0x0, 8192 bytes: checksum is wrong, good as a copy with a flag with --big-endian with size 0x10000"),
    (ERASED * 32 + b"Z", b"0 0x20", b"at 0x0, 32 bytes: checksum is wrong, erased (all bytes FF)"),
    (ERASED * 32 + b"Z", b"1 0x20", b"at 0x1, 32 bytes: checksum is wrong"),
]
# A configuration over the device with both copies: the numbers of the lines that are skipped
PLACES = b"device 3 20\n", b"device 0x25 0x20\n"
SKIPPED = [
    (b"# c\n\n \t\r\n" + b"".join(PLACES), []),
    (b"".join(PLACES) + b"\n#device 0 20", []),
    (b"nothing\n" + PLACES[0] + b"device 0\n" + PLACES[1] + b"device 0 20\n", [1, 3, 5]),
    (PLACES[0] + b"device 08 20\n # c\n" + PLACES[1], [2, 3]),
    (b"".join(PLACES) + b"device 0 7\n", [3]),
]
# A whole file, what is reported of it, and the lines that follow
FILES = [
    (SINGLE.image(0, TWO), b"good as a single image", b"variables    2, 9 of 28 bytes used\n"),
    (SECOND, b"good as a copy with a flag, flag 4", b"variables    2, 9 of 27 bytes used\n"),
    (turned(SECOND), b"checksum is wrong", NONE),
    (SINGLE.image(0, b"a=" + b"b" * 26), b"list of entries isn't ended", NONE),
    (Geometry(1, 32, "big").image(0, TWO), b"checksum is wrong, good as a single image with --big-endian", NONE),
    (BIG_PAIR.image(4, TWO), b"checksum is wrong, good as a copy with a flag with --big-endian", NONE),
    (LARGE.image(0, ONE) + b"Z", b"checksum is wrong, good as a single image with size 0x2000", NONE),
    (bytes(7), b"length is wrong, erased (all bytes 00)", NONE),
    (b"1234567", b"length is wrong", NONE),
    (b"", b"length is wrong", NONE),
    (b"Z" * (LARGEST + 1), b"length is wrong", NONE),
    (LARGE.image(0, ONE) + bytes(LARGEST), b"length is wrong, good as a single image with size 0x2000", NONE),
    (ERASED * 4096, b"checksum is wrong, erased (all bytes FF)", NONE),
]
# Arguments, the configuration, and what goes to standard error
FAULTS = [
    ([b"status", b"-c", b"absent"], b"", b"fwenv: cannot read absent: no such file\n"),
    ([b"status", b"absent"], b"", b"fwenv: cannot read absent: no such file\n"),
    ([b"status", b"-c", CONFIG], b"absent 0 20\n", b"fwenv: cannot read absent: no such file\n"),
    ([b"status", b"-c", CONFIG], b"device 0 2000\n", b"fwenv: device is too short\n"),
    ([b"status", b"-c", CONFIG], b"device 0 20\ndevice -0x40 20\n", b"fwenv: copies overlap\n"),
    ([b"status", b"-c", CONFIG], b"device 0\n", b"fwenv: fw.config: NoCopy\n"),
    ([b"status", b"-c", CONFIG], b"device 0 7\n", b"fwenv: fw.config: Size in line 1\n"),
    ([b"status", b"-c", CONFIG, DEVICE], b"device 0 20\n", CONFIG_AND_FILE),
    ([b"status", b"--default", CONFIG], b"device 0 20\n", None),
    ([b"status", DEVICE, DEVICE], b"device 0 20\n", None),
]


def row(name, words, files, status, output, errors=b""):
    return Case(name, words, files, wanted=Answer(status, output, errors, files))


def pairs():
    words = arguments(b"status")
    for second, said in SECONDS:
        text = FIRST_LINE + CURRENT + SECOND_LINE + said + b"\n" + AFTER_FIRST
        yield row("a second copy", words, board(PAIR, [FIRST, second]), 0, text)
    for first, second, text in PAIRS:
        yield row("two copies", words, board(PAIR, [first, second]), 0, text)
    for flags, current, said in CHOSEN:
        text = b"".join(
            head + b"good, flag %d" % flag + b", current" * (at == current) + b"\n"
            for at, (head, flag) in enumerate(zip((FIRST_LINE, SECOND_LINE), flags))
        )
        text += b"variables    1, 5 of 27 bytes used\nnext save    " + said + b"\n"
        yield row("a choice", words, board(PAIR, [PAIR.image(flag, ONE) for flag in flags]), 0, text)
    # (the checksum of four bytes FF is four bytes FF)
    least, said = Geometry(2, 9), b" bytes: list of entries isn't ended, erased (all bytes FF)\n"
    text = b"first copy   device at 0x3, 9" + said + b"second copy  device at 0xe, 9" + said + NONE
    yield row("erased copies of the least size", words, board(least, [ERASED * 9] * 2), 1, text)
    text = FIRST_LINE + b"checksum is wrong\n" + SECOND_LINE + b"checksum is wrong\n" + NONE
    yield row("no good copy", words, board(PAIR, [turned(FIRST), turned(SECOND)]), 1, text)
    text = FIRST_LINE + b"checksum is wrong, good without --big-endian\n" + SECOND_LINE + b"checksum is wrong\n" + NONE
    yield row("the other order", arguments(b"status", order="big"), board(PAIR, [FIRST, turned(SECOND)]), 1, text)
    files = board(BIG_PAIR, [BIG_PAIR.image(3, ONE), BIG_PAIR.image(4, TWO)])
    yield row("big-endian copies", [b"--big-endian", *words], files, 0, BOTH)


def singles():
    for image, said, rest in SINGLES:
        text = b"single image device at 0x3, 32 bytes: " + said + b"\n" + rest
        yield row("a single image", arguments(b"status"), board(SINGLE, [image]), int(rest == NONE), text)
    for area, count, used in USED:
        form = Geometry(1, 4 + len(area))
        text = b"single image device at 0x3, %d bytes: good\nvariables    %d, %d of %d bytes used\n" % (form.size, count, used, form.room)
        yield row("bytes that are used", arguments(b"status"), board(form, [form.image(0, area)]), 0, text)
    for device, place, said in SIZES:
        files = {DEVICE: device, CONFIG: b"device " + place + b"\n"}
        yield row("another size", arguments(b"status"), files, 1, b"single image device " + said + b"\n" + NONE)


def skipped():
    for config, numbers in SKIPPED:
        text = BOTH + b"".join(b"skipped      line %d of fw.config\n" % number for number in numbers)
        yield row("lines that are skipped", arguments(b"status"), board(PAIR, [FIRST, SECOND]) | {CONFIG: config}, 0, text)


def whole_files():
    for image, said, rest in FILES:
        text = b"whole file   image, %d bytes: %s\n" % (len(image), said) + rest
        yield row("a whole file", [b"status", b"image"], {b"image": image}, int(rest == NONE), text)
    text = b"whole file   image, 32 bytes: good as a copy with a flag, flag 4\nvariables    2, 9 of 27 bytes used\n"
    yield row("a big-endian file", [b"status", b"--big-endian", b"image"], {b"image": BIG_PAIR.image(4, TWO)}, 0, text)
    text = b"whole file   image, 32 bytes: checksum is wrong, good as a single image without --big-endian\n" + NONE
    yield row("the other order", [b"status", b"--big-endian", b"image"], {b"image": SINGLE.image(0, TWO)}, 1, text)


def faults():
    for words, config, errors in FAULTS:
        yield row("a fault", words, board(PAIR, [FIRST, SECOND]) | {CONFIG: config}, 1, b"", errors)


def chunks():
    return [pairs, singles, skipped, whole_files, faults]
