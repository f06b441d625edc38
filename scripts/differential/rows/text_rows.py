"""Texts by hand: stored lists of entries, texts for import and export, set scripts and configurations, and what is read of each."""

from differential.harness.boards import CONFIG, arguments, board
from differential.harness.running import Case
from model.image import Geometry, entries
from model.program import Answer

FORM = Geometry(1, 64)
# A data area, and what is printed of it: the last entry of a name decides, and nothing after the list counts
AREAS = [
    (b"b=2\0=x\0a=1\0a=1=1\0c\0d=\0\0z=9\0\0", b"a=1=1\nb=2\n"),
    (b"b=2\0.flags=a:d\0ab=3\0a=1\0\0after", b".flags=a:d\na=1\nab=3\nb=2\n"),
    (b"a=1\0a\0b=2\0b=\0\0", b""),
]
# What is there before a text is taken
BEFORE = {b"a": b"0", b"b": b"0", b"c": b"0"}
# A text for import, and the variables afterwards, or the fault
IMPORTS = [
    (b"", BEFORE),
    (b"  a=1\n# x\nb\nc=\n", {b"a": b"1"}),
    (b"a=1\\", BEFORE | {b"a": b"1\\"}),
    (b"a=x\\\ny\nb=1\n", BEFORE | {b"a": b"x\ny", b"b": b"1"}),
    (b"a=b=c\n \t# no\n# \\\nd\\=e\n", BEFORE | {b"a": b"b=c", b"d\\": b"e"}),
    (b"a=1\r\n\tb\r\n", BEFORE | {b"a": b"1\r"}),
    (b"a\\\nb=\\\\\\q\n", BEFORE | {b"b": b"\\q"}),
    (b"a=# no comment\n###\n#last", BEFORE | {b"a": b"# no comment"}),
    (b"m=x\\\n\\\\y\nn#==#\n", BEFORE | {b"m": b"x\n\\y", b"n#": b"=#"}),
    (b"=z\n", b"EmptyName in line 1"),
    (b"a=1\n\n \t=z\n=y\n", b"EmptyName in line 3"),
    (b"a=x\\\n\n=y\n", b"EmptyName in line 3"),
    (b"=x\n\0", b"Nul"),
    (b"#\0", b"Nul"),
]
# The same of a set script
SET_SCRIPTS = [
    (b"", BEFORE),
    (b"# c\n\nnetdev  eth0\na a  b\nb\nk=v w\n", {b"a": b"a  b", b"c": b"0", b"k": b"v w", b"netdev": b"eth0"}),
    (b"a 1\r\nb\r\n \t\r\n\r\n", {b"a": b"1", b"c": b"0"}),
    (b"a 1\r\r\n", BEFORE | {b"a": b"1\r"}),
    (b"a 1\r", BEFORE | {b"a": b"1"}),
    (b" # x\n\t k\t= v ", BEFORE | {b"#": b"x", b"k": b"= v "}),
    (b"a=\n", {b"b": b"0", b"c": b"0"}),
    (b"a\n =v\n", b"EmptyName in line 2"),
    (b"=v\n\0", b"Nul"),
]
# Variables, of which some have names that no import reads back: what is printed, and what is left out
EXPORTED = {b"m": b"x\n\\y", b"n#": b"=#", b" a": b"1", b"\ta": b"1", b"#a": b"1", b"a\nb": b"1"}
EXPORT, LEFT_OUT = b"m=x\\\n\\\\y\nn#==#\n", [b"\ta", b" a", b"#a", b"a\nb"]
# A configuration, the length of each device, which holds zeros, the size and the places of the copies, and the lines that are
# skipped. The last ones are those of U-Boot's tools/env, and as they reach users, with plain names of devices
CONFIGURATIONS = [
    (b"d 0 8\n", 8, 8, [(b"d", 0)], []),
    (b"d 0 9\nd 9 9\n", 18, 9, [(b"d", 0), (b"d", 9)], []),
    (b"d 0 100000\ne 0 0x100000\n", 2**20, 2**20, [(b"d", 0), (b"e", 0)], []),
    (b"d 017 4000\n", 20_000, 0x4000, [(b"d", 15)], []),
    (b"d +0X1f 0X4000\n", 20_000, 0x4000, [(b"d", 31)], []),
    (b"d 65536 4000\n", 81_920, 0x4000, [(b"d", 65_536)], []),
    (b"d -16384 4000\n", 16_384, 0x4000, [(b"d", 0)], []),
    (b"d 0 4000\nd 0x4000 4000\n", 32_768, 0x4000, [(b"d", 0), (b"d", 0x4000)], []),
    (b"d 0 4000\ne 0 4000\n", 16_384, 0x4000, [(b"d", 0), (b"e", 0)], []),
    (b"# c\nd 0200000 4000\nshort line\nd -0x4000 0x4000 0x200 1\ne 0 8\n", 0x20000, 0x4000, [(b"d", 0x10000), (b"d", 0x1C000)], [3, 5]),
    (
        b"# Notice, that the \"Number of sectors\" is not required on NOR and SPI-dataflash.\n\n"
        b"# MTD device name\tDevice offset\tEnv. size\tFlash sector size\tNumber of sectors\n"
        b"mtd1\t\t0x0000\t\t0x4000\t\t0x4000\nmtd2\t\t0x0000\t\t0x4000\t\t0x4000\n",
        0x4000, 0x4000, [(b"mtd1", 0), (b"mtd2", 0)], [],
    ),
    (b"#mtd5\t\t0x4200\t\t0x4200\nmmcblk0\t\t0xc0000\t\t0x20000\r\n", 0xE0000, 0x20000, [(b"mmcblk0", 0xC0000)], []),
    (b"uboot.env\t0x0000          0x4000", 0x4000, 0x4000, [(b"uboot.env", 0)], []),
    (b"mmcblk0 -0x20000 0x20000\r\nmmcblk0 -0x40000 0x20000 1 # comment\n", 0x40000, 0x20000, [(b"mmcblk0", 0x20000), (b"mmcblk0", 0)], []),
]  # fmt: skip
# A configuration that names no copies, and the fault; or copies that aren't inside a device of so many bytes
NO_CONFIGURATIONS = [
    (b"", b"NoCopy"),
    (b"d 08 4000\n", b"NoCopy"),
    (b"d 9223372036854775808 4000\n", b"NoCopy"),
    (b"\xff 08 4000\n", b"NoCopy"),
    (b"\xff 0 4000\n", b"NotUtf8 in line 1"),
    (b"d 0 100000\n\xff 0 1\n", b"NotUtf8 in line 2"),
    (b"d 0 7\n", b"Size in line 1"),
    (b"d 0 8\ne 0 8\n", b"Size in line 1"),
    (b"\nd 0 100001\ne 0 1\n", b"Size in line 2"),
    (b"d 0 FFFFFFFFFFFFFFFFFFFF\n", b"Size in line 1"),
    (b"d 0 8\ne 0 9\n", b"Unequal"),
    (b"d 0 4000\nd 0x2000 4000\n", b"Overlap"),
    (b"d -4000 4000\nd -0X4000 4000\n", b"Overlap"),
]
TOO_SHORT = [
    (b"d 65536 4000\n", 81_919),
    (b"d -16384 4000\n", 16_383),
    (b"d -16383 4000\n", 20_000),
    (b"d -9223372036854775807 4000\n", 20_000),
    (b"d 9223372036854775807 4000\n", 20_000),
]


def areas():
    for area, output in AREAS:
        yield Case("an image", [], given=FORM.image(0, area), wanted=Answer(0, output, b"", {}))


def taken():
    for texts, words in ((IMPORTS, [b"import", b"text"]), (SET_SCRIPTS, [b"setenv", b"-s", b"text"])):
        for text, left in texts:
            is_read = isinstance(left, dict)
            before = board(FORM, [FORM.image(0, entries(BEFORE))]) | {b"text": text}
            after = before | board(FORM, [FORM.image(0, entries(left if is_read else BEFORE))])
            errors = b"" if is_read else b"fwenv: text: %s\n" % left
            yield Case("a text", arguments(*words), before, wanted=Answer(int(not is_read), b"", errors, after))


def exported():
    files = board(FORM, [FORM.image(0, entries(EXPORTED))])
    errors = b"".join(b'## Error: can\'t export "%s"\n' % name for name in LEFT_OUT)
    yield Case("an export", arguments(b"export"), files, wanted=Answer(1, EXPORT, errors, files))


def reported(size, places, skipped):
    """The report of copies of zeros."""
    heads = [b"single image "] if len(places) == 1 else [b"first copy   ", b"second copy  "]
    said = b"%s%s at 0x%x, %d bytes: checksum is wrong, erased (all bytes 00)\n"
    text = b"".join(said % (head, device, start, size) for head, (device, start) in zip(heads, places))
    return text + b"variables    none, no copy is good\n" + b"".join(b"skipped      line %d of fw.config\n" % line for line in skipped)


def configured():
    for text, length, size, places, skipped in CONFIGURATIONS:
        files = {device: bytes(length) for device, _ in places} | {CONFIG: text}
        yield Case("a configuration", arguments(b"status"), files, wanted=Answer(1, reported(size, places, skipped), b"", files))
    for text, fault in NO_CONFIGURATIONS:
        files = {CONFIG: text}
        yield Case("no configuration", arguments(b"status"), files, wanted=Answer(1, b"", b"fwenv: fw.config: %s\n" % fault, files))
    for text, length in TOO_SHORT:
        files = {CONFIG: text, b"d": bytes(length)}
        yield Case("a short device", arguments(b"status"), files, wanted=Answer(1, b"", b"fwenv: d is too short\n", files))


def chunks():
    return [areas, taken, exported, configured]
