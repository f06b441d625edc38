"""Configurations, texts for import, default texts, set scripts and stand-in files, cut at each place and changed at
random."""

import functools

from differential.harness.boards import CONFIG, arguments, board, text_of
from differential.harness.damage import at_random, prefixes, mutant, numbers_of
from differential.harness.running import Case
from model.image import ERASED, Geometry
from model.session import erased

DEFAULTS = {
    b".flags": b"n:d,o:so,r:sr,c:bc",
    b"n": b"1",
    b"r": b"run r",
    b"s": b"echo $x; setenv x 3",
    b"t": b"if test $n -lt 3; then setexpr n $n + 1; run t; fi",
    b"x": b"1 2",
}
FORM = Geometry(2, 160)
NEVER_WRITTEN = [ERASED * FORM.size] * 2
WRITTEN = [FORM.image(3, erased(FORM, DEFAULTS).environment.entries()), ERASED * FORM.size]

CONFIGURATIONS = [
    b"# one copy\nmtd1 0x0000 0x4000 0x4000\n",
    b"mtd1\t0x0 4000\r\nmtd2 -0x4000 0x4000 0x4000 1\r\nmtd3 0 8\n",
    b"board.bin 0 0x2000\nboard.bin 8192 2000\n",
    b"d 0 4000\nd 0x2000 4000\nd 0 7\n",
    b"d 017 10\nd 08 10\nd -10 10\n",
    b"a 0 8\n\n  b 0 0008\n",
    b"short 0 7\nlong 0 100001\n",
    b"d 0 10\nd 0x10 10\n",
]
CONFIGURATION_TOKENS = [
    b"0x", b"-", b"+", b"9223372036854775807", b"9223372036854775808", b"-9223372036854775807",
    b"0777777777777777777777", b"FFFFFFFFFFFFFFFFFFFF", b"00000000000000000008", b"\n", b"\r\n", b" \t", b"#", b"\xff",
    b"\0", b"\nd 0 10\n",
]  # fmt: skip
# What the configurations name; each has bytes of its own, so that the place of a copy is seen.
DEVICES = {
    b"mtd1": bytes(range(256)) * 64,
    b"mtd2": bytes(range(1, 256)) * 65,
    b"board.bin": b"board" * 3300,
    b"d": b"0123456789abcdefghijklmnopqrstuvwxyz",
    b"a": b"abcdefgh",
    b"b": b"abcdefghi",
}
IMPORTS = [
    b"# the console\nbaudrate=115200\nscript=echo one\\\necho two\nbootdelay=\n",
    b"a=1\n\n \t b=2\nc\nd=x\\=\\\\y\\\\\ne=1=2\n#f=6\ng=7",
    b".flags=n:d,m:sr\nn=12\nn=x\nm=1\nm=2\nn=\n",
    b"x=3\r\n y=\\\r\n=z\na=1\n",
    b"long=0123456789012345678901234567890123456789012345678901234567890123456789\nlong=1\no=2\no=3\n",
]
IMPORT_TOKENS = [b"\\", b"\\\n", b"\\\\", b"=", b"\n=", b"#", b"\n", b"\0", b"\r", b"\n.flags=n:sc\n", b"\nc=2\n", b" \t\n"]
SET_SCRIPTS = [
    b"# comment\nnetdev  eth0\nfoo a  b\nbar\nk=v w\n",
    b"a 1\r\n\r\n \t\nb\t2 \r\nc=\n d = 4\n #e 5",
    b".flags n:d,m:sr\nn 12\nn x\nm 1\nm 2\nn\n",
    b"x 3\n = v\ny 4\n",
    b"r 1\nr\nlong 0123456789012345678901234567890123456789012345678901234567890123456789\no 2\n",
]
SET_SCRIPT_TOKENS = [b"=", b" ", b"\t", b"\r", b"\n", b"\n=", b"#", b"\0", b"\n.flags n:sc\n", b"\nc 2\n"]
STAND_INS = [
    b"mmc/dev\nusb 1\n",
    b"# c\n\nusb  007 \r\nmmc\n \t\next4load 255\n",
    b"mmc 0\nusb 1\nmmc 1\n",
    b"mmc 3\nload 256\n",
    b"  # 3\nfdt 9\necho 0\nbootz 1\n",
    b"fastboot_device 2\nfastboot_devices 4\n",
]
# Board files
BOARDS = [
    b"mmc dev 0 -> 1\nmmc\n",
    b"# c\r\n\nload mmc 1:2 * -> setenv filesize 1c4a00\nload 1\r\n",
    b"usb -> echo ${1} ${2}; exit 3\nu* 7\n* -> false\n",
    b"test -e mmc 1:2 /boot/* -> 0\nbootz -> boots\next4load a -> run x; echo $?\n",
    b"fdt -> fdt again\nmmc/dev -> if test -n ${t}; then true; else t=1; false; fi\n",
    b"load* a b 0 -> 3\nload -> ${0}\ncp.* -> 0\nmmc -> ?\n",
]
BOARD_TOKENS = [
    b" ",
    b"\t",
    b"\r",
    b"\n",
    b"\0",
    b"#",
    b"*",
    b"->",
    b" -> ",
    b" -> boots\n",
    b"\nresets -> resets\n",
    b"\n-usb\n",
    b"256",
    b"\nusb\n",
    b"\nsetexpr.* 0\n",
    b"$",
    b"'",
]
STAND_IN_TOKENS = [b" ", b"\t", b"\r", b"\n", b"\0", b"#", b"255", b"256", b"000", b"\nusb 2\n", b"\nsetexpr.q 0\n", b"\nenv\n"]
STAND_IN_NAMES = b"mmc usb ext4load load fdt bootz \\# mmc/dev fastboot_device fastboot_devices".split()
ASKED = b"".join(b"%s; echo $?\n.x\n" % name for name in STAND_IN_NAMES)
ASKED_OF_BOARD = b"mmc dev 0; echo $?\nload mmc 1:2 a; echo $? ${filesize}\ntest -e mmc 1:2 /boot/a; echo $?\n.x\n" + ASKED
OFTEN = {
    **{name: 0.002 for name in ("EmptyName", "Nul", "NoCopy", "NotUtf8", "Overlap", "Size", "Unequal", "Builtin", "Line", "Twice")},
    **{name: 0.002 for name in ("BadType", "too short", "cannot read", "no room", "type check")},
    "status 0": 0.3,
}


def configured(text, _numbers):
    """The copy that is written shows where it is and how large."""
    return Case("a configuration", arguments(b"setenv", b"x", b"1"), DEVICES | {CONFIG: text})


def over_board(name, words, text, numbers):
    """A call over copies that were never written and a default environment, or over that environment as it was saved."""
    copies = WRITTEN if numbers and numbers.randrange(2) else NEVER_WRITTEN
    files = board(FORM, copies) | {b"default": text_of(DEFAULTS), b"text": text}
    return Case(name, words, files)


def imported(text, numbers):
    return over_board("a text for import", arguments(b"import", b"--default", b"default", b"text"), text, numbers)


def defaulted(text, numbers):
    return over_board("a default text", arguments(b"setenv", b"--default", b"text", b"y", b"1"), text, numbers)


def set_by(text, numbers):
    return over_board("a set script", arguments(b"setenv", b"--default", b"default", b"-s", b"text"), text, numbers)


def stood_in(text, numbers):
    case = over_board("a stand-in file", arguments(b"session", b"--stubs", b"text"), text, numbers)
    case.given = ASKED
    return case


def boarded(text, numbers):
    case = over_board("a board file", arguments(b"session", b"--shell", b"board", b"--depth=3", b"--board", b"text"), text, numbers)
    case.given = ASKED_OF_BOARD
    return case


KINDS = [
    (configured, CONFIGURATIONS, CONFIGURATION_TOKENS),
    (imported, IMPORTS, IMPORT_TOKENS),
    (defaulted, IMPORTS, IMPORT_TOKENS),
    (set_by, SET_SCRIPTS, SET_SCRIPT_TOKENS),
    (stood_in, STAND_INS, STAND_IN_TOKENS),
    (boarded, BOARDS, BOARD_TOKENS),
]


def cut(make, text):
    return [make(prefix, None) for prefix in prefixes(text)]


def changed_text(make, samples, tokens, seed, number):
    numbers = numbers_of(make.__name__, seed, number)
    return make(mutant(numbers.choice(samples), tokens, numbers), numbers)


def chunks(count, seed):
    """Of each kind this many texts are changed."""
    found = [functools.partial(cut, make, text) for make, samples, _ in KINDS for text in samples]
    for make, samples, tokens in KINDS:
        found += at_random(count, functools.partial(changed_text, make, samples, tokens, seed))
    return found
