"""Sessions by hand, besides those of docs/dry-runs.md: blocks and dot lines, names of marks, limits, stand-ins, wrong numbers, and what is
written back. A row is a name, the input, what is printed, and the options."""

from differential.harness.boards import EMPTIED, FIRST, PAIR, SAVED, SECOND, arguments, board, unwritten
from differential.harness.running import Case
from model.arguments import LIMITS, NO_NUMBER
from model.image import ERASED, Geometry
from model.program import NOT_A_STAND_IN, WARNING, Answer

SMALL = Geometry(1, 16)
NAME = b"abcdefghijklmnopqrstuvwxyz012345"

BLOCKS = [
    ("no input", b"", b""),
    ("a newline", b"\n", b"[Finished 0 0]\n"),
    ("a newline between dot lines", b".x\n\n.x\n", b"[Unknown]\n[Finished 0 0]\n[Unknown]\n"),
    ("a last line without a newline", b".x\necho a", b"[Unknown]\na\n[Finished 0 1]\n"),
    ("a last dot line without a newline", b"echo a\n.save", b"a\n[Finished 0 1]\nSaved copy 1\n"),
    ("a dot line inside quotes", b'echo "a\n.x\n"\n', b"[Syntax]\n[Unknown]\n[Syntax]\n"),
    (
        "blanks and carriage returns behind dot lines",
        b".save \t\r\n.undo\r\n.print \r \r\n.mark a\t\r\n.undo a \n",
        b"Saved copy 1\n[Undone]\n[Marked]\n[Undone]\n",
    ),
    ("blanks before a dot", b" .save\n", b"Unknown command '.save' - try 'help'\n[Finished 1 1]\n"),
    ("a 0 byte", b"echo a\0\n.x\0\n.save\n", b"[Syntax]\n[Unknown]\nSaved copy 1\n"),
    ("local variables and status of a block", b'x=1; false\n.x\necho "$x$?"\n', b"[Finished 1 2]\n[Unknown]\n0\n[Finished 0 1]\n"),
    ("several lines", b"echo a\necho b; false\n.print\n", b"a\nb\n[Finished 1 3]\n"),
    ("a run that is too large for the board", b"setenv abc 1234567\n.print\n", b'## Error: no room for "abc"\n[Finished 1 1]\n'),
]
NAMES = [
    ("a name of 32 bytes", b".mark %s\n.undo %s\n" % (NAME, NAME), b"[Marked]\n[Undone]\n"),
    ("a name of 33 bytes", b".mark %s6\n.undo %s6\n.undo %s\n" % (NAME, NAME, NAME), b"[Unknown]\n[Unknown]\n[Gone]\n"),
    (
        "dot lines of no form",
        b".\n..\n.Save\n.saves\n.save x\n.print a\n.marks\n.markx\n.mark a b\n.undox\n.undo a b\n.mark \t\n",
        b"[Unknown]\n" * 12,
    ),
    (
        "dot lines that are nearly of a form",
        b". undo\n.und\n.undo\0\n.undo\ra\n.undo a\tb\n.mark\n.mark\t\r\n.mark\ra\n.saved\n.prin\n.exit\n",
        b"[Unknown]\n" * 11,
    ),
    (
        "names of other bytes",
        b".mark a\rb\n.undo a\rb\r\n.mark \0\n.undo \0\n.mark .undo\n.undo .undo\n.mark \xff\n.undo  \xff\n.mark \r0\n.undo \r0\n",
        b"[Marked]\n[Undone]\n" * 5,
    ),
    (
        "a name is compared whole",
        b".mark ab\n.undo a\n.undo abc\n.undo Ab\n.undo ab\0\n.undo 1\n.undo ab\n",
        b"[Marked]\n[Gone]\n[Gone]\n[Gone]\n[Gone]\n[Gone]\n[Undone]\n",
    ),
    ("blanks before a name", b".mark \t a\n.undo\ta\n", b"[Marked]\n[Undone]\n"),
    (
        "a name given twice",
        b".mark a\nsetenv v 1\n.mark a\nsetenv v 2\n.undo a\n.print\n.undo\n.undo a\n",
        b"[Marked]\n[Finished 0 1]\n[Marked]\n[Finished 0 1]\n[Undone]\nv=1\n[Undone]\n[Gone]\n",
    ),
    (
        "an earlier mark of a name given twice",
        b".mark p\nsetenv v 1\n.mark q\nsetenv v 2\n.mark p\n.undo q\n.print\n.undo p\n.print\n.undo q\n",
        b"[Marked]\n[Finished 0 1]\n[Marked]\n[Finished 0 1]\n[Marked]\n[Undone]\nv=1\n[Undone]\n[Gone]\n",
    ),
    ("later marks are gone", b".mark a\n.mark b\n.undo a\n.undo b\n.undo a\n", b"[Marked]\n[Marked]\n[Undone]\n[Gone]\n[Undone]\n"),
    (
        "65 marks",
        b"".join(b".mark m%d\n" % number for number in range(1, 65)) + b".mark more\n.undo more\n.undo m64\n.undo m63\n.mark more\n",
        b"[Marked]\n" * 64 + b"[Full]\n[Gone]\n[Undone]\n[Undone]\n[Marked]\n",
    ),
]
BOUNDED = [
    ("no step", b"echo a\n", b"[Steps 0 0]\n", b"--steps", b"0"),
    ("two steps", b"echo a; false; echo b\n", b"a\n[Steps 1 2]\n", b"--steps", b"2"),
    ("no depth", b"setenv r 'echo a'; run r\n", b"[Depth 0 2]\n", b"--depth", b"0"),
    ("the usual depth", b"setenv r 'run r'; run r\n", b"[Depth 0 18]\n"),
    ("short words", b"echo abcd; echo abcde\n", b"abcd\n[Word 0 1]\n", b"--word", b"4"),
    ("a short text", b"echo ab; echo c\n", b"ab\n[Output 0 1]\n", b"--output", b"3"),
    (
        "the limits of each block",
        b"echo a\n.x\necho b\n",
        b"a\n[Finished 0 1]\n[Unknown]\nb\n[Finished 0 1]\n",
        b"--steps",
        b"1",
        b"--output",
        b"2",
    ),
    ("the usual steps", b"while true; do true; done\n", b"[Steps 0 100000]\n"),
    (
        "all that may be asked for",
        b"echo a\n",
        b"a\n[Finished 0 1]\n",
        b"--steps",
        b"1000000",
        b"--depth",
        b"16",
        b"--word",
        b"65536",
        b"--output",
        b"16777216",
    ),
    ("leading zeros", b"echo a; echo b\n", b"a\n[Steps 0 1]\n", b"--steps", b"00000000000000000000000001"),
]
NO_NUMBERS = [b"", b"x", b"-1", b"+1", b"1.5", b" 1", b"1 ", b"0x10", b"1_000", b"4294967296", b"18446744073709551616", b"9" * 23]
USAGE = b"\nUsage: fwenv session [OPTIONS]\n\nFor more information, try '--help'.\n"
WRONG_WORDS = [
    ([b"--steps", b"1", b"--steps", b"1"], b"the argument '--steps <N>' cannot be used multiple times"),
    ([b"file"], b"unexpected argument 'file' found"),
]
# The stand-in file, the input, the status, what is printed, and the message (after the warning)
STAND_INS = [
    (
        b"# both\nmmc\r\n usb 1 \n",
        b"mmc dev 0 && usb start || foo\n",
        b"+ mmc dev 0\n+ usb start\nUnknown command 'foo' - try 'help'\n[Finished 1 3]\n",
        b"",
    ),
    (b"\n \t\n\r\nmmc 1\r", b"mmc || echo $?\n", b"+ mmc\n1\n[Finished 0 2]\n", b""),
    (b"mmc\r\r\n", b"mmc\r\nmmc\n", b"+ mmc\r\nUnknown command 'mmc' - try 'help'\n[Finished 1 2]\n", b""),
    (b"x 256\n", b"echo a\n", b"", b"fwenv: stand-ins: Line in line 1\n"),
    (b"exit 0\n", b"echo a\n", b"", b"fwenv: stand-ins: Builtin in line 1\n"),
    (b"mmc\n\necho 0\n", b"echo a\n", b"", b"fwenv: stand-ins: Builtin in line 3\n"),
    (b"x\nx\n", b"echo a\n", b"", b"fwenv: stand-ins: Twice in line 2\n"),
    (b"\0" * (2**24 + 1), b"echo a\n", b"", b"fwenv: cannot read stand-ins\n"),
    (None, b"echo a\n", b"", b"fwenv: cannot read stand-ins\n"),
]
# Options, the input, and what is printed, if the stand-ins are these: the run ends at a command that leaves the board, and the session goes on
LEAVING = b"booti\nmmc\nusb 1\n"
LEFT = [
    ([], b"booti 1; echo a\n.x\necho b\n", b"+ booti 1\na\n[Finished 0 2]\n[Unknown]\nb\n[Finished 0 1]\n"),
    ([b"--boots", b"booti"], b"booti 1; echo a\n.x\necho b\n", b"+ booti 1\n[Exited 0 1]\n[Unknown]\nb\n[Finished 0 1]\n"),
    ([b"--resets=mmc", b"--boots=booti"], b"x=1\nmmc; booti\n.x\nfalse\nbooti\n", b"+ mmc\n[Exited 0 2]\n[Unknown]\n+ booti\n[Exited 0 2]\n"),
    ([b"--boots", b"usb", b"--shell", b"board"], b"usb; echo a", b"+ usb\na\n[Finished 0 2]\n"),
]
# Names that no stand-in has
NO_NAMES = [
    ([b"--boots", b"boot"], b"boot", b"--boots"),
    ([b"--resets", b"absent", b"--boots", b"booti"], b"absent", b"--resets"),
    ([b"--resets", b"absent", b"--boots", b"true"], b"true", b"--boots"),
]
# Two copies, of which the first is current: the input, what is printed, the second copy and the first one, and the options
WRITES = [
    (b".save\n", b"Saved copy 2\n", SECOND, FIRST),
    (b".save\n", b"Saved copy 2\n", SAVED, FIRST, b"--write"),
    (b"setenv a\nsaveenv", b"Saved copy 2\n[Finished 0 2]\n", EMPTIED, FIRST, b"--write"),
    (b".save\n.save\n", b"Saved copy 2\nSaved copy 1\n", SAVED, PAIR.image(9, b"a=b\0"), b"--write"),
    (b"setenv a c\n", b"[Finished 0 1]\n", SECOND, FIRST, b"--write"),
    (b".save\n.undo\n", b"Saved copy 2\n[Undone]\n", SECOND, FIRST, b"--write"),
]
# The byte order of two copies without variables, their flags, or None for one that was never written, the input, what is printed, and
# the flags afterwards
FLAGS = [
    ("little", (255, 0), b".save\n", b"Saved copy 1\n", (1, 0)),
    ("little", (254, 255), b".save\n.save\n", b"Saved copy 1\nSaved copy 2\n", (0, 1)),
    ("little", (255, 0), b".save\n.undo\n", b"Saved copy 1\n[Undone]\n", (255, 0)),
    ("little", (None, None), b".save\n.save\n", b"Saved copy 1\nSaved copy 2\n", (1, 2)),
    ("little", (None, None), b".save\n.save\n.undo\n", b"Saved copy 1\nSaved copy 2\n[Undone]\n", (None, None)),
    ("little", (None, None), b".save\n.save\n.undo\n.save\n", b"Saved copy 1\nSaved copy 2\n[Undone]\nSaved copy 1\n", (1, None)),
    ("big", (255, 0), b".save\n", b"Saved copy 1\n", (1, 0)),
    ("big", (None, None), b".save\n", b"Saved copy 1\n", (1, None)),
]
# The size of a single image that was never written, a default text, the input, in which an undo brings back what was there, and what is
# printed; in the one of 17 bytes the variables would take 17 on the way back, of 13, with `a` as it was and `b` not yet
LETTERS = b"a=1\nb=2\nc=3\n"
UNDONE = [
    (
        64, LETTERS, b"setenv a x; setenv a xyz; setenv b; setenv d 4; setenv c; setenv c 5; setenv e 6; setenv e\n.undo\n.print\n",
        b"[Finished 0 8]\n[Undone]\n" + LETTERS,
    ),
    (64, LETTERS, b"setenv a; setenv b; setenv c; setenv a 1\n.undo\n.print\n", b"[Finished 0 4]\n[Undone]\n" + LETTERS),
    (17, b"a=xxxxx\nb=1\n", b"setenv a 1; setenv b xxxxx\n.undo\n.print\n", b"[Finished 0 2]\n[Undone]\na=xxxxx\nb=1\n"),
    (
        64, b".flags=k:d\nk=1\n", b"setenv -f .flags k:so; setenv k 2; setenv -f k 3; setenv m 1\n.undo\nsetenv k x; setenv k 2\n.print\n",
        b'## Error: Can\'t overwrite "k"\n[Finished 0 4]\n[Undone]\n## Error: type check failure for "k"\n[Finished 0 2]\n.flags=k:d\nk=2\n',
    ),
    (64, b"k=1\n", b"setenv .flags k:sr\n.undo\nsetenv k 2\n.print\n", b"[Finished 0 1]\n[Undone]\n[Finished 0 1]\nk=2\n"),
    (64, b"k=x\n.flags=k:dr\n", b"setenv -f k 2; setenv -f .flags\n.undo\n.print\n", b"[Finished 0 2]\n[Undone]\n.flags=k:dr\nk=x\n"),
    (
        64, b".flags=k:sr\n", b"setenv -f .flags\n.undo\nsetenv k 1\n.print\n",
        b'[Finished 0 1]\n[Undone]\n## Error: Can\'t create "k"\n[Finished 1 1]\n.flags=k:sr\n',
    ),
    (8, b"", b"setenv a b; echo $?\n.undo\n.print\n", b'## Error: no room for "a"\n1\n[Finished 0 2]\n[Undone]\n'),
    (64, b"", b"setenv n 0; while true; do setexpr n $n + 1; done\n.undo\n.print\n", b"[Steps 0 10]\n[Undone]\n"),
    (64, b"", b"setenv a 'exit 3; echo x'; run a; echo y\n.undo\n.print\n", b"[Exited 3 4]\n[Undone]\n"),
    (16, b"a=1\n", b"setenv a\n.save\n.undo\n.print\n", b"[Finished 0 1]\nSaved copy 1\n[Undone]\na=1\n"),
    # (after it `k` has no access and no type)
    (
        4096, b"", b"setenv .flags k:so; setenv k 1; setenv k 2; setenv -f k 3; env delete k\n.undo\n.print\nsetenv k 1; setenv k x; env delete k\n",
        b'## Error: Can\'t overwrite "k"\n## Error: Can\'t delete "k"\n[Finished 1 6]\n[Undone]\n[Finished 0 4]\n',
    ),
]  # fmt: skip
# The last of 1,001 items of `.flags` for one name decides
ITEMS = b"a:d," * 1000 + b"a:b"


def over_small_board(name, given, output, *words, **rest):
    """A session over a single image of 16 bytes that was never written."""
    return unwritten(name, SMALL, given, output, *words, seconds=1, **rest)


def answered():
    for row in BLOCKS + NAMES + BOUNDED:
        yield over_small_board(*row)
    text = {b"default": b"p=1\n"}
    yield over_small_board("a default text", b".print\n", b"p=1\n", b"--default", b"default", files=text)
    given, output = b"setenv .flags %s; setenv a T; setenv a 2\n.print\n", b'## Error: type check failure for "a"\n[Finished 1 3]\n.flags=%s\na=T\n'
    yield unwritten("1,001 items for one name", Geometry(1, 8192), given % ITEMS, output % ITEMS)


def stood_in():
    for text, given, output, errors in STAND_INS:
        files = {} if text is None else {b"stand-ins": text}
        yield over_small_board("stand-ins", given, output, b"--stubs", b"stand-ins", files=files, errors=errors)
    words = [b"--stubs", b"stand-ins", b"--default", b"absent"]
    yield over_small_board("the default text first", b"", b"", *words, errors=b"fwenv: cannot read absent\n")


def left():
    given = {b"stand-ins": LEAVING}
    for words, text, output in LEFT:
        yield over_small_board("a command that leaves the board", text, output, b"--stubs", b"stand-ins", *words, files=given)
    for words, name, option in NO_NAMES:
        errors = NOT_A_STAND_IN % (name, option)
        yield over_small_board("no such stand-in", b"echo a\n", b"", b"--stubs", b"stand-ins", *words, files=given, errors=errors)
    yield over_small_board("no stand-ins", b"echo a\n", b"", b"--boots", b"booti", errors=NOT_A_STAND_IN % (b"booti", b"--boots"))


def wrong_numbers():
    """A fault of the command line is reported before any file is opened; of two the first in the order of
    docs/dry-runs.md is reported."""
    for option, (_, most) in LIMITS.items():
        for text in [*NO_NUMBERS, b"%d" % (most + 1)]:
            wanted = Answer(1, b"", NO_NUMBER % (text, option.encode(), most), {})
            yield Case("a wrong number", arguments(b"session", b"%s=%s" % (option.encode(), text)), wanted=wanted)
    words = [b"session", b"--output", b"16777217", b"--depth", b"17"]
    yield Case("two wrong numbers", words, wanted=Answer(1, b"", NO_NUMBER % (b"17", b"--depth", 16), {}))
    for words, text in WRONG_WORDS:
        yield Case("wrong words", [b"session", *words], wanted=Answer(1, b"", b"error: %s\n%s" % (text, USAGE), {}))


def written():
    for given, output, second, first, *words in WRITES:
        files = board(PAIR, [FIRST, SECOND])
        wanted = Answer(0, output, b"", board(PAIR, [first, second]))
        yield Case("what is written", arguments(b"session", *words), files, given, wanted=wanted)
    for order, flags, given, output, left in FLAGS:
        form = Geometry(2, 9, order)
        before, after = ([ERASED * 9 if flag is None else form.image(flag, b"\0") for flag in each] for each in (flags, left))
        errors = WARNING if flags[0] is None else b""
        wanted = Answer(0, output, errors, board(form, after))
        yield Case("flags", arguments(b"session", b"--write", order=order), board(form, before), given, wanted=wanted)


def undone():
    for size, text, given, output in UNDONE:
        words = [b"--write", b"--default", b"default", b"--steps", b"10"]
        yield unwritten("an undo", Geometry(1, size), given, output, *words, files={b"default": text})


def pieces():
    """Lines that end about where 4,096 bytes do, as many as are read at once."""
    for length in range(4060, 4110):
        given = b"setenv a 1\n# " + b"x" * length + b"\n.print\nsetenv b 2\n.print\n"
        yield over_small_board("a long line", given, b"[Finished 0 1]\na=1\n[Finished 0 1]\na=1\nb=2\n")


def chunks():
    return [answered, stood_in, left, wrong_numbers, written, undone, pieces]
