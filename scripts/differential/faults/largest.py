"""What is as large as it may be: texts of 16 MiB, images, names, values and `.flags` of 1 MiB, all their variables
changed and brought back, names in orders that are hard on a sorted store, and words and stand-in files. Each is answered in a few seconds."""

import functools

from differential.harness.boards import arguments, board, unwritten
from differential.harness.running import Case
from model.image import ERASED, LARGEST, Geometry
from model.program import Answer

TEXT = 2**24
SINGLE, REDUNDANT = Geometry(1, LARGEST), Geometry(2, LARGEST)
# With the longest value or name there are one other byte, the `=` and two 0 bytes.
LONGEST = b"x" * (SINGLE.room - 4)
# Variables of 20 bytes, of which an area of the greatest image holds this many before the 0 that ends their list.
VALUE, COUNT = b"x" * 10, (SINGLE.room - 1) // 20
# Arguments may have 128 KiB each: this many of them fill an area together with a name of one byte.
ARGUMENT = 131_000
SECONDS, ORDERED = 4, 20_480


def name_of(number):
    """Eight letters, one for each hexadecimal digit."""
    return bytes(b"ABCDEFGHIJKLMNOP"[int(digit, 16)] for digit in f"{number:08x}")


def lines(numbers, separator, value, end=b"\n"):
    return b"".join(name_of(number) + separator + value + end for number in numbers)


MANY = lines(range(COUNT), b"=", VALUE, b"\0")
FLAGS = b".flags=" + b"".join(b"%05x:d," % number for number in range(131_000)) + b"\0"


def over(form, area, words, files=(), given=b""):
    """A call over one good copy with this area, or over copies that were never written."""
    copies = [ERASED * form.size] * form.copies
    if area:
        copies[0] = form.image(3, area)
    tool, *rest = words
    return Case(f"the largest: {tool.decode()}", arguments(tool, *rest), board(form, copies) | dict(files), given, seconds=SECONDS)


def texts():
    many, long = b"x" * 246, b"x" * (TEXT - 3)
    for separator, words in ((b"=", [b"import", b"text"]), (b" ", [b"setenv", b"-s", b"text"])):
        for text in (lines(range(TEXT // 256), separator, many), b"a" + separator + long + b"\n"):
            assert len(text) == TEXT
            yield over(REDUNDANT, b"", words, {b"text": text})
            yield over(REDUNDANT, b"", words, {b"text": text + b"\n"})
    line = b"device 3 100000"
    for text in (b"#" + long[: 1 - len(line)] + b"\n" + line, long[:-5] + b" 0 4000\n"):
        case = over(SINGLE, MANY, [b"setenv", b"a"])
        case.files[b"fw.config"] = text
        yield case


def images():
    for text in (lines(range(COUNT), b"=", VALUE), b"a=" + LONGEST + b"\n", b"a=" + LONGEST + b"x\n"):
        yield over(SINGLE, b"", [b"printenv", b"--default", b"text"], {b"text": text})
    big = Geometry(1, LARGEST, "big")
    for area in (MANY, b"a=" + LONGEST + b"\0", LONGEST + b"=1\0", every_kind()):
        yield Case("the largest image", [b"--big-endian"], given=big.image(0, area), seconds=SECONDS)
        yield over(SINGLE, area, [b"session", b"--write"], given=b".save\n.undo\n.print\n.save\n")
    yield over(SINGLE, b"a=" + b"\\" * len(LONGEST) + b"\0", [b"export"])


def every_kind():
    """Names that come again, without `=`, without a value, and an entry without a name."""
    return b"".join(b"n%03d=%05d\0p%03d=%05d\0p%03d\0q%03d=1\0q%03d=\0=x\0" % (n, i, n, i, n, n, n) for i in range(24_380) for n in [i % 1000])


def undone(changes):
    """A block whose changes are saved and undone, and made again."""
    return changes + b".save\n.mark a\n.print\n.undo\n.print\n" + changes + b".save\n"


def changes():
    write = [b"session", b"--write"]
    value, name = b"a=" + LONGEST + b"\0", LONGEST + b"=1\0"
    yield over(SINGLE, value, write, given=undone(b"setenv b 1; env delete a; setenv b 1\n"))
    yield over(SINGLE, value, [b"import", b"text"], {b"text": b"b=1\na=\nc=" + LONGEST + b"\nd=1\n"})
    yield over(SINGLE, name, [b"import", b"text"], {b"text": LONGEST + b"=22\n" + LONGEST + b"=2\n"})
    yield over(SINGLE, FLAGS, [b"import", b"text"], {b"text": b"1ffb7=x\n1ffb8=x\n00000=\n.flags=\n1ffb7=x\n"})
    yield over(SINGLE, FLAGS, write, given=undone(b"setenv 1ffb7 x; setenv 1ffb7 7; setenv 1ffb8 x; setenv .flags; setenv 1ffb7 x\n"))
    names = b" ".join(map(name_of, range(COUNT)))
    yield over(SINGLE, MANY, write, given=undone(b"env delete " + names + b"\n"))
    yield over(SINGLE, MANY, [b"import", b"text"], {b"text": lines(range(COUNT), b"=", b"1")})


def tools():
    yield over(REDUNDANT, b"", [b"import", b"text"], {b"text": lines(range(COUNT), b"=", VALUE)})
    for words in ([b"printenv"], [b"export"]):
        yield over(REDUNDANT, MANY, words)
    yield over(REDUNDANT, MANY, [b"setenv", b"-s", b"text"], {b"text": lines(range(COUNT), b" ", b"")})
    yield over(SINGLE, MANY, [b"restore", b"text"], {b"text": lines(range(COUNT), b"=", b"1")})
    words = [b"x" * ARGUMENT] * 8
    rest = REDUNDANT.room - 4 - len(b" ".join(words)) - 1
    for last in (rest, rest + 1):
        yield over(REDUNDANT, b"", [b"setenv", b"a", *words, b"y" * last])
    yield over(REDUNDANT, b"a=" + LONGEST[:-1] + b"\0", [b"printenv", b"-n", b"a"])


def started():
    """A variable of some 100,000 bytes that is started."""
    for value in (b"#" + b"x" * 99_991 + b"\necho a", b"true;" * 19_999 + b"echo a"):
        case = over(SINGLE, b"v=" + value + b"\0", [b"session"], given=b"run v\n")
        case.wanted = Answer(0, b"a\n[Finished 0 %d]\n" % (3 + value.count(b"true")), b"", case.files)
        yield case


def orders():
    """Orders of names: rising, falling, from both ends, scattered, and the same place again and again."""
    numbers = range(ORDERED)
    ends = [number for pair in zip(numbers, reversed(numbers)) for number in pair][:ORDERED]
    scattered = [number * 7919 % ORDERED for number in numbers]
    for order in (numbers, reversed(numbers), ends, scattered):
        yield over(SINGLE, b"", [b"session", b"--write"], given=undone(b"".join(b"setenv %s 1\n" % name_of(each) for each in order)))
    place = b"".join(b"setenv %s\nsetenv %s 1\n" % (name_of(ORDERED // 2), name_of(ORDERED // 2)) for _ in numbers)
    yield over(SINGLE, lines(numbers, b"=", b"1", b"\0"), [b"session", b"--write"], given=undone(place))


def dry_run(script, output, stand_ins=b"mmc\n", errors=b""):
    """A session of one script over a board that was never written. What it prints is given by hand, since the model would take long."""
    words, files = [b"--stubs", b"stand-ins", b"--word=65536", b"--output=16777216"], {b"stand-ins": stand_ins}
    name, form = "the largest: a script", Geometry(1, 64)
    return unwritten(name, form, script + b"\n", output, *words, files=files, errors=errors, is_modelled=False, seconds=SECONDS)


def expanded(value, words, *fields):
    """The fields of words in which `x` has a value, a line for each."""
    script = b'x="%s"; for i in %s; do echo "$i"; done' % (value, words)
    return dry_run(script, b"".join(field + b"\n" for field in fields) + b"[Finished 0 %d]\n" % (2 * len(fields) + 2))


def scripts():
    """Words, texts, names and stand-in files of a dry run."""
    long, letters, name = b"v" * 65_536, b"a " * 32_768, b"n" * 65_536
    yield expanded(long, b"$x", long)
    yield expanded(long, b'$x "$x" $x', long, long, long)
    yield expanded(letters, b"$x", *[b"a"] * 32_768)
    yield expanded(letters, b'"$x"', letters)
    yield expanded(b"", long, long)
    yield expanded(b"", b"''" * 65_536, b"")
    yield dry_run(b"x=%s; echo ${x}x" % long, b"[Word 0 1]\n")
    yield dry_run(b"echo %sv" % long, b"[Word 0 0]\n")
    yield dry_run(b"%s=1; echo $%s; mmc %s" % (name, name, name), b"1\n+ mmc " + name + b"\n[Finished 0 3]\n")
    line = long[:-1] + b"\n"
    for count, ending in ((255, b"\n[Finished 0 513]\n"), (256, b"[Output 0 514]\n")):
        script = b'x=%s; for i in %s; do echo "$x"; done; echo' % (long[:-1], b"1 " * count)
        yield dry_run(script, line * count + ending)
    for count, status in ((65_536, b"0"), (65_537, b"1")):
        yield dry_run(b"test " + b"! " * count + b"-n a; echo $?", status + b"\n[Finished 0 2]\n")
    yield dry_run(b"test " + b"9" * 60_000 + b" -eq 9223372036854775807; echo $?", b"0\n[Finished 0 2]\n")
    yield dry_run(b"setexpr v " + b"f" * 60_000 + b"0; printenv", b"v=fffffffffffffff0\n[Finished 0 2]\n")
    yield dry_run(b"true", b"[Finished 0 1]\n", stand_ins=b"n" * TEXT)
    many = b"".join(b"n%d %d\n" % (number, number % 256) for number in range(100_000))
    output = b"+ n65537\n1\nUnknown command 'n100000' - try 'help'\n[Finished 1 3]\n"
    yield dry_run(b"n65537; echo $?; n100000", output, stand_ins=many)
    yield dry_run(b"true", b"", stand_ins=many + b"n54321", errors=b"fwenv: stand-ins: Twice in line 100001\n")


def by_board(script, output, text, errors=b""):
    """The same by a board file, whose rules are compared with one another: they are the most that there may be."""
    name, form = "the largest: a board file", Geometry(1, 64)
    files = {b"board": text}
    return unwritten(name, form, script + b"\n", output, b"--board", b"board", files=files, errors=errors, is_modelled=False, seconds=SECONDS)


def board_files():
    """As many rules as there may be, as long as lines may be or of as many words: each is compared with all before it."""
    name = b"p" * 4080 + b"%04d"
    alike = b"".join(name % number + b" -> 7\n" for number in range(512))
    last = name % 511
    yield by_board(last + b"; echo $?", b"+ " + last + b"\n7\n[Finished 0 2]\n", alike)
    covered = alike.removesuffix(last + b" -> 7\n") + name % 0 + b" -> 7\n"
    yield by_board(b"true", b"", covered, b"fwenv: board:512: an earlier line answers all of these calls\n")
    word = b"a" * 14
    front = (word + b" ") * 255
    words = b"".join(front + b"%04d -> 7\n" % number for number in range(512))
    output = b"Unknown command '%s' - try 'help'\n+ %s0511\n7\n[Finished 0 3]\n" % (word, front)
    yield by_board(word + b"; " + front + b"0511; echo $?", output, words)
    beginnings = b"".join(b"a* " * 255 + b"b%04d* -> 7\n" % number for number in range(512))
    yield by_board(b"true", b"[Finished 0 1]\n", beginnings)
    yield by_board(b"true", b"", beginnings + b"x\n", b"fwenv: board:513: more than 512 rules\n")


def one(rows, at):
    return [list(rows())[at]]


def chunks():
    """Each row is a chunk, since it takes long."""
    return [
        functools.partial(one, rows, at)
        for rows in (texts, images, changes, tools, started, orders, scripts, board_files)
        for at in range(len(list(rows())))
    ]
