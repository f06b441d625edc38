"""The tools by hand: each row is a call over a board, what it prints, and the copies that it leaves."""

from differential.harness.boards import BLANK, CONFIG, EMPTIED, FIRST, PAIR, SAVED, SECOND, arguments, board, calls
from differential.harness.damage import turned
from differential.harness.running import Case
from differential.rows import text_rows
from model.arguments import NAME_AND_SCRIPT, NO_COPY, NO_NAME, NO_SUBCOMMAND, VERSION
from model.image import ERASED, Geometry, entries
from model.program import WARNING, Answer

SMALL = Geometry(1, 32)
IMAGE = b"this is an image of an environment, not a text"
# What is no text, and what is said of it
FOREIGN = [
    (SMALL.image(0, b"a=1\0"), IMAGE),
    (Geometry(1, 8, "big").image(0, b""), IMAGE),
    (Geometry(2, 9).image(0, b""), IMAGE),
    (Geometry(2, 2**20, "big").image(7, b"a=1\0"), IMAGE),
    (b"\x27\x05\x19\x56boot", b"this is an image of mkimage, as boot.scr is, not a text"),
    ("a=1\n".encode("utf-16"), b"this text is in UTF-16"),
    (b"\xfe\xff\0a\0=\0001", b"this text is in UTF-16"),
    ("a=1\n".encode("utf-8-sig"), b"this text begins with a byte order mark"),
]
FOREIGN_CALLS = calls(
    "import -c %s file / restore -c %s file / printenv -c blank --default file / run --env file -e a / check --env file / run -c %s -f file"
    " / check -f file / image --env file --size 20".replace("%s", CONFIG.decode())
)
NO_ROOM_A = b'## Error: no room for "a"\n'
NO_ROOM = b'## Error: no room for "%s" in line %d\n'
TEN_REFUSED = b"".join(NO_ROOM % (b"q", line) for line in range(1, 11)) + b"## Error: 10 entries refused\n"
NO_ENTRY = b"## Error: the text has no entry, and nothing is restored\n"
# Arguments, status, output, errors; the second copy afterwards (SECOND), and a text in the file `text`
OVER_GOOD_COPIES = [
    ([b"printenv"], 0, b"a=b\n", b""),
    ([b"printenv", b"a", b"a"], 0, b"a=b\na=b\n", b""),
    ([b"printenv", b"-n", b"a"], 0, b"b\n", b""),
    ([b"printenv", b"q", b"a"], 1, b"a=b\n", b'## Error: "q" not defined\n'),
    ([b"printenv", b"-n"], 1, b"", b"## Error: -n takes exactly one name\n"),
    ([b"printenv", b"-n", b"a", b"a"], 1, b"", b"## Error: -n takes exactly one name\n"),
    ([b"printenv", b"--default", b"text"], 0, b"a=b\n", b"", SECOND, b"p=1\n"),
    ([b"export"], 0, b"a=b\n", b""),
    ([b"setenv", b"a", b"b"], 0, b"", b"", SAVED),
    ([b"setenv", b"a"], 0, b"", b"", EMPTIED),
    ([b"setenv", b"a", b""], 0, b"", b"", EMPTIED),
    ([b"setenv", b"q"], 0, b"", b"", SAVED),
    ([b"setenv", b"a", b"bc"], 1, b"", NO_ROOM_A),
    ([b"setenv", b"a=b", b"c"], 1, b"", b'## Error: bad name or value for "a=b"\n'),
    ([b"setenv", b"-s", b"text"], 0, b"", b"", SAVED, b"# nothing\n"),
    ([b"setenv", b"-s", b"text"], 0, b"", b"", EMPTIED, b"a c\na\n"),
    ([b"setenv", b"-s", b"text"], 1, b"", b'## Error: no room for "b"\n', SECOND, b"a c\nb c\na d\n"),
    ([b"setenv", b"-s", b"text"], 0, b"", b"", PAIR.image(8, b"c=1\0"), b"a\nc 1\n"),
    ([b"setenv", b"-s", b"text"], 1, b"", b'## Error: no room for "c"\n', SECOND, b"a\nc 12\n"),
    ([b"setenv", b"-s", b"text"], 1, b"", b"fwenv: text: EmptyName in line 2\n", SECOND, b"a c\n=b\n"),
    ([b"setenv", b"-s", b"absent"], 1, b"", b"fwenv: cannot read absent\n"),
    ([b"import", b"text"], 1, b"", b"fwenv: cannot read text\n", SECOND, b"\n" * 16_777_217),
    ([b"restore", b"text"], 1, b"", b"fwenv: cannot read text: it is longer than 16777216 bytes\n", SECOND, b"\n" * 16_777_217),
    ([b"import", b"text"], 0, b"", b"", SAVED, b"# nothing\na=b\n"),
    ([b"import", b"text"], 0, b"", b"", SAVED, b"q\na=b\n"),
    ([b"import", b"text"], 1, b"", NO_ROOM % (b"c", 1) + b"## Error: 1 entries refused\n", SAVED, b"c=1\n"),
    ([b"import", b"text"], 0, b"", b"", PAIR.image(8, b"c=1\0"), b"a\nc=1\n"),
    ([b"import", b"text"], 1, b"", NO_ROOM % (b"a", 1) + NO_ROOM % (b"q", 2) + b"## Error: 2 entries refused\n", EMPTIED, b"a=bc\nq=1\na=\n"),
    ([b"import", b"text"], 1, b"", TEN_REFUSED, EMPTIED, b"q=1\n" * 10 + b"a=\n"),
    ([b"import", b"text"], 1, b"", b"fwenv: text: EmptyName in line 3\n", SECOND, b"a=b\n\n=c\n"),
    ([b"import", b"text"], 1, b"", b"fwenv: text: Nul\n", SECOND, b"a=b\0\n"),
    ([b"restore", b"text"], 0, b"", b"", PAIR.image(8, b"q=1\0"), b"q=1\n"),
    ([b"restore", b"text"], 1, b"", b'## Error: no room for "q" in line 2\n', SECOND, b"a=b\nq=1\n"),
    ([b"restore", b"absent"], 1, b"", b"fwenv: cannot read absent: no such file\n"),
    ([b"restore", b"text"], 1, b"", NO_ENTRY, SECOND, b""),
    ([b"restore", b"text"], 1, b"", NO_ENTRY, SECOND, b"# nothing\n\n"),
]
# The same if no copy is good; the warning comes first, and it is the first copy that is written
OVER_BLANK_COPIES = [
    ([b"printenv"], 0, b"", b""),
    ([b"printenv", b"--default", b"text"], 0, b"p=1\n", b"", BLANK, b"p=1\n"),
    ([b"printenv", b"--default", b"text"], 1, b"", b"fwenv: text: Full in line 2\n", BLANK, b"p=1\nq=22\n"),
    ([b"printenv", b"--default", b"text"], 1, b"", b"fwenv: text: Full in line 1\n", BLANK, b".flags=a\n"),
    ([b"printenv", b"--default", b"absent"], 1, b"", b"fwenv: cannot read absent\n"),
    ([b"import", b"--default", b"text", b"absent"], 1, b"", b"fwenv: cannot read absent\n", BLANK, b"p=1\n"),
    ([b"setenv", b"a", b"b"], 0, b"", b"", PAIR.image(1, b"a=b\0")),
    ([b"restore", b"text"], 0, b"", b"", PAIR.image(1, b"q=1\0"), b"q=1\n"),
    ([b"restore", b"--default", b"absent", b"text"], 1, b"", b"fwenv: cannot read absent: no such file\n", BLANK, b"q=1\n"),
    ([b"restore", b"--default", b"text", b"text"], 0, b"", b"", PAIR.image(1, b"q=1\0"), b"q=1\n"),
]


def single(size, area):
    return Geometry(1, size).image(0, area)


NO_VARIABLES, ONE_VARIABLE = bytes.fromhex("1CDF442100000000"), bytes.fromhex("D296622B613D620000")
# The same area of 14 bytes as it was stored, with names that come again or have no value, and as it is saved
STORED, SAVED_ANEW = single(18, b"a=1\0a=2\0b\0c=\0\0"), single(18, b"a=2\0")
# An image on standard input, and what is printed
SHOWN = [
    (NO_VARIABLES, 0, b"", b""),
    (STORED, 0, b"a=2\n", b""),
    *((image, 1, b"", b"## Error: bad image: BadCrc\n") for image in turned(ONE_VARIABLE)),
]
DEFAULTS = [b"printenv", b"--default", b"text"]
# A single image: arguments, status, output, errors, the image afterwards if it is another, and a text
OVER_ONE_COPY = [
    (NO_VARIABLES, [b"setenv", b"a", b"b"], 1, b"", NO_ROOM_A),
    (single(9, b"\0"), [b"setenv", b"a", b"b"], 0, b"", b"", ONE_VARIABLE),
    (single(68, b"\0"), [b"setenv", b"a", b"1", b"2"], 0, b"", b"", single(68, b"a=1 2\0")),
    (STORED, [b"printenv"], 0, b"a=2\n", b""),
    (STORED, [b"setenv", b"q"], 0, b"", b"", SAVED_ANEW),
    (single(64, b"#k=1\0a=2\0"), [b"export"], 1, b"a=2\n", b'## Error: can\'t export "#k"\n'),
    (ERASED * 64, DEFAULTS, 0, b".flags=p:sc\np=1\n", b"", None, b".flags=p:sc\np=1\n"),
    (ERASED * 21, DEFAULTS, 0, b".flags=p:sc\np=1\n", b"", None, b".flags=p:sc\np=1\n"),
    (ERASED * 20, DEFAULTS, 1, b"", b"fwenv: text: Full in line 2\n", None, b".flags=p:sc\np=1\n"),
    (ERASED * 64, DEFAULTS, 1, b"", b"fwenv: text: BadType in line 2\n", None, b".flags=a:d\na=x\n"),
    (
        ERASED * 4096, [b"import", b"text"], 1, b"",
        b'## Error: type check failure for "a" in line 2\n## Error: 1 entries refused\n',
        single(4096, b".flags=a:d\0b=1\0"), b".flags=a:d\na=x\nb=1\n",
    ),
]  # fmt: skip
# A single image of 64 bytes whose variables have types and accesses: arguments, status, output, errors, and what is changed
SINGLE = Geometry(1, 64)
TYPED = {b".flags": b"n:d,r:sr", b"a": b"1", b"m": b"x\\\ny"}
OVER_TYPES = [
    ([b"setenv", b"n", b"x"], 1, b"", b'## Error: type check failure for "n"\n', {}),
    ([b"setenv", b"r", b"x"], 1, b"", b'## Error: Can\'t create "r"\n', {}),
    ([b"setenv", b"a", b"--", b"-x", b"2"], 0, b"", b"", {b"a": b"-x 2"}),
    ([b"setenv", b"--", b"#q", b"1"], 0, b"", b"", {b"#q": b"1"}),
    ([b"export"], 0, b".flags=n:d,r:sr\na=1\nm=x\\\\\\\ny\n", b"", {}),
]
# A restore there: the text, status, errors, and the variables afterwards, if it is saved
NO_ROOM_B = b'## Error: no room for "b" in line 3\n'
RESTORED = [
    (b"a=2\nb=3\n", 0, b"", {b"a": b"2", b"b": b"3"}),
    (b".flags=n:d,r:sr\nr=1\nn=7\n", 0, b"", {b".flags": b"n:d,r:sr", b"r": b"1", b"n": b"7"}),
    (b"# nothing\n", 1, NO_ENTRY, None),
    (b"a=\n", 0, b"", {}),
    (b"a=1\nb=2\na=\n", 0, b"", {b"b": b"2"}),
    (b"n=x\n.flags=n:d\n", 0, b"", {b"n": b"x", b".flags": b"n:d"}),
    (b"a=1\n\nb=%s\nc=2\n" % (b"0" * 60), 1, NO_ROOM_B, None),
    (b"b=1\n.flags=.flags:d\na=1\n.flags=x\n", 1, b'## Error: type check failure for ".flags" in line 4\n', None),
    (b"a=2\n=b\n", 1, b"fwenv: text: EmptyName in line 2\n", None),
]
WRONG_WORDS = [
    ([b"frob"], NO_SUBCOMMAND % b"frob"),
    ([b""], NO_SUBCOMMAND % b""),
    ([b"setenv", b"-c", CONFIG], NO_NAME % (b"-s", b"fwenv setenv")),
    ([b"setenv", b"-c", CONFIG, b"-s", b"text", b"a"], NAME_AND_SCRIPT % (b"-s", b"fwenv setenv")),
    ([b"restore", b"-c", CONFIG], None),
    ([b"restore", b"-c", CONFIG, b"text", b"text"], None),
]


def over_pair(copies, side, warning, words, status, output, errors, left=None, text=None):
    """A row over two copies, of which the one on this side is `left` afterwards."""
    files = {} if text is None else {b"text": text}
    after = list(copies)
    after[side] = left or copies[side]
    wanted = Answer(status, output, warning + errors, board(PAIR, after) | files)
    tool, *rest = words
    return Case("a tool", arguments(tool, *rest), board(PAIR, copies) | files, wanted=wanted)


# One copy that is asked for: the copies, arguments, status, output and errors; the first copy has the flag 7
LONG_LIST, NOT_FIRST = PAIR.image(9, b"a=bcd"), b"fwenv: the first copy isn't good: "
OLDER, NEWER = PAIR.image(6, b"a=o\0"), PAIR.image(8, b"a=n\0")
WANTED = [
    ([FIRST, NEWER], [b"printenv", b"--copy", b"1"], 0, b"a=b\n", b""),
    ([FIRST, NEWER], [b"printenv", b"--copy=2"], 0, b"a=n\n", b""),
    ([FIRST, OLDER], [b"printenv", b"-n", b"--copy=1", b"a"], 0, b"b\n", b""),
    ([FIRST, OLDER], [b"printenv", b"--copy=2", b"a", b"q"], 1, b"a=o\n", b'## Error: "q" not defined\n'),
    ([FIRST, OLDER], [b"export", b"--copy", b"2"], 0, b"a=o\n", b""),
    ([FIRST, SECOND], [b"export", b"--copy=2"], 0, b"", b""),
    ([FIRST, BLANK], [b"export", b"--copy=1", b"--need-copy"], 0, b"a=b\n", b""),
    ([FIRST, BLANK], [b"export", b"--copy=2"], 1, b"", b"fwenv: the second copy isn't good: checksum is wrong\n"),
    ([FIRST, LONG_LIST], [b"printenv", b"--copy=2"], 1, b"", b"fwenv: the second copy isn't good: list of entries isn't ended\n"),
    ([BLANK, NEWER], [b"printenv", b"--copy=1", b"--default", b"absent"], 1, b"", NOT_FIRST + b"checksum is wrong\n"),
    ([LONG_LIST, BLANK], [b"export", b"--copy=1", b"--need-copy"], 1, b"", NOT_FIRST + b"list of entries isn't ended\n"),
    ([FIRST, NEWER], [b"printenv", b"--copy=2", b"--default", b"absent"], 1, b"", b"fwenv: cannot read absent\n"),
]
WRONG_COPIES = [b"0", b"3", b"12", b"", b"01", b"one", b"-1", b"+1", b" 1"]


def wanted_copies():
    for copies, (tool, *rest), status, output, errors in WANTED:
        files = board(PAIR, copies)
        yield Case("one copy", arguments(tool, *rest), files, wanted=Answer(status, output, errors, files))
    big = Geometry(2, 10, "big")
    files = board(big, [big.image(7, b"a=b\0"), big.image(8, b"a=n\0")])
    yield Case("one copy", arguments(b"export", b"--copy=1", order="big"), files, wanted=Answer(0, b"a=b\n", b"", files))
    files = board(SINGLE, [SINGLE.image(0, b"a=1\0")])
    yield Case("the one copy", arguments(b"printenv", b"--copy=1"), files, wanted=Answer(0, b"a=1\n", b"", files))
    wanted = Answer(1, b"", b"fwenv: there is no second copy\n", files)
    yield Case("no second copy", arguments(b"printenv", b"--copy=2"), files, wanted=wanted)
    files = board(PAIR, [FIRST, SECOND])
    for word in WRONG_COPIES:
        for tool in (b"printenv", b"export"):
            yield Case("no copy", arguments(tool, b"--copy=" + word), files, wanted=Answer(1, b"", NO_COPY % word, files))
    for tool in (b"status", b"session", b"check"):
        yield Case("no option", arguments(tool, b"--copy=1"), files, wanted=Answer(2 if tool == b"check" else 1, b"", None, files))


# The same of which a text is standard input: that text, the status, output and errors, and the second copy afterwards (SECOND)
OVER_INPUT = [
    ([b"import", b"-"], b"c=1\na=\n", 1, b"", NO_ROOM % (b"c", 1) + b"## Error: 1 entries refused\n", EMPTIED),
    ([b"restore", b"-"], b"q=1\n", 0, b"", b"", PAIR.image(8, b"q=1\0")),
    ([b"restore", b"--", b"-"], b"", 1, b"", NO_ENTRY),
    ([b"import", b"-"], b"=c\n", 1, b"", b"fwenv: -: EmptyName in line 1\n"),
    ([b"setenv", b"-s", b"-"], b"a\nc 1\n", 0, b"", b"", PAIR.image(8, b"c=1\0")),
    ([b"setenv", b"-s-"], b"=b\n", 1, b"", b"fwenv: -: EmptyName in line 1\n"),
    ([b"printenv", b"--default=-"], b"=b\n", 1, b"", b"fwenv: -: EmptyName in line 1\n"),
    ([b"printenv", b"-"], b"", 1, b"", b'## Error: "-" not defined\n'),
    ([b"restore", b"-"], b"\n" * 16_777_217, 1, b"", b"fwenv: cannot read -: it is longer than 16777216 bytes\n"),
    ([b"import", b"./-"], b"", 0, b"", b"", PAIR.image(8, b"a=x\0")),
]


def over_input():
    for (tool, *rest), given, status, output, errors, *left in OVER_INPUT:
        files = {b"-": b"a=x\n"} | board(PAIR, [FIRST, SECOND])
        wanted = Answer(status, output, errors, files | board(PAIR, [FIRST, *(left or [SECOND])]))
        yield Case("standard input", arguments(tool, *rest), files, given, wanted=wanted, is_modelled=b"./-" not in rest)
    files = board(PAIR, [FIRST, SECOND])
    wanted = Answer(0, b"a=b\n", b"", files)
    yield Case("a configuration from standard input", [b"printenv", b"-c", b"-"], files, files[CONFIG], wanted=wanted)
    text = b"whole file   -, 10 bytes: good as a copy with a flag, flag 7\nvariables    1, 5 of 5 bytes used\n"
    yield Case("an image from standard input", [b"status", b"-"], {}, FIRST, wanted=Answer(0, text, b"", {}))


def over_pairs():
    for row in OVER_GOOD_COPIES:
        yield over_pair([FIRST, SECOND], 1, b"", *row)
    for row in OVER_BLANK_COPIES:
        yield over_pair([BLANK, BLANK], 0, WARNING, *row)


def over_one_copy():
    for image, status, output, errors in SHOWN:
        yield Case("an image", [], given=image, wanted=Answer(status, output, errors, {}))
    for image, words, status, output, errors, *more in OVER_ONE_COPY:
        left, text = [*more, None, None][:2]
        form, files = Geometry(1, len(image)), {} if text is None else {b"text": text}
        warning = WARNING if image == ERASED * form.size else b""
        wanted = Answer(status, output, warning + errors, board(form, [left or image]) | files)
        yield Case("a tool over one copy", arguments(*words), board(form, [image]) | files, wanted=wanted)


def over_types():
    for (tool, *rest), status, output, errors, changes in OVER_TYPES:
        after = SINGLE.image(0, entries(TYPED | changes))
        wanted = Answer(status, output, errors, board(SINGLE, [after]))
        yield Case("types", arguments(tool, *rest), board(SINGLE, [SINGLE.image(0, entries(TYPED))]), wanted=wanted)
    text, before, after = b".flags=a:d\na=x\nb=1\n", {b"a": b"1"}, {b".flags": b"a:d", b"a": b"1", b"b": b"1"}
    files, left = ({b"text": text} | board(SINGLE, [SINGLE.image(0, entries(each))]) for each in (before, after))
    refused = b'## Error: type check failure for "a" in line 2\n## Error: 1 entries refused\n'
    wanted = Answer(1, b"", refused, left)
    yield Case("a type that an import gives", arguments(b"import", b"text"), files, wanted=wanted)
    image = SINGLE.image(0, entries({b"#q": b"1", b"m": b"x\ny"}))
    wanted = Answer(1, b"m=x\\\ny\n", b'## Error: can\'t export "#q"\n', board(SINGLE, [image]))
    yield Case("a name that can't be exported", arguments(b"export"), board(SINGLE, [image]), wanted=wanted)
    yield Case("an image", [], given=image, wanted=Answer(0, b"#q=1\nm=x\ny\n", b"", {}))


def restores():
    """Names that `.flags` makes read-only are there before, and are in the text."""
    before = SINGLE.image(0, entries(TYPED | {b"r": b"5"}))
    for text, status, errors, variables in RESTORED:
        after = before if variables is None else SINGLE.image(0, entries(variables))
        wanted = Answer(status, b"", errors, board(SINGLE, [after]) | {b"text": text})
        yield Case("a restore", arguments(b"restore", b"text"), board(SINGLE, [before]) | {b"text": text}, wanted=wanted)


def in_big_endian():
    """The option may be before the subcommand and after it."""
    form = Geometry(1, 9, "big")
    image = b"\x2b\x62\x96\xd2a=b\0\0"
    words = [b"--big-endian", b"setenv", b"-c", CONFIG, b"a", b"b"]
    yield Case("big-endian", words, board(form, [ERASED * 9]), wanted=Answer(0, b"", WARNING, board(form, [image])))
    words = arguments(b"printenv", b"--big-endian")
    yield Case("big-endian", words, board(form, [image]), wanted=Answer(0, b"a=b\n", b"", board(form, [image])))


def foreign():
    """Files that are given in the place of a text and are none."""
    for file, what in FOREIGN:
        for words in FOREIGN_CALLS:
            warning = WARNING if b"blank" in words else b""
            files = {CONFIG: b"device 0 20\n", b"device": SMALL.image(0, b"a=1\0"), b"blank": b"erased 0 20\n", b"erased": ERASED * 32, b"file": file}
            errors = warning + b"fwenv: file: " + what + b"\n"
            yield Case("no text", words, files, wanted=Answer(2 if words[0] == b"check" else 1, b"", errors, files))


def words():
    for given, errors in WRONG_WORDS:
        files = board(PAIR, [FIRST, SECOND]) | {b"text": b"a c\n"}
        yield Case("wrong words", given, files, wanted=Answer(1, b"", errors, files))
    yield Case("the version", [b"--version"], wanted=Answer(0, VERSION, b"", {}))


def chunks():
    return [over_pairs, over_input, wanted_copies, over_one_copy, over_types, restores, in_big_endian, foreign, words, *text_rows.chunks()]
