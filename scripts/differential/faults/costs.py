"""Inputs made to be expensive, and those that are as long as they may be, each in bounded time and memory."""

from differential.harness.boards import STRICT, lines_of
from differential.harness.check_lines import cut_off, in_line, joins, last, lines, pointed, too_many
from differential.harness.running import Case
from model.image import ERASED, LARGEST, Geometry, entries
from model.program import TOO_LONG, WARNING, Answer

SMALL, LARGE = Geometry(1, 16), Geometry(1, LARGEST)
# Blocks and dot lines of a session over a board that was never written, and what is printed
BLOCKS = [
    ("65,535 quotes", b'"' * 65_535, b"[Syntax]\n"),
    ("65,536 quotes", b"echo " + b'"' * 65_536, b"\n[Finished 0 1]\n"),
    ("100,000 openings", b"if " * 100_000, b"[Syntax]\n"),
    ("100,000 openings of loops", b"while " * 100_000, b"[Syntax]\n"),
    ("a million separators", b";" * 1_000_000, b"[Finished 0 0]\n"),
    ("a million separators and a step", b";" * 1_000_000 + b"echo a\n", b"a\n[Finished 0 1]\n"),
    ("a substitution of a million bytes", b"echo ${" + b"a" * 1_000_000 + b"}\n", b"\n[Finished 0 1]\n"),
    ("a word of a million bytes", b"setenv " + b"a" * 1_000_000 + b" 1\n", b"[Word 0 0]\n"),
    ("a mark of a million bytes", b".mark " + b"a" * 1_000_000 + b"\n", b"[Unknown]\n"),
    ("a million blanks after a dot line", b".mark a" + b" " * 1_000_000 + b"\n", b"[Marked]\n"),
]
LINE, DOTS = b"#".ljust(2**24, b"x"), b".".ljust(2**24, b"x")
ENDED = b"echo -n\n.".ljust(2**24 - 1, b"x") + b"\n"
# Inputs as large as they may be: the name, the most KiB, the input, what is printed, and the message
INPUTS = [
    ("100,000 blocks", 16_384, b"echo a\n.x\n" * 100_000, b"a\n[Finished 0 1]\n[Unknown]\n" * 100_000, b""),
    ("a line of 16 MiB", 131_072, LINE, b"[Finished 0 0]\n", b""),
    ("a line of 16 MiB and a byte", 131_072, LINE + b"x", b"", TOO_LONG),
    ("a dot line of 16 MiB", 131_072, DOTS, b"[Unknown]\n", b""),
    ("a dot line of 16 MiB and a newline", 131_072, DOTS + b"\n", b"", TOO_LONG),
    ("a dot line up to 16 MiB, and a byte", 131_072, ENDED + b".", b"[Finished 0 1]\n[Unknown]\n", TOO_LONG),
    ("16 MiB of blocks", 16_384, b"echo 1234567\n.x\n" * 2**20, b"1234567\n[Finished 0 1]\n[Unknown]\n" * 2**20, b""),
]
LONG = {b"a" * 1_000_000: b"1"}
FLAGS = {b".flags": b",".join(b"%05x:d" % item for item in range(130_000))}


def bounded(case, seconds, kibibytes):
    """The case in so many seconds of a processor and so much memory."""
    case.prefix = ("bash", "-c", 'ulimit -t "$0" -v "$1" && exec "${@:2}"', str(seconds), str(kibibytes))
    case.seconds, case.is_modelled = seconds, False
    return case


def over(form, variables):
    image = form.image(0, entries(variables)) if variables else ERASED * form.size
    return {b"device": image, b"fw.config": b"device 0 %x\n" % form.size}


def session(name, given, output, errors=b""):
    files = over(SMALL, {})
    wanted = Answer(int(errors != b""), output, WARNING + errors, files)
    return Case(name, [b"session", b"-c", b"fw.config"], files, given, wanted=wanted)


def blocks():
    for row in BLOCKS:
        yield bounded(session(*row), 2, 262_144)


def inputs():
    """Memory doesn't grow with the number of blocks."""
    for name, most, *row in INPUTS:
        yield bounded(session(name, *row), 20, most)


def tool(name, words, before, after, output=b"", errors=b"", text=b""):
    """A tool over a large image, and the variables afterwards."""
    files = over(LARGE, before) | {b"text": text}
    status = int(errors.startswith(b"##"))
    wanted = Answer(status, output, errors or (b"" if before else WARNING), files | over(LARGE, after))
    word, *rest = words
    return Case(name, [word, b"-c", b"fw.config", *rest], files, wanted=wanted)


def variables():
    """A name of a million bytes, and `.flags` of 130,000 items."""
    last, other = b"1fbcf", b"1fbd0"
    failure = b'## Error: type check failure for "%s"\n'
    more = FLAGS | {last: b"7", other: b"x"}
    for case in (
        tool("an import of a name of a million bytes", [b"import", b"text"], {}, LONG, text=lines_of(LONG)),
        tool("a name of a million bytes", [b"printenv"], LONG, LONG, lines_of(LONG)),
        tool("an import of 130,000 items", [b"import", b"text"], {}, FLAGS, text=lines_of(FLAGS)),
        tool("a value of the type of the last item", [b"setenv", last, b"7"], FLAGS, FLAGS | {last: b"7"}),
        tool("a value of another type than the last item", [b"setenv", last, b"x"], FLAGS, FLAGS, errors=failure % last),
        tool("a value of another type than the first item", [b"setenv", b"00000", b"x"], FLAGS, FLAGS, errors=failure % b"00000"),
        tool("a name without an item", [b"setenv", other, b"x"], FLAGS, FLAGS | {other: b"x"}),
        tool("all variables next to 130,000 items", [b"printenv"], more, more, lines_of(more)),
    ):
        yield bounded(case, 2, 262_144)


def texts():
    """The longest texts, of the shortest lines: they are read, and what they leave stays."""
    text, script = b"a=1\n" * (2**22 - 1) + b"b=2\n", b"a 3\n" * (2**22 - 1) + b"b 4\n"
    read, set_again = {b"a": b"1", b"b": b"2"}, {b"a": b"3", b"b": b"4"}
    for case in (
        tool("a default text of 16 MiB", [b"printenv", b"--default", b"text"], {}, {}, lines_of(read), text=text),
        tool("an import of 16 MiB", [b"import", b"text"], {}, read, text=text),
        tool("a set script of 16 MiB", [b"setenv", b"-s", b"text"], read, set_again, text=script),
    ):
        case.seconds, case.is_modelled = 10, False
        yield case


def orders():
    """80,000 variables whose names first rise and then fall, in an image of 1 MiB: shown in order."""
    names = [b"v%05d" % number for number in range(80_000)]
    area = b"".join(name + b"=1\0" for name in names[:512] + names[:511:-1])
    wanted = Answer(0, b"".join(name + b"=1\n" for name in names), b"", {})
    yield bounded(Case("names that rise and then fall", [], given=LARGE.image(0, area), wanted=wanted), 2, 65_536)


def check(name, words, files, found, scripts=1, unseen=0):
    """`unseen`: errors behind those that are printed."""
    errors = sum(b": error: " in each for each in found)
    wanted = Answer(int(errors > 0), cut_off(found), last(scripts, errors + unseen, len(found) - errors), files)
    return bounded(Case(name, [b"check", *words], files, wanted=wanted), 2, 262_144)


def checks():
    """Many findings in one script, a long way from script to script, scripts each of which starts all, long names, and many names."""
    unknown = b"%s:1:%d: error: no builtin and no stand-in is called `a` [unknown-command]\n"
    script = b"a;" * 500_000
    found = [in_line(unknown % (b"s", column), script, column) for column in range(1, 1_000_000, 2)]
    yield check("500,000 commands that nobody has", [b"-f", b"s", b"--stubs", b"none"], {b"s": script, b"none": b""}, found)
    found = [pointed(b"s:200001:1: error: `fi` without `if` (Unexpected) [syntax]\n", b"fi")]
    yield check("a fault in line 200,001", [b"-f", b"s"], {b"s": b"true\n" * 200_000 + b"fi"}, found)
    for name, faulty, column, said in (
        ("65,535 quotes", b'"' * 65_535, 65_535, b"a quote is not closed (Quote)"),
        ("100,000 openings", b"if true; then " * 100_000, 897, b"more than 64 commands inside one another (Nest)"),
        ("100,000 branches", b"if a; then b; " + b"elif a; then b; " * 100_000, 1_600_015, b"no `fi` for the `if` in line 1 of the script (Missing)"),
    ):
        found = [in_line(b"s:1:%d: error: %s [syntax]\n" % (column, said), faulty, column)]
        yield check(name, [b"-f", b"s"], {b"s": faulty}, found)
    yield check("a chain of 200,001 commands", [b"-f", b"s"], {b"s": b"a && " * 200_000 + b"a"}, [])
    whole = [b"--env", b"env", b"--size=100000"]
    text = b"a=1\nbootcmd=" + b"a=1;\\\n" * 150_000 + b"\n"
    said = b"bootcmd:%d:1: warning: `a` is an environment variable, so it can not be assigned [hidden-assignment]\n"
    found = [pointed(said % line, b"a=1;") for line in range(1, 150_001)]
    yield check("150,000 assignments that are refused", [*STRICT, *whole], {b"env": text}, found)
    text = b"bootcmd=run v00000\n" + b"".join(b"v%05d=run v%05d\n" % (at, at + 1) for at in range(50_000))
    found = [pointed(b"v49999:1:5: error: `run v50000` names a variable that is not defined [run-undefined]\n", b"run v50000", 5)]
    yield check("50,000 scripts, each of which starts the next", whole, {b"env": text}, found, 50_001)
    names = b"".join(b"v%05d=true\n" % at for at in range(30_000))
    yield check("30,000 scripts that 60,000 commands may start", whole, {b"env": b"bootcmd=true;" + b"run v$?;" * 60_000 + b"\n" + names}, [], 30_001)
    each = b"".join(b"run v%05d$?;" % at for at in range(30_000))
    yield check("30,000 beginnings of as many names", whole, {b"env": b"bootcmd=true;" + each + b"\n" + names}, [], 30_001)
    every = b" ".join(b"v%d" % at for at in range(440))
    text = b"bootcmd=run v0\n" + b"".join(b"v%d=run %s\n" % (at, every) for at in range(440))
    yield check("440 scripts, each of which starts all", [*whole, b"--ignore=many-words"], {b"env": text}, [], 441)
    long = b"a" * 300_000
    text = b"bootcmd=run %s\n%s=%s\n" % (long, long, script[:300_000])
    found = [in_line(unknown % (long, column), script, column) for column in (1, 3)]
    yield check("150,000 commands in a script of a long name", [*whole, b"--stubs", b"none"], {b"env": text, b"none": b""}, found, 2, 149_998)
    text, said = b"$a;" * 300_000, b"bootcmd:1:%d: warning: `${a}` names a variable that nothing defines [undefined-name]\n"
    found = [in_line(said % column, text, column) for column in range(1, 900_000, 3)]
    yield check("300,000 substitutions of one name", whole, {b"env": b"bootcmd=" + text + b"\n"}, found)
    text = b"bootcmd=" + b"".join(b"$v%05d v%05d;" % (at, 65_535 - at) for at in range(65_536)) + b"\n"
    yield check("65,536 names, each given once", whole, {b"env": text}, [])


def checks_of_words():
    """Joined lines, a long command, a long name, and a long value that many words have."""
    found = [pointed(lines([joins(f"{number}:1")], "s"), b"\\") for number in range(1, 400_001)]
    yield check("400,000 joined lines", [b"-f", b"s"], {b"s": b"\\\n" * 400_000}, found)
    script = b"a " * 300_000
    yield check("a command of 300,000 words", [b"-f", b"s"], {b"s": script}, [in_line(lines([too_many("1:33")], "s"), script, 33)])
    long, whole = b"a" * 300_000, [b"--env", b"env", b"--size=100000"]
    text, said = b"echo $%s$b$%s" % (long, long), b"bootcmd:1:6: warning: `${%s}` names a variable that nothing defines [undefined-name]\n"
    found = [in_line(said % name, text, 6) for name in (long, b"b", long)]
    yield check("substitutions of a long name", whole, {b"env": b"bootcmd=" + text + b"\n"}, found)
    yield check("60,000 substitutions of a long value", whole, {b"env": b"v=%s\nbootcmd=%s\n" % (long, b"x=$v;" * 60_000)}, [])
    yield check("200,000 commands by a long value", whole, {b"env": b"v=%s\nbootcmd=%s\n" % (long, b"$v;" * 200_000)}, [])


def chunks():
    return [blocks, inputs, variables, texts, orders, checks, checks_of_words]
