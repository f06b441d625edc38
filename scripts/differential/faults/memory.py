"""Each allocation of the program refused in turn (scripts/refuse_nth.c): nothing is printed but the message, status 1 (2 of a check), and no byte of
a file changes; a session goes on if one of its items could be refused or stopped."""

import copy
import functools
import re
from dataclasses import replace

from differential.faults.streams import ONE_VARIABLE, SESSION, WRONG_OPTION, over_copies
from differential.harness.boards import BLANK, arguments, board, calls
from differential.harness.running import Case
from model.arguments import read_arguments
from model.dry_run import DryRun, items_of
from model.grammar import parse
from model.image import ERASED, Geometry
from model.program import WARNING, Answer, Program, stopped_status
from model.script import run
from model.texts import stand_ins
from model.trace import ENDS
from model.words import Fault

NO_MEMORY = b"## Error: out of memory\n"
MANY = b"".join(b"variable%05d=xxxxxxxxxx\0" % i for i in range(2_500))
OVER_MANY = {b"device": Geometry(1, 65_536).image(0, MANY), b"fw.config": b"device 0 10000\n"}
# The program without files: its arguments, and standard input
WITHOUT_FILES = [
    ([], ONE_VARIABLE), ([], OVER_MANY[b"device"]), ([], b""),
    *((words, b"") for words in calls(
        "--help / session --help / --version / session --depth 17 / run --help / run --env text --size 7 a / run --env text -e true a / "
        "check --help / check -f text a / boot --help / boot --stored=100001"
    )),
]  # fmt: skip
# Tools over two copies: their arguments, and perhaps the file `text`
TOOLS = [
    *(
        (words, b"")
        for words in calls(
            "printenv / printenv a / printenv --copy 2 / export --copy=1 / printenv q a / setenv a b / setenv a bc / setenv a=b c / export / status"
        )
    ),
    *(([b"setenv", b"-s", b"text"], text) for text in (b"a c\na b\n", b"a c\nb c\na d\n")),
    *(([b"import", b"text"], text) for text in (b"a=c\na=b\n", b"a=bc\nq=1\na=\n")),
    *(([b"restore", b"text"], text) for text in (b"a=c\n", b"a=bcd\n")),
    ([b"check", b"a", b"q", b"--stubs", b"text"], b"mmc\n"),
]
EVERY_FORM = b"""x='a b'; for i in $x "$x" ''; do echo "[$i]"; done
if test -z "$x"; then echo no; elif true && false; then echo no; else setenv n 1; fi
while test $n -lt 3; do setexpr n $n + 1; done
until test $n = 3; do false; done
env set v 'run w; env delete v'; setenv w 'mmc $y'
y=1; run v none; echo $?
printenv n; env exists w && saveenv; nosuch; env delete -f w; exit 4; echo no
.print
"""
DOT_LINES = b"""setenv p; echo $q; setenv a 1
.mark m
setenv q; setenv b 2
.save
.mark n
setenv .flags a:d; setenv r
.mark o
exit 3
.print
.undo n
.print
.undo m
.undo o
.x
.undo
.undo
echo "
.print
.save
setenv z 9"""
COUNTING = b"setenv n 0; while true; do setexpr n $n + 1; done\n.print\n.undo\n.print\n"
LONG = b"setexpr n 0$n + 1; true; true; true; true; true; true; true; true; true\n" * 100 + b".print\n"
COMMANDS = b"setexpr n 0$n + 1\n" * 500 + b".print\n"
LIMITS = [b"--depth=2", b"--word=64", b"--output=256"]
# Sessions over one copy that was never written, with three default variables: a name, the input, and limits
SESSIONS = [
    ("every form of a script", EVERY_FORM, [*LIMITS, b"--steps=2000"]),
    ("a long run", LONG, [*LIMITS, b"--steps=2000"]),
    ("a loop that counts", COUNTING, [b"--steps=10", b"--depth=4"]),
    ("every dot line", DOT_LINES, [*LIMITS, b"--steps=1000"]),
    ("a block of 500 commands", COMMANDS, [*LIMITS, b"--steps=1000"]),
]
# Sessions over one copy that was never written, which are undone and done again: the size of the copy, the default text, the input, and
# the most steps
COUNTED = b"setenv n 0; while true; do setexpr n $n + 1; done\n"
AGAIN = [
    (4096, b"", b"setenv .flags k:so; setenv k 1; setenv k 2; setenv -f k 3; env delete k\n", 1000),
    (4096, b"", b'x="1 2"; for i in a${x}b "${x}" ""; do echo "[$i]"; done\n', 1000),
    (4096, b"", COUNTED, 10),
    (4096, b"", b"setenv a 'echo 1; false'; setenv b 'echo 2'; run a b; echo $?; run z\n", 1000),
    (17, b"a=xxxxx\nb=1\n", b"setenv a 1; setenv b xxxxx\n", 1000),
    (16, b"a=1\n", b"setenv a\n.save\n", 1000),
    (16, b"", b'setenv a 1; echo $a\n.save\nsetenv a 2\n.undo\n.print\n.x\necho "\n', 1000),
]
# The same, with what follows: a save that is undone, perhaps in vain, and written; marks of which some may be left
DELETED = b"setenv a\n.mark p\nsetenv b\n.mark q\nsetenv c\n"
ONCE = [
    (16, b"a=1\n", b"setenv a\n.save\n.undo\n", 1000),
    (64, b"a=1\nb=2\nc=3\n", DELETED + b".undo\n.print\n.undo\n.print\n", 1000),
    (64, b"a=1\nb=2\nc=3\n", DELETED + b".undo\n.undo q\n.print\n.undo p\n.print\n.undo\n.print\n", 1000),
]
# Scripts that are run over two copies, and over only the text `text`: the arguments, and perhaps standard input
SAVED = b"for i in $a x; do echo $i; done\nsetenv a c; saveenv && run a || echo $?; mmc; saveenv; a_stand_in_of_a_long_name 1 2; false\n"
BOOTS = [b"--stubs", b"stand-ins", b"--boots", b"a_stand_in_of_a_long_name"]
WHOLE = [b"run", b"--env", b"text"]
WHOLE_TEXT = b"""# names and quotes
a=echo a; run it's
it's=setenv b $a; setexpr n 0$n + 1; env delete a
"""
ANSWERS = b"""# a board
load mmc 1:2 a* -> setenv filesize 1c4a00; echo ${3}
dhcp -> if test -n "${tried}"; then true; else tried=1; false; fi
test -e mmc 1:2 /boot/* -> 0
booti -> boots
"""
RUNS = [
    ("a script that saves", [*arguments(b"run", b"--write"), *BOOTS, b"-e", SAVED]),
    ("a script that boots", [*arguments(b"run", b"--write"), *BOOTS, b"-f", b"-"], b"saveenv\n" * 9 + b"a_stand_in_of_a_long_name"),
    ("a script that fails", [*arguments(b"run", b"--write"), b"-e", b"saveenv; false"]),
    ("no script", [*arguments(b"run", b"--write"), b"-e", b"saveenv\n'"]),
    ("a board", [*WHOLE, b"--board", b"board", b"-e", b"load mmc 1:2 ab; dhcp || dhcp; test -e mmc 1:2 /boot/a && boo 1; false"]),
    ("names", [*WHOLE, b"a", b"it's", b"a"]),
    ("a text alone", [*WHOLE, b"--size=100", b"-f", b"text"]),
]
# What is checked of the text `text`, and of a script
CHECKED_TEXT = b"""bootcmd=run a 'a_variable_of_a_long_name' none || laod; for a in 1 2; do a=$a; done
a=if run a_variable_of_a_long_name; then a_command_of_a_long_name; elif run b; then run c; fi
a_variable_of_a_long_name=run bootcmd; mmc; a_stand_in_of_a_long_name
b=echo "a
bootmenu_0=A title=run b; echo $x
c=test $x; x=$y; echo ${a_name_that_nothing_defines}; [ $z ]; for z in 1; do break; done
"""
CHECKS = [
    ("a check", [b"check", b"--env", b"text", b"--stubs", b"stand-ins"], CHECKED_TEXT),
    ("a check with a board", [b"check", b"--env", b"text", b"--board", b"board", b"--known", b"names"], CHECKED_TEXT),
    ("a check of names", [b"check", b"--env", b"text", b"none", b"c", b"b", b"a_variable_of_no_value"], CHECKED_TEXT),
    ("a check of a script", [b"check", b"--stubs", b"stand-ins", b"-f", b"text"], b"mmc\r\n" * 40 + b"a_stand_in_of_a_long_name\n"),
    ("a check of a script over a text", [b"check", b"--env=text", b"-f", b"names", b"-f", b"stand-ins", b"c"], CHECKED_TEXT),
    ("a check of no script", [b"check", b"-f", b"text"], b"echo a; if true; then echo 'b\r\n"),
    ("a check of scripts as JSON", [b"check", b"--stubs=stand-ins", b"--format=json", b"-f", b"text", b"-f", b"stand-ins"], b'mmc\r\n"a\xff"\n'),
    ("a check as compilers print it", [b"check", b"--env=text", b"--format=gcc", b"c", b"n"], CHECKED_TEXT),
]
OVER_PAIR = b"setenv a bc; mmc\n.save\n.mark p\nsetenv a\n.undo p\n.print\n.undo\n"


def swept(case, accepts, met, runner):
    """What is wrong with a call if each of its allocations is refused: each answer has to be accepted, and at least one of them is
    met, the one that reports it. With ample memory the call answers as wanted."""
    ample = runner.run(replace(case, preload="refuse", variables={"REFUSE_COUNT": runner.moved}))
    with open(runner.moved) as file:
        count = int(file.read())
    wanted = case.answer() if case.is_modelled else case.wanted
    if wanted and not ample.is_as(wanted) or NO_MEMORY in ample.errors or count == 0:
        return f"{case.name}, with ample memory: {ample} and {count} allocations"
    answers = []
    for number in range(1, count + 1):
        found = runner.run(replace(case, preload="refuse", variables={"REFUSE_NTH": str(number)}))
        # (of a command line that can't be read, a few allocations more than it has words, it isn't known whose it is)
        is_unread = number <= len(case.arguments) + 6 and found.is_as(Answer(1, b"", NO_MEMORY, case.files))
        if not (is_unread or accepts(found)) and not (case.accepts and case.accepts(found, ample)):
            return f"{case.name}, allocation {number} of {count} refused: {found}"
        answers.append(found)
    case.weight = count + 1
    return None if any(map(met, answers)) else f"{case.name}: no allocation was met"


def is_not_written(files, found, ample):
    """What the tool prints is out when the copies are read again, before they are written."""
    return (found.status, found.errors, found.files) == (1, ample.errors + NO_MEMORY, files) and found.output == ample.output


def refusing(case, warning=b"", accepts=None):
    """Each allocation of a call refused: the message, with or without the warning before it, and no byte changes."""
    ended = [Answer(stopped_status(case.arguments), b"", said + NO_MEMORY, case.files) for said in {b"", warning}]
    is_ended = lambda found: any(map(found.is_as, ended))
    if case.accepts is None:
        case.accepts = functools.partial(is_not_written, case.files)
    case.check = functools.partial(swept, case, accepts or is_ended, is_ended)
    return case


def without_files():
    for words, given in WITHOUT_FILES:
        yield refusing(Case(f"{words} without memory", words, given=given, is_modelled=b"--help" not in words))
    # clap may do without some of its allocations, which look for an option like it
    wrong = Case("a wrong option without memory", [b"--frobnicate"], is_modelled=False, wanted=Answer(1, b"", WRONG_OPTION, {}))
    wrong.accepts = lambda found, ample: replace(found, seconds=0) == replace(ample, seconds=0)
    yield refusing(wrong)


def tools():
    for (tool, *rest), text in TOOLS:
        yield refusing(Case(f"{tool.decode()} {rest} without memory", arguments(tool, *rest), over_copies() | {b"text": text}))
    yield refusing(Case("status of a file without memory", [b"status", b"device"], over_copies()))
    files = {b"device": ERASED * 4096, b"fw.config": b"device 0 1000\n", b"text": b".flags=a:d\na=x\nb=1\n"}
    yield refusing(Case("an import of a type without memory", arguments(b"import", b"text"), files), WARNING)
    for options in calls("--size 40 / --size 40 --copies 2 --both / --size 40 --copies 2 --output out"):
        yield refusing(Case("an image without memory", [b"image", b"--env", b"text", *options], {b"text": b"# b\nb=1\na=2\\\n3\n"}))
    source = b"a=x\nb=1\n 2\na+=y\nc=\n"
    yield refusing(Case("a source without memory", calls("image --size 40 --env-source text")[0], {b"text": source}))
    yield refusing(Case("a source at fault without memory", calls("image --size 40 --env-source text")[0], {b"text": source + b"a+=\n"}))
    yield refusing(Case("a dump without memory", [b"find", b"dump"], {b"dump": Geometry(2, 512).image(0, b"a=1\0b=2\0") * 2}))
    for tool in (b"printenv", b"export", b"status"):
        yield refusing(Case(f"{tool.decode()} of 2,500 variables without memory", arguments(tool), OVER_MANY))
    files = over_copies(BLANK, BLANK) | {b"default": b"p=1\n"}
    yield refusing(Case("a default environment without memory", arguments(b"printenv", b"--default", b"default"), files), WARNING)
    big = Geometry(2, 16, "big")
    files = board(big, [big.image(7, b"a=b\0"), big.image(8, b"a=c\0")])
    yield refusing(Case("copies that are good otherwise without memory", arguments(b"setenv", b"a", b"b"), files), WARNING)


class Sessions:
    """What a session may answer of which memory refuses or stops one item, or which it ends."""

    def __init__(self, case):
        self.case = case
        self.call = read_arguments(case.arguments)
        self.items = items_of(case.given, True)
        self.known = {}

    def begun(self):
        """The program, with its session open."""
        program = Program(self.case.files, self.case.given)
        session = program.opened(self.call)
        path = self.call.options.get("--stubs")
        names = {} if path is None else stand_ins(self.case.files[path])
        return program, DryRun(session, names, self.call.limits())

    def left(self, program, dry, output):
        """The answer of a program whose session ended so."""
        program = copy.deepcopy(program)
        if "--write" in self.call.options:
            program.write_back(dry.session)
        return Answer(0, output, program.errors, program.files)

    def outcomes(self, steps):
        """Every answer, if a run is stopped after one of these numbers of steps."""
        program, dry = self.begun()
        output = b""
        for said in {b"", program.errors}:
            yield Answer(1, b"", said + NO_MEMORY, self.case.files)
        for at, item in enumerate(self.items):
            for other, text in stopped(dry, item, steps):
                rest = b"".join(map(other.answer_item, self.items[at + 1 :]))
                yield self.left(program, other, output + text + rest)
            output += dry.answer_item(item)
            yield Answer(1, output, program.errors + NO_MEMORY, self.case.files)
        yield self.left(program, dry, output)

    def accepts(self, found):
        key = (found.status, found.output, found.errors, tuple(sorted(found.files.items())))
        if key not in self.known:
            steps = {int(number) for number in re.findall(rb"\[Memory \d+ (\d+)\]", found.output)}
            self.known[key] = any(map(found.is_as, self.outcomes(steps)))
        return self.known[key]


def stopped(dry, item, steps):
    """What memory leaves of an item that it refuses or stops, and the text: nothing of a block that isn't read, or what the run leaves
    that may take no more steps than these; nothing of a save; of an undo what is undone down to the end of a span."""
    line = item.strip()
    if line.startswith(b".undo"):
        yield copy.deepcopy(dry), b"[Memory]\n"
        for number in range(len(dry.names), 0, -1):
            other = copy.deepcopy(dry)
            other.undo_to(number)
            del other.session.marks[number:], other.names[number - 1 :]
            yield other, b"[Memory]\n"
    elif line == b".save":
        yield copy.deepcopy(dry), b"[Memory]\n"
    elif not line.startswith(b"."):
        yield copy.deepcopy(dry), b"[Memory]\n"
        for number in steps:
            other = copy.deepcopy(dry)
            try:
                outcome = run(other.session, parse(item), other.stand_ins, (number, *other.limits[1:]))
            except Fault:
                continue
            if outcome.steps == number:
                yield other, outcome.text + b"[Memory %d %d]\n" % (outcome.status, number)


def session(name, words, files, given):
    """A session with each allocation refused."""
    case = Case(f"{name} without memory", words, files, given)
    return refusing(case, WARNING, Sessions(case).accepts)


def one_session(row):
    name, given, limits = row
    files = {b"device": ERASED * 64, b"fw.config": b"device 0 40\n", b"default": b"p=1\nq=2\nr=3\n", b"stand-ins": b"mmc 3\n"}
    words = arguments(b"session", b"--write", b"--default", b"default", b"--stubs", b"stand-ins", *limits)
    yield session(name, words, files, given)


def small_session(size, text, given, steps):
    files = {b"device": ERASED * size, b"fw.config": b"device 0 %x\n" % size, b"default": text}
    limits = [b"--steps=%d" % steps, b"--depth=4", b"--word=256", b"--output=4096"]
    yield session(given, arguments(b"session", b"--write", b"--default", b"default", *limits), files, given)


def over_pair():
    """All is undone in the end, so that no copy is written; and a save that is written back."""
    files = over_copies() | {b"stand-ins": b"mmc 3\na_stand_in_of_a_long_name 4\n"}
    yield session("a session over a pair", [*SESSION, b"--stubs", b"stand-ins"], files, OVER_PAIR)
    yield session("a save", SESSION, over_copies(), b".save\n")


def texts_of(case):
    """What a run may have printed before it is stopped: the text of its first steps."""
    program, call = Program(case.files, case.given), read_arguments(case.arguments)
    session, names, board = program.opened(call), program.stand_ins(call), program.board(call)
    limits, shell = call.limits(), call.shell()
    _, text = program.script(call)
    try:
        tree = parse(text, shell)
    except Fault:
        return {b""}

    def outcome(steps):
        return run(copy.deepcopy(session), tree, names, (steps, *limits[1:]), call.leavings(), shell, board)

    return {outcome(steps).text for steps in range(outcome(limits[0]).steps + 1)}


def is_stopped(case, texts, found):
    return (found.status, found.errors, found.files) == (1, NO_MEMORY, case.files) and found.output in texts


def is_traced(case, texts, found, ample):
    """The trace of what was run before went out; or it ends early itself, which changes nothing else."""
    lines = ample.errors.splitlines(keepends=True)
    fronts = [b"".join(lines[:number]) for number in range(len(lines) + 1)]
    if found.errors in [front + NO_MEMORY for front in fronts]:
        return (found.status, found.files) == (1, case.files) and found.output in texts
    is_cut = found.errors in [front + ENDS for front in fronts[:-1]]
    return is_cut and (found.status, found.output, found.files) == (ample.status, ample.output, ample.files)


def runs():
    """What a run printed before memory ran out went out, and no copy is written."""
    for name, words, *given in RUNS:
        files = over_copies() | {b"stand-ins": b"mmc 3\na_stand_in_of_a_long_name\n", b"board": ANSWERS, b"text": WHOLE_TEXT}
        case = Case(f"{name} without memory", words, files, *given)
        yield refusing(case, accepts=functools.partial(is_stopped, case, texts_of(case)))
    case = Case(
        "a trace without memory",
        [*WHOLE, b"--stubs", b"stand-ins", b"--trace", b"a", b"b"],
        {b"text": b"a=x=1; echo $x 'a b'; mmc 1\nb=run a; saveenv\n", b"stand-ins": b"mmc\n"},
    )
    case.accepts = functools.partial(is_traced, case, texts_of(case))
    yield refusing(case)
    case = Case("no good copy without memory", arguments(b"printenv", b"--need-copy"), over_copies(BLANK, BLANK))
    yield refusing(case, WARNING)


def checks():
    """Nothing that is found goes out before all of it was found."""
    for name, words, text in CHECKS:
        files = {b"text": text, b"stand-ins": b"mmc 3\na_stand_in_of_a_long_name\n", b"names": b"x\n# y\na_name_that_nothing_defines\n"}
        files[b"board"] = b"mmc -> setenv z a_value; run a_variable_of_no_value c\na_stand_in_of_a_long_name -> ?\n-setexpr\n"
        yield refusing(Case(f"{name} without memory", words, files))


def power_ons():
    """Nor before every power-on was tried."""
    files = {b"text": b"a=1\nb=2\npreboot=a=2\nbootcmd=mmc $a && booti; setenv a; setenv b 3; saveenv; test -e mmc 0 b || run none\n"}
    for board, given in ((b"mmc -> ?\ntest -e -> ?\nbooti -> boots\n", []), (b"mmc -> usb\nusb -> ?\n", [b"--stored=1"]), (b"mmc -> ?\nmmc 1\n", [])):
        yield refusing(Case("power-ons without memory", [b"boot", b"--env=text", b"--board=board", *given], files | {b"board": board}))
    counted = {
        b"text": b"upgrade_available=1\nbootlimit=1\npreboot=a=2\nbootcmd=mmc $a && booti\naltbootcmd=booti\n",
        b"board": b"mmc -> ?\nbooti -> boots\n",
        b"confirm": b"setenv upgrade_available; saveenv\n",
    }
    words = [b"boot", b"--env=text", b"--board=board", b"--bootcount", b"--after=confirm"]
    yield refusing(Case("counted power-ons without memory", [*words, b"--stored=2"], counted))
    cut = {b"text": b"bootcmd=setenv a 1; saveenv; mmc && booti\n", b"board": b"mmc -> ?\nbooti -> boots\n", b"confirm": b"saveenv\n"}
    yield refusing(Case("cut power-ons without memory", [*words[:3], b"--cuts", words[-1]], cut))


def chunks():
    again = [(size, text, given + b".print\n.undo\n.print\n.undo\n.print\n" + given + b".print\n", steps) for size, text, given, steps in AGAIN]
    small = [functools.partial(small_session, *row) for row in again + ONCE]
    return [without_files, tools, over_pair, runs, checks, power_ons, *(functools.partial(one_session, row) for row in SESSIONS), *small]
