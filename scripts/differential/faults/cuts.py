"""Streams and files that are cut at each byte, at once and byte by byte: each stream that a tool writes, each file and copy that it
reads, and the copies that it writes. Every byte of every file is compared, and how often the cut stream was called."""

import functools
import subprocess
from dataclasses import replace

from differential.faults.streams import WRONG_OPTION
from differential.harness import running
from differential.harness.boards import CONFIG, DEVICE, STRICT, arguments, board, calls
from differential.harness.damage import prefixes
from differential.harness.running import Case, Cut
from model.image import ERASED, LARGEST, Geometry
from model.program import CANNOT_READ, CANNOT_READ_INPUT, CANNOT_WRITE, CANNOT_WRITE_OUTPUT, TOO_SHORT, WARNING, Answer, stopped_status

FORM = Geometry(2, 40)
STORED = [FORM.image(7, b"#q=1\0a=one 2\0m=x\ny\0"), FORM.image(6, b"old=1\0")]
FILES = board(FORM, STORED)
NEVER_WRITTEN = board(FORM, [ERASED * FORM.size] * 2)
ONE = Geometry(1, 9).image(0, b"a=b\0")
TOO_MUCH = b"x" * 40
SESSION = b".mark p\nsetenv a 3\n.save\necho x\n.what"
# Over a single image that was never written: the input of a session, what is printed, and how much of it if the input fails after so
# many bytes
SMALL = Geometry(1, 16)
TYPED = b'setenv a 1; echo $a\n.save\nsetenv a 2\n.undo\n.print\n.x\necho "\n'
ANSWERED = b"1\n[Finished 0 2]\nSaved copy 1\n[Finished 0 1]\n[Undone]\n[Unknown]\n[Syntax]\n"
FAILING = [(25, 0), (26, 30), (60, 64)]
STAND_INS = b"mmc 1\nusb\n#\nmmcinfo 12\nfastboot_devices 3\n"
ASKED = b"mmc\nusb\nmmcinfo\nfastboot_device\nfastboot_devices\nsetenv b $?\n.save\n"


def call(words, files=(), given=b"", over=FILES):
    tool, *rest = words
    return Case(tool.decode(), arguments(tool, *rest), over | dict(files), given)


def whole_environment(words):
    """A run over only a text."""
    return Case("run", [b"run", b"--env", b"text", *words], FILES | {b"text": b"a=echo x; run m\nm=echo y\\\necho z\n#q=\nb=true\n"})


def whole_check(words, text=b"a=run m x\nm=true\\\n'\nq=a=1; run m\n"):
    """A check of only a text."""
    return Case("check", [b"check", b"--env", b"text", *words], FILES | {b"text": text})


def check_over(environment, script):
    """A check of a script over a text."""
    return Case("check", [b"check", b"--env", b"env", b"-f", b"text", b"a"], FILES | {b"env": environment, b"text": script})


def power_ons(environment, board):
    return Case("power-ons", [b"boot", b"--env", b"text", b"--board", b"board"], FILES | {b"text": environment, b"board": board})


def script_check(script):
    return Case("check", [b"check", b"--stubs", b"stand-ins", b"-f", b"text"], FILES | {b"text": script, b"stand-ins": b"mmc\n"})


DUMP = Geometry(1, 512).image(0, b"a=1\0") + Geometry(2, 512).image(3, b"b=1\0")
# What prints one text, only on standard output
PRINTING = [
    Case("an image", [], given=ONE),
    Case("the version", [b"--version"]),
    *map(call, calls("printenv / printenv m a / printenv -n a / status / run --write -e 'echo a; setenv a 3; saveenv'")),
    call([b"export"], over=board(FORM, [FORM.image(7, b"a=b\0"), ERASED * FORM.size])),
    call([b"status"], over=NEVER_WRITTEN),
    Case("a whole file", [b"status", b"image"], {b"image": ONE}),
    Case("a new image", [b"image", b"--env", b"text", b"--size", b"20", b"--copies", b"2"], FILES | {b"text": b"a=1\n"}),
    Case("a dump", [b"find", b"dump"], {b"dump": DUMP}),
    power_ons(b"bootcmd=mmc && setenv x 1; saveenv; booti\n", b"mmc -> ?\nbooti -> boots\n"),
    whole_environment([b"a", b"m"]),
]
# What prints on both streams
ON_BOTH = [
    *map(call, calls("printenv q a / export / check q a / run --write -e 'saveenv; false'")),
    whole_check([b"a", b"q"]),
    script_check(b"mmc; a\r\nb"),
]
# What prints one text on standard error
SAYING = [
    Case("no image", []),
    Case("a number past its limit", [b"session", b"--depth", b"17"]),
    Case("a wrong option", [b"--frobnicate"], wanted=Answer(1, b"", WRONG_OPTION, {})),
    Case("a word that is not UTF-8", [b"\xff"]),
    Case("a file that is not there", [b"export", b"-c", b"absent"], FILES),
    *map(call, calls("printenv -n / setenv a=b c / run --write -e 'setenv a 3; false'")),
    call([b"setenv", b"a", TOO_MUCH]),
    call([b"setenv", b"-s", b"text"], {b"text": b"a 1\nb " + TOO_MUCH + b"\na 2\n"}),
    call([b"import", b"text"], {b"text": b"a=1\nb=" + TOO_MUCH + b"\n"}),
    call([b"import", b"text"], {b"text": b"=1\n"}),
    call([b"restore", b"text"], {b"text": b"a=1\nb=" + TOO_MUCH + b"\n"}),
    call([b"session", b"--write", b"--stubs", b"absent"], given=b".save\n"),
    call([b"run", b"--write", b"-e", b"saveenv\n  'x"]),
    whole_environment([b"--steps", b"0", b"a"]),
    call([b"printenv", b"--need-copy"], over=NEVER_WRITTEN),
    call([b"printenv", b"--default", b"text"], {b"text": b"p=1\n"}, over=NEVER_WRITTEN),
]
# What reads a file on whose bytes its answer depends
READING = [
    (CONFIG, call([b"setenv", b"a", b"1"])),
    (b"text", call([b"import", b"text"], {b"text": b"a=1\nm=2\\\n3\n#q=\nb=4\n"})),
    (b"text", call([b"setenv", b"-s", b"text"], {b"text": b"a 1\nm\n# n\nb 4 \n"})),
    (b"text", call([b"restore", b"text"], {b"text": b"a=1\nm=2\\\n3\n#q=\nb=4\n"})),
    (b"image", Case("a whole file", [b"status", b"image"], FILES | {b"image": FORM.image(7, b"a=b\0")})),
    (b"text", call([b"setenv", b"--default", b"text", b"c", b"3"], {b"text": b"a=1\nb=2\n"}, over=NEVER_WRITTEN)),
    (b"text", call([b"session", b"--write", b"--stubs", b"text"], {b"text": STAND_INS}, ASKED)),
    (b"text", call([b"run", *STRICT, b"--write", b"-f", b"text"], {b"text": b"setenv a $m; saveenv\nsaveenv; echo 'b\nc'\nfalse || exit 0\n"})),
    (b"text", Case("a new image", [b"image", b"--env", b"text", b"--size", b"20"], FILES | {b"text": b"a=1\n#q\nm=2\\\n3\n"})),
    (b"text", Case("an image of a source", [b"image", b"--env-source", b"text", b"--size", b"20"], FILES | {b"text": b"a=1\nm=2\n 3\na+=4\n"})),
    (b"dump", Case("a dump", [b"find", b"dump"], FILES | {b"dump": DUMP})),
    (b"board", power_ons(b"bootcmd=mmc || booti\n", b"mmc 1 -> 0\nmmc -> ?\nbooti -> boots\n")),
    (b"text", whole_environment([b"-e", b"run a || printenv"])),
    (b"text", whole_check([b"q", b"a"])),
    (b"text", check_over(b"a=run m x\nm=run n\n", b"run a; mmc2 ||\n")),
    (b"text", script_check(b"mmc 1; mmc2\nif true; then a\r\nfi")),
    (b"text", call([b"check", b"--stubs", b"text", b"a", b"m"], {b"text": STAND_INS + b"x 1\none\n"})),
]


def places(length, *endings):
    """Where a stream is cut, how many bytes come a call, and how it ends; at most one byte comes in only one way."""
    return [(after, step, then) for after in range(length) for then in endings for step in ((0, 1) if after > 1 else (0,))]


def least_calls(after, step):
    """The calls that move this many bytes, and one more."""
    return (after if step else after > 0) + 1


def cut_case(case, stream, call, place, wanted, opening=1, counted=True):
    after, step, then = place
    moved = (least_calls(after, step), after) if counted else None
    name = f"{case.name}: {stream} {then} after {after} bytes, {step or 'all'} a call"
    return replace(case, name=name, cut=Cut(stream, call, after, then, step, opening), moved=moved, wanted=wanted)


def taken_whole(case, stream, length, wanted, calls=1):
    """The stream takes all, byte by byte and at once."""
    yield replace(case, cut=Cut(stream, "write", step=1), moved=(length, length), wanted=wanted)
    yield replace(case, cut=Cut(stream, "write"), moved=(calls, length) if calls else None, wanted=wanted)


def output_cut(case, answer, counted=True):
    """A prefix goes out, in as few calls as there can be, and standard error reports it; nothing is written."""
    for place in places(len(answer.output), "fail", "none"):
        wanted = Answer(stopped_status(case.arguments), answer.output[: place[0]], CANNOT_WRITE_OUTPUT, case.files)
        yield cut_case(case, 1, "write", place, wanted, counted=counted)
    yield from taken_whole(case, 1, len(answer.output), answer, counted)


def errors_cut(case):
    """A prefix goes out; the status, standard output and the files are what they are with the whole text."""
    answer = case.wanted or case.answer()
    for place in places(len(answer.errors), "fail", "none"):
        wanted = replace(answer, errors=answer.errors[: place[0]])
        yield cut_case(case, 2, "write", place, wanted, counted=False)
    yield replace(case, cut=Cut(2, "write", step=1), moved=(len(answer.errors),) * 2, wanted=answer)


def both_cut(case):
    """The stream that is cut has a prefix of its text, the other one a prefix of its own, and after it the fault."""
    answer = case.answer()
    for stream, text in ((1, answer.output), (2, answer.errors)):
        for place in places(len(text), "fail", "none"):
            made = cut_case(case, stream, "write", place, None, counted=False)
            made.accepts = functools.partial(is_cut_of, stopped_status(case.arguments), case.files, answer, stream, place[0])
            yield made
    yield replace(case, cut=Cut(2, "write", step=1), wanted=answer)


def is_cut_of(status, files, answer, stream, after, found):
    """(nothing is written then, whatever a script saved)"""
    if stream == 2:
        is_said = found.errors == answer.errors[:after] and answer.output.startswith(found.output)
    else:
        is_said = found.output == answer.output[:after] and found.errors.endswith(CANNOT_WRITE_OUTPUT)
        is_said = is_said and answer.errors.startswith(found.errors.removesuffix(CANNOT_WRITE_OUTPUT))
    return is_said and found.status == status and found.files == files


def helps():
    """The text of the help is in no document to the byte: what is wanted is the one that is printed whole, which has an example."""
    text = subprocess.run([running.PROGRAM, "--help"], capture_output=True, check=True).stdout
    assert text.startswith(b"Prints the variables of ") and b"\nUsage: " in text and b"\nExample:\n" in text, text
    case = Case("the help", [b"--help"])
    case.is_modelled = False
    yield from output_cut(case, Answer(0, text, b"", {}))


def sessions():
    """What was answered is a prefix, and the device is written only at the end."""
    case = call([b"session", b"--write"], given=SESSION)
    yield from output_cut(case, case.answer(), counted=False)


def small_sessions():
    """Of 60 bytes of input and 73 of output; a block that isn't read to its end isn't run."""
    files = board(SMALL, [ERASED * 16])
    case = Case("a session", arguments(b"session", b"--write"), files, TYPED)
    for place in places(len(ANSWERED), "fail", "none"):
        wanted = Answer(1, ANSWERED[: place[0]], WARNING + CANNOT_WRITE_OUTPUT, files)
        yield cut_case(case, 1, "write", place, wanted, counted=False)
    yield from taken_whole(case, 1, len(ANSWERED), Answer(0, ANSWERED, WARNING, files), calls=6)
    for after, count in FAILING:
        for step in (0, 1):
            wanted = Answer(1, ANSWERED[:count], WARNING + CANNOT_READ_INPUT, files)
            yield cut_case(replace(case, given=TYPED[:after]), 0, "read", (after, step, "fail"), wanted)


def printed():
    for case in PRINTING:
        yield from output_cut(case, case.answer())


def opening_of(name):
    """Which opening of a file it is read by: what a report looks at is opened to be locked first."""
    return 2 if name == b"image" else 1


def read_failing(name, case):
    """The fault is reported, the file isn't read again, and nothing is written."""
    warning = WARNING * (name != CONFIG and case.files[DEVICE] == NEVER_WRITTEN[DEVICE])
    for place in places(len(case.files[name]) + 1, "fail"):
        wanted = Answer(stopped_status(case.arguments), b"", warning + CANNOT_READ % name, case.files)
        yield cut_case(case, name, "read", place, wanted, opening_of(name))


def read_ending(name, case):
    """The file ends for good or, after a pause, has more to come: it is as if it had those bytes and no more."""
    whole = case.files[name]
    shorter = [replace(case, files=case.files | {name: prefix}).answer() for prefix in prefixes(whole)]
    outcomes = {(answer.status, answer.output, answer.errors, answer.files[DEVICE]) for answer in shorter}
    assert len(outcomes) > 2, f"{case.name} tells on nothing"
    for place in places(len(whole) + 1, "none", "pause"):
        answer = shorter[place[0]]
        wanted = replace(answer, files=answer.files | {name: whole})
        yield cut_case(case, name, "read", place, wanted, opening_of(name))


def image_read():
    """The image on standard input; after a pause it would go on. Of too many bytes one more is read than an image may have."""
    yield Case("too many bytes", [], given=bytes(LARGEST + 3), cut=Cut(0, "read", step=1), moved=(LARGEST + 1, LARGEST + 1), seconds=5)
    case = PRINTING[0]
    for place in places(len(ONE) + 1, "fail", "none", "pause"):
        answer = replace(case, given=ONE[: place[0]]).answer()
        wanted = Answer(1, b"", CANNOT_READ_INPUT, {}) if place[2] == "fail" else answer
        yield cut_case(case, 0, "read", place, wanted)


def copies_read():
    """The device is opened to be locked, then for each copy, and at last to read both again and to write."""
    case = call([b"setenv", b"a", b"1"])
    for opening, length in ((2, FORM.size), (3, FORM.size), (4, 2 * FORM.size)):
        for place in places(length, "fail", "none", "pause"):
            text = CANNOT_WRITE if opening == 4 else CANNOT_READ if place[2] == "fail" else TOO_SHORT
            wanted = Answer(1, b"", text % DEVICE, case.files)
            yield cut_case(case, DEVICE, "read", place, wanted, opening, counted=False)
    case = call([b"printenv", b"a"])
    yield replace(case, cut=Cut(DEVICE, "read", step=1, opening=2), moved=(FORM.size, FORM.size), wanted=case.answer())


def saves():
    """What was taken is the prefix of the copy, nothing else has changed, and that is reported; of two copies the first one is whole."""
    case = call([b"setenv", b"a", b"3"])
    answer = case.answer()
    new = answer.files[DEVICE][-4 - FORM.size : -4]
    for place in places(FORM.size, "fail", "none"):
        left = board(FORM, [STORED[0], new[: place[0]] + STORED[1][place[0] :]])
        yield cut_case(case, DEVICE, "write", place, Answer(1, b"", CANNOT_WRITE % DEVICE, left))
    yield from taken_whole(case, DEVICE, FORM.size, answer)
    yield from not_flushed(case, case.files, answer.files)


def not_flushed(case, *left):
    """The device is flushed before anything is written, and after each copy; this is left where it can't be."""
    for syncs, files in enumerate(left):
        wanted = replace(case.answer(), status=1, errors=CANNOT_WRITE % DEVICE, files=files)
        yield replace(case, cut=Cut(DEVICE, "sync", syncs), moved=(syncs + 1, 0), wanted=wanted)


def one_cut(case, copies_before, place, wanted):
    """The write of a copy is cut, once as many others were written by the same file."""
    after, step, then = place
    before = copies_before * FORM.size
    name = f"{case.name}: the write of copy {copies_before} {then} after {after} bytes, {step or 'all'} a call"
    moved = ((before if step else copies_before) + least_calls(after, step), before + after)
    return replace(case, name=name, cut=Cut(DEVICE, "write", before + after, then, step), moved=moved, wanted=wanted)


def script_read():
    """A script on standard input, which is opened by its path."""
    run, check = call([b"run", b"--write", b"-f", b"-"], given=b"saveenv; echo\n"), Case("check", [b"check", b"-f", b"-"], given=b"run 'a'\r\n")
    for case in (run, check):
        for place in places(len(case.given) + 1, "fail", "none"):
            answer = replace(case, given=case.given[: place[0]]).answer()
            wanted = Answer(stopped_status(case.arguments), b"", CANNOT_READ % b"-", case.files) if place[2] == "fail" else answer
            yield cut_case(case, b"/dev/stdin", "read", place, wanted)


def saves_of_a_run():
    """The copy that was current at the start is written after the other, which is checked to be whole, also if it isn't current at the
    end."""
    for script, flags in ((b"saveenv; saveenv", (8, 9)), (b"saveenv; saveenv; saveenv", (10, 9))):
        case = call([b"run", b"--write", b"-e", script])
        second, first = [FORM.image(flag, b"#q=1\0a=one 2\0m=x\ny\0") for flag in flags]
        for place in places(FORM.size, "fail", "none"):
            cut_second = [STORED[0], second[: place[0]] + STORED[1][place[0] :]]
            cut_first = [first[: place[0]] + STORED[0][place[0] :], second]
            for number, copies in enumerate((cut_second, cut_first)):
                wanted = Answer(1, case.answer().output, CANNOT_WRITE % DEVICE, board(FORM, copies))
                yield one_cut(case, number, place, wanted)
        yield replace(case, cut=Cut(DEVICE, "write", step=1), wanted=case.answer())


def saves_of_both():
    """The first copy is written and flushed before the second."""
    case = call([b"session", b"--write"], given=b".save\n.save\n")
    second, first = [FORM.image(flag, b"#q=1\0a=one 2\0m=x\ny\0") for flag in (8, 9)]
    for after in range(FORM.size):
        cut_first = [first[:after] + STORED[0][after:], STORED[1]]
        cut_second = [first, second[:after] + STORED[1][after:]]
        for number, copies in enumerate((cut_first, cut_second)):
            wanted = Answer(1, case.answer().output, CANNOT_WRITE % DEVICE, board(FORM, copies))
            yield one_cut(case, number, (after, 0, "fail"), wanted)
    yield from not_flushed(case, case.files, board(FORM, [first, STORED[1]]), board(FORM, [first, second]))


def chunks():
    each = [functools.partial(errors_cut, case) for case in SAYING] + [functools.partial(both_cut, case) for case in ON_BOTH]
    for name, case in READING:
        each += [functools.partial(read_failing, name, case), functools.partial(read_ending, name, case)]
    return each + [helps, sessions, small_sessions, printed, image_read, copies_read, saves, saves_of_both, script_read, saves_of_a_run]
