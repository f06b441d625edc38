"""Wrong configurations: 4 boards, each under 13 configurations, by each call that writes, with a default environment and without. Nothing
good is written over under a wrong one, each call writes under a right one, and the answers are the model's."""

import functools
import itertools

from differential.harness.boards import CONFIG
from differential.harness.running import Case, named
from differential.rows.documents import rows_under, texts_in
from model.image import Geometry
from model.program import WARNING, Answer, Program

SIZE = 0x4000
# What lies around the copies, and in a file without any
FOREIGN = bytes(range(128, 251)) * 1600
ELSEWHERE = 0x20000
SINGLE, PAIR = Geometry(1, SIZE), Geometry(2, SIZE)
OLD, NEW = b"a=0\0bootcmd=run old\0", b"a=1\0bootcmd=run new\0"


def device(*images):
    """A file with these copies one after the other, and other bytes before and behind them."""
    return FOREIGN[:SIZE] + b"".join(images) + FOREIGN[: 0x30000 - SIZE * (1 + len(images))]


def pair(form):
    return form.image(255, OLD), form.image(0, NEW)


# The geometry, the files, and the places of the copies; the second copy is current
BIG = Geometry(2, SIZE, "big")
BOARDS = {
    "a single image": (SINGLE, {b"one": device(SINGLE.image(0, NEW))}, [(b"one", SIZE)]),
    "two copies in two files": (PAIR, dict(zip((b"one", b"two"), map(device, pair(PAIR)))), [(b"one", SIZE), (b"two", SIZE)]),
    "big-endian": (BIG, {b"one": device(*pair(BIG))}, [(b"one", SIZE), (b"one", 2 * SIZE)]),
    "two copies in one file": (PAIR, {b"one": device(*pair(PAIR))}, [(b"one", SIZE), (b"one", 2 * SIZE)]),
}


def sized(factor, places, turned=False):
    return places, int(SIZE * factor), turned


def elsewhere(place, behind=0):
    return place[0], ELSEWHERE + behind


# What a configuration has of the right places: lines, a size, and whether the byte order is the other one
CONFIGURATIONS = {
    "in the other order": lambda places: sized(1, places[::-1]),
    "the first line alone": lambda places: sized(1, places[:1]),
    "the last line, and one behind it": lambda places: sized(1, [places[-1], (places[-1][0], places[-1][1] + SIZE)]),
    "half the size": lambda places: sized(0.5, places),
    "a quarter of the size": lambda places: sized(0.25, places),
    "twice the size": lambda places: sized(2, places),
    "four times the size": lambda places: sized(4, places),
    "the other byte order": lambda places: sized(1, places, True),
    "the other byte order, half the size": lambda places: sized(0.5, places, True),
    "the first line elsewhere": lambda places: sized(1, [elsewhere(places[0]), *places[1:]]),
    "the last line elsewhere": lambda places: sized(1, [*places[:-1], elsewhere(places[-1])]),
    "each line elsewhere": lambda places: sized(1, [elsewhere(place, 2 * SIZE * at) for at, place in enumerate(places)]),
    "a line twice": lambda places: sized(1, [places[0], places[0]]),
}
TEXT, DEFAULT = b"a=2\nb=3\n", b"a=9\nbootcmd=run default\n"
FILES = {b"text": TEXT, b"script": b"a 2\n", b"default": DEFAULT}
# Calls of fw_setenv, and of the subcommands that write; of a dry run its input
CLIENT_CALLS = [[b"setenv", b"a", b"2"], [b"setenv", b"a"], [b"setenv", b"-s", b"script"], [b"setenv", b"c", b"1", b"2"]]
CALLS = [
    [b"setenv", b"a", b"2"], [b"import", b"text"], [b"restore", b"text"], [b"run", b"--write", b"-e", b"setenv a 2; saveenv"],
    [b"session", b"--write"],
]  # fmt: skip
GIVEN = b"setenv a 2; saveenv\n.x\n"


def is_right(places, lines, size, turned):
    return sorted(lines) == sorted(places) and size == SIZE and not turned


def written(board, lines, size, turned):
    """The files of a board under a configuration, and the options that name it."""
    form, devices, _ = board
    text = b"".join(b"%s 0x%x 0x%x\n" % (name, at, size) for name, at in lines)
    order = [b"--big-endian"] * ((form.order == "big") != turned)
    return devices | FILES | {CONFIG: text}, [b"-c", CONFIG, *order]


def is_spared(board, files):
    """Whether each copy of the board is what it was."""
    _, devices, places = board
    return all(files[name][at : at + SIZE] == devices[name][at : at + SIZE] for name, at in places)


def accepts(board, right, wanted, found):
    """The answer is the model's; a right configuration is written under, and a wrong one spares the copies."""
    return (
        found.is_as(wanted) and found.status == 0 and not is_spared(board, found.files)
        if right
        else found.is_as(wanted) and is_spared(board, found.files)
    )


def case(name, board, configuration, call, is_client, options):
    lines, size, turned = configuration(board[2])
    files, place = written(board, lines, size, turned)
    words, prefix = [call[0], *place, *options, *call[1:]], ()
    wanted = Program(files, GIVEN).answer(words)
    if is_client:
        # its call is that of setenv, under --need-copy
        default = [b"-f", *options[1:]] if options else []
        wanted = Program(files, GIVEN).answer([call[0], *place, b"--need-copy", *options, *call[1:]])
        words, prefix = [*place, b"-l", b"", *default, *call[1:]], named(b"fw_setenv")
    judged = functools.partial(accepts, board, is_right(board[2], lines, size, turned), wanted)
    return Case(name, words, files, GIVEN, wanted=wanted, accepts=judged, prefix=prefix, is_modelled=False)


def under_each(calls, is_client, options):
    for (board, it), (made, configuration) in itertools.product(BOARDS.items(), CONFIGURATIONS.items()):
        for call in calls:
            yield case(f"{board}, {made}", it, configuration, call, is_client, options)


def hint_rows():
    """The hints of docs/status.md: a single image, or the first of two copies, that is good as the hint says."""
    for hints, _ in rows_under("status.md", "Hint", "The bytes"):
        for words in texts_in(hints):
            if words.startswith("good"):
                yield hinted(words, f"fwenv: nothing is written: the first copy is {words}")


def hinted(words, line):
    """A copy that is good so, under a configuration that has it otherwise."""
    meant = "big" if "without" in words else "little"
    found = "little" if "without" in words else "big" if "with --big" in words else "little"
    kinds = {"single": 1, "flag": 2}
    [copies] = [kinds[kind] for kind in kinds if kind in words] or [1]
    size = 0x4000 if "size" in words else 0x1000
    is_pair = copies == 1 if "as a" in words else False
    lines = b"one 0 0x1000\ntwo 0 0x1000\n" if is_pair else b"one 0 0x1000\n"
    files = {CONFIG: lines, b"one": Geometry(copies, size, found).image(1, NEW), b"two": b"\xff" * 0x1000}
    words = [b"setenv", b"-c", CONFIG, *[b"--big-endian"] * (meant == "big"), b"a", b"2"]
    return Case("docs/status.md", words, files, wanted=Answer(1, b"", line.encode() + b"\n", files))


def others():
    """The second copy alone, one that is erased, one that is good in no way, and those that are written over."""
    good, bad, erased = PAIR.image(1, NEW), FOREIGN[:SIZE], b"\xff" * SIZE
    big = BIG.image(1, NEW)
    line = b"fwenv: nothing is written: the %s copy is good with --big-endian\n"
    new = PAIR.image(1, b"a=2\0")
    for first, second, options, left in (
        (bad, big, [], line % b"second"),
        (erased, big, [], line % b"second"),
        (big, big, [], line % b"first"),
        (big, big, [b"--overwrite"], [new, big]),
        (bad, big, [b"--overwrite"], [new, big]),
        (erased, erased, [], [new, erased]),
        (bad, bad, [], [new, bad]),
        (bad, good, [], None),
    ):
        files = {CONFIG: b"one 0 0x4000\ntwo 0 0x4000\n", b"one": first, b"two": second}
        words = [b"setenv", b"-c", CONFIG, *options, b"a", b"2"]
        wanted = None
        if isinstance(left, bytes):
            wanted = Answer(1, b"", left, files)
        elif left:
            wanted = Answer(0, b"", WARNING, files | dict(zip((b"one", b"two"), left)))
        yield Case("copies that are good otherwise", words, files, wanted=wanted)


def chunks():
    default = [b"--default", b"default"]
    calls = [(calls, is_client, options) for calls, is_client in ((CLIENT_CALLS, True), (CALLS, False)) for options in ([], default)]
    return [hint_rows, others, *(functools.partial(under_each, *each) for each in calls)]
