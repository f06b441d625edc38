"""New images by hand: each row is a call of `image` over a text, and the bytes that it makes."""

from differential.harness.boards import calls
from differential.harness.running import Case
from model.arguments import BOTH_ALONE, NO_COPIES, NO_PAIR_SIZE, NO_SIZE, NO_TEXT, TWO_TEXTS
from model.image import ERASED, Geometry
from model.program import Answer

TEXT = b"# two variables\nb=2\na=x\\\ny\n"
AREA = b"a=x\ny\0b=2\0"
SINGLE, PAIR, BIG = Geometry(1, 32), Geometry(2, 32), Geometry(2, 32, "big")
BLANK, COPY = ERASED * 32, PAIR.image(1, AREA)
# Options, and what is made of the text
MADE = [
    ("--size 20", SINGLE.image(0, AREA)),
    ("--size 0x20 --copies 1", SINGLE.image(0, AREA)),
    ("--size 0X20 --copies=2", BLANK + COPY),
    ("--both --size 20 --copies 2", COPY + COPY),
    ("--big-endian --copies 2 --size 20", BLANK + BIG.image(1, AREA)),
    ("--big-endian --size 20", Geometry(1, 32, "big").image(0, AREA)),
    ("--size 0x100000", Geometry(1, 2**20).image(0, AREA)),
    ("--size 100000 --copies 2 --both", Geometry(2, 2**20).image(1, AREA) * 2),
    ("--size f", Geometry(1, 15).image(0, AREA)),
    ("--size 10 --copies 2", ERASED * 16 + Geometry(2, 16).image(1, AREA)),
]
# Options, a text, and what is reported
REFUSED = [
    ("--size e", TEXT, b"fwenv: text: Full in line 3\n"),
    ("--size f --copies 2", TEXT, b"fwenv: text: Full in line 3\n"),
    ("--size 20", b".flags=n:d\nn=x\n", b"fwenv: text: BadType in line 2\n"),
    ("--size 20", b"a=1\n=x\n", b"fwenv: text: EmptyName in line 2\n"),
    ("--size 20", b"a=\0\n", b"fwenv: text: Nul\n"),
    ("--size 20", None, b"fwenv: cannot read text: no such file\n"),
]
# What is printed of arguments that are wrong, and such arguments; nothing is read or written
WRONG_WORDS = {
    NO_TEXT: "image --size 20 / image --size x --copies 3",
    TWO_TEXTS: "image --env text --env-source text --size 20 / image --env-plain text --env-source text --size 20 / image --env-plain text --env text --size 20 / image --env-source absent --env absent --size x --copies 3",
    None: "image / image --env text / image --env text --size 20 x / image --env text --size 20 -c x / image --env text --size 20 --write",
    NO_COPIES % b"3": "image --env text --size x --copies 3 --both --output out",
    NO_COPIES % b"": "image --env text --size 20 --copies=",
    BOTH_ALONE: "image --env text --size x --both / image --env text --size 20 --copies 1 --both",
    NO_SIZE % b"7": "image --env text --size 7",
    NO_SIZE % b"": "image --env text --size=",
    NO_SIZE % b"100001": "image --env text --size 100001 --output out",
    NO_PAIR_SIZE % b"8": "image --env text --size 8 --copies 2",
    NO_PAIR_SIZE % b"4k": "image --env text --size 4k --copies 2 --both",
}


def row(name, words, files, status=0, output=b"", errors=b"", left=(), given=b""):
    return Case(name, words, files, given, wanted=Answer(status, output, errors, files | dict(left)))


def made():
    for options, image in MADE:
        [words] = calls("image --env text " + options)
        yield row("an image", words, {b"text": TEXT}, output=image)
        yield row("an image in a file", [*words, b"--output", b"out"], {b"text": TEXT}, left={b"out": image})
        yield row("an image in a file that is there", [*words, b"--output=out"], {b"text": TEXT, b"out": b"x" * 99}, left={b"out": image})
    image = SINGLE.image(0, b"")
    yield row("no variables", calls("image --size 20 --env -")[0], {}, output=image)
    yield row("a text from standard input", calls("image --size 20 --env=-")[0], {}, output=SINGLE.image(0, AREA), given=TEXT)
    yield row("a source", calls("image --env-source text --size 20")[0], {b"text": b"b=2\na=x\n y\n"}, output=SINGLE.image(0, b"a=x y\0b=2\0"))
    yield row("types that are kept", calls("--big-endian image --size 20 --env text")[0], {b"text": b".flags=n:dr\nn=1\n"},
              output=Geometry(1, 32, "big").image(0, b".flags=n:dr\0n=1\0"))  # fmt: skip


def refused():
    for options, text, errors in REFUSED:
        [words] = calls("image --env text " + options)
        files = {} if text is None else {b"text": text}
        yield row("no image", [*words, b"--output", b"out"], files, 1, errors=errors)
        yield row("no image", words, files, 1, errors=errors)
    [words] = calls("image --env text --size 20 --output none/out")
    yield row("a file in no folder", words, {b"text": TEXT}, 1, errors=b"fwenv: cannot write none/out: no such file\n")
    [words] = calls("image --env text --size 20 --output .")
    yield row("a folder", words, {b"text": TEXT}, 1, errors=b"fwenv: cannot write .: it is a directory\n")
    case = row("a full disk", calls("image --env text --size 20 --output /dev/full")[0], {b"text": TEXT}, 1)
    case.wanted.errors, case.is_modelled = b"fwenv: cannot write /dev/full: no space is left\n", False
    yield case


def words():
    for errors, texts in WRONG_WORDS.items():
        for given in calls(texts):
            yield row("wrong words of an image", given, {b"text": TEXT}, 1, errors=errors)


def chunks():
    return [made, refused, words]
