"""Stored environments both ways: U-Boot loads what `fwenv import` wrote, and fwenv reads what U-Boot's `saveenv` wrote.

U-Boot drops the first byte of each pair `\\X` when it loads a value, and stores each `\\` twice (lib/hashtable.c); fwenv shows the
bytes as they are stored. Half of the environments have backslashes: they differ by exactly that rule, the class `backslashes`, and
the others don't differ.
"""

import random
import re
import struct
import subprocess
import zlib

from board import ENVIRONMENT_SIZE
from differential.harness.boards import lines_of
from model.dump import ENTRY
from rows import Difference, Row

COUNT = 20
SEED = 2023
VARIABLES = (10, 40, 400)
# Without `>`: a newline and `> ` would look like the prompt for more of a script.
PLAIN = bytes(set(range(32, 256)) - set(b"\\>\x7f")) + b"\t\n"
NAMES = bytes(set(range(33, 256)) - set(b'=#\\>"\x7f'))
TYPED = bytes(set(range(32, 127)) - set(b"'\\"))
FLAGS = b"count:dc,mask:xa,quiet:ba"
DEFAULT = b"default environment"


def text_of(numbers, alphabet, most):
    return bytes(numbers.choice(alphabet) for _ in range(numbers.randrange(1, most)))


def environment(numbers, count, with_backslashes):
    alphabet = PLAIN + b"\\" * 20 * with_backslashes
    found = {b".flags": FLAGS, b"count": b"12", b"mask": b"0x1F", b"quiet": b"y"}
    found[b"a name"] = b" 'blanks' and \"quotes\" = # $x ${y}; echo "
    found[b"long"] = text_of(numbers, alphabet, 9000)
    found[b"path"] = rb"C:\boot\n\\" if with_backslashes else b"/boot/"
    while len(found) < count:
        found[text_of(numbers, NAMES, 24)] = text_of(numbers, alphabet, numbers.choice((4, 40, 200)))
    return found


def loaded(value):
    return re.sub(rb"\\(.)", rb"\1", value, flags=re.DOTALL)


def stored(value):
    return value.replace(b"\\", b"\\\\")


def with_a_bit_turned(image, numbers):
    used = image.index(b"\0\0", 4)
    turned = bytearray(image)
    turned[numbers.randrange(used)] ^= 1 << numbers.randrange(8)
    return bytes(turned)


def faults_of_refusal(copy):
    """The image is to be refused by both: a fault for each that takes it."""
    shown = copy.run("printenv")
    if shown.stdout or b"Bad CRC" not in shown.stderr:
        yield f"fwenv takes it: {shown.stdout[:200]!r}, {shown.stderr!r}"
    with copy.board() as board:
        if b"bad CRC, using default environment" not in board.greeting:
            yield f"the board takes it: {board.greeting!r}"


def first_difference(one, other):
    names = [name for name in sorted(one.keys() | other.keys()) if one.get(name) != other.get(name)]
    return f"{len(names)} differ, first {names[0]!r}: {one.get(names[0])!r}, {other.get(names[0])!r}" if names else "none"


def both_ways(number, pair):
    """Faults of an environment on its way to the board and back."""
    numbers = random.Random(f"{SEED} {number}")
    with_backslashes = number % 2 == 1
    variables = environment(numbers, VARIABLES[number % len(VARIABLES)], with_backslashes)
    copy = pair.copy(f"image-{number}")
    copy.store(variables)
    image = copy.image.read_bytes()
    expected = {name: loaded(value) for name, value in variables.items()}
    if (expected != variables) != with_backslashes:
        yield "it doesn't have the backslashes that it is to have"
    copy.image.write_bytes(with_a_bit_turned(image, numbers))
    for fault in faults_of_refusal(copy):
        yield f"with a bit turned: {fault}"
    copy.image.write_bytes(image)
    with copy.board() as board:
        found = board.own_variables()
        if found != expected:
            yield f"to the board: {first_difference(found, expected)}"
        value = text_of(numbers, TYPED, 150) + rb"\\\\" * with_backslashes
        printed = board.command(b"setenv long '%s'; setenv 'new one' '%s'; saveenv" % (value, value[::-1]))
        left = board.variables()
    if not printed.endswith(b"\nOK\n") or left[b"new one"] == left[b"long"]:
        yield f"nothing was saved: {printed!r}"
    shown = copy.run("printenv")
    if (shown.stdout, shown.stderr) != (lines_of({name: stored(left[name]) for name in left}), b""):
        yield f"back from the board: {shown.stdout!r}, {shown.stderr!r}, {left!r}"
    yield from faults_of_dump(copy, len(left))


def faults_of_dump(copy, count):
    """`find` meets in the whole flash, after the board's `saveenv`, what it saved and nothing else; of an odd first name nothing."""
    found = subprocess.run([copy.program, "find", copy.image], capture_output=True, timeout=60)
    with open(copy.image, "rb") as flash:
        is_met = ENTRY.match(flash.read(ENVIRONMENT_SIZE)[4:])
    there = f"# good as a single image, {count} variables\n{copy.image} 0x0 {ENVIRONMENT_SIZE:#x}\n"
    line = there if is_met else f"# no environment in {copy.image}\n"
    if (found.returncode, found.stdout, found.stderr) != (0 if is_met else 1, line.encode(), b""):
        yield f"found in the flash: {found.stdout[:300]!r}, {found.stderr!r}"


def faults_of_environment(number, pair):
    return "; ".join(both_ways(number, pair)).encode()


def image_of(area, fill=b"\0"):
    area = area.ljust(ENVIRONMENT_SIZE - 4, fill)
    return struct.pack("<I", zlib.crc32(area)) + area


def answers_to_image(image, copy):
    """The variables that the board and fwenv find in an image, as lines, or that they use the default environment."""
    copy.image.write_bytes(image)
    shown = copy.run("printenv")
    dry_run = DEFAULT if b"using default environment" in shown.stderr else shown.stdout.rstrip(b"\n")
    with copy.board() as board:
        is_default = b"using default environment" in board.greeting
        return DEFAULT if is_default else lines_of(board.own_variables()).rstrip(b"\n"), dry_run


def answers_to_row(row, pair):
    area = row.area.decode().encode("latin-1").decode("unicode_escape").encode("latin-1")
    return answers_to_image(image_of(area, row.fill or b"\0"), pair.copy(row.place))


def answers_to_many(pair):
    """How many of 600 variables the board and fwenv find."""
    image = image_of(b"".join(b"v%03d=%d\0" % (number, number) for number in range(600)))
    return tuple(b"[%d]" % len(found.splitlines()) for found in answers_to_image(image, pair.copy("many")))


MANY = Row("an image of 600 variables", differences=[Difference("", ["many-variables"], [b"[5..]"], [b"[600]"])])
