"""Reports of what is stored (docs/status.md)."""

import re

from model.image import LARGEST, Geometry
from model.texts import accepted_lines, lines_of

FAULTS = {"BadLength": b"length is wrong", "BadCrc": b"checksum is wrong", "Unterminated": b"list of entries isn't ended"}
SIZES = [2**power for power in range(12, 21)]
KINDS = {1: b" as a single image", 2: b" as a copy with a flag"}
ORDERS = {"little": b" without --big-endian", "big": b" with --big-endian"}
NO_VARIABLES = b"variables    none, no copy is good\n"


def faults(geometry, copies):
    """What is wrong with each of the copies, none of which is good."""
    words = [FAULTS[geometry.read(copy)[0]] for copy in copies]
    return words[0] if len(words) == 1 else b"%s in the first copy, %s in the second" % tuple(words)


def good(found, copies, size, order):
    """The geometry of this kind of image, if the first bytes are a good one."""
    geometry = Geometry(copies, size, order)
    if geometry.room >= 4 and size <= LARGEST and geometry.read(found[:size])[1] is not None:
        return geometry
    return None


def ways(copies, size, order):
    """How bytes may be good, in the order in which it is tried; copies is None if neither kind is meant."""
    other = {"little": "big", "big": "little"}[order]
    kinds = [1, 2] if copies is None else [copies, 3 - copies]
    return [(kind, each, turn) for each in [size, *SIZES] for kind in kinds for turn in (order, other)]


def hint(found, copies, size, order):
    """What may help with bytes that aren't good as they are meant."""
    for byte, name in ((b"\xff", b"FF"), (b"\0", b"00")):
        if found[:size] and not found[:size].strip(byte):
            return b", erased (all bytes %s)" % name
    for kind, each, turn in ways(copies, size, order):
        if good(found, kind, each, turn):
            words = KINDS[kind] if kind != copies else b""
            words += ORDERS[turn] if turn != order else b""
            return b", good" + words + (b" with size 0x%x" % each if each != size else b"")
    return b""


def misread(geometry, read):
    """The line that refuses to write over copies, none of which is good: one of them is good in another way, by a hint."""
    for which, (_, found) in zip((b"first", b"second"), read):
        _, _, words = hint(found, geometry.copies, geometry.size, geometry.order).partition(b", ")
        if words.startswith(b"good"):
            return b"fwenv: nothing is written: the %s copy is %s\n" % (which, words)
    return None


def is_misplaced(geometry, copies, at):
    """Whether this one of two copies, of which the other is good, may not be a copy: it isn't good, nor erased, and begins with no entry."""
    copy, *others = copies[at], *copies[:at], *copies[at + 1 :]
    is_beside = any(geometry.read(other)[0] == "Good" for other in others)
    is_erased = not copy.strip(b"\xff") or not copy.strip(b"\0")
    is_entry = re.match(rb"[ -<>-~]+=", copy[geometry.head :])
    return is_beside and geometry.read(copy)[0] != "Good" and not is_erased and not is_entry


def variables_line(geometry, copy):
    variables = geometry.read(copy)[1]
    used = sum(len(name) + len(value) + 2 for name, value in variables.items()) + 1
    return b"variables    %d, %d of %d bytes used\n" % (len(variables), used, geometry.room)


def copy_line(label, place, start, found, geometry, is_current):
    copy = found[: geometry.size]
    state = geometry.read(copy)[0]
    if state != "Good":
        words = FAULTS[state] + hint(found, geometry.copies, geometry.size, geometry.order)
    else:
        words = b"good, flag %d" % geometry.flag(copy) if geometry.copies == 2 else b"good"
    words += b", current" if is_current else b""
    return b"%-13s%s at 0x%x, %d bytes: %s\n" % (label, place.device, start, geometry.size, words)


def skipped(path, text):
    """A line for each that is neither empty nor a comment, and names no copy."""
    taken = {place.line for place, _ in accepted_lines(text)}
    idle = re.compile(rb"#.*|[ \t\r]*", re.DOTALL)
    numbers = [number for number, line in lines_of(text) if number not in taken and not idle.fullmatch(line)]
    return b"".join(b"skipped      line %d of %s\n" % (number, path) for number in numbers)


def of_copies(path, text, geometry, places, found):
    """The report on copies, each with its place, where it begins and the bytes from there on; and the status."""
    copies = [rest[: geometry.size] for _, rest in found]
    at, _ = geometry.choice(copies)
    labels = [b"single image"] if len(found) == 1 else [b"first copy", b"second copy"]
    lines = b""
    for number, (label, place, (start, rest)) in enumerate(zip(labels, places, found)):
        lines += copy_line(label, place, start, rest, geometry, len(found) == 2 and number == at)
    if at is None:
        return lines + NO_VARIABLES + skipped(path, text), 1
    lines += variables_line(geometry, copies[at])
    if len(found) == 2:
        flag = (geometry.flag(copies[at]) + 1) % 256
        lines += b"next save    %s, flag %d\n" % (labels[1 - at], flag)
    return lines + skipped(path, text), 0


def of_file(path, found, order):
    """The report on a whole file, and the status."""
    label = b"whole file   %s, %d bytes: " % (path, len(found))
    for copies in (1, 2):
        geometry = good(found, copies, len(found), order)
        if geometry:
            flag = b", flag %d" % geometry.flag(found) if copies == 2 else b""
            return label + b"good" + KINDS[copies] + flag + b"\n" + variables_line(geometry, found), 0
    fault = "BadLength"
    if 8 <= len(found) <= LARGEST:
        fault = Geometry(1, len(found), order).read(found)[0]
    return label + FAULTS[fault] + hint(found, None, len(found), order) + b"\n" + NO_VARIABLES, 1
