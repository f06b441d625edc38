"""Texts around an environment: configurations, texts for import and export, set scripts (docs/texts.md), and stand-in
files (docs/runs.md, "Stand-ins")."""

import re
from dataclasses import dataclass

from model.calculations import status_of_digits
from model.image import LARGEST, Geometry

BLANKS = b" \t"
BUILTINS = {
    b"true", b"false", b"echo", b"setenv", b"printenv", b"saveenv", b"run", b"env", b"test", b"exit",
    b"setexpr", b"setexpr.b", b"setexpr.w", b"setexpr.l", b"setexpr.q",
}  # fmt: skip
# Those of `env`, and what they are called without it
SUBCOMMANDS = {b"set": "setenv", b"print": "printenv", b"save": "saveenv", b"run": "run", b"delete": "delete", b"exists": "exists"}


FOREIGN = {
    b"\x27\x05\x19\x56": b"this is an image of mkimage, as boot.scr is, not a text",
    b"\xff\xfe": b"this text is in UTF-16",
    b"\xfe\xff": b"this text is in UTF-16",
    b"\xef\xbb\xbf": b"this text begins with a byte order mark",
}


class TextFault(Exception):
    """Why a text is refused, and perhaps in which line."""

    def __init__(self, name, line=None):
        super().__init__(name, line)
        self.text = name.encode() if line is None else b"%s in line %d" % (name.encode(), line)


def lines_of(text):
    """The lines with their numbers."""
    lines = text.split(b"\n")
    return enumerate(lines if lines[-1] else lines[:-1], 1)


# Configurations


@dataclass(frozen=True)
class Place:
    device: bytes
    offset: int
    line: int

    def start(self, size, length):
        """Where the copy begins in a device of this length; None if it isn't wholly inside."""
        start = self.offset + (length if self.offset < 0 else 0)
        return start if 0 <= start and start + size <= length else None


@dataclass(frozen=True)
class Configuration:
    size: int
    places: list

    def geometry(self, order):
        return Geometry(len(self.places), self.size, order)


OFFSET = re.compile(rb"([+-]?)(0[xX][0-9a-fA-F]+|0[0-7]*|[1-9][0-9]*)")
SIZE = re.compile(rb"(?:0[xX])?([0-9a-fA-F]+)")


def offset_of(field):
    """The offset that a field spells, None if it isn't readable; more digits than any offset has are too large."""
    match = OFFSET.fullmatch(field)
    if not match:
        return None
    digits = match[2]
    base = 16 if digits[1:2] in (b"x", b"X") else 8 if digits[:1] == b"0" else 10
    magnitude = int(digits, base) if base != 10 or len(digits) < 40 else 2**63
    if magnitude >= 2**63:
        return None
    return -magnitude if match[1] == b"-" else magnitude


def accepted_lines(text):
    """The first two lines that are accepted: places and sizes."""
    found = []
    for number, line in lines_of(text):
        fields = re.findall(rb"[^ \t\r]+", line)
        if line[:1] == b"#" or len(fields) < 3:
            continue
        offset, size = offset_of(fields[1]), SIZE.fullmatch(fields[2])
        if offset is not None and size and len(found) < 2:
            found.append((Place(fields[0], offset, number), int(size[1], 16)))
    return found


def is_yaml(text):
    """Whether a configuration in which no line is accepted is YAML."""
    return any(line.rstrip(b" \t\n\f\r").endswith(b":") and not line.startswith(b"#") for line in text.split(b"\n"))


def configuration(text):
    found = accepted_lines(text)
    for place, size in found:
        try:
            place.device.decode()
        except UnicodeDecodeError:
            raise TextFault("NotUtf8", place.line)
        if not 8 <= size <= LARGEST:
            raise TextFault("Size", place.line)
    if not found:
        raise TextFault("NoCopy")
    places, sizes = [place for place, _ in found], [size for _, size in found]
    if len(found) == 2:
        refuse_pair(*places, *sizes)
    return Configuration(sizes[0], places)


def refuse_pair(first, second, size, second_size):
    if size != second_size:
        raise TextFault("Unequal")
    if size == 8:
        raise TextFault("Size", first.line)
    is_one_end = (first.offset < 0) == (second.offset < 0)
    if first.device == second.device and is_one_end and abs(first.offset - second.offset) < size:
        raise TextFault("Overlap")


# Entries: (line, name, value), an empty value for none

SKIPPED = re.compile(rb"(?:[ \t\n]|#[^\n]*)*")
ENTRY = re.compile(rb"([^=\n]*)(?:=((?:[^\\\n]+|\\.|\\\Z)*))?", re.DOTALL)
ESCAPED = re.compile(rb"\\(.)", re.DOTALL)
# How a text spells one byte of a value
SPELLED = re.compile(rb"\\?.", re.DOTALL)


def refuse_nul(text):
    if b"\0" in text:
        raise TextFault("Nul")


def skipped(text, at):
    """Where the next entry begins: blanks and newlines are passed over, and `#` begins a comment there."""
    return SKIPPED.match(text, at).end()


def foreign(text):
    """What is given in the place of a text and is none."""
    for beginning, what in FOREIGN.items():
        if text.startswith(beginning):
            return what
    is_size = 8 <= len(text) <= LARGEST
    shapes = [Geometry(copies, len(text), order) for copies in (1, 2) for order in ("little", "big")]
    if is_size and any(shape.room >= 4 and shape.read(text)[0] == "Good" for shape in shapes):
        return b"this is an image of an environment, not a text"
    return None


# A source of U-Boot: what is wrong with a line, or its text, in the order of docs/texts.md
SOURCE_FAULTS = [
    (re.compile(rb"\0"), b"a byte 0"),
    (re.compile(rb"\r"), b"a carriage return"),
    (re.compile(rb"\A[ \t]*#"), b"a line for the C preprocessor, which has to be run before"),
    (re.compile(rb"\A[ \t]*/\*"), b"a comment for the C preprocessor, which has to be run before"),
    (re.compile(rb"\\"), b"a backslash, which U-Boot's build changes"),
]
DEFINITION = re.compile(rb"([^ \t=][^ =]*)=(.*)", re.DOTALL)
NAME_FAULTS = [
    (re.compile(rb"\t"), b"a tab in the name"),
    (re.compile(rb"\A[0-7]"), b"a name that begins with a digit from 0 to 7, which U-Boot's build loses"),
    (re.compile(rb"\A\+\Z"), b"no name before +="),
]
MARKER = re.compile(rb"# [0-9]+ \"")


class SourceFault(Exception):
    """Why a source is refused: the line, and what is wrong with it."""

    def __init__(self, line, text):
        super().__init__(line, text)
        self.line, self.text = line, text


def source_definition(line):
    """The name, whether it is added to, and the value's beginning; None if the line defines nothing, or what is wrong."""
    for form, what in SOURCE_FAULTS:
        # what the preprocessor wrote may have a # at its front, and backslashes in its path
        if form.search(line) and (what in (b"a byte 0", b"a carriage return") or not MARKER.match(line)):
            return what
    found = None if MARKER.match(line) else DEFINITION.fullmatch(line)
    if not found:
        return None
    name, value = found.groups()
    for form, what in NAME_FAULTS:
        if form.search(name):
            return what
    if name.endswith(b"+") and not value:
        return b"nothing after +="
    return name.removesuffix(b"+"), name.endswith(b"+"), value


def source_entries(text):
    """The variables of a source: lines, names and values, in the order of the names."""
    definitions = []
    for number, line in enumerate(text.split(b"\n"), 1):
        found = source_definition(line)
        if isinstance(found, bytes):
            raise SourceFault(number, found)
        if found:
            definitions.append([number, *found])
        elif line.strip(b" \t") and not MARKER.match(line):
            if not definitions:
                raise SourceFault(number, b"no variable before this line")
            so_far = definitions[-1][3]
            definitions[-1][3] = so_far + b" " * bool(so_far) + line.lstrip(b" \t")
    if len(definitions) > 1 and not definitions[-1][3] and not definitions[-2][3] and any(value for *_, value in definitions):
        raise SourceFault(definitions[-1][0], b"two variables without a value at the end, by which U-Boot's build loses all")
    found = {}
    for number, name, adds, value in definitions:
        if value:
            found[name] = number, (found[name][1] if adds and name in found else b"") + value
    return [(line, name, value) for name, (line, value) in sorted(found.items())]


def import_entries(text):
    refuse_nul(text)
    found, line, counted, at = [], 1, 0, skipped(text, 0)
    while at < len(text):
        line, counted = line + text.count(b"\n", counted, at), at
        entry = ENTRY.match(text, at)
        if not entry[1]:
            raise TextFault("EmptyName", line)
        found.append((line, entry[1], ESCAPED.sub(rb"\1", entry[2] or b"")))
        at = skipped(text, entry.end())
    return found


def value_offsets(text):
    """Where each byte of a value begins in a text for import, and where the value ends, by names; the last entry of a name counts."""
    found, at = {}, skipped(text, 0)
    while at < len(text):
        entry = ENTRY.match(text, at)
        if entry[2] is not None:
            found[entry[1]] = [*(entry.start(2) + byte.start() for byte in SPELLED.finditer(entry[2])), entry.end(2)]
        at = skipped(text, entry.end())
    return found


def closed_lines(text):
    """Lines as U-Boot's build prints them, as a text for import: a backslash at a line's end stands for itself, unless one before it makes
    it literal."""
    lines = []
    for line in text.split(b"\n"):
        # backslashes at the end of a line, in pairs and perhaps one more
        is_odd = len(re.search(rb"\\*$", line)[0]) % 2
        lines.append(line + b"\\" * is_odd)
    return b"\n".join(lines)


def initial_entries(text):
    return import_entries(closed_lines(text))


def set_script_entries(text):
    refuse_nul(text)
    found = []
    for number, line in lines_of(text):
        line = line.removesuffix(b"\r")
        if not line.strip(BLANKS) or line[:1] == b"#":
            continue
        key, value = re.fullmatch(rb"[ \t]*([^ \t=]*)[ \t=]?[ \t]*(.*)", line, re.DOTALL).groups()
        if not key:
            raise TextFault("EmptyName", number)
        found.append((number, key, value))
    return found


def exported(name, value):
    """A variable as text; None if an import wouldn't read its name back."""
    if name[:1] in (b" ", b"\t", b"#") or b"\n" in name:
        return None
    return name + b"=" + re.sub(rb"([\\\n])", rb"\\\1", value) + b"\n"


# Stand-in files


def known_names(text):
    """The names of variables that a board's own code sets, one a line."""
    found = []
    for number, line in lines_of(text):
        line = line.removesuffix(b"\r").lstrip(b" \t")
        if re.search(rb"[ \t=\0]", line) and line[:1] != b"#":
            raise TextFault("NoName", number)
        if line[:1] not in (b"", b"#"):
            found.append(line)
    return found


def stand_ins(text):
    """The statuses by name."""
    statuses = {}
    for number, line in lines_of(text):
        line = line.removesuffix(b"\r")
        words = re.findall(rb"[^ \t]+", line)
        if b"\0" in line:
            raise TextFault("Line", number)
        if line[:1] == b"#" or not words:
            continue
        status = status_of_digits(words[1]) if len(words) > 1 else 0
        if len(words) > 2 or status is None:
            raise TextFault("Line", number)
        if words[0] in BUILTINS:
            raise TextFault("Builtin", number)
        if words[0] in statuses:
            raise TextFault("Twice", number)
        statuses[words[0]] = status
    return statuses
