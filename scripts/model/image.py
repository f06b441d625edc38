"""Stored copies of an environment: checksum, state, choice, entries and written images (docs/images.md)."""

import zlib
from dataclasses import dataclass

LARGEST = 2**20
ERASED = b"\xff"


def entries(variables):
    """The entries of an environment, in ascending order of the names' bytes."""
    return b"".join(name + b"=" + value + b"\0" for name, value in sorted(variables.items()))


def variables_of(area):
    """The variables of a data area, of which the last entry for a name decides; None if its list isn't ended."""
    found = {}
    for entry in area.split(b"\0")[:-1]:
        if not entry:
            return found
        name, _, value = entry.partition(b"=")
        found.pop(name, None)
        if name and value:
            found[name] = value
    return None


@dataclass(frozen=True)
class Geometry:
    """How many copies there are, the bytes of each, and the order of the checksum's bytes."""

    copies: int
    size: int
    order: str = "little"

    @property
    def head(self):
        return 3 + self.copies

    @property
    def room(self):
        return self.size - self.head

    def image(self, flag, area):
        """The copy whose data area begins with these bytes; zeros fill the rest."""
        area = area.ljust(self.room, b"\0")
        return zlib.crc32(area).to_bytes(4, self.order) + bytes([flag])[: self.copies - 1] + area

    def flag(self, copy):
        return copy[4] if self.copies == 2 else 0

    def read(self, copy):
        """The state of a copy, and its variables if it is good."""
        if len(copy) != self.size:
            return "BadLength", None
        area = copy[self.head :]
        if copy[:4] != zlib.crc32(area).to_bytes(4, self.order):
            return "BadCrc", None
        variables = variables_of(area)
        return ("Unterminated", None) if variables is None else ("Good", variables)

    def choice(self, copies):
        """Which of the copies is current, and its variables; None twice if no copy is good."""
        read = [self.read(copy)[1] for copy in copies]
        good = [at for at, variables in enumerate(read) if variables is not None]
        if not good:
            return None, None
        at = good[0]
        if len(good) == 2:
            first, second = map(self.flag, copies)
            at = int(second > first) if {first, second} != {0, 255} else int(first == 255)
        return at, read[at]
