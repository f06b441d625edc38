"""Variables with the types and accesses that `.flags` gives them, and the checks of a write (docs/variables.md)."""

import functools
import re

from model.image import entries

BLANKS = b" \t"
TYPES = {
    b"s": re.compile(rb".*", re.DOTALL),
    b"d": re.compile(rb"[0-9]*"),
    b"x": re.compile(rb"(0[xX])?[0-9a-fA-F]+"),
    b"b": re.compile(rb"[1yYtT0nNfF]"),
    b"i": re.compile(rb"[0-9]{1,3}(\.[0-9]{1,3}){3}"),
    b"m": re.compile(rb"[0-9a-fA-F]{1,2}(:[0-9a-fA-F]{1,2}){5}"),
}
ACCESSES = (b"a", b"r", b"o", b"c")
PLAIN = (b"s", b"a")

# What is reported of a refused write (docs/tools.md, docs/runs.md)
REFUSALS = {
    "BadForm": b'## Error: bad name or value for "%s"\n',
    "BadType": b'## Error: type check failure for "%s"\n',
    "NoCreate": b'## Error: Can\'t create "%s"\n',
    "NoDelete": b'## Error: Can\'t delete "%s"\n',
    "NoOverwrite": b'## Error: Can\'t overwrite "%s"\n',
    "Full": b'## Error: no room for "%s"\n',
}
NOT_DEFINED = b'## Error: "%s" not defined\n'


@functools.lru_cache(maxsize=64)
def attributes(flags):
    """What the value of `.flags` gives names: (type, access)."""
    found = {}
    for item in flags.split(b","):
        name, _, letters = item.partition(b":")
        name, letters = name.strip(BLANKS), letters.strip(BLANKS)
        if name:
            kind, access = letters[0:1], letters[1:2]
            found[name] = (kind if kind in TYPES else b"s", access if access in ACCESSES else b"a")
    return found


def access_refusal(access, old, value, default):
    if access == b"a":
        return None
    if old is None:
        return "NoCreate" if access == b"r" else None
    if not value:
        return "NoDelete"
    return None if access == b"c" and old == default else "NoOverwrite"


class Environment:
    """Variables in a room, with the values of the default environment; `used` is what they take."""

    def __init__(self, room, values=(), defaults=()):
        self.room = room
        self.values = dict(values)
        self.defaults = dict(defaults)
        self.used = 1 + sum(len(name) + len(value) + 2 for name, value in self.values.items())

    def copy(self):
        return Environment(self.room, self.values, self.defaults)

    def used_with(self, name, value):
        """What is used after a write."""
        old = self.values.get(name)
        used = self.used if old is None else self.used - len(name) - len(old) - 2
        return used + len(name) + len(value) + 2 if value else used

    def refusal(self, name, value, force):
        """The first check that refuses a write; None if none does."""
        if not name or b"=" in name or b"\0" in name or b"\0" in value:
            return "BadForm"
        old = self.values.get(name)
        if not value and old is None:
            return None
        kind, access = attributes(self.values.get(b".flags", b"")).get(name, PLAIN)
        if value and not TYPES[kind].fullmatch(value):
            return "BadType"
        if not force:
            refusal = access_refusal(access, old, value, self.defaults.get(name))
            if refusal:
                return refusal
        return "Full" if value and self.used_with(name, value) > self.room else None

    def write(self, name, value, force):
        """Writes, or answers why it is refused. No value deletes."""
        refusal = self.refusal(name, value, force)
        if refusal is None:
            self.used = self.used_with(name, value)
            if value:
                self.values[name] = value
            else:
                self.values.pop(name, None)
        return refusal

    def lines(self):
        """Every variable as a line, in order."""
        return b"".join(name + b"=" + value + b"\n" for name, value in sorted(self.values.items()))

    def entries(self):
        return entries(self.values)
