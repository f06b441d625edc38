"""Small boards at random, whose power-ons from all that they store are compared with the model's (docs/boot.md)."""

import functools

from differential.harness.boards import board, text_of
from differential.harness.damage import at_random, numbers_of
from differential.harness.running import Case
from model.board_file import BoardFault, rules_of
from model.image import Geometry, entries

OFTEN = {"status 0": 0.1, "never boot": 0.2, "only if a limit": 0.01, "a limit was met": 0.02}
TEXTS = [b"0", b"1", b"2"]
SAVED = [b"x", b"y", b"slot"]
STARTED = [b"a", b"b", b"preboot", b"altbootcmd"]
# What a count depends on, its values, and types and accesses that may refuse one
COUNTED = [b"upgrade_available", b"upgrade_available", b"bootcount", b"bootlimit"]
NUMBERS = [
    b"0",
    b"1",
    b"1",
    b"2",
    b"3x",
    b"01",
    b"-1",
    b"yes",
    b"0x1",
    b"0X2g",
    b"0x",
    b"4294967296",
    b"18446744073709551615",
    b"18446744073709551617",
]
REFUSED = [b"bootcount:so", b"bootcount:dc", b"bootcount:sr", b"bootcount:b", b"bootlimit:dr,bootcount:do"]
# Calls of the board, and rules for them, of which each file has some that ask
CALLS = [b"load mmc 0:1 a", b"load mmc 0:2 a", b"load mmc ${x} a", b"load usb ${slot}", b"dhcp", b"dhcp ${slot}", b"mmc dev 0", b"env default -a"]
FILES = [b"test -e mmc 0:1 a", b"test -e mmc ${x} a", b"test ! -e usb 0 b"]
OPEN = [b"load mmc 0:1", b"load mmc", b"load", b"load usb *", b"dhcp", b"dhcp 1", b"mmc dev", b"env def*", b"test -e mmc 0:1 a", b"test -e"]
CLOSED = [b"load mmc -> 1", b"load", b"load u* -> setenv slot 1", b"dhcp -> run b", b"dhcp 0 -> 1", b"mmc", b"env", b"test -e -> 0", b"bootz 1 -> 1"]
ENDS = [b"bootz -> boots", b"reset -> resets"]


def is_right(text):
    """Whether a board file is none that is refused."""
    try:
        rules_of(text, True)
    except BoardFault:
        return False
    return True


class Boards:
    """A board, its environment and its rules."""

    def __init__(self, numbers):
        self.numbers = numbers

    def chance(self, per_cent):
        return self.numbers.randrange(100) < per_cent

    def any(self, many):
        return self.numbers.choice(many)

    def condition(self):
        if self.chance(25):
            return self.any(FILES)
        if self.chance(40):
            return b'test "${%s}" %s %s' % (self.any(SAVED), self.any([b"=", b"!=", b"-lt"]), self.any(TEXTS))
        return self.any(CALLS)

    def command(self, room):
        """A statement with at most so many inside one another."""
        kind = self.numbers.randrange(100)
        if room and kind < 25:
            otherwise = b" else %s;" % self.script(room - 1) if self.chance(50) else b""
            return b"if %s; then %s;%s fi" % (self.condition(), self.script(room - 1), otherwise)
        if room and kind < 28:
            return b"while %s; do %s; done" % (self.condition(), self.script(room - 1))
        if kind < 50:
            change = b"setenv %s %s" % (self.any(SAVED), self.any([*TEXTS, b"${y}", b""]))
            if self.chance(20):
                change = b"setenv %s %s" % (self.any(COUNTED), self.any([*TEXTS, b"${bootcount}", b""]))
            return self.any([change, change + b"; saveenv", b"setexpr x ${x} + 1; setexpr x ${x} % 3; saveenv", b"saveenv"])
        if kind < 62:
            return b"run " + self.any(STARTED)
        if kind < 72:
            return self.any([b"bootz ${x}", b"bootz 0x46000000", b"reset", b"exit", b"exit 1"])
        return self.condition() + self.any([b"", b" && bootz ${slot}", b" || reset"])

    def script(self, room):
        return self.any([b"; ", b"; ", b" && ", b" || "]).join(self.command(room) for _ in range(self.numbers.randint(1, 4)))

    def variables(self):
        found = {name: self.any(TEXTS) for name in SAVED if self.chance(40)}
        found |= {name: self.script(1) for name in STARTED if self.chance(35)}
        if self.chance(95):
            front = self.any([b"", b"", b"setexpr x ${x} + 1; setexpr x ${x} % 3; saveenv; ", b"load mmc 0:${slot} a || setenv slot 2; saveenv; "])
            found[b"bootcmd"] = front + self.script(2) + self.any([b"", b"; bootz", b"; reset", b"; setenv y 2; saveenv; reset"])
        if self.chance(60):
            found |= {name: self.any(NUMBERS) for name in COUNTED}
            if self.chance(25):
                found[b".flags"] = self.any(REFUSED)
        if self.chance(15):
            found[b"bootdelay"] = self.any([b"-1", b"-01", b"0", b"-2"])
        return found

    def rules(self):
        asked = [pattern + b" -> ?" for pattern in self.numbers.sample(OPEN, self.numbers.randint(1, 3))]
        lines = [*asked, *self.numbers.sample(CLOSED, self.numbers.randint(0, 3))]
        self.numbers.shuffle(lines)
        text = b""
        for line in lines + [line for line in ENDS if self.chance(95)]:
            if self.chance(1) or is_right(text + line):
                text += line + b"\n"
        return text

    def copies(self, variables):
        """The environment as a text, or the current one of two copies."""
        if self.chance(50):
            return [b"--env", b"env"], {b"env": text_of(variables)}
        geometry = Geometry(2, 0x1000)
        current, other = geometry.image(9, entries(variables)), geometry.image(8, entries({b"bootcmd": b"bootz old"}))
        copies = self.numbers.sample([current, other], 2)
        return [b"-c", b"fw.config"], board(geometry, copies)


def random_boot(seed, number):
    made = Boards(numbers_of("boots", seed, number))
    words, files = made.copies(made.variables())
    limits = [b"--stored=%d" % made.any([1, 2, 4]), b"--ways=%d" % made.any([0, 1, 5, 20])] if made.chance(10) else []
    shell = [b"--shell=strict"] if made.chance(15) else []
    graph = [b"--dot"] if made.chance(30) else []
    count = [b"--bootcount", *(limits or [b"--stored=12", b"--ways=200"])] if made.chance(40) else []
    scripts = {b"after %d" % at: made.script(1) for at in range(made.any([1, 1, 2]))} if made.chance(30) else {}
    after = [b"--after=" + name for name in scripts]
    cuts = [b"--cuts"] if made.chance(30) else []
    words = [b"boot", *words, b"--board", b"board", b"--steps=300", *(count or limits), *shell, *graph, *cuts, *after]
    return Case(f"random board {number}", words, files | scripts | {b"board": made.rules()}, seconds=2)


def chunks(count, seed):
    return at_random(count, functools.partial(random_boot, seed))
