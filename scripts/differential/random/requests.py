"""Lists of requests of a session at random: writes that are forced or not, types and accesses, runs that a limit on steps may stop,
saves, marks and undos, over copies that are good or not, in both layouts and both byte orders. After each request the variables are
printed, and the copies are seen at the end of the list."""

import functools

from differential.harness.boards import arguments, board
from differential.harness.damage import at_random, numbers_of
from differential.harness.running import Case
from model.image import ERASED, Geometry
from model.session import MARKS

SIZE, MOST = 60, 99
LETTERS = b"0123456789abcdefghijklmn"
STARTS = [(copies, order, is_good) for copies in (1, 2) for order in ("little", "big") for is_good in (False, True)]
OFTEN = {
    **{name: 0.001 for name in ("type check", "Can't create", "Can't delete", "Can't overwrite", "no room", "Gone", "Undone", "Full")},
    **{ending: 0.1 for ending in ("Finished", "Exited", "Steps")},
}


class Requests:
    """The lines of a list. The marks are named by their numbers, so that an undo to a number goes to that mark."""

    def __init__(self, numbers):
        self.numbers = numbers
        self.marks = 0

    def name(self):
        return b"%c%d" % (self.numbers.choice(b"abc"), self.numbers.randrange(4))

    def write(self, name, value, force=False):
        return b"setenv %s%s %s\n" % (b"-f " * force, name, value)

    def value(self):
        start = self.numbers.randrange(8)
        return LETTERS[start : start + self.numbers.randrange(12)]

    def flags(self):
        item = b"%s:%c%c" % (self.name(), self.numbers.choice(b"ssdd"), self.numbers.choice(b"aroc"))
        return self.write(b".flags", item, True)

    def run(self):
        """A block of several steps, perhaps with an ending of its own."""
        name, value = self.name(), self.value()
        block = self.numbers.choice([b"setenv %s %s; saveenv", b"for i in 1 2 3; do setenv %s $i%s; done", b"setenv %s %s && setenv a0 && saveenv"])
        return block % (name, value) + self.numbers.choice([b"", b"; exit 3", b"; exit", b"; false", b"; echo $? $a0"]) + b"\n"

    def mark(self):
        self.marks = min(self.marks + 1, MARKS)
        return b".mark m%d\n" % self.marks

    def undo(self):
        number = self.numbers.randrange(8)
        if number > self.marks:
            return b".undo m%d\n" % number
        self.marks = number
        return b".undo m%d\n" % number if number else b".undo\n"

    def next(self):
        kind = self.numbers.randrange(36)
        if kind > 31:
            return self.run()
        if kind < 15:
            return self.write(self.name(), self.value(), self.numbers.randrange(4) == 0)
        if kind < 17:
            return self.flags()
        if kind == 17:
            return self.write(b".flags", b"", True)
        if kind < 20:
            return self.write(self.name(), self.value()) + self.write(self.name(), b"")
        if kind < 23:
            return self.numbers.choice([b".save\n", b"saveenv\n"])
        return self.mark() if kind < 29 else self.undo()


def listed(seed, number):
    """A list, which sometimes has more marks than there may be; half of the lists have a limit on steps, and half end with an undo of all."""
    numbers = numbers_of("requests", seed, number)
    copies, order, is_good = STARTS[number % len(STARTS)]
    form = Geometry(copies, SIZE, order)
    stored = [ERASED * SIZE] * copies
    if is_good:
        stored[0] = form.image(254, b"a0=1\0")
    requests = Requests(numbers)
    given = b"".join(requests.next() + b".print\n" for _ in range(numbers.randint(1, MOST)))
    if numbers.randrange(20) == 0:
        given += b"".join(requests.mark() for _ in range(MARKS + 1))
    given += b".undo\n.print\n" * numbers.randrange(2)
    limit = [b"--steps", b"%d" % numbers.randint(1, 8)] * numbers.randrange(2)
    words = arguments(b"session", b"--default", b"default", b"--write", *limit, order=order)
    return Case("requests", words, board(form, stored) | {b"default": b"a0=1\n"}, given)


def chunks(count, seed):
    return at_random(count, functools.partial(listed, seed))
