"""Scripts and tests at random, of the words of the rows and without the classes in which a board and a dry run stay different.

A script is lines for the prompt: its first lines store variables, some of which are scripts, and the last ones run these, print a
status, and print what the variables are. Its names have its number, so that they are new to a console."""

import random
import re
from pathlib import Path

from rows import read_rows
from differential.random.random_scripts import Writer
from model.grammar import RESERVED

ROWS = Path(__file__).with_name("scripts.rows")
PLAIN = re.compile(rb"[A-Za-z0-9_.,=<>!/@%^~()\[\]{}+:-]+")
# Words of the rows that would be a class of their own, or a prompt once printed
NOT_PLAIN = re.compile(rb".*[{}]|.*=.*|-[anoez]|>.*")
OPERATORS = [b"=", b"!=", b"<", b">", b"-eq", b"-ne", b"-lt", b"-le", b"-gt", b"-ge"]
JOINTS = [b"-a", b"-o", b"!", b"-n", b"-z"]
NUMBERS = [b"0", b"1", b"2", b"010", b"0x1f", b"-5", b"ab", b"12ab", b"9223372036854775808", b"-0xffffffffffffffff"]
HEXADECIMAL = [b"0", b"1", b"9", b"ff", b"0x1f", b"10", b"zz", b"-1"]
CALCULATED = [b"+", b"-", b"*", b"^"]
UNKNOWN = [b"nosuchcmd", b"help_me_please", b"[", b"{a}", b"break", b"Echo", b"echoo", b"%"]
# A command and the beginnings and forms of its name that only it has on these boards
NAMED = {
    b"echo": [b"ec", b"ech", b"echo.b", b"echo."],
    b"true": [b"tru", b"true.x"],
    b"false": [b"fals", b"false.l"],
    b"test": [b"test.b", b"test."],
    b"setenv": [b"setenv.x", b"env set", b"setenv -f"],
    b"setexpr": [b"setex", b"setexpr.b", b"setexpr.l"],
    b"printenv": [b"printe", b"env print", b"printenv.x"],
    b"run": [b"run.x", b"env run"],
    b"env exists": [b"env exi", b"env.x exists"],
    b"exit": [b"exi", b"exit.x"],
}
LETTERS = b"abijvwn"
TEXTS = b"fgh"
EMPTY = [b"; ", b" ", b" ;; ", b" # nothing\n", b"\n"]


def words_of_rows():
    """The ordinary words of all rows in which the two don't differ."""
    scripts = b" ".join(b" ".join(row.script) for row in read_rows(ROWS) if not row.classes)
    found = set(PLAIN.findall(scripts))
    return sorted(word for word in found if word not in RESERVED | {b"in"} and not NOT_PLAIN.fullmatch(word))


WORDS = words_of_rows()


class BoardWriter(Writer):
    """Writes such a script. `has_exit`: some of the stored scripts have an `exit`."""

    def __init__(self, numbers, number, has_exit=True):
        super().__init__(numbers)
        self.number = number
        self.has_exit = has_exit
        self.loops = 0
        self.counters = []  # of the loops of the script that is being written
        self.started = []  # the scripts that may be run here

    def named(self, letter):
        return b"%c%d" % (letter, self.number)

    def variable(self):
        return self.named(self.any(LETTERS))

    def call(self, name):
        """A command's name, mostly as it is."""
        return self.any(NAMED[name]) if self.chance(12) else name

    # Words

    def substitution(self):
        return b"$?" if self.chance(12) else self.any([b"${%s}", b"$%s"]) % self.variable()

    def literal(self):
        return self.any(WORDS)

    def quoted(self):
        """A word in quotes, which may be empty."""
        parts = [self.any([self.literal, self.substitution, lambda: b" "])() for _ in range(self.random.randint(0, 3))]
        return b'"' + b"".join(parts) + b'"'

    def filled(self):
        """A word that has bytes, in quotes or not."""
        return self.any([self.literal(), self.literal() + self.substitution(), b'"x ' + self.quoted()[1:]])

    def word(self):
        kind = self.random.randrange(100)
        if kind < 45:
            return self.literal()
        if kind < 70:
            return self.substitution()
        return self.quoted() if kind < 85 else self.filled()

    def separator(self):
        return b"; " if self.chance(80) else self.any([b"\n", b";", b" ;\n", b" # done\n", b";; "])

    # Commands

    def test(self):
        """Words for a test, which are an expression or nearly one."""
        words = [self.call(b"test")]
        for _ in range(self.random.randint(1, 3)):
            words += [b"!"] * self.chance(20)
            kind = self.random.randrange(100)
            if kind < 40:
                words += [self.operand(), self.any(OPERATORS), self.operand()]
            elif kind < 70:
                words += [self.any([b"-n", b"-z"]), self.operand()]
            else:
                words += [self.any([*OPERATORS, *JOINTS, self.operand()]) for _ in range(self.random.randint(0, 3))]
            words += [self.any([b"-a", b"-o"])] * self.chance(85)
        return words[:-1] if self.chance(90) and len(words) > 2 else words

    def operand(self):
        return self.any([self.any(NUMBERS), self.word(), self.quoted()])

    def setexpr(self):
        words = [self.call(b"setexpr"), self.variable(), self.any([*HEXADECIMAL, b'"0%s"' % self.substitution()])]
        if self.chance(75):
            words += self.any([[b'"&"', b"3"], [b'"|"', b"f0"], [b"/", b"3"], [b"%", b"7"], *([sign, b"9"] for sign in CALCULATED)])
        return words

    def simple(self):
        kind = self.random.randrange(100)
        if kind < 24:
            return [self.call(b"echo")] + [b"-n"] * self.chance(5) + self.some_words(3)
        if kind < 40:
            values = [self.any([self.literal, self.substitution, self.filled])() for _ in range(self.random.randint(0, 2))]
            return [self.call(b"setenv"), self.variable(), *values]
        if kind < 54:
            return self.test()
        if kind < 60:
            return self.setexpr()
        if kind < 74 and self.started:
            return [self.call(b"run"), self.any(self.started)] + [self.any([*self.started, b"none"])] * self.chance(20)
        if kind < 78:
            return [self.call(b"printenv"), self.variable()]
        if kind < 82:
            return [self.call(b"env exists"), self.variable()]
        if kind < 85 and self.has_exit:
            return [self.call(b"exit")] + self.any([[], [b"0"], [b"3"], [b"7"], [b"$?"], [b"00%s" % b"${none}"]])
        if kind < 94:
            return [self.call(self.any([b"true", b"false"]))] + self.some_words(1)
        if kind < 97:
            return [b"${none}"] if self.chance(50) else [b"${c%d}" % self.number] + self.some_words(2)
        return [self.any(UNKNOWN)] + self.some_words(2)

    def assignment(self):
        return self.variable() + b"=" + self.any([self.filled(), b"$?", self.literal()])

    # Bodies, lists and loops

    def command(self, nesting):
        self.room -= 1
        kind = self.random.randrange(100)
        if nesting < 3 and self.room > 0:
            if kind < 14:
                return self.branches(nesting + 1)
            if kind < 22:
                return self.joined([b"for", self.variable(), b"in"] + self.some_words(3)) + self.any([b"; ", b"\n"]) + self.body(nesting + 1)
            if kind < 30:
                return self.loop(nesting + 1)
        return self.assignment() if kind < 44 else self.joined(self.simple())

    def blank(self):
        return b" "

    def chain(self, nesting):
        text = self.command(nesting)
        while self.chance(22):
            text += self.any([b" && ", b" || ", b"&&", b"|| "]) + self.command(nesting)
        return text

    def list(self, nesting):
        """A condition, which has a command."""
        return b"".join(self.chain(nesting) + self.separator() for _ in range(1 if self.chance(70) else 2))

    def inside(self, nesting, empties=EMPTY):
        """What is inside of a form, which may be no command."""
        return self.any(empties) if self.chance(15) else b" " + self.list(nesting)

    def body(self, nesting):
        return b"do" + self.inside(nesting) + b"done"

    def branches(self, nesting):
        text = b"if " + self.list(nesting)
        while self.chance(25):
            text += b"then" + self.inside(nesting, EMPTY[2:]) + b"elif " + self.list(nesting)
        text += b"then" + self.inside(nesting)
        if self.chance(45):
            text += b"else" + self.inside(nesting)
        return text + b"fi"

    def loop(self, nesting):
        """A loop that ends: over a counter of its own, or at once."""
        if self.chance(30):
            return self.any([b"while false; ", b"until true; ", b"while ${none} false; "]) + self.body(nesting)
        counter, most = b"k%d_%d" % (self.number, self.loops), self.random.randint(1, 3)
        self.loops += 1
        self.counters.append(counter)
        before = self.any([b"", self.list(nesting)])
        kind, ending = self.any([(b"while ", b"test ${%s} -lt %d"), (b"until ", b"test ${%s} -ge %d")])
        also = self.any([b"", (b" && " if kind == b"while " else b" || ") + self.joined(self.test())])
        begin = kind + before + ending % (counter, most) + also + b"; do "
        return begin + b"setexpr %s ${%s} + 1; " % (counter, counter) + self.inside(nesting) + b"done"

    # The lines

    def stored(self, letter):
        """A line that stores a script, which may run those that are stored already."""
        self.room, self.counters = self.random.randint(1, 5), []
        text = self.script().strip(b" \n;")
        begin = b"".join(b"setenv %s 0; " % counter for counter in self.counters)
        name = self.named(letter)
        self.started.append(name)
        return b"setenv %s '%s%s'" % (name, begin, text)

    def lines(self):
        yield b"setenv c%d echo c; setenv %s a b; setenv %s 7" % (self.number, self.variable(), self.variable())
        for letter in TEXTS[::-1]:
            yield self.stored(letter)
        yield b"run %s; echo $?" % self.named(TEXTS[0])
        shown = b" ".join(b'"${%s}"' % self.named(letter) for letter in LETTERS)
        yield b"echo " + shown


# Words of a test besides those of the rows: nearly operators, numbers, and files that no board here has
OF_TESTS = [b"", b"x y", b"==", b"-foo", b"(", b"mmc", b"0:1", b"host", b"/boot/boot.scr", b"+5", b"0x", b"08", *NUMBERS]


def test_words(numbers):
    """Words for `test`, an expression or nearly one."""
    words = []
    for _ in range(numbers.randint(0, 4)):
        one = lambda: numbers.choice(OF_TESTS)
        words += [b"!"] * (numbers.randrange(6) == 0)
        words += numbers.choice([
            [one(), numbers.choice(OPERATORS), one()],
            [numbers.choice([b"-n", b"-z"]), one()],
            [b"-e", *(one() for _ in range(numbers.choice([2, 3, 3])))],
            [numbers.choice([*OPERATORS, *JOINTS, b"-e", one()]) for _ in range(numbers.randint(0, 2))],
        ])  # fmt: skip
        words += [numbers.choice([b"-a", b"-o"])] * (numbers.randrange(4) > 0)
    return words[:14]


def text(kind, seed, number, release):
    """A script, or a line with a test, for a board of this release."""
    numbers = random.Random(f"{seed} {kind} {number}")
    if kind == "test":
        return b"test%s; echo $?" % b"".join(b" '%s'" % word for word in test_words(numbers))
    return b"\n".join(BoardWriter(numbers, number, release == "newer").lines())
