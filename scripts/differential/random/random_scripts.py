"""Boot scripts at random for both shells: cases with every form and every command, under limits that are often too small."""

from differential.harness.setups import Setup

NAMES = [b"a", b"b", b"i", b"n", b"x", b"_y", b"boot", b"serial#", b".flags", b"none", b"r", b"s", b"t"]
LOCALS = [b"a", b"b", b"i", b"n", b"x", b"_y", b"z"]
SCRIPTS = [b"r", b"s", b"t"]
TEXTS = b"0 1 2 10 ff 0x1f -5 010 x ab a=b -n -f -a ! *4 = < sub 9223372036854775808 -18446744073709551615".split()
LETTERS = b"abnx019.,-_=<>()[]*!/}{`%@"
VALUES = [b"0", b"1", b"9", b"1 2", b" a  b ", b"ff", b"x\ty", b"a b c", b"-n", b"$n", b"true", b"two\nlines", b"fi"]
FLAGS = [b"n:d", b"n:x,x:sr", b"b:so", b"a:sc,boot:sr,b:sc", b"i:b, n : da ,,x", b"r:so", b"a:i", b"a:m,a:sc"]
STAND_IN_FILES = [b"mmc\nusb 1\nload 7\n", b"mmc 3\r\n# a board\n\n\tload 007 \n", b"usb", b""]
BAD_STAND_IN_FILES = [b"echo\n", b"mmc\nmmc 1\n", b"usb 256\n", b"mmc 0 0\n", b"usb -1\n", b"# \0\n", b"mmc\nsetexpr.b 1"]
STAND_INS = [b"mmc", b"mmc", b"usb", b"usb", b"load", b"load", b"reset", b"[", b"break", b"f()", b""]
OPERATORS = [b"=", b"!=", b"<", b">", b"-eq", b"-ne", b"-lt", b"-le", b"-gt", b"-ge", b"x"]


class Writer:
    """Writes a script's text. For a board's shell it may have empty bodies, and beginnings of names with something behind a dot."""

    def __init__(self, random, is_board=False):
        self.random = random
        self.is_board = is_board
        self.room = random.randint(1, 14)  # how many commands there still may be

    def chance(self, per_cent):
        return self.random.randrange(100) < per_cent

    def any(self, many):
        return many[self.random.randrange(len(many))]

    def some(self, many, most):
        return [self.any(many) for _ in range(self.random.randint(0, most))]

    # Words

    def substitution(self):
        name = self.any(NAMES)
        if self.chance(12):
            return b"$?"
        if b"#" in name or b"." in name or self.chance(40):
            return b"${" + name + b"}"
        return b"$" + name

    def literal(self):
        if self.chance(60):
            return self.any(TEXTS)
        return bytes(self.any(LETTERS) for _ in range(self.random.randint(1, 6)))

    def quoted(self):
        parts = b"".join(
            self.any([self.literal(), self.substitution(), b" ", b"\\$", b'\\"', b"\\\\", b"\\x", b"\\\n", b"$,", b";"])
            for _ in range(self.random.randint(0, 4))
        )
        return b'"' + parts + b'"'

    def part(self):
        kind = self.random.randrange(100)
        if kind < 45:
            return self.literal()
        if kind < 70:
            return self.substitution()
        if kind < 82:
            return self.quoted()
        if kind < 90:
            return b"'" + self.any([b"", b"a b", b"$x", b"\\", b"#", b"two\nlines"]) + b"'"
        return self.any([b"\\ ", b"\\$", b"\\\n", b"$,", b"$/", b"\\'", b"x#", b'""'])

    def word(self):
        return b"".join(self.part() for _ in range(1 if self.chance(70) else self.random.randint(2, 4)))

    def some_words(self, most):
        return [self.word() for _ in range(self.random.randint(0, most))]

    def blank(self):
        return b" " if self.chance(93) else self.any([b"\t", b"  ", b" \\\n", b" \\\n "])

    def joined(self, words):
        return b"".join(self.blank() + word for word in words)[1:] if words else b""

    def separator(self):
        return b"; " if self.chance(75) else self.any([b"\n", b";", b" ;\n", b" # done\n", b"\n\n", b";;"])

    # Commands

    def test(self):
        words = [b"test"]
        for _ in range(self.random.randint(1, 3)):
            words += [b"!"] * (self.random.randrange(6) == 0)
            if self.chance(30):
                words += [self.any([b"-n", b"-z"]), self.any([self.word(), self.quoted()])]
            else:
                words += [self.word(), self.any(OPERATORS), self.word()]
            words.append(self.any([b"-a", b"-o"]))
        return words[:-1] if self.chance(95) else words

    def name(self):
        return self.any(NAMES) if self.chance(96) else self.any([b"a=b", b'""', b"\\=", b"="])

    def setexpr(self):
        name = self.any([b"setexpr"] * 8 + [b"setexpr.b", b"setexpr.w", b"setexpr.l", b"setexpr.q"])
        words = [name, self.name(), self.any([self.substitution(), self.literal()])]
        if self.chance(75):
            words += [self.any([b"+", b"-", b"*", b"/", b"%", b"^", b"'&'", b"'|'", b"\\&"])]
            words += [self.any([self.literal(), b"1", b"0", b"10"])]
        return words

    def setenv(self):
        before = self.any([[b"setenv"]] * 6 + [[b"setenv", b"-f"], [b"env", b"set"], [b"env", b"set", b"-f"]])
        kind = self.random.randrange(100)
        if kind < 3:
            return before
        if kind < 18:
            return before + [b".flags", self.any(FLAGS).replace(b" ", b"\\ ")]
        if kind < 36:
            return before + [self.any(SCRIPTS), b"'" + self.script_of(2).replace(b"'", b"") + b"'"]
        return before + [self.name()] + self.some_words(3)

    def simple(self):
        kind = self.random.randrange(100)
        any_name = self.any(NAMES)
        if kind < 18:
            return [b"echo"] + [b"-n"] * self.chance(12) + self.some_words(4)
        if kind < 34:
            return self.setenv()
        if kind < 44:
            return self.test()
        if kind < 53:
            return self.setexpr()
        if kind < 66:
            before = self.any([[b"run"]] * 5 + [[b"env", b"run"]])
            return before + self.some(SCRIPTS, 2) + [any_name] * self.chance(15)
        if kind < 71:
            return [b"env", b"delete"] + [b"-f"] * self.chance(30) + self.some(NAMES, 3)
        if kind < 75:
            before = self.any([[b"printenv"], [b"env", b"print"]])
            return before + [b"-a"] * self.chance(30) + self.some(NAMES, 2)
        if kind < 78:
            return self.any([[b"saveenv"], [b"env", b"save"]]) + [b"x"] * self.chance(8)
        if kind < 80:
            return [b"env"] + self.any([[], [b"exists"], [b"exists", any_name], [b"exists", any_name], [b"grep"]])
        if kind < 84:
            return [b"exit"] + self.any([[], [b"3"], [b"007"], [b"256"], [b"$?"], self.some_words(2)])
        if kind < 92:
            return [self.any([b"true", b"false"])] + self.some_words(1)
        if kind < 97:
            return [self.any(STAND_INS)] + self.some_words(2) or [b"mmc"]
        return [self.word()] + self.some_words(2)

    def assignment(self):
        return self.any(LOCALS) + b"=" + self.any([b"", self.word(), self.quoted(), b"$n" + self.literal()])

    def command(self, nesting):
        self.room -= 1
        kind = self.random.randrange(100)
        if nesting < 4 and self.room > 0:
            if kind < 12:
                return self.branches(nesting + 1)
            if kind < 20:
                words = self.joined([b"for", self.any(LOCALS), b"in"] + self.some_words(3))
                return words + self.separator() + self.body(nesting + 1)
            if kind < 28:
                condition = self.joined(self.test()) + self.separator() if self.chance(60) else self.list(nesting + 1)
                return self.any([b"while ", b"until "]) + condition + self.body(nesting + 1)
        if kind < 42:
            return self.assignment()
        return self.joined(self.renamed(self.simple()))

    def renamed(self, words):
        """The words of a command, whose name on a board may be shortened or have something behind a dot."""
        if not self.is_board or self.chance(90):
            return words
        name = words[0][: self.random.randint(1, len(words[0]) + 3)] + self.any([b"", b".b", b".x.y"])
        return [name, *words[1:]]

    def inside(self, nesting):
        """A body, which on a board may be empty."""
        if self.is_board and self.chance(12):
            return self.any([b"", b"; ", b"# nothing\n", b"\n;"])
        return self.list(nesting)

    def body(self, nesting):
        return b"do " + self.inside(nesting) + b"done"

    def branches(self, nesting):
        text = b"if " + self.list(nesting) + b"then " + self.inside(nesting)
        while self.chance(25):
            text += b"elif " + self.list(nesting) + b"then" + self.any([b" ", b"\n"]) + self.inside(nesting)
        if self.chance(45):
            text += b"else " + self.inside(nesting)
        return text + b"fi"

    def chain(self, nesting):
        text = self.command(nesting)
        while self.chance(18):
            text += self.any([b" && ", b" || ", b"&&", b" ||\n"]) + self.command(nesting)
        return text

    def list(self, nesting):
        return b"".join(self.chain(nesting) + self.separator() for _ in range(1 if self.chance(65) else 2))

    def script(self):
        text = b"# a script\n" if self.chance(5) else b""
        while self.room > 0:
            text += self.chain(0)
            if self.room > 0 or self.chance(30):
                text += self.separator()
        return text

    def deep(self, text):
        """A text inside so many `if`s that the nesting may be too deep."""
        depth = self.random.randint(58, 65)
        return b"if true; then " * depth + text.rstrip(b"\n; ") + b"; fi" * depth

    def script_of(self, most):
        """A short script, as a value."""
        room, self.room = self.room, self.random.randint(1, most)
        text = self.script()
        self.room = room
        return text


def spoiled(random, text):
    """A text with one byte changed, taken away or put in, which may not be a script any more."""
    at = random.randrange(len(text) + 1)
    byte = bytes([b"\"'\\$&|;#\n {}=\0(fi"[random.randrange(17)]])
    return text[:at] + random.choice([b"", byte]) + text[at + random.randrange(2) :]


def limits(random):
    """Limits on steps, depth, word and output, of which most are small."""

    def one(small, ample, per_cent):
        return random.randint(*small) if random.randrange(100) < per_cent else ample

    return one((0, 20), 150, 35), one((0, 2), 6, 55), one((2, 24), 400, 22), one((0, 40), 4000, 22)


def variables(random, is_board):
    """Variables, scripts among them."""
    found = {}
    writer = Writer(random, is_board)
    for name in SCRIPTS:
        if random.randrange(100) < 70:
            script = writer.script_of(4)
            if random.randrange(100) < 8:
                script = spoiled(random, script).replace(b"\0", b"")
            found[name] = script or b"true"
    for _ in range(random.randint(0, 4)):
        found[random.choice(NAMES)] = random.choice(VALUES)
    if random.randrange(100) < 25:
        found[b".flags"] = random.choice(FLAGS)
    return found


def setup(random):
    """A script with its setup, half of them for a board's shell."""
    is_board = random.randrange(2) == 0
    writer = Writer(random, is_board)
    text = writer.script()
    if random.randrange(100) < 1:
        text = writer.deep(text)
    if random.randrange(100) < 5:
        text = spoiled(random, text)
    defaults = {random.choice([b"a", b"b", *NAMES]): random.choice(VALUES) for _ in range(random.randint(0, 3))}
    stand_ins = random.choice(BAD_STAND_IN_FILES) if random.randrange(100) < 2 else random.choice(STAND_IN_FILES)
    size = random.choice([random.randint(40, 400), 500])
    shell = b"board" if is_board else b"strict"
    made = Setup(text, limits(random), variables(random, is_board), defaults, stand_ins, random.randint(1, 2), size, shell)
    while made.environment() is None:
        made.size += 60
        if made.size > 1500:
            made.variables.pop(b".flags", None)
            made.defaults.pop(b".flags", None)
    return made
