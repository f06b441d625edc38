"""Arguments at random over files at random: each subcommand with its options in any place and form, words that are
wrong, files that aren't there, and devices that are too short, overlap or are counted from their end."""

import functools

from differential.harness.boards import CONFIG, text_of
from differential.harness.damage import at_random, mutant, numbers_of
from differential.harness.running import Case
from differential.random.random_scripts import Writer, spoiled, variables
from differential.random.scripts import SCRIPTS, TOKENS
from differential.random.texts import BOARDS, IMPORTS, IMPORT_TOKENS, SET_SCRIPTS, STAND_INS
from model.check import KINDS, STARTED
from model.image import ERASED, Geometry, entries

NAMES = [b"a", b"b", b"n", b"o", b"r", b".flags", b"q", b"a=b", b"", b"#c", b" d", b"two\nlines", b"\xc3\xa9"]
VALUES = [b"1", b"x", b"x y", b"", b"2\n3", b"\\", b"=", b"\xc3\xa9", b"0123456789" * 8]
ENVIRONMENTS = [
    {},
    {b"a": b"1"},
    {b".flags": b"n:d,o:so,r:sr,c:bc", b"a": b"1 2", b"n": b"3", b"c": b"1"},
    {b"#c": b"1", b" d": b"2", b"m": b"x\\\ny", b"e\nf": b"3", b"\xff": b"\xfe"},
    {b"o": b"1", b".flags": b"o:so", b"long": b"0123456789" * 5},
    {b"bootcmd": b"run a none; run $c q$c; run b$?; c=1", b"a": b"usb\r; laod", b"b": b"run bootcmd; for a in 1; do usb &", b"preboot": b"b="},
    {b"a": b"echo $q; saveenv", b"b": b"run a; exit 2", b"n": b"run n", b"q": b"mmc; usb", b"r": b"'", b" d": b"setenv a"},
]
INPUTS = [
    b".print\n.save\n.print\n", b"setenv a 5; saveenv\necho $a $?\n.undo\n.print\n.save\n", b"printenv -a\nmmc\nexit 3\n", b"",
    b"saveenv; echo a\nmmc && exit 0\nexit", b"echo a\n  if",
]  # fmt: skip
WRONG = [
    [b"frob"], [b""], [b"--frob"], [b"-x"], [b"printenv", b"-z"], [b"\xff"], [b"export", b"a"], [b"import"], [b"session", b"a"],
    [b"run"], [b"run", b"-e", b"true", b"a"], [b"run", b"-f", b"text", b"-e", b"a"], [b"run", b"-n", b"a"], [b"printenv", b"--env", b"a"],
    [b"session", b"--size", b"9"], [b"session", b"-f", b"text"], [b"status", b"--need-copy"], [b"check", b"--write"], [b"check", b"-e", b"a"],
    [b"check", b"-f", b"text", b"a"], [b"run", b"-f", b"a", b"-f", b"b"], [b"run", b"--format", b"gcc", b"a"], [b"check", b"--size", b"9"], [b"boot", b"--write"], [b"boot", b"a"], [b"boot", b"--size", b"9"],
]  # fmt: skip
NUMBERS = {
    b"--steps": [b"0", b"1", b"3", b"007", b"1000000", b"1000001", b"-1", b"", b"1x", b"99999999999999999999"],
    b"--depth": [b"0", b"16", b"17", b"+1"],
    b"--word": [b"0", b"4", b"65536", b"65537"],
    b"--output": [b"0", b"9", b"16777216", b"16777217"],
}
# Of a run, whose loops have to end soon
STEPS = [b"0", b"1", b"3", b"020", b"200", b"1000001", b"1x"]
RUNS = [
    b"true", b"false", b"exit", b"exit 3", b"exit 0", b"echo $a; false", b"setenv a 5; saveenv", b"saveenv; false", b"saveenv; saveenv",
    b"mmc; echo $?; usb", b"usb || mmc", b"mmc; false", b"saveenv; mmc x; echo a", b"run q", b"run a b", b"printenv -a", b"setenv o 2; setenv n x; saveenv",
    b"echo a\n  'b", b"true\n\nif false; then", b"a=1; fi", b"\xc3\xa9 ${a", b"a & b",
    b"echo a; echo ${o:-1}", b"echo ${", b"echo b", b"test -n a && echo a", b"setenv n; printenv n || true", b"for i in a b; do echo $i; done",
]  # fmt: skip
GIVEN_STAND_INS = [*STAND_INS, *[b"mmc\nusb 1\n"] * 4, b"[\nmmc\nf() 1\n"]
GIVEN_BOARDS = [*BOARDS, *[b"mmc x -> setenv a ${1}\nmmc -> 1\nusb -> boots\n"] * 6, b"m* -> run a\nusb -> exit 2\n"]
# Environments that are powered on from, and board files that may ask
BOOTED = [
    {b"bootcmd": b"mmc x && usb; setenv a 1; saveenv; run a; usb", b"preboot": b"test -e mmc 0 a && a=1", b"a": b"usb"},
    {b"bootcmd": b"mmc || usb; test $b = 1 && setenv b 2; saveenv; mmc x; usb", b"b": b"1"},
    {b"bootcmd": b"mmc x || usb $a; setenv a; saveenv; usb", b"a": b"two\nlines", b"bootdelay": b"3"},
]
ASKING = [
    b"mmc -> ?\nusb -> boots\n",
    b"mmc x -> ?\nm* -> 1\nusb -> boots\n",
    b"test -e -> ?\nmmc -> resets\nusb -> boots\n",
    b"mmc -> ?\nmmc x -> 0\n",
]
# Names that a board's own code sets
KNOWN = [b"", b"a\nb\n# c\n\nfilesize\n", b"x\r\n y\n", b"a\nb 1\n", b"a=1\n"]
# Those of kinds, and two that no kind has
CODES = [*[*KINDS] * 6, b"syntax ", b""]
FORMATS = [*[b"text", b"gcc", b"json"] * 6, b"xml"]
# What stands between two blanks of a script and boards make in another way, and values that they read again
DIFFERENT = [
    b'"it\'s"', b"'a\\b'", b'"\\$x\\\\"', b'"\\\'\\\n"', b"$_y", b'"$_y"', b"\\\n", b"a\\\n", b"# it's \\\n", b"&&\ntrue", b"|| # c\n\ntrue", b"&& \\\n\ntrue",
    b"; a= ;", b"; z='' ;", b"; setenv x '' ;", b"; env set -f b \"\" ;", b"; for i in do 'if' $x; do true; done ;", b" ".join([b"a"] * 15), b"$x\"$a\"", b"; saveenv x ;",
    b"; env exists a b ;", b"; setexpr n 1 ** 2 ;", b"; setenv -f ;",
]  # fmt: skip
REREAD = [b"it's", b'a"b', b"a # b", b"#b", b"a\\b", b"a\n#b", b"a\t#", b"a#b"]
COUNTS = [b"1", b"2", b"2", b"007", b"100000", b"0100000", b"10000001"]
BOOTS = [b"mmc", b"mmc", b"usb", b"mmcinfo", b"echo", b"", b"\xc3\xa9"]
SIZES = [b"0x4000", b"1000", b"0X100", b"200", b"80", b"0d", b"8", b"100001", b"4k"]
# (a board's shell is compared with boards, and by rows)
SHELLS = [*[b"board", b"strict"] * 10, b"Strict"]
DRY, WHOLE = (b"session", b"run", b"boot"), (b"session", b"run", b"boot", b"check")
WRITING = (b"setenv", b"import", b"restore", b"session", b"run")
CHECKED = [b"r", b"s", b"t", *STARTED, *NAMES]
OFTEN = {
    **{name: 0.003 for name in ("too short", "overlap", "cannot read", "no such file", "no room", "bad name", "type check", "not defined")},
    **{name: 0.0002 for name in ("Can't create", "Can't delete", "Can't overwrite", "EmptyName", "Undone")},
    **{name: 0.001 for name in ("Exited", "Finished", "Quote", "Missing", "Unexpected", "Substitution", "no good copy", "is written")},
    **{name: 0.003 for name in ("variable that is", "nothing defines", "no builtin", "carriage return", "be assigned", "no variable")},
    **{name: 0.001 for name in ("copy isn't good", "no second copy", "possible values: 1, 2")},
    "no = in": 0.005,
    "this shell has": 0.002,
    "status 0": 0.3,
}


class Calls:
    """A call and what it finds."""

    def __init__(self, numbers):
        self.numbers = numbers
        self.files = {}
        self.order = numbers.choice(["little", "little", "big"])

    def chance(self, per_cent):
        return self.numbers.randrange(100) < per_cent

    def some(self, many, most):
        return [self.numbers.choice(many) for _ in range(self.numbers.randint(0, most))]

    def copy(self, form):
        if self.chance(15):
            return ERASED * form.size
        area = entries(self.numbers.choice(ENVIRONMENTS))[: form.room - 2]
        image = form.image(self.numbers.choice([0, 1, 7, 255]), area)
        return image if self.chance(90) else mutant(image, [b"\0"], self.numbers).ljust(form.size, b"\0")[: form.size]

    def board(self):
        """One device or two, with bytes around each copy, and its configuration."""
        form = Geometry(self.numbers.randint(1, 2), self.numbers.choice([9, 60, 120, 160, 4096]), self.order)
        devices = {}
        lines = []
        for _ in range(form.copies):
            device = self.numbers.choice([b"one", b"one", b"two"])
            before = devices.get(device, b"X" * self.numbers.randrange(4))
            devices[device] = before + self.copy(form)
            lines.append((device, len(before)))
        for device in devices:
            devices[device] += b"Z" * self.numbers.randrange(3)
        self.files |= devices
        self.files[CONFIG] = b"".join(self.line(device, at, form.size) for device, at in lines)

    def line(self, device, at, size):
        if self.chance(25):
            at -= len(self.files[device])
        if self.chance(8):
            at += self.numbers.choice([-3, 1, 9, 5000])
        if self.chance(3):
            device = b"absent"
        return self.numbers.choice([b"%s %d %x\n", b"# c\n%s\t%d 0x%x 1 1\r\n"]) % (device, at, size)

    def text(self, name, content):
        """A file with this text, or no file."""
        if not self.chance(4):
            self.files[name] = content
        return name

    def entries_text(self, per_cent=40):
        """A text for import, which is often one of an environment."""
        if self.chance(per_cent):
            return text_of(self.numbers.choice(ENVIRONMENTS))
        return mutant(self.numbers.choice(IMPORTS), IMPORT_TOKENS, self.numbers)

    def option(self, name, value):
        """An option with its value, in one of its forms."""
        if name[:2] == b"--":
            forms = [[name + b"=" + value], [name, value]]
            return forms[0] if value[:1] in (b"-", b"") or self.chance(50) else forms[1]
        return self.numbers.choice([[name, value], [name + value], [name + b"=" + value]])

    def shared(self, tool, words, is_whole):
        """The options that each subcommand has, in any order; a report of a file, a check of one, and a text that is the whole
        environment mostly have none."""
        if (is_whole or tool == b"status" and words) and not self.chance(5):
            return []
        options = [self.option(b"-c", CONFIG if not self.chance(3) else b"absent")]
        if tool != b"status" and self.chance(40):
            options.append(self.option(b"--default", self.text(b"default", self.entries_text(85))))
        if tool not in (b"status", b"check") and self.chance(25):
            options.append([b"--need-copy"])
        if tool in WRITING and self.chance(10):
            options.append([b"--overwrite"])
        return options

    def script(self):
        if self.chance(70):
            return self.numbers.choice(RUNS)
        return mutant(self.numbers.choice(SCRIPTS), TOKENS, self.numbers)

    def given_script(self):
        """The options and the other arguments that give a script."""
        if self.chance(30):
            return [], [self.numbers.choice(NAMES), *self.some(NAMES, 2)]
        if self.chance(50):
            return [self.option(b"-e", self.script().replace(b"\0", b""))], []
        return [self.option(b"-f", b"-" if self.chance(25) else self.text(b"script", self.script()))], []

    def dry_run(self, tool, is_whole):
        """The options of a dry run, and the script of one."""
        numbers, often = (NUMBERS, 20) if tool == b"session" else (NUMBERS | {b"--steps": STEPS}, 3 if tool == b"boot" else 8)
        options = [self.option(name, self.numbers.choice(values)) for name, values in numbers.items() if self.chance(often)]
        if self.chance(15 if tool == b"boot" else 50):
            options.append(self.option(b"--stubs", self.text(b"stand-ins", self.numbers.choice(GIVEN_STAND_INS))))
        if self.chance(90 if tool == b"boot" else 30):
            boards = ASKING if tool == b"boot" and self.chance(90) else GIVEN_BOARDS
            options.append(self.option(b"--board", self.text(b"board", self.numbers.choice(boards))))
        if is_whole:
            text = text_of(self.numbers.choice(BOOTED)) if tool == b"boot" else self.entries_text(95)
            form = self.numbers.choice([*[b"--env"] * 9, b"--env-source", b"--env-plain"])
            options.append(self.option(form, self.text(b"env", text)))
        if self.chance((4 if tool == b"boot" else 30) if is_whole else 2):
            options.append(self.option(b"--size", self.numbers.choice(SIZES)))
        if tool == b"session":
            left = [self.option(self.numbers.choice([b"--boots", b"--resets"]), name) for name in self.some(BOOTS, self.chance(5))]
            return options + self.write(is_whole) + left, []
        options.append(self.option(b"--shell", self.numbers.choice(SHELLS)))
        if not any(option[0].startswith(b"--steps") for option in options):
            options.append([b"--steps=200"])
        often = self.chance(8) if tool == b"boot" else 1
        left = [self.option(self.numbers.choice([b"--boots", b"--resets"]), name) for name in self.some(BOOTS, 2 * often)]
        if tool == b"boot":
            return options + left + self.power_ons(is_whole), []
        given, words = self.given_script()
        return options + self.write(is_whole) + given + left + [[b"--must-boot"]] * self.chance(6) + [[b"--trace"]] * self.chance(10), words

    def write(self, is_whole):
        return [[b"--write"]] * self.chance(5 if is_whole else 60)

    def power_ons(self, is_whole):
        """The options of power-ons alone."""
        limits = [self.option(name, self.numbers.choice(COUNTS)) for name in (b"--stored", b"--ways") if self.chance(8)]
        count = [[b"--bootcount"]] * self.chance(30)
        after = [self.option(b"--after", self.text(b"after", self.board_script())) for _ in range(self.chance(15))]
        cuts = [[b"--cuts"]] * self.chance(20)
        return limits + count + cuts + after + [[b"--dot"]] * self.chance(10) + (self.wanted_copy() if not is_whole or self.chance(5) else [])

    def board_script(self):
        """A script at random, perhaps with a fault or a carriage return."""
        script = Writer(self.numbers).script()
        if self.chance(30):
            script = spoiled(self.numbers, script)
        if self.chance(30):
            script = self.different(script)
        return script.replace(b"\n", b"\r\n") + b"\r" * self.chance(50) if self.chance(10) else script

    def different(self, script):
        """A script with words and commands that boards take in another way."""
        words = script.split(b" ")
        for _ in range(self.numbers.randint(1, 3)):
            words.insert(self.numbers.randint(1, len(words)), self.numbers.choice(DIFFERENT))
        return b" ".join(words)

    def script_file(self, number):
        return b"-" if self.chance(15) else self.text(b"script%d" % number, self.board_script())

    def scripts_text(self):
        """An environment of scripts, as a text for import."""
        found = variables(self.numbers, self.chance(50))
        for _ in range(self.chance(40)):
            found[self.numbers.choice([b"a", b"b", b"x", b"_y"])] = self.numbers.choice(REREAD)
        for name in STARTED:
            if self.chance(85):
                found[name] = self.board_script().replace(b"\0", b"")
        for number in range(self.numbers.randint(1, 3) * self.chance(25)):
            title = self.numbers.choice([b"Boot it=", b"x'=", b"a\nb=", b"=", b""])
            found[b"bootmenu_%d" % number] = title + self.board_script().replace(b"\0", b"")
        return text_of(found)

    def checked(self, is_whole):
        """The options and the names of a check: of a text or of copies, of scripts in files over these, or, as if that were a text, alone."""
        options = [self.option(b"--shell", self.numbers.choice(SHELLS))]
        if self.chance(60):
            options.append(self.option(b"--stubs", self.text(b"stand-ins", self.numbers.choice(GIVEN_STAND_INS))))
        if self.chance(30):
            options.append(self.option(b"--board", self.text(b"board", self.numbers.choice([*GIVEN_BOARDS, *ASKING]))))
        if self.chance(2 if is_whole else 15):
            options.append(self.option(b"--known", self.text(b"names", self.numbers.choice(KNOWN))))
        files = [self.option(b"-f", self.script_file(number)) for number in range(self.numbers.choice([1, 1, 1, 2, 3]))]
        if is_whole and self.chance(35):
            return options + files, self.some(CHECKED, 1) * self.chance(5)
        if self.chance(15):
            options += files
        if is_whole:
            options.append(self.option(b"--env", self.text(b"env", self.scripts_text())))
            if self.chance(15):
                options.append(self.option(b"--known", self.text(b"names", self.numbers.choice(KNOWN))))
        if self.chance(30 if is_whole else 2):
            options.append(self.option(b"--size", self.numbers.choice(SIZES)))
        return options, self.some(CHECKED, 2) if self.chance(60) else []

    def wanted_copy(self):
        return [self.option(b"--copy", self.numbers.choice([b"1", b"2", b"2", b"3"]))] if self.chance(20) else []

    def counting(self):
        """What a check leaves out, whether its warnings count, and how it tells."""
        codes = KINDS if self.chance(25) else [self.numbers.choice(CODES) for _ in range(2) if self.chance(40)]
        left_out = [self.option(b"--ignore", code) for code in codes]
        formats = [self.option(b"--format", self.numbers.choice(FORMATS))] * self.chance(50)
        return left_out + [[b"--strict"]] * self.chance(10) + [[b"--all"]] * self.chance(15) + formats

    def own(self, tool, is_whole):
        """The options and the other arguments of a subcommand."""
        if tool == b"printenv":
            return self.wanted_copy() + [[b"-n"]] * self.chance(30), self.some(NAMES, 2)
        if tool == b"export":
            return self.wanted_copy(), []
        if tool == b"setenv":
            if self.chance(40):
                return [self.option(b"-s", self.text(b"script", self.numbers.choice(SET_SCRIPTS)))], self.some(NAMES, 1) * self.chance(5)
            return [], [self.numbers.choice(NAMES), *self.some(VALUES, 3)] * self.chance(96)
        if tool == b"status":
            return [], [self.numbers.choice([b"one", b"two", CONFIG])] * self.chance(40)
        if tool in (b"import", b"restore"):
            return [], [self.text(b"text", self.entries_text())]
        if tool == b"check":
            options, words = self.checked(is_whole)
            return options + self.counting(), words
        return self.dry_run(tool, is_whole) if tool in DRY else ([], [])

    def subcommand(self):
        tools = [
            b"printenv",
            b"setenv",
            b"setenv",
            b"import",
            b"export",
            b"export",
            b"export",
            b"restore",
            b"status",
            b"session",
            b"run",
            b"run",
            b"boot",
            b"check",
            b"check",
            b"check",
        ]
        tool = self.numbers.choice(tools)
        is_whole = tool in WHOLE and self.chance({b"check": 70, b"boot": 95}.get(tool, 35))
        self.board()
        own, words = self.own(tool, is_whole)
        options = self.shared(tool, words, is_whole) + own
        front = []
        if self.order == "big" and not self.chance(5):
            (front if self.chance(30) else options).append([b"--big-endian"])
        self.numbers.shuffle(options)
        cut = self.numbers.randint(0, len(options))
        before, after = sum(options[:cut], []), sum(options[cut:], [])
        # (arguments may be between options, and all of them after `--`)
        tail = after + [b"--", *words] if self.chance(20) else words + after
        return sum(front, []) + [tool, *before, *tail]

    def arguments(self):
        if self.chance(4):
            return self.numbers.choice(WRONG)
        if self.chance(2):
            return self.numbers.choice([[b"--version"], [b"-V"]])
        return self.subcommand()


def call(seed, number):
    numbers = numbers_of("calls", seed, number)
    calls = Calls(numbers)
    arguments = calls.arguments()
    return Case("a call", arguments, calls.files, numbers.choice(INPUTS))


def chunks(count, seed):
    return at_random(count, functools.partial(call, seed))
