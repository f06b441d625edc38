"""The command line (docs/tools.md, "The command line" and "Subcommands over files"; docs/dry-runs.md, "The
subcommand"), as far as the rules of clap are used: options before and after the other arguments, values after a blank, an
`=` or a letter."""

import pathlib
import re
from dataclasses import dataclass, field

from model.board_file import Reply
from model.image import LARGEST, Geometry
from model.shells import SHELLS
from model.texts import SIZE

# The flags of each subcommand, which may be before it too, and the options of all that open an environment
FLAGS, OPENING_FLAGS, OPENING_VALUES = {"--big-endian"}, {"--need-copy"}, {"-c", "--default"}
# Those of what writes copies
WRITING_FLAGS = OPENING_FLAGS | {"--overwrite"}
# The options with a text that is an environment
ENVIRONMENTS = {"--env", "--env-source", "--env-plain"}
WHOLE_VALUES = ENVIRONMENTS | {"--stubs", "--size"}
DRY_VALUES = WHOLE_VALUES | {"--board", "--shell", "--steps", "--depth", "--word", "--output"}
# Of each subcommand: its flags, its options with a value, and how many other arguments it takes
FORMS = {
    "printenv": (OPENING_FLAGS | {"-n"}, OPENING_VALUES | {"--copy"}, (0, None)),
    "setenv": (WRITING_FLAGS, OPENING_VALUES | {"-s"}, (0, None)),
    "import": (WRITING_FLAGS, OPENING_VALUES, (1, 1)),
    "export": (OPENING_FLAGS, OPENING_VALUES | {"--copy"}, (0, 0)),
    "restore": (WRITING_FLAGS, OPENING_VALUES, (1, 1)),
    "status": (set(), {"-c"}, (0, 1)),
    "find": (set(), set(), (1, 1)),
    "image": ({"--both"}, ENVIRONMENTS | {"--size", "--copies", "--output"}, (0, 0)),
    "session": (WRITING_FLAGS | {"--write"}, OPENING_VALUES | DRY_VALUES | {"--boots", "--resets"}, (0, 0)),
    "run": (WRITING_FLAGS | {"--write", "--must-boot", "--trace"}, OPENING_VALUES | DRY_VALUES | {"--boots", "--resets", "-e", "-f"}, (0, None)),
    "boot": (
        OPENING_FLAGS | {"--dot", "--bootcount", "--cuts"},
        OPENING_VALUES | DRY_VALUES | {"--copy", "--boots", "--resets", "--after", "--stored", "--ways"},
        (0, 0),
    ),
    "check": ({"--strict", "--all"}, OPENING_VALUES | WHOLE_VALUES | {"-f", "--shell", "--board", "--known", "--ignore", "--format"}, (0, None)),
}
# Options whose value names a text, which - takes from standard input
TEXTS = ENVIRONMENTS | {"-c", "--default", "--stubs", "--board", "--known", "--after", "-s", "-f"}
# Options that may be given more than once, and those of `check`
REPEATED = {"--boots", "--resets", "--ignore", "--after"}
CHECKED = {"-f"}
# How the stand-ins leave the board that these name
LEAVINGS = {"--boots": Reply.BOOTS, "--resets": Reply.RESETS}
# The limits of a dry run: the usual one, None for that of the shell, and the largest
LIMITS = {
    "--steps": (100_000, 1_000_000),
    "--depth": (None, 16),
    "--word": (4096, 65_536),
    "--output": (1_048_576, 16_777_216),
}
# Those of power-ons
POWER_ON_LIMITS = {"--stored": (1000, 100_000), "--ways": (100_000, 10_000_000)}
# The version that the changelog gives for the program
[VERSION, *_] = re.findall(rb"^## (\S+) ", (pathlib.Path(__file__).parent.parent.parent / "CHANGELOG.md").read_bytes(), re.M)
VERSION = b"fwenv %s\n" % VERSION
NO_SUBCOMMAND = b"""error: unrecognized subcommand '%s'

Usage: fwenv [OPTIONS] [COMMAND]

For more information, try '--help'.
"""
CONFIG_AND_FILE = b"""error: the argument '-c <FILE>' cannot be used with '[FILE]'

Usage: fwenv status [OPTIONS] [FILE]

For more information, try '--help'.
"""
NO_NUMBER = b"""error: invalid value '%s' for '%s <N>': not a number from 0 to %d

For more information, try '--help'.
"""
NO_SHELL = b"""error: invalid value '%s' for '--shell <SHELL>'
  [possible values: board, strict]

For more information, try '--help'.
"""
NO_CODE = b"""error: invalid value '%s' for '--ignore <CODE>'
  [possible values: carriage-return, backslashes, syntax, joined-lines, loose-operators, apostrophes, backslashes-in-quotes, underscored-names, \
other-shell, unknown-command, exit, many-words, and-or, if-status, loop-status, stale-status, wrong-use, test-operator, run-undefined, run-unknown, \
empty-value, hidden-assignment, empty-assignment, quoted-for, reserved-words-of-for, undefined-name, reread-value, no-variable, no-script, value-type]

For more information, try '--help'.
"""
NO_FORMAT = b"""error: invalid value '%s' for '--format <FORMAT>'
  [possible values: text, gcc, json]

For more information, try '--help'.
"""
NO_COPY = b"""error: invalid value '%s' for '--copy <N>'
  [possible values: 1, 2]

For more information, try '--help'.
"""
NO_COPIES = b"""error: invalid value '%s' for '--copies <N>'
  [possible values: 1, 2]

For more information, try '--help'.
"""
BOTH_ALONE = b"""error: the argument '--both' is only for '--copies 2'

For more information, try '--help'.
"""
NO_PAIR_SIZE = b"""error: invalid value '%s' for '--size <N>': not the size of one of two copies in hexadecimal, 0x9 to 0x100000

For more information, try '--help'.
"""
MANY_SCRIPTS = b"""error: '--after <FILE>' can be given at most 254 times

For more information, try '--help'.
"""
READ_TWICE = b"""error: '-' is standard input, which can be read once

For more information, try '--help'.
"""
NO_SIZE = b"""error: invalid value '%s' for '--size <N>': not the size of an image in hexadecimal, 0x8 to 0x100000

For more information, try '--help'.
"""
USUAL_SIZE = b"0x4000"
AND_ENV = b"""error: the argument '%s' cannot be used with '--env <FILE>', '--env-source <FILE>' or '--env-plain <FILE>'

For more information, try '--help'.
"""
# What only a board has, in the order in which it is reported
NOT_WITH_ENV = {"-c": b"-c <FILE>", "--default": b"--default <FILE>", "--need-copy": b"--need-copy", "--copy": b"--copy <N>", "--write": b"--write"}
TWO_TEXTS = b"""error: only one of '--env <FILE>', '--env-source <FILE>' and '--env-plain <FILE>' can be given

For more information, try '--help'.
"""
NO_TEXT = b"""error: the following required arguments were not provided:
  <--env <FILE>|--env-source <FILE>|--env-plain <FILE>>

Usage: fwenv image [OPTIONS] --size <N>

For more information, try '--help'.
"""
SIZE_ALONE = b"""error: the argument '--size <N>' is only for '--env <FILE>', '--env-source <FILE>' or '--env-plain <FILE>'

For more information, try '--help'.
"""
OVERWRITE_ALONE = b"""error: the argument '--overwrite' is only for '--write'

For more information, try '--help'.
"""
# Of setenv: the option that names a script, and the program's name with what is called
NAME_AND_SCRIPT = b"""error: the argument '%s <FILE>' cannot be used with '[NAME]'

Usage: %s [OPTIONS] [NAME] [WORDS]...

For more information, try '--help'.
"""
NO_NAME = b"""error: the following required arguments were not provided:
  <NAME|%s <FILE>>

Usage: %s [OPTIONS] [NAME] [WORDS]...

For more information, try '--help'.
"""
NO_SCRIPT = b"""error: the following required arguments were not provided:
  <NAMES|-e <SCRIPT>|-f <FILE>>

Usage: fwenv run [OPTIONS] [NAMES]...

For more information, try '--help'.
"""
SEVERAL_SCRIPTS = b"""error: only one of '[NAMES]...', '-e <SCRIPT>' and '-f <FILE>' can be given

Usage: fwenv run [OPTIONS] [NAMES]...

For more information, try '--help'.
"""
FILE_AND = b"""error: the argument '-f <FILE>' cannot be used with '[NAMES]...', '--default <FILE>', '--size <N>', '--known <FILE>' or '--all' without '-c <FILE>', '--env <FILE>', '--env-source <FILE>' or '--env-plain <FILE>'

Usage: fwenv check [OPTIONS] [NAMES]...

For more information, try '--help'.
"""
NOT_UTF8 = b"fwenv: a word of the command line is not UTF-8\n"


class Wrong(Exception):
    """A fault of the command line: its text, or None for some text that begins with `error: `."""

    def __init__(self, text=None):
        super().__init__(text)
        self.text = text


@dataclass
class Call:
    """What is asked for: "show", "version" or a subcommand, with its options and other arguments."""

    tool: str
    options: dict = field(default_factory=dict)
    words: list = field(default_factory=list)

    def order(self):
        return "big" if "--big-endian" in self.options else "little"

    def shell(self):
        """Whose rules count: a session's are the strict shell's unless another is named."""
        name = self.options.get("--shell", b"strict" if self.tool == "session" else b"board")
        if name not in SHELLS:
            raise Wrong(NO_SHELL % name)
        return SHELLS[name]

    def wanted_copy(self):
        """The copy that is asked for, 0 or 1; None for the current one."""
        number = self.options.get("--copy")
        if number not in (None, b"1", b"2"):
            raise Wrong(NO_COPY % number)
        return None if number is None else int(number) - 1

    def limits(self):
        """The limits on steps, depth, word and output; the first that isn't a number within its limit is a fault."""
        depth = self.shell().depth
        return tuple(self.number(option, usual or depth, most) for option, (usual, most) in LIMITS.items())

    def power_on_limits(self):
        """How many stored environments are powered on from, and how many ways are listed."""
        return tuple(self.number(option, *limits) for option, limits in POWER_ON_LIMITS.items())

    def scripts_after(self):
        """The files of what the system may run."""
        paths = self.options.get("--after", [])
        if len(paths) > 254:
            raise Wrong(MANY_SCRIPTS)
        return paths

    def number(self, option, usual, most):
        """The number that an option gives, which is at most this one."""
        text = self.options.get(option, b"%d" % usual)
        if not re.fullmatch(rb"[0-9]+", text) or int(text) > most:
            raise Wrong(NO_NUMBER % (text, option.encode(), most))
        return int(text)

    def leavings(self):
        """How stand-ins leave the board, by their names."""
        return {name: reply for option, reply in LEAVINGS.items() for name in self.options.get(option, ())}

    def ignored(self, codes):
        """The kinds of findings that a check leaves out, of those with these codes."""
        for code in self.options.get("--ignore", ()):
            if code not in codes:
                raise Wrong(NO_CODE % code)
        return tuple(self.options.get("--ignore", ()))

    def format(self):
        """How findings are printed."""
        name = self.options.get("--format", b"text")
        if name not in (b"text", b"gcc", b"json"):
            raise Wrong(NO_FORMAT % name)
        return name

    def is_repeated(self, option):
        return option in REPEATED or (self.tool == "check" and option in CHECKED)

    def refuse_second_input(self):
        """Standard input is read once, by one text or by a session."""
        given = [(option, self.options[option]) for option in TEXTS & self.options.keys()]
        texts = [path for option, value in given for path in (value if self.is_repeated(option) else [value])]
        if self.tool in ("import", "restore", "status", "find"):
            texts += self.words
        if texts.count(b"-") + (self.tool == "session") > 1:
            raise Wrong(READ_TWICE)

    def refuse_scripts(self):
        """A run takes one script: names, a text or a file."""
        given = bool(self.words) + ("-e" in self.options) + ("-f" in self.options)
        if given != 1:
            raise Wrong(SEVERAL_SCRIPTS if given else NO_SCRIPT)

    def names_environment(self):
        return bool(self.options.keys() & (ENVIRONMENTS | {"-c"}))

    def refuse_beside_file(self):
        """A check of files alone has nothing of an environment."""
        if self.words or self.options.keys() & {"--default", "--size", "--known", "--all"}:
            raise Wrong(FILE_AND)

    def refuse_overwrite_alone(self):
        """A dry run that doesn't write has nothing to write over."""
        if self.tool in ("session", "run") and "--overwrite" in self.options and "--write" not in self.options:
            raise Wrong(OVERWRITE_ALONE)

    def writes(self):
        """Whether copies may be written."""
        return self.tool in ("setenv", "import", "restore") or "--write" in self.options

    def refuse_two_texts(self):
        """An environment is one text."""
        if len(self.options.keys() & ENVIRONMENTS) > 1:
            raise Wrong(TWO_TEXTS)

    def size_in_memory(self):
        """The size of the image under an environment that is only a text; None if the copies are a board's."""
        if not self.options.keys() & ENVIRONMENTS:
            if "--size" in self.options:
                raise Wrong(SIZE_ALONE)
            self.refuse_overwrite_alone()
            return None
        self.refuse_two_texts()
        for option, shown in NOT_WITH_ENV.items():
            if option in self.options:
                raise Wrong(AND_ENV % shown)
        self.refuse_overwrite_alone()
        return read_size(self.options.get("--size", USUAL_SIZE), 8, NO_SIZE)

    def new_geometry(self):
        """That of a new image."""
        self.refuse_two_texts()
        if not self.options.keys() & ENVIRONMENTS:
            raise Wrong(NO_TEXT)
        copies = self.options.get("--copies", b"1")
        if copies not in (b"1", b"2"):
            raise Wrong(NO_COPIES % copies)
        if copies == b"1" and "--both" in self.options:
            raise Wrong(BOTH_ALONE)
        least, fault = (8, NO_SIZE) if copies == b"1" else (9, NO_PAIR_SIZE)
        return Geometry(int(copies), read_size(self.options["--size"], least, fault), self.order())


def read_size(text, least, fault):
    size = SIZE.fullmatch(text)
    if not size or not least <= int(size[1], 16) <= LARGEST:
        raise Wrong(fault % text)
    return int(size[1], 16)


def option_of(word):
    """The option that an argument names, and the value that is in the same argument."""
    if word.startswith(b"--"):
        name, equals, value = word.partition(b"=")
        return name.decode(), value if equals else None
    value = word[2:].removeprefix(b"=")
    return word[:2].decode(), value if word[2:] else None


def read_option(call, word, rest, flags, values):
    """Takes an option, and from the rest its value."""
    name, value = option_of(word)
    is_again = name in call.options and not call.is_repeated(name)
    if name not in flags | values or is_again or (name in flags and value is not None):
        raise Wrong
    if name in values and value is None:
        if not rest or (rest[0][:1] == b"-" and rest[0] != b"-"):
            raise Wrong
        value = rest.pop(0)
    call.options[name] = [*call.options.get(name, []), value] if call.is_repeated(name) else value


def read_subcommand(tool, options, rest):
    flags, values, (least, most) = FORMS[tool]
    call = Call(tool, options)
    while rest:
        word = rest.pop(0)
        if word == b"--":
            call.words += rest
            break
        if word[:1] == b"-" and word != b"-":
            # (find looks for both byte orders)
            read_option(call, word, rest, flags if tool == "find" else FLAGS | flags, values)
        else:
            call.words.append(word)
    if len(call.words) < least or (most is not None and len(call.words) > most):
        raise Wrong
    call.refuse_second_input()
    if tool == "setenv" and ("-s" in call.options) == bool(call.words):
        raise Wrong
    if tool == "image" and "--size" not in call.options:
        raise Wrong
    if tool == "status" and "-c" in call.options and call.words:
        raise Wrong(CONFIG_AND_FILE)
    return call


def read_arguments(arguments):
    """The call that the arguments make."""
    rest = list(arguments)
    for word in rest:
        try:
            word.decode()
        except UnicodeDecodeError:
            raise Wrong(NOT_UTF8)
    call = Call("show")
    while rest:
        word = rest.pop(0)
        if word.decode() in FORMS:
            return read_subcommand(word.decode(), call.options, rest)
        if word in (b"--version", b"-V"):
            return Call("version")
        if word[:1] != b"-":
            raise Wrong(NO_SUBCOMMAND % word)
        read_option(call, word, rest, FLAGS, set())
    return call
