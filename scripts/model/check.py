"""What `fwenv check` finds in scripts without running them (docs/check.md).

Each kind of finding is a function of its own: of a text, or of a command and what is known. `SEARCHES` are those of commands, in the
order in which one command gets them."""

import itertools
import json
import re
from collections import Counter
from dataclasses import dataclass, field

from model.board_file import Reply, lacks, names_of
from model.calculations import COMPARISONS, OF_NUMBERS
from model.grammar import RESERVED, NoScript, parse
from model.quoting import APOSTROPHE, BACKSLASH, JOINED, LOOSE, UNDERSCORED, quoting
from model.script_run import SENTENCES, line_and_column
from model.shells import STRICT
from model.statuses import AND_OR, IF_STATUS, LOOP_STATUS, settled
from model.texts import BUILTINS
from model.variables import PLAIN, TYPES, attributes
from model.words import Fault

# Where a check begins if it is given no names
STARTED = (b"bootcmd", b"altbootcmd", b"preboot")
ERROR, WARNING, NOTE = b"error", b"warning", b"note"
# The kinds of findings by their codes, in the order of the table
KINDS = {
    b"carriage-return": WARNING, b"backslashes": WARNING, b"syntax": ERROR, JOINED: WARNING, LOOSE: WARNING, APOSTROPHE: WARNING,
    BACKSLASH: WARNING, UNDERSCORED: WARNING, b"other-shell": ERROR, b"unknown-command": ERROR, b"exit": WARNING, b"many-words": WARNING,
    AND_OR: WARNING, IF_STATUS: WARNING, LOOP_STATUS: WARNING, b"stale-status": WARNING, b"wrong-use": ERROR, b"test-operator": ERROR,
    b"run-undefined": ERROR, b"run-unknown": NOTE, b"empty-value": WARNING, b"hidden-assignment": WARNING, b"empty-assignment": NOTE,
    b"quoted-for": WARNING, b"reserved-words-of-for": WARNING, b"undefined-name": WARNING, b"reread-value": WARNING, b"no-variable": ERROR,
    b"no-script": ERROR, b"value-type": ERROR,
}  # fmt: skip
NOT_DEFINED = b"no variable of this name is defined"
NOTHING = b"there is no script to look at"
NOT_TYPED = b"the value does not have the type that .flags gives it"
NO_SCRIPT = b"%s (%s)"
CARRIAGE_RETURN = b"a carriage return stands in the script"
DROPPED = b"a board drops this backslash when it loads the variable"
NO_TARGET = b"`run %s` names a variable that is not defined"
ANY_TARGET = b"what this runs is not known, so it is not followed"
NO_COMMAND = b"no builtin and no stand-in is called `%s`"
EXITS = b"U-Boot before 2025 ignores `exit` and goes on"
TOO_MANY = b"U-Boot before 2025 takes 16 words of a command at most"
# What is found at the first command inside, or behind an operator
OF_STATUSES = {
    AND_OR: b"a board skips the rest of a chain once a command of it is skipped",
    IF_STATUS: b"shells differ in the status of an `if` without `else`",
    LOOP_STATUS: b"shells differ in the status of a `while` or `until`",
}
STALE = b"shells differ in the `$?` with which a text or a turn of `for` begins"
CUTS = b"a board cuts this word of a `for` at its blanks, in quotes too"
REFUSES = b"a board refuses a reserved word in the list of a `for`"
EMPTIES, LEAVES = b"a board keeps the variable, with an empty value", b"U-Boot before 2025 leaves the old value, if there is one"
NO_OPERATOR = b"`test` has no operator `%s` here"
IS_VARIABLE, IS_WRITTEN = b"`%s` is an environment variable, ", b"a script sets `%s` in the environment, "
# What the strict shell makes of both, and a board of the second
IS_FALSE, NOT_ASSIGNED, HIDES = b", and is false", b"so it can not be assigned", b"which hides what is assigned"
NOT_THERE = b"where it can not be assigned"
NOT_GIVEN = b"`${%s}` names a variable that nothing defines"
READ_ANEW = b"a board reads quotes, backslashes, newlines and ` #` in the value of `%s` anew"
# What other shells have and this one doesn't
LACKED = {
    **{name: b"this shell has no `%s`: write `test`" % name for name in (b"[", b"[[")},
    **{name: b"this shell has no `%s`" % name for name in (b"break", b"continue", b"return", b"case", b"function")},
}
NO_FUNCTIONS = b"this shell has no functions"
NO_TEST = b"a comparison needs `test` before it"
BACKQUOTES = b"this shell runs nothing in backquotes"
BRACES = b"these braces are a part of the word: write `${NAME}` for a value"
REDIRECTION = b"this shell redirects nothing"
# What is said of wrong words of a command
RUNS_NOTHING = b"`run` needs the name of a variable"
NO_SETTING = b"`setenv` is written `setenv NAME VALUE`"
NO_CALCULATION = b"`setexpr` is written `setexpr NAME VALUE` or `setexpr NAME VALUE OPERATOR VALUE`"
NO_CALCULATOR = b"`setexpr` has no operators but + - * / % & | ^"
NO_NUMBER = b"`test` compares a word as a number, which is 0"
NO_SUBCOMMAND = b"`env` needs the name of one of its commands"
NO_WORDS_OF_ENV = b"these are not the words of this `env` command"
NO_WORDS, ONE_WORD = b"`saveenv` takes no words", b"`exit` takes one word at most"
NO_SEPARATOR = b"a `;` is missing before `run`"
NO_EXPRESSION = b"the words of `test` are no expression"
# What U-Boot and its commands set by themselves, and what its scripts use whether a board defines it or not
SET_BY_UBOOT = {
    b"boardver", b"bootargs", b"bootcount", b"bootfile", b"devnum", b"devtype", b"distro_bootpart", b"dnsip", b"dnsip2", b"domain",
    b"ethact", b"ethaddr", b"fdtaddr", b"fdtcontroladdr", b"fileaddr", b"filesize", b"gatewayip", b"hostname", b"ipaddr", b"llipaddr",
    b"mtddevname", b"mtddevnum", b"mtdids", b"mtdparts", b"netmask", b"ntpserverip", b"partition", b"prefix", b"rootpath", b"serverip",
    b"stderr", b"stdin", b"stdout", b"timeoffset", b"ver",
}  # fmt: skip
# Commands whose first argument names the variable that they set
SETTING = {b"setenv", b"setexpr", b"setexpr.b", b"setexpr.w", b"setexpr.l", b"setexpr.q"}
# The commands of U-Boot's `env`, whether a dry run has them or not
OF_ENV = {
    b"ask", b"callbacks", b"default", b"delete", b"edit", b"erase", b"exists", b"export", b"flags", b"grep", b"import", b"indirect", b"info",
    b"load", b"print", b"run", b"save", b"select", b"set",
}  # fmt: skip
# The forms of `setexpr` that work on texts, and its operators
TEXT_FORMS = (b"sub", b"gsub", b"fmt")
CALCULATING = {b"+", b"-", b"*", b"/", b"%", b"&", b"|", b"^"}
# The variables of a boot menu, and what comes before the script of an entry
ENTRY_NAME, TITLE = re.compile(rb"bootmenu_[0-9]+"), re.compile(rb"[^=]*=?")
# What begins a script and is no command; the first word of a value, and what is behind it; variables that are lists with a `;` between entries
FORMS = {b"if", b"for", b"while", b"until"}
FIRST_WORD = re.compile(rb"[ \t\n]*([^ \t\n;&|]*)[ \t\n]*(.?)", re.DOTALL)
LIST = b"dfu_alt_info"
# No further line is added once there are this many bytes; then it is reported that there is more
MOST = 65_536
MORE = b"more is found, and not printed\n"
LAST = b"%s looked at, %s, %s\n"
# Words of `test` that are no expression
BROKEN = object()
# How many words a board takes from one of these on
SIZES = {b"!": 1, b"-a": 1, b"-o": 1, b"-n": 2, b"-z": 2, b"-e": 4}
# How long a value may be of which all is known
MOST_VALUE = 4096
# How many words of a command older boards take
MOST_WORDS = 16
# What a board reads in a value again wherever it is substituted, and outside of quotes in a word of a command
READ_ALWAYS, READ_OUTSIDE = re.compile(rb"['\\\n]"), re.compile(rb"['\\\n\"]|(?:\A|[ \t\n])#")
# How many bytes of a line are shown in front of a place, and from it on
IN_FRONT, BEHIND = 30, 40
# How an operator is written
WRITTEN = re.compile(rb"-[A-Za-z].*|[=!<>~]+", re.DOTALL)


@dataclass
class Finding:
    place: int
    kind: bytes
    sentence: bytes


@dataclass
class Known:
    """The shell; the values of the environment, or None if only one script is checked; the stand-ins, and the rules of a board, both None
    if there is no file of either; the names of the scripts whose status is asked for; the names that something may set; those that a substitution may have; those that `run` may; and those of variables that a script sets to a value.
    """

    shell: object = STRICT
    values: dict = None
    stand_ins: dict = None
    board: list = None
    asked: set = frozenset()
    set: set = frozenset()
    defined: set = frozenset()
    started: set = frozenset()
    written: set = frozenset()


# How a file and a variable are told of
FILE, VARIABLE = "file", "variable"
TEXT, GCC, JSON = b"text", b"gcc", b"json"


def as_text(told, place, kind, sentence):
    name = next(iter(told.values()), b"check")
    return b"%s: %s: %s [%s]" % (b":".join([name, *(b"%d" % number for number in place)]), KINDS[kind], sentence, kind)


def shown(text, at):
    """The line of a place, cut to some bytes around it, and a `^` below the place."""
    begin, end = text.rfind(b"\n", 0, at) + 1, text.find(b"\n", at)
    end = len(text) if end < 0 else end
    first, last = max(begin, at - IN_FRONT), min(end, at + BEHIND)
    before, behind = b"..." * (first > begin), b"..." * (last < end)
    line = re.sub(rb"[^ -~]", b"?", text[first:last].replace(b"\t", b" "))
    return b"%s%s%s\n%s^\n" % (before, line, behind, b" " * (len(before) + at - first))


def on_one_line(line):
    """As compilers print it: with no byte that ends a line or can't be printed."""
    return re.sub(rb"[\0-\x1f\x7f]", b"?", line)


def as_json(told, place, kind, sentence):
    line, column = place or (None, None)
    found = {"code": kind, "column": column, "file": None, "line": line, "message": sentence, "severity": KINDS[kind], "variable": None, **told}
    text = {key: value.decode(errors="replace") if isinstance(value, bytes) else value for key, value in found.items()}
    return json.dumps(text, ensure_ascii=False, separators=(",", ":")).encode()


@dataclass
class Report:
    """What is asked: the codes of the kinds that are left out, whether warnings count as errors, and the format. If places are told in the text that
    the environment was read from, its path, the text and where each byte of its values begins. The lines, whether something was
    found that has no line, how many scripts were looked at, and how many errors and warnings were found."""

    ignored: tuple = ()
    is_strict: bool = False
    format: bytes = TEXT
    source: tuple = None
    text: bytes = b""
    is_cut: bool = False
    scripts: int = 0
    found: Counter = field(default_factory=Counter)

    def add_line(self, told, place, kind, sentence, below=b""):
        """`below`: what stands below the line."""
        if kind in self.ignored:
            return
        if len(self.text) < MOST:
            line = (as_json if self.format == JSON else as_text)(told, place, kind, sentence)
            self.text += (on_one_line(line) if self.format == GCC else line) + b"\n" + below
        else:
            self.is_cut = True
        self.found[KINDS[kind]] += 1

    def add(self, told, text, findings):
        self.scripts += 1
        for finding in findings:
            below = shown(text, finding.place) if self.format == TEXT else b""
            self.add_line(told, line_and_column(text, finding.place), finding.kind, finding.sentence, below)

    def add_script(self, name, script, findings):
        """Those in the script of a variable."""
        if self.format == TEXT or self.source is None:
            return self.add({VARIABLE: name}, script, findings)
        path, text, offsets = self.source
        self.add({FILE: path, VARIABLE: name}, text, [Finding(offsets[name][each.place], each.kind, each.sentence) for each in findings])

    def add_value(self, name, kind, sentence):
        """One in the whole value of a variable."""
        if self.format == TEXT or self.source is None:
            return self.add_line({VARIABLE: name}, (), kind, sentence)
        path, text, offsets = self.source
        self.add_line({FILE: path, VARIABLE: name}, line_and_column(text, offsets[name][0]), kind, sentence)

    def printed(self):
        return self.text + MORE * (self.is_cut and self.format == TEXT)

    def last(self):
        """What is on standard error."""
        more = MORE * (self.is_cut and self.format != TEXT)
        return more + LAST % (counted(self.scripts, b"script"), counted(self.found[ERROR], b"error"), counted(self.found[WARNING], b"warning"))

    def status(self):
        return int(self.found[ERROR] > 0 or (self.is_strict and self.found[WARNING] > 0))


def counted(number, one):
    return b"%d %s%s" % (number, one, b"" if number == 1 else b"s")


# The tree


def commands(chains):
    """The commands of a list in the order of the text, each before those inside it."""
    for chain in chains:
        for _, command in chain:
            yield command
            for inner in lists_in(command):
                yield from commands(inner)


def lists_in(command):
    """The lists of which a command consists."""
    kind = command[0]
    if kind == "if":
        found = [each for branch in command[1] for each in branch]
        return found if command[2] is None else [*found, command[2]]
    if kind == "for":
        return [command[3]]
    return list(command[1:]) if kind in ("while", "until") else []


def literal(word):
    """The bytes of a word without a substitution; None for another."""
    if any(part[0] in ("name", "status") for part in word):
        return None
    return bytes(part[1] for part in word if part[0] != "mark")


def named(command):
    """The name of a simple command as it is written, if it is literal."""
    return literal(command[1][0]) if command[0] == "simple" and command[1] else None


def called(command, known):
    """The name that the shell finds by it."""
    name = named(command)
    return name if name is None else known.shell.called(name, answering(known))


def answering(known):
    """The names of stand-ins and of rules."""
    return set(known.stand_ins or ()) | names_of(known.board or ())


def answered(name, known):
    """Whether a rule, or a stand-in that a rule doesn't keep from it, may answer calls of a name."""
    rules = [rule for rule in known.board or () if name in names_of([rule])]
    lacking = [rule for rule in rules if rule.answer is Reply.LACKS]
    return len(rules) > len(lacking) or (not lacking and name in (known.stand_ins or ()))


def started(command, known):
    """The arguments of `run`."""
    return command[1][1:] if called(command, known) == b"run" else []


def front(word):
    """The bytes of a word before its first substitution."""
    return bytes(part[1] for part in itertools.takewhile(lambda part: part[0] not in ("name", "status"), word) if part[0] != "mark")


def targets(command, known):
    """The variables that a command may start: those that literal arguments of `run` name, and for each other argument those whose names
    begin as it does, in order of names. An argument that begins with a substitution may start any, and counts for none."""
    for word in started(command, known):
        yield from targets_of(word, known)


def targets_of(word, known):
    if literal(word) is not None:
        yield literal(word)
    elif front(word):
        yield from (name for name in sorted(known.values) if name.startswith(front(word)))


def substituted(words):
    """The names that words substitute, in order, each with the place of its word."""
    return [(word.place, part[1]) for word in words for part in word if part[0] == "name"]


def words_of(command):
    """The words of a command itself, without those of the lists inside it."""
    if command[0] == "assign":
        return [command[2]]
    if command[0] == "for":
        return command[2]
    return command[1] if command[0] == "simple" else []


def given(command, known):
    """The names that a command assigns, gives to a command, or tests."""
    if command[0] in ("assign", "for"):
        return {command[1]}
    arguments = words_of(command)[1:]
    tested = substituted(arguments) if called(command, known) == b"test" else []
    return {literal(word) for word in arguments} - {None} | {name for _, name in tested}


def foreseen(command, known):
    """The names that a command sets by `setenv`, `env set` or `setexpr`, substitutes in `test`, or asks for by `env exists`."""
    if called(command, known) == b"test":
        return {tested for _, tested in substituted(words_of(command)[1:])}
    name, words = set_by(command, known)
    return named_by(words) if name in {b"exists", *SETTING} else set()


def without_force(words):
    """The words behind an `-f`, or all."""
    return words[1:] if words and literal(words[0]) == b"-f" else words


def set_by(command, known):
    """What a command sets or asks for a variable by, and the arguments from its name on."""
    name, words = called(command, known), words_of(command)[1:]
    if name == b"env" and words and literal(words[0]) is not None:
        name, words = known.shell.subcommand(literal(words[0])), words[1:]
        name = b"setenv" if name == b"set" else name if name == b"exists" else None
    return name, without_force(words) if name == b"setenv" else words


def named_by(words):
    """The name that the first of these words is, if it is literal."""
    return {literal(word) for word in words[:1]} - {None}


def written_names(command, known):
    """The name of the variable that a command sets to a value."""
    name, words = set_by(command, known)
    return named_by(words) if name in SETTING and len(words) > 1 else set()


# The kinds of findings in a text


def carriage_return(text):
    """The first one is reported."""
    at = text.find(b"\r")
    return [] if at < 0 else [Finding(at, b"carriage-return", CARRIAGE_RETURN)]


def first_backslash(text):
    """The first one is reported, in the script of a variable."""
    at = text.find(b"\\")
    return [] if at < 0 else [Finding(at, b"backslashes", DROPPED)]


def no_script(fault):
    kind, place = fault.args
    said = fault.lacking if isinstance(fault, NoScript) else SENTENCES[kind]
    return [Finding(place, b"syntax", NO_SCRIPT % (said, kind.encode()))]


# The kinds of findings in a command


def of_setting(command, setting):
    """What the setting of a command finds at its first word."""
    words = words_of(command)
    shows = any(part[0] == "status" for word in words for part in word)
    found = [Finding(place_of(command), kind, OF_STATUSES[kind]) for kind in sorted(setting.kinds)]
    return found + [Finding(place_of(command), b"stale-status", STALE)] * (setting.begins and shows)


def place_of(command):
    return command[-1] if command[0] in ("assign", "for") else command[1][0].place if command[1] else 0


def known_name(command, known):
    """The command's name, if all is known of it."""
    if command[0] != "simple" or not command[1] or lost_test(command, known):
        return None
    return constant_field(command[1][0], known) if named(command) is None else named(command)


def lacked(command, known):
    """What is reported of a command that this shell lacks; None for another."""
    name, arguments = known_name(command, known), words_of(command)[1:]
    if name is None or name in LACKED:
        return LACKED.get(name)
    is_head = name.endswith(b"()") or (arguments and literal(arguments[0]) == b"()" and name not in BUILTINS)
    return NO_FUNCTIONS if is_head else None


def lacked_command(command, known):
    """A command that other shells have, unless a stand-in answers it."""
    said = lacked(command, known)
    if said is None or answered(known_name(command, known), known):
        return []
    return [Finding(command[1][0].place, b"other-shell", said)]


def plain(word):
    """The bytes of a word that are in no quotes and of no substitution."""
    return bytes(part[1] for part in word if part[0] == "plain")


def foreign(word):
    """What is said of a word that is written for another shell."""
    text = plain(word)
    if b"`" in text:
        return BACKQUOTES
    if re.fullmatch(rb"\{.+\}", text, re.DOTALL):
        return BRACES
    return REDIRECTION if text.startswith(b">") else None


def foreign_words(words):
    found = [(word.place, foreign(word)) for word in words]
    return [Finding(place, b"other-shell", said) for place, said in found if said]


def foreign_arguments(command, known):
    """Arguments that are written so."""
    is_free = command[0] != "simple" or called(command, known) in (b"echo", b"test")
    return [] if is_free else foreign_words(command[1][1:])


def foreign_list(command, _known):
    """The same of the list of a `for`."""
    return foreign_words(command[2]) if command[0] == "for" else []


def lost_test(command, _known):
    """A value in the place of a command, and a comparison behind it."""
    words = words_of(command) if command[0] == "simple" else []
    if not words or named(command) is not None or not words[1:] or literal(words[1]) not in {*COMPARISONS, b"=="}:
        return []
    return [Finding(words[0].place, b"other-shell", NO_TEST)]


def unknown_command(command, known):
    """A command that only hardware has and that nothing answers, or a builtin that the board lacks."""
    name = known_name(command, known)
    if name is None or lacked(command, known) is not None or known.stand_ins is None:
        return []
    found = known.shell.called(name, answering(known))
    if answered(name, known) or answered(found, known) or (found in BUILTINS and not lacks(known.board, found)):
        return []
    return [Finding(command[1][0].place, b"unknown-command", NO_COMMAND % name)]


def ignored_exit(command, known):
    """An `exit`, which older boards ignore."""
    return [Finding(command[1][0].place, b"exit", EXITS)] if called(command, known) == b"exit" else []


def many_words(command, _known):
    """More words than older boards take, at the first one that is too many."""
    words = command[1] if command[0] == "simple" else []
    return [Finding(word.place, b"many-words", TOO_MANY) for word in words[MOST_WORDS : MOST_WORDS + 1]]


def emptied(command, known):
    """A variable that is set to an empty value, which a board keeps."""
    name, words = set_by(command, known)
    is_emptied = name == b"setenv" and len(words) == 2 and literal(words[1]) == b""
    return [Finding(words[1].place, b"empty-value", EMPTIES)] if is_emptied else []


def empty_assignment(command, _known):
    """An assignment of nothing, which older boards ignore."""
    return [Finding(command[-1], b"empty-assignment", LEAVES)] if command[0] == "assign" and literal(command[2]) == b"" else []


def reserved_word(command, _known):
    """Words of a `for` that a board takes for reserved ones, in quotes too."""
    words = command[2] if command[0] == "for" else []
    return [Finding(word.place, b"reserved-words-of-for", REFUSES) for word in words if literal(word) in {*RESERVED, b"in"}]


def cut_word(command, _known):
    """Words of a `for` with a blank, empty, or with a substitution and quotes: a board cuts them at blanks, in quotes too."""
    words = command[2] if command[0] == "for" else []
    return [Finding(word.place, b"quoted-for", CUTS) for word in words if is_cut(word)]


def is_cut(word):
    text = literal(word)
    return ("mark",) in word if text is None else not text or re.search(rb"[ \n]", text)


def undefined_target(command, known):
    """A start of a variable that isn't there, or of one that isn't known."""
    if known.values is None:
        return []
    return [each for word in started(command, known) for each in of_target(word, known)]


def of_target(word, known):
    name = literal(word)
    if name is None:
        name = constant_field(word, known)
        if name is None or name in known.started:
            return [] if front(word) else [Finding(word.place, b"run-unknown", ANY_TARGET)]
    return [] if name in known.started else [Finding(word.place, b"run-undefined", NO_TARGET % name)]


def is_constant(name, known):
    """Whether a variable has a value that nothing sets but the environment, and that isn't too long for a name."""
    return known.values is not None and name in known.values and name not in known.set and len(known.values[name]) <= MOST_VALUE


def constant_field(word, known):
    """The first field of a word whose substitutions are of variables that nothing sets but the environment; None for another, and if it has
    none."""
    text = b""
    for part in word:
        if part[0] == "status" or (part[0] == "name" and not is_constant(part[1], known)):
            return None
        text += known.values[part[1]] if part[0] == "name" else b"" if part[0] == "mark" else bytes([part[1]])
    return re.match(rb"[^ \t\n]*", text)[0] or None


def refused_assignment(command, known):
    """An assignment, or the head of a `for`, of a name whose variable the environment holds, or a script sets."""
    if command[0] not in ("assign", "for") or known.values is None or command[1] not in {*known.values, *known.written}:
        return []
    is_there = command[1] in known.values
    said, refused = (IS_VARIABLE, NOT_ASSIGNED) if is_there else (IS_WRITTEN, NOT_THERE)
    return [Finding(command[-1], b"hidden-assignment", said % command[1] + (HIDES if known.shell.hides else refused))]


def misuse(name, words, known):
    """What is said of these arguments of a command."""
    literals = [literal(word) for word in words]
    if name == b"run":
        return None if words else RUNS_NOTHING
    if name == b"setenv":
        return None if sets(words) else NO_SETTING
    if name == b"test":
        pairs = [*zip(literals, literals[1:]), *zip(literals[1:], literals)]
        return NO_NUMBER if any(is_number_of(*pair) for pair in pairs) else None
    if name in SETTING and (len(words) < 2 or literals[1] not in TEXT_FORMS):
        return misuse_of_setexpr(words)
    if name == b"env":
        return misuse_of_env(words, known)
    if name == b"saveenv":
        return NO_WORDS if words else None
    if name == b"exit":
        return ONE_WORD if len(words) > 1 else None
    if name is None or name in BUILTINS:
        return None
    return NO_SEPARATOR if any(first == b"run" and second in (known.values or ()) for first, second in zip(literals, literals[1:])) else None


def misuse_of_setexpr(words):
    if len(words) not in (2, 4) or re.search(rb"[+-]", plain(words[1])):
        return NO_CALCULATION
    return NO_CALCULATOR if len(words) == 4 and literal(words[2]) not in {None, *CALCULATING} else None


def sets(words):
    """Whether these can be the words of `setenv`."""
    words = without_force(words)
    behind = [literal(word) for word in words[1:2]]
    return words and literal(words[0]) != b"" and not re.search(rb"[ =]", front(words[0])) and behind != [b"="]


# Whether what follows a subcommand of `env` can be its words
WORDS_OF_ENV = {
    b"exists": lambda words: len(words) == 1,
    b"delete": without_force,
    b"set": sets,
    b"run": bool,
    b"save": lambda words: not words,
}


def misuse_of_env(words, known):
    word = literal(words[0]) if words else b""
    if not words or (word is not None and not known.shell.names(word, OF_ENV)):
        return NO_SUBCOMMAND
    wanted = WORDS_OF_ENV.get(known.shell.subcommand(word)) if word is not None else None
    return NO_WORDS_OF_ENV if wanted and not wanted(words[1:]) else None


def is_number_of(sign, word):
    """Whether a comparison of numbers is beside a word that begins with a letter."""
    return sign in OF_NUMBERS and re.match(rb"[A-Za-z]", word or b"")


def wrong_use(command, known):
    said = misuse(called(command, known), command[1][1:], known) if command[0] == "simple" else None
    return [Finding(command[1][0].place, b"wrong-use", said)] if said else []


def written(word):
    """The word, if it is written as an operator is; else None."""
    return word if word is not None and WRITTEN.fullmatch(literal(word) or b"") else None


def no_operator(words):
    """The first of the words of `test`, each taken for one field, that is in the place of an operator and is written as one, but isn't
    one; BROKEN if they can't be an expression for another reason; None if there is neither."""
    rest = list(words)
    while rest:
        first, second = rest[0], rest[1] if rest[1:] else None
        if literal(first) == b"!":
            rest = rest[1:]
            continue
        size = 2 if literal(first) in (b"-n", b"-z") else 3
        if size == 3 and (second is None or literal(second) not in COMPARISONS):
            return of_two(*rest[:3])
        if len(rest) < size:
            return BROKEN
        rest = rest[size:]
        if rest and literal(rest[0]) not in (b"-a", b"-o"):
            return written(rest[0]) or broken_at(rest[0])
        rest = rest[1:]
    return None


def broken_at(word):
    """What a word that ends the expression makes of the words: that depends on its value, if it has one."""
    return None if literal(word) is None else BROKEN


def of_two(first, second=None, third=None):
    """The same of the first words of a term that is none."""
    wrong = written(second) or written(first)
    if wrong is not None or second is None:
        return BROKEN if wrong is None else wrong
    if literal(first) is not None or literal(second) is None:
        return None if literal(second) is None else BROKEN
    # the first may be `!`, `-n` or `-z`
    return None if third is None or literal(third) in {None, b"-a", b"-o", *COMPARISONS} else BROKEN


def no_operator_of_board(words):
    """The same as a board reads the words: a comparison comes before all, a term may follow any other, and `-e` has three words."""
    rest = list(words)
    while rest:
        first, is_compared = literal(rest[0]), literal(rest[1] if rest[1:] else []) in COMPARISONS
        size = 3 if is_compared else SIZES.get(first)
        if size is None:
            return of_two(*rest[:3])
        if len(rest) < size:
            return BROKEN
        rest = rest[size:]
    return None


def unknown_operator(command, known):
    """A word of `test` in the place of an operator; by the strict shell it is false then."""
    if called(command, known) != b"test":
        return []
    word = (no_operator if known.shell is STRICT else no_operator_of_board)(command[1][1:])
    if word is BROKEN:
        return [Finding(command[1][0].place, b"wrong-use", NO_EXPRESSION)]
    return [] if word is None else [Finding(word.place, b"test-operator", NO_OPERATOR % literal(word) + IS_FALSE * (known.shell is STRICT))]


def undefined_substitution(command, known):
    """A substitution of a name that nothing defines; the same line is not repeated."""
    if known.values is None:
        return []
    found = [Finding(place, b"undefined-name", NOT_GIVEN % name) for place, name in substituted(words_of(command)) if name not in known.defined]
    return [each for each, before in zip(found, [None, *found]) if each != before]


def reread_value(command, known):
    """Words with the value of a variable of the environment that a board reads again."""
    first_reread = ((word, next((part[1] for part in word if is_reread(part, command, known)), None)) for word in words_of(command))
    return [Finding(word.place, b"reread-value", READ_ANEW % name) for word, name in first_reread if name is not None]


def is_reread(part, command, known):
    """Whether a part of a word substitutes such a value."""
    if part[0] != "name" or part[1] not in (known.values or ()):
        return False
    what = READ_OUTSIDE if command[0] == "simple" and not part[2] else READ_ALWAYS
    return what.search(known.values[part[1]]) is not None


SEARCHES = (
    lacked_command, lost_test, unknown_command, foreign_arguments, ignored_exit, many_words, wrong_use, unknown_operator, undefined_target, emptied,
    refused_assignment, empty_assignment, cut_word, reserved_word, foreign_list, undefined_substitution, reread_value,
)  # fmt: skip


# Scripts


def tree_of(text, shell):
    """The tree of a script, or the fault by which a text isn't one."""
    try:
        return parse(text, shell), None
    except Fault as fault:
        return None, fault


def findings(text, known, asked=False, is_stored=False):
    """What is found in a text; `asked`: its status is asked for; `is_stored`: it is that of a variable."""
    found = carriage_return(text) + (first_backslash(text) if is_stored else [])
    tree, fault = tree_of(text, known.shell)
    if fault:
        return found + no_script(fault)
    found += itertools.starmap(Finding, quoting(text))
    for command, setting in settled(text, tree, asked):
        found += of_setting(command, setting) + [each for search in SEARCHES for each in search(command, known)]
    return found


def asked_in(text, known, asked):
    """The variables that a script runs and whose statuses are asked for, which a `run` does of all its names but the last."""
    tree, _ = tree_of(text, known.shell)
    for command, setting in settled(text, tree or [], asked):
        words = started(command, known)
        for word in words if setting.asked else words[:-1]:
            yield from (target for target in targets_of(word, known) if target in known.values)


def asked_among(scripts, known, texts):
    """The scripts whose statuses are asked for: by one of these or of these texts, or by the end of one whose own is."""
    read = [*texts, *(text_of_script(name, known.values) for name in scripts)]
    found = {target for text in read for target in asked_in(text, known, False)}
    left = list(found)
    while left:
        more = set(asked_in(text_of_script(left.pop(), known.values), known, True)) - found
        found |= more
        left += more
    return found


def of_files(shell, scripts, stand_ins, board, *asked):
    """The scripts of files alone, each a path and its text."""
    report = Report(*asked)
    for path, text in scripts:
        report.add({FILE: path}, text, findings(text, Known(shell, None, stand_ins, board)))
    return report


def commands_of(name, known):
    """The commands of a variable's script; what isn't a script has none."""
    return commands_in(text_of_script(name, known.values), known)


def is_entry(name, values):
    """Whether a variable is an entry of a boot menu that has a script."""
    return ENTRY_NAME.fullmatch(name) and b"=" in values[name]


def is_there(name, known):
    """Whether a command of this name, as it is written, is there."""
    return answered(name, known) or (name in BUILTINS and not lacks(known.board or [], name))


def looks_like_script(name, known):
    """Whether more follows the first word of a variable's value, which a script may begin with."""
    if ENTRY_NAME.fullmatch(name) or name.startswith(LIST):
        return False
    word, more = FIRST_WORD.match(known.values[name]).groups()
    return bool(more) and (word in FORMS or is_there(word, known))


def text_of_script(name, values):
    """The script of a variable: of an entry of a boot menu what is after the first `=`, at its place."""
    value = values[name]
    if not ENTRY_NAME.fullmatch(name):
        return value
    at = TITLE.match(value).end()
    return re.sub(rb"[^\n]", b" ", value[:at]) + value[at:]


def commands_in(text, known):
    tree, _ = tree_of(text, known.shell)
    return list(commands(tree or []))


def commands_of_texts(known, texts):
    """The commands of the texts that answer calls, and of these."""
    answers = [rule.answer for rule in known.board or () if isinstance(rule.answer, bytes)]
    return [command for text in [*answers, *texts] for command in commands_in(text, known)]


def visited(known, names, texts):
    """The variables that are checked, each once: those that are named, those that answers and these texts start, and after them those that
    each of them starts."""
    started_by_texts = [target for command in commands_of_texts(known, texts) for target in targets(command, known)]
    found = list(dict.fromkeys(name for name in [*names, *started_by_texts] if name in known.values))
    for name in found:
        for command in commands_of(name, known):
            for target in targets(command, known):
                if target in known.values and target not in found:
                    found.append(target)
    return found


def names_by(kind, known, scripts, texts):
    """The names that are given or foreseen by the commands of answers, of these variables and of these texts."""
    found = [*commands_of_texts(known, texts), *(command for script in scripts for command in commands_of(script, known))]
    return {name for command in found for name in kind(command, known)}


def not_typed(values):
    """The variables whose values don't have the types that `.flags` gives them."""
    given = attributes(values.get(b".flags", b""))
    return [name for name, value in sorted(values.items()) if not TYPES[given.get(name, PLAIN)[0]].fullmatch(value)]


def of_environment(shell, values, stand_ins, board, own, names, files, is_all, *asked):
    """The scripts of files, each a path and its text, those that are named, with `--all` those that look like some, and those that they start; without files then whether there was
    a script, and the types of all variables. `own` are names that the board's own code sets."""
    report = Report(*asked)
    for name in names:
        if name not in values:
            report.add_line({VARIABLE: name}, (), b"no-variable", NOT_DEFINED)
    known = Known(shell, values, stand_ins, board)
    usual = [*STARTED, *sorted(name for name in values if is_entry(name, values))]
    if is_all:
        names = [*names, *usual, *sorted(name for name in values if looks_like_script(name, known))]
    texts = [text for _, text in files]
    scripts = visited(known, names or ([] if files else usual), texts)
    known.set = names_by(given, known, scripts, texts) | SET_BY_UBOOT | set(own)
    known.defined = values.keys() | known.set
    known.started = values.keys() | names_by(foreseen, known, scripts, texts)
    known.written = names_by(written_names, known, scripts, texts)
    known.asked = asked_among(scripts, known, texts)
    for path, text in files:
        report.add({FILE: path}, text, findings(text, known))
    for name in scripts:
        script = text_of_script(name, values)
        report.add_script(name, script, findings(script, known, name in known.asked, is_stored=True))
    if files:
        return report
    if not scripts:
        report.add_line({}, (), b"no-script", NOTHING)
    for name in not_typed(values):
        report.add_value(name, b"value-type", NOT_TYPED)
    return report
