"""Board files: what a board answers to each call of a command (docs/runs.md, "Board files")."""

import re
from dataclasses import dataclass
from enum import Enum

from model.calculations import status_of_digits
from model.grammar import parse
from model.shells import BOARD, only
from model.texts import BUILTINS, SUBCOMMANDS, lines_of
from model.words import Fault

MOST_LINE, MOST_RULES, MOST_WORDS = 4096, 512, 256
ARROW = re.compile(rb"(?:\A|(?<=[ \t]))->(?=[ \t]|\Z)")
SENTENCES = {
    "Nul": b"a byte 0",
    "Long": b"more than 4096 bytes",
    "Form": b"neither a name, perhaps with a status, nor a pattern, -> and an answer",
    "NoPattern": b"no pattern before ->",
    "Words": b"a pattern of more than 256 words",
    "Minus": b"a - is for the name of a builtin alone",
    "Builtin": b"a builtin answers this itself",
    "NoAnswer": b"no answer after ->",
    "Open": b"? is not an answer of a single run",
    "NoScript": b"what is after -> is not a script",
    "NoStatus": b"test -e is answered by a status alone",
    "Many": b"more than 512 rules",
    "Unreachable": b"an earlier line answers all of these calls",
}


class Reply(Enum):
    """An answer that is neither a status nor a script. `ASKS` is open: both statuses are tried."""

    BOOTS = b"boots"
    RESETS = b"resets"
    LACKS = b"-"
    ASKS = b"?"


class BoardFault(Exception):
    """What is wrong with a line."""


@dataclass(frozen=True)
class PatternWord:
    text: bytes
    is_open: bool

    def fits(self, word):
        return word.startswith(self.text) if self.is_open else word == self.text

    def covers(self, other):
        """Whether it fits all that the other fits."""
        return other.text.startswith(self.text) if self.is_open else self == other


@dataclass(frozen=True)
class Rule:
    """A pattern, and its answer: a status, the text of a script, or another reply."""

    pattern: list
    answer: int | bytes | Reply

    def fits(self, call):
        return len(self.pattern) <= len(call) and all(word.fits(each) for word, each in zip(self.pattern, call))

    def covers(self, other):
        return len(self.pattern) <= len(other.pattern) and all(map(PatternWord.covers, self.pattern, other.pattern))

    def asks_file(self):
        return self.pattern[:2] == exactly(b"test", b"-e")

    def is_asked(self):
        """Whether a builtin asks calls that it fits."""
        asks_env = self.pattern[:1] == exactly(b"env") and self.pattern[1:2] not in map(exactly, SUBCOMMANDS)
        return self.asks_file() or asks_env or re.match(rb"setexpr(\Z|\.)", self.pattern[0].text)


def exactly(*words):
    return [PatternWord(word, False) for word in words]


def first_rule(rules, call):
    """The first rule that fits a call."""
    return next((rule for rule in rules if rule.fits(call)), None)


def names_of(rules):
    """The names of commands that rules answer."""
    return {rule.pattern[0].text for rule in rules if not rule.pattern[0].is_open}


def words_of(text):
    return re.findall(rb"[^ \t]+", text)


def pattern_of(words):
    return [PatternWord(word.removesuffix(b"*"), word.endswith(b"*")) for word in words]


def is_answered(word):
    """Whether a builtin has all commands whose name a word fits."""
    if not word.is_open:
        return word.text in BUILTINS
    return b"." in word.text and only(word.text, {name for name in BUILTINS if b"." not in name}) is not None


def answer_of(text):
    if not text:
        raise BoardFault("NoAnswer")
    status = status_of_digits(text)
    if status is not None:
        return status
    if text in (b"boots", b"resets", b"?"):
        return Reply(text)
    try:
        parse(text, BOARD)
    except Fault:
        raise BoardFault("NoScript")
    return text


def refuse_pattern(rule):
    """Rules that the form of a file allows and no call asks."""
    if not rule.pattern:
        raise BoardFault("NoPattern")
    if len(rule.pattern) > MOST_WORDS:
        raise BoardFault("Words")
    if rule.pattern[0].text.startswith(b"-"):
        raise BoardFault("Minus")
    if is_answered(rule.pattern[0]) and not rule.is_asked():
        raise BoardFault("Builtin")


def lacking_rule(name):
    """The rule that a board lacks a builtin."""
    if name not in BUILTINS or b"." in name:
        raise BoardFault("Minus")
    return Rule(exactly(name), Reply.LACKS)


def lacks(rules, name):
    """Whether a board lacks the builtin of this name, perhaps with a width."""
    return any(rule == Rule(exactly(name.partition(b".")[0]), Reply.LACKS) for rule in rules)


def rule_of(line):
    """The rule of a line that is no comment; None if it is blank."""
    arrow = ARROW.search(line)
    if arrow is None:
        words = words_of(line)
        if not words:
            return None
        if len(words) == 1 and words[0][:1] == b"-":
            return lacking_rule(words[0][1:])
        status = status_of_digits(words[1]) if len(words) > 1 else 0
        if len(words) > 2 or status is None:
            raise BoardFault("Form")
        rule = Rule(pattern_of(words[:1]), status)
        refuse_pattern(rule)
        return rule
    pattern = pattern_of(words_of(line[: arrow.start()]))
    refuse_pattern(Rule(pattern, 0))
    rule = Rule(pattern, answer_of(line[arrow.end() :].strip(b" \t")))
    if rule.asks_file() and not (isinstance(rule.answer, int) or rule.answer is Reply.ASKS):
        raise BoardFault("NoStatus")
    return rule


def read_line(line, rules, may_ask):
    """Adds the rule of a line."""
    if b"\0" in line:
        raise BoardFault("Nul")
    if len(line) > MOST_LINE:
        raise BoardFault("Long")
    rule = None if line[:1] == b"#" else rule_of(line)
    if rule is None:
        return
    if rule.answer is Reply.ASKS and not may_ask:
        raise BoardFault("Open")
    if len(rules) == MOST_RULES:
        raise BoardFault("Many")
    if any(earlier.covers(rule) for earlier in rules):
        raise BoardFault("Unreachable")
    rules.append(rule)


def rules_of(text, may_ask=False):
    """The rules, in order; a fault has its line and its kind. Whether answers may be open."""
    rules = []
    for number, line in lines_of(text):
        try:
            read_line(line.removesuffix(b"\r"), rules, may_ask)
        except BoardFault as fault:
            raise BoardFault(number, *fault.args)
    return rules
