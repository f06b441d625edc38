"""Scripts at random in which `fwenv check` finds nothing by either shell: a board's prompt and both shells have to make the same of them.

A script is lines for the prompt, as in at_random.py. Its texts are tame: no empty bodies, no `exit`, each name is either a variable of the
environment or a local one, `test` has its operands in quotes, and no number is large. Whatever differs in one of them needs a finding of
its own.
"""

import functools
import random
import re

from at_prompt import compared, in_dry_runs, on_boards
from differential.harness.boards import text_of

from at_random import HEXADECIMAL, NUMBERS, OPERATORS, TEXTS, WORDS, BoardWriter  # (at_prompt finds the packages that it uses)

VARIABLES, LOCALS = b"abvwn", b"ij"
# Of larger numbers the strict shell takes the largest, and a board of 32 bits the remainder
TAME = [word for word in WORDS if not re.search(rb"[0-9A-Fa-f]{8}", word)]
SET = re.compile(rb"setenv (\w+) (?:'([^']*)'|([^;]*))(?:; |\Z)")


class TameWriter(BoardWriter):
    """Writes such a script."""

    def __init__(self, numbers, number):
        super().__init__(numbers, number, has_exit=False)

    def call(self, name):
        return name

    def literal(self):
        return self.any(TAME)

    def variable(self):
        return self.named(self.any(VARIABLES))

    def local(self):
        return self.named(self.any(LOCALS))

    def substitution(self):
        name = self.local() if self.chance(35) else self.variable()
        return b"$?" if self.chance(6) else self.any([b"${%s}", b"$%s"]) % name

    # Commands

    def operand(self):
        return self.any([self.any(NUMBERS[:6]), self.quoted(), b'"%s"' % self.substitution()])

    def test(self):
        words = [b"test"]
        for _ in range(1 if self.chance(70) else 2):
            words += [b"!"] * self.chance(15)
            words += [self.operand(), self.any(OPERATORS), self.operand()] if self.chance(65) else [self.any([b"-n", b"-z"]), self.operand()]
            words.append(self.any([b"-a", b"-o"]))
        return words[:-1]

    def setexpr(self):
        return [b"setexpr", self.variable(), self.any(HEXADECIMAL[:-1]), *self.any([[], [b'"|"', b"f0"], [b"^", b"9"]])]

    def setenv(self):
        values = [self.any([self.literal, self.substitution, self.filled])() for _ in range(self.random.randint(0, 2))]
        return [b"setenv", self.variable(), *values]

    def run(self):
        return [b"run", self.any(self.started)] + [self.any(self.started)] * self.chance(15)

    def called(self):
        """A command by a variable's value."""
        return self.any([[b"${c%d}" % self.number] + self.some_words(2), [b"${e%d}" % self.number]])

    def simple(self):
        kind = self.random.randrange(100)
        if kind < 24:
            return [b"echo"] + [b"-n"] * self.chance(5) + self.some_words(3)
        if kind < 40:
            return self.setenv()
        if kind < 54:
            return self.test()
        if kind < 60:
            return self.setexpr()
        if kind < 74 and self.started:
            return self.run()
        if kind < 82:
            return [*self.any([[b"printenv"], [b"env", b"exists"]]), self.variable()]
        return self.called() if kind > 94 else [self.any([b"true", b"false"])] + self.some_words(1)

    def assignment(self):
        return self.local() + b"=" + self.any([self.filled(), b"$?", self.literal()])

    # Bodies, lists and loops

    def turns(self, nesting):
        head = [b"for", self.local(), b"in"] + self.some_words(3)
        return self.joined(head) + self.any([b"; ", b"\n"]) + self.body(nesting)

    def command(self, nesting):
        self.room -= 1
        kind = self.random.randrange(100)
        if nesting < 3 and self.room > 0 and kind < 30:
            form = self.branches if kind < 16 else self.turns if kind < 24 else self.loop
            return form(nesting + 1)
        return self.assignment() if kind < 40 else self.joined(self.simple())

    def chain(self, nesting):
        text, joint = self.command(nesting), self.any([b" && ", b" || ", b"&&", b"|| "])
        while self.chance(25):
            text += (self.any([b" && ", b" || "]) if self.chance(15) else joint) + self.command(nesting)
        return text

    def inside(self, nesting, empties=()):
        return b" " + self.list(nesting)

    # The lines

    def lines(self):
        values = [b"7", b"a b", b"x", b"01", b"echo"]
        first = [(b"c%d" % self.number, b"echo c"), (b"e%d" % self.number, self.any([b"true", b"false x", b"echo e"]))]
        first += [(self.named(letter), self.any(values)) for letter in VARIABLES]
        yield b"; ".join(b"setenv %s %s" % each for each in first)
        for letter in TEXTS[::-1]:
            yield self.stored(letter)
        yield b"%s=1; %s=x; run %s; echo $?" % (*(self.named(letter) for letter in LOCALS), self.named(TEXTS[0]))
        yield b"echo " + b" ".join(b'"${%s}"' % self.named(letter) for letter in VARIABLES + LOCALS)


def environment_of(lines):
    """The environment to which lines come: what they store, and as `bootcmd` the others."""
    stored = [SET.findall(line) for line in lines]
    rest = b"\n".join(line for line, found in zip(lines, stored) if not found)
    return {name: quoted or plain for found in stored for name, quoted, plain in found} | {b"bootcmd": rest}


def is_silent(variables, copy):
    """Whether `check` finds nothing, not even a note."""
    copy.text.write_bytes(text_of(variables))
    copy.stubs.write_bytes(b"")
    calls = (copy.check("--env", copy.text, "--stubs", copy.stubs, "--shell", shell) for shell in ("board", "strict"))
    return all(done.returncode == 0 and not done.stdout for done in calls)


@functools.cache
def texts(seed, first, count, copy):
    """The first scripts at random from a number on that are silent, by their numbers."""
    found, number = {}, first
    while len(found) < count:
        lines = list(TameWriter(random.Random(f"{seed} silent {number}"), number).lines())
        if is_silent(environment_of(lines), copy):
            found[number] = b"\n".join(lines)
        number += 1
    return found


def faults_of_silent(seed, first, count, pair):
    """The names of silent scripts, each with its fault, if it has one."""
    copy = pair.copy(f"silent-{first}")
    scripts = texts(seed, first, count, copy)
    answers = [on_boards([*scripts.values()], copy), *(in_dry_runs([*scripts.values()], copy, shell) for shell in ("board", "strict"))]
    faults = []
    for (number, text), *each in zip(scripts.items(), *answers, strict=True):
        is_same = len({compared("script", *answer) for answer in each}) == 1
        faults.append((f"silent script {number} of {seed} ({pair.release})", None if is_same else f"{text!r}: board, its shell, strict: {each!r}"))
    return faults
