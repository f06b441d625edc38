"""What `fwenv session` prints: blocks and dot lines over a session (docs/dry-runs.md)."""

import re

from model.grammar import parse
from model.script import run
from model.shells import STRICT
from model.words import Fault

NAMED = re.compile(rb"\.(mark|undo)[ \t]+([^ \t]{1,32})")
LONGEST = 2**24


def items_of(text, is_whole):
    """The blocks and dot lines of an input, in order. If the input doesn't reach its end, the bytes after the
    last whole dot line don't count."""
    items, block = [], []
    for line in re.findall(rb"[^\n]*\n|[^\n]+", text):
        if line[:1] != b".":
            block.append(line)
        elif is_whole or line[-1:] == b"\n":
            if block:
                items.append(b"".join(block))
            items.append(line)
            block = []
    if block and is_whole:
        items.append(b"".join(block))
    return items


class DryRun:
    """A dry run over a session by a shell; `names` are those of its marks."""

    def __init__(self, session, stand_ins, limits, leavings=None, shell=STRICT, board=()):
        self.leavings = leavings
        self.shell = shell
        self.board = board
        self.session = session
        self.stand_ins = stand_ins
        self.limits = limits
        self.names = []

    def answer(self, text, is_whole=True):
        """What is printed for an input; the session is then as the input leaves it."""
        is_whole = is_whole and len(text) <= LONGEST
        return b"".join(map(self.answer_item, items_of(text[:LONGEST], is_whole)))

    def answer_item(self, item):
        if item[:1] == b".":
            return self.obey(item.removesuffix(b"\n").rstrip(b" \t\r"))
        try:
            tree = parse(item, self.shell)
        except Fault:
            return b"[Syntax]\n"
        outcome = run(self.session, tree, self.stand_ins, self.limits, self.leavings, self.shell, self.board)
        return outcome.text + b"[%s %d %d]\n" % (outcome.ending.encode(), outcome.status, outcome.steps)

    def obey(self, line):
        if line == b".print":
            return self.session.environment.lines()
        if line == b".save":
            self.session.save()
            return b"Saved copy %d\n" % (self.session.current + 1)
        if line == b".undo":
            return self.undo_to(0)
        named = NAMED.fullmatch(line)
        if not named:
            return b"[Unknown]\n"
        return self.mark(named[2]) if named[1] == b"mark" else self.undo(named[2])

    def mark(self, name):
        if not self.session.mark():
            return b"[Full]\n"
        self.names.append(name)
        return b"[Marked]\n"

    def undo(self, name):
        """To the last mark of this name."""
        if name not in self.names:
            return b"[Gone]\n"
        return self.undo_to(len(self.names) - self.names[::-1].index(name))

    def undo_to(self, number):
        self.session.undo_to(number)
        del self.names[number:]
        return b"[Undone]\n"
