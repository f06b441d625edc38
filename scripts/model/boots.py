"""What `fwenv boot` prints: every power-on of a board, from all that it can come to store (docs/boot.md)."""

import re

from model.board_file import Reply
from model.grammar import parse
from model.image import ERASED, entries
from model.script import Leave, PowerCut, Question, Run, Stop
from model.session import Session

# How a power-on ends, as it is told and counted
BOOTS, RESETS, GIVES_UP, UNKNOWN = b"boots", b"resets", b"gives up", b"unknown"
COUNTED = {BOOTS: b"boot", RESETS: b"reset", GIVES_UP: b"give up", UNKNOWN: b"unknown"}
LEFT = {Reply.BOOTS: BOOTS, Reply.RESETS: RESETS}
# What a board runs when it is switched on; it may count between the two
PREBOOT = b"if env exists preboot; then run preboot; else true; fi; "
POWER_ON = PREBOOT + (b'if test $? != 0 -a "${bootdelay}" -ne -1; then false || run bootcmd; elif test "${bootdelay}" -ne -1; then run bootcmd; fi')
# The question which script the system runs, which is no call
AFTER = b"after"
# The nodes of ends in a drawing, and how edges with such an end are drawn
END_NODES = {BOOTS: b"boots", GIVES_UP: b'"gives up"', UNKNOWN: b"unknown"}
END_STYLES = {BOOTS: b" color=darkgreen", RESETS: b"", GIVES_UP: b" color=red", UNKNOWN: b" color=orange"}
LIMIT_MET = b"a limit was met: there are more ways than these\n"


class Board:
    """A board over a session, which is opened anew for each power-on."""

    def __init__(self, session, stand_ins, limits, leavings, shell, rules, counts=False, after=(), cuts=False):
        self.geometry, self.defaults = session.geometry, session.environment.defaults
        self.counts, self.after = counts, after
        # a save is done, or the power fails before it, or in the middle of the only copy
        self.saves = {1: 3, 2: 2}[session.geometry.copies] if cuts else 0
        self.rules = stand_ins, limits, leavings, shell, rules
        self.first = frozenset(session.environment.values.items())

    def session(self, stored):
        """A session over the variables, which the first copy has."""
        others = [ERASED * self.geometry.size] * (self.geometry.copies - 1)
        return Session(self.geometry, [self.geometry.image(1, entries(dict(stored))), *others], self.defaults)

    def power_on(self, stored, answers):
        """How a power-on ends, by what, and what is stored then; it may raise a question."""
        made = Run(self.session(stored), *self.rules, answers, saves=self.saves)
        tree = parse(self.counted(stored, answers) if self.counts else POWER_ON, made.shell)
        end, by, left = self.run(made, tree)
        if end != BOOTS or not self.after:
            return end, by, left
        if AFTER not in answers:
            raise Question(AFTER, len(self.after) + 1)
        if not answers[AFTER]:
            return end, by, left
        system = Run(self.session(left), *self.rules, answers, saves=self.saves)
        system.called_save = joined  # other questions than those of the power-on
        system_end, limit, left = self.run(system, self.after[answers[AFTER] - 1])
        return (UNKNOWN, limit, left) if system_end == UNKNOWN else (BOOTS, by, left)

    def counted(self, stored, answers):
        """What a board that counts runs, by what `preboot` leaves."""
        made = Run(self.session(stored), *self.rules, answers)
        try:
            self.run(made, parse(PREBOOT.removesuffix(b"; "), made.shell))
        except Question:
            pass
        upgrade, count, limit = (number(made.environment.values.get(name, b"")) for name in (b"upgrade_available", b"bootcount", b"bootlimit"))
        is_new = upgrade % 2**32 > 0
        new = (count + 1) % 2**64 if is_new else 1
        if made.environment.refusal(b"bootcount", b"%d" % new, False) in (None, "Full"):
            count = new
        save = b"saveenv; " if is_new else b""
        start = b"run" if made.status == 0 else b"false || run"
        command = b"altbootcmd" if is_new and 0 < limit < count else b"bootcmd"
        return b'%ssetenv bootcount %d; %sif test "${bootdelay}" -ne -1; then %s %s; fi' % (PREBOOT, new, save, start, command)

    def run(self, made, tree):
        """How the run of a tree ends, by what, and what is stored then."""
        session, end, by = made.session, GIVES_UP, ()
        try:
            made.chains(tree)
        except Leave:
            pass
        except PowerCut as cut:
            end, by = RESETS, (b"power cut",)
            if cut.args[0] == 2:
                return end, by, frozenset(self.defaults.items())
        except Stop as stop:
            if made.departure:
                end, by = LEFT[made.departure[0]], made.departure[1]
            elif stop.args[0] != "Exited":
                end, by = UNKNOWN, [stop.args[0].encode()]
        return end, tuple(by), frozenset(session.geometry.choice(session.copies)[1].items())

    def ways(self, stored, most):
        """Each way in which a power-on ends, with its answers; None at the end if it took more power-ons than that to see them."""
        waiting = [{}]
        while waiting and most:
            most -= 1
            answers = waiting.pop()
            try:
                yield tuple(answers.items()), *self.power_on(stored, answers)
            except Question as question:
                call, *choices = question.args
                waiting += [answers | {call: choice} for choice in reversed(range(*(choices or [2])))]
        if waiting:
            yield None


def joined(words):
    """Words as one."""
    return (b" ".join(words),)


def number(text):
    """The number that a text begins with, in 64 bits, to which no more than 64 decimal digits add."""
    if found := re.match(rb"0[xX]([0-9a-fA-F]*)", text):
        return int(found[1] or b"0", 16) % 2**64
    return int(re.match(rb"[0-9]*", text)[0][-64:] or b"0") % 2**64


class Graph:
    """What a board can store, in the order in which it is found, and the ways between."""

    def __init__(self, board, most_stored, most_ways):
        self.stored, self.reached_by, self.ways, self.is_complete = [board.first], [None], [], True
        at = 0
        while at < min(len(self.stored), most_stored):
            for way in board.ways(self.stored[at], most_ways - len(self.ways)):
                if way is None:
                    self.is_complete = False
                else:
                    self.add(at, *way)
            at += 1
        self.is_complete &= at == len(self.stored)

    def add(self, at, answers, end, by, left):
        if left not in self.stored:
            self.stored.append(left)
            self.reached_by.append(len(self.ways))
        self.ways.append((at, answers, end, by, self.stored.index(left)))

    def never(self, *ends):
        """The stored environments from which no row of ways leads to such an end."""
        leads = {at for at, _, end, _, _ in self.ways if end in ends}
        while more := {at for at, *_, to in self.ways if to in leads} - leads:
            leads |= more
        return [at for at in range(len(self.stored)) if at not in leads]

    def path(self, at):
        """The ways to a stored environment by which it was found."""
        found = []
        while self.reached_by[at] is not None:
            found.insert(0, self.ways[self.reached_by[at]])
            at = found[0][0]
        return found


def changes(first, stored):
    """What distinguishes what is stored from what was at first."""
    first, stored = dict(first), dict(stored)
    for name, value in sorted(stored.items()):
        if first.get(name) != value:
            yield b"  %s=%s\n" % (name, value)
    for name in sorted(first.keys() - stored.keys()):
        yield b"  %s (gone)\n" % name


def answered(question, choice):
    return b"%s = %d" % (question if question is AFTER else b" ".join(question), choice)


def told(way):
    _, answers, end, by, to = way
    asked = b", ".join(answered(*answer) for answer in answers)
    return b"%s%s%s; stored %d\n" % (asked + b": " if asked else b"", end, b": " + b" ".join(by) if by else b"", to + 1)


def counted(number, word):
    return b"%d %s" % (number, word if number == 1 else word + b"s")


def summary(graph):
    ends = [way[2] for way in graph.ways]
    numbers = b", ".join(b"%d %s" % (ends.count(end), word) for end, word in COUNTED.items())
    return b"%s, %s: %s\n" % (counted(len(graph.stored), b"stored environment"), counted(len(ends), b"way"), numbers)


def dead_ends(graph):
    """What is said of stored environments that never boot again, or only perhaps."""
    never, perhaps = graph.never(BOOTS, UNKNOWN), graph.never(BOOTS)
    if never:
        if len(never) == 1:
            yield b"1 stored environment never boots again, after:\n"
        else:
            yield b"%d stored environments never boot again, the first of them after:\n" % len(never)
        for way in graph.path(never[0]):
            yield b"  stored %d: %s" % (way[0] + 1, told(way))
    elif perhaps:
        verb = b"boots" if len(perhaps) == 1 else b"boot"
        yield b"%s %s only if a limit of the run isn't met\n" % (counted(len(perhaps), b"stored environment"), verb)


def lines(graph):
    for at, stored in enumerate(graph.stored):
        yield b"stored %d\n" % (at + 1)
        yield from changes(graph.stored[0], stored)
        yield from (b"  " + told(way) for way in graph.ways if way[0] == at)
    yield summary(graph)
    if not graph.is_complete:
        yield LIMIT_MET
    else:
        yield from dead_ends(graph)


def quoted(text):
    """A text as Graphviz reads it in quotes: each line ends on the left."""
    special = {b"\n": b"\\l", b'"': b'\\"', b"\\": b"\\\\", b"&": b"&amp;"}
    found = b""
    for value in text:
        byte = bytes([value])
        found += special.get(byte) or (byte if 32 <= value < 127 else b"\\\\x%02x" % value)
    return b'"%s"' % found


def look(graph):
    """For each stored environment what is said of it, and how it is drawn."""
    never, perhaps = (graph.never(BOOTS, UNKNOWN), graph.never(BOOTS)) if graph.is_complete else ([], [])
    for at in range(len(graph.stored)):
        if at in never:
            yield b"never boots again\n", b" shape=box color=red penwidth=2"
        elif at in perhaps:
            yield b"boots only if a limit of the run isn't met\n", b" shape=box color=orange penwidth=2"
        else:
            yield b"", b" shape=box"


def edge(way):
    at, answers, end, by, to = way
    label = b"".join(answered(*answer) + b"\n" for answer in answers)
    label += end + (b": " + b" ".join(by) if by else b"") + b"\n"
    node = b"s%d" % (to + 1) if end == RESETS or to != at else END_NODES[end]
    return b"  s%d -> %s [label=%s%s];\n" % (at + 1, node, quoted(label), END_STYLES[end])


def drawing(graph):
    """The lines of the graph for Graphviz."""
    yield b"digraph boot {\n"
    yield b"  label=%s;\n" % quoted(summary(graph) + (b"" if graph.is_complete else LIMIT_MET))
    for at, (note, style) in enumerate(look(graph)):
        label = b"stored %d\n%s%s" % (at + 1, b"".join(changes(graph.stored[0], graph.stored[at])), note)
        yield b"  s%d [label=%s%s];\n" % (at + 1, quoted(label), style)
    yield from (edge(way) for way in graph.ways)
    yield b"}\n"


def report(board, most_stored, most_ways, is_drawn):
    """The text, and the status."""
    graph = Graph(board, most_stored, most_ways)
    text = b"".join(drawing(graph) if is_drawn else lines(graph))
    return text, int(not graph.is_complete or bool(graph.never(BOOTS)))
