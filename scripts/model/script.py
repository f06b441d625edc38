"""What a script does: a plain recursive evaluator over its tree (docs/runs.md)."""

import re
from dataclasses import dataclass

from model.board_file import Reply, first_rule, lacks, names_of
from model.calculations import setexpr
from model.grammar import parse
from model.shells import STRICT
from model.texts import BUILTINS, SUBCOMMANDS
from model.trace import ANSWER
from model.variables import NOT_DEFINED, REFUSALS
from model.words import Fault

SPLITS = b" \t\n"


class Stop(Exception):
    """The run ends here."""


class Question(Exception):
    """A call whose answer is open: the words of it."""


class PowerCut(Exception):
    """The power has failed at a save; what that was answered."""


class Leave(Exception):
    """The text ends here that `run` started."""


IS_VARIABLE = b'## Error: "%s" is an environment variable\n'
NO_SCRIPT = b'## Error: syntax error in "%s"\n'
WRONG_USE = b"## Error: wrong use of '%s'\n"
UNKNOWN = b"Unknown command '%s' - try 'help'\n"
NO_REPLY = object()  # of a command that nothing answers
BY_ZERO = b"## Error: division by zero\n"


@dataclass
class Outcome:
    """How a run ended, and what it printed."""

    ending: str
    status: int
    steps: int
    text: bytes
    place: bytes | None = None  # the variable in whose text that was
    departure: tuple | None = None  # how the board was left, and the words of that call


def is_substituted(parts):
    """Whether a word has a substitution."""
    return any(part[0] in ("name", "status") for part in parts)


def option_of(words, option):
    """Whether the words begin with an option, and those after it."""
    given = words[:1] == [option]
    return given, words[1:] if given else words


class Run:
    """A run of a script over a session, by one of the shells."""

    def __init__(self, session, stand_ins, limits, leavings=None, shell=STRICT, board=(), answers=None, trace=None, saves=0):
        self.shell = shell
        self.trace = trace  # of its commands, if they are wanted
        self.session = session
        self.environment = session.environment
        self.stand_ins = stand_ins
        self.leavings = leavings or {}  # how stand-ins leave the board
        self.departure = None
        self.board = board  # the rules of a board file
        self.answers = answers  # to calls whose answer is open
        self.saves = saves  # how many answers each save has; none if it is no question
        self.called_save = tuple  # what the question of a save is, by its words
        self.names = stand_ins.keys() | names_of(board)
        self.max_steps, self.max_depth, self.max_word, self.max_output = limits
        self.locals = {}
        self.status = 0
        self.steps = 0
        self.running = []  # the variables whose texts run, the innermost last
        self.nesting = 0  # how many compound commands of the innermost text are open
        self.text = b""

    def begin(self):
        """A step is due."""
        if self.steps == self.max_steps:
            raise Stop("Steps")

    def done(self, status, text=b""):
        """The step is done, if its text fits; it has changed nothing before."""
        if len(self.text) + len(text) > self.max_output:
            raise Stop("Output")
        self.text += text
        self.status = status
        self.steps += 1

    def note(self, place, *words):
        """A command of these words is run."""
        if self.trace:
            self.trace.note(place, words)

    # Expansion

    def value(self, name):
        values = self.environment.values
        return values[name] if name in values else self.locals.get(name, b"")

    def items(self, parts):
        """The items of a word: numbers are bytes, "split" and a byte is a splitting blank, None is a mark."""
        items = []
        for part in parts:
            if part[0] == "mark":
                items.append(None)
            elif part[0] in ("plain", "quoted"):
                items.append(part[1])
            else:
                text = self.value(part[1]) if part[0] == "name" else b"%d" % self.status
                is_quoted = part[-1]
                items += [byte if is_quoted or byte not in SPLITS else ("split", byte) for byte in text]
        if sum(item is not None for item in items) > self.max_word:
            raise Stop("Word")
        return items

    def expanded(self, words):
        fields = []
        for parts in words:
            piece = []
            for item in self.items(parts) + [("split", 0)]:
                if isinstance(item, tuple):
                    if piece:
                        fields.append(bytes(each for each in piece if each is not None))
                    piece = []
                else:
                    piece.append(item)
        return fields

    def expanded_value(self, parts):
        items = self.items(parts)
        return bytes(item[1] if isinstance(item, tuple) else item for item in items if item is not None)

    def listed(self, words):
        """What a `for` is bound to."""
        if not self.shell.cuts_lists:
            return self.expanded(words)
        return [piece for parts in words for piece in re.split(rb"[ \n]", self.expanded_value(parts)) if piece]

    def called(self, name, parts):
        """The name of the command that an assignment calls: its word up to the first splitting blank."""
        for item in self.items(parts):
            if isinstance(item, tuple):
                break
            if item is not None:
                name += bytes([item])
        return name

    # The tree

    def chains(self, chains):
        for chain in chains:
            for operator, command in chain:
                if operator is None or (operator == "and") == (self.status == 0):
                    self.command(command)
                elif self.shell.leaves_chain:
                    break

    def command(self, command):
        is_compound = command[0] not in ("simple", "assign")
        self.nesting += is_compound
        getattr(self, "command_" + command[0])(*command[1:])
        self.nesting -= is_compound

    def command_if(self, branches, otherwise):
        for condition, body in branches:
            self.chains(condition)
            if self.status == 0:
                self.chains(body)
                return
        if otherwise is not None:
            self.chains(otherwise)
        else:
            self.status = self.shell.kept(self.status)

    def command_while(self, condition, body, wanted=True):
        last = 0
        while True:
            self.chains(condition)
            if (self.status == 0) != wanted:
                break
            self.chains(body)
            last = self.status
        self.status = self.shell.of_loop(last, self.status)

    def command_until(self, condition, body):
        self.command_while(condition, body, False)

    def command_for(self, name, words, body, place):
        self.begin()
        fields = self.listed(words)
        self.done(self.status)
        if not fields:
            self.status = 0
        for each in fields:
            self.begin()
            self.note(place, name + b"=" + each)
            if self.is_refused(name):
                return
            if self.shell.calls(name):
                self.done(1, UNKNOWN % (name + b"=" + each))
            else:
                self.done(self.shell.of_binding(self.status))
                self.locals[name] = each
            self.chains(body)

    def is_refused(self, name):
        """Whether a name can't be assigned, which then is told."""
        if self.shell.hides or name not in self.environment.values:
            return False
        self.done(1, IS_VARIABLE % name)
        return True

    def command_assign(self, name, parts, place):
        self.begin()
        self.note(place, name + b"=" + self.expanded_value(parts))
        if self.shell.calls(name):
            self.done(1, UNKNOWN % self.called(name + b"=", parts))
            return
        value = self.expanded_value(parts)
        if not self.is_refused(name):
            self.done(0)
            self.locals[name] = value

    # Simple commands

    def command_simple(self, words):
        self.begin()
        fields = self.expanded(words)
        if words:
            self.note(words[0].place, *fields)
        if not fields:
            self.done(self.shell.kept(self.status))
            return
        self.is_substituted = any(map(is_substituted, words))
        self.fields = fields
        name, rest = fields[0], fields[1:]
        called = self.shell.called(name, self.names)
        if called == b"env" and not lacks(self.board, called):
            second = self.shell.subcommand(rest[0]) if rest else None
            if second in SUBCOMMANDS:
                getattr(self, SUBCOMMANDS[second])(called, rest[1:])
            else:
                self.asked(called)
        elif called in BUILTINS and not lacks(self.board, called):
            getattr(self, called.partition(b".")[0].decode())(called, rest)
        else:
            self.other(called, fields)

    def reply(self, called, words):
        """What a call is answered with; or that nothing answers it."""
        rule = first_rule(self.board, [called, *words])
        if rule and rule.answer is Reply.ASKS:
            return self.answered((called, *words))
        if rule:
            return NO_REPLY if rule.answer is Reply.LACKS else rule.answer
        status = self.stand_ins.get(called, NO_REPLY)
        return self.leavings[called] if status == 0 and called in self.leavings else status

    def answered(self, call):
        """The status that an open call has in this power-on."""
        if call not in self.answers:
            raise Question(call)
        return self.answers[call]

    def other(self, called, fields):
        """A command of hardware."""
        line = b"+" + b"".join(b" " + each for each in fields) + b"\n"
        try:
            reply = self.reply(called, fields[1:])
        except Question:
            self.done(0, line)
            raise
        if reply is NO_REPLY:
            self.done(1, UNKNOWN % fields[0])
        elif isinstance(reply, bytes):
            self.done(self.status, line)
            self.start_answer(reply, fields)
        elif isinstance(reply, Reply):
            self.done(0, line)
            self.departure = reply, [called, *fields[1:]]
            raise Stop("Exited")
        else:
            self.done(reply, line)

    def asked(self, called):
        """A form of a builtin that has no meaning here."""
        if first_rule(self.board, [called, *self.fields[1:]]):
            self.other(called, self.fields)
        else:
            self.wrong_use(called)

    def wrong_use(self, name):
        self.done(1, WRONG_USE % name)

    def true(self, _name, _words):
        self.done(0)

    def false(self, _name, _words):
        self.done(1)

    def echo(self, _name, words):
        if words[:1] == [b"-n"]:
            self.done(0, b" ".join(words[1:]))
        else:
            self.done(0, b" ".join(words) + b"\n")

    def test(self, _name, words):
        if self.shell is not STRICT:
            self.ask(words)
        self.done(0 if self.shell.test(words, self.is_there) else 1)

    def ask(self, words):
        """Each file behind a `-e` is asked for, also where the other words decide."""
        for at, word in enumerate(words):
            if word == b"-e" and len(words) > at + 3:
                self.is_there(words[at + 1 : at + 4])

    def is_there(self, words):
        """Whether the call `test -e` of these words is answered with status 0."""
        return self.reply(b"test", [b"-e", *words]) == 0

    def exit(self, name, words):
        status = self.shell.of_exit(words[0]) if words else self.shell.of_bare_exit(self.status)
        if len(words) > 1 or status is None:
            self.wrong_use(name)
        elif not self.shell.leaves_text:
            self.done(status)
            raise Stop("Exited")
        elif self.is_substituted:
            self.done(status)
        else:
            self.done(0 if self.nesting else status)
            raise Leave

    def written(self, name, value, force):
        """A write as a step: its refusal's message, or the write."""
        refusal = self.environment.refusal(name, value, force)
        if refusal:
            self.done(1, REFUSALS[refusal] % name)
        else:
            self.done(0)
            self.environment.write(name, value, force)

    def setenv(self, name, words):
        force, words = option_of(words, b"-f")
        if not words:
            self.wrong_use(name)
        else:
            self.written(words[0], b" ".join(words[1:]), force)

    def setexpr(self, name, words):
        answer = setexpr(words)
        if answer == "use":
            self.asked(name)
        elif answer == "zero":
            self.done(1, BY_ZERO)
        else:
            self.written(*answer, False)

    def printenv(self, _name, words):
        variables = self.environment.values
        everything, words = option_of(words, b"-a")
        status, text = 0, b""
        for each in words or sorted(name for name in variables if everything or name[:1] != b"."):
            if each in variables:
                text += each + b"=" + variables[each] + b"\n"
            else:
                status = 1
                text += NOT_DEFINED % each
        self.done(status, text)

    def saveenv(self, name, words):
        if words:
            self.wrong_use(name)
        else:
            self.ask_for_save()
            self.done(0, b"Saved copy %d\n" % (self.session.next_copy() + 1))
            self.session.save()

    def ask_for_save(self):
        """Whether the power fails at this save."""
        if not self.saves:
            return
        call = self.called_save([*self.fields, b"at step %d" % (self.steps + 1)])
        if call not in self.answers:
            raise Question(call, self.saves)
        if self.answers[call]:
            raise PowerCut(self.answers[call])

    def exists(self, name, words):
        if len(words) != 1:
            self.wrong_use(name)
        else:
            self.done(0 if words[0] in self.environment.values else 1)

    def delete(self, name, words):
        force, words = option_of(words, b"-f")
        if not words:
            self.wrong_use(name)
            return
        self.done(self.status)
        failed = False
        for each in words:
            self.begin()
            if each not in self.environment.values:
                failed = True
                self.done(1, NOT_DEFINED % each)
                continue
            refusal = self.environment.refusal(each, b"", force)
            if refusal:
                failed = True
                self.done(1, REFUSALS[refusal] % each)
            else:
                self.done(int(failed))
                self.environment.write(each, b"", force)

    def run(self, name, words):
        if not words:
            self.wrong_use(name)
            return
        self.done(self.status)
        for each in words:
            self.start(each)
            if self.status != 0:
                return

    def start(self, name):
        self.begin()
        if name not in self.environment.values:
            self.done(1, NOT_DEFINED % name)
            return
        if len(self.running) == self.max_depth:
            raise Stop("Depth")
        try:
            tree = parse(self.environment.values[name], self.shell)
        except Fault:
            self.done(1, NO_SCRIPT % name)
            return
        self.done(self.shell.of_start(self.status, bool(tree)))
        self.running.append(name)
        self.text_of(tree, self.shell.of_text, name, self.environment.values.get(name))
        self.running.pop()

    def start_answer(self, text, words):
        """A script that answers a call of these words; an end inside is placed where the call is."""
        self.begin()
        if len(self.running) == self.max_depth:
            raise Stop("Depth")
        try:
            tree = parse(text, self.shell)
        except Fault:
            self.done(1, NO_SCRIPT % words[0])
            return
        self.done(self.shell.of_start(self.status, bool(tree)))
        self.locals = {name: value for name, value in self.locals.items() if not name.isdigit()}
        self.locals.update((b"%d" % at, word) for at, word in enumerate(words))
        self.running.append(self.running[-1] if self.running else None)
        self.text_of(tree, lambda status: status, ANSWER, text)
        self.running.pop()

    def text_of(self, tree, of_text, name, text):
        """Runs a text that was started, of whose status something is made; an `exit` may leave it."""
        nesting, self.nesting = self.nesting, 0
        if self.trace:
            self.trace.running.append((name, text))
        try:
            self.chains(tree)
            self.status = of_text(self.status)
        except Leave:
            pass
        self.nesting = nesting
        if self.trace:
            self.trace.running.pop()


def run(session, tree, stand_ins, limits, leavings=None, shell=STRICT, board=(), trace=None):
    """Runs a tree, and answers its outcome. A stand-in of `leavings` ends the run if its status is 0."""
    made = Run(session, stand_ins, limits, leavings, shell, board, trace=trace)
    ending = "Finished"
    try:
        made.chains(tree)
    except Stop as stop:
        ending = stop.args[0]
    except Leave:
        ending = "Exited"
    return Outcome(ending, made.status, made.steps, made.text, made.running[-1] if made.running else None, made.departure)
