"""The program over files: what a call prints, with which status it ends, and what it leaves in each file
(docs/tools.md)."""

from dataclasses import dataclass

from model import board_file, boots, check, dump, report, script_run, texts
from model.arguments import LEAVINGS, NOT_UTF8, VERSION, Wrong, read_arguments
from model.dry_run import LONGEST, DryRun
from model.grammar import parse
from model.image import ERASED, LARGEST, Geometry, entries
from model.script import run
from model.session import Session, erased
from model.texts import TextFault
from model.trace import Trace
from model.variables import NOT_DEFINED, REFUSALS, Environment
from model.words import Fault

CONFIG = b"/etc/fw_env.config"
WARNING = b"Warning: Bad CRC, using default environment\n"
CANNOT_READ_INPUT = b"fwenv: cannot read standard input\n"
CANNOT_READ = b"fwenv: cannot read %s\n"
CANNOT_WRITE_OUTPUT = b"fwenv: cannot write standard output\n"
CANNOT_WRITE = b"fwenv: cannot write %s\n"
# What follows if the line has the reason
NO_SUCH_FILE, LONGER = b"no such file", b"it is longer than %d bytes" % LONGEST
DIRECTORY, DENIED, NO_SPACE = b"it is a directory", b"permission denied", b"no space is left"
CHANGED = b"another program changed it"
# The subcommands that report it
EXPLAINING = {"status", "run", "boot", "check", "restore", "image", "find"}
TOO_SHORT = b"fwenv: %s is too short\n"
IS_YAML = b"fwenv: %s is YAML: fwenv reads lines of DEVICE OFFSET SIZE\n"
IS_UBI_VOLUME = b"fwenv: %s is a UBI volume by its name: fwenv reads files and block devices\n"
NOT_A_STAND_IN = b"""error: invalid value '%s' for '%s <NAME>': no stand-in has this name

For more information, try '--help'.
"""
OVERLAP = b"fwenv: copies overlap\n"
NO_GOOD_COPY = b"fwenv: no good copy: "
NOT_GOOD = b"fwenv: the %s copy isn't good: %s\n"
NO_SECOND = b"fwenv: there is no second copy\n"
LOOK_AT = b"; look at the size and the number of lines in the configuration, and at the byte order (--big-endian)\n"
NO_EQUALS = b"fwenv: %s:%d: no = in this line; for a source in U-Boot's own form use --env-source\n"
REFUSED_TEXT = b"fwenv: %s: %s\n"
TOO_LONG = b"fwenv: input too long\n"
BAD_IMAGE = b"## Error: bad image: %s\n"
ONE_NAME = b"## Error: -n takes exactly one name\n"
REFUSED_LINE = b"%s in line %d\n"
REFUSED_ENTRIES = b"## Error: %d entries refused\n"
NO_ENTRY = b"## Error: the text has no entry, and nothing is restored\n"
OTHER_DATA = b"Warning: the %s copy is written over data that is no environment\n"
NO_EXPORT = b'## Error: can\'t export "%s"\n'


def waiting_for(path):
    """The line about a lock that is waited for."""
    return b"fwenv: waiting for %s, which another program has locked\n" % path


def explained(line, reason):
    """The line with the reason at its end, if there is one."""
    return line.removesuffix(b"\n") + b": " + reason + b"\n" if reason else line


def refused_line(refusal, name, line):
    """The text of a refusal with the line of its entry."""
    return REFUSED_LINE % ((REFUSALS[refusal] % name).removesuffix(b"\n"), line)


@dataclass
class Answer:
    """What a call leaves; `errors` is None for some text that begins with `error: `."""

    status: int
    output: bytes
    errors: bytes
    files: dict


def stopped_status(arguments):
    """The status if a call can't be done, or what it prints can't be written: a check has one of its own. Its arguments begin with
    `check`, but for those that begin with `-`."""
    asked = next((word for word in arguments if not word.startswith(b"-")), b"")
    return 2 if asked == b"check" else 1


class Ended(Exception):
    """A fault that ends the program: its text on standard error."""


class Program:
    """A call over files: a path that isn't there, or isn't a file's, has no bytes. `fails`: standard
    input fails after its bytes."""

    def __init__(self, files, given=b"", fails=False):
        self.files = dict(files)
        self.given = given
        self.fails = fails
        self.output = b""
        self.errors = b""

    def answer(self, arguments):
        try:
            call = read_arguments(arguments)
            self.explains = call.tool in EXPLAINING
            status = getattr(self, "call_" + call.tool)(call)
        except Wrong as wrong:
            status = 1 if wrong.text == NOT_UTF8 else stopped_status(arguments)
            return Answer(status, b"", wrong.text, self.files)
        except Ended as ended:
            self.errors += ended.args[0]
            status = stopped_status(arguments)
        return Answer(status, self.output, self.errors, self.files)

    def say(self, text):
        """A message, with which the status is 1."""
        self.errors += text
        return 1

    # Without a subcommand

    def call_version(self, _call):
        self.output = VERSION
        return 0

    def call_show(self, call):
        if self.fails:
            raise Ended(CANNOT_READ_INPUT)
        if not 8 <= len(self.given) <= LARGEST:
            return self.say(BAD_IMAGE % b"BadLength")
        state, variables = Geometry(1, len(self.given), call.order()).read(self.given)
        if variables is None:
            return self.say(BAD_IMAGE % state.encode())
        self.output = Environment(0, variables).lines()
        return 0

    # Files

    def unreadable(self, path, reason):
        line = CANNOT_READ % path
        return Ended(explained(line, reason) if self.explains else line)

    def unwritable(self, path, reason):
        return Ended(explained(CANNOT_WRITE % path, reason))

    def text(self, path):
        found = self.given if path == b"-" else self.files.get(path)
        if found is None:
            raise self.unreadable(path, NO_SUCH_FILE)
        if len(found) > LONGEST:
            raise self.unreadable(path, LONGER)
        return found

    def own_text(self, path):
        """A text of variables or a script, which is nothing else."""
        text = self.text(path)
        what = texts.foreign(text)
        if what:
            raise Ended(REFUSED_TEXT % (path, what))
        return text

    def parsed(self, path, parse):
        text = self.own_text(path) if parse in (texts.import_entries, texts.initial_entries) else self.text(path)
        try:
            return parse(text)
        except TextFault as fault:
            if fault.text == b"NoCopy" and texts.is_yaml(text):
                raise Ended(IS_YAML % path)
            raise Ended(REFUSED_TEXT % (path, fault.text))

    def source(self, path):
        """The entries of a source of U-Boot."""
        try:
            return texts.source_entries(self.own_text(path))
        except texts.SourceFault as fault:
            raise Ended(b"fwenv: %s:%d: %s\n" % (path, fault.line, fault.text))

    def device(self, place, size):
        """Where a copy begins, and the bytes of its device from there on."""
        device = self.files.get(place.device)
        if device is None and place.device.startswith(b"/dev/ubi") and b":" in place.device:
            raise Ended(IS_UBI_VOLUME % place.device)
        if device is None:
            raise self.unreadable(place.device, NO_SUCH_FILE)
        start = place.start(size, len(device))
        if start is None:
            raise Ended(TOO_SHORT % place.device)
        return start, device[start:]

    def defaults(self, call, geometry):
        """The values of the default environment."""
        source = call.options.get("--env-source")
        initial = call.options.get("--env-plain")
        path = source or initial or call.options.get("--env", call.options.get("--default"))
        read = texts.initial_entries if initial else texts.import_entries
        environment = Environment(geometry.room)
        entries = [] if path is None else self.source(path) if source else self.parsed(path, read)
        for line, _, _ in entries:
            if not source and b"=" not in self.text(path).split(b"\n")[line - 1]:
                raise Ended(NO_EQUALS % (path, line))
        for line, name, value in entries:
            refusal = environment.write(name, value, True)
            if refusal:
                raise Ended(REFUSED_TEXT % (path, b"%s in line %d" % (refusal.encode(), line)))
        return environment.values

    def found(self, call):
        """The geometry of the copies that the configuration names, and what their devices hold from their places on."""
        configuration = self.parsed(call.options.get("-c", CONFIG), texts.configuration)
        self.places, size = configuration.places, configuration.size
        read = [self.device(place, size) for place in self.places]
        self.starts, self.read = [start for start, _ in read], [rest[:size] for _, rest in read]
        if len(read) == 2 and self.places[0].device == self.places[1].device and abs(self.starts[0] - self.starts[1]) < size:
            raise Ended(OVERLAP)
        return configuration.geometry(call.order()), read

    def opened(self, call):
        """A session over those copies, or over an image in memory that holds nothing yet."""
        size, wanted = call.size_in_memory(), call.wanted_copy()
        if size is not None:
            geometry = Geometry(1, size, call.order())
            return erased(geometry, self.defaults(call, geometry))
        geometry, read = self.found(call)
        copies = [rest[: geometry.size] for _, rest in read]
        if wanted is not None:
            # as if each were that copy
            copies = [self.good_copy(geometry, copies, wanted)] * len(copies)
        if geometry.choice(copies)[0] is not None:
            return Session(geometry, copies, self.defaults(call, geometry))
        try:
            defaults = self.defaults(call, geometry)
        except Ended as fault:
            raise Ended(WARNING + fault.args[0])
        line = report.misread(geometry, read) if call.writes() and "--overwrite" not in call.options else None
        if line:
            raise Ended(line)
        if "--need-copy" in call.options and "--default" not in call.options:
            raise Ended(NO_GOOD_COPY + report.faults(geometry, copies) + LOOK_AT)
        self.errors += WARNING
        return Session(geometry, copies, defaults)

    def good_copy(self, geometry, copies, at):
        """The copy that is asked for."""
        if at == len(copies):
            raise Ended(NO_SECOND)
        state, _ = geometry.read(copies[at])
        if state != "Good":
            raise Ended(NOT_GOOD % ((b"first", b"second")[at], report.FAULTS[state]))
        return copies[at]

    def write_back(self, session):
        """The copies go where they came from; what is around them stays. A warning comes before one that goes over other data."""
        for at, (place, start, copy) in enumerate(zip(self.places, self.starts, session.copies)):
            device = self.files[place.device]
            if copy != device[start : start + len(copy)] and report.is_misplaced(session.geometry, self.read, at):
                self.errors += OTHER_DATA % (b"first", b"second")[at]
            self.files[place.device] = device[:start] + copy + device[start + len(copy) :]

    # The subcommands

    def call_printenv(self, call):
        environment = self.opened(call).environment
        if "-n" in call.options and len(call.words) != 1:
            return self.say(ONE_NAME)
        if not call.words:
            self.output = environment.lines()
            return 0
        status = 0
        for name in call.words:
            value = environment.values.get(name)
            if value is None:
                status = self.say(NOT_DEFINED % name)
            else:
                self.output += value + b"\n" if "-n" in call.options else name + b"=" + value + b"\n"
        return status

    def call_export(self, call):
        status = 0
        for name, value in sorted(self.opened(call).environment.values.items()):
            text = texts.exported(name, value)
            if text is None:
                status = self.say(NO_EXPORT % name)
            else:
                self.output += text
        return status

    def call_setenv(self, call):
        session = self.opened(call)
        if "-s" in call.options:
            changes = self.parsed(call.options["-s"], texts.set_script_entries)
        else:
            changes = [(1, call.words[0], b" ".join(call.words[1:]))]
        for _, name, value in changes:
            refusal = session.environment.write(name, value, False)
            if refusal:
                return self.say(REFUSALS[refusal] % name)
        return self.saved(session)

    def call_import(self, call):
        session = self.opened(call)
        entries = self.parsed(call.words[0], texts.import_entries)
        refusals = [(session.environment.write(name, value, False), name, line) for line, name, value in entries]
        lines = [refused_line(*each) for each in refusals if each[0]]
        if lines:
            self.say(b"".join(lines) + REFUSED_ENTRIES % len(lines))
        self.saved(session)
        return int(bool(lines))

    def call_restore(self, call):
        session = self.opened(call)
        entries = self.parsed(call.words[0], texts.import_entries)
        if not entries:
            return self.say(NO_ENTRY)
        session.environment = Environment(session.geometry.room, (), session.environment.defaults)
        for line, name, value in sorted(entries, key=lambda entry: entry[1] == b".flags"):
            refusal = session.environment.write(name, value, True)
            if refusal:
                return self.say(refused_line(refusal, name, line))
        return self.saved(session)

    def call_status(self, call):
        if call.words:
            self.output, status = report.of_file(call.words[0], self.text(call.words[0]), call.order())
            return status
        path = call.options.get("-c", CONFIG)
        geometry, read = self.found(call)
        self.output, status = report.of_copies(path, self.text(path), geometry, self.places, read)
        return status

    def call_find(self, call):
        [path] = call.words
        self.output, status = dump.of_dump(path, self.text(path))
        return status

    def call_image(self, call):
        geometry = call.new_geometry()
        copy = geometry.image(1, entries(self.defaults(call, geometry)))
        if geometry.copies == 2:
            copy = (copy if "--both" in call.options else ERASED * geometry.size) + copy
        path = call.options.get("--output")
        if path is None:
            self.output = copy
        elif path == b"." or b"/" in path:
            # (the model has no folders)
            raise self.unwritable(path, DIRECTORY if path == b"." else NO_SUCH_FILE)
        else:
            self.files[path] = copy
        return 0

    def saved(self, session):
        session.save()
        self.write_back(session)
        return 0

    def stand_ins(self, call):
        path = call.options.get("--stubs")
        return {} if path is None else self.parsed(path, texts.stand_ins)

    def leaving_stand_ins(self, call):
        """The stand-ins, among them those that leave the board."""
        stand_ins = self.stand_ins(call)
        for option in LEAVINGS:
            for name in call.options.get(option, ()):
                if name not in stand_ins:
                    raise Ended(NOT_A_STAND_IN % (name, option.encode()))
        return stand_ins

    def board(self, call):
        """The rules of a board file."""
        path = call.options.get("--board")
        if path is None:
            return []
        try:
            return board_file.rules_of(self.text(path), call.tool in ("boot", "check"))
        except board_file.BoardFault as fault:
            line, kind = fault.args
            raise Ended(b"fwenv: %s:%d: %s\n" % (path, line, board_file.SENTENCES[kind]))

    def known_names(self, call):
        """The names that the board's own code sets."""
        path = call.options.get("--known")
        if path is None:
            return ()
        try:
            return texts.known_names(self.text(path))
        except texts.TextFault as fault:
            raise Ended(b"fwenv: %s:%d: not a name of a variable\n" % (path, fault.args[1]))

    def script(self, call):
        """The name by which a script is reported, and its text."""
        if "-e" in call.options:
            return b"-e", call.options["-e"]
        if "-f" not in call.options:
            return b"run", script_run.starts(call.words)
        return call.options["-f"], self.own_text(call.options["-f"])

    @staticmethod
    def tree(name, text, shell):
        """The tree of a script that is reported by this name."""
        try:
            return parse(text, shell)
        except Fault as fault:
            raise Ended(script_run.fault_line(name, text, fault))

    def call_run(self, call):
        call.size_in_memory()
        limits, shell = call.limits(), call.shell()
        call.refuse_scripts()
        session = self.opened(call)
        stand_ins = self.leaving_stand_ins(call)
        board = self.board(call)
        name, text = self.script(call)
        tree = self.tree(name, text, shell)
        trace = Trace(name, text, limits[-1]) if "--trace" in call.options else None
        outcome = run(session, tree, stand_ins, limits, call.leavings(), shell, board, trace)
        self.output = outcome.text
        if trace:
            self.say(trace.printed())
        if "--write" in call.options:
            self.write_back(session)
        if not script_run.is_well(outcome):
            return self.say(script_run.ended(outcome))
        if "--must-boot" in call.options and not script_run.has_booted(outcome):
            return self.say(script_run.no_boot(outcome))
        return 0

    def call_boot(self, call):
        call.size_in_memory(), call.wanted_copy()
        limits, shell, (stored, ways), paths = call.limits(), call.shell(), call.power_on_limits(), call.scripts_after()
        session = self.opened(call)
        stand_ins, rules = self.leaving_stand_ins(call), self.board(call)
        after = [self.tree(path, self.own_text(path), shell) for path in paths]
        board = boots.Board(session, stand_ins, limits, call.leavings(), shell, rules, "--bootcount" in call.options, after, "--cuts" in call.options)
        self.output, status = boots.report(board, stored, ways, "--dot" in call.options)
        return status

    def call_check(self, call):
        paths = call.options.get("-f", [])
        is_alone = paths and not call.names_environment()
        if is_alone:
            call.refuse_beside_file()
        call.size_in_memory()
        shell, asked = call.shell(), (call.ignored(check.KINDS), "--strict" in call.options, call.format())
        values = None if is_alone else self.opened(call).environment.values
        hardware = (self.stand_ins(call), self.board(call)) if call.options.keys() & {"--stubs", "--board"} else (None, None)
        known = [] if is_alone else self.known_names(call)
        scripts = [(path, self.own_text(path)) for path in paths]
        if is_alone:
            found = check.of_files(shell, scripts, *hardware, *asked)
        else:
            found = check.of_environment(shell, values, *hardware, known, call.words, scripts, "--all" in call.options, *asked, self.offsets(call))
        self.output = found.printed()
        self.say(found.last())
        return found.status()

    def offsets(self, call):
        """The text that is the whole environment, and where the bytes of its values begin, if it is one for import in a file."""
        initial, path = call.options.get("--env-plain"), call.options.get("--env-plain", call.options.get("--env"))
        if path in (None, b"-"):
            return None
        text = texts.closed_lines(self.text(path)) if initial else self.text(path)
        return path, text, texts.value_offsets(text)

    def call_session(self, call):
        call.size_in_memory()
        limits, shell = call.limits(), call.shell()
        session = self.opened(call)
        stand_ins = self.leaving_stand_ins(call)
        self.output = DryRun(session, stand_ins, limits, call.leavings(), shell, self.board(call)).answer(self.given, not self.fails)
        if len(self.given) > LONGEST:
            raise Ended(TOO_LONG)
        if self.fails:
            raise Ended(CANNOT_READ_INPUT)
        if "--write" in call.options:
            self.write_back(session)
        return 0
