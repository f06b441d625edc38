"""Boot scripts of boards (scripts/runs/boards) and of the examples through `fwenv check`: what is found in them as they are, and in
each script that is followed once a mistake is planted in it, at its place. Over each the variable `script` has what is started."""

import re

from differential.harness.boards import STRICT, text_of

from differential.harness.check_lines import (
    lacked_test, lines, mixes, no_script, not_assigned, not_assigned_then, not_called, not_defined, not_run, on_board, place, returned, row, with_stand_ins,
)  # fmt: skip
from differential.harness.rows import TOP, examples
from differential.harness.rows import boards as rows_of_boards
from differential.harness.running import Case
from model.texts import stand_ins

# What is found in boards as they are: a run of the first ends with this; those of swupdate try it at their end; two words
# of a kernel's arguments, and the address that two boards of RAUC load to, are given by nothing; three choose by a chain that a board
# takes otherwise
FOUND = {
    "a-rescue": [mixes("1:42")],
    **{name: [mixes("1:89")] for name in ("switch-of-two-slots", "switch-without-a-count")},
    "no-way-back": [not_run("1:38", "altbootcmd")],
    **{f"swupdate-{name}": [not_assigned("1:239", "ustate")] for name in ("failed", "installed", "tried-in-vain")},
    "swupdate-without-a-state": [not_assigned_then("1:239", "ustate")],
    "kernel-arguments": [not_defined("1:70", "optargs"), not_defined("1:81", "more")],
    **{f"rauc-with-{name}-spent": [not_defined("31:18", "loadaddr"), not_defined("31:48", "loadaddr")] for name in ("one-slot", "both-slots")},
}
# Some end by `exit`, or empty a name that nothing has assigned, which is no fault of theirs
NO_FAULTS = [b"--ignore", b"exit", b"--ignore=empty-assignment"]
# What is before the name of a command, and the last word that closes a form
BEFORE = re.compile(rb"(?:\A|; |&& |\|\| |if |then |else |do |\n *)\Z")
# A word, the name that an assignment begins with, a substitution, and what is before an argument of `test`, which may be absent
WORD = re.compile(rb"(?:'[^']*'|\"[^\"]*\"|[^'\" ;&|\n])+")
ASSIGNED = re.compile(rb"[A-Za-z_]\w*=")
SUBSTITUTION = re.compile(rb"\$\w+|\$\{\w+(?=\})")
TESTED = re.compile(rb"\btest [^;&|\n]*\Z")
CLOSING = re.compile(rb"(?<=[;\n] )(?:done|fi)(?=[;\n]|\Z)|^(?:done|fi)$", re.M)


def boards():
    """The name of each board, its variables with the script that is started, and its stand-ins."""
    for row in rows_of_boards():
        yield row.name, row.setup.defaults | row.setup.variables | {b"script": row.setup.script}, row.setup.stand_ins
    for name, variables, stubs, given in examples():
        started = [line for line in given.split(b"\n") if line[:1] != b"."]
        yield name, variables | {b"script": b"\n".join(started)}, stubs


def scripts_of(variables):
    """The variables whose scripts are followed, as their text shows them."""
    found = [b"script"]
    for each in found:
        text = variables[each]
        found += [other for other in sorted(variables) if other not in found and re.search(rb"\brun( [^;\n]*)* %s\b" % re.escape(other), text)]
    return found


# Mistakes in a script: the text with each, and what is found then


def misspelt_names(text, variables, _stubs):
    for name in sorted(variables):
        for match in re.finditer(rb"(?<=run )%s(?=[; ]|\Z)" % re.escape(name), text):
            other = name[:-1] + b"_"
            yield text[: match.start()] + other + text[match.end() :], not_run(place(text, match.start()), other.decode())


def misspelt_commands(text, _variables, stubs):
    for name in sorted(stand_ins(stubs)):
        for match in re.finditer(rb"%s(?=[ ;\n]|\Z)" % re.escape(name), text):
            if BEFORE.search(text[: match.start()]):
                other = name[:-2] + name[:-3:-1]
                yield text[: match.start()] + other + text[match.end() :], not_called(place(text, match.start()), other.decode())


def misspelt_substitutions(text, _variables, _stubs):
    for word in WORD.finditer(text):
        start, before = word.start(), text[: word.start()]
        if BEFORE.search(before):
            start += len((ASSIGNED.match(word[0]) or [b""])[0])
        for match in SUBSTITUTION.finditer(text, start, word.end()):
            if not TESTED.search(before):
                name = match[0].lstrip(b"${").decode() + "_"
                yield text[: match.end()] + b"_" + text[match.end() :], not_defined(place(text, start), name)


def brackets(text, _variables, _stubs):
    for match in re.finditer(rb"\btest(?= )", text):
        if BEFORE.search(text[: match.start()]):
            yield text[: match.start()] + b"[" + text[match.end() :], lacked_test(place(text, match.start()), "[")


def lost_quotes(text, _variables, _stubs):
    if text.count(b'"') and b"'" not in text:
        last = text.rfind(b'"')
        yield text[:last] + text[last + 1 :], no_script(place(text, text.rfind(b'"', 0, last)), "Quote")


def lost_endings(text, _variables, _stubs):
    *_, last = [None, *CLOSING.finditer(text)]
    if last:
        other = text[: last.start()] + text[last.end() :]
        yield other, f"{place(other, len(other))}: error: no `{last.group().decode()}` for the `"


def carriage_returns(text, _variables, _stubs):
    at = text.find(b"\n") if b"\n" in text else len(text)
    yield text[:at] + b"\r" + text[at:], returned(place(text, at))


SLIPS = (misspelt_names, misspelt_commands, misspelt_substitutions, brackets, lost_quotes, lost_endings, carriage_returns)


def slipped(name, variables, stubs, script, slip):
    """A board with a mistake in this script: its line, which begins like this, is among what the model finds, and that is all."""
    text, found = slip
    files = {b"env": text_of(variables | {script: text}), b"stand-ins": stubs}
    case = Case(f"{name}: a slip in {script.decode()}", [b"check", b"--env", b"env", *with_stand_ins([b"script"])], files)
    wanted = b"%s:%s" % (script, found.encode())
    case.accepts = lambda seen: seen.is_as(case.answer()) and wanted in seen.output and seen.status == int(b": error: " in seen.output)
    return case


def as_they_are():
    for name, variables, stubs in boards():
        files = {b"env": text_of(variables), b"stand-ins": stubs}
        words, found = [b"--env", b"env", *with_stand_ins([b"script"]), *NO_FAULTS], FOUND.get(name, [])
        yield row(name, words, files, lines(on_board(found), "script"))
        yield row(name, [*STRICT, *words], files, lines(found, "script"))
    broken = TOP / "examples/booting/broken.txt"
    files = {b"env": broken.read_bytes(), b"stand-ins": (broken.parent / "stand-ins.txt").read_bytes()}
    yield row("a broken environment", [b"--env", b"env", *with_stand_ins()], files, lines([not_called("1:14", "laod")], "mmcboot"))


def with_slips():
    for name, variables, stubs in boards():
        for script in scripts_of(variables):
            for kind in SLIPS:
                for slip in kind(variables[script], variables, stubs):
                    yield slipped(name, variables, stubs, script, slip)


def chunks():
    return [as_they_are, with_slips]
