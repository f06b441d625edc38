"""How rows of `fwenv check` are written: what is found, a line each, and calls over an environment and over one script."""

import re

from differential.harness.boards import text_of
from differential.harness.running import Case
from model.program import WARNING, Answer
from model.script_run import SENTENCES


def finding(said, code):
    """What makes a line of a place, and of a word that is named there."""
    return lambda place, word="": f"{place}: {said.format(word)} [{code}]"


not_run = finding("error: `run {}` names a variable that is not defined", "run-undefined")
any_target = finding("note: what this runs is not known, so it is not followed", "run-unknown")
not_called = finding("error: no builtin and no stand-in is called `{}`", "unknown-command")
no_operator = finding("error: `test` has no operator `{}` here, and is false", "test-operator")
no_operator_of_board = finding("error: `test` has no operator `{}` here", "test-operator")
lost_test = finding("error: a comparison needs `test` before it", "other-shell")
backquoted = finding("error: this shell runs nothing in backquotes", "other-shell")
braced = finding("error: these braces are a part of the word: write `${{NAME}}` for a value", "other-shell")
redirected = finding("error: this shell redirects nothing", "other-shell")
runs_nothing = finding("error: `run` needs the name of a variable", "wrong-use")
no_setting = finding("error: `setenv` is written `setenv NAME VALUE`", "wrong-use")
no_calculation = finding("error: `setexpr` is written `setexpr NAME VALUE` or `setexpr NAME VALUE OPERATOR VALUE`", "wrong-use")
no_number = finding("error: `test` compares a word as a number, which is 0", "wrong-use")
no_subcommand = finding("error: `env` needs the name of one of its commands", "wrong-use")
no_separator = finding("error: a `;` is missing before `run`", "wrong-use")
no_expression = finding("error: the words of `test` are no expression", "wrong-use")
not_assigned = finding("warning: `{}` is an environment variable, so it can not be assigned", "hidden-assignment")
hidden = finding("warning: `{}` is an environment variable, which hides what is assigned", "hidden-assignment")
not_assigned_then = finding("warning: a script sets `{}` in the environment, where it can not be assigned", "hidden-assignment")
hidden_then = finding("warning: a script sets `{}` in the environment, which hides what is assigned", "hidden-assignment")
not_typed = finding("error: the value does not have the type that .flags gives it", "value-type")
returned = finding("warning: a carriage return stands in the script", "carriage-return")
not_defined = finding("warning: `${{{}}}` names a variable that nothing defines", "undefined-name")
exits = finding("warning: U-Boot before 2025 ignores `exit` and goes on", "exit")
drops_at_load = finding("warning: a board drops this backslash when it loads the variable", "backslashes")
joins = finding("warning: a board takes this newline into a word, and does not join the lines", "joined-lines")
loose = finding("warning: a board runs the next line whatever the status here is", "loose-operators")
apostrophe = finding("warning: a board takes this `'` for the beginning or the end of a quote", "apostrophes")
drops = finding("warning: a board drops this backslash", "backslashes-in-quotes")
keeps = finding("warning: a board keeps this backslash", "backslashes-in-quotes")
in_braces = finding("warning: a board substitutes a name that begins with `_` in braces only", "underscored-names")
too_many = finding("warning: U-Boot before 2025 takes 16 words of a command at most", "many-words")
no_calculator = finding("error: `setexpr` has no operators but + - * / % & | ^", "wrong-use")
no_words = finding("error: `saveenv` takes no words", "wrong-use")
one_word = finding("error: `exit` takes one word at most", "wrong-use")
no_words_of_env = finding("error: these are not the words of this `env` command", "wrong-use")
empties = finding("warning: a board keeps the variable, with an empty value", "empty-value")
leaves = finding("note: U-Boot before 2025 leaves the old value, if there is one", "empty-assignment")
refuses = finding("warning: a board refuses a reserved word in the list of a `for`", "reserved-words-of-for")
rereads = finding("warning: a board reads quotes, backslashes, newlines and ` #` in the value of `{}` anew", "reread-value")
cuts = finding("warning: a board cuts this word of a `for` at its blanks, in quotes too", "quoted-for")
mixes = finding("warning: a board skips the rest of a chain once a command of it is skipped", "and-or")
of_if = finding("warning: shells differ in the status of an `if` without `else`", "if-status")
of_loop = finding("warning: shells differ in the status of a `while` or `until`", "loop-status")
stale = finding("warning: shells differ in the `$?` with which a text or a turn of `for` begins", "stale-status")
lacked = finding("error: this shell has no `{}`", "other-shell")
lacked_test = finding("error: this shell has no `{}`: write `test`", "other-shell")
no_functions = finding("error: this shell has no functions", "other-shell")
NOTHING = "check: error: there is no script to look at [no-script]"
no_variable = finding("error: no variable of this name is defined", "no-variable")


def lost(what, keyword, line=1):
    """What is missing of a form that begins in this line."""
    return f"no {what} for the `{keyword}` in line {line} of the script"


def no_script(place, kind, lacking=None):
    """`lacking`: what is missing there, if the kind is Unexpected or Missing."""
    return f"{place}: error: {lacking or SENTENCES[kind].decode()} ({kind}) [syntax]"


def several(finding, text):
    """Findings of one kind: places and words, one after the other."""
    words = text.split()
    return [finding(place, word) for place, word in zip(words[::2], words[1::2])]


def pointed(line, text, column=1):
    """A finding's line, with this text of the script below it and a `^` in this column."""
    return b"%s%s\n%s^\n" % (line, text, b" " * (column - 1))


def in_line(line, text, column):
    """The same in a line that may be cut: 30 bytes of it are shown before the place, and 40 from there on."""
    begin, end = max(column - 31, 0), column + 39
    before, behind = b"..." * (begin > 0), b"..." * (end < len(text))
    return pointed(line, before + text[begin:end] + behind, len(before) + column - begin)


def cut_off(found):
    """What is printed of these findings."""
    text = b""
    for line in found:
        if len(text) >= 65_536:
            return text + b"more is found, and not printed\n"
        text += line
    return text


def lines(found, name=None):
    """The lines for what is found, each in the script of this name if one is given."""
    before = "" if name is None else f"{name}:"
    return b"".join(f"{before}{each}\n".encode(errors="surrogateescape") for each in found)


def without(found, *said):
    """What is found, except for what has one of these texts."""
    return [each for each in found if not any(text in each for text in said)]


# Names that a board finds: what is before their first dot is one, or the beginning of only one
BY_BEGINNINGS = [f"called `{name}`" for name in ("setexpr.x", "setexpr.", "setenv.x", "printe", "ec", "tru.b", "mm", "us.b", "load.q", "lo", "env.x")]


def on_board(found):
    """What the board's shell finds where the strict one finds this, if `-e` is the only word of `test` among it."""
    left = without(found, "operator `-e`", *BY_BEGINNINGS)
    return [re.sub("(so|where) it can not be assigned", "which hides what is assigned", each) for each in left]


def place(text, at):
    """The line and the column of a byte."""
    before = text[:at].split(b"\n")
    return f"{len(before)}:{len(before[-1]) + 1}"


def counted(number, one):
    return f"{number} {one}{'s' * (number != 1)}"


def last(scripts, errors, warnings):
    """The last line of a check, on standard error."""
    return f"{counted(scripts, 'script')} looked at, {counted(errors, 'error')}, {counted(warnings, 'warning')}\n".encode()


def without_places(output):
    """What is printed, without the two lines below each finding that show its place."""
    return re.sub(rb"\n[^\n]*\n *\^(?=\n)", b"", output)


def row(name, words, files, output, errors=b"", given=b"", status=None, seconds=0.25, scripts=None, found=None):
    """A check; the status is 1 if an error is found, and 2 if a fault is reported. Unless one is, the last line has the numbers of errors and
    warnings that are `found`, those of the lines if they aren't given; how many scripts there are, if that isn't given, is the model's. So are
    the lines that show the places, if the output has none of them."""
    case = Case(name, [b"check", *words], files, given, seconds=seconds)
    if errors in (b"", WARNING):
        found = found or (output.count(b": error: "), output.count(b": warning: "))
        answer = case.answer()
        scripts = scripts or int(re.search(rb"(\d+) scripts? looked at", answer.errors)[1])
        output = answer.output if without_places(answer.output) == output else output
        errors, usual = errors + last(scripts, *found), int(found[0] > 0)
    else:
        usual = 2
    case.wanted = Answer(usual if status is None else status, output, errors, files)
    return case


# The kinds of quoting, which have rows of their own
QUOTING = [
    b"--ignore=" + code
    for code in (b"backslashes", b"joined-lines", b"loose-operators", b"apostrophes", b"backslashes-in-quotes", b"underscored-names")
]


def over(variables, words, output, files=(), **rest):
    """An environment, of which all but the kinds of quoting is told."""
    return row("a check of an environment", [b"--env", b"env", *QUOTING, *words], {b"env": text_of(variables)} | dict(files), output, **rest)


def of_file(script, words, output, files=(), **rest):
    """The same of the script of a file."""
    return row("a check of a script", [b"-f", b"a:1 b", *QUOTING, *words], {b"a:1 b": script} | dict(files), output, **rest)


def with_stand_ins(words=()):
    return [*words, b"--stubs", b"stand-ins"]
