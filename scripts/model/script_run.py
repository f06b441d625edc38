"""What `fwenv run` reports of a script: how its run ended, and where a text isn't a script (docs/dry-runs.md)."""

from model.board_file import Reply

SENTENCES = {
    "Quote": b"a quote is not closed",
    "Backslash": b"the text ends with a backslash",
    "Substitution": b"not a substitution of this shell: ${NAME}, $NAME or $?",
    "Operator": b"a single & or |, which this shell does not have",
    "Unexpected": b"not expected here",
    "Missing": b"the text ends where more has to follow",
    "Nest": b"more than 64 commands inside one another",
    "Assignment": b"a word after an assignment",
    "Nul": b"a byte 0",
}
BY_ITSELF = ("Finished", "Exited")


def starts(names):
    """The script that starts variables of these names one after the other: each is in quotes."""
    return b"run" + b"".join(b" '" + name.replace(b"'", b"'\\''") + b"'" for name in names)


def line_and_column(text, place):
    """A place of a text, both from 1; columns are bytes."""
    before = text[:place].split(b"\n")
    return len(before), len(before[-1]) + 1


def fault_line(name, text, fault):
    """Where and why the text of this name isn't a script."""
    kind, place = fault.args
    return b"fwenv: %s:%d:%d: %s: %s\n" % (name, *line_and_column(text, place), kind.encode(), SENTENCES[kind])


def is_well(outcome):
    return outcome.ending in BY_ITSELF and outcome.status == 0


def has_booted(outcome):
    return outcome.departure is not None and outcome.departure[0] is Reply.BOOTS


def no_boot(outcome):
    """What is reported of a run that ended well and had to boot."""
    if outcome.departure is None:
        return ended(outcome).replace(b"fwenv: ", b"fwenv: no boot: ", 1)
    place = b"" if outcome.place is None else b' in "%s"' % outcome.place
    return b'fwenv: no boot: reset by "%s"%s after %d steps\n' % (outcome.departure[1][0], place, outcome.steps)


def ended(outcome):
    """What is reported of a run that didn't end well: its status, or the variable if a limit stopped it."""
    if outcome.ending in BY_ITSELF:
        more = b" with status %d" % outcome.status
    else:
        more = b"" if outcome.place is None else b' in "%s"' % outcome.place
    return b"fwenv: run ended as %s%s after %d steps\n" % (outcome.ending.encode(), more, outcome.steps)
