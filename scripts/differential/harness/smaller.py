"""What fails at random, cut to a small case that fails too, and as a command to type."""

import base64
import gzip
import re
import shlex
import time
from dataclasses import replace

# How long a case is cut, and the longest text that is shown as it is
SECONDS, LONGEST = 10, 400


def can_be_cut(case):
    """Whether the model answers any case like it."""
    return case.is_modelled and not any((case.wanted, case.accepts, case.check, case.around, case.prefix, case.cut, case.variables))


def shorter(text):
    """A text without each of its halves, then quarters, down to one byte."""
    size = (len(text) + 1) // 2
    while size:
        yield from (text[:at] + text[at + size :] for at in range(0, len(text), size))
        size //= 2


def smaller(case):
    """The case with a part of its input, a script or a text left out. Copies and other arguments stay: without them another fault is met."""
    yield from (replace(case, given=text) for text in shorter(case.given))
    for at, word in enumerate(case.arguments):
        if re.search(rb"[ \n]", word):
            yield from (replace(case, arguments=[*case.arguments[:at], text, *case.arguments[at + 1 :]]) for text in shorter(word))
    for name, content in case.files.items():
        if b"\0" not in content:
            yield from (replace(case, files={**case.files, name: text}) for text in shorter(content))


def cut_down(runner, case):
    """The smallest case that was found, and what is wrong with it."""
    until, found = time.monotonic() + SECONDS, runner.failure(case, case.answer())
    while found and (each := next(filter(None, (failing(runner, each) for each in smaller(case) if time.monotonic() < until)), None)):
        case, found = each
    return case, found


def failing(runner, case):
    """The case and what is wrong with it, if anything is; a case that has no answer isn't wrong."""
    try:
        wanted = case.answer()
    except Exception:  # noqa: BLE001 (the model takes only what a part makes)
        return None
    found = runner.failure(case, wanted)
    return (case, found) if found else None


def printed(text):
    """A command of bash that prints these bytes."""
    format_of = re.sub(rb"[^\n -~]|['\\%]", lambda found: b"%%" if found[0] == b"%" else b"\\%03o" % found[0][0], text).decode()
    if len(format_of) <= LONGEST:
        return f"printf -- '{format_of}'"
    return f"echo {base64.b64encode(gzip.compress(text, mtime=0)).decode()} | base64 -d | gunzip"


def as_command(case):
    """The case as a command, in a folder of its own."""
    files = [f"{printed(content)} > {shlex.quote(name.decode())}" for name, content in sorted(case.files.items())]
    words = " ".join(f'"$({printed(word)})"' if re.search(rb"[^ -~]", word) else shlex.quote(word.decode()) for word in case.arguments)
    return "; ".join(("cd $(mktemp -d)", *files, f"{printed(case.given)} | fwenv {words}"))
