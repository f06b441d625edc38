"""Scripts for a board and for a dry run, in files that a reader can follow.

A row is a few lines:

    $ SCRIPT       a script, as it is typed at U-Boot's prompt
    + SCRIPT       a further line of it
    = NAME=VALUE   before the script: a variable of the environment that the board boots with; a row without any begins with
                   U-Boot's default environment
    ! CLASS ..     the classes of docs/differences.md in which the two differ; then come their answers, in the same line or below:
    < LINE         of the board
    > LINE         of the dry run
    ! older CLASS ..   the same of a board with U-Boot before 2024 alone, or `newer` for one with a later release, or `narrow` for one
                   of 32 bits, on which only such rows are tried; the last that fits a board counts for it

An answer is the text that is printed and then a line `[STATUS]`; or it is `[refused]` if the text isn't a script, so that nothing
of it is run: how that is reported isn't compared. ` / ` is a newline, and `..` stands for any bytes. Without a `!` that fits both
answers are the same.

A row about a stored image has in a line `% BYTES` its entries, with escapes as Python has them, and perhaps in a line `~ BYTE` what
fills the rest; its answers are the variables. A row about a script of cases.py has that script's name in a line `@ NAME`.

A line that begins with `#` is a heading or a comment.
"""

import re
from dataclasses import dataclass, field


RELEASES = ("older", "newer", "narrow")


@dataclass
class Difference:
    """In which classes the two differ, on a board of a release or on each, and their answers."""

    release: str
    classes: list
    board: list
    dry_run: list


@dataclass
class Row:
    """One comparison of the two."""

    place: str
    case: str = ""
    script: list = field(default_factory=list)
    area: bytes = None
    fill: bytes = b""
    variables: dict = field(default_factory=dict)
    differences: list = field(default_factory=list)

    @property
    def name(self):
        what = self.case or b" / ".join(self.script).decode(errors="replace")
        return f"{self.place} `{what}`" if what else self.place

    @property
    def classes(self):
        return {name for each in self.differences for name in each.classes}

    def difference(self, release):
        """What is said of a board of a release; None if it doesn't differ."""
        return next((each for each in reversed(self.differences) if each.release in ("", release)), None)


def take_line(row, mark, rest):
    if mark in "$+":
        row.script.append(rest)
    elif mark == "@":
        row.case = rest.decode()
    elif mark == "%":
        row.area = rest
    elif mark == "~":
        row.fill = rest.decode("unicode_escape").encode("latin-1")
    elif mark == "=":
        name, _, value = rest.partition(b"=")
        row.variables[name] = value
    elif mark == "!":
        words, *both = re.fullmatch(rb"([a-z -]+?)(?: < (.*?)(?: > (.*))?)?", rest).groups()
        words = words.decode().split()
        release = words.pop(0) if words[0] in RELEASES else ""
        row.differences.append(Difference(release, words, *([answer] if answer is not None else [] for answer in both)))
    elif mark in "<>":
        last = row.differences[-1]
        (last.board if mark == "<" else last.dry_run).append(rest)
    else:
        raise ValueError(f"{row.place} begins with {mark!r}")


def read_rows(path):
    """The rows of a file. A script, a case or an image begins one, or the variables before a script."""
    rows, is_begun = [], False
    for number, line in enumerate(path.read_bytes().removesuffix(b"\n").split(b"\n"), 1):
        mark, rest = line[:1].decode(), line[2:]
        if mark in ("", "#"):
            continue
        if mark in "$@%=":
            if not is_begun:
                rows.append(Row(f"{path.name} line {number}"))
            is_begun = mark == "="
        take_line(rows[-1], mark, rest)
    return rows


def answers(lines, answer):
    """Whether the answer is the one of these lines."""
    pattern = re.escape(b"\n".join(lines).replace(b" / ", b"\n")).replace(rb"\.\.", b".*")
    return re.fullmatch(pattern, answer, re.DOTALL) is not None


def fault_of(row, release, board, dry_run):
    """The fault of a row with these two answers, of which one is of a board of a release, if it has one."""
    both = f"board {board!r}, dry run {dry_run!r}"
    said = row.difference(release)
    if said is None:
        return None if board == dry_run else f"they differ, and no class is named: {both}"
    if board == dry_run:
        return f"they don't differ as {' '.join(said.classes)}: {both}"
    if not answers(said.board, board) or not answers(said.dry_run, dry_run):
        return f"they differ in another way: {both}"
    return None
