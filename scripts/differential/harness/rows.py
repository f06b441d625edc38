"""Scripts with their outcomes, written by hand in files that a reader can follow. A line begins with its word:

    #           what the file is about
    copies      how many there are, and the bytes of each (1 4096)
    defaults    the default environment: NAME=VALUE
    variables   likewise, written before the first script
    stand-ins   the stand-in file (of a board none, else mmc / usb 1)
    shell       board or strict (strict)
    limits      on steps, depth, word and output (of a board 100000 8 4096 65536, else 1000 4 256 4096)
    $           a script, and + a further line of it
    >           what it prints, and [ENDING STATUS STEPS]; steps that nobody counted by hand are the model's. Behind it `saves` if
                the copy holds the variables as they are left, and `leaves` with what it changes: NAME=VALUE, or NAME alone
                if it is removed

` / ` is a newline, but in a script; lines of one word, one below the other, are one text. What isn't given again stays, and what is in
brackets holds until then. The next script begins with the variables that this one leaves, and unsaved copies.
"""

import pathlib
import re
from dataclasses import dataclass, replace

from differential.harness.setups import Setup
from model.texts import import_entries

TOP = pathlib.Path(__file__).parents[3]
BOARDS, ROWS = TOP / "scripts/runs/boards", TOP / "scripts/runs/rows"
# What a file of each folder begins with
BEGINNINGS = {BOARDS: Setup(b"", (100_000, 8, 4096, 65_536)), ROWS: Setup(b"", (1000, 4, 256, 4096), stand_ins=b"mmc\nusb 1\n")}


@dataclass
class Row:
    """A script, what a session prints for it, how many steps it takes, the variables that it leaves, and whether it saves."""

    name: str
    setup: Setup
    text: bytes
    steps: int
    variables: dict
    saves: bool


def sections(path):
    """The words of a file, each with its lines."""
    found = []
    for line in path.read_bytes().removesuffix(b"\n").split(b"\n"):
        word, _, text = line.partition(b" ")
        if word == b"+":
            found[-1][1].append(text)
        elif word == b"$":
            found.append(("$", [text]))
        elif word != b"#":
            if not found or found[-1][0] != word.decode():
                found.append((word.decode(), []))
            found[-1][1].extend(text.split(b" / ") if word != line else [])
    return found


def pairs(lines):
    return {name: value for name, _, value in (line.partition(b"=") for line in lines)}


def changed(variables, lines):
    """The variables with these changes."""
    removed = [line for line in lines if b"=" not in line]
    return {name: value for name, value in (variables | pairs(lines)).items() if name not in removed}


def row(name, setup, answer):
    """A script with this answer."""
    found = re.fullmatch(rb"(.*?)\[([A-Z]\w+ \d+) ?(\d*)\]( saves)?(?:[ \n]leaves (.*))?", answer, re.S)
    text, ending, counted, saves, leaves = found.groups()
    steps = int(counted or setup.outcome().steps)
    left = changed(setup.variables, leaves.split(b"\n") if leaves else [])
    return Row(name, setup, text + b"[%s %d]\n" % (ending, steps), steps, left, saves is not None)


def with_setting(setup, word, lines):
    """A setup with what these lines set."""
    if word == "copies":
        copies, size = map(int, lines[0].split())
        return replace(setup, copies=copies, size=size)
    if word == "shell":
        return replace(setup, shell=lines[0])
    if word == "limits":
        return replace(setup, limits=tuple(map(int, lines[0].split())))
    if word == "stand-ins":
        return replace(setup, stand_ins=b"".join(line + b"\n" for line in lines))
    return replace(setup, **{word: pairs(lines)})


def rows(path):
    """The scripts of a file."""
    found, setup = [], BEGINNINGS[path.parent]
    for word, lines in sections(path):
        if word == "$":
            setup = replace(setup, script=b"\n".join(lines))
        elif word == ">":
            found.append(row(path.name, setup, b"\n".join(lines)))
            setup = replace(setup, variables=found[-1].variables)
        else:
            setup = with_setting(setup, word, lines)
    return found


def boards():
    """The script of each board."""
    return [row for path in sorted(BOARDS.iterdir()) for row in rows(path)]


def examples():
    """The boards of examples/: the name of each, its variables, its stand-ins, and the input of a session."""
    for folder in sorted(path.parent for path in TOP.glob("examples/*/stand-ins.txt")):
        text, stand_ins, given = ((folder / f"{name}.txt").read_bytes() for name in ("environment", "stand-ins", "input"))
        yield folder.name, {name: value for _, name, value in import_entries(text)}, stand_ins, given
