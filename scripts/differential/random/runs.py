"""Scripts at random, by both shells, and those of scripts/runs: worked rows and boot scripts of boards compared with what is
written there by hand, and with each limit on steps from 0 up to their own count compared with the model."""

import functools
from dataclasses import replace

from differential.harness.boards import board
from differential.harness.damage import at_random, numbers_of
from differential.harness.rows import BOARDS, ROWS, rows
from differential.harness.running import Case
from differential.random.random_scripts import setup
from model.program import WARNING, Answer
from model.variables import Environment

OFTEN = {ending: 0.005 for ending in ("Finished", "Exited", "Steps", "Depth", "Word", "Output", "Syntax")}


def is_alone(script):
    """Whether a script has to be the end of the input: a `\\` at its end would join a further line."""
    return script.endswith(b"\\")


def case_of(name, made):
    """A run, after which its variables are shown."""
    return Case(name, made.words(), made.files(), made.script + b"\n.print\n" * (not is_alone(made.script)))


def random_run(seed, number):
    return case_of(f"random script {number}", setup(numbers_of("runs", seed, number)))


def wanted(row):
    """The answer that is written by hand."""
    made, files = row.setup, row.setup.files()
    left = Environment(made.geometry.room, row.variables)
    if row.saves:
        copies = [made.geometry.image(1, left.entries()), *made.stored()[1:]]
        files |= board(made.geometry, copies)
    return Answer(0, row.text + left.lines(), b"" if made.variables else WARNING, files)


def rows_of(path, with_limits):
    for number, row in enumerate(rows(path), 1):
        name = f"{row.name}, script {number}"
        case = case_of(name, row.setup)
        case.wanted = wanted(row)
        yield case
        for steps in range(row.steps + 1) if with_limits else ():
            yield case_of(f"{name}, at most {steps} steps", replace(row.setup, limits=(steps, *row.setup.limits[1:])))


def chunks(count, seed, with_limits=1):
    """So many scripts at random, and the worked rows, perhaps without the limits on steps."""
    if not count:
        # (how often an ending comes is asked of scripts at random)
        OFTEN.clear()
    files = [functools.partial(rows_of, path, with_limits) for folder in (BOARDS, ROWS) for path in sorted(folder.iterdir())]
    return files + at_random(count, functools.partial(random_run, seed))
