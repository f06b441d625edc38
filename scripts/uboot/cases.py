"""The boot scripts of scripts/runs/boards and of examples/, on a board and in a dry run.

The emulated board lacks the commands that need hardware, or they do something else there. So the board gets scripts in which each
call of a stand-in is an `echo` of what a dry run prints for it. Each block is typed after a boot of its own, over what the blocks
before it have saved, and an undo goes back to what was saved then. What `saveenv` prints is compared as a dry run prints it.
"""

import re
from dataclasses import dataclass

from dry_run import ANSWER, answer_of
from differential.harness.rows import boards, examples
from model.texts import stand_ins

SAVED = re.compile(rb"Saving Environment to Flash\.\.\. .*?\nOK\n", re.DOTALL)
COMMAND_BEGINS = rb"((?:^|[;&|\n]|\b(?:if|elif|then|else|while|until|do)\s)\s*)"


@dataclass
class Case:
    name: str
    variables: dict
    stubs: bytes
    steps: list  # blocks, and the dot lines .mark and .undo between them

    def for_board(self, script):
        """The script with an `echo` in place of each call of a stand-in."""
        for name, status in stand_ins(self.stubs).items():
            if status == 0:
                script = re.sub(COMMAND_BEGINS + name + rb"\b", rb"\1echo + " + name, script)
            else:
                call = COMMAND_BEGINS + rb"(" + name + rb"\b[^;&|\n]*[^;&|\n ])"
                script = re.sub(call, rb"\1if echo + \2; then false; fi", script)
        return script


def steps_of(text):
    """The blocks of a session's input and its dot lines; `.save` is what `saveenv` is to a board."""
    pieces = re.split(rb"(?m)^(\..*)\n", text)
    return [b"saveenv" if piece == b".save" else piece.rstrip(b"\n") for piece in pieces if piece]


def cases():
    for row in boards():
        yield Case(f"boards/{row.name}", row.setup.variables, row.setup.stand_ins, [row.setup.script])
    for name, variables, stubs, given in examples():
        yield Case(f"examples/{name}", variables, stubs, steps_of(given))


def typed(board, script):
    """What a script answers at the prompt, in the form of rows.py."""
    printed, waits = b"", False
    for line in script.split(b"\n"):
        text, waits = board.type(line)
        printed += text
    if waits:
        board.interrupt()
    if waits or printed.endswith(b"syntax error\n"):
        return b"[refused]"
    return printed + b"[%d]" % board.status()


def on_board(case, copy):
    """The answer of each block, and the variables that it leaves."""
    copy.store({name: case.for_board(value) for name, value in case.variables.items()})
    original = {case.for_board(value): value for value in case.variables.values()}
    stored = opening = copy.image.read_bytes()
    marks = {}
    for step in case.steps:
        name = step.partition(b" ")[2]
        if step.startswith(b".mark"):
            marks[name] = stored
        elif step.startswith(b".undo"):
            stored = marks[name] if name else opening
        else:
            copy.image.write_bytes(stored)
            with copy.board() as board:
                answer = SAVED.sub(b"Saved copy 1\n", typed(board, case.for_board(step)))
                left = board.own_variables()
                stored = board.stored()
            yield answer, b"".join(b"%s=%s\n" % (name, original.get(left[name], left[name])) for name in sorted(left))


def in_dry_run(case, copy):
    """The same for a dry run."""
    copy.store(case.variables)
    is_block = [not step.startswith(b".") for step in case.steps]
    text = b"".join(step + (b"\n.print\n.=\n" if block else b"\n") for step, block in zip(case.steps, is_block))
    output = copy.session(text, case.stubs)
    for block in is_block:
        if not block:
            output = output.partition(b"]\n")[2]
            continue
        match = ANSWER.match(output)
        left, _, output = output[match.end() :].partition(b"[Unknown]\n")
        yield answer_of(match[1], match[2]), left


def answers_of(case, pair):
    """What both answer to all blocks, and the lines of their variables that the other one lacks."""
    copy = pair.copy(case.name)
    board, dry_run = [], []
    for (one, one_left), (other, other_left) in zip(on_board(case, copy), in_dry_run(case, copy), strict=True):
        one_lines, other_lines = one_left.splitlines(), other_left.splitlines()
        board += [one, *(b"leaves " + line for line in one_lines if line not in other_lines)]
        dry_run += [other, *(b"leaves " + line for line in other_lines if line not in one_lines)]
    return b"\n".join(board), b"\n".join(dry_run)
