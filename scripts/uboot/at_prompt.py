"""Many scripts at random (at_random.py) at one board's prompt and in one session, each over the environment that the board begins with.

Compared are the text, the variables, and whether the status is 0. A test is compared by its last line, the status that it leaves,
since a board may print messages about a file that isn't there.
"""

import re

from board import Silent
from cases import typed
from dry_run import ANSWER, answer_of

import at_random  # (dry_run finds the packages that it uses)

LEFT = re.compile(ANSWER.pattern + rb"(.*?)\[Undone\]\n", re.DOTALL)


def lines_of(variables):
    return b"".join(b"%s=%s\n" % entry for entry in sorted(variables.items()))


def of_board(text, board, default):
    """The answer at the prompt, and the variables that it leaves besides those of the default environment."""
    try:
        answer = typed(board, text)
        left = board.variables().items() - default.items()
        board.command(b"env default -f -a")
    except (Silent, ValueError) as fault:
        return str(fault).encode(), None
    return answer, lines_of(dict(left))


def on_boards(texts, copy):
    """What boards answer; after one that doesn't there is a new one."""
    found = []
    while len(found) < len(texts):
        with copy.board() as board:
            default = board.variables()
            for text in texts[len(found) :]:
                found.append(of_board(text, board, default))
                if found[-1][1] is None:
                    break
    return found


def in_dry_runs(texts, copy, shell="board"):
    output = copy.session(b"".join(text + b"\n.print\n.undo\n" for text in texts), default={}, shell=shell)
    return [(answer_of(text, ending), left) for text, ending, left in LEFT.findall(output)]


def compared(kind, answer, left):
    """What counts of an answer."""
    text, _, status = answer.rpartition(b"[")
    if kind == "test":
        return text.rstrip(b"\n").split(b"\n")[-1]
    return text, status if status == b"0]" or not status[:1].isdigit() else b"not 0", left


def faults_of_random(kind, seed, numbers, pair):
    """The names of scripts or tests of these numbers, each with its fault, if it has one."""
    copy = pair.copy(f"{kind}-{numbers[0]}")
    texts = [at_random.text(kind, seed, number, pair.release) for number in numbers]
    faults = []
    for number, text, board, dry_run in zip(numbers, texts, on_boards(texts, copy), in_dry_runs(texts, copy), strict=True):
        is_same = compared(kind, *board) == compared(kind, *dry_run)
        told = f"{text!r}: board {board!r}, dry run {dry_run!r}"
        faults.append((f"random {kind} {number} of {seed} ({pair.release})", None if is_same else told))
    return faults
