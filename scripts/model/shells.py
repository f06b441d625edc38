"""The two shells of a run, by what they make of a script (docs/runs.md, "Boards")."""

import re

from model.calculations import board_test, status_of_digits, test
from model.texts import BUILTINS

# Those of `env` that most boards have, of which some are wrong use in a dry run
SUBCOMMANDS = {b"default", b"delete", b"edit", b"exists", b"export", b"import", b"print", b"run", b"save", b"set"}
# What a board reads of a word of `exit`
DIGITS = re.compile(rb"0[xX]([0-9A-Fa-f]*)|([0-9]*)")


def only(name, known):
    """The known command that a name calls by what is before its first dot: this whole, or as the beginning that only it has."""
    beginning = name.partition(b".")[0]
    found = [each for each in known if each.startswith(beginning)]
    return beginning if beginning in found else found[0] if len(found) == 1 else None


class Strict:
    """The strict shell; a method or a value is a rule."""

    depth = 8  # how many starts may be inside one another, unless a call says otherwise
    has_empty_bodies = False
    leaves_chain = False  # whether a skipped command skips the rest of its chain
    leaves_text = False  # whether an `exit` leaves only the text that `run` started
    hides = False  # whether a name of the environment may be assigned, and is hidden by it
    cuts_lists = False  # whether the words of a `for` are cut by their bytes, quoted or not

    def kept(self, _status):
        """What an `if` without a branch that runs, or a command without fields, leaves."""
        return 0

    def of_loop(self, last, _condition):
        """What a loop leaves: its last body's status, 0 without one, or that of its last condition."""
        return last

    def of_binding(self, status):
        return status

    def of_start(self, _status, _has_commands):
        """With what a text begins that `run` starts."""
        return 0

    def of_text(self, status):
        """What `run` makes of the status of a text that has come to its end."""
        return status

    def of_bare_exit(self, status):
        """The status of an `exit` without one."""
        return status

    def of_exit(self, word):
        """The status of an `exit` with a word; None if it can't have it."""
        return status_of_digits(word)

    def calls(self, _name):
        """Whether an assignment to a name is a command's call."""
        return False

    def test(self, words, _there):
        return test(words)

    def called(self, name, _names):
        """The command that a name calls, by the names of stand-ins and rules."""
        return name

    def subcommand(self, word):
        """The subcommand of `env` that a word names."""
        return word

    def names(self, word, names):
        """Whether a word may name one of these."""
        return word in names


class Board(Strict):
    """What a board does in another way."""

    depth = 16
    has_empty_bodies = True
    leaves_chain = True
    leaves_text = True
    hides = True
    cuts_lists = True

    def kept(self, status):
        return status

    def of_loop(self, _last, condition):
        return condition

    def of_binding(self, _status):
        return 0

    def of_start(self, status, has_commands):
        return status if has_commands else 0

    def of_text(self, status):
        return int(status != 0)

    def of_bare_exit(self, _status):
        return 0

    def of_exit(self, word):
        hexadecimal, decimal = DIGITS.match(word).groups()
        return min(int(decimal or b"0") if hexadecimal is None else int(hexadecimal or b"0", 16), 255)

    def calls(self, name):
        return name.startswith(b"_")

    def test(self, words, there):
        return board_test(words, there)

    def called(self, name, names):
        known = {each for each in BUILTINS if b"." not in each} | names
        return name if name in BUILTINS | names else only(name, known) or name

    def subcommand(self, word):
        return only(word, SUBCOMMANDS)

    def names(self, word, names):
        beginning = word.partition(b".")[0]
        return bool(beginning) and any(name.startswith(beginning) for name in names)


STRICT, BOARD = Strict(), Board()
SHELLS = {b"strict": STRICT, b"board": BOARD}
