"""A script with its setup, as a call of `fwenv session`."""

from dataclasses import dataclass, field, replace

from differential.harness.boards import STRICT, arguments, board, text_of
from model.arguments import LIMITS
from model.grammar import parse
from model.image import ERASED, Geometry
from model.script import run
from model.session import Session
from model.shells import SHELLS
from model.texts import stand_ins
from model.variables import Environment


@dataclass
class Setup:
    """The limits are those on steps, depth, word and output, the shell is "strict" or "board". The variables are written over the
    default ones."""

    script: bytes
    limits: tuple
    variables: dict = field(default_factory=dict)
    defaults: dict = field(default_factory=dict)
    stand_ins: bytes = b""
    copies: int = 1
    size: int = 4096
    shell: bytes = b"strict"

    @property
    def geometry(self):
        return Geometry(self.copies, self.size)

    def environment(self):
        """The environment at the start; None if a write is refused."""
        found = Environment(self.geometry.room)
        for values in (self.defaults, self.variables):
            for name, value in values.items():
                if found.write(name, value, True):
                    return None
        return found

    def stored(self):
        """The copies. The variables are in the last one, whose flag is 0, so that a save goes to the first one with
        flag 1, as it does if no copy is good; without any, no copy is good."""
        copies = [ERASED * self.size] * self.copies
        if self.variables:
            copies[-1] = self.geometry.image(0, self.environment().entries())
        return copies

    def files(self):
        return board(self.geometry, self.stored()) | {b"default": text_of(self.defaults), b"stand-ins": self.stand_ins}

    def words(self):
        limits = [b"%s=%d" % (option.encode(), limit) for option, limit in zip(LIMITS, self.limits)]
        return arguments(b"session", b"--shell", self.shell, b"--default", b"default", b"--stubs", b"stand-ins", b"--write", *limits)

    def outcome(self):
        """The outcome of the model's run."""
        session = Session(self.geometry, self.stored(), replace(self, variables={}).environment().values)
        shell = SHELLS[self.shell]
        return run(session, parse(self.script, shell), stand_ins(self.stand_ins), self.limits, shell=shell)
