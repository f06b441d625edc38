"""Sessions: the stored copies and the variables, with what a save, a mark and an undo do to them (docs/undo.md)."""

from model.image import ERASED
from model.variables import Environment

MARKS = 64


class Session:
    """A session over copies. Each mark has the whole state; mark 0 is the opening."""

    def __init__(self, geometry, copies, defaults):
        self.geometry = geometry
        self.copies = list(copies)
        self.current, variables = geometry.choice(copies)
        values = defaults if variables is None else variables
        self.environment = Environment(geometry.room, values, defaults)
        self.marks = [self.state()]

    def state(self):
        return dict(self.environment.values), self.environment.used, list(self.copies), self.current

    def next_copy(self):
        """The copy into which a save writes."""
        return 1 if self.current == 0 and self.geometry.copies == 2 else 0

    def save(self):
        side = self.next_copy()
        flag = 1 if self.current is None else (self.geometry.flag(self.copies[self.current]) + 1) % 256
        self.copies[side] = self.geometry.image(flag, self.environment.entries())
        self.current = side

    def mark(self):
        """Makes a mark, and answers whether there was room for it."""
        if len(self.marks) > MARKS:
            return False
        self.marks.append(self.state())
        return True

    def undo_to(self, number):
        """Brings back the state at a mark that exists."""
        del self.marks[number + 1 :]
        values, used, copies, self.current = self.marks[number]
        self.environment.values, self.environment.used, self.copies = dict(values), used, list(copies)


def erased(geometry, defaults=()):
    """A session over copies that were never written."""
    return Session(geometry, [ERASED * geometry.size] * geometry.copies, dict(defaults))
