"""The commands of a run, a line each (docs/dry-runs.md, "A trace")."""

from model.script_run import line_and_column

ENDS = b"fwenv: the trace ends here\n"
ANSWER = b"answer"  # the name of a text that answers a call


class Trace:
    """The lines of the commands that a run of this text does; of at most so many bytes."""

    def __init__(self, name, text, most):
        self.running = [(name, text)]
        self.most = most
        self.lines = b""
        self.is_whole = True

    def note(self, place, words):
        """A command of these words, which begins at this place of the innermost text, is run."""
        name, text = self.running[-1]
        line = b"%s:%d:%d: %s\n" % (name, *line_and_column(text, place), b" ".join(words))
        self.is_whole = self.is_whole and len(self.lines) + len(line) <= self.most
        if self.is_whole:
            self.lines += line

    def printed(self):
        return self.lines if self.is_whole else self.lines + ENDS
