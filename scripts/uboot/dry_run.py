"""The dry runs of `fwenv session`, and the images that `fwenv import` writes."""

import re
import subprocess
import sys
from dataclasses import dataclass
from pathlib import Path

from board import ENVIRONMENT_SIZE, Board

TOP = Path(__file__).resolve().parents[2]
sys.path.insert(0, str(TOP / "scripts"))
from differential.harness.boards import text_of  # noqa: E402

ANSWER = re.compile(rb"(.*?)\[(Syntax|Memory|[A-Z][a-z]+ \d+ \d+)\]\n", re.DOTALL)


@dataclass
class Pair:
    """What is compared: the program and a board with a release of U-Boot, whose files are in a folder."""

    program: str
    release: str
    firmware: Path
    folder: Path
    size: int = ENVIRONMENT_SIZE

    def copy(self, name):
        return Copy(self, self.folder / f"{name}-{self.release}.flash".replace(" ", "-").replace("/", "-"))


class Copy:
    """A single stored copy in a file, with the program and the board over it."""

    def __init__(self, pair, image):
        self.program, self.firmware, self.size = pair.program, pair.firmware, pair.size
        self.image = image
        self.config = self.image.with_suffix(".config")
        self.config.write_text(f"{self.image} 0 {self.size:#x}\n")
        self.text = self.image.with_suffix(".text")
        self.stubs = self.image.with_suffix(".stubs")

    def board(self):
        return Board(self.image, self.firmware)

    def run(self, subcommand, *words, **streams):
        command = [self.program, subcommand, "-c", self.config, *words]
        return subprocess.run(command, capture_output=True, timeout=60, **streams)

    def check(self, *words):
        return subprocess.run([self.program, "check", *words], capture_output=True, timeout=60)

    def store(self, variables):
        """Stores an environment by `fwenv import`."""
        self.image.write_bytes(bytes(self.size))
        self.text.write_bytes(text_of(variables))
        done = self.run("import", self.text)
        if done.returncode != 0:
            raise ValueError(f"fwenv import: status {done.returncode}, {done.stderr!r}")

    def session(self, text, stubs=b"", default=None, shell="board"):
        """What a session of a shell prints."""
        self.stubs.write_bytes(stubs)
        words = ["--shell", shell, "--stubs", self.stubs]
        if default is not None:
            self.image.write_bytes(bytes(self.size))
            self.text.write_bytes(text_of(default))
            words += ["--default", self.text]
        done = self.run("session", *words, input=text)
        if done.returncode != 0:
            raise ValueError(f"fwenv session: status {done.returncode}, {done.stderr!r}")
        return done.stdout


def answer_of(text, ending):
    """What a block answers, in the form of rows.py."""
    if ending == b"Syntax":
        return b"[refused]"
    name, status, _ = ending.split()
    return text + (b"[%s]" % status if name == b"Finished" else b"[%s %s]" % (name, status))
