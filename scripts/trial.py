"""Tries what scripts/fwenv runs where no program is proved, over a copy of the repository: scripts/trial.py FOLDER.

The last line is 'N passed, M failed'."""

import os
import pathlib
import signal
import subprocess
import sys
import time

import unproved
from counted import check, end

TOP = pathlib.Path(__file__).resolve().parent.parent
IMAGE = (TOP / "crates/fwenv/stdin").read_bytes()
COMPILES = b"fwenv: compiling a trial build of these sources, which takes a minute or two\n"
IS_TRIAL = b"fwenv: a trial build, compiled and not proved; scripts/build proves it\n"
STREAMS = {"stdin": subprocess.PIPE, "stdout": subprocess.PIPE, "stderr": subprocess.PIPE}


class Copy:
    """A copy of the repository in which nothing is built, and a folder for its temporary files."""

    def __init__(self, folder):
        self.top, self.room = unproved.copied(TOP, folder / "copy"), folder / "room"
        self.program = self.top / "crates/fwenv/out/trial/fwenv"
        self.room.mkdir()
        self.variables = {**os.environ, "TMPDIR": str(self.room)}

    def begin(self, script, *words, **variables):
        command = [self.top / "scripts" / script, *words]
        return subprocess.Popen(command, cwd="/", env={**self.variables, **variables}, start_new_session=True, **STREAMS)

    def run(self, script, *words, **variables):
        """What a script prints and says, and its exit status."""
        with self.begin(script, *words, **variables) as process:
            return (*process.communicate(IMAGE), process.returncode)

    def left(self):
        """What trial builds have left beside the file on which one waits for another."""
        return {*self.room.iterdir(), *self.program.parent.iterdir()} - {self.program.with_name("fwenv.lock")}


def interrupted(copy):
    with copy.begin("fwenv") as process:
        said = process.stderr.readline()
        time.sleep(5)
        os.killpg(process.pid, signal.SIGINT)
        found = (*process.communicate(), process.returncode)
    is_right = (said, found, copy.left()) == (COMPILES, (b"", b"", 1), set())
    check("a trial build that is interrupted", is_right, f"{said} {found} {copy.left()}")


def two_at_once(copy):
    processes = [copy.begin("fwenv") for _ in range(2)]
    found = [(*it.communicate(IMAGE), it.returncode) for it in processes]
    is_right = sorted(found) == [(b"a=b\n", IS_TRIAL, 0), (b"a=b\n", COMPILES + IS_TRIAL, 0)] and copy.left() == {copy.program}
    check("two that want a trial build at once", is_right, f"{found} {copy.left()}")
    found, wanted = copy.run("fwenv", "--big-endian"), (b"", IS_TRIAL + b"## Error: bad image: BadCrc\n", 1)
    check("the trial build again", found == wanted, found)


def taken_for_proved(copy, folder):
    """What needs the proved program has it proved. (Here by a command that fails.)"""
    (folder / "bin").mkdir()
    (folder / "bin/rt").write_text("#!/bin/sh\nexit 1\n")
    (folder / "bin/rt").chmod(0o755)
    variables = {"PATH": f"{folder}/bin:{os.environ['PATH']}", "DESTDIR": f"{folder}/root"}
    for script, *words in (("build",), ("install",), ("package", folder / "packages"), ("test", "terminal")):
        output, errors, status = copy.run(script, *words, **variables)
        is_right = status == 1 and b"fwenv is not built; " in output + errors and not (folder / "root").exists()
        check(f"scripts/{script} with a trial build alone", is_right, (output, errors, status))


def faulty(copy):
    with open(copy.top / "crates/fw_tools/src/lib.rt", "a") as text:
        text.write("fn broken() -> u32 {\n    broken_by\n}\n")
    output, errors, status = copy.run("fwenv")
    is_told = b"crates/fw_tools/src/lib.rt:" in errors and b"broken_by" in errors and errors.endswith(b"fwenv is not compiled\n")
    check("a trial build of faulty sources", (output, status) == (b"", 1) and is_told and copy.left() == {copy.program}, (output, errors, status))


def main():
    folder = pathlib.Path(sys.argv[1]).resolve()
    copy = Copy(folder)
    interrupted(copy)
    two_at_once(copy)
    taken_for_proved(copy, folder)
    faulty(copy)
    end()


main()
