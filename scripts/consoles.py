"""The console blocks of README.md and docs/: each command is run, and what it prints has to be what is shown.

usage: consoles.py FOLDER PROGRAM

The blocks of a document are run in order, in a folder of its own, which begins with links to scripts/ and examples/. A line that begins with '$ ' is a command for bash; the lines up to the next one are what it prints, on both streams. A block
in which no line begins so shows no commands, and is no console block.
"""

import os
import pathlib
import re
import subprocess
import sys

from counted import check, end

TOP = pathlib.Path(__file__).resolve().parent.parent
BLOCK = re.compile(r"^```console\n(.*?)^```$", re.M | re.S)


def commands(block):
    """The commands of a block, each with what is shown below it."""
    for lines in re.split(r"^\$ ", block, flags=re.M)[1:]:
        command, _, shown = lines.partition("\n")
        yield command, shown


def compare(document, folder):
    """Runs the commands of a document, each as a check."""
    for block in BLOCK.findall((TOP / document).read_text()):
        for command, shown in commands(block):
            words = ["bash", "-c", command]
            found = subprocess.run(words, cwd=folder, env=ENVIRONMENT, stdin=subprocess.DEVNULL, stdout=subprocess.PIPE, stderr=subprocess.STDOUT)
            printed = found.stdout.decode(errors="replace")
            check(f"{document}: {command}", printed == shown, f"printed {printed!r}")


def main(room, program):
    global ENVIRONMENT
    tools = pathlib.Path(room, "bin")
    tools.mkdir()
    os.symlink(program, tools / "fwenv")
    ENVIRONMENT = {**os.environ, "PATH": f"{tools}:{os.environ['PATH']}", "LC_ALL": "C"}
    for document in ["README.md", *sorted(str(path.relative_to(TOP)) for path in TOP.glob("docs/*.md"))]:
        folder = pathlib.Path(room, document.replace("/", "-"))
        folder.mkdir()
        for name in ("scripts", "examples"):
            os.symlink(TOP / name, folder / name)
        compare(document, folder)
    end()


if __name__ == "__main__":
    main(*sys.argv[1:])
