"""The parts of the comparison, each over as many processes as there are processors."""

import functools
import importlib
import itertools
import multiprocessing
import os
import re
import sys
import tempfile
from collections import Counter

from differential.harness import lock_folder, running, smaller
from differential.harness.running import Runner

SHOWN = 5
# Where the parts are
FOLDERS = "rows", "random", "faults"
# What an answer reports: the ending of a block, a dot line's answer, a message, or nothing
TOLD = re.compile(
    rb"^\[(Finished|Exited|Steps|Depth|Word|Output|Syntax|Marked|Full|Undone|Gone|Unknown)"
    rb"|^(?:fwenv: .*|## Error: bad image): (\w+)(?: in line \d+)?\n"
    rb"|^fwenv: run ended as (\w+)|^fwenv: .*:\d+:\d+: (\w+): "
    rb"|^[^\n]*:\d+:\d+: error: [^\n]* \((\w+)\) \[syntax\]$|(variable that is|nothing defines|no builtin|this shell has|carriage return|be assigned|no variable|no script to look at)"
    rb"|(no room|bad name|type check|not defined|Can't \w+|too short|overlap|cannot read|no such file|no good copy|is written|copy isn't good|no second copy|possible values: 1, 2|possible values: carriage-return|no = in|never boot|only if a limit|a limit was met)",
    re.M,
)


def names_of(answer):
    """The names by which an answer is counted."""
    text = answer.output + (answer.errors or b"error")
    return {next(filter(None, found)).decode() for found in TOLD.findall(text)} | {f"status {answer.status}"}


class Worker:
    """One process of several, with a runner of its own."""

    def __init__(self, program, preloads, folder):
        self.words = program, preloads, folder

    @functools.cached_property
    def runner(self):
        program, preloads, folder = self.words
        return Runner(program, preloads, tempfile.mkdtemp(dir=folder))

    def compare(self, cases):
        """How many cases passed and failed, the first failures as numbers and texts, and how often each name came."""
        passed, failed, texts, names = 0, 0, [], Counter()
        for number, case in enumerate(cases):
            wanted = case.answer() if case.is_modelled else case.wanted
            names.update(names_of(wanted) if wanted else ())
            failure = self.runner.failure(case, wanted)
            if failure is None:
                passed += case.weight
            else:
                failed += 1
                texts.append((number, failure))
        return passed, failed, texts[:SHOWN], names


def compare_chunk(at):
    passed, failed, texts, names = worker.compare(chunks[at]())
    return passed, failed, [(at, *text) for text in texts], names


def told(at, number, text):
    """A failure, of a smaller case if one fails too, with a command to type."""
    case = next(itertools.islice(chunks[at](), number, None))
    if not smaller.can_be_cut(case):
        return text
    least, found = smaller.cut_down(worker.runner, case)
    return f"{found or text}\n  to type: {smaller.as_command(least)}"


def rare(part, names, total):
    """The names that came too seldom for the part to cover them."""
    wanted = getattr(part, "OFTEN", {})
    return [name for name, share in wanted.items() if names[name] < share * total]


def folder_for(name, folder):
    """Where the small files of a part are: in memory, if that is possible."""
    return "/dev/shm" if name != "largest" and os.access("/dev/shm", os.W_OK) else folder


def main():
    global worker, chunks
    program, preloads, name, *numbers = sys.argv[1:]
    folder = next((each for each in FOLDERS if os.path.exists(f"{os.path.dirname(__file__)}/{each}/{name}.py")), None)
    if not folder:
        sys.exit(f"no part is called {name}")
    sys.setrecursionlimit(100_000)
    running.PROGRAM = os.path.abspath(program)
    part = importlib.import_module(f"differential.{folder}.{name}")
    # A chunk makes some of the cases; each process takes one after the other
    chunks = part.chunks(*map(int, numbers))
    passed, failed, texts, names = 0, 0, [], Counter()
    with tempfile.TemporaryDirectory(dir=folder_for(name, preloads)) as small:
        worker = Worker(os.path.abspath(program), os.path.abspath(preloads), small)
        with multiprocessing.get_context("fork").Pool(initializer=lock_folder.have_own) as pool:
            for found in pool.imap_unordered(compare_chunk, range(len(chunks))):
                passed, failed, texts = passed + found[0], failed + found[1], texts + found[2]
                names.update(found[3])
        if texts:
            lock_folder.have_own()
        for text in texts[:SHOWN]:
            print(f"FAILED: {told(*text)}")
    for rarity in rare(part, names, passed + failed):
        failed += 1
        print(f"FAILED: of {passed + failed} cases of {name} only {names[rarity]} are '{rarity}'")
    for text in getattr(part, "UNTRIED", ()):
        print(f"NOT TRIED: {text}")
    print(f"{name}:", ", ".join(f"{count} {each}" for each, count in sorted(names.items())))
    print(f"{passed} passed, {failed} failed")
    sys.exit(failed != 0)


main()
