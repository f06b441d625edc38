"""Compares fwenv with U-Boot itself: scripts in a dry run by a board's shell and at its prompt, what `fwenv check` finds in them, power-ons,
and stored environments both ways.

    compare.py PROGRAM                compares; the last line is 'N passed, M failed'
    compare.py PROGRAM --only TEXT    only the rows, scripts and environments whose name has this text
    compare.py PROGRAM --random N     only N scripts at random, by another seed than usual
    compare.py --classes              only the classes of docs/differences.md and those that the rows name
    compare.py --releases             which releases of U-Boot can be compared with

U-Boot is that of Debian's package u-boot-qemu, also of 32 bits, and, if `scripts/uboot/newer` was run, a newer one, and for power-ons that are counted
the one of `scripts/uboot/counting`; qemu-system-aarch64 has to be installed. A name ends with the release.
"""

import functools
import os
import re
import subprocess
import sys
import tempfile
from concurrent.futures import ThreadPoolExecutor
from pathlib import Path

from at_prompt import faults_of_random
from board import COUNTED_SIZE, COUNTING, NARROW, Silent, can_boot, firmwares
from cases import answers_of, cases, typed
from coded import faults_of_codes
from counted import check, end
from dry_run import ANSWER, TOP, Pair, answer_of
from images import COUNT, MANY, answers_to_many, answers_to_row, faults_of_environment
from power_ons import answers_to_power_ons, counted_rows, power_on_rows
from rows import Row, fault_of, read_rows
from silent import faults_of_silent

HERE = Path(__file__).resolve().parent
FAULTS = (Silent, ValueError, OSError, subprocess.SubprocessError)
DOCUMENT = TOP / "docs" / "differences.md"
# Scripts and tests at random with each release
SCRIPTS, TESTS, CHUNK, SEED = 1000, 500, 100, 2025


def typed_on_one_board(rows, copy):
    """The default environment, and then the answers of rows, up to one to which the console doesn't answer."""
    with copy.board() as board:
        yield board.variables()
        for row in rows:
            try:
                yield typed(board, b"\n".join(row.script))
                board.command(b"env default -f -a")
            except Silent as fault:
                yield str(fault).encode()
                return


def with_default_environment(rows, pair):
    """The answers of rows without variables: one boot and one session for all of them."""
    copy = pair.copy("rows")
    found = []
    while len(found) < len(rows):
        default, *more = typed_on_one_board(rows[len(found) :], copy)
        found += more
    text = b"".join(b"\n".join(row.script) + b"\n.undo\n" for row in rows)
    output = copy.session(text, default=default)
    dry = [answer_of(*match) for match in re.findall(ANSWER.pattern + rb"\[Undone\]\n", output, re.DOTALL)]
    return list(zip(found, dry, strict=True))


def with_variables(row, pair):
    """The answers of a row with variables: a boot and a session of its own."""
    copy = pair.copy(row.place)
    copy.store(row.variables)
    script = b"\n".join(row.script)
    match = ANSWER.fullmatch(copy.session(script + b"\n"))
    with copy.board() as board:
        return typed(board, script), answer_of(match[1], match[2])


def take(name, fault):
    """A comparison, and its fault if it has one."""
    check(name, fault is None, fault)


def take_row(row, release, answers):
    """Takes a comparison, whose two answers `answers` gives or has a fault in their place."""
    name = f"{row.name} ({release})"
    try:
        board, dry_run = answers()
    except FAULTS as fault:
        take(name, f"{type(fault).__name__}: {fault}")
    else:
        take(name, fault_of(row, release, board, dry_run))


def documented_classes():
    """The classes that have an item in a list of docs/differences.md."""
    return re.findall(r"(?m)^- \*\*`([a-z0-9-]+)`\*\*:", DOCUMENT.read_text())


def compare_classes(rows):
    named = {name for row in rows for name in row.classes}
    documented = documented_classes()
    for name in sorted(named | set(documented)):
        if name not in named:
            take(name, "no row shows this class of docs/differences.md")
        elif documented.count(name) != 1:
            take(name, f"docs/differences.md has this class {documented.count(name)} times")
        else:
            take(name, None)


def work_on_scripts(rows, pair):
    """The comparisons of scripts: rows, each with what gives its two answers."""
    known = {row.case: row for row in rows if row.case}
    for row in rows:
        if row.variables:
            yield row, functools.partial(with_variables, row, pair)
    for case in cases():
        yield known.pop(case.name, Row(case.name)), functools.partial(answers_of, case, pair)
    for row in known.values():
        yield row, lambda row=row: (b"no case has this name", row.case.encode())


def work_on_images(rows, pair):
    for row in rows:
        if row.area is not None:
            yield row, functools.partial(answers_to_row, row, pair)
    yield MANY, functools.partial(answers_to_many, pair)
    for number in range(COUNT):
        yield Row(f"environment {number}"), lambda number=number: (faults_of_environment(number, pair), b"")


def work_on_power_ons(pair):
    for row, variables in power_on_rows():
        yield row, functools.partial(answers_to_power_ons, variables, pair.copy(row.place))


def compare_narrow(rows, only, pair, pool):
    """The rows in which a board of 32 bits differs."""
    rows = [row for row in rows if only in row.name and any(each.release == pair.release for each in row.differences)]
    found = pool.submit(with_default_environment, rows, pair)
    for index, row in enumerate(rows):
        take_row(row, pair.release, lambda: found.result()[index])


def compare_counted(only, pair, pool):
    """The power-ons of a board that counts them."""
    work = [(row, pair.copy(row.place), variables) for row, variables in counted_rows() if only in row.name]
    work = [(row, pool.submit(answers_to_power_ons, variables, copy, "--bootcount", "--stored=30")) for row, copy, variables in work]
    for row, answers in work:
        take_row(row, pair.release, answers.result)


def work_at_random(pair, seed, scripts, tests):
    """The comparisons of scripts in which nothing is found, of scripts and of tests at random, in chunks: each has names with faults."""
    for first in range(0, scripts, CHUNK):
        # numbers far enough from one another for the scripts in which something is found
        yield functools.partial(faults_of_silent, seed, 10 * first, min(CHUNK, scripts - first), pair)
    for kind, count in (("script", scripts), ("test", tests)):
        for first in range(0, count, CHUNK):
            yield functools.partial(faults_of_random, kind, seed, range(first, min(first + CHUNK, count)), pair)


def compare(rows, only, pair, pool):
    """Runs the comparisons that have the text `only` in their names, several at once."""
    plain = [row for row in rows if row.script and not row.variables and only in row.name]
    plain_answers = pool.submit(with_default_environment, plain, pair)
    work = [*work_on_scripts(rows, pair), *work_on_images(rows, pair), *work_on_power_ons(pair)]
    work = [(row, pool.submit(answers)) for row, answers in work if only in row.name]
    at_random = [] if only else [pool.submit(faults) for faults in work_at_random(pair, SEED, SCRIPTS, TESTS)]
    for index, row in enumerate(plain):
        take_row(row, pair.release, lambda: plain_answers.result()[index])
    for row, answers in work:
        take_row(row, pair.release, answers.result)
    take_random(at_random)


def take_random(found):
    for faults in found:
        try:
            answers = faults.result()
        except FAULTS as fault:
            answers = [("scripts", f"{type(fault).__name__}: {fault}")]
        for name, fault in answers:
            take(name, fault)


def main(arguments):
    if "--releases" in arguments:
        return print(*firmwares(), *["counting"] * can_boot(COUNTING))
    rows = [row for path in sorted(HERE.glob("*.rows")) for row in read_rows(path)]
    value_of = dict(zip(arguments, arguments[1:]))
    only = value_of.get("--only", "")
    if "--random" not in arguments:
        compare_classes([*rows, MANY, *(row for row, _ in (*power_on_rows(), *counted_rows()))])
    if "--classes" not in arguments:
        with tempfile.TemporaryDirectory() as folder, ThreadPoolExecutor(os.cpu_count()) as pool:
            if not {"--random", "--only"} & set(arguments):
                take_random([pool.submit(lambda: [*faults_of_codes(rows, documented_classes(), Pair(arguments[0], "", None, Path(folder)))])])
            for release, firmware in firmwares().items():
                pair = Pair(arguments[0], release, firmware, Path(folder))
                if "--random" in arguments:
                    count = int(value_of["--random"])
                    take_random([pool.submit(faults) for faults in work_at_random(pair, os.getpid(), count, count // 2)])
                else:
                    compare(rows, only, pair, pool)
            if can_boot(NARROW) and "--random" not in arguments:
                compare_narrow(rows, only, Pair(arguments[0], "narrow", NARROW, Path(folder)), pool)
            if can_boot(COUNTING) and "--random" not in arguments:
                compare_counted(only, Pair(arguments[0], "counting", COUNTING, Path(folder), COUNTED_SIZE), pool)
    end()


if __name__ == "__main__":
    main(sys.argv[1:])
