"""Tries planted mistakes next to the gate of a small repository: scripts/next_to_gate.py FOLDER.

Its crates have a text that is this run's alone. So the gate proves both, then the upper one once it has changed, and then none, where
the toolchain keeps what it has proved. Each time the mistakes have to be refused over the libraries of that gate, and not over what an
earlier command left in out/; and what refuses nothing has to be found out. The last line is 'N passed, M failed'."""

import os
import pathlib
import re
import shutil
import subprocess
import sys
import tempfile

from counted import check, end

SCRIPTS = pathlib.Path(__file__).resolve().parent
LOWER = """\
//! The lower crate.
#![tactic(auto)]

ghost use Rattle.std.specs.Prelude.{◌≡◌};

/// The number that it is given.
pub fn same(number: usize) -> usize
    ensures { result ≡ number }
{
    number
}
"""
UPPER = """\
//! The upper crate.
#![tactic(auto)]

ghost use Rattle.std.specs.Prelude.{◌≡◌};

use lower::same;

/// The number that it is given.
pub fn again(number: usize) -> usize
    ensures { result ≡ number }
{
    same(same(number))
}

/// The number that it is given; nothing says so.
pub fn first(number: usize) -> usize {
    first_of_numbers(number, 0, 0)
}

/// The first of them. (Its head has several lines, and it has no clause.)
fn first_of_numbers(
    first_of_the_numbers: usize,
    _second_of_the_numbers: usize,
    _third_of_the_numbers: usize,
) -> usize {
    same(first_of_the_numbers)
}

/// The halves of some bytes.
pub fn halves(bytes: &mut [u8]) -> (&mut [u8], &mut [u8]) {
    let half = bytes.len() / 2;
    bytes.split_at_mut(half)
}
"""
# What the prover refuses: another number than the clause says, and a sum that may be too large
REFUSED = """\
half
file: src/lib.rt
old: same(same(number))
new: same(same(number)) / 2

sum
file: src/lib.rt
old: same(first_of_the_numbers)
new: same(first_of_the_numbers) + 1
"""
# What no goal refuses: what no clause speaks of, and what the borrow checker has no rule for
NOT_REFUSED = """\
another-number
file: src/lib.rt
old: first_of_numbers(number, 0, 0)
new: first_of_numbers(number, 1, 0)

read-while-lent
file: src/lib.rt
old: bytes.split_at_mut(half)
new: bytes.split_at_mut(bytes.len() / 2)
"""


def made(folder):
    """The repository, whose text no run before had."""
    (folder / ".git").mkdir(parents=True)
    (folder / "HANDLES").write_text("Handles allowed: none.\n")
    (folder / "crates.txt").write_text("lower:\nupper: lower\n")
    for name, text in (("lower", LOWER), ("upper", UPPER)):
        (folder / f"crates/{name}/src").mkdir(parents=True)
        (folder / f"crates/{name}/src/lib.rt").write_text(f"{text}// {os.urandom(16).hex()}\n")
    (folder / "scripts").mkdir()
    for name in ("test", "planted"):
        shutil.copy(SCRIPTS / name, folder / "scripts")
    return folder


def tried(folder, mistakes):
    """What the gate and the trial next to it print, over a library that an earlier command left and that nothing can read."""
    (folder / "crates/upper/planted.txt").write_text(mistakes)
    library = folder / "crates/lower/out/rlib/lower.rlib"
    shutil.rmtree(library, ignore_errors=True)
    library.mkdir(parents=True)
    (library / "format").write_text("of an earlier command\n")
    with tempfile.TemporaryDirectory() as cache:
        words = {"cwd": folder, "stdin": subprocess.DEVNULL, "env": os.environ | {"XDG_CACHE_HOME": cache}}
        return subprocess.run(["scripts/test", "gate", "planted"], capture_output=True, text=True, errors="replace", **words).stdout


def main():
    folder = made(pathlib.Path(sys.argv[1]).resolve() / "repository")
    for kept in (set(), {"lower"}, {"lower", "upper"}):
        if kept == {"lower"}:
            with open(folder / "crates/upper/src/lib.rt", "a") as text:
                text.write("// changed\n")
        said = tried(folder, REFUSED)
        what = f"next to a gate that keeps {' and '.join(sorted(kept)) or 'nothing'}"
        found = set(re.findall(r"^rt: (\w+) is kept: ", said, re.M))
        if kept and not found:
            print(f"NOT TRIED: planted mistakes {what}: this toolchain proves each crate anew")
        else:
            check(f"what is kept, {what}", found == kept, said[-900:])
        refused = re.findall(r"^planted upper/(\w+): refused, as it must be: ", said, re.M)
        check(what, sorted(refused) == ["half", "sum"] and said.endswith("\n4 passed, 0 failed\n"), said[-900:])
    said = tried(folder, NOT_REFUSED)
    failed = re.findall(r"^planted upper/([\w-]+): FAILED: NOT REFUSED: ", said, re.M)
    is_whole = said.endswith("\n2 passed, 2 failed\n")
    check("what no goal refuses", sorted(failed) == ["another-number", "read-while-lent"] and is_whole, said[-900:])
    end()


main()
