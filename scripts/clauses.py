"""How many functions of the product there are, and those without a clause of their own, by crate: `ensures` stands neither at the
function nor at its trait. docs/promises.md and README.md have these numbers, which are compared.

usage: clauses.py"""

import collections
import pathlib
import re

from counted import check, end

TOP = pathlib.Path(__file__).resolve().parent.parent
TESTS = re.compile(r"\w*_tests|test_support|sweeps|benches")
FUNCTION = re.compile(r"^ *(?:pub(?:\(\w+\))? )?(?:const |unsafe )*fn (\w+)", re.M)
# What is around a method whose contract is its trait's
IMPLEMENTATION = re.compile(r"^impl\b(?:[^{;]|\n)*? for (?:[^{;]|\n)*?\{\n(.*?)^\}", re.M | re.S)


def functions(text):
    """The functions of a module: each with whether it is public, and whether a clause is there or a trait's counts."""
    text = re.sub(r"//.*", "", text)
    of_traits = [found.span(1) for found in IMPLEMENTATION.finditer(text)]
    places = [*FUNCTION.finditer(text)]
    for found, after in zip(places, [*places[1:], None]):
        whole = text[found.start() : after.start() if after else None]
        is_of_trait = any(begin <= found.start() < close for begin, close in of_traits)
        yield found[1], found[0].strip().startswith("pub "), is_of_trait or "ensures" in whole


def main():
    count, without, public = 0, collections.Counter(), []
    for path in sorted(TOP.glob("crates/*/src/**/*.rt")):
        crate = path.relative_to(TOP / "crates").parts[0]
        if TESTS.fullmatch(crate) or path.stem == "tests":
            continue
        for name, is_public, has_clause in functions(path.read_text()):
            count += 1
            if not has_clause:
                without[crate] += 1
                public += [name] * is_public
    told = ", ".join(f"{crate} {number}" for crate, number in without.items())
    print(f"{count:,} functions, {sum(without.values())} without a clause of their own ({told}); public: {', '.join(public)}")
    files = without["fw_files"] + without["fw_tools"]
    rounded = f"{round(count, -2):,}"
    open_to_all = f"of which {len(public)} is public (`{public[0]}`)" if public else "none of which is public"
    wanted = {
        "README.md": f"{sum(without.values())} of some {rounded}",
        "docs/promises.md": f"{sum(without.values())} of some {rounded} functions, {open_to_all}: {files} of fw_files and fw_tools, "
        f"around opening, locking, reading and writing files and showing how far a search has come, {without['device_files']} of device_files, "
        f"which make one call of a file each, {without['hush_run']} of hush_run, which choose what a trace notes, the {without['fw_boots']} of "
        f"fw_boots that are told how far a search has come, and the {without['fwenv']} of `fwenv`'s",
    }
    for page, text in wanted.items():
        check(page, text in " ".join((TOP / page).read_text().split()), f"it doesn't say {text!r}")
    check("the crates without clauses", set(without) == {"fw_files", "fw_tools", "fw_boots", "device_files", "hush_run", "fwenv"}, told)
    end()


main()
