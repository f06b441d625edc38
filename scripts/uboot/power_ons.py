"""Power-ons of an emulated board on which no key is pressed, and the same by `fwenv boot`: how often it resets itself until its prompt,
and what is stored then.

It has no system to boot, so these are boards that end at the prompt. Saves are made in bootcmd alone: the board's flash is mended while
it counts down to that (board.py). A board that counts its boots saves before, in an environment for which nothing is to be mended.
"""

import re

from board import AUTOBOOT, AUTOMATIC, COUNTED_SIZE, PROMPT, Board, Silent
from differential.harness.boards import lines_of
from model.image import Geometry
from rows import Difference, Row

RULES = b"reset -> resets\n"
STARTED = re.compile(rb"^U-Boot 20", re.M)
MOST_STARTS = 20
# What each is about, its variables, and perhaps the class in which the two differ and their answers
POWER_ONS = [
    ("nothing is defined", {b"a": b"1"}),
    ("a counter", {b"n": b"1", b"bootcmd": b"if test ${n} != 3; then setexpr n ${n} + 1; saveenv; reset; fi"}),
    ("two slots", {b"slot": b"a", b"bootcmd": b"if test ${slot} = a; then setenv slot b; saveenv; reset; else setenv got ${slot}; saveenv; fi"}),
    ("what isn't saved", {b"n": b"1", b"bootcmd": b"if test ${n} = 1; then setenv n 2; saveenv; setenv n 3; reset; fi; setenv got ${n}; saveenv"}),
    ("a change behind a save", {b"bootcmd": b"setenv got 1; saveenv; setenv got 2"}),
    ("a deletion", {b"a": b"1", b"bootcmd": b'if test -n "${a}"; then setenv a; saveenv; reset; fi; setenv got 1; saveenv'}),
    ("local variables and a reset", {b"bootcmd": b'if test -z "${n}"; then x=1; setenv n ${x}; saveenv; reset; fi; setenv got x${x}; saveenv'}),
    ("preboot's variables", {b"preboot": b"x=1; setenv y 2", b"bootcmd": b"setenv got ${x} ${y}; saveenv"}),
    ("preboot's status", {b"preboot": b"false", b"bootcmd": b"setenv got $?; saveenv"}),
    ("preboot is no script", {b"preboot": b"if", b"bootcmd": b"setenv got 1; saveenv"}),
    ("preboot alone", {b"preboot": b"setenv a 2", b"a": b"1"}),
    ("no delay", {b"bootdelay": b"-1", b"bootcmd": b"setenv got 1; saveenv"}),
    ("a delay of -01", {b"bootdelay": b"-01", b"bootcmd": b"setenv got 1; saveenv"}),
    ("a delay with a unit", {b"bootdelay": b"-1s", b"bootcmd": b"setenv got 1; saveenv"}),
    ("a hexadecimal delay", {b"bootdelay": b"-0x1", b"bootcmd": b"setenv got 1; saveenv"}),
    ("a delay of 32 bits", {b"bootdelay": b"4294967295", b"bootcmd": b"setenv got 1; saveenv"}, "delay-numbers", b"0 resets / bootcmd=.. / bootdelay=4294967295 / ..", b"0 resets / .. / got=1 / .."),
    ("preboot takes the delay away", {b"preboot": b"setenv bootdelay -1", b"bootcmd": b"setenv got 1; saveenv"}),
    ("preboot gives one", {b"bootdelay": b"-1", b"preboot": b"setenv bootdelay 2", b"bootcmd": b"setenv got 1; saveenv"}),
    ("a run in a run", {b"a": b"run b; setenv got ${got}a", b"b": b"setenv got b", b"bootcmd": b"run a none; saveenv"}),
]  # fmt: skip


def counting(**variables):
    """The variables of a board that counts, of which those that are None aren't defined."""
    usual = {"upgrade_available": "1", "bootlimit": "2", "bootcmd": NEXT, "altbootcmd": BACK}
    return {name.encode(): value.encode() for name, value in (usual | variables).items() if value is not None}


def full():
    """Variables that leave no room for a further digit."""
    variables = counting(bootlimit="9", bootcount="9", altbootcmd="setenv z; " + BACK)
    taken = sum(len(name) + len(value) + 2 for name, value in variables.items())
    return variables | {b"z": b"z" * (COUNTED_SIZE - 4 - taken - 1 - 3)}


# What tells of each power-on, and of the one that goes back
NEXT = "setenv log ${log}.${bootcount}; saveenv; reset"
BACK = "setenv got ${bootcount}; saveenv"
GOT = {"bootcmd": BACK, "altbootcmd": "setenv alternative 1; " + BACK}
# The same of a board that counts
COUNTED = [
    ("a count up to its limit", counting()),
    ("one that has begun", counting(bootcount="2", bootlimit="4")),
    ("one beyond the limit already", counting(bootcount="7")),
    ("no upgrade", counting(upgrade_available="0", bootcount="7", **GOT)),
    ("upgrade_available isn't defined", counting(upgrade_available=None, bootcount="7", **GOT)),
    ("a count that isn't saved", counting(upgrade_available="0", bootcount="7", bootcmd="true")),
    ("a count that is saved alone", counting(bootcmd="true")),
    ("no altbootcmd", counting(altbootcmd=None)),
    ("altbootcmd is no script", counting(altbootcmd=BACK + "; if")),
    ("altbootcmd ends the upgrade", counting(altbootcmd="setenv upgrade_available 0; setenv bootcount 0; setenv bootcmd 'setenv got ${bootcount}; saveenv'; saveenv; reset")),
    ("altbootcmd has a count of its own", counting(altbootcmd="if test ${bootcount} -lt 5; then " + NEXT + "; fi; " + BACK)),
    ("bootcmd confirms", counting(bootcmd="if test ${upgrade_available} = 1; then setenv upgrade_available 0; " + NEXT + "; fi; " + BACK)),
    ("bootcmd confirms at the limit", counting(bootcmd="if test ${bootcount} = 2; then setenv upgrade_available 0; fi; if test -n \"${got}\"; then setenv got ${got}.${bootcount}; saveenv; else setenv got ${bootcount}; " + NEXT + "; fi")),
    ("bootcmd begins an upgrade", counting(upgrade_available="0", bootcmd="setenv upgrade_available 1; " + NEXT)),
    ("bootcmd deletes the count", counting(bootcmd="setenv bootcount; if test \"${log}\" = ...; then " + BACK + "; else setenv log ${log}.; saveenv; reset; fi")),
    ("bootcmd moves the limit", counting(bootlimit="1", bootcmd="if test ${bootlimit} = 1; then setenv bootlimit 3; fi; " + NEXT)),
    ("preboot begins an upgrade", counting(upgrade_available="0", preboot="setenv upgrade_available 1; setenv y 2")),
    ("preboot ends it", counting(preboot="if test \"${bootcount}\" = 2; then setenv upgrade_available 0; setenv bootcmd 'setenv got ${bootcount}; saveenv'; fi")),
    ("preboot counts", counting(preboot="if test -z \"${log}\"; then setenv bootcount 1; fi", bootlimit="3")),
    ("preboot takes altbootcmd away", counting(preboot="setenv altbootcmd")),
    ("preboot's status and local variables", counting(preboot="x=1; false", bootcmd="setenv log ${log}.${bootcount}$?${x}; saveenv; reset", altbootcmd="setenv got $?${x}; saveenv")),
    ("preboot saves", counting(preboot="setenv n ${n}1; saveenv")),
    ("no limit", counting(bootlimit=None, bootcount="98", **GOT)),
    ("a limit of 0", counting(bootlimit="0", bootcount="98", **GOT)),
    ("no delay", counting(bootdelay="-1", bootcount="98")),
    ("numbers that begin a text", counting(upgrade_available="2x", bootlimit="12 3", bootcount="010abc")),
    ("texts that no number begins", counting(upgrade_available="1", bootlimit="-1", bootcount="x", **GOT)),
    ("an upgrade that is no number", counting(upgrade_available="yes", bootcount="7", **GOT)),
    ("a negative count", counting(bootcount="-7")),
    ("a large count", counting(bootcount="4294967293", bootlimit="4294967294")),
    ("a type that takes the count", counting(**{".flags": "bootcount:da,bootlimit:do,altbootcmd:so"})),
    ("a hexadecimal count", counting(bootcount="0x5")),
    ("a hexadecimal limit", counting(bootlimit="0X10", bootcount="16", **GOT)),
    ("a hexadecimal upgrade", counting(upgrade_available="0x1", bootcount="2", **GOT)),
    ("numbers of both bases", counting(bootlimit="08", bootcount="0x0ag1", **GOT)),
    ("no digits behind 0x", counting(bootlimit="0xg", bootcount="00x5", **GOT)),
    ("a larger count", counting(bootcount="4294967296", bootlimit="4294967295", bootcmd=BACK)),
    ("a larger upgrade", counting(upgrade_available="4294967296", bootcount="2", **GOT)),
    ("a count that begins anew", counting(bootcount="18446744073709551615", **GOT)),
    ("a limit that is read as 4", counting(bootlimit="18446744073709551620", bootcount="0x10000000000000004", **GOT)),
    ("a count that may not be written", counting(**{".flags": "bootcount:so"}, bootcount="2", **GOT)),
    ("one that stays beyond the limit", counting(**{".flags": "bootcount:do"}, bootcount="3", **GOT)),
    ("one that only its default would allow", counting(**{".flags": "bootcount:sc"}, bootcount="0x1", bootlimit="1", **GOT)),
    ("a count of another type", counting(**{".flags": "bootcount:b"}, bootcount="1", bootlimit="1", **GOT)),
    ("no room for the count", full(), "counts-without-room", b"0 resets / .. / bootcount=10 / .. / got=10 / ..", b"0 resets / .. / bootcount=9 / .. / got=9 / .."),
]  # fmt: skip


class SwitchedOn(Board):
    """A board that is switched on and left alone."""

    def boot(self):
        printed, mended = b"", 0
        while not printed.endswith(PROMPT):
            printed += self.wait_for(b" ", b"\n")
            if len(STARTED.findall(printed)) > MOST_STARTS:
                raise Silent(f"it resets itself without an end; the console printed last {printed[-300:]!r}")
            if printed.count(AUTOBOOT) > mended:
                self.mend_flash()
                mended = printed.count(AUTOBOOT)
        return printed

    def begin(self):
        """It has been mended."""

    def resets(self):
        return len(STARTED.findall(self.greeting)) - 1


def answer(resets, variables):
    return b"%d resets\n" % resets + lines_of({name: value for name, value in variables.items() if name not in AUTOMATIC})


def on_board(copy):
    with SwitchedOn(copy.image, copy.firmware) as board:
        _, variables = Geometry(1, copy.size).read(board.stored(copy.size))
        return answer(board.resets(), variables)


def by_boot(copy, variables, options):
    """From one stored environment to the next, of which each has one way."""
    copy.stubs.write_bytes(RULES)
    output = copy.run("boot", "--board", copy.stubs, *options).stdout
    stored = re.findall(rb"^stored \d+\n((?:  (?!resets: |gives up;).*\n)*)  (.*); stored (\d+)\n", output, re.M)
    at, resets = 1, 0
    while stored[at - 1][1] != b"gives up":
        at, resets = int(stored[at - 1][2]), resets + 1
    return answer(resets, changed(variables, stored[int(stored[at - 1][2]) - 1][0].splitlines()))


def changed(variables, lines):
    """The variables with the changes that are told of them."""
    gone = [line.removeprefix(b"  ").removesuffix(b" (gone)") for line in lines if b"=" not in line]
    new = dict(line.removeprefix(b"  ").split(b"=", 1) for line in lines if b"=" in line)
    return {name: value for name, value in (variables | new).items() if name not in gone}


def answers_to_power_ons(variables, copy, *options):
    """What both answer."""
    copy.store(variables)
    by_program = by_boot(copy, variables, options)
    return on_board(copy), by_program


def power_on_rows():
    """The rows of a board that doesn't count, each with its variables."""
    return rows_of("power-on", POWER_ONS)


def counted_rows():
    """Those of one that counts."""
    return rows_of("counted power-on", COUNTED)


def rows_of(kind, power_ons):
    for what, variables, *difference in power_ons:
        differences = [Difference("", [difference[0]], *([line] for line in difference[1:]))] if difference else []
        yield Row(f"{kind}: {what}", differences=differences), variables
