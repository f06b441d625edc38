"""Power-ons by hand (docs/boot.md): each row is an environment and a board file, and what `fwenv boot` prints of them."""

from differential.harness.boards import BLANK, CONFIG, PAIR, STRICT, arguments, board, calls
from differential.harness.running import Case
from model.arguments import AND_ENV, MANY_SCRIPTS, NO_COPY, NO_NUMBER, NO_SHELL, READ_TWICE, SIZE_ALONE
from model.image import Geometry, entries
from model.program import NO_SECOND, NOT_A_STAND_IN, WARNING, Answer

TOP = b"bootm -> boots\nreset -> resets\n"
SLOTS = b"load -> ?\n" + TOP
ONE = b"1 stored environment, 1 way: "
NEVER = b"1 stored environment never boots again, after:\n"
MAYBE = b"1 stored environment boots only if a limit of the run isn't met\n"
LIMIT = b"a limit was met: there are more ways than these\n"
GIVES_UP = b"stored 1\n  gives up; stored 1\n" + ONE + b"0 boot, 0 reset, 1 give up, 0 unknown\n" + NEVER


def boots(by):
    """One way, a boot by this."""
    return b"stored 1\n  boots: " + by + b"; stored 1\n" + ONE + b"1 boot, 0 reset, 0 give up, 0 unknown\n"


def unknown(limit):
    return b"stored 1\n  unknown: " + limit + b"; stored 1\n" + ONE + b"0 boot, 0 reset, 0 give up, 1 unknown\n" + MAYBE


def resets(by):
    return b"stored 1\n  resets: " + by + b"; stored 1\n" + ONE + b"0 boot, 1 reset, 0 give up, 0 unknown\n" + NEVER


# A counter that falls with each power-on, and what is left once it is 0
COUNTER = b"left=2\nbootcmd=if test ${left} = 0; then exit; fi; setexpr left ${left} - 1; saveenv; load mmc 0:1 a && bootm; reset\n"
COUNTED = b"""stored 1
  load mmc 0:1 a = 0: boots: bootm; stored 2
  load mmc 0:1 a = 1: resets: reset; stored 2
stored 2
  left=1
  load mmc 0:1 a = 0: boots: bootm; stored 3
  load mmc 0:1 a = 1: resets: reset; stored 3
stored 3
  left=0
  gives up; stored 3
3 stored environments, 5 ways: 2 boot, 2 reset, 1 give up, 0 unknown
1 stored environment never boots again, after:
  stored 1: load mmc 0:1 a = 0: boots: bootm; stored 2
  stored 2: load mmc 0:1 a = 0: boots: bootm; stored 3
"""
# The same, and then it goes round between two environments
ROUND = (
    b"end=a\nleft=1\nturn=if test ${end} = a; then setenv end b; else setenv end a; fi; saveenv\n"
    b"bootcmd=if test ${left} = 0; then run turn; exit; fi; load mmc 0:1 a && bootm; setenv left 0; saveenv; reset\n"
)
ROUNDS = b"""stored 1
  load mmc 0:1 a = 0: boots: bootm; stored 1
  load mmc 0:1 a = 1: resets: reset; stored 2
stored 2
  left=0
  gives up; stored 3
stored 3
  end=b
  left=0
  gives up; stored 2
3 stored environments, 4 ways: 1 boot, 1 reset, 2 give up, 0 unknown
2 stored environments never boot again, the first of them after:
  stored 1: load mmc 0:1 a = 1: resets: reset; stored 2
"""
# A board that tells of a failed try, and forgets it at the next one; and one whose second try may not come to its end
TRIES = (
    b'a=x y\nbootcmd=if test -n "${failed}"; then setenv failed; saveenv; load usb && bootm 2; '
    b"else load mmc && bootm 1; setenv failed 1; setenv a; saveenv; fi; reset\n"
)
TRIED = b"""stored 1
  load mmc = 0: boots: bootm 1; stored 1
  load mmc = 1: resets: reset; stored 2
stored 2
  failed=1
  a (gone)
  load usb = 0: boots: bootm 2; stored 3
  load usb = 1: resets: reset; stored 3
stored 3
  a (gone)
  load mmc = 0: boots: bootm 1; stored 3
  load mmc = 1: resets: reset; stored 2
3 stored environments, 6 ways: 3 boot, 3 reset, 0 give up, 0 unknown
"""
LOOPS = (
    b'bootcmd=if test -n "${failed}"; then while load usb; do true; done; load usb || run bootcmd; '
    b"else load mmc && bootm 1; setenv failed 1; saveenv; fi; reset\n"
)
LOOPED = b"""stored 1
  load mmc = 0: boots: bootm 1; stored 1
  load mmc = 1: resets: reset; stored 2
stored 2
  failed=1
  load usb = 0: unknown: Steps; stored 2
  load usb = 1: unknown: Depth; stored 2
2 stored environments, 4 ways: 1 boot, 1 reset, 0 give up, 2 unknown
1 stored environment boots only if a limit of the run isn't met
"""
# An environment as a text, a board file, what is printed, and perhaps options; the status is 0 if each stored environment boots
ROWS = [
    ("one boot", b"bootcmd=bootm 0x46000000", TOP, boots(b"bootm 0x46000000")),
    ("a status that isn't asked for", b"bootcmd=load || bootm; reset", b"load 1\n" + TOP, boots(b"bootm")),
    ("two slots", b"bootcmd=load mmc 0:1 a && bootm; load mmc 0:2 a && bootm", SLOTS, b"""stored 1
  load mmc 0:1 a = 0: boots: bootm; stored 1
  load mmc 0:1 a = 1, load mmc 0:2 a = 0: boots: bootm; stored 1
  load mmc 0:1 a = 1, load mmc 0:2 a = 1: gives up; stored 1
1 stored environment, 3 ways: 2 boot, 0 reset, 1 give up, 0 unknown
"""),
    ("the first question is the slowest", b"bootcmd=load a; load b; load a && reset; bootm", SLOTS, b"""stored 1
  load a = 0, load b = 0: resets: reset; stored 1
  load a = 0, load b = 1: resets: reset; stored 1
  load a = 1, load b = 0: boots: bootm; stored 1
  load a = 1, load b = 1: boots: bootm; stored 1
1 stored environment, 4 ways: 2 boot, 2 reset, 0 give up, 0 unknown
"""),
    ("a call has one answer", b"bootcmd=load a; load a && bootm; load 'a'; load 'a ' && bootm 2", SLOTS, b"""stored 1
  load a = 0: boots: bootm; stored 1
  load a = 1, load a  = 0: boots: bootm 2; stored 1
  load a = 1, load a  = 1: gives up; stored 1
1 stored environment, 3 ways: 2 boot, 0 reset, 1 give up, 0 unknown
"""),
    ("a rule before the question", b"bootcmd=load mmc && bootm 1; load usb && bootm 2; reset", b"load mmc -> 1\nload -> ?\n" + TOP, b"""stored 1
  load usb = 0: boots: bootm 2; stored 1
  load usb = 1: resets: reset; stored 1
1 stored environment, 2 ways: 1 boot, 1 reset, 0 give up, 0 unknown
"""),
    ("the full name", b"bootcmd=loa.b mmc && boo.x 1; rese", SLOTS, b"""stored 1
  load mmc = 0: boots: bootm 1; stored 1
  load mmc = 1: resets: reset; stored 1
1 stored environment, 2 ways: 1 boot, 1 reset, 0 give up, 0 unknown
"""),
    ("a builtin's question", b"bootcmd=env defa -a && bootm; setexpr x *1000 && bootm 2", b"env -> ?\nsetexpr * ** -> ?\n" + TOP, b"""stored 1
  env defa -a = 0: boots: bootm; stored 1
  env defa -a = 1, setexpr x *1000 = 0: boots: bootm 2; stored 1
  env defa -a = 1, setexpr x *1000 = 1: gives up; stored 1
1 stored environment, 3 ways: 2 boot, 0 reset, 1 give up, 0 unknown
"""),
    ("a file", b"bootcmd=if test -e mmc 0:1 a; then bootm; fi; reset", b"test -e mmc * * -> ?\n" + TOP, b"""stored 1
  test -e mmc 0:1 a = 0: boots: bootm; stored 1
  test -e mmc 0:1 a = 1: resets: reset; stored 1
1 stored environment, 2 ways: 1 boot, 1 reset, 0 give up, 0 unknown
"""),
    ("a file that isn't there", b"bootcmd=test ! -e mmc 0 a && bootm", b"test -e mmc 0 a -> ?\n" + TOP, b"""stored 1
  test -e mmc 0 a = 0: gives up; stored 1
  test -e mmc 0 a = 1: boots: bootm; stored 1
1 stored environment, 2 ways: 1 boot, 0 reset, 1 give up, 0 unknown
"""),
    ("two files in one test", b"bootcmd=test -e mmc 0 a -o -e usb 0 a && bootm", b"test -e -> ?\n" + TOP, b"""stored 1
  test -e mmc 0 a = 0, test -e usb 0 a = 0: boots: bootm; stored 1
  test -e mmc 0 a = 0, test -e usb 0 a = 1: boots: bootm; stored 1
  test -e mmc 0 a = 1, test -e usb 0 a = 0: boots: bootm; stored 1
  test -e mmc 0 a = 1, test -e usb 0 a = 1: gives up; stored 1
1 stored environment, 4 ways: 3 boot, 0 reset, 1 give up, 0 unknown
"""),
    ("no file in the strict shell", b"bootcmd=test -e mmc 0 a && bootm", b"test -e -> ?\n" + TOP, GIVES_UP, *STRICT),
    ("a question in an answer", b"bootcmd=dhcp && bootm ${got}; reset", b"dhcp -> ping ${0} && setenv got it\nping -> ?\n" + TOP, b"""stored 1
  ping dhcp = 0: boots: bootm it; stored 1
  ping dhcp = 1: resets: reset; stored 1
1 stored environment, 2 ways: 1 boot, 1 reset, 0 give up, 0 unknown
"""),
    ("a stand-in that leaves the board", b"bootcmd=load || booti; booti 1; reboot", b"load -> ?\nbooti 2 -> 0\n", b"""stored 1
  load = 0: boots: booti 1; stored 1
  load = 1: boots: booti; stored 1
1 stored environment, 2 ways: 2 boot, 0 reset, 0 give up, 0 unknown
""", b"--stubs", b"stand-ins", b"--boots", b"booti", b"--resets=reboot"),
    ("one that resets", b"bootcmd=mmc; reboot now; booti", b"", resets(b"reboot now"), b"--stubs", b"stand-ins", b"--boots", b"booti", b"--resets=reboot"),
    ("nothing is defined", b"", TOP, GIVES_UP),
    ("no bootcmd", b"a=1\nbootdelay=3", TOP, GIVES_UP),
    ("no script", b"bootcmd=if bootm", TOP, GIVES_UP),
    ("an exit", b"bootcmd=exit; bootm", TOP, GIVES_UP),
    ("an exit in the strict shell", b"bootcmd=exit; bootm", TOP, GIVES_UP, *STRICT),
    ("a text that goes on behind an exit", b"bootcmd=run a; bootm\na=exit 3", TOP, boots(b"bootm")),
    ("preboot", b"preboot=setenv x 1\nbootcmd=bootm ${x}", TOP, boots(b"bootm 1")),
    ("preboot fails", b"preboot=false\nbootcmd=bootm $?", TOP, boots(b"bootm 1")),
    ("preboot is no script", b"preboot=if\nbootcmd=bootm", TOP, boots(b"bootm")),
    ("preboot ends", b"preboot=exit 1\nbootcmd=bootm", TOP, boots(b"bootm")),
    ("preboot boots", b"preboot=bootm 1\nbootcmd=reset", TOP, boots(b"bootm 1")),
    ("preboot resets", b"preboot=reset\nbootcmd=bootm", TOP, resets(b"reset")),
    ("preboot's local variables", b"preboot=x=1\nbootcmd=bootm ${x}", TOP, boots(b"bootm 1")),
    ("no delay", b"bootdelay=-1\nbootcmd=bootm", TOP, GIVES_UP),
    ("a delay of -01", b"bootdelay=-01\nbootcmd=bootm", TOP, GIVES_UP),
    ("a delay with a unit", b"bootdelay=-1s\nbootcmd=bootm", TOP, GIVES_UP),
    ("a delay of -10", b"bootdelay=-10\nbootcmd=bootm", TOP, boots(b"bootm")),
    ("no number", b"bootdelay=no\nbootcmd=bootm", TOP, boots(b"bootm")),
    ("preboot without a delay", b"bootdelay=-1\nbootcmd=reset\npreboot=bootm", TOP, boots(b"bootm")),
    ("preboot takes the delay away", b"preboot=setenv bootdelay -1\nbootcmd=bootm", TOP, GIVES_UP),
    ("preboot gives one", b"bootdelay=-1\npreboot=setenv bootdelay 0\nbootcmd=bootm", TOP, boots(b"bootm")),
    ("another delay", b"bootdelay=-2\nbootcmd=bootm", TOP, boots(b"bootm")),
    ("each power-on is without local variables", b"bootcmd=if test -n \"${x}\"; then bootm; fi; x=1; reset", TOP, resets(b"reset")),
    ("what isn't saved is gone", b"bootcmd=if test -n \"${x}\"; then bootm; fi; setenv x 1; reset", TOP, resets(b"reset")),
    ("a save before the change", b"bootcmd=saveenv; setenv x 1; reset", TOP, resets(b"reset")),
    ("a save", b"bootcmd=if test -n \"${x}\"; then bootm; fi; setenv x 1; saveenv; setenv y 1; reset", TOP, b"""stored 1
  resets: reset; stored 2
stored 2
  x=1
  boots: bootm; stored 2
2 stored environments, 2 ways: 1 boot, 1 reset, 0 give up, 0 unknown
"""),
    ("two saves", b"bootcmd=setenv x 1; saveenv; load && saveenv; setenv x; saveenv; bootm", SLOTS, b"""stored 1
  load = 0: boots: bootm; stored 1
  load = 1: boots: bootm; stored 1
1 stored environment, 2 ways: 2 boot, 0 reset, 0 give up, 0 unknown
"""),
    ("changes by their names", b"bootcmd=setenv d; setenv a '1\\\n2'; setenv b; setenv c 4; saveenv; bootm\nb=2\nc=3\nd=4\n", TOP, b"""stored 1
  boots: bootm; stored 2
stored 2
  a=1
2
  c=4
  b (gone)
  d (gone)
  boots: bootm; stored 2
2 stored environments, 2 ways: 2 boot, 0 reset, 0 give up, 0 unknown
"""),
    ("a counter", COUNTER, SLOTS, COUNTED),
    ("two environments that never boot again", ROUND, SLOTS, ROUNDS),
    ("a try that is forgotten", TRIES, SLOTS, TRIED),
    ("an endless loop", b"bootcmd=while true; do true; done; bootm", TOP, unknown(b"Steps")),
    ("a run of itself", b"bootcmd=run bootcmd", TOP, unknown(b"Depth")),
    ("a long word", b"bootcmd=echo $x$x; bootm\nx=" + b"y" * 2049, TOP, unknown(b"Word")),
    ("a long text", b"bootcmd=while true; do echo $x; done\nx=" + b"y" * 999, TOP, unknown(b"Output")),
    ("ways that may not end", LOOPS, SLOTS, LOOPED),
    ("one stored environment", COUNTER, SLOTS, b"""stored 1
  load mmc 0:1 a = 0: boots: bootm; stored 2
  load mmc 0:1 a = 1: resets: reset; stored 2
stored 2
  left=1
2 stored environments, 2 ways: 1 boot, 1 reset, 0 give up, 0 unknown
""" + LIMIT, b"--stored", b"1"),
    ("as many as there are", COUNTER, SLOTS, COUNTED, b"--stored=3"),
    ("no stored environment", b"bootcmd=bootm", TOP, b"stored 1\n1 stored environment, 0 ways: 0 boot, 0 reset, 0 give up, 0 unknown\n" + LIMIT, b"--stored=0"),
    ("no way", b"bootcmd=bootm", TOP, b"stored 1\n1 stored environment, 0 ways: 0 boot, 0 reset, 0 give up, 0 unknown\n" + LIMIT, b"--ways=0"),
    ("one way", b"bootcmd=bootm", TOP, boots(b"bootm"), b"--ways", b"1"),
    ("a way too many", b"bootcmd=load && bootm; reset", SLOTS, b"""stored 1
  load = 0: boots: bootm; stored 1
1 stored environment, 1 way: 1 boot, 0 reset, 0 give up, 0 unknown
""" + LIMIT, b"--ways=2"),
]  # fmt: skip
# Power-ons that are counted, and scripts that the system runs once it has booted
COUNTS = [
    ("a count without an upgrade", b"bootcount=7\nbootlimit=1\nbootcmd=bootm ${bootcount}", TOP, boots(b"bootm 1"), b"--bootcount"),
    ("a count", b"upgrade_available=1\nbootlimit=2\nbootcmd=load && bootm; reset\naltbootcmd=setenv upgrade_available 0; saveenv; bootm 2", SLOTS, b"""stored 1
  load = 0: boots: bootm; stored 2
  load = 1: resets: reset; stored 2
stored 2
  bootcount=1
  load = 0: boots: bootm; stored 3
  load = 1: resets: reset; stored 3
stored 3
  bootcount=2
  boots: bootm 2; stored 4
stored 4
  bootcount=3
  upgrade_available=0
  load = 0: boots: bootm; stored 4
  load = 1: resets: reset; stored 4
4 stored environments, 7 ways: 4 boot, 3 reset, 0 give up, 0 unknown
""", b"--bootcount"),
    ("the same without the option", b"upgrade_available=1\nbootlimit=2\nbootcmd=bootm ${bootcount}\naltbootcmd=bootm 2", SLOTS, boots(b"bootm")),
    ("a count behind preboot", b"preboot=x=1; setenv upgrade_available 1; setenv y 2; false\nbootcmd=bootm $? ${x}\nbootlimit=2\naltbootcmd=bootm $? ${x} ${y} ${bootcount}\nbootcount=1", TOP, b"""stored 1
  boots: bootm 1 1; stored 2
stored 2
  bootcount=2
  upgrade_available=1
  y=2
  boots: bootm 1 1 2 3; stored 3
stored 3
  bootcount=3
  upgrade_available=1
  y=2
3 stored environments, 2 ways: 2 boot, 0 reset, 0 give up, 0 unknown
""" + LIMIT, b"--bootcount", b"--stored=2"),
    ("no altbootcmd", b"upgrade_available=1\nbootlimit=1\nbootcount=1\nbootcmd=setenv x; bootm", TOP, b"""stored 1
  gives up; stored 2
stored 2
  bootcount=2
2 stored environments, 1 way: 0 boot, 0 reset, 1 give up, 0 unknown
""" + LIMIT, b"--bootcount", b"--stored=1"),
    ("no limit", b"upgrade_available=1\nbootcount=9\nbootcmd=bootm\naltbootcmd=reset", TOP, b"""stored 1
  boots: bootm; stored 2
stored 2
  bootcount=10
2 stored environments, 1 way: 1 boot, 0 reset, 0 give up, 0 unknown
""" + LIMIT, b"--bootcount", b"--stored=1"),
    ("a limit of 0", b"upgrade_available=1\nbootlimit=0\nbootcount=9\nbootcmd=bootm\naltbootcmd=reset", TOP, b"""stored 1
  boots: bootm; stored 2
stored 2
  bootcount=10
2 stored environments, 1 way: 1 boot, 0 reset, 0 give up, 0 unknown
""" + LIMIT, b"--bootcount", b"--stored=1"),
    ("numbers that begin a text", b"upgrade_available=2x\nbootlimit=12 3\nbootcount=011abc\nbootcmd=bootm\naltbootcmd=reset", TOP, b"""stored 1
  boots: bootm; stored 2
stored 2
  bootcount=12
  resets: reset; stored 3
stored 3
  bootcount=13
3 stored environments, 2 ways: 1 boot, 1 reset, 0 give up, 0 unknown
""" + LIMIT, b"--bootcount", b"--stored=2"),
    ("texts that no number begins", b"upgrade_available=yes\nbootlimit=-1\nbootcount=x\nbootcmd=bootm ${bootcount}\naltbootcmd=reset", TOP, boots(b"bootm 1"), b"--bootcount"),
    ("hexadecimal numbers", b"upgrade_available=0x1\nbootlimit=0X10\nbootcount=0xFg\nbootcmd=bootm ${bootcount}\naltbootcmd=setenv upgrade_available 0; saveenv; bootm 2", TOP, b"""stored 1
  boots: bootm 16; stored 2
stored 2
  bootcount=16
  boots: bootm 2; stored 3
stored 3
  bootcount=17
  upgrade_available=0
  boots: bootm 1; stored 3
3 stored environments, 3 ways: 3 boot, 0 reset, 0 give up, 0 unknown
""", b"--bootcount"),
    ("no hexadecimal number", b"upgrade_available=1\nbootlimit=0xg\nbootcount=00x5\nbootcmd=setenv upgrade_available 0; saveenv; bootm ${bootcount}\naltbootcmd=reset", TOP, b"""stored 1
  boots: bootm 1; stored 2
stored 2
  bootcount=1
  upgrade_available=0
  boots: bootm 1; stored 2
2 stored environments, 2 ways: 2 boot, 0 reset, 0 give up, 0 unknown
""", b"--bootcount"),
    ("the largest count", b"upgrade_available=1\nbootlimit=18446744073709551614\nbootcount=0xfffffffffffffffe\nbootcmd=bootm ${bootcount}\naltbootcmd=reset", TOP, b"""stored 1
  resets: reset; stored 2
stored 2
  bootcount=18446744073709551615
  boots: bootm 0; stored 3
stored 3
  bootcount=0
3 stored environments, 2 ways: 1 boot, 1 reset, 0 give up, 0 unknown
""" + LIMIT, b"--bootcount", b"--stored=2"),
    ("numbers beyond 64 bits", b"upgrade_available=1\nbootlimit=18446744073709551618\nbootcount=0x10000000000000002\nbootcmd=reset\naltbootcmd=setenv upgrade_available 0; saveenv; bootm ${bootcount}", TOP, b"""stored 1
  boots: bootm 3; stored 2
stored 2
  bootcount=3
  upgrade_available=0
  resets: reset; stored 2
2 stored environments, 2 ways: 1 boot, 1 reset, 0 give up, 0 unknown
1 stored environment never boots again, after:
  stored 1: boots: bootm 3; stored 2
""", b"--bootcount"),
    ("an upgrade beyond 32 bits", b"upgrade_available=4294967296\nbootlimit=1\nbootcount=7\nbootcmd=bootm ${bootcount}\naltbootcmd=reset", TOP, boots(b"bootm 1"), b"--bootcount"),
    ("a count that is written once", b".flags=bootcount:so\nupgrade_available=1\nbootlimit=2\nbootcount=2\npreboot=setenv y 1\nbootcmd=bootm ${bootcount}\naltbootcmd=reset", TOP, b"""stored 1
  boots: bootm 2; stored 2
stored 2
  y=1
  boots: bootm 2; stored 2
2 stored environments, 2 ways: 2 boot, 0 reset, 0 give up, 0 unknown
""", b"--bootcount"),
    ("one beyond the limit", b".flags=bootcount:so\nupgrade_available=1\nbootlimit=2\nbootcount=3\nbootcmd=reset\naltbootcmd=bootm ${bootcount}", TOP, boots(b"bootm 3"), b"--bootcount"),
    ("one that changes from its default", b".flags=bootcount:sc\nupgrade_available=1\nbootlimit=2\nbootcount=1\nbootcmd=bootm ${bootcount}\naltbootcmd=reset", TOP, b"""stored 1
  boots: bootm 2; stored 2
stored 2
  bootcount=2
  boots: bootm 2; stored 2
2 stored environments, 2 ways: 2 boot, 0 reset, 0 give up, 0 unknown
""", b"--bootcount"),
    ("a count of another type", b".flags=bootcount:b\nupgrade_available=1\nbootlimit=1\nbootcount=1\nbootcmd=bootm ${bootcount}\naltbootcmd=reset", TOP, boots(b"bootm 1"), b"--bootcount"),
    ("counted without a delay", b"bootdelay=-1\nupgrade_available=1\nbootcmd=bootm", TOP, b"""stored 1
  gives up; stored 2
stored 2
  bootcount=1
2 stored environments, 1 way: 0 boot, 0 reset, 1 give up, 0 unknown
""" + LIMIT, b"--bootcount", b"--stored=1"),
    ("preboot boots before the count", b"preboot=bootm 1\nupgrade_available=1\nbootcmd=reset", TOP, boots(b"bootm 1"), b"--bootcount"),
    ("a limit before the count", b"preboot=run preboot\nupgrade_available=1\nbootcmd=bootm", TOP, b"""stored 1
  unknown: Depth; stored 1
1 stored environment, 1 way: 0 boot, 0 reset, 0 give up, 1 unknown
""" + MAYBE, b"--bootcount"),
    ("a question before the count", b"preboot=load 1 && setenv upgrade_available 0; saveenv\nupgrade_available=1\nbootlimit=1\nbootcmd=load 2 && bootm; reset\naltbootcmd=bootm 2", SLOTS, b"""stored 1
  load 1 = 0, load 2 = 0: boots: bootm; stored 2
  load 1 = 0, load 2 = 1: resets: reset; stored 2
  load 1 = 1, load 2 = 0: boots: bootm; stored 3
  load 1 = 1, load 2 = 1: resets: reset; stored 3
stored 2
  upgrade_available=0
  load 1 = 0, load 2 = 0: boots: bootm; stored 2
  load 1 = 0, load 2 = 1: resets: reset; stored 2
  load 1 = 1, load 2 = 0: boots: bootm; stored 2
  load 1 = 1, load 2 = 1: resets: reset; stored 2
stored 3
  bootcount=1
3 stored environments, 8 ways: 4 boot, 4 reset, 0 give up, 0 unknown
""" + LIMIT, b"--bootcount", b"--stored=2"),
    ("a full environment", b"upgrade_available=1\nbootcmd=bootm ${bootcount}", TOP, boots(b"bootm"), b"--bootcount", b"--size=0x3c"),
    ("a full environment at the limit", b"upgrade_available=1\nbootlimit=9\nbootcount=9\nbootcmd=reset\naltbootcmd=bootm ${bootcount}", TOP, boots(b"bootm 9"), b"--bootcount", b"--size=0x5d"),
    ("counted by the strict shell", b"preboot=false\nupgrade_available=1\nbootlimit=1\nbootcmd=false || bootm\naltbootcmd=setenv upgrade_available 0; saveenv; bootm 2", TOP, b"""stored 1
  boots: bootm; stored 2
stored 2
  bootcount=1
  boots: bootm 2; stored 3
stored 3
  bootcount=2
  upgrade_available=0
  boots: bootm; stored 3
3 stored environments, 3 ways: 3 boot, 0 reset, 0 give up, 0 unknown
""", b"--bootcount", b"--shell", b"strict"),
    ("a board without saves", b"upgrade_available=1\nbootlimit=1\nbootcmd=bootm ${bootcount}", b"-saveenv\n" + TOP, boots(b"bootm 1"), b"--bootcount"),
    ("a script of the system", b"upgrade_available=1\nbootlimit=1\nbootcmd=load && bootm 1; reset\naltbootcmd=setenv upgrade_available 0; setenv bootcount; saveenv; bootm 2", SLOTS, b"""stored 1
  load = 0, after = 0: boots: bootm 1; stored 2
  load = 0, after = 1: boots: bootm 1; stored 3
  load = 1: resets: reset; stored 2
stored 2
  bootcount=1
  after = 0: boots: bootm 2; stored 3
  after = 1: boots: bootm 2; stored 3
stored 3
  upgrade_available=0
  load = 0, after = 0: boots: bootm 1; stored 3
  load = 0, after = 1: boots: bootm 1; stored 3
  load = 1: resets: reset; stored 3
3 stored environments, 8 ways: 6 boot, 2 reset, 0 give up, 0 unknown
""", b"--bootcount", b"--after", b"confirm"),
    ("a script without the count", b"slot=a\nbootcmd=load ${slot} && bootm; test ${slot} = a && reset", SLOTS, b"""stored 1
  load a = 0, after = 0: boots: bootm; stored 1
  load a = 0, after = 1: boots: bootm; stored 2
  load a = 1: resets: reset; stored 1
stored 2
  slot=b
  load b = 0, after = 0: boots: bootm; stored 2
  load b = 0, after = 1: boots: bootm; stored 2
  load b = 1: gives up; stored 2
2 stored environments, 6 ways: 4 boot, 1 reset, 1 give up, 0 unknown
""", b"--after=swap"),
    ("scripts of the system", b"slot=a\nbootcmd=bootm ${slot}", SLOTS, b"""stored 1
  after = 0: boots: bootm a; stored 1
  after = 1: boots: bootm a; stored 2
  after = 2: boots: bootm a; stored 1
  after = 3: boots: bootm a; stored 3
stored 2
  slot=b
  after = 0: boots: bootm b; stored 2
  after = 1: boots: bootm b; stored 2
  after = 2: boots: bootm b; stored 2
  after = 3: boots: bootm b; stored 4
stored 3
  upgrade_available=0
  after = 0: boots: bootm a; stored 3
  after = 1: boots: bootm a; stored 4
  after = 2: boots: bootm a; stored 3
  after = 3: boots: bootm a; stored 3
stored 4
  slot=b
  upgrade_available=0
  after = 0: boots: bootm b; stored 4
  after = 1: boots: bootm b; stored 4
  after = 2: boots: bootm b; stored 4
  after = 3: boots: bootm b; stored 4
4 stored environments, 16 ways: 16 boot, 0 reset, 0 give up, 0 unknown
""", b"--after=swap", b"--after=lost", b"--after", b"confirm"),
    ("a script that asks", b"bootcmd=load old && bootm; reset", SLOTS, b"""stored 1
  load old = 0, after = 0: boots: bootm; stored 1
  load old = 0, after = 1, load new = 0: boots: bootm; stored 2
  load old = 0, after = 1, load new = 1: boots: bootm; stored 1
  load old = 1: resets: reset; stored 1
stored 2
  new=1
  load old = 0, after = 0: boots: bootm; stored 2
  load old = 0, after = 1, load new = 0: boots: bootm; stored 2
  load old = 0, after = 1, load new = 1: boots: bootm; stored 2
  load old = 1: resets: reset; stored 2
2 stored environments, 8 ways: 6 boot, 2 reset, 0 give up, 0 unknown
""", b"--after", b"asks"),
    ("a script up to a limit", b"bootcmd=if test -n \"${x}\"; then bootm 2; else bootm 1; fi", SLOTS, b"""stored 1
  after = 0: boots: bootm 1; stored 1
  after = 1: unknown: Steps; stored 2
stored 2
  x=1
  after = 0: boots: bootm 2; stored 2
  after = 1: unknown: Steps; stored 2
2 stored environments, 4 ways: 2 boot, 0 reset, 0 give up, 2 unknown
""", b"--after", b"endless", b"--steps=99"),
    ("no system, no script", b"bootcmd=load && reset", SLOTS, b"""stored 1
  load = 0: resets: reset; stored 1
  load = 1: gives up; stored 1
1 stored environment, 2 ways: 0 boot, 1 reset, 1 give up, 0 unknown
""" + NEVER, b"--after", b"swap"),
    ("a call of the same name", b"bootcmd=after && bootm", b"after -> ?\n" + TOP, b"""stored 1
  after = 0, after = 0: boots: bootm; stored 1
  after = 0, after = 1: boots: bootm; stored 2
  after = 1: gives up; stored 1
stored 2
  slot=b
  after = 0, after = 0: boots: bootm; stored 2
  after = 0, after = 1: boots: bootm; stored 2
  after = 1: gives up; stored 2
2 stored environments, 6 ways: 4 boot, 0 reset, 2 give up, 0 unknown
""", b"--after", b"swap"),
]  # fmt: skip
# Power cuts, in the one copy of a text, whose default environment is that text
CUTS = [
    ("a cut", b"bootcmd=setenv a 1; saveenv; bootm", TOP, b"""stored 1
  saveenv at step 8 = 0: boots: bootm; stored 2
  saveenv at step 8 = 1: resets: power cut; stored 1
  saveenv at step 8 = 2: resets: power cut; stored 1
stored 2
  a=1
  saveenv at step 8 = 0: boots: bootm; stored 2
  saveenv at step 8 = 1: resets: power cut; stored 2
  saveenv at step 8 = 2: resets: power cut; stored 1
2 stored environments, 6 ways: 2 boot, 4 reset, 0 give up, 0 unknown
""", b"--cuts"),
    ("a cut of nothing", b"bootcmd=bootm", TOP, boots(b"bootm"), b"--cuts"),
    ("no save", b"bootcmd=saveenv 1; env save -x; bootm", TOP, boots(b"bootm"), b"--cuts"),
    ("no save of the board", b"bootcmd=saveenv; bootm", b"-saveenv\n" + TOP, boots(b"bootm"), b"--cuts"),
    ("the words of a save", b"preboot=sav\nbootcmd=env save; bootm", TOP, b"""stored 1
  sav at step 4 = 0, env save at step 9 = 0: boots: bootm; stored 1
  sav at step 4 = 0, env save at step 9 = 1: resets: power cut; stored 1
  sav at step 4 = 0, env save at step 9 = 2: resets: power cut; stored 1
  sav at step 4 = 1: resets: power cut; stored 1
  sav at step 4 = 2: resets: power cut; stored 1
1 stored environment, 5 ways: 1 boot, 4 reset, 0 give up, 0 unknown
""", b"--cuts"),
    ("a limit before a save", b"bootcmd=saveenv; bootm", TOP, unknown(b"Steps"), b"--cuts", b"--steps=6"),
    ("a save that has no room to say so", b"bootcmd=saveenv; bootm", TOP, b"""stored 1
  saveenv at step 7 = 0: unknown: Output; stored 1
  saveenv at step 7 = 1: resets: power cut; stored 1
  saveenv at step 7 = 2: resets: power cut; stored 1
1 stored environment, 3 ways: 0 boot, 2 reset, 0 give up, 1 unknown
""" + MAYBE, b"--cuts", b"--output=12"),
    ("a cut of the strict shell", b"bootcmd=saveenv; sav; bootm", TOP, b"""stored 1
  saveenv at step 7 = 0: boots: bootm; stored 1
  saveenv at step 7 = 1: resets: power cut; stored 1
  saveenv at step 7 = 2: resets: power cut; stored 1
1 stored environment, 3 ways: 1 boot, 2 reset, 0 give up, 0 unknown
""", b"--cuts", b"--shell=strict"),
    ("a cut of the count", b"upgrade_available=1\nbootlimit=1\nbootcmd=reset\naltbootcmd=bootm", TOP, b"""stored 1
  saveenv at step 4 = 0: resets: reset; stored 2
  saveenv at step 4 = 1: resets: power cut; stored 1
  saveenv at step 4 = 2: resets: power cut; stored 1
stored 2
  bootcount=1
2 stored environments, 3 ways: 0 boot, 3 reset, 0 give up, 0 unknown
""" + LIMIT, b"--cuts", b"--bootcount", b"--stored=1"),
    ("a cut once it has booted", b"slot=a\nbootcmd=saveenv; bootm ${slot}", TOP, b"""stored 1
  saveenv at step 7 = 0, after = 0: boots: bootm a; stored 1
  saveenv at step 7 = 0, after = 1, saveenv at step 2 = 0: boots: bootm a; stored 2
  saveenv at step 7 = 0, after = 1, saveenv at step 2 = 1: boots: bootm a; stored 1
  saveenv at step 7 = 0, after = 1, saveenv at step 2 = 2: boots: bootm a; stored 1
  saveenv at step 7 = 1: resets: power cut; stored 1
  saveenv at step 7 = 2: resets: power cut; stored 1
stored 2
  slot=b
2 stored environments, 6 ways: 4 boot, 2 reset, 0 give up, 0 unknown
""" + LIMIT, b"--cuts", b"--after=swap", b"--stored=1"),
    ("a save in an answer", b"bootcmd=load && bootm; reset", b"load -> setenv a 1; saveenv; test -n ${b}\n" + TOP, b"""stored 1
  saveenv at step 10 = 0: resets: reset; stored 2
  saveenv at step 10 = 1: resets: power cut; stored 1
  saveenv at step 10 = 2: resets: power cut; stored 1
stored 2
  a=1
2 stored environments, 3 ways: 0 boot, 3 reset, 0 give up, 0 unknown
""" + LIMIT, b"--cuts", b"--stored=1"),
    ("saves without an end", b"bootcmd=while true; do saveenv; done", TOP, b"""stored 1
  saveenv at step 8 = 0, saveenv at step 10 = 0: unknown: Steps; stored 1
  saveenv at step 8 = 0, saveenv at step 10 = 1: resets: power cut; stored 1
  saveenv at step 8 = 0, saveenv at step 10 = 2: resets: power cut; stored 1
  saveenv at step 8 = 1: resets: power cut; stored 1
  saveenv at step 8 = 2: resets: power cut; stored 1
1 stored environment, 5 ways: 0 boot, 4 reset, 0 give up, 1 unknown
""" + MAYBE, b"--cuts", b"--steps=10"),
    ("a call like a save", b"bootcmd=load 'at step 8'; saveenv && bootm", SLOTS, b"""stored 1
  load at step 8 = 0, saveenv at step 8 = 0: boots: bootm; stored 1
  load at step 8 = 0, saveenv at step 8 = 1: resets: power cut; stored 1
  load at step 8 = 0, saveenv at step 8 = 2: resets: power cut; stored 1
  load at step 8 = 1, saveenv at step 8 = 0: boots: bootm; stored 1
  load at step 8 = 1, saveenv at step 8 = 1: resets: power cut; stored 1
  load at step 8 = 1, saveenv at step 8 = 2: resets: power cut; stored 1
1 stored environment, 6 ways: 2 boot, 4 reset, 0 give up, 0 unknown
""", b"--cuts"),
]  # fmt: skip
# Graphs: a slot that fails for good; each end; up to a limit; what DOT has in quotes, and bytes that are no text
GRAPHS = [
    ("a graph", b"a=1\nbootcmd=test -n \"${a}\" && load mmc && bootm; setenv a; saveenv; reset", SLOTS, b"""digraph boot {
  label="2 stored environments, 3 ways: 1 boot, 2 reset, 0 give up, 0 unknown\\l";
  s1 [label="stored 1\\l" shape=box];
  s2 [label="stored 2\\l  a (gone)\\lnever boots again\\l" shape=box color=red penwidth=2];
  s1 -> boots [label="load mmc = 0\\lboots: bootm\\l" color=darkgreen];
  s1 -> s2 [label="load mmc = 1\\lresets: reset\\l"];
  s2 -> s2 [label="resets: reset\\l"];
}
""", 1),
    ("each end", b"a=1\nbootcmd=if test ${a} = 1; then setenv a 2; saveenv; bootm; elif load mmc; then load usb; bootz; fi", b"load -> ?\nbootm -> boots\nbootz -> run bootcmd\n", b"""digraph boot {
  label="2 stored environments, 4 ways: 1 boot, 0 reset, 1 give up, 2 unknown\\l";
  s1 [label="stored 1\\l" shape=box];
  s2 [label="stored 2\\l  a=2\\lboots only if a limit of the run isn't met\\l" shape=box color=orange penwidth=2];
  s1 -> s2 [label="boots: bootm\\l" color=darkgreen];
  s2 -> unknown [label="load mmc = 0\\lload usb = 0\\lunknown: Depth\\l" color=orange];
  s2 -> unknown [label="load mmc = 0\\lload usb = 1\\lunknown: Depth\\l" color=orange];
  s2 -> "gives up" [label="load mmc = 1\\lgives up\\l" color=red];
}
""", 1),
    ("a graph up to a limit", b"bootcmd=setenv a 1; saveenv; reset", SLOTS, b"""digraph boot {
  label="2 stored environments, 1 way: 0 boot, 1 reset, 0 give up, 0 unknown\\la limit was met: there are more ways than these\\l";
  s1 [label="stored 1\\l" shape=box];
  s2 [label="stored 2\\l  a=1\\l" shape=box];
  s1 -> s2 [label="resets: reset\\l"];
}
""", 1, b"--stored=1"),
    ("quotes", b"a=x\\\\\"&<N>\\\n\ty\x1f\x7f\x80\xff\xc3\xa9~\nbootcmd=setenv b \"${a}\"; saveenv; load '\"' '\\\\N' '&amp;' && bootm", SLOTS, b"""digraph boot {
  label="2 stored environments, 4 ways: 2 boot, 0 reset, 2 give up, 0 unknown\\l";
  s1 [label="stored 1\\l" shape=box];
  s2 [label="stored 2\\l  b=x\\\\\\"&amp;<N>\\l\\\\x09y\\\\x1f\\\\x7f\\\\x80\\\\xff\\\\xc3\\\\xa9~\\l" shape=box];
  s1 -> s2 [label="load \\" \\\\N &amp;amp; = 0\\lboots: bootm\\l" color=darkgreen];
  s1 -> s2 [label="load \\" \\\\N &amp;amp; = 1\\lgives up\\l" color=red];
  s2 -> boots [label="load \\" \\\\N &amp;amp; = 0\\lboots: bootm\\l" color=darkgreen];
  s2 -> "gives up" [label="load \\" \\\\N &amp;amp; = 1\\lgives up\\l" color=red];
}
""", 0),
    ("a script's graph", b"slot=a\nbootcmd=bootm ${slot}", SLOTS, b"""digraph boot {
  label="2 stored environments, 4 ways: 4 boot, 0 reset, 0 give up, 0 unknown\\l";
  s1 [label="stored 1\\l" shape=box];
  s2 [label="stored 2\\l  slot=b\\l" shape=box];
  s1 -> boots [label="after = 0\\lboots: bootm a\\l" color=darkgreen];
  s1 -> s2 [label="after = 1\\lboots: bootm a\\l" color=darkgreen];
  s2 -> boots [label="after = 0\\lboots: bootm b\\l" color=darkgreen];
  s2 -> boots [label="after = 1\\lboots: bootm b\\l" color=darkgreen];
}
""", 0, b"--after=swap"),
]  # fmt: skip
# What is printed of arguments that are wrong, and such arguments; nothing is read
WRONG_WORDS = {
    None: (
        "boot bootcmd / boot --write / boot --overwrite / boot --must-boot / boot -e true / boot -f script / boot --stored / "
        "boot --stored 1 --stored 1 / boot --boots / boot --dot --dot / boot --dot=x / run --dot ok / check --dot / run --stored 1 ok / session --ways 1 / "
        "boot --bootcount --bootcount / boot --bootcount=1 / boot --after / run --after a ok / session --bootcount / check --bootcount / "
        "boot --cuts --cuts / boot --cuts=1 / run --cuts ok / session --cuts / check --cuts"
    ),
    NO_NUMBER % (b"100001", b"--stored", 100_000): "boot --stored 100001 / boot --ways=x --stored=100001",
    NO_NUMBER % (b"10000001", b"--ways", 10_000_000): "boot --ways 10000001 / boot --stored 100000 --ways 10000001",
    NO_NUMBER % (b"-1", b"--ways", 10_000_000): "boot --ways=-1",
    NO_NUMBER % (b"", b"--stored", 100_000): "boot --stored= / boot --stored ''",
    NO_NUMBER % (b"x", b"--steps", 1_000_000): "boot --stored=x --steps=x",
    NO_SHELL % b"x": "boot --shell=x --steps=x",
    NO_COPY % b"3": "boot --copy 3 --shell=x",
    AND_ENV % b"-c <FILE>": "boot -c absent --env absent / boot -c absent --env absent --copy 1",
    AND_ENV % b"--default <FILE>": "boot --default absent --env absent",
    AND_ENV % b"--need-copy": "boot --copy 1 --need-copy --env absent",
    AND_ENV % b"--copy <N>": "boot --copy 1 --env absent / boot --env absent --copy x",
    SIZE_ALONE: "boot --size 0x4000",
    READ_TWICE: "boot --env - --board - / boot -c - --stubs - / boot --after - --after - / boot --after a --after - --env -",
}
FILES = {
    b"stand-ins": b"mmc\nreboot\nbooti\n",
    b"confirm": b"setenv upgrade_available 0; setenv bootcount; saveenv\n",
    b"swap": b"setenv slot b; saveenv; reset\n",
    b"lost": b"setenv slot c\n",
    b"asks": b"load new && setenv new 1; saveenv; load new || bootm 9\n",
    b"endless": b"setenv x 1; saveenv; while true; do true; done\n",
    b"no-script": b"true; if\n",
}


# A script that stores a variable, or none
AFTER = b"""stored 1
  after = 0: boots: bootm; stored 1
  after = 1: boots: bootm; stored 2
stored 2
  x=1
  after = 0: boots: bootm; stored 2
  after = 1: boots: bootm; stored 2
2 stored environments, 4 ways: 4 boot, 0 reset, 0 give up, 0 unknown
"""


def row(name, words, files, output, status, errors=b"", given=b"", **rest):
    return Case(name, words, files, given, wanted=Answer(status, output, errors, files), seconds=2, **rest)


def over_text(name, environment, file, output, *options):
    """A row over an environment that is only a text."""
    files = FILES | {b"env": environment, b"board": file}
    is_well = not any(each in output for each in (b"never boot", b"only if", LIMIT))
    return row(name, [b"boot", b"--env", b"env", b"--board", b"board", *options], files, output, int(not is_well))


def rows():
    for each in ROWS + COUNTS + CUTS:
        yield over_text(*each)


def graphs():
    for name, environment, file, output, status, *options in GRAPHS:
        words = [b"boot", b"--dot", b"--env", b"env", b"--board", b"board", *options]
        yield row(name, words, FILES | {b"env": environment, b"board": file}, output, status)


def endless():
    """A counter without an end, to the usual limit."""
    lines = [b"%s  resets: reset; stored %d\n" % (b"  n=%x\n" % at if at else b"", at + 2) for at in range(1000)] + [b"  n=3e8\n"]
    output = b"".join(b"stored %d\n%s" % (at + 1, line) for at, line in enumerate(lines))
    output += b"1001 stored environments, 1000 ways: 0 boot, 1000 reset, 0 give up, 0 unknown\n" + LIMIT
    yield over_text("a counter without an end", b"n=0\nbootcmd=setexpr n ${n} + 1; saveenv; reset", TOP, output)


def files():
    """Copies of a board, of which none is written."""
    geometry = Geometry(2, 128)
    old, new = (entries({b"bootcmd": b"load %s && bootm; reset" % slot}) for slot in (b"a", b"b"))
    copies = [geometry.image(7, old), geometry.image(8, new)]
    there = board(geometry, copies) | {b"file": SLOTS, b"text": b"bootcmd=bootm 3\n"}
    for slot, words in ((b"b", []), (b"a", [b"--copy", b"1"]), (b"b", [b"--copy=2", b"--default", b"text"])):
        output = b"stored 1\n  load %s = 0: boots: bootm; stored 1\n  load %s = 1: resets: reset; stored 1\n" % (slot, slot)
        output += b"1 stored environment, 2 ways: 1 boot, 1 reset, 0 give up, 0 unknown\n"
        yield row("a copy", arguments(b"boot", b"--board", b"file", *words), there, output, 0)
    save = {b"bootcmd": b"setenv n 1; saveenv; bootm"}
    there = board(geometry, [BLANK.ljust(128, b"\0"), geometry.image(255, entries(save))]) | {b"file": SLOTS}
    output = b"stored 1\n  boots: bootm; stored 2\nstored 2\n  n=1\n  boots: bootm; stored 2\n"
    output += b"2 stored environments, 2 ways: 2 boot, 0 reset, 0 give up, 0 unknown\n"
    yield row("a save that isn't written", arguments(b"boot", b"--board", b"file"), there, output, 0)
    cut = b"stored 1\n  saveenv at step 8 = 0: boots: bootm; stored 2\n  saveenv at step 8 = 1: resets: power cut; stored 1\n"
    cut += b"stored 2\n  n=1\n  saveenv at step 8 = 0: boots: bootm; stored 2\n  saveenv at step 8 = 1: resets: power cut; stored 2\n"
    cut += b"2 stored environments, 4 ways: 2 boot, 2 reset, 0 give up, 0 unknown\n"
    yield row("a cut beside a copy that stays", arguments(b"boot", b"--board", b"file", b"--cuts"), there, cut, 0)
    there = board(Geometry(1, 128), [Geometry(1, 128).image(0, entries(save))]) | {b"file": SLOTS, b"text": b"bootcmd=bootm 3\n"}
    torn = b"stored 1\n  saveenv at step 8 = 0: boots: bootm; stored 2\n  saveenv at step 8 = 1: resets: power cut; stored 1\n"
    torn += b"  saveenv at step 8 = 2: resets: power cut; stored 3\nstored 2\n  n=1\n  saveenv at step 8 = 0: boots: bootm; stored 2\n"
    torn += b"  saveenv at step 8 = 1: resets: power cut; stored 2\n  saveenv at step 8 = 2: resets: power cut; stored 3\n"
    torn += b"stored 3\n  bootcmd=bootm 3\n  boots: bootm 3; stored 3\n3 stored environments, 7 ways: 3 boot, 4 reset, 0 give up, 0 unknown\n"
    yield row("a bad copy", arguments(b"boot", b"--board", b"file", b"--cuts", b"--default", b"text"), there, torn, 0)
    there = board(PAIR, [BLANK, BLANK]) | {b"file": SLOTS, b"text": b"a=b\n"}
    yield row("no good copy", arguments(b"boot", b"--board=file"), there, GIVES_UP, 1, WARNING)
    yield row("a default text", arguments(b"boot", b"--board=file", b"--default", b"text"), there, GIVES_UP, 1, WARNING)
    there = board(Geometry(1, 128), [Geometry(1, 128, "big").image(0, entries(save))]) | {b"file": SLOTS}
    yield row("a big-endian board", arguments(b"boot", b"--board", b"file", order="big"), there, output, 0)
    yield row("no second copy", arguments(b"boot", b"--copy=2"), there, b"", 1, NO_SECOND)


def faults():
    files = FILES | {b"env": b"bootcmd=bootm", b"board": b"mmc -> ?\nmmc dev 0 -> 0\n", b"status": b"test -e -> true\n"}
    start = [b"boot", b"--env", b"env"]
    for words, errors in (
        ([b"--board", b"board"], b"fwenv: board:2: an earlier line answers all of these calls\n"),
        ([b"--board", b"status"], b"fwenv: status:1: test -e is answered by a status alone\n"),
        ([b"--board", b"absent"], b"fwenv: cannot read absent: no such file\n"),
        ([b"--stubs", b"absent", b"--board", b"board"], b"fwenv: cannot read absent: no such file\n"),
        ([b"--boots", b"booti"], NOT_A_STAND_IN % (b"booti", b"--boots")),
        ([b"--stubs", b"stand-ins", b"--resets", b"x"], NOT_A_STAND_IN % (b"x", b"--resets")),
        ([b"--after", b"lost", b"--after", b"absent"], b"fwenv: cannot read absent: no such file\n"),
        ([b"--after=no-script"], b"fwenv: no-script:2:1: Missing: the text ends where more has to follow\n"),
    ):
        yield row("a fault of a file", [*start, *words], files, b"", 1, errors)
    yield row("no configuration", [b"boot", b"-c", b"absent"], files, b"", 1, b"fwenv: cannot read absent: no such file\n")
    yield row(
        "a script at standard input",
        [*start, b"--board", b"right", b"--after", b"-"],
        files | {b"right": TOP},
        AFTER,
        0,
        given=b"setenv x 1; saveenv",
    )
    many = [b"--after=lost"] * 254
    yield row("as many scripts as there may be", [*start, *many], files, GIVES_UP, 1)
    yield row("a script too many", [*start, *many, b"--after", b"lost"], files, b"", 1, MANY_SCRIPTS)
    yield row("a board file at standard input", [*start, b"--board", b"-"], files, boots(b"bootm"), 0, given=TOP)
    for tool in ([b"run", b"bootcmd"], [b"session"]):
        words = [*tool, b"--env", b"env", b"--board", b"board"]
        yield row("a single run", words, files, b"", 1, b"fwenv: board:1: ? is not an answer of a single run\n")


def words():
    for errors, texts in WRONG_WORDS.items():
        for given in calls(texts):
            yield row("wrong words", given, {CONFIG: b""}, b"", 2 if given[0] == b"check" else 1, errors)


def chunks():
    return [rows, graphs, endless, files, faults, words]
