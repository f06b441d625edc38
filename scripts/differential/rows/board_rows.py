"""Board files by hand (docs/runs.md, "Board files"): what is answered to calls, and which files are refused."""

from differential.harness.boards import STRICT, in_each_shell, unwritten
from differential.rows.script_rows import absent, finished, over_text, stopped
from model.board_file import SENTENCES
from model.image import Geometry
from model.script import BY_ZERO, NO_SCRIPT, UNKNOWN, WRONG_USE

BOARD_SHELL = [b"--shell", b"board"]
# A card in slot 1 with a script on it, and no network at first
CARD = b"""# a card in slot 1
mmc dev 0 -> 1
mmc
part list mmc 1 -boot* * -> setenv ${5} 2
load mmc 1:2 *                -> setenv filesize 1c4a00
load 1\r
dhcp -> if test -n "${tried}"; then true; else tried=1; false; fi
test -e mmc 1:2 /boot/* -> 0
test -e usb -> 0
test -e -> 1
env import -> setenv console ttyS2,1500000
env def* -> 3
setexpr * gsub * -> setenv ${1} ${4}
setexpr * ** -> setenv ${1} 7
booti -> boots
again -> again and again
noted -> # nothing
left -> exit 3
hollow -> if true; then else false; fi
told -> echo $? ${0} ${1}
outer -> told x; echo ${0} ${1} ${2}.
cp.* -> 0
"""
# A script, and its text, if the board is this one; what is reported, if the status isn't 0, and the shell, if it counts
ANSWERED = [
    (b"mmc dev 0 || mmc dev 1 && echo two", b"+ mmc dev 0\n+ mmc dev 1\ntwo\n", b""),
    (b"mmc; mmc dev 0 1", b"+ mmc\n+ mmc dev 0 1\n", finished(1, 2)),
    (b"mmc dev '0' ''; mmc 'dev 0'", b"+ mmc dev 0 \n+ mmc dev 0\n", b""),
    (b"part list mmc 1 -bootable p; echo ${p}", b"+ part list mmc 1 -bootable p\n2\n", b""),
    (b"part list mmc 1 -bootable", UNKNOWN % b"part", finished(1, 1)),
    (b"load mmc 1:2 0x1000 /boot/Image; echo $? ${filesize}", b"+ load mmc 1:2 0x1000 /boot/Image\n0 1c4a00\n", b""),
    (b"load mmc 1:1 0x1000; load mmc 1:2", b"+ load mmc 1:1 0x1000\n+ load mmc 1:2\n", finished(1, 2)),
    (b"dhcp || dhcp && echo got", b"+ dhcp\n+ dhcp\ngot\n", b""),
    (b"dhcp; dhcp && echo got", b"+ dhcp\n+ dhcp\ngot\n", b""),
    (b"echo a; booti 1; false", b"a\n+ booti 1\n", b""),
    (b"false; noted && echo a", b"+ noted\na\n", b""),
    (b"left; echo $?", b"+ left\n3\n", b"", BOARD_SHELL),
    (b"left; echo $?", b"+ left\n", b"fwenv: run ended as Exited with status 3 after 3 steps\n", STRICT),
    (b"hollow; echo $?", b"+ hollow\n0\n", b"", BOARD_SHELL),
    (b"hollow", b"+ hollow\n" + NO_SCRIPT % b"hollow", finished(1, 2), STRICT),
    (b"false; told a b", b"+ told a b\n1 told a\n", b"", BOARD_SHELL),
    (b"false; told a b", b"+ told a b\n0 told a\n", b"", STRICT),
    (b"p1=x; told a; told; echo ${1} ${p1}", b"+ told a\n0 told a\n+ told\n0 told\nx\n", b""),
    (b"told a b; echo ${1} ${2}", b"+ told a b\n0 told a\na b\n", b""),
    (b"outer a b", b"+ outer a b\n+ told x\n0 told x\ntold x .\n", b""),
    (b"again", b"+ again\n" + b"+ again and again\n" * 16, stopped(b"Depth", 33), [*BOARD_SHELL, b"--depth=16"]),
    (b"again", b"+ again\n" + b"+ again and again\n" * 8, stopped(b"Depth", 17), STRICT),
    (b"again", b"+ again\n", stopped(b"Depth", 1), [b"--depth=0"]),
    (b"again", b"+ again\n", stopped(b"Steps", 1), [b"--steps=1"]),
    (b"cp.b 1 2; cp.l", b"+ cp.b 1 2\n+ cp.l\n", b""),
    (b"cp 1 2", UNKNOWN % b"cp", finished(1, 1)),
    (b"mm dev 0; echo $?", b"+ mm dev 0\n1\n", b"", BOARD_SHELL),
    (b"mm dev 0", UNKNOWN % b"mm", finished(1, 1), STRICT),
    (b"load.q mmc 1:2 a && echo ${filesize}", b"+ load.q mmc 1:2 a\n1c4a00\n", b"", BOARD_SHELL),
    (b"test -e mmc 1:2 /boot/boot.scr && echo there", b"there\n", b"", BOARD_SHELL),
    (b"test ! -e mmc 1:2 /boot/boot.scr || test -e mmc 1:2 /", b"", finished(1, 2), BOARD_SHELL),
    (b"test -e mmc 1:2 /boot/a -a -e mmc 1:1 /boot/a", b"", finished(1, 1), BOARD_SHELL),
    (b"test -e usb 0 a && test ! -e mmc 0 a && echo there", b"there\n", b"", BOARD_SHELL),
    (b"test -e mmc 1:2 /boot/boot.scr", b"", finished(1, 1), STRICT),
    (b"env import -t '' 10; echo ${console}", b"+ env import -t  10\nttyS2,1500000\n", b""),
    (b"env default -a", b"+ env default -a\n", finished(3, 1)),
    (b"env export -t 10", WRONG_USE % b"env", finished(1, 1)),
    (b"env; env set || env set a 1 && echo ${a}", WRONG_USE % b"env" * 2 + b"1\n", b""),
    (b"env.x defa", b"+ env.x defa\n", finished(3, 1), BOARD_SHELL),
    (b"setexpr s gsub a b '${x}' && echo ${s}", b"+ setexpr s gsub a b ${x}\nb\n", b""),
    (b"setexpr s gsub || setexpr s sub a b", WRONG_USE % b"setexpr" * 2, finished(1, 2)),
    (b"setexpr v *1000 && setexpr v ${v} + 1; echo ${v}", b"+ setexpr v *1000\n8\n", b""),
    (b"setexpr.l v *1000; setexpr v 1 / 0", WRONG_USE % b"setexpr.l" + BY_ZERO, finished(1, 2)),
    (b"setexp.s v *1000", b"+ setexp.s v *1000\n", b"", BOARD_SHELL),
    (b"usb start; mmc dev 0", b"+ usb start\n+ mmc dev 0\n", finished(1, 2), [b"--stubs", b"stand-ins"]),
]  # fmt: skip
# A file that is refused: the line at fault and its kind
REFUSED = [
    (b"mmc\n# a\0\n", 2, "Nul"),
    (b"#" + b"x" * 4095 + b"\r\n#" + b"x" * 4096, 2, "Long"),
    (b"mmc 256", 1, "Form"),
    (b"mmc 1 2\nmmc", 1, "Form"),
    (b"echo ->0", 1, "Form"),
    (b"mmc\n -> 0", 2, "NoPattern"),
    (b"->", 1, "NoPattern"),
    (b"a" + b" a" * 256 + b" -> 0", 1, "Words"),
    (b"-" + b" a" * 256 + b" -> 0", 1, "Words"),
    (b"-" + b" a" * 255 + b" -> 0", 1, "Minus"),
    (b"-setexpr 1", 1, "Minus"),
    (b"-setexpr.b", 1, "Minus"),
    (b"mmc\n-dhcp", 2, "Minus"),
    (b"-mmc -> boots", 1, "Minus"),
    (b"echo", 1, "Builtin"),
    (b"env import -> 0\nenv exists -> 0", 2, "Builtin"),
    (b"env set x -> 0", 1, "Builtin"),
    (b"env.* 1", 1, "Builtin"),
    (b"setexp.* 1", 1, "Builtin"),
    (b"printe.* ->", 1, "Builtin"),
    (b"test -> 0", 1, "Builtin"),
    (b"test -* -> 0", 1, "Builtin"),
    (b"mmc -> \t", 1, "NoAnswer"),
    (b"mmc -> ?", 1, "Open"),
    (b"mmc -> if", 1, "NoScript"),
    (b"mmc -> echo $2", 1, "NoScript"),
    (b"test -e -> boots", 1, "NoStatus"),
    (b"test -e mmc -> true", 1, "NoStatus"),
    (b"".join(b"a%d\n" % number for number in range(513)), 513, "Many"),
    (b"mmc\nusb\nmmc 1", 3, "Unreachable"),
    (b"mmc\nmmc dev 0 -> 1", 2, "Unreachable"),
    (b"l* m* -> 1\nload mmc 1:2 -> 0", 2, "Unreachable"),
    (b"*\ntest -e -> 0", 2, "Unreachable"),
    (b"-env\nenv import -> 0", 2, "Unreachable"),
    (b"-echo\n-echo", 2, "Unreachable"),
]
# And lines that are close to these
ACCEPTED = [
    b"", b"a" + b" a" * 255 + b" -> 0", b"\r\n \t\n", b"mmc->0 -> 1", b"mmc -> 000255", b"echo.b\nech* 1\nset.* 1\n[", b"load mmc -> 1\nload mm* -> 0\nload",
    b"load* a -> 0\nload -> 1", b"env s* -> boots\nenv", b"setexpr.q 1\nsetexpr.* -> true\nsetexpr", b"mmc -> ? || boots", b"mmc -> exit ${1}; resets", b"test* -e -> boots", b"-printenv\n-exit\nenv default -> 0\n-env", b"reset -> resets\nbooti -> boots",
    b"".join(b"a%d\n" % number for number in range(512)),
]  # fmt: skip


# A board without some builtins, and what scripts do on it
LACKING = b"-setexpr\nenv import -> 0\n-env\n-test\nreset -> resets\n"
LACKED = [
    (b"setexpr a 1 + 1", UNKNOWN % b"setexpr", finished(1, 1)),
    (b"setexpr.b a 1 || echo no", UNKNOWN % b"setexpr.b" + b"no\n", b""),
    (b"env import -t 10 && echo got", b"+ env import -t 10\ngot\n", b""),
    (b"env set a 1; setenv a 2; echo ${a}", UNKNOWN % b"env" + b"2\n", b""),
    (b"test 1 = 1", UNKNOWN % b"test", finished(1, 1)),
    (b"echo a; reset now; echo b", b"a\n+ reset now\n", b""),
    (b"reset", b"+ reset\n", b'fwenv: no boot: reset by "reset" after 1 steps\n', [b"--must-boot"]),
    (b"echo a", b"a\n", b"fwenv: no boot: run ended as Finished with status 0 after 1 steps\n", [b"--must-boot"]),
]


def lacked():
    for script, output, errors, *given in LACKED:
        for words in in_each_shell([option for options in given for option in options]):
            yield over_text("a board that lacks builtins", [*words, b"--board", b"board", b"-e", script], output, errors, {b"board": LACKING})


def answered():
    files = {b"board": CARD, b"stand-ins": b"usb\nmmc\n"}
    for script, output, errors, *given in ANSWERED:
        for words in in_each_shell([option for options in given for option in options]):
            yield over_text("a board file", [*words, b"--board", b"board", b"-e", script], output, errors, files)


def refused_so(line, kind):
    return b"fwenv: board:%d: %s\n" % (line, SENTENCES[kind])


def files():
    for text, line, kind in REFUSED:
        errors = refused_so(line, kind)
        yield over_text("a wrong board file", [b"--board", b"board", b"ok"], b"", errors, {b"board": text}, seconds=1)
    for text in ACCEPTED:
        yield over_text("a board file", [b"--board=board", b"ok"], b"fine\n", b"", {b"board": text}, seconds=1)
    yield over_text("no board file", [b"--board", b"absent", b"-f", b"no"], b"", absent(b"absent"))
    yield over_text("stand-ins first", [b"--board", b"absent", b"--stubs", b"nothing", b"ok"], b"", absent(b"nothing"))


def sessions():
    small = Geometry(1, 16)
    given, output = b"mmc dev 0\n.x\nmmc; booti\necho a\n", b"+ mmc dev 0\n[Finished 1 1]\n[Unknown]\n+ mmc\n+ booti\n[Exited 0 2]\n"
    yield unwritten("a board file", small, given, output, b"--board", b"board", files={b"board": CARD})
    errors = refused_so(2, "Unreachable")
    yield unwritten("a wrong board file", small, given, b"", b"--board", b"board", files={b"board": b"mmc\nmmc"}, errors=errors)
    yield unwritten("no board file", small, given, b"", b"--board", b"absent", errors=b"fwenv: cannot read absent\n")


def chunks():
    return [answered, lacked, files, sessions]
