"""Scripts that are run for their own status, by hand: `fwenv run`, an environment that is only a text, and copies of which one has
to be good. Each row is a call, what it prints, and what it leaves."""

import re

from differential.harness.boards import BLANK, CONFIG, EMPTIED, FIRST, PAIR, SAVED, SECOND, STRICT, arguments, board, calls, in_each_shell
from differential.harness.running import Case
from differential.rows.script_faults import EMPTY_BODIES, NEAR_SCRIPTS, NO_SCRIPTS, NO_STAND_INS, NULS, refused
from model.arguments import AND_ENV, NO_NUMBER, NO_SCRIPT, NO_SHELL, NO_SIZE, READ_TWICE, SEVERAL_SCRIPTS, SIZE_ALONE
from model.dry_run import LONGEST
from model.image import LARGEST, Geometry
from model.program import LOOK_AT, NO_GOOD_COPY, NOT_A_STAND_IN, WARNING, Answer
from model.report import FAULTS
from model.script import UNKNOWN
from model.trace import ENDS as TRACE_ENDS
from model.variables import NOT_DEFINED


def no_boot(how, steps):
    return b"fwenv: no boot: %s after %d steps\n" % (how, steps)


def absent(path):
    return b"fwenv: cannot read %s: no such file\n" % path


def longer(path):
    return b"fwenv: cannot read %s: it is longer than 16777216 bytes\n" % path


def finished(status, steps):
    return b"fwenv: run ended as Finished with status %d after %d steps\n" % (status, steps)


def exited(status, steps):
    return b"fwenv: run ended as Exited with status %d after %d steps\n" % (status, steps)


def stopped(limit, steps, place=None):
    where = b"" if place is None else b' in "%s"' % place
    return b"fwenv: run ended as %s%s after %d steps\n" % (limit, where, steps)


# Variables that hold scripts, as a text for import
TEXT = b"""a=1
ok=echo fine
bad=false; true && false
leaves=exit 3
quits=echo a; exit 0; false
loop=run loop
broken=echo "x
boot=while true; do usb || mmc dev 0 && booti $a; done
two words=echo blank
it's=echo quote
'=echo a quote
$a=echo dollar
x"\\y=echo more
-x=echo dash
"""
# Names that are started, the text, and what is reported, if the status isn't 0; the same in each shell, unless one is named
NAMES = [
    ([b"ok"], b"fine\n", b""),
    ([b"bad"], b"", finished(1, 5)),
    ([*STRICT, b"leaves"], b"", exited(3, 3)),
    ([b"quits"], b"a\n", b""),
    ([b"two words"], b"blank\n", b""),
    ([b"two", b"words"], NOT_DEFINED % b"two", finished(1, 2)),
    ([b"it's"], b"quote\n", b""),
    ([b"its"], NOT_DEFINED % b"its", finished(1, 2)),
    ([b"'"], b"a quote\n", b""),
    ([b"''"], NOT_DEFINED % b"''", finished(1, 2)),
    ([b"$a"], b"dollar\n", b""),
    ([b"1"], NOT_DEFINED % b"1", finished(1, 2)),
    ([b'x"\\y'], b"more\n", b""),
    ([b"--", b"-x"], b"dash\n", b""),
    ([b""], NOT_DEFINED % b"", finished(1, 2)),
    ([b"b\nc"], NOT_DEFINED % b"b\nc", finished(1, 2)),
    ([b"-"], NOT_DEFINED % b"-", finished(1, 2)),
    ([b"broken"], b'## Error: syntax error in "broken"\n', finished(1, 2)),
    ([b"ok", b"it's", b"ok"], b"fine\nquote\nfine\n", b""),
    ([b"bad", b"ok"], b"", finished(1, 5)),
    ([b"ok", b"bad"], b"fine\n", finished(1, 7)),
    ([b"absent", b"ok"], NOT_DEFINED % b"absent", finished(1, 2)),
    ([b"ok", b"absent"], b"fine\n" + NOT_DEFINED % b"absent", finished(1, 4)),
    ([*STRICT, b"leaves", b"ok"], b"", exited(3, 3)),
    ([*STRICT, b"quits", b"bad"], b"a\n", b""),
    ([*STRICT, b"loop"], b"", stopped(b"Depth", 17, b"loop")),
    ([b"--shell=board", b"--depth=8", b"loop"], b"", stopped(b"Depth", 17, b"loop")),
    ([b"--shell=board", b"loop"], b"", stopped(b"Depth", 33, b"loop")),
    ([b"--depth", b"0", b"ok"], b"", stopped(b"Depth", 1)),
    ([b"--depth", b"1", b"ok"], b"fine\n", b""),
    ([b"--depth", b"1", b"loop"], b"", stopped(b"Depth", 3, b"loop")),
    ([b"--word", b"1", b"ok"], b"", stopped(b"Word", 0)),
    ([b"ok", b"--steps", b"2"], b"", stopped(b"Steps", 2, b"ok")),
    ([b"ok", b"bad", b"--steps", b"4"], b"fine\n", stopped(b"Steps", 4, b"bad")),
    ([b"ok", b"bad", b"--steps", b"3"], b"fine\n", stopped(b"Steps", 3)),
    ([b'x"\\y', b"--output", b"3"], b"", stopped(b"Output", 2, b'x"\\y')),
]
# A script among the arguments, the text, and what is reported, if the status isn't 0; likewise
NESTED = b"setenv d 'run e; echo 1'; setenv e 'echo 2'; run d"
SCRIPTS = [
    (b"", b"", b""),
    (b"# a comment", b"", b""),
    (b"\n\n", b"", b""),
    (b"echo a", b"a\n", b""),
    (b"echo -n a", b"a", b""),
    (b"echo -n a; false", b"a", finished(1, 2)),
    (b"echo $a; echo b", b"1\nb\n", b""),
    (b"echo a\rb \r", b"a\rb \r\n", b""),
    (b"false; true", b"", b""),
    (b"true; false", b"", finished(1, 2)),
    (b"false", b"", finished(1, 1)),
    (b"usb", UNKNOWN % b"usb", finished(1, 1)),
    (b"setenv a=b c", b'## Error: bad name or value for "a=b"\n', finished(1, 1)),
    (b"if false; then echo a; fi", b"", b"", *STRICT),
    (b"run bad", b"", finished(1, 5)),
    (b"exit", b"", b""),
    (b"exit 0; false", b"", b""),
    (b"false; exit", b"", exited(1, 2), *STRICT),
    (b"false; exit 0", b"", b""),
    (b"exit 255", b"", exited(255, 1)),
    (b"exit 256", b"## Error: wrong use of 'exit'\n", finished(1, 1), *STRICT),
    (b"echo a; run quits; false", b"a\na\n", b"", *STRICT),
    (b"while true; do true; done", b"", stopped(b"Steps", 100_000)),
    (b"echo a; echo b", b"", stopped(b"Steps", 0), b"--steps=0"),
    (b"echo a; echo b", b"a\n", stopped(b"Steps", 1), b"--steps=1"),
    (b"echo a; echo b", b"a\nb\n", b"", b"--steps=2"),
    (b"echo a; false; echo b", b"a\n", stopped(b"Steps", 2), b"--steps=2"),
    (b"exit 0", b"", stopped(b"Steps", 0), b"--steps=0"),
    (b"", b"", b"", b"--steps=0"),
    (b"echo abcd; echo abcde", b"abcd\n", stopped(b"Word", 1), b"--word=4"),
    (b"echo abcd; echo abcde", b"abcd\nabcde\n", b"", b"--word=5"),
    (b"echo ab; echo c", b"ab\n", stopped(b"Output", 1), b"--output=4"),
    (b"echo ab; echo c", b"ab\nc\n", b"", b"--output=5"),
    (b"run ok", b"", stopped(b"Depth", 1), b"--depth=0"),
    # where it stopped: the script itself, a variable, one inside that, and back
    (NESTED, b"", stopped(b"Steps", 3), b"--steps=3"),
    (NESTED, b"", stopped(b"Steps", 5, b"d"), b"--steps=5"),
    (NESTED, b"", stopped(b"Steps", 6, b"e"), b"--steps=6"),
    (NESTED, b"2\n", stopped(b"Steps", 7, b"d"), b"--steps=7"),
    (b"run ok; echo b", b"fine\n", stopped(b"Steps", 3), b"--steps=3"),
    (b"setenv d 'echo $x$x'; x=1234567; run d", b"", stopped(b"Word", 4, b"d"), b"--word=10"),
]
# The same by the board's shell, which is the usual one: what a board prints, and its status
BOARD_SCRIPTS = [
    (b"exit 256", b"", exited(255, 1)),
    (b"if false; then echo a; fi", b"", finished(1, 1)),
    (b"if false; then echo a; elif usb; then echo b; fi; echo $?", UNKNOWN % b"usb" + b"1\n", b""),
    (b"while false; do echo a; done", b"", finished(1, 1)),
    (b"false; until true; do echo a; done", b"", b""),
    (b"false; ${none}; echo $?", b"1\n", b""),
    (b"false && echo a || echo b; echo c", b"c\n", b""),
    (b"true || echo a && echo b", b"", b""),
    (b"a=2; echo $? $a", b"0 1\n", b""),
    (b"l='x y'; for i in 'a b'\"${l}\"q ''; do echo $i; done", b"a\nbx\nyq\n", b""),
    (b"false; for i in a b; do echo $?; false; done", b"0\n0\n", finished(1, 8)),
    (b"setenv d 'echo $?'; false; run d", b"1\n", b""),
    (b"test ${none} -eq 1 && echo a", b"a\n", b""),
    (b"test -e mmc 0:1 file || echo a", b"a\n", b""),
    (b"if true; then; else echo a; fi; echo $?", b"0\n", b""),
    (b"if false; then # nothing\nfi", b"", finished(1, 1)),
]
# Options, a script, and the text, if the stand-ins are these; what is reported, if the status isn't 0
STAND_INS = b"booti\nmmc\nusb 1\n"
BOOTS = [
    ([], b"booti 1; echo a", b"+ booti 1\na\n", b""),
    ([b"--boots", b"booti"], b"booti 1; echo a", b"+ booti 1\n", b""),
    ([b"--boots=booti"], b"echo a; booti; false", b"a\n+ booti\n", b""),
    ([b"--boots", b"booti"], b"while true; do booti; echo a; done", b"+ booti\n", b""),
    ([b"--boots", b"booti"], b"run boot; false", b"+ usb\n+ mmc dev 0\n+ booti 1\n", b""),
    ([b"--boots", b"booti"], b"false; booti", b"+ booti\n", b""),
    ([b"--boots", b"usb"], b"usb; echo a", b"+ usb\na\n", b""),
    ([b"--boots", b"usb"], b"echo a; usb", b"a\n+ usb\n", finished(1, 2)),
    ([b"--boots", b"mmc", b"--boots", b"booti"], b"booti; echo a", b"+ booti\n", b""),
    ([b"--boots", b"mmc", b"--boots", b"booti"], b"mmc; echo a", b"+ mmc\n", b""),
    ([b"--boots", b"booti", b"--boots", b"booti"], b"mmc; booti; echo a", b"+ mmc\n+ booti\n", b""),
    ([b"--boots", b"boot", b"--boots", b"booti1"], b"booti; false", b"", NOT_A_STAND_IN % (b"boot", b"--boots")),
    ([b"--boots", b"booti", b"--boots", b"reset"], b"reset; echo a", b"", NOT_A_STAND_IN % (b"reset", b"--boots")),
    ([b"--boots", b"true"], b"true", b"", NOT_A_STAND_IN % (b"true", b"--boots")),
    ([b"--boots", b""], b"mmc; false", b"", NOT_A_STAND_IN % (b"", b"--boots")),
    ([b"--boots", b"booti", b"--steps", b"0"], b"booti", b"", stopped(b"Steps", 0)),
    ([b"--boots", b"booti", b"--steps", b"1"], b"booti; true", b"+ booti\n", b""),
    ([b"--boots", b"booti", b"--output", b"7"], b"booti", b"", stopped(b"Output", 0)),
    ([b"--resets", b"mmc"], b"mmc; false", b"+ mmc\n", b""),
    ([b"--resets", b"usb"], b"usb; echo a", b"+ usb\na\n", b""),
    ([b"--resets", b"mmc", b"--resets", b"absent"], b"mmc", b"", NOT_A_STAND_IN % (b"absent", b"--resets")),
    ([b"--resets", b"absent", b"--boots", b"other"], b"mmc", b"", NOT_A_STAND_IN % (b"other", b"--boots")),
    ([b"--must-boot", b"--boots", b"booti"], b"mmc; booti 1 2; false", b"+ mmc\n+ booti 1 2\n", b""),
    ([b"--must-boot"], b"booti", b"+ booti\n", no_boot(b"run ended as Finished with status 0", 1)),
    ([b"--must-boot", b"--boots", b"booti"], b"exit 0; booti", b"", no_boot(b"run ended as Exited with status 0", 1)),
    ([b"--must-boot", b"--boots", b"booti"], b"exit 3; booti", b"", exited(3, 1)),
    ([b"--must-boot", b"--boots", b"booti"], b"usb", b"+ usb\n", finished(1, 1)),
    ([b"--must-boot", b"--boots", b"usb"], b"usb; true", b"+ usb\n", no_boot(b"run ended as Finished with status 0", 2)),
    ([b"--must-boot", b"--boots", b"booti", b"--steps", b"1"], b"mmc; booti", b"+ mmc\n", stopped(b"Steps", 1)),
    ([b"--must-boot", b"--boots", b"booti", b"--resets", b"mmc"], b"mmc dev 1", b"+ mmc dev 1\n", no_boot(b'reset by "mmc"', 1)),
    ([b"--must-boot", b"--boots", b"booti", b"--resets", b"mmc"], b"run boot", b"+ usb\n+ mmc dev 0\n", no_boot(b'reset by "mmc" in "boot"', 5)),
    ([b"--must-boot", b"--boots", b"mmc", b"--resets", b"mmc"], b"mmc", b"+ mmc\n", no_boot(b'reset by "mmc"', 1)),
]
# Options, a script, its text, the trace, and what is reported behind that, if the status isn't 0; in each shell, unless one is named
TRACED = [
    ([], b"echo a", b"a\n", b"-e:1:1: echo a\n", b""),
    ([], b"", b"", b"", b""),
    ([], b"# nothing\n\n  echo 'a  b' $a\n\techo; false", b"a  b 1\n\n", b"-e:3:3: echo a  b 1\n-e:4:2: echo\n-e:4:8: false\n", finished(1, 3)),
    ([], b'echo "x\ny"; echo z', b"x\ny\nz\n", b"-e:1:1: echo x\ny\n-e:2:5: echo z\n", b""),
    ([], b"true && false || ${none} $a$a", UNKNOWN % b"11", b"-e:1:1: true\n-e:1:9: false\n-e:1:18: 11\n", finished(1, 3)),
    ([], b"false && true || echo b", b"", b"-e:1:1: false\n", finished(1, 1), b"--shell=board"),
    ([], b"false && true || echo b", b"b\n", b"-e:1:1: false\n-e:1:18: echo b\n", b"", *STRICT),
    ([], b"${none}", b"", b"-e:1:1: \n", b""),
    ([], b"x='1 2'; y=; echo $x$y", b"1 2\n", b"-e:1:1: x=1 2\n-e:1:10: y=\n-e:1:14: echo 1 2\n", b""),
    ([], b"x\\\n=2;echo $x", b"2\n", b"-e:1:1: x=2\n-e:2:4: echo 2\n", b""),
    ([], b"for i in a b; do echo $i; done", b"a\nb\n", b"-e:1:5: i=a\n-e:1:18: echo a\n-e:1:5: i=b\n-e:1:18: echo b\n", b""),
    ([], b"if true; then run ok\nfi; false", b"fine\n", b"-e:1:4: true\n-e:1:15: run ok\nok:1:1: echo fine\n-e:2:5: false\n", finished(1, 5)),
    ([], b"run bad ok", b"", b"-e:1:1: run bad ok\nbad:1:1: false\nbad:1:8: true\nbad:1:16: false\n", finished(1, 5)),
    ([], b"run ok absent", b"fine\n" + NOT_DEFINED % b"absent", b"-e:1:1: run ok absent\nok:1:1: echo fine\n", finished(1, 4)),
    ([], b"run 'two words'", b"blank\n", b"-e:1:1: run two words\ntwo words:1:1: echo blank\n", b""),
    ([], b"exit 3; echo a", b"", b"-e:1:1: exit 3\n", exited(3, 1)),
    ([b"--steps=1"], b"echo a; echo b", b"a\n", b"-e:1:1: echo a\n", stopped(b"Steps", 1)),
    ([b"--word=4"], b"echo abcd; echo abcde", b"abcd\n", b"-e:1:1: echo abcd\n", stopped(b"Word", 1)),
    ([b"--output=16"], b"echo; echo; echo", b"\n\n\n", b"-e:1:1: echo\n" + TRACE_ENDS, b""),
    ([b"--output=13"], b"echo; true", b"\n", b"-e:1:1: echo\n" + TRACE_ENDS, b""),
    ([b"--output=12"], b"echo; x=", b"\n", TRACE_ENDS, b""),
    ([b"--output=0"], b"true; false", b"", TRACE_ENDS, finished(1, 2)),
    ([b"--must-boot", b"--board=board"], b"mmc a\nusb", b"+ mmc a\n+ usb\n", b"-e:1:1: mmc a\nanswer:1:1: m=a\nanswer:1:9: true\n-e:2:1: usb\n", b""),
]
# Options over two copies, of which the first is current: the text, what is reported, and both copies afterwards
AGAIN = PAIR.image(9, b"a=b\0")
SAVES = [
    ([b"--write", b"-e", b"saveenv"], b"Saved copy 2\n", b"", FIRST, SAVED),
    ([b"-e", b"saveenv"], b"Saved copy 2\n", b"", FIRST, SECOND),
    ([b"--write", b"-e", b"setenv a; saveenv; exit 0"], b"Saved copy 2\n", b"", FIRST, EMPTIED),
    ([b"--write", b"-e", b"setenv a"], b"", b"", FIRST, SECOND),
    ([b"--write", b"-e", b"saveenv; setenv a"], b"Saved copy 2\n", b"", FIRST, SAVED),
    ([b"--write", b"-e", b"saveenv; saveenv"], b"Saved copy 2\nSaved copy 1\n", b"", AGAIN, SAVED),
    ([b"--write", b"-e", b"saveenv; false; saveenv"], b"Saved copy 2\nSaved copy 1\n", b"", AGAIN, SAVED),
    ([b"--write", b"-e", b"saveenv; false"], b"Saved copy 2\n", finished(1, 2), FIRST, SAVED),
    ([b"--write", b"-e", b"saveenv; saveenv; false"], b"Saved copy 2\nSaved copy 1\n", finished(1, 3), AGAIN, SAVED),
    ([b"--write", b"-e", b"saveenv; exit 2"], b"Saved copy 2\n", exited(2, 2), FIRST, SAVED),
    ([b"--write", b"--steps=1", b"-e", b"saveenv; true"], b"Saved copy 2\n", stopped(b"Steps", 1), FIRST, SAVED),
    ([b"--write", b"--depth=0", b"-e", b"saveenv; run a"], b"Saved copy 2\n", stopped(b"Depth", 2), FIRST, SAVED),
    ([b"--write", b"--word=7", b"-e", b"saveenv; echo a $a$a$a$a$a$a$a$a"], b"Saved copy 2\n", stopped(b"Word", 1), FIRST, SAVED),
    ([b"--write", b"--output=13", b"-e", b"saveenv; echo"], b"Saved copy 2\n", stopped(b"Output", 1), FIRST, SAVED),
    ([b"--write", b"-e", b"saveenv '"], b"", refused(b"-e", 1, 9, "Quote"), FIRST, SECOND),
    ([b"--write", b"a"], UNKNOWN % b"b", finished(1, 3), FIRST, SECOND),
    ([b"--write", b"--boots", b"mmc", b"--stubs", b"stand-ins", b"-e", b"saveenv; mmc; false"], b"Saved copy 2\n+ mmc\n", b"", FIRST, SAVED),
    ([b"--write", b"--stubs", b"stand-ins", b"-e", b"saveenv; mmc; false"], b"Saved copy 2\n+ mmc\n", finished(1, 3), FIRST, SAVED),
]
# What is printed of arguments that are wrong, and such arguments; nothing is read
WRONG_WORDS = {
    NO_SCRIPT: "run / run --boots booti / run --env absent",
    SEVERAL_SCRIPTS: "run -e true ok / run ok -f script / run -e true -f script / run -f - -e true ok bad / run -e '' ''",
    None: (
        "run -e true -e true / run -f script -f script / run -e / run -e -x / run -f / run --boots / run -x / run -n ok / "
        "run --env env --env env ok / run --must-boot=1 ok / run --must-boot --must-boot ok / run --resets / session --boots / session --boots x --resets / session --must-boot / session --trace / check --boots booti / run --trace=1 ok / run --trace --trace ok / boot --trace / session -e true / printenv --env env / setenv --size 10 a b / "
        "printenv --need-copy --need-copy / --need-copy printenv / status --need-copy"
    ),
    AND_ENV % b"--write": (
        "run --write --env absent ok / run --write --size=x --env absent ok / session --write --env absent / "
        "run --steps=x --write --env absent / run --write --env absent"
    ),
    AND_ENV % b"-c <FILE>": (
        "run -c absent --env absent ok / run --write --need-copy --default=d -c=c --env absent ok / session --env absent -c absent"
    ),
    AND_ENV % b"--default <FILE>": (
        "run --env absent --default absent ok / run --write --need-copy --default=d --env absent ok / "
        "session --env absent --default absent"
    ),
    AND_ENV % b"--need-copy": (
        "run --env absent --need-copy ok / run --write --need-copy --env absent ok / session --env absent --need-copy"
    ),
    SIZE_ALONE: "run --size 0x4000 ok / run --size x -c absent ok / session --size 0x4000 / run --steps=x --size 8",
    READ_TWICE: (
        "run --env - -f - / check --env=- --stubs - / printenv -c - --default=- / restore --default - - / status -c - - / "
        "session --env - / session --stubs=- / session -c- / setenv -s - --default - / import -c - -- - / run --steps=x --board - -c - ok / "
        "check --shell=x --stubs - -f-"
    ),
    NO_NUMBER % (b"x", b"--steps", 1_000_000): "run --steps=x --env absent",
    NO_NUMBER % (b"17", b"--depth", 16): "run --depth=17 --output=x ok",
    NO_NUMBER % (b"65537", b"--word", 65_536): "run --word=65537 ok",
    NO_NUMBER % (b"-1", b"--output", 16_777_216): "run --output=-1 ok",
    NO_SHELL % b"x": "run --shell x ok / run --shell=x --steps=x --env absent / session --shell=x",
    NO_SHELL % b"Board": "run --shell Board",
    NO_SHELL % b"": "run --shell= ok / session --shell ''",
}  # fmt: skip
NO_SIZES = [
    b"", b"x", b"0", b"7", b"0x7", b"100001", b"0x100001", b"-8", b"+10", b" 10", b"10 ", b"0x", b"0x 10", b"1_0", b"4k", b"0x0x10", b"1" * 23,
]  # fmt: skip
SIZES = [b"8", b"0x8", b"0X8", b"0000000000000000000000000000000008", b"100000", b"0x100000", b"fF"]
# A text that is the whole environment, the size, a script, its text, and what is reported
ENVIRONMENTS = [
    (b"", None, b"printenv -a", b"", b""),
    (b"# nothing\n", None, b"printenv a", NOT_DEFINED % b"a", finished(1, 1)),
    (b"a=x\\\ny\\\\\n b=2\n", None, b"printenv", b"a=x\ny\\\nb=2\n", b""),
    (b"a=1\na=2\nb=3\nb=\n", None, b"printenv", b"a=2\n", b""),
    (b"a=1", None, b"saveenv; setenv a 2; saveenv", b"Saved copy 1\nSaved copy 1\n", b""),
    (b".flags=n:d\nn=1\n", None, b"setenv n x", b'## Error: type check failure for "n"\n', finished(1, 1)),
    (b".flags=n:d\nn=1\n", None, b"setenv n 2; printenv n", b"n=2\n", b""),
    (b"n=x\n.flags=n:d\n", None, b"printenv n", b"n=x\n", b""),
    (b".flags=r:sr,o:so\nr=1\no=2\n", None, b"printenv r o", b"r=1\no=2\n", b""),
    (b".flags=r:sr\nr=1\n", None, b"setenv r 2", b'## Error: Can\'t overwrite "r"\n', finished(1, 1)),
    (b".flags=r:sr\n", None, b"setenv r 2", b'## Error: Can\'t create "r"\n', finished(1, 1)),
    (b".flags=c:sc\nc=1\n", None, b"setenv c 2; printenv c; setenv c 3", b'c=2\n## Error: Can\'t overwrite "c"\n', finished(1, 3)),
    (b".flags=k:so\nk=1\n# its access is not checked\nk=2\n", None, b"printenv k", b"k=2\n", b""),
    (b"a=1\\\n2\nb=3\nc=\\\n", None, b"printenv", b"a=1\n2\nb=3\nc=\n\n", b""),
    (b"a=1\n", b"9", b"printenv a", b"a=1\n", b""),
    (b"a=1\n", b"9", b"setenv a 12", b'## Error: no room for "a"\n', finished(1, 1)),
    (b"a=1\n", b"0xa", b"setenv a 12; printenv", b"a=12\n", b""),
    (b"a=" + b"x" * 16_376, None, b"true", b"", b""),
    (b"a=" + b"x" * 0xFF8, b"0x1000", b"true", b"", b""),
]
# Such a text that can't be used, the size, and what is reported
NO_ENVIRONMENTS = [
    (b"a=1\n", b"8", b"fwenv: env: Full in line 1\n"),
    (b"a=1\n\nb=2\n", b"0xc", b"fwenv: env: Full in line 3\n"),
    (b"a=" + b"x" * 16_377, None, b"fwenv: env: Full in line 1\n"),
    (b"a=" + b"x" * 0xFF9, b"0x1000", b"fwenv: env: Full in line 1\n"),
    (b".flags=n:d\nn=x\n", None, b"fwenv: env: BadType in line 2\n"),
    (b".flags=n:d\nn=3\\\n4\n", None, b"fwenv: env: BadType in line 2\n"),
    (b"a=1\\\n2\nb=3\n", b"0xe", b"fwenv: env: Full in line 3\n"),
    (b"a=1\n=2\n", None, b"fwenv: env: EmptyName in line 2\n"),
    (b"a=1\nb\nc\n", None, b"fwenv: env:2: no = in this line; for a source in U-Boot's own form use --env-source\n"),
    (b"# x\n \n\tb # c\n", None, b"fwenv: env:3: no = in this line; for a source in U-Boot's own form use --env-source\n"),
    (b"a=1\\\n2\nb=\\\n\n c", None, b"fwenv: env:5: no = in this line; for a source in U-Boot's own form use --env-source\n"),
    (
        b"a=1\n#include <env.h>\n/* the board */\nb+=2\n",
        None,
        b"fwenv: env:3: no = in this line; for a source in U-Boot's own form use --env-source\n",
    ),
    (b"b\n=2\n", None, b"fwenv: env: EmptyName in line 2\n"),
    (b"a=" + b"x" * 16_377 + b"\nb\n", None, b"fwenv: env:2: no = in this line; for a source in U-Boot's own form use --env-source\n"),
    (b"a=1\0\n", None, b"fwenv: env: Nul\n"),
    (None, None, absent(b"env")),
    (b"\n" * (LONGEST + 1), None, longer(b"env")),
]
# Lines as U-Boot's build prints them, and what U-Boot 2023.01 has of them after an `env import -b` of the same with a 0 byte
# after each, tried in qemu
INITIALS = [
    (
        b"a=x\\\nb=y\\\\\nc=\\q\\\\\\\nd=\\\ne=1\\;2\nf=\\",
        b"a=x\\\nb=y\\\nc=q\\\\\nd=\\\ne=1;2\nf=\\\n",
    ),
]
# A source of U-Boot, and its variables: what scripts/env2string.awk of U-Boot makes of it, tried with mawk and gawk
SOURCES = [
    (b"", b""),
    (b"a=1\nb=2\na=3\n", b"a=3\nb=2\n"),
    (b"a+=x\n", b"a=x\n"),
    (b"a=1\nb=\na+=2\n", b"a=12\n"),
    (b"a=1\na=\nb=2\n", b"a=1\nb=2\n"),
    (b"b=1\na=\n", b"b=1\n"),
    (b"b=1\na=\nc=\n x\n", b"b=1\nc=x\n"),
    (b"a=1\nfoo\n", b"a=1 foo\n"),
    (b"a=\n  foo  \n\tbar\n", b"a=foo   bar\n"),
    (b"a=x \n y", b"a=x  y\n"),
    (b"a++=x\na+=y\n", b"a=y\na+=x\n"),
    (b"x=1\n\ta=c\n=b\n c d=e\n", b"x=1 a=c =b c d=e\n"),
    (b"a=\"q\" 'r' %s & /* c */ # d\n", b"a=\"q\" 'r' %s & /* c */ # d\n"),
    (b"a= \nb=1\n", b"a= \nb=1\n"),
    (b"a=1\n\n \t\n c\n", b"a=1 c\n"),
    (b'# 0 "board.env"\na=1\n# 7 "a\\b.env" 2\n b\n', b"a=1 b\n"),
    (b"a==1\n8=\xc3\xa9\n", b"8=\xc3\xa9\na==1\n"),
]
# Such a source that is refused, the line, and why
NO_SOURCES = [
    (b"a=1\n\0\r", 2, b"a byte 0"),
    (b"a=1\r\n", 1, b"a carriage return"),
    (b"\n  #include <env/ti/mmc.env>\n", 2, b"a line for the C preprocessor, which has to be run before"),
    (b"a=1\n#b=1\n", 2, b"a line for the C preprocessor, which has to be run before"),
    (b"# 1 the board\n", 1, b"a line for the C preprocessor, which has to be run before"),
    (b"a=1\n /* the board\\ */\n", 2, b"a comment for the C preprocessor, which has to be run before"),
    (b"a=1\nb=x\\\n y\n", 2, b"a backslash, which U-Boot's build changes"),
    (b"a\\+=v\n", 1, b"a backslash, which U-Boot's build changes"),
    (b"a\tb=c\n", 1, b"a tab in the name"),
    (b"1\ta=c\n", 1, b"a tab in the name"),
    (b"a=1\n7b=1\n", 2, b"a name that begins with a digit from 0 to 7, which U-Boot's build loses"),
    (b"+=\n", 1, b"no name before +="),
    (b"a=1\na+=\n 2\n", 2, b"nothing after +="),
    (b"\n\nfoo bar\na=1\n", 3, b"no variable before this line"),
    (b"  a=1\n", 1, b"no variable before this line"),
    (b"b=1\na=\n\nc=\n", 4, b"two variables without a value at the end, by which U-Boot's build loses all"),
]
# Subcommands over copies of which none is good, the file `text` being a text for import
NEED_COPY = calls(
    "printenv / printenv -n a / setenv a b / setenv -s absent / import text / import absent / export / restore text / session / "
    "session --write --stubs absent / run -e 'echo a' / run --write --stubs absent -f absent"
)
WRONG, NOT_ENDED = FAULTS["BadCrc"], FAULTS["Unterminated"]
SINGLE, LONG_LIST = Geometry(1, 10), PAIR.image(7, b"a=bcd")
TURNED, GOOD_OTHERWISE = Geometry(2, 10, "big").image(7, b"a=b\0"), b"fwenv: nothing is written: the first copy is good with --big-endian\n"
BAD_COPIES = [
    (PAIR, [BLANK, BLANK], WRONG + b" in the first copy, " + WRONG + b" in the second"),
    (PAIR, [LONG_LIST, bytes(10)], NOT_ENDED + b" in the first copy, " + WRONG + b" in the second"),
    (PAIR, [TURNED, LONG_LIST], WRONG + b" in the first copy, " + NOT_ENDED + b" in the second"),
    (SINGLE, [BLANK], WRONG),
    (SINGLE, [SINGLE.image(0, b"a=bcde")], NOT_ENDED),
]
# The same if a copy is good, or there is a default environment `text` of p=1: what is reported and printed, and the copy that a save leaves
WITH_COPY = [
    ([b"printenv"], b"a=b\n", None),
    ([b"export"], b"a=b\n", None),
    ([b"setenv", b"a", b"b"], b"", b"a=b\0"),
    ([b"import", b"text"], b"", b"p=1\0"),
    ([b"restore", b"text"], b"", b"p=1\0"),
    ([b"session"], b"a=b\n", None),
    ([b"run", b"-e", b"printenv"], b"a=b\n", None),
    ([b"run", b"--write", b"-e", b"saveenv"], b"Saved copy 1\n", b"a=b\0"),
]
# Files that aren't there, in the order in which they are used
ORDER = [
    ([b"-c", b"absent", b"--default", b"none", b"--stubs", b"nothing", b"-f", b"no"], b"absent"),
    ([b"-c", CONFIG, b"--default", b"none", b"--stubs", b"nothing", b"-f", b"no"], b"none"),
    ([b"-c", CONFIG, b"--stubs", b"nothing", b"-f", b"no"], b"nothing"),
    ([b"-c", CONFIG, b"-f", b"no"], b"no"),
    ([b"-c", CONFIG, b"-f="], b""),
    ([b"--env", b"none", b"--stubs", b"nothing", b"-f", b"no"], b"none"),
    ([b"--env", b"stand-ins", b"--stubs", b"nothing", b"-f", b"no"], b"nothing"),
    ([b"--env", b"stand-ins", b"-f", b"no"], b"no"),
    ([b"--env", b"-", b"-f", b"no"], b"no"),
]


def row(name, words, files, output, errors, left=(), given=b"", seconds=0.25, status=None):
    """The status is 1 if something is reported, 2 of a check, unless it is given."""
    refused = 2 if words[0] == b"check" else 1
    wanted = Answer(refused * (errors != b"") if status is None else status, output, errors, files | dict(left))
    return Case(name, words, files, given, wanted=wanted, seconds=seconds)


def over_text(name, words, output, errors, files=(), **rest):
    """A run over the text as environment; no configuration is there."""
    return row(name, [b"run", b"--env", b"env", *words], {b"env": TEXT} | dict(files), output, errors, **rest)


def names():
    for each, output, errors in NAMES:
        for words in in_each_shell(each):
            yield over_text("names of scripts", words, output, errors)


def scripts():
    for script, output, errors, *each in SCRIPTS:
        for words in in_each_shell(each):
            yield over_text("a script among the words", [*words, b"-e", script], output, errors, seconds=1)
            yield over_text("a script in a file", [b"-f", b"script", *words], output, errors, {b"script": script}, seconds=1)
    for script, output, errors in BOARD_SCRIPTS:
        yield over_text("a script as on a board", [b"-e", script], output, errors)
        yield over_text("a script as on a board, which is named", [b"--shell=board", b"-f", b"script"], output, errors, {b"script": script})
    yield over_text("a script behind an option's letter", [b"-eecho a"], b"a\n", b"")
    yield over_text("a script behind an equals sign", [b"-e=-x"], UNKNOWN % b"-x", finished(1, 1))
    yield over_text("standard input that isn't asked for", [b"-e", b"echo a"], b"a\n", b"", given=b"echo b\n")


def no_scripts():
    for script, *place, _ in NO_SCRIPTS:
        for words in [STRICT] if script in EMPTY_BODIES else in_each_shell([]):
            yield over_text("no script among the words", [*words, b"-e", script], b"", refused(b"-e", *place))
            yield over_text("no script in a file", [b"-f", b"a:1 b", *words], b"", refused(b"a:1 b", *place), {b"a:1 b": script})
            yield over_text("no script on standard input", [*words, b"-f", b"-"], b"", refused(b"-", *place), given=script)
    for script, (said, steps, status) in EMPTY_BODIES.items():
        yield over_text("an empty body", [b"-e", script], UNKNOWN % b"a" * said, finished(status, steps) * status)
    for script, output in NEAR_SCRIPTS:
        for words in in_each_shell([]):
            yield over_text("nearly no script", [*words, b"-e", script], output, b"")
    for script, *place in NULS:
        errors = refused(b"script", *place, "Nul")
        yield over_text("a byte 0", [b"-f", b"script"], b"", errors, {b"script": script})
    case = over_text("a path as it is given", [b"-f", b"./script"], b"", refused(b"./script", 1, 2, "Quote"), {b"script": b" '"})
    case.is_modelled = False
    yield case


def script_files():
    yield over_text("a script of lines", [b"-f", b"script"], b"a\nb\n", b"", {b"script": b"# both\necho a\necho b\n"})
    yield over_text("a script on standard input", [b"-f", b"-"], b"a\n1\n", finished(1, 3), given=b"echo a\necho $a\nfalse\n")
    yield over_text("dot lines are none", [b"-f", b"-"], UNKNOWN % b".print", finished(1, 1), given=b".print\n")
    yield over_text("no standard input", [b"-f-"], b"", b"")
    yield over_text("a file of the name run", [b"-f", b"run"], b"", refused(b"run", 1, 1, "Quote"), {b"run": b"'"})
    yield over_text("a file that is not there", [b"-f", b"absent"], b"", absent(b"absent"))
    longest, too_long = b"#" * LONGEST, b"#" * (LONGEST + 1)
    yield over_text("the longest script", [b"-f", b"script"], b"", b"", {b"script": longest}, seconds=2)
    yield over_text("a longer script", [b"-f", b"script"], b"", longer(b"script"), {b"script": too_long}, seconds=2)
    yield over_text("longer standard input", [b"-f", b"-"], b"", longer(b"-"), given=too_long, seconds=2)


def booted():
    files = {b"stand-ins": STAND_INS}
    for options, script, output, errors in BOOTS:
        for words in in_each_shell([*options, b"--stubs", b"stand-ins", b"-e", script]):
            yield over_text("a stand-in that boots", words, output, errors, files)
    yield over_text("no stand-ins", [b"-e", b"booti; echo a"], UNKNOWN % b"booti" + b"a\n", b"")
    words = [b"--boots", b"booti", b"--stubs", b"stand-ins", b"boot", b"bad"]
    yield over_text("a script that boots", words, b"+ usb\n+ mmc dev 0\n+ booti 1\n", b"", files)
    for text, errors in NO_STAND_INS:
        yield over_text("wrong stand-ins", [b"--stubs", b"stand-ins", b"ok"], b"", errors, {b"stand-ins": text})


def traced():
    files = {b"board": b"mmc -> m=${1}; true\nusb -> boots\n"}
    for options, script, output, trace, errors, *each in TRACED:
        for words in in_each_shell([*options, *each]):
            words, status = [*words, b"--trace", b"-e", script], int(errors != b"")
            yield over_text("a trace", words, output, trace + errors, files, status=status)
            # (which changes nothing else)
            yield over_text("no trace", [word for word in words if word != b"--trace"], output, errors, files)
    output, trace = b"fine\n", b"run:1:1: run ok\nok:1:1: echo fine\n"
    yield over_text("a trace of a variable", [b"--trace", b"ok"], output, trace, status=0)
    yield over_text("a trace of a file", [b"--trace", b"-f", b"script"], output, b"script:2:1: echo fine\n", {b"script": b"\necho fine"}, status=0)
    yield over_text("a trace of standard input", [b"--trace", b"-f-"], output, b"-:1:1: echo fine\n", given=b"echo fine", status=0)
    yield over_text("a trace of no script", [b"--trace", b"-e", b"'"], b"", refused(b"-e", 1, 1, "Quote"))


def saves():
    for options, output, errors, *left in SAVES:
        files = board(PAIR, [FIRST, SECOND]) | {b"stand-ins": STAND_INS}
        for words in in_each_shell(options):
            yield row("a save of a script", arguments(b"run", *words), files, output, errors, board(PAIR, left))
    newer = PAIR.image(8, b"a=c\0")
    left = board(PAIR, [PAIR.image(9, b"a=c\0"), newer])
    words = arguments(b"run", b"-e", b"saveenv", b"--write")
    yield row("a save of the first copy", words, board(PAIR, [FIRST, newer]), b"Saved copy 1\n", b"", left)
    left = board(SINGLE, [SINGLE.image(0, b"a=1\0")])
    words = arguments(b"run", b"--write", b"-e", b"setenv a 1; saveenv; setenv a 2")
    yield row("a save of a single image", words, board(SINGLE, [SINGLE.image(0, b"b=\0")]), b"Saved copy 1\n", b"", left)
    big = Geometry(2, 10, "big")
    left = board(big, [big.image(7, b"a=b\0"), big.image(8, b"a=b\0")])
    words = arguments(b"run", b"--write", b"-e", b"saveenv", order="big")
    yield row("a big-endian save", words, board(big, [big.image(7, b"a=b\0"), BLANK]), b"Saved copy 2\n", b"", left)


def without_copies():
    """Without `--need-copy` the default environment is used, and that is reported first."""
    files = board(PAIR, [BLANK, BLANK]) | {b"text": b"p=1\n"}
    left = board(PAIR, [PAIR.image(1, b"p=1\0"), BLANK])
    words = arguments(b"run", b"--default", b"text", b"--write", b"-e")
    yield row("a default text", [*words, b"saveenv"], files, b"Saved copy 1\n", WARNING, left, status=0)
    yield row("a default text", [*words, b"printenv"], files, b"p=1\n", WARNING, status=0)
    yield row("a default text", [*words, b"saveenv; false"], files, b"Saved copy 1\n", WARNING + finished(1, 2), left)
    yield row("no default text", arguments(b"run", b"p"), files, NOT_DEFINED % b"p", WARNING + finished(1, 2))
    yield row("a quote", arguments(b"run", b"-e", b"'"), files, b"", WARNING + refused(b"-e", 1, 1, "Quote"))


def words():
    files = {b"env": TEXT, b"script": b"echo a\n"}
    for errors, texts in WRONG_WORDS.items():
        for given in calls(texts):
            yield row("wrong words of a run", given, files, b"", errors)
    for text in NO_SIZES:
        for tool in ([b"run", b"ok"], [b"session"]):
            yield row("a wrong size", [*tool, b"--env", b"absent", b"--size=" + text], files, b"", NO_SIZE % text)
    for text in SIZES:
        yield row("a size", [b"run", b"--env", b"script", b"--size", text, b"-e", b"true"], {b"script": b""}, b"", b"")
    most = b"a=" + b"x" * (LARGEST - 8) + b"\n"
    yield row("the largest size", [b"run", b"--env", b"env", b"--size=100000", b"-e", b"true"], {b"env": most}, b"", b"", seconds=1)


def environments():
    for text, size, script, output, errors in ENVIRONMENTS:
        sized = [] if size is None else [b"--size", size]
        files = {b"env": text}
        yield row("a whole environment", [b"run", b"--env", b"env", *sized, b"-e", script], files, output, errors)
        given, ending = script + b"\n.save\n", b"[Finished %d %d]\nSaved copy 1\n"
        steps = int(errors.split()[-2]) if errors else len(script.split(b";"))
        output += ending % (errors != b"", steps)
        yield row("a session over it", [b"session", *sized, b"--env", b"env"], files, output, b"", given=given)
    for text, size, errors in NO_ENVIRONMENTS:
        files = {} if text is None else {b"env": text}
        sized = [b"--env", b"env"] if size is None else [b"--env", b"env", b"--size=" + size]
        yield row("no environment", [b"run", *sized, b"--stubs", b"absent", b"ok"], files, b"", errors, seconds=2)
        # (a session doesn't report why a file can't be read)
        errors = re.sub(rb"(cannot read env): .*", rb"\1", errors)
        yield row("no session over it", [b"session", *sized], files, b"", errors, given=b".print\n", seconds=2)
    for text, output in SOURCES:
        files = {b"env": text}
        yield row("a source", [b"run", b"--env-source", b"env", b"-e", b"printenv"], files, output, b"")
        yield row("a source from standard input", [b"run", b"--env-source=-", b"-e", b"printenv"], {}, output, b"", given=text)
        yield row("a session over it", [b"session", b"--env-source", b"env"], files, output, b"", given=b".print\n")
    for text, output in INITIALS:
        files = {b"env": text}
        yield row("plain lines", [b"run", b"--env-plain", b"env", b"-e", b"printenv"], files, output, b"")
        yield row("a session over them", [b"session", b"--env-plain=env"], files, output, b"", given=b".print\n")
    errors = b"fwenv: env:2: no = in this line; for a source in U-Boot's own form use --env-source\n"
    yield row("a plain line without =", [b"run", b"--env-plain", b"env", b"x"], {b"env": b"a=1\\\nb\n"}, b"", errors)
    for text, line, why in NO_SOURCES:
        for tool in (b"run a", b"session", b"check", b"boot", b"image --size 20"):
            yield row("no source", [*tool.split(), b"--env-source", b"env"], {b"env": text}, b"", b"fwenv: env:%d: %s\n" % (line, why))
    given, output = b"setenv a 2\n.save\n.undo\n.print\n", b"[Finished 0 1]\nSaved copy 1\n[Undone]\na=1\n"
    yield row("an undo to it", [b"session", b"--env", b"env", b"--big-endian"], {b"env": b"a=1\n"}, output, b"", given=given)
    yield row("a big-endian one", [b"run", b"--big-endian", b"--env", b"env", b"-e", b"printenv"], {b"env": b"a=1\n"}, b"a=1\n", b"")


def no_good_copy():
    for form, copies, said in BAD_COPIES:
        files = board(form, copies) | {b"text": b"p=1\n"}
        for words in NEED_COPY:
            writes = words[0] in (b"setenv", b"import", b"restore") or b"--write" in words
            errors = GOOD_OTHERWISE if writes and copies[0] == TURNED else NO_GOOD_COPY + said + LOOK_AT
            yield row("no good copy", arguments(*words, b"--need-copy"), files, b"", errors, given=b".save\n.print\n")
    files = board(SINGLE, [SINGLE.image(0, b"a=b\0")])
    errors = NO_GOOD_COPY + WRONG + LOOK_AT
    yield row("another byte order", arguments(b"printenv", b"--need-copy", order="big"), files, b"", errors)


def good_copies():
    """The second copy is good, and the first isn't; or a default environment is given."""
    good = PAIR.image(7, b"a=b\0")
    for words, output, area in WITH_COPY:
        files = board(PAIR, [BLANK, good]) | {b"text": b"a=\np=1\n"}
        left = board(PAIR, [PAIR.image(8, area), good]) if area else {}
        yield row("a good copy", arguments(*words, b"--need-copy"), files, output, b"", left, given=b".print\n")
    for words, output, area in WITH_COPY:
        files = board(PAIR, [BLANK, BLANK]) | {b"default": b"a=b\n", b"text": b"a=\np=1\n"}
        left = board(PAIR, [PAIR.image(1, area), BLANK]) if area else {}
        words = arguments(*words, b"--need-copy", b"--default", b"default")
        yield row("a default environment", words, files, output, WARNING, left, given=b".print\n", status=0)
    files = board(PAIR, [BLANK, BLANK])
    words = arguments(b"printenv", b"--need-copy", b"--default", b"absent")
    yield row("no default environment", words, files, b"", WARNING + b"fwenv: cannot read absent\n")


def order():
    files = board(PAIR, [FIRST, SECOND]) | {b"stand-ins": b""}
    for words, path in ORDER:
        yield row("the first file", [b"run", *words], files, b"", absent(path))
    config = board(PAIR, [FIRST, SECOND]) | {CONFIG: b"none 0 a\n"}
    words = arguments(b"run", b"--default", b"absent", b"--stubs", b"nothing", b"-f", b"no")
    yield row("a copy first", words, config, b"", absent(b"none"))


def chunks():
    return [names, scripts, no_scripts, script_files, booted, traced, saves, without_copies, words, environments, no_good_copy, good_copies, order]
