"""Faults of scripts that are found before they run, by hand: `fwenv check` over an environment and over one script. Each row is a
call and the lines that it prints; with an error among them the status is 1, and 2 if nothing could be checked. Nothing is written."""

import re

from differential.harness.boards import CONFIG, STRICT, arguments, board, calls, text_of

from differential.harness.check_lines import (
    NOTHING, QUOTING, any_target, cut_off, drops_at_load, hidden, hidden_then, lacked, last, lines, lost, no_calculation, no_script, no_setting, no_operator_of_board, no_variable, not_assigned, not_assigned_then, not_called, not_defined, not_run, not_typed, of_if, of_loop, on_board, pointed, returned,
    row, runs_nothing, stale, with_stand_ins, without,
)  # fmt: skip
from differential.harness.running import Case
from differential.rows import check_differences, check_kinds
from differential.rows.check_kinds import STAND_INS
from differential.rows.script_rows import NO_ENVIRONMENTS, NO_SIZES, absent, longer
from differential.rows.tool_rows import FIRST, PAIR, SECOND
from model.arguments import AND_ENV, FILE_AND, NO_CODE, NO_FORMAT, NO_SHELL, NO_SIZE, READ_TWICE, SIZE_ALONE
from model.dry_run import LONGEST
from model.image import Geometry
from model.program import WARNING, Answer

# Variables as a text for import, names, and all that is printed
FOLLOWED = [
    (b"a=1\n", [], []),
    (b"other=run n\nbootcmd2=run n\n", [], []),
    (b"bootcmd=run n\n", [], [not_run("bootcmd:1:5", "n")]),
    (b"altbootcmd=run n\n", [], [not_run("altbootcmd:1:5", "n")]),
    (b"preboot=run n\n", [], [not_run("preboot:1:5", "n")]),
    (
        b"preboot=run n1\naltbootcmd=run n2\nbootcmd=run n3\nother=run n4\n", [],
        [not_run("bootcmd:1:5", "n3"), not_run("altbootcmd:1:5", "n2"), not_run("preboot:1:5", "n1")],
    ),
    (b"preboot=run n1\nbootcmd=run n3\n", [b"preboot"], [not_run("preboot:1:5", "n1")]),
    (b"a=run n1\nb=run n2\n", [b"b", b"a"], [not_run("b:1:5", "n2"), not_run("a:1:5", "n1")]),
    (b"a=run n1\n", [b"a", b"a"], [not_run("a:1:5", "n1")]),
    (b"a=run n1\n", [b"none", b"a"], [no_variable("none"), not_run("a:1:5", "n1")]),
    (b"a=run n1\n", [b"a", b"none", b"lost"], [no_variable("none"), no_variable("lost"), not_run("a:1:5", "n1")]),
    (b"bootcmd=run n1\n", [b"none"], [no_variable("none")]),
    (b"a=1\n", [b"none", b"none"], [no_variable("none"), no_variable("none")]),
    (b"a=1\n", [b""], [no_variable("")]),
    (b"a=1\n", [b"a b"], [no_variable("a b")]),
    (b"a=1\n", [b"--", b"-a"], [no_variable("-a")]),
    (b"-a=run n\n", [b"--", b"-a"], [not_run("-a:1:5", "n")]),
    (b"a:1=run n\n", [b"a:1"], [not_run("a:1:1:5", "n")]),
    (b"bootcmd=run a\na=run n\nb=run n\n", [], [not_run("a:1:5", "n")]),
    (b"bootcmd=run b a\na=run n1\nb=run n2\n", [], [not_run("b:1:5", "n2"), not_run("a:1:5", "n1")]),
    (b"bootcmd=run a b\na=run c n1\nb=run n2\nc=run n3\n", [], [not_run("a:1:7", "n1"), not_run("b:1:5", "n2"), not_run("c:1:5", "n3")]),
    (b"bootcmd=run a; run n1\na=run n2; run bootcmd\n", [], [not_run("bootcmd:1:12", "n1"), not_run("a:1:5", "n2")]),
    (b"a=run b\nb=run a c\nc=run c; run n\n", [b"a"], [not_run("c:1:12", "n")]),
    (b"a=run b\nb=run n\n", [b"b", b"a"], [not_run("b:1:5", "n")]),
    (b"a=run c b\nb=run n1\nc=run n2\n", [b"a", b"b"], [not_run("b:1:5", "n1"), not_run("c:1:5", "n2")]),
    (b"bootcmd=true && run 'it''s' && run two\\\\ words\nits=run n1\ntwo words=run n2\n", [], [drops_at_load("bootcmd:1:31"), not_run("its:1:5", "n1"), not_run("two words:1:5", "n2")]),
    (b"bootcmd=env run a\na=run n\n", [], []),
    (b"bootcmd=if false; then while false; do run a; done; fi\na=run n\n", [], [not_run("a:1:5", "n")]),
    (b"bootcmd=for i in 1 2; do run a$i; run \"$x\"; done\na1=run n\nx=a1\n", [], [any_target("bootcmd:1:31"), not_run("a1:1:5", "n")]),
    (b"bootcmd=run boot_$?\nboot_b=run n2\nboot_a=run n1\nboot=run n3\naboot_=run n4\n", [], [stale("bootcmd:1:1"), not_run("boot_a:1:5", "n1"), not_run("boot_b:1:5", "n2")]),
    (b"bootcmd=run x_$? b x_1\nb=run n\nx_2=run n2\nx_1=run n1 x_3\nx_3=run n3\n", [], [stale("bootcmd:1:1"), *(not_run(f"x_{n}:1:5", f"n{n}") for n in (1, 2, 3)), not_run("b:1:5", "n")]),
    (b"bootcmd=run b x_$?\nb=run n\nx_1=run n1\n", [], [stale("bootcmd:1:1"), not_run("b:1:5", "n"), not_run("x_1:1:5", "n1")]),
    (b"bootcmd=run 'x'_\"$?\"y$? x_$?; run x_2\nx_=run n1\nx_2=run n2\nx=run n3\n", [], [stale("bootcmd:1:1"), not_run("x_:1:5", "n1"), not_run("x_2:1:5", "n2")]),
    (b"bootcmd=run boot$? X$?\nbootcmd2=run n\nx=run m\n", [], [stale("bootcmd:1:1"), not_run("bootcmd2:1:5", "n")]),
    (b"bootcmd=run $?x ''$? z$?\nx=run n\n", [], [stale("bootcmd:1:1"), any_target("bootcmd:1:5"), any_target("bootcmd:1:9")]),
    (b"a=run \xc3\xa9$?\n\xc3\xa9=run n\n\xc3\xaa=run m\n", [b"a"], [stale("a:1:1"), not_run("\u00e9:1:5", "n")]),
    (b"bootcmd=env run a$?; ru$? a; echo run a$?\na=run n\n", [], [stale("bootcmd:1:1")]),
    (b"bootcmd=run a '\na='\n", [], [no_script("bootcmd:1:7", "Quote")]),
    (b"bootcmd=run a; run b\na=echo '\nb=run n\n", [], [no_script("a:1:6", "Quote"), not_run("b:1:5", "n")]),
    (b"bootcmd=run a; x=1\na=x=2\nx=1\n", [], [not_assigned("bootcmd:1:8", "x"), not_assigned("a:1:1", "x")]),
    (b"bootcmd=echo a\\\n  run n\n", [], [not_run("bootcmd:2:7", "n")]),
    (b".flags=run:sr\n.s=run n\n", [b".s", b".flags"], [not_run(".s:1:5", "n")]),
    # what asks for the status of a script
    (b"bootcmd=run a\na=if true; then true; fi\n", [], []),
    (b"bootcmd=run a && true\na=if true; then true; fi\n", [], [of_if("a:1:4")]),
    (b"bootcmd=run a a\na=if true; then true; fi\n", [], [of_if("a:1:4")]),
    (b"bootcmd=run b a\na=if true; then true; fi\nb=true\n", [], []),
    (b"bootcmd=run a; echo $?\na=if true; then true; fi\n", [], [of_if("a:1:4")]),
    (b"bootcmd=run a; true\na=if true; then true; fi\n", [], []),
    (b"bootcmd=if run a; then true; fi\na=run b\nb=while false; do true; done\n", [], [of_loop("b:1:7")]),
    (b"bootcmd=if true; then run a; fi\na=run b\nb=while false; do true; done\n", [], []),
    (b"bootcmd=run a || true\na=run b; true\nb=if true; then true; fi\n", [], []),
    (b"bootcmd=run c; run a || true\nc=run b\na=run b\nb=if true; then true; fi\n", [], [of_if("b:1:4")]),
    (b"bootcmd=run a_${b} && true\na_1=if true; then true; fi\na_2=run c\nc=until true; do true; done\nb=1\n", [], [of_if("a_1:1:4"), of_loop("c:1:7")]),
    (b"bootcmd=run a && true\na=run a; if true; then run a; fi\n", [], [of_if("a:1:11")]),
    (b"a=run b; true\nb=if true; then true; fi\nc=run b || true\n", [b"a"], []),
    (b"a=run b; true\nb=if true; then true; fi\nc=run b || true\n", [b"a", b"c"], [of_if("b:1:4")]),
    (b"bootcmd=run a && true\na=run b\nb='\n", [], [no_script("b:1:1", "Quote")]),
    (b"bootcmd=true\nbootmenu_0=a=run a || true\na=if true; then true; fi\n", [], [of_if("a:1:4")]),
]  # fmt: skip
# The same for substitutions: any script that is checked may give a name to something
GIVEN = [
    (b"bootcmd=echo $n; run b\nb=setenv n 1\n", [], []),
    (b"bootcmd=run b; echo $n\nb=for n in 1; do true; done\n", [], []),
    (b"bootcmd=echo $n\npreboot=n=1\n", [], []),
    (b"bootcmd=run b_$?; echo $n\nb_1=setenv n 1\n", [], [stale("bootcmd:1:1")]),
    (b"bootcmd=run b\nb=run c; echo $n\nc=test -n $n\n", [], []),
    (b"bootcmd=echo $n\nb=n=1\n", [], [not_defined("bootcmd:1:6", "n")]),
    (b"bootcmd=echo $n; env run b\nb=n=1\n", [], [not_defined("bootcmd:1:6", "n")]),
    (b"bootcmd=echo $n\nb=n=1\n", [b"bootcmd", b"b"], []),
    (b"bootcmd=echo $n\nb=n=1\n", [b"b", b"bootcmd"], []),
    (b"bootcmd=run b; echo $n\nb=n=1 '\n", [], [not_defined("bootcmd:1:13", "n"), no_script("b:1:5", "Quote")]),
    (b"bootcmd=run b; echo $n\nb=setenv n 1; if\n", [], [not_defined("bootcmd:1:13", "n"), no_script("b:1:15", "Missing", lost("`then`", "if"))]),
    (b"n=1\nbootcmd=echo $n ${m}\n", [], [not_defined("bootcmd:1:9", "m")]),
    (b"n=\nbootcmd=echo $n\n", [], [not_defined("bootcmd:1:6", "n")]),
    (b"bootcmd=run b b; echo $n\nb=echo $n\n", [], [not_defined("bootcmd:1:15", "n"), not_defined("b:1:6", "n")]),
    (b"bootcmd=echo $none\n", [b"none", b"bootcmd"], [no_variable("none"), not_defined("bootcmd:1:6", "none")]),
    (b"bootcmd=echo $m ${.flags}\n.flags=m:d\n", [], [not_defined("bootcmd:1:6", "m")]),
    (b"n=x\nbootcmd=echo $m\n.flags=n:d\n", [], [not_defined("bootcmd:1:6", "m"), not_typed("n")]),
]  # fmt: skip
# The same for names that `run` starts: any script that is checked may set, test or ask for their variables
FORESEEN = [
    (b"bootcmd=if test -n ${uenvcmd}; then run uenvcmd; fi\n", [], []),
    (b"bootcmd=if test -n '${uenvcmd}'; then run uenvcmd; fi\n", [], [not_run("bootcmd:1:35", "uenvcmd")]),
    (b"bootcmd=if test -n ${uenvcmd}; then run uenvcmb; fi\n", [], [not_run("bootcmd:1:33", "uenvcmb")]),
    (b"bootcmd=run b; run n\nb=setenv n 1\n", [], []),
    (b"bootcmd=run n b\nb=run c\nc=test -n $n\n", [], []),
    (b"bootcmd=run n b_$?\nb_1=setenv n 1\n", [], [stale("bootcmd:1:1")]),
    (b"bootcmd=run n\npreboot=setexpr n 1 + 1\n", [], []),
    (b"bootcmd=run n\nb=setenv n 1\n", [], [not_run("bootcmd:1:5", "n")]),
    (b"bootcmd=run n\nb=setenv n 1\n", [b"bootcmd", b"b"], []),
    (b"bootcmd=run n\nb=setenv n 1\n", [b"b", b"bootcmd"], []),
    (b"bootcmd=run n; env run b\nb=setenv n 1\n", [], [not_run("bootcmd:1:5", "n")]),
    (b"bootcmd=run n b\nb=setenv n 1 '\n", [], [not_run("bootcmd:1:5", "n"), no_script("b:1:12", "Quote")]),
    (b"bootcmd=run n m; setenv n 1\nn=run lost\n", [], [not_run("bootcmd:1:7", "m"), not_run("n:1:5", "lost")]),
    (b"bootcmd=setenv n 'run lost'; run n\n", [], []),
    (b"bootcmd=setenv n 'setenv m 1'; run n m\n", [], [not_run("bootcmd:1:30", "m")]),
    (b"bootcmd=run n\n.flags=n:d\n", [], [not_run("bootcmd:1:5", "n")]),
    (b"bootcmd=setenv none 1\n", [b"none", b"bootcmd"], [no_variable("none")]),
]  # fmt: skip
# The same for names that are assigned: any script that is checked may set their variables to a value
WRITTEN = [
    (b"bootcmd=n=1; run b\nb=setenv n 2\n", [], [not_assigned_then("bootcmd:1:1", "n")]),
    (b"bootcmd=setenv n 1; for n in 1; do n=2; done\n", [], [not_assigned_then("bootcmd:1:17", "n"), not_assigned_then("bootcmd:1:28", "n")]),
    (b"bootcmd=a=1; b=1; c=1; d=1; e=1; setenv a; setenv -f b; env set c; env set -f d; setenv -f e\n", [], []),
    (b"bootcmd=a=1; b=1; setenv -f a 1; env set 'b' $none\nnone=1\n", [], [not_assigned_then("bootcmd:1:1", "a"), not_assigned_then("bootcmd:1:6", "b")]),
    (b"bootcmd=a=1; b=1; c=1; env set -f a 1; setexpr b 1 + 1; setexpr.b c 1\n", [],
     [not_assigned_then("bootcmd:1:1", "a"), not_assigned_then("bootcmd:1:6", "b"), not_assigned_then("bootcmd:1:11", "c")]),
    (b"bootcmd=a=1; b=1; c=1; d=1; setenv ${x}a 1; test -n $b; env exists c; echo d d; setenv x a 1\nx=1\n", [], []),
    (b"bootcmd=n=1\nb=setenv n 2\n", [], []),
    (b"bootcmd=n=1\nb=setenv n 2\n", [b"bootcmd", b"b"], [not_assigned_then("bootcmd:1:1", "n")]),
    (b"bootcmd=n=1; run b\nb=setenv n 2; if\n", [], [no_script("b:1:15", "Missing", lost("`then`", "if"))]),
    (b"bootcmd=n=1; setenv n 2\nn=1\n", [], [not_assigned("bootcmd:1:1", "n")]),
    (b"bootcmd=setenv n=1 1; n=1\n", [], [no_setting("bootcmd:1:1")]),
]  # fmt: skip
# Variables as a text for import, in which `.flags` comes last, names, and all that is printed: types are checked after the scripts
TYPED = [
    (b"n=x\n.flags=n:d\n", [], [not_typed("n")]),
    (b"n=17\n.flags=n:d\n", [], []),
    (b"n=x\n", [], []),
    (b"n=x\n.flags=n,m:d\n", [], []),
    (b"n=1 2\n.flags=n:s\n", [], []),
    (b"n=-1\no=1a\np=0x1\n.flags=n:d,o:d,p:d\n", [], [not_typed("n"), not_typed("o"), not_typed("p")]),
    (b"n=0x\no=0x1F\np=fg\n.flags=n:x,o:x,p:x\n", [], [not_typed("n"), not_typed("p")]),
    (b"n=y\no=yes\np=2\n.flags=n:b,o:b,p:b\n", [], [not_typed("o"), not_typed("p")]),
    (b"n=999.0.0.0\no=1.2.3\np=1.2.3.4.5\n.flags=n:i,o:i,p:i\n", [], [not_typed("o"), not_typed("p")]),
    (b"n=0:1:2:3:4:f5\no=0:1:2:3:4\np=0:1:2:3:4:g5\n.flags=n:m,o:m,p:m\n", [], [not_typed("o"), not_typed("p")]),
    (b"z=x\na=x\nB=x\n.flags=a:d,B:d,z:d\n", [], [not_typed("B"), not_typed("a"), not_typed("z")]),
    (b".flags=.flags:d\n", [], [not_typed(".flags")]),
    (b"n=x\n.flags=n:d,n:s\n", [], []),
    (b"n=x\n.flags=n:s, n : dr\n", [], [not_typed("n")]),
    (b"n=x\n.flags=n:zr\n", [], []),
    (b"n=x\na=run m\nbootcmd=run o\n.flags=n:d\n", [], [not_run("bootcmd:1:5", "o"), not_typed("n")]),
    (b"n=x\na=run m\nbootcmd=run o\n.flags=n:d\n", [b"a", b"none"], [no_variable("none"), not_run("a:1:5", "m"), not_typed("n")]),
    (b"bootcmd=setenv n x; n=x\n.flags=n:d\n", [], [not_assigned_then("bootcmd:1:13", "n")]),
    (b"n=n=2\nbootcmd=run n\n.flags=bootcmd:d\n", [], [not_assigned("n:1:1", "n"), not_typed("bootcmd")]),
]
# Entries of a boot menu: an environment, names, and all that is printed
MENUS = [
    (b"bootmenu_0=Boot=run n\nbootmenu_1=a b=run a; run m\n", [], [not_run("bootmenu_0:1:10", "n"), not_run("bootmenu_1:1:9", "a"), not_run("bootmenu_1:1:16", "m")]),
    (b"bootcmd=bootmenu 3\nbootmenu_2=x=run n2\nbootmenu_10=x=run n1\n", [], [not_run("bootmenu_10:1:7", "n1"), not_run("bootmenu_2:1:7", "n2")]),
    (b"bootmenu_0=x=run b\nb=run n\npreboot=run m\n", [], [not_run("preboot:1:5", "m"), not_run("b:1:5", "n")]),
    (b"bootmenu_0=run n\n", [], [NOTHING]),
    (b"bootmenu_=x=run n\nbootmenu_1a=x=run n\nbootmenu=x=run n\nabootmenu_1=x=run n\nbootmenu_-1=x=run n\n", [], [NOTHING]),
    (b"bootmenu_0=x=run n\nbootcmd=true\n", [b"bootcmd"], []),
    (b"bootmenu_0=x'y=run n\n", [b"bootmenu_0"], [not_run("bootmenu_0:1:9", "n")]),
    (b"bootmenu_0=x=run n; run $a; echo a\na=true\n", [], [not_run("bootmenu_0:1:7", "n"), any_target("bootmenu_0:1:14")]),
    (b"bootmenu_007=A \xc3\xa9 'title'=echo '\n", [], [no_script("bootmenu_007:1:19", "Quote")]),
    (b"bootmenu_0==run n\n", [], [not_run("bootmenu_0:1:6", "n")]),
    (b"bootmenu_0=x=\nbootmenu_1=x\n", [], []),
    (b"bootmenu_0=a=setenv n 1\nbootcmd=echo $n; run n; run bootmenu_0\n", [], []),
    (b"bootmenu_0=a\\\n b=run n\n", [], [not_run("bootmenu_0:2:8", "n")]),
]  # fmt: skip
# What is printed of arguments of `check` that are wrong, and such arguments; nothing is read
WRONG = {
    FILE_AND: (
        "-f script --shell x a / -f script a / -f a -f script a / a -f - / -f script '' / -f script --default absent / -f script --size x / "
        "-f script --known absent / -f script --all / --all -f script --shell x"
    ),
    AND_ENV
    % b"-c <FILE>": "--env absent -c absent / --default=absent --size=x --env absent -c=absent / -f script --size 4000 --env absent -c absent a",
    AND_ENV % b"--default <FILE>": "a --default=absent --env absent / -f script --default=absent --env absent",
    SIZE_ALONE: "--size 4000 / --size x -c absent a / --size x -c absent -f absent",
    NO_SIZE % b"x": "--env absent --size=x a / --env absent --size=x --shell=x",
    NO_SHELL % b"x": "--shell x / --shell x --ignore y --format z / --shell=x -f absent / -c absent --shell=x a",
    NO_CODE % b"x": "--ignore x / --format y --ignore x / --ignore=syntax --ignore x / -f absent --ignore=x --strict / -c absent --ignore=x a",
    NO_CODE % b"": "--ignore=",
    NO_CODE % b"[syntax]": "--ignore [syntax] --ignore=x",
    NO_CODE % b"Syntax": "--ignore=Syntax",
    NO_FORMAT % b"x": "--format x / --format=x -f absent / --format x --ignore syntax -c absent a / -f absent -f script --format=x",
    NO_FORMAT % b"": "--format=",
    NO_FORMAT % b"GCC": "--format GCC --strict",
    READ_TWICE: "-f - -f - / -f - -f script -f - / -f - --stubs - / -f script -f - --stubs=- / --stubs - -f - -f absent",
    None: "--ignore / --strict --strict / --strict=1 / --all --all / --all=1 / --shell / --shell=board --shell=board / -f / -f a -f / --format / --format=gcc --format=gcc / -e true / --write / --boots booti / --steps 1 / --stubs / --stubs=a --stubs=a / --board / --board=a --board=a / --known / --known=a --known=a / --env=a --env=a / -n a / -x",
}
# Files that aren't there, in the order in which they are used
ORDER = [
    ([b"-c", b"absent", b"--default", b"none", b"--stubs", b"nothing"], b"absent"),
    ([b"-c", CONFIG, b"--default", b"none", b"--stubs", b"nothing"], b"none"),
    ([b"-c", CONFIG, b"--stubs", b"nothing", b"a"], b"nothing"),
    ([b"--env", b"none", b"--stubs", b"nothing"], b"none"),
    ([b"--env", b"stand-ins", b"--stubs", b"nothing"], b"nothing"),
    ([b"--env", b"./-"], b"./-"),
    ([b"--env", b"stand-ins", b"--stubs", b"nothing", b"--board", b"none", b"--known", b"no"], b"nothing"),
    ([b"--env", b"stand-ins", b"--stubs", b"stand-ins", b"--known", b"no", b"--board", b"none"], b"none"),
    ([b"--env", b"stand-ins", b"--known", b"no"], b"no"),
    ([b"-f", b"no", b"--board", b"none"], b"none"),
    ([b"-f", b"no", b"--stubs", b"nothing"], b"nothing"),
    ([b"-f", b"no", b"--stubs", b"stand-ins"], b"no"),
    ([b"-f", b"no"], b"no"),
    ([b"-f="], b""),
    ([b"-f", b"stand-ins", b"-f", b"no", b"-f", b"none"], b"no"),
    ([b"-f", b"none", b"-f", b"stand-ins"], b"none"),
    ([b"-f", b"no", b"--env", b"none"], b"none"),
    ([b"-f", b"no", b"-c", b"absent"], b"absent"),
    ([b"-f", b"no", b"--env", b"stand-ins", b"--known", b"none"], b"none"),
    ([b"-f", b"stand-ins", b"-f", b"no", b"--env", b"stand-ins"], b"no"),
]


def with_nothing(text, names, found):
    """What is found, and after the names that aren't there that no script is, if none of the names is defined."""
    there = {line.partition(b"=")[0] for line in text.split(b"\n") if b"=" in line}
    if there & set(names or (b"bootcmd", b"altbootcmd", b"preboot")):
        return found
    lost = len([each for each in found if each.endswith("[no-variable]")])
    return [*found[:lost], NOTHING, *found[lost:]]


def followed():
    for text, names, lines_of in FOLLOWED + GIVEN + FORESEEN + WRITTEN + TYPED:
        found = with_nothing(text, names, lines_of)
        yield row("scripts that are followed", [b"--env", b"env", *names], {b"env": text}, lines(on_board(found)))
        yield row("scripts that are followed", [*STRICT, b"--env", b"env", *names], {b"env": text}, lines(found))
    for text, names, found in MENUS:
        yield row("entries of a boot menu", [b"--env", b"env", *names], {b"env": text}, lines(found))
    many = b"".join(b"v%d=run v%d v%d\n" % (at, at + 1, at * 7 % 500) for at in range(500))
    yield row("a long way", [b"--env", b"env", b"v0"], {b"env": many}, lines([not_run("v499:1:5", "v500")]), seconds=1)


# Environments of which all is looked at, words beside `--all`, what is found with stand-ins and in how many scripts; and if there are none,
# where that is something else
ALL = [
    (
        b"a=run n\nb=if run n; then true; fi\nc=for i in 1; do run n; done\nd=while run n; do true; done\ne=until run n; do true; done\n", b"",
        [not_run("a:1:5", "n"), not_run("b:1:8", "n"), not_run("c:1:20", "n"), not_run("d:1:11", "n"), not_run("e:1:11", "n")], 5,
    ),
    (b"z=mmc 0; run n\na=usb start;run m\nload=1 2\n", b"", [not_run("a:1:15", "m"), not_run("z:1:12", "n")], 2, [NOTHING], 0),
    (b"a=load\\\n usb; run n\nb=load|run n\nc=load&&run n\nd=load;run n\n", b"",
     [not_run("a:2:11", "n"), no_script("b:1:5", "Operator"), not_run("c:1:11", "n"), not_run("d:1:10", "n")], 4, [NOTHING], 0),
    (b"a=\\\n\t \\\n run n\n", b"", [not_run("a:3:6", "n")], 1),
    # what begins with another word, or has no more
    (b"a=run\nb=mmc \t\nc=mmc\\\n\nd=laod mmc; run n\ne=Run n\nf=true# n\ng='run' n\nh=$run n\ni=;run n\nj=iffy run n\nk=then run n\n", b"", [NOTHING], 0),
    (b"a=run; run n\nb=true;\n", b"", [runs_nothing("a:1:1"), not_run("a:1:10", "n")], 2),
    # names of commands as they are written
    (b"a=us start; run n\nb=mmc.b 1; run n\nc=setenv.b x; run n\nd=setexpr.b; run n\n", b"", [no_calculation("d:1:1"), not_run("d:1:16", "n")], 1),
    # what isn't a script, but looks like one
    (b"a=echo 'run n\nb=if true; then run n\n", b"", [no_script("a:1:6", "Quote"), no_script("b:1:20", "Missing", lost("`fi`", "if"))], 2),
    # ordinary values, and the lists of U-Boot's `dfu`
    (b"args=console=ttyS0,115200 earlycon\nfiles=boot.scr.uimg boot.scr\ndtb=a b.dtb ${n}\nmtdparts=mtdparts=nand:1m(a);run n\n.flags=x:sr\n", b"", [NOTHING], 0),
    (b"targets=usb mmc0 pxe\nsize=load 10\n", b"", [], 2, [NOTHING], 0),
    (b"dfu_alt_info=load part 0 1;root part 0 2\ndfu_alt_info_mmc=run part 0 1\nxdfu_alt_info=run n\ndfu_alt_inf=run n\n", b"",
     [not_run("dfu_alt_inf:1:5", "n"), not_run("xdfu_alt_info:1:5", "n")], 2),
    # entries of a boot menu, and what comes first
    (b"bootmenu_0=run n\nbootmenu_1=run=run n\nbootmenu_2=\nbootmenu_x=run n\n", b"", [not_run("bootmenu_1:1:9", "n"), not_run("bootmenu_x:1:5", "n")], 2),
    (
        b"a=run n1 z\npreboot=mmc\nbootcmd=run n2\nbootmenu_1=x=run n3\nz=run\n", b"z none z",
        [no_variable("none"), runs_nothing("z:1:1"), not_run("bootcmd:1:5", "n2"), not_run("bootmenu_1:1:7", "n3"), not_run("a:1:5", "n1")], 5,
    ),
    # what they define, and whose statuses they ask for
    (b"a=echo $n; run m\nb=setenv n 1; setenv m true\n", b"", [], 2),
    (b"a=if true; then true; fi\nb=run a && true\n", b"", [of_if("a:1:4")], 2),
]  # fmt: skip


def all_looked_at():
    """Each variable that looks like a script, by stand-ins and builtins, by builtins alone, by a board, and beside a file."""
    for text, words, *found in ALL:
        given = [b"--env", b"env", b"--all", *words.split()]
        yield row("all", with_stand_ins(given), {b"env": text, b"stand-ins": STAND_INS}, lines(found[0]), scripts=found[1])
        yield row("all, by builtins", given, {b"env": text}, lines(found[-2]), scripts=found[-1])
    files = {b"env": b"a=mmc 0; run n\nb=go 1; run n\nc=echo 1; run n\n", b"board": b"go 1 -> 0\n-echo\n"}
    yield row("all, by a board", [b"--env", b"env", b"--all", b"--board", b"board"], files, lines([not_run("b:1:11", "n")]), scripts=1)
    files = {b"env": b"a=run n\nb=run m\nbootcmd=usb\n", b"s": b"run b; run lost\n"}
    found = lines(["s:" + not_run("1:12", "lost"), not_run("a:1:5", "n"), not_run("b:1:5", "m")])
    yield row("all and a file", [b"--env", b"env", b"--all", b"-f", b"s"], files, found, scripts=4)
    many = b"".join(b"v%03d=run n\n" % at for at in range(500))
    found = lines([not_run(f"v{at:03}:1:5", "n") for at in range(500)])
    yield row("all of many", [b"--env", b"env", b"--all"], {b"env": many}, found, scripts=500, seconds=1)


# Files of names that the board's own code sets, and the first line that is none
KNOWN = [
    (b"", None), (b"n\nm", None), (b"\n# a b=c\r\n \tn\r\n\n#\nm\n", None), (b"n\n\n$x\nm\nn\n", None),
    (b"n\nm 1\n", 2), (b"n=1\n", 1), (b"n\nm\n\n# a\n\ta\0", 5), (b"n \nm=", 1), (b"n\tm\n", 1),
]  # fmt: skip


def known():
    """Names that count as defined in substitutions, and nowhere else."""
    given, files = [b"--env", b"env", b"--known", b"names"], {b"env": b"bootcmd=echo ${m} $o; run n\n"}
    for text, line in KNOWN:
        names = [] if line else [each.strip() for each in text.split(b"\n")]
        found = [each for each in (not_defined("1:6", "m"), not_defined("1:11", "o"), not_run("1:19", "n")) if b"m" not in names or "{m}" not in each]
        output, errors = (b"", b"fwenv: names:%d: not a name of a variable\n" % line) if line else (lines(found, "bootcmd"), b"")
        yield row("known names", given, files | {b"names": text}, output, errors)
    yield row(
        "known names of standard input", [*given[:3], b"-"], files, lines([not_defined("1:11", "o"), not_run("1:19", "n")], "bootcmd"), given=b"n\nm"
    )


def many(kind, count, text, column=1, word="a"):
    """What is printed of findings of this kind, one in each of so many lines with this text."""
    return cut_off([pointed(lines([kind(f"{number}:{column}", word)], "s"), text, column) for number in range(1, count + 1)])


def limits():
    """Lines that take up to 65,536 bytes and one byte less, and what is found after them; an error without a line counts."""
    start, files = [pointed(lines([not_called(f"{number}:1", "a")], "s"), b"a") for number in range(1, 801)], {b"stand-ins": b""}
    cut = b"x" * 40 + b"..."
    room = 65_536 - len(b"".join(start)) - len(pointed(lines([not_called("801:1", "")], "s"), cut))
    for length in (room - 1, room, room + 1):
        for rest in ([], [b"b"], [b"b", b"c"]):
            names = [b"x" * length, *rest]
            found = [pointed(lines([not_called(f"{number}:1", name.decode())], "s"), min(name, cut)) for number, name in enumerate(names, 801)]
            files[b"s"] = b"a\n" * 800 + b"\n".join(names)
            said = (800 + len(names), 0)
            yield row("many lines", with_stand_ins([b"-f", b"s"]), dict(files), cut_off(start + found), seconds=1, found=said)
    for rest, flags, status in ((b"", b"s", 0), (b"run none\n", b"s", 1), (b"", b"d", 1)):
        files = {b"env": text_of({b"a": b"1", b"n": b"x", b"s": b"a=1\n" * 2_000 + rest, b".flags": b"n:" + flags})}
        yield row("many warnings", [b"--env", b"env", b"s"], files, many(hidden, 2_000, b"a=1"), seconds=1, found=(status, 2_000))
        yield row("many warnings", [*STRICT, b"--env", b"env", b"s"], files, many(not_assigned, 2_000, b"a=1"), seconds=1, found=(status, 2_000))
    in_one_word = cut_off([pointed(lines([not_defined("1:6", name)], "s"), b"echo " + b"$n$m" * 10 + b"...", 6) for name in "nm" * 750])
    for script, output, found in (
        (b"echo $n\n" * 1_500, many(not_defined, 1_500, b"echo $n", 6, "n"), (0, 1_500)),
        (b"echo $n\n" * 1_500 + b"break\n", many(not_defined, 1_500, b"echo $n", 6, "n"), (1, 1_500)),
        (b"echo " + b"$n$m" * 750, in_one_word, (0, 1_500)),
        (b"echo " + b"$n" * 1_500, pointed(lines([not_defined("1:6", "n")], "s"), b"echo " + b"$n" * 20 + b"...", 6), (0, 1)),
    ):
        yield row("many substitutions", [b"--env", b"env", b"s"], {b"env": text_of({b"s": script})}, output, seconds=1, found=found)
    yield row(
        "many that are lacked", [b"-f", b"s"], {b"s": b"break\n" * 2_000}, many(lacked, 2_000, b"break", word="break"), seconds=1, found=(2_000, 0)
    )
    names = [b"name%04d" % number for number in range(1_500)]
    output = cut_off([lines([no_variable(name.decode())]) for name in names])
    yield row("many names", [b"--env", b"env", *names], {b"env": b"bootcmd=true\n"}, output, seconds=1, found=(1_501, 0))


# A script in which each kind of finding of a script is, and variables beside it
EACH_KIND = b"run none; x=$y; laod; test a == b\nbreak\r\nrun $x"
EACH_FOUND = [
    returned("2:6"), not_run("1:5", "none"), hidden("1:11", "x"), not_defined("1:13", "y"), not_called("1:17", "laod"),
    no_operator_of_board("1:30", "=="), not_called("2:1", "break\r"),
    any_target("3:5"),
]  # fmt: skip
BESIDE = {b"x": b"1", b"n": b"a", b".flags": b"n:d"}


def code_of(line):
    return re.search(r"\[([a-z-]+)\]\Z", line)[1]


def counting():
    """What is left out, and warnings that count."""
    files = {b"env": text_of(BESIDE | {b"s": EACH_KIND}), b"stand-ins": b""}
    found = [*(f"s:{each}" for each in EACH_FOUND), not_typed("n")]
    words = [b"--env", b"env", *with_stand_ins([b"s"])]
    yield row("each kind", words, files, lines(found), scripts=1)
    codes = sorted({code_of(each) for each in found})
    for code in codes:
        left = [each for each in found if code_of(each) != code]
        yield row("a kind that is left out", [*words, b"--ignore", code.encode()], files, lines(left), scripts=1)
        yield row(
            "a kind alone",
            [*words, *(b"--ignore=" + each.encode() for each in codes if each != code)],
            files,
            lines(without(found, *(f"[{each}]" for each in codes if each != code))),
        )
    yield row("all left out", [*words, b"--strict", *(b"--ignore=" + each.encode() for each in codes)], files, b"", scripts=1, status=0)
    for strict in ([], [b"--strict"]):
        hides = row(
            "a warning", [b"--env", b"env", *strict, b"s"], {b"env": b"x=1\ns=x=2\n"}, lines([hidden("s:1:1", "x")]), scripts=1, status=len(strict)
        )
        yield hides
        yield row(
            "a note", [b"--env", b"env", *strict, b"s"], {b"env": b"x=1\ns=run $x; echo x\n"}, lines([any_target("s:1:5")]), scripts=1, status=0
        )
        yield row("no warning", [b"--env", b"env", *strict, b"s"], {b"env": b"x=1\ns=y=2\n"}, b"", scripts=1, status=0)
        left_out = [*strict, b"--ignore", b"hidden-assignment"]
        yield row("a warning left out", [b"--env", b"env", *left_out, b"s"], {b"env": b"x=1\ns=x=2\n"}, b"", scripts=1, status=0)
        yield row("a script alone", [*strict, b"-f", b"s"], {b"s": b"true\r"}, lines([returned("1:5")], "s"), scripts=1, status=len(strict))
        yield row("a script left out", [*strict, b"-f", b"s", b"--ignore=carriage-return"], {b"s": b"true\r"}, b"", scripts=1, status=0)
    yield row("no name, left out", [b"--env", b"env", b"--ignore", b"no-variable", b"a"], {b"env": b"bootcmd=true\n"}, lines([NOTHING]))
    both = [b"--ignore", b"no-variable", b"--ignore=no-script"]
    yield row("no name and no script, left out", [b"--env", b"env", *both, b"a"], {b"env": b"bootcmd=true\n"}, b"", status=0)
    text = b"bootcmd=run a; run b\na=run b\nb=run c c\nx=1\n"
    yield row("three scripts", [b"--env", b"env"], {b"env": text}, lines([not_run("b:1:5", "c"), not_run("b:1:7", "c")]), scripts=3)
    many_left = [b"--env", b"env", b"--ignore", b"undefined-name", b"s"]
    yield row(
        "many that are left out",
        many_left,
        {b"env": text_of({b"s": b"echo $n\n" * 1_500 + b"break\n"})},
        lines([lacked("1501:1", "break")], "s"),
        seconds=1,
    )


# The same two findings in each format: those of a variable, and of a file
FORMATS = {
    b"text": (
        b"n: error: no variable of this name is defined [no-variable]\n"
        b"s:1:6: warning: `${y}` names a variable that nothing defines [undefined-name]\n",
        b"a.sh:2:3: error: this shell has no `break` [other-shell]\n",
    ),
    b"json": (
        b'{"code":"no-variable","column":null,"file":null,"line":null,"message":"no variable of this name is defined","severity":"error","variable":"n"}\n'
        b'{"code":"undefined-name","column":8,"file":"env","line":1,"message":"`${y}` names a variable that nothing defines","severity":"warning","variable":"s"}\n',
        b'{"code":"other-shell","column":3,"file":"a.sh","line":2,"message":"this shell has no `break`","severity":"error","variable":null}\n',
    ),
}
FORMATS[b"gcc"] = (FORMATS[b"text"][0].replace(b"s:1:6", b"env:1:8"), FORMATS[b"text"][1])
NOTHING_AS_JSON = (
    b'{"code":"no-script","column":null,"file":null,"line":null,"message":"there is no script to look at","severity":"error","variable":null}\n'
)
ANY_AS_JSON = b'{"code":"run-unknown","column":7,"file":"env","line":1,"message":"what this runs is not known, so it is not followed","severity":"note","variable":"s"}\n'
# Bytes of a name of a command, and what is printed of them as text, as compilers do, and as JSON
ODD = [
    (b"a\tb", b"a\tb", b"a?b", b"a\\tb"),
    (b"a\nb", b"a\nb", b"a?b", b"a\\nb"),
    (b'"\\', b'"\\', b'"\\', b'\\"\\\\'),
    (b"\x01\x1f\x7f\x08\x0c", b"\x01\x1f\x7f\x08\x0c", b"?????", b"\\u0001\\u001f\x7f\\b\\f"),
    (b"\xc3\xa9/", b"\xc3\xa9/", b"\xc3\xa9/", b"\xc3\xa9/"),
    (b"\xff\xe2\x82b", b"\xff\xe2\x82b", b"\xff\xe2\x82b", b"\xef\xbf\xbd\xef\xbf\xbdb"),
]


def in_format(name, given, words, files, output, errors=(0, 0), **rest):
    return row(name, [*words, b"--format", given], files, output, found=errors, **rest)


def formats():
    """How findings are printed."""
    for given, (of_variables, of_a_file) in FORMATS.items():
        yield in_format("a format", given, [b"--env", b"env", b"n", b"s"], {b"env": b"s=echo $y\n"}, of_variables, (1, 1))
        yield in_format("a format of a file", given, [b"-f", b"a.sh"], {b"a.sh": b"\n  break\n"}, of_a_file, (1, 0))
        yield in_format("nothing in a format", given, [b"-f", b"s"], {b"s": b"true\n"}, b"")
        nothing = NOTHING_AS_JSON if given == b"json" else lines([NOTHING])
        yield in_format("no script in a format", given, [b"--env", b"env"], {b"env": b"a=1\n"}, nothing, (1, 0))
        any_name = ANY_AS_JSON if given == b"json" else lines([any_target("s:1:5" if given == b"text" else "env:1:7")])
        yield in_format("a note in a format", given, [b"--env", b"env", b"s"], {b"env": b"s=run $y; y=1\n"}, any_name)
    for name, *told in ODD:
        files = {b"s": b"'%s'\n" % name, b"none": b""}
        for given, said in zip((b"text", b"gcc", b"json"), told):
            line = b"s:1:1: error: no builtin and no stand-in is called `%s` [unknown-command]\n"
            if given == b"json":
                line = b'{"code":"unknown-command","column":1,"file":"s","line":1,"message":"no builtin and no stand-in is called `%s`","severity":"error","variable":null}\n'
            yield in_format("odd bytes", given, [b"-f", b"s", b"--stubs", b"none", *QUOTING], files, line % said, (1, 0))
    for given in (b"text", b"gcc", b"json"):
        yield Case("more than is printed", [b"check", b"-f", b"s", b"--format", given], {b"s": b"break\n" * 3_000}, seconds=1)
        yield Case("odd names", [b"check", b"--env", b"env", b"--format", given, b"x\ty", b"\xc3\xa9"], {b"env": b"\xff=1\n.flags=x:d\n"})


# Places in the text of an environment: the option before its path, the text, and what is found as compilers print it
PLACES = [
    (b"--env", b"# a\n  a=1\ns=echo 'x\\;'\\\n$y\n", not_defined("env:4:1", "y")),
    (b"--env", b"s=echo \\a\\b $y\n", not_defined("env:1:13", "y")),
    (b"--env", b"s=echo \\$y", not_defined("env:1:8", "y")),
    (b"--env", b"s=echo $y\ns=echo a; echo $z\nsoon=1\n", not_defined("env:2:16", "z")),
    (b"--env", b"t=a\\\nb=c\n\n \ts=break\n", lacked("env:4:5", "break")),
    (b"--env", b"s=a=1; $y=b\n", not_defined("env:1:8", "y")),
    (b"--env", b"s=true; '", no_script("env:1:9", "Quote")),
    (b"--env", b"s=a\n.flags=s:d\n", not_typed("env:1:3")),
    (b"--env", b"t=\\z\ns=1\n.flags=s:d,t:x\n", not_typed("env:1:3")),
    (b"--env-plain", b"t=1\\\ns=echo $y\n", not_defined("env:2:8", "y")),
    (b"--env-plain", b"t=1\n\ns=echo \\a $y\n", not_defined("env:3:11", "y")),
]


def places():
    """A finding is told by its place in the file of the environment, in the formats for programs."""
    gcc = [b"--format", b"gcc"]
    for option, text, found in PLACES:
        yield row("a place", [*gcc, option, b"env", b"s"], {b"env": text}, lines([found]), scripts=1)
    menu = {b"env": b"a=1\nbootmenu_0=Title=echo $y\n"}
    yield row("a place in a menu", [*gcc, b"--env", b"env"], menu, lines([not_defined("env:2:23", "y")]), scripts=1)
    text, own = b"s=echo $y\n", lines([not_defined("s:1:6", "y")])
    yield row("an environment without a file", [*gcc, b"--env", b"-", b"s"], {}, own, given=text)
    yield row("a source of U-Boot", [*gcc, b"--env-source", b"env", b"s"], {b"env": text}, own)
    copies = board(Geometry(1, 64), [Geometry(1, 64).image(0, b"s=echo $y\0")])
    yield row("copies have no lines", arguments(b"check", *gcc, b"s")[1:], copies, own)


def several():
    """Scripts of several files, each under its own name and alone."""
    files = {b"one": b"n=1; break\n", b"two": b"run n; echo $n\r\n", b"three": b"echo 'a\n", b"stand-ins": b"mmc\n"}
    found = [*(f"one:{each}" for each in [lacked("1:6", "break")]), returned("two:1:15"), no_script("three:1:6", "Quote")]
    yield row("several files", [b"-f", b"one", b"-f", b"two", b"-f", b"three"], files, lines(found), scripts=3)
    yield row("in another order", [b"-f", b"three", b"-f", b"one", b"-f=two"], files, lines([found[2], found[0], found[1]]), scripts=3)
    yield row("the same file twice", [b"-f", b"one", b"-f", b"one"], files, lines([found[0]] * 2), scripts=2)
    yield row("a file and standard input", [b"-f", b"one", b"-f", b"-"], files, lines([found[0], no_script("-:1:1", "Quote")]), given=b"'", scripts=2)
    yield row("standard input first", [b"-f", b"-", b"-fone"], files, lines([no_script("-:1:1", "Quote"), found[0]]), given=b"'", scripts=2)
    wrong = [not_called("two:1:1", "usb"), not_called("three:1:6", "nand")]
    words = with_stand_ins([b"-f", b"one", b"-f", b"two", b"-f", b"three"])
    yield row("stand-ins of several files", words, files | {b"one": b"mmc", b"two": b"usb", b"three": b"mmc; nand"}, lines(wrong), scripts=3)
    yield row("warnings that count", [b"--strict", b"-f", b"two", b"-f", b"two"], files, lines([found[1]] * 2), status=1, scripts=2)
    left = [b"--ignore=syntax", b"--ignore", b"other-shell"]
    yield row(
        "a kind left out of several files", [*left, b"-f", b"three", b"-f", b"one", b"-f", b"two"], files, lines([found[1]]), status=0, scripts=3
    )
    yield row("no finding", [b"-f", b"a", b"-f", b"b"], {b"a": b"", b"b": b"true"}, b"", scripts=2)


# An environment, and the scripts of files over it: the words of a call, the files, the findings and how many scripts there are
OVER = b"root=mmc\nload=nand $addr; setenv loaded 1\nbootcmd=run n\nother=run m load\ntested=true\n.flags=root:d\nbootmenu_0=a=run o\n"
LOADED = not_defined("load:1:6", "addr")
OVER_FILES = [
    (b"boot", {b"boot": b"echo $root $gone; root=2; run load lost; echo $loaded\n"},
     [f"boot:{each}" for each in (not_defined("1:12", "gone"), hidden("1:19", "root"), not_run("1:36", "lost"))] + [LOADED], 2),
    (b"boot", {b"boot": b"echo $n\n"}, ["boot:" + not_defined("1:6", "n")], 1),
    (b"boot", {b"boot": b"true"}, [], 1),
    (b"boot", {b"boot": b"run load; break"}, ["boot:" + lacked("1:11", "break"), LOADED], 2),
    (b"boot", {b"boot": b"run load '"}, ["boot:" + no_script("1:10", "Quote")], 1),
    (b"boot other", {b"boot": b"run load"}, [not_run("other:1:5", "m"), LOADED], 3),
    (b"boot other none", {b"boot": b"break"}, [no_variable("none"), "boot:" + lacked("1:1", "break"), not_run("other:1:5", "m"), LOADED], 3),
    (b"-- two one", {b"one": b"setenv x 1; run later", b"two": b"echo $x $y; setenv later true"}, ["two:" + not_defined("1:9", "y")], 2),
    (b"-- one two", {b"one": b"break; run t$root", b"two": b"continue"}, ["one:" + lacked("1:1", "break"), "one:" + not_run("1:12", "tmmc"), "two:" + lacked("1:1", "continue")], 3),
    (b"-- one one", {b"one": b"run none"}, ["one:" + not_run("1:5", "none")] * 2, 2),
    (b"boot", {b"boot": b"test -n ${m} && run m; run $root"}, ["boot:" + not_run("1:28", "mmc")], 1),
    (b"boot", {b"boot": b"run ${x}"}, ["boot:" + any_target("1:5"), "boot:" + not_defined("1:5", "x")], 1),
]  # fmt: skip


def over_environment():
    """Scripts of files over an environment, whose variables are known: what they run of it is looked at, and what is named."""
    for words, files, found, scripts in OVER_FILES:
        first, *rest = words.split()
        paths = rest if first == b"--" else [first]
        given = [word for path in paths for word in (b"-f", path)] + (rest if first != b"--" else [])
        yield row("files over an environment", [b"--env", b"env", *given], files | {b"env": OVER}, lines(found), scripts=scripts)
    single = Geometry(1, 64)
    copies = board(single, [single.image(0, b"a=run n\0")]) | {b"s": b"run a; echo $a $b"}
    yield row(
        "a file over copies", arguments(b"check", b"-f", b"s")[1:], copies, lines(["s:" + not_defined("1:16", "b"), not_run("a:1:5", "n")]), scripts=2
    )
    files = {b"env": b"a=1\n", b"s": b"echo $a $b $c\n", b"names": b"b\n", b"board": b"mmc -> run a\n"}
    yield row("a file and known names", [b"--env=env", b"-fs", b"--known", b"names"], files, lines(["s:" + not_defined("1:12", "c")]), scripts=1)
    found = [*(f"s:{each}" for each in (not_defined("1:9", "b"), not_defined("1:12", "c"))), not_called("a:1:1", "1")]
    yield row("a file and a board", [b"--env=env", b"-fs", b"--board", b"board"], files, lines(found), scripts=2)
    setting = {b"env": b"a=1\n", b"one": b"b=1; c=1", b"two": b"setenv b 1", b"board": b"mmc -> setenv c 1\n"}
    found = lines(["one:" + hidden_then("1:1", "b"), "one:" + hidden_then("1:6", "c")])
    yield row("set by a file and a board", [b"--env=env", b"-fone", b"-ftwo", b"--board", b"board"], setting, found, scripts=2)
    yield row("a file of standard input", [b"--env", b"env", b"-f", b"-"], files, lines(["-:" + not_run("1:5", "n")]), given=b"run n", scripts=1)
    yield row(
        "an environment of standard input",
        [b"--env", b"-", b"-f", b"s"],
        files,
        lines(["s:" + not_defined("1:12", "c")]),
        given=b"a=1\nb=1\n",
        scripts=1,
    )


def opened():
    """Over copies, and without a good one."""
    single = Geometry(1, 64)
    stored = board(single, [single.image(0, b"bootcmd=run n\0p=run m\0")]) | {b"text": b"bootcmd=run q; p=1\np=run r\n", b"stand-ins": STAND_INS}
    blank = board(single, [b"\xff" * 64]) | {b"text": stored[b"text"], b"stand-ins": STAND_INS}
    found, usual = lines([not_run("bootcmd:1:5", "n")]), lines([not_run("bootcmd:1:5", "q"), hidden("bootcmd:1:8", "p")])
    yield row("copies", arguments(b"check")[1:], stored, found)
    yield row("a name in copies", arguments(b"check", b"p")[1:], stored, lines([not_run("p:1:5", "m")]))
    yield row("stand-ins over copies", arguments(b"check", *with_stand_ins())[1:], stored, found)
    yield row("a default text that is not used", arguments(b"check", b"--default", b"text")[1:], stored, found)
    with_names = board(single, [single.image(0, b"a=1\0preboot=$a b\0bootcmd=$b $n\0")])
    yield row("substitutions over a copy", arguments(b"check")[1:], with_names, lines([not_defined("bootcmd:1:4", "n")]))
    yield row("no good copy", arguments(b"check")[1:], blank, lines([NOTHING]), WARNING)
    yield row("no good copy, and a name", arguments(b"check", b"p")[1:], blank, lines([no_variable("p"), NOTHING]), WARNING)
    yield row("a default text", arguments(b"check", b"--default", b"text")[1:], blank, usual, WARNING)
    strict = lines([not_run("bootcmd:1:5", "q"), not_assigned("bootcmd:1:8", "p")])
    yield row("a default text", arguments(b"check", *STRICT, b"--default", b"text")[1:], blank, strict, WARNING)
    yield row("a fault after the warning", arguments(b"check", b"--stubs", b"absent")[1:], blank, b"", WARNING + absent(b"absent"))
    big = Geometry(2, 64, "big")
    typed = board(single, [single.image(0, b".flags=n:d,o:d\0n=x\0o=1\0")])
    yield row("types in copies", arguments(b"check")[1:], typed, lines([NOTHING, not_typed("n")]))
    files = board(big, [big.image(7, b"bootcmd=run n\0"), b"\xff" * 64])
    yield row("a big-endian copy", arguments(b"check", order="big")[1:], files, found)
    yield row("the wrong order", arguments(b"check")[1:], files, lines([NOTHING]), WARNING)
    yield row("a big-endian text", [b"--big-endian", b"--env", b"env"], {b"env": b"bootcmd=run n\n"}, found)
    yield row("a big-endian script", [b"--big-endian", b"-f", b"s"], {b"s": b"'"}, lines([no_script("1:1", "Quote")], "s"))
    yield Case(
        "before the subcommand",
        [b"--big-endian", b"check", b"-c", CONFIG],
        files,
        wanted=Answer(1, pointed(found, b"run n", 5), last(1, 1, 0), files),
    )
    for text, size, errors in NO_ENVIRONMENTS:
        files = {} if text is None else {b"env": text}
        sized = [b"--env", b"env"] if size is None else [b"--env", b"env", b"--size=" + size]
        yield row("no environment", [*sized, b"--stubs", b"absent", b"ok"], files, b"", errors, seconds=2)


def words():
    files = {b"script": b"'", b"env": b"bootcmd=run n\n"}
    for errors, texts in WRONG.items():
        for given in calls(texts):
            yield row("wrong words of a check", given, files, b"", errors, status=2)
    for text in NO_SIZES:
        yield row("a wrong size", [b"--env", b"absent", b"--size=" + text], files, b"", NO_SIZE % text)
    found = lines([not_run("bootcmd:1:5", "n")])
    for given in ([b"--env", b"env"], [b"--env=env", b"--size", b"18"], [b"bootcmd", b"--env", b"env"], [b"--env", b"env", b"--", b"bootcmd"]):
        yield row("the same words in another way", given, files, found)
    for given in ([b"-fscript"], [b"-f=script"]):
        yield row("a file in another way", given, files, lines([no_script("1:1", "Quote")], "script"))
    files = board(PAIR, [FIRST, SECOND]) | {b"stand-ins": b""}
    for given, path in ORDER:
        yield row("the first file", given, files, b"", absent(path))
    config = files | {CONFIG: b"none 0 a\n"}
    yield row("a copy first", arguments(b"check", b"--default", b"absent", b"--stubs", b"nothing")[1:], config, b"", absent(b"none"))
    longest, too_long = b"#" * (LONGEST - 1) + b"\r", b"#" * (LONGEST + 1)
    told = lines([returned(f"1:{LONGEST}")], "script")
    yield row("the longest script", [b"-f", b"script"], {b"script": longest}, told, seconds=2)
    yield row("a longer script", [b"-f", b"script"], {b"script": too_long}, b"", longer(b"script"), seconds=2)
    yield row("longer standard input", [b"-f", b"-"], {}, b"", longer(b"-"), given=too_long, seconds=2)
    yield row("no standard input", [b"-f", b"-"], {}, b"")
    yield row("standard input that isn't asked for", [b"--env", b"env"], {b"env": b"a=1\n"}, lines([NOTHING]), given=b"'")
    told = pointed(lines([no_script("1:1", "Quote")], "./script"), b"'")
    case = row("a path as it is given", [b"-f", b"./script"], {b"script": b"'"}, told, scripts=1)
    case.is_modelled = False
    yield case


def chunks():
    return [
        *check_kinds.chunks(),
        *check_differences.chunks(),
        followed,
        all_looked_at,
        known,
        limits,
        counting,
        formats,
        places,
        several,
        over_environment,
        opened,
        words,
    ]
