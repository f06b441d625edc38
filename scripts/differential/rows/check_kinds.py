"""What `fwenv check` finds in a script, by hand: each kind, with what is near to it. Each row is a script and the lines about it,
over an environment and alone, with stand-ins and without."""

from differential.harness.boards import STRICT

from differential.harness.check_lines import (
    QUOTING, any_target, cuts, exits, lacked, lacked_test, leaves, lines, lost, mixes, no_calculation, no_expression, no_functions, no_operator, no_operator_of_board, no_script, no_subcommand,
    no_words_of_env, not_assigned, not_called, not_defined, not_run, of_if, of_loop, runs_nothing,
    of_file, on_board, over, place, returned, row, several, stale, with_stand_ins, without,
)  # fmt: skip
from differential.rows.script_faults import EMPTY_BODIES, NEAR_SCRIPTS, NO_SCRIPTS, NO_STAND_INS, NULS

# Scripts over these variables, and what is found. The variable that holds the script is `s`
VARIABLES = {b"a": b"1", b"ok": b"echo fine", b"two words": b"true", b"it's": b"true", b"run": b"true", b"\xc3\xa9": b"true", b"x": b"none"}
STARTS = [
    (b"run none", [not_run("1:5", "none")]),
    (b"run ok", []),
    (b"run s", []),
    (b"run ok none a lost", [not_run("1:8", "none"), not_run("1:15", "lost")]),
    (b"run none none", [not_run("1:5", "none"), not_run("1:10", "none")]),
    (b"run ok; run none", [not_run("1:13", "none")]),
    (b"echo a\n\n  run none", [not_run("3:7", "none")]),
    (b"\trun\tnone", [not_run("1:6", "none")]),
    (b"echo \xc3\xa9; run none", [not_run("1:14", "none")]),
    (b"true && run n1 && run n2", [not_run("1:13", "n1"), not_run("1:23", "n2")]),
    (b"if run n1; then run n2; elif run n3\nthen run n4; else run n5; fi", several(not_run, "1:8 n1 1:21 n2 1:34 n3 2:10 n4 2:23 n5")),
    (b"while run n1; do run n2; done", [not_run("1:11", "n1"), not_run("1:22", "n2")]),
    (b"until run n1; do run n2; done", [not_run("1:11", "n1"), not_run("1:22", "n2")]),
    (b"for i in run none; do run n1; done; run n2", [not_run("1:27", "n1"), not_run("1:41", "n2")]),
    (b"if true;then " * 64 + b"run none" + b";fi" * 64, [not_run("1:837", "none")]),
    (b"run 'none'", [not_run("1:5", "none")]),
    (b'run no"ne"', [not_run("1:5", "none")]),
    (b"run n\\one", [not_run("1:5", "none")]),
    (b"run no\\\nne", [not_run("1:5", "none")]),
    (b"run \\\nnone", [not_run("2:1", "none")]),
    (b"run ''", [not_run("1:5", "")]),
    (b"run its", [not_run("1:5", "its")]),
    (b"run 'it'\\''s' \"two words\" \xc3\xa9 run", []),
    (b"run two words", [not_run("1:5", "two"), not_run("1:9", "words")]),
    (b"run -n", [not_run("1:5", "-n")]),
    (b"run Ok", [not_run("1:5", "Ok")]),
    (b"run 'n\nm' n2", [not_run("1:5", "n\nm"), not_run("2:4", "n2")]),
    (b"'run' none", [not_run("1:7", "none")]),
    (b'r"u"\\n none', [not_run("1:8", "none")]),
    (b"r\\\nun none", [not_run("2:4", "none")]),
    (b"env run none; env 'run' ok none", []),
    (
        b'run $none ${none} "$none" n$x $? $',
        [
            stale("1:1"),
            *map(any_target, ("1:5", "1:11", "1:19")),
            not_run("1:27", "nnone"),
            any_target("1:31"),
            not_run("1:34", "$"),
            not_defined("1:5", "none"),
            not_defined("1:11", "none"),
            not_defined("1:19", "none"),
        ],
    ),
    (b"run $x none", [not_run("1:5", "none"), not_run("1:8", "none")]),
    (b"run n$x 'n'${x} ''$x \"$x\"n $?n", [stale("1:1"), *several(not_run, "1:5 nnone 1:9 nnone 1:17 none 1:22 nonen"), any_target("1:28")]),
    (b'$run none; ${x} none; "$run" none; r$x none', []),
    (b"env $x none; env x run none; run", [no_subcommand("1:14"), runs_nothing("1:30")]),
    (b"Run none; echo run none; setenv b run none; c='run none'", []),
    (b"# run none\nrun ok # none", []),
    (b"env exists none; env delete none; printenv none", []),
    # near to a name that a command sets or `test` substitutes, as in those below
    (b"setenv b 1; run none", [not_run("1:17", "none")]),
    (b"setenv none 1; run none n none_", [not_run("1:25", "n"), not_run("1:27", "none_")]),
    (b"echo none; run none", [not_run("1:16", "none")]),
    (b"test -n none; run none", [not_run("1:19", "none")]),
    (b"test -n '$none' \\$none; run none", [no_expression("1:1"), not_run("1:29", "none")]),
    (b"setenv b none; setexpr b none; run none", [not_run("1:36", "none")]),
    (b"setenv $x none 1; setenv $x; run none", [not_run("1:34", "none")]),
    (b"setenv n$x 1; run n none", [not_run("1:19", "n"), not_run("1:21", "none")]),
    (b"setenv -F none 1; setenv -f -f none; run none -F -f", [not_run("1:42", "none")]),
    (b"setenv $x -f none; setexpr -f none 1; run none", [no_calculation("1:20"), not_run("1:43", "none")]),
    (
        b"env none 1; env set; env -f set none; env $x set none; run none",
        [no_subcommand("1:1"), no_words_of_env("1:13"), no_subcommand("1:22"), not_run("1:60", "none")],
    ),
    (b"env print none; env delete none; env run none; run none", [not_run("1:52", "none")]),
    (b"env exists; env exists $x none; env exists -f none; run none", [*map(no_words_of_env, ("1:1", "1:13", "1:33")), not_run("1:57", "none")]),
    (b"env 'exists' \"none\" n; run none", [no_words_of_env("1:1")]),
    (b"Setenv none; setenv2 none; run none", [not_run("1:32", "none")]),
    (b'$x none; "$run" none; echo setenv none; run none', [not_run("1:45", "none")]),
    (b"env test $x; Test $x none; test2 $none; none=$x; run none", [no_subcommand("1:1"), not_run("1:54", "none")]),
    (b"for none in 1; do echo $none; done; none=1; run none", [not_run("1:49", "none")]),
    (b"setenv b 'setenv none 1'; # setenv none\nrun none", [not_run("2:5", "none")]),
    (b"echo $filesize; run filesize", [not_run("1:21", "filesize")]),
]
# Of these nothing is found: a name that a command sets or `test` substitutes, in any place
FORESEEN = [
    b"setenv none 1; run none", b"run none none; setenv none 1", b"setenv none; run none", b"setenv -f none 1; run none",
    b"setenv '-f' n\\one 1; run none", b"s'e'tenv \"none\" 1; run none", b"env set none 1; run none", b"env 'set' -\\f none 1; run none",
    b"env exists none && run none", b"env 'exists' \"none\"; run none", b"setexpr none 1 + 2; run none",
    b"setexpr.b n1 1; setexpr.w n2 1; setexpr.l n3 1; setexpr.q n4 1; run n1 n2 n3 n4", b"test -n $none; run none",
    b"test -n \"${none}\" && run none", b"if 'test' a = b${none}$n2; then true; else run none n2; fi",
    b"while false; do for b in 1; do setenv none; done; done; run none",
]  # fmt: skip
# Assignments over the same variables
ASSIGNED = [
    (b"a=2", [not_assigned("1:1", "a")]),
    (b"b=2", []),
    (b"a=", [not_assigned("1:1", "a"), leaves("1:1")]),
    (b'a="$b c"', [not_assigned("1:1", "a"), not_defined("1:3", "b")]),
    (b"b=1\n a=2; ok=3", [not_assigned("2:2", "a"), not_assigned("2:7", "ok")]),
    (b"a=2; a=3", [not_assigned("1:1", "a"), not_assigned("1:6", "a")]),
    (b"s=2", [not_assigned("1:1", "s")]),
    (b"\\\n a=2", [not_assigned("2:2", "a")]),
    (b"a\\\n=2", [not_assigned("1:1", "a")]),
    (b"true && a=2 && a=3", [not_assigned("1:9", "a"), not_assigned("1:16", "a")]),
    (b"if a=1; then a=2; else a=3; fi", several(not_assigned, "1:4 a 1:14 a 1:24 a")),
    (b"for a in 1 2; do true; done", [not_assigned("1:5", "a")]),
    (b"for \\\n a in 1 2; do true; done", [not_assigned("2:2", "a")]),
    (b"for b in a 2; do true; done", []),
    (b"for a in 1; do a=$a; run n; done", [not_assigned("1:5", "a"), not_assigned("1:16", "a"), not_run("1:26", "n")]),
    (b"while a=1; do for x in 1; do ok=2; done; done", several(not_assigned, "1:7 a 1:19 x 1:30 ok")),
    (b"A=2; aa=2; setenv a 2; setexpr a 2", []),
    (b"echo a=2; a\\=2; 'a'=2; $a=2; a==2", [not_assigned("1:30", "a")]),
    (b"# a=2", []),
]
# Scripts with these stand-ins
STAND_INS = b"# a board\nmmc\nusb 1\nload 7\n[\n"
CALLED = [
    (b"laod mmc 0:1", [not_called("1:1", "laod")]),
    (b"load mmc 0:1; usb; mmc", []),
    (b"load\n\t laod mmc", [not_called("2:3", "laod")]),
    (b"laod; laod", [not_called("1:1", "laod"), not_called("1:7", "laod")]),
    (b"mmc && laod && laod2 && usb", [not_called("1:8", "laod"), not_called("1:16", "laod2")]),
    (b"if c1; then c2; elif c3; then c4; else c5; fi", several(not_called, "1:4 c1 1:13 c2 1:22 c3 1:31 c4 1:40 c5")),
    (b"for c0 in c1; do c2; done", [not_called("1:18", "c2")]),
    (b"while c1; do c2; done\nuntil c3; do c4; done", several(not_called, "1:7 c1 1:14 c2 2:7 c3 2:14 c4")),
    (b"'laod' x", [not_called("1:1", "laod")]),
    (b'la\\od; l"ao"d; l\\\naod', several(not_called, "1:1 laod 1:8 laod 1:16 laod")),
    (b"'' x; \"\"mmc", [not_called("1:1", "")]),
    (b"'mmc' dev; l\\oad", []),
    (b"\xff\xc3\xa9", [not_called("1:1", "\udcff\xe9")]),
    (b"true; false; echo; setenv b c; printenv; saveenv; env print; test", []),
    (b"setexpr b 1; setexpr.b b 1; setexpr.w b 1; setexpr.l b 1; setexpr.q b 1", []),
    (b"setexpr.x b 1; setexpr. b 1; True; echo1", several(not_called, "1:1 setexpr.x 1:16 setexpr. 1:30 True 1:36 echo1")),
    (b"env grep laod; env", [no_subcommand("1:16")]),
    (b"mmc2; mm; MMC", several(not_called, "1:1 mmc2 1:7 mm 1:11 MMC")),
    (b"setenv.x b 1; printe b; ec; tru.b", several(not_called, "1:1 setenv.x 1:15 printe 1:25 ec 1:29 tru.b")),
    (b"us.b; load.q a; lo; mmc", several(not_called, "1:1 us.b 1:7 load.q 1:17 lo")),
    (
        b"set b 1; sete.x b; e; .b; usb2.b; Echo; env.x print",
        several(not_called, "1:1 set 1:10 sete.x 1:20 e 1:23 .b 1:27 usb2.b 1:35 Echo 1:41 env.x"),
    ),
    (b'$laod x; "$mmc"; l${x}; laod$?; $l', several(not_defined, "1:1 laod 1:10 mmc 1:33 l")),
    (b"echo laod; b=laod; setenv c 'laod'; # laod", []),
    (b"if then", [no_script("1:4", "Unexpected", "no command before `then`")]),
    (b"laod; 'x", [no_script("1:7", "Quote")]),
]
# Words of `test` that aren't operators by the strict shell, with and without stand-ins and variables
OPERATORS = [
    (b"test -e mmc 0:1 file", [no_operator("1:6", "-e")]),
    (b"test -e", [no_operator("1:6", "-e")]),
    (b"true; test -f x -a -d y", [no_operator("1:12", "-f")]),
    (b"test ! -d x", [no_operator("1:8", "-d")]),
    (b"test ! ! -d x", [no_operator("1:10", "-d")]),
    (b'test "$x" == b', [no_operator("1:11", "==")]),
    (b"test a =! b; test a => b; test a ~ b", several(no_operator, "1:8 =! 1:21 => 1:34 ~")),
    (b"test a <> b; test a -nt b; test a -Eq b", several(no_operator, "1:8 <> 1:21 -nt 1:35 -Eq")),
    (b"test a -eqx b; test a -x- b; test a -e= b", several(no_operator, "1:8 -eqx 1:23 -x- 1:37 -e=")),
    (b"if test -z a -o -e x; then true; fi", [no_operator("1:17", "-e")]),
    (b"while test a = b -a c == d; do true; done", [no_operator("1:23", "==")]),
    (b"test a = b -x c", [no_operator("1:12", "-x")]),
    (b"test -n a -x", [no_operator("1:11", "-x")]),
    (b"test -f == x", [no_operator("1:9", "==")]),
    (b"test -f x y", [no_operator("1:6", "-f")]),
    (b'test -f "$x" y', [no_operator("1:6", "-f")]),
    (b"test $x -e y", [no_operator("1:9", "-e")]),
    (b'test "-e" x; test \'-\'e x; test \\-e x; "test" -e x', several(no_operator, "1:6 -e 1:19 -e 1:32 -e 1:46 -e")),
    (b"test \\\n -e x", [no_operator("2:2", "-e")]),
    (b"test = y; test a = b = c; test a -a b; test -n a -n b", several(no_operator, "1:6 = 1:22 = 1:34 -a 1:50 -n")),
    (b"test -n a; test -z ''; test a = b; test a != b; test a < b; test a > b", []),
    (b"test 1 -eq 2; test 1 -ne 2; test 1 -lt 2; test 1 -le 2; test 1 -gt 2; test 1 -ge 2", []),
    (b"test a = b -a c != d -o ! -n e; test a = b -a ! ! f < g", []),
    (b"test a = -e; test -n -e; test -z ==; test a = ==; test ! -n -e", []),
    (b"test -e = x; test == != x; test = = =; test -f -eq 1", []),
    (b"test; test a; test a b; test a b -e; test a = b c; test a b = c; test -n", several(no_expression, "1:7 a 1:15 a 1:25 a 1:38 a 1:52 a 1:66 a")),
    (b"test -5 -lt 3; test -5; test - x; test -- x; test -1e x; test a -5 b", several(no_expression, "1:16 a 1:25 a 1:35 a 1:46 a 1:58 a")),
    (b'test $e x; test "-$e" x; test a $o b; test a -e$x b; test $a; test $? -eq 0', [no_expression("1:54")]),
    (b"echo test -e x; test2 -e x; Test -e x; $test -e x; env print -e x; t=-e", None),
    (b"test a = b # -e", []),
]
# The same by the board's shell
BOARD_OPERATORS = [
    (b"test -e mmc 0:1 file; test ! -e usb 0 x; test -e mmc 0 a -a -e mmc 0 b", []),
    (b"if test -e mmc 0:1 ${x}; then true; elif test -n a -a -e $x $x $x; then true; fi", []),
    (b"test -e mmc 0:1 file == b", [no_operator_of_board("1:22", "==")]),
    (b"true; test -f x -a -d y", [no_operator_of_board("1:12", "-f")]),
    (b"test ! -d x; test ! ! -d x", several(no_operator_of_board, "1:8 -d 1:23 -d")),
    (b'test "$x" == b', [no_operator_of_board("1:11", "==")]),
    (b"test -n $x -a $x == b; test ! $x =~ b", several(no_operator_of_board, "1:18 == 1:34 =~")),
    (b"test a =! b; test a => b; test a ~ b", several(no_operator_of_board, "1:8 =! 1:21 => 1:34 ~")),
    (b"test a <> b; test a -nt b; test a -Eq b", several(no_operator_of_board, "1:8 <> 1:21 -nt 1:35 -Eq")),
    (b"if test -z a -o -x x; then true; fi", [no_operator_of_board("1:17", "-x")]),
    (b"while test a = b -a c == d; do true; done", [no_operator_of_board("1:23", "==")]),
    (b"test a = b -x c", [no_operator_of_board("1:12", "-x")]),
    (b"test -n a -x", [no_operator_of_board("1:11", "-x")]),
    (b"test -f == x", [no_operator_of_board("1:9", "==")]),
    (b'test -f "$x" y', [no_operator_of_board("1:6", "-f")]),
    (b"test = y; test a = b = c", several(no_operator_of_board, "1:6 = 1:22 =")),
    (b"test -n a; test -z ''; test a = b; test a != b; test a < b; test a > b", []),
    (b"test 1 -eq 2; test 1 -ne 2; test 1 -lt 2; test 1 -le 2; test 1 -gt 2; test 1 -ge 2", []),
    (b"test a = b -a c != d -o ! -n e; test a = b -a ! ! f < g", []),
    # what a board reads, and the strict shell doesn't
    (b"test -n a -n b; test a = b c = d; test -a -n x; test -n a -o; test ! = x; test -a = x; test ! -a a = b", []),
    (b"test a = -e; test -n -e; test -z ==; test a = ==; test ! -n -e", []),
    (b"test == != x; test = = =; test -f -eq 1; test -n = x", []),
    (
        b"test; test a; test a b; test a = b c; test -n; test -e; test -e x; test a b -e",
        several(no_expression, "1:7 a 1:15 a 1:25 a 1:39 a 1:48 a 1:57 a 1:68 a"),
    ),
    (b"test -n = x; test -e != x; test -z = ; test -n a -e x y; test -e x y z -a", several(no_expression, "1:28 a 1:40 a")),
    (b'test $e x; test "-$e" x; test a $o b; test a -e$x b; test $a; test $? -eq 0; test ! $x', several(no_expression, "1:54 a 1:78 a")),
    (
        b"test $e x y; test $e x $y; test $e x -a y = z; test $e x = y; test $a = b c; test $a -n",
        [no_expression("1:1"), no_expression("1:63"), no_operator_of_board("1:86", "-n")],
    ),
    (b"test $x -a $o b", [no_operator_of_board("1:9", "-a")]),
]
# Carriage returns, with and without stand-ins and variables
RETURNS = [
    (b"echo a\r\necho b\r\n", [returned("1:7")]),
    (b"echo a\n\necho b\r", [returned("3:7")]),
    (b"echo '\r'", [returned("1:7")]),
    (b"# a\r\necho", [returned("1:4")]),
    (b"echo \\\r\n", [returned("1:7")]),
    (b"echo a\n", []),
    (b"echo '\\r' \\r", []),
    (b"echo a\r\n'", [returned("1:7"), no_script("2:1", "Quote")]),
    (b"'\r", [returned("1:2"), no_script("1:1", "Quote")]),
    (b"if true; then\r\n  echo a\r\nfi\r\n", [returned("1:14"), no_script("4:1", "Missing", lost("`then`", "if"))]),
    (b"if true; then echo a; fi\r\n", [returned("1:25"), no_script("2:1", "Missing", lost("`fi`", "if"))]),
]
# Commands that this shell lacks, with stand-ins of other names
LACKED = [
    (b"[ a = b ]", [lacked_test("1:1", "[")]),
    (b"[[ a = b ]]", [lacked_test("1:1", "[[")]),
    (b"[; [[", [lacked_test("1:1", "["), lacked_test("1:4", "[[")]),
    (b"if [ $x = 1 ]; then true; fi", [lacked_test("1:4", "[")]),
    (b"until [[ a ]]; do true; done", [lacked_test("1:7", "[[")]),
    (b"true && [ a ] && [[ b ]]", [lacked_test("1:9", "["), lacked_test("1:18", "[[")]),
    (b"while true; do break; done", [lacked("1:16", "break")]),
    (b"for i in 1 2; do if test $i = 1; then continue; fi; done", [lacked("1:39", "continue")]),
    (b"return", [lacked("1:1", "return")]),
    (b"echo a\n\treturn 1", [lacked("2:2", "return")]),
    (b"case $x in a) echo; ;; esac", [lacked("1:1", "case"), not_called("1:24", "esac")]),
    (b"function f { true; }", [lacked("1:1", "function"), not_called("1:20", "}")]),
    (b"f() { mmc; }", [no_functions("1:1"), not_called("1:12", "}")]),
    (b"f()\n{\nmmc\n}", [no_functions("1:1"), not_called("2:1", "{"), not_called("4:1", "}")]),
    (b"(); break(); [()", [no_functions("1:1"), no_functions("1:5"), no_functions("1:14")]),
    (b"'break'; br\\eak; \"break\"; br\\\neak", several(lacked, "1:1 break 1:10 break 1:18 break 1:27 break")),
    (b"'['; f'()'; \"f(\"\\)", [lacked_test("1:1", "["), no_functions("1:6"), no_functions("1:13")]),
    (b"break; break", [lacked("1:1", "break"), lacked("1:8", "break")]),
    (b"break; laod; return", [lacked("1:1", "break"), not_called("1:8", "laod"), lacked("1:14", "return")]),
    (b"return $none; continue", [lacked("1:1", "return"), not_defined("1:8", "none"), lacked("1:15", "continue")]),
    (b"break; '", [no_script("1:8", "Quote")]),
    (b"break\r\n[\r", [returned("1:6"), not_called("1:1", "break\r"), not_called("2:1", "[\r")]),
    (b"echo break continue [ [[ return case function f()", []),
    (b"setenv break '['; b=return; for b in case; do true; done; for continue in 1; do true; done", []),
    (b"break=1; case=; function='['; # break", [leaves("1:10")]),
    (b"run break", [not_run("1:5", "break")]),
    (b"Break; break2; breaks; b; ]; [a; [[[", several(not_called, "1:1 Break 1:8 break2 1:16 breaks 1:24 b 1:27 ] 1:30 [a 1:34 [[[")),
    (b"f () { mmc; }", [no_functions("1:1"), not_called("1:13", "}")]),
    (b"f ()\n{ mmc\n}", [no_functions("1:1"), not_called("2:1", "{"), not_called("3:1", "}")]),
    (b"true; 'f' \"(\"\\) x; f \\\n ()", [no_functions("1:7"), no_functions("1:20")]),
    (b"echo () x; run s ()", [not_run("1:18", "()")]),
    (b"g ()x; g x (); g ( ); g '' ()", several(not_called, "1:1 g 1:8 g 1:16 g 1:23 g")),
    (b"g $x(); g $? (); $x () x", [not_called("1:1", "g"), not_called("1:9", "g")]),
    (b"f()x; f(){ mmc; }; f(b; a)", several(not_called, "1:1 f()x 1:7 f(){ 1:17 } 1:20 f(b 1:25 a)")),
    (b"esac; in; eval; {; !", several(not_called, "1:1 esac 1:7 in 1:11 eval 1:17 { 1:20 !")),
    (b"$b; br${x}; \"[$x\"; f$x(); $x() x", [not_defined("1:1", "b")]),
]  # fmt: skip
# Stand-ins of other names, and of those that are lacked
OTHERS, THESE = b"mmc\n", b"mmc\n[\n[[ 1\nbreak\ncontinue\nreturn\ncase\nfunction\nf\nf()\n()\nbreak()\n[()\n"
# Substitutions over the variables above
SUBSTITUTED = [
    (b"echo $none", [not_defined("1:6", "none")]),
    (b"echo ${none}", [not_defined("1:6", "none")]),
    (b'echo "$none" a"b ${none}"', [not_defined("1:6", "none"), not_defined("1:14", "none")]),
    (b"echo $none ${none}\n echo none2", [not_defined("1:6", "none"), not_defined("1:12", "none")]),
    (b"echo $n1$n2${n1}", several(not_defined, "1:6 n1 1:6 n2 1:6 n1")),
    (b"echo $none${none}\"$none\" $none", [not_defined("1:6", "none"), not_defined("1:26", "none")]),
    (b"true; echo $none$a-$none$x${none} $none$?", [not_defined("1:12", "none"), not_defined("1:35", "none")]),
    (b"echo $n1$n1$n2$n2$n1", several(not_defined, "1:6 n1 1:6 n2 1:6 n1")),
    (b"b=$none$none; for b in $none$none$?; do true; done", [not_defined("1:3", "none"), not_defined("1:24", "none")]),
    (b"$none; \"$none\" a; l$none", several(not_defined, "1:1 none 1:8 none 1:19 none")),
    (b"echo a; echo b$none", [not_defined("1:14", "none")]),
    (b"echo a\n\n\techo $none", [not_defined("3:7", "none")]),
    (b"echo \xc3\xa9 $none", [not_defined("1:9", "none")]),
    (b"echo \\\n $none a\\\n$none", [not_defined("2:2", "none"), not_defined("2:8", "none")]),
    (b"echo ${a-b} ${#} ${?}", several(not_defined, "1:6 a-b 1:13 # 1:18 ?")),
    (b"b=$none; c=; d='$none'; e=a\"$none\"", [not_defined("1:3", "none"), leaves("1:10"), not_defined("1:27", "none")]),
    (b"b\\\n=$none", [not_defined("2:2", "none")]),
    (b"b=\\\n$none", [not_defined("1:3", "none")]),
    (b"b==$none; c=a=$none", [not_defined("1:3", "none"), not_defined("1:13", "none")]),
    (b"for b in a $none x$none; do true; done", [not_defined("1:12", "none"), not_defined("1:18", "none")]),
    (
        b"if echo $n1; then echo $n2; elif echo $n3\nthen b=$n4; else echo $n5; fi",
        several(not_defined, "1:9 n1 1:24 n2 1:39 n3 2:8 n4 2:23 n5"),
    ),
    (
        b"while echo $n1; do echo $n2; done; until echo $n3; do for b in $n4; do echo $n5; done; done",
        several(not_defined, "1:12 n1 1:25 n2 1:47 n3 1:64 n4 1:77 n5"),
    ),
    (b"true && echo $n1 && echo $n2", [not_defined("1:14", "n1"), not_defined("1:26", "n2")]),
    (b"laod $none", [not_called("1:1", "laod"), not_defined("1:6", "none")]),
    (b"run $none lost", [any_target("1:5"), not_run("1:11", "lost"), not_defined("1:5", "none")]),
    (b"a=$none", [not_assigned("1:1", "a"), not_defined("1:3", "none")]),
    (b"for a in $none; do echo $lost; done", [not_assigned("1:5", "a"), not_defined("1:10", "none"), not_defined("1:25", "lost")]),
    (b"echo $none; laod", [not_defined("1:6", "none"), not_called("1:13", "laod")]),
    (b"echo $none '", [no_script("1:12", "Quote")]),
    (b"echo $none\r\n", [returned("1:11"), not_defined("1:6", "none")]),
    # a name near to what is defined, or defined elsewhere
    (b"none; echo $none", [not_called("1:1", "none"), not_defined("1:12", "none")]),
    (b"'none' a; echo ${none}", [not_called("1:1", "none"), not_defined("1:16", "none")]),
    (b"echo nones non None none= $none", [not_defined("1:27", "none")]),
    (b"true; echo 'none x' none$x none$? \"none\"$a $none", [not_defined("1:44", "none")]),
    (b"for b in none; do echo $none; done", [not_defined("1:24", "none")]),
    (b"b=none; echo $none", [not_defined("1:14", "none")]),
    (b"test2 $none; echo $none", [not_called("1:1", "test2"), not_defined("1:7", "none"), not_defined("1:19", "none")]),
    (b"$test -n $none", [not_defined("1:1", "test"), not_defined("1:10", "none")]),
    (b"env test $none; Test $none", [no_subcommand("1:1"), not_defined("1:10", "none"), not_called("1:17", "Test"), not_defined("1:22", "none")]),
    (b"test -n '$none' \\$none; echo $none", [no_expression("1:1"), not_defined("1:30", "none")]),
    (b"b=$none; test -n $b; for c in $none; do test -n $c; done", [not_defined("1:3", "none"), not_defined("1:31", "none")]),
    (b"setenv b 'setenv none 1; none=2'; echo $none", [not_defined("1:40", "none")]),
    (b"# none=1\necho $none", [not_defined("2:6", "none")]),
    (b"setenv none\r\necho $none", [returned("1:12"), not_defined("2:6", "none")]),
    (b"setenv none\r\nrun none", [returned("1:12"), not_run("2:5", "none")]),
    (b"echo $A $ok2 ${two} $Run", several(not_defined, "1:6 A 1:9 ok2 1:14 two 1:21 Run")),
    (
        b"echo $ethBddr $loadaddr $Filesize $filesize_ $ip ${file.size}",
        several(not_defined, "1:6 ethBddr 1:15 loadaddr 1:25 Filesize 1:35 filesize_ 1:46 ip 1:50 file.size"),
    ),
    (b"part uuid mmc 0:1 none; echo $none", [not_called("1:1", "part")]),
    (b"run none; echo $none", [not_run("1:5", "none")]),
    (b"test -e \"$none\" 0 x; echo $none", [no_operator("1:6", "-e")]),
]  # fmt: skip
# Of these each is defined
DEFINED = [
    b"echo $a ${x} $s$run ${\xc3\xa9}", b"true; echo '$none' \\$none \"\\$none\" $ $, $? \"$?\"", b"none=1; echo $none", b"echo $none; none=x",
    b"none=a$none", b"for none in 1; do echo $none; done; echo $none", b"for none in $none; do true; done", b"setenv none 1; echo $none",
    b"echo $none; setenv none", b"setenv -f none 1; b=$none", b"setexpr none 1 + 2; echo $none", b"env exists none && echo $none",
    b"echo $none none", b"echo ${none}; printenv none", b"setenv 'none' 1; echo $none", b"setenv no\"n\"\\e 1; echo $none",
    b"setenv $a none; echo $none", b"$x none x; $none", b"test -n \"$none\"; echo $none", b"echo $none; if test a = b${none}; then true; fi",
    b"'test' -n $none; te\\st -n $other; echo $none$other",
    b"if false; then while false; do for b in 1; do setenv none; done; done; fi; echo $none",
    b"echo $bootfile $dnsip $domain $fdtcontroladdr $fileaddr $filesize",
    b"echo $boardver $bootargs $devnum $devtype $distro_bootpart $dnsip2 $llipaddr $mtddevname $mtddevnum $ntpserverip",
    b"echo $prefix $stderr $stdin $stdout $timeoffset",
    b"echo $bootcount $ethact $ethaddr $fdtaddr $mtdids $mtdparts $partition $ver",
    b"$gatewayip $hostname $ipaddr; b=$netmask; for b in $rootpath; do echo \"${serverip}\"; done",
]  # fmt: skip
# Commands by beginnings of their names and with widths: what a board finds, and what the strict shell does
NAMED = [
    (b"seten none 1; run none", [], [not_run("1:19", "none")]),
    (b"setenv.x -f none 1; run none", [], [not_run("1:25", "none")]),
    (b"setex none 1; run none", [], [not_run("1:19", "none")]),
    (b"env se none 1; run none", [], [no_subcommand("1:1"), not_run("1:20", "none")]),
    (b"env.b exi.x none && run none", [], [not_run("1:25", "none")]),
    (b"setexpr.x none 1; setexpr. none 1; run none", [], [not_run("1:40", "none")]),
    (b"tes -n $none; run none", [], [not_run("1:19", "none")]),
    (b"tes -n $none; echo $none", [], several(not_defined, "1:8 none 1:20 none")),
    (b"ru none; run.x lost", several(not_run, "1:4 none 1:16 lost"), []),
    (b"test.b a == b", [no_operator_of_board("1:10", "==")], []),
    (b"sete none 1; env s none; run none", [not_run("1:30", "none")], [no_subcommand("1:14"), not_run("1:30", "none")]),
]
# A board's rules, scripts by them, and what is found
RULES = b"""load mmc -> setenv filesize 1c4a00; setenv n 1
load -> 1
source -> run boot_scr_${n}; run found
mmc 7
[ -> 0
test -e -> 1
env import -> setenv imported 1
setexpr v sub -> 0
-setexpr
-saveenv
dhcp -> ?
booti -> boots
open* 1
"""
BY_RULES = [
    (b"load mmc 1:2 x; mmc dev 0; source 1; dhcp; booti; [ a; test -e mmc 1:2 x; env import -t x", []),
    (b"laod; loa x; load.b x; mm; sourc; open; opened", [not_called("1:1", "laod"), not_called("1:35", "open"), not_called("1:41", "opened")]),
    (b"saveenv; savee; setexpr v sub a b; setexpr.l v 1", several(not_called, "1:1 saveenv 1:10 savee 1:36 setexpr.l")),
    (b"echo $n $imported $filesize $m; run n imported", [not_defined("1:29", "m")]),
    (b"run boot_scr; $none; sou x; echo ${v}", [not_run("1:5", "boot_scr"), not_defined("1:15", "none"), not_defined("1:34", "v")]),
]  # fmt: skip
# What boards do in different ways, with and without stand-ins and variables
DIFFERENCES = [
    (b"exit", [exits("1:1")]),
    (b"true && 'ex'it 3; if true; then exit $a; fi; echo exit", several(exits, "1:9 a 1:33 a")),
    (b"for i in a 'b c' d\\ e 'f\ng' h\\\ti 'j k'$a; do exit; done", [cuts("1:12"), cuts("1:18"), cuts("1:23"), cuts("2:9"), exits("2:21")]),
    (b"for i in '' \"a b\"; do true; done; echo 'a b'; x='a b'", [cuts("1:10"), cuts("1:13")]),
    (b'for i in "$a" x"$a" ""$a ""x \'y\'\\z $a "$?"; do exit; done', [stale("1:5"), *several(cuts, "1:10 a 1:15 a 1:21 a 1:39 a"), exits("1:48")]),
    # chains: behind another operator than the first one
    (b"true && false || true", [mixes("1:18")]),
    (b"true || false && true || true && exit", [mixes("1:18"), mixes("1:34"), exits("1:34")]),
    (b"true && false && true; true || false || true", []),
    (b"true && if false || true; then true; else true; fi && true", []),
    (b"true || true && if false; then true; else true; fi", [mixes("1:20")]),
    (b"true && false ||\n\n  z=1", [mixes("3:3")]),
    (b"true && false || for i in a; do true; done", [mixes("1:22")]),
    (b"while true || true && false; do true && true || true; done", [mixes("1:23"), mixes("1:49")]),
    # an `if` without `else` whose status is asked for
    (b"if true; then false; fi", []),
    (b"if true; then false; fi; true", []),
    (b"if true; then false; fi && true", [of_if("1:4")]),
    (b"if true; then false; elif true; then false; fi || true", [of_if("1:4")]),
    (b"if true; then false; else true; fi || true", []),
    (b"true && if true; then false; fi", []),
    (b"if if true; then false; fi; then true; fi", [of_if("1:7")]),
    (b"if if if true; then false; fi; then true; fi; then true; fi && true", [of_if("1:10")]),
    (b"if true; then if true; then false; fi; fi && true", [of_if("1:4"), of_if("1:18")]),
    (b"if true; then if true; then false; fi; true; else if true; then true; fi; fi && true", [of_if("1:54")]),
    (b"while true; if true; then false; fi; do if true; then true; fi; done", [of_if("1:16")]),
    (b"until if true; then false; fi; true; do true; done", []),
    (b"if true; then true; fi; echo $?", [of_if("1:4")]),
    (b"echo '$?'; if true; then true; fi", []),
    (b"echo '$?'; if true; then true; fi; true", [of_if("1:15")]),
    (b"for i in a; do if true; then true; fi; done || true", [of_if("1:19")]),
    (b"for i in a; do if true; then true; fi; true; done || true", []),
    (b"if true; then\n z=1\nfi && true", [of_if("1:4")]),
    (b"if z=1; then true; fi && true; if for i in b; do true; done; then true; fi && true", [of_if("1:4"), of_if("1:39")]),
    # a loop whose status is asked for
    (b"while false; do true; done; until true; do true; done", []),
    (b"while false; do true; done && true", [of_loop("1:7")]),
    (b"until true; do true; done || true", [of_loop("1:7")]),
    (b"for i in a; do true; done || true", []),
    (b"if while false; do true; done; then true; fi", [of_loop("1:10")]),
    (b"while while false; do true; done; do true; done", [of_loop("1:13")]),
    (b"while until true; do true; done; true; do while false; do true; done; done", []),
    (b"true; while false; do while false; do true; done; done; echo $?", [of_loop("1:13"), of_loop("1:29")]),
    (b"if while true; do true; done; then true; fi && true", [of_if("1:10"), of_loop("1:10")]),
    (b"true && true || while false; do exit; done && true", [mixes("1:23"), of_loop("1:23"), exits("1:33")]),
    # `$?` before any command
    (b"echo $?", [stale("1:1")]),
    (b"\n true$? a; echo $?", [stale("2:2")]),
    (b"true; echo $?; z=$?", []),
    (b"z=$?; echo $?", [stale("1:1")]),
    (b'if echo "$?"; then echo $?; else echo $?; fi', [stale("1:4")]),
    (b"while until echo x$?; do true; done; do true; done", [of_loop("1:13"), stale("1:13")]),
    (b"echo a && echo $?", []),
    (b"for i in a $?; do echo $?; done", [stale("1:5"), stale("1:19")]),
    (b"true; for i in a; do if true $?; then echo $?; else true; fi; done", [stale("1:25")]),
    (b"true; for i in $?; do true; echo $?; done", []),
    (b"echo '$?' \\$? ${a}", []),
]
# What is found in what is close to no script
NEAR_FOUND = {
    b"echo ${a} $? $": [stale("1:1")],
    b"false || true && echo b": [mixes("1:18")],
    b"until " * 64 + b"true" + b"; do true; done" * 64: [of_loop("1:385")],
}
# More than one kind in a script: the carriage return first, then the commands in the order of the text
MIXED = b"laod; run n; a=2\r\nrun s; for ok in a; do usb $none; laod n; done"
MIXED_FOUND = [
    returned("1:17"), not_called("1:1", "laod"), not_run("1:11", "n"), not_assigned("1:14", "a"), not_assigned("2:12", "ok"),
    not_defined("2:28", "none"), not_called("2:35", "laod"),
]  # fmt: skip


def each_way(script, found, words=()):
    """A script whose findings are the same over an environment and alone, with and without stand-ins; by the words' shell."""
    files = {b"stand-ins": STAND_INS}
    yield over({b"a": b"1", b"s": script}, [b"s", *words], lines(found, "s"))
    yield of_file(script, [*words], lines(found, "a:1 b"))
    yield of_file(script, with_stand_ins(words), lines(found, "a:1 b"), files)
    yield row("a check of standard input", [*words, *QUOTING, b"-f", b"-"], {}, lines(found, "-"), given=script)


def every_way(script, found, stand_ins=STAND_INS):
    """A script of whose findings some need stand-ins, and some an environment."""
    files = {b"stand-ins": stand_ins}
    for shell, told in ([], on_board(found)), (STRICT, found):
        for words, seen in ((with_stand_ins(shell), told), (shell, without(told, "stand-in"))):
            yield over(VARIABLES | {b"s": script}, [b"s", *words], lines(seen, "s"), files)
            yield of_file(script, words, lines(without(seen, "`run ", "what this runs", "assigned", "nothing defines"), "a:1 b"), files)


def no_scripts():
    for script, line, column, *fault in NO_SCRIPTS:
        at = script.find(b"\r")
        found = [] if at < 0 else [returned(place(script, at))]
        yield from each_way(script, [*found, no_script(f"{line}:{column}", *fault)], STRICT)
        if script not in EMPTY_BODIES:
            yield from each_way(script, [*found, no_script(f"{line}:{column}", *fault)])
    for script in EMPTY_BODIES:
        yield of_file(script, [], b"")
        yield over({b"a": b"1", b"s": script}, [b"s"], b"")
    for script, _ in NEAR_SCRIPTS:
        found = [exits(place(script, at)) for at in [script.find(b"exit")] if at >= 0]
        yield from each_way(script, NEAR_FOUND.get(script, found))
    for script, line, column in NULS:
        yield of_file(script, [], lines([no_script(f"{line}:{column}", "Nul")], "a:1 b"))
    for script, found in RETURNS + DIFFERENCES + [each for each in BOARD_OPERATORS if each[1] is not None]:
        yield from each_way(script, found)
    for script, found in RETURNS + DIFFERENCES + [each for each in OPERATORS if each[1] is not None]:
        yield from each_way(script, found, STRICT)
    for script in (script for script, found in BOARD_OPERATORS if found is None):
        yield of_file(script, [], b"")
    for script in (script for script, found in OPERATORS if found is None):
        yield of_file(script, [], b"")
        yield of_file(script, STRICT, b"")


def starts():
    for script, found in [*STARTS, *((script, []) for script in FORESEEN), *ASSIGNED]:
        yield over(VARIABLES | {b"s": script}, [b"s"], lines(on_board(found), "s"))
        yield over(VARIABLES | {b"s": script}, [b"s", *STRICT], lines(found, "s"))
        yield of_file(script, [], lines([each for each in found if each.endswith(("[wrong-use]", "[stale-status]", "[empty-assignment]"))], "a:1 b"))
        if not found:
            yield over(VARIABLES | {b"s": script}, [b"s", b"ok", b"a"], b"")
    over_these = {name: value for name, value in VARIABLES.items() if name != b"a"}
    yield over(over_these | {b"s": b"a=2; for a in b; do run a; done"}, [b"s"], lines([not_run("1:25", "a")], "s"))


def names():
    for script, on_a_board, strict in NAMED:
        yield over(VARIABLES | {b"s": script}, [b"s"], lines(on_a_board, "s"))
        yield over(VARIABLES | {b"s": script}, [b"s", *STRICT], lines(strict, "s"))
    yield over({b"s": b"r.x t", b"t": b"run none"}, [b"s"], lines([not_run("1:5", "none")], "t"))
    found, files = [not_called("1:1", "seten"), not_run("1:19", "none")], {b"stand-ins": b"setenvx\n"}
    yield over({b"s": NAMED[0][0]}, with_stand_ins([b"s"]), lines(found, "s"), files)


def calls():
    files = {b"stand-ins": STAND_INS}
    for script, found in [*CALLED, (MIXED, MIXED_FOUND)]:
        yield from every_way(script, found)
    yield of_file(b"mmc; true", with_stand_ins(), lines([not_called("1:1", "mmc")], "a:1 b"), {b"stand-ins": b""})
    yield of_file(
        b"mmc\r\ntrue\r\n", with_stand_ins(), lines([returned("1:4"), not_called("1:1", "mmc\r"), not_called("2:1", "true\r")], "a:1 b"), files
    )
    for text, errors in NO_STAND_INS:
        files = {b"stand-ins": text}
        yield over(VARIABLES, with_stand_ins([b"a"]), b"", files, errors=errors)
        yield of_file(b"'", with_stand_ins(), b"", files, errors=errors)


def boards():
    """What a board answers, with and without stand-ins."""
    scripts = {b"found": b"run none", b"boot_scr_2": b"run none2", b"boot": b"run none3"}
    told = lines([not_run("boot_scr_2:1:5", "none2"), not_run("found:1:5", "none")])
    for words, files in (
        ([b"--board=board"], {b"board": RULES}),
        (with_stand_ins([b"--board", b"board"]), {b"board": RULES, b"stand-ins": b"usb\n"}),
    ):
        for script, found in BY_RULES:
            yield over({b"s": script}, [b"s", *words], lines(found, "s"), files)
            yield of_file(script, words, lines(without(found, "nothing defines", "`run "), "a:1 b"), files)
        yield over(scripts | {b"s": b"true"}, [b"s", *words], told, files)
        yield over({b"s": b"setexpr.q v 1; usb"}, [b"s", *words], lines(several(not_called, "1:1 setexpr.q 1:16 usb")[: 3 - len(files)], "s"), files)
        for text, line, sentence in ((b"mmc\n-mmc\n", 2, b"a - is for the name of a builtin alone"), (b"mmc ->\n", 1, b"no answer after ->")):
            yield over({b"s": b"'"}, [b"s", *words], b"", files | {b"board": text}, errors=b"fwenv: board:%d: %s\n" % (line, sentence))
    yield of_file(b"setexpr a 1; mmc", [b"--board", b"board"], lines([not_called("1:14", "mmc")], "a:1 b"), {b"board": b""})
    yield of_file(
        b"lo; load; setexp a 1",
        [*STRICT, b"--board", b"board"],
        lines([not_called("1:1", "lo"), not_called("1:11", "setexp")], "a:1 b"),
        {b"board": RULES},
    )


def lacked_commands():
    for script, found in LACKED:
        yield from every_way(script, found, OTHERS)
        there = without(found, "this shell has no", "nothing defines", "`run ", "what this runs")
        yield of_file(script, with_stand_ins(), lines(there, "a:1 b"), {b"stand-ins": THESE})


def substitutions():
    for script, found in [*SUBSTITUTED, *((script, []) for script in DEFINED)]:
        yield from every_way(script, found)


def chunks():
    return [no_scripts, starts, names, calls, boards, lacked_commands, substitutions]
