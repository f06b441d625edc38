"""What boards make in another way of a script, by hand: each kind of finding of `fwenv check` that has the name of a class of docs/differences.md,
wrong use that prints a usage text, and the lines below a finding that show its place."""

from differential.harness.boards import STRICT, text_of

from differential.harness.check_lines import (
    apostrophe, backquoted, cuts, drops, drops_at_load, empties, exits, hidden, in_braces, joins, keeps, lacked, leaves, lines, loose, lost, mixes, no_calculation,
    no_calculator, no_script, no_setting, no_subcommand, no_words, no_words_of_env, not_assigned, not_defined, not_run, one_word, place, pointed, refuses,
    rereads, returned, row, too_many,
)  # fmt: skip

# What all scripts below are over
VARIABLES = {b"x": b"1", b"_x": b"1", b"_": b"1"}
SIXTEEN = b" ".join(b"%d" % number for number in range(1, 17))
# Scripts, and what is found in them by the kinds of quoting and by others behind these
QUOTED = [
    # joined lines: between words, in them and in quotes, but in no comment
    (b"echo a \\\nb", [joins("1:8")]),
    (b"echo a\\\nb", [joins("1:7")]),
    (b'echo "a\\\nb"', [joins("1:8")]),
    (b"\\\necho", [joins("1:1")]),
    (b"echo a;\\\n\\\n echo b", [joins("1:8"), joins("2:1")]),
    (b"echo a # b \\\necho c\n# d\\\n# e", []),
    (b"echo a\\\n#b\\\nc", [joins("1:7"), joins("2:3")]),
    (b"echo a \\\n#b\\\necho c", [joins("1:8")]),
    (b"echo a\\\\\necho b\\\\\\\nc", [joins("2:9")]),
    (b"a\\\n=1; echo $\\\n_x", [joins("1:2"), joins("2:11")]),
    # operators at a line's end, perhaps before a comment
    (b"true &&\ntrue", [loose("1:8")]),
    (b"true ||\n\n\ntrue", [loose("1:8")]),
    (b"true &&\t \ntrue", [loose("1:10")]),
    (b"true && # c\ntrue", [loose("1:12")]),
    (b"true &&# c\ntrue", [loose("1:11")]),
    (b"true &&\n# c\ntrue", [loose("1:8")]),
    (b"true && \\\ntrue", [joins("1:9")]),
    (b"true &&\\\n\ntrue", [joins("1:8"), loose("2:1")]),
    (b"true && \\\n # c\ntrue", [joins("1:9"), loose("2:5")]),
    (b"if true &&\ntrue; then true; fi", [loose("1:11")]),
    (b"false &&\ntrue ||\ntrue", [loose("1:9"), loose("2:8"), mixes("3:1")]),
    (b"true && true\ntrue;\ntrue # &&\n\ntrue", []),
    (b"echo '&&\n' \"||\n\" \\&\\&\ntrue", []),
    # apostrophes
    (b'echo "it\'s"', [apostrophe("1:9")]),
    (b"echo \"a'b'c\" d", [apostrophe("1:8"), apostrophe("1:10")]),
    (b"echo \"'\n'\"", [apostrophe("1:7"), apostrophe("2:1")]),
    (b'echo "\\\'"', [apostrophe("1:8")]),
    (b'y="it\'s"', [apostrophe("1:6")]),
    (b"echo 'a\"b' \"c\"'d'\"e\" it\\'s # it's", []),
    # backslashes in quotes
    (b"echo 'a\\b' '\\\\' '\\\n'", [drops("1:8"), drops("1:13"), drops("1:14"), drops("1:18")]),
    (b'echo "\\$x \\" \\\\ \\n"', [keeps("1:7"), keeps("1:11"), keeps("1:14")]),
    (b"echo \"a\\'b\\\\\"'\\'", [apostrophe("1:9"), keeps("1:11"), drops("1:15")]),
    (b"echo a\\b \\\\ \\\" \\' ${x}\\y", []),
    # names that begin with `_`
    (b"echo $_x", [in_braces("1:6")]),
    (b"echo ${_x} \\$_x '$_x' $x # $_x", []),
    (b'echo "$_x" "a${_x}$_x"', [in_braces("1:7"), in_braces("1:19")]),
    (b'echo "\\$_x" $_ $"_x" "$"_x', [keeps("1:7"), in_braces("1:13")]),
    (b"for i in $_x; do true; done", [in_braces("1:10")]),
    # all of them, and texts that are no script
    (
        b"echo '\\' \"'\" $_x \\\n && \\\n true ||\ntrue",
        [drops("1:7"), apostrophe("1:11"), in_braces("1:14"), joins("1:18"), joins("2:5"), loose("3:9"), mixes("4:1")],
    ),
    (b"echo \"it's\" $_x '\\' \\\n'", [no_script("2:1", "Quote")]),
    (b"echo $$_x", [no_script("1:6", "Substitution")]),
    (b"true &&\n", [no_script("2:1", "Missing", "no command before the end of the text")]),
    (b"echo \\a\r\n'", [returned("1:8"), no_script("2:1", "Quote")]),
]
# The same of commands
COMMANDS = [
    (b"echo 1 2 3 4 5 6 7 8 9 10 11 12 13 14 15", []),
    (b"echo " + SIXTEEN, [too_many("1:42")]),
    (b"$x " + SIXTEEN + b" 17 18", [too_many("1:40")]),
    (b"exit " + SIXTEEN, [exits("1:1"), too_many("1:42"), one_word("1:1")]),
    (b"for i in %s 17 18; do true; done; y=1" % SIXTEEN, []),
    # wrong use
    (b"setenv -f; setenv '-f'", [no_setting("1:1"), no_setting("1:12")]),
    (b"setenv ''; setenv \"\" 1", [no_setting("1:1"), no_setting("1:12")]),
    (b"setenv -f x; setenv -f x 1; setenv -f -f; setenv ''$x 1; setenv $x", []),
    (b"setenv -f ''; setenv -f a=b; setenv -f a = b", [no_setting("1:1"), no_setting("1:15"), no_setting("1:30")]),
    (b"env set ''; env set a=b; env set 'a b'; env set -f a = b; env set ''$x", [*map(no_words_of_env, ("1:1", "1:13", "1:26", "1:41"))]),
    (b"setexpr v 5 ** 2; setexpr v 1 foo 2; setexpr v 5 +x 2", [no_calculator("1:1"), no_calculator("1:19"), no_calculator("1:38")]),
    (b"setexpr v 1 '' 2; setexpr.b v 1 == 2", [no_calculator("1:1"), no_calculator("1:19")]),
    (b"setexpr v 1 + 2; setexpr v 1 - 2; setexpr v 1 * 2; setexpr v 1 / 2; setexpr v 1 % 2", []),
    (b"setexpr v 1 '&' 2; setexpr v 1 \"|\" 2; setexpr v 1 \\^ 2; setexpr v 1 $x 2; setexpr v $x", []),
    (b"setexpr v sub a b; setexpr v gsub a b; setexpr v fmt a b; setexpr v gsub a b c", []),
    (b"setexpr v $x+1 ++ 2; setexpr v 1 ++", [no_calculation("1:1"), no_calculation("1:22")]),
    (b"saveenv; saveenv a; saveenv $x", [no_words("1:10"), no_words("1:21")]),
    (b"exit; exit 1; exit 1 2; exit $x $x", [*map(exits, ("1:1", "1:7", "1:15")), one_word("1:15"), exits("1:25"), one_word("1:25")]),
    (b"env exists; env exists a b; env exists $x $x", [*map(no_words_of_env, ("1:1", "1:13", "1:29"))]),
    (b"env delete; env delete -f; env run; env save a", [*map(no_words_of_env, ("1:1", "1:13", "1:28", "1:37"))]),
    (b"env set; env set -f", [*map(no_words_of_env, ("1:1", "1:10"))]),
    (b"env exists $x; env delete $x; env delete -f $x; env delete a b; env run x; env save; env set a; env set -f a", []),
    (b"env print; env print a; env default -a; env $x; env $x a b", []),
    # empty values
    (b"setenv v ''; setenv v \"\"; setenv -f v ''", [empties("1:10"), empties("1:23"), empties("1:39")]),
    (b"env set v ''; env set -f v ''; setenv $x ''", [empties("1:11"), empties("1:28"), empties("1:42")]),
    (b"setenv v; setenv v '' ''; setenv v ''$x; setenv v a; setenv v '' a; printenv v ''", []),
    (b"setenv '' ''; env set '' ''", [no_setting("1:1"), empties("1:11"), no_words_of_env("1:15"), empties("1:26")]),
    (b"y=; y=\"\"; y=''\"\"; true && y=", [*map(leaves, ("1:1", "1:5", "1:11", "1:27"))]),
    (b"y=\\\n", [joins("1:3"), leaves("1:1")]),
    (b"y=$x; y=''$x; y=0; echo y=", []),
    # reserved words of a `for`
    (b"for i in if then elif else fi for while until do done in; do true; done",
     [refuses(f"1:{column}") for column in (10, 13, 18, 23, 28, 31, 35, 41, 47, 50, 55)]),
    (b"for i in 'if' \"in\" \\do d'o'; do true; done", [*map(refuses, ("1:10", "1:15", "1:20", "1:24"))]),
    (b"for i in ifs IF in$x $x case ! { i\\\nn; do echo if then; done", [joins("1:35"), refuses("1:34")]),
    (b"for i in 'a b' do `x` if; do true; done", [cuts("1:10"), refuses("1:16"), refuses("1:23"), backquoted("1:19")]),
]  # fmt: skip
# Scripts over more variables, and what is found by a board's shell
VALUES = {
    b"q": b"it's", b"b": b"a\\b", b"n": b"a\nb", b"d": b'a"b', b"h": b"a # b", b"g": b"#b", b"t": b"a\t#b", b"l": b"a\n#b",
    b"c": b"a#b c# `d` $x ${x} {e} (f) & | ; < > * ? ~ !", b"empty": b"x",
}  # fmt: skip
OVER_VALUES = [
    *((b'echo $%s; echo "$%s"' % (name, name), [rereads("1:6", name.decode()), rereads("1:15", name.decode())]) for name in (b"q", b"b", b"n", b"l")),
    *((b'echo $%s; echo "$%s"' % (name, name), [rereads("1:6", name.decode())]) for name in (b"d", b"h", b"g", b"t")),
    (b'echo $c "$c"; y=$c; for i in $c; do true; done', []),
    (b'y=$q; y="$b"; y=$n; y=a$l', [rereads("1:3", "q"), rereads("1:9", "b"), rereads("1:17", "n"), rereads("1:23", "l")]),
    (b'y=$d; y=$h; y="$g"; for i in $d $h a$g $t; do true; done', []),
    (b'for i in $q a$b "$n"; do true; done', [cuts("1:17"), rereads("1:10", "q"), rereads("1:13", "b"), rereads("1:17", "n")]),
    (b'echo $c$d$q "$d"$q $q$d "$d$c"', [rereads("1:6", "d"), rereads("1:13", "q"), rereads("1:20", "q")]),
    (b'echo a"b"$d "$d" \'$q\' \\$q', [rereads("1:6", "d")]),
    (b'$q a; test "$q" = $d', [rereads("1:1", "q"), rereads("1:12", "q"), rereads("1:19", "d")]),
    (b"echo $q $none; echo $q$none", [not_defined("1:9", "none"), rereads("1:6", "q"), not_defined("1:21", "none"), rereads("1:21", "q")]),
    (b"setenv $none ''; setenv $q ''", [empties("1:14"), not_defined("1:8", "none"), empties("1:28"), rereads("1:25", "q")]),
    (b"q=; echo $q", [hidden("1:1", "q"), leaves("1:1"), rereads("1:10", "q")]),
    (b"for q in if $q; do true; done", [hidden("1:5", "q"), refuses("1:10"), rereads("1:13", "q")]),
    (b'setenv v "it\'s"; y="it\'s"; echo $v $y $k', [apostrophe("1:13"), apostrophe("1:23")]),
    (b'if test "$d" = a; then echo $d; fi', [rereads("1:29", "d")]),
    (b"true; echo $?$q $?", [rereads("1:12", "q")]),
]
# Beginnings of names, and what is found by a board's shell and by the strict one
BY_BEGINNINGS = [
    (b"env exi; env se.x; env del -f; env sa 1", [*map(no_words_of_env, ("1:1", "1:10", "1:20", "1:32"))], [*map(no_subcommand, ("1:1", "1:10", "1:20", "1:32"))]),
    (b"env s; env e a b; env set v", [], [no_subcommand("1:1"), no_subcommand("1:8")]),
    (b"exi 1 2; savee x", [exits("1:1"), one_word("1:1"), no_words("1:10")], []),
    (b"seten -f; seten v ''; env se -f v ''", [no_setting("1:1"), empties("1:19"), empties("1:35")], [no_subcommand("1:23")]),
    (b"sete v ''; env ex a b", [], [no_subcommand("1:12")]),
]  # fmt: skip
# One finding of each new code, and a script with them
EACH = [
    drops_at_load("1:8"), drops("1:8"), apostrophe("2:9"), in_braces("3:6"), joins("4:6"), loose("6:8"), refuses("8:10"), empties("9:10"), leaves("10:1"),
    too_many("11:42"), rereads("12:6", "q"),
]  # fmt: skip
WITH_EACH = (
    b"echo 'a\\b'\necho \"it's\"\necho $_x\necho \\\na\ntrue ||\ntrue\nfor i in do; do true; done\nsetenv v ''\ny=\necho %s\necho $q" % SIXTEEN
)
# The script of a file with `break`, its line, and the line and spaces that show it there
SHOWN = [
    (b"break", "1:1", b"break", 0),
    (b" " * 30 + b"break", "1:31", b" " * 30 + b"break", 30),
    (b" " * 31 + b"break", "1:32", b"..." + b" " * 30 + b"break", 33),
    (b"break " + b"x" * 34, "1:1", b"break " + b"x" * 34, 0),
    (b"break " + b"x" * 35, "1:1", b"break " + b"x" * 34 + b"...", 0),
    (b"echo %s; break %s" % (b"y" * 40, b"z" * 40), "1:48", b"..." + b"y" * 28 + b"; break " + b"z" * 34 + b"...", 33),
    (b"echo a\nbreak", "2:1", b"break", 0),
    (b"\n" + b" " * 30 + b"break", "2:31", b" " * 30 + b"break", 30),
    (b"\n " + b" " * 30 + b"break", "2:32", b"..." + b" " * 30 + b"break", 33),
    (b"break " + b"x" * 34 + b"\ntrue", "1:1", b"break " + b"x" * 34, 0),
    (b"true\n; break a\ntrue", "2:3", b"; break a", 2),
    (b"\tbreak \x01\x1f\x7f\x80\xc3\xa9~", "1:2", b" break ??????~", 1),
    (b"echo '\t\x0b\x0e\xff'; break", "1:14", b"echo ' ???'; break", 13),
]  # fmt: skip
# The same of other findings
SHOWN_OTHERS = [
    (b"if true; then echo", no_script("1:19", "Missing", lost("`fi`", "if")), b"if true; then echo", 18),
    (b"if true; then echo " + b"x" * 40, no_script("1:60", "Missing", lost("`fi`", "if")), b"..." + b"x" * 30, 33),
    (b"while true\ndo echo\n", no_script("3:1", "Missing", lost("`done`", "while")), b"", 0),
    (b"true &&\ntrue", loose("1:8"), b"true &&", 7),
    (b"echo a\r\n", returned("1:7"), b"echo a?", 6),
    (b"# a\n \\\na", joins("2:2"), b" \\", 1),
]
# Entries of a boot menu, with all that is printed
MENUS = [
    (b"Boot=run n", "1:10", b"     run n", 9),
    (b"a\\b\n\tc=run n", "2:8", b"   run n", 7),
]


def of_files(script, found, words=()):
    """What is found in the script of a file, which isn't loaded as a variable."""
    return row("a difference in a file", [*words, b"-f", b"s"], {b"s": script}, lines(found, "s"))


def over(variables, script, found, words=()):
    """The same of the script of a variable, of whose first backslash more is told."""
    at = script.find(b"\\")
    told = [drops_at_load(place(script, at))] if at >= 0 else []
    first = [each for each in found[:1] if "[carriage-return]" in each]
    environment = {b"env": text_of(variables | {b"s": script})}
    return row("a difference", [*words, b"--env", b"env", b"s"], environment, lines([*first, *told, *found[len(first) :]], "s"))


def quoting_and_commands():
    for script, found in QUOTED + COMMANDS:
        for words in ([], STRICT):
            yield of_files(script, found, words)
            yield over(VARIABLES, script, found, words)
    for script, found, strict in BY_BEGINNINGS:
        yield of_files(script, found)
        yield of_files(script, strict, STRICT)
        yield over(VARIABLES, script, found)


def values():
    known = {b"names": b"k\n"}
    for script, found in OVER_VALUES:
        environment = known | {b"env": text_of(VALUES | {b"s": script})}
        of_strict = [each.replace("which hides what is assigned", "so it can not be assigned") for each in found]
        told = [drops_at_load(place(script, at)) for at in [script.find(b"\\")] if at >= 0]
        for words, seen in (([], found), (STRICT, of_strict)):
            yield row("values", [*words, b"--env", b"env", b"--known", b"names", b"s"], environment, lines(told + seen, "s"))
            files = known | {b"env": text_of(VALUES), b"s": script}
            yield row("values, and a file", [*words, b"--env", b"env", b"--known", b"names", b"-f", b"s"], files, lines(seen, "s"))
        alone = [each for each in found if not any(code in each for code in ("[reread-value]", "[undefined-name]", "[hidden-assignment]"))]
        yield of_files(script, alone)


def long_values():
    """Of a value of more than 4,096 bytes not all is known."""
    for length, found in ((4096, [f"s:1:1: error: no builtin and no stand-in is called `{'a' * 4096}` [unknown-command]"]), (4097, [])):
        files = {b"env": text_of({b"v": b"a" * length, b"s": b"$v"}), b"none": b""}
        yield row("a long value", [b"--env", b"env", b"--stubs", b"none", b"s"], files, lines(found))


def codes():
    """Each is left out by its code, and counts with `--strict`."""
    files, words = {b"env": text_of({b"q": b"it's", b"_x": b"1", b"s": WITH_EACH})}, [b"--env", b"env", b"s"]
    found = [f"s:{each}" for each in EACH]
    yield row("each code", words, files, lines(found), scripts=1, found=(0, 10))
    yield row("each code that counts", [b"--strict", *words], files, lines(found), scripts=1, status=1)
    for each in found:
        code = each.rpartition("[")[2][:-1]
        left = [other for other in found if f"[{code}]" not in other]
        yield row("a code that is left out", [b"--ignore", code.encode(), *words], files, lines(left), scripts=1)
        yield row(
            "a code alone", [*(b"--ignore=" + other.rpartition("[")[2][:-1].encode() for other in left), *words], files, lines([each]), scripts=1
        )
    places = {b"env": b's=echo "it\'s"\nt=echo a\\\\b\n'}
    for name, told in ((b"s", apostrophe("env:1:11")), (b"t", drops_at_load("env:2:9"))):
        yield row("a place in the file of an environment", [b"--format", b"gcc", b"--env", b"env", name], places, lines([told]))
    files = {b"env": text_of({b"bootmenu_0": b"a\\b=echo \\c"})}
    yield row("a backslash of a boot menu", [b"--env", b"env"], files, lines([drops_at_load("bootmenu_0:1:10")]))


def shown():
    """All that is printed: the line, and a caret below the place."""
    found = [(script, lacked(at, "break"), text, spaces) for script, at, text, spaces in SHOWN] + SHOWN_OTHERS
    for script, told, text, spaces in found:
        yield row("the line of a finding", [b"-f", b"s"], {b"s": script}, pointed(lines([told], "s"), text, spaces + 1))
    two = pointed(lines([lacked("1:1", "break")], "s"), b"break") + pointed(lines([lacked("2:3", "break")], "s"), b"  break a", 3)
    yield row("the lines of two findings", [b"-f", b"s"], {b"s": b"break\n  break a\n"}, two)
    for value, at, text, spaces in MENUS:
        output = pointed(lines([not_run(f"bootmenu_0:{at}", "n")]), text, spaces + 1)
        yield row("the line of a boot menu", [b"--env", b"env"], {b"env": text_of({b"bootmenu_0": value})}, output)
    files = {b"env": text_of({b"s": b'run "it\'s" n'})}
    output = pointed(lines([apostrophe("s:1:8")]), b'run "it\'s" n', 8) + pointed(lines([not_run("s:1:5", "it's")]), b'run "it\'s" n', 5)
    output += pointed(lines([not_run("s:1:12", "n")]), b'run "it\'s" n', 12)
    yield row("the lines of a variable", [b"--env", b"env", b"s"], files, output)


def chunks():
    return [quoting_and_commands, values, long_values, codes, shown]
