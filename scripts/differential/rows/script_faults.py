"""Faults of texts by hand: what isn't a script, what is although it is close to that, and stand-in files that are refused."""

from differential.harness.check_lines import lost
from model.script_run import SENTENCES

# What isn't a script: by the kind of its fault each text, with the line and the column that are reported, and what is missing there
FAULTS = {
    "Quote": [
        (b"echo 'a", 1, 6), (b'a=1; echo b"c', 1, 12), (b'echo "$a', 1, 6), (b"'", 1, 1), (b"echo 'a\nb\n", 1, 6),
        (b"echo a\n\n  echo 'b", 3, 8), (b"\n'", 2, 1), (b"\xc3\xa9 \t'", 1, 5), (b"echo a\r\n'", 2, 1), (b"echo a\\\n  'b", 2, 3),
        (b'echo "a', 1, 6), (b"echo 'a\nb' 'c", 2, 4), (b'"a\\"', 1, 1), (b'if a; then "', 1, 12), (b'a=1 "b', 1, 5),
    ],
    "Backslash": [(b"echo \\", 1, 6), (b"echo a\\", 1, 7), (b"\\", 1, 1), (b"if \\", 1, 4)],
    "Substitution": [
        (b"echo ${x:-y}", 1, 6), (b"echo ${a:-b}", 1, 6), (b"echo $1", 1, 6),
        (b"echo a$1", 1, 7), (b'echo "\n$(b)"', 2, 1), (b"a ${}", 1, 3), (b"a; ${x", 1, 4), (b'a "b ${c', 1, 6),
        *[(b"$" + byte, 1, 1) for byte in (b"#", b"@", b"*", b"$", b"!", b"-", b"(a)")],
    ],
    "Operator": [
        (b"echo a & echo b", 1, 8), (b"a | b", 1, 3), (b"true & false", 1, 6), (b"true|false", 1, 5), (b"true &&& false", 1, 8), (b"a &", 1, 3),
        (b"&\\\n&", 1, 1),
    ],
    "Unexpected": [
        *[(word, 1, 1, "`%s` without `if`" % word.decode()) for word in (b"then", b"elif", b"else", b"fi")],
        (b'fi "', 1, 1, "`fi` without `if`"), (b"if a; then b; fi; fi", 1, 19, "`fi` without `if`"), (b"if a; then b; fi fi", 1, 18, "`fi` without `if`"),
        (b"a && fi", 1, 6, "`fi` without `if`"), (b"do a; done", 1, 1, "`do` without `for`, `while` or `until`"), (b"a; done", 1, 4, "`done` without `do`"),
        (b"for 1 in a; do true; done", 1, 5, lost("name", "for")), (b"for 1 in a; do b; done", 1, 5, lost("name", "for")), (b"for ; in", 1, 5, lost("name", "for")),
        (b"for\ni in a; do b; done", 1, 4, lost("name", "for")), (b"for 'i' in a; do b; done", 1, 5, lost("name", "for")),
        (b"for i a; do b; done", 1, 7, lost("`in`", "for")), (b"for i 'in' a; do b; done", 1, 7, lost("`in`", "for")), (b"a\nfor i for", 2, 7, lost("`in`", "for", 2)),
        (b"for i in a; b; done", 1, 13, lost("`do`", "for")), (b"for i in a do b; done", 1, 18, lost("`do`", "for")),
        (b"for i in a && b; do c; done", 1, 12, lost("`do`", "for")), (b"while a; then b; done", 1, 10, lost("`do`", "while")),
        (b"a\n\nwhile b\ndone", 4, 1, lost("`do`", "while", 3)), (b"until a; do b; fi", 1, 16, lost("`done`", "until")),
        (b"for i in a; do b; fi", 1, 19, lost("`done`", "for")), (b"while a\ndo if b; then c; done", 2, 18, lost("`fi`", "if", 2)),
        (b"if a; then b; fi c", 1, 18, "no `;` before this word"), (b"if a; then if b; then c; fi fi", 1, 29, "no `;` before `fi`"),
        (b"if a; then b; fi if c; then d; fi", 1, 18, "no `;` before `if`"), (b"if while a; do b; done then c; fi", 1, 24, "no `;` before `then`"),
        (b"true\n&& true", 2, 1, "no command before `&&`"), (b"&& a", 1, 1, "no command before `&&`"), (b"|| a", 1, 1, "no command before `||`"),
        (b"a && && b", 1, 6, "no command before `&&`"), (b"a; && b", 1, 4, "no command before `&&`"), (b"a && ;", 1, 6, "no command before `;`"),
        (b"if a && then b; fi", 1, 9, "no command before `then`"), (b"if; then a; fi", 1, 5, "no command before `then`"),
        (b"while do a; done", 1, 7, "no command before `do`"), (b"while a; do done", 1, 13, "no command before `done`"),
        (b"if true; then fi", 1, 15, "no command before `fi`"), (b"if a; then # nothing\nfi", 2, 1, "no command before `fi`"),
        (b"if a; then elif b; then c; fi", 1, 12, "no command before `elif`"),
        (b"if a; b; fi", 1, 10, lost("`then`", "if")), (b"if a; 'then' b; fi", 1, 17, lost("`then`", "if")), (b"if true then a; fi", 1, 17, lost("`then`", "if")),
        (b"if true then echo a; fi", 1, 22, lost("`then`", "if")), (b"if fi", 1, 4, lost("`then`", "if")),
        (b"if a; then b; else c; else d; fi", 1, 23, lost("`fi`", "if")), (b"if a; then b; else c; elif d; then e; fi", 1, 23, lost("`fi`", "if")),
    ],
    "Missing": [
        (b"if true; then echo", 1, 19, lost("`fi`", "if")), (b"if true; then echo a", 1, 21, lost("`fi`", "if")), (b"if a; then b; else", 1, 19, lost("`fi`", "if")),
        (b"if a\nthen if b\nthen c", 3, 7, lost("`fi`", "if", 2)), (b"if a\nthen if b\nthen c; fi", 3, 11, lost("`fi`", "if")),
        (b"while true\ndo echo\n", 3, 1, lost("`done`", "while")), (b"until a; do b", 1, 14, lost("`done`", "until")),
        *[(text, 1, len(text) + 1, "no command before the end of the text") for text in (b"a &&", b"true &&", b"if a; then b; fi ||", b"while a; do b; done && # c")],
        (b"a &&\n", 2, 1, "no command before the end of the text"), (b"if a ||", 1, 8, "no command before the end of the text"),
        (b"if", 1, 3, lost("`then`", "if")), (b"if " * 64, 1, 193, lost("`then`", "if")), (b"for", 1, 4, lost("name", "for")), (b"for i", 1, 6, lost("`in`", "for")),
        (b"for i in a", 1, 11, lost("`do`", "for")), (b"for i in a;", 1, 12, lost("`do`", "for")),
    ],
    "Nest": [
        (b"if " * 65, 1, 193), (b"for i in a; do " * 65, 1, 961), (b"while true; do " * 65 + b"true" + b"; done" * 65, 1, 961),
        (b"until " * 65, 1, 385),
    ],
    "Assignment": [(b"a=1 echo b", 1, 5), (b"x=1 echo", 1, 5), (b"x; a= then", 1, 7), (b"if a=1 b; then c; fi", 1, 8), (b"true\n\tx=1 \\\n  y=2", 3, 3)],
}  # fmt: skip
NO_SCRIPTS = [(*each[:3], kind, *(each[3:] or [None])) for kind, texts in FAULTS.items() for each in texts]
# What is one by the board's shell alone: bodies are empty. The messages of `a`, how many steps are taken, and the status
EMPTY_BODIES = {b"if true; then fi": (0, 1, 0), b"while a; do done": (1, 1, 1), b"if a; then # nothing\nfi": (1, 1, 1)}
# What is a script, although it is close to one of those
NEAR_SCRIPTS = [
    (b"echo 'a'", b"a\n"),
    (b"echo a\\\\", b"a\\\n"),
    (b"echo ${a} $? $", b"1 0 $\n"),
    (b"false || true && echo b", b"b\n"),
    (b"if true; then echo fi; fi", b"fi\n"),
    (b"true &&\ntrue", b""),
    (b"if true;then " * 64 + b"echo b" + b";fi" * 64, b"b\n"),
    (b"for i in a; do " * 64 + b"echo b" + b"; done" * 64, b"b\n"),
    (b"while true; do " * 64 + b"exit" + b"; done" * 64, b""),
    (b"until " * 64 + b"true" + b"; do true; done" * 64, b""),
    (b"x=1; y=2; echo $x$y", b"12\n"),
]
# A byte 0 is possible only in a file
NULS = [(b"\0", 1, 1), (b"echo a\necho b\0'", 2, 7), (b"echo '\0", 1, 7), (b"# c\0", 1, 4), (b"fi 'x\0", 1, 6), (b'"$1\0', 1, 4)]
# A file of stand-ins, and what is reported of it
BUILTINS = b"true false echo setenv printenv saveenv run env test setexpr setexpr.b setexpr.w setexpr.l setexpr.q exit".split()
REFUSED = {
    b"Line in line 1": [b"x 256\n", b"x 1\r\r\n", b"x\0\n", b"x 1 2\n", b"x -1\n", b"echo 256\n", b"x 99999999999999999999999999\n"],
    b"Line in line 2": [b"mmc\n#\0", b"x\ny 300\nx\n"],
    b"Line in line 3": [b"# c\n\nx 256\n"],
    b"Builtin in line 1": [name + b" 1\n" for name in BUILTINS],
    b"Builtin in line 2": [b"a\r\nenv\r\n", b"a\nenv\na\n"],
    b"Builtin in line 3": [b"mmc\n\necho 0\n"],
    b"Twice in line 2": [b"x\nx\n", b"x\nx\ny 300\n"],
    b"Twice in line 3": [b"b\na\na\nb\n"],
    b"Twice in line 6": [b"\n\n# c\nx\n\ty\nx 9\n"],
}
NO_STAND_INS = [(text, b"fwenv: stand-ins: %s\n" % fault) for fault, texts in REFUSED.items() for text in texts]


def refused(name, line, column, kind):
    """What is reported of a text of this name that isn't a script."""
    return b"fwenv: %s:%d:%d: %s: %s\n" % (name, line, column, kind.encode(), SENTENCES[kind])
