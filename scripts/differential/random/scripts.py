"""Scripts that are cut at each place and changed at random: several in a session, each after an undo of all. The last
one of a session is saved, so that its copy is seen. One that is cut is run alone too, which tells what its fault is and where; and words of forms
at random are checked, which tells what is missing there."""

import functools

from differential.harness.boards import STRICT, arguments, board, text_of
from differential.harness.damage import at_random, prefixes, mutant, numbers_of
from differential.harness.running import Case
from differential.random.texts import DEFAULTS, FORM, NEVER_WRITTEN

TOGETHER = 8
FILES = board(FORM, NEVER_WRITTEN) | {b"default": text_of(DEFAULTS), b"stand-ins": b"mmc 0\nusb 1\n"}
LIMITS = [b"--steps=100", b"--depth=3", b"--word=64", b"--output=256"]
OPTIONS = [b"--default", b"default", b"--stubs", b"stand-ins", b"--write", *LIMITS]
WORDS, RUN = arguments(b"session", *OPTIONS), arguments(b"run", *STRICT, *OPTIONS, b"-f", b"script")
SCRIPTS = [
    b'a=1; for i in a${x}b "${x}" ""; do echo "[$i]"; done\n',
    b"if test $n -gt 0; then run s\nelif false; then exit 3\nelse echo $?; fi && echo ok || echo no\n",
    b"while test $n -lt 4; do setexpr n $n + 1; done; echo $n\nsaveenv\nprintenv n\n",
    b"# a comment\necho one \\\ntwo 'th\nree' # more\nuntil true; do false; done\n",
    b"setenv a 'echo 1; false'; setenv b 'echo 2'; run a b; echo $?; run z\nenv delete a b\n",
    b"run t && mmc dev 0 || usb start\nexit 300\nexit 4\n",
    b"r=2; run r\n",
    b"until false; do m=$n; done\n",
    b"setenv -f n x; setenv n x; env delete -f n; env exists n; setenv c 2; setenv c 3; setenv o\n",
    b"if a; then\n  a=1 b\nfi\n",
]
TOKENS = [
    b"'", b'"', b"\\", b"$", b"${", b"${x}", b"}", b"$?", b"$(", b"&", b"&&", b"||", b"|", b";", b"\n", b"\\\n", b"#",
    b"\0", b" if ", b"; then ", b"; fi; ", b"; do ", b"; done; ", b"while true; do ", b"for i in $x; do ", b" run s;",
    b" run r;", b"saveenv;", b'""', b"=", b"$x$x$x$x$x", b" setenv x $x$x;", b";w=" + b"0123456789" * 7 + b";",
    b"if " * 64,
]  # fmt: skip
# Words of forms, which hardly ever are a script in any order
FORMS = [
    b"if", b"then", b"elif", b"else", b"fi", b"fi;", b"for", b"in", b"while", b"until", b"do", b"done", b"if a;", b"then a;", b"for i in a;", b"while a;", b"do a;",
    b"a", b"true", b"x=1", b"1", b"'if'", b"&&", b"||", b";", b";", b";", b"\n", b"\\\n", b"# c\n",
]  # fmt: skip
OFTEN = {ending: 0.001 for ending in ("Finished", "Exited", "Steps", "Depth", "Word", "Output", "Syntax")}


def together(texts):
    """A session of these scripts."""
    given = b"\n.undo\n".join(text + b"\n.print" for text in texts) + b"\n.save\n"
    return Case("scripts", WORDS, FILES, given, weight=len(texts))


def changed_scripts(seed, number):
    numbers = numbers_of("scripts", seed, number)
    return together([mutant(numbers.choice(SCRIPTS), TOKENS, numbers) for _ in range(TOGETHER)])


def cut(text):
    """Each prefix alone, with what it saves itself, in a session and by `run`, and all of them together."""
    for prefix in prefixes(text):
        yield Case("a cut script", WORDS, FILES, prefix)
        yield Case("a cut script that is run", RUN, FILES | {b"script": prefix})
    yield together(prefixes(text))


def words_of_forms(seed, number):
    """A check of such words, which tells what is missing where."""
    numbers = numbers_of("words of forms", seed, number)
    text = b" ".join(numbers.choice(FORMS) for _ in range(numbers.randint(1, 14)))
    return Case("words of forms", [b"check", *numbers.choice([[], STRICT]), b"-f", b"script"], {b"script": text})


def chunks(count, seed):
    """This many sessions are made at random, and a quarter as many checks."""
    made = at_random(count, functools.partial(changed_scripts, seed)) + at_random(count // 4, functools.partial(words_of_forms, seed))
    return [functools.partial(cut, text) for text in SCRIPTS] + made
