"""Inputs of a session: each prefix of some, each prefix after which standard input fails, or ends and goes on, at
once and byte by byte, and some that are changed at random. What is printed, the status and every byte of the device
are compared."""

import functools

from differential.harness.boards import arguments, board, text_of
from differential.harness.damage import at_random, mutant, numbers_of
from differential.harness.running import Case, Cut
from model.image import ERASED, Geometry

FORM = Geometry(2, 96)
DEFAULTS = {b".flags": b"n:d,o:so", b"n": b"1", b"s": b"echo $x; setenv x 3", b"x": b"1 2"}
FILES = board(FORM, [ERASED * FORM.size] * 2) | {b"default": text_of(DEFAULTS), b"stand-ins": b"mmc 0\nusb 1\n"}
LIMITS = [b"--steps=50", b"--depth=3", b"--word=64", b"--output=256"]
WORDS = arguments(b"session", b"--default", b"default", b"--stubs", b"stand-ins", b"--write", *LIMITS)
INPUTS = [
    b"setenv a 1; echo $a\n.mark p\nif usb x\nthen echo b\nelse setenv a 2\nfi\n.save \t\r\n.mark q\n\n.print\n"
    b'setenv b 3; exit 4\n.undo q\n.undo\tp\n.undo q\n.undo\n.print\n.what\necho "c\n.mark\nsetenv c 1',
    b"run s\n.save\nrun s; env delete x\n.save\n.print\n.undo\n.save",
    b"for i in $x; do echo $i; done\n.mark a\n.mark a\nsetenv n 2\n.undo a\nsetexpr n $n + 9; setenv n q\n.print\n",
    b"# a comment\n.\n..\n.save x\n.mark a b\n.mark 012345678901234567890123456789012\n\n\n.save\n" b"while true; do echo; done",
]
TOKENS = [
    b".", b"\n", b"\n.", b"\n.save\n", b"\n.undo\n", b"\n.mark a\n", b"\n.undo a\n", b"\n.print\n", b"\r\n", b"\0",
    b'"', b"'", b"\\", b"$", b"; exit 3\n", b"while true; do ", b"; done", b" if ", b"; fi", b"saveenv;",
    b" run s;", b"setenv x $x$x$x;", b"\t", b"\xff",
]  # fmt: skip
OFTEN = {name: 0.01 for name in ("Finished", "Syntax", "Marked", "Undone", "Gone", "Unknown", "status 1")}


def cut(text):
    for length in range(len(text) + 1):
        prefix = text[:length]
        yield Case(f"the first {length} bytes", WORDS, FILES, prefix)
        for then in ("fail", "pause"):
            # (at most one byte comes in only one way)
            for step in (0, 1) if length > 1 else (0,):
                cut = Cut(0, "read", length, then, step)
                yield Case(f"{then} after {length} bytes, {step or 'all'} a call", WORDS, FILES, prefix, cut)
    for step in (1, 3):
        yield Case(f"{step} bytes a call", WORDS, FILES, text, Cut(0, "read", step=step))


def changed_input(seed, number):
    numbers = numbers_of("inputs", seed, number)
    return Case("a changed input", WORDS, FILES, mutant(numbers.choice(INPUTS), TOKENS, numbers))


def chunks(count, seed):
    return [functools.partial(cut, text) for text in INPUTS] + at_random(count, functools.partial(changed_input, seed))
