"""What boards make in another way of the quoting of a script (docs/check.md, "Quoting")."""

import re

JOINED, LOOSE, APOSTROPHE, BACKSLASH, UNDERSCORED = (
    b"joined-lines",
    b"loose-operators",
    b"apostrophes",
    b"backslashes-in-quotes",
    b"underscored-names",
)
JOINS = b"a board takes this newline into a word, and does not join the lines"
RUNS_ON = b"a board runs the next line whatever the status here is"
BEGINS_QUOTE = b"a board takes this `'` for the beginning or the end of a quote"
DROPS, KEEPS = b"a board drops this backslash", b"a board keeps this backslash"
IN_BRACES = b"a board substitutes a name that begins with `_` in braces only"
# What stands between words, the pieces of a word, and what counts in the piece `".."`
BETWEEN = re.compile(rb"[ \t]|#[^\n]*|\\\n|\n")
PIECE = re.compile(rb"\\.|'[^']*'|\"(?:\\.|[^\"\\])*\"|\$_|.", re.DOTALL)
IN_DOUBLE = re.compile(rb"\\.|\$_|'", re.DOTALL)


def quoting(text):
    """A place, a kind and a sentence for each piece of a script that boards read in another way, in the order of the text."""
    at, is_between, is_loose = 0, True, False
    while at < len(text):
        between = BETWEEN.match(text, at) if is_between else None
        piece = (between or PIECE.match(text, at))[0]
        if piece == b"\n":
            yield from [(at, LOOSE, RUNS_ON)] * is_loose
        else:
            yield from of_piece(at, piece)
        if piece == b"\n" or not between:
            is_between, is_loose = piece in (b" ", b"\t", b"\n", b";", b"&", b"|"), piece in (b"&", b"|")
        at += len(piece)


def of_piece(at, piece):
    """What is found in one piece."""
    if piece == b"\\\n":
        yield at, JOINED, JOINS
    elif piece == b"$_":
        yield at, UNDERSCORED, IN_BRACES
    elif piece[:1] == b"'":
        yield from ((at + inside, BACKSLASH, DROPS) for inside, byte in enumerate(piece) if byte == ord("\\"))
    elif piece[:1] == b'"':
        for match in IN_DOUBLE.finditer(piece):
            yield from in_double(at + match.start(), match[0])


def in_double(at, piece):
    """What is found in a piece inside `".."`."""
    if piece in (b"\\$", b'\\"', b"\\\\"):
        yield at, BACKSLASH, KEEPS
    elif piece.endswith(b"'"):
        yield at + len(piece) - 1, APOSTROPHE, BEGINS_QUOTE
    else:
        yield from of_piece(at, piece)
