"""Words and tokens of a script (docs/scripts.md, "Words")."""

import re
from dataclasses import dataclass, field

BLANKS = b" \t"
NAME = re.compile(rb"[A-Za-z_][A-Za-z0-9_]*")
BRACED = re.compile(rb"\{([^ \t\n}{$:='\"\\]+)\}")


class Fault(Exception):
    """A text that isn't a script: the kind of the fault, and its place."""


class Word(list):
    """The parts of a word: ("plain", byte), ("quoted", byte), ("mark",), ("name", name, is_quoted) or ("status", is_quoted);
    and its place, the number of bytes before it."""

    def __init__(self, parts=(), place=None):
        super().__init__(parts)
        self.place = place


@dataclass
class Token:
    """A token, its place, and the parts of a word."""

    kind: str  # word, newline, semicolon, and, or, end
    place: int
    parts: Word = field(default_factory=Word)

    def plain(self):
        """The word's text, if it is only unquoted plain bytes; else None."""
        if self.kind == "word" and all(part[0] == "plain" for part in self.parts):
            return bytes(part[1] for part in self.parts)
        return None

    def prefix(self):
        """The unquoted plain bytes at the word's beginning."""
        text = bytearray()
        for part in self.parts:
            if part[0] != "plain":
                break
            text.append(part[1])
        return bytes(text)

    def assigned_name(self):
        """The name that the word assigns to; None if it isn't an assignment."""
        prefix = self.prefix()
        name = NAME.match(prefix)
        if name and prefix[name.end() : name.end() + 1] == b"=":
            return name.group()
        return None


class Lexer:
    """The tokens of a text, each read when it is asked for."""

    def __init__(self, text):
        self.text = text
        self.at = 0
        nul = text.find(b"\0")
        if nul >= 0:
            raise Fault("Nul", nul)

    def joins(self):
        """Whether a line is joined here."""
        return self.text[self.at : self.at + 2] == b"\\\n"

    def skip(self):
        """Passes over blanks, joined lines and comments."""
        while self.at < len(self.text):
            if self.text[self.at] in BLANKS:
                self.at += 1
            elif self.joins():
                self.at += 2
            elif self.text[self.at] == ord("#"):
                newline = self.text.find(b"\n", self.at)
                self.at = len(self.text) if newline < 0 else newline
            else:
                return

    def next(self):
        self.skip()
        at = self.at
        if at == len(self.text):
            return Token("end", at)
        byte = self.text[at : at + 1]
        if byte in b"\n;":
            self.at += 1
            return Token("newline" if byte == b"\n" else "semicolon", at)
        if byte in b"&|":
            if self.text[at + 1 : at + 2] != byte:
                raise Fault("Operator", at)
            self.at += 2
            return Token("and" if byte == b"&" else "or", at)
        return Token("word", at, Word(self.word(), at))

    def word(self):
        parts = []
        while self.at < len(self.text):
            byte = self.text[self.at : self.at + 1]
            if byte in b" \t\n;&|":
                break
            if self.joins():
                self.at += 2
            elif byte == b"\\":
                if self.at + 1 == len(self.text):
                    raise Fault("Backslash", self.at)
                parts.append(("quoted", self.text[self.at + 1]))
                self.at += 2
            elif byte == b"'":
                end = self.text.find(b"'", self.at + 1)
                if end < 0:
                    raise Fault("Quote", self.at)
                parts += [("quoted", each) for each in self.text[self.at + 1 : end]] + [("mark",)]
                self.at = end + 1
            elif byte == b'"':
                parts += self.double_quotes()
            elif byte == b"$":
                parts.append(self.dollar(False))
            else:
                parts.append(("plain", byte[0]))
                self.at += 1
        return parts

    def double_quotes(self):
        opening = self.at
        parts = []
        self.at += 1
        while self.at < len(self.text):
            byte = self.text[self.at : self.at + 1]
            after = self.text[self.at + 1 : self.at + 2]
            if byte == b'"':
                self.at += 1
                return parts + [("mark",)]
            if byte == b"$":
                parts.append(self.dollar(True))
            elif self.joins():
                self.at += 2
            elif byte == b"\\" and after and after in b'$"\\':
                parts.append(("quoted", after[0]))
                self.at += 2
            else:
                parts.append(("quoted", byte[0]))
                self.at += 1
        raise Fault("Quote", opening)

    def dollar(self, is_quoted):
        """What a `$` begins."""
        at = self.at
        after = self.text[at + 1 : at + 2]
        name = NAME.match(self.text, at + 1)
        if name:
            self.at = name.end()
            return ("name", name.group(), is_quoted)
        if after == b"{":
            braced = BRACED.match(self.text, at + 1)
            if not braced:
                raise Fault("Substitution", at)
            self.at = braced.end()
            return ("name", braced.group(1), is_quoted)
        if after == b"?":
            self.at += 2
            return ("status", is_quoted)
        if after and after in b"0123456789#@*$!-(":
            raise Fault("Substitution", at)
        self.at += 1
        return ("quoted" if is_quoted else "plain", ord("$"))
