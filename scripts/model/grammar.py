"""The tree of a script (docs/scripts.md, "Grammar").

A command is ("simple", words), ("assign", name, word, place), ("if", branches, list or None), ("for", name, words, list, place),
("while", list, list) or ("until", list, list). A list is a list of chains, a chain a list of (operator, command). The place is that
of the name.
"""

import functools
from dataclasses import dataclass

from model.shells import STRICT
from model.words import NAME, Fault, Lexer, Word

RESERVED = {b"if", b"then", b"elif", b"else", b"fi", b"for", b"while", b"until", b"do", b"done"}
ENDS = RESERVED - {b"if", b"for", b"while", b"until"}
NESTING = 64
# What has to come before a word that ends a list, and how other tokens than words are told
BEFORE = {
    **dict.fromkeys((b"then", b"elif", b"else", b"fi"), b"`if`"),
    b"do": b"`for`, `while` or `until`",
    b"done": b"`do`",
}
TOKENS = {"and": b"`&&`", "or": b"`||`", "semicolon": b"`;`", "newline": b"the end of the line", "end": b"the end of the text"}


@dataclass
class Form:
    """A form that is open: its first word, that word's place, and the words that may end its open list, the one that it waits for first."""

    keyword: bytes
    place: int
    ends: tuple = ()


class NoScript(Fault):
    """A fault of the grammar; `lacking` is what is missing there, in words."""

    def __init__(self, kind, place, lacking):
        super().__init__(kind, place)
        self.lacking = lacking


class Parser:
    """The parser of a text for a shell. A body without a command is a simple command without words."""

    def __init__(self, text, shell):
        self.lexer = Lexer(text)
        self.shell = shell
        self.token = None
        self.forms = []

    def peek(self):
        if self.token is None:
            self.token = self.lexer.next()
        return self.token

    def take(self):
        token = self.peek()
        self.token = None
        return token

    def refuse(self, lacking):
        token = self.peek()
        raise NoScript("Missing" if token.kind == "end" else "Unexpected", token.place, lacking)

    def refuse_without(self, what):
        """Refuses the token that is in the place of something that belongs to the innermost form."""
        form = self.forms[-1]
        newlines = self.lexer.text.count(b"\n", 0, form.place)
        self.refuse(b"no %s for the `%s` in line %d of the script" % (what, form.keyword, newlines + 1))

    def refuse_before(self, what):
        """Refuses the token before which something is missing."""
        word = self.keyword()
        told = b"`%s`" % word if word else TOKENS.get(self.peek().kind, b"this word")
        self.refuse(b"no %s before %s" % (what, told))

    def refuse_unopened(self):
        """Refuses a word that ends a list, outside of all forms."""
        if not self.forms and self.keyword() in ENDS:
            self.refuse(b"`%s` without %s" % (self.keyword(), BEFORE[self.keyword()]))

    def refuse_unfinished(self):
        """Refuses the token that is in the place of the word that the innermost form waits for."""
        self.refuse_without(b"`%s`" % self.forms[-1].ends[0])

    def refuse_after_form(self):
        """Refuses what follows a form without a separator."""
        self.refuse_unopened()
        self.refuse_before(b"`;`")

    def separators(self):
        count = 0
        while self.peek().kind in ("newline", "semicolon"):
            self.take()
            count += 1
        return count

    def keyword(self):
        """The reserved word that is here; None for anything else."""
        text = self.peek().plain()
        return text if text in RESERVED else None

    def expect(self, text):
        if self.peek().plain() != text:
            self.refuse_without(b"`%s`" % text)
        self.take()

    def script(self):
        chains = []
        self.separators()
        while self.peek().kind != "end":
            chains.append(self.chain())
            if self.separators() == 0 and self.peek().kind != "end":
                self.refuse_after_form()
        return chains

    def inner(self, *ends):
        """A list of the innermost form, up to the reserved word after it; these may end it, the one that it waits for first."""
        self.forms[-1].ends = ends
        chains = []
        self.separators()
        while True:
            chains.append(self.chain())
            if self.separators() == 0 and self.peek().kind != "end":
                self.refuse_after_form()
            if self.keyword() in ENDS:
                return chains
            if self.peek().kind == "end":
                self.refuse_unfinished()

    def body(self, *ends):
        """A list, which a shell may take without a command."""
        self.separators()
        if self.shell.has_empty_bodies and self.keyword() in ENDS:
            return [[(None, ("simple", []))]]
        return self.inner(*ends)

    def chain(self):
        links = [(None, self.command(False))]
        while self.peek().kind in ("and", "or"):
            operator = self.take().kind
            while self.peek().kind == "newline":
                self.take()
            links.append((operator, self.command(True)))
        return links

    def refuse_command(self, is_operand):
        """Refuses what is in the place of a command, which begins a list unless it follows `&&` or `||`."""
        self.refuse_unopened()
        is_end = self.peek().kind == "end" or (self.keyword() in ENDS and self.keyword() not in self.forms[-1].ends)
        if is_end and not is_operand:
            self.refuse_unfinished()
        self.refuse_before(b"command")

    def command(self, is_operand):
        token = self.peek()
        keyword = self.keyword()
        if token.kind != "word" or keyword in ENDS:
            self.refuse_command(is_operand)
        if keyword:
            return self.compound(keyword)
        name = token.assigned_name()
        if name is not None:
            self.take()
            if self.peek().kind == "word":
                raise Fault("Assignment", self.peek().place)
            return ("assign", name, self.value(token, name), token.place)
        return ("simple", self.words())

    def value(self, token, name):
        """What an assignment assigns; it begins right after the `=`."""
        return Word(token.parts[len(name) + 1 :], self.lexer.text.index(b"=", token.place) + 1)

    def words(self):
        words = []
        while self.peek().kind == "word":
            words.append(self.take().parts)
        return words

    def compound(self, keyword):
        if len(self.forms) == NESTING:
            raise Fault("Nest", self.peek().place)
        self.forms.append(Form(keyword, self.take().place))
        if keyword == b"if":
            command = self.branches()
        elif keyword == b"for":
            command = self.loop_over_words()
        else:
            condition = self.inner(b"do")
            command = (keyword.decode(), condition, self.loop_body())
        self.forms.pop()
        return command

    def loop_body(self):
        self.expect(b"do")
        body = self.body(b"done")
        self.expect(b"done")
        return body

    def branches(self):
        branches = []
        otherwise = None
        while True:
            condition = self.inner(b"then")
            self.expect(b"then")
            if self.keyword() == b"elif":
                self.refuse_before(b"command")
            branches.append((condition, self.body(b"fi", b"elif", b"else")))
            if self.keyword() != b"elif":
                break
            self.take()
        if self.keyword() == b"else":
            self.take()
            otherwise = self.body(b"fi")
        self.expect(b"fi")
        return ("if", branches, otherwise)

    def loop_over_words(self):
        name = self.peek().plain()
        if name is None or not NAME.fullmatch(name):
            self.refuse_without(b"name")
        place = self.take().place
        self.expect(b"in")
        words = self.words()
        if self.separators() == 0:
            self.refuse_without(b"`do`")
        return ("for", name, words, self.loop_body(), place)


@functools.lru_cache(maxsize=10_000)
def parse(text, shell=STRICT):
    return Parser(text, shell).script()
