"""The rows of docs/ that show what is printed: read from the tables there, so that no document shows what the program
doesn't print."""

import pathlib
import re

from differential.harness.boards import unwritten
from differential.harness.running import Case
from model.board_file import SENTENCES
from model.image import Geometry
from model.program import WARNING, Answer

DOCS = pathlib.Path(__file__).parents[3] / "docs"
SMALL, USUAL = Geometry(1, 16), Geometry(1, 4096)
LIMITS = [b"--steps=1000", b"--depth=4", b"--word=256", b"--output=4096"]
ENTRIES = {"a=1", "a=2", "b", "c="}


def tables(page):
    """The tables of a page: the head of each, and its rows as lists of cells."""
    text = (DOCS / page).read_text()
    for table in re.findall(r"(?:^\|.*\n)+", text, re.M):
        head, _, *rows = [[cell.strip() for cell in re.split(r"(?<!\\)\|", line)[1:-1]] for line in table.splitlines()]
        yield head, rows


def rows_under(page, *starts):
    """The rows of the one table whose head begins with these texts."""
    [rows] = [rows for head, rows in tables(page) if all(cell.startswith(start) for cell, start in zip(head, starts))]
    return rows


def texts_in(cell):
    """The texts in backquotes; `\\|` is a bar there."""
    return [text.replace("\\|", "|") for text in re.findall(r"`+ ?(.*?) ?`+(?!`)", cell)]


def with_newlines(text):
    return text.replace("/", "\n").encode()


def dry_runs():
    for given, output in rows_under("dry-runs.md", "Input (", "Output"):
        yield unwritten("docs/dry-runs.md", SMALL, *(with_newlines(texts_in(cell)[0]) for cell in (given, output)))


def runs():
    for script, ending, printed in rows_under("runs.md", "Script (", "Ending"):
        limits = list(LIMITS)
        if most := re.search(r"at most (\d+) steps", script):
            limits[0] = b"--steps=" + most[1].encode()
        text = with_newlines((texts_in(printed) or [""])[0])
        wanted = text + b"[%s]\n" % re.match(r"\w+ \d+ \d+", ending)[0].encode()
        yield unwritten("docs/runs.md", USUAL, texts_in(script)[0].encode(), wanted, *limits)


def calculations():
    answers = {"division by zero": b"## Error: division by zero\n", "wrong use": b"## Error: wrong use of 'setexpr'\n"}
    for words, answer in rows_under("test-and-setexpr.md", "Words", "Answer"):
        for each in texts_in(words):
            given = b"setexpr " + each.encode() + b"\n.print\n"
            said = next((text for start, text in answers.items() if answer.startswith(start)), None)
            wanted = said + b"[Finished 1 1]\n" if said else b"[Finished 0 1]\n" + texts_in(answer)[0].encode() + b"\n"
            yield unwritten("docs/test-and-setexpr.md", USUAL, given, wanted)


def tests():
    for words, *answers in rows_under("test-and-setexpr.md", "Words after `test`", "Board", "Strict"):
        for each in texts_in(words):
            for shell, answer in zip((b"board", b"strict"), answers):
                given = b"if test %s; then echo true; else echo false; fi\n" % each.encode()
                output = re.match(r"\w+", answer)[0].encode() + b"\n[Finished 0 2]\n"
                yield unwritten("docs/test-and-setexpr.md", USUAL, given, output, b"--shell", shell)


def stand_in_files():
    for text, answer in rows_under("runs.md", "Stand-in file (", "What it is"):
        for each in texts_in(text):
            file = with_newlines(each)
            pairs = re.findall(r"`(\S+)` answers (\d+)", answer)
            given = "".join(f"{name}; echo $?\n.x\n" for name, _ in pairs).encode()
            output = "".join(f"+ {name}\n{status}\n[Finished 0 2]\n[Unknown]\n" for name, status in pairs).encode()
            case = unwritten("docs/runs.md", USUAL, given, output, b"--stubs", b"stand-ins", files={b"stand-ins": file})
            if not pairs:
                case.wanted = Answer(1, b"", WARNING + b"fwenv: stand-ins: " + answer.encode() + b"\n", case.files)
            yield case


def board_files():
    for text, answer in rows_under("runs.md", "Board file (", "What it is"):
        fault = re.fullmatch(r"(\w+) in line (\d+)", answer)
        errors = b"fwenv: board:%d: %s\n" % (int(fault[2]), SENTENCES[fault[1]]) if fault else b""
        for each in texts_in(text):
            yield unwritten("docs/runs.md", USUAL, b"", b"", b"--board", b"board", files={b"board": with_newlines(each)}, errors=errors)


def shown():
    for given, output, errors, status in rows_under("tools.md", "Standard input", "Standard output", "Standard error", "Status"):
        words = [b"--big-endian"] if "--big-endian" in given else []
        found = [text for text in texts_in(given) if text != "--big-endian"]
        if set(found) == ENTRIES:
            image = Geometry(1, 40).image(0, b"".join(text.encode() + b"\0" for text in found))
        else:
            image = b"".join(bytes.fromhex(text) if " " in text else text.encode() for text in found)
        printed = [b"".join(text.encode() + b"\n" for text in texts_in(cell)) for cell in (output, errors)]
        yield Case("docs/tools.md", words, given=image, wanted=Answer(int(status), *printed, {}))


def chunks():
    return [dry_runs, runs, calculations, tests, stand_in_files, board_files, shown]
