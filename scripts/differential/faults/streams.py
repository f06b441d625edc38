"""The program over streams as a shell gives them: closed, full, endless or reset, and a session typed line by line. No row writes a
byte of the device but at the end of that session."""

import contextlib
import functools
import os
import re
import select
import socket
import struct
import subprocess
import threading
from dataclasses import replace

from differential.harness.boards import FIRST, SECOND, board
from differential.harness.running import Case, Cut
from model.image import Geometry
from model.program import CANNOT_READ_INPUT, CANNOT_WRITE_OUTPUT, TOO_LONG, Answer

ONE_VARIABLE = Geometry(1, 9).image(0, b"a=b\0")
MILLION = Geometry(1, 2**20).image(0, b"".join(b"variable%05d=xxxxxxxxxx\0" % i for i in range(40_000)))
TWO_COPIES = b"device 7 a\ndevice 20 a 0x1000 1\n"
BAD_LENGTH = b"## Error: bad image: BadLength\n"
WRONG_OPTION = b"error: unexpected argument '--frobnicate' found\n\nUsage: fwenv [OPTIONS] [COMMAND]\n\nFor more information, try '--help'.\n"
SESSION = [b"session", b"-c", b"fw.config", b"--write"]


def device(first=FIRST, second=SECOND):
    """Two copies, with bytes before, between and after them."""
    return b"XXXXXXX" + first + b"YYY" + second + b"ZZZ"


def over_copies(first=FIRST, second=SECOND):
    return {b"device": device(first, second), b"fw.config": TWO_COPIES}


# What is done around a run; each gives the streams that are replaced


@contextlib.contextmanager
def stream(at, path, _runner=None):
    """A stream that is this file, or that is closed."""
    opened = None if path is None else os.open(path, os.O_RDONLY if os.path.isdir(path) else os.O_RDWR)
    yield {at: opened}
    if opened is not None:
        os.close(opened)


@contextlib.contextmanager
def piped(command, _runner=None):
    """Standard input is what a command writes, perhaps without an end."""
    process = subprocess.Popen(["sh", "-c", command], stdout=subprocess.PIPE)
    yield {0: process.stdout.fileno()}
    process.kill()
    process.stdout.close()
    process.wait()


@contextlib.contextmanager
def reset(text, _runner=None):
    """Standard input is a connection that gives a text, and that the other side resets then."""
    listener = socket.create_server(("127.0.0.1", 0))
    sender = socket.create_connection(listener.getsockname())
    receiver, _ = listener.accept()
    sender.sendall(text)
    while len(receiver.recv(len(text), socket.MSG_PEEK)) < len(text):
        pass
    sender.setsockopt(socket.SOL_SOCKET, socket.SO_LINGER, struct.pack("ii", 1, 0))
    sender.close()
    yield {0: receiver.fileno()}
    receiver.close()
    listener.close()


@contextlib.contextmanager
def read_by(count, runner):
    """Standard output is a pipe of which this many bytes are read, and which is closed then."""
    reader, writer = os.pipe()
    if count == 0:
        os.close(reader)

    def read():
        os.pwrite(runner.streams[1], os.read(reader, count), 0)
        os.close(reader)

    thread = threading.Thread(target=read) if count else None
    if thread:
        thread.start()
    yield {1: writer}
    os.close(writer)
    if thread:
        thread.join()


@contextlib.contextmanager
def said_without_end(text, count, runner):
    """Standard input is a text again and again, and standard output a pipe of which this many bytes are read."""
    with piped(f"exec yes '{text}'") as given, read_by(count, runner) as taken:
        yield given | taken


def at(number, path):
    return functools.partial(stream, number, path)


def row(name, arguments, given, status, output, errors, around=None, files=(), left=()):
    """A call whose answer is given by hand; `left` are the files that are others afterwards."""
    files = dict(files)
    wanted = Answer(status, output, errors, files | dict(left))
    return Case(name, arguments, files, given, wanted=wanted, around=around, is_modelled=around is None, seconds=5)


def images():
    yield row("too many bytes", [], bytes(2**20 + 1), 1, b"", BAD_LENGTH)
    yield row("a reader that never ends", [], b"", 1, b"", BAD_LENGTH, functools.partial(piped, "exec yes ''"))
    yield row("standard input closed", [], b"", 1, b"", CANNOT_READ_INPUT, at(0, None))
    yield row("a folder as standard input", [], b"", 1, b"", CANNOT_READ_INPUT, at(0, "/"))
    yield row("a word that is not UTF-8", [b"\xff"], ONE_VARIABLE, 1, b"", b"fwenv: a word of the command line is not UTF-8\n")
    yield row("a wrong option", [b"--frobnicate"], ONE_VARIABLE, 1, b"", WRONG_OPTION)
    yield row("a full disk", [], ONE_VARIABLE, 1, b"", CANNOT_WRITE_OUTPUT, at(1, "/dev/full"))
    yield row("standard output closed", [], ONE_VARIABLE, 1, b"", CANNOT_WRITE_OUTPUT, at(1, None))
    yield row("help on a full disk", [b"--help"], b"", 1, b"", CANNOT_WRITE_OUTPUT, at(1, "/dev/full"))
    yield row("a pipe that nobody reads", [], MILLION, 1, b"", CANNOT_WRITE_OUTPUT, functools.partial(read_by, 0))
    yield row("standard error closed", [], ONE_VARIABLE, 0, b"a=b\n", b"", at(2, None))
    yield row("standard error on a full disk", [], b"", 1, b"", b"", at(2, "/dev/full"))
    yield row("a big-endian image read as little-endian", [], b"\x2b\x62\x96\xd2a=b\0\0", 1, b"", b"## Error: bad image: BadCrc\n")
    yield row("a little-endian image read as big-endian", [b"--big-endian"], ONE_VARIABLE, 1, b"", b"## Error: bad image: BadCrc\n")


# With what the help of each subcommand begins
HELPS = {
    b"printenv": b"Prints variables, a line NAME=VALUE each\n",
    b"setenv": b"Sets or deletes a variable, or several by a script, and saves\n",
    b"import": b"Sets the variables of a text, and saves\n",
    b"export": b"Prints every variable as a text that import reads\n",
    b"restore": b"Makes the variables those of a text and no others, read-only ones too, and saves\n",
    b"status": b"Says what each copy is good for, and which is current; writes nothing\n",
    b"run": b"Runs a script and prints its text; the status is 0 if it ended well, and nothing is written without --write\n",
    b"boot": b"Tries every power-on of a board and prints how each ends; the status is 0 if it can always boot, and nothing is written\n",
    b"check": b"Looks for faults in boot scripts and runs nothing; the status is 1 if there is an error\n",
    b"session": b"Tries boot scripts: runs the blocks and dot lines of standard input, and writes nothing without --write\n",
}


def helps():
    """The help of each subcommand says what it does and how it is called, with an example, and `-h` and `help` print the same."""
    texts = {}
    for word, begins in HELPS.items():

        def is_help(found, word=word, begins=begins):
            texts[word] = found.output
            usage = re.search(rb"^Usage: fwenv %s " % word, found.output, re.M) and re.search(rb"^Example:$", found.output, re.M)
            return bool(usage) and found.output.startswith(begins + b"\n") and (found.status, found.errors) == (0, b"")

        def is_same(found, word=word):
            return (found.status, found.output, found.errors) == (0, texts[word], b"")

        for words, accepts in (([word, b"--help"], is_help), ([word, b"-h"], is_same), ([b"help", word], is_same)):
            yield Case(f"the help of {word.decode()}", words, wanted=Answer(0, b"", b"", {}), accepts=accepts, is_modelled=False)


def session(name, given, status, output, errors, around):
    """A session over other streams: no byte is written, though --write is given."""
    return row(name, SESSION, given, status, output, errors, around, over_copies())


def sessions():
    full, dots = at(1, "/dev/full"), b"Saved copy 2\n" + b"a=b\n" * ((2**24 - 6) // 7)
    cut_off = functools.partial(reset, b".save\necho a\n.x\necho b\n.print")
    yield session("standard input closed", b"", 1, b"", CANNOT_READ_INPUT, at(0, None))
    yield session("a folder as standard input", b"", 1, b"", CANNOT_READ_INPUT, at(0, "/"))
    yield session("an input that is cut off", b"", 1, b"Saved copy 2\na\n[Finished 0 1]\n[Unknown]\n", CANNOT_READ_INPUT, cut_off)
    for name, begin, text, output in (
        ("nothing but newlines", "", "", b""), ("newlines", "echo .save; ", "", b"Saved copy 2\n"), ("dot lines", "echo .save; ", ".print", dots)
    ):  # fmt: skip
        around = functools.partial(piped, f"{begin}exec yes '{text}'")
        yield session(f"an input of {name} that never ends", b"", 1, output, TOO_LONG, around)
    yield session("a session on a full disk", b".save\n", 1, b"", CANNOT_WRITE_OUTPUT, full)
    case = session("nothing more is read after a fault", b".save\n.x\n", 1, b"", CANNOT_WRITE_OUTPUT, full)
    yield replace(case, cut=Cut(0, "read", step=1), moved=(6, 6))
    yield session("a session with standard output closed", b".save\n", 1, b"", CANNOT_WRITE_OUTPUT, at(1, None))
    closed = functools.partial(said_without_end, ".x", len(b"[Unknown]\n"))
    yield session("a session into a pipe that is closed", b"", 1, b"[Unknown]\n", CANNOT_WRITE_OUTPUT, closed)
    yield session("the last block on a full disk", b"setenv a c\n", 1, b"", CANNOT_WRITE_OUTPUT, full)
    yield session("standard error closed", b"setenv a c\n", 0, b"[Finished 0 1]\n", b"", at(2, None))


LONG = b"x" * 2000
# What a person types in a session, and the answers, each of which is one write: a block is answered when a dot line or the end follows
TYPED = [
    (b".x\n", b"[Unknown]\n"),
    (b"setenv a 1; echo $a\n", b"1\n[Finished 0 2]\n"),
    (b".mark p\n", b"[Marked]\n"),
    (b"if usb x\nthen echo b\nelse setenv a 2\nfi\n", b"Unknown command 'usb' - try 'help'\n[Finished 0 2]\n"),
    (b".save \t\r\n", b"Saved copy 2\n"),
    (b".mark q\n", b"[Marked]\n"),
    (b"\n", b"[Finished 0 0]\n"),
    (b".print\n", b"a=2\n"),
    (b"setenv b 3; exit 4; echo no\n", b"[Exited 4 2]\n"),
    (b".print\n", b"a=2\nb=3\n"),
    (b".undo q\n", b"[Undone]\n"),
    (b".undo\tp\n", b"[Undone]\n"),
    (b".undo q\n", b"[Gone]\n"),
    (b".undo\n", b"[Undone]\n"),
    (b".print\n", b"a=b\n"),
    (b".save\n", b"Saved copy 2\n"),
    (b'echo "c\n', b"[Syntax]\n"),
    (b".mark\n", b"[Unknown]\n"),
    (b"for i in 1 2 3 4 5; do echo " + LONG + b"; done\n", (LONG + b"\n") * 5 + b"[Finished 0 11]\n"),
    (b".x\n", b"[Unknown]\n"),
    (b"setenv c %s; setenv d %s; setenv e %s\n" % (LONG, LONG, LONG), b"[Finished 0 3]\n"),
    (b".print\n", b"a=b\nc=%s\nd=%s\ne=%s\n" % (LONG, LONG, LONG)),
    (b"setenv c 1", b"[Finished 0 1]\n"),
]
TYPED_OVER = Geometry(2, 8192)


def typed_over(second):
    return board(TYPED_OVER, [TYPED_OVER.image(1, b"a=b\0"), second])


def written(screen, most):
    """What one write gives, if one comes within this many seconds."""
    return screen.recv(2**16) if select.select([screen], [], [], most)[0] else None


def line_by_line(runner):
    """Each answer comes before more is typed than its line, and the device is written at the end."""
    before, after, waiting = typed_over(TYPED_OVER.image(0, b"")), typed_over(TYPED_OVER.image(2, b"a=b\0")), []
    runner.put(before)
    screen, end = socket.socketpair(socket.AF_UNIX, socket.SOCK_SEQPACKET)
    with subprocess.Popen([runner.program, *SESSION], stdin=subprocess.PIPE, stdout=end, stderr=subprocess.PIPE) as process:
        end.close()
        for text, answer in TYPED:
            waiting.append(answer)
            wanted = waiting if text.startswith(b".") else []
            # (the part without the newline at its end is answered by nothing)
            for part, answers in ((text[:-1], []), (text[-1:], wanted)):
                process.stdin.write(part)
                process.stdin.flush()
                found = [written(screen, 20) for _ in answers] + [written(screen, 0.1)]
                if found != [*answers, None] or runner.left() != before:
                    process.kill()
                    return f"{text}: {found} in place of {answers}, {runner.left()}"
            waiting = [] if wanted else waiting
        process.stdin.close()
        left = [written(screen, 20) for _ in (*waiting, b"")], process.stderr.read(), process.wait()
    return None if left == ([*waiting, b""], b"", 0) and runner.left() == after else f"the end of a session: {left}, {runner.left()}"


def at_once(runner):
    """The same answers in as many writes, where one read gives the whole input."""
    runner.put(typed_over(TYPED_OVER.image(0, b"")))
    screen, end = socket.socketpair(socket.AF_UNIX, socket.SOCK_SEQPACKET)
    given = b"".join(text for text, _ in TYPED)
    with subprocess.Popen([runner.program, *SESSION], stdin=subprocess.PIPE, stdout=end) as process:
        end.close()
        process.stdin.write(given)
        process.stdin.close()
        found = list(iter(functools.partial(written, screen, 20), b""))
    return None if found == [answer for _, answer in TYPED] else f"a session at once: {found}"


def typed():
    yield Case("a session line by line", [], check=line_by_line, is_modelled=False, weight=len(TYPED) + 1)
    yield Case("a session at once", [], check=at_once, is_modelled=False)


def chunks():
    return [images, helps, sessions, typed]
