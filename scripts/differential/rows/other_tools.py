"""Tools of other makers over the same files: what libubootenv's tools and U-Boot's mkenvimage write is read, and the other way round."""

import pathlib
import shutil
import subprocess

from differential.harness.running import Case
from model.image import ERASED
from model.program import WARNING

BOOT = b"bootdelay=2\nbootcmd=run a=b; reset\n"
SHOWN = b"bootcmd=run a=b; reset\nbootdelay=2\n"
HAS_MKENVIMAGE = bool(shutil.which("mkenvimage"))
HAS_LIBUBOOTENV = bool(shutil.which("fw_printenv") and shutil.which("fw_setenv"))
UNTRIED = []
if not HAS_MKENVIMAGE:
    UNTRIED.append("images and copies that mkenvimage makes: it is not installed (Debian: u-boot-tools)")
if not HAS_LIBUBOOTENV:
    UNTRIED.append("fw_printenv and fw_setenv: they are not installed (Debian: libubootenv-tool)")


class Unlike(Exception):
    """A program left something else."""


def ran(runner, words, given=b"", errors=b""):
    """What a program prints, which ends with status 0; fwenv is the one that is tested."""
    words = [runner.program if words[0] == "fwenv" else words[0], *words[1:]]
    found = subprocess.run(words, input=given, capture_output=True)
    if found.returncode != 0 or errors is not None and found.stderr != errors:
        raise Unlike(f"{words}: status {found.returncode}, {found.stderr!r}")
    return found.stdout


def wants(found, wanted):
    if found != wanted:
        raise Unlike(f"{found[:300]!r} in place of {wanted!r}")


def tried(check):
    """A check as a case, which begins without files."""

    def checked(runner):
        runner.put({})
        try:
            check(runner)
        except Unlike as unlike:
            return f"{check.__name__}: {unlike}"
        finally:
            runner.left()
        return None

    return Case(check.__name__, [], check=checked, is_modelled=False)


def made(runner, *words):
    """What mkenvimage makes of the text."""
    with open("text", "wb") as it:
        it.write(BOOT)
    ran(runner, ["mkenvimage", *words, "-o", "made", "text"], errors=None)
    with open("made", "rb") as it:
        return it.read()


def images_of_mkenvimage(runner):
    wants(ran(runner, ["fwenv"], made(runner, "-s", "16384")), SHOWN)
    big = made(runner, "-b", "-s", "16384")
    wants(ran(runner, ["fwenv", "--big-endian"], big), SHOWN)
    found = subprocess.run([runner.program], input=big, capture_output=True)
    wants((found.returncode, found.stdout, found.stderr), (1, b"", b"## Error: bad image: BadCrc\n"))


def copies_of_mkenvimage(runner):
    """Of two copies that it made the one that isn't current is written."""
    for order in ([], ["-b"]):
        copy, words = made(runner, "-r", *order, "-s", "4096"), ["--big-endian"] if order else []
        with open("pair", "wb") as it:
            it.write(copy * 2)
        with open("fw.config", "w") as it:
            it.write("pair 0 1000\npair 0x1000 1000\n")
        wants(ran(runner, ["fwenv", "printenv", "-c", "fw.config", *words]), SHOWN)
        wants(ran(runner, ["fwenv", "setenv", "-c", "fw.config", *words, "bootdelay", "3"]), b"")
        with open("pair", "rb") as it:
            wants(it.read(4096) == copy, True)
        wants(ran(runner, ["fwenv", "printenv", "-c", "fw.config", *words]), SHOWN.replace(b"2", b"3"))


def images_for_boards(runner):
    """What fwenv makes is what mkenvimage makes, if zeros fill it and names ascend."""
    text = SHOWN.replace(b"=b", b"==b")
    with open("sorted", "wb") as it:
        it.write(text)
    for order, words in ([], []), (["-b"], ["--big-endian"]):
        for size in ("0x40", "0x4000", "0x100000"):
            ran(runner, ["mkenvimage", "-p", "0", *order, "-s", size, "-o", "made", "sorted"], errors=None)
            ran(runner, ["mkenvimage", "-p", "0", "-r", *order, "-s", size, "-o", "copy", "sorted"], errors=None)
            single, copy = pathlib.Path("made").read_bytes(), pathlib.Path("copy").read_bytes()
            image = ["fwenv", "image", "--env", "sorted", "--size", size, *words]
            wants(ran(runner, image), single)
            wants(ran(runner, [*image, "--copies", "2"]), ERASED * len(copy) + copy)
            wants(ran(runner, [*image, "--copies", "2", "--both"]), copy + copy)


def new_images(runner):
    """libubootenv reads what fwenv makes."""
    with open("text", "wb") as it:
        it.write(BOOT)
    for words, config in (
        ([], "new 0 1000\n"),
        (["--copies", "2"], "new 0 1000\nnew 0x1000 1000\n"),
        (["--copies", "2", "--both"], "new 0 1000\nnew 0x1000 1000\n"),
    ):
        with open("fw.config", "w") as it:
            it.write(config)
        wants(ran(runner, ["fwenv", "image", "--env", "text", "--size", "1000", *words, "--output", "new"]), b"")
        found = ran(runner, ["fw_printenv", "-c", "fw.config"], errors=None)
        wants(sorted(found.splitlines()), sorted(BOOT.splitlines()))


def libubootenv(runner):
    """In both layouts each reads what the other wrote."""
    for config in ("device 0 100\n", "device 0 100\ndevice 0x100 100\n"):
        for name, text in (("device", ERASED * 512), ("fw.config", config.encode()), ("start", b"start=1\n")):
            with open(name, "wb") as it:
                it.write(text)
        wants(ran(runner, ["fwenv", "import", "-c", "fw.config", "start"], errors=WARNING), b"")
        wants(ran(runner, ["fw_printenv", "-c", "fw.config"]), b"start=1\n")
        ran(runner, ["fw_setenv", "-c", "fw.config", "-f", "start", "bootargs", "console=ttyS0 quiet"], errors=None)
        wants(ran(runner, ["fwenv", "printenv", "-c", "fw.config"]), b"bootargs=console=ttyS0 quiet\nstart=1\n")
        wants(ran(runner, ["fwenv", "setenv", "-c", "fw.config", "start"]), b"")
        wants(ran(runner, ["fw_printenv", "-c", "fw.config"]), b"bootargs=console=ttyS0 quiet\n")


def checks():
    if HAS_MKENVIMAGE:
        yield tried(images_of_mkenvimage)
        yield tried(copies_of_mkenvimage)
        yield tried(images_for_boards)
    if HAS_LIBUBOOTENV:
        yield tried(libubootenv)
        yield tried(new_images)


def chunks():
    return [checks]
