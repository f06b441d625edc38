"""The default environments of the boards whose U-Boot is unpacked below FOLDER/SUITE/unpacked: a file of TARGET for each,
SUITE.PACKAGE.BOARD, of the entries as they are in the binary, each closed by a NUL, then an empty line, and a line for each command
of the board that its scripts may call.

usage: packaged_boards.py FOLDER TARGET"""

import pathlib
import re
import sys

# What has the program itself, in this order
BINARIES = ("uboot.elf", "u-boot-nodtb.bin", "u-boot.bin", "u-boot-tegra.bin", "u-boot-dtb.imx", "u-boot.img")
ENTRY = re.compile(rb"[A-Za-z_][\w.,#:-]*=[\n\t -~]*")
KNOWN = re.compile(rb"(?<=\0)(?:bootcmd|bootdelay|baudrate)=")
# What an environment may begin with, also where no NUL is between it and the bytes before it
FIRST = re.compile(rb"(?:\.callbacks|\.flags|bootargs|bootcmd|bootdelay)=[\n\t -~]*\Z")
# A word where a command may be called, or that becomes a variable's, whose value may be called
CALLED = re.compile(rb"(?:^|[;&|]|\b(?:if|then|else|elif|do|while|until)\b|\bsetenv +\w+ ) *(?=([a-z][a-z0-9_]*))", re.M)


def entries_around(binary, at):
    """The run of entries around the one that begins there, each closed by a NUL."""
    begin = at
    while ENTRY.fullmatch(binary, place := binary.rfind(b"\0", 0, begin - 1) + 1, begin - 1):
        begin = place
    entries = []
    while (end := binary.find(b"\0", begin)) > begin and ENTRY.fullmatch(binary, begin, end):
        entries.append(binary[begin:end])
        begin = end + 1
    return entries


def with_first(binary, entries):
    """The same entries, if the first one stands right behind other bytes."""
    begin = binary.find(b"\0".join(entries) + b"\0")
    before = binary[binary.rfind(b"\0", 0, begin - 1) + 1 : begin - 1]
    if found := FIRST.search(before):
        return [found[0], *entries]
    found = FIRST.search(entries[0])
    is_there = found and any(entry.startswith(found[0].partition(b"=")[0] + b"=") for entry in entries[1:])
    return entries if not found or is_there else [found[0], *entries[1:]]


def environment(binary):
    """The first run of more than three entries, if there is one."""
    found = (entries_around(binary, match.start()) for match in KNOWN.finditer(binary))
    return next((with_first(binary, entries) for entries in found if len(entries) > 3), [])


def commands(binary, entries):
    """The words at which the scripts may call a command and with which a string of the binary ends (linkers share such ends)."""
    words = sorted({word for entry in entries for word in CALLED.findall(entry.partition(b"=")[2])})
    return [word for word in words if word + b"\0" in binary]


def main():
    folder, target = map(pathlib.Path, sys.argv[1:])
    target.mkdir()
    for board in sorted(folder.glob("*/unpacked/*/usr/lib/u-boot/*")):
        binary = next((path.read_bytes() for name in BINARIES if (path := board / name).is_file()), b"")
        if entries := environment(binary):
            suite, _, package = board.parts[-7:-4]
            text = b"".join(entry + b"\0" for entry in entries)
            (target / f"{suite}.{package}.{board.name}").write_bytes(text + b"\n\n" + b"\n".join(commands(binary, entries)) + b"\n")


main()
