"""Powers a board on by hand, from what it has stored and from all that it comes to store, as somebody without `fwenv boot` has to: one
`fwenv run --write` for each power-on, over a file that holds the stored copy. Usage: by_hand.py FWENV FOLDER PRINTED

FOLDER has that file, device, the configuration that names it, config, and the board file, board.txt, of which each `NAME -> ?` is answered
by 0 and by 1. PRINTED has what `fwenv boot` prints of the board: it has to tell of the same stored environments, ways and boots. Prints
the seconds that the power-ons took, with all that is done between them, how many these were, and how many environments can be stored.
"""
import pathlib
import re
import struct
import subprocess
import sys
import time
import zlib

program, folder, printed = sys.argv[1], pathlib.Path(sys.argv[2]), pathlib.Path(sys.argv[3])
device, answered = folder / "device", folder / "answered.txt"
rules = (folder / "board.txt").read_bytes()
asked_names = re.findall(rb"^(\S+) *-> *\?$", rules, re.M)
unless_told = re.sub(rb"-> *\?$", b"-> 0", rules, flags=re.M)
run = [program, "run", "-c", folder / "config", "--board", answered, "--write", "--must-boot", "bootcmd"]


def variables(image):
    """The variables of a single image."""
    area = image[4:]
    if struct.unpack("<I", image[:4]) != (zlib.crc32(area),):
        sys.exit("by_hand.py: a power-on has stored no good copy")
    return frozenset(area[: area.index(b"\0\0")].split(b"\0"))


def power_on(image, answers):
    """A power-on from this image: the calls that were open, whether a system was started, and the image that is stored then."""
    device.write_bytes(image)
    answered.write_bytes(b"".join(b"%b -> %d\n" % answer for answer in answers.items()) + unless_told)
    found = subprocess.run(run, capture_output=True)
    calls = [line[2:] for line in found.stdout.splitlines() if line.startswith(b"+ ")]
    return [call for call in dict.fromkeys(calls) if call.split()[0] in asked_names], found.returncode == 0, device.read_bytes()


def ways(image):
    """Each way in which a power-on from this image ends: whether that is a boot, and the image that is stored then."""
    waiting = [{}]
    while waiting:
        answers = waiting.pop()
        calls, boots, left = power_on(image, answers)
        news = [call for call in calls if call not in answers]
        # (each of these was answered by 0)
        waiting += [answers | dict.fromkeys(news[:at], 0) | {call: 1} for at, call in enumerate(news)]
        yield boots, left


def walked(image):
    """All that can be stored, how many ways there are, and how many of them boot."""
    stored, waiting, count, boots = {variables(image)}, [image], 0, 0
    while waiting:
        for is_boot, left in ways(waiting.pop()):
            count += 1
            boots += is_boot
            if variables(left) not in stored:
                stored.add(variables(left))
                waiting.append(left)
    return stored, count, boots


def told(first):
    """The same as `fwenv boot` tells it."""
    stored = []
    for line in printed.read_bytes().splitlines():
        if counts := re.match(rb"(\d+) stored environments?, (\d+) ways?: (\d+) boot, ", line):
            return set(map(frozenset, stored)), int(counts[2]), int(counts[3])
        if re.fullmatch(rb"stored \d+", line):
            stored.append(set(first))
        elif changed := re.fullmatch(rb"  ([^ =]+)(=.*| \(gone\))", line):
            stored[-1] -= {entry for entry in first if entry.startswith(changed[1] + b"=")}
            if changed[2].startswith(b"="):
                stored[-1].add(changed[1] + changed[2])
    sys.exit(f"by_hand.py: {printed} has no counts")


start_image = device.read_bytes()
start = time.perf_counter()
stored, count, boots = walked(start_image)
taken = time.perf_counter() - start
device.write_bytes(start_image)
if told(variables(start_image)) != (stored, count, boots):
    sys.exit("by_hand.py: fwenv boot tells of other stored environments, ways or boots")
print(f"{taken:.3f} {count} {len(stored)}")
