"""Environments in a dump (docs/tools.md, "Environments in a dump")."""

import re

from model.image import LARGEST, Geometry

STEP = 512
SIZES = [*range(512, 0x8001, 512), *range(0x9000, 0x40001, 0x1000), 0x80000, LARGEST]
# A name of printable bytes, and a value without control bytes
ENTRY = re.compile(rb"[!-<>-~]+=[ -\xff]*\0")


def environment_at(dump, start):
    """The geometry of the environment that begins at a place, its copy and its variables; None if none does."""
    for copies in (1, 2):
        if not ENTRY.match(dump, start + 3 + copies):
            continue
        for size in SIZES:
            for order in ("little", "big"):
                geometry, copy = Geometry(copies, size, order), dump[start : start + size]
                _, variables = geometry.read(copy)
                if variables is not None:
                    return geometry, copy, variables
    return None


def found_lines(path, start, geometry, flag, count):
    """What is printed of an environment."""
    kind = b"# good as a single image" if geometry.copies == 1 else b"# good as a copy with a flag"
    order = b" with --big-endian" if geometry.order == "big" else b""
    flag = b", flag %d" % flag if geometry.copies == 2 else b""
    return kind + order + flag + b", %d variables\n%s 0x%x 0x%x\n" % (count, path, start, geometry.size)


def of_dump(path, dump):
    """What is printed of a dump, and the status."""
    lines = b""
    for start in range(0, len(dump), STEP):
        found = environment_at(dump, start)
        if found:
            geometry, copy, variables = found
            lines += found_lines(path, start, geometry, geometry.flag(copy), len(variables))
    return (lines, 0) if lines else (b"# no environment in %s\n" % path, 1)
