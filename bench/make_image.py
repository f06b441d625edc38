"""Writes an image to standard output: make_image.py SIZE COUNT [shuffled|descending|runs] [short|items] [flags] [redundant].

COUNT variables in ascending order of names, shuffled (the same order each time), descending, or the first 512 ascending
and then the others descending (runs): names v000000 and so on with values
of 17 bytes, or short ones, names of three bytes with values of one. With flags there is a `.flags` before them with an
item for each of the first 1,000 names: decimal, any access. With items there is no variable but a `.flags` of COUNT items, each
for a name of five bytes. The image is a single one, or a redundant one with flag 1.
"""
import random
import struct
import sys
import zlib

size, count = int(sys.argv[1]), int(sys.argv[2])
wishes = sys.argv[3:]
if "items" in wishes:
    entries = [b".flags=" + b",".join(b"%05x:d" % i for i in range(count)) + b"\0"]
elif "short" in wishes:
    entries = [bytes((64 + i // 4096, 64 + i // 64 % 64, 64 + i % 64)) + b"=x\0" for i in range(count)]
else:
    entries = [b"v%06d=%s\0" % (i, b"x" * 17) for i in range(count)]
if "shuffled" in wishes:
    random.Random(1).shuffle(entries)
if "descending" in wishes:
    entries.reverse()
if "runs" in wishes:
    entries[512:] = entries[:511:-1]
if "flags" in wishes:
    entries.insert(0, b".flags=" + b",".join(b"v%06d:da" % i for i in range(1000)) + b"\0")
flag = b"\1" if "redundant" in wishes else b""
area = (b"".join(entries) + b"\0").ljust(size - 4 - len(flag), b"\0")
if len(area) != size - 4 - len(flag):
    sys.exit("make_image.py: the variables don't fit")
sys.stdout.buffer.write(struct.pack("<I", zlib.crc32(area)) + flag + area)
