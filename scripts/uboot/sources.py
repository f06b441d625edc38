"""The environments of U-Boot 2025.01 in its own text form: fwenv has the variables that U-Boot's build makes of each, or a
fault with its line. `sources.py PROGRAM [FOLDER]`; scripts/uboot/sources fills FOLDER.

A source goes through cpp with the options and include paths of U-Boot's Makefile, once with no option of a configuration and
once with each that its text asks for; then through U-Boot's awk script and the C compiler, and on the other side, with and
without cpp's line markers, through `fwenv image`. The same is done with texts at random."""

import pathlib
import random
import re
import subprocess
import sys
import tempfile

FOLDER = "/usr/local/lib/u-boot-sources"
# What texts at random are made of: what often comes, and what is mostly a fault
OFTEN = [
    b"\n",
    b"\n",
    b"\na=",
    b"\nb=",
    b"\na+=",
    b"\nb+=",
    b"\n a",
    b"\n\t",
    b"a",
    b"b",
    b"=",
    b" ",
    b"  ",
    b"+",
    b'"',
    b"1",
    b"x y",
    b"c=1",
    b"run x;",
]
SELDOM = [b"#", b"/*", b"\\", b"\r", b"7z=", b"\n9=", b"%d", b"$", b"'", b"++=", b"\t", b"~=z", b"\nc=\nd=\n"]
AT_RANDOM = 300
# What U-Boot's Makefile has cpp do, but for the board's configuration
CPP = "cpp -x assembler-with-cpp -undef -D__ASSEMBLY__ -D__UBOOT_CONFIG__".split()
OPTION = re.compile(r"\bCONFIG_[A-Z0-9_]+\b")
FAULT = re.compile(rb"fwenv: -:[1-9][0-9]*: [^\n]+\n")
C_TEXT = """#include <stdio.h>
%s
#ifdef CONFIG_EXTRA_ENV_TEXT
static const char text[] = CONFIG_EXTRA_ENV_TEXT;
#else
static const char text[] = "";
#endif
int main(void) { fwrite(text, 1, sizeof text - 1, stdout); return 0; }
"""


def run(words, given=b"", folder=None):
    return subprocess.run(words, input=given, capture_output=True, cwd=folder)


def entries_of(area):
    """The variables of entries that each end with a 0 byte, as a board takes them: an empty entry ends all of them."""
    found = {}
    for entry in area.split(b"\0")[:-1]:
        if not entry:
            break
        name, _, value = entry.partition(b"=")
        found[name] = re.sub(rb"\\(.)", rb"\1", value, flags=re.DOTALL)
    return found


class Sources:
    def __init__(self, program, folder, work):
        self.program, self.folder, self.work = program, folder, work
        (work / "generated").mkdir()
        (work / "generated" / "autoconf.h").touch()

    def options_of(self, path):
        """Options of a configuration that the source, or what it includes, asks for."""
        texts = [path, *(self.folder / "include" / "env").rglob("*.env")]
        return sorted({name for text in texts for name in OPTION.findall(text.read_text())})

    def preprocessed(self, path, defined, *more):
        """The source after the preprocessor, None if that refuses it."""
        paths = ["-I", str(self.work), "-I", str(self.folder / "include"), "-include", "linux/kconfig.h"]
        ended = run([*CPP, *more, *paths, *("-D" + name for name in defined), str(path)], folder=self.folder)
        return None if ended.returncode else ended.stdout

    def built(self, text):
        """The variables that U-Boot's build makes of a text; None if the compiler refuses it."""
        header = run(["awk", "-f", str(self.folder / "scripts" / "env2string.awk")], text).stdout
        source, program = self.work / "text.c", self.work / "text"
        source.write_bytes(C_TEXT.encode().replace(b"%s", header))
        if run(["cc", "-w", "-o", str(program), str(source)]).returncode:
            return None
        return entries_of(run([str(program)]).stdout)

    def read(self, text):
        """The variables that fwenv has, or its fault."""
        ended = run([self.program, "image", "--env-source", "-", "--size", "0x100000"], text)
        if ended.returncode:
            return ended.stderr
        area = ended.stdout[4:]
        return entries_of(area[: area.index(b"\0\0") + 1])

    def compare(self, name, text, marked):
        """What comes of a text, without cpp's line markers and with them: "same", "fault" or "wrong"."""
        found, again, wanted = self.read(text), self.read(marked), self.built(text)
        if isinstance(found, bytes):
            if name:
                print(name, found.decode().strip())
            return "fault" if FAULT.fullmatch(found) else "wrong"
        if found != again or found != wanted:
            print(name or text, "differs:", sorted(set(found.items()) ^ set((wanted or {}).items()))[:4])
            return "wrong"
        return "same"

    def of_boards(self):
        """What comes of each source, with none and with all options."""
        for path in sorted(self.folder.rglob("*.env")):
            for defined in ((), self.options_of(path)):
                text, marked = self.preprocessed(path, defined, "-P"), self.preprocessed(path, defined)
                yield "refused" if text is None else self.compare(path.relative_to(self.folder), text, marked)

    def at_random(self, numbers):
        for _ in range(AT_RANDOM):
            parts = numbers.choices(OFTEN + SELDOM, [20] * len(OFTEN) + [1] * len(SELDOM), k=numbers.randrange(1, 30))
            text = b"a=0" * (numbers.random() < 0.9) + b"".join(parts)
            yield self.compare(None, text, b'# 1 "text"\n' + text)


def counted(what, ends):
    """Says how often each end came, and whether nothing was wrong."""
    counts = {}
    for end in ends:
        counts[end] = counts.get(end, 0) + 1
    print(what + ": " + ", ".join(f"{count} {end}" for end, count in sorted(counts.items())))
    return "wrong" not in counts and "same" in counts


def main(program, folder=FOLDER):
    with tempfile.TemporaryDirectory() as work:
        sources = Sources(program, pathlib.Path(folder).resolve(), pathlib.Path(work))
        all_well = counted("the sources, each with two configurations", sources.of_boards())
        return not (counted("texts at random", sources.at_random(random.Random(1))) and all_well)


if __name__ == "__main__":
    sys.exit(main(*sys.argv[1:]))
