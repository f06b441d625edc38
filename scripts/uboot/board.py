"""Boards that start U-Boot, and their consoles: one emulated by qemu, and U-Boot's own sandbox, which is a process.

The emulated board's flash is a file of 64 MiB, which begins with U-Boot's environment; its memory is a file too. A console that
doesn't answer within a minute is a fault, reported with what it printed last. A board's process ends with the block that
started it, and with this program, however that ends.
"""

import mmap
import os
import re
import selectors
import shutil
import struct
import subprocess
import time
from pathlib import Path

EMULATOR = "qemu-system-aarch64"
# U-Boot of Debian's package u-boot-qemu, and that of a newer Debian (scripts/uboot/newer)
FIRMWARES = [Path("/usr/lib/u-boot/qemu_arm64/u-boot.bin"), Path("/usr/local/lib/u-boot-newer/qemu_arm64/u-boot.bin")]
# One of 32 bits, of the first package
NARROW = Path("/usr/lib/u-boot/qemu_arm/u-boot.bin")
# One that counts its boots (scripts/uboot/counting), in an environment of its own size
COUNTING = Path("/usr/local/lib/u-boot-counting/u-boot.bin")
COUNTED_SIZE = 0x1000
FLASH_ADDRESS = 0x4000000
FLASH_SIZE = 0x4000000
ENVIRONMENT_SIZE = 0x40000
MEMORY_SIZE = 0x8000000
PATIENCE = 60
PROMPT = b"\n=> "
MORE = b"\n> "
AUTOBOOT = b"autoboot:  2 "
AUTOMATIC = (b"fdtcontroladdr", b"stderr", b"stdin", b"stdout")
INTERRUPT = b"\x03"
# Starts a command that is killed when the process $0 ends, or doesn't start it if that has ended already.
GUARD = ("setpriv", "--pdeathsig", "KILL", "sh", "-c", '[ "$PPID" = "$0" ] && exec "$@"')


def firmwares():
    """The file of each release of U-Boot that is here and can be emulated, "older" or "newer"."""
    found = {}
    for path in filter(Path.exists, FIRMWARES if shutil.which(EMULATOR) else []):
        year = int(re.search(rb"U-Boot (20\d\d)\.", path.read_bytes())[1])
        found.setdefault("older" if year < 2024 else "newer", path)
    return found


def can_boot(firmware):
    """Whether one is here and can be emulated."""
    return firmware.exists() and shutil.which(EMULATOR) is not None


class Silent(Exception):
    """The console didn't answer in time, or the board ended."""


def sectors(size):
    return struct.pack("<256Q", *(FLASH_ADDRESS + size * number for number in range(256)))


class Console:
    """A process that starts U-Boot, with a prompt at its standard input and output."""

    def __init__(self, command, folder=None):
        keys, self.keyboard = os.pipe()
        os.set_blocking(keys, False)  # the sandbox looks whether a key was pressed by reading
        self.process = subprocess.Popen(
            [*GUARD, str(os.getpid()), *command],
            cwd=folder,
            stdin=keys,
            stdout=subprocess.PIPE,
            stderr=subprocess.STDOUT,
            bufsize=0,
        )
        os.close(keys)
        os.set_blocking(self.process.stdout.fileno(), False)
        self.selector = selectors.DefaultSelector()
        self.selector.register(self.process.stdout, selectors.EVENT_READ)
        self.printed = b""

    def __enter__(self):
        try:
            self.greeting = self.boot()
            self.begin()
        except BaseException:
            self.__exit__()
            raise
        return self

    def begin(self):
        """What is to be done before the first line."""

    def __exit__(self, *_):
        self.process.kill()
        self.process.wait()
        self.selector.close()
        os.close(self.keyboard)
        self.process.stdout.close()

    def press(self, keys):
        os.write(self.keyboard, keys)

    def wait_for(self, *ends):
        """What the console prints up to one of these texts, after which it waits."""
        until = time.monotonic() + PATIENCE
        while not self.printed.endswith(ends):
            if not self.selector.select(max(0, until - time.monotonic())):
                raise Silent(f"no answer within {PATIENCE} s; the console printed last {self.printed[-300:]!r}")
            piece = self.process.stdout.read(65536)
            if not piece:
                raise Silent(f"the board ended; the console printed last {self.printed[-300:]!r}")
            self.printed += piece
        printed, self.printed = self.printed, b""
        return printed

    def boot(self):
        """What is printed up to the prompt."""
        printed = self.wait_for(AUTOBOOT, PROMPT)
        if printed.endswith(AUTOBOOT):
            self.press(b" ")
            printed += self.wait_for(PROMPT)
        return printed.replace(b"\r\n", b"\n")

    def type(self, line):
        """Types a line at the prompt: what is printed after its echo, and whether the console waits for more of the script.

        The prompt is recognised by the newline before it, so what a script prints has to end with one.
        """
        self.press(line + b"\r")
        printed = self.wait_for(PROMPT, MORE)
        end = PROMPT if printed.endswith(PROMPT) else MORE
        printed = printed.removeprefix(line).removesuffix(end[1:])
        return printed.replace(b"\r\n", b"\n").removeprefix(b"\n"), end == MORE

    def command(self, line):
        """What a line prints, which has to be a whole script."""
        printed, waits = self.type(line)
        if waits:
            raise Silent(f"no prompt after {line!r}; the console printed last {printed[-300:]!r}")
        return printed

    def interrupt(self):
        """Leaves a script that isn't whole."""
        self.press(INTERRUPT)
        self.wait_for(PROMPT)

    def status(self):
        return int(self.command(b"echo $?"))

    def variables(self):
        """All variables. The list has a backslash before each backslash and newline of a value (lib/hashtable.c)."""
        text = self.command(b"printenv -a")
        text, _, _ = text.rpartition(b"\n\nEnvironment size: ")
        found, entry, bytes_left = {}, b"", iter(text + b"\n")
        for byte in bytes_left:
            if byte == ord("\\"):
                entry += bytes([next(bytes_left)])
            elif byte == ord("\n"):
                name, _, value = entry.partition(b"=")
                found[name] = value
                entry = b""
            else:
                entry += bytes([byte])
        return found

    def own_variables(self):
        """All variables but those that U-Boot adds when it starts."""
        return {name: value for name, value in self.variables().items() if name not in AUTOMATIC}


class Board(Console):
    """`flash` is a file that begins with a stored environment; it is extended to the size of the flash."""

    def __init__(self, flash, firmware):
        self.flash = Path(flash)
        self.memory = self.flash.with_suffix(".memory")
        for file, size in ((self.flash, FLASH_SIZE), (self.memory, MEMORY_SIZE)):
            file.touch()
            os.truncate(file, size)
        processor = "cortex-a15" if firmware == NARROW else "cortex-a57"
        options = f"-machine virt,memory-backend=memory -cpu {processor} -display none -nic none -monitor none"
        console = "-chardev stdio,id=console,signal=off -serial chardev:console"
        memory = f"memory-backend-file,id=memory,size={MEMORY_SIZE},share=on,mem-path={self.memory}"
        drive = f"if=pflash,index=1,format=raw,file={self.flash}"
        machine = [*options.split(), *console.split(), "-m", f"{MEMORY_SIZE >> 20}", "-object", memory, "-drive", drive]
        super().__init__([EMULATOR, *machine, "-bios", firmware])

    def begin(self):
        self.mend_flash()

    def __exit__(self, *_):
        super().__exit__()
        self.memory.unlink()

    def mend_flash(self):
        """Makes `saveenv` work over the flash that Debian 12's qemu emulates.

        That flash loses what is written through its buffer after the first 4 KiB of a sector (fixed in qemu by its change
        "hw/pflash: fix block write start"). So U-Boot's table of sectors, in memory, is changed to sectors of 4 KiB. For each of
        them qemu erases the 256 KiB around it, which are the environment.
        """
        with open(self.memory, "r+b") as file, mmap.mmap(file.fileno(), 0) as memory:
            place = memory.rfind(sectors(0x20000))
            if place >= 0:
                memory[place : place + 2048] = sectors(0x1000)

    def stored(self, size=ENVIRONMENT_SIZE):
        """The image that is stored in the flash."""
        with open(self.flash, "rb") as flash:
            return flash.read(size)


class Sandbox(Console):
    """U-Boot built as a program of this machine (`make sandbox_defconfig`), over its default environment."""

    def __init__(self, program, folder):
        super().__init__([program], folder)
