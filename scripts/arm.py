"""Tries the package for 64-bit ARM as a board has it, each call through qemu: scripts/arm.py FOLDER.

FOLDER is for what is made, among it `fwenv`, which runs the installed program. Without a tool that this needs nothing is made, and it is
reported as not tried. The last line is 'N passed, M failed'."""

import os
import pathlib
import re
import sys

from counted import check, end
from packaged import Root, has, run, same

TOP = pathlib.Path(__file__).resolve().parent.parent
CROSS, QEMU = "aarch64-linux-gnu", "qemu-aarch64"
OBJECT, GLUE = TOP / "crates/fwenv/out/fwenv-aarch64.o", TOP / "packaging/cross/glue.c"
# What the parts of scripts/differential preload, by its source
PRELOADS = {"cut": "cut_streams.c", "raw": "raw_device.c"}
# The parts with nothing at random
PARTS = ("tool_rows", "report_rows", "image_rows", "find_rows", "client_rows", "script_rows", "board_rows", "boot_rows", "check_rows", "check_boards", "check_slips", "session_rows", "documents", "runs 0 0 0",
         "files", "hostile_files")  # fmt: skip


def compiled(compiler, made, *words):
    found = run(compiler, "-O1", "-Wall", "-o", made, *words)
    check(f"{made.name} compiled", found.returncode == 0, found.stderr[-500:])


def installed(packages, folder):
    """Installs the packages of a board, and answers where its program is."""
    program, links = next(packages.glob("fwenv_*_arm64.deb")), next(packages.glob("fwenv-fw-tools_*_all.deb"))
    root = Root(folder / "board")
    root.dpkg("-i", program)
    root.dpkg("-i", links)
    version = re.search(r"fwenv_(.*)_", program.name)[1]
    same("the versions on a board", root.versions(), f"fwenv {version}\nfwenv-fw-tools {version}\n")
    found = run(QEMU, root.path / "usr/bin/fw_printenv", "-V").stdout.decode()
    same("fw_printenv on a board", found, f"fw_printenv {version}\n")
    return root.path / "usr/bin/fwenv"


def through_qemu(program, folder):
    """What runs the program through qemu, with what is preloaded beside it."""
    (folder / "preloads").mkdir()
    compiled(f"{CROSS}-gcc", folder / "twin", "-Wl,--wrap=main", OBJECT, GLUE)
    for name, source in PRELOADS.items():
        compiled(f"{CROSS}-gcc", folder / f"preloads/{name}.so", "-shared", "-fPIC", TOP / "scripts" / source)
    named = {"QEMU": QEMU, "PROGRAM": program, "TWIN": folder / "twin", "LIBRARIES": f"/usr/{CROSS}"}
    defined = [f'-D{name}="{value}"' for name, value in named.items()]
    # (in one piece, so that nothing is preloaded before it)
    compiled(os.environ.get("CC", "cc"), folder / "fwenv", "-static", *defined, TOP / "scripts/through_qemu.c")
    return folder / "fwenv"


def rows(program, folder):
    """The rows over the program; how long they take says nothing."""
    for part in PARTS:
        words = (sys.executable, "-B", "-m", "differential", program, folder / "preloads", *part.split())
        found = run(*words, env=os.environ | {"PYTHONPATH": str(TOP / "scripts"), "EMULATED": "yes"}).stdout.decode()
        is_right = re.search(r"(?m)^[1-9]\d* passed, 0 failed\n\Z", found)
        check(f"{part} over the program for 64-bit ARM", is_right, found[max(0, found.find("FAILED")) :][:4000])


def packages(folder):
    """Makes the packages; whether all could be made."""
    found = run(TOP / "scripts/package", folder)
    check("scripts/package", found.returncode == 0, found.stderr[-500:])
    return found.returncode == 0


def open_to_all(folder):
    """Lets everyone through this folder and the one around it, as scripts/test makes it: some rows run the program without the rights of
    root."""
    for each in (folder, folder.parent):
        if each.stat().st_uid == os.getuid():
            each.chmod(each.stat().st_mode & 0o7777 | 0o111)


def main():
    folder, what = pathlib.Path(sys.argv[1]).resolve(), "the program for 64-bit ARM"
    if all([has("dpkg-deb", what), has("dpkg", what), has(QEMU, f"{what} (Debian: qemu-user)")]) and packages(folder / "packages"):
        if any(folder.glob("packages/fwenv_*_arm64.deb")):
            open_to_all(folder)
            rows(through_qemu(installed(folder / "packages", folder), folder), folder)
        else:
            print(f"NOT TRIED: {what}: there is no cross compiler (Debian: gcc-{CROSS}, libc6-dev-arm64-cross)")
    end()


main()
