"""Update services over the program under the names that they call, compared with the same over libubootenv's tools on a copy of the
files: scripts/clients.py FOLDER PROGRAM.

RAUC marks slots, over a D-Bus of its own; Mender writes an artifact to a loop device, commits it and goes back. After each of their
commands the variables are the same. What isn't installed or allowed is reported as not tried. The last line is 'N passed, M failed'."""

import collections
import json
import os
import pathlib
import shutil
import subprocess
import sys
import time

from counted import check, end

SIZE = 0x4000
# The most seconds of a command, and of a service that starts or ends
LONGEST = 30
RAUC_START = b"BOOT_ORDER=A B\nBOOT_A_LEFT=3\nBOOT_B_LEFT=3\nbootcmd=run x\n"
RAUC_CALLS = (
    "status",
    "status mark-good",
    "status mark-bad other",
    "status mark-good other",
    "status mark-active other",
    "status",
    "status mark-good",
    "status mark-active rootfs.0",
    "status mark-bad other",
    "status",
)
SYSTEM = """[system]
compatible=test-board
bootloader=uboot
statusfile={folder}/status
mountprefix={folder}

[keyring]
path={folder}/key.pem

[slot.rootfs.0]
device={folder}/first
type=raw
bootname=A

[slot.rootfs.1]
device={folder}/second
type=raw
bootname=B
"""
MENDER_START = b"upgrade_available=0\nbootcount=0\nbootlimit=1\nmender_boot_part=2\nmender_boot_part_hex=2\nbootcmd=run x\n"
# Each command of Mender with the part that the board runs from, and its status: 2 says that there is nothing to commit
MENDER_CALLS = (
    ("p2", "show-artifact", 0),
    ("p2", "install", 0),
    ("p3", "rollback", 0),
    ("p2", "show-artifact", 0),
    ("p2", "install", 0),
    ("p3", "commit", 0),
    ("p3", "commit", 2),
    ("p3", "show-artifact", 0),
)
# What a command answers and leaves; what it wrote to standard error, which isn't compared
Step = collections.namedtuple("Step", "call, wanted, status, output, variables, errors")


class Broken(Exception):
    """What a comparison depends on failed."""


class NotAllowed(Exception):
    """What a part needs isn't allowed here."""


def run(*words, **more):
    """What a command answers; its status is 124 or 137 if it takes too long."""
    words = ["timeout", "--kill-after=5", str(LONGEST), *map(str, words)]
    return subprocess.run(words, stdin=subprocess.DEVNULL, capture_output=True, **more)


def must(*words, fault=Broken):
    found = run(*words)
    if found.returncode != 0:
        raise fault(f"{' '.join(map(str, words))}: status {found.returncode}: {(found.stdout + found.stderr)[-500:]!r}")
    return found.stdout.decode(errors="replace")


def board(folder, program, tools, start):
    """A board with variables to start with, whose tools are called with its own configuration."""
    folder.mkdir()
    (folder / "copies").write_bytes(b"\xff" * 2 * SIZE)
    (folder / "config").write_text("".join(f"{folder}/copies {at:#x} {SIZE:#x}\n" for at in (0, SIZE)))
    (folder / "text").write_bytes(start)
    must(program, "import", "-c", folder / "config", folder / "text")
    (folder / "bin").mkdir()
    for name, words in tools.items():
        script(folder / "bin" / name, f'exec {words} -c {folder}/config "$@"')
    return folder


def script(path, text):
    path.write_text(f"#!/bin/sh\n{text}\n")
    path.chmod(0o755)


def step(folder, program, call, wanted, *words):
    """A command of an update service over a board, and the variables after it; one with an empty value, which libubootenv keeps, isn't
    there."""
    env = os.environ | {"PATH": f"{folder}/bin:{os.environ['PATH']}", "DBUS_STARTER_BUS_TYPE": "session"}
    answer = run(*words, env=env)
    lines = must(program, "printenv", "-c", folder / "config").splitlines()
    output = answer.stdout.decode(errors="replace").replace(str(folder), "FOLDER")
    return Step(call, wanted, answer.returncode, output, {line for line in lines if not line.endswith("=")}, answer.stderr[-500:])


def rauc(folder, program):
    for name in ("first", "second"):
        (folder / name).write_bytes(bytes(4096))
    (folder / "system.conf").write_text(SYSTEM.format(folder=folder))
    key = ("-newkey", "rsa:2048", "-nodes", "-keyout", folder / "key", "-out", folder / "key.pem")
    must("openssl", "req", "-x509", *key, "-subj", "/CN=test")
    words = ("rauc", f"--conf={folder}/system.conf")
    env = os.environ | {"PATH": f"{folder}/bin:{os.environ['PATH']}", "DBUS_STARTER_BUS_TYPE": "session"}
    with open(folder / "log", "wb") as log:
        service = subprocess.Popen([*words, "--override-boot-slot=A", "service"], env=env, stdin=subprocess.DEVNULL, stdout=log, stderr=log)
    try:
        wait_for(service, folder / "log")
        return [step(folder, program, f"rauc {call}", 0, *words, *call.split()) for call in RAUC_CALLS]
    finally:
        service.terminate()
        try:
            service.wait(LONGEST)
        except subprocess.TimeoutExpired:
            service.kill()
            check("the end of RAUC's service", False, "it did not end when asked to")


def wait_for(service, log):
    """Waits until RAUC's service has its name on the bus."""
    has_owner = ("--dest=org.freedesktop.DBus", "/", "org.freedesktop.DBus.NameHasOwner", "string:de.pengutronix.rauc")
    until = time.monotonic() + LONGEST
    while "true" not in must("dbus-send", "--session", "--print-reply", *has_owner):
        if service.poll() is not None or time.monotonic() > until:
            raise Broken(f"RAUC's service did not start: status {service.poll()}: {log.read_bytes()[-500:]!r}")
        time.sleep(0.1)


def mender(folder, program):
    (folder / "p2").touch()
    (folder / "disk").write_bytes(bytes(1 << 20))
    (folder / "image").write_bytes(bytes(range(256)) * 256)
    artifact = ("-t", "test-board", "-n", "release-2", "-f", folder / "image", "-o", folder / "artifact")
    must("mender-artifact", "write", "rootfs-image", *artifact)
    parts = {"RootfsPartA": f"{folder}/p2", "RootfsPartB": f"{folder}/p3"}
    (folder / "conf").write_text(json.dumps(parts | {"ServerURL": "https://localhost:1"}))
    for name, text in (("etc/artifact_info", "artifact_name=release-1"), ("data/device_type", "device_type=test-board")):
        (folder / name).parent.mkdir()
        (folder / name).write_text(f"{text}\n")
    device = must("losetup", "--find", "--show", folder / "disk", fault=NotAllowed).strip()
    # (the device goes once it is closed, however this ends)
    with open(device, "rb"):
        must("losetup", "--detach", device)
        (folder / "p3").symlink_to(device)
        # in the place of /etc/mender, where the name of what is installed first is, it sees a folder of the board
        place = f'{shutil.which("mount")} --bind {folder}/etc /etc/mender && exec "$@"'
        placed = ("unshare", "--mount", "sh", "-c", place, "sh")
        must(*placed, "true", fault=NotAllowed)
        words = (*placed, "mender", "--no-syslog", "--config", folder / "conf", "--data", folder / "data")
        steps = []
        for part, call, wanted in MENDER_CALLS:
            script(folder / "bin/mount", f"echo {folder}/{part} on / type ext4")
            steps.append(step(folder, program, f"mender {call}", wanted, *words, call, *[folder / "artifact"] * (call == "install")))
        return steps


def compared(service, start, environments, folder, program):
    """What an update service does over the program's names and over libubootenv's tools, and that it leaves this many environments. If one
    doesn't answer over those tools as it should, nothing is compared here."""
    links = folder / "links"
    links.mkdir(parents=True)
    for name in ("fw_printenv", "fw_setenv"):
        (links / name).symlink_to(program)
    other = board(folder / "theirs", program, {name: shutil.which(name) for name in ("fw_printenv", "fw_setenv")}, start)
    own = board(folder / "ours", program, {name: f"{links}/{name} -l {folder}" for name in ("fw_printenv", "fw_setenv")}, start)
    try:
        theirs = service(other, program)
    except Broken as why:
        raise NotAllowed(f"it does not run over libubootenv's tools: {why}")
    if wrong := [it for it in theirs if it.status != it.wanted]:
        raise NotAllowed(f"over libubootenv's tools it answers otherwise: {wrong}")
    ours = service(own, program)
    for one, another in zip(ours, theirs):
        check(one.call, one.status == one.wanted, one)
        check(f"{one.call}, compared with libubootenv's tools", one[:-1] == another[:-1], f"{one} and not {another}")
    found = len({frozenset(it.variables) for it in ours})
    check(f"how many environments {service.__name__} leaves", found == environments, f"{found}: {ours}")


# Of each service: its name, its commands, the variables to start with, how many environments it leaves, what its trial needs, and the
# packages of Debian that have that
SERVICES = (
    ("RAUC", rauc, RAUC_START, 4, ("rauc", "dbus-run-session", "dbus-send", "openssl"), "rauc, dbus, openssl"),
    ("Mender", mender, MENDER_START, 3, ("mender", "mender-artifact", "losetup", "unshare"), "mender-client, mender-artifact"),
)


def main():
    folder, program = (pathlib.Path(it).resolve() for it in sys.argv[1:3])
    if len(sys.argv) == 3 and shutil.which("dbus-run-session"):
        os.execvp("dbus-run-session", ["dbus-run-session", "--", sys.executable, "-B", *sys.argv, "here"])
    for name, service, start, environments, tools, packages in SERVICES:
        lacking = [it for it in (*tools, "fw_printenv", "fw_setenv") if not shutil.which(it)]
        if lacking:
            lacking = ", ".join(lacking)
            print(f"NOT TRIED: {name} over fw_printenv and fw_setenv: {lacking} not installed (Debian: {packages}, libubootenv-tool)")
            continue
        try:
            compared(service, start, environments, folder / service.__name__, program)
        except NotAllowed as why:
            print(f"NOT TRIED: {name} over fw_printenv and fw_setenv: {why}")
        except Broken as why:
            check(name, False, why)
    end()


main()
