"""The faults of boards as they ship, which docs/boards.md shows. Every script of the environments of scripts/uboot/packaged is checked,
and each board is started while no hardware answers; all that is found has to be judged below, by hand, and the page has to be what
is made of it.

usage: shipped_faults.py PROGRAM FOLDER [--write]

FOLDER gets, below 2023.01 and 2025.01, BOARD.txt (the environment), BOARD.stubs (stand-ins: the board's commands) and BOARD.nothing
(a board file by which each of them fails); --write writes the page."""

import collections
import concurrent.futures
import pathlib
import re
import subprocess
import sys
from dataclasses import dataclass

TOP = pathlib.Path(__file__).resolve().parents[2]
sys.path.insert(0, str(TOP / "scripts"))

from counted import check, end  # noqa: E402 (they are in the folder above)
from differential.harness.boards import text_of  # noqa: E402
from differential.rows.packaged_boards import FOLDER, KEYWORDS, nothing_answers, read  # noqa: E402
from model.texts import BUILTINS  # noqa: E402

PAGE = TOP / "docs/boards.md"
RELEASES = {"bookworm": "2023.01", "trixie": "2025.01"}
MARK = "<!-- made by scripts/uboot/shipped_faults.py -->\n"
# The script and the name of a line of a check or a run
FOUND = re.compile(
    r"(?P<script>\w+):\d+:\d+: (?:error|warning): [^`]*`(?:run )?(?:\$\{)?(?P<name>[\w.-]+)\}?`.*|## Error: \"(?P<lost>\w+)\" not defined.*"
)
# A finding of a check with a place, which two more lines show
PLACED = re.compile(r"\w+:\d+:\d+: (?:error|warning|note): ")
# What begins as a script does: a word and a blank, a separator or the end, or assignments and another command
BEGINS = re.compile(rb"(?:\w+=[^ ;]*; *)*([a-z][\w.]*)(?:[ ;]|$)")
# What begins so and is no script: lists, and what the kernel is told
NO_SCRIPTS = re.compile(rb"boot_targets|boot_scripts|dfu_alt_info_\w+|\w*rootfstype")
# The commands that are a script alone; another value of one word, as `arm`, is none
ALONE = {*BUILTINS, b"bootmenu"}


@dataclass
class Fault:
    """A fault that is true: the boards, the script that is called, the names at which it is found, a title, and what it does to a board."""

    boards: str
    script: str
    names: str
    title: str
    means: str
    how: str = "check"


FAULTS = (
    Fault(
        "nitrogen6q",
        "boot_extlinux",
        "sysboot",
        "no `extlinux.conf` is read",
        "This U-Boot has no command `sysboot`. Of a disk with that file, as of Debian's `u-boot-menu`, `EXTLINUX FAILED: continuing...` is "
        "printed, and the search goes on.",
    ),
    Fault(
        "am335x_boneblack am335x_evm",
        "bootcmd",
        "bootcmd_nand0",
        "NAND is never tried",
        "`boot_targets` has `nand0`, but its script is called `bootcmd_nand`.",
        how="run",
    ),
    Fault(
        "am335x_boneblack am335x_evm",
        "loadramdisk",
        "mmcdev",
        "the RAM disk can't be loaded",
        "No variable and no code of this U-Boot sets `mmcdev`, so that `load` takes the address for the device.",
    ),
    Fault(
        "dra7xx_evm",
        "emmc_android_boot",
        "bcb abootimg adtimg",
        "Android can't boot",
        "This U-Boot lacks three commands that `bootcmd` comes to. Without `bcb` the branches that set `apart` are never taken, and "
        "`part start mmc 1 boot_start` lacks a word.",
    ),
    Fault(
        "am57xx_evm dra7xx_evm",
        "loadimage loadfdt",
        "bootpart bootdir",
        "`mmcboot` can't load a kernel",
        "Nothing sets the partition and the folder. `bootcmd` takes other scripts; `run mmcboot`, by hand, loads nothing.",
    ),
    Fault(
        "omap4_panda",
        "bootcmd",
        "init_console",
        "an error at each start",
        "The variable is another board's. The boot goes on.",
    ),
    Fault(
        "mx6cuboxi",
        "update_sd_firmware",
        "update_sd_firmware_filename",
        "an update writes another file",
        "Without a file's name `dhcp` and `tftp` load what the server or `bootfile` names, which is written over the card's U-Boot.",
    ),
    Fault(
        "qcm6490",
        "fastboot",
        "fastboot fastboot_addr_r",
        "no `fastboot`",
        "This U-Boot lacks `fastboot`, which `Enable fastboot mode` in its menu runs, and the code that sets the address.",
    ),
)
# The names in findings that are no fault of the board, by why they are none
BY_CODE = "a variable that U-Boot's own code sets at its start, or a command with what it finds"
MAY_BE_EMPTY = "a variable that is meant to be empty, or the user's to set"
NO_FAULTS = {
    BY_CODE: "attkernaddr avb_bootargs boot_instance extension_overlay_name fdt_file fdtfile",
    MAY_BE_EMPTY: "board mmcinitrdfile name_overlays nfsroot optargs opts slot_suffix",
}


@dataclass
class Board:
    """A board of a release, with its scripts and what is found in them: lines by script and name."""

    release: str
    name: str
    scripts: list
    lines: dict


def scripts_of(variables, commands):
    """The variables that begin as scripts do."""
    known = commands | set(BUILTINS) | KEYWORDS
    several = {name: value for name, value in variables.items() if not NO_SCRIPTS.fullmatch(name) and (b" " in value.strip() or value in ALONE)}
    begins = ((name, BEGINS.match(value)) for name, value in several.items())
    return [name.decode() for name, found in begins if found and found[1].split(b".")[0] in known]


def called(program, folder, how, board, *scripts):
    """A call as the page shows it, which needs no size there, and the lines that it prints on standard output, those of a finding together."""
    answers = f"--stubs {board}.stubs" if how == "check" else f"--board {board}.nothing"
    words = f"{how} --env {board}.txt {answers} {' '.join(scripts)}"
    found = subprocess.run([program, *words.split(), "--size=40000"], cwd=folder, capture_output=True, text=True, errors="replace")
    return f"fwenv {words}", list(together(found.stdout.splitlines()))


def together(lines):
    """The lines, a finding's with the two below it."""
    while lines:
        count = 3 if PLACED.match(lines[0]) else 1
        yield "\n".join(lines[:count])
        lines = lines[count:]


def script_and_name(lines):
    """Of which script and name a finding is; None if it isn't understood."""
    match = FOUND.fullmatch(lines.partition("\n")[0])
    return match and (match["script"], match["name"] or match["lost"])


def look(program, folder, path):
    """Writes the files of a board, and looks for faults."""
    suite, _, name = path.name.split(".", 2)
    variables, commands = read(path)
    below = pathlib.Path(folder, RELEASES[suite])
    stand_ins, rules = (b"".join(map(line, sorted(commands))) for line in (b"%s\n".__mod__, nothing_answers))
    for kind, text in (("txt", text_of(variables)), ("stubs", stand_ins), ("nothing", rules)):
        (below / f"{name}.{kind}").write_bytes(text)
    found = Board(RELEASES[suite], name, scripts_of(variables, commands), collections.defaultdict(list))
    lines = [("check", "", line) for line in called(program, below, "check", name, *found.scripts)[1]]
    for start in {b"preboot", b"bootcmd", b"altbootcmd"} & set(variables):
        lines += [("run", start.decode(), line) for line in called(program, below, "run", name, start.decode())[1] if "not defined" in line]
    for how, start, line in lines:
        # what another release of U-Boot, or another shell, does in a different way is no fault
        if line.partition("\n")[0].endswith(("[exit]", "[and-or]", "[empty-assignment]")):
            continue
        if names := script_and_name(line):
            found.lines[how, names[0] or start, names[1]].append(line)
        else:
            check(f"{path.name}: {line}", False, "it is not understood")
    return found


def is_of(fault, key):
    how, script, name = key
    return fault.how == how and script in fault.script.split() and name in fault.names.split()


def judged(boards):
    """How many findings are no fault, by why; and each finding is judged, and each judgement is of something found."""
    counts, without = collections.Counter(), {name: why for why, names in NO_FAULTS.items() for name in names.split()}
    # what a run prints of a name the check finds too, if it can follow the name
    for board in boards:
        for key, lines in board.lines.items():
            is_fault = any(board.name in fault.boards.split() and is_of(fault, key) for fault in FAULTS)
            is_shown = key[0] == "run" and ("check", *key[1:]) in board.lines
            check(f"{board.release} {board.name}: {lines[0]}", is_fault or is_shown or key[2] in without, "nobody has judged it")
            if not is_fault and key[2] in without:
                counts[without[key[2]]] += len(lines)
    for fault in FAULTS:
        for board in fault.boards.split():
            is_there = any(each.name == board and any(is_of(fault, key) for key in each.lines) for each in boards)
            check(f"{board}: {fault.title}", is_there, "it isn't found any more")
    for name in without:
        check(f"{name}, which is no fault", any(key[2] == name for board in boards for key in board.lines), "it isn't found any more")
    return counts


def shown(program, folder, fault, boards):
    """A fault as the page has it: the call over the first board of the newest release, and the first line for each name."""
    having = [board for board in boards if board.name in fault.boards.split() and any(is_of(fault, key) for key in board.lines)]
    releases = sorted({board.release for board in having})
    board = next(board for board in having if board.release == releases[-1])
    command, lines = called(program, f"{folder}/{board.release}", fault.how, board.name, *fault.script.split())
    firsts = {}
    for line in lines:
        names = script_and_name(line)
        if names and names[1] in fault.names.split():
            firsts.setdefault(names, line.partition("\n")[0])
    names, tail = " and ".join(f"`{name}`" for name in fault.boards.split()), " | grep Error" if fault.how == "run" else " | grep ]$"
    head = f"**{names}{f', {releases[0]}' if len(releases) == 1 else ''}: {fault.title}.** {fault.means}"
    return "\n".join((head, "", "```text", f"$ {command}{tail}", *firsts.values(), "```", ""))


def page(program, folder, boards):
    """The page, of which what is between the two marks is made."""
    counts = judged(boards)
    head, _, tail = PAGE.read_text().split(MARK)
    found = sum(len(lines) for board in boards for (how, *_), lines in board.lines.items() if how == "check")
    scripts, names, none = sum(len(board.scripts) for board in boards), {board.name for board in boards}, sum(counts.values())
    reasons = ", ".join(f"{count} of {why}" for why, count in counts.most_common())
    said = f"{len(boards)} environments of {len(names)} boards have {scripts:,} scripts. `check` found {found} places in them: {found - none} are the faults below, and {none} are none ({reasons})."
    return MARK.join((head, "\n".join((said, "", *(shown(program, folder, fault, boards) for fault in FAULTS))), tail))


def main(program, folder, *options):
    program = str(pathlib.Path(program).resolve())
    for release in RELEASES.values():
        pathlib.Path(folder, release).mkdir(parents=True, exist_ok=True)
    if not FOLDER.is_dir():
        print("NOT TRIED: docs/boards.md: the boards of Debian's packages are not there (scripts/uboot/packaged)")
        return end()
    with concurrent.futures.ThreadPoolExecutor() as pool:
        boards = list(pool.map(lambda path: look(program, folder, path), sorted(FOLDER.glob("*.*"))))
    made = page(program, folder, boards)
    if options == ("--write",):
        PAGE.write_text(made)
    check("docs/boards.md", PAGE.read_text() == made, "it isn't what scripts/uboot/shipped_faults.py makes; --write writes it")
    end()


main(*sys.argv[1:])
