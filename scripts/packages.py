"""Tries the packages, the manual pages and the completions, as a user has them: scripts/packages.py FOLDER.

What needs a tool that isn't installed is reported as not tried. The last line is 'N passed, M failed'."""

import fcntl
import filecmp
import os
import pathlib
import pty
import re
import select
import struct
import sys
import time
import zlib

from counted import check, end
from packaged import Root, has, run, same

TOP = pathlib.Path(__file__).resolve().parent.parent
IMAGE = b"\xd2\x96\x62\x2ba=b\0\0"
# Names that a shell would do something with, as bash and zsh quote them and as fish offers them; the last may not be taken for an option
HOSTILE = [
    ("$(touch made)", r"\$\(touch\ made\)"),
    ("$(touch${IFS}made)", r"\$\(touch\$\{IFS\}made\)"),
    ("`touch made`", r"\`touch\ made\`"),
    (";touch made", r"\;touch\ made"),
    ("&touch made&", r"\&touch\ made\&"),
    ("two words", r"two\ words"),
    ("it's", r"it\'s"),
    ('a "quote"', r"a\ \"quote\""),
    ("*", r"\*"),
    ("~", r"\~"),
    ("$HOME", r"\$HOME"),
]
AS_OPTIONS = ["-n", "--help", "-c copy"]
# What may write copies: only these have --overwrite, which the page has among the options of all
WRITING = {f"fwenv {name}" for name in ("setenv", "import", "restore", "run", "session")}
# What scripts/package says without a cross compiler
NONE_FOR_ARM = (
    b"scripts/package: nothing is made for 64-bit ARM: it needs aarch64-linux-gnu-gcc (Debian: gcc-aarch64-linux-gnu libc6-dev-arm64-cross)\n"
)


def made(folder):
    """The packages in a folder, and whether it was said that there are none for 64-bit ARM."""
    found = run(TOP / "scripts/package", folder)
    check("scripts/package", found.returncode == 0, found.stderr[-500:])
    return [pathlib.Path(line) for line in found.stdout.decode().splitlines()], found.stderr == NONE_FOR_ARM


def unpacked(package, folder):
    run("dpkg-deb", "-x", package, folder, check=True)
    return folder


def packages(folder):
    (first, is_none), (again, _) = made(folder / "first"), made(folder / "again")
    for_arm = [] if is_none else ["fwenv_N_arm64.deb", "fwenv-N-aarch64-linux.tar.gz"]
    same(
        "the packages",
        [re.sub(r"\d+\.\d+\.\d+", "N", it.name) for it in first],
        ["fwenv_N_amd64.deb", "fwenv-fw-tools_N_all.deb", "fwenv-N-x86_64-linux.tar.gz", *for_arm],
    )
    for one, other in zip(first, again):
        check(f"{one.name} made again", filecmp.cmp(one, other, shallow=False), "other bytes")
    program, links, archive = first[:3]
    root = unpacked(program, folder / "root")
    same("the program unpacked", run(root / "usr/bin/fwenv", given=IMAGE).stdout, b"a=b\n")
    unpacked(links, root)
    run("tar", "-xzf", archive, "-C", folder, check=True)
    same("the program of the archive", run(folder / archive.name.removesuffix(".tar.gz") / "bin/fwenv", given=IMAGE).stdout, b"a=b\n")
    installed(program, links, folder)
    if has("lintian"):
        found = run("lintian", "--fail-on", "error", *(it for it in first if it.suffix == ".deb"))
        check("lintian", found.returncode == 0, found.stdout[-800:])


def older(package, folder):
    """The package as an older version."""
    run("dpkg-deb", "-R", package, folder, check=True)
    control = folder / "DEBIAN/control"
    control.write_text(re.sub(r"(?m)^Version: .*", "Version: 0.1.0", control.read_text()))
    run("dpkg-deb", "--root-owner-group", "--build", folder, f"{folder}.deb", check=True)
    return f"{folder}.deb"


def with_need(folder, need):
    """A package that has nothing and depends on this."""
    (folder / "DEBIAN").mkdir(parents=True)
    lines = (
        "Package: client",
        "Version: 1",
        "Architecture: all",
        "Maintainer: nobody <nobody@localhost>",
        f"Depends: {need}",
        "Description: a client",
    )
    (folder / "DEBIAN/control").write_text("".join(f"{line}\n" for line in lines))
    run("dpkg-deb", "--root-owner-group", "--build", folder, f"{folder}.deb", check=True)
    return f"{folder}.deb"


def installed(program, links, folder):
    """Installs the packages over an older one below a folder, and removes them."""
    if not has("dpkg"):
        return
    there, root = Root(folder / "installed"), folder / "installed"
    for package in (older(program, folder / "old"), program, links):
        there.dpkg("-i", package)
    # a package that needs a version of libubootenv-tool finds it
    there.dpkg("-i", with_need(folder / "client", "libubootenv-tool (>= 0.3.2)"), forced=())
    version = re.search(r"fwenv_(.*)_", program.name)[1]
    same("the versions after an upgrade", there.versions("fwenv", "fwenv-fw-tools"), f"fwenv {version}\nfwenv-fw-tools {version}\n")
    same("the program installed", run(root / "usr/bin/fwenv", given=IMAGE).stdout, b"a=b\n")
    for name in ("fw_printenv", "fw_setenv"):
        found = run(root / "usr/bin" / name, "-V").stdout.decode()
        same(f"{name} installed", found, f"{name} {version}\n")
    there.dpkg("--purge", "client", "fwenv-fw-tools", "fwenv", forced=())
    left = [str(it) for it in (root / "usr").rglob("*")] if (root / "usr").exists() else []
    same("what is left once they are removed", left, [])


def rows(folder):
    """The rows of the tools, of sessions and of the documents over the program as it is packaged."""
    for part in ("tool_rows", "report_rows", "image_rows", "find_rows", "check_rows", "session_rows", "documents"):
        words = (sys.executable, "-B", "-m", "differential", folder / "root/usr/bin/fwenv", folder, part)
        lines = run(*words, env=os.environ | {"PYTHONPATH": str(TOP / "scripts")}).stdout.decode().splitlines()
        check(f"{part} over the program of the package", lines[-1:] and lines[-1].endswith(", 0 failed"), "\n".join(lines[-6:]))


def words_of(options):
    """The options that a text names."""
    return set(re.findall(r"(?<![\w-])--?[A-Za-z][\w-]*", options))


def pages(folder):
    if not has("groff"):
        return
    for page in (TOP / "packaging/man").iterdir():
        found = run("groff", "-ww", "-man", "-Tutf8", "-z", page)
        same(f"the page {page.name}", found.stderr, b"")
    calls = {
        "fwenv": [],
        **{
            f"fwenv {name}": [name]
            for name in ("printenv", "setenv", "import", "export", "restore", "status", "find", "image", "run", "boot", "check", "session")
        },
    }
    listed = page_options("fwenv.1") | {f"fwenv {name}": page_options(f"fwenv-{name}.1")[""] for name in ("run", "boot", "check", "session")}
    common = listed[""] - {"-V", "--version"}
    for name, words in calls.items():
        helped = options_of_help(run(folder / "root/usr/bin/fwenv", *words, "--help").stdout.decode())
        own = {"--big-endian"} | listed[""] - {"-c", "--default", "--need-copy"} if name == "fwenv" else common | listed[name]
        own -= {
            "fwenv status": {"--default", "--need-copy"},
            "fwenv image": {"-c", "--default", "--need-copy"},
            "fwenv find": {"-c", "--default", "--need-copy", "--big-endian"},
            "fwenv check": {"--need-copy"},
        }.get(name, set())
        own -= set() if name in WRITING else {"--overwrite"}
        same(f"the options of {name}, in its page and in its help", sorted(own), sorted(helped))


def client_pages(folder):
    """The options of fw_printenv and fw_setenv, in their pages and in their help."""
    for name in ("fw_printenv", "fw_setenv"):
        link = folder / name
        link.symlink_to(folder / "root/usr/bin/fwenv")
        helped = options_of_help(run(link, "--help").stdout.decode())
        # (the help has the second long name of -n in the text that describes it)
        listed = page_options(f"{name}.1")[""] - {"--no-header"}
        same(f"the options of {name}", sorted(listed), sorted(helped))


def options_of_help(text):
    return set().union(*(words_of(line.split("  ")[0]) for line in re.findall(r"(?m)^ +(-.*)$", text)))


def page_options(page):
    """The options in the headings of a page, by the command under which they are; those of all commands have no name."""
    options, at, is_heading = {"": set()}, "", False
    for line in (TOP / "packaging/man" / page).read_text().replace("\\-", "-").splitlines():
        if line.startswith(".SH"):
            at = ""
        elif line.startswith(".SS fwenv"):
            at = line.removeprefix(".SS ")
            options[at] = set()
        elif is_heading:
            options[at] |= words_of(line)
        is_heading = line == ".TP"
    return options


def completed_by_bash(folder, board, line):
    """What bash offers for a line whose last word is being typed, quotes and all, and whether it was to offer files."""
    name, words = line.split()[0], f"{line}''" if line.endswith(" ") else line
    program = f"""source {folder}/{name}; COMP_WORDS=({words}); COMP_CWORD=$((${{#COMP_WORDS[@]}} - 1))
    compopt() {{ echo "$@" >&2; }}; read -r _ _ _ _ call _ < <(complete -p {name}); "$call"; printf '%s\\n' "${{COMPREPLY[@]}}" """
    found = run("bash", "-c", program, cwd=board)
    return set(found.stdout.decode().splitlines()) - {""}, found.stderr.endswith(b"-o default\n")


def completed_by_fish(folder, board, line):
    script = folder / f"{line.split()[0]}.fish"
    found = run("fish", "--no-config", "-c", f"source {script}; complete -C $argv[1]", line, cwd=board)
    return {it.split("\t")[0] for it in found.stdout.decode().splitlines()}


def completed_by_zsh(folder, board, line):
    """What is on the line once the Tab key was pressed, at a real prompt."""
    child, screen = pty.fork()
    if child == 0:
        os.chdir(board)
        os.execvp("zsh", ["zsh", "-f", "-i"])
    said = b""

    def wait(text, seconds=20):
        nonlocal said
        until = time.monotonic() + seconds
        while text not in said and time.monotonic() < until:
            if select.select([screen], [], [], 0.2)[0]:
                said += os.read(screen, 65536)
        return text in said

    try:
        os.write(screen, f"PROMPT='>'; fpath=({folder} $fpath); autoload -Uz compinit; compinit -u -D; print rea''dy\n".encode())
        wait(b"ready")
        said = b""
        os.write(screen, line.encode() + b"\t\x01print -r -- '<\x05>'\n")
        wait(b">\r\n")
        wait(b"<fw")
    finally:
        os.close(screen)
        os.waitpid(child, 0)
    found = re.findall(rb"<(fw[^<>]*)>", said)
    return found[-1].decode() if found else repr(said)


def hostile_names(root, board):
    """Names of variables that a shell would do something with: each is offered as it is or quoted, nothing is run, and none that begins
    like an option is offered."""
    text = b"".join(f"{name}=1\0".encode() for name in [*AS_OPTIONS, *(name for name, _ in HOSTILE)])
    image = text.ljust(0x1000 - 4, b"\0")
    (board / "hostile").write_bytes(struct.pack("<I", zlib.crc32(image)) + image)
    (board / "of-hostile").write_text("hostile 0 1000\n")
    calls = ("fwenv printenv -c of-hostile", "fwenv setenv -c of-hostile", "fw_printenv -c of-hostile -l .", "fw_setenv -c of-hostile -l .")
    names, before = {name for name, _ in HOSTILE}, {it.name for it in board.iterdir()}
    for call in calls:
        offered = completed_by_bash(root / "share/bash-completion/completions", board, f"{call} ''")
        same(f"bash: {call}, of hostile names", offered, ({quoted for _, quoted in HOSTILE}, False))
        if has("fish"):
            offered = completed_by_fish(root / "share/fish/vendor_completions.d", board, f"{call} ")
            same(f"fish: {call}, of hostile names", offered & (names | set(AS_OPTIONS)), names)
        for typed, name in (("\\$\\(touch\\$", "$(touch${IFS}made)"), ("\\`", "`touch made`"), ("two", "two words")) if has("zsh") else ():
            found = completed_by_zsh(root / "share/zsh/site-functions", board, f"{call} {typed}").strip()
            same(f"zsh: {call} {typed}", found, f"{call} {dict(HOSTILE)[name]}")
    offered = completed_by_bash(root / "share/bash-completion/completions", board, f"{calls[0]} '{HOSTILE[0][1][:-1]}'")
    same("bash: the rest of a quoted name", offered, ({HOSTILE[0][1]}, False))
    same("files that completion of hostile names makes", {it.name for it in board.iterdir()} - before - {"fw_printenv.lock"}, set())


def completions(folder):
    root, board = folder / "root/usr", folder / "board"
    board.mkdir()
    (board / "copy").write_bytes(b"\xff" * 0x1000)
    (board / "blank").write_bytes(b"\xff" * 0x1000)
    for name in ("of-copy", "of copy", "of-blank"):
        (board / name).write_text(f"{name[3:]} 0 1000\n")
    (board / "text").write_text("bootcmd=run x\nbootdelay=2\nbaudrate=115200\n")
    os.environ["PATH"] = f"{root}/bin:{os.environ['PATH']}"
    check("the board", run("fwenv", "import", "-c", "of-copy", "text", cwd=board).returncode == 0)
    names = {"bootcmd", "bootdelay"}
    rows = [
        ("fwenv pri", {"printenv"}),
        ("fwenv ru", {"run"}),
        ("fwenv run --b", {"--board", "--boots", "--big-endian"}),
        ("fwenv run --env text boot", {"bootcmd", "bootdelay"}),
        ("fwenv run --env-source text boot", {"bootcmd", "bootdelay"}),
        ("fwenv run --env-plain text boot", {"bootcmd", "bootdelay"}),
        ("fwenv session --si", {"--size"}),
        ("fwenv boo", {"boot"}),
        ("fwenv boot --st", {"--stubs", "--steps", "--stored"}),
        ("fwenv boot --w", {"--word", "--ways"}),
        ("fwenv boot --boo", {"--boots", "--bootcount"}),
        ("fwenv boot --a", {"--after"}),
        ("fwenv boot --cu", {"--cuts"}),
        ("fwenv boot --d", {"--default", "--depth", "--dot"}),
        ("fwenv boot --copy ", {"1", "2"}),
        ("fwenv session --w", {"--word", "--write"}),
        ("fwenv im", {"import", "image"}),
        ("fwenv fi", {"find"}),
        ("fwenv find --", {"--help"}),
        ("fwenv image --", {"--env", "--env-source", "--env-plain", "--size", "--copies", "--both", "--output", "--big-endian", "--help"}),
        ("fwenv image --copies ", {"1", "2"}),
        ("fwenv che", {"check"}),
        (
            "fwenv check --",
            {
                "--default",
                "--big-endian",
                "--shell",
                "--stubs",
                "--board",
                "--known",
                "--ignore",
                "--strict",
                "--all",
                "--format",
                "--env",
                "--env-source",
                "--env-plain",
                "--size",
                "--help",
            },
        ),
        ("fwenv run --shell b", {"board"}),
        ("fwenv session --shell ", {"board", "strict"}),
        ("fwenv check --env text boot", {"bootcmd", "bootdelay"}),
        ("fwenv check -c of-copy boot", names),
        ("fwenv import --n", {"--need-copy"}),
        ("fwenv export --de", {"--default"}),
        ("fwenv export --co", {"--copy"}),
        ("fwenv printenv --copy ", {"1", "2"}),
        ("fwenv check --format ", {"text", "gcc", "json"}),
        ("fwenv session --st", {"--stubs", "--steps"}),
        ("fwenv re", {"restore"}),
        ("fwenv status --b", {"--big-endian"}),
        ("fwenv status --de", set()),
        ("fwenv printenv -c of-copy boot", names),
        ("fwenv setenv -c of-copy boot", names),
        ("fw_printenv --no", {"--noheader", "--no-header"}),
        ("fw_printenv --s", set()),
        ("fw_setenv --no", set()),
        ("fw_setenv --s", {"--script"}),
        ("fw_setenv --de", {"--defenv"}),
        ("fw_printenv -c of-copy -l . boot", names),
        ("fw_setenv --lock . --config of-copy boot", names),
        ("fw_setenv -c of-blank -l . boot", set()),
        ("fw_setenv -c of-blank -l . -f text boot", names),
    ]
    with_files = ("fwenv printenv -c te", "fwenv check -f te", "fw_printenv -c te", "fw_printenv --defenv te", "fw_setenv -f te", "fw_setenv -s te")
    folder = root / "share/bash-completion/completions"
    for line, wanted in rows:
        same(f"bash: {line}", completed_by_bash(folder, board, line), (wanted, False))
    for line in with_files:
        same(f"bash: files for {line}", completed_by_bash(folder, board, line), (set(), True))
    hostile_names(root, board)
    # a lock that is held ends the completion of names after a second
    with open(board / "copy") as held:
        fcntl.flock(held, fcntl.LOCK_EX)
        begun = time.monotonic()
        same("bash: names in a locked copy", completed_by_bash(folder, board, "fwenv printenv -c of-copy boot"), (set(), False))
        check("names in a locked copy aren't waited for", time.monotonic() - begun < 5)
    if has("fish"):
        folder = root / "share/fish/vendor_completions.d"
        for line, wanted in [*rows, *((line, {"text"}) for line in with_files)]:
            same(f"fish: {line}", completed_by_fish(folder, board, line), wanted)
    if has("zsh"):
        for line, more in (
            ("fwenv pri", "ntenv"),
            ("fwenv export --de", "fault"),
            ("fwenv printenv -c of-c", "opy"),
            ("fwenv printenv -c of-copy bootc", "md"),
            ("fwenv setenv -c of\\ copy bootd", "elay"),
            ("fwenv check --stu", "bs"),
            ("fwenv boot --wa", "ys"),
            ("fwenv check --shell st", "rict"),
            ("fwenv check --format js", "on"),
            ("fwenv check --env text bootc", "md"),
            ("fwenv check -f te", "xt"),
            ("fw_printenv --noh", "eader"),
            ("fw_setenv --sc", "ript"),
            ("fw_printenv -c of-c", "opy"),
            ("fw_setenv --defenv te", "xt"),
            ("fw_setenv -s te", "xt"),
            ("fw_printenv -c of-copy -l . bootc", "md"),
            ("fw_setenv --lock=. --config of\\ copy bootd", "elay"),
            ("fw_setenv -c of-blank -l . bootd", ""),
            ("fw_setenv -c of-blank -l . -f text bootd", "elay"),
        ):
            same(f"zsh: {line}", completed_by_zsh(root / "share/zsh/site-functions", board, line).strip(), line + more)


def main():
    folder = pathlib.Path(sys.argv[1]).resolve()
    if has("dpkg-deb"):
        packages(folder)
        rows(folder)
        pages(folder)
        client_pages(folder)
        completions(folder)
    end()


main()
