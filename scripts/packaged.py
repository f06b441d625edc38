"""What the trials of the packages share: commands, tools that may be missing, and packages that are installed below a folder."""

import shutil
import subprocess

from counted import check


def same(name, found, wanted):
    check(name, found == wanted, f"{found!r} and not {wanted!r}")


def run(*words, given=b"", **more):
    return subprocess.run([*map(str, words)], input=given, capture_output=True, **more)


def has(tool, what=None):
    """Whether there is a tool; if there is none, it is told what isn't tried without it."""
    if shutil.which(tool):
        return True
    print(f"NOT TRIED: {what or 'what needs it'}: {tool} is not installed")
    return False


class Root:
    """A folder in which packages are installed, of another processor too. (The C library, on which a program's package may depend,
    isn't there.)"""

    def __init__(self, path):
        self.path = path
        for each in ("info", "updates"):
            (path / "var/lib/dpkg" / each).mkdir(parents=True)
        for each in ("status", "available"):
            (path / "var/lib/dpkg" / each).touch()

    def dpkg(self, *words, forced=("depends", "architecture")):
        """One call of dpkg, which has to succeed; what is needed may be missing if depends are forced."""
        options = [f"--force-{each}" for each in ("not-root", "bad-path", *forced)]
        found = run("dpkg", f"--root={self.path}", *options, f"--log={self.path}/dpkg.log", *words)
        check(f"dpkg {words[0]}", found.returncode == 0, found.stderr)

    def versions(self, *names):
        """The versions of these packages, a line each."""
        return run("dpkg-query", f"--root={self.path}", "-W", "-f=${Package} ${Version}\n", *names).stdout.decode()
