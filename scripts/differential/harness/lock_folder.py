"""The folder of the lock files, which the processes of the comparison don't share."""

import ctypes
import os

# CLONE_NEWNS; MS_REC and MS_PRIVATE
MOUNTS, PRIVATE = 0x20000, 0x44000
RUN, VAR_LOCK = "/run", "/var/lock"


def have_own():
    """Gives this process, and what it runs, the folders of the usual lock files for itself, if a tmpfs can be mounted: what is tested at
    the same time holds those of the machine, and a call that waits for a second says so."""
    system = ctypes.CDLL(None)
    if system.unshare(MOUNTS) or system.mount(b"none", b"/", None, PRIVATE, None):
        return
    for folder in (RUN, VAR_LOCK):
        if not os.path.islink(folder):
            system.mount(b"tmpfs", folder.encode(), b"tmpfs", 0, None)
    if os.path.islink(VAR_LOCK):
        os.makedirs(os.path.realpath(VAR_LOCK), exist_ok=True)
    os.chmod(VAR_LOCK, 0o1777)
