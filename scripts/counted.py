"""What a script compares, counted. The last line that it prints is 'N passed, M failed'."""

import sys

passed = failed = 0


def check(name, is_right, said=""):
    """One thing that is compared."""
    global passed, failed
    if is_right:
        passed += 1
    else:
        failed += 1
        print(f"FAILED: {name}: {said}", flush=True)


def end():
    print(f"{passed} passed, {failed} failed")
    sys.exit(failed != 0)
