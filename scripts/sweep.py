"""Each allocation of the calls in the program sweeps refused in turn, several runs at a time.

    sweep.py PROGRAM REFUSE.so

With ample memory its rows are crates/sweeps/stdout. With each allocation refused (refuse_nth.c) that comes within a call the rows
stay, and one call reports that it met the refusal. The last line is 'N passed, M failed'.
"""

import concurrent.futures
import os
import pathlib
import subprocess
import sys
import tempfile

from counted import check, end

ROWS = (pathlib.Path(__file__).resolve().parent.parent / "crates/sweeps/stdout").read_bytes().splitlines(keepends=True)


def ran(program, refuse, **variables):
    given = {**os.environ, **variables, "REFUSE_WITHIN": "1", "LD_PRELOAD": refuse}
    return subprocess.run([program], stdin=subprocess.DEVNULL, capture_output=True, env=given)


def fault_of(program, refuse, number):
    """What is wrong with the run in which this allocation is refused, if anything is."""
    found = ran(program, refuse, REFUSE_NTH=str(number))
    lines = found.stdout.splitlines(keepends=True)
    left = [line for line in lines if not line.endswith(b": refused\n")]
    if found.returncode != 0:
        return f"status {found.returncode}: {found.stderr[:300]!r}"
    if left != ROWS:
        return f"other rows: {next((line for line in left if line not in ROWS), b'a row is missing')!r}"
    return None if len(lines) == len(left) + 1 else f"{len(lines) - len(left)} calls met it"


def main():
    program, refuse = sys.argv[1:]
    with tempfile.NamedTemporaryFile() as count_file:
        ample = ran(program, refuse, REFUSE_COUNT=count_file.name)
        count = int(count_file.read() or 0)
    is_right = ample.returncode == 0 and ample.stdout == b"".join(ROWS) and count > 0
    check("the sweeps with ample memory", is_right, f"status {ample.returncode}, {count} allocations")
    with concurrent.futures.ThreadPoolExecutor(len(os.sched_getaffinity(0))) as pool:
        faults = pool.map(lambda number: fault_of(program, refuse, number), range(1, count + 1))
        for number, fault in enumerate(faults, 1):
            check(f"the sweeps, allocation {number} of {count} refused", fault is None, fault)
    print(f"sweeps: {len(ROWS)} rows, {count} allocations")
    end()


if __name__ == "__main__":
    main()
