#!/usr/bin/env python3
"""Measures `kr run @kvl` on the scripts of bench/scripts.py, and prints a table, of which bench/README.md has a part:
bench/growth.py [KIND..], all kinds where none is named. Build first, by `./build`.

A row has the processor time (user and system) of the whole process at 10,000 and at 100,000 steps, the least of seven
runs, its start and the reading of the script included; the growth, which is the slope of log time over log size between
the two, so that 1.00 is in proportion to the size; and the peak memory at 100,000 steps, the greatest of the runs. The
script is made by a process of its own, since a child's peak memory is counted from that of its parent on.
"""
import math
import os
import subprocess
import sys
import tempfile

sys.dont_write_bytecode = True
from scripts import KINDS

TOP = os.path.dirname(os.path.dirname(os.path.abspath(__file__)))
KR = os.path.join(TOP, "crates", "kr", "out", "kr")
SCRIPTS = os.path.join(TOP, "bench", "scripts.py")
SIZES = [10_000, 100_000]
RUNS = 7


def run(script, table="@kvl"):
    """The processor time in seconds and the peak memory in KiB of one run under a table, which is serial."""
    child = subprocess.Popen([KR, "run", table, script], stdout=subprocess.DEVNULL)
    _, status, used = os.wait4(child.pid, 0)
    child.returncode = os.waitstatus_to_exitcode(status)
    if child.returncode != 0:
        sys.exit(f"{script}: status {child.returncode}")
    return used.ru_utime + used.ru_stime, used.ru_maxrss


def made(kind, steps, folder):
    """The file of the script of this kind and size."""
    script = os.path.join(folder, f"{kind}-{steps}.json")
    with open(script, "w") as file:
        subprocess.run([sys.executable, SCRIPTS, kind, str(steps)], stdout=file, check=True)
    return script


def measure(kind, steps, folder):
    """The least time and the greatest memory of the runs on the script of this kind and size."""
    script = made(kind, steps, folder)
    runs = [run(script) for _ in range(RUNS)]
    return min(time for time, _ in runs), max(memory for _, memory in runs)


def main(kinds):
    print("| Script | 10,000 steps, ms | 100,000 steps, ms | Growth | Memory, MiB |\n|---|---|---|---|---|")
    with tempfile.TemporaryDirectory() as folder:
        for kind in kinds or KINDS:
            (short, _), (long, memory) = (measure(kind, steps, folder) for steps in SIZES)
            growth = math.log(long / short) / math.log(SIZES[1] / SIZES[0])
            print(f"| `{kind}` | {short * 1e3:.1f} | {long * 1e3:.0f} | {growth:.2f} | {memory / 1024:.1f} |", flush=True)


if __name__ == "__main__":
    main(sys.argv[1:])
