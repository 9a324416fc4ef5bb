#!/usr/bin/env python3
"""Measures what `kr run @record-gap` takes beside `kr run @kvl` on the scripts of bench/scripts.py at 100,000 steps, and prints a
table, of which bench/README.md has a part: bench/ghosts.py [--times] [KIND..], all kinds where none is named. Build first, by
`./build`, and have valgrind.

A row has the instructions of both by `valgrind --tool=callgrind`, in millions, their quotient, and that of the peak memory. With
--times it also has the quotient of the processor time, the least of fifteen runs each, in turns.
"""
import os
import re
import subprocess
import sys
import tempfile

sys.dont_write_bytecode = True
from growth import KR, made, run
from scripts import KINDS

STEPS = 100_000
TABLES = ["@kvl", "@record-gap"]
RUNS = 15


def instructions(script, table, folder):
    """How many instructions a run takes."""
    words = ["valgrind", "--tool=callgrind", f"--callgrind-out-file={os.path.join(folder, 'out')}", KR, "run", table, script]
    told = subprocess.run(words, stdout=subprocess.DEVNULL, stderr=subprocess.PIPE, text=True, check=True).stderr
    return int(re.search(r"Collected : (\d+)", told)[1])


def main(words):
    times = "--times" in words
    print("| Script | Millions of instructions, `@kvl` | `@record-gap` | Quotient | Memory |" + " Time |" * times)
    print("|---|---|---|---|---|" + "---|" * times)
    with tempfile.TemporaryDirectory() as folder:
        for kind in [it for it in words if it != "--times"] or KINDS:
            script = made(kind, STEPS, folder)
            counts = [instructions(script, table, folder) for table in TABLES]
            runs = [[run(script, table) for table in TABLES] for _ in range(RUNS if times else 3)]
            memory = [max(one[at][1] for one in runs) for at in range(2)]
            time = [min(one[at][0] for one in runs) for at in range(2)]
            row = f"| `{kind}` | {counts[0] / 1e6:.0f} | {counts[1] / 1e6:.0f} | {counts[1] / counts[0]:.2f} | {memory[1] / memory[0]:.2f} |"
            print(row + f" {time[1] / time[0]:.2f} |" * times, flush=True)


if __name__ == "__main__":
    main(sys.argv[1:])
