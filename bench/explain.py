#!/usr/bin/env python3
"""Measures `kr explain` on changed tables and on tables of fifteen modes, and prints what bench/README.md has:
bench/explain.py [SEED [TABLES]], 1 and 60 if none are given. Build first, by `./build`.

For each bundled table so many tables are made that differ from it in one entry, and as many of fifteen modes that are drawn
at random; of these the ones that are rejected count. A line has how many they are, the greatest processor time (user and
system) of the whole process, and how many of the texts say that something wasn't tried. Ends at a status other than 0 and 1.
"""
import os
import random
import subprocess
import sys
import tempfile

sys.dont_write_bytecode = True
TOP = os.path.dirname(os.path.dirname(os.path.abspath(__file__)))
sys.path.insert(0, os.path.join(TOP, "tests", "second"))
from samples import Draft

KR = os.path.join(TOP, "crates", "kr", "out", "kr")
BUNDLED = ["im", "kvl", "kvl-update", "range-key"]
BOUNDS = ["; not tried: ", " Tried: ", "No fix was tried"]  # what a text says of what was left out


def explained(table):
    """The processor time in seconds, the status and the text of one run, on one line."""
    with tempfile.NamedTemporaryFile("w+") as text:
        child = subprocess.Popen([KR, "explain", table], stdout=text)
        _, status, used = os.wait4(child.pid, 0)
        child.returncode = os.waitstatus_to_exitcode(status)
        if child.returncode not in (0, 1):
            sys.exit(f"{table}: status {child.returncode}")
        text.seek(0)
        return used.ru_utime + used.ru_stime, child.returncode, " ".join(text.read().split())


def neighbour(name, draws):
    """A bundled table with one entry changed."""
    with open(os.path.join(TOP, "tables", f"{name}.toml")) as file:
        draft = Draft.of_text(file.read())
    draft.change(draws)
    return draft


def of_fifteen_modes(draws):
    """A table of fifteen modes, of format 1 or 2."""
    draft = Draft.random(draws, draws.choice([1, 2]))
    while len(draft.modes) != 15:
        draft = Draft.random(draws, draws.choice([1, 2]))
    return draft


def measure(what, drafts, folder):
    """Prints the line of these tables."""
    table = os.path.join(folder, "table.toml")
    refused, longest, bounded = 0, 0.0, 0
    for draft in drafts:
        with open(table, "w") as file:
            file.write(draft.text())
        seconds, status, text = explained(table)
        refused += status
        longest = max(longest, seconds)
        bounded += any(words in text for words in BOUNDS)
    print(f"{what}: {refused} refused, at most {longest * 1000:.0f} ms, {bounded} at a bound")


def main(seed=1, tables=60):
    draws = random.Random(int(seed))
    with tempfile.TemporaryDirectory() as folder:
        for name in BUNDLED:
            measure(f"@{name}, changed", [neighbour(name, draws) for _ in range(int(tables))], folder)
        measure("fifteen modes", [of_fifteen_modes(draws) for _ in range(int(tables))], folder)


if __name__ == "__main__":
    main(*sys.argv[1:])
