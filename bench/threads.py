#!/usr/bin/env python3
"""Runs `kr threads @kvl` on scripts of 25,000 transactions of four steps, by 1, 4, 16 and 64 workers, and prints a
table: bench/threads.py [KIND..], all kinds where none is named. Build first, by `./build`.

KIND is one of
  disjoint   three operations at keys that no other transaction touches, and a commit
  hot-spot   three operations at twenty keys, and a commit
  scans      every other transaction scans up to twenty keys in three steps, the others insert and delete there; a commit

Each run has to end, with status 0, a serial verdict and nobody unfinished; and `kr run` on its history, as a script, has to
give the same replies and the same index. A row has the processor time (user and system) of the whole process, the least of
three runs, with the wall time of that run; how many deadlocks there were in it; and the processor time of `kr run` on the
script itself.
"""
import json
import os
import random
import subprocess
import sys
import tempfile
import time

TOP = os.path.dirname(os.path.dirname(os.path.abspath(__file__)))
KR = os.path.join(TOP, "crates", "kr", "out", "kr")
KEYS, TXNS, RUNS = 100_000, 25_000, 3
WORKERS = [1, 4, 16, 64]


def operation(chance, txn, key):
    """A fetch half of the time, else an insert or a delete."""
    kind = chance.choice(["fetch", "fetch", "insert", "delete"])
    return [txn, kind, key] + [txn] * (kind == "insert")


def disjoint(chance, txn):
    return [operation(chance, txn, 40 * txn + 10 * i) for i in range(3)]


def hot_spot(chance, txn):
    return [operation(chance, txn, 10 * chance.randrange(1, 21)) for _ in range(3)]


def scans(chance, txn):
    key = 10 * chance.randrange(1, KEYS - 20)
    if txn % 2:
        return [[txn, "scan", key + 1, key + 19], [txn, "go"], [txn, "go"]]
    return [[txn, "insert", key + 5, txn], [txn, "delete", key + 5], [txn, "insert", key + 7, txn]]


KINDS = {"disjoint": disjoint, "hot-spot": hot_spot, "scans": scans}


def script_of(kind):
    """The script of a kind, always the same one: its transactions one after another."""
    chance = random.Random(1)
    steps = [step for txn in range(1, TXNS + 1) for step in KINDS[kind](chance, txn) + [[txn, "commit"]]]
    return {"format": 1, "opening": [[10 * key, key] for key in range(1, KEYS + 1)], "steps": steps}


def ran(*words):
    """The report of one run, which ends with status 0, its processor time and its wall time."""
    start = time.perf_counter()
    child = subprocess.Popen([KR, *words], stdout=subprocess.PIPE)
    text = child.stdout.read()
    _, status, used = os.wait4(child.pid, 0)
    child.returncode = os.waitstatus_to_exitcode(status)
    if child.returncode != 0:
        sys.exit(f"{' '.join(words)}: status {child.returncode}")
    return json.loads(text), used.ru_utime + used.ru_stime, time.perf_counter() - start


def write(script, file):
    with open(file, "w") as it:
        json.dump(script, it, separators=(",", ":"))


def replayed(report, opening, folder):
    """Whether the history, run as a script, has the same replies and index."""
    file = os.path.join(folder, "history.json")
    write({"format": 1, "opening": opening, "steps": [step for step, _ in report["history"]]}, file)
    again, _, _ = ran("run", "@kvl", file)
    return again["replies"] == [reply for _, reply in report["history"]] and again["index"] == report["index"]


def measure(file, script, workers, folder):
    """The least processor time of the runs by so many workers, its wall time, and how many deadlocks it had."""
    found = []
    for _ in range(RUNS):
        report, used, wall = ran("threads", "@kvl", file, "--workers", str(workers))
        if report["verdict"] != ["serial"] or report["unfinished"] or not replayed(report, script["opening"], folder):
            sys.exit(f"{workers} workers: {report['verdict']}, unfinished {report['unfinished']}, or another replay")
        found.append((used, wall, sum(cause[0] == "deadlock" for _, _, cause in report["faults"])))
    return min(found)


def main(kinds):
    print("| Script | Workers | Processor time, ms | Wall time, ms | Deadlocks | `kr run`, ms |\n|---|---|---|---|---|---|")
    with tempfile.TemporaryDirectory() as folder:
        for kind in kinds or KINDS:
            script, file = script_of(kind), os.path.join(folder, f"{kind}.json")
            write(script, file)
            alone = min(ran("run", "@kvl", file)[1] for _ in range(RUNS))
            for workers in WORKERS:
                used, wall, deadlocks = measure(file, script, workers, folder)
                print(f"| `{kind}` | {workers} | {used * 1e3:.0f} | {wall * 1e3:.0f} | {deadlocks} | {alone * 1e3:.0f} |", flush=True)


main(sys.argv[1:])
