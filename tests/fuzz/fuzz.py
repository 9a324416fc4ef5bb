"""Runs kr on mutated tables and scripts: fuzz.py RUNS SEED [KR]; fuzz.sh calls it.

A run is `kr check`, `run`, `judge` or `threads` on the shipped tables and scripts (tables/, examples/), of which one or
more are mutated, one to five times: a bit, a byte or a digit is changed, the text is cut or a part of it taken out, a part
of it or of another text of its kind is put in or over it, or a part is repeated, up to 20,000 times. The mutations are a
function of the seed.

Each run has to end by itself within a second of processor time (and 20 seconds in all), with status 0, 1 or 2. At 0 and 1
each line of standard output is JSON and standard error is empty; at 2 standard error is one line that begins with 'kr: ',
and standard output is empty. Prints how many runs ended how, and each that went wrong, with its files kept in a folder.
"""
import collections
import glob
import json
import multiprocessing
import os
import random
import re
import shutil
import signal
import sys
import tempfile

TOP = os.path.dirname(os.path.dirname(os.path.dirname(os.path.abspath(__file__))))
RUNS, SEED = int(sys.argv[1]), int(sys.argv[2])
KR = os.path.abspath(sys.argv[3] if len(sys.argv) > 3 and sys.argv[3] else f"{TOP}/crates/kr/out/kr")
AT_ONCE, AT_A_TIME = 3, 500
BUNDLED = ["@kvl", "@kvl-update", "@im", "@range-key"]


def texts(*patterns):
    names = sorted({name for it in patterns for name in glob.glob(f"{TOP}/{it}", recursive=True)})
    return [open(name, "rb").read() for name in names]


TABLES = texts("tables/*.toml", "examples/**/*.toml")
SCRIPTS = texts("examples/**/*.json")


def flip(chance, text, _others):
    """A bit flipped, a byte replaced, or a digit replaced by a digit."""
    kind = chance.randrange(3)
    at = chance.randrange(len(text))
    digits = [i for i, byte in enumerate(text) if chr(byte).isdigit()] if kind == 0 else []
    if digits:
        at = chance.choice(digits)
        return text[:at] + str(chance.randrange(10)).encode() + text[at + 1 :]
    new = text[at] ^ 1 << chance.randrange(8) if kind == 1 else chance.randrange(256)
    return text[:at] + bytes([new]) + text[at + 1 :]


def part_of(chance, text):
    """The bounds of a part: at any two places, or, more often, an array, a text between quotes or a line."""
    if chance.random() < 0.7:
        form = chance.choice([rb"\[[^][]*\],?", rb'"[^"]*"', rb"[^\n]+\n", rb"\d+,?"])
        parts = [it.span() for it in re.finditer(form, text)]
        if parts:
            return chance.choice(parts)
    start = chance.randrange(len(text))
    return start, min(len(text), start + chance.choice([1, 2, 5, 20, 100, 1000]))


def cut(chance, text, _others):
    start, end = part_of(chance, text)
    return text[:start] if chance.random() < 0.2 else text[:start] + text[end:]


def splice(chance, text, others):
    """A part of another text, or of this one, put in or over a part."""
    other = chance.choice([text, chance.choice(others)])
    start, end = part_of(chance, other)
    at, to = part_of(chance, text)
    return text[:at] + other[start:end] + text[at if chance.random() < 0.5 else to :]


def repeat(chance, text, _others):
    start, end = part_of(chance, text)
    times = min(chance.choice([2, 2, 3, 3, 10, 200, 20_000]), 1 + 200_000 // (end - start))
    return text[:end] + text[start:end] * (times - 1) + text[end:]


def mutated(chance, others):
    text = chance.choice(others)
    for _ in range(chance.choice([1, 1, 1, 2, 3, 5])):
        if text:
            text = chance.choice([flip, cut, splice, splice, repeat])(chance, text, others)
    return text


def words_of(chance):
    """The words of a run, and the texts of the files that they name."""
    task = chance.choice(["check", "run", "run", "judge", "threads"])
    is_table_mutated = task == "check" or chance.random() < 0.4
    files, words = {}, [task]
    if is_table_mutated or chance.random() < 0.3:
        files["table"] = mutated(chance, TABLES) if is_table_mutated else chance.choice(TABLES)
        words.append("table")
    else:
        words.append(chance.choice(BUNDLED))
    for i in range({"check": 0, "judge": 3}.get(task, 1)):
        is_mutated = not is_table_mutated or chance.random() < 0.3
        files[f"script{i}"] = mutated(chance, SCRIPTS) if is_mutated else chance.choice(SCRIPTS)
        words.append(f"script{i}")
    return words, files


def run(words):
    """Status of a run in this folder, or the signal that ended it, negative; and its seconds of processor time."""
    opened = [(os.POSIX_SPAWN_OPEN, 0, "/dev/null", os.O_RDONLY, 0)]
    for fd, name in [(1, "out"), (2, "err")]:
        opened.append((os.POSIX_SPAWN_OPEN, fd, name, os.O_WRONLY | os.O_CREAT | os.O_TRUNC, 0o600))
    child = os.posix_spawn(KR, [KR, *words], {}, file_actions=opened)
    signal.signal(signal.SIGALRM, lambda *_: os.kill(child, signal.SIGKILL))
    signal.setitimer(signal.ITIMER_REAL, 20)
    _, status, used = os.wait4(child, 0)
    signal.setitimer(signal.ITIMER_REAL, 0)
    return os.waitstatus_to_exitcode(status), used.ru_utime + used.ru_stime


def is_json(text):
    try:
        return text.endswith(b"\n") and all([json.loads(line) is not None for line in text.splitlines()])
    except ValueError:
        return False


def fault_in(status, seconds, out, err):
    """What a run did wrong, or nothing."""
    if status not in (0, 1, 2):
        return f"ended with {status}"
    if seconds > 1:
        return f"took {seconds:.2f} s of processor time"
    if status == 2 and out:
        return "output at a fault"
    if status == 2 and not (err.startswith(b"kr: ") and err.endswith(b"\n") and err.count(b"\n") == 1):
        return "not one line on standard error"
    if status != 2 and err:
        return "standard error without a fault"
    if status != 2 and not is_json(out):
        return "output that isn't JSON"
    return None


def ending(status, err):
    """How a run ended: its status, and which fault it told."""
    told = re.search(rb": (fault \d+ \w+|cannot be read|out of memory|output: .*)", err)
    return f"{status}{' ' + told[1].decode() if told else ''}"


def batch(first):
    """Runs those from this number on, and answers how many ended how, the longest, and what went wrong."""
    folder = tempfile.mkdtemp(dir="/dev/shm" if os.path.isdir("/dev/shm") else None)
    os.chdir(folder)
    ended, longest, wrong = collections.Counter(), 0.0, []
    for number in range(first, min(first + AT_A_TIME, RUNS)):
        words, files = words_of(random.Random(f"{SEED} {number}"))
        for name, text in files.items():
            with open(name, "wb") as it:
                it.write(text)
        status, seconds = run(words)
        out, err = (open(name, "rb").read() for name in ["out", "err"])
        longest = max(longest, seconds)
        ended[ending(status, err)] += 1
        fault = fault_in(status, seconds, out, err)
        if fault:
            kept = tempfile.mkdtemp(prefix=f"fuzz-{SEED}-{number}-")
            shutil.copytree(folder, kept, dirs_exist_ok=True)
            wrong.append(f"wrong: run {number}, kr {' '.join(words)} in {kept}: {fault}")
    os.chdir("/")
    shutil.rmtree(folder)
    return ended, longest, wrong


def main():
    ended, longest, failures = collections.Counter(), 0.0, 0
    with multiprocessing.Pool(AT_ONCE) as pool:
        for counts, seconds, wrong in pool.imap_unordered(batch, range(0, RUNS, AT_A_TIME)):
            ended += counts
            longest = max(longest, seconds)
            failures += len(wrong)
            for line in wrong:
                print(line, flush=True)
    for how, count in sorted(ended.items()):
        print(f"{count:7} {how}")
    print(f"{sum(ended.values())} runs with seed {SEED}, {failures} wrong; the longest took {longest:.3f} s of processor time")
    sys.exit(1 if failures else 0)


main()
