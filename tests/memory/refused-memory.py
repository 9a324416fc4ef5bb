#!/usr/bin/env python3
"""Refuses growths, reads and writes of kr, one by one, and compares what it then does with what it does undisturbed:
tests/memory/refused-memory.py [WHAT..], of plain, view, explain, trace, suite, relax and tests, all where none is named; plain is
check, run, judge, threads, help and version, and tests is kr_memory_tests. Needs a C compiler, `cc`, for refuse.c beside it. Build
first: `./build`, and `rt test` in crates/kr_memory_tests.

The words are each form of the plain commands on the shipped tables and scripts, and a few of the others, whose answers are long. For
each of them

  memory    the k-th growth is refused, and then again with all after it, for k counted up until a run meets no refusal;
            beyond 400 by one in a hundred. Each run ends with the right answer, or with 'kr: out of memory', status 2 and
            nothing on standard output, or of trace the lines of the parts that had ended; at a fault the help behind its
            line may be cut, and may stand behind the line on memory
  reads     the k-th read and all after it fail: a file that cannot be read, so told, or the fault that comes before it
  writes    the k-th write to standard output and all after it fail, or take nothing, and one byte moves at a time; standard
            output is full (/dev/full), a closed pipe, or closed. Right where all was taken; else a prefix of the
            right answer, 'kr: output: cannot be written', status 2
  files     files that are deep, long, empty or no files, each with its fault

and each test of kr_memory_tests but those of input is run with each of its growths refused, and has to pass. It is run alone,
and a test whose name begins with 'takes_none' has to meet no refusal at all. Prints a line for each of these parts, with
how many runs there were; status 1 where a run went wrong, each of which is told.
"""
import glob
import os
import subprocess
import sys
import tempfile
from concurrent.futures import ThreadPoolExecutor

TOP = os.path.dirname(os.path.dirname(os.path.dirname(os.path.abspath(__file__))))
WHAT = sys.argv[1:] or ["plain", "view", "explain", "trace", "suite", "relax", "tests"]
KR = f"{TOP}/crates/kr/out/kr"
TESTS = f"{TOP}/crates/kr_memory_tests/out/kr_memory_tests_tests"
AT_ONCE = 3
READER, CLOSED_PIPE = os.pipe()
os.close(READER)  # before any child is made, which would hold it for a moment


def fault(what):
    """The line of a fault."""
    return f"kr: {what}\n".encode()


def is_unanswered(words, ended, right):
    """Whether a run ended with a fault and printed nothing, or of trace the lines of the first parts."""
    begun = words[:1] == ["trace"] and right[1].startswith(ended[1]) and ended[1].endswith(b"\n")
    return ended[0] == 2 and (ended[1] == b"" or begun)


def is_out_of_memory(words, ended, right):
    """Whether a run ended for want of memory, behind which stands at most the help at the fault of an undisturbed one."""
    line, (_, _, helped) = fault("out of memory"), right[2].partition(b"\n")
    told, more = ended[2][: len(line)], ended[2][len(line) :]
    return is_unanswered(words, ended, right) and told == line and helped.startswith(more) and (not more or more.endswith(b"\n"))


def is_fault(ended, right):
    """Whether a run ended at the fault of an undisturbed one, with all of the help behind its line, or a part of it."""
    return right[0] == 2 and ended[:2] == right[:2] and ended[2].endswith(b"\n") and right[2].startswith(ended[2])


def all_words():
    """The words with which kr is run."""
    yield from plain_words() if "plain" in WHAT else []
    forms = {"view": words_of_view, "explain": words_of_explain, "trace": words_of_trace, "suite": words_of_suite, "relax": words_of_relax}
    for name in (it for it in forms if it in WHAT):
        yield from ([name, *words] for words in forms[name]())


def words_of_view():
    """Two tables, a serial run, one that isn't, and a table and a script that are none."""
    yield from (["@im"], ["examples/rejected/delete.toml"], ["none.toml"])
    yield ["@kvl", "examples/phantom.json"]
    yield ["examples/rejected/split.toml", "examples/rejected/split.json"]
    yield from (["@kvl", "none.json"], ["none.toml", "examples/phantom.json"], ["@kvl", "examples/rejected/split.toml"])


def words_of_explain():
    """An accepted table, two that are refused, a script, and words that name none."""
    yield from (["@im"], ["examples/rejected/delete.toml"], ["examples/rejected/split.toml"])
    yield ["examples/rejected/delete.toml", "--script", "1"]
    yield from (["@im", "--script", "1"], ["none.toml"], ["@im", "--script"])


def words_of_suite():
    """A table of two modes, both forms of the words, and words that name none."""
    yield from (["@im"], ["@im", "--left"], ["none.toml"], ["@im", "--lefts"])


def words_of_relax():
    """Two tables of two modes, one of them rejected, each form of the words, and words that name none."""
    yield from (["@im"], ["@im", "--write"], ["@im", "--why", "X beside S"], ["@im", "--why", "a"])
    yield from (["examples/rejected/delete.toml"], ["none.toml"], ["@im", "--writes"])


def words_of_trace():
    """A short trace, two long ones, each form of the words, and words that name none."""
    traces = ["examples/phantom.trace", "examples/engines/innodb-repeatable-read.trace"]
    yield from (["@kvl", traces[0]], ["examples/engines/innodb.toml", traces[1]], ["examples/rejected/delete.toml", traces[0]])
    yield from ([word, trace] for word in ["--serial", "--some-order"] for trace in traces)
    yield from (["@kvl", traces[0], "--tell", "1"], ["examples/engines/innodb.toml", traces[1], "--tell", "7"], ["@kvl", traces[0], "--tell", "2"])
    yield from (["@kvl", "none.trace"], ["none.toml", traces[0]], ["@kvl", "examples/phantom.json"], ["@kvl"])


def plain_words():
    """Each form of the words of the other commands, over the shipped tables and scripts."""
    tables = ["@kvl", "@kvl-update", "@im", "@range-key"]
    files = sorted(glob.glob("tables/*.toml") + glob.glob("examples/**/*.toml", recursive=True))
    scripts = sorted(glob.glob("examples/**/*.json", recursive=True))
    yield from (["help"], ["help", "explain"], ["help", "jump"], ["version"], ["version", "x"])
    yield from ([], ["jump"], ["run", "@kvl", "none.json"], ["check", "none.toml"], ["check", "tables"])
    yield from (["check", table] for table in tables + files)
    yield from (["run", tables[i % len(tables)], script] for i, script in enumerate(scripts))
    for script in sorted(glob.glob("examples/rejected/*.json")):
        yield ["run", script.replace(".json", ".toml"), script]
    yield from (["judge", table, *scripts[:3]] for table in ["@kvl", "tables/range-key.toml", files[0]])
    yield ["judge", "@im", *[it for it in scripts if "faulty" not in it]]
    yield ["threads", "@kvl", "examples/rejected/split.json", "--workers", "1"]
    yield ["threads", "@kvl-update", "examples/updates-back.json", "--workers", "1"]
    yield ["threads", "examples/rejected/split.toml", "examples/rejected/split.json", "--workers", "1"]


def run(words, shim=None, out=subprocess.PIPE, **refused):
    """Status, standard output and standard error of a run, and whether something was refused."""
    told, tell = os.pipe()
    environment = {name: str(value) for name, value in refused.items()}
    if shim:
        environment |= {"LD_PRELOAD": shim, "TOLD": str(tell)}
    try:
        ran = subprocess.run(
            words, stdin=subprocess.DEVNULL, stdout=out, stderr=subprocess.PIPE, env=environment, pass_fds=[tell], timeout=60
        )
    finally:
        os.close(tell)
    with os.fdopen(told, "rb") as it:
        return (ran.returncode, ran.stdout, ran.stderr), bool(it.read())


class Part:
    """The runs of one part, and those that went wrong."""

    def __init__(self, name):
        self.name, self.runs, self.wrong, self.notes = name, 0, 0, {}

    def count(self, is_right, words, how, ended):
        self.runs += 1
        if not is_right:
            self.wrong += 1
            print(f"wrong: {' '.join(words)} with {how}: {ended}", flush=True)

    def note(self, name):
        self.notes[name] = self.notes.get(name, 0) + 1

    def tell(self):
        notes = "".join(f", {count} {name}" for name, count in sorted(self.notes.items()))
        print(f"{self.name}: {self.runs} runs, {self.wrong} wrong{notes}", flush=True)
        return self.wrong


def refuse_memory(part, shim, words, right):
    for kind in ["GROWTH", "GROWTHS"]:
        k = 1
        while True:
            ended, was_refused = run([KR, *words], shim, **{kind: k})
            is_wanting = is_out_of_memory(words, ended, right)
            is_right = ended == right or (was_refused and (is_wanting or is_fault(ended, right)))
            part.count(is_right, words, f"{kind}={k}", ended)
            if not was_refused:
                break
            part.note("out of memory" if is_wanting else "right all the same")
            k += max(1, k // 100 - 3)


def fail_reads(part, shim, words, right):
    unread = [fault(f"{word}: cannot be read") for word in words[1:]]
    for k in range(1, 100_000):
        ended, was_refused = run([KR, *words], shim, READ=k)
        is_unread = is_unanswered(words, ended, right) and any(ended[2].startswith(it) for it in unread)
        is_right = ended == right or (was_refused and (is_unread or is_fault(ended, right)))
        part.count(is_right, words, f"READ={k}", ended)
        if not was_refused:
            break
    ended, _ = run([KR, *words], shim, ONE_BYTE=1)
    part.count(ended == right, words, "ONE_BYTE=1", ended)


def is_cut(words, ended, right):
    """Whether output failed after a beginning of the right answer."""
    unwritten = fault("output: cannot be written")
    return ended[0] == 2 and right[1].startswith(ended[1]) and ended[1] != right[1] and ended[2] == unwritten


def fail_writes(part, shim, words, right):
    for kind in ["WRITE", "NO_WRITE"]:
        for one_byte in [0, 1]:
            for k in range(1, 100_000):
                ended, was_refused = run([KR, *words], shim, ONE_BYTE=one_byte, **{kind: k})
                part.count(is_cut(words, ended, right) if was_refused else ended == right, words, f"{kind}={k}", ended)
                if not was_refused:
                    break
                if k > 40:  # of the writes of one byte these are enough
                    break
    fail_outputs(part, words, right)


def fail_outputs(part, words, right):
    unwritten = fault("output: cannot be written")
    with open("/dev/full", "wb") as full:
        ended, _ = run([KR, *words], out=full)
        part.count(ended == (2, None, unwritten), words, "/dev/full", ended)
    ended, _ = run([KR, *words], out=CLOSED_PIPE)
    part.count(ended == (2, None, unwritten), words, "a closed pipe", ended)
    ended, _ = run(["sh", "-c", 'exec "$@" >&-', "sh", KR, *words])
    part.count(ended == (2, b"", unwritten), words, "standard output closed", ended)
    ended, _ = run(["sh", "-c", 'exec "$@" 2>&-', "sh", KR, *words])
    part.count(ended == right, words, "standard error closed", ended)


def refuse_tests(part, shim, test):
    for k in range(1, 100_000):
        ended, was_refused = run([TESTS, test], shim, GROWTH=k)
        is_right = ended[0] == 0 and not (was_refused and "takes_none" in test)
        part.count(is_right, [test], f"GROWTH={k}", ended)
        if not was_refused:
            part.note("tests")
            return


def odd_files():
    """Names, bytes and the faults that are told of them."""
    deep, empty = 100_000, b'{"format":1,"opening":[],"steps":[]}'
    yield "deep.json", b"[" * deep + b"]" * deep, "fault 2 NotJson"
    yield "open.json", b"[" * deep, "fault 2 NotJson"
    yield "members.json", b'{"a":' * deep + b"1" + b"}" * deep, "fault 2 NotJson"
    yield "longest.json", empty + b" " * (16_777_216 - len(empty)), None
    yield "too-long.json", empty + b" " * (16_777_217 - len(empty)), "fault 1 TooLong"
    yield "empty.json", b"", "fault 2 NotJson"
    yield "deep.toml", b"modes = " + b"[" * 32_000 + b"]" * 32_000, "fault 2 NotToml"
    yield "tables.toml", b"modes = " + b"{a=" * 16_000 + b"1" + b"}" * 16_000, "fault 2 NotToml"
    yield "names.toml", b"[a" + b".a" * 32_000 + b"]", "fault 2 NotToml"
    yield "too-long.toml", b"#" * 65_537, "fault 1 TooLong"
    yield "empty.toml", b"", "fault 4 Field at format"


def read_odd_files(part, folder):
    for name, text, what in odd_files():
        with open(f"{folder}/{name}", "wb") as it:
            it.write(text)
        for task in ["check"] if name.endswith(".toml") else ["run", "judge", "threads"]:
            words = [task, *([] if task == "check" else ["@kvl"]), f"{folder}/{name}"]
            ended, _ = run([KR, *words])
            told = (2, b"", fault(f"{words[-1]}: {what}"))
            part.count(ended == told if what else (ended[0], ended[2]) == (0, b""), words, "odd bytes", ended)


def tests_of():
    listed = subprocess.run([TESTS, "--list"], capture_output=True, text=True, check=True).stdout
    names = [line.removesuffix(": test") for line in listed.splitlines() if line.endswith(": test")]
    return [name for name in names if "::input::" not in name]


def main():
    os.chdir(TOP)
    parts = memory, reads, writes, files, tests = [Part(it) for it in ["memory", "reads", "writes", "files", "tests"]]
    with tempfile.TemporaryDirectory() as folder, ThreadPoolExecutor(AT_ONCE) as pool:
        shim = f"{folder}/refuse.so"
        subprocess.run(["cc", "-shared", "-fPIC", "-O1", "-o", shim, f"{TOP}/tests/memory/refuse.c"], check=True)
        going = []
        if "tests" in WHAT:
            going += [pool.submit(refuse_tests, tests, shim, test) for test in tests_of()]
        if "plain" in WHAT:
            going.append(pool.submit(read_odd_files, files, folder))
        for words in all_words():
            right, _ = run([KR, *words])
            going.append(pool.submit(refuse_memory, memory, shim, words, right))
            going.append(pool.submit(fail_reads, reads, shim, words, right))
            if right[1]:
                going.append(pool.submit(fail_writes, writes, shim, words, right))
        for it in going:
            it.result()
    sys.exit(1 if sum([part.tell() for part in parts]) else 0)


main()
