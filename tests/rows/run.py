#!/usr/bin/env python3
"""Runs rows of input and output over kr as it is built: run.py [--write] [--by-rattle] [--where-built] FILE.rows ..

A row is what calls of kr print for some files. Each of its lines is a word, a colon and a text. First its name, then the files of
the folder in which kr runs:

    row     its name, which begins the row
    file    NAME = TEXT: a file, with the escapes of JSON strings; \\xHH is a byte
    text    NAME = TEXT: TEXT and a line feed at the end of a file, or as one
    long    NAME COUNT TEXT: TEXT, COUNT times, at the end of a file, or as one
    copy    NAME of FILE: a file as FILE of the repository is
    edit    NAME of FILE: OLD => NEW: the same, with OLD, which stands there once, changed to NEW
    cut     NAME of FILE: TEXT: the same up to TEXT, which stands there once

More edits and cuts of the same NAME follow one another. Then calls, and below them what each of them prints. Further calls may
follow, with what they print:

    call    kr and its words; WORDS < NAME has the bytes of a file come through a pipe, as standard input. A blank stands before each
            word, also before an empty one
    status  the status
    out     a line of standard output, or `out: ..` for any text
    begins  what standard output begins with, with escapes; there is then no out
    ends    what it ends with
    has     a text that stands in it
    times   COUNT TEXT: TEXT stands COUNT times in it
    err     a line of standard error

Lines that begin with # say something of the row below. An empty line ends a row. A call may take 20 seconds and 1 GB of memory.
--write puts what kr prints in the place of what was expected, but for begins, ends, has and times. --by-rattle takes the program as
the kit's second compiler built it, kr.by-rattle beside it, which the gate leaves there. --where-built runs none, and tells it, where
that isn't built or is older than kr. Status 1 where something differs.
"""
import os
import re
import resource
import subprocess
import sys
import tempfile

TOP = os.path.dirname(os.path.dirname(os.path.dirname(os.path.abspath(__file__))))
MEMORY = 1 << 30
BUILT = ".by-rattle" if "--by-rattle" in sys.argv else ""
KR = f"{TOP}/crates/kr/out/kr"
FILES = ("file", "text", "long", "copy", "edit", "cut")
PARTS = ("begins", "ends", "has", "times")
EXPECTED = ("status", "out", "err") + PARTS


def unescaped(text):
    """The bytes of a text with escapes."""
    parts = re.split(r"(\\x[0-9a-f]{2}|\\u[0-9a-f]{4}|\\[nrt\\])", text)
    short = {"\\n": b"\n", "\\r": b"\r", "\\t": b"\t", "\\\\": b"\\"}
    return b"".join(
        short[it] if it in short
        else bytes([int(it[2:], 16)]) if it.startswith("\\x") and len(it) == 4
        else chr(int(it[2:], 16)).encode() if it.startswith("\\u") and len(it) == 6
        else it.encode()
        for it in parts
    )


def blocks_of(path):
    """The blocks of a file, which empty lines end: each a list of a line's number, word and text; # is the word of a remark."""
    blocks = [[]]
    for number, line in enumerate(open(path, encoding="utf-8"), 1):
        line = line.rstrip("\n")
        if not line:
            blocks.append([])
            continue
        word, _, text = ("#", "", line[1:]) if line.startswith("#") else line.partition(":")
        text = text[1:] if text.startswith(" ") else text
        if word not in ("#", "row", "call") + FILES + EXPECTED:
            sys.exit(f"{path}:{number}: there is no word {word}")
        if word == "call" and text.split(" ")[0] != "kr":
            sys.exit(f"{path}:{number}: a call begins with kr")
        blocks[-1].append((number, word, text))
    return [it for it in blocks if it]


def groups_of(row):
    """The calls of a row, with what each of them is expected to print."""
    groups = []
    for line in row:
        if line[1] == "call":
            if not groups or groups[-1][1]:
                groups.append(([], []))
            groups[-1][0].append(line)
        elif line[1] in EXPECTED and not groups:
            sys.exit(f"line {line[0]}: no call stands above it")
        elif line[1] in EXPECTED:
            groups[-1][1].append(line)
    return groups


def only_place(text, old, said):
    """Where a text stands in another, once."""
    if text.count(old) != 1:
        sys.exit(f"{said}: the text stands there {text.count(old)} times")
    return text.index(old)


def put(folder, word, text):
    """Makes the file that a line of a row says."""
    if word in ("file", "text"):
        name, _, content = text.partition(" = ")
        content = unescaped(content) + (b"\n" if word == "text" else b"")
    elif word == "long":
        name, count, content = text.split(" ", 2)
        content = unescaped(content) * int(count)
    else:
        name, source, change = re.fullmatch(r"(\S+) of ([^\s:]+)(?:: (.*))?", text).groups()
    made = os.path.join(os.fsencode(folder), unescaped(name))
    if word in ("copy", "edit", "cut"):
        content = open(made if os.path.exists(made) else os.path.join(TOP, source), "rb").read()
    if word == "cut":
        content = content[: only_place(content, unescaped(change), text)]
    elif word == "edit":
        old, new = map(unescaped, re.fullmatch(r"(.*) => (.*)", change).groups())
        at = only_place(content, old, text)
        content = content[:at] + new + content[at + len(old) :]
    with open(made, "ab" if word in ("text", "long") else "wb") as file:
        file.write(content)


def is_built():
    """Whether the program is there, and no older than kr."""
    files = KR, KR + BUILT
    return all(map(os.path.exists, files)) and os.path.getmtime(files[1]) >= os.path.getmtime(files[0])


def call(folder, words):
    """What a call prints, and its status."""
    words, _, given = words.partition(" < ")
    words = [unescaped(it) for it in words.split(" ")[1:]]
    result = subprocess.run(
        [KR + BUILT, *words],
        cwd=folder,
        input=open(os.path.join(folder, given), "rb").read() if given else b"",
        capture_output=True,
        timeout=20,
        preexec_fn=lambda: resource.setrlimit(resource.RLIMIT_AS, (MEMORY, MEMORY)),
    )
    return result.stdout.decode("utf-8", "replace"), result.stderr.decode("utf-8", "replace"), result.returncode


def has_part(out, word, text):
    """Whether standard output is as a line of these words says."""
    count, text = text.split(" ", 1) if word == "times" else ("", text)
    text = unescaped(text).decode()
    held = {"begins": out.startswith(text), "ends": out.endswith(text), "has": text in out, "times": str(out.count(text)) == count}
    return held[word]


def differs(expected, printed):
    """Whether what was printed isn't what is expected."""
    out, err, status = printed
    wanted = {it: "".join(f"{text}\n" for _, word, text in expected if word == it) for it in ("out", "err")}
    parts = [has_part(out, word, text) for _, word, text in expected if word in PARTS]
    return (
        not (all(parts) and (wanted["out"] in (out, "..\n") or parts and not wanted["out"]))
        or wanted["err"] != err
        or [str(status)] != [text for _, word, text in expected if word == "status"]
    )


def written(expected, printed):
    """The lines that say what was printed."""
    kept = [f"{word}: {text}" for _, word, text in expected if word in PARTS or (word, text) == ("out", "..")]
    out, err = ([f"{word}:{it and ' '}{it}" for it in text.split("\n")[:-1]] for word, text in zip(("out", "err"), printed))
    return [f"status: {printed[2]}", *(kept or out), *err]


def hold(path, row):
    """Runs a row: how many calls there were, how many of them differ, and the row's lines with what was printed."""
    lines = [f"#{text and ' '}{text}" if word == "#" else f"{word}: {text}" for _, word, text in row if word in ("#", "row") + FILES]
    words = [word for _, word, _ in row]
    if set(words) != {"#"} and (words.count("row") != 1 or "call" not in words):
        sys.exit(f"{path}:{row[0][0]}: a row has one name, and calls")
    name = next((text for _, word, text in row if word == "row"), "")
    count = wrong = 0
    with tempfile.TemporaryDirectory() as folder:
        for _, word, text in row:
            if word in FILES:
                put(folder, word, text)
        for calls, expected in groups_of(row):
            lines += [f"call: {text}" for _, _, text in calls]
            printed = [call(folder, text) for _, _, text in calls]
            lines += written(expected, printed[0])
            count += len(calls)
            for (number, _, text), it in zip(calls, printed):
                if differs(expected, it):
                    wrong += 1
                    print(f"{path}:{number}: {name}: {text}: status {it[2]}\n{it[0]}{it[1]}", end="")
    return count, wrong, lines


def main():
    files = [it for it in sys.argv[1:] if not it.startswith("--")]
    if "--where-built" in sys.argv and not is_built():
        print(f"rows{BUILT}: left out, since kr isn't built{' so' if BUILT else ''}")
        return 0
    count = wrong = 0
    for path in files:
        texts = []
        for row in blocks_of(path):
            calls, differing, lines = hold(path, row)
            count, wrong = count + calls, wrong + differing
            texts.append("\n".join(lines))
        if "--write" in sys.argv:
            with open(path, "w", encoding="utf-8") as file:
                file.write("\n\n".join(texts) + "\n")
    print(f"rows{BUILT}: {count - wrong} of {count} calls are as expected")
    return 1 if wrong else 0


sys.exit(main())
