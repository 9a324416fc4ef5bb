#!/usr/bin/env python3
"""Holds what kr explain says of tables with ghosts against a second form of docs/GHOSTS.md (model.py): random tables, near the
bundled ones and others, written as files of format 3. It has to call each accepted, safe or not as the second form does; of those
that aren't safe it has to print the script of a schedule, under which `kr judge` has to find the table not serial, but for one in
fifty, of which it may find none.

    explains.py KR [SEED [TABLES]] [--fixes]

With --fixes the causes have to be those of causes.py, each with the changes of its entry that fix it: those modes of one entry and
span with which by the second form the table is accepted, and those with which it is safe; or where there are none those with which
the cause's cases hold, and no case fails that held; all of them, and no other.

Status 1 where something differs, and then the folder that is printed has the table."""

import collections
import pathlib
import random
import shutil
import subprocess
import sys
import tempfile

sys.dont_write_bytecode = True

from causes import Blames, groups_of, outcome, tried_for
from checks import names_of, text_of
from compare import some_table
from fixes import Edit, NoText, causes_of, edit_of
from holding import Wrong, expect
from model import failed_cases, is_safe


def verdict(table):
    """The first word of the verdict, and the status."""
    if not failed_cases(table)[0]:
        return 'accepted', 0
    safe = is_safe(table)
    return (None, None) if safe is None else ('safe', 0) if safe else ('rejected', 1)


def ran(folder, *words):
    return subprocess.run([*map(str, words)], cwd=folder, capture_output=True, text=True)


def best(found, is_wish):
    """What is told of the values of an entry, each of which brings this about: the first alone, where no fix is needed."""
    lists = {it: {value for value in found if found[value] == it} for it in ('accepted', 'safe', 'mended')}
    some = [it for it in ('accepted', 'safe') if lists[it]] or [it for it in ['mended'] if lists[it]]
    return [(it, lists[it]) for it in (some[:1] if is_wish else some)]


def hold_cause(table, names, failed, told, blame, cases, counts):
    """Holds the fixes that are told of a cause."""
    edits = [edit_of(words, names) for words, _ in told.fixes]
    tried = tried_for(blame, cases, table)
    if edits:
        kind, entry = edits[0].kind, edits[0].entry
        expect(all((it.kind, it.entry) == (kind, entry) for it in edits), f'fixes of several entries: {told.fixes}')
        same = entry[:2] == tried.entry[:2] if kind == 'request' else kind == 'heir' or entry == tried.entry
        expect(kind == tried.kind and same, f'{told.fixes} is not of what {blame} blames')
        tried = Edit(kind, entry, tried.values)
    found = {value: outcome(table, failed, cases, tried, value) for value in tried.values}
    claimed = [(claim, {*edit.values}) for edit, (_, claim) in zip(edits, told.fixes)]
    wanted = best(found, told.is_wish)
    expect(claimed == wanted or None in found.values(), f'{tried} gives {wanted}, and {told} is told of it')
    counts.update(f'causes with a fix: {claim}' for claim, _ in claimed or [('none', 0)])


def hold_fixes(table, names, text, counts):
    """Holds the fixes that are told of a table of which cases fail."""
    causes, told = Blames(table).causes(), causes_of(text)
    groups = [groups_of(it) for it in causes.values()]
    expect(groups == [it.groups for it in told], f'the causes are {groups}, and those told {[it.groups for it in told]}')
    failed = failed_cases(table)[0]
    for number, (one, (blame, cases)) in enumerate(zip(told, causes.items()), 1):
        most = next((it.most for it in told if it.most is not None), len(told))
        expect((one.most is None) == (number <= most), f'fixes of cause {number} of {len(told)}')
        if one.most is None:
            hold_cause(table, names, failed, one, blame, cases, counts)


def differs(program, folder, table, names, counts, with_fixes):
    word, status = verdict(table)
    told = ran(folder, program, 'explain', 't.toml')
    if with_fixes and word != 'accepted':
        try:
            hold_fixes(table, names, told.stdout, counts)
        except (NoText, Wrong) as it:
            print(f'ghosts: {folder} has a table with other fixes: {it}')
            return True
    if word == 'rejected' and told.returncode == 1 and told.stdout.startswith('not known to be safe:'):
        counts['without a schedule'] += 1
        return False
    if word and (told.returncode, told.stdout.split(':')[0]) != (status, word):
        print(f'ghosts: {folder} has a table that is {word}, of which kr explain prints: {told.stdout.splitlines()[:1]}')
        return True
    script = ran(folder, program, 'explain', 't.toml', '--script', 1)
    if word != 'rejected':
        return word is not None and script.returncode != 2
    (folder / 's.json').write_text(script.stdout)
    judged = ran(folder, program, 'judge', 't.toml', 's.json')
    if (script.returncode, judged.returncode) != (1, 1):
        print(f'ghosts: {folder} has a script that does not go wrong: {judged.stdout}{judged.stderr}')
        return True
    return False


def main():
    words = [it for it in sys.argv[1:] if it != '--fixes']
    program, with_fixes = pathlib.Path(words[0]).resolve(), '--fixes' in sys.argv
    seed, tables = (int(it) for it in [*words[1:], *('1', '100')[len(words) - 1 :]])
    rng, counts, folder = random.Random(seed), collections.Counter(), pathlib.Path(tempfile.mkdtemp())
    for _ in range(tables):
        table = some_table(rng)
        table.updates = True  # format 3 always offers updates; the row may request nothing
        names = names_of(rng, table.count)
        (folder / 't.toml').write_text(text_of(rng, table, names))
        counts[verdict(table)[0] or 'undecided'] += 1
        if differs(program, folder, table, names, counts, with_fixes):
            return 1
    print(f'ghosts: {tables} tables; ' + ', '.join(f'{n} {it}' for it, n in sorted(counts.items())))
    shutil.rmtree(folder)
    return 1 if counts['without a schedule'] * 50 > tables else 0


if __name__ == '__main__':
    sys.exit(main())
