#!/usr/bin/env python3
"""Holds what `kr check` prints of tables with ghosts against a second form of docs/GHOSTS.md and docs/TABLES.md (model.py):
random tables, near the bundled ones and others, written as files of format 3 in several ways. Both have to print the same bytes
and end with the same status, and a table that is accepted has to be safe by the second form.

    checks.py PROGRAM [SEED [TABLES]]

Status 1 where something differs, and then the folder that is printed has the table and both texts."""

import collections
import json
import pathlib
import random
import shutil
import subprocess
import sys
import tempfile

try:
    import tomllib
except ImportError:
    print('ghosts: left out, since it needs Python 3.11 or later')
    sys.exit(0)

sys.dont_write_bytecode = True

from compare import next_key_ghost, range_ghost, record_gap, some_table
from model import ROWS, RULES, VAIN, Table, check_report, is_safe

BUNDLED = {'@record-gap': record_gap, '@range-ghost': range_ghost, '@next-key-ghost': next_key_ghost}
TOP = pathlib.Path(__file__).resolve().parents[2]


def names_of(rng, count):
    return ['none', *rng.sample([*'ABCDEFGHIJKLMNO', 'N-S', 'a b', 'a.b', '"q"', '#', 'none1'], count)]


def quoted(text):
    return json.dumps(text)


def clause(request, names, own=None):
    mode, kept = request
    start = f'own = [{", ".join(map(quoted, own))}], ' if own else ''
    return f'{{ {start}mode = {quoted(names[mode])}, span = "{"commit" if kept else "instant"}" }}'


def insert_clauses(rng, requests, names):
    """A clause for each own mode at which something is requested, or one for all that request the same, the last without `own`."""
    groups = collections.defaultdict(list)
    for own, it in enumerate(requests):
        groups[it].append(names[own])
    groups = list(groups.items())
    rng.shuffle(groups)
    if None not in dict(groups) and rng.random() < 0.7:
        return [*(clause(it, names, own) for it, own in groups[:-1]), clause(groups[-1][0], names)]
    return [clause(it, names, own) for it, own in groups if it]


def side_of(row):
    return 'next' if row in ('fetch-miss', 'scan-stop', 'delete-miss', 'update-miss') else 'current'


def text_of(rng, table, names):
    """The table as a file of format 3."""
    modes, listed = range(1, table.count + 1), lambda items: f'[{", ".join(items)}]'
    lines = ['format = 3', 'deletes = "ghosts"', f'modes = {listed(map(quoted, names[1:]))}']
    lines += ['purge = "unlocked"'] if table.heir is None else []
    lines += ['[compatible]'] + [f'{quoted(names[q])} = {listed(quoted(names[h]) for h in modes if table.ok[q][h])}' for q in modes]
    pair = lambda h, q: f'{quoted(names[q])} = {quoted(names[table.convert[h][q]])}'
    lines += ['[convert]'] + [f'{quoted(names[h])} = {{ {", ".join(pair(h, q) for q in modes)} }}' for h in modes]
    lines += ['[purge]'] + [f'{quoted(names[h])} = {quoted(names[table.heir[h]])}' for h in modes] if table.heir else []
    rows = {row: [clause(it, names)] if it else [] for row, it in table.rows.items() if row not in ('insert', 'insert-next')}
    beside = {it: rows.pop(f'{it}-next') for it in ('revive', 'insert-hit')}
    for row, clauses in rows.items():
        also = row in beside and (beside[row] or rng.random() < 0.3)
        if clauses or also or row in VAIN or rng.random() < 0.5:
            sides = [f'{side_of(row)} = {listed(clauses)}'] if clauses or rng.random() < 0.7 else []
            lines += [f'[rules.{row}]', *sides] + [f'next = {listed(beside[row])}' for _ in range(bool(also))]
    lines += ['[rules.insert]'] + [
        f'{side} = {listed(insert_clauses(rng, table.rows[row], names))}' for side, row in (('current', 'insert'), ('next', 'insert-next'))
    ]
    return '\n'.join(lines) + '\n'


def names_in(file):
    """The names of a table's modes."""
    return names_said(file.read_text())


def names_said(text):
    return ['none', *tomllib.loads(text)['modes']]


def read(file):
    """The table of a file of format 3 without faults."""
    return read_text(file.read_text())


def read_text(text):
    document, names = tomllib.loads(text), names_said(text)
    number, every = {it: at for at, it in enumerate(names)}, range(len(names))
    ok = [[not q or not h or names[h] in document['compatible'][names[q]] for h in every] for q in every]
    convert = [[h or q if not h or not q else number[document['convert'][names[h]][names[q]]] for q in every] for h in every]

    def asked(row, side, own=0):
        fits = (it for it in document['rules'].get(row, {}).get(side, []) if names[own] in it.get('own', names))
        return next(((number[it['mode']], it['span'] == 'commit') for it in fits), None)

    rows = {row: asked(row, side_of(row)) for row in ROWS if 'insert' not in row} | {f'{it}-next': asked(it, 'next') for it in ('revive', 'insert-hit')}
    rows |= {row: asked(row, side_of(row)) for row in VAIN if row in document['rules']}
    rows |= {row: [asked('insert', side, own) for own in every] for row, side in (('insert', 'current'), ('insert-next', 'next'))}
    purge = document['purge']
    return Table(ok, convert, rows, None if purge == 'unlocked' else [0, *(number[purge[it]] for it in names[1:])], True)


def differs(program, folder, word, report):
    ran = subprocess.run([program, 'check', word], cwd=folder, capture_output=True, text=True)
    wanted = json.dumps(report, separators=(',', ':'), ensure_ascii=False) + '\n', '', 0 if report['accepted'] else 1
    if (ran.stdout, ran.stderr, ran.returncode) == wanted:
        return False
    (folder / 'program').write_text(f'{ran.stdout}{ran.stderr}status {ran.returncode}\n')
    (folder / 'second').write_text(f'{wanted[0]}status {wanted[2]}\n')
    print(f'ghosts: {folder} has a table of which the two print something else')
    return True


def main():
    program, seed, tables = pathlib.Path(sys.argv[1]).resolve(), *(int(it) for it in [*sys.argv[2:], *('1', '1000')[len(sys.argv) - 2 :]])
    rng, counts, folder = random.Random(seed), collections.Counter(), pathlib.Path(tempfile.mkdtemp())
    for word, make in BUNDLED.items():
        file = TOP / f'tables/ghosts/{word[1:]}.toml'
        names = names_in(file)
        report = check_report(make(), names)
        if differs(program, folder, word, report) or differs(program, folder, str(file), report):
            return 1
        if vars(read(file)) != vars(make()):
            print(f'ghosts: {file} is another table than {word}')
            return 1
    for _ in range(tables):
        table = some_table(rng)
        if not table.updates:
            table.updates = True  # format 3 always offers updates; the row may request nothing
        names = names_of(rng, table.count)
        report = check_report(table, names)
        (folder / 't.toml').write_text(text_of(rng, table, names))
        if differs(program, folder, 't.toml', report):
            return 1
        counts['accepted' if report['accepted'] else 'rejected'] += 1
        counts.update({it['case'] for it in report.get('failed', [])})
        if report['accepted'] and is_safe(table) is False:
            print(f'ghosts: {folder} has an accepted table that is not safe')
            return 1
    print(f'ghosts: {tables} tables; ' + ', '.join(f'{n} {it}' for it, n in sorted(counts.items())))
    missing = [it for it in ('accepted', 'rejected', *(f'G{at + 1}' for at in range(len(RULES)))) if not counts[it]]
    if missing and tables >= 1000:
        print(f'ghosts: no table has {", ".join(missing)}')
        return 1
    shutil.rmtree(folder)
    return 0


if __name__ == '__main__':
    sys.exit(main())
