#!/usr/bin/env python3
"""Holds what `kr run` and `kr judge` print of random scripts under random tables with ghosts against a second form of
docs/GHOSTS.md (model.py). The tables are those of checks.py, and the scripts have purges. Both have to print the same bytes and end
with the same status, and no run under a table that is safe by the second form may go wrong.

    runs.py PROGRAM [SEED [TABLES [RUNS]]]     RUNS under each table

Status 1 where something differs, and then the folder that is printed has the table, the script and both texts."""

import collections
import json
import pathlib
import random
import shutil
import subprocess
import sys
import tempfile

sys.dont_write_bytecode = True

from checks import names_of, text_of
from compare import OPENING, some_run, some_table
from model import is_safe

NUMBERS = {'Ended': 1, 'Busy': 2, 'NoScan': 3, 'BadRange': 4, 'NoUpdate': 7, 'RollingBack': 8, 'NothingLeft': 9}
LATER = ('update', 'back')  # in formats 2 and 3 alone


def line(value):
    return json.dumps(value, separators=(',', ':'), ensure_ascii=False) + '\n'


def script_of(rng, moves):
    """The moves as a script of the least format that has them, or of format 3."""
    steps = [list(it) if it[0] == 'purge' else [it[0], *it[1]] for it in moves]
    least = 3 if any(it[0] == 'purge' for it in steps) else 2 if any(it[1] in LATER for it in steps) else 1
    return {'format': rng.choice((least, 3)), 'opening': OPENING, 'steps': steps}


def replied(reply):
    return ['refused', NUMBERS[reply[1]], reply[1]] if reply[0] == 'refused' else reply


def differs(program, folder, words, wanted):
    ran = subprocess.run([program, *words], cwd=folder, capture_output=True, text=True)
    if (ran.stdout, ran.stderr, ran.returncode) == wanted:
        return False
    (folder / 'program').write_text(f'{ran.stdout}{ran.stderr}status {ran.returncode}\n')
    (folder / 'second').write_text(f'{wanted[0]}status {wanted[2]}\n')
    print(f'ghosts: {folder} has a script of which the two print something else by `kr {words[0]}`')
    return True


def main():
    program = pathlib.Path(sys.argv[1]).resolve()
    seed, tables, runs = (int(it) for it in [*sys.argv[2:], *('1', '1000', '4')[len(sys.argv) - 2 :]])
    rng, counts, folder = random.Random(seed), collections.Counter(), pathlib.Path(tempfile.mkdtemp())
    for _ in range(tables):
        table = some_table(rng)
        table.updates = True  # format 3 always offers updates; the row may request nothing
        names = names_of(rng, table.count)
        (folder / 't.toml').write_text(text_of(rng, table, names))
        lines, serial = [], True
        for at in range(runs):
            run, moves, answers = some_run(rng, table)
            report = run.report(OPENING, names, [replied(it) for it in answers])
            (folder / f'{at}.json').write_text(json.dumps(script_of(rng, moves)))
            is_serial = report['verdict'] == ['serial']
            if differs(program, folder, ['run', 't.toml', f'{at}.json'], (line(report), '', 0 if is_serial else 1)):
                return 1
            lines.append(line({'script': f'{at}.json', 'verdict': report['verdict']}))
            serial = serial and is_serial
            counts.update(it[0] for it in answers)
            counts['serializable' if is_serial else 'not serializable'] += 1
        words = [f'{at}.json' for at in range(runs)]
        if differs(program, folder, ['judge', 't.toml', *words], (''.join(lines), '', 0 if serial else 1)):
            return 1
        if not serial and is_safe(table):
            print(f'ghosts: {folder} has a safe table, and a script that goes wrong')
            return 1
    print(f'ghosts: {tables * runs} runs; ' + ', '.join(f'{n} {it}' for it, n in sorted(counts.items())))
    shutil.rmtree(folder)
    return 0


if __name__ == '__main__':
    sys.exit(main())
