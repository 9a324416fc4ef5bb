#!/usr/bin/env python3
"""Compares kr with a second checker and runner, which are written from docs/DEFINITIONS.md alone (table.py, checker.py,
runner.py): on random tables and scripts both have to print the same bytes and end with the same status.

    compare.py PROGRAM [SEED [TABLES]]

So many tables are made, first with format 1 alone, and then as many with format 2: a third of them are those of tables/
and examples/, a third the same with some entries changed, the others random; each is checked, and four scripts are run
under it and judged. With format 2 most tables of format 1 are made to offer updates, and most scripts have updates and
changes taken back. Under a table that is accepted each run has to be serial. Status 1 where something differs, and then
the folder that is printed has the table, the script and both texts. The same numbers make the same tables and scripts."""

import collections
import json
import pathlib
import random
import shutil
import subprocess
import sys
import tempfile

sys.dont_write_bytecode = True

from checker import Checker
from runner import Run
from samples import Draft, Script
from table import Table

TOP = pathlib.Path(__file__).resolve().parents[2]
SCRIPTS = 4  # under each table
TOTALS = ['tables', 'accepted', 'asymmetric', 'runs', 'not serial', 'steps']
REPLIES = 'found none going rows done duplicate deleted absent committed aborted blocked'.split()
REFUSALS = ['Ended', 'Full', 'Busy', 'NoScan', 'BadRange']
GROUPS = [f'G{it}' for it in range(1, 9)]  # of cases that fail
COUNTED = {  # what each format has to bring about
    1: [TOTALS, REPLIES + REFUSALS, GROUPS],
    2: [
        [*TOTALS, 'offering updates'],
        [*REPLIES, 'updated', 'undone', *REFUSALS, 'RollingBack', 'NoUpdate', 'NothingLeft'],
        [*GROUPS, 'G9'],
    ],
}


class Differs(Exception):
    pass


def line(report):
    return json.dumps(report, separators=(',', ':')) + '\n'


class Comparison:
    def __init__(self, program, seed, folder, format):
        self.program, self.folder, self.format = program, folder, format
        self.random = random.Random(seed if format == 1 else f'{seed} format {format}')
        self.counts = collections.Counter()
        files = [*(TOP / 'tables').glob('*.toml'), *(TOP / 'examples').glob('**/*.toml')]
        texts = [it.read_text() for it in sorted(files)]
        self.texts = [it for it in texts if Draft.of_text(it).format <= format]

    def expect(self, words, text, status):
        ran = subprocess.run([self.program, *words], cwd=self.folder, capture_output=True, text=True)
        if (ran.stdout, ran.stderr, ran.returncode) != (text, '', status):
            (self.folder / 'program').write_text(f'{ran.stdout}{ran.stderr}status {ran.returncode}\n')
            (self.folder / 'second').write_text(f'{text}status {status}\n')
            raise Differs(' '.join(words))

    def draft(self):
        kind = self.random.randrange(3)
        if kind == 2:
            return Draft.random(self.random, self.format)
        draft = Draft.of_text(self.random.choice(self.texts))
        if draft.format < self.format and self.random.random() < 0.8:
            draft.offer_updates(self.random)
        for _ in range(self.random.randint(1, 4) * kind):
            draft.change(self.random)
        return draft

    def table(self):
        draft = self.draft()
        (self.folder / 'table.toml').write_text(draft.text())
        table = Table(draft.text())
        report = Checker(table).report()
        self.counts.update({'tables': 1, 'accepted': report['accepted'], 'asymmetric': not draft.is_symmetric()})
        self.counts.update({'offering updates': table.updates})
        self.counts.update({it['case'] for it in report.get('failed', [])})
        self.expect(['check', 'table.toml'], line(report), 0 if report['accepted'] else 1)
        verdicts = [self.run(table, f'{it}.json', report['accepted']) for it in range(SCRIPTS)]
        names = [f'{it}.json' for it in range(SCRIPTS)]
        lines = [line({'script': name, 'verdict': verdict}) for name, verdict in zip(names, verdicts)]
        self.expect(['judge', 'table.toml', *names], ''.join(lines), int(any(it != ['serial'] for it in verdicts)))

    def run(self, table, name, is_accepted):
        format = 2 if self.format == 2 and self.random.random() < 0.9 else 1
        script = Script(self.random, lambda opening: Run(table, opening), format)
        (self.folder / name).write_text(script.text())
        report = script.run.report()
        verdict = report['verdict']
        is_serial = verdict == ['serial']
        self.counts.update({'runs': 1, 'not serial': not is_serial, 'steps': len(script.steps)})
        self.counts.update(reply[2] if reply[0] == 'refused' else reply[0] for reply in report['replies'])
        if is_accepted and not is_serial:
            (self.folder / 'second').write_text(line(report))
            raise Differs(f'run table.toml {name}: not serial, and the table is accepted')
        self.expect(['run', 'table.toml', name], line(report), 0 if is_serial else 1)
        return verdict


def compare(program, seed, tables, format):
    """Whether nothing differs, and everything that is counted came."""
    folder = pathlib.Path(tempfile.mkdtemp(prefix='kr-second-'))
    comparison = Comparison(str(pathlib.Path(program).resolve()), seed, folder, format)
    try:
        for _ in range(tables):
            comparison.table()
    except Differs as it:
        print(f'second: DIFFERS: kr {it}, in {folder}')
        return False
    shutil.rmtree(folder)
    counts = comparison.counts
    for names in COUNTED[format]:
        print(f'second: format {format}: ' + ', '.join(f'{counts[it]} {it}' for it in names))
    missing = [it for names in COUNTED[format] for it in names if not counts[it]]
    if missing:
        print(f'second: nothing compared of {", ".join(missing)}')
    return not missing


def main(program, seed=1, tables=300):
    return 0 if all([compare(program, int(seed), int(tables), format) for format in COUNTED]) else 1


if __name__ == '__main__':
    sys.exit(main(*sys.argv[1:]))
