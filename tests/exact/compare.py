#!/usr/bin/env python3
"""Holds that kr's decision is exact on the tables of corpus.py: what `kr check` and `kr explain` say of each is compared
with condition.py, and for each table that is rejected a schedule has to go wrong.

    compare.py KR [--count N | --all | --fixes N]   N tables spread over the kinds, 100 if nothing is said, or all
    compare.py --self [N]                           condition.py beside walks.py and schedules.py, on so many tables

Prints a line for each kind: how many tables, which of them `kr check` accepts and rejects, how many of those that are
rejected are safe, and how many have a schedule; `undecided` are those that aren't safe and have none. A contradiction is
whatever kr says otherwise than condition.py, and a schedule that doesn't go wrong, or of which a step is blocked
or refused; each is printed with the table. Status 1 where there is one, or one that is undecided. With --fixes another is a fix
that does something else than `kr explain` says, or is left out of those of its entry (mends.py).

With `--self` kr is not run. A schedule is then what schedules.py makes, which the runner of tests/second runs, and what
a search by random walks finds is counted beside it. A contradiction is also a wrong run under a table that is safe."""

import collections
import concurrent.futures
import itertools
import json
import os
import pathlib
import random
import subprocess
import sys
import tempfile

sys.dont_write_bytecode = True
sys.path.append(str(pathlib.Path(__file__).resolve().parents[1] / 'suite'))

import corpus
from condition import is_safe
from fixes import NoText
from mends import WrongFix, hold_fixes
from replay import granted
from schedules import schedule
from table import Table
from walks import wrong_run

COLUMNS = ['tables', 'accepted', 'rejected', 'safe', 'with a schedule', 'undecided', 'contradictions', 'by a walk']
WALKS = 1000
FIRST_WORDS = {'accepted': 0, 'safe': 0, 'rejected': 1}  # of what is explained, with the status
OPEN = 'not known to be safe'


class Contradiction(Exception):
    pass


def expect(holds, what):
    if not holds:
        raise Contradiction(what)


class Program:
    def __init__(self, program, with_fixes=False):
        self.program, self.with_fixes = str(pathlib.Path(program).resolve()), with_fixes

    def decide(self, entry):
        """Which columns the table counts in."""
        with tempfile.TemporaryDirectory(prefix='kr-exact-') as folder:
            self.write(folder, 'table.toml', entry.text)
            return self.decide_in(folder, Table(entry.text))

    @staticmethod
    def write(folder, name, text):
        (pathlib.Path(folder) / name).write_text(text)

    def ran(self, folder, *words):
        ran = subprocess.run([self.program, *words], cwd=folder, capture_output=True, text=True)
        return ran.returncode, ran.stdout

    def decide_in(self, folder, table):
        status, _ = self.ran(folder, 'check', 'table.toml')
        expect(status in (0, 1), f'check: status {status}')
        is_accepted, safe = status == 0, is_safe(table)
        expect(safe or not is_accepted, 'accepted, and not safe')
        status, text = self.ran(folder, 'explain', 'table.toml')
        wanted = 'accepted' if is_accepted else 'safe' if safe else 'rejected'
        first = text.partition(':')[0]
        is_open = wanted == 'rejected' and first == OPEN  # no schedule is known
        expect(is_open or first == wanted, f'{wanted}, and explained as {first}')
        expect(status == FIRST_WORDS[wanted], f'{wanted}, and status {status}')
        if self.with_fixes:
            self.expect_fixes(table, text)
        if is_accepted or safe:
            return ['accepted'] if is_accepted else ['rejected', 'safe']
        script = None if is_open else self.script(folder, text)
        if script is None:
            return ['rejected', 'undecided']
        self.expect_wrong(folder, script)
        return ['rejected', 'with a schedule']

    @staticmethod
    def expect_fixes(table, text):
        try:
            hold_fixes(table, text)
        except (NoText, WrongFix) as it:
            raise Contradiction(str(it)) from it

    def script(self, folder, text):
        """The script of the first cause that has one."""
        causes = sum(line.partition('.')[0].isdigit() for line in text.splitlines())
        scripts = (self.ran(folder, 'explain', 'table.toml', '--script', str(n)) for n in range(1, causes + 1))
        return next((script for status, script in scripts if status == 1), None)

    def expect_wrong(self, folder, script):
        self.write(folder, 'script.json', script)
        status, text = self.ran(folder, 'run', 'table.toml', 'script.json')
        expect(status == 1, f'the schedule ends with status {status}')
        replies = [it[0] for it in json.loads(text)['replies']]
        expect('blocked' not in replies and 'refused' not in replies, 'a step of the schedule is blocked or refused')


def decide_by_itself(entry):
    """The same, without the program."""
    table = Table(entry.text)
    is_accepted, safe = corpus.failed(table) == 0, is_safe(table)
    expect(safe or not is_accepted, 'accepted, and not safe')
    walked = wrong_run(random.Random(entry.name), table, WALKS)
    expect(not (safe and walked), f'safe, and a run goes wrong: {json.dumps(walked)}')
    if is_accepted or safe:
        return ['accepted'] if is_accepted else ['rejected', 'safe']
    built = schedule(table)
    if built:
        expect_granted_and_wrong(table, *built)
    return ['rejected', 'with a schedule' if built else 'undecided', *(['by a walk'] if walked else [])]


def expect_granted_and_wrong(table, opening, steps):
    run = granted(table, opening, steps)
    expect(run is not None, f'a step is blocked: {json.dumps(steps)}')
    expect(run.verdict() != ['serial'], f'the schedule goes well: {json.dumps(steps)}')


def counted(decide, entry):
    try:
        return entry, decide(entry), None
    except Contradiction as it:
        return entry, ['contradictions'], str(it)


def compare(decide, entries, pool, columns=COLUMNS[:-1]):
    """Prints the table of kinds. Whether nothing is undecided or contradicts."""
    counts = collections.defaultdict(collections.Counter)
    for entry, found, fault in pool.map(counted, itertools.repeat(decide), entries):
        counts[entry.kind].update(['tables', *found])
        if fault:
            print(f'exact: {entry.kind}: {entry.name}: {fault}\n{entry.text}', flush=True)
        if 'undecided' in found:
            print(f'exact: undecided: {entry.kind}: {entry.name}', flush=True)
    print('| ' + ' | '.join(['kind', *columns]) + ' |')
    print('|---' * (len(columns) + 1) + '|')
    for kind, count in [*counts.items(), ('all', sum(counts.values(), collections.Counter()))]:
        print('| ' + ' | '.join([kind, *(str(count[it]) for it in columns)]) + ' |')
    return count['contradictions'] == 0 and count['undecided'] == 0


def main(*words):
    workers = os.cpu_count() or 1
    every = (entry for kind in corpus.KINDS if kind != 'fifteen' for entry in corpus.tables(kind))
    match words:
        case ['--self', *count]:
            entries = corpus.sample(int(*count or ['100']))
            with concurrent.futures.ProcessPoolExecutor(workers) as pool:
                return 0 if compare(decide_by_itself, entries, pool, COLUMNS) else 1
        case [program, '--all']:
            entries = every
        case [program, '--count', count]:
            entries = corpus.sample(int(count))
        case [program, '--fixes', count]:
            entries = corpus.sample(int(count))
        case [program]:
            entries = corpus.sample(100)
        case _:
            sys.exit(__doc__)
    with concurrent.futures.ProcessPoolExecutor(workers) as pool:
        return 0 if compare(Program(program, '--fixes' in words).decide, entries, pool) else 1


if __name__ == '__main__':
    sys.exit(main(*sys.argv[1:]))
