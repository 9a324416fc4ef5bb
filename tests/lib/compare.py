#!/usr/bin/env python3
"""Compares libkr with kr, step by step, on random scripts under random tables; and explanations, byte by byte.

    compare.py KR COUNT NAME=DRIVER ..

For each of COUNT scripts, kr runs it under its table; every third table has ghosts, and its script purges. Each DRIVER then does
the steps and purges of all scripts through libkr, as driver.c says, and the module kr does them in this process. The replies, and
at the end the index, the ghosts, the locks, the active transactions and the verdict, have to be those of the program's report. The
checks of these tables, and the explanation of each table of tables/ and of examples/, with the script of each of its causes, have to
be what kr prints. Prints the number of steps and each NAME that differs, with the first line in which it does; status 1 where one
does."""
import json
import pathlib
import random
import re
import subprocess
import sys
import tempfile

sys.dont_write_bytecode = True
TOP = pathlib.Path(__file__).resolve().parents[2]
sys.path[:0] = [str(TOP / it) for it in ('tests/ghosts', 'tests/second', 'libkr/python')]

import checks
import compare as ghosts
import kr
import runs
from runner import Run
from samples import Draft, Script
from table import Table

OPERATIONS = list(kr.OPERATIONS)
EXPLAINED = ('tables', 'tables/ghosts', 'examples/rejected', 'examples/explained', 'examples/ghosts')


def some_table(rng, texts, format):
    draft = Draft.of_text(rng.choice(texts)) if rng.random() < 0.8 else Draft.random(rng, format)
    if format == 2 and draft.format == 1 and rng.random() < 0.7:
        draft.offer_updates(rng)
    for _ in range(rng.choice([0, 0, 1, 3])):
        draft.change(rng)
    return draft.text()


def plain(reply):
    """A reply of a report, as a driver prints it."""
    word, *more = reply
    if word == 'rows':
        return ' '.join(['rows', *(f'{k}:{v}' for k, v in more[0])])
    if word == 'blocked':
        return ' '.join(['blocked', *map(str, more[0])])
    if word in ('purged', 'kept'):
        return f'purge {int(word == "purged")}'
    return f'refused 0 {more[0]}' if word == 'refused' else f'{word} {more[0] if more else 0} 0'


def plain_state(report, modes, serial):
    locks = [f'{0 if name == "End" else name},{int(name == "End")},{txn},{modes.index(mode) + 1}' for name, txn, mode in report['locks']]
    verdict = json.dumps({'script': 'session', 'verdict': report['verdict']}, separators=(',', ':'))
    return ' '.join(['index', *(f'{k}:{v}' for k, v in report['index']), 'ghosts', *map(str, report.get('ghosts', [])), 'locks', *locks, 'unfinished', *map(str, report['unfinished']),
                     'verdict', '0' if serial else '1', verdict])


def some_sample(rng, texts):
    """The text of a table, its modes, and a script with its text."""
    format = rng.choice([1, 2])
    text = some_table(rng, texts, format)
    script = Script(rng, lambda opening: Run(Table(text), opening), format)
    return text, Draft.of_text(text).modes, {'opening': script.opening, 'steps': script.steps}, script.text()


def some_ghosts(rng):
    """The same of a table with ghosts; the script has purges."""
    table = ghosts.some_table(rng)
    table.updates = True
    names = checks.names_of(rng, table.count)
    script = runs.script_of(rng, ghosts.some_run(rng, table)[1])
    return checks.text_of(rng, table, names), names[1:], script, json.dumps(script)


class Sample:
    """A script under a table, in files, with the report of the program."""

    def __init__(self, sample, program, folder, number):
        self.text, self.modes, script, script_text = sample
        self.opening, self.steps = script['opening'], script['steps']
        self.table, self.script = folder / f'{number}.toml', folder / f'{number}.json'
        self.table.write_text(self.text)
        self.script.write_text(script_text)
        self.serial, self.line = self.printed(program, 'run', self.table, self.script)
        self.accepted, self.checked = self.printed(program, 'check', self.table)
        self.report = json.loads(self.line)

    @staticmethod
    def printed(*words):
        done = subprocess.run(words, stdout=subprocess.PIPE, check=False)
        if done.returncode > 1:
            raise SystemExit(f'{" ".join(map(str, words))} ends with status {done.returncode}')
        return done.returncode == 0, done.stdout.decode()

    def asked(self):
        yield f'check {self.table}'
        yield f'run {self.table} {self.script}'
        yield f'open {self.table} {self.script}'
        for step in self.steps:
            yield self.line_of(*step)
        yield 'state'
        yield 'close'

    @staticmethod
    def line_of(txn, word, *operands):
        if txn == 'purge':
            return f'purge {word}'
        first, second = (*operands, 0, 0)[:2]
        return f'step {txn} {OPERATIONS.index(word)} {first} {second}'

    def wanted(self):
        return [*told(int(not self.accepted), self.checked[:-1]), *told(int(not self.serial), self.line[:-1]), 'opened',
                *map(plain, self.report['replies']), plain_state(self.report, self.modes, self.serial)]

    def by_module(self):
        """The same by the module kr, and first the report as a whole."""
        table = kr.Table(self.text)
        checked, ran = table.check(), table.run(self.script.read_bytes())
        lines = [*told(int(not checked.is_yes), checked.text), *told(int(not ran.is_yes), ran.text), 'opened']
        with table.open(self.opening) as session:
            lines += [plain(self.moved(session, *step)) for step in self.steps]
            report = {'index': session.index(), 'ghosts': session.ghosts(), 'locks': session.locks(), 'unfinished': session.unfinished(),
                      'verdict': session.verdict()}
            return [*lines, plain_state(report, self.modes, session.is_serializable())]

    @staticmethod
    def moved(session, txn, word, *operands):
        if txn == 'purge':
            return ['purged' if session.purge(word) else 'kept']
        return session.step(txn, word, *operands)


def told(code, text):
    """What a driver prints of a code and a text."""
    return f'{code} {len(text.encode())} {text}'.split('\n')


class Explained:
    """A table in a file named `table`, with what kr explain prints of it and of its causes, and of one cause more than it has."""

    def __init__(self, text, program, folder):
        folder.mkdir()
        self.text, self.table = text, folder / 'table'
        self.table.write_text(text)
        done = subprocess.run([program, 'explain', 'table'], cwd=folder, stdout=subprocess.PIPE, check=False)
        self.lines = told(done.returncode, done.stdout.decode())
        self.numbers = range(1, 2 + len(re.findall(r'^[0-9]+\. ', done.stdout.decode(), re.M)))
        self.scripts = 0
        for number in self.numbers:
            done = subprocess.run([program, 'explain', 'table', '--script', str(number)], cwd=folder, capture_output=True, check=False)
            self.scripts += done.returncode == 1
            self.lines += told(done.returncode - 1, done.stdout.decode()[:-1])

    def asked(self):
        yield f'explain {self.table}'
        yield from (f'script {self.table} {number}' for number in self.numbers)

    def wanted(self):
        return self.lines

    def by_module(self):
        table = kr.Table(self.text)
        explained, scripts = table.explain(), map(table.script, self.numbers)
        return [*told(int(not explained.is_yes), explained.text),
                *(line for script in scripts for line in told(int(script is None), script or ''))]


def texts_of(*folders):
    return [it.read_text() for it in sorted(it for folder in folders for it in (TOP / folder).glob('*.toml'))]


def differs(name, wanted, got):
    for number, (one, other) in enumerate(zip(wanted, got)):
        if one != other:
            print(f'{name}: line {number} is {other!r} and not {one!r}')
            return True
    if len(wanted) != len(got):
        print(f'{name}: {len(got)} lines and not {len(wanted)}')
        return True
    return False


def main(program, count, *drivers):
    rng = random.Random(int(count))
    texts, count = texts_of('tables', 'examples/rejected'), int(count)
    with tempfile.TemporaryDirectory() as name:
        folder, given = pathlib.Path(name), [some_sample(rng, texts) if it % 3 else some_ghosts(rng) for it in range(count)]
        samples = [Sample(it, program, folder, number) for number, it in enumerate(given)]
        explained = [Explained(text, program, folder / f'explained{number}') for number, text in enumerate(texts_of(*EXPLAINED))]
        asked = ''.join(f'{line}\n' for sample in [*samples, *explained] for line in sample.asked())
        wanted = [line for sample in [*samples, *explained] for line in sample.wanted()]
        bad = differs('python', wanted, [line for sample in [*samples, *explained] for line in sample.by_module()])
        for name, driver in (it.split('=', 1) for it in drivers):
            done = subprocess.run([driver], input=asked.encode(), stdout=subprocess.PIPE, check=False)
            bad = differs(name, wanted, done.stdout.decode().splitlines()) or bad
            if done.returncode:
                print(f'{name}: ends with status {done.returncode}')
                bad = True
    steps, serial = sum(len(it.steps) for it in samples), sum(it.serial for it in samples)
    names = ', '.join(['python', *(it.split('=')[0] for it in drivers)])
    print(f'{count} scripts with {steps} steps, of which {count - serial} are not serializable, and {len(explained)} explanations '
          f'with {sum(it.scripts for it in explained)} scripts, through {names}')
    return int(bad)


if __name__ == '__main__':
    sys.exit(main(*sys.argv[1:]))
