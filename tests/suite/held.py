"""Suites, held to what docs/SUITE.md says of them by a second machine, of tables of one kind."""

import argparse
import json
import pathlib
import random
import subprocess
import sys
import tempfile

TOP = pathlib.Path(__file__).resolve().parents[2]
sys.path.append(str(TOP / 'tests/engines'))

from holding import Wrong, expect, file_of
from parts import parts_of
from program import built

SUITES = TOP / 'examples' / 'suites'
BESIDE = ('line: ', 'habit: ')  # what tests begin with that is no entry
UNREACHED = '. No schedule comes to it.'
WHYS = (UNREACHED, '. No reply differs.')  # behind an entry that is alike


def said_of(word, is_stored):
    """The suite, what it leaves, and the status."""
    if is_stored:
        paths = [SUITES / f'{word[1:]}{end}' for end in ('.suite', '.left')]
        return *(it.read_text().splitlines() for it in paths), None
    ran = [subprocess.run([built(), 'suite', word, *it], capture_output=True, text=True) for it in ([], ['--left'])]
    expect(all(it.returncode in (0, 1) and not it.stderr for it in ran), [it.stderr for it in ran])
    expect(ran[0].returncode == ran[1].returncode, 'two statuses')
    return *(it.stdout.splitlines() for it in ran), ran[0].returncode


def name_of(line):
    """The entry of a line of --left; behind one that is alike there is why."""
    kind, _, said = line.partition(': ')
    if kind == 'left':
        return said
    whys = [it for it in WHYS if said.endswith(it)]
    expect(len(whys) == 1, f'nothing says why in {line}')
    name = said.removesuffix(whys[0])
    expect(whys[0] != UNREACHED or ' beside ' in name or ' held, ' in name, f'schedules come to {name}')
    return name


def is_granted(reply):
    return reply[0] not in ('blocked', 'refused')


def differ_last(one, other):
    """Whether replies are the same up to the last, where one grants and the other blocks."""
    return one[:-1] == other[:-1] and 'refused' not in (one[-1][0], other[-1][0]) and is_granted(one[-1]) != is_granted(other[-1])


class Held:
    """A table with its suite. Tables of a kind have a class of their own, which says of them:

    read(word)                      the table that a word names
    changes()                       the tables that differ from it in one entry, each with its name
    replies(table, opening, steps)  what the second machine replies to the steps
    text(table)                     a table as a file
    script(rand)                    an opening, random steps from it, and the replies to these under the table
    random(rand, count, folder)     the words of so many random tables
    """

    def __init__(self, word, suite, left, status):
        self.word, self.table = word, self.read(word)
        self.parts, self.lines, self.status = parts_of(suite), left, status
        self.changed = {it.name: it for it in self.changes()}
        self.lists = {kind: [name_of(it) for it in left if it.startswith(f'{kind}: ')] for kind in ('alike', 'left')}

    def hold(self, rand, scripts, with_runs):
        for part in self.parts:
            self.hold_part(part)
            if with_runs:
                self.hold_run(self.word, part, [reply for _, reply in part.lines])
        told = self.told(with_runs)
        self.hold_counts(told)
        self.hold_alike(rand, scripts)
        return f'{self.word}: {len(told)} told apart by {len(self.entries())} parts, {", ".join(f"{len(its)} {kind}" for kind, its in self.lists.items())}'

    def entries(self):
        return [it for it in self.parts if not it.tests[0].startswith(BESIDE)]

    def hold_part(self, part):
        keys = [key for key, _ in part.opening]
        expect(keys == sorted({*keys}), f'the keys of {part.head} do not rise')
        replies = [reply for _, reply in part.lines]
        expect(replies == self.replies(self.table, part.opening, part.script['steps']), f'the replies of {part}')
        expect(all(map(is_granted, replies[:-1])) and replies[-1][0] != 'refused', f'a step of {part} before the last is not granted')

    def hold_run(self, word, part, replies):
        """That `kr run` answers so, under the table that a word names."""
        with tempfile.NamedTemporaryFile('w', suffix='.json') as file:
            file.write(json.dumps(part.script))
            file.flush()
            out = subprocess.run([built(), 'run', word, file.name], capture_output=True, text=True).stdout
        expect(out and json.loads(out)['replies'] == replies, f'kr run answers {part} otherwise under {word}')

    def hold_changed_run(self, change, part, replies):
        """That `kr run` answers so, under a changed table."""
        with tempfile.NamedTemporaryFile('w', suffix='.toml') as file:
            file.write(self.text(change))
            file.flush()
            self.hold_run(file.name, part, replies)

    def told(self, with_runs):
        """The names of the changes that parts tell apart."""
        told = set()
        for part in self.entries():
            for name in part.tests:
                expect(name in self.changed, f'no entry is {name}')
                told.add(name)
                steps, plain = part.script['steps'], [reply for _, reply in part.lines]
                changed = self.replies(self.changed[name], part.opening, steps)
                expect(differ_last(plain, changed), f'{part} does not tell {name} apart')
                if with_runs:
                    self.hold_changed_run(self.changed[name], part, changed)
        return told

    def hold_counts(self, told):
        names = [*told, *self.lists['alike'], *self.lists['left']]
        expect(sorted(names) == sorted(self.changed), 'not each entry with another value is told apart, alike or left, once')
        steps, (alike, left) = sum(len(it.lines) for it in self.entries()), map(len, self.lists.values())
        expect(
            self.lines[-1]
            == f'{len(names)} entries with another value: {len(told)} told apart by {len(self.entries())} parts of {steps} steps, '
            f'{alike} alike, {left} left',
            f'the last line is {self.lines[-1]}',
        )
        expect(len(self.lines) == alike + left + 1, 'another line')
        expect(self.status in (None, 1 if left else 0), f'the status is {self.status}')

    def hold_alike(self, rand, scripts):
        tried = [(it.opening, it.script['steps'], [reply for _, reply in it.lines]) for it in self.parts]
        tried += [self.script(rand) for _ in range(scripts)]
        for name in self.lists['alike']:
            for opening, steps, replies in tried:
                expect(self.replies(self.changed[name], opening, steps) == replies, f'{name} is not alike: {opening} {steps}')


def main(text, kind, tables=(), count=0):
    """Holds the suites of the tables that are named, or else of these, and of so many random ones, unless a number is given."""
    words = argparse.ArgumentParser(description=text, formatter_class=argparse.RawDescriptionHelpFormatter)
    words.add_argument('tables', nargs='*', metavar='TABLE', default=tables)
    words.add_argument('--stored', action='store_true')
    words.add_argument('--runs', action='store_true')
    words.add_argument('--scripts', type=int, default=20)
    words.add_argument('--random', type=int)
    words.add_argument('--seed', type=int, default=1)
    given = words.parse_args()
    count = given.random if given.random is not None else count if given.tables == tables else 0
    rand, failed = random.Random(given.seed), 0
    with tempfile.TemporaryDirectory() as folder:
        for word in [*given.tables, *kind.random(rand, count, pathlib.Path(folder))]:
            try:
                held = kind(word, *said_of(word, given.stored))
                print('compare:', held.hold(rand, given.scripts, given.runs), flush=True)
            except Wrong as it:
                print(f'compare: {word}: {it}', file_of(word).read_text() if count else '', flush=True)
                failed = 1
    return failed
