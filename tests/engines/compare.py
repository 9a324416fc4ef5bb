#!/usr/bin/env python3
"""Compares kr trace (of KR in the environment, or the built one) with second_trace.py, which is written from docs/TRACES.md alone:
on random traces both have to print the same bytes and end with the same status.

    compare.py [--parts N] [--seed N]     so many parts, by default 3,000, ten under each random table

Each trace is held against its table, and by --serial and --some-order. Its steps are run under the table, or under the same
with some entries changed; then lines are left out, put in, moved, joined and changed. Of some a line is broken, for its fault.
Prints how often each kind of line, verdict and fault came. Status 1 where something differs, and then the folder that is printed
has the trace, the table and both texts; or where some kind never came."""

import argparse
import collections
import io
import json
import pathlib
import random
import shutil
import sys
import tempfile

sys.dont_write_bytecode = True

import second_trace
from engine import WAYS
from lines import DEEPEST, ENDS, is_reply
from program import TOP, said_of, text_of
from runner import Run
from samples import Draft, Script
from schedule import Schedule
from second_trace import MOST_TRIED
from table import Table

TEXTS = ['a gap', 'Größe', '"', '\\', '\n', '\x7f', '', '\U0001f512', '</script>']
OTHER = [  # replies
    ['aborted'], ['blocked'], ['none'], ['found', 3], ['rows', []], ['done'], ['duplicate'], ['absent'], ['deleted'],
    ['updated', 1],
]
KINDS = {
    'conforms': ['yes', 'granted', 'blocked', 'blockers', 'answer', 'refused'],
    'verdict': ['serial', 'not-serial', 'unknown'],
    'fault': ['2 NotJson', '3 Format', '4 Field', '5 Opening', '6 Step', '9 Reply', '10 Order', '11 Ended'],
}


class Differs(Exception):
    pass


def said_by_second(word, trace):
    """What second_trace.py prints, with its status."""
    out, table = io.StringIO(), None if word[0] == '-' else second_trace.table_at(word)
    try:
        held = second_trace.hold(table, io.BytesIO(trace), out, word == '--some-order')
        return out.getvalue(), '', 0 if held else 1
    except second_trace.Fault as fault:
        return out.getvalue(), f'kr: /dev/stdin: fault {fault.args[0]} at {fault.args[1]}\n', 2


# Traces --------------------------------------------------------------------------------------------------------------------


class Longer(Schedule):
    TRANSACTIONS = MOST_TRIED + 3


class Samples:
    """Random tables, parts and faults."""

    def __init__(self, rand):
        self.rand = rand
        files = sorted([*(TOP / 'tables').glob('*.toml'), *(TOP / 'examples').glob('**/*.toml')])
        self.texts = [it for it in map(pathlib.Path.read_text, files) if Draft.of_text(it).format < 3]  # those without ghosts

    def may(self, chance):
        return self.rand.random() < chance

    def table(self):
        """A table, and the one that an engine goes by."""
        draft = Draft.random(self.rand, 2) if self.may(0.3) else Draft.of_text(self.rand.choice(self.texts))
        if draft.format == 1 and self.may(0.7):
            draft.offer_updates(self.rand)
        table, text = Table(draft.text()), draft.text()
        for _ in range(self.rand.choice([0, 0, 1, 3])):
            draft.change(self.rand)
        return table, text, Table(draft.text())

    def part(self, engine):
        """The lines of a part."""
        if self.may(0.1):
            return self.rand.choice([Schedule, Longer])(self.rand, self.rand.choice([*WAYS])).run().lines
        script = Script(self.rand, lambda opening: Run(engine, opening), 2 if engine.updates else 1)
        history = [([txn, operation, *words], reply) for (txn, operation, words), reply in script.run.history]
        steps = [[step, reply] for step, reply in self.joined(history) if reply[0] != 'refused']
        self.wrong = self.rand.choice([0, 0, 0.02, 0.1])  # of how many steps
        steps = [it for step, reply in steps for it in self.written(step, reply)]
        return self.ended([self.head(script.opening), *self.moved(steps)])

    def head(self, opening):
        tests = self.rand.choices(TEXTS, k=self.rand.randrange(3))
        return {'format': 1, 'opening': opening, **({'tests': tests} if self.may(0.4) else {})}

    def joined(self, history):
        """Some scans as one line, where they end or are blocked."""
        scans = {}
        for step, reply in history:
            txn, operation = step[:2]
            if operation == 'scan' and reply[0] == 'going' and self.may(0.5):
                scans[txn] = step
            elif operation == 'go' and txn in scans:
                if reply[0] != 'going':
                    yield scans[txn], reply
                if reply[0] == 'rows':
                    del scans[txn]
            else:
                scans.pop(txn, None)
                yield step, reply

    def written(self, step, reply):
        """The lines of a step."""
        if reply[0] == 'blocked':
            reply = self.blocked(reply[1])
        if reply[0] in ('deleted', 'updated', 'undone') and self.may(0.3):
            reply = reply[:1]
        if not self.may(self.wrong):
            return [[step, reply]]
        return self.rand.choice([
            [],
            [[step, self.blocked([])], [step, reply]] if step[1] not in ENDS else [],
            [[step, self.rand.choice([it for it in OTHER if is_reply(step[1], it)])]],
            [[step, [reply[0], reply[1] ^ 1] if isinstance(reply[-1], int) else reply]],
        ])

    def blocked(self, blockers):
        named = [it for it in blockers if self.may(0.9)] + [self.rand.randrange(5)] * self.may(self.wrong)
        return ['blocked', named] if self.may(0.7) else ['blocked']

    def moved(self, steps):
        """The steps, without those of transactions that have ended, and here and there two in the other order."""
        if steps and self.may(3 * self.wrong):
            at = self.rand.randrange(len(steps))
            steps[at : at + 2] = reversed(steps[at : at + 2])
        ended = set()
        for step, reply in steps:
            if step[0] not in ended:
                yield [step, reply]
            if reply[0] in ('committed', 'aborted'):
                ended.add(step[0])

    def ended(self, lines):
        """The lines, some with an order."""
        committed = [step[0] for step, reply in lines[1:] if reply == ['committed']]
        if self.may(0.5):
            self.rand.shuffle(committed)
        return [*lines, {'order': committed}] if self.may(0.3) else lines

    def broken(self, lines):
        """A trace of these lines with a fault, which may not come to anything."""
        at = self.rand.randrange(len(lines))
        line = json.dumps(lines[at])
        value = self.rand.choice([-1, 1 << 64, 1 << 32, 1.0, None, [], {}, 'none', True, [[1, 2], [1, 3]], [1]])
        cut = self.rand.randrange(len(line))
        made = self.rand.choice([
            lambda: line[:cut],
            lambda: line[:cut] + self.rand.choice('[]{},:"\\0-e \t\x01') + line[cut:],
            lambda: json.dumps(self.with_value(lines[at], value)),
            lambda: json.dumps(self.with_value(lines[at], value)),
            lambda: json.dumps({'order': self.rand.choice([value, [1], [1, 1], []])}),
            lambda: json.dumps({'format': self.rand.choice([1, 2, value]), 'opening': self.rand.choice([[], value, [value]])}),
            lambda: json.dumps({'format': 1, 'opening': [], self.rand.choice(['tests', 'order', 'opening']): value}),
            lambda: '[' * self.rand.choice([DEEPEST, DEEPEST + 1, 100_000]) + ']' * DEEPEST,
            lambda: json.dumps(lines[-1]),
            lambda: '[[1,"commit"],["committed"]]\n[[1,"fetch",1],["none"]]',
        ])()
        texts = [json.dumps(it) for it in lines]
        texts[at : at + self.rand.choice([0, 1])] = [made]
        if self.may(0.1):
            del texts[0]
        return '\n'.join(texts).encode()

    def with_value(self, line, value):
        """A line with a value in place of one of its parts."""
        if not isinstance(line, list) or not line or self.may(0.2):
            return {**line, self.rand.choice([*line, 'more']): value} if isinstance(line, dict) else value
        at = self.rand.randrange(len(line))
        return [*line[:at], self.with_value(line[at], value), *line[at + 1 :]]


# Comparing -----------------------------------------------------------------------------------------------------------------


class Comparison:
    def __init__(self, rand, folder):
        self.samples, self.folder, self.counts = Samples(rand), folder, collections.Counter()

    def table(self, parts):
        """Compares so many parts under a table, and some with faults."""
        table, text, engine = self.samples.table()
        (self.folder / 'table.toml').write_text(text)
        lines = [self.samples.part(engine) for _ in range(parts)]
        self.compare(text_of([it for part in lines for it in part]), True)
        for part in lines:
            self.compare(self.samples.broken([*part, *self.samples.rand.choice(lines)]), False)

    def compare(self, trace, is_whole):
        (self.folder / 'trace').write_bytes(trace)
        for word in [str(self.folder / 'table.toml'), '--serial', '--some-order'][: None if is_whole else 1]:
            second, program = said_by_second(word, trace), said_of(word, trace)
            if second != program:
                for name, said in {'second': second, 'program': program}.items():
                    (self.folder / name).write_text(''.join(map(str, said)))
                raise Differs(word)
            self.count(second)

    def count(self, said):
        for report in map(json.loads, said[0].splitlines()):
            self.counts.update(f'{it} {report[it][0]}' for it in ('conforms', 'verdict') if it in report)
            self.counts['queued'] += report.get('queued', 0)
        self.counts.update([f'fault {" ".join(said[1].split()[3:5])}'] if said[1] else [])


def main():
    words = argparse.ArgumentParser(description=__doc__, formatter_class=argparse.RawDescriptionHelpFormatter)
    words.add_argument('--parts', type=int, default=3000)
    words.add_argument('--seed', type=int, default=1)
    given = words.parse_args()
    folder = pathlib.Path(tempfile.mkdtemp(prefix='kr-engines-'))
    comparison = Comparison(random.Random(given.seed), folder)
    try:
        for _ in range(-(-given.parts // 10)):
            comparison.table(10)
    except Differs as it:
        print(f'compare: DIFFERS: {it}, in {folder}')
        return 1
    shutil.rmtree(folder)
    counts = comparison.counts
    print('compare: ' + ', '.join(f'{counts[it]} {it}' for it in sorted(counts)))
    missing = [f'{member} {it}' for member, kinds in KINDS.items() for it in kinds if not counts[f'{member} {it}']]
    for it in missing:
        print(f'compare: nothing compared of {it}')
    return 1 if missing else 0


if __name__ == '__main__':
    sys.exit(main())
