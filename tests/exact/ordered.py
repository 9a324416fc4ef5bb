#!/usr/bin/env python3
"""Holds that on ordered tables safe is exact: random ordered tables, decided by condition.py, beside the fixed schedules of
crates/kr_theorem, which the runner of tests/second runs, walks, and what kr explain says.

    ordered.py [N [KR]]   N random ordered tables, 200 if nothing is said; always the same ones

A mode is a set of atoms, and the converted mode of two is their union. A request is compatible with a held lock where no
atom of the one conflicts with one of the other. Half of the tables are then given stronger requests until no fixed schedule
goes wrong. Prints how many tables are of each kind, and how many of those that aren't safe a walk goes wrong under too. A
contradiction is a safe table under which a schedule or a walk goes wrong, one that isn't safe under which no fixed schedule
does, one of which kr explain says otherwise or shows no schedule, and a bundled table that isn't ordered; and, of
examples/no-schedule, a table that is ordered, safe or explained as rejected, or under which a schedule or a walk goes wrong.
Status 1 where there is one."""

import collections
import concurrent.futures
import copy
import itertools
import os
import random
import subprocess
import sys
import tempfile

sys.dont_write_bytecode = True

import corpus
from compare import OPEN
from condition import is_safe
from replay import goes_wrong
from samples import Draft
from table import SIDES, Table
from walks import wrong_run

OPENING = [[20, 2], [30, 3], [60, 6], [90, 9]]
LESS = [it for it in OPENING if it[0] != 60]  # where 1 inserts 60
WALKS = 150


def is_ordered(table):
    """Whether a table is ordered, from crates/kr_theorem/specs/Ordered.antt."""
    at_least = {(n, m) for n in table.with_none for m in table.with_none if is_at_least(table, n, m)}
    converted = ((table.convert(h, q), it) for h in table.with_none for q in table.with_none for it in (h, q))
    places = [(row, side) for row, sides in SIDES.items() for side in sides]
    rising = (asks_at_least(at_least, table.ask(*it, n), table.ask(*it, m)) for it in places for n, m in at_least)
    by_insert = (table.ask('insert', 'next', own) for own in table.with_none)
    return all(it in at_least for it in converted) and all(rising) and all(not it or it[1] == 'instant' for it in by_insert)


def is_at_least(table, n, m):
    """Whether n is compatible with nothing that m conflicts with, be it requested or held."""
    return all(table.ok(m, it) or not table.ok(n, it) for it in table.with_none) and all(
        table.ok(it, m) or not table.ok(it, n) for it in table.with_none
    )


def asks_at_least(at_least, asked, lesser):
    if not lesser:
        return True
    return bool(asked) and (asked[0], lesser[0]) in at_least and (asked[1] == 'commit' or lesser[1] == 'instant')


def schedules(table):
    """The fixed schedules of crates/kr_theorem/specs/Schedules.antt, each with the map that it begins with."""
    hit, key, miss, stop = ['fetch', 60], ['scan', 40, 60], ['fetch', 40], ['scan', 40, 40]
    changes = [['delete', 60], *([['update', 60, 7]] if table.updates else [])]
    for reads in hit, key:
        yield from ((OPENING, [[1, *reads], [2, *it], [2, 'commit'], [1, 'commit']]) for it in changes)
    for reads in miss, stop:
        yield OPENING, [[1, *reads], [2, 'delete', 60], [2, 'insert', 40, 4], [2, 'commit'], [1, 'commit']]
    dirty = lambda change, does: [[1, *change], [2, *does], [1, 'abort'], [2, 'commit']]
    ask = [['fetch', 60], ['scan', 60, 60], ['delete', 60], *([['update', 60, 8]] if table.updates else [])]
    yield from ((LESS, dirty(['insert', 60, 6], it)) for it in ask)
    if table.updates:
        yield from ((OPENING, dirty(['update', 60, 7], it)) for it in ask)
    for reads in miss, stop:
        inserted = [[3, 'insert', 40, 4], [3, 'commit'], [2, 'commit']]
        yield LESS, [[1, 'insert', 60, 6], [2, *reads], [1, 'abort'], *inserted]
    yield from ((OPENING, dirty(['delete', 30], it)) for it in (['fetch', 30], ['scan', 30, 60], ['scan', 30, 30]))
    for opening, change, below in (LESS, ['insert', 60, 6], 30), (OPENING, ['delete', 30], 20):
        yield opening, [[1, *change], [2, 'delete', below], [1, 'abort'], [3, 'fetch', below], [3, 'commit'], [2, 'abort']]
    ends = [[2, 'commit'], [3, 'fetch', 30], [3, 'commit'], [1, 'abort']]
    yield OPENING, [[1, 'delete', 30], [2, 'delete', 60], *ends]
    for n in table.with_none:
        chain = [[1, 'insert', 40 + it, 5] for it in range(n, 0, -1)]
        for reads in miss, key, stop:
            yield OPENING, [[1, *reads], *chain, [2, 'insert', 40, 4], [2, 'commit'], [1, 'commit']]
        yield OPENING, [[1, 'delete', 30], *chain, [2, 'insert', 40, 4], *ends]


def fixed(table):
    """The first fixed schedule that goes wrong, if one does."""
    return next((it for it in schedules(table) if goes_wrong(table, *it)), None)


class Drawn:
    """A table that is mostly ordered: a mode is the set of atoms that the bits of its number are."""

    def __init__(self, draws):
        self.atoms = draws.choice([2, 2, 3, 3])
        self.modes = range(1, 2**self.atoms)
        density = draws.choice([0.4, 0.6, 0.8])
        bits = range(self.atoms)
        self.conflicts = {(a, b) for a in bits for b in bits if draws.random() < density}
        self.format = draws.choice([1, 2])
        self.asked = {(row, side): self.some(draws) for row, sides in SIDES.items() for side in sides}
        self.spans = {it: 'commit' if draws.random() < 0.93 else 'instant' for it in self.asked}
        self.spans['insert', 'next'] = 'instant'
        self.spans['delete', 'current'] = draws.choice(['instant', 'commit'])
        self.more = (self.some(draws), draws.choice(self.modes)) if draws.random() < 0.6 else None

    def some(self, draws):
        return draws.choice([1 << draws.randrange(self.atoms), draws.choice(self.modes), draws.choice(self.modes)])

    def strengthen(self, draws):
        """Has one request ask for an atom more, to commit where that may be."""
        place = draws.choice([*self.asked])
        self.asked[place] |= 1 << draws.randrange(self.atoms)
        if place not in (('insert', 'next'), ('delete', 'current')):
            self.spans[place] = 'commit'

    def clauses(self, place):
        """What an insert requests on its key may rise with the own mode: one that holds an atom of `on` asks for `more` too."""
        clause = {'mode': f'M{self.asked[place]}', 'span': self.spans[place]}
        if place != ('insert', 'current') or not self.more:
            return [clause]
        more, on = self.more
        own = [f'M{it}' for it in self.modes if it & on]
        return [{'mode': f'M{self.asked[place] | more}', 'span': self.spans[place], 'own': own}, clause]

    def table(self):
        names = {it: f'M{it}' for it in self.modes}
        atoms = lambda mode: [it for it in range(self.atoms) if mode >> it & 1]
        conflict = lambda q, h: any((a, b) in self.conflicts for a in atoms(q) for b in atoms(h))
        compatible = {(names[q], names[h]) for q in self.modes for h in self.modes if not conflict(q, h)}
        convert = {(names[h], names[q]): names[h | q] for h in self.modes for q in self.modes}
        rules = {it: self.clauses(it) for it in self.asked if it[0] != 'update' or self.format == 2}
        return Draft([*names.values()], compatible, convert, rules, self.format).text()


def ordered_of(draws):
    """The first that is ordered of those that are drawn: an insert may not request less where a mode conflicts with as much."""
    while not is_ordered(Table((drawn := Drawn(draws)).table())):
        pass
    return drawn


def decided(program, n):
    """What is found of the n-th table: its text and kind, whether a walk goes wrong under it, and what contradicts."""
    draws = random.Random(f'ordered {n}')
    drawn = ordered_of(draws)
    for _ in range(draws.choice([0, 40])):
        if not fixed(Table(drawn.table())):
            break
        stronger = copy.deepcopy(drawn)
        stronger.strengthen(draws)
        if is_ordered(Table(stronger.table())):
            drawn = stronger
    text = drawn.table()
    table = Table(text)
    safe, wrong, walked, faults = is_safe(table), fixed(table), wrong_run(draws, table, WALKS), []
    if safe == bool(wrong):
        faults.append(f'safe is {safe}, and the fixed schedule that goes wrong is {wrong}')
    if safe and walked:
        faults.append(f'it is safe, and a walk goes wrong: {walked}')
    kind = 'accepted' if corpus.failed(table) == 0 else 'safe' if safe else 'rejected'
    if program and (said := explained(program, text)) != kind:
        faults.append(f'it is {kind}, and kr explain says {said}')
    return text, kind, bool(walked), faults


def explained(program, text):
    """The word that kr explain begins with."""
    with tempfile.NamedTemporaryFile('w', suffix='.toml') as file:
        file.write(text)
        file.flush()
        return subprocess.run([program, 'explain', file.name], capture_output=True, text=True).stdout.partition(':')[0]


def wrong_examples(program):
    """The bundled tables that aren't ordered, and those of examples/no-schedule that aren't as their heads say."""
    for path in sorted((corpus.TOP / 'tables').glob('*.toml')):
        table = Table(path.read_text())
        if not is_ordered(table) or fixed(table):
            yield f'{path.name}: it is not ordered, or a fixed schedule goes wrong'
    for path in sorted((corpus.TOP / 'examples' / 'no-schedule').glob('*.toml')):
        table = Table(path.read_text())
        if is_ordered(table) or is_safe(table) or fixed(table) or wrong_run(random.Random(path.name), table, 10 * WALKS):
            yield f'{path.name}: it is ordered or safe, or a schedule goes wrong'
        if program and (said := explained(program, path.read_text())) != OPEN:
            yield f'{path.name}: kr explain says {said}'


def main(count='200', program=None):
    wrong = 0
    for it in wrong_examples(program):
        print(f'ordered: {it}')
        wrong += 1
    counts = collections.Counter()
    with concurrent.futures.ProcessPoolExecutor(os.cpu_count() or 1) as pool:
        for text, kind, walked, faults in pool.map(decided, itertools.repeat(program), range(int(count)), chunksize=4):
            counts[kind] += 1
            counts['rejected with a walk that goes wrong'] += kind == 'rejected' and walked
            wrong += bool(faults)
            for it in faults:
                print(f'ordered: {it}\n{text}')
    print(f'ordered: {count} tables: {", ".join(f"{n} {it}" for it, n in sorted(counts.items()))}; {wrong} contradictions')
    return 1 if wrong else 0


if __name__ == '__main__':
    sys.exit(main(*sys.argv[1:]))
