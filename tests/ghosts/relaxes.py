#!/usr/bin/env python3
"""Holds what kr relax prints of tables with ghosts as tests/relax/compare.py does of those without, by what reach.py finds by itself.
KR in the environment is the program, or else the built one is taken.

    relaxes.py TABLE..                  words of bundled tables, or files
    relaxes.py --random N [--seed N]    so many random tables that are safe, near the bundled ones and others

A script that shows a relaxation has no purge. One that goes wrong does so by the second form of docs/GHOSTS.md (model.py) too.
Prints a line for each table. Status 1 where something doesn't hold."""

import pathlib
import random
import sys

sys.dont_write_bytecode = True
sys.path += [str(pathlib.Path(__file__).resolve().parents[1] / it) for it in ('relax', 'suite')]

from checks import names_of, names_said, read_text, text_of
from compare import some_table
from model import Run, is_safe
from reach import GhostReach
from relaxed import Relaxed, main


def strengthened(rng, table):
    """The table with some entries changed that then mostly block more, or with locks that are inherited."""
    number = lambda: rng.randint(1, table.count)
    if rng.random() < 0.3:
        heir = number()
        table.heir = [0, *(rng.choice((mode, heir, heir, heir)) for mode in range(1, table.count + 1))]
    for _ in range(rng.choice((0, 1, 1, 2))):
        row = rng.choice(list(table.rows))
        if rng.random() < 0.3:
            table.ok[number()][number()] = False
        elif row in ('insert', 'insert-next'):
            kept, own = [*table.rows[row]], rng.randint(0, table.count)
            kept[own] = (kept[own] or (number(), True))[0], True
            table.rows[row] = kept
        else:
            table.rows[row] = number(), True
    return table


class Leaving(Relaxed):
    """A table of format 3."""

    def read(self, text):
        table = read_text(text)
        table.names = names_said(text)
        return table

    def is_safe(self, table):
        return is_safe(table, None)

    def reach(self, table):
        return GhostReach(table, table.names)

    def text(self, table):
        return text_of(random.Random(1), table, self.table.names)

    def has_same_modes(self, table):
        return table.names == self.table.names

    def goes_wrong(self, table, script):
        run = Run(table, script['opening'])
        for txn, *op in script['steps']:
            run.purge(*op) if txn == 'purge' else run.step(txn, tuple(op))
        return not run.is_serial(script['opening'])

    @staticmethod
    def random(rand, count, folder):
        """Files with random tables that are safe, most of them with few modes."""
        for number in range(count):
            table = None
            while table is None or not is_safe(table) or table.count > 5 and rand.random() < 0.7:
                table = strengthened(rand, some_table(rand))
                table.updates = True  # format 3 always offers updates; the row may request nothing
            path = folder / f'{number}.toml'
            path.write_text(text_of(rand, table, names_of(rand, table.count)))
            yield str(path)


if __name__ == '__main__':
    sys.exit(main(__doc__, Leaving))
