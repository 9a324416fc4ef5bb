#!/usr/bin/env python3
"""Holds suites of tables with ghosts as tests/suite/compare.py does those of tables without, by the second form of docs/GHOSTS.md
(model.py). KR in the environment is the program, or else the built one is taken.

    suites.py [--random N] [--seed N] [--scripts N] [--runs] [--stored] [TABLE..]

TABLE is the word of a bundled table, or a file of format 3; without one the three bundled tables are held, and 300 random ones, or N.
A part has no purges. Of an entry that is alike no reply differs in random scripts with purges either, and under both tables the same
purges take their ghosts away. Prints a line for each table. Status 1 where something doesn't hold."""

import pathlib
import random
import sys

sys.dont_write_bytecode = True
sys.path.append(str(pathlib.Path(__file__).resolve().parents[1] / 'suite'))

from changed import changes_of
from checks import BUNDLED, names_in, names_of, read, text_of
from compare import OPENING, some_run, some_table
from held import Held, main
from holding import file_of
from model import Run
from traces import replied


def step_of(move):
    return [*move] if move[0] == 'purge' else [move[0], *move[1]]


class Ghosts(Held):
    """A table with ghosts."""

    def read(self, word):
        self.names = names_in(file_of(word))
        return read(file_of(word))

    def changes(self):
        return changes_of(self.table, self.names)

    def replies(self, table, opening, steps):
        run = Run(table, opening)
        return [[run.purge(op[0])] if txn == 'purge' else replied(run.step(txn, tuple(op))) for txn, *op in steps]

    def text(self, table):
        return text_of(random.Random(1), table, self.names)

    def script(self, rand):
        steps = [step_of(it) for it in some_run(rand, self.table)[1]]
        return OPENING, steps, self.replies(self.table, OPENING, steps)

    @staticmethod
    def random(rand, count, folder):
        """Files with random tables: the bundled ones, some of whose entries are changed, and a few of any entries."""
        for number in range(count):
            table = some_table(rand)
            table.updates = True  # format 3 always offers updates; the row may request nothing
            path = folder / f'{number}.toml'
            path.write_text(text_of(rand, table, names_of(rand, table.count)))
            yield str(path)


if __name__ == '__main__':
    sys.exit(main(__doc__, Ghosts, [*BUNDLED], 300))
