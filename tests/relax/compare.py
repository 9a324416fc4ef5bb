#!/usr/bin/env python3
"""Holds what kr relax prints to what tests/relax/relaxations.py finds by itself. KR in the environment is the program, or else the
built one is taken.

    compare.py TABLE..                  words of bundled tables, or files
    compare.py --random N [--seed N]    so many random tables, drafts of bundled ones with entries changed

A table that isn't safe is a fault, and told so. Of one that is safe
  the relaxations that are named are those that are found here, in this order, or both say that it is tight; the status is 1 or 0
  `kr run` blocks the last step of each script under the table, and grants it, with all others answered the same, under the changed one
  the entries that are said to be unused are those that no schedule comes to here
  --why says of each change of three entries what is found here, and `kr run` finds each of its scripts not serializable
  --write prints a table that is safe, with the same modes, and that is tight exactly where the status is 0
Prints a line for each table. Status 1 where something doesn't hold."""

import pathlib
import sys

sys.dont_write_bytecode = True
TOP = pathlib.Path(__file__).resolve().parents[2]
sys.path += [str(TOP / 'tests' / it) for it in ('exact', 'second', 'suite')]

from changes import text_of
from condition import is_safe
from relaxations import Reach
from relaxed import Relaxed, main
from samples import Draft
from table import Table


class Gone(Relaxed):
    """A table of format 1 or 2."""

    read, is_safe, reach, text = Table, staticmethod(is_safe), Reach, staticmethod(text_of)

    def has_same_modes(self, table):
        return (table.names, table.updates) == (self.table.names, self.table.updates)

    def goes_wrong(self, table, script):
        return None

    @staticmethod
    def random(rand, count, folder):
        """Files with random tables: bundled ones, of which some entries are changed."""
        texts = [it.read_text() for it in sorted((TOP / 'tables').glob('*.toml')) if it.name != 'range-key.toml']
        for number in range(count):
            draft = Draft.of_text(rand.choice(texts))
            for _ in range(rand.choice([1, 1, 2, 3])):
                draft.change(rand)
            path = folder / f'{number}.toml'
            path.write_text(draft.text())
            yield str(path)


if __name__ == '__main__':
    sys.exit(main(__doc__, Gone))
