#!/usr/bin/env python3
"""Holds suites to what docs/SUITE.md says of them, with the machine of tests/second, which is written from docs/DEFINITIONS.md
alone. KR in the environment is the program, or else the built one is taken.

    compare.py [--stored] [--scripts N] [--runs] TABLE..     words of bundled tables, or files
    compare.py --random N [--seed N] [--scripts N]          so many random tables, drafts of the bundled ones with entries changed

--stored reads the suites of examples/suites in place of the program's. Of each table:
  each part begins with keys that rise; its replies are those of the machine, with --runs those of `kr run` too; all its steps but
  the last are granted, and the last is granted or blocked. With --runs `kr run` also answers as the machine does under each changed
  table that a part tells apart
  each table that differs in one entry is exactly one of: named by parts, whose last steps are then granted under the one table and
  blocked under the other, all before them answered the same; alike; left; and the last line of --left counts them
  for each that is alike no reply differs in any part, nor in so many random scripts, by default 20
  the status is 1 where some are left, and else 0
Prints a line for each table. Status 1 where something doesn't hold."""

import pathlib
import sys

sys.dont_write_bytecode = True
TOP = pathlib.Path(__file__).resolve().parents[2]
sys.path += [str(TOP / 'tests' / it) for it in ('engines', 'second')]

from changes import changes_of, text_of
from held import Held, main
from holding import file_of
from runner import Run
from samples import Draft, Script
from table import Table


class Plain(Held):
    """A table without ghosts."""

    def read(self, word):
        return Table(file_of(word).read_text())

    def changes(self):
        return changes_of(self.table)

    def replies(self, table, opening, steps):
        run = Run(table, opening)
        return [run.step(*step) for step in steps]

    def text(self, table):
        return text_of(table)

    def script(self, rand):
        script = Script(rand, lambda opening: Run(self.table, opening), 2 if self.table.updates else 1)
        return script.opening, script.steps, [reply for _, reply in script.run.history]

    @staticmethod
    def random(rand, count, folder):
        """Files with random tables: bundled ones, some of whose entries are changed, and a few of any entries."""
        texts = [it.read_text() for it in sorted((TOP / 'tables').glob('*.toml')) if it.name != 'range-key.toml']
        for number in range(count):
            draft = Draft.of_text(rand.choice(texts)) if rand.random() < 0.8 else Draft.random(rand, rand.choice([1, 2]))
            for _ in range(rand.choice([0, 1, 2, 4])):
                draft.change(rand)
            path = folder / f'{number}.toml'
            path.write_text(draft.text())
            if len(draft.modes) <= 6:
                yield str(path)


if __name__ == '__main__':
    sys.exit(main(__doc__, Plain))
