"""The relaxations of a table with ghosts, as tests/relax/relaxations.py has those of one without, and the entries that no schedule
comes to: which requests schedules bring beside which locks is by crates/kr_ghost/specs/Safe.antt, and a purge leads to a mode as a
request does."""

import pathlib
import sys

sys.path += [str(pathlib.Path(__file__).resolve().parents[1] / it) for it in ('exact', 'relax', 'second')]

from changed import changes_of
from model import NOTHING, READ, is_safe, lock_states, requests
from relaxations import Reach, lines_of

NEW = 'insert'  # what an insert requests on its new key, where nobody has a lock


class GhostReach(Reach):
    """The same, of a table with ghosts that is safe; `names` has those of its modes."""

    def __init__(self, table, names):
        self.names, self.states = names, lock_states(table, None)
        super().__init__(table)
        free = [(there, x) for (there, x), others in self.states.items() if NOTHING in others and not x[3]]
        ghosts = {x[0] for there, x in free if not there and x[1] <= READ} if table.heir else ()
        self.purges = {(x[0], mode) for _, x in free for mode in ghosts}

    def spots(self, table):
        found = set()
        for (present, x), others in self.states.items():
            held = {it[0] for it in others}
            for row, *_ in requests(table, present, x):
                found.update((row, x[0], 0, it) for it in held)
                found.update([(NEW, 0, x[0], 0)] if row == 'insert-next' else [])
        return found

    def mode_then(self, table, row, own, above):
        return table.after(own, table.ask(row, above if row == NEW else own))

    def is_blocked(self, table, row, own, above, held):
        return table.conflicts(table.ask(row, above if row == NEW else own), own, held)

    def is_safe(self, table):
        return is_safe(table, None)

    def changes(self):
        return changes_of(self.table, self.names)

    def steps(self, new, found):
        yield from super().steps(new, found)
        for own, mode in self.purges:
            there = [new.convert[own2][new.heir[mode2]] for own2 in found.get(own, ()) for mode2 in found.get(mode, ())]
            yield self.table.convert[own][self.table.heir[mode]], there

    def unused(self):
        tested, asked, requested = set(), {(own, self.table.heir[mode]) for own, mode in self.purges}, set()
        for row, own, above, held in self.met:
            own_next = above if row == NEW else own
            requested.add((row, own_next))
            if request := self.table.ask(row, own_next):
                tested.add((self.table.convert[own][request[0]], held))
                asked.add((own, request[0]))
        sides = {'insert': ('insert', 'current'), 'insert-next': ('insert', 'next')}
        requested = {(*sides[row], own) for row, own in requested if row in sides}
        return lines_of(self.names, tested, asked, requested, sides.values())
