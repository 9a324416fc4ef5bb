"""What kr explain blames for the failed cases of a table with ghosts, by crates/kr_ghost_explain/specs/Blames.antt and the head of
its blame.rt; and which change of an entry mends them, by crates/kr_explain_causes/specs/Mends.antt."""

import collections
import pathlib
import sys

sys.path.append(str(pathlib.Path(__file__).resolve().parents[1] / 'exact'))

from changed import PLACES, Changed
from fixes import Edit
from model import RULES, failed_cases, is_safe

ROWS = {  # the row of each rule
    **{'FetchHit': 'fetch-hit', 'FetchMiss': 'fetch-miss', 'ScanName': 'scan-key', 'ScanStop': 'scan-stop', 'Delete': 'delete'},
    **{'Update': 'update', 'Revive': 'revive', 'InsertHit': 'insert-hit', 'DeleteMiss': 'delete-miss', 'UpdateMiss': 'update-miss'},
}
ACCESSES = ('fetch-hit', 'scan-key', 'delete', 'update', 'revive', 'insert-hit')  # rows for which others may have to wait


class Blames:
    """The failed cases of a table, and what is to blame for each:

    ('nothing', row)                 that the row requests nothing; `insert-next` is what an insert requests on the next name
    ('request', row)                 what the row requests
    ('new key', mode)                the mode that an insert leaves on its new key
    ('heir', mode)                   the mode in which a purge leaves a lock
    ('conversion', held, requested)  what these convert to
    ('pair', requested, held)        that these are compatible
    """

    def __init__(self, table):
        self.table, (self.failed, _) = table, failed_cases(table)
        self.alone = {self.like(it) for it in self.failed if it[2][0] == 0 and it[0] not in ('Insert', 'Split')}
        self.entries = [self.entry(it) for it in self.failed]
        self.pairs = [self.pair(it) for it in self.failed]
        counts = collections.Counter(self.entries) + collections.Counter(it for it in self.pairs if it)
        self.blames = [self.blame(*it, counts) for it in zip(self.failed, self.entries, self.pairs)]

    def causes(self):
        """Each blame with its cases, in the order of their first."""
        causes = {}
        for case, blame in zip(self.failed, self.blames):
            causes.setdefault(blame, []).append(case)
        return causes

    @staticmethod
    def like(case):
        """What tells apart the cases of a rule, but for the own mode: the cover, and of heirs the mode on the ghost."""
        rule, cover, from_ = case[:3]
        return rule, cover, from_[1:]

    def request(self, hole):
        row, own = hole
        return self.table.ask(row, own if row == 'insert-next' else 0)

    def blame(self, case, entry, pair, counts):
        if self.request(case[4]) is None:
            return 'nothing', case[4][0]
        return pair if pair and counts[pair] > counts[entry] else entry

    def pair(self, case):
        held, hole = case[3:]
        asked = self.request(hole)
        tested = asked and self.table.convert[hole[1]][asked[0]]
        return ('pair', tested, held) if tested and held and self.table.ok[tested][held] else None

    def entry(self, case):
        """The entry by which the mode of a case was taken: a row, an insert or a purge; or where this isn't to blame for one who has
        no lock there yet, a conversion."""
        rule, _, from_, mode = case[:4]
        if rule in ('Insert', 'Split'):
            return 'new key', mode
        asked = self.table.ask(ROWS[rule]) if rule in ROWS else None
        held, requested = from_ if rule == 'Conversion' else (from_[0], self.table.heir[from_[1]] if rule == 'Heir' else asked and asked[1] and asked[0])
        if self.like(case) not in self.alone and (requested or rule == 'Heir') and self.table.convert[held][requested] == mode:
            return 'conversion', held, requested
        if rule == 'Heir':
            return 'heir', requested
        return ('request' if asked or ROWS[rule] not in ACCESSES else 'nothing'), ROWS[rule]


def groups_of(cases):
    """How many of the cases are of each group, as a title has it."""
    counts = collections.Counter(RULES.index(it[0]) for it in cases)
    return ', '.join(f'G{at + 1}: {counts[at]}' for at in sorted(counts)) + (' case' if len(cases) == 1 else ' cases')


def tried_for(blame, cases, table):
    """The edit of the entry that is to blame, with each value that may mend the cases."""
    modes, kind, (what, *_) = range(1, table.count + 1), blame[0], blame[1:]
    if kind == 'heir':
        return Edit('heir', tuple(sorted({it[2][1] for it in cases})), (0, *modes))
    if kind == 'conversion':
        return Edit('conversion', blame[1:], tuple(modes))
    if kind == 'pair':
        return Edit('pair', blame[1:], (False,))
    if kind == 'new key':
        return Edit('request', ('insert', 'current', tuple(sorted({it[2][0] for it in cases})), 'commit'), tuple(modes))
    if what == 'insert-next':
        return Edit('request', ('insert', 'next', None, 'instant'), tuple(modes))
    return Edit('request', (what, PLACES[what][0], None, 'commit'), tuple(modes))


def with_edit(table, edit, value):
    """The table with an edit to a value: a mode, 0 for none, or whether a pair is compatible."""
    if edit.kind == 'pair':
        return Changed(table, '', pairs={edit.entry: value})
    if edit.kind == 'conversion':
        return Changed(table, '', conversions={edit.entry: value})
    if edit.kind == 'heir':
        return Changed(table, '', heirs=dict.fromkeys(edit.entry, value))
    return Changed(table, '', request=(edit.entry[:3], edit.request(value)))


def outcome(table, failed, cases, edit, value):
    """What an edit to a value makes of a table of which these cases fail: it is accepted, safe, or some cases are mended. A table that
    is safe can only be accepted then; None where the second form doesn't know whether it is safe."""
    changed = with_edit(table, edit, value)
    after = failed_cases(changed)[0]
    if not after:
        return 'accepted'
    if is_safe(table):
        return 'neither'
    if (safe := is_safe(changed)) is not False:
        return safe and 'safe'
    of = lambda its: {it[:3] for it in its}
    return 'mended' if not of(after) & of(cases) and of(after) <= of(failed) else 'neither'
