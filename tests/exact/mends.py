"""Whether the fixes that kr explain tells of a table do what it says, by the checker of tests/second and condition.py. What is told of
an entry is each mode with which the table is accepted, or safe; or else modes with which no case fails that held, and of the
cause's groups as many cases fewer fail as it has, or more."""

import collections
import re

from changes import Changed
from checker import Checker
from condition import is_safe
from fixes import causes_of, edit_of


class WrongFix(Exception):
    """What is told of a cause isn't so."""


def with_edit(table, edit, value):
    """The table with an edit to a value: a mode, 0 for none, or whether a pair is compatible."""
    if edit.kind == 'pair':
        return Changed(table, '', pair=edit.entry) if table.ok(*edit.entry) != value else table
    if edit.kind == 'conversion':
        return Changed(table, '', conversion={edit.entry: value})
    row, side, owns, _ = edit.entry
    for own in owns or [None]:
        table = Changed(table, '', request=((row, side, own), edit.request(value)))
    return table


def failed_of(table):
    """The cases that fail: each with its group, cover and modes."""
    return {(it['case'], it['cover'], *it['from']) for it in Checker(table).report().get('failed', [])}


def may_mend(failed, groups, after):
    """Whether the cases of a cause with these groups can hold after a change, and no case fails that held."""
    before, then = (collections.Counter(it[0] for it in cases) for cases in (failed, after))
    return after <= failed and all(before[it] - then[it] >= int(count) for it, count in re.findall(r'(G\d+): (\d+)', groups))


def outcomes(table, failed, groups, edit, values):
    """The values of an entry with which the table is accepted, safe, or may be mended."""
    found, was_safe = {'accepted': set(), 'safe': set(), 'mended': set()}, is_safe(table)
    for value in values:
        changed = with_edit(table, edit, value)
        after = failed_of(changed)
        if not after:
            found['accepted'].add(value)
        elif was_safe:
            continue
        elif is_safe(changed):
            found['safe'].add(value)
        elif may_mend(failed, groups, after):
            found['mended'].add(value)
    return found


def hold_fixes(table, text):
    """Holds the fixes that a text tells below the causes of a table, and counts them."""
    failed, counts = failed_of(table), collections.Counter()
    for cause in causes_of(text):
        edits = [edit_of(words, table.names) for words, _ in cause.fixes]
        if not edits:
            continue
        if len({(it.kind, it.entry) for it in edits}) > 1:
            raise WrongFix(f'fixes of several entries: {cause.fixes}')
        values = (False,) if edits[0].kind == 'pair' else table.modes
        found = outcomes(table, failed, cause.groups, edits[0], values)
        told = {claim: {*edit.values} for edit, (_, claim) in zip(edits, cause.fixes)}
        wanted = [it for it in ('accepted', 'safe') if found[it]][: 1 if cause.is_wish else 2]
        is_well = told['mended'] <= found['mended'] if [*told] == ['mended'] and not wanted else told == {it: found[it] for it in wanted}
        if not is_well:
            raise WrongFix(f'{cause.fixes} is told of {cause.groups}, and the second form finds {found}')
        counts.update(told.keys())
    return counts
