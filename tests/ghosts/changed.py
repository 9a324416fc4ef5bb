"""All tables that differ from a table with ghosts in one entry, in the order of ghost_changes_of in
crates/kr_change/specs/Every.antt, each with the name by which kr has it."""

import pathlib
import sys

sys.path.append(str(pathlib.Path(__file__).resolve().parents[1] / 'suite'))

from model import VAIN, Table
from others import other_conversions, other_pairs, other_requests, place_of

SPANS = ('instant', 'commit')  # of a request, by whether it is kept
PLACES = {  # the rows, each with its sides
    **{'fetch-hit': ['current'], 'fetch-miss': ['next'], 'scan-key': ['current'], 'scan-stop': ['next'], 'insert': ['current', 'next']},
    **{'delete': ['current'], 'update': ['current'], 'revive': ['current', 'next']},
    **{'insert-hit': ['current', 'next'], 'delete-miss': ['next'], 'update-miss': ['next']},
}
BY_OWN = 'insert'  # the row whose requests may go by the own mode on the next name


def row_at(row, side):
    """The row's requests at a side, as `Table.rows` names them."""
    return f'{row}-next' if side == 'next' and 'current' in PLACES[row] else row


def is_offered(table, row):
    return row in table.rows if row in VAIN else row != 'update' or table.updates


class Changed(Table):
    """A table with entries changed: whether pairs are compatible, conversions, what a row requests at a side with some own modes
    (None for all), and in what modes locks on a ghost are inherited."""

    def __init__(self, table, name, pairs={}, conversions={}, request=None, heirs={}):
        super().__init__([[*it] for it in table.ok], [[*it] for it in table.convert], dict(table.rows), table.heir and [*table.heir], table.updates)
        self.name = name
        for (q, h), is_ok in pairs.items():
            self.ok[q][h] = is_ok
        for (h, q), mode in conversions.items():
            self.convert[h][q] = mode
        for h, mode in heirs.items():
            self.heir[h] = mode
        if request:
            (row, side, owns), asked = request
            at = row_at(row, side)
            asked = asked and (asked[0], asked[1] == 'commit')
            was = self.rows[at]
            self.rows[at] = [asked if owns is None or own in owns else it for own, it in enumerate(was)] if row == BY_OWN else asked


def now_at(table, row, side, own):
    """What a row requests at a side, with an own mode on the next name."""
    asked = table.ask(row_at(row, side), own)
    return asked and (asked[0], SPANS[asked[1]])


def changes_of(table, names):
    """The changed tables; `names` has those of the modes, `none` first."""
    for (q, h), name in other_pairs(names, lambda q, h: table.ok[q][h]):
        yield Changed(table, name, pairs={(q, h): not table.ok[q][h]})
    for (h, q, mode), name in other_conversions(names, lambda h, q: table.convert[h][q]):
        yield Changed(table, name, conversions={(h, q): mode})
    for row, sides in PLACES.items():
        for side in sides if is_offered(table, row) else ():
            for own in range(len(names)) if row == BY_OWN else [None]:
                for asked, name in other_requests(names, place_of(names, row, side, own), now_at(table, row, side, own or 0)):
                    yield Changed(table, name, request=((row, side, None if own is None else [own]), asked))
    for h in range(1, len(names)) if table.heir else ():
        for mode in range(len(names)):
            if mode != table.heir[h]:
                yield Changed(table, f'heir of {names[h]}: {names[mode]}', heirs={h: mode})
