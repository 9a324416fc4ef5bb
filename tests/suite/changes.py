"""All tables that differ from a table in one entry, each with the name by which docs/SUITE.md has it."""

import copy
import json

from others import other_conversions, other_pairs, other_requests, place_of
from table import NONE, SIDES, Table

MOVING = ('insert', 'delete')  # the rows whose requests may go by the own mode on the next name


class Changed(Table):
    """A table with one entry changed: a pair, a conversion, or what a row requests at a side with an own mode."""

    def __init__(self, table, name, pair=None, conversion=None, request=None):
        self.__dict__.update(copy.copy(table.__dict__))
        self.base, self.name, self.request = table, name, request
        self.compatible = table.compatible ^ {pair} if pair else table.compatible
        self.conversion = {**table.conversion, **(conversion or {})}

    def ask(self, row, side, own_next):
        place, asked = self.request or (None, None)
        return asked if place in ((row, side, own_next), (row, side, None)) else self.base.ask(row, side, own_next)


def changes_of(table):
    names = table.names
    for pair, name in other_pairs(names, table.ok):
        yield Changed(table, name, pair=pair)
    for (h, q, mode), name in other_conversions(names, table.convert):
        yield Changed(table, name, conversion={(h, q): mode})
    for row, sides in SIDES.items():
        if row != 'update' or table.updates:
            for side in sides:
                for own in table.with_none if row in MOVING else [None]:
                    now = table.ask(row, side, own or NONE)
                    for asked, name in other_requests(names, place_of(names, row, side, own), now):
                        yield Changed(table, name, request=((row, side, own), asked))


def text_of(table):
    """A table as a file, with a clause for each own mode where a row goes by those."""
    names, word = table.names, json.dumps
    row_of = lambda values: '[' + ', '.join(map(word, values)) + ']'
    lines = [f'format = {2 if table.updates else 1}', f'modes = {row_of(names[it] for it in table.modes)}', '[compatible]']
    lines += [f'{word(names[q])} = {row_of(names[h] for h in table.modes if table.ok(q, h))}' for q in table.modes]
    for h in table.modes:
        lines.append(f'[convert.{word(names[h])}]')
        lines += [f'{word(names[q])} = {word(names[table.convert(h, q)])}' for q in table.modes]
    lines.append('[rules]')
    for row, sides in SIDES.items():
        for side in sides if row != 'update' or table.updates else ():
            clauses = []
            for own in table.with_none if row in MOVING else [NONE]:
                if asked := table.ask(row, side, own):
                    of = f', own = [{word(names[own])}]' if row in MOVING else ''
                    clauses.append(f'{{ mode = {word(names[asked[0]])}, span = {word(asked[1])}{of} }}')
            lines.append(f'{row}.{side} = [{", ".join(clauses)}]')
    return '\n'.join(lines) + '\n'
