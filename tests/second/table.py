"""A protocol table from its TOML file, as docs/TABLES.md and docs/DEFINITIONS.md have it. A mode is a number: 0 is none."""

import tomllib

NONE = 0
SIDES = {  # the rows, each with its sides
    'fetch-hit': ['current'],
    'fetch-miss': ['next'],
    'scan-key': ['current'],
    'scan-stop': ['next'],
    'insert': ['current', 'next'],
    'delete': ['current', 'next'],
    'update': ['current'],  # in format 2 alone
}


class Table:
    def __init__(self, text):
        self.read(tomllib.loads(text))

    def read(self, document):
        self.updates = document['format'] == 2  # whether it offers updates
        self.names = ['none', *document['modes']]
        self.modes = range(1, len(self.names))
        self.with_none = range(len(self.names))
        number = {name: mode for mode, name in enumerate(self.names)}
        self.compatible = {
            (number[requested], number[held]) for requested, row in document['compatible'].items() for held in row
        }
        self.conversion = {
            (number[held], number[requested]): number[mode]
            for held, row in document['convert'].items()
            for requested, mode in row.items()
        }
        self.clauses = {
            (row, side): [
                ({number[own] for own in clause['own']} if 'own' in clause else None, number[clause['mode']], clause['span'])
                for clause in clauses
            ]
            for row, sides in document['rules'].items()
            for side, clauses in sides.items()
        }

    def ok(self, requested, held):
        """Whether a request is compatible with a lock of another transaction."""
        return NONE in (requested, held) or (requested, held) in self.compatible

    def convert(self, held, requested):
        """The mode of one who holds a mode and requests another."""
        return held + requested if NONE in (held, requested) else self.conversion[held, requested]

    def ask(self, row, side, own_next):
        """The mode and the span that are requested, or None. A row that reads has no clause with `own`."""
        for own, mode, span in self.clauses.get((row, side), []):
            if own is None or own_next in own:
                return mode, span
        return None

    def mode_after(self, own, asked):
        """The mode of one who held `own` when the request was granted."""
        return self.convert(own, asked[0]) if asked and asked[1] == 'commit' else own
