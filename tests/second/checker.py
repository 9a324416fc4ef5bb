"""The checker of protocol tables, written from docs/DEFINITIONS.md ("Covers and cases") alone."""

COVERS = ['RK', 'RG', 'IK', 'DG', 'UK']
MUST_CONFLICT = {  # UK, and the places in the row update, only where updates are offered
    'RK': [('delete', 'current'), ('update', 'current')],
    'RG': [('insert', 'next'), ('delete', 'current')],
    'IK': [
        ('fetch-hit', 'current'),
        ('fetch-miss', 'next'),
        ('scan-key', 'current'),
        ('scan-stop', 'next'),
        ('delete', 'current'),
        ('delete', 'next'),
        ('update', 'current'),
    ],
    'DG': [
        ('fetch-miss', 'next'),
        ('scan-key', 'current'),
        ('scan-stop', 'next'),
        ('insert', 'next'),
        ('delete', 'current'),
        ('delete', 'next'),
    ],
    'UK': [('fetch-hit', 'current'), ('scan-key', 'current'), ('delete', 'current'), ('update', 'current')],
}


class Checker:
    def __init__(self, table):
        self.table = table
        self.covers = COVERS if table.updates else COVERS[:-1]
        self.first_open = {
            (cover, held): next(self.open_places(cover, held), None) for cover in self.covers for held in table.with_none
        }

    def must_conflict(self, cover):
        return [(row, side) for row, side in MUST_CONFLICT[cover] if row != 'update' or self.table.updates]

    def open_places(self, cover, held):
        """The rows and sides, with two own modes of the asker, at which the held mode lets a request in."""
        table = self.table
        for row, side in self.must_conflict(cover):
            for own in table.with_none:
                for own_next in table.with_none if side == 'current' else [own]:
                    asked = table.ask(row, side, own_next)
                    if asked is None or table.ok(table.convert(own, asked[0]), held):
                        yield row, side, own, own_next

    def serves(self, held, cover):
        return self.first_open[cover, held] is None

    def cases(self):
        """Each case: its group, cover, the modes that it is taken at, and the mode that has to serve the cover, or None
        where it holds in any case."""
        modes, owns, ask, after = self.table.modes, self.table.with_none, self.table.ask, self.table.mode_after
        for cover in self.covers:
            for held in modes:
                for asked in modes:
                    yield 'G1', cover, [held, asked], self.table.convert(held, asked) if self.serves(held, cover) else None
        for own in owns:
            yield 'G2', 'RK', [own], after(own, ask('fetch-hit', 'current', 0))
        for own in owns:
            yield 'G3', 'RG', [own], after(own, ask('fetch-miss', 'next', 0))
        for cover in ['RK', 'RG']:
            for own in owns:
                yield 'G4', cover, [own], after(own, ask('scan-key', 'current', 0))
        for own in owns:
            yield 'G5', 'RG', [own], after(own, ask('scan-stop', 'next', 0))
        for own_next in owns:
            for own in owns:
                yield 'G6', 'IK', [own_next, own], after(own, ask('insert', 'current', own_next))
        for cover in ['RG', 'DG']:
            for own_next in owns:
                for own in owns:
                    mode = after(own, ask('insert', 'current', own_next))
                    yield 'G7', cover, [own_next, own], mode if self.serves(own_next, cover) else None
        for own_next in owns:
            yield 'G8', 'DG', [own_next], after(own_next, ask('delete', 'next', own_next))
        for own in owns if self.table.updates else []:
            yield 'G9', 'UK', [own], after(own, ask('update', 'current', 0))

    def report(self):
        """What `kr check` prints, as an object."""
        cases, names = list(self.cases()), self.table.names
        failed = [
            {
                'case': group,
                'cover': cover,
                'from': [names[it] for it in taken],
                'mode': names[mode],
                'open': [*self.first_open[cover, mode][:2], *(names[it] for it in self.first_open[cover, mode][2:])],
            }
            for group, cover, taken, mode in cases
            if mode is not None and not self.serves(mode, cover)
        ]
        report = {'accepted': not failed, 'cases': len(cases), 'failed': failed, 'modes': len(self.table.modes)}
        return report if failed else {member: report[member] for member in report if member != 'failed'}
