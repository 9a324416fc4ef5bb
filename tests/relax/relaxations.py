"""The relaxations of a table, from the definitions alone: crates/kr_change/specs/Every.antt lists the changes of one entry, and
crates/kr_relax_core/specs says which of them let more through and keep the table safe, and which entries nothing uses. Tables are
those of tests/second, and changed ones those of tests/suite."""

from changes import changes_of
from condition import BY_NEXT, DELETE_NEXT, INSERT, INSERT_NEXT, Closure, bits


def given(place, own, above):
    """The own mode by which a request goes, of one who holds `own` on the name and `above` on the next one."""
    return above if place in BY_NEXT else own if place in (INSERT_NEXT, DELETE_NEXT) else 0


def lines_of(names, tested, asked, requested, places):
    """The lines of the entries that no schedule comes to, by those that they come to: pairs of a tested and a held mode, of a held and
    an asked one, and requests at these places by the own mode on the next name. `names` has those of the modes, `none` first."""
    modes, lines = range(1, len(names)), []
    listed = lambda them: ''.join(f' {names[it]}' for it in them)
    for q in modes:
        if there := listed(h for h in modes if (q, h) not in tested):
            lines.append(f'unused: {names[q]} beside{there}\n')
    for h in modes:
        if there := listed(q for q in modes if (h, q) not in asked):
            lines.append(f'unused: {names[h]} held,{there} asked\n')
    for row, side in places:
        if there := listed(o for o in range(len(names)) if (row, side, o) not in requested):
            lines.append(f'unused: {row} {side} own{there}\n')
    return ''.join(lines)


def spots(closure):
    """Which requests schedules bring beside which locks: place, own mode, mode on the next name, other's mode."""
    found = set()
    for x, moves in enumerate(closure.moves):
        for move in moves:
            above = move.next.mode if move.place in BY_NEXT else 0
            others = closure.beside[x] & (closure.idle if move.place == INSERT else closure.all)
            found.update((move.place, closure.states[x].mode, above, closure.states[y].mode) for y in bits(others))
    return found


class Reach:
    """What schedules come to under a table, and what other tables grant there."""

    def __init__(self, table):
        self.table, self.met = table, self.spots(table)
        self.alone = {it[:3] for it in self.met if it[3] == 0}  # beside nobody's lock

    def spots(self, table):
        return spots(Closure(table))

    def mode_then(self, table, place, own, above):
        """The mode after a request that is granted."""
        return table.mode_after(own, table.ask(*place, given(place, own, above)))

    def is_blocked(self, table, place, own, above, held):
        asked = table.ask(*place, given(place, own, above))
        return asked is not None and not table.ok(table.convert(own, asked[0]), held)

    def is_safe(self, table):
        return Closure(table).is_safe()

    def changes(self):
        return changes_of(self.table)

    def steps(self, new, found):
        """Each mode to which a granted request leads, with those to which it leads under another table from the modes that were found
        there."""
        for place, own, above in self.alone:
            there = [self.mode_then(new, place, own2, above2) for own2 in found.get(own, ()) for above2 in found.get(above, ())]
            yield self.mode_then(self.table, place, own, above), there

    def twins(self, new):
        """Of each mode, which modes the same requests give under the new table, all granted by the old one."""
        found = {0: {0}}
        grows = True
        while grows:
            grows = False
            for mode, there in self.steps(new, found):
                grows |= not found.setdefault(mode, set()).issuperset(there)
                found[mode].update(there)
        return found

    def granted_more(self, new):
        """How many requests beside locks the new table grants that the old one blocks; none (None) where it blocks more somewhere."""
        twin = self.twins(new)
        more = 0
        for place, own, above, held in self.met:
            before = self.is_blocked(self.table, place, own, above, held)
            after = {self.is_blocked(new, place, a, n, h) for a in twin[own] for n in twin[above] for h in twin[held]}
            if not before and True in after:
                return None
            more += before and False in after
        return more

    def outcome(self, change):
        """What a change does, in the program's words."""
        more = self.granted_more(change)
        if more is None:
            return 'blocks more somewhere'
        if more == 0:
            return 'lets nothing more through'
        return f'a relaxation, more granted: {more}' if self.is_safe(change) else 'not safe'

    def relaxations(self):
        """The relaxations, the widest first, and how much more each grants."""
        found = [(self.granted_more(it), it) for it in self.changes()]
        found = [(more, it) for more, it in found if more and self.is_safe(it)]
        return sorted(found, key=lambda it: -it[0])

    def unused(self):
        """The lines of the entries that no schedule comes to."""
        tested, asked, requested = set(), set(), set()
        for place, own, above, held in self.met:
            own_next = given(place, own, above)
            requested.add((*place, own_next))
            if request := self.table.ask(*place, own_next):
                tested.add((self.table.convert(own, request[0]), held))
                asked.add((own, request[0]))
        places = [(row, side) for row in ('insert', 'delete') for side in ('current', 'next')]
        return lines_of(self.table.names, tested, asked, requested, places)
