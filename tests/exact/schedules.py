"""From a table to schedules that go wrong, by the lock states alone: no run is tried. Two transactions are followed on a key
A that stands all the while; or one alone on A and the next name, where A may come and go, and then another comes to A. Where
one has something to protect and the other's request is let in, the steps on the way there and an ending are the schedule.
That each of these goes wrong isn't shown here; whoever calls runs them."""

from typing import NamedTuple

from condition import (
    DELETE,
    DELETE_NEXT,
    GAP_DELETED,
    INSERT,
    INSERT_NEXT,
    KEY_INSERTED,
    KEY_READ,
    MISS,
    NOTHING,
    READ,
    STOP,
    UPDATE,
    State,
)
from moves import Moves, walked, way
from scripts import STEP, Script

READS_GAP = (MISS, READ, STOP)
LEVELS = 2  # how many names above A one transaction is followed on


class Standing(NamedTuple):
    """Two transactions on a key that stands."""

    states: tuple  # the lock states of transactions 1 and 2
    put_in: tuple = ()  # who put in the keys just below, the highest last
    deleted: tuple = (False, False)  # who has deleted a key of the opening below
    read: tuple = (False, False)  # who has read the gap


class Alone(NamedTuple):
    """One transaction on A and the next name."""

    x: State
    n: State
    stands: bool  # whether A stands
    stood: bool  # whether it stood in the opening
    deleted: bool  # whether a key of the opening below was deleted
    read: bool  # whether the gap was read
    put_in: int  # how many keys that were put in stand below
    just_deleted: bool  # whether the last change is the delete of A


class Seed(NamedTuple):
    """What one transaction has on the next name before A is come to."""

    n: State
    deleted: bool = False
    read: bool = False


def with_at(pair, who, value):
    return (value, pair[1]) if who == 0 else (pair[0], value)


class Schedules(Moves):
    # Two on a key that stands

    def standing_moves(self, at):
        for who in (0, 1):
            x, y = at.states[who], at.states[1 - who]
            for place in self.standing:
                if not self.may_move(place, x, y):
                    continue
                z = self.moved(place, x)
                put_in, deleted = at.put_in, at.deleted
                read = with_at(at.read, who, True) if place in READS_GAP else at.read
                if place == INSERT_NEXT:
                    if z == x or len(put_in) == 3:
                        continue
                    put_in += (who,)
                elif place == DELETE_NEXT:
                    if put_in and put_in[-1] != who:
                        continue
                    deleted = deleted if put_in else with_at(deleted, who, True)
                    put_in = put_in[:-1]
                yield (who, place), Standing(with_at(at.states, who, z), put_in, deleted, read)

    def from_standing(self, seeds, ways):
        for at, before in walked([Standing((NOTHING, NOTHING))], self.standing_moves, 10**9):
            for who in (0, 1):
                x, holder = at.states[who], at.states[1 - who]
                for place in self.kept_out(holder):
                    if place == DELETE_NEXT and at.put_in:
                        continue
                    for n in dict.fromkeys(it.n for it in seeds) if place == DELETE else [NOTHING]:
                        if self.lets_in(place, x, holder, n):
                            yield from self.standing_script(at, before, who, place, n, ways)

    def standing_script(self, at, before, who, place, n, ways):
        T, U = 2 - who, 1 + who
        script = Script()
        script.opening[script.key] = 1
        if n == NOTHING:
            script.opening[script.key + STEP] = 2
        else:
            above = Script(script.key + STEP)
            above.value = 5000
            self.build(above, U, *ways[next(it for it in ways if it.n == n)])
            script.extend(above)
        for mover, move in way(before, at)[1]:
            script.move(mover + 1, move)
        done = {'deleted': at.deleted[1 - who], 'read': at.read[1 - who], 'put_in': len(at.put_in)}
        if script.end(place, at.states[1 - who], T, U, **done):
            yield script

    # One alone on A and the next name

    def alone_starts(self, seeds):
        for it in seeds:
            yield Alone(NOTHING, it.n, True, True, False, False, 0, False)
            yield Alone(NOTHING, it.n, False, False, it.deleted, it.read, 0, False)

    def alone_moves(self, at):
        x, n, stands, put_in = at.x, at.n, at.stands, at.put_in
        for place in self.standing if stands else []:
            after = at._replace(x=self.moved(place, x), just_deleted=False)
            if place != INSERT_NEXT or (after.x != x and put_in < 2):
                yield ('A', place), self.in_gap(at, place, after)
        if stands:
            after = at._replace(x=self.moved(DELETE, x, n), n=self.moved(DELETE_NEXT, n), stands=False, just_deleted=True)
            yield ('A', DELETE), after
        elif not x.deleted or n.gap == GAP_DELETED:
            after = at._replace(x=self.moved(INSERT, x, n), n=self.moved(INSERT_NEXT, n), stands=True, just_deleted=False)
            yield ('A', INSERT), after
        for place in self.reads:
            just_deleted = at.just_deleted and place != UPDATE
            read = at.read or (not stands and place in READS_GAP)
            yield ('Y', place), at._replace(n=self.moved(place, n), read=read, just_deleted=just_deleted)
        for place in [] if stands else [DELETE_NEXT, INSERT_NEXT]:
            after = at._replace(n=self.moved(place, n), just_deleted=False)
            if place != INSERT_NEXT or (after.n != n and put_in < 2):
                yield ('Y', place), self.in_gap(at, place, after)

    @staticmethod
    def in_gap(at, place, after):  # what is so of the gap after a move there
        if place == INSERT_NEXT:
            return after._replace(put_in=at.put_in + 1)
        if place == DELETE_NEXT:
            return after._replace(deleted=at.deleted or not at.put_in, put_in=max(at.put_in - 1, 0))
        return after._replace(read=at.read or place in READS_GAP)

    def build(self, script, txn, at, before, ways):
        """The transaction comes to this state alone. `ways` has those to what it has on the next name at first."""
        start, moves = way(before, at)
        above = script.key + STEP
        if start.n == NOTHING:
            script.opening[above] = 2
        else:
            upper = Script(above)
            upper.value = script.value + 1000
            if not start.stands:
                upper.gap = script.gap
            seeds = (it for it in ways if it.n == start.n)
            self.build(upper, txn, *ways[next(seeds) if start.stands else Seed(start.n, start.deleted, start.read)])
            script.extend(upper)
        if start.stood:
            script.opening[script.key] = 1
        stands = start.stands
        for name, place in moves:
            if name == 'A':
                stands = place == INSERT or (place != DELETE and stands)
            if name == 'A' or place in (DELETE_NEXT, INSERT_NEXT):
                script.move(txn, place)
            else:
                script.move(txn, place, above, above - 1 if stands else script.absent())

    def is_at_risk(self, at):
        """Whether another may come now: A is a key that was put in; or its delete, the last change, is taken back, and there
        is more to protect than what was read."""
        if at.stands:
            return at.x.key == KEY_INSERTED
        return at.x.deleted and at.just_deleted and max(at.x.key, at.x.gap) > KEY_READ

    def from_alone(self, seeds, ways, found):
        """Adds to `found` what can be had on a key that stands, for the level below."""
        for at, before in walked(self.alone_starts(seeds), self.alone_moves):
            here = at, before, ways
            if at.stands and not at.put_in and not at.x.deleted:
                found.setdefault(Seed(at.x, at.deleted, at.read), here)
            if not self.is_at_risk(at):
                continue
            for place in self.kept_out(at.x):
                for u, ready in self.beside_key(at.x):
                    put_in = at.put_in + ready.count(INSERT_NEXT)
                    if place == DELETE_NEXT and put_in:
                        continue
                    yield from self.intrusions(here, place, u, ready, put_in)
                    if place == DELETE and not ready:
                        yield from self.prepared_intrusions(here, seeds, u)

    def intrusions(self, here, place, u, ready, put_in):
        """The intruder comes with the lock state u on A, and for a delete with one on the next name."""
        at, before, ways = here
        for n, above in self.beside_next(at.n) if place == DELETE else [(NOTHING, [])]:
            if self.is_let_in(place, u, at, n, above):
                script = Script()
                self.build(script, 1, at, before, ways)
                yield from self.intruded(script, at, place, ready, above, put_in)

    def prepared_intrusions(self, here, seeds, u):
        """The intruder has had something on the next name before the other came, and deletes A."""
        at, before, ways = here
        firsts = {}
        for it in seeds:
            firsts.setdefault(it.n.mode, it)
        for seed in firsts.values():
            if seed.n == NOTHING or not self.is_let_along(at, before, seed.n):
                continue
            for n, above in self.beside_next(at.n, seed.n):
                if self.is_let_in(DELETE, u, at, n, above):
                    script, upper = Script(), Script(2 * STEP)
                    upper.value = 5000
                    self.build(upper, 2, *ways[next(it for it in ways if it.n == seed.n)])
                    script.steps += upper.steps
                    self.build(script, 1, at, before, ways)
                    del script.opening[2 * STEP]
                    script.opening.update(upper.opening)
                    yield from self.intruded(script, at, DELETE, [], above, at.put_in)

    def is_let_in(self, place, u, at, n, above):
        if not self.lets_in(place, u, at.x, n):
            return False
        is_between = any(depth for _, depth in above)
        return place != DELETE or self.lets_in(DELETE_NEXT, n, NOTHING if is_between else at.n)

    @staticmethod
    def intruded(script, at, place, ready, above, put_in):
        if not at.stands:
            script.do(1, 'back')
        for move in ready:
            script.move(2, move)
        for move, depth in above:
            key = script.key + STEP - 100 * depth
            script.move(2, move, key, key - 1)
        # who rolls back doesn't commit, so that what it has read isn't at risk
        done = {'from_opening': at.stood, 'deleted': at.deleted, 'read': at.read and at.stands, 'put_in': put_in}
        if script.end(place, at.x, 1, 2, **done):
            yield script

    def beside_key(self, y):
        """What another can have on A beside y, with its moves: requests that need not be kept out."""

        def moves(x):
            for place in self.standing:
                if place != DELETE_NEXT and self.may_move(place, x, y):
                    yield place, self.moved(place, x)

        for x, before in walked([NOTHING], moves):
            yield x, way(before, x)[1]

    def beside_next(self, n, start=NOTHING):
        """The same on the name after A, beside n; or on a key that it puts in between, and then one below that."""

        def moves(at):
            x, depth = at
            y = NOTHING if depth else n
            for place in self.reads:
                if self.may_move(place, x, y):
                    yield (place, depth), (self.moved(place, x), depth)
            if depth < 2 and self.may_move(INSERT_NEXT, x, y):
                yield (INSERT, depth + 1), (self.moved(INSERT, NOTHING, x), depth + 1)

        for at, before in walked([(start, 0)], moves):
            yield at[0], way(before, at)[1]

    def is_let_along(self, at, before, y):
        """Whether all that is requested on the next name, on the way there from no lock on it, is let in beside y."""
        while before[at] is not None:
            at, (name, place) = before[at]
            place = {INSERT: INSERT_NEXT, DELETE: DELETE_NEXT}.get(place, place if name == 'Y' else None)
            if place and not self.may_move(place, at.n, y):
                return False
        return at.n == NOTHING

    def all(self):
        seeds, ways = [Seed(NOTHING)], {}
        yield from self.from_standing(seeds, ways)
        for _ in range(LEVELS):
            found = {}
            yield from self.from_alone(seeds, ways, found)
            found = {it: how for it, how in found.items() if it.n != NOTHING}
            if all(it in seeds for it in found):
                return
            seeds, ways = [Seed(NOTHING), *found], found
            yield from self.from_standing([*found], ways)


def schedule(table):
    """The opening and the steps of the first, or None."""
    script = next(Schedules(table).all(), None)
    return script and (sorted(script.opening.items()), script.steps)
