"""When a table is safe: what two transactions can have on one name at the same time, written from
crates/kr_model/specs/Safe.antt alone. A set of lock states is a whole number, with a bit for each."""

from typing import NamedTuple

FREE = 0
KEY_READ, KEY_UPDATED, KEY_INSERTED = 1, 2, 3  # what was done with the key; the greater one takes in the smaller
GAP_READ, GAP_DELETED = 1, 2  # what was done in the gap below

HIT, MISS, READ, STOP = ('fetch-hit', 'current'), ('fetch-miss', 'next'), ('scan-key', 'current'), ('scan-stop', 'next')
INSERT, INSERT_NEXT = ('insert', 'current'), ('insert', 'next')
DELETE, DELETE_NEXT = ('delete', 'current'), ('delete', 'next')
UPDATE = ('update', 'current')
PLACES = [HIT, MISS, READ, STOP, INSERT, INSERT_NEXT, DELETE, DELETE_NEXT, UPDATE]
BY_NEXT = [INSERT, DELETE]  # what is requested there goes by the own mode on the next name

KEPT_OUT_BY_KEY = {
    FREE: [],
    KEY_READ: [DELETE, UPDATE],
    KEY_UPDATED: [HIT, READ, DELETE, UPDATE],
    KEY_INSERTED: [HIT, MISS, READ, STOP, DELETE, DELETE_NEXT, UPDATE],
}
KEPT_OUT_BY_GAP = {
    FREE: [],
    GAP_READ: [INSERT_NEXT, DELETE],
    GAP_DELETED: [MISS, READ, STOP, INSERT_NEXT, DELETE, DELETE_NEXT],
}
KEY_ADDED = {HIT: KEY_READ, READ: KEY_READ, INSERT: KEY_INSERTED, UPDATE: KEY_UPDATED}
GAP_ADDED = {MISS: GAP_READ, READ: GAP_READ, STOP: GAP_READ, DELETE_NEXT: GAP_DELETED}


class State(NamedTuple):
    """A lock state: what a transaction has on a name."""

    mode: int
    key: int
    gap: int
    deleted: bool  # whether it has deleted the key itself

    def is_idle(self):
        return self.key == FREE and self.gap == FREE

    def keeps_out(self):
        """The places at which no other transaction may be granted a request."""
        return dict.fromkeys(KEPT_OUT_BY_KEY[self.key] + KEPT_OUT_BY_GAP[self.gap])


NOTHING = State(0, FREE, FREE, False)


class Move(NamedTuple):
    place: tuple
    tested: int  # the converted mode, or none where nothing is requested
    after: State
    next: State | None  # on the next name, where the request goes by it


class Hole(NamedTuple):
    place: tuple
    asker: State
    next: State | None
    holder: State


def bits(states):
    while states:
        low = states & -states
        yield low.bit_length() - 1
        states ^= low


class Closure:
    """All lock states that a transaction can have on a name, and which two can be on one name."""

    def __init__(self, table):
        self.table = table
        self.places = [it for it in PLACES if it != UPDATE or table.updates]
        self.on_absent = {it for it in table.with_none if self.lets_delete(it) or self.is_compatible(it)}
        self.states, self.moves = [], []
        self.number = {}
        self.nexts = {}  # of each mode and gap of a key that isn't deleted by itself, the first such state
        self.find_states()
        everything = range(len(self.states))
        self.all = (1 << len(self.states)) - 1
        self.idle = self.of(self.may_be_on_absent(it) for it in self.states)
        self.lets_in = [self.of(table.ok(q, it.mode) for it in self.states) for q in table.with_none]
        step = lambda it: (it.tested, it.place == INSERT, self.number[it.after])
        self.steps = [sorted({step(it) for it in moves}) for moves in self.moves]
        self.beside = [self.all if n == 0 else 1 for n in everything]
        self.find_pairs()

    @staticmethod
    def of(chosen):
        return sum(1 << n for n, it in enumerate(chosen) if it)

    def move(self, place, x, n):
        """What is requested at a place, with the lock state x on the name and n on the next."""
        own_next = n.mode if place in BY_NEXT else x.mode if place in (INSERT_NEXT, DELETE_NEXT) else 0
        asked = self.table.ask(*place, own_next)
        tested = self.table.convert(x.mode, asked[0]) if asked else 0
        gap = n.gap if place == INSERT else GAP_ADDED.get(place, FREE)
        key = max(x.key, KEY_ADDED.get(place, FREE))
        after = State(self.table.mode_after(x.mode, asked), key, max(x.gap, gap), place == DELETE)
        return Move(place, tested, after, n if place in BY_NEXT else None)

    def lets_delete(self, mode):
        """Whether a lock in this mode lets in some delete of its key."""
        requests = [(own, self.table.ask(*DELETE, n)) for own in self.table.with_none for n in self.table.with_none]
        return any(not it or self.table.ok(self.table.convert(own, it[0]), mode) for own, it in requests)

    def is_compatible(self, mode):
        return any(self.table.ok(mode, held) for held in self.table.modes)

    def may_be_on_absent(self, state):
        """Whether it has nothing to protect, and may be on a key that another has taken away."""
        return state.is_idle() and not state.deleted and state.mode in self.on_absent

    def may_ask(self, place, x, n):
        """Whether one with the lock state x may come to request a lock there; n isn't that of a deleted key."""
        if place == INSERT:
            return n.gap == GAP_DELETED if x.deleted else self.may_be_on_absent(x)
        return not x.deleted

    def add(self, state):
        if state not in self.number:
            self.number[state] = len(self.states)
            self.states.append(state)
            self.moves.append([])
            self.todo.append((state, [*self.nexts.values()]))
            if not state.deleted and (state.mode, state.gap) not in self.nexts:
                self.nexts[state.mode, state.gap] = state
                self.todo.extend((it, [state]) for it in self.states)

    def find_states(self):
        """What one transaction can come to where nobody is beside it: then nothing is blocked. A state and a state on
        the next name are put together once."""
        self.todo = []
        self.add(NOTHING)
        done = set()
        while self.todo:
            x, nexts = self.todo.pop()
            moves = self.moves[self.number[x]]
            for place in self.places:
                for n in nexts if place in BY_NEXT else [NOTHING]:
                    if (place, x, n) in done or not self.may_ask(place, x, n):
                        continue
                    done.add((place, x, n))
                    moves.append(self.move(place, x, n))
                    self.add(moves[-1].after)

    def find_pairs(self):
        """Either may end, so that each can be beside one that has nothing; from there each pair leads to others."""
        new = list(self.beside)  # pairs whose moves aren't followed yet
        todo = [*range(len(self.states))]
        while todo:
            x = todo.pop()
            beside, new[x] = new[x], 0
            for tested, is_insert, z in self.steps[x]:
                found = beside & self.lets_in[tested] & ~self.beside[z]
                if is_insert:
                    found &= self.idle
                if not found:
                    continue
                self.beside[z] |= found
                todo += [] if new[z] else [z]
                new[z] |= found
                for y in bits(found):
                    if not self.beside[y] >> z & 1:
                        self.beside[y] |= 1 << z
                        todo += [] if new[y] else [y]
                        new[y] |= 1 << z

    def holes(self):
        """Each request that isn't blocked, of one who may come to ask, beside a lock that has to block it."""
        for place in self.places:
            keep_out = self.of(place in it.keeps_out() for it in self.states)
            for x, moves in enumerate(self.moves):
                for move in moves:
                    if move.place == place:
                        for y in bits(self.beside[x] & keep_out & self.lets_in[move.tested]):
                            yield Hole(place, self.states[x], move.next, self.states[y])

    def is_safe(self):
        return next(self.holes(), None) is None


def is_safe(table):
    return Closure(table).is_safe()
