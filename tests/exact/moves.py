"""What one transaction's lock state becomes on a key that stands or that it inserts or deletes, and walks over what such
moves lead to."""

from collections import deque

from condition import (
    DELETE,
    DELETE_NEXT,
    GAP_ADDED,
    HIT,
    INSERT,
    INSERT_NEXT,
    KEY_ADDED,
    KEY_INSERTED,
    KEY_READ,
    MISS,
    NOTHING,
    READ,
    STOP,
    UPDATE,
    State,
)

MOST = 20000  # states of one walk


def walked(starts, moves, most=MOST):
    """What the moves lead to, breadth first, each with the way there. `moves` gives moves with what they lead to."""
    before = dict.fromkeys(starts)
    todo = deque(before)
    while todo:
        state = todo.popleft()
        yield state, before
        for move, after in moves(state):
            if after not in before and len(before) < most:
                before[after] = state, move
                todo.append(after)


def way(before, state):
    """Where the walk began, and the moves from there."""
    moves = []
    while before[state] is not None:
        state, move = before[state]
        moves.append(move)
    return state, moves[::-1]


class Moves:
    def __init__(self, table):
        self.table = table
        reads = [HIT, MISS, READ, STOP]
        self.reads = reads + [UPDATE] * table.updates  # what leaves the gap below as it is
        self.standing = [*self.reads, DELETE_NEXT, INSERT_NEXT]

    def asked(self, place, x, n=NOTHING):
        return self.table.ask(*place, n.mode if place in (INSERT, DELETE) else x.mode)

    def lets_in(self, place, x, y, n=NOTHING):
        asked = self.asked(place, x, n)
        return asked is None or self.table.ok(self.table.convert(x.mode, asked[0]), y.mode)

    def moved(self, place, x, n=NOTHING):
        mode = self.table.mode_after(x.mode, self.asked(place, x, n))
        if place == DELETE:  # what was only read is no more at risk
            key, gap = (use if use > KEY_READ else 0 for use in (x.key, x.gap))
            return State(mode, key, gap, True)
        if place == INSERT:
            return State(mode, KEY_INSERTED, max(x.gap, n.gap), False)
        return State(mode, max(x.key, KEY_ADDED.get(place, 0)), max(x.gap, GAP_ADDED.get(place, 0)), x.deleted)

    def kept_out(self, y):
        return [place for place in y.keeps_out() if place != UPDATE or self.table.updates]

    def may_move(self, place, x, y):
        """Whether the request is let in beside y, and need not be kept out."""
        return place not in y.keeps_out() and self.lets_in(place, x, y)
