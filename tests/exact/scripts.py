"""Schedules around a key A: scripts that are put together move by move, and their endings.

The keys P1 > P2 > .. of the opening are below A; a transaction may put further keys between P1 and A, one above another; the
key A - 1 is in no opening, and is what is read of the gap below A. The next name is A + STEP."""

from condition import (
    DELETE,
    DELETE_NEXT,
    FREE,
    GAP_DELETED,
    GAP_READ,
    HIT,
    INSERT,
    INSERT_NEXT,
    KEPT_OUT_BY_KEY,
    KEY_READ,
    MISS,
    READ,
    STOP,
    UPDATE,
)

STEP = 100000
THIRD = 9  # a third transaction, which comes in at the end


class Script:
    def __init__(self, key=STEP):
        self.key, self.opening, self.steps, self.value = key, {}, [], 100
        self.deleted, self.put_in, self.deleted_by = 0, [], {}
        self.gap = self  # the script that counts the keys of the gap, where two names have one

    def do(self, txn, *step):
        self.steps.append((txn, *step))

    def write(self, txn, operation, key):
        self.value += 1
        self.do(txn, operation, key, self.value)

    def absent(self):
        return self.gap.key - 1

    def delete_below(self, txn):
        """The key just below A is deleted: one that was put in, or the next of the opening."""
        gap = self.gap
        if gap.put_in:
            return self.do(txn, 'delete', gap.put_in.pop())
        gap.deleted += 1
        below = gap.key - 1000 * gap.deleted
        gap.opening[below] = gap.deleted
        gap.deleted_by[txn] = below
        self.do(txn, 'delete', below)

    def put_below(self, txn):
        gap = self.gap
        gap.put_in.append((gap.put_in[-1] if gap.put_in else gap.key - 500) + 1)
        self.write(txn, 'insert', gap.put_in[-1])

    def move(self, txn, place, key=None, absent=None):
        """The transaction requests a lock on the key, A if nothing is said, at this place."""
        key, absent = key or self.key, absent or self.absent()
        match place:
            case _ if place == HIT:
                self.do(txn, 'fetch', key)
            case _ if place == MISS:
                self.do(txn, 'fetch', absent)
            case _ if place == READ:
                self.do(txn, 'scan', absent, key)
            case _ if place == STOP:
                self.do(txn, 'scan', absent, absent)
            case _ if place == UPDATE:
                self.write(txn, 'update', key)
            case _ if place == DELETE_NEXT:
                self.delete_below(txn)
            case _ if place == INSERT_NEXT:
                self.put_below(txn)
            case _ if place == DELETE:
                self.do(txn, 'delete', key)
            case _ if place == INSERT:
                self.write(txn, 'insert', key)

    def extend(self, other):
        """The steps of a script at another name come next."""
        self.opening.update(other.opening)
        self.steps += other.steps

    # Endings: the intruder asks at the place beside the holder, and goes on so that the run is wrong.

    def end(self, place, holder, T, U, *, from_opening=True, deleted=True, read=True, put_in=0):
        """The script with its ending, or None where what is protected isn't at risk. The holder is T's lock state on A, and
        U the intruder; whether A was there in the opening, T has deleted a key below A, T has read the gap; and how many
        keys put in stand in it."""
        if place in KEPT_OUT_BY_KEY[holder.key]:
            is_at_risk = self.end_at_key(place, holder.key, T, U, from_opening, deleted, put_in)
        elif read and ((holder.gap == GAP_READ and place in (INSERT_NEXT, DELETE)) or (holder.gap and place == INSERT_NEXT)):
            is_at_risk = self.end_in_read_gap(place, T, U)
        elif holder.gap == GAP_DELETED and deleted and not put_in:
            is_at_risk = self.end_in_deleted_gap(place, T, U)
        else:
            is_at_risk = False
        return self if is_at_risk else None

    def end_at_key(self, place, use, T, U, from_opening, deleted, put_in):
        if use == KEY_READ:
            self.move(U, place)
            self.do(U, 'commit')
            self.do(T, 'commit')
            return True
        if place in (HIT, READ, DELETE, UPDATE):
            self.move(U, place)
            self.do(T, 'abort')
            self.do(U, 'commit')
            return True
        if from_opening or put_in:
            return deleted and not put_in and self.end_in_deleted_gap(place, T, U)
        if place == DELETE_NEXT:
            return self.intrude_deleting(T, U)
        self.move(U, place)
        self.do(T, 'abort')
        self.write(THIRD, 'insert', self.absent())
        self.do(THIRD, 'commit')
        self.do(U, 'commit')
        return True

    def end_in_read_gap(self, place, T, U):
        if place == DELETE:
            self.do(U, 'delete', self.key)
        self.write(U, 'insert', self.absent())
        self.do(U, 'commit')
        self.do(T, 'commit')
        return True

    def end_in_deleted_gap(self, place, T, U):
        if place == DELETE_NEXT:
            return self.intrude_deleting(T, U)
        below = self.gap.deleted_by[T]
        if place in (MISS, STOP, READ):
            ends = [below, below] if place == STOP else [below, self.gap.key]
            self.do(U, *(['fetch', below] if place == MISS else ['scan', *ends]))
            self.do(T, 'abort')
            self.do(U, 'commit')
            return True
        if place == INSERT_NEXT:
            self.write(U, 'insert', self.absent())
        else:
            self.do(U, 'delete', self.key)
        self.do(U, 'commit')
        self.do(THIRD, 'fetch', below)
        self.do(THIRD, 'commit')
        self.do(T, 'abort')
        return True

    def intrude_deleting(self, T, U):
        self.delete_below(U)
        self.do(T, 'abort')
        self.do(THIRD, 'fetch', self.gap.deleted_by[U])
        self.do(THIRD, 'commit')
        self.do(U, 'abort')
        return True
