#!/usr/bin/env python3
"""Makes a script of a given number of steps, on an opening map of as many keys:
bench/scripts.py KIND STEPS [SEED] > FILE.

KIND is one of
  uniform           sixteen transactions at a time, eight steps each at any keys
  hot-spot          the same, with nine steps in ten at twenty keys
  scan-heavy        eight at a time: every other one scans twenty keys, the others insert four
  insert-ascending  transactions of eight inserts one after another, each past the last key
  abort-heavy       eight at a time: twelve changes at four keys, four transactions in five are rolled back
  many-holders      sixty-three transactions read the same eight keys, and one that would delete them is blocked by all
  one-long          one transaction with all steps
  long-scan         one scan of all keys
  many-txns         transactions of one step each
  deletes-rising    one transaction deletes all keys, the least first
  deletes-falling   the same, the greatest first
  numbers-falling   transactions that only commit, the greatest number first
The same words always give the same script; SEED is a whole number, 1 where there is none.
"""
import json
import random
import sys

# Keys stand apart, so that there are gaps to read and to insert into.
APART = 10


class Maker:
    """Steps of a script on keys APART, 2 * APART and so on, with the random numbers of a seed."""

    def __init__(self, count, seed):
        self.count = count
        self.chance = random.Random(seed)

    def any_key(self):
        """A key of the opening map or one in a gap behind it, each half of the time."""
        return APART * self.chance.randrange(1, self.count + 1) + self.chance.choice([0, self.chance.randrange(1, APART)])

    def operation(self, txn, key):
        """A fetch half of the time, else an insert or a delete."""
        kind = self.chance.choice(["fetch", "fetch", "insert", "delete"])
        return [txn, kind, key] + [txn] * (kind == "insert")

    def in_turns(self, at_a_time, program):
        """So many transactions at a time: at each step one of them, by chance, takes the next step of its program."""
        made, following = [], at_a_time + 1
        going = [iter(program(txn)) for txn in range(1, following)]
        while len(made) < self.count:
            at = self.chance.randrange(at_a_time)
            step = next(going[at], None)
            if step is None:
                going[at], following = iter(program(following)), following + 1
            else:
                made.append(step)
        return made

    def uniform(self):
        def program(txn):
            yield from (self.operation(txn, self.any_key()) for _ in range(8))
            yield [txn, "commit"]
        return self.in_turns(16, program)

    def hot_spot(self):
        def key():
            return APART * self.chance.randrange(1, 21) if self.chance.random() < 0.9 else self.any_key()

        def program(txn):
            yield from (self.operation(txn, key()) for _ in range(8))
            yield [txn, "commit"]
        return self.in_turns(16, program)

    def scan_heavy(self):
        def program(txn):
            key = self.any_key()
            if txn % 2 == 0:
                yield from ([txn, "insert", key + at, txn] for at in range(4))
            else:
                yield [txn, "scan", key, key + 20 * APART]
                yield from ([txn, "go"] for _ in range(20))
            yield [txn, "commit"]
        return self.in_turns(8, program)

    def insert_ascending(self):
        def program(txn):
            first = APART * self.count + 8 * txn
            yield from ([txn, "insert", first + at, txn] for at in range(8))
            yield [txn, "commit"]
        return self.in_turns(1, program)

    def abort_heavy(self):
        def program(txn):
            first = self.any_key()
            for at in range(12):
                kind = "delete" if at // 4 == 1 else "insert"
                yield [txn, kind, first + at % 4] + [txn] * (kind == "insert")
            yield [txn, "commit" if self.chance.random() < 0.2 else "abort"]
        return self.in_turns(8, program)

    def many_holders(self):
        held = [APART * at for at in range(1, 9)]
        reads = [[txn, "fetch", key] for key in held for txn in range(1, 64)]
        tries = ([64, "delete", self.chance.choice(held)] for _ in range(self.count - len(reads)))
        return (reads + list(tries))[: self.count]

    def one_long(self):
        return [self.operation(1, self.any_key()) for _ in range(self.count - 1)] + [[1, "commit"]]

    def long_scan(self):
        return [[1, "scan", 0, APART * self.count]] + [[1, "go"]] * (self.count - 2) + [[1, "commit"]]

    def many_txns(self):
        def program(txn):
            yield self.operation(txn, self.any_key())
            yield [txn, "commit"]
        return self.in_turns(1, program)

    def deletes_rising(self):
        return [[1, "delete", APART * at] for at in range(1, self.count + 1)]

    def deletes_falling(self):
        return [[1, "delete", APART * at] for at in range(self.count, 0, -1)]

    def numbers_falling(self):
        return [[txn, "commit"] for txn in range(self.count, 0, -1)]


KINDS = {
    "uniform": Maker.uniform,
    "hot-spot": Maker.hot_spot,
    "scan-heavy": Maker.scan_heavy,
    "insert-ascending": Maker.insert_ascending,
    "abort-heavy": Maker.abort_heavy,
    "many-holders": Maker.many_holders,
    "one-long": Maker.one_long,
    "long-scan": Maker.long_scan,
    "many-txns": Maker.many_txns,
    "deletes-rising": Maker.deletes_rising,
    "deletes-falling": Maker.deletes_falling,
    "numbers-falling": Maker.numbers_falling,
}


def main(kind, steps, seed="1"):
    count = int(steps)
    opening = [[APART * at, at] for at in range(1, count + 1)]
    made = KINDS[kind](Maker(count, int(seed)))
    json.dump({"format": 1, "opening": opening, "steps": made}, sys.stdout, separators=(",", ":"))
    print()


if __name__ == "__main__":
    main(*sys.argv[1:])
