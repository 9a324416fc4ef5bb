#!/usr/bin/env python3
"""Random parts for an adapter, as a trace without replies: one transaction reads and inserts, and three others insert.

    readers.py SEED PARTS

Transaction 1 does six fetches, scans and inserts, on twelve keys, of which a quarter is there at first; the others insert a key or
two each. All commit. (In the parts of parts.py each transaction reads, and so locks gaps: an insert into a gap that another has
read is rarely granted there, even where the engine would.)"""

import json
import random
import sys

KEYS = range(10, 70, 5)


def part(rand):
    """The lines of a part."""
    yield {'format': 1, 'opening': [[key, value] for value, key in enumerate(KEYS, 1) if rand.random() < 0.25]}
    left, value = {1: 6, 2: 1, 3: 2, 4: 1}, 100
    while left:
        txn = rand.choice([1, 1, 1, *left]) if 1 in left else rand.choice([*left])
        if left[txn]:
            left[txn], value, key = left[txn] - 1, value + 1, rand.choice(KEYS)
            yield [read(rand, key) if txn == 1 and rand.random() < 0.6 else [txn, 'insert', key, value]]
        else:
            del left[txn]
            yield [[txn, 'commit']]


def read(rand, key):
    return [1, 'fetch', key] if rand.random() < 0.3 else [1, 'scan', key, rand.choice([it for it in KEYS if it >= key])]


def main(seed, parts):
    rand = random.Random(int(seed))
    for _ in range(int(parts)):
        for line in part(rand):
            print(json.dumps(line, separators=(',', ':')))


if __name__ == '__main__':
    main(*sys.argv[1:])
