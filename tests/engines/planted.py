#!/usr/bin/env python3
"""Holds the planted engines with kr trace (of KR in the environment, or the built one): the right one conforms in each of N
random parts, and its answers are serializable in commit order; each wrong one, in a tenth as many parts, differs at the line
where it first decides what the right one doesn't, in the same way, and nowhere else; and some part of each differs.

    planted.py [--parts N] [--seed N]     by default 1,000 parts
    planted.py --trace WAY                prints a trace of such parts; WAY is `right`, or one of those in engine.py

Status 1 where that isn't so."""

import argparse
import collections
import random
import sys

sys.dont_write_bytecode = True

from engine import WAYS
from program import TABLES, reports_of, text_of
from schedule import Schedule

TABLE = TABLES / 'kvl-update.toml'


def parts(way, seed, count):
    """The trace of so many random parts, and how and where each first decides wrongly, if it does."""
    rand, lines, wrong = random.Random(f'{way} {seed}'), [], []
    for _ in range(count):
        part = Schedule(rand, way, len(lines) + 1).run()
        lines += part.lines
        wrong.append(part.wrong)
    return text_of(lines), wrong


def hold(way, seed, count):
    """Whether kr trace says of each part what it should."""
    trace, wrong = parts(way, seed, count)
    wrong = [None] * count if way == 'right' else wrong
    kinds, queued = collections.Counter(), 0
    for report, expected in zip(reports_of(TABLE, trace), wrong, strict=True):
        conforms = report['conforms']
        kinds[conforms[0]] += 1
        queued += report['queued']
        if conforms[:2] != (expected or ['yes']) or not expected and report['verdict'] != ['serial']:
            print(f'planted: {way}: with the seed {seed} it differs so: {expected}, and kr trace says: {report}')
            return False
    print(f'planted: {way}: {trace.count(10)} lines, {queued} queued', *(f'{kinds[it]} {it}' for it in sorted(kinds)), sep=', ')
    if way != 'right' and not any(wrong):
        print(f'planted: {way}: no part differs')
        return False
    return True


def main():
    words = argparse.ArgumentParser(description=__doc__, formatter_class=argparse.RawDescriptionHelpFormatter)
    words.add_argument('--parts', type=int, default=1000)
    words.add_argument('--seed', type=int, default=1)
    words.add_argument('--trace', choices=['right', *WAYS])
    given = words.parse_args()
    if given.trace:
        sys.stdout.buffer.write(parts(given.trace, given.seed, given.parts)[0])
        return 0
    counts = {'right': given.parts, **{way: -(-given.parts // 10) for way in WAYS}}
    return 0 if all([hold(way, given.seed, count) for way, count in counts.items()]) else 1


if __name__ == '__main__':
    sys.exit(main())
