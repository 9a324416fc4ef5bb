#!/usr/bin/env python3
"""Does the steps of a suite, which is read from standard input, on an engine of tests/engines/engine.py, and prints a trace with
the engine's replies.

    kr suite @kvl-update | adapter.py WAY | kr trace @kvl-update /dev/stdin     WAY is `right`, or one of those in engine.py

The engine has no savepoints: parts with a step `back` are left out. Where it blocks a step, the part ends with that."""

import json
import pathlib
import sys

sys.dont_write_bytecode = True
sys.path.append(str(pathlib.Path(__file__).resolve().parents[1] / 'engines'))

from engine import WAYS, Engine
from parts import parts_of


def replies_of(way, opening, steps):
    """The engine's reply to each step, up to the first that it blocks."""
    engine, scans = Engine(opening, way), {}
    for txn, operation, *words in steps:
        if operation in ('commit', 'abort'):
            # One that releases its locks first lets nobody in between: nobody waits.
            engine.end(txn, operation == 'abort')
            engine.changes.pop(txn, None)
            yield ['committed' if operation == 'commit' else 'aborted']
            continue
        if operation == 'scan':
            scans[txn] = words
        access = ['scan', *scans[txn]] if operation == 'go' else [operation, *words]
        engine.look_early(txn, *access[:2])
        requests = engine.requests(txn, *access)
        blockers = engine.blockers(txn, requests)
        if blockers:
            yield ['blocked', blockers]
            return
        yield engine.perform(txn, requests, *access)


def lines_of(way, parts):
    """The lines of the parts that the engine can do, with its replies."""
    for part in parts:
        steps = [step for step, _ in part.lines]
        if all(step[1] != 'back' for step in steps):
            yield part.head
            yield from ([step, reply] for step, reply in zip(steps, replies_of(way, part.opening, steps)))


def main():
    way = sys.argv[1] if len(sys.argv) == 2 else ''
    if way not in ('right', *WAYS):
        print(__doc__, file=sys.stderr)
        return 2
    for line in lines_of(way, parts_of(sys.stdin)):
        print(json.dumps(line, separators=(',', ':')), flush=True)
    return 0


if __name__ == '__main__':
    sys.exit(main())
