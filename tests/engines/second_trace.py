#!/usr/bin/env python3
"""A second kr trace, written from docs/TRACES.md and docs/DEFINITIONS.md alone, over the steps of tests/second.

    second_trace.py TABLE TRACE | --serial TRACE | --some-order TRACE

It prints what kr trace prints, and ends with the same status. TABLE is @NAME, of tables/, or the file of a table without a
fault, and TRACE a file or /dev/stdin. Needs Python 3.11 or later."""

import itertools
import json
import pathlib
import sys

sys.dont_write_bytecode = True

from follower import Follower, fits
from lines import LONGEST, Fault, read_line
from runner import whole
from table import Table

MOST_TRIED = 7  # committed transactions, of which all orders are tried
TABLES = pathlib.Path(__file__).resolve().parents[2] / 'tables'


class Program:
    """What a transaction has done: its operations, each with the engine's answer. A scan is one of them where it was read to
    its end; one that wasn't is left out."""

    def __init__(self):
        self.operations, self.scan = [], None

    def note(self, operation, reply):
        if operation[0] == 'go':
            operation = self.scan
        elif operation[0] == 'scan' and operation[1] > operation[2]:  # downwards
            operation = ('scan', operation[2], operation[1])
            reply = ['rows', reply[1][::-1]] if reply[0] == 'rows' else reply
        if reply[0] == 'going':
            self.scan = operation
        elif operation:
            self.operations.append((operation, reply))
            self.scan = None


class Judge:
    """Committed programs run whole, one after another; of an answer only what the engine gave is compared."""

    def __init__(self, opening):
        self.index, self.verdict = dict(map(tuple, opening)), ['serial']

    def commit(self, txn, operations):
        for number, (operation, given) in enumerate(operations, 1):
            serial = whole(self.index, *operation)
            if self.verdict == ['serial'] and not fits(given, serial):
                self.verdict = ['not-serial', txn, number, given, serial]


class Part:
    """A part of a trace, line by line."""

    def __init__(self, table, opening, tests):
        self.opening, self.tests = opening, tests
        self.follower = Follower(table, opening) if table else None
        self.judge, self.programs = Judge(opening), {}
        self.ended, self.committed, self.order = set(), {}, None

    def step(self, number, step, reply):
        txn, operation = step[0], tuple(step[1:])
        if self.order is not None:
            raise Fault('10 Order')
        if txn in self.ended:
            raise Fault('11 Ended')
        if self.follower:
            self.follower.line(number, step, reply)
        if reply[0] in ('committed', 'aborted'):
            self.end_txn(txn, reply)
        elif reply[0] not in ('blocked', 'undone'):
            self.programs.setdefault(txn, Program()).note(operation, reply)

    def end_txn(self, txn, reply):
        self.ended.add(txn)
        operations = self.programs.pop(txn, Program()).operations
        if reply[0] == 'committed':
            self.committed[txn] = operations
            self.judge.commit(txn, operations)

    def end(self, order):
        if self.order is not None or sorted(order) != sorted(self.committed):
            raise Fault('10 Order')
        self.order = order

    def report(self, number, some_order):
        """What is printed for the part, and whether all is well with it."""
        verdict = self.in_some_order() if some_order else self.judge.verdict
        report = {'part': number, 'verdict': verdict}
        deviation = None
        if self.follower:
            deviation = self.follower.deviation
            report |= {'conforms': deviation or ['yes'], 'queued': self.follower.queued}
            report |= {'tests': self.tests} if deviation and self.tests else {}
        return dict(sorted(report.items())), not deviation and verdict[0] == 'serial'

    def in_some_order(self):
        """The verdict on the order of the part's last line, or on all orders of a few transactions."""
        orders = itertools.permutations(self.committed) if self.order is None else [self.order]  # commit order comes first
        first = None
        for order in orders:
            judge = Judge(self.opening)
            for txn in order:
                judge.commit(txn, self.committed[txn])
            if judge.verdict == ['serial']:
                return ['serial', list(order)]
            first = first or judge.verdict
            if self.order is None and len(self.committed) > MOST_TRIED:
                return ['unknown']
        return first


def lines_of(stream):
    """The lines of a trace with their numbers, without those of blanks."""
    for number in itertools.count(1):
        line = stream.readline(LONGEST + 2)
        if not line:
            return
        line = line.removesuffix(b'\n')
        if len(line) > LONGEST:
            raise Fault('1 TooLong', number)
        if line.strip(b' \t\r'):
            yield number, line


def parts_of(table, stream):
    """The parts of a trace, each when it has ended."""
    part, number = None, 0
    try:
        for number, line in lines_of(stream):
            kind, *said = read_line(line)
            if kind == 'head':
                if part:
                    yield part
                part = Part(table, *said)
            elif part is None:
                raise Fault('4 Field')
            elif kind == 'step':
                part.step(number, *said)
            else:
                part.end(*said)
    except Fault as fault:
        raise Fault(*fault.args, number) if len(fault.args) == 1 else fault
    if part:
        yield part


def hold(table, stream, out, some_order=False):
    """Prints a line for each part. Whether all is well with each."""
    held = True
    for number, part in enumerate(parts_of(table, stream), 1):
        report, is_well = part.report(number, some_order)
        print(json.dumps(report, separators=(',', ':'), ensure_ascii=False), file=out, flush=True)
        held = held and is_well
    return held


def table_at(word):
    return Table((TABLES / f'{word[1:]}.toml' if word[:1] == '@' else pathlib.Path(word)).read_text())


def main(*words):
    if len(words) != 2:
        print('kr: words not understood', file=sys.stderr)
        return 2
    word, name = words
    table = None if word in ('--serial', '--some-order') else table_at(word)
    try:
        with open(name, 'rb') as stream:
            return 0 if hold(table, stream, sys.stdout, word == '--some-order') else 1
    except Fault as fault:
        print(f'kr: {name}: fault {fault.args[0]} at {fault.args[1]}', file=sys.stderr)
    except OSError:
        print(f'kr: {name}: cannot be read', file=sys.stderr)
    return 2


if __name__ == '__main__':
    sys.exit(main(*sys.argv[1:]))
