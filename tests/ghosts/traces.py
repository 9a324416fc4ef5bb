#!/usr/bin/env python3
"""Holds what `kr trace TABLE TRACE` prints under tables with ghosts against a second form of docs/TRACES.md and docs/GHOSTS.md,
over the runs of model.py. The traces are those of random runs with the purges left out, and each second one has an answer changed.

    traces.py KR [SEED [TABLES [TRACES]]]     TRACES under each table

Both have to print the same bytes and end with the same status, and each trace as it was run has to conform, unless states were left
out, or a line is queued: who made the run doesn't queue. Status 1 where something differs, and then the folder that is printed has the table and the trace. Needs Python 3.11 or later."""

import collections
import copy
import json
import pathlib
import random
import shutil
import subprocess
import sys
import tempfile

sys.dont_write_bytecode = True

from checks import names_of, text_of
from compare import some_table
from model import END, Active, Run
from runs import NUMBERS

sys.path.append(str(pathlib.Path(__file__).resolve().parents[1] / 'engines'))

from follower import fits
from second_trace import Part

MOST = 64
ENDS = ('commit', 'abort', 'back')


class State:
    """A state that may stand, the lines since which its locks are held, and what waits in it."""

    def __init__(self, table, opening):
        self.run, self.since, self.ranges, self.waiting, self.queued = Run(table, opening), {}, {}, {}, 0

    def copy(self):
        new, run = copy.copy(self), copy.copy(self.run)
        run.index, run.ghosts, run.locks, run.ended = dict(run.index), set(run.ghosts), dict(run.locks), set(run.ended)
        run.active, run.log, run.committed = {txn: copy.copy(it) for txn, it in run.active.items()}, {}, []
        for it in run.active.values():
            it.changes = list(it.changes)
        new.run, new.since, new.ranges, new.waiting = run, dict(self.since), dict(self.ranges), dict(self.waiting)
        return new

    def key(self):
        """What tells it from others beside the same lines."""
        return sorted(self.run.ghosts), self.run.locks, self.ranges, self.waiting

    def noting(self, number, do):
        """Does something, and notes the line of each lock that is new or has another mode then."""
        before = dict(self.run.locks)
        answer = do()
        self.since.update({it: number for it, mode in self.run.locks.items() if before.get(it) != mode})
        return answer

    def first(self, txn, op, reply):
        op = ('abort',) if reply[0] == 'aborted' else op
        return ('go',) if op[0] == 'scan' and self.ranges.get(txn, ())[:2] == op[1:] else op

    def near(self, txn, op, reply):
        """The ghosts whose purge may matter to a line: those with no present key up to the keys that it looks at."""
        whole = op[0] == 'scan' and reply[0] in ('rows', 'blocked')
        op = self.first(txn, op, reply)
        if op[0] in ('commit', 'abort') or op[0] == 'go' and txn not in self.ranges:
            return []
        if op[0] == 'back':
            return sorted(self.run.ghosts)
        low, high = (self.ranges[txn][2] + 1, self.ranges[txn][1]) if op[0] == 'go' else sorted(op[1:3]) if op[0] == 'scan' else (op[1], op[1])
        high = high if whole else low + (op[0] == 'insert' and self.run.table.rows['insert-hit-next'] is not None)
        return [it for it in sorted(self.run.ghosts) if not any(it < key < low or high <= key < it for key in self.run.index)]

    def requests(self, txn, op):
        """What a step requests: the name, the mode, the own mode there, and the converted mode."""
        run = self.run
        if op[0] in ENDS or run.refusal(txn, op):
            return []
        if op[0] in ('scan', 'go'):
            start, high = op[1:] if op[0] == 'scan' else run.active[txn].scan[1:3]
            name = run.name_from(start)
            asked = [(name, run.table.ask('scan-key' if name <= high else 'scan-stop'))]
        else:
            asked = run.requests(txn, op[0], op[1])
        return [(name, it[0], run.own(txn, name), run.table.convert[run.own(txn, name)][it[0]]) for name, it in asked if it]

    def conflicts(self, names, txn, name, asked, _, mode):
        ok = self.run.table.ok
        held = sorted((it, at) for it, at in self.run.locks.items() if it[0] == name and it[1] != txn and not ok[mode][at])
        return [['End' if name == END else name, u, names[at], self.since[_name, u], names[asked], names[mode]] for (_name, u), at in held]

    def ahead(self, requests):
        ok = self.run.table.ok
        return {u for u, theirs in self.waiting.items() for name, _, own, mode in requests if mode != own for one, asked in theirs if one == name and not ok[mode][asked]}

    def take(self, names, number, txn, op, reply):
        """Follows a line, and says how it differs, if it does."""
        whole = op[0] == 'scan' and reply[0] in ('rows', 'blocked')
        op = self.first(txn, op, reply)
        self.waiting.pop(txn, None)
        parts = parts_of(self.run, op)
        rows = []
        while True:
            op = parts.pop(0)
            requests = self.requests(txn, op)
            blocking = [lock for it in requests for lock in self.conflicts(names, txn, *it)]
            ahead = self.ahead(requests) if reply[0] == 'blocked' else set()
            if ahead:
                given = self.copy().run.step(txn, op)
                break
            given = self.noting(number, lambda: self.run.step(txn, op))
            self.run.log.clear()
            self.run.committed.clear()
            if given[0] == 'going':
                low, high = op[1:] if op[0] == 'scan' else self.ranges[txn][:2]
                self.ranges[txn] = (low, high, given[1])
            elif given[0] not in ('blocked', 'refused'):
                self.ranges.pop(txn, None)
            if given[0] == 'rows':
                rows += given[1]
                given = ['rows', rows]
            if given[0] == 'going' and (whole or given[1] in self.run.ghosts and reply != ['going', given[1]]):
                parts.append(('go',))
            if given[0] not in ('going', 'rows') or not parts:
                break
        if reply[0] == 'blocked':
            self.waiting[txn] = [(name, mode) for name, _, _, mode in requests]
        self.queued += bool(ahead) and given[0] not in ('blocked', 'refused')
        return self.compare(number, reply, replied(given), blocking, ahead)

    def compare(self, number, reply, given, blocking, ahead):
        if given[0] == 'refused':
            return ['refused', number, given]
        blockers = given[1] if given[0] == 'blocked' else []
        if reply[0] == 'blocked' and (ahead or blockers):
            others = [it for it in [*reply[1:], []][0] if it not in blockers and it not in ahead]
            return ['blockers', number, others, blockers] if others else None
        if given[0] == 'blocked':
            return ['granted', number, given, blocking]
        if reply[0] == 'blocked':
            return ['blocked', number, given]
        return None if fits(reply, given) else ['answer', number, given]


def parts_of(run, op):
    """The steps of an operation: of a scan downwards the scans up to each name, and to its end, the uppermost first."""
    if op[0] != 'scan' or op[1] <= op[2]:
        return [op]
    high, low = op[1:]
    ends = [*sorted(it for it in {*run.index, *run.ghosts} if low <= it < high), high]
    return [('scan', start, end) for start, end in zip([low, *(it + 1 for it in ends)], ends)][::-1]


def replied(reply):
    if reply[0] == 'refused':
        return ['refused', NUMBERS[reply[1]], reply[1]]
    return ['rows', [list(it) for it in reply[1]]] if reply[0] == 'rows' else reply


class Follower:
    """The states that may stand, those with fewer purges first."""

    def __init__(self, table, names, opening):
        self.names, self.states, self.queued, self.deviation, self.cut = names, [State(table, opening)], 0, None, None

    def line(self, number, step, reply):
        if self.deviation:
            return
        txn, op = step[0], tuple(step[1:])
        self.spread(number, txn, op, reply)
        kinds = [it.take(self.names, number, txn, op, reply) for it in self.states]
        first = self.states[0]
        self.states = [it for it, kind in zip(self.states, kinds) if kind is None]
        self.deviation = None if self.states else kinds[0]
        self.queued = (self.states or [first])[0].queued

    def spread(self, number, txn, op, reply):
        known = [it.key() for it in self.states]
        for state in self.states:  # grows
            made = [(state.copy(), key) for key in state.near(txn, op, reply)]
            for new, key in [(new, key) for new, key in made if new.noting(number, lambda: new.run.purge(key))]:
                if new.key() in known:
                    continue
                if len(self.states) == MOST:
                    self.cut = self.cut or number
                    continue
                known.append(new.key())
                self.states.append(new)


class GhostPart(Part):
    def __init__(self, table, names, opening):
        super().__init__(None, opening, [])
        self.follower = Follower(table, names, opening)

    def report(self, number, some_order=False):
        report, is_well = super().report(number, some_order)
        cut = {} if self.follower.cut is None else {'cut': self.follower.cut}
        return {**cut, 'states': len(self.follower.states), **report}, is_well


# Traces --


KEYS = (10, 12, 15, 20, 25, 30, 35)
OPS = {'fetch': 4, 'insert': 5, 'delete': 6, 'update': 2, 'scan': 3, 'commit': 3, 'abort': 1, 'back': 1}


def some_op(rng, run, txn):
    now = run.active.get(txn, Active())
    if now.rolling:
        return ('back',) if now.changes and rng.random() < 0.7 else ('abort',)
    if now.scan:
        return ('go',) if rng.random() < 0.9 else ('abort',)
    kind = rng.choices(list(OPS), OPS.values())[0]
    if kind in ('commit', 'abort'):
        return (kind,)
    if kind == 'back':
        return ('back',) if now.changes else ('fetch', rng.choice(KEYS))
    if kind == 'scan':
        low, high = sorted((rng.choice(KEYS), rng.choice(KEYS)))
        return ('scan', low, high) if rng.random() < 0.6 else ('scan', high, low)
    return (kind, rng.choice(KEYS), *([rng.randrange(100)] if kind in ('insert', 'update') else []))


def logged(rng, reply):
    """The reply as an engine may log it."""
    if reply[0] in ('deleted', 'updated', 'undone', 'blocked') and rng.random() < 0.3:
        return [reply[0]]
    return replied(reply)


def stepped(run, txn, op):
    """The reply to a step, or to the parts of a scan downwards up to the first that isn't read."""
    rows = []
    for part in parts_of(run, op):
        reply = run.step(txn, part)
        if reply[0] != 'rows':
            return reply
        rows += reply[1]
    return ['rows', rows]


def some_trace(rng, table):
    """The opening and the lines of a run, with the purges left out."""
    opening = [(key, rng.randrange(100)) for key in KEYS if rng.random() < 0.5]
    run, lines, txns, waits = Run(table, opening), [], [1, 2, 3], {}
    for _ in range(rng.randrange(8, 40)):
        if run.ghosts and rng.random() < 0.3:
            run.purge(rng.choice(sorted(run.ghosts)))
        at = rng.randrange(3)
        txn = txns[at]
        op = waits.pop(txn, None)
        if op is None or op[0] != 'scan' and rng.random() < 0.1:
            op = some_op(rng, run, txn)
        step = ('go',) if op[0] == 'scan' and run.active.get(txn, Active()).scan else op
        whole = op[0] == 'scan' and rng.random() < 0.4
        reply = stepped(run, txn, step)
        if reply[0] == 'refused':
            continue
        while reply[0] == 'going' and (whole or reply[1] in run.ghosts and rng.random() < 0.8):
            reply = run.step(txn, ('go',))
        if op[0] == 'scan' and reply[0] == 'blocked' and run.active.get(txn, Active()).scan and not whole and step == op:
            whole = True
        lines.append([[txn, *op], logged(rng, reply)])
        if reply[0] == 'blocked':
            waits[txn] = op
        if reply[0] in ('committed', 'aborted'):
            txns[at] = max(txns) + 1
    return opening, lines


ANSWERS = {
    'fetch': (['none'], ['found', 7]), 'scan': (['rows', []], ['going', 20]), 'go': (['rows', []], ['going', 20]), 'insert': (['done'], ['duplicate']),
    'delete': (['deleted'], ['absent']), 'update': (['updated'], ['absent']), 'back': (['undone'], ['undone', 0]),
}


def planted(rng, lines):
    """The lines with one answer changed."""
    lines = copy.deepcopy(lines)
    places = [at for at, (step, reply) in enumerate(lines) if step[1] in ANSWERS and reply[0] != 'aborted']
    if places:
        step, reply = line = lines[rng.choice(places)]
        blocked = [] if step[1] == 'back' else [['blocked'], ['blocked', [rng.randrange(1, 5)]]]
        line[1] = rng.choice([it for it in (*ANSWERS[step[1]], *blocked) if it != reply])
    return lines


def main():
    program = pathlib.Path(sys.argv[1]).resolve()
    seed, tables, traces = (int(it) for it in [*sys.argv[2:], *('1', '300', '8')[len(sys.argv) - 2 :]])
    rng, counts, folder = random.Random(seed), collections.Counter(), pathlib.Path(tempfile.mkdtemp())
    for _ in range(tables):
        table = some_table(rng)
        table.updates = True  # format 3 always offers updates; the row may request nothing
        names = names_of(rng, table.count)
        (folder / 't.toml').write_text(text_of(rng, table, names))
        written, wanted, is_well, number = [], [], True, 0
        for part in range(1, traces + 1):
            opening, lines = some_trace(rng, table)
            as_run = rng.random() < 0.5
            lines = lines if as_run else planted(rng, lines)
            written.append({'format': 1, 'opening': opening})
            number, held = number + 1, GhostPart(table, names, opening)
            for step, reply in lines:
                number += 1
                held.step(number, step, reply)
            report, well = held.report(part)
            if as_run and report['conforms'] != ['yes'] and 'cut' not in report and not report['queued']:
                print(f'ghosts: a part of {folder} as it was run: {report}')
                counts['not found'] += 1
            written, is_well = [*written, *lines], is_well and well
            wanted.append(report)
            counts.update([report['conforms'][0], *(['cut'] if 'cut' in report else []), *(['queued'] if report['queued'] else []), *(['several states'] if report['states'] > 1 else [])])
        text = ''.join(json.dumps(it, separators=(',', ':')) + '\n' for it in written)
        (folder / 't.trace').write_text(text)
        ran = subprocess.run([program, 'trace', 't.toml', 't.trace'], cwd=folder, capture_output=True, text=True)
        second = ''.join(json.dumps(it, separators=(',', ':'), ensure_ascii=False) + '\n' for it in wanted)
        if (ran.stdout, ran.stderr, ran.returncode) != (second, '', 0 if is_well else 1):
            (folder / 'program').write_text(f'{ran.stdout}{ran.stderr}status {ran.returncode}\n')
            (folder / 'second').write_text(f'{second}status {0 if is_well else 1}\n')
            print(f'ghosts: {folder} has a trace of which the two print something else')
            return 1
    print(f'ghosts: {tables * traces} traces; ' + ', '.join(f'{n} {it}' for it, n in sorted(counts.items())))
    shutil.rmtree(folder)
    return 1 if counts['not found'] else 0


if __name__ == '__main__':
    sys.exit(main())
