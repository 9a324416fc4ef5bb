"""Steps, runs and verdicts, written from docs/DEFINITIONS.md alone, with the words of docs/SCRIPTS.md for steps and
replies. The index is a dict, and everything is looked up in whole."""

from dataclasses import dataclass, field
from typing import Optional

END = 1 << 64  # the name past all keys
MOST_ACTIVE = 64


@dataclass
class Scan:
    high: int
    name: int  # the name that it looks at next
    rows: list = field(default_factory=list)


@dataclass
class Active:
    scan: Optional[Scan] = None
    changes: list = field(default_factory=list)  # those left, oldest first: a key, and what stood there before
    is_rolling: bool = False  # whether it rolls back


def put_back(index, changes):
    for key, before in reversed(changes):
        if before is None:
            index.pop(key, None)
        else:
            index[key] = before


class Run:
    def __init__(self, table, opening):
        self.table, self.opening = table, dict(opening)
        self.index, self.locks, self.ended, self.active = dict(opening), {}, set(), {}
        self.history = []  # steps with their replies

    def at(self, key):
        """The least present key not below a number, or the end."""
        return min((it for it in self.index if it >= key), default=END)

    def own(self, txn, name):
        return self.locks.get((name, txn), 0)

    def refusal(self, txn, operation, words):
        active = self.active.get(txn)
        in_scan = active is not None and active.scan is not None
        if txn in self.ended:
            return [1, 'Ended']
        if active is None and len(self.active) == MOST_ACTIVE:
            return [5, 'Full']
        if active is not None and active.is_rolling and operation not in ('back', 'abort'):
            return [8, 'RollingBack']
        if in_scan and operation not in ('go', 'back', 'abort'):
            return [2, 'Busy']
        if operation == 'go' and not in_scan:
            return [3, 'NoScan']
        if operation == 'scan' and words[0] > words[1]:
            return [4, 'BadRange']
        if operation == 'update' and not self.table.updates:
            return [7, 'NoUpdate']
        if operation == 'back' and not (active and active.changes):
            return [9, 'NothingLeft']
        return None

    def access(self, operation, words, scan):
        """The row of an attempt, with the names at its sides."""
        if scan:
            return ('scan-key', {'current': scan.name}) if scan.name <= scan.high else ('scan-stop', {'next': scan.name})
        key, is_present = words[0], words[0] in self.index
        if operation == 'delete' and is_present:
            return 'delete', {'current': key, 'next': self.at(key + 1)}
        if operation == 'insert' and not is_present:
            return 'insert', {'current': key, 'next': self.at(key)}
        if operation == 'update' and is_present:
            return 'update', {'current': key}
        return ('fetch-hit', {'current': key}) if is_present else ('fetch-miss', {'next': self.at(key)})

    def requests(self, txn, row, names):
        own_next = self.own(txn, names['next']) if row in ('insert', 'delete') else 0
        asked = [(name, self.table.ask(row, side, own_next)) for side, name in names.items()]
        return [(name, *it) for name, it in asked if it is not None]

    def blockers(self, txn, requests):
        return sorted({
            other
            for name, mode, _ in requests
            for (held_name, other), held in self.locks.items()
            if held_name == name and other != txn and not self.table.ok(self.table.convert(self.own(txn, name), mode), held)
        })

    def step(self, txn, operation, *words):
        refusal = self.refusal(txn, operation, words)
        if refusal:
            reply = ['refused', *refusal]
        elif operation in ('commit', 'abort'):
            reply = self.end(txn, operation)
        elif operation == 'back':
            reply = self.back(self.active[txn])
        else:
            reply = self.attempt(txn, operation, words)
        self.history.append(((txn, operation, words), reply))
        return reply

    def end(self, txn, operation):
        active = self.active.pop(txn, Active())
        if operation == 'abort':
            put_back(self.index, active.changes)
        self.ended.add(txn)
        self.locks = {(name, other): mode for (name, other), mode in self.locks.items() if other != txn}
        return ['committed' if operation == 'commit' else 'aborted']

    def back(self, active):
        put_back(self.index, [active.changes.pop()])
        active.scan, active.is_rolling = None, True
        return ['undone', len(active.changes)]

    def attempt(self, txn, operation, words):
        scan = None
        if operation == 'scan':
            scan = Scan(words[1], self.at(words[0]))
        elif operation == 'go':
            scan = self.active[txn].scan
            scan.name = self.at(scan.rows[-1][0] + 1)
        requests = self.requests(txn, *self.access(operation, words, scan))
        blockers = self.blockers(txn, requests)
        if blockers:
            return ['blocked', blockers]
        for name, mode, span in requests:
            if span == 'commit':
                self.locks[name, txn] = self.table.convert(self.own(txn, name), mode)
        active = self.active.setdefault(txn, Active())
        return self.look(active, scan) if scan else self.do(active, operation, *words)

    def look(self, active, scan):
        """A scan's look at its name."""
        if scan.name <= scan.high:
            scan.rows.append([scan.name, self.index[scan.name]])
        active.scan = scan if scan.name < scan.high else None
        return ['going', scan.name] if active.scan else ['rows', scan.rows]

    def do(self, active, operation, key, value=None):
        answer = whole(self.index, operation, key, value)
        if answer[0] == 'done':
            active.changes.append((key, None))
        elif answer[0] in ('deleted', 'updated'):
            active.changes.append((key, answer[1]))
        return answer

    def programs(self):
        """The committed programs in commit order, from the history alone: each the transaction and its operations with
        their answers."""
        for end, ((txn, _, _), reply) in enumerate(self.history):
            if reply != ['committed']:
                continue
            own = [(step, given) for step, given in self.history[:end] if step[0] == txn]
            granted = [(step, given) for step, given in own if given[0] not in ('blocked', 'refused')]
            operations = []
            for place, ((_, operation, words), given) in enumerate(granted):
                if operation == 'scan':
                    given = next(it for _, it in granted[place:] if it[0] == 'rows')
                if operation != 'go':
                    operations.append((operation, words, given))
            yield txn, operations

    def verdict(self):
        index = dict(self.opening)
        for txn, operations in self.programs():
            for number, (operation, words, given) in enumerate(operations, 1):
                serial = whole(index, operation, *words)
                if given != serial:
                    return ['not-serial', txn, number, given, serial]
        return ['serial']

    def report(self):
        """What `kr run` prints, as an object."""
        return {
            'index': [[key, self.index[key]] for key in sorted(self.index)],
            'locks': [
                ['End' if name == END else name, txn, self.table.names[mode]]
                for (name, txn), mode in sorted(self.locks.items())
            ],
            'replies': [reply for _, reply in self.history],
            'unfinished': sorted(self.active),
            'verdict': self.verdict(),
        }


def whole(index, operation, key, other=None):
    """The answer of an operation that is run whole on an index, which it changes."""
    if operation == 'scan':
        return ['rows', [[it, index[it]] for it in sorted(index) if key <= it <= other]]
    before = index.get(key)
    if operation == 'insert':
        index.setdefault(key, other)
        return ['done'] if before is None else ['duplicate']
    if operation == 'delete':
        index.pop(key, None)
        return ['absent'] if before is None else ['deleted', before]
    if operation == 'update':
        index.update({key: other} if before is not None else {})
        return ['absent'] if before is None else ['updated', before]
    return ['none'] if before is None else ['found', before]
