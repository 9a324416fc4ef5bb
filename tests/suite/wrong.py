"""Engines that request what a table has at each entry, and still aren't what the table says: each has a habit beside it. They
go by the machine of tests/second, which is written from docs/DEFINITIONS.md."""

import pathlib
import sys

sys.path.append(str(pathlib.Path(__file__).resolve().parents[1] / 'second'))

from runner import END, Active, Run, put_back

WAYS = {  # of each habit in a suite the ways to be wrong by which an engine has it
    'line: insert of a present key': ['present-unlocked'],
    'line: insert of a present key beside a reader of it': ['present-as-insert'],
    'line: delete of an absent key': ['absent-delete-unlocked'],
    'line: update of an absent key': ['absent-update-unlocked'],
    'line: scan that goes on to its upper key': ['go-key-unlocked'],
    'line: scan that goes on past its last key': ['go-stop-unlocked'],
    'line: scan that goes on past all keys': ['go-end-unlocked'],
    'habit: a deleted key stays as a name until its transaction ends': ['mark'],
    'habit: a scan that ends on its upper key locks the next key too': ['past'],
    'habit: a new key inherits the locks on the next key': ['copies'],
    'habit: who holds a lock on a key is tested no more there': ['holder-untested'],
    'habit: no lock is taken past the greatest key': ['end-unlocked'],
    'habit: a lock is lost where a page splits': ['lost-at-split'],
    'habit: a transaction that has ended holds its locks': ['ended-holds'],
    'habit: an abort leaves changes': ['abort-keeps'],
    'habit: a transaction does not see its own changes': ['blind'],
    'habit: taking an insert back releases the lock on its key': ['back-frees'],
    'habit: a lock for an instant releases the one that was held': ['frees'],
}


class Wrong(Run):
    def __init__(self, table, opening, way):
        super().__init__(table, opening)
        self.way, self.dead, self.changed = way, {}, {}

    def at(self, key):
        marked = [it for it in self.dead if it >= key] if self.way == 'mark' else []
        return min(marked, default=END) if marked and min(marked) < super().at(key) else super().at(key)

    def access(self, operation, words, scan):
        row, names = super().access(operation, words, scan)
        if self.way == 'mark' and not scan and words[0] in self.dead and words[0] not in self.index:
            return ('insert', {'current': words[0], 'next': self.at(words[0] + 1)}) if operation == 'insert' else (
                'fetch-hit', {'current': words[0]})
        if self.way == 'past' and row == 'scan-key' and scan.name == scan.high:
            return row, {**names, 'past': self.at(scan.name + 1)}
        present, absent = row == 'fetch-hit' and operation == 'insert', row == 'fetch-miss'
        if self.way == 'present-as-insert' and present:
            return 'insert', {'current': words[0], 'next': self.at(words[0] + 1)}
        going = operation == 'go'
        unlocked = {
            'present-unlocked': present,
            'absent-delete-unlocked': absent and operation == 'delete',
            'absent-update-unlocked': absent and operation == 'update',
            'go-key-unlocked': going and row == 'scan-key',
            'go-stop-unlocked': going and row == 'scan-stop',
            'go-end-unlocked': going and names.get('next') == END,
        }.get(self.way)
        return row, {} if unlocked else names

    def requests(self, txn, row, names):
        past = names.pop('past', None)
        asked = super().requests(txn, row, names)
        stop = self.table.ask('scan-stop', 'next', 0) if past is not None else None
        asked += [(past, *stop)] if stop else []
        self.instants = [name for name, _, span in asked if span == 'instant' and name == names.get('current')]
        left_out = {'holder-untested': lambda name: self.own(txn, name), 'end-unlocked': lambda name: name == END}.get(self.way)
        return [it for it in asked if not (left_out and left_out(it[0]))]

    def attempt(self, txn, operation, words):
        reply = super().attempt(txn, operation, words)
        if reply[0] == 'blocked':
            return reply
        if self.way == 'frees':
            for name in self.instants:
                self.locks.pop((name, txn), None)
        if reply == ['done']:
            self.inserted(txn, words[0])
        if reply[0] == 'deleted':
            self.dead[words[0]] = txn
        return ['none'] if self.way == 'blind' and operation == 'fetch' and self.changed.get(words[0]) == txn else reply

    def inserted(self, txn, key):
        self.dead.pop(key, None)
        self.changed[key] = txn
        if self.way == 'copies':
            above = self.at(key + 1)
            for (name, other), mode in list(self.locks.items()):
                if name == above and (key, other) not in self.locks:
                    self.locks[key, other] = mode
        if self.way == 'lost-at-split' and len(self.index) > 4:
            self.locks = {(name, other): mode for (name, other), mode in self.locks.items() if name in (END, key)}

    def end(self, txn, operation):
        if self.way == 'abort-keeps' and operation == 'abort':
            self.active[txn] = Active()
        kept = dict(self.locks) if self.way == 'ended-holds' else {}
        reply = super().end(txn, operation)
        self.locks.update(kept)
        for marks in (self.dead, self.changed):
            for key in [key for key, other in marks.items() if other == txn]:
                del marks[key]
        return reply

    def back(self, active):
        key, before = active.changes[-1]
        reply = super().back(active)
        if self.way == 'back-frees' and before is None:
            self.locks = {(name, other): mode for (name, other), mode in self.locks.items() if name != key}
        return reply
