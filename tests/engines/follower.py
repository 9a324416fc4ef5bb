"""A table's state beside an engine's replies, up to the first that isn't the table's; written from docs/TRACES.md and
docs/DEFINITIONS.md alone, over the steps of tests/second."""

import pathlib
import sys

sys.path.insert(0, str(pathlib.Path(__file__).resolve().parents[1] / 'second'))

from lines import ENDS
from runner import END, Run, Scan


def fits(given, reply):
    """Whether an engine's reply is this one, where it leaves out what it doesn't know."""
    return given[0] == reply[0] and (len(given) == 1 or given[1:] == reply[1:])


class Follower:
    def __init__(self, table, opening):
        self.table, self.run = table, Run(table, [tuple(it) for it in opening])
        self.held, self.since = {}, {}  # the locks after the last line, and the line since which each is held in its mode
        self.ranges = {}  # of the scans that were begun last
        self.waiting = {}  # what a step that waits asks for: each a name and the converted mode
        self.queued, self.deviation = 0, None

    def line(self, number, step, reply):
        """Follows a line, where none before it differs."""
        if self.deviation:
            return
        txn, operation, words = step[0], step[1], step[2:]
        if reply[0] == 'aborted':
            operation, words = 'abort', []
        may_go_on = operation == 'scan' and reply[0] in ('rows', 'blocked')  # a scan that is one line
        if operation == 'scan' and self.is_in_scan(txn, words):
            operation, words = 'go', []
        self.waiting.pop(txn, None)
        while True:
            requests = self.requests(txn, operation, words)
            blocking = [lock for request in requests for lock in self.conflicts(txn, *request)]
            ahead = self.ahead(requests) if reply[0] == 'blocked' else set()
            if ahead and not blocking:  # the table grants the step, which waits behind others and isn't done
                self.queued += 1
                self.deviation = self.misnamed(number, reply, [], ahead)
                break
            given = self.run.step(txn, operation, *words)
            self.run.history.clear()
            self.mark(number)
            if not (may_go_on and given[0] == 'going'):
                self.deviation = self.compare(number, reply, given, blocking, ahead)
                break
            operation, words = 'go', []
        if reply[0] == 'blocked':
            self.waiting[txn] = [(name, converted) for name, _, _, converted in requests]

    def compare(self, number, reply, given, blocking, ahead):
        """How a reply differs from the table's, if it does."""
        if given[0] == 'refused':
            return ['refused', number, given]
        if given[0] == 'blocked' and reply[0] == 'blocked':
            return self.misnamed(number, reply, given[1], ahead)
        if given[0] == 'blocked':
            return ['granted', number, given, blocking]
        if reply[0] == 'blocked':
            return ['blocked', number, given]
        return None if fits(reply, given) else ['answer', number, given]

    def misnamed(self, number, reply, blockers, ahead):
        named = reply[1] if len(reply) > 1 else []
        others = [it for it in named if it not in blockers and it not in ahead]
        return ['blockers', number, others, blockers] if others else None

    def is_in_scan(self, txn, words):
        """Whether the transaction is in a scan of this range, which was blocked on its way."""
        active = self.run.active.get(txn)
        return active is not None and active.scan is not None and self.ranges.get(txn) == words

    def requests(self, txn, operation, words):
        """What a step requests, on the current name first: the name, the mode, the own mode there, and the converted mode."""
        run = self.run
        if operation in ENDS or run.refusal(txn, operation, words):
            return []
        scan = None
        if operation == 'scan':
            self.ranges[txn] = words
            scan = Scan(words[1], run.at(words[0]))
        elif operation == 'go':
            scan = run.active[txn].scan
            scan = Scan(scan.high, run.at(scan.rows[-1][0] + 1))
        requests = run.requests(txn, *run.access(operation, words, scan))
        owned = [(name, mode, run.own(txn, name)) for name, mode, _ in requests]
        return [(name, mode, own, self.table.convert(own, mode)) for name, mode, own in owned]

    def conflicts(self, txn, name, requested, _, converted):
        """The locks in the way of a request, by the numbers of their holders."""
        names = self.table.names
        return [
            ['End' if name == END else name, other, names[held], self.since[name, other], names[requested], names[converted]]
            for (held_name, other), held in sorted(self.run.locks.items())
            if held_name == name and other != txn and not self.table.ok(converted, held)
        ]

    def ahead(self, requests):
        """The transactions that wait, and whose requests conflict with these. A request that the own lock covers waits behind nobody."""
        return {
            other
            for other, theirs in self.waiting.items()
            for name, _, own, mode in requests
            if mode != own and any(one == name and not self.table.ok(mode, asked) for one, asked in theirs)
        }

    def mark(self, number):
        """Notes the line of each lock that is new or has another mode."""
        self.since.update({it: number for it, mode in self.run.locks.items() if self.held.get(it) != mode})
        self.held = dict(self.run.locks)
