"""Transactions that step at random on the engine of engine.py, and the lines that it writes."""

import itertools

from engine import BESIDE, Engine


class Waiting:
    """A step that waits: what it accesses, what it asks for there, and since which line."""

    def __init__(self, step, access, requests, since):
        self.step, self.access, self.requests, self.since = step, access, requests, since


class Schedule:
    """A part. A step that is blocked waits; each end of a transaction lets those go on, in the order in which they came, whose
    requests are granted then; a step that closes a cycle of waits ends its transaction. In half of the parts nobody passes a
    step that waits and wants a lock that conflicts; in the others each scan goes a name at a time, and each line says so.
    Each line is written where the engine decides, and the end of a transaction before what it lets go on.

    Beside the engine a right one does the same steps, until it decides one otherwise: `wrong` is then what is wrong, as
    `kr trace` names it, and the line."""

    TRANSACTIONS, KEYS, STATEMENTS = 4, range(10, 50, 5), 6
    CHANCES = {'fetch': 25, 'insert': 25, 'delete': 18, 'update': 12, 'scan': 20}
    PATIENCE = 6  # lines

    def __init__(self, rand, way, first_line=1):
        self.rand, self.way, self.first_line = rand, way, first_line
        opening = [[key, number] for number, key in enumerate(self.KEYS, 1) if rand.random() < 0.5]
        self.engine, self.right, self.wrong = Engine(opening, way), Engine(opening), None
        self.lines = [{'format': 1, 'opening': opening}]
        self.is_fair, self.names_blockers, self.value = rand.random() < 0.5, rand.random() < 0.5, 100
        self.left = {txn: rand.randint(1, self.STATEMENTS) for txn in range(1, self.TRANSACTIONS + 1)}
        self.waiting = {}  # the steps that wait, in the order in which they came
        self.by_names = {}  # the ranges of the scans that go a name at a time
        self.scans, self.asked, self.waits = {}, {}, set()  # of the right engine: ranges, what the last lines asked, who waits

    def run(self):
        while self.left:
            free = [it for it in self.left if it not in self.waiting]
            late = [it for it, its in self.waiting.items() if len(self.lines) - its.since > self.PATIENCE]
            if self.way == 'timeout-goes-on' and late:
                self.attempt(late[0], self.waiting[late[0]].step, forced=True)
            elif not free:
                self.end(next(iter(self.waiting)), 'abort')
            else:
                self.turn(self.rand.choice(free))
        return self

    def turn(self, txn):
        if txn in self.by_names:
            self.attempt(txn, [txn, 'go'])
        elif self.left[txn]:
            self.left[txn] -= 1
            self.attempt(txn, self.statement(txn))
        else:
            self.end(txn, 'abort' if self.rand.random() < 0.2 else 'commit')

    def statement(self, txn):
        operation = self.rand.choices(list(self.CHANCES), self.CHANCES.values())[0]
        key, self.value = self.rand.choice(self.KEYS), self.value + 1
        if operation == 'scan':
            high = self.rand.choice([it for it in self.KEYS if it >= key])
            if not self.is_fair or self.rand.random() < 0.5:
                self.by_names[txn] = [key, high]
            return [txn, operation, key, high]
        return [txn, operation, key, *([self.value] if operation in ('insert', 'update') else [])]

    def attempt(self, txn, step, forced=False):
        """Does a step as far as it goes. It waits where it is blocked."""
        access = ['scan', *self.by_names[txn]] if step[1] == 'go' else step[1:]
        has_moved = txn not in self.waiting
        self.engine.look_early(txn, *access[:2])
        while True:
            requests = self.engine.requests(txn, *access)
            in_way = self.engine.blockers(txn, requests) + self.ahead(txn, requests)
            if in_way and not forced:
                if has_moved:
                    self.wait(txn, Waiting(step, access, requests, len(self.lines)), in_way)
                return
            reply, has_moved = self.engine.perform(txn, requests, *access), True
            self.waiting.pop(txn, None)
            if reply[0] != 'going' or txn in self.by_names:
                break
        if reply[0] == 'rows':
            self.by_names.pop(txn, None)
        self.log(step, reply)

    def ahead(self, txn, requests):
        """Those that came to wait before, and want what conflicts, where nobody passes them but by a lock that it holds."""
        before = itertools.takewhile(lambda it: it != txn, self.waiting)
        wanted = [(name, self.engine.wanted(txn, name, mode)) for name, mode, _ in requests]
        return [
            other
            for other in (before if self.is_fair else [])
            for name, mode in wanted
            if mode and not self.engine.is_held(txn, name, mode)
            if any(name == one and its not in BESIDE[mode] for one, its in self.waiting[other].wanted)
        ]

    def wait(self, txn, waiting, in_way):
        waiting.wanted = [
            (name, it) for name, mode, _ in waiting.requests if (it := self.engine.wanted(txn, name, mode))
        ]
        self.waiting[txn] = waiting
        if self.is_in_cycle(txn):
            self.end(txn, 'abort', waiting.step)
        else:
            self.log(waiting.step, ['blocked', sorted({*in_way})] if self.names_blockers else ['blocked'])

    def is_in_cycle(self, txn):
        seen, to_see = set(), [txn]
        while to_see:
            one = to_see.pop()
            its = self.waiting.get(one)
            others = self.engine.blockers(one, its.requests) + self.ahead(one, its.requests) if its else []
            if txn in others:
                return True
            to_see += {*others} - seen
            seen |= {*others}
        return False

    def end(self, txn, operation, step=None):
        """Ends a transaction, and then lets those go on that waited for it."""
        del self.left[txn]
        self.waiting.pop(txn, None)
        self.by_names.pop(txn, None)
        undoes_late = self.way == 'releases-before-undo'
        self.engine.end(txn, operation == 'abort' and not undoes_late)
        self.log(step or [txn, operation], ['aborted' if operation == 'abort' else 'committed'])
        for other in [*self.waiting]:
            if other in self.waiting:
                self.attempt(other, self.waiting[other].step)
        if operation == 'abort':
            self.engine.undo(txn)
        self.engine.changes.pop(txn, None)

    def log(self, step, reply):
        self.lines.append([step, reply])
        if self.wrong is None and (kind := self.otherwise(step[0], step[1], step[2:], reply)):
            self.wrong = [kind, self.first_line + len(self.lines) - 1]

    def otherwise(self, txn, operation, words, reply):
        """How the right engine, which does the same, decides otherwise, if it does."""
        if reply in (['committed'], ['aborted']):
            return self.right.end(txn, reply == ['aborted'])
        access = ['scan', *self.scans[txn]] if operation == 'go' else [operation, *words]
        self.scans[txn] = words if operation == 'scan' else self.scans.get(txn)
        while True:
            requests = self.right.requests(txn, *access)
            blockers = self.right.blockers(txn, requests)
            wanted = [(name, self.right.wanted(txn, name, mode)) for name, mode, _ in requests]
            ahead = {
                other
                for other in self.waits
                for name, mode in wanted
                if other != txn and not self.right.is_held(txn, name, mode)
                if any(name == one and its not in BESIDE[mode] for one, its in self.asked[other])
            }
            self.asked[txn] = wanted
            if reply[0] == 'blocked':
                self.waits.add(txn)
                named = {*reply[1]} if len(reply) > 1 else set()
                if blockers or ahead:
                    return None if named <= {*blockers, *ahead} else 'blockers'
            elif blockers:
                return 'granted'
            answer = self.right.perform(txn, requests, *access)
            if answer[0] != 'going' or reply[0] == 'going' or operation == 'go':
                self.waits.discard(txn)
                return None if answer == reply else 'blocked' if reply[0] == 'blocked' else 'answer'
