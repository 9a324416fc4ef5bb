"""A small engine with key-value locking (tables/kvl-update.toml), and twelve ways to be wrong. It keeps its keys on pages of
at most four, with the locks of the keys beside them, so that a split moves locks. It knows nothing of tests/second."""

END = 1 << 64
PAGE = 4  # the most keys of a page
BESIDE = {  # for each requested mode, those that others may hold
    'IS': {'IS', 'IX', 'S', 'SIX'},
    'IX': {'IS', 'IX'},
    'S': {'IS', 'S'},
    'SIX': {'IS'},
    'X': set(),
}
PARTS_OF = {'IS': {'IS'}, 'IX': {'IS', 'IX'}, 'S': {'IS', 'S'}, 'SIX': {'IS', 'IX', 'S', 'SIX'}}
WAYS = {
    'reads-before-lock': 'a fetch reads, and then asks for its lock: after a wait it answers what it read before',
    'ends-with-statement': 'the lock of a fetch is released at the end of its statement',
    'not-converted': 'who holds a lock on a name asks for no more there',
    'duplicate-unlocked': 'an insert that finds its key takes no lock',
    'lost-at-split': 'the locks of the keys that a page split moves are lost',
    'releases-before-undo': 'a rollback releases its locks, and then undoes its changes',
    'instant-insert': 'the lock of an insert on its key is released at once, where commit is asked',
    'end-unlocked': 'no lock is taken past the greatest key',
    'stop-unlocked': 'a scan takes no lock on the name where it stops',
    'update-unlocked': 'an update takes no lock',
    'next-forgotten': 'a delete takes no lock on the next name',
    'timeout-goes-on': 'a step that has waited for long goes on as if its locks were granted',
}


def converted(held, mode):
    """The least mode that has what both have."""
    if held is None or 'X' in (held, mode):
        return 'X' if 'X' in (held, mode) else mode
    both = PARTS_OF[held] | PARTS_OF[mode]
    return next(it for it in PARTS_OF if both <= PARTS_OF[it])


class Index:
    """Keys with values on pages, and the locks of each page's keys: a mode for each name and transaction."""

    def __init__(self, opening, way):
        self.way, self.pages, self.end_locks = way, [({}, {})], {}
        for key, value in opening:
            self.put(key, value)

    def page(self, key):
        for number, (values, _) in enumerate(self.pages):
            if not self.pages[number + 1 :] or values and key <= max(values):
                return number
        return 0

    def get(self, key):
        return self.pages[self.page(key)][0].get(key)

    def at(self, key):
        """The least key that isn't below, or the end."""
        return min((it for values, _ in self.pages for it in values if it >= key), default=END)

    def put(self, key, value):
        number = self.page(key)
        values, locks = self.pages[number]
        values[key] = value
        if len(values) > PAGE:
            half = sorted(values)[PAGE // 2 + 1 :]
            low = sorted(set(values) - set(half))
            moved = {name: its for name, its in locks.items() if name > max(low)}
            if self.way == 'lost-at-split':
                moved = {}
            self.pages[number : number + 1] = [
                ({it: values[it] for it in low}, {name: its for name, its in locks.items() if name <= max(low)}),
                ({it: values[it] for it in half}, moved),
            ]

    def take(self, key):
        del self.pages[self.page(key)][0][key]

    def locks(self, name):
        """The locks on a name, which may be changed. They stand where a search for the name ends."""
        if name == END:
            return self.end_locks
        number = self.page(name)
        for values, locks in self.pages:
            if name in locks:
                return locks[name]
        return self.pages[number][1].setdefault(name, {})

    def release(self, txn):
        for its in [self.end_locks, *(its for _, locks in self.pages for its in locks.values())]:
            its.pop(txn, None)


class Engine:
    """The keys, the locks, and what its transactions do. Whether somebody waits is the business of Schedule."""

    def __init__(self, opening, way='right'):
        self.index, self.way = Index(opening, way), way
        self.changes, self.rows, self.early = {}, {}, {}

    def requests(self, txn, operation, key, high=None):
        """What an access asks for on its one or two names: a name, a mode, and whether it is kept to commit."""
        if self.way == 'end-unlocked':
            return [it for it in self.all_requests(txn, operation, key, high) if it[0] != END]
        return self.all_requests(txn, operation, key, high)

    def all_requests(self, txn, operation, key, high):
        if operation == 'scan':
            name = self.scanned(txn, key)
            return [] if name > high and self.way == 'stop-unlocked' else [(name, 'S', True)]
        found = self.index.get(key) is not None
        if operation == 'insert' and not found:
            above = self.index.at(key)
            strong = self.index.locks(above).get(txn) in ('S', 'SIX', 'X')
            return [(key, 'X' if strong else 'IX', self.way != 'instant-insert'), (above, 'IX', False)]
        if operation == 'delete' and found:
            above = [] if self.way == 'next-forgotten' else [(self.index.at(key + 1), 'X', True)]
            return [(key, 'X', False), *above]
        if operation == 'update' and found:
            return [] if self.way == 'update-unlocked' else [(key, 'X', True)]
        if operation == 'insert' and self.way == 'duplicate-unlocked':
            return []
        keeps = operation != 'fetch' or self.way != 'ends-with-statement'
        return [(key if found else self.index.at(key), 'S', keeps)]

    def scanned(self, txn, low):
        """The name at which a scan looks next."""
        rows = self.rows.get(txn)
        return self.index.at(rows[-1][0] + 1 if rows else low)

    def wanted(self, txn, name, mode):
        """The mode in which a request is tested, or none where the engine asks for no more than it holds."""
        held = self.index.locks(name).get(txn)
        return None if held and self.way == 'not-converted' else converted(held, mode)

    def is_held(self, txn, name, mode):
        """Whether a transaction holds the lock in this mode already, so that it waits behind nobody."""
        return self.index.locks(name).get(txn) == mode

    def blockers(self, txn, requests):
        wanted = [(name, self.wanted(txn, name, mode)) for name, mode, _ in requests]
        return sorted({
            other
            for name, mode in wanted
            for other, held in self.index.locks(name).items()
            if mode and other != txn and held not in BESIDE[mode]
        })

    def look_early(self, txn, operation, key):
        if operation == 'fetch':
            self.early.setdefault(txn, self.index.get(key))

    def perform(self, txn, requests, operation, key, value=None):
        """Takes the locks of an access and does it. Its answer."""
        for name, mode, keeps in requests:
            mode = self.wanted(txn, name, mode)
            if keeps and mode:
                self.index.locks(name)[txn] = mode
        if operation == 'scan':
            return self.look(txn, key, value)
        before = self.index.get(key)
        if operation == 'fetch':
            early = self.early.pop(txn, None)
            before = early if self.way == 'reads-before-lock' else before
            return ['none'] if before is None else ['found', before]
        if operation == 'insert' and before is not None:
            return ['duplicate']
        if operation != 'insert' and before is None:
            return ['absent']
        self.changes.setdefault(txn, []).append((key, before))
        self.write(key, value)
        return {'insert': ['done'], 'delete': ['deleted', before], 'update': ['updated', before]}[operation]

    def look(self, txn, low, high):
        """A scan's look at its next name."""
        name, rows = self.scanned(txn, low), self.rows.setdefault(txn, [])
        if name <= high:
            rows.append([name, self.index.get(name)])
        return ['going', name] if name < high else ['rows', self.rows.pop(txn)]

    def write(self, key, value):
        if value is not None:
            self.index.put(key, value)
        elif self.index.get(key) is not None:
            self.index.take(key)

    def undo(self, txn):
        for key, before in reversed(self.changes.pop(txn, [])):
            self.write(key, before)

    def end(self, txn, undoes):
        if undoes:
            self.undo(txn)
        self.index.release(txn)
        self.early.pop(txn, None)
        self.rows.pop(txn, None)
