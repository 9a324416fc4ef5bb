"""A second form of the model with ghosts, by docs/GHOSTS.md and docs/DEFINITIONS.md, and where these are short by the definitions,
crates/kr_ghost/specs/Safe.antt: the steps and purges of a run, the cases, and which tables are safe. Modes are numbers, 0 for none; a
request is a mode and whether it is kept to commit."""

END = float('inf')
READS = ('fetch-hit', 'fetch-miss', 'scan-key', 'scan-stop')
ROWS = (*READS, 'insert', 'insert-next', 'delete', 'update', 'revive', 'revive-next', 'insert-hit-next')
VAIN = {'insert-hit': 'fetch-hit', 'delete-miss': 'fetch-miss', 'update-miss': 'fetch-miss'}  # rows that a table may lack, and which then count


class Table:
    """`ok[q][h]` and `convert[h][q]`; `rows` by row, with a list by the own mode on the next name for the two of insert; `heir` by
    mode, or None where a purge waits until nobody has a lock."""

    def __init__(self, ok, convert, rows, heir, updates):
        self.ok, self.convert, self.rows, self.heir, self.updates = ok, convert, rows, heir, updates
        self.count = len(ok) - 1

    def ask(self, row, own=0):
        row = row if row in self.rows else VAIN[row]
        return self.rows[row][own] if row in ('insert', 'insert-next') else self.rows[row]

    def conflicts(self, request, own, held):
        return request is not None and not self.ok[self.convert[own][request[0]]][held]

    def after(self, own, request):
        return self.convert[own][request[0]] if request and request[1] else own


# Runs --


class Active:
    def __init__(self):
        self.scan, self.changes, self.rolling = None, [], False


class Run:
    """A run from an opening index; `log` has of each transaction its operations with their answers."""

    def __init__(self, table, opening):
        self.table, self.index, self.ghosts, self.locks = table, dict(opening), set(), {}
        self.active, self.ended, self.log, self.committed = {}, set(), {}, []

    def name_from(self, key):
        return min((it for it in [*self.index, *self.ghosts] if it >= key), default=END)

    def own(self, txn, name):
        return self.locks.get((name, txn), 0)

    def granted(self, txn, requests):
        """Takes the locks of the requests, or says who blocks them."""
        asked = [(name, it) for name, it in requests if it]
        blockers = {u for (name, u), held in self.locks.items() for at, it in asked if at == name and u != txn and self.table.conflicts(it, self.own(txn, name), held)}
        if blockers:
            return ['blocked', sorted(blockers)]
        for name, it in asked:
            mode = self.table.after(self.own(txn, name), it)
            if it[1]:
                self.locks[name, txn] = mode
        self.active.setdefault(txn, Active())
        return None

    def requests(self, txn, op, key):
        ask, name = self.table.ask, self.name_from(key)
        if op == 'insert' and key in self.index:
            return [(key, ask('insert-hit')), (self.name_from(key + 1), ask('insert-hit-next'))]
        if op == 'insert' and key in self.ghosts:
            return [(key, ask('revive')), (self.name_from(key + 1), ask('revive-next'))]
        if op == 'insert':
            return [(key, ask('insert', self.own(txn, name))), (name, ask('insert-next', self.own(txn, name)))]
        if key == name:
            return [(key, ask('fetch-hit' if op == 'fetch' else op))]
        return [(name, ask(f'{op}-miss'))]

    def refusal(self, txn, op):
        now = self.active.get(txn, Active())
        if txn in self.ended:
            return 'Ended'
        if now.rolling and op[0] not in ('back', 'abort'):
            return 'RollingBack'
        if now.scan and op[0] not in ('go', 'back', 'abort'):
            return 'Busy'
        if op[0] == 'go' and not now.scan:
            return 'NoScan'
        if op[0] == 'scan' and op[1] > op[2]:
            return 'BadRange'
        if op[0] == 'update' and not self.table.updates:
            return 'NoUpdate'
        if op[0] == 'back' and not now.changes:
            return 'NothingLeft'
        return None

    def step(self, txn, op):
        if why := self.refusal(txn, op):
            return ['refused', why]
        reply = getattr(self, op[0])(txn, *op[1:])
        if reply[0] not in ('blocked', 'going', 'committed', 'undone'):
            self.log.setdefault(txn, []).append((self.scanned if op[0] == 'go' else op, reply))
        return reply

    def keyed(self, txn, op, key, change):
        return self.granted(txn, self.requests(txn, op, key)) or change(self.index.get(key))

    def write(self, key, value):
        self.ghosts.discard(key)
        if value is None:
            self.index.pop(key, None)
            self.ghosts.add(key)
        else:
            self.index[key] = value

    def change(self, txn, key, value):
        self.active[txn].changes.append((key, self.index.get(key)))
        self.write(key, value)

    def fetch(self, txn, key):
        return self.keyed(txn, 'fetch', key, lambda it: ['none'] if it is None else ['found', it])

    def insert(self, txn, key, value):
        return self.keyed(txn, 'insert', key, lambda it: ['duplicate'] if it is not None else self.change(txn, key, value) or ['done'])

    def delete(self, txn, key):
        return self.keyed(txn, 'delete', key, lambda it: ['absent'] if it is None else self.change(txn, key, None) or ['deleted', it])

    def update(self, txn, key, value):
        return self.keyed(txn, 'update', key, lambda it: ['absent'] if it is None else self.change(txn, key, value) or ['updated', it])

    def scan(self, txn, low, high):
        return self.look(txn, low, low, high, [])

    def go(self, txn):
        return self.look(txn, *self.active[txn].scan)

    def look(self, txn, low, start, high, rows):
        name = self.name_from(start)
        self.scanned = ('scan', low, high)
        if blocked := self.granted(txn, [(name, self.table.ask('scan-key' if name <= high else 'scan-stop'))]):
            return blocked
        if name <= high and name in self.index:
            rows = [*rows, (name, self.index[name])]
        if name >= high:
            self.active[txn].scan = None
            return ['rows', rows]
        self.active[txn].scan = (low, name + 1, high, rows)
        return ['going', name]

    def end(self, txn):
        self.active.pop(txn, None)
        self.ended.add(txn)
        self.locks = {it: mode for it, mode in self.locks.items() if it[1] != txn}

    def commit(self, txn):
        self.end(txn)
        self.committed.append(txn)
        return ['committed']

    def abort(self, txn):
        for key, value in reversed(self.active.get(txn, Active()).changes):
            self.write(key, value)
        self.end(txn)
        return ['aborted']

    def back(self, txn):
        now = self.active[txn]
        self.write(*now.changes.pop())
        now.scan, now.rolling = None, True
        return ['undone', len(now.changes)]

    def purge(self, key):
        """Purges a ghost, and says whether it did."""
        held = {u: mode for (name, u), mode in self.locks.items() if name == key}
        if key not in self.ghosts or any(key == it for now in self.active.values() for it, _ in now.changes) or self.table.heir is None and held:
            return False
        self.ghosts.discard(key)
        name = self.name_from(key)
        for u, mode in held.items():
            del self.locks[key, u]
            heir = self.table.heir[mode]
            if heir and not self.active[u].rolling:
                self.locks[name, u] = self.table.convert[self.own(u, name)][heir]
        return True

    def verdict(self, opening):
        """The first answer of the committed programs that isn't the one that they have one after another in commit order."""
        index = dict(opening)
        for txn in self.committed:
            for at, (op, reply) in enumerate(self.log.get(txn, []), 1):
                if reply != (serial := whole(index, op)):
                    return ['not-serial', txn, at, reply, serial]
        return ['serial']

    def is_serial(self, opening):
        return self.verdict(opening) == ['serial']

    def report(self, opening, names, replies):
        """What `kr run` prints of a run with these replies, where the modes have these names, `none` first."""
        locks = [[key if key != END else 'End', txn, names[mode]] for (key, txn), mode in sorted(self.locks.items())]
        index = [list(it) for it in sorted(self.index.items())]
        return {'ghosts': sorted(self.ghosts), 'index': index, 'locks': locks, 'replies': replies, 'unfinished': sorted(self.active), 'verdict': self.verdict(opening)}


def whole(index, op):
    kind, key = op[0], op[1]
    had = index.get(key)
    if kind == 'fetch':
        return ['none'] if had is None else ['found', had]
    if kind == 'scan':
        return ['rows', [(k, index[k]) for k in sorted(index) if key <= k <= op[2]]]
    if kind == 'insert':
        index.setdefault(key, op[2])
        return ['done'] if had is None else ['duplicate']
    if had is None:
        return ['absent']
    if kind == 'delete':
        return ['deleted', index.pop(key)]
    index[key] = op[2]
    return ['updated', had]


# Cases --


ACCESSES = {  # what a lock with the cover has to conflict with: rows, and the places of the report
    'ReadKey': ('delete', 'revive', 'update'),
    'ReadGap': ('insert-next',),
    'ChangedKey': ('fetch-hit', 'scan-key', 'insert-hit', 'delete', 'revive', 'update'),
}


def first_open(table, cover, held):
    """The first requester that a lock in this mode lets through, of those that the cover must conflict with: its row, and its mode."""
    for row in ACCESSES[cover]:
        if row in table.rows and (row != 'update' or table.updates):
            for own in range(table.count + 1):
                if not table.conflicts(table.ask(row, own if row == 'insert-next' else 0), own, held):
                    return row, own
    return None


def failed_cases(table):
    """The cases that fail, in order, each as its rule, its cover, the modes that it is taken at, the mode that doesn't serve, and
    the first requester that this lets through; and how many cases there are."""
    open_ = {(cover, held): first_open(table, cover, held) for cover in ACCESSES for held in range(table.count + 1)}
    serves = {it: found is None for it, found in open_.items()}
    modes, or_none = range(1, table.count + 1), range(table.count + 1)
    cases = [('Conversion', cover, (h, q), serves[cover, h], table.convert[h][q]) for cover in ACCESSES for h in modes for q in modes]
    row = lambda rule, cover, name: [(rule, cover, (own,), True, table.after(own, table.ask(name))) for own in or_none]
    cases += row('FetchHit', 'ReadKey', 'fetch-hit') + row('FetchMiss', 'ReadGap', 'fetch-miss')
    cases += row('ScanName', 'ReadKey', 'scan-key') + row('ScanName', 'ReadGap', 'scan-key') + row('ScanStop', 'ReadGap', 'scan-stop')
    new = lambda n: table.after(0, table.ask('insert', n))
    cases += [('Insert', 'ChangedKey', (n, 0), True, new(n)) for n in or_none]
    cases += [('Split', 'ReadGap', (n, 0), serves['ReadGap', n], new(n)) for n in or_none]
    cases += row('Delete', 'ChangedKey', 'delete') + (row('Update', 'ChangedKey', 'update') if table.updates else []) + row('Revive', 'ChangedKey', 'revive')
    if table.heir:
        heir = lambda h, n: table.convert[n][table.heir[h]]
        cases += [('Heir', 'ReadGap', (n, h), serves['ReadKey', h] or serves['ReadGap', h], heir(h, n)) for h in modes for n in or_none]
    rules = (('InsertHit', 'ReadKey', 'insert-hit'), ('DeleteMiss', 'ReadGap', 'delete-miss'), ('UpdateMiss', 'ReadGap', 'update-miss'))
    cases += [it for args in rules if args[2] in table.rows and (args[2] != 'update-miss' or table.updates) for it in row(*args)]
    failed = [(rule, cover, from_, mode, open_[cover, mode]) for rule, cover, from_, due, mode in cases if due and not serves[cover, mode]]
    return failed, len(cases)


RULES = ('Conversion', 'FetchHit', 'FetchMiss', 'ScanName', 'ScanStop', 'Insert', 'Split', 'Delete', 'Update', 'Revive', 'Heir', 'InsertHit', 'DeleteMiss', 'UpdateMiss')
COVERS = {'ReadKey': 'RK', 'ReadGap': 'RG', 'ChangedKey': 'CK'}


def check_report(table, names):
    """What `kr check` prints of a table whose modes have these names, `none` first."""
    failed, count = failed_cases(table)
    report = {'accepted': not failed, 'cases': count}
    if failed:
        report['failed'] = []
    for rule, cover, from_, mode, (row, own) in failed:
        place = ['insert', 'next', names[own], names[own]] if row == 'insert-next' else [row, 'current', names[own], names[0]]
        report['failed'].append(
            {'case': f'G{RULES.index(rule) + 1}', 'cover': COVERS[cover], 'from': [names[it] for it in from_], 'mode': names[mode], 'open': place}
        )
    return {**report, 'modes': table.count}


# Safe --

FREE, READ, INSERTED, UPDATED, DELETED, SEVERAL = range(6)
UNDONE = {INSERTED: [(False, FREE)], UPDATED: [(True, FREE)], DELETED: [(True, FREE)], SEVERAL: [(True, INSERTED), (True, UPDATED), (False, DELETED), (True, SEVERAL), (False, SEVERAL)]}
NOTHING = (0, FREE, False, False)  # mode, key, gap, rolling


def requests(table, present, x):
    """What one with the lock state x may come to request: the row, the request, whether the key is present then, the state then."""
    mode, key, gap, rolling = x
    if rolling:
        return
    read, changed = max(key, READ), lambda by: by if key <= READ else SEVERAL
    does = [('fetch-hit', present, read, gap), ('fetch-miss', present, key, True), ('scan-key', present, read, True), ('scan-stop', present, key, True), ('insert-next', present, key, gap)]
    does += [('delete', False, changed(DELETED) if present else read, gap)]
    does += [('update', present, changed(UPDATED) if present else read, gap), ('update-miss', present, key, True)] if table.updates else []
    does += [('insert-hit', True, read, gap) if present else ('revive', True, changed(INSERTED), gap)]
    does += [('delete-miss', present, key, True), *((it, present, key, gap) for it in ('revive-next', 'insert-hit-next'))]
    for row, then, k, g in does:
        asked = table.ask(row, mode)
        yield row, asked, then, (table.after(mode, asked), k, g, False)


def keeps_out(present, x, row):
    key, gap = x[1], x[2]
    if row in ('fetch-miss', 'scan-stop', 'delete-miss', 'update-miss', 'revive-next', 'insert-hit-next'):
        return False
    if row == 'insert-next':
        return gap
    if row in ('fetch-hit', 'scan-key', 'insert-hit') or present == (row == 'revive'):
        return key > READ
    return key >= READ


def quiet(present, x):
    """What one does that requests nothing: whether the key is present then, and the state then."""
    mode, key, gap, rolling = x
    if not rolling:
        yield present, NOTHING
        yield present, (mode, key if key > READ else FREE, False, True)
    elif key <= READ:
        yield present, NOTHING
    else:
        for then, k in UNDONE[key]:
            yield then, (mode, k, False, True)


def is_safe(table, limit=30000):
    """Whether each lock blocks what it has to keep out, of any two lock states that two can have on one name; None past the limit, if
    there is one."""
    found = lock_states(table, limit)
    return found if found is None else bool(found)


def lock_states(table, limit=30000):
    """Which lock states one can have on a name beside each that another has there, by whether the key is present; False where a lock
    doesn't block what it has to keep out, None past the limit."""
    beside, todo, inherited = {}, [], set()

    def add(present, x, y):
        for a, b in ((x, y), (y, x)):
            if b not in beside.setdefault((present, a), set()):
                beside[present, a].add(b)
                todo.append((present, a, b))

    def left(y):
        """What one with the lock state y on a ghost inherits: a mode, whether it has read of the gap, and whether it rolls back."""
        return (0, False, True) if y[3] else (table.heir[y[0]], y[2] or y[1] == READ, False)

    def purged(present, x, y, both):
        after = []
        for (mode, key, gap, rolling), (heir, read, rolls) in zip((x, y), both):
            if rolling != rolls:
                return
            after.append((table.convert[mode][heir], key, gap or read, rolling))
        add(present, *after)

    def alters(present, z):
        """What z may do that takes the key away or brings it back, as a request or None."""
        asked = [(it, then) for _, it, then, _ in requests(table, present, z)]
        return [(it, then) for it, then in asked + [(None, then) for then, _ in quiet(present, z)] if then != present]

    add(True, NOTHING, NOTHING)
    add(False, NOTHING, NOTHING)
    while todo:
        while todo:
            present, x, y = todo.pop()
            for row, asked, then, z in requests(table, present, x):
                if table.conflicts(asked, x[0], y[0]):
                    continue
                if keeps_out(present, y, row):
                    return False
                add(then, z, y)
                if row == 'insert-next':
                    add(True, (table.after(0, table.ask('insert', x[0])), INSERTED, x[2], False), NOTHING)
            for then, z in quiet(present, x):
                add(then, z, y)
            if table.heir is None:
                continue
            if not present and x[1] <= READ and y[1] <= READ and (both := (left(x), left(y))) not in inherited:
                inherited.add(both)
                for there, a, b in [(there, a, b) for (there, a), others in beside.items() for b in others]:
                    purged(there, a, b, both)
            for both in inherited:
                purged(present, x, y, both)
            if limit and sum(map(len, beside.values())) > limit:
                return None
        for present, x, y in [(present, x, y) for (present, x), others in beside.items() for y in others if y not in beside.get((not present, x), ())]:
            for z in beside[present, x] & beside[present, y]:
                if any(not table.conflicts(it, z[0], x[0]) and not table.conflicts(it, z[0], y[0]) for it, _ in alters(present, z)):
                    add(not present, x, y)
    return beside
