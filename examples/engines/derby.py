#!/usr/bin/python3 -B
"""Apache Derby, driven from outside: a trace's steps on standard input, the same with its replies on standard output. Debian's
packages libderby-java and default-jdk-headless. Derby runs in a Java process of its own, in memory.

    ./parts.py 1 10 | ./derby.py >derby.trace
    ./parts.py 1 10 | ./derby.py SERIALIZABLE give-up peek >derby.trace

The isolation level is the first word, or SERIALIZABLE. `give-up`: a step that waits is interrupted, which ends its transaction.
`peek`: an insert of a present key, and a delete or an update of an absent one, is left out, as a look without locks finds it.
`upwards`: scans are written as if they read from the lower end, for tables without ghosts.

Derby locks a key with the gap above it. So a key is stored as a great number less the key: Derby's previous key is the next key of
the trace, and a scan reads from its upper end."""

import os
import sys

import driver
import jdbc

LEVEL, *MORE = sys.argv[1:] or ['SERIALIZABLE']
BY_KEY = '--DERBY-PROPERTIES constraint=PK\\n'  # reads by the index, and so doesn't lock the table
WAITS = """
    SELECT CAST(T.USERNAME AS VARCHAR(20)), CAST(W.LOCKNAME AS VARCHAR(20)),
        CAST(G.XID AS VARCHAR(20)), CAST(H.USERNAME AS VARCHAR(20))
    FROM SYSCS_DIAG.LOCK_TABLE W JOIN SYSCS_DIAG.TRANSACTION_TABLE T ON T.XID = W.XID
    LEFT JOIN SYSCS_DIAG.LOCK_TABLE G ON G.TABLENAME = W.TABLENAME AND G.LOCKNAME = W.LOCKNAME AND G.STATE = 'GRANT'
        AND G.XID <> W.XID AND (W.MODE = 'X' OR G.MODE = 'X')
    LEFT JOIN SYSCS_DIAG.TRANSACTION_TABLE H ON H.XID = G.XID WHERE W.STATE = 'WAIT'""".replace('\n', ' ')
WIDTH = 1 << 20  # of a part's keys: each part has its own, below those of earlier parts


class Connection(jdbc.Connection):
    top = 1 << 62

    def __init__(self, java, user, level=LEVEL):
        super().__init__(java, 'jdbc:derby:memory:kr;create=true', user, level)
        self.id = user
        self.query('SET SCHEMA APP')  # shares the compiled statements with other users
        self.db.commit()

    def turned(self, key):
        """Derby's key for one of the trace, and back."""
        return Connection.top - key

    def failed(self, fault):
        state = fault.args[0]  # behind the first: the victim of a deadlock, a timeout and an interrupt, which are rolled back
        return {'23505': ['duplicate'], '40001': ['aborted'], '40XL1': ['aborted'], '08000': ['aborted']}[state]

    def fetch(self, key):
        rows = self.query(f'SELECT V FROM T {BY_KEY} WHERE K = ?', self.turned(key))
        return ['found', int(rows[0][0])] if rows else ['none']

    def scan(self, low, high):
        rows = self.query(f'SELECT K, V FROM T {BY_KEY} WHERE K >= ? AND K <= ?', self.turned(high), self.turned(low))
        rows = [[self.turned(int(key)), int(value)] for key, value in rows]
        return ['rows', sorted(rows) if 'upwards' in MORE else rows]

    def insert(self, key, value):
        return super().insert(self.turned(key), value)

    def delete(self, key):
        return super().delete(self.turned(key))

    def update(self, key, value):
        return super().update(self.turned(key), value)


class Derby(Connection):
    def __init__(self):
        self.java = jdbc.Jdbc('/usr/share/java/derby.jar', f'-Dderby.stream.error.file={os.devnull}',
                              '-Dderby.locks.waitTimeout=5', '-Dderby.locks.deadlockTimeout=1')
        self.used = 0
        super().__init__(self.java, 'U0', 'READ UNCOMMITTED')
        self.query('CREATE TABLE T (K BIGINT NOT NULL, V BIGINT, CONSTRAINT PK PRIMARY KEY (K))')
        self.commit()

    def open(self, pairs):
        Connection.top -= WIDTH  # a new table would have each statement compiled again
        for key, value in pairs:
            self.insert(key, value)
        self.commit()

    def connect(self):
        self.used += 1
        return Connection(self.java, f'U{self.used % 32 + 1}')  # each user compiles the statements once

    def waits(self, ids):
        rows = self.query(WAITS)
        self.commit()
        if not {one for one, *_ in rows} >= {*ids} or any(xid != 'null' and by == 'null' for _, _, xid, by in rows):
            return None  # one doesn't wait, or waits for Derby's purge of a deleted row
        self.blocking = {it: {by for one, _, _, by in rows if one == it} for it in ids}
        return None if any(map(self.is_deadlocked, ids)) else {one: lock for one, lock, *_ in rows}

    def is_deadlocked(self, waiting):
        """Whether one waits in a cycle, in which Derby looks for a victim after a second."""
        seen, found = set(), {waiting}
        while found:
            found = {by for it in found for by in self.blocking.get(it, ())} - seen
            seen |= found
        return waiting in seen

    def blockers(self, waiting):
        return self.blocking[waiting]


class Driver(driver.Driver):
    def __init__(self, engine):
        super().__init__(engine)
        self.interrupted, self.waits_of, engine.waits = set(), engine.waits, self.waits

    def take(self, step):
        if 'peek' not in MORE or not self.is_vain(*step[1:3]):
            super().take(step)

    def is_vain(self, operation, key=None):
        """Whether an insert finds its key, or a delete or an update doesn't."""
        if operation not in ('insert', 'delete', 'update'):
            return False
        is_there = self.engine.fetch(key) != ['none']
        self.engine.commit()
        return is_there == (operation == 'insert')

    def write(self, step, reply):
        falls = step[1] == 'scan' and 'upwards' not in MORE
        super().write([*step[:2], *step[:1:-1]] if falls else step, reply)

    def waits(self, ids):
        ending = {it.connection.id for it in self.sessions.values() if it.step and it.step[1] in ('commit', 'abort')}
        return None if (self.interrupted | ending) & {*ids} else self.waits_of(ids)

    def settle(self):
        super().settle()
        while 'give-up' in MORE and (waiting := [it for it in self.sessions.values() if it.step]):
            self.interrupted.add(waiting[0].connection.id)
            waiting[0].connection.db.interrupt()
            super().settle()
            self.interrupted.clear()


if __name__ == '__main__':
    Driver(Derby()).run(sys.stdin)
