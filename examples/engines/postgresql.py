#!/usr/bin/python3 -B
"""PostgreSQL, driven from outside: a trace's steps on standard input, the same with its replies on standard output. ENGINE in
the environment is the folder of the server's socket (with-postgresql).

    ./parts.py 1 10 | ./with-postgresql ./postgresql.py >postgresql.trace
    ./parts.py 1 10 | ./with-postgresql ./postgresql.py 'REPEATABLE READ' >postgresql.trace

The level is SERIALIZABLE if none is given. An insert has ON CONFLICT DO NOTHING, since one without it that finds its key ends
the transaction; with `plain` behind the level it has not, and is then answered `aborted`."""

import os
import sys

import driver
import psycopg2
from psycopg2 import errors

LEVEL, IS_PLAIN = [*sys.argv[1:], 'SERIALIZABLE'][0], sys.argv[2:] == ['plain']


class Connection(driver.Connection):
    MAY_FAIL = (errors.SerializationFailure, errors.DeadlockDetected, errors.UniqueViolation)

    def __init__(self):
        self.db = psycopg2.connect(host=os.environ['ENGINE'], user='postgres', dbname='postgres')
        self.id = self.db.get_backend_pid()
        self.db.set_session(isolation_level=LEVEL)
        self.query('SET enable_seqscan = off')  # so that it reads by the index, and locks no more than that
        self.query('SET enable_bitmapscan = off')
        self.db.commit()

    def failed(self, fault):
        return self.abort()

    def insert(self, key, value):
        self.query('INSERT INTO t VALUES (%s, %s)' + ('' if IS_PLAIN else ' ON CONFLICT DO NOTHING'), key, value)
        return ['done'] if self.count else ['duplicate']


class PostgreSQL(Connection):
    connect = Connection

    def open(self, pairs):
        self.query('DROP TABLE IF EXISTS t')
        self.query('CREATE TABLE t (k numeric PRIMARY KEY, v numeric)')
        for pair in pairs:
            self.query('INSERT INTO t VALUES (%s, %s)', *pair)
        self.commit()

    def waits(self, ids):
        rows = self.query('SELECT it, by FROM unnest(%s) AS it, unnest(pg_blocking_pids(it)) AS by', ids)
        self.commit()
        self.blocking = {it: [by for one, by in rows if one == it] for it in ids}
        return None if [] in self.blocking.values() or any(map(self.is_deadlocked, ids)) else dict(self.blocking)

    def is_deadlocked(self, waiting):
        """Whether one waits in a cycle, in which PostgreSQL looks for a victim after a time."""
        seen, found = set(), {waiting}
        while found:
            found = {by for it in found for by in self.blocking.get(it, [])} - seen
            seen |= found
        return waiting in seen

    def blockers(self, waiting):
        return self.blocking[waiting]


if __name__ == '__main__':
    driver.Driver(PostgreSQL()).run(sys.stdin)
