#!/usr/bin/python3 -B
"""HSQLDB, driven from outside: a trace's steps on standard input, the same with its replies on standard output. Debian's packages
libhsqldb-java and default-jdk-headless. HSQLDB runs in a Java process of its own, in memory.

    ./parts.py 1 10 | ./hsqldb.py >hsqldb.trace
    ./parts.py 1 10 | ./hsqldb.py SERIALIZABLE MVCC >hsqldb-mvcc.trace

The isolation level is the first word, or SERIALIZABLE, and the second HSQLDB's TRANSACTION CONTROL: LOCKS, MVLOCKS or MVCC, or else
LOCKS."""

import sys

import driver
import jdbc

LEVEL, CONTROL = [*sys.argv[1:], *['SERIALIZABLE', 'LOCKS'][len(sys.argv) - 1:]]


class Connection(jdbc.Numbered):
    def __init__(self, java, level=LEVEL):
        super().__init__(java, 'jdbc:hsqldb:mem:kr', 'SA', level)


class HSQLDB(Connection):
    def __init__(self):
        self.java = jdbc.Jdbc('/usr/share/java/hsqldb.jar')
        super().__init__(self.java, 'READ COMMITTED')
        self.query(f'SET DATABASE TRANSACTION CONTROL {CONTROL}')
        self.query('CREATE TABLE T (K BIGINT PRIMARY KEY, V BIGINT)')
        self.commit()

    def connect(self):
        return Connection(self.java)

    def waits(self, ids):
        """By WAITING_FOR_THIS, turned round: THIS_WAITING_FOR is empty."""
        try:
            rows = self.query('SELECT SESSION_ID, WAITING_FOR_THIS FROM INFORMATION_SCHEMA.SYSTEM_SESSIONS')
        except jdbc.Fault:
            return None  # a general error, where sessions begin or end meanwhile: the driver asks again
        finally:
            self.commit()
        self.blocking = {}
        for by, waiting in rows:
            for it in waiting.split(','):
                if it.isdigit():
                    self.blocking.setdefault(int(it), []).append(int(by))
        return {it: str(by) for it, by in self.blocking.items()} if self.blocking.keys() >= {*ids} else None

    def blockers(self, waiting):
        return self.blocking[waiting]


if __name__ == '__main__':
    driver.Driver(HSQLDB()).run(sys.stdin)
