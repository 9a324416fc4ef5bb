#!/usr/bin/python3 -B
"""H2, driven from outside: a trace's steps on standard input, the same with its replies on standard output. Debian's packages
libh2-java and default-jdk-headless. H2 runs in a Java process of its own, in memory.

    ./parts.py 1 10 | ./h2.py >h2.trace

The isolation level is the first word, or SERIALIZABLE."""

import sys

import driver
import jdbc

LEVEL = [*sys.argv[1:], 'SERIALIZABLE'][0]
URL = 'jdbc:h2:mem:kr;LOCK_TIMEOUT=100000;DB_CLOSE_DELAY=-1'


class Connection(jdbc.Numbered):
    ENDED = ('40001', '90131')  # the victim of a deadlock, and a row that another has changed

    def __init__(self, java, level=LEVEL):
        super().__init__(java, URL, 'sa', level)


class H2(Connection):
    def __init__(self):
        self.java = jdbc.Jdbc('/usr/share/java/h2.jar')
        super().__init__(self.java, 'READ COMMITTED')
        self.query('CREATE TABLE T (K BIGINT PRIMARY KEY, V BIGINT)')
        self.commit()

    def connect(self):
        return Connection(self.java)

    def waits(self, ids):
        rows = self.query('SELECT SESSION_ID, BLOCKER_ID FROM INFORMATION_SCHEMA.SESSIONS WHERE BLOCKER_ID IS NOT NULL')
        self.commit()
        self.blocking = {int(one): int(by) for one, by in rows}
        return dict(self.blocking) if self.blocking.keys() >= {*ids} else None

    def blockers(self, waiting):
        return [self.blocking[waiting]]


if __name__ == '__main__':
    driver.Driver(H2()).run(sys.stdin)
