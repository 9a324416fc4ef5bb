#!/usr/bin/python3 -B
"""MariaDB's InnoDB, driven from outside: a trace's steps on standard input, the same with its replies on standard output.
ENGINE in the environment is the server's socket (with-mariadb).

    ./parts.py 1 10 | ./with-mariadb ./innodb.py >innodb.trace

The isolation level is the first word, or SERIALIZABLE. A scan reads a key with each statement; with --whole-scans as the second
word it reads its range with one."""

import os
import re
import sys
import time

import driver
import pymysql

LEVEL, *MORE = [*sys.argv[1:], 'SERIALIZABLE']
WAIT = re.compile(r'MariaDB thread id (\d+)(?:(?!---TR).*\n)*?-+ TRX HAS BEEN WAITING .*\n(RECORD LOCKS .*\n.* heap no \d+)')
BLOCKERS = """
    SELECT blocking.trx_mysql_thread_id FROM information_schema.INNODB_LOCK_WAITS AS its
    JOIN information_schema.INNODB_TRX AS waiting ON waiting.trx_id = its.requesting_trx_id
    JOIN information_schema.INNODB_TRX AS blocking ON blocking.trx_id = its.blocking_trx_id
    WHERE waiting.trx_mysql_thread_id = %s"""


class Connection(driver.Connection):
    MAY_FAIL = (pymysql.err.IntegrityError, pymysql.err.OperationalError)

    def __init__(self):
        self.db = pymysql.connect(unix_socket=os.environ['ENGINE'], user='root', autocommit=False)
        self.id, self.changes = self.db.thread_id(), 0
        self.query(f'SET SESSION TRANSACTION ISOLATION LEVEL {LEVEL}')
        self.query('SET SESSION innodb_lock_wait_timeout = 100000')
        self.query('CREATE DATABASE IF NOT EXISTS kr')
        self.query('USE kr')

    def failed(self, fault):
        return {1062: ['duplicate'], 1213: ['aborted']}[fault.args[0]]  # the latter is the victim of a deadlock

    def scan(self, low, high):
        self.rows, self.high = [], high
        return ['rows', self.read(low - 1)] if '--whole-scans' in MORE else self.look(low - 1)

    def go(self):
        return self.look(self.rows[-1][0])

    def look(self, below):
        self.rows += self.read(below, 'LIMIT 1')
        last = self.rows[-1][0] if self.rows else self.high
        return ['going', last] if below < last < self.high else ['rows', self.rows]

    def read(self, below, limit=''):
        """The pairs above a key. (With >= in place of > InnoDB locks no gap below the first key that is read.)"""
        text = f'SELECT k, v FROM t FORCE INDEX (PRIMARY) WHERE k > %s AND k <= %s ORDER BY k {limit}'
        return self.query(text, below, self.high)

    def change(self, text, *words):
        self.query(f'SAVEPOINT s{self.changes}')
        rows = self.query(text, *words)
        self.changes += self.count
        return rows

    def back(self):
        self.changes -= 1
        self.query(f'ROLLBACK TO SAVEPOINT s{self.changes}')
        return ['undone', self.changes]


class InnoDB(Connection):
    def open(self, pairs):
        self.query('CREATE TABLE IF NOT EXISTS empty (k INT PRIMARY KEY) ENGINE = InnoDB')
        self.query('CREATE OR REPLACE TABLE t (k BIGINT UNSIGNED PRIMARY KEY, v BIGINT UNSIGNED) ENGINE = InnoDB')
        for pair in pairs:
            self.query('INSERT INTO t VALUES (%s, %s)', *pair)
        self.commit()

    def connect(self):
        """A transaction's connection. It asks for a write at once: all that haven't yet are 0 where InnoDB names blockers."""
        connection = Connection()
        connection.query('SELECT k FROM empty FOR UPDATE')
        return connection

    def waits(self, ids):
        cursor = self.db.cursor()
        cursor.execute("SHOW GLOBAL STATUS LIKE 'Innodb_row_lock_current_waits'")
        if int(cursor.fetchone()[1]) < len(ids):
            return None  # one hasn't begun to wait, or hasn't looked for a deadlock
        cursor.execute('SHOW ENGINE INNODB STATUS')
        waits = {int(it): lock for it, lock in WAIT.findall(cursor.fetchone()[2])}
        return waits if waits.keys() >= {*ids} else None  # one has its lock, or is a victim

    def blockers(self, waiting):
        time.sleep(0.11)  # for 0.1 s after it was asked InnoDB answers the same
        return [it for it, in self.query(BLOCKERS, waiting)]


if __name__ == '__main__':
    driver.Driver(InnoDB()).run(sys.stdin)
