"""JDBC for an adapter: a process with Jdbc.java, in which each connection has a number and a thread."""

import driver
from process import FOLDER, Process, built


class Fault(Exception):
    """A statement's fault: its SQLSTATE, the engine's code, and the text."""


class Jdbc(Process):
    def __init__(self, archive, *options):
        built('Jdbc.class', 'Jdbc.java', 'javac', '-d', '{out}', '{source}')
        super().__init__('java', '-cp', f'{archive}:{FOLDER / "out"}', '-XX:TieredStopAtLevel=1', *options, 'Jdbc')

    def ask(self, number, *words):
        """The count, and the rows, each a list of texts."""
        kind, *said = super().ask(number, *words)
        if kind == 'fault':
            raise Fault(*said)
        return int(said[0]), [row.split(' ') for row in said[1:]]


class Db:
    """A connection, as driver.Connection and driver.Session take it."""

    def __init__(self, java, url, user, level):
        self.java, self.number = java, java.number()
        self.ask('open', url, user)
        self.ask('level', level)

    def ask(self, *words):
        return self.java.ask(self.number, *words)

    def commit(self):
        self.ask('commit')

    def rollback(self):
        self.ask('rollback')

    def close(self):
        try:
            self.ask('close')
        except Fault:
            pass  # it is closed

    def interrupt(self):
        self.java.tell(self.number, 'interrupt')


class Connection(driver.Connection):
    """A transaction in a table T of keys K and values V."""

    LEVELS = {'READ UNCOMMITTED': 1, 'READ COMMITTED': 2, 'REPEATABLE READ': 4, 'SERIALIZABLE': 8}
    MAY_FAIL = (Fault,)

    def __init__(self, java, url, user, level):
        self.db = Db(java, url, user, self.LEVELS[level])

    def query(self, text, *words):
        self.count, rows = self.db.ask('do', text, *words)
        return rows

    change = query

    def fetch(self, key):
        rows = self.query('SELECT V FROM T WHERE K = ?', key)
        return ['found', int(rows[0][0])] if rows else ['none']

    def scan(self, low, high):
        rows = self.query('SELECT K, V FROM T WHERE K >= ? AND K <= ? ORDER BY K', low, high)
        return ['rows', [[int(key), int(value)] for key, value in rows]]

    def insert(self, key, value):
        self.query('INSERT INTO T VALUES (?, ?)', key, value)
        return ['done']

    def delete(self, key):
        self.query('DELETE FROM T WHERE K = ?', key)
        return ['deleted'] if self.count else ['absent']

    def update(self, key, value):
        self.query('UPDATE T SET V = ? WHERE K = ?', value, key)
        return ['updated'] if self.count else ['absent']

    def open(self, pairs):
        """Fills the table anew."""
        self.query('DELETE FROM T')
        for key, value in pairs:
            self.query('INSERT INTO T VALUES (?, ?)', key, value)
        self.commit()


class Numbered(Connection):
    """A transaction of an engine that numbers its sessions and says by the numbers who waits, as H2 and HSQLDB do."""

    ENDED = ('40001',)  # states of a fault at which the transaction can only be rolled back

    def __init__(self, java, url, user, level):
        super().__init__(java, url, user, level)
        self.id = int(self.query('CALL SESSION_ID()')[0][0])
        self.db.commit()

    def failed(self, fault):
        state = fault.args[0]
        if state == '23505':
            return ['duplicate']
        if state in self.ENDED:
            return self.abort()
        raise fault
