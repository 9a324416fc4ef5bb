"""An engine that is a library, in a process of its own: a program in Java or C++ beside this file, in which a thread does the
steps of each transaction. A line to it is the transaction's number and words, with tabs between, and each has a line of answer,
which begins with the number too."""

import itertools
import pathlib
import queue
import subprocess
import sys
import tempfile
import threading

import driver

FOLDER = pathlib.Path(__file__).resolve().parent


def built(name, source, *command):
    """The file of this name in out/, which the command makes of a source beside this file, where it isn't there or is older."""
    source, path = FOLDER / source, FOLDER / 'out' / name
    if not path.exists() or path.stat().st_mtime < source.stat().st_mtime:
        path.parent.mkdir(exist_ok=True)
        subprocess.run([it.format(source=source, out=path.parent, path=path) for it in command], check=True)
    return path


class Process:
    def __init__(self, *command):
        self.program = subprocess.Popen(
            [*map(str, command)], stdin=subprocess.PIPE, stdout=subprocess.PIPE, text=True, encoding='utf-8'
        )
        self.numbers, self.answers, self.lock = itertools.count(1), {'0': queue.SimpleQueue()}, threading.Lock()
        threading.Thread(target=self.read, daemon=True).start()

    def read(self):
        for line in self.program.stdout:
            number, *said = line.rstrip('\n').split('\t')
            self.answers[number].put(said)

    def number(self):
        """The number of a new transaction."""
        number = str(next(self.numbers))
        self.answers[number] = queue.SimpleQueue()
        return number

    def tell(self, *words):
        with self.lock:
            self.program.stdin.write('\t'.join(map(str, words)) + '\n')
            self.program.stdin.flush()

    def ask(self, number, *words):
        self.tell(number, *words)
        return self.answers[number].get()


class Connection:
    """A transaction of rocksdb.cc or berkeleydb.cc. Its steps are the lines, and the answers are replies."""

    def __init__(self, process):
        self.process, self.id, self.db = process, process.number(), self

    def do(self, operation, *words):
        reply, *said = self.process.ask(self.id, operation, *words)
        if reply == 'fault':
            raise RuntimeError(*said)
        if reply == 'rows':
            return ['rows', [[*map(int, it.split())] for it in said]]
        return [reply, *map(int, said)]

    def close(self):
        self.do('abort')
        self.process.tell(self.id, 'close')


class Engine:
    def __init__(self, *command):
        self.process = Process(*command)

    def open(self, pairs):
        if self.process.ask('0', 'open', *(it for pair in pairs for it in pair)) != ['ok']:
            raise RuntimeError('the index is not made')

    def connect(self):
        return Connection(self.process)

    def waits(self, ids):
        rows = [it.split() for it in self.process.ask('0', 'waits')[1:]]
        self.blocking = {one: by for one, _, *by in rows}
        return {one: name for one, name, *_ in rows} if self.blocking.keys() >= {*ids} else None

    def blockers(self, waiting):
        return self.blocking[waiting]


def main(name, library, *words):
    """Builds the C++ program of this name with its library, and drives it in a folder that is removed."""
    path = built(name, f'{name}.cc', 'g++', '-std=c++17', '-O1', '{source}', library, '-lpthread', '-o', '{path}')
    with tempfile.TemporaryDirectory() as folder:
        driver.Driver(Engine(path, folder, *words)).run(sys.stdin)
