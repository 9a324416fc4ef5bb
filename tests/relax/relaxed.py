"""What kr relax prints, held to relaxations that are found by another way, of tables of one kind."""

import argparse
import json
import pathlib
import random
import re
import subprocess
import sys
import tempfile

TOP = pathlib.Path(__file__).resolve().parents[2]
sys.path += [str(TOP / 'tests' / it) for it in ('engines', 'suite')]

from holding import Wrong, expect, file_of
from program import built

ENTRY = re.compile(r'(\d+)\. (.*)\n   (.*)\n   more granted: (\d+)(?:; no script is known|, among them (.*)\n   (.*))\n')
REASON = re.compile(r'(\S.*)\n   (.*?)(?:, as this goes wrong\n   (.*))?\n')
TIGHT = 'tight: no single entry can be relaxed\n'


def said_of(*words):
    ran = subprocess.run([built(), 'relax', *words], capture_output=True, text=True)
    return ran.stdout, ran.stderr, ran.returncode


def words_of(steps):
    """The last step, beside those of the other transactions."""
    said = lambda txn, op, *numbers: f"T{txn}'s {' '.join(map(str, [op, *numbers]))}"
    return ' beside '.join(said(*it) for it in [steps[-1], *(it for it in steps if it[0] != steps[-1][0])])


def entry_of(change):
    return change.name.split(': ')[0]


class Relaxed:
    """A table with what kr relax prints of it. Tables of a kind have a class of their own, which says of them:

    read(text)                   the table of a file
    is_safe(table)               whether it is safe
    reach(table)                 what schedules come to under it, with the relaxations and the entries that they don't come to
    text(table)                  a table as a file
    has_same_modes(table)        whether it has the modes of this one
    goes_wrong(table, script)    whether the run of a script under a table isn't serializable, by a second machine; None without one
    random(rand, count, folder)  the words of so many random tables
    """

    def __init__(self, word, rand, folder):
        self.word, self.rand, self.folder = word, rand, pathlib.Path(folder)
        self.table = self.read(file_of(word).read_text())

    def report(self, table, script):
        """The report of `kr run` under a table."""
        paths = [self.folder / it for it in ('table.toml', 'script.json')]
        for path, it in zip(paths, (self.text(table), script)):
            path.write_text(it)
        ran = subprocess.run([built(), 'run', *map(str, paths)], capture_output=True, text=True)
        expect(ran.returncode in (0, 1), ran.stderr)
        return json.loads(ran.stdout)

    def hold(self):
        out, err, status = said_of(self.word)
        if not self.is_safe(self.table):
            line = f'kr: {self.word}: not safe; see kr explain {self.word}\n'
            expect((out, err, status) == ('', line, 2), f'not safe, and said: {status} {out}{err}')
            return f'{self.word}: not safe'
        self.found = self.reach(self.table)
        self.changes = [*self.found.changes()]
        count, shown = self.hold_list(out)
        expect(not err and status == (count > 0), f'status {status} {err}')
        for entry in self.rand.sample(sorted({*map(entry_of, self.changes)}), 3):
            self.hold_why(entry)
        differ = self.hold_tightest()
        return f'{self.word}: {count} relaxations, {shown} with a script; the tightest table differs in {differ} entries'

    def hold_list(self, text):
        """Holds the list, and says how many relaxations it has, and how many of them a script."""
        found, tail = self.found.relaxations(), self.found.unused()
        expect(text.endswith(tail), f'the entries that nothing uses are {tail}')
        text = text[: len(text) - len(tail)]
        expect((text == TIGHT) == (not found), 'said to be tight')
        entries = ENTRY.findall(text)
        expect(text == TIGHT or ''.join(it[0] for it in ENTRY.finditer(text)) == text, f'the text has other lines: {text}')
        expect([int(it[0]) for it in entries] == [*range(1, len(entries) + 1)], 'the numbers do not count up')
        named = [(int(it[3]), it[1]) for it in entries]
        expect(named == [(more, it.name) for more, it in found], f'named: {named}; found: {[(more, it.name) for more, it in found]}')
        for (_, changed), (*_, words, script) in zip(found, entries):
            if script:
                self.hold_script(changed, words, script)
        return len(entries), sum(1 for it in entries if it[5])

    def hold_script(self, changed, words, script):
        document = json.loads(script)
        expect(document['format'] in (1, 2) and all(it[0] != 'purge' for it in document['steps']), f'{script} has a purge')
        before, after = (self.report(it, script)['replies'] for it in (self.table, changed))
        expect(before[:-1] == after[:-1], f'{script} is answered otherwise before its last step')
        expect(before[-1][0] == 'blocked' and after[-1][0] not in ('blocked', 'refused'), f'{script} does not show {changed.name}')
        expect(words == words_of(document['steps']), f'{words} is not of {script}')

    def hold_why(self, entry):
        """Holds what is said of each change of an entry."""
        changes = [it for it in self.changes if entry_of(it) == entry]
        out, err, status = said_of(self.word, '--why', entry)
        reasons = REASON.findall(out)
        expect(not err and ''.join(it[0] for it in REASON.finditer(out)) == out, f'--why {entry}: {err}{out}')
        found = [(it.name, self.found.outcome(it)) for it in changes]
        expect([it[:2] for it in reasons] == found, f'--why {entry}: {reasons}; found: {found}')
        expect(status == any(what.startswith('a rel') for _, what in found), f'--why {entry}: status {status}')
        for changed, (_, what, script) in zip(changes, reasons):
            if script:
                verdict = self.report(changed, script)['verdict']
                is_wrong = verdict[0] == 'not-serial' and self.goes_wrong(changed, json.loads(script)) in (True, None)
                expect(what == 'not safe' and is_wrong, f'--why {entry}: {script} does not go wrong')

    def hold_tightest(self):
        """Holds the table that is written, and says in how many entries it differs."""
        out, err, status = said_of(self.word, '--write')
        expect(status in (0, 1) and not err, f'--write: status {status} {err}')
        tightest = self.read(out)
        expect(self.has_same_modes(tightest), '--write: other modes')
        expect(self.is_safe(tightest), '--write: not safe')
        found = self.reach(tightest)
        expect((not found.relaxations()) == (status == 0), f'--write: not tight as status {status} says')
        names = lambda changes: {it.name for it in changes}
        return len({name.split(': ')[0] for name in names(self.changes) ^ names(found.changes())})


def main(text, kind):
    """Holds what is printed of the tables that are named, and of so many random ones."""
    words = argparse.ArgumentParser(description=text, formatter_class=argparse.RawDescriptionHelpFormatter)
    words.add_argument('tables', nargs='*', metavar='TABLE')
    words.add_argument('--random', type=int, default=0)
    words.add_argument('--seed', type=int, default=1)
    given = words.parse_args()
    rand, failed = random.Random(given.seed), 0
    with tempfile.TemporaryDirectory() as folder:
        for word in [*given.tables, *kind.random(rand, given.random, pathlib.Path(folder))]:
            try:
                print('compare:', kind(word, rand, folder).hold(), flush=True)
            except Wrong as it:
                print(f'compare: {word}: {it}', file_of(word).read_text() if given.random else '', flush=True)
                failed = 1
    return failed
