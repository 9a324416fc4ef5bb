"""The command .ci/edits: which edits are tried, what is printed, and what is written into the ledger."""

import argparse
import os
import shutil
import subprocess
import time
from concurrent.futures import ThreadPoolExecutor, as_completed
from pathlib import Path

from .check import Crate
from .checksum import Texts
from .ledger import BUCKETS, Ledger, Line, bucket_now, buckets_of
from .naming import name_goals
from .tree import TOP, crates_of, edits_of, is_one_of, kit, names_of
from .trying import tried

WRITES = '`.ci/edits` writes the ledger'
DAY = '%Y-%m-%d'


def given_by(arguments, usage):
    """The words of a call."""
    words = argparse.ArgumentParser(usage=usage)
    words.add_argument('--over', type=Path, default=TOP)
    words.add_argument('--log', type=Path)
    words.add_argument('--jobs', type=int, default=len(os.sched_getaffinity(0)))
    words.add_argument('--gate', action='store_true')
    words.add_argument('--all', action='store_true')
    words.add_argument('--name-goals', action='store_true')
    words.add_argument('edits', nargs='*')
    given = words.parse_args(arguments)
    if sum([given.gate, given.all, bool(given.edits)]) > 1 or given.gate and given.name_goals:
        words.error('--gate, --all and names exclude each other, and --gate writes nothing')
    return given


class Run:
    """One call: the edits with their checksums, and what came of those that were tried."""

    def __init__(self, given):
        self.given, self.ledger = given, Ledger(TOP / '.ci/refused')
        self.listed = crates_of((TOP / 'crates.txt').read_text())
        self.names = names_of(TOP)
        self.buckets = buckets_of(self.names)
        self.edits, self.faults = edits_of({name: it for name, it in self.names.items() if not given.edits or is_one_of(name, given.edits)})
        self.before = {}  # of each edit its checksum and its text
        for crate, of_crate in self.edits.items():
            texts = Texts(TOP / 'crates' / crate)
            self.before.update({it.name: (texts.sum_of(it), it.text) for it in of_crate})
        self.gone = sorted(self.ledger.lines.keys() - self.names.keys())
        self.refused, self.failed = 0, 0

    def chosen(self):
        """The edits that are tried, by their crates in the order of crates.txt. Prints them with why."""
        sample = self.sample() if self.given.gate else None
        why = {it: found for crate in self.listed for it in self.edits.get(crate, ()) if (found := self.why(it, sample))}
        for one in dict.fromkeys(why.values()):
            names = [it.name for it in why if why[it] == one]
            print(f'edits: {len(names)} to try, {one}: {" ".join(names)}', flush=True)
        found = {}
        for it in why:
            found.setdefault(it.crate, []).append(it)
        return found

    def why(self, edit, sample):
        """Why an edit is tried; '' where it isn't."""
        if self.given.all or self.given.edits:
            return 'as all are' if self.given.all else 'as they are named'
        why = self.ledger.why_tried(edit.name, self.before[edit.name][0])
        return why or ('of the sample' if self.buckets[edit.name] == sample else '')

    def sample(self):
        """Which twentieth of the edits the gate tries beside those of no line that fits."""
        commit = commit_of(TOP)
        sample = bucket_now(commit, self.ledger.path.read_bytes() if self.ledger.path.exists() else b'')
        print(f'edits: the sample is number {sample} of {BUCKETS}, by {f"the commit {commit[:8]}" if commit else "the ledger"}')
        return sample

    def say_faults(self):
        """Says which edits can't be read, or aren't there."""
        faults = {it.name: 'BAD EDIT: crates.txt has no such crate' for crate in self.edits.keys() - self.listed.keys() for it in self.edits[crate]}
        faults.update(self.faults)
        faults.update({it: 'there is no such edit' for it in self.given.edits if not any(is_one_of(name, [it]) for name in self.names)})
        if self.given.gate:
            faults.update({name: f'.ci/refused has a line for it, and it is gone: {WRITES}' for name in self.gone})
        for name, why in faults.items():
            print(f'edit {name}: {why}')
        self.failed += len(faults)

    def try_all(self, chosen):
        """Tries the chosen edits, those of several crates at a time."""
        with ThreadPoolExecutor(self.given.jobs) as pool:
            crates = [Crate(TOP, it, self.listed, self.given.over.resolve(), self.given.log) for it in chosen]
            running = {pool.submit(try_edits, it, chosen[it.name], self.given.name_goals): it for it in crates}
            for it in as_completed(running):
                self.note(running[it], it.result())

    def note(self, crate, outcomes):
        """Notes what came of a crate's edits: a line for each that was refused, unless a file was changed meanwhile."""
        texts = Texts(crate.folder)
        for edit, is_refused, text, _ in outcomes:
            self.refused, self.failed = self.refused + is_refused, self.failed + (not is_refused)
            print(f'edit {edit.name}: {text}', flush=True)
            if not is_refused:
                self.ledger.drop(edit.name)
            elif self.is_as_before(edit, texts):
                self.ledger.put(edit.name, Line(texts.sum_of(edit), time.strftime(DAY)))
            elif not self.given.gate:
                print(f'edit {edit.name}: not written down, since a file was changed meanwhile', flush=True)
        print(f'edits: {crate.name}: {len(outcomes)} edits in {crate.ran} checks, {crate.spent:.0f} s of processor time', flush=True)
        self.write()

    def is_as_before(self, edit, texts):
        checksum, text = self.before[edit.name]
        try:
            return edit.path.read_bytes() == edit.text and texts.sum_of(edit, text) == checksum
        except OSError:
            return False

    def write(self):
        if not self.given.gate:
            self.ledger.write()

    def end(self):
        """Writes the ledger as it is at the end, and says what came of all. Returns the status."""
        for name in self.gone:
            self.ledger.drop(name)
        noted = sum(it is not None for it in self.ledger.changes.values())
        if self.given.all and not self.failed and noted == len(self.before):
            self.ledger.note_all(noted, time.strftime(DAY), (kit() / 'KIT-ID').read_text())
        self.write()
        unfit = sum(self.ledger.why_tried(name, checksum) != '' for name, (checksum, _) in self.before.items())
        if self.given.gate and unfit:
            print(f'edits: .ci/refused lacks a line that fits of {unfit} edits: {WRITES}')
        print(f'edits: {self.refused} refused, {self.failed} not')
        return 1 if self.failed or not self.before else 0


def commit_of(top):
    """The commit that a clone is at; '' of a folder without git."""
    if not (top / '.git').exists() or not shutil.which('git'):
        return ''
    return subprocess.run(['git', '-C', str(top), 'rev-parse', 'HEAD'], capture_output=True, text=True).stdout.strip()


def try_edits(crate, edits, names_goals):
    """Tries the edits of a crate once it is proved, and names in them what is asked for."""
    try:
        crate.wait()
        outcomes = tried(crate, edits)
        if names_goals:
            name_goals(crate, [it.edit for it in outcomes if it.is_refused and not it.is_alone])
        return outcomes
    finally:
        crate.drop()


def main(arguments, usage):
    run = Run(given_by(arguments, usage))
    run.say_faults()
    run.try_all(run.chosen())
    return run.end()
