"""The command .ci/edits, whole, with a prover that refuses each edit but those that it is told to let through."""

import os
import shutil
import subprocess
import time
import unittest

from small import FILES, Small
from must_fail.checksum import Texts
from must_fail.edit import Edit
from must_fail.ledger import BUCKETS, bucket_now, buckets_of

NAMES = ['adds-nothing', 'cheap', 'forgets-most', 'takes-twice']
DAY = '2020-01-01'


class Command(unittest.TestCase):
    def setUp(self):
        self.small = Small(self).with_prover()

    def line(self, name):
        """A line that fits, written by hand."""
        edit = Edit(self.small.crate, self.small.crate / f'must-fail/{name}.edit')
        return f'kr_small/{name} {Texts(self.small.crate).sum_of(edit)} {DAY}\n'

    def write(self, *lines):
        self.small.put('.ci/refused', ''.join(lines))

    def write_all(self, head=''):
        self.write(head, *map(self.line, NAMES))

    def write_for(self, bucket):
        """Lines for all, with such a comment that the gate's sample is this one."""
        for it in range(1000):
            self.write_all(f'# {it}\n')
            if bucket_now('', self.small.ledger().encode()) == bucket:
                return

    def lets_through(self, function):
        (self.small.kit / 'lets-through').write_text(function)

    def run_edits(self, *words):
        status, said = self.small.edits(*words)
        self.assertNotIn('Traceback', said)
        return status, said

    def lines(self):
        """The lines of the ledger without the checksums."""
        return [f'{it.split()[0]} {it.split()[2]}' for it in self.small.ledger().splitlines() if not it.startswith('#')]

    def calls(self):
        return len((self.small.kit / 'calls').read_text().splitlines()) if (self.small.kit / 'calls').exists() else 0

    # .ci/edits

    def test_tries_what_has_no_line(self):
        today = time.strftime('%Y-%m-%d')
        self.write(self.line('cheap'), self.line('takes-twice'))
        status, said = self.run_edits()
        self.assertEqual(status, 0, said)
        self.assertIn('edits: 2 to try, new: kr_small/adds-nothing kr_small/forgets-most\n', said)
        self.assertEqual(said.splitlines()[-1], 'edits: 2 refused, 0 not')
        self.assertEqual(self.lines(), [f'kr_small/{it} {DAY if it in ("cheap", "takes-twice") else today}' for it in NAMES])
        calls = self.calls()
        self.assertEqual(self.run_edits()[0], 0)
        self.assertEqual(self.calls(), calls, 'nothing is tried again')

    def test_tries_what_has_changed(self):
        self.write_all()
        self.small.change('crates/kr_small/src/shop.rt', 'let mut sum = 0;', 'let mut sum = 1 - 1;')
        status, said = self.run_edits()
        self.assertEqual(status, 0, said)
        self.assertIn('edits: 1 to try, changed: kr_small/adds-nothing\n', said)

    def test_tries_those_named(self):
        self.write_all()
        status, said = self.run_edits('kr_small/cheap')
        self.assertEqual((status, said.splitlines()[-1]), (0, 'edits: 1 refused, 0 not'), said)
        status, said = self.run_edits('kr_small')
        self.assertEqual((status, said.splitlines()[-1]), (0, 'edits: 4 refused, 0 not'), said)
        status, said = self.run_edits('kr_small/none')
        self.assertEqual(status, 1)
        self.assertIn('edit kr_small/none: there is no such edit\n', said)

    def test_an_edit_that_is_let_through_loses_its_line(self):
        self.write_all()
        self.lets_through('Till::add')
        status, said = self.run_edits('kr_small')
        self.assertEqual(status, 1)
        self.assertIn('edit kr_small/takes-twice: NOT REFUSED: the crate is still proved with this edit\n', said)
        self.assertEqual([it.split()[0] for it in self.lines()], [f'kr_small/{it}' for it in NAMES[:3]])

    def test_lines_of_edits_that_are_gone_go(self):
        self.write_all('kr_small/was-there 0123456789abcdef 2020-01-01\n')
        self.assertEqual(self.run_edits()[0], 0)
        self.assertEqual(self.lines(), [f'kr_small/{it} {DAY}' for it in NAMES])

    def test_nothing_is_written_of_files_that_changed_meanwhile(self):
        for path in 'src/shop.rt', 'must-fail/adds-nothing.edit', 'proofs/shop/total/Answers.antt':
            (self.small.kit / 'touches').write_text(str(self.small.crate / path))
            status, said = self.run_edits('kr_small/adds-nothing')
            self.assertEqual(status, 0, said)
            self.assertIs('not written down' in said, path != 'src/shop.rt', path)
        self.assertEqual(len(self.lines()), 1, 'the function that was added at the end of src/shop.rt counts to no edit')

    def test_all(self):
        self.write_all()
        status, said = self.run_edits('--all')
        self.assertEqual((status, said.splitlines()[-1]), (0, 'edits: 4 refused, 0 not'), said)
        today = time.strftime('%Y-%m-%d')
        self.assertTrue(self.small.ledger().startswith(f'# All 4 edits were tried on {today} with rattle-kit-1 (logic 0123).\n'))
        self.assertEqual(self.lines(), [f'kr_small/{it} {today}' for it in NAMES])

    def test_all_with_one_that_is_let_through(self):
        self.lets_through('Till::add')
        self.assertEqual(self.run_edits('--all')[0], 1)
        self.assertTrue(self.small.ledger().startswith('# Not all edits have been tried in one run.\n'))

    def test_faults(self):
        self.small.put('crates/kr_small/must-fail/bad.edit', 'file: src/shop.rt\nold: none\nnew: one\n')
        self.small.put('crates/kr_other/src/lib.rt', 'fn f() {}\n')
        self.small.put('crates/kr_other/must-fail/lost.edit', 'file: src/lib.rt\nold: f()\nnew: g()\n')
        status, said = self.run_edits()
        self.assertEqual(status, 1)
        self.assertIn('edit kr_small/bad: BAD EDIT: the old text is in src/shop.rt 0 times, and not once\n', said)
        self.assertIn('edit kr_other/lost: BAD EDIT: crates.txt has no such crate\n', said)

    def test_name_goals(self):
        self.small.put('crates/kr_small/must-fail/adds-nothing.edit', FILES['crates/kr_small/must-fail/adds-nothing.edit'] + 'gone: ok\n')
        status, said = self.run_edits('--name-goals', 'kr_small')
        self.assertEqual(status, 0, said)
        self.assertEqual([it.split()[0] for it in self.lines()], [f'kr_small/{it}' for it in NAMES])
        calls = self.calls()
        self.assertEqual(self.run_edits()[0], 0)
        self.assertEqual(self.calls(), calls, 'the lines fit what was written into the edits')

    # .ci/edits --gate

    def test_gate_writes_nothing(self):
        status, said = self.run_edits('--gate')
        self.assertEqual((status, said.splitlines()[-1]), (0, 'edits: 4 refused, 0 not'), said)
        self.assertIn('edits: .ci/refused lacks a line that fits of 4 edits: `.ci/edits` writes the ledger\n', said)
        self.assertFalse((self.small.top / '.ci/refused').exists())
        self.assertEqual([*self.small.top.rglob('__pycache__')], [])

    def test_gate_fails_at_what_is_let_through(self):
        self.lets_through('Till::add')
        self.write(*map(self.line, NAMES[:3]))
        status, said = self.run_edits('--gate')
        self.assertEqual(status, 1)
        self.assertIn('edit kr_small/takes-twice: NOT REFUSED', said)

    def test_gate_fails_at_a_line_of_an_edit_that_is_gone(self):
        self.write_for(0)
        self.small.put('.ci/refused', self.small.ledger() + 'kr_small/was-there 0123456789abcdef 2020-01-01\n')
        status, said = self.run_edits('--gate')
        self.assertEqual(status, 1)
        self.assertIn('edit kr_small/was-there: .ci/refused has a line for it, and it is gone: `.ci/edits` writes the ledger\n', said)

    def test_a_line_by_hand_is_found_out_when_its_turn_comes(self):
        """Of an edit that the prover lets through."""
        self.lets_through('Till::add')
        own = buckets_of(f'kr_small/{it}' for it in NAMES)['kr_small/takes-twice']
        for bucket in own, (own + 1) % BUCKETS:
            self.write_for(bucket)
            status, said = self.run_edits('--gate')
            self.assertIn(f'edits: the sample is number {bucket} of 20, by the ledger\n', said)
            self.assertEqual(status, bucket == own, said)
            self.assertIs('edit kr_small/takes-twice: NOT REFUSED: the crate is still proved with this edit\n' in said, bucket == own)

    @unittest.skipUnless(shutil.which('git'), 'needs git')
    def test_a_commit_chooses_the_sample(self):
        self.lets_through('Till::add')
        self.write_all()
        own, seen = buckets_of(f'kr_small/{it}' for it in NAMES)['kr_small/takes-twice'], set()
        self.git('init', '-q')
        for it in range(200):
            self.git('commit', '-q', '--allow-empty', '-m', f'{it}')
            commit = self.git('rev-parse', 'HEAD')
            bucket = int(commit, 16) % BUCKETS
            if bucket == own or not seen:
                status, said = self.run_edits('--gate')
                self.assertIn(f'edits: the sample is number {bucket} of 20, by the commit {commit[:8]}\n', said)
                self.assertEqual(status, bucket == own, said)
                seen.add(bucket)
            if own in seen and len(seen) > 1:
                return
        self.assertIn(own, seen)

    def git(self, *words):
        who = ['-c', 'user.name=test', '-c', 'user.email=test@localhost', '-c', 'commit.gpgsign=false']
        env = {it: value for it, value in os.environ.items() if not it.startswith('GIT_')}
        return subprocess.run(['git', '-C', self.small.top, *who, *words], capture_output=True, text=True, check=True, env=env).stdout.strip()

    def test_words_that_exclude_each_other(self):
        for words in ['--gate', '--all'], ['--gate', 'kr_small'], ['--gate', '--name-goals']:
            status, said = self.small.edits(*words)
            self.assertEqual(status, 2)
            self.assertIn('exclude each other', said)


if __name__ == '__main__':
    unittest.main()
