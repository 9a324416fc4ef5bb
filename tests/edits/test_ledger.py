"""The ledger of refused edits, and the choice of the sample."""

import tempfile
import unittest
from pathlib import Path

import small  # noqa: F401
from must_fail.ledger import BUCKETS, Ledger, Line, bucket_now, buckets_of

ALL = '# All 2 edits were tried on 2026-11-30 with rattle-kit-1 (logic 0123).\n'


class Ledgers(unittest.TestCase):
    def setUp(self):
        room = tempfile.TemporaryDirectory(prefix='kr-edits-test-')
        self.addCleanup(room.cleanup)
        self.path = Path(room.name) / 'refused'

    def test_none(self):
        ledger = Ledger(self.path)
        self.assertEqual(ledger.why_tried('a/b', '01'), 'new')
        ledger.write()
        self.assertTrue(self.path.read_text().startswith('# Not all edits have been tried in one run.\n'))

    def test_read(self):
        self.path.write_text(f'{ALL}# more\na/b 01 2026-11-30\na/c 02\n')
        ledger = Ledger(self.path)
        self.assertEqual(ledger.why_tried('a/b', '01'), '')
        self.assertEqual(ledger.why_tried('a/b', '02'), 'changed')
        self.assertEqual(ledger.why_tried('a/c', '02'), 'changed', 'a line without a day')
        self.assertEqual(ledger.why_tried('a/d', '01'), 'new')

    def test_write(self):
        self.path.write_text(f'{ALL}a/d 01 2026-11-30\na/b 01 2026-11-30\n')
        ledger = Ledger(self.path)
        ledger.put('a/c', Line('02', '2026-12-01'))
        ledger.drop('a/d')
        ledger.write()
        lines = self.path.read_text().splitlines(keepends=True)
        self.assertEqual(lines[0], ALL, 'the head stays')
        self.assertEqual(len([it for it in lines if it.startswith('#')]), 4)
        self.assertEqual(lines[4:], ['a/b 01 2026-11-30\n', 'a/c 02 2026-12-01\n'])
        self.assertEqual([it.name for it in self.path.parent.iterdir()], ['refused'], 'nothing else is left')

    def test_write_leaves_what_another_run_wrote(self):
        self.path.write_text(ALL)
        one, other = Ledger(self.path), Ledger(self.path)
        one.put('a/b', Line('01', '2026-11-30'))
        other.put('a/c', Line('02', '2026-11-30'))
        one.write()
        other.write()
        self.assertEqual(sorted(Ledger(self.path).lines), ['a/b', 'a/c'])

    def test_all(self):
        ledger = Ledger(self.path)
        ledger.note_all(2, '2026-11-30', 'rattle-kit-1 logic 0123\n')
        ledger.write()
        self.assertTrue(self.path.read_text().startswith(ALL))
        Ledger(self.path).write()
        self.assertTrue(self.path.read_text().startswith(ALL))


class Sample(unittest.TestCase):
    def test_the_commit_chooses(self):
        self.assertEqual(bucket_now('497562a8', b'x'), 0x497562A8 % 20)
        self.assertEqual({bucket_now(f'{it:x}', b'') for it in range(100)}, set(range(BUCKETS)))

    def test_the_ledger_chooses_without_a_commit(self):
        self.assertEqual(bucket_now('', b'x'), bucket_now('', b'x'))
        self.assertGreater(len({bucket_now('', b'%d' % it) for it in range(100)}), BUCKETS // 2)

    def test_each_edit_is_in_one_of_equal_parts(self):
        names = [f'kr_{crate}/edit-{it}' for crate in range(30) for it in range(10 + crate)]
        buckets = buckets_of(names)
        self.assertEqual(buckets, buckets_of(reversed(names)))
        counts = [list(buckets.values()).count(it) for it in range(BUCKETS)]
        self.assertEqual(sum(counts), len(names))
        self.assertLessEqual(max(counts) - min(counts), 1)

    def test_the_edits_of_a_crate_stand_together(self):
        buckets = buckets_of([f'kr_{crate}/edit-{it}' for crate in range(40) for it in range(20)])
        for crate in range(40):
            self.assertLessEqual(len({bucket for name, bucket in buckets.items() if name.startswith(f'kr_{crate}/')}), 2)


if __name__ == '__main__':
    unittest.main()
