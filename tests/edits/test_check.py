"""What a check of a crate is given: the words, the functions that are taken by their contracts, and the edits."""

import unittest
from pathlib import Path
from unittest.mock import patch

from small import Small
from must_fail import check
from must_fail.edit import Edit
from must_fail.tree import crates_of
from must_fail.trying import batch_of

PROVED = ['kr_small::shop::total', 'kr_small::shop::price', 'kr_small::shop::Till::add', 'kr_small::shop::fn::price::map']


class Checks(unittest.TestCase):
    def setUp(self):
        self.small = Small(self)
        kit = patch.object(check, 'kit', lambda: Path('/kit'))
        kit.start()
        self.addCleanup(kit.stop)
        self.crate = self.crate_of('kr_small: thiserror\n')
        self.seen = {}  # what the prover finds in its folder

    def crate_of(self, listed, log=None):
        crate = check.Crate(self.small.top, 'kr_small', crates_of(listed), self.small.top, log)
        self.addCleanup(crate.drop)
        return crate

    def log(self, text):
        self.small.put('log', text)
        return self.small.top / 'log'

    def prover(self, *answers):
        """Has the crate's checks say these lines, one after the other."""
        left = list(answers)

        def run(words, folder):
            self.words = words
            self.seen = {str(it.relative_to(folder)): it.read_text() for it in folder.rglob('*') if it.is_file()}
            return left.pop(0), 1

        self.crate.run = run

    def edit(self, name):
        it = Edit(self.small.crate, self.small.crate / f'must-fail/{name}.edit')
        batch_of([it])
        return it

    def test_words(self):
        words = ' '.join(map(str, self.crate_of('kr_low:\nkr_mid: kr_low toml\nkr_small: kr_mid thiserror\n').words()))
        self.assertIn('--extern thiserror=/kit/rlibs/thiserror.rlib', words)
        self.assertIn(f'--extern kr_mid={self.small.top}/crates/kr_mid/out/rlib/kr_mid.rlib', words)
        self.assertIn(f'-L dependency={self.small.top}/crates/kr_low/out/rlib', words)
        self.assertNotIn('toml', words)

    def test_functions_that_a_log_says_are_proved(self):
        log = self.log('fn kr_small::a::f: proved\nfn kr_small::a::g: proved, may wait\nfn kr_small::a::h: not proved\nfn kr_other::f: proved\nrt: kr_small proved\n')
        crate = self.crate_of('kr_small:\n', log)
        crate.wait()
        self.assertEqual(crate.proved, {'kr_small::a::f', 'kr_small::a::g'})

    def test_functions_of_a_library_that_was_kept(self):
        self.small.put('crates/kr_small/out/rlib/kr_small.rlib/toolchain/mir.json', '{"kr_small::a::f": 1, "kr_small::a::B::g": 2, "kr_other::a::h": 3}')
        for log in None, self.log('rt: kr_small is kept: an earlier run\n'):
            crate = self.crate_of('kr_small:\n', log)
            crate.wait()
            self.assertEqual(crate.proved, {'kr_small::a::f', 'kr_small::a::B::g'})

    def test_others_are_taken_by_their_contracts(self):
        self.small.put('crates/kr_small/proofs/shop/price/Answers.antt', 'pub a : A\n')
        self.small.put('crates/kr_small/proofs/shop/fn/price/map/Answers.antt', 'pub a : A\n')
        self.crate.proved = {*PROVED}
        self.prover(['fn kr_small::shop::total_1: not proved'])
        _, _, stubs = self.crate.check([self.edit('adds-nothing')], ['shop::total_1'])
        self.assertEqual(sorted(stubs), sorted(PROVED[:3]), 'the edit is in a copy of its function')
        self.assertIn('--only shop::total_1 --allow-holes', ' '.join(map(str, self.words)))
        hole = self.seen['proofs/shop/price/Proof.antt']
        self.assertEqual(hole.split('\n')[-2:], ['price_spec = absurd ?', ''])
        self.assertIn('use Rattle.kr_small.proofs.shop.price.Statement.{statement}', hole)
        self.assertFalse({'proofs/shop/price/Answers.antt', 'proofs/shop/fn/price/map/Answers.antt'} & {*self.seen})
        self.assertNotIn('item.price.min', self.seen['src/shop.rt'])
        self.assertIn('sum += 0;', self.seen['src/shop.rt'])
        self.assertIn('proofs/shop/total_1/Answers.antt', self.seen)

    def test_a_function_that_is_changed_itself_is_left(self):
        self.crate.proved = {*PROVED}
        self.prover([])
        edit = self.edit('adds-nothing')
        edit.twin = 0
        _, _, stubs = self.crate.check([edit], ['shop::total'])
        self.assertNotIn('kr_small::shop::total', stubs)

    def test_alone_nothing_is_taken_by_its_contract(self):
        self.crate.proved = {*PROVED}
        self.prover([])
        _, _, stubs = self.crate.check([self.edit('cheap')], [])
        self.assertEqual(stubs, [])
        self.assertNotIn('--only', self.words)
        self.assertIn('item.price.min', self.seen['src/shop.rt'])

    def test_again_where_a_hole_is_not_taken_for_a_proof(self):
        self.crate.proved = {*PROVED}
        self.prover(['./proofs/shop/price/Proof.antt:3:1: error: `price_spec`: it is not so'], ['fn kr_small::shop::total_1: not proved'])
        lines, _, stubs = self.crate.check([self.edit('adds-nothing')], ['shop::total_1'])
        self.assertEqual((lines, self.crate.ran), (['fn kr_small::shop::total_1: not proved'], 2))
        self.assertNotIn('kr_small::shop::price', stubs)
        self.assertIn('item.price.min', self.seen['src/shop.rt'])


if __name__ == '__main__':
    unittest.main()
