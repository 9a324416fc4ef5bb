"""Reading edits, and making them in a copy of their crate."""

import shutil
import unittest

from small import Small
from must_fail import copies
from must_fail.edit import Edit, Fault
from must_fail.tree import edits_of, names_of
from must_fail.trying import batch_of

LINES = 'file: src/shop.rt\nold:     sum += price(it);\nnew:     sum += 0;\n'


class Edits(unittest.TestCase):
    def setUp(self):
        self.small = Small(self)
        self.copy = self.small.top / 'copy'

    def edit(self, name, text=None):
        path = f'crates/kr_small/must-fail/{name}.edit'
        if text is not None:
            self.small.put(path, text)
        return Edit(self.small.crate, self.small.top / path)

    def made(self, *edits):
        """The edits in a copy of the crate: the text of a file there."""
        shutil.copytree(self.small.crate, self.copy)
        for it in edits:
            copies.make(it, self.copy)
        return lambda path: (self.copy / path).read_text()

    def test_read(self):
        it = self.edit('adds-nothing')
        self.assertEqual(it.changes, [('src/shop.rt', '    sum += price(it);', '    sum += 0;')])
        self.assertEqual((it.name, it.functions, it.place()), ('kr_small/adds-nothing', {'shop::total'}, 'shop::total'))
        self.assertTrue(it.is_apart() and it.has_copy() and it.has_answers())
        self.assertFalse(it.searches, 'its answers are checked first')
        self.assertTrue(self.edit('takes-twice').searches, 'it has no answers')

    def test_a_change_of_no_function(self):
        it = self.edit('cheap')
        self.assertEqual((it.functions, it.place(), it.is_apart()), ({None}, 'shop::price', False))

    def test_goal(self):
        it = self.edit('forgets-most')
        self.assertEqual((it.goal, it.given, it.searches), ('returns', 'c', False))
        self.assertIsNone(self.edit('a', LINES + 'goal: ok c\n').goal, 'the proof answers it')
        self.assertEqual(self.edit('a', LINES + 'gone: ok\ngoal: ok c\n').goal, 'ok', 'the proof answers it by what is gone')
        self.small.change('crates/kr_small/src/shop.rt', 'pub fn price', '#[tactic(auto, using(x))]\npub fn price')
        self.assertIsNone(self.edit('forgets-most').goal, 'the check tries lemmas at it')

    def test_gone(self):
        it = self.edit('a', LINES + 'gone: ok loop\n')
        self.assertEqual((it.gone, it.searches), ({'ok', 'loop'}, True))

    def test_faults(self):
        for text, why in {
            'file: src/shop.rt\n': 'it changes nothing',
            LINES + 'goal: ok\n': 'its goal is not named as `GOAL c`',
            LINES.replace('sum += price', 'sum -= price'): 'the old text is in src/shop.rt 0 times, and not once',
            LINES.replace('old:     sum += price(it);', 'old: u64'): 'the old text is in src/shop.rt 5 times, and not once',
        }.items():
            with self.assertRaisesRegex(Fault, why):
                self.edit('a', text)

    def test_edits_that_cannot_be_read(self):
        self.small.put('crates/kr_small/must-fail/a.edit', 'old: x\nnew: y\n')
        self.small.put('crates/kr_small/must-fail/b.edit', 'file: src/none.rt\nold: x\nnew: y\n')
        edits, faults = edits_of(names_of(self.small.top))
        self.assertEqual(sorted(faults), ['kr_small/a', 'kr_small/b'])
        self.assertEqual(len(edits['kr_small']), 4)

    def test_further_pairs_apply_to_what_the_earlier_made(self):
        it = self.edit('a', LINES + 'old: sum += 0\nnew: sum += 1\n')
        self.assertIn('sum += 1;', self.made(it)('src/shop.rt'))

    def test_made_itself(self):
        it = self.edit('adds-nothing')
        text = self.made(it)('src/shop.rt')
        self.assertIn('sum += 0;', text)
        self.assertIn('#[tactic(none)]\npub fn total', text)

    def test_made_in_a_copy(self):
        it = self.edit('adds-nothing')
        self.assertEqual(batch_of([it]), [it])
        self.assertEqual(it.trial(), 'shop::total_1')
        text = self.made(it)
        self.assertIn('sum += price(it);', text('src/shop.rt'))
        self.assertIn('/// The prices of all.\n#[tactic(none)]\npub fn total_1(', text('src/shop.rt'))
        self.assertIn('use Rattle.kr_small.proofs.shop.total_1.Goals as goal', text('proofs/shop/total_1/Answers.antt'))
        self.assertIn('proofs.shop.total.Goals', text('proofs/shop/total/Answers.antt'))

    def test_goal_in_a_copy(self):
        it = self.edit('forgets-most')
        batch_of([it])
        answers = self.made(it)('proofs/shop/price_1/Answers.antt')
        self.assertIn('use Rattle.kr_small.proofs.shop.price_1.Goals as goal\n', answers)
        self.assertTrue(answers.endswith('\npub returns : goal.returns\nreturns c = first_of (search rules, grind (arith, common_steps))\n'))

    def test_answers_forgotten_and_hushed(self):
        it = self.edit('a', LINES + 'gone: ok\n')
        text = self.made()
        copies.forget(it, self.copy)
        copies.hush(it, self.copy)
        answers = text('proofs/shop/total/Answers.antt')
        self.assertNotIn('ok c =', answers)
        self.assertIn('loop c = least', answers)
        self.assertTrue(answers.endswith('pub of-no-goal : Rattle.kr_small.proofs.shop.total.Goals.of-no-goal\nof-no-goal = absurd ?\n'))

    def test_batch(self):
        text = 'file: src/shop.rt\nold: Till { sum: item.price }\nnew: Till { sum: %s }\n'
        of_trait = [self.edit(f'of-{it}', text % it) for it in '12']
        twins = [self.edit('adds-nothing'), self.edit('a', LINES)]
        batch = batch_of([*of_trait, *twins])
        self.assertEqual(batch, [of_trait[0], *twins], 'a function of a trait has no copy')
        self.assertEqual([it.trial() for it in batch], ['TillFromItem::from', 'shop::total_1', 'shop::total_2'])

    def test_path_of_proof(self):
        self.assertEqual(self.edit('takes-twice').path_of_proof(), ['shop', 'Till', 'add'])
        self.assertEqual(self.edit('adds-nothing').path_of_proof(), ['shop', 'total'])

    def test_binders(self):
        self.assertEqual(self.edit('adds-nothing').binders(), ['c', 'g c'])
        self.small.change('crates/kr_small/src/shop.rt', 'fn total(', 'fn total<P: Protocol>(')
        self.assertEqual(self.edit('adds-nothing').binders(), ['g c', 'c'])


if __name__ == '__main__':
    unittest.main()
