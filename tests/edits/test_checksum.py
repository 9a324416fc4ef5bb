"""The checksum of an edit: it changes with what its refusal rests on, and with nothing else."""

import unittest

from small import FILES, SHOP, Small
from must_fail.checksum import Texts
from must_fail.edit import Edit
from must_fail.items import LOGIC_TOKEN, RUST_TOKEN, RustFile, imports_of, plain, type_of

SRC, SPECS, PROOFS = 'crates/kr_small/src', 'crates/kr_small/specs', 'crates/kr_small/proofs'


class Checksum(unittest.TestCase):
    def setUp(self):
        self.small = Small(self)
        self.name = 'adds-nothing'

    def sum(self):
        return Texts(self.small.crate).sum_of(Edit(self.small.crate, self.small.crate / f'must-fail/{self.name}.edit'))

    def after(self, path, old, new):
        """Whether a change of a file leaves the checksum; the file is as before then."""
        before = self.sum()
        self.small.change(path, old, new)
        is_same = self.sum() == before
        self.small.put(path, FILES[path])
        return is_same

    def changes_with(self, *change):
        self.assertFalse(self.after(*change), change)

    def stays_with(self, *change):
        self.assertTrue(self.after(*change), change)

    def test_own_text(self):
        self.changes_with('crates/kr_small/must-fail/adds-nothing.edit', 'sum += 0', 'sum += 1')
        self.stays_with('crates/kr_small/must-fail/cheap.edit', '100', '100')

    def test_the_changed_function_is_whole(self):
        self.changes_with(f'{SRC}/shop.rt', 'let mut sum = 0;', 'let mut sum = 1;')
        self.changes_with(f'{SRC}/shop.rt', 'ensures ok { Sum result stock }', 'ensures ok { Sum result result }')
        self.stays_with(f'{SRC}/shop.rt', '/// The prices of all.', '/// All prices.')

    def test_its_proof_files(self):
        self.changes_with(f'{PROOFS}/shop/total/Answers.antt', 'loop c = least', 'loop c = most')
        self.stays_with(f'{PROOFS}/shop/total/Answers.antt', '-- of the sum', '-- of a sum')
        before = self.sum()
        self.small.put(f'{PROOFS}/shop/fn/total/map/Answers.antt', 'pub a : A\na = b\n')
        self.assertNotEqual(self.sum(), before, 'a file of its closures')

    def test_lemmas_do_not_count(self):
        self.stays_with(f'{PROOFS}/Lemmas.antt', 'least = 0', 'least = 1')

    def test_contracts_of_what_it_calls(self):
        self.changes_with(f'{SRC}/shop.rt', 'result ≡ taxed item', 'result ≡ item')
        self.changes_with(f'{SRC}/shop.rt', 'pub fn price(item: &Item)', 'pub fn price(item: Item)')
        self.stays_with(f'{SRC}/shop.rt', 'item.price.min(MOST)', 'MOST.min(item.price)')
        self.stays_with(f'{SRC}/shop.rt', '// it is never more', '// never more')
        self.changes_with(f'{SRC}/stock.rt', 'Holds result self', 'Holds self result')

    def test_types_and_definitions(self):
        self.changes_with(f'{SRC}/stock.rt', 'pub price: u64', 'pub price: u32')
        self.changes_with(f'{SRC}/stock.rt', 'list: Vec<Item>', 'list: Box<[Item]>')
        self.changes_with(f'{SPECS}/Prices.antt', 'Sum n s = Holds n s', 'Sum n s = Holds 0 s')
        self.changes_with(f'{SPECS}/Stocks.antt', 'n ≡ s.price', 's.price ≡ n')
        self.stays_with(f'{SPECS}/Prices.antt', '-- a sum', '-- the sum')

    def test_an_operator_counts_as_named(self):
        self.small.put(f'{SPECS}/Days.antt', FILES[f'{SPECS}/Days.antt'] + '\npub ◌⊑◌ : ℕ → ℕ → Type 0\n')
        before = self.sum()
        self.small.change(f'{SPECS}/Days.antt', 'n < 7', 'n < 8')
        self.assertNotEqual(self.sum(), before)

    def test_what_it_does_not_name(self):
        self.stays_with(f'{SRC}/shop.rt', 'self.sum += price;', 'self.sum = self.sum + price;')
        self.stays_with(f'{SRC}/stock.rt', 'day % 7', 'day % 8')
        self.stays_with(f'{SRC}/stock.rt', 'weekday(day: u64)', 'weekday(day: u32)')
        self.stays_with(f'{SPECS}/Days.antt', 'n < 7', 'n < 8')
        self.stays_with('crates.txt', 'kr_small:', 'kr_small: kr_other')

    def test_what_its_new_text_names(self):
        path = 'crates/kr_small/must-fail/adds-nothing.edit'
        self.small.put(path, FILES[path].replace('sum += 0;', 'sum += weekday(0);'))
        self.changes_with(f'{SRC}/stock.rt', 'weekday(day: u64)', 'weekday(day: u32)')
        self.stays_with(f'{SRC}/stock.rt', 'day % 7', 'day % 8')

    def test_an_at_that_stands_nowhere(self):
        path = 'crates/kr_small/must-fail/cheap.edit'
        self.name = 'cheap'
        for at, is_same in ('Other::price', True), ('Other::none', False):
            self.small.put(path, FILES[path].replace('shop::price', at))
            self.changes_with(f'{SRC}/shop.rt', 'item.price.min(MOST)', 'MOST.min(item.price)')
            self.assertIs(self.after(f'{SRC}/stock.rt', 'day % 7', 'day % 8'), is_same)

    def test_a_const_is_whole_for_who_names_it(self):
        self.stays_with(f'{SRC}/shop.rt', 'MOST: u64 = 100', 'MOST: u64 = 99')
        self.name = 'forgets-most'
        self.changes_with(f'{SRC}/shop.rt', 'MOST: u64 = 100', 'MOST: u64 = 99')

    def test_the_function_of_at_is_whole(self):
        self.name = 'cheap'
        self.changes_with(f'{SRC}/shop.rt', 'item.price.min(MOST)', 'MOST.min(item.price)')
        self.stays_with(f'{SRC}/shop.rt', 'let mut sum = 0;', 'let mut sum = 1;')

    def test_a_model_counts_to_its_type(self):
        self.stays_with(f'{SRC}/shop.rt', 'ghost Value = { Sum }', 'ghost Value = { tax }')
        self.name = 'takes-twice'
        self.changes_with(f'{SRC}/shop.rt', 'ghost Value = { Sum }', 'ghost Value = { tax }')

    def test_imports_of_names_that_stand_there(self):
        self.changes_with(f'{SRC}/shop.rt', 'use crate::stock::{Item, Stock};', 'use crate::stock::Item;\nuse kr_other::Stock;')
        self.stays_with(f'{SRC}/shop.rt', 'use crate::stock::{Item, Stock};', 'use crate::stock::{Item, Other, Stock};')
        self.name = 'forgets-most'
        self.changes_with(f'{SRC}/shop.rt', 'tax as taxed', 'tax_of as taxed')

    def test_a_name_that_an_import_changes(self):
        self.name = 'forgets-most'
        self.changes_with(f'{SPECS}/Prices.antt', 'tax n = n + 1', 'tax n = n + 2')

    def test_places_do_not_count(self):
        before, begin, end = self.sum(), SHOP.index('/// The price of an'), SHOP.index('/// The prices of all')
        self.small.put(f'{SRC}/shop.rt', f'{SHOP[:begin]}{SHOP[end:]}\n{SHOP[begin:end]}')
        self.assertEqual(self.sum(), before)

    def test_a_function_that_comes_behind(self):
        self.name = 'takes-twice'
        self.stays_with(f'{SRC}/shop.rt', 'self.sum += price;\n    }\n', 'self.sum += price;\n    }\n\n    fn none(&self) {}\n')

    def test_a_change_of_what_an_earlier_one_made(self):
        path = 'crates/kr_small/must-fail/adds-nothing.edit'
        self.small.put(path, FILES[path] + 'old: sum += 0\nnew: sum += 2\n')
        before = self.sum()
        self.small.change(f'{SRC}/shop.rt', 'let mut sum = 0;', 'let mut sum = 1;')
        self.assertNotEqual(self.sum(), before)

    def test_length(self):
        self.assertRegex(self.sum(), '^[0-9a-f]{16}$')


class Items(unittest.TestCase):
    def test_plain(self):
        text = 'let a = "// no"; // yes\nlet b = r#"\n/// no"#; \'"\' // yes'
        found = plain(text, RUST_TOKEN)
        self.assertEqual(len(found), len(text))
        self.assertNotIn('yes', found)
        self.assertEqual(found.count('no'), 2)
        self.assertEqual(found.count('\n'), 1, 'no line ends within a string')
        self.assertEqual(plain('a = b -- c', LOGIC_TOKEN).rstrip(), 'a = b')

    def test_imports(self):
        self.assertEqual(imports_of('a::b::C;'), [('C', 'a::b::C')])
        found = imports_of('a::{\n    self,\n    b::{C, D as E},\n    f::*,\n};')
        self.assertEqual(found, [('a', 'a::self'), ('C', 'a::b::C'), ('E', 'a::b::D as E'), ('*', 'a::f::*')])
        self.assertEqual(imports_of('Rattle.a.B.{◌≡◌, c as d}'), [('◌≡◌', 'Rattle.a.B.◌≡◌'), ('d', 'Rattle.a.B.c as d')])
        self.assertEqual(imports_of('Rattle.a.Op.TheVariants as op'), [('op', 'Rattle.a.Op.TheVariants as op')])

    def test_items(self):
        file = RustFile(SHOP)
        found = [(it.kind, *sorted(it.names)) for it in file.items]
        own = [('const', 'MOST'), ('struct', 'Till'), ('impl', 'Till'), ('fn', 'add'), ('impl', 'Till'), ('fn', 'price'), ('fn', 'total')]
        self.assertEqual(found, [*own, ('fn', 'from'), ('impl', 'Till')])

    def test_a_function_of_an_impl(self):
        file = RustFile(SHOP)
        add = file.item_at(SHOP.index('self.sum += price'))
        head = 'impl Till {\n    pub fn add(&mut self, price: u64)\n        ensures { self.new ≡ self.old + price }\n    {'
        self.assertEqual(add.contract, head)
        self.assertEqual(add.whole, f'{head}\n        self.sum += price;\n    }}')

    def test_the_type_of_an_impl(self):
        self.assertEqual(type_of('impl<P: Protocol> Machine<P> {').strip(), 'Machine')
        self.assertEqual(type_of('impl<P> From<Vec<P>> for &Io<P> where P: Copy {').strip(), '&Io')
        self.assertEqual(type_of('impl<F: Fn(A) -> B> Of\n    for Io<F>\nwhere').split(), ['Io'])


if __name__ == '__main__':
    unittest.main()
