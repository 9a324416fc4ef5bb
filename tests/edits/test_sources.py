"""Reading the functions of Rattle sources."""

import unittest

from small import SHOP
from must_fail.sources import block_of, emptied, function_at, functions_of, owner_of, unsearched

LINES = SHOP.split('\n')


def line_of(text):
    return next(at for at, line in enumerate(LINES) if text in line)


class Sources(unittest.TestCase):
    def test_owner(self):
        self.assertEqual(owner_of(' Till {'), 'Till')
        self.assertEqual(owner_of('<P: Protocol> Machine<P> {'), 'Machine')
        self.assertEqual(owner_of('<K: Ord<u64>, V> Sink for Io<Vec<K>> where V: Copy {'), 'IoSink')
        self.assertEqual(owner_of(' From<faults::Fault> for Kind {'), 'KindFromFault')
        self.assertEqual(owner_of(' fmt::Display for name::Name {'), 'NameDisplay')

    def test_function(self):
        self.assertEqual(function_at('src/shop.rt', LINES, line_of('sum += price(it)')), 'shop::total')
        self.assertEqual(function_at('src/a/mod.rt', LINES, line_of('sum += price(it)')), 'a::total')
        self.assertEqual(function_at('src/shop.rt', LINES, line_of('self.sum += price')), 'Till::add')
        self.assertEqual(function_at('src/shop.rt', LINES, line_of('Till { sum: item.price }')), 'TillFromItem::from')
        self.assertIsNone(function_at('src/shop.rt', LINES, line_of('const MOST')))
        self.assertIsNone(function_at('src/shop.rt', LINES, line_of('sum: u64')))

    def test_functions_of_a_closure(self):
        self.assertEqual(functions_of('a::fn::f::map'), ['a::f'])
        self.assertEqual(functions_of('a::fn::f::g::map'), ['a::f', 'a::f::g'])
        self.assertEqual(functions_of('a::f'), [])

    def test_block(self):
        begin, end = block_of('src/shop.rt', LINES, 'shop::price')
        self.assertEqual((LINES[begin], LINES[end - 1]), ('/// The price of an item.', '    item.price.min(MOST)'))
        begin, end = block_of('src/shop.rt', LINES, 'Till::add')
        self.assertEqual((LINES[begin], LINES[end]), ('    /// Adds a price.', '    }'))
        self.assertIsNone(block_of('src/shop.rt', LINES, 'TillFromItem::from'), 'a function of a trait has no copy')

    def test_emptied(self):
        text = emptied('src/shop.rt', SHOP, ['kr_small::shop::price', 'kr_small::shop::Till::add'])
        self.assertNotIn('item.price.min', text)
        self.assertNotIn('self.sum += price;', text)
        self.assertIn('    ensures { result ≡ taxed item }\n{\n    loop {}\n}\n', text)
        self.assertIn('    {\n        loop {}\n    }\n}\n', text)
        self.assertIn('sum += price(it);', text)

    def test_unsearched(self):
        text = unsearched('src/shop.rt', SHOP.replace('pub fn price', '#[tactic(auto, using(x))]\npub fn price'), 'shop::price')
        self.assertIn('/// The price of an item.\n#[tactic(none)]\npub fn price', text)
        self.assertNotIn('using(x)', text)


if __name__ == '__main__':
    unittest.main()
