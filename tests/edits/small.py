"""A small repository for the tests: a crate with four edits, and a prover that refuses what it is told to."""

import os
import subprocess
import sys
import tempfile
from pathlib import Path

sys.dont_write_bytecode = True
TOP = Path(__file__).resolve().parents[2]
sys.path.insert(0, str(TOP / '.ci'))

SHOP = '''\
//! A shop.
ghost use Rattle.std.specs.Prelude.{◌≡◌, ◌+◌};
ghost use Rattle.kr_small.specs.Prices.{Sum, tax as taxed};

use crate::stock::{Item, Stock};

/// What an item costs at most.
const MOST: u64 = 100;

/// A till.
#[derive(Debug)]
pub struct Till {
    sum: u64,
}

impl Model for Till {
    ghost Value = { Sum };
}

impl Till {
    /// Adds a price.
    pub fn add(&mut self, price: u64)
        ensures { self.new ≡ self.old + price }
    {
        self.sum += price;
    }
}

/// The price of an item.
pub fn price(item: &Item) -> u64
    ensures { result ≡ taxed item }
{
    // it is never more
    item.price.min(MOST)
}

/// The prices of all.
pub fn total(stock: &Stock) -> u64
    ensures ok { Sum result stock }
{
    let mut sum = 0;
    for it in stock.items() {
        sum += price(it);
    }
    sum
}

impl From<Item> for Till {
    fn from(item: Item) -> Self {
        Till { sum: item.price }
    }
}
'''

STOCK = '''\
//! What there is.
ghost use Rattle.kr_small.specs.Stocks.{Holds};

/// An item.
pub struct Item {
    pub price: u64,
}

/// All items.
pub struct Stock {
    list: Vec<Item>,
}

impl Stock {
    /// The items.
    pub fn items(&self) -> &[Item]
        ensures { Holds result self }
    {
        &self.list
    }
}

/// Nothing to do with the shop.
pub fn weekday(day: u64) -> u64 {
    day % 7
}
'''

PRICES = '''\
-- What things cost.
use Rattle.kr_small.specs.Stocks.{Holds}

-- a sum
abbrev pub Sum : ℕ → Stock → Type 0
Sum n s = Holds n s

abbrev pub tax : ℕ → ℕ
tax n = n + 1
'''

FILES = {
    'crates.txt': '# crates\nkr_small:\n',
    'crates/kr_small/src/lib.rt': '#![tactic(auto)]\nmod shop;\nmod stock;\n',
    'crates/kr_small/src/shop.rt': SHOP,
    'crates/kr_small/src/stock.rt': STOCK,
    'crates/kr_small/specs/Lib.antt': 'pub mod Prices\npub mod Stocks\n',
    'crates/kr_small/specs/Prices.antt': PRICES,
    'crates/kr_small/specs/Stocks.antt': 'abbrev pub Holds : ℕ → Stock → Type 0\nHolds n s = n ≡ s.price\n',
    'crates/kr_small/specs/Days.antt': 'abbrev pub Day : ℕ → Type 0\nDay n = n < 7\n',
    'crates/kr_small/proofs/Lib.antt': 'pub mod Lemmas\n',
    'crates/kr_small/proofs/Lemmas.antt': 'pub least : ℕ\nleast = 0\n',
    'crates/kr_small/proofs/shop/total/Answers.antt': (
        'use Rattle.kr_small.proofs.shop.total.Goals as goal\n'
        '\n-- of the sum\npub ok : goal.ok\nok c = Rattle.kr_small.proofs.shop.total.Goals.sum\n'
        '\npub loop : goal.loop\nloop c = least\n'
    ),
    'crates/kr_small/must-fail/adds-nothing.edit': 'file: src/shop.rt\nold:     sum += price(it);\nnew:     sum += 0;\n',
    'crates/kr_small/must-fail/forgets-most.edit': 'file: src/shop.rt\nold: item.price.min(MOST)\nnew: item.price\ngoal: returns c\n',
    'crates/kr_small/must-fail/takes-twice.edit': 'file: src/shop.rt\nold: self.sum += price;\nnew: self.sum += price + price;\n',
    'crates/kr_small/must-fail/cheap.edit': 'file: src/shop.rt\nold: MOST: u64 = 100\nnew: MOST: u64 = 1\nat: shop::price\n',
}

# Says of each function of a check that it has no proof, but of the copies of those that the file `lets-through` of the kit names; of
# a whole crate that it is proved, but for the edit `cheap`. Writes a function into the file that `touches` names.
PROVER = '''\
#!/usr/bin/env python3
import sys
from pathlib import Path
kit = Path(__file__).parent.parent
(kit / 'calls').open('a').write(' '.join(sys.argv) + '\\n')
words = lambda name: (kit / name).read_text().split() if (kit / name).exists() else []
for path in words('touches'):
    Path(path).write_text(Path(path).read_text() + 'fn touched() {}\\n')
only = [it for before, it in zip(sys.argv, sys.argv[1:]) if before == '--only']
proved = [it for it in only if any(it.startswith(one) for one in words('lets-through'))]
for it in only:
    print(f'fn kr_small::{it}: ' + ('proved' if it in proved else 'no proof: it is expected that x'))
if not only and 'MOST: u64 = 1;' in Path('src/shop.rt').read_text():
    only = ['shop::price']
    print('fn kr_small::shop::price: no proof: `search` did not prove `returns`')
is_refused = len(proved) < len(only)
print('logic=not-proved' if is_refused else 'logic=proved')
sys.exit(is_refused)
'''


class Small:
    """The repository, in a folder of its own."""

    def __init__(self, test):
        room = tempfile.TemporaryDirectory(prefix='kr-edits-test-')
        test.addCleanup(room.cleanup)
        self.top, self.kit = Path(room.name) / 'repo', Path(room.name) / 'kit'
        for path, text in FILES.items():
            self.put(path, text)
        self.crate = self.top / 'crates/kr_small'

    def put(self, path, text):
        (self.top / path).parent.mkdir(parents=True, exist_ok=True)
        (self.top / path).write_text(text)

    def change(self, path, old, new):
        text = (self.top / path).read_text()
        assert old in text, f'{path} has no {old}'
        self.put(path, text.replace(old, new))

    def with_prover(self):
        """With .ci/edits, and a kit whose prover is PROVER."""
        (self.top / '.ci/must_fail').mkdir(parents=True)
        for it in [TOP / '.ci/edits', *(TOP / '.ci/must_fail').glob('*.py')]:
            to = self.top / it.relative_to(TOP)
            to.write_bytes(it.read_bytes())
            to.chmod(0o755)
        for path, text in {'rt': f'#!/bin/sh\necho {self.kit}/START-HERE.md\n', 'bin/rattle': PROVER}.items():
            (self.kit / path).parent.mkdir(parents=True, exist_ok=True)
            (self.kit / path).write_text(text)
            (self.kit / path).chmod(0o755)
        (self.kit / 'KIT-ID').write_text('rattle-kit-1 logic 0123\n')
        return self

    def edits(self, *words):
        """Runs .ci/edits: its status, and what it printed."""
        path = f'{self.kit}:{os.environ["PATH"]}'
        ran = subprocess.run([self.top / '.ci/edits', *words], capture_output=True, text=True, env={**os.environ, 'PATH': path})
        return ran.returncode, ran.stdout + ran.stderr

    def ledger(self):
        return (self.top / '.ci/refused').read_text()
