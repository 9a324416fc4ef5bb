"""Random protocol tables and scripts."""

import json
import tomllib

from table import SIDES

CHANGING = ('insert', 'delete')
GREATEST = (1 << 64) - 1
ODD_NAMES = ['"', '\\', ' ', '~' * 24, "it's", 'a.b', '[x]', '#', 'None', '{}']
SPANS = ['commit', 'commit', 'instant']
OPERATIONS = {  # of each format, with how often each is chosen
    1: {'fetch': 20, 'insert': 25, 'delete': 20, 'scan': 12, 'go': 1, 'commit': 10, 'abort': 5},
    2: {'fetch': 20, 'insert': 18, 'delete': 14, 'update': 20, 'scan': 12, 'go': 1, 'commit': 10, 'abort': 4, 'back': 1},
}


def inline(members):
    return '{ ' + ', '.join(f'{json.dumps(name)} = {json.dumps(value)}' for name, value in members.items()) + ' }'


class Draft:
    """A table that may still be changed: its modes, the pairs that may stand together, conversions, clauses and format."""

    def __init__(self, modes, compatible, convert, rules, format):
        self.modes, self.compatible, self.convert, self.rules, self.format = modes, compatible, convert, rules, format

    @staticmethod
    def of_text(text):
        table = tomllib.loads(text)
        return Draft(
            table['modes'],
            {(requested, held) for requested, row in table['compatible'].items() for held in row},
            {(held, requested): mode for held, row in table['convert'].items() for requested, mode in row.items()},
            {(row, side): clauses for row, sides in table['rules'].items() for side, clauses in sides.items()},
            table['format'],
        )

    @staticmethod
    def random(random, format):
        modes = random.sample([*ODD_NAMES, *(f'M{it}' for it in range(20))], random.choice([1, 2, 2, 3, 3, 4, 5, 6, 15]))
        density = random.random()
        draft = Draft(modes, {(q, h) for q in modes for h in modes if random.random() < density}, {}, {}, format)
        draft.convert = {(h, q): random.choice(modes) for h in modes for q in modes}
        for row, sides in SIDES.items():
            for side in sides if row != 'update' or format == 2 else []:
                draft.rules[row, side] = [draft.clause(random, row) for _ in range(random.choice([0, 1, 1, 1, 2, 3]))]
        return draft

    def clause(self, random, row):
        clause = {'mode': random.choice(self.modes), 'span': random.choice(SPANS)}
        if row in CHANGING and random.random() < 0.4:
            clause['own'] = random.choices(['none', *self.modes], k=random.randint(0, len(self.modes)))
        return clause

    def offer_updates(self, random):
        """Makes the table one of format 2. Mostly an update requests what a delete requests on its key, to commit."""
        self.format = 2
        clause = self.clause(random, 'update')
        asked = self.rules.get(('delete', 'current'))
        if asked and random.random() < 0.7:
            clause = {'mode': asked[0]['mode'], 'span': 'commit'}
        if random.random() < 0.9:
            self.rules['update', 'current'] = [clause]

    def change(self, random):
        """Changes one entry. Most of these keep the table's conflicts, so that many stay accepted."""
        kind = random.randrange(8)
        if kind < 3 and self.compatible:
            self.compatible.discard(random.choice(sorted(self.compatible)))
        elif kind == 3:
            self.compatible.add((random.choice(self.modes), random.choice(self.modes)))
        elif kind == 4:
            self.convert[random.choice(sorted(self.convert))] = random.choice(self.modes)
        elif kind == 5:
            row, side = random.choice(sorted(self.rules))
            self.rules[row, side] = [self.clause(random, row), *self.rules[row, side]]
        elif kind == 6:
            clauses = random.choice(list(self.rules.values()))
            del clauses[-1:]
        else:
            for clause in random.choice(list(self.rules.values()))[:1]:
                clause['span'] = random.choice(SPANS)

    def is_symmetric(self):
        return all((h, q) in self.compatible for q, h in self.compatible) and all(
            self.convert[h, q] == self.convert[q, h] for h, q in self.convert
        )

    def text(self):
        word = json.dumps
        lines = [f'format = {self.format}', f'modes = {word(self.modes)}', '[compatible]']
        lines += [f'{word(q)} = {word([h for h in self.modes if (q, h) in self.compatible])}' for q in self.modes]
        lines.append('[convert]')
        lines += [f'{word(h)} = {inline({q: self.convert[h, q] for q in self.modes})}' for h in self.modes]
        lines.append('[rules]')
        for (row, side), clauses in self.rules.items():
            lines.append(f'{row}.{side} = [{", ".join(map(inline, clauses))}]')
        return '\n'.join(lines) + '\n'


class Script:
    """A random script of a format. Its steps are chosen while they are run, so that scans go on, blocked steps are tried
    again, and most transactions end once."""

    def __init__(self, random, run_of, format):
        """`run_of` gives a run from an opening map."""
        self.random, self.format, self.steps, self.blocked = random, format, [], {}
        self.keys = random.choice([range(12), range(5), [0, 1, 2, GREATEST - 1, GREATEST]])
        self.opening = [[key, random.randrange(10)] for key in self.keys if random.random() < 0.5]
        self.run = run_of(self.opening)
        self.txns = list(range(66 if random.random() < 0.03 else random.choice([2, 3, 5])))
        for txn in self.txns if len(self.txns) > 64 else []:
            self.attempt([txn, 'fetch', random.choice(self.keys)])
        for _ in range(random.choice([10, 25, 40])):
            self.attempt(self.next_step())
        for txn in random.sample(sorted(self.run.active), len(self.run.active)) if random.random() < 0.5 else []:
            self.attempt([txn, random.choice(['commit', 'commit', 'abort'])])

    def attempt(self, step):
        self.steps.append(step)
        if self.run.step(*step)[0] == 'blocked':
            self.blocked[step[0]] = step

    def next_step(self):
        at = self.random.randrange(len(self.txns))
        if self.txns[at] in self.run.ended and self.random.random() < 0.9:
            self.txns[at] = max(self.txns) + self.random.choice([1, 1, 7])
        txn = self.txns[at]
        again = self.blocked.pop(txn, None)
        if again and self.random.random() < 0.5:
            return again
        return [txn, *operation(self.random, self.run.active.get(txn), self.keys, self.format)]

    def text(self):
        return json.dumps({'format': self.format, 'opening': self.opening, 'steps': self.steps})


def operation(random, active, keys, format):
    if active and active.scan and random.random() < 0.85:
        return ['go']
    if active and active.is_rolling and random.random() < 0.85:
        return ['back' if active.changes and random.random() < 0.8 else 'abort']
    if format == 2 and active and len(active.changes) > 1 and random.random() < 0.1:
        return ['back']
    name = random.choices(list(OPERATIONS[format]), list(OPERATIONS[format].values()))[0]
    if name == 'scan':
        ends = random.choice(keys), random.choice(keys)
        return [name, *(sorted(ends) if random.random() < 0.9 else ends)]
    if name in ('insert', 'update'):
        return [name, random.choice(keys), random.choice([random.randrange(100), GREATEST])]
    return [name, random.choice(keys)] if name in ('fetch', 'delete') else [name]
