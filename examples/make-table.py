#!/usr/bin/env python3
"""Completes the matrices of a protocol table: prints the table of a draft, with `compatible` and `convert` whole.

    make-table.py DRAFT >TABLE

A draft is a table in TOML, of which parts are left out. It says one of three things:

order   [order] has for each mode the modes next above it, so that converting is taking the least upper bound. [compatible]
        has the base modes; one that is left out is compatible where each base mode below it is.
parts   A mode is two parts with a hyphen between, the range and the key, each of them N for none. [parts.range] and
        [parts.key] have an `order` and a `compatible` each. Both matrices go part by part.
neither [compatible] is whole. Each pair that [convert] leaves out gets the weakest mode that conflicts with whatever
        either mode conflicts with, requested or held.

examples/drafts has a draft of each kind. A conversion that [convert] gives stays as it is. Needs Python 3.11."""

import sys
import tomllib

NONE = 'N'


class Faulty(Exception):
    pass


class Modes:
    """Modes, or the parts of modes, in an order, with those that are compatible."""

    def __init__(self, names, above, compatible):
        self.names, self.above = names, above
        unknown = {it for line in [above, *above.values(), compatible, *compatible.values()] for it in line} - {*names}
        if unknown:
            raise Faulty(f'no mode has the name {min(unknown)}')
        self.upper = {it: self.all_above(it) for it in names}
        self.base = compatible
        self.pairs = {(q, h) for q in names for h in names if self.are_compatible(q, h)}

    def all_above(self, name):
        found, todo = set(), [name]
        while todo:
            it = todo.pop()
            if it not in found:
                found.add(it)
                todo += self.above.get(it, [])
        return found

    def bases_of(self, name):
        return [name] if name in self.base else [it for it in self.names if it in self.base and name in self.upper[it]]

    def are_compatible(self, requested, held):
        return all(h in self.base[q] for q in self.bases_of(requested) for h in self.bases_of(held))

    def joined(self, one, other):
        """The least upper bound."""
        both = self.upper[one] & self.upper[other]
        least = [it for it in both if both <= self.upper[it]]
        if len(least) != 1:
            raise Faulty(f'{one} and {other} have no least upper bound')
        return least[0]


class Parts:
    """Modes of two parts."""

    def __init__(self, names, parts):
        self.sides = [self.part(parts[it]) for it in ('range', 'key')]
        self.split = {name: tuple(name.split('-')) for name in names}
        for name, of in self.split.items():
            if len(of) != 2 or any(it not in side.names for side, it in zip(self.sides, of)):
                raise Faulty(f'{name} isn\'t a range and a key')
        whole = {of: name for name, of in self.split.items()}
        self.pairs = {(q, h) for q in names for h in names if self.each(self.are_compatible, q, h)}
        self.name = whole.get

    def part(self, part):
        names = [NONE, *part['order']]
        above = {NONE: names[1:]} | part['order']
        free = {NONE: names} | {it: [NONE, *line] for it, line in part['compatible'].items()}
        return Modes(names, above, free)

    def each(self, test, one, other):
        return all(test(side, a, b) for side, a, b in zip(self.sides, self.split[one], self.split[other]))

    @staticmethod
    def are_compatible(side, requested, held):
        return (requested, held) in side.pairs

    def joined(self, one, other):
        of = tuple(side.joined(a, b) for side, a, b in zip(self.sides, self.split[one], self.split[other]))
        if self.name(of) is None:
            raise Faulty(f'{one} and {other} join to {"-".join(of)}, which isn\'t a mode')
        return self.name(of)


class Weakest:
    """Modes whose conflicts are given."""

    def __init__(self, names, compatible):
        self.names = names
        self.pairs = {(q, h) for q, line in compatible.items() for h in line}
        if unknown := {it for pair in self.pairs for it in pair} - {*names}:
            raise Faulty(f'no mode has the name {min(unknown)}')

    def allows(self, mode):
        """What it is compatible with, as requested and as held."""
        return {('held', h) for h in self.names if (mode, h) in self.pairs} | {
            ('requested', q) for q in self.names if (q, mode) in self.pairs
        }

    def joined(self, one, other):
        strong = [it for it in self.names if self.allows(it) <= self.allows(one) & self.allows(other)]
        if not strong:
            raise Faulty(f'no mode conflicts with whatever {one} and {other} conflict with')
        return max(strong, key=lambda it: (len(self.allows(it)), it in (one, other)))


def matrices(draft):
    names, compatible = draft['modes'], draft.get('compatible', {})
    if 'parts' in draft:
        return Parts(names, draft['parts'])
    if 'order' in draft:
        return Modes(names, draft['order'], compatible)
    return Weakest(names, compatible)


def table(text):
    draft = tomllib.loads(text)
    names, made = draft['modes'], matrices(draft)
    given = draft.get('convert', {})
    key = lambda it: it if it.replace('-', '').replace('_', '').isalnum() and it.isascii() else f'"{it}"'
    quoted = lambda line: '[' + ', '.join(f'"{it}"' for it in line) + ']'
    yield f'format = {draft["format"]}'
    yield f'modes = {quoted(names)}'
    yield '\n[compatible]'
    for requested in names:
        yield f'{key(requested)} = {quoted(it for it in names if (requested, it) in made.pairs)}'
    yield '\n[convert]'
    for held in names:
        line = {it: given.get(held, {}).get(it) or made.joined(held, it) for it in names}
        yield f'{key(held)} = {{ {", ".join(f"{key(it)} = {chr(34)}{mode}{chr(34)}" for it, mode in line.items())} }}'
    yield '\n' + text[text.index('[rules') :].rstrip('\n')


def main(*words):
    if len(words) != 1:
        sys.exit(__doc__)
    try:
        with open(words[0], encoding='utf-8') as draft:
            print('\n'.join(table(draft.read())))
    except (Faulty, KeyError, ValueError, OSError) as fault:
        print(f'make-table: {words[0]}: {fault}', file=sys.stderr)
        sys.exit(2)


if __name__ == '__main__':
    main(*sys.argv[1:])
