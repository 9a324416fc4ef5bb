#!/usr/bin/env python3
"""Makes the protocol tables on which exactness is held, by kinds; the same ones each time.

    corpus.py                       how many tables each kind has
    corpus.py --write FOLDER KIND   writes those of a kind to FOLDER/0001.toml and so on

`im`, `kvl`, `kvl-update` and `range-key` have every table that differs from the bundled one in one entry: a pair of
`compatible`; a conversion; a side that is left out; a clause that is left out, or has another mode or span, or one own
mode more or less. `im-clauses` and so on have a further clause in insert or delete, for one own mode. `random` is drawn at
random, `near` is an accepted table with one or two entries changed; both have one to five modes. `fifteen` is drawn at
random with fifteen modes. Those that end in `-update` offer updates, and half of `fifteen` do."""

import functools
import pathlib
import random
import sys
from typing import NamedTuple

sys.dont_write_bytecode = True
TOP = pathlib.Path(__file__).resolve().parents[2]
sys.path.append(str(TOP / 'tests' / 'second'))

from checker import Checker
from samples import CHANGING, SPANS, Draft
from table import SIDES, Table

BUNDLED = ['im', 'kvl', 'kvl-update', 'range-key']
DRAWN = {'random': 500, 'random-update': 500, 'near': 500, 'near-update': 500, 'fifteen': 1000}
KINDS = [*BUNDLED, *(f'{it}-clauses' for it in BUNDLED), *DRAWN]
SIBLINGS = 5  # so many tables are near one accepted table
CLIMBS = 200  # changes that are tried on the way to an accepted table
WALKS = 80  # and from there to other accepted ones


class Entry(NamedTuple):
    kind: str
    name: str  # what was changed, or the number of the table
    text: str


def with_entry(draft, change):
    rules = {place: [dict(it) for it in clauses] for place, clauses in draft.rules.items()}
    changed = Draft(draft.modes, set(draft.compatible), dict(draft.convert), rules, draft.format)
    change(changed)
    return changed


def pair_changes(draft):
    for asked in draft.modes:
        for held in draft.modes:
            pair = {(asked, held)}
            yield f'compatible {asked} {held}', lambda it, pair=pair: it.compatible.symmetric_difference_update(pair)


def conversion_changes(draft):
    for (held, asked), mode in draft.convert.items():
        for other in draft.modes:
            if other != mode:
                yield (
                    f'convert {held} {asked} to {other}',
                    lambda it, pair=(held, asked), other=other: it.convert.update({pair: other}),
                )


def rule_changes(draft):
    for place, clauses in draft.rules.items():
        where = '.'.join(place)
        yield f'no {where}', lambda it, place=place: it.rules.pop(place)
        for n, clause in enumerate(clauses):
            yield from clause_changes(draft, f'{where}.{n}', place, n, clause)


def clause_changes(draft, where, place, n, clause):
    def changed(**members):
        return lambda it: it.rules[place][n].update(members)

    span = 'instant' if clause['span'] == 'commit' else 'commit'
    yield f'{where} {span}', changed(span=span)
    if len(draft.rules[place]) > 1:
        yield f'no {where}', lambda it: it.rules[place].pop(n)
    for mode in draft.modes:
        if mode != clause['mode']:
            yield f'{where} {mode}', changed(mode=mode)
    for own in ['none', *draft.modes] if 'own' in clause else []:
        owns = [it for it in ['none', *draft.modes] if (it in clause['own']) != (it == own)]
        yield f'{where} own {own}', changed(own=owns)


def further_clauses(draft):
    for place, clauses in draft.rules.items():
        for n, clause in enumerate(clauses):
            for own in ['none', *draft.modes] if place[0] in CHANGING and 'own' not in clause else []:
                for mode in draft.modes:
                    further = {'own': [own], 'mode': mode, 'span': clause['span']}
                    yield (
                        f'{".".join(place)}.{n} for {own} {mode}',
                        lambda it, place=place, n=n, further=further: it.rules[place].insert(n, further),
                    )


CHANGES = [pair_changes, conversion_changes, rule_changes]


def neighbours(kind):
    name, is_further = (kind.removesuffix('-clauses'), True) if kind.endswith('-clauses') else (kind, False)
    draft = Draft.of_text((TOP / 'tables' / f'{name}.toml').read_text())
    for changes in [further_clauses] if is_further else CHANGES:
        for what, change in changes(draft):
            yield Entry(kind, what, with_entry(draft, change).text())


def drawn_at_random(draws, count, format, density):
    """A table of so many modes."""
    modes = [f'M{it}' for it in range(1, count + 1)]
    draft = Draft(modes, {(q, h) for q in modes for h in modes if draws.random() < density}, {}, {}, format)
    draft.convert = {(h, q): draws.choice(modes) for h in modes for q in modes}
    is_own = draws.random() < 0.5
    for row, sides in SIDES.items():
        for side in sides if row != 'update' or format == 2 else []:
            if is_own and row in CHANGING:
                owns = ['none', *modes]
                asked = [{'own': [it], 'mode': draws.choice(modes), 'span': draws.choice(SPANS)} for it in owns]
            else:
                asked = [draft.clause(draws, row) for _ in range(draws.choice([1, 1, 1, 2, 3]))]
            draft.rules[row, side] = asked
    return draft


class DraftTable(Table):
    """The table that the text of a draft is read as."""

    def __init__(self, draft):
        modes, rules = draft.modes, {}
        for (row, side), clauses in draft.rules.items():
            rules.setdefault(row, {})[side] = clauses
        self.read({
            'format': draft.format,
            'modes': modes,
            'compatible': {q: [h for h in modes if (q, h) in draft.compatible] for q in modes},
            'convert': {h: {q: draft.convert[h, q] for q in modes} for h in modes},
            'rules': rules,
        })


def failed(table):
    """How many cases don't hold."""
    checker = Checker(table)
    return sum(mode is not None and not checker.serves(mode, cover) for _, cover, _, mode in checker.cases())


def changed(draws, draft):
    """With one entry changed, drawn at random."""
    changes = draws.choice([pair_changes, pair_changes, conversion_changes, rule_changes, rule_changes, further_clauses])
    found = [*changes(draft)]
    return with_entry(draft, draws.choice(found)[1]) if found else draft


def nearly_accepted(draws, format):
    """A table drawn at random, but that its last mode is compatible with none and is mostly what changes request, and that of two
    modes the later one is the converted mode, and lets in fewer."""
    draft = drawn_at_random(draws, draws.choice([1, 2, 2, 3, 3, 4, 4, 5, 5]), format, 0)
    modes = draft.modes
    order = {mode: place for place, mode in enumerate(modes)}
    draft.convert = {(h, q): max(h, q, key=order.get) for h in modes for q in modes}
    limits = sorted((draws.randrange(len(modes)) for _ in modes[:-1]), reverse=True)
    draft.compatible = {(q, h) for q, limit in zip(modes, limits) for h in modes[:limit]}
    for row, side in draft.rules:
        if row in ('insert', 'delete', 'update') and draws.random() < 0.8:
            draft.rules[row, side] = [{'mode': modes[-1], 'span': 'commit'}]
        elif draws.random() < 0.8:
            draft.rules[row, side] = [{'mode': draws.choice(modes), 'span': 'commit'}]
    return draft


@functools.cache
def accepted(seed, format):
    """An accepted table, to which one comes from a random one by changes that let no more cases fail; and then by more that
    let none fail, and mostly take no pair of modes apart."""
    draws = random.Random(seed)
    failing = 1
    while failing:
        draft = nearly_accepted(draws, format)
        failing = failed(DraftTable(draft))
        for _ in range(CLIMBS if failing else 0):
            other = changed(draws, draft)
            left = failed(DraftTable(other))
            draft, failing = (other, left) if left <= failing else (draft, failing)
            if not failing:
                break
    for _ in range(WALKS):
        other = changed(draws, draft)
        grows = len(other.compatible) >= len(draft.compatible)
        draft = other if (grows or draws.random() < 0.2) and not failed(DraftTable(other)) else draft
    return draft


def drawn(kind, n):
    """The n-th table of a kind that is drawn at random."""
    base = kind.removesuffix('-update')
    draws = random.Random(f'{kind} {n}')
    format = 2 if kind != base or (kind == 'fifteen' and n % 2) else 1
    if base == 'near':
        draft = accepted(f'{kind} {n // SIBLINGS}', format)
        for _ in range(draws.choice([1, 2])):
            draft = changed(draws, draft)
    else:
        draft = drawn_at_random(draws, 15 if base == 'fifteen' else draws.randint(1, 5), format, draws.random())
    return Entry(kind, f'{n + 1}', draft.text())


def tables(kind):
    return (drawn(kind, n) for n in range(DRAWN[kind])) if kind in DRAWN else neighbours(kind)


def sample(count):
    """So many tables, spread over the kinds but `fifteen`, always the same ones."""
    draws = random.Random(count)
    kinds = [it for it in KINDS if it != 'fifteen']
    for place, kind in enumerate(kinds):
        wanted = count // len(kinds) + (place < count % len(kinds))
        if kind in DRAWN:
            groups = draws.sample(range(DRAWN[kind] // SIBLINGS), -(-wanted // SIBLINGS))
            chosen = [group * SIBLINGS + n for group in groups for n in range(SIBLINGS)][:wanted]
            yield from (drawn(kind, n) for n in chosen)
        else:
            found = [*neighbours(kind)]
            yield from draws.sample(found, min(wanted, len(found)))


def main(*words):
    match words:
        case ['--write', folder, kind] if kind in KINDS:
            pathlib.Path(folder).mkdir(parents=True, exist_ok=True)
            for n, entry in enumerate(tables(kind), 1):
                (pathlib.Path(folder) / f'{n:04}.toml').write_text(f'# {entry.kind}: {entry.name}\n{entry.text}')
        case []:
            for kind in KINDS:
                print(kind, sum(1 for _ in tables(kind)) if kind not in DRAWN else DRAWN[kind])
        case _:
            sys.exit(__doc__)


if __name__ == '__main__':
    main(*sys.argv[1:])
