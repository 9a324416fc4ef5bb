#!/usr/bin/env python3
"""Holds the definitions of crates/kr_ghost against a second form of them, by docs/GHOSTS.md (model.py): random
tables, near the three of that crate and others, with their failed cases; and random runs under them, with replies, locks, pairs
and ghosts. Each is written as a law of the definitions, and the prover computes both sides.

    compare.py [SEED [TABLES [RUNS]]]     RUNS under each table

A table of which no case fails has to be safe by the second form, and under a table that is safe every run has to be serializable
in commit order. The laws are proved in a copy of
the crates, by `rt ci`. Status 1 where something differs, and then the folder that is printed has the copy."""

import collections
import pathlib
import random
import shutil
import subprocess
import sys
import tempfile

sys.dont_write_bytecode = True

from model import END, READS, VAIN, Run, Table, failed_cases, is_safe

TOP = pathlib.Path(__file__).resolve().parents[2]
OPENING = [(10, 1), (20, 2), (30, 3)]
KEYS = (10, 12, 15, 20, 25, 30, 35)
ACCESSES = {'fetch-hit': 'Fetch', 'scan-key': 'Scan', 'delete': 'Delete', 'update': 'Update', 'revive': 'Revive', 'insert-next': 'Insert', 'insert-hit': 'InsertHit'}
OPS = {'fetch': 4, 'insert': 5, 'delete': 5, 'update': 2, 'scan': 3, 'go': 5, 'commit': 2, 'abort': 1, 'back': 2}
HEAD = """-- Random tables and runs.
use Rattle.std.specs.Prelude.{◌≡◌, ℕ, ◌==◌, true, false, [], ◌∷◌, List, Option, Some, None, length, map, refl, slice_index_or}
use Rattle.kr_model.specs.declared.Name.TheVariants.{Key, End}
use Rattle.kr_model.specs.declared.Reply.TheVariants as reply
use Rattle.kr_model.specs.declared.Refusal.TheVariants as refusal
use Rattle.kr_model.specs.declared.Op.TheVariants as op
use Rattle.kr_model.specs.declared.Row.{Row}
use Rattle.kr_model.specs.declared.Row.TheVariants as row
use Rattle.kr_model.specs.declared.Side.{Side}
use Rattle.kr_model.specs.declared.Side.TheVariants.{Current, Next}
use Rattle.kr_model.specs.declared.Span.{Span}
use Rattle.kr_model.specs.Matrices.{ok_by, convert_by, for_commit, at_once}
use Rattle.kr_ghost.specs.declared.vain.Vain.{Vain}
use Rattle.kr_ghost.specs.declared.vain.Vain.TheVariants as vain
use Rattle.kr_ghost.specs.Protocol.{GhostProtocol, Unlocked, Inherit}
use Rattle.kr_ghost.specs.declared.moves.Move.TheVariants.{Purge}
use Rattle.kr_ghost.specs.declared.cases.Rule.{Rule}
use Rattle.kr_ghost.specs.declared.cases.Rule.TheVariants as rule
use Rattle.kr_ghost.specs.declared.cases.Access.TheVariants as access
use Rattle.kr_ghost.specs.declared.cases.Requester.{Requester}
use Rattle.kr_ghost.specs.Covers.{requester, cases, failed_cases}
use Rattle.kr_ghost.specs.Worked.{by, shown}

abbrev Asked : Type 0
Asked = Option (ℕ × Span)

abbrev rows : Asked → Asked → Asked → Asked → List Asked → List Asked → Asked → Asked → Row → Side → ℕ → Asked
rows a b c d e f g h row.FetchHit Current own = a
rows a b c d e f g h row.FetchMiss Next own = b
rows a b c d e f g h row.ScanKey Current own = c
rows a b c d e f g h row.ScanStop Next own = d
rows a b c d e f g h row.Insert Current own = slice_index_or e own None
rows a b c d e f g h row.Insert Next own = slice_index_or f own None
rows a b c d e f g h row.Delete Current own = g
rows a b c d e f g h row.Update Current own = h
rows a b c d e f g h _ _ own = None

abbrev vains : Option Asked → Option Asked → Option Asked → Vain → Option Asked
vains a b c vain.InsertHit = a
vains a b c vain.DeleteMiss = b
vains a b c vain.UpdateMiss = c

abbrev heirs : List ℕ → ℕ → ℕ
heirs list m = slice_index_or list m 0
"""


# Tables --


def drawn(beside, convert, rows, heir):
    """A table of `names`: modes from 1, with rows of a mode, `!` for instant, or of such by the own mode."""
    return Table(beside, convert, {**rows, 'revive-next': None, 'insert-hit-next': None}, heir, True)


def parts_table(gaps, keys, gap_beside, gap_convert, key_of):
    """The modes of two parts, without the one of neither, and their matrices."""
    modes = [None, *[(g, k) for g in gaps for k in keys if (g, k) != ('N', 'N')]]
    number = {it: at for at, it in enumerate(modes)}
    key_ok = lambda a, b: 'N' in (a, b) or a == b == 'S'
    ok = [[q is None or h is None or (gap_beside(q[0], h[0]) and key_ok(q[1], h[1])) for h in modes] for q in modes]
    both = lambda h, q: (gap_convert(h[0], q[0]), key_of(h[1], q[1]))
    convert = [[(number[q] if h is None else number[h] if q is None else number[both(h, q)]) for q in modes] for h in modes]
    return modes, number, ok, convert


def record_gap():
    gap = {frozenset(): 'N', frozenset('G'): 'G', frozenset('I'): 'I', frozenset('GI'): 'GI'}
    letters = lambda it: frozenset(it) - {'N'}
    key_of = lambda h, q: 'X' if 'X' in (h, q) else 'S' if 'S' in (h, q) else 'N'
    modes, at, ok, convert = parts_table(('N', 'G', 'I', 'GI'), 'NSX', lambda q, h: not ('I' in q and 'G' in h), lambda h, q: gap[letters(h) | letters(q)], key_of)
    commit = lambda g, k: (at[g, k], True)
    rows = {'fetch-hit': commit('N', 'S'), 'fetch-miss': commit('G', 'N'), 'scan-key': commit('G', 'S'), 'scan-stop': commit('G', 'S')}
    rows |= {it: commit('N', 'X') for it in ('delete', 'update', 'revive')}
    rows['insert'] = [commit('G', 'X') if it and 'G' in it[0] else commit('N', 'X') for it in modes]
    rows['insert-next'] = [(at['I', 'N'], False)] * len(modes)
    return drawn(ok, convert, rows, [0] + [at['G', 'N']] * (len(modes) - 1))


def range_ghost():
    part = lambda h, q: q if h == 'N' else h if q in ('N', h) else 'X'
    modes, at, ok, convert = parts_table('NSIX', 'NSX', lambda q, h: 'N' in (q, h) or q == h != 'X', part, part)
    commit = lambda g, k: (at[g, k], True)
    rows = {'fetch-hit': commit('N', 'S'), **{it: commit('S', 'S') for it in ('fetch-miss', 'scan-key', 'scan-stop')}}
    rows |= {it: commit('N', 'X') for it in ('delete', 'update', 'revive')}
    rows['insert'] = [commit('X', 'X') if it and it[0] in 'SX' else commit('N', 'X') for it in modes]
    rows['insert-next'] = [(at['I', 'N'], False)] * len(modes)
    return drawn(ok, convert, rows, None)


def next_key_ghost():
    compatible = {1: (1, 2, 3), 2: (1, 2), 3: (1, 3, 4), 4: (3,), 5: ()}
    ok = [[not q or not h or h in compatible[q] for h in range(6)] for q in range(6)]
    grow = {(1, 2): 2, (2, 1): 2, (3, 4): 4, (4, 3): 4}
    convert = [[q if not h else h if not q or h == q else grow.get((h, q), 5) for q in range(6)] for h in range(6)]
    rows = {'fetch-hit': (1, True), **{it: (2, True) for it in ('fetch-miss', 'scan-key', 'scan-stop')}}
    rows |= {it: (5, True) for it in ('delete', 'update', 'revive')}
    rows['insert'] = [(5, True) if own in (2, 5) else (4, True) for own in range(6)]
    rows['insert-next'] = [(3, False)] * 6
    return drawn(ok, convert, rows, None)


def changed(rng, table):
    """The table with one entry changed."""
    mode, row = (lambda: rng.randint(1, table.count)), rng.choice(list(table.rows))
    kind = rng.randrange(5)
    if kind == 0:
        table.ok[mode()][mode()] ^= True
    elif kind == 1:
        table.convert[mode()][mode()] = mode()
    elif kind == 2:
        table.heir = rng.choice([None, [0] + [rng.randint(0, table.count) for _ in range(table.count)]])
    elif row in ('insert', 'insert-next'):
        table.rows[row] = list(table.rows[row])
        table.rows[row][rng.randint(0, table.count)] = (mode(), rng.random() < 0.6)
    else:
        table.rows[row] = rng.choice([None, (mode(), True), (mode(), False)])


def some_table(rng):
    if rng.random() < 0.3:
        count = rng.randint(1, 4)
        number = lambda: rng.randint(1, count)
        request = lambda: rng.choice([None, (number(), True), (number(), True), (number(), False)])
        ok = [[not q or not h or rng.random() < 0.4 for h in range(count + 1)] for q in range(count + 1)]
        convert = [[h or q if not h or not q else number() for q in range(count + 1)] for h in range(count + 1)]
        rows = {it: request() for it in (*READS, 'delete', 'update', 'revive')}
        rows |= {it: [request() for _ in range(count + 1)] for it in ('insert', 'insert-next')}
        table = drawn(ok, convert, rows, rng.choice([None, [0] + [rng.randint(0, count) for _ in range(count)]]))
    else:
        table = rng.choice([record_gap, range_ghost, next_key_ghost])()
        for _ in range(rng.choice((0, 1, 1, 2, 3))):
            changed(rng, table)
    mode = lambda: rng.randint(1, table.count)
    for row in (*VAIN, 'revive-next', 'insert-hit-next'):
        if rng.random() < 0.2:
            like = table.rows.get(VAIN.get(row), (mode(), True))
            table.rows[row] = like if rng.random() < 0.5 else rng.choice([None, (mode(), True), (mode(), False)])
    if 'insert-hit' not in table.rows:
        table.rows['insert-hit-next'] = None  # of that row
    if rng.random() < 0.3:
        table.updates, table.rows['update'] = False, None
    return table


# Runs --


def some_run(rng, table):
    """A run, with its moves and the answer to each: the reply to a step, and to a purge whether it took the ghost away."""
    run, moves, replies = Run(table, OPENING), [], []
    slots = list(range(1, rng.randint(3, 5)))  # the transactions that go on; a new one most often comes where one has ended
    for _ in range(rng.randint(6, 24)):
        if rng.random() < 0.25 and (run.ghosts or rng.random() < 0.1):
            ghosts = sorted(run.ghosts)
            moves.append(('purge', rng.choice(ghosts) if ghosts and rng.random() < 0.9 else rng.choice(KEYS)))
            replies.append(['purged'] if run.purge(moves[-1][1]) else ['kept'])
            continue
        kind = rng.choices(list(OPS), list(OPS.values()))[0]
        key = rng.choice(KEYS)
        op = {'insert': (kind, key, rng.randint(4, 9)), 'update': (kind, key, rng.randint(4, 9)), 'scan': (kind, key, rng.choice(KEYS))}
        op = op.get(kind, (kind, key) if kind in ('fetch', 'delete') else (kind,))
        at = rng.randrange(len(slots))
        if run.refusal(slots[at], op) and rng.random() < 0.8:
            continue
        moves.append((slots[at], op))
        replies.append(run.step(*moves[-1]))
        if slots[at] in run.ended and rng.random() < 0.8:
            slots[at] = max(slots) + 1
    return run, moves, replies


# Laws --


def listed(items):
    return ''.join(f'{it} ∷ ' for it in items) + '[]'


def pairs(items):
    return listed(f'({k}, {v})' for k, v in items)


def request(it):
    return f'({"for_commit" if it[1] else "at_once"} {it[0]})' if it else 'None'


def table_text(name, table):
    modes = range(1, table.count + 1)
    ok = listed(f'({listed(h for h in modes if table.ok[q][h])})' for q in modes)
    convert = listed(f'({listed(table.convert[h][q] for q in modes)})' for h in modes)
    rows = table.rows
    asked = [request(rows[it]) for it in READS] + [f'({listed(map(request, rows[it]))})' for it in ('insert', 'insert-next')] + [request(rows[it]) for it in ('delete', 'update')]
    vain = ' '.join(f'(Some {request(rows[it])})' if it in rows else 'None' for it in VAIN)
    purges = 'Unlocked' if table.heir is None else f'Inherit (heirs ({listed(table.heir)}))'
    return f"""
abbrev {name} : GhostProtocol
{name} = record {{
  table = record {{ count = {table.count}; ok = ok_by ({ok}); convert = convert_by ({convert}); ask = rows {' '.join(asked)}; updates = {str(table.updates).lower()} }};
  revive = {request(rows['revive'])};
  revive_next = {request(rows['revive-next'])};
  vain = vains {vain};
  insert_hit_next = {request(rows['insert-hit-next'])};
  purges = {purges};
}}
"""


def reply_text(reply):
    kind, *rest = reply
    if kind == 'refused':
        return f'reply.Refused refusal.{rest[0]}'
    if kind == 'blocked':
        return f'reply.Blocked ({listed(rest[0])})'
    if kind == 'rows':
        return f'reply.Rows ({pairs(rest[0])})'
    return ' '.join([f'reply.{kind.capitalize()}', *map(str, rest)])


def move_text(move):
    if move[0] == 'purge':
        return f'Purge {move[1]}'
    txn, op = move
    return f'by {txn} ({" ".join([f"op.{op[0].capitalize()}", *map(str, op[1:])])})'


def cases_law(name, table):
    failed, count = failed_cases(table)
    found = listed(f'((rule.{rule}, {mode}), requester access.{ACCESSES[row]} {own})' for rule, _, _, mode, (row, own) in failed)
    return f"""
{name}-count : length (cases {name}) ≡ {count}
{name}-count = refl

{name}-failed : map {{B = (Rule × ℕ) × Requester}} (λ f. ((f.case, f.mode), f.hole)) (failed_cases {name}) ≡ {found}
{name}-failed = refl
"""


def run_law(name, at, run, moves, replies):
    locks = sorted(run.locks.items())
    held = listed(f'(({"End" if n == END else f"Key {n}"}, {u}), {mode})' for (n, u), mode in locks)
    return f"""
{name}-run{at} : shown {name} ({listed(map(move_text, moves))})
    ≡ record {{ replies = {listed(reply_text(it) for it in replies if it[0] not in ('purged', 'kept'))}; locks = {held}; pairs = {pairs(sorted(run.index.items()))}; ghosts = {listed(sorted(run.ghosts))} }}
{name}-run{at} = refl
"""


def laws(seed, tables, runs):
    """The text of the laws, how many runs aren't serial under a safe table or accepted tables aren't safe, and what was counted."""
    rng, text, wrong, counts = random.Random(seed), [HEAD], 0, collections.Counter()
    for at in range(tables):
        table, name = some_table(rng), f't{at}'
        safe = is_safe(table)
        counts['safe' if safe else 'unsafe' if safe is False else 'too large'] += 1
        accepted = not failed_cases(table)[0]
        counts['accepted'] += accepted
        wrong += accepted and safe is False
        text += [table_text(name, table), cases_law(name, table)]
        for i in range(runs):
            run, moves, replies = some_run(rng, table)
            text.append(run_law(name, i, run, moves, replies))
            counts.update(it[0] for it in replies)
            counts['not serial'] += not run.is_serial(OPENING)
            wrong += bool(safe) and not run.is_serial(OPENING)
    return ''.join(text), wrong, counts


def main():
    seed, tables, runs = (int(it) for it in [*sys.argv[1:], *('1', '20', '4')[len(sys.argv) - 1 :]])
    text, wrong, counts = laws(seed, tables, runs)
    folder = pathlib.Path(tempfile.mkdtemp())
    subprocess.run([TOP / 'tools/copy-of', folder, 'kr_ghost'], check=True)
    proofs = folder / 'crates/kr_ghost/proofs'
    (proofs / 'Compared.antt').write_text(text)
    with (proofs / 'Lib.antt').open('a') as lib:
        lib.write('pub mod Compared\n')
    done = subprocess.run(['rt', 'ci'], cwd=folder, capture_output=True, text=True)
    (folder / 'printed').write_text(done.stdout + done.stderr)
    print(f'ghosts: {tables} tables, {tables * runs} runs; ' + ', '.join(f'{n} {it}' for it, n in sorted(counts.items())))
    if done.returncode or wrong:
        print(f'ghosts: {wrong} runs under safe tables are not serial, or accepted tables not safe' if wrong else f'ghosts: what differs is in {folder}/printed')
        return 1
    shutil.rmtree(folder)
    return 0


if __name__ == '__main__':
    sys.exit(main())
