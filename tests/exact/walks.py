"""Looks for a wrong run under a table by walks: random steps of two or three transactions at a few keys, by the runner of
tests/second, until all have ended."""

from runner import Run

KEYS = [10, 15, 20]
OPERATIONS = [*['fetch'] * 4, *['insert'] * 4, *['delete'] * 4, *['scan'] * 3, *['update'] * 3, 'commit', 'abort', 'back']


def operation(draws, table, active):
    if active and active.scan:
        return ['go']
    if active and active.is_rolling:
        return ['back' if active.changes and draws.random() < 0.5 else 'abort']
    name = draws.choice(OPERATIONS)
    if name in ('commit', 'abort', 'back'):
        return [name] if active and (name != 'back' or active.changes) else ['fetch', draws.choice(KEYS)]
    if name == 'update' and not table.updates:
        name = 'fetch'
    if name == 'scan':
        return [name, *sorted([draws.choice(KEYS), draws.choice(KEYS)])]
    return [name, draws.choice(KEYS), *([draws.randrange(100, 1000)] if name in ('insert', 'update') else [])]


def walk(draws, table):
    """The opening and the steps of a wrong run, or None. Steps that are blocked are left out."""
    opening = [[key, key // 5] for key in KEYS if draws.random() < 0.6]
    run = Run(table, opening)
    txns = range(1, draws.choice([2, 2, 3]) + 1)
    for _ in range(draws.randint(12, 22)):
        txn = draws.choice(txns)
        if txn not in run.ended:
            run.step(txn, *operation(draws, table, run.active.get(txn)))
    for txn in draws.sample(txns, len(txns)):
        active = run.active.get(txn)
        if active and not active.is_rolling and not active.scan:
            run.step(txn, 'commit')
    if run.verdict() == ['serial']:
        return None
    return opening, [[step[0], step[1], *step[2]] for step, reply in run.history if reply[0] not in ('blocked', 'refused')]


def wrong_run(draws, table, walks):
    """What the first of so many walks finds."""
    return next((found for found in (walk(draws, table) for _ in range(walks)) if found), None)
