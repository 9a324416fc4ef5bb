#!/usr/bin/env python3
"""Holds what `kr threads` prints of random scripts under the bundled tables with ghosts against `kr run`: the history as a script of
format 3, with its purges, has to have the same replies, index and ghosts there, no transaction unfinished, and the verdict that
it is serializable. Each transaction does its own steps of the script in their order, but for the faults.

    threads.py PROGRAM [SEED [SCRIPTS]]

Status 1 where something differs, and then the folder that is printed has the script, its report and the replayed history."""

import collections
import json
import pathlib
import random
import shutil
import subprocess
import sys
import tempfile

sys.dont_write_bytecode = True

TABLES = '@record-gap', '@range-ghost', '@next-key-ghost'


def some_step(rng, keys):
    key = rng.randrange(keys)
    kind = rng.choice(('fetch', 'insert', 'insert', 'delete', 'delete', 'update', 'scan', 'back'))
    if kind == 'scan':
        width = rng.randrange(3)
        return [['scan', key, key + width], *[['go']] * (width + 1)]
    return [[kind, *([] if kind == 'back' else [key] if kind in ('fetch', 'delete') else [key, rng.randrange(100)])]]


def some_script(rng):
    """A script whose transactions take turns, each with some steps and mostly an end, and some purges between."""
    keys, hands = rng.randint(3, 12), []
    for txn in range(1, rng.randint(2, 12)):
        steps = [it for _ in range(rng.randint(1, 6)) for it in some_step(rng, keys)]
        hands.append([[txn, *it] for it in [*steps, *([[rng.choice(('commit', 'commit', 'commit', 'abort'))]] if rng.random() < 0.9 else [])]])
    steps = []
    while hands:
        hand = rng.choice(hands)
        steps.append(hand.pop(0))
        if rng.random() < 0.2:
            steps.append(['purge', rng.randrange(keys)])
        hands = [it for it in hands if it]
    opening = [[key, key + 100] for key in range(keys) if rng.random() < 0.6]
    return {'format': 3, 'opening': opening, 'steps': steps}


def report(program, folder, words):
    ran = subprocess.run([program, *words], cwd=folder, capture_output=True, text=True, timeout=120)
    return json.loads(ran.stdout) if (ran.stderr, ran.returncode) == ('', 0) else f'{ran.stdout}{ran.stderr}status {ran.returncode}'


def by_txn(steps):
    hands = collections.defaultdict(list)
    for txn, *step in steps:
        hands[txn].append(step)
    return hands


def follows(script, done):
    """Whether each transaction did its own steps in order, without those that have a fault, up to a deadlock."""
    asked = by_txn(it for it in script['steps'] if it[0] != 'purge')
    made = by_txn(it for it, _ in done['history'] if it[0] != 'purge')
    causes = {(txn, number): cause for txn, number, cause in done['faults']}
    for txn, steps in asked.items():
        wanted = []
        for number, step in enumerate(steps, 1):
            cause = causes.pop((txn, number), None)
            if cause and cause[0] == 'deadlock':
                break
            wanted += [] if cause else [step]
        if wanted and wanted[-1] not in (['commit'], ['abort']):
            wanted.append(['abort'])
        if made.pop(txn, []) != wanted:
            return False
    return not causes and not made


def differs(program, folder, table, script, workers):
    (folder / 's.json').write_text(json.dumps(script))
    done = report(program, folder, ['threads', table, 's.json', '--workers', str(workers)])
    if isinstance(done, str):
        return f'ends otherwise:\n{done}'
    (folder / 'report.json').write_text(json.dumps(done))
    again = {'format': 3, 'opening': script['opening'], 'steps': [it for it, _ in done['history']]}
    (folder / 'history.json').write_text(json.dumps(again))
    run = report(program, folder, ['run', table, 'history.json'])
    if isinstance(run, str):
        return f'has a history that goes wrong:\n{run}'
    if [it for _, it in done['history']] != run['replies'] or any(done[it] != run[it] for it in ('index', 'ghosts', 'unfinished', 'verdict')):
        return 'has a history that is replayed otherwise'
    if run['unfinished'] or run['verdict'] != ['serial'] or not follows(script, done):
        return 'has a history that does not follow the script'
    return done


def main():
    program = pathlib.Path(sys.argv[1]).resolve()
    seed, scripts = (int(it) for it in [*sys.argv[2:], *('1', '1000')[len(sys.argv) - 2 :]])
    rng, counts, folder = random.Random(seed), collections.Counter(), pathlib.Path(tempfile.mkdtemp())
    for at in range(scripts):
        table, workers = TABLES[at % 3], rng.randint(1, 8)
        done = differs(program, folder, table, some_script(rng), workers)
        if isinstance(done, str):
            print(f'ghosts: {folder} has a script that under {table} by {workers} workers {done}')
            return 1
        counts.update(step[0] for step, _ in done['history'] if step[0] == 'purge')
        counts.update(cause[0] for _, _, cause in done['faults'])
        counts['ghosts left'] += len(done['ghosts'])
    print(f'ghosts: {scripts} scripts by threads; ' + ', '.join(f'{n} {it}' for it, n in sorted(counts.items())))
    shutil.rmtree(folder)
    return 0


if __name__ == '__main__':
    sys.exit(main())
