#!/usr/bin/env python3
"""Holds the histories of `kr threads`, as those of any other engine, with kr trace against the table under which the threads
ran: each conforms, and is serializable in commit order. The program is the one that KR in the environment names, or the built one.

    threads.py [--parts N] [--seed N]           so many random scripts of many transactions, by default 1,000, for eight
                                                workers, a quarter of them under each table of tables/
    threads.py --trace SCRIPT REPORT            prints the trace of a script and the report of `kr threads`

Prints a line for each table. Status 1 where a history doesn't hold."""

import argparse
import json
import pathlib
import random
import subprocess
import sys
import tempfile

sys.dont_write_bytecode = True

from program import TABLES, built, reports_of, text_of

TRANSACTIONS, STEPS, KEYS, WORKERS = range(1, 49), 25, range(10, 310, 10), 8
CHANCES = {'fetch': 25, 'insert': 25, 'delete': 20, 'scan': 15, 'go': 10, 'update': 15}


def script(rand, updates):
    """A random script. A `go` without a scan, and another step within one, is refused, and left out of the history."""
    opening = [[key, value] for value, key in enumerate(KEYS) if rand.random() < 0.5]
    words = [it for it in CHANCES if updates or it != 'update']
    steps = []
    for txn in TRANSACTIONS:
        for number in range(STEPS):
            operation, key = rand.choices(words, [CHANCES[it] for it in words])[0], rand.choice(KEYS)
            more = {'scan': [key, key + 20], 'go': [], 'insert': [key, number], 'update': [key, number]}
            steps.append([txn, operation, *more.get(operation, [key])])
            steps += [[txn, 'go']] * (operation == 'scan' and 3)
        steps.append([txn, rand.choice(['commit', 'commit', 'commit', 'abort'])])
    return {'format': 2 if updates else 1, 'opening': opening, 'steps': steps}


def trace_of(script, report):
    """The lines of a trace: a part with the history of the threads."""
    return [{'format': 1, 'opening': script['opening']}, *report['history']]


def histories(table, count, rand):
    """The lines of so many histories, and how many steps were the victims of deadlocks."""
    lines, deadlocks = [], 0
    with tempfile.TemporaryDirectory() as folder:
        path = pathlib.Path(folder) / 'script.json'
        for _ in range(count):
            its = script(rand, 'update' in table.stem)
            path.write_text(json.dumps(its))
            command = [built(), 'threads', table, path, '--workers', str(WORKERS)]
            report = json.loads(subprocess.run(command, stdout=subprocess.PIPE, check=True).stdout)
            deadlocks += sum(cause[0] == 'deadlock' for _, _, cause in report['faults'])
            lines += trace_of(its, report)
    return lines, deadlocks


def switches(lines):
    """How often a step is another transaction's than the one before it."""
    steps = [it[0] if isinstance(it, list) else None for it in lines]
    return sum(bool(one and other and one[0] != other[0]) for one, other in zip(steps, steps[1:]))


def hold(table, count, seed):
    lines, deadlocks = histories(table, count, random.Random(f'{table.name} {seed}'))
    reports = reports_of(table, text_of(lines))
    bad = [it for it in reports if it['conforms'] != ['yes'] or it['verdict'] != ['serial'] or it['queued']]
    print(f'threads: {table.name}: {len(reports)} histories, {len(lines) - count} lines, ', end='')
    print(f'{switches(lines)} switches of transactions, {deadlocks} deadlocks; {len(bad)} differ', *bad[:3], sep='\n')
    return not bad and len(reports) == count


def main():
    words = argparse.ArgumentParser(description=__doc__, formatter_class=argparse.RawDescriptionHelpFormatter)
    words.add_argument('--parts', type=int, default=1000)
    words.add_argument('--seed', type=int, default=1)
    words.add_argument('--trace', nargs=2, type=pathlib.Path, metavar=('SCRIPT', 'REPORT'))
    given = words.parse_args()
    if given.trace:
        sys.stdout.buffer.write(text_of(trace_of(*(json.loads(it.read_text()) for it in given.trace))))
        return 0
    tables = sorted(TABLES.glob('*.toml'))
    return 0 if all([hold(it, -(-given.parts // len(tables)), given.seed) for it in tables]) else 1


if __name__ == '__main__':
    sys.exit(main())
