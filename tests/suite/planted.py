#!/usr/bin/env python3
"""Which wrong engines the stored suites of examples/suites notice.

    planted.py [--table]     with --table how many parts each fails, as bench/README.md counts them

Each engine of wrong.py, which has the habit of a part beside the entries, answers that part otherwise under some bundled table, and
else only what the machine answers. Of the engines of tests/engines/engine.py, which follow @kvl-update but for one fault each, the
right one answers the whole suite of @kvl-update as the table does, and each wrong one but those that show only where a step waits
answers some part otherwise. Status 1 where that isn't so."""

import pathlib
import sys

sys.dont_write_bytecode = True
TOP = pathlib.Path(__file__).resolve().parents[2]
sys.path += [str(TOP / 'tests' / it) for it in ('engines', 'second')]

import engine
import wrong
from adapter import replies_of
from parts import parts_of
from table import Table

NEED_WAITS = {'reads-before-lock', 'timeout-goes-on', 'releases-before-undo'}
TABLES = ['im', 'kvl', 'kvl-update', 'range-key']


def suite_of(name):
    return parts_of((TOP / 'examples' / 'suites' / f'{name}.suite').read_text().splitlines())


def is_answered(part, replies):
    """Whether an engine's replies are those of a part. Whom it names as blockers isn't compared: kr trace lets it leave some out."""
    given, wanted = [*replies], [reply for _, reply in part.lines]
    return len(given) == len(wanted) and all(one == it or one[0] == it[0] == 'blocked' for one, it in zip(given, wanted))


def replies_of_wrong(table, way, part):
    run = wrong.Wrong(table, part.opening, way)
    for step, _ in part.lines:
        yield (reply := run.step(*step))
        if reply[0] in ('blocked', 'refused'):
            return


def seen_habits():
    """Of each habit the ways by which it is had, and under which tables its part notices each."""
    suites = {name: (Table((TOP / 'tables' / f'{name}.toml').read_text()), suite_of(name)) for name in TABLES}
    for habit, ways in wrong.WAYS.items():
        for way in ways:
            yield habit, way, [
                name
                for name, (table, parts) in suites.items()
                for part in parts
                if part.tests == [habit] and not is_answered(part, replies_of_wrong(table, way, part))
            ]


def failed_parts(name, way):
    """The parts of a suite that an engine can do, and those that it answers otherwise."""
    parts = [it for it in suite_of(name) if all(step[1] != 'back' for step, _ in it.lines)]
    return parts, [it for it in parts if not is_answered(it, replies_of(way, it.opening, [step for step, _ in it.lines]))]


def table_of_faults():
    for way in ['right', *engine.WAYS]:
        parts, failed = failed_parts('kvl-update', way)
        yield way, len(parts), failed


def main():
    is_well = True
    for habit, way, seen in seen_habits():
        if not seen:
            print(f'planted: no suite notices {way}, of the {habit}')
            is_well = False
    for way, count, failed in table_of_faults():
        if sys.argv[1:] == ['--table']:
            first = failed[0].tests if failed else []
            more = f' and {len(first) - 1} more' if len(first) > 1 else ''
            print(f'| `{way}` | {len(failed)} of {count} | {f"`{first[0]}`{more}" if first else "none"} |')
        if bool(failed) != (way not in {'right', *NEED_WAITS}):
            print(f'planted: {way} answers {len(failed)} of {count} parts otherwise')
            is_well = False
    if is_well:
        print(f'planted: the suites notice {sum(map(len, wrong.WAYS.values()))} ways to have a habit, and '
              f'{len(engine.WAYS) - len(NEED_WAITS)} of {len(engine.WAYS)} planted engines')
    return 0 if is_well else 1


if __name__ == '__main__':
    sys.exit(main())
