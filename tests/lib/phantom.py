#!/usr/bin/env python3
"""The phantom, step by step, and the faults of the module kr."""
import pathlib
import sys

sys.dont_write_bytecode = True
TOP = pathlib.Path(__file__).resolve().parents[2]
sys.path.insert(0, str(TOP / 'libkr/python'))

import kr


def raised(kind, call, *given):
    try:
        call(*given)
    except kind as error:
        return error
    raise AssertionError(f'{kind.__name__} is not raised')


table = kr.Table('@kvl')
with table.open([(10, 1), (20, 2), (30, 3)]) as session:
    assert session.step(1, 'scan', 10, 20) == ['going', 10]
    assert session.step(1, 'go') == ['rows', [[10, 1], [20, 2]]]
    assert session.step(2, 'insert', 15, 5) == ['blocked', [1]]
    assert session.locks() == [[10, 1, 'S'], [20, 1, 'S']]
    assert session.step(1, 'commit') == ['committed']
    assert session.step(2, 'insert', 15, 5) == ['done']
    assert session.unfinished() == [2]
    assert session.step(2, 'commit') == ['committed']
    assert session.step(2, 'commit') == ['refused', 1, 'Ended']
    assert session.index() == [[10, 1], [15, 5], [20, 2], [30, 3]]
    assert session.verdict() == ['serial'] and session.is_serializable()
    assert session.ghosts() == [] and not session.purge(10)
with kr.Table('@record-gap').open([(10, 1), (20, 2)]) as session:
    assert session.step(1, 'delete', 10) == ['deleted', 1] and session.ghosts() == [10]
    assert not session.purge(10)
    assert session.step(1, 'commit') == ['committed']
    assert session.purge(10) and not session.purge(10) and session.ghosts() == []
session.close()
assert raised(kr.Closed, session.purge, 1).code == kr.CLOSED
assert raised(kr.Closed, session.step, 1, 'fetch', 1).code == kr.CLOSED
assert raised(kr.TableFault, kr.Table, 'x').line.startswith('table: fault 2')
assert raised(kr.ScriptFault, table.run, 'x').line.startswith('script: fault 2')
assert raised(kr.ScriptFault, table.open, [(2, 1), (1, 1)]).line == 'script: fault 5 Opening at 1'
assert table.check() == (True, '{"accepted":true,"cases":244,"modes":5}')
assert table.explain().is_yes and table.explain().text.startswith('accepted: all 244 cases hold. ') and table.script(1) is None
rejected = kr.Table((TOP / 'examples/rejected/insert.toml').read_bytes())
assert not rejected.explain().is_yes and not rejected.run(rejected.script(1)).is_yes and rejected.script(2) is None
assert table.is_safe() and table.mode(5) == 'X' and table.mode(6) == ''
assert kr.version() == (TOP / 'VERSION').read_text().strip()
