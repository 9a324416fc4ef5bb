"""Runs a schedule by the runner of tests/second."""

from runner import Run


def granted(table, opening, steps):
    """The run of these steps, each scan with all its steps; or None where one is blocked or refused."""
    run = Run(table, opening)
    for step in steps:
        reply = run.step(*step)
        while reply[0] == 'going':
            reply = run.step(step[0], 'go')
        if reply[0] in ('blocked', 'refused'):
            return None
    return run


def goes_wrong(table, opening, steps):
    """Whether every step is granted, and the committed transactions aren't serializable in commit order."""
    run = granted(table, opening, steps)
    return run is not None and run.verdict() != ['serial']
