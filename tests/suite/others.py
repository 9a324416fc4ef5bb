"""The other values of the entries of a table, each with the name of that change, as docs/SUITE.md has it. `names` has those of the
modes, `none` first."""


def word_of(names, asked):
    return f'{names[asked[0]]} {asked[1]}' if asked else 'nothing'


def other_pairs(names, ok):
    """Each requested mode beside each held one, with the name of the change that turns whether they are compatible."""
    for q in range(1, len(names)):
        for h in range(1, len(names)):
            yield (q, h), f'{names[q]} beside {names[h]}: {"no" if ok(q, h) else "yes"}'


def other_conversions(names, convert):
    """Each held and each requested mode with each other mode that they could convert to, and the name of that change."""
    modes = range(1, len(names))
    for h in modes:
        for q in modes:
            for mode in modes:
                if mode != convert(h, q):
                    yield (h, q, mode), f'{names[h]} held, {names[q]} asked: {names[mode]}'


def other_requests(names, place, now):
    """Each request but the one that is made at a place now, and the name of that change."""
    for asked in [None, *((mode, span) for mode in range(1, len(names)) for span in ('instant', 'commit'))]:
        if asked != now:
            yield asked, f'{place}: {word_of(names, asked)}'


def place_of(names, row, side, own):
    """The name of the entry that has what a row requests at a side with an own mode, or with all of them (None)."""
    return f'{row} {side}' if own is None else f'{row} {side} own {names[own]}'
