"""Writes into edits the goals at which they fail, so that the next run searches for no other, or searches at once (--name-goals)."""

from .trying import batch_of, tried_at_once


def name_goals(crate, edits):
    """Writes into each of these edits, which were refused, a goal at which it fails, if that was after a search; or at least that no
    answer of the proof files is refused."""
    edits = [it for it in edits if it.searches and it.is_apart()]
    named = {it: [f'gone: {" ".join(sorted(it.gone))}'.rstrip()] for it in edits if it.has_answers()}
    pending = {it: [(goal, given) for given in it.binders() for goal in it.left] for it in edits if it.may_name()}
    while pending := {it: goals for it, goals in pending.items() if goals}:
        for it, goals in pending.items():
            (it.goal, it.given), it.searches = goals.pop(0), False
        for it, reason in tried_at_once(crate, batch_of(list(pending))).items():
            if reason:
                named[it] = [f'gone: {it.goal}'] * (it.goal in it.gone) + [f'goal: {it.goal} {it.given}']
                pending[it].clear()
    for it, lines in named.items():
        if it.path.read_bytes() != it.text:
            continue  # (somebody changed it meanwhile)
        kept = [one for one in it.text.decode().rstrip('\n').split('\n') if not one.startswith(('gone:', 'goal:'))]
        it.path.write_text('\n'.join([*kept, *lines, '']))
        it.text = it.path.read_bytes()
