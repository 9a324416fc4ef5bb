"""Tries the edits of a crate: several in one check, those that this tells nothing of again, and what is left alone.

The prover checks first what a function's proof files answer, and searches for none of its other goals: searches take most of the time.
Where it refuses an answer, so is the edit. Elsewhere it searches in the next check. An edit that names the goal at which it fails is
refused where the check proves nothing there by itself; where anything else is wrong with that goal, all goals are tried. Where all that
is said is that proof files answer goals that are gone, or name what is gone, the edit is tried again without those answers. Where all
that is refused of a function is that it calls one that another edit changes, its edit is tried again without that one. An edit that
isn't refused so, or of which no function is known, is tried alone, on the whole crate."""

from typing import NamedTuple

from . import said
from .edit import Edit
from .said import AGAIN


class Outcome(NamedTuple):
    edit: Edit
    is_refused: bool
    text: str  # what to print
    is_alone: bool  # whether it was tried alone


def batch_of(edits):
    """Those of the edits that are tried at once: all that can be made in copies, and others as long as they change other functions."""
    batch, places, changed = [], [], set()
    for it in edits:
        own = {f'::{name}' for name in (*it.functions, it.place())}
        if it.has_copy():
            places.append(it.place())
            it.twin = places.count(it.place())
        elif any(one.endswith(other) or other.endswith(one) for one in own for other in changed):
            continue
        else:
            it.twin = 0
            changed |= own
        batch.append(it)
    return batch


def tried_alone(crate, edit):
    """Tries an edit on the whole crate. Returns whether it is refused, and what to print."""
    edit.twin = 0
    edit.search()
    lines, status, _ = crate.check([edit], [])
    return said.of_whole_crate(crate.name, lines, status)


def tried_at_once(crate, batch):
    """Tries edits of different functions or copies. Returns the reasons for which these are refused."""
    lines, status, stubs = crate.check(batch, [it.trial() for it in batch])
    if status != 1 or said.unreadable(lines):
        return {}
    reasons = {}
    for it in batch:
        if not it.goal:
            reasons[it] = reason_at(crate, it, lines, stubs)
        elif said.fails_at_goal(it.trial(), it.goal, lines):
            reasons[it] = f'no proof of `{it.goal}`'
        else:
            it.search()
            reasons[it] = AGAIN
    return {it: reason and f'{crate.seconds_of(it.trial())}: {reason}' for it, reason in reasons.items()}


def reason_at(crate, edit, lines, stubs):
    """Why the function of an edit isn't proved; AGAIN where the edit is to be tried again, by a search or without some answers."""
    place = edit.trial()
    reason = said.reason_of(crate.name, place, lines, stubs)
    if f'.Answers.{said.NOTHING}`' in (reason or ''):
        reason = None
    lost = said.lost_goals(place, lines) - edit.gone
    refused = said.refused_goals(place, lines) - lost if said.without_calls(reason or '') == 'not proved' else ()
    if refused:
        answers = f'Rattle.{crate.name}.proofs.{place.replace("::", ".")}.Answers'
        reason = 'not proved; it stands on ' + ', '.join(f'`{answers}.{goal}`' for goal in sorted(refused)) + ', which antt refuses'
    if edit.searches and reason is not None and said.says_no_more(reason):
        edit.left = said.open_goals(place, lines)
        # (Where no goal is noted, it is refused for the answer to no goal alone.)
        goals = ', '.join(f'`{goal}`' for goal in edit.left)
        reason = f'no proof: `search` did not prove {goals}' if goals else None if reason else AGAIN
    gone = said.gone_goals(place, lines)
    names_gone = reason and said.says_no_more(reason) and not gone <= edit.gone
    is_by_answer = said.names_answer(place, reason, lost)
    is_lost = said.names_answer(place, reason) and not is_by_answer
    if names_gone or is_lost or not edit.searches and not is_by_answer:
        edit.gone |= gone | lost
        edit.search()
        return AGAIN
    return reason


def tried(crate, edits):
    """Tries the edits of a crate, and returns what came of each."""
    reasons = {}
    left = [it for it in edits if it.place() and None not in it.functions]
    while left:
        before = [it.way() for it in left]
        found = tried_at_once(crate, batch_of(left))
        reasons.update(found)
        if not any(found.values()) and before == [it.way() for it in left]:
            break
        # that of a function which only calls one that is refused is tried again, and any other one alone
        left = [it for it in left if reasons.get(it, AGAIN) == AGAIN]
    for it in edits:
        if not reasons.get(it) and it.place() and (len(edits) > 1 or it.gone):
            it.search()
            reasons.update(tried_at_once(crate, batch_of([it])))
    return [outcome_of(crate, it, reasons.get(it)) for it in edits]


def outcome_of(crate, edit, reason):
    """What came of an edit: it is refused for this reason, or else is tried alone."""
    if reason:
        return Outcome(edit, True, f'refused at {edit.place()}{reason[:140]}', False)
    return Outcome(edit, *tried_alone(crate, edit), True)
