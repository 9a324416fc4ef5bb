"""What the prover says, each kind of line with its name, and what it means for the function that an edit changes."""

import re

CHECKED = re.compile(r'^checked (\S+), \d+ of \d+$')  # with --progress, when the check has ended with a function
FUNCTION = re.compile(r'^fn (\S+): (.*)$')  # what came of a function
PROVED = re.compile(r'^(proved|no holes|depends on a hole)\b')
UNCOVERED = 'does not cover this function'  # of a body that the prover can't judge, which is no refusal
CALLS = re.compile(r'(^no proof: |^not proved; |; )it calls (`[^`]*`(, | and )?)+,? which (is|are) not proved')
STANDS_ON = re.compile(r'it stands on `([^`]*)`, which antt refuses')
HAS_OTHER_REASON = re.compile(r'expected|did not prove|antt refuses|could not')  # beside that it calls what isn't proved
UNREADABLE = re.compile(r'^(\./)?(src|specs)/\S+:\d+:\d+: error: (?!`)')  # of a text that isn't Rattle; a false statement reads well
STUB_FAULT = re.compile(r'^\./proofs/(\S+)/Proof\.antt(?::\d+:\d+)?: error')  # in a proof file that has a hole alone
NOT_PROVED = 'logic=not-proved'  # the beginning of the last line, where the crate isn't
# A goal without an answer, where nothing proved it, and where it has parts of its own that the check tries one by one.
OPEN_GOAL = re.compile(r'^note: \S+: (?:it is not proved that .*|`search` found no proof |this goal needs an answer )\(`([^`]+)`\)(;|$)')
OF_CLAUSES = re.compile(r'^help: `([^`]+)` asks a record with a field for each clause')
# An answer that isn't taken: of a function's proof files, of which goal, and why: by what the check tries by itself, where that
# proves nothing; because it names what the edit took away; or because there is no such goal.
REFUSED_ANSWER = re.compile(r'^\./proofs/(\S+)/Answers\.antt:\d+:\d+: error: `([^`]+)`: (.*)')
UNPROVED = re.compile(r'`(search|grind)`')
LOST_NAME = re.compile(r' has no field `[^`]+`')
NO_GOAL = re.compile(r'^help: `Goals` has no `([^`]+)`')

NOTHING = 'of-no-goal'  # what an answer to no goal is called
AGAIN = ''  # in place of a reason: the edit is to be tried again


def of_functions(lines):
    """What is said of each function, by its name."""
    return {it[1]: it[2] for it in map(FUNCTION.match, lines) if it}


def unreadable(lines):
    """The line by which the prover can't read a source, if there is one."""
    return next((it for it in lines if UNREADABLE.match(it)), None)


def reason_of(crate, place, lines, stubs):
    """Why a function isn't proved, for a reason of its own; None where it is proved or nothing is said of it, and AGAIN where all
    that is refused is a function that it calls, other than those that were taken by their contracts."""
    every = of_functions(lines)
    found = [it for it in every if it.endswith(f'::{place}')]
    name = f'{crate}::{place}' if f'{crate}::{place}' in found else next(iter(found), '')
    said = every.get(name, 'proved')
    if PROVED.match(said) or UNCOVERED in said:
        return None
    own = name.replace(crate, f'Rattle.{crate}.proofs', 1).replace('::', '.')
    stands = STANDS_ON.search(said)
    if stands and not stands[1].startswith(own + '.'):
        said = said.replace(stands[0], '')
        if stands[1].startswith(f'Rattle.{crate}.proofs.') and '.Answers.' not in stands[1] and '.Invariants.' not in stands[1]:
            return f'it stands on {stands[1]}'
    left = without_calls(said)
    calls = {it for call in CALLS.finditer(said) for it in re.findall('`([^`]*)`', call[0])}
    are_proved = all(it in stubs or PROVED.match(every.get(it, '')) for it in calls)
    return said if left == said or are_proved or HAS_OTHER_REASON.search(left) else AGAIN


def without_calls(reason):
    """A reason without that the function calls others that aren't proved."""
    return CALLS.sub('', reason)


def says_no_more(reason):
    """Whether a reason is no more than that the function isn't proved, or calls one that isn't."""
    return without_calls(reason) in ('', 'not proved')


def open_goals(place, lines):
    """The goals of a function that have no answer, and that a search didn't prove, if there was one."""
    found = []
    for line in lines:
        if (said := FUNCTION.match(line)) and is_of(said[1], place):
            return found
        noted = OPEN_GOAL.match(line)
        found = [*found, noted[1]] if noted else found if line.startswith(('note: ', 'help: ', ' ')) else []
    return []


def is_of(name, place):
    """Whether a name in a check is that of the function."""
    return name.endswith(f'::{place}')


def answers_refused(place, lines):
    """Of the function's own proof file the goals whose answers the prover refuses, each with why, and with the line behind."""
    path = place.replace('::', '/')
    for line, after in zip(lines, [*lines[1:], '']):
        it = REFUSED_ANSWER.match(line)
        if it and f'/{it[1]}'.endswith(f'/{path}') and it[2] != NOTHING:
            yield it[2], it[3], after


def refused_goals(place, lines):
    """The goals whose answers in the function's own proof file the prover refuses, and that the function has."""
    return {goal for goal, why, _ in answers_refused(place, lines) if f'has no `{goal}`' not in why}


def lost_goals(place, lines):
    """The goals whose answers in the function's own proof file name what isn't there any more: a call, as a rule, that the edit took
    away. So nothing is known of the goal."""
    errors = {}
    for goal, why, after in answers_refused(place, lines):
        errors.setdefault(goal, []).append(f'{why} {after}')
    return {goal for goal, said in errors.items() if all(LOST_NAME.search(it) for it in said)}


def gone_goals(place, lines):
    """The goals that the proof files of a function answer, and that it has no more."""
    return {it[1] for it in map(NO_GOAL.match, lines_behind(place, lines)) if it} - {NOTHING}


def lines_behind(place, lines):
    """The lines that follow what is said of a function, up to the next function."""
    at = False
    for line in lines:
        if said := FUNCTION.match(line):
            at = is_of(said[1], place)
        elif at:
            yield line


def names_answer(place, reason, lost=()):
    """Whether a reason is that the prover refuses an answer of the function's own proof, other than these."""
    found = re.findall(rf'\.{re.escape(place.replace("::", "."))}\.Answers\.([^`]*)`', reason or '')
    return any(it != NOTHING and it not in lost for it in found) and 'which antt refuses' in reason


def fails_at_goal(place, goal, lines):
    """Whether what the check tries by itself proves nothing at the goal that an edit names, where that is one goal of its function:
    not where the function has none of this name, nor where it has clauses, which the check tries one by one."""
    if any(it[1] == goal for it in map(OF_CLAUSES.match, lines_behind(place, lines)) if it):
        return False
    errors = [why for it, why, _ in answers_refused(place, lines) if it == goal]
    return bool(errors) and all(UNPROVED.match(it) for it in errors)


def of_whole_crate(crate, lines, status):
    """Whether an edit is refused that was tried on the whole crate, and what to print."""
    if line := unreadable(lines):
        return False, f'BAD EDIT: the prover cannot read it: {line[:200]}'
    if status == 1 and lines[-1].startswith(NOT_PROVED):
        every = [(it[1], it[2]) for it in map(FUNCTION.match, lines) if it]
        place, said = next((it for it in every if not PROVED.match(it[1]) and 'it calls' not in it[1]), ('', ''))
        if UNCOVERED in said:
            return False, f'BAD EDIT: the prover {UNCOVERED}: {place}'
        return True, f'refused, alone, at {place.removeprefix(crate + "::")}'
    if status == 0:
        return False, 'NOT REFUSED: the crate is still proved with this edit'
    return False, 'BAD EDIT: it did not reach the prover: ' + ' / '.join(lines[:3])[:300]
