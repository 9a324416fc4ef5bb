"""Lines of a trace, each read by itself, or the first of its faults; written from docs/TRACES.md alone."""

import itertools
import json

LONGEST, MOST_PAIRS, DEEPEST = 16_777_216, 100_000, 127
WORDS = {  # of steps, each with how many numbers stand behind it
    'fetch': 1, 'scan': 2, 'go': 0, 'insert': 2, 'delete': 1, 'update': 2, 'commit': 0, 'abort': 0, 'back': 0,
}
ANSWERS = {  # of each operation, where it is done
    'fetch': ['found', 'none'],
    'scan': ['going', 'rows'],
    'go': ['going', 'rows'],
    'insert': ['done', 'duplicate'],
    'delete': ['deleted', 'absent'],
    'update': ['updated', 'absent'],
    'commit': ['committed'],
    'abort': [],
    'back': ['undone'],
}
ENDS = ['commit', 'abort', 'back']  # what requests no locks
NUMBER, NUMBER_OR_NOT = ['found', 'going'], ['deleted', 'updated', 'undone']


class Fault(Exception):
    """The number and the name of a fault, as `6 Step`, and the line, where that is known."""


def read_line(line):
    """What a line is: ('head', opening, tests), ('order', transactions) or ('step', step, reply)."""
    value = read_json(line)
    if isinstance(value, dict):
        return read_order(value) if 'order' in value else read_head(value)
    if not (isinstance(value, list) and len(value) == 2 and is_step(value[0])):
        raise Fault('6 Step')
    if not is_reply(value[0][1], value[1]):
        raise Fault('9 Reply')
    return 'step', value[0], value[1]


def read_order(value):
    if len(value) > 1 or not is_list_of(is_txn, value['order']):
        raise Fault('4 Field')
    return 'order', value['order']


def read_head(value):
    if not is_whole(value.get('format')):
        raise Fault('4 Field')
    if value['format'] != 1:
        raise Fault('3 Format')
    if set(value) - {'format', 'opening', 'tests'} or not isinstance(value.get('opening'), list):
        raise Fault('4 Field')
    if not is_list_of(is_text, value.get('tests', [])):
        raise Fault('4 Field')
    if len(value['opening']) > MOST_PAIRS:
        raise Fault('7 TooMany')
    if not is_list_of(is_pair, value['opening']):
        raise Fault('5 Opening')
    if any(one[0] >= other[0] for one, other in itertools.pairwise(value['opening'])):
        raise Fault('5 Opening')
    return 'head', value['opening'], value.get('tests', [])


# JSON ----------------------------------------------------------------------------------------------------------------------


def read_json(line):
    try:
        value = json.loads(line.decode(), parse_int=read_whole, parse_float=read_float, parse_constant=no_json)
        json.dumps(value, ensure_ascii=False).encode()  # half of a surrogate pair is no text
    except (ValueError, RecursionError):
        raise Fault('2 NotJson') from None
    if depth(value) > DEEPEST:
        raise Fault('2 NotJson')
    return value


def read_whole(digits):
    number = int(digits) if len(digits) < 40 else -1
    return number if 0 <= number < 1 << 64 and digits[0] != '-' else read_float(digits)


def read_float(digits):
    number = float(digits)
    return number if abs(number) != float('inf') else no_json(digits)


def no_json(word):
    raise ValueError(word)


def depth(value):
    members = value if isinstance(value, list) else value.values() if isinstance(value, dict) else None
    return 0 if members is None else 1 + max(map(depth, members), default=0)


# Steps and replies ---------------------------------------------------------------------------------------------------------


def is_whole(value):
    return isinstance(value, int) and not isinstance(value, bool)


def is_txn(value):
    return is_whole(value) and value < 1 << 32


def is_list_of(test, value):
    return isinstance(value, list) and all(map(test, value))


def is_pair(value):
    return is_list_of(is_whole, value) and len(value) == 2


def is_text(value):
    return isinstance(value, str)


def is_step(value):
    if not (isinstance(value, list) and len(value) >= 2 and is_txn(value[0]) and is_text(value[1])):
        return False
    return value[1] in WORDS and len(value) == 2 + WORDS[value[1]] and all(map(is_whole, value[2:]))


def is_reply(operation, value):
    """Whether a step of this operation can have the reply."""
    if not (isinstance(value, list) and value and is_text(value[0])):
        return False
    word, behind = value[0], value[1:]
    if word == 'aborted':
        return not behind
    if word == 'blocked':
        return operation not in ENDS and (not behind or len(behind) == 1 and is_list_of(is_txn, behind[0]))
    if word not in ANSWERS[operation]:
        return False
    if word == 'rows':
        return len(behind) == 1 and is_list_of(is_pair, behind[0])
    if word in NUMBER:
        return len(behind) == 1 and is_whole(behind[0])
    if word in NUMBER_OR_NOT:
        return not behind or len(behind) == 1 and is_whole(behind[0])
    return not behind
