"""The fixes that a text of kr explain tells below its causes, as changes of one entry."""

from __future__ import annotations

import re
from dataclasses import dataclass, field

CAUSE = re.compile(r'^(\d+)\. .*?\s\[((?:G\d+: \d+(?:,\s+)?)+\scases?)\]$', re.M | re.S)
END = re.compile(r'^(?:A schedule that goes wrong|No schedule that goes wrong|To replay the schedule)', re.M)
TOLD = re.compile(r'^   (?:Fix: |Or: |No fix )', re.M)
FIX = re.compile(r'(Fix|Or): (.+?)\. (The table is then accepted|The table is then safe|The cases of this cause then hold)\.(?: |$)')
WISH = re.compile(r'No fix is needed\.(?: To have (the table accepted|the table safe|its cases hold): (.+)\.)?')
NONE = 'No fix by a change of this entry alone was found.'
UNTRIED = re.compile(r'No fix was tried: fixes are tried for the first (\d+) causes\.')
CLAIMS = {'accepted': 'accepted', 'safe': 'safe', 'hold': 'mended'}  # by the last word of what is said of a fix

REQUEST = re.compile(r'in \[rules\.([a-z-]+)\], (current|next): request (?:nothing|(.+?) for (instant|commit) duration(?: where the own mode on the next (?:key|name) is (.+))?)')
CONVERSION = re.compile(r'in \[convert\], (.+)')
PAIR = re.compile(r'in \[compatible\], (.+)')
HEIR = re.compile(r'in \[purge\]: inherit (.+?) where the mode on the ghost is (.+)')


class NoText(Exception):
    """A text isn't one of kr explain: it says which part of it."""


@dataclass
class Cause:
    """What is told of a cause: its groups, with their cases; its fixes, each an edit in words and what it brings about; whether they
    are only for who wants them; and for how many causes fixes are tried, if not for this one."""

    groups: str
    fixes: list = field(default_factory=list)
    is_wish: bool = False
    most: int | None = None


@dataclass(frozen=True)
class Edit:
    """Changes of one entry, with the values that it is to have: the place of a request with its own modes, or None for all, and its
    span; a conversion's held and requested mode; a pair's requested and held one; or the modes on a ghost."""

    kind: str
    entry: tuple
    values: tuple

    def request(self, value):
        """What is requested with a value: a mode, or 0 for none."""
        return (value, self.entry[3]) if value else None


def causes_of(text):
    """The causes that a text tells."""
    heads = [*CAUSE.finditer(text)]
    if [int(it[1]) for it in heads] != [*range(1, len(heads) + 1)]:
        raise NoText('the numbers of the causes')
    ends = [*(it.start() for it in heads[1:]), len(text)]
    return [cause_of(' '.join(head[2].split()), text[head.end() : end]) for head, end in zip(heads, ends)]


def cause_of(groups, text):
    text = text[: end.start()] if (end := END.search(text)) else text
    if not (told := TOLD.search(text)):
        raise NoText(f'nothing is told of fixes of the cause of {groups}')
    said = ' '.join(it.strip() for it in text[told.start() :].strip('\n').split('\n'))
    if it := WISH.fullmatch(said):
        return Cause(groups, [(it[2], CLAIMS[it[1].split()[-1]])] if it[2] else [], is_wish=True)
    if it := UNTRIED.fullmatch(said):
        return Cause(groups, most=int(it[1]))
    if said == NONE:
        return Cause(groups)
    fixes = [*FIX.finditer(said)]
    if ''.join(it[0] for it in fixes) != said or [it[1] for it in fixes] != ['Fix', *['Or'] * (len(fixes) - 1)]:
        raise NoText(said)
    return Cause(groups, [(it[2], CLAIMS[it[3].split()[-1]]) for it in fixes])


def modes_in(words, names, is_quoted=False):
    """The modes that are listed, in their order; `names` has those of all, `none` first."""
    number = {f'"{it}"' if is_quoted else it: at for at, it in enumerate(names)}
    some = '|'.join(map(re.escape, sorted(number, key=len, reverse=True)))
    found, at = [], 0
    for it in re.finditer(f'({some})(?:, | or | and | |$)', words):
        if it.start() != at:
            break
        found, at = [*found, number[it[1]]], it.end()
    if at != len(words) or not found:
        raise NoText(f'modes: {words}')
    return tuple(found)


def pair_in(words, names, between, behind=''):
    """The two modes of a text, with this between, and what stands behind them where more may."""
    for at, one in enumerate(names):
        for to, other in enumerate(names):
            start = f'{one}{between}{other}{behind}'
            if words.startswith(start) and (behind or words == start):
                return (at, to), words[len(start) :]
    raise NoText(f'two modes: {words}')


def edit_of(words, names):
    """The edit of a table whose modes have these names, `none` first."""
    if it := REQUEST.fullmatch(words):
        owns = it[5] and modes_in(it[5], names)
        return Edit('request', (it[1], it[2], owns, it[4]), modes_in(it[3], names) if it[3] else (0,))
    if it := CONVERSION.fullmatch(words):
        entry, made = pair_in(it[1], names, ': ', ' = ')
        return Edit('conversion', entry, modes_in(made, names, True))
    if it := PAIR.fullmatch(words):
        is_added = ': add ' in it[1]
        return Edit('pair', pair_in(it[1], names, ': add ' if is_added else ': remove ')[0], (is_added,))
    if it := HEIR.fullmatch(words):
        return Edit('heir', modes_in(it[2], names), modes_in(it[1], names))
    raise NoText(words)
