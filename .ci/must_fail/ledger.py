"""The ledger of refused edits, .ci/refused: which edits the prover has refused, when, and by the checksum of what."""

import hashlib
import os
from typing import NamedTuple

HEAD = """\
# {all}
# A line for each must-fail edit that the prover refused: CRATE/EDIT, the checksum of the edit with what its refusal rests on in its
# crate (.ci/must_fail/checksum.py), and the day. `.ci/edits` tries the edits whose line is missing or doesn't fit, and writes it. The
# gate tries these and one in twenty of the others; before a release and with a new kit `.ci/edits --all` tries all.
"""
NONE_TRIED = 'Not all edits have been tried in one run.'
BUCKETS = 20


class Line(NamedTuple):
    checksum: str
    day: str


class Ledger:
    def __init__(self, path):
        self.path = path
        self.all, self.lines = read(path)
        self.changes = {}  # what is to be written: a line of an edit, or None where its line is to go
        self.all_now = None  # and the sentence on all edits

    def put(self, name, line):
        self.changes[name] = line

    def drop(self, name):
        self.changes[name] = None

    def write(self):
        """Writes the changes into the file as it is by now, since another run may have written into it."""
        all_edits, lines = read(self.path)
        lines = {name: it for name, it in {**lines, **self.changes}.items() if it}
        text = HEAD.format(all=self.all_now or all_edits) + ''.join(f'{name} {it.checksum} {it.day}\n' for name, it in sorted(lines.items()))
        made = self.path.with_suffix(f'.{os.getpid()}')
        made.write_text(text)
        made.replace(self.path)

    def note_all(self, count, day, kit):
        """Notes that all edits were tried, with this kit by its KIT-ID: `rattle-kit-1 logic 0123`."""
        name, _, logic = kit.strip().partition(' ')
        self.all_now = f'All {count} edits were tried on {day} with {name} ({logic}).'

    def why_tried(self, name, checksum):
        """Why an edit with this checksum has to be tried: `new` or `changed`; '' where its line fits."""
        line = self.lines.get(name)
        return 'new' if line is None else '' if line.checksum == checksum else 'changed'


def read(path):
    """The sentence on all edits of a ledger's head, and its lines by their edits."""
    all_edits, lines = NONE_TRIED, {}
    for line in path.read_text().splitlines() if path.exists() else ():
        if line.startswith('#'):
            all_edits = line[2:] if line.endswith(').') and line.startswith('# All ') else all_edits
        elif line:
            name, *rest = line.split()
            lines[name] = Line(*rest) if len(rest) == 2 else Line('', '')  # (one that was spoilt doesn't fit)
    return all_edits, lines


def buckets_of(names):
    """In which twentieth each of these edits is. The edits of a crate stand together, since one check tries them, and reads once what
    the crate stands on."""
    def place(text):
        return hashlib.sha256(text.encode()).hexdigest()

    order = sorted(names, key=lambda it: (place(it.partition('/')[0]), place(it)))
    return {name: at * BUCKETS // len(order) for at, name in enumerate(order)}


def bucket_now(commit, ledger):
    """The twentieth that the gate tries: by the checksum of the commit, so that nobody chooses it, or that of the ledger's text where
    there is no commit."""
    return int(commit or hashlib.sha256(ledger).hexdigest(), 16) % BUCKETS
