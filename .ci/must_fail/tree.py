"""The crates and edits of the repository."""

import functools
import subprocess
from pathlib import Path

from .edit import Edit, Fault

TOP = Path(__file__).resolve().parents[2]
PARTS = ['src', 'specs', 'proofs']


@functools.cache
def kit():
    """The folder of the Rattle kit."""
    return Path(subprocess.run(['rt', 'doc'], capture_output=True, text=True, check=True).stdout.strip()).parent


def crates_of(text):
    """The crates of crates.txt: of each those that it stands on."""
    listed = {}
    for line in text.splitlines():
        head, colon, below = line.partition('#')[0].partition(':')
        if colon:
            listed[head.split()[0]] = below.split()
    return listed


def names_of(top):
    """The files of all edits by their names, CRATE/EDIT."""
    return {f'{it.parent.parent.name}/{it.stem}': it for it in sorted((top / 'crates').glob('*/must-fail/*.edit'))}


def is_one_of(name, names):
    """Whether an edit is named, or its crate."""
    return name in names or name.partition('/')[0] in names


def edits_of(paths):
    """These edits by their crates, and the faults of those that can't be read."""
    found, faults = {}, {}
    for name, path in paths.items():
        crate = path.parent.parent
        try:
            found.setdefault(crate.name, []).append(Edit(crate, path))
        except (Fault, OSError, KeyError) as fault:
            faults[name] = f'BAD EDIT: {fault}'
    return found, faults
