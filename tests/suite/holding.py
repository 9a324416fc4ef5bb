"""What the comparisons of programs that take a table share."""

import pathlib

TOP = pathlib.Path(__file__).resolve().parents[2]


class Wrong(Exception):
    """Something doesn't hold: its text says what."""


def expect(holds, said):
    if not holds:
        raise Wrong(said)


def file_of(word):
    """The file of the table that a word names."""
    if not word.startswith('@'):
        return pathlib.Path(word)
    return next(it for it in (TOP / 'tables').glob(f'**/{word[1:]}.toml'))
