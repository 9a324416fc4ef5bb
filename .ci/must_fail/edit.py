"""A must-fail edit: a file crates/CRATE/must-fail/NAME.edit, with lines

    file: src/x.rt     the file that is changed
    old: TEXT          a text that stands there once
    new: TEXT          what takes its place; further pairs apply to what the earlier ones made
    at: PATH           optional: the function whose proof has to fail, as a::b::Type::f, where it isn't the one that is changed
    goal: GOAL c       optional: the goal at which it has to fail, where no proof file of the function answers it; `GOAL g c` of a function
                       of types
    gone: GOAL ..      optional: no answer of the function's proof files is refused, but these are to goals that are gone
"""

import re
from pathlib import Path

from .sources import FN, ITEM, block_of, function_at, module_of


class Fault(Exception):
    """An edit that can't be read or applied."""


class Edit:
    def __init__(self, crate, path):
        self.folder, self.crate, self.path, self.name = crate, crate.name, path, f'{crate.name}/{path.stem}'
        self.changes = []  # of a file, an old text and a new one
        self.spots = []  # of each change the file, its text before that change, and where the old text stands in it
        self.functions = set()
        self.gone = set()  # goals that the changed function has no more, and its proof files answer
        self.at = None
        self.goal = None  # the goal at which it has to fail; None where it names none, or fails there for another reason
        self.given = ''  # what an answer to that goal takes
        self.left = []  # the goals that a search left open
        self.names_gone = False
        self.twin = 0  # in which copy of the function it is tried; 0 where it is tried at the function itself
        self.text = path.read_bytes()
        self.read()
        self.goal = self.goal if self.may_name() and not self.is_answered() else None
        # Whether the prover searches for the goals that have no answer.
        self.searches = not self.goal and (self.names_gone or not self.is_apart() or not self.has_answers())

    def read(self):
        file, old, texts = '', None, {}
        for line in self.text.decode().split('\n'):
            word, _, text = line.partition(':')
            text = text.removeprefix(' ')
            if word == 'file':
                file = text.strip()
                texts.setdefault(file, (self.folder / file).read_text())
            elif word == 'at':
                self.at = text.strip()
            elif word == 'gone':
                self.gone.update(text.split())
                self.names_gone = True
            elif word == 'goal':
                self.goal, _, self.given = text.strip().partition(' ')
                if not self.given:
                    raise Fault('its goal is not named as `GOAL c`')
            elif word == 'old':
                old = text
            elif word == 'new':
                texts[file] = self.change(file, texts[file], old, text)
        if not self.changes:
            raise Fault('it changes nothing')

    def change(self, file, text, old, new):
        """Notes a change with the function that it is in. Returns the file's text with it."""
        if not old or text.count(old) != 1:
            raise Fault(f'the old text is in {file} {text.count(old or "")} times, and not once')
        at = text.index(old)
        self.functions.add(function_at(file, text.split('\n'), text.count('\n', 0, at)))
        self.spots.append((file, text, at))
        self.changes.append((file, old, new))
        return text.replace(old, new)

    def search(self):
        """Has the prover search for all goals that have no answer."""
        self.goal, self.searches = None, True

    def way(self):
        """In which way it is tried: what a next try changes where this one told nothing."""
        return (self.searches, self.goal, *self.gone)

    def place(self):
        """The function whose proof has to fail, if it is known."""
        if self.at:
            return self.at
        return next(iter(self.functions)) if len(self.functions) == 1 else None

    def is_apart(self):
        """Whether it changes one function alone, and that is where it has to be refused: not what several functions share, as a
        table of constants."""
        return self.place() is not None and self.functions == {self.place()}

    def trial(self):
        """The function at which it is tried: that of `place`, or its copy."""
        return f'{self.place()}_{self.twin}' if self.twin else self.place()

    def lines(self):
        """The lines of the file that it changes first."""
        return (self.folder / self.changes[0][0]).read_text().split('\n')

    def block(self, lines):
        """Where the function stands in these lines of its file; None where it can't be copied."""
        return block_of(self.changes[0][0], lines, self.place())

    def has_copy(self):
        """Whether the function can be copied with its proof, so that this edit changes the copy."""
        lines, proofs = self.lines(), proofs_of(self.folder, self.place())
        block = self.block(lines)
        text = '\n'.join(lines[block[0] : block[1] + 1]) if block else ''
        return all(text.count(old) == 1 for _, old, _ in self.changes) and not (proofs and (proofs / 'Proof.antt').exists())

    def has_answers(self):
        """Whether the function's proof has a file that answers goals."""
        proofs = proofs_of(self.folder, self.place())
        return bool(proofs) and (proofs / 'Answers.antt').exists()

    def is_answered(self):
        """Whether the function's proof answers the goal that it names, and not by what is gone."""
        file = (proofs_of(self.folder, self.place()) or Path()) / 'Answers.antt'
        return self.goal not in self.gone and file.exists() and f'\npub {self.goal} : ' in file.read_text()

    def may_name(self):
        """Whether it can name a goal: where it is tried in a copy, and the function names no lemmas that the check tries too."""
        if not (self.is_apart() and self.has_copy()):
            return False
        lines = self.lines()
        begin, end = self.block(lines)
        return not any('#[tactic(' in it for it in lines[begin : end + 1])

    def path_of_proof(self):
        """Where the files of the function's proof stand, if it has some: of a method, in the module that declares its type."""
        *owner, name = self.place().split('::')
        if not owner or not owner[-1][0].isupper():
            return [*owner, name]
        if proofs := proofs_of(self.folder, self.place()):
            return [*proofs.relative_to(self.folder / 'proofs').parts]
        declared = re.compile(rf'^(?:pub(?:\([^)]*\))? )?(?:struct|enum) {owner[-1]}\b', re.M)
        paths = [self.changes[0][0], *sorted(str(it.relative_to(self.folder)) for it in (self.folder / 'src').rglob('*.rt'))]
        found = next((it for it in paths if declared.search((self.folder / it).read_text())), paths[0])
        return [*module_of(found), owner[-1], name]

    def binders(self):
        """What an answer to a goal of the function takes: `g c` of one of types, as a rule."""
        lines = self.lines()
        begin, _ = self.block(lines)
        owner = next((it for it in reversed(lines[:begin]) if ITEM.match(it)), '') if '::' in self.place() else ''
        head = next(it for it in lines[begin:] if FN.match(it))
        is_of_types = re.search(r'\bfn \w+<[^>]*\b[A-Z]|: (?:&\S* )?impl ', head) or re.match(r'impl<[^>]*\b[A-Z]', owner)
        return ['g c', 'c'] if is_of_types else ['c', 'g c']


def proofs_of(folder, place):
    """The folder of a function's proof in this crate, if it has files."""
    found = folder.glob(f'proofs/**/{place.replace("::", "/")}')
    return next((it for it in found if it.is_dir() and 'fn' not in it.relative_to(folder).parts), None)


def closures_of(folder, place):
    """The folder of the proofs of a function's closures in this crate, if they have files."""
    *owner, name = place.split('::')
    path = ['**', 'fn', owner[-1], name] if owner and owner[-1][0].isupper() else [*owner, 'fn', name]
    return next(folder.glob('/'.join(['proofs', *path])), None)
