"""The checksum of an edit with what its refusal rests on in its own crate: the edit's text; the functions that it changes and the one
that it names (`at:`) whole, or what else it changes, with their proof files; and what these name, and what that names in turn: of other
functions their contracts, other items of src/ whole, and the files of specs/ that define such a name. A word counts as naming each
item of that name. Not the lemmas of proofs/, which prove no more than is true; not the crates below, and not the kit: for a new kit all
edits are tried. It is of texts without comments and places, so that it stays where something else is moved or changed."""

import hashlib

from .items import LogicFile, RustFile, words_of
from .sources import FN, function_at, functions_of, is_named


def sum_of(texts):
    """16 digits of the checksum of these texts."""
    whole = hashlib.sha256()
    for it in texts:
        whole.update(b'%d\n' % len(it))
        whole.update(it)
    return whole.hexdigest()[:16]


class Texts:
    """The texts of a crate as they are now."""

    def __init__(self, folder):
        self.folder = folder
        self.files = {str(it.relative_to(folder)): RustFile(it.read_text()) for it in sorted((folder / 'src').rglob('*.rt'))}
        self.named = {}  # by a word the texts of what it names
        for file in self.files.values():
            for it in file.items:
                self.note(it.names, file.with_imports(it.contract))
        for it in map(LogicFile, sorted((folder / 'specs').rglob('*.antt'))):
            self.note(it.names, it.text)

    def note(self, names, text):
        for name in names:
            self.named.setdefault(name, set()).add(text)

    def sum_of(self, edit, text=None):
        """The checksum of an edit, or of one with this text in its place."""
        own = self.whole_of(edit)
        reached = self.reached_from([*own, *(new for _, _, new in edit.changes)])
        return sum_of([edit.text if text is None else text, *(it.encode() for it in own), b'', *(it.encode() for it in reached)])

    def whole_of(self, edit):
        """The texts that count whole: of what the edit changes, of the function that it names, and of their proof files."""
        roots = {it for spot in edit.spots for it in self.changed_at(*spot)}
        roots |= {*self.functions_at(edit.at)} if edit.at else set()
        texts = {it.inner for it in self.files.values()}
        texts |= {self.files[path].with_imports(it.whole) if it else (self.folder / path).read_text() for _, path, it in roots}
        names = {name for name, _, _ in roots} | edit.functions
        files = {file for name in names if name for file in proof_files(self.folder, name)}
        return sorted(texts | {f'{it.name}\n{LogicFile(it).text}' for it in files})

    def functions(self):
        """Each function of the crate: its name, its file, and its item."""
        return [(self.name_of(path, it), path, it) for path, file in self.files.items() for it in file.items if it.kind == 'fn']

    def functions_at(self, at):
        """The function of a line `at:`. Where a check calls it by what stands nowhere, each with its last name, or else all files."""
        every = self.functions()
        found = [it for it in every if is_at(it[0], at)] or [it for it in every if is_named(it[0], at.split('::')[-1])]
        return found or [(None, path, None) for path in self.files]

    def name_of(self, path, item):
        """What function_at calls a function; None of another item."""
        lines = self.files[path].lines
        at = next((at for at in range(item.begin, item.end) if FN.match(lines[at])), None) if item.kind == 'fn' else None
        return None if at is None else function_at(path, lines, at)

    def changed_at(self, path, text, at):
        """What a change is in, by its file's text before it and where it begins: as in functions(). Each item of that name, where an
        earlier change moved it; and no item, which stands for the whole file, where none is found."""
        own = self.files.get(path)
        is_moved = not own or own.text != text
        item = RustFile(text).item_at(at) if is_moved else own.item_at(at)
        found = [it for it in own.items if it is item or is_moved and item and (it.kind, it.names) == (item.kind, item.names)] if own else []
        return [(self.name_of(path, it), path, it) for it in found] or [(None, path, None)]

    def reached_from(self, texts):
        """What these texts name in the crate, and what that names in turn."""
        reached, words, left = set(), set(), list(texts)
        while left:
            new = words_of(left.pop()) - words
            words |= new
            for text in {text for word in new for text in self.named.get(word, ())} - reached:
                reached.add(text)
                left.append(text)
        return sorted(reached)


def is_at(function, at):
    """Whether a function is the one of a line `at:`, or the one of a closure there."""
    return is_named(at, function) or is_named(function, at) or any(is_named(it, function) for it in functions_of(at))


def proof_files(folder, function):
    """The proof files of a function and of its closures."""
    *owner, name = function.split('::')
    paths = [[*owner, name], [*owner, 'fn', name], ['fn', *owner, name]]
    folders = {it for path in paths for it in folder.glob('/'.join(['proofs/**', *path]))}
    return {file for it in folders for file in it.rglob('*.antt')}
