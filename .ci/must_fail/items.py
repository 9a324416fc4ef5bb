"""The items of a crate, each with its text and the names by which others name it.

An item of src/ is a function (by others it is read up to its body: that is its contract), a type, a trait with its functions, a const, a
macro, what an impl has beside functions (it counts to its type), or what `pub use` hands on. An item of specs/ is a file, with what it
defines. Comments count to nothing. An item takes along what its file imports under names that stand in it."""

import functools
import re
from typing import NamedTuple

from .sources import without_generics

# Strings and characters, and comments: what looks like the one within the other isn't it.
RUST_TOKEN = re.compile(r'r(#*)".*?"\1|"(?:\\.|[^"\\])*"|\'(?:\\(?:u\{[^}]*\}|x..|.)|[^\'\\])\'|//[^\n]*|/\*.*?\*/', re.S)
LOGIC_TOKEN = re.compile(r'"(?:\\.|[^"\\])*"|--[^\n]*')
WORD = re.compile(r"[^\W\d][\w'-]*")
HEAD = re.compile(
    r'(?:pub(?:\([^)]*\))? )?(?:(?:ghost|unsafe|const|extern "C") )*'
    r'(fn|impl|struct|enum|union|trait|static|const|type|mod|use|macro_rules!|ghost|\w+!)(?![\w!])\s*(\w*)'
)
DEFINED = re.compile(r"(?:(?:pub|abbrev|unfoldable|record|data) )*([^\W\d][\w'-]*)|\s+(?:pub )?([^\W\d][\w'-]*) :")
OPERATOR = re.compile(r'(?:(?:pub|abbrev|unfoldable) )*[^\s:]*◌')


class Item(NamedTuple):
    kind: str
    names: frozenset  # the words that name it
    whole: str
    contract: str  # what others rest on: all of it, but of a function
    begin: int  # its lines in its file, from and to
    end: int


def plain(text, token):
    """A text without comments: of the same length, and with no line end within a string."""
    def of(found):
        if found[0].startswith(('//', '/*', '--')):
            return re.sub(r'[^\n]', ' ', found[0])
        return found[0].replace('\n', '\x01')

    return token.sub(of, text)


def squeezed(lines):
    """Lines without those that are empty, and without spaces at their ends."""
    return '\n'.join(it for it in map(str.rstrip, lines) if it)


@functools.cache
def words_of(text):
    """The words of a text; of one with hyphens also its parts."""
    found = set(WORD.findall(text))
    return found | {part for it in found for part in re.split(r"[-']", it)}


def stands_in(name, text):
    """Whether a name stands in a text, or each part of an operator."""
    return name in words_of(text) if WORD.fullmatch(name) else all(it in text for it in name.split('◌'))


def imports_of(text):
    """What an import of either language brings: of each path the name under which it stands, `*` for all."""
    text = re.sub(r'\s+', ' ', text).strip().rstrip(';')
    head, brace, rest = text.partition('{')
    if not brace:
        name = re.split(r'::|\.| as ', text)[-1].strip()
        return [(name, text)]
    parts, depth, part = [], 0, ''
    for it in rest[: rest.rindex('}')] + ',':
        depth += {'{': 1, '}': -1}.get(it, 0)
        if it == ',' and depth == 0:
            parts.append(part.strip())
            part = ''
        else:
            part += it
    own = re.split(r'::|\.| ', head.rstrip(':. '))[-1]
    return [(own if name == 'self' else name, path) for it in parts if it for name, path in imports_of(head + it)]


def type_of(impl):
    """The type of an impl, without its parameters."""
    head = re.sub(r'^impl\b', '', without_generics(re.split(r'\bwhere\b|\{', impl)[0].replace('->', '')))
    return head.partition(' for ')[2] or head


class RustFile:
    """The items of a source file."""

    def __init__(self, text):
        self.text, self.plain = text, plain(text, RUST_TOKEN)
        self.lines = self.plain.split('\n')
        self.imports = []
        self.inner = squeezed(it for it in self.lines if it.startswith('#!['))
        self.items = [it for begin, end in self.parts(0, len(self.lines), '') for it in self.items_in(begin, end)]

    def parts(self, begin, end, space):
        """The parts of these lines, from and to: each begins with its attributes, and goes on to the next at the same depth."""
        starts, has_head = [], True
        for at in range(begin, end):
            line = self.lines[at].removeprefix(space)
            is_attribute = line.startswith('#[')
            if self.lines[at].startswith(space) and (is_attribute or HEAD.match(line)):
                if has_head:
                    starts.append(at)
                has_head = not is_attribute
        return list(zip(starts, [*starts[1:], end]))

    def head_of(self, begin, end, space=''):
        """The line at which an item begins behind its attributes, and what it is; None where there is no such line."""
        for at in range(begin, end):
            line = self.lines[at]
            if line.startswith(space) and (found := HEAD.match(line.removeprefix(space))):
                return at, found
        return begin, None

    def items_in(self, begin, end):
        at, head = self.head_of(begin, end)
        text = squeezed(self.lines[begin:end])
        if head is None:
            return []
        if head[1] == 'fn':
            return [self.function(begin, end, '', '')]
        if head[1] == 'impl':
            return self.items_of_impl(begin, end, at)
        if head[1] == 'use':
            found = imports_of(re.sub(r'^.*?\buse ', '', text))
            self.imports += found
            is_public = text.startswith('pub')
            return [Item('use', frozenset([name]), path, path, begin, end) for name, path in found if is_public]
        names = {head[2]}
        if head[1] == 'trait':
            names |= {it[2] for it in map(HEAD.match, map(str.strip, self.lines[at:end])) if it and it[1] == 'fn'}
        elif head[1].endswith('!') and head[1] != 'macro_rules!':
            names = words_of(text)
        return [Item(head[1], frozenset(names), text, text, begin, end)]

    def items_of_impl(self, begin, end, at):
        """What an impl has beside functions, and its functions, each under the first lines of the impl."""
        closes = next((it for it in range(at + 1, end) if self.lines[it].startswith('}')), end)
        parts = self.parts(at + 1, closes, '    ')
        first = parts[0][0] if parts else closes
        above = squeezed(self.lines[begin:first])
        kinds = [(self.head_of(*it, '    ')[1], it) for it in parts]
        functions = [it for head, it in kinds if head and head[1] == 'fn']
        others = [line for head, it in kinds if it not in functions for line in self.lines[it[0] : it[1]]]
        text = squeezed([above, *others])
        own = Item('impl', frozenset(words_of(type_of('\n'.join(self.lines[at:first])))), text, text, begin, end)
        return [*(self.function(*it, '    ', above) for it in functions), own]

    def function(self, begin, end, space, above):
        at, head = self.head_of(begin, end, space)
        opens = next((it for it in range(at, end) if self.opens_body(self.lines[it], space)), end)
        return Item(
            'fn',
            frozenset([head[2]]),
            squeezed([above, *self.lines[begin:end]]),
            squeezed([above, *self.lines[begin : opens + 1]]),
            begin,
            end,
        )

    def opens_body(self, line, space):
        return line.startswith(space) and not line.startswith(space + ' ') and line.rstrip().endswith(('{', '{}'))

    def item_at(self, at):
        """The innermost item that has this place of the text."""
        line = self.plain.count('\n', 0, at)
        return next((it for it in self.items if it.begin <= line < it.end), None)

    def with_imports(self, text):
        """A text with what the file imports under names that stand in it."""
        return '\n'.join([text, *sorted({path for name, path in self.imports if name == '*' or stands_in(name, text)})])


class LogicFile:
    """A file of specs/ or proofs/: its text, and what it defines."""

    def __init__(self, path):
        self.stem = path.stem
        self.text = squeezed(plain(path.read_text(), LOGIC_TOKEN).split('\n'))

    @functools.cached_property
    def names(self):
        lines = [it for it in self.text.split('\n') if not re.match(r'(pub )?(mod|use) ', it)]
        names = {self.stem} | {it[1] or it[2] for it in map(DEFINED.match, lines) if it}
        # (An operator is no word: its file counts as named wherever anything is imported.)
        return names | {'Rattle'} if any(OPERATOR.match(it) for it in lines) else names
