"""The functions of Rattle sources, found by their lines as `rt fmt` lays them out."""

import re

FN = re.compile(r'^\s*(?:pub(?:\([^)]*\))? )?(?:const )?(?:unsafe )?(?:extern "C" )?fn (\w+)')
ITEM = re.compile(r'^(?:pub(?:\([^)]*\))? )?(impl|struct|enum|trait|static|const|type|mod|use|macro_rules!)\b(.*)')


def without_generics(text):
    """A type or a trait without its parameters: Table of Table<P>."""
    while '<' in text:
        text, before = re.sub(r'<[^<>]*>', '', text), text
        if text == before:
            break
    return text


def owner_of(impl):
    """What a check calls the functions of an impl by: Type, or TypeTrait of an impl of a trait; KindFromFault of From<Fault>."""
    head = re.sub(r'\bwhere\b.*', '', impl).strip().rstrip('{').strip()
    if head.startswith('<'):
        depth, at = 0, 0
        for at, it in enumerate(head):
            depth += {'<': 1, '>': -1}.get(it, 0)
            if depth == 0:
                break
        head = head[at + 1 :].strip()
    trait, is_of_trait, of = head.partition(' for ')
    if not is_of_trait:
        return re.sub(r'\W', '', without_generics(trait))
    given = re.search(r'\bFrom<([\w:]+)', trait)
    name = without_generics(trait).split('::')[-1].strip() + (given[1].split('::')[-1] if given else '')
    return re.sub(r'\W', '', without_generics(of).split('::')[-1].strip()) + name


def function_at(path, lines, number):
    """The function that has this line of a source file, if one has it: module::f, or Type::f, as its type may be of another file."""
    function = None
    for at in range(number, -1, -1):
        if function is None and (found := FN.match(lines[at])):
            function = found[1]
            if not lines[at].startswith(' '):
                return '::'.join([*module_of(path), function])
        elif item := ITEM.match(lines[at]):
            if function is None or item[1] not in ('impl', 'trait'):
                return None
            owner = owner_of(item[2]) if item[1] == 'impl' else re.match(r' (\w+)', item[2])[1]
            return f'{owner}::{function}'
    return None


def is_named(name, place):
    """Whether the last parts of a function's name are these: a::b::f is named b::f."""
    return f'::{name}'.endswith(f'::{place}')


def module_of(path):
    """The modules of a source file: a, b of src/a/b.rt."""
    return [it for it in path.removeprefix('src/').removesuffix('.rt').split('/') if it not in ('lib', 'mod')]


def functions_of(closure):
    """What the function of a closure may be called: a::f or a::f::g of a::fn::f::g::closure; nothing of what is no closure."""
    module, _, rest = closure.partition('::fn::')
    names = rest.split('::')
    return [f'{module}::{"::".join(names[:count])}' for count in range(1, len(names))]


def body_at(lines, at):
    """The line at which the function begins whose body the line `at` opens, if it opens one: after `rt fmt` that is a brace alone under
    the clauses, or the end of the first lines of a function that has none."""
    if not lines[at].endswith('{'):
        return None
    space = re.match(' *', lines[at])[0]
    for begin in range(at, -1, -1):
        if lines[begin].startswith(space) and not lines[begin].startswith(space + ' '):
            if found := FN.match(lines[begin]):
                return begin if 'const' not in found[0] else None
            if begin < at and not lines[begin].strip().startswith(')'):
                return None
    return None


def emptied(path, text, names):
    """A source file without what stands in the bodies of these functions."""
    made, end = [], None
    lines = text.split('\n')
    for at, line in enumerate(lines):
        if end and line != end:
            continue
        end = None
        made.append(line)
        begin = body_at(lines, at)
        if begin is not None and any(it.endswith(f'::{function_at(path, lines, begin)}') for it in names):
            space = re.match(' *', line)[0]
            made.append(f'{space}    loop {{}}')
            end = f'{space}}}'
    return '\n'.join(made)


def head_at(lines, at):
    """The line at which what is said above a function begins: its comments and attributes."""
    space = re.match(' *', lines[at])[0]
    while lines[at - 1].startswith((f'{space}///', f'{space}#[')):
        at -= 1
    return at


def block_of(path, lines, place):
    """The lines of a function with what is said of it above, from and to; None where it can't be copied."""
    for at, line in enumerate(lines):
        if FN.match(line) and is_named(function_at(path, lines, at), place):
            space, end = re.match(' *', line)[0], at
            while lines[end] != f'{space}}}' and end + 1 < len(lines) and lines[end]:
                end += 1
            begin = head_at(lines, at)
            owner = next((it for it in reversed(lines[:at]) if space and ITEM.match(it)), 'impl')
            is_free = ITEM.match(owner)[1] == 'impl' and ' for ' not in owner
            text = '\n'.join(lines[begin : end + 1])
            return (begin, end) if is_free and lines[end] == f'{space}}}' and '#[cycle' not in text else None
    return None


def unsearched(path, text, place):
    """A source file in which nothing is searched for the goals of this function that its proof files don't answer."""
    lines = text.split('\n')
    at = next(at for at, line in enumerate(lines) if FN.match(line) and is_named(function_at(path, lines, at), place))
    space, begin = re.match(' *', lines[at])[0], head_at(lines, at)
    lines[begin:at] = [*(it for it in lines[begin:at] if not it.startswith(f'{space}#[tactic(')), f'{space}#[tactic(none)]']
    return '\n'.join(lines)
