"""Makes an edit in a folder with a copy of its crate, where it can in a copy of its function: a function's code is private to its
proof, and the proof of another cites its contract alone. So each edit is refused, or not, as if it were the only one."""

import re
import shutil

from .edit import closures_of, proofs_of
from .said import NOTHING
from .sources import unsearched

# What the check tries by itself at a goal without an answer, and what that names.
TRIED = 'first_of (search rules, grind (arith, common_steps))'
USES = ['use Rattle.std.proofs.Common.{rules, arith}', 'use Rattle.std.proofs.lemmas.Grind.{common_steps}']


def make(edit, folder):
    """Makes the edit; those in copies of functions come last."""
    if edit.twin:
        copy_function(edit, folder)
        copy_proofs(edit, folder)
        if edit.goal:
            answer_goal(edit, folder)
    else:
        for file, old, new in edit.changes:
            (folder / file).write_text((folder / file).read_text().replace(old, new))
    if not edit.searches:
        file = edit.changes[0][0]
        (folder / file).write_text(unsearched(file, (folder / file).read_text(), edit.trial()))


def copy_function(edit, folder):
    """Puts a changed copy of the function behind it."""
    file, name = edit.changes[0][0], edit.place().split('::')[-1]
    lines = edit.lines()
    begin, end = edit.block(lines)
    text = '\n'.join(lines[begin : end + 1])
    for _, old, new in edit.changes:
        text = text.replace(old, new)
    lines = (folder / file).read_text().split('\n')
    lines.insert(edit.block(lines)[1] + 1, '\n' + re.sub(rf'\bfn {name}\b', f'fn {name}_{edit.twin}', text, count=1))
    (folder / file).write_text('\n'.join(lines))


def copy_proofs(edit, folder):
    """Copies the proof files of the function and of its closures for its copy."""
    name = edit.place().split('::')[-1]
    proofs = [it for it in (proofs_of(folder, edit.place()), closures_of(folder, edit.place())) if it]
    modules = ['.'.join(it.relative_to(folder / 'proofs').parts) for it in proofs]
    for to in [it.with_name(f'{name}_{edit.twin}') for it in proofs]:
        shutil.copytree(to.with_name(name), to)
        for it in to.rglob('*.antt'):
            made = it.read_text()
            for module in modules:
                own = rf'\b(Rattle\.{edit.crate}\.(?:proofs|specs\.contracts)\.{re.escape(module)})(?![\w-])'
                made = re.sub(own, rf'\1_{edit.twin}', made)
            it.write_text(made)


def answer_goal(edit, folder):
    """Has the proof of the copy answer the goal that the edit names, and no other."""
    path = edit.path_of_proof()
    path[-1] += f'_{edit.twin}'
    uses = [*USES, f'use Rattle.{edit.crate}.proofs.{".".join(path)}.Goals as goal']
    file = (folder / 'proofs').joinpath(*path, 'Answers.antt')
    file.parent.mkdir(parents=True, exist_ok=True)
    file.write_text('\n'.join([*uses, f'\npub {edit.goal} : goal.{edit.goal}', f'{edit.goal} {edit.given} = {TRIED}', '']))


def forget(edit, folder):
    """Takes away the answers to goals that the edited function has no more."""
    path = '/'.join(edit.trial().split('::')) if edit.gone and not edit.goal else ''
    for file in folder.glob(f'proofs/**/{path}/Answers.antt') if path else ():
        blocks = re.split(r'\n(?=\n)', file.read_text())
        file.write_text('\n'.join(it for it in blocks if not any(re.match(rf'\s*(?:--.*\n)*pub {re.escape(name)} :', it) for name in edit.gone)))


def hush(edit, folder):
    """Adds an answer to no goal to those of the function: then a check doesn't print all over what is left to prove, which takes
    seconds. It notes each goal all the same."""
    path = [*edit.path_of_proof()[:-1], edit.trial().split('::')[-1]]
    file = (folder / 'proofs').joinpath(*path, 'Answers.antt')
    file.parent.mkdir(parents=True, exist_ok=True)
    text = f'{file.read_text()}\n' if file.exists() else ''
    goal = f'Rattle.{edit.crate}.proofs.{".".join(path)}.Goals.{NOTHING}'
    file.write_text(f'{text}pub {NOTHING} : {goal}\n{NOTHING} = absurd ?\n')
