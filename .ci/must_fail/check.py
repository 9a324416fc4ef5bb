"""A check of a crate over its libraries.

Where functions are named it proves these alone. `rt ci` has proved the others, so what the named ones call is taken by its contract:
a hole stands in place of its proof, and `loop {}` in place of its code."""

import os
import re
import shutil
import subprocess
import tempfile
import time
from pathlib import Path

from . import copies
from .said import CHECKED, STUB_FAULT
from .sources import emptied, functions_of
from .tree import PARTS, kit


class Crate:
    """A crate, its libraries, and what was proved of it."""

    def __init__(self, top, name, listed, over, log):
        self.folder, self.name, self.listed, self.over, self.log = top / 'crates' / name, name, listed, over, log
        self.room = Path(tempfile.mkdtemp(prefix='kr-edits-'))
        self.ran = 0
        self.spent = 0.0  # seconds of processor time of its checks
        self.took = {}  # seconds of processor time for which a check was at a function
        self.proved = set()  # the functions that `rt ci` has proved, by their names in a check

    def words(self):
        """The words of a check of the crate, over libraries that are built."""
        of_kit = [it for it in self.listed[self.name] if it not in self.listed]
        words = ['--crate-name', self.name, 'src/lib.rt']
        for it in ['std', *of_kit]:
            words += ['--extern', f'{it}={kit()}/rlibs/{it}.rlib']
        words += ['-L', f'dependency={kit()}/rlibs']
        for it in self.listed[self.name]:
            if it in self.listed:
                words += ['--extern', f'{it}={self.library(it)}']
        for it in self.below(self.name):
            words += ['-L', f'dependency={self.library(it).parent}']
        return [*words, '--antt-project', f'{kit()}/rattle/logic/antt-project.json', '--logic-built', f'{kit()}/logic_built', '--jobs', '1']

    def library(self, name):
        return self.over / 'crates' / name / 'out/rlib' / f'{name}.rlib'

    def below(self, name):
        """The crates below a crate, lowest first."""
        found = {}
        for it in self.listed[name]:
            if it in self.listed:
                found.update({**{low: None for low in self.below(it)}, it: None})
        return found

    def wait(self):
        """Waits until `rt ci` has proved or kept the crate, or has ended, and notes which functions it has proved."""
        while self.log:
            text = self.log.read_text(errors='replace') if self.log.exists() else ''
            there = {*re.findall(r'^rt: (\w+) (?:proved$|is kept: )', text, re.M)}
            if self.name in there or re.search(r'^\d+ passed, \d+ failed$', text, re.M):
                self.proved = {*re.findall(rf'^fn ({self.name}::[\w:]+): proved(?:, may wait)?$', text, re.M)}
                if self.name not in there or self.proved:
                    return
                break
            time.sleep(2)
        code = self.library(self.name) / 'toolchain/mir.json'  # of a proved library, as others are not built
        self.proved = {*re.findall(rf'"({self.name}::(?:\w+::)*[a-z_]\w*)"', code.read_text())} if code.exists() else set()

    def check(self, edits, only):
        """What a check of these functions, or of all, says once the edits are made; its status; and which other functions it took by
        their contracts."""
        self.ran += 1
        folder = self.room / f'{self.ran}'
        self.copy(folder)
        for edit in sorted(edits, key=lambda it: it.twin != 0):
            copies.make(edit, folder)
            copies.forget(edit, folder)
            if only:
                copies.hush(edit, folder)
        flags = [word for it in only for word in ('--only', it)]
        stubs = self.stub(folder, {*only, *(it for edit in edits for it in edit.functions if it and not edit.twin)}) if only else []
        if stubs:
            flags.append('--allow-holes')
        lines, status = self.run([kit() / 'bin/rattle', 'check', *self.words(), *flags, '--progress'], folder)
        shutil.rmtree(folder)
        faults = {f'{self.name}::{it[1].replace("/", "::")}' for it in map(STUB_FAULT.match, lines) if it}
        if not faults.isdisjoint(stubs):
            self.proved -= faults  # (of these a hole isn't taken for the proof)
            return self.check(edits, only)
        return lines, status, stubs

    def copy(self, folder):
        """Copies what a check of the crate reads."""
        for part in PARTS:
            if (self.folder / part).is_dir():
                shutil.copytree(self.folder / part, folder / part)

    def stub(self, folder, left):
        """Puts a hole in place of each proof but those of these functions, and those by hand, and leaves nothing of the code and the
        closures of a function whose proof is a hole: a check reads the code of each function that is called, and of those that it calls.
        Returns the names of the functions."""
        stubs = []
        for it in sorted(self.proved, key=lambda it: '::fn::' in it):
            at = folder / 'proofs' / '/'.join(it.split('::')[1:])
            if (at / 'Proof.antt').exists() or any(f'::{it}'.endswith(f'::{end}') for end in left):
                continue
            if any(function in stubs for function in functions_of(it)):
                shutil.rmtree(at, ignore_errors=True)
                continue
            stubs.append(it)
            put_hole(at, it)
        for path in (folder / 'src').rglob('*.rt'):
            path.write_text(emptied(str(path.relative_to(folder)), path.read_text(), stubs))
        return stubs

    def run(self, words, folder):
        """What a check prints, and its status. Notes the processor time of it, and the time of each function."""
        ran = subprocess.Popen(words, cwd=folder, stdin=subprocess.DEVNULL, stdout=subprocess.PIPE, stderr=subprocess.STDOUT, errors='replace')
        lines, before = [], 0.0
        for line in ran.stdout:
            lines.append(line.rstrip('\n'))
            if ended := CHECKED.match(line):
                now = used_by(ran.pid)
                self.took[ended[1]], before = now - before, now
        _, status, used = os.wait4(ran.pid, 0)
        self.spent += used.ru_utime + used.ru_stime
        return lines, os.waitstatus_to_exitcode(status)

    def seconds_of(self, place):
        """How long the last check of a function took; the first of a check has what comes before it, too."""
        return next((f' in {took:.0f} s' for it, took in self.took.items() if it.endswith(f'::{place}')), '')

    def drop(self):
        shutil.rmtree(self.room, ignore_errors=True)


def put_hole(folder, function):
    """Makes the proof of a function a hole of the empty type, which is printed sooner than the function's statement."""
    crate, *path = function.split('::')
    folder.mkdir(parents=True, exist_ok=True)
    for file in ('Invariants.antt', 'Answers.antt'):
        (folder / file).unlink(missing_ok=True)
    text = f'pub {path[-1]}_spec : {{M : Type 1}} → statement M\n{path[-1]}_spec = absurd ?\n'
    (folder / 'Proof.antt').write_text(f'use Rattle.{crate}.proofs.{".".join(path)}.Statement.{{statement}}\n\n{text}')


def used_by(process):
    """The seconds of processor time that a running process has taken."""
    fields = Path(f'/proc/{process}/stat').read_text().rpartition(')')[2].split()
    return (int(fields[11]) + int(fields[12])) / os.sysconf('SC_CLK_TCK')
