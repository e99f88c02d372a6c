#!/usr/bin/env python3
"""What rt ci says of edits is said of the edit: of small crates of this repository, in a folder of their own.

tests/edits.py [COUNT]     over COUNT crates (3), those with edits that have the fewest lines in them and below them

Each is tried with one of its edits, with the same edit made harmless, and with one whose text stands nowhere. The first is refused. The
second changes a comment alone: the copy is proved with it, so it is not refused, and rt ci fails. The third is bad, and rt ci passes: it
counts it in its line `rt: ok`, by which tools/passed fails. What was proved of the crates on this machine is taken.
"""
import glob
import os
import re
import shutil
import subprocess
import sys
import tempfile

TESTS = os.path.dirname(os.path.abspath(__file__))
ROOT = os.path.dirname(TESTS)
sys.dont_write_bytecode = True
sys.path[:0] = [TESTS, os.path.join(ROOT, 'tools/proof')]
os.chdir(ROOT)

import prover
from shared.expected import expect

COMMENT = {'.rt': ' /* as it was */', '.antt': ' {- as it was -}'}


def read(path):
    with open(path) as file:
        return file.read()


def write(path, text):
    os.makedirs(os.path.dirname(path), exist_ok=True)
    with open(path, 'w') as file:
        file.write(text)


def edits(crate):
    return sorted(glob.glob(f'crates/{crate}/must-fail/*.edit'))


def lines(crate):
    """How many there are in a crate and in those below it."""
    return sum(read(path).count('\n') for name in [crate, *prover.below(crate)] for part in ('src', 'specs', 'proofs')
               for path in glob.glob(f'crates/{name}/{part}/**/*.*t*', recursive=True) if os.path.isfile(path))


def harmless(edit):
    """An edit with a comment after the text that it would change."""
    path, old = (re.search(f'^{word}: (.*)$', edit, re.M)[1] for word in ('file', 'old'))
    return f'file: {path}\nold: {old}\nnew: {old}{COMMENT[os.path.splitext(path)[1]]}\n'


def unapplied(edit):
    """An edit whose text stands nowhere."""
    path = re.search('^file: (.*)$', edit, re.M)[1]
    return f'file: {path}\nold: a text that stands nowhere\nnew: another\n'


def tree(folder, crates):
    """A repository of some crates and those below them, without their edits."""
    names = {name for crate in crates for name in [crate, *prover.below(crate)]}
    write(f'{folder}/crates.txt', ''.join(line for line in read('crates.txt').splitlines(True) if re.split(r'[ :]', line)[0] in names))
    if os.path.exists('HANDLES'):
        shutil.copy('HANDLES', folder)
    for name in names:
        for part in ('src', 'specs', 'proofs'):
            if os.path.isdir(f'crates/{name}/{part}'):
                shutil.copytree(f'crates/{name}/{part}', f'{folder}/crates/{name}/{part}')


def ci(folder):
    """How rt ci ends in a folder, and what it writes."""
    run = subprocess.run(['rt', 'ci'], cwd=folder, stdout=subprocess.PIPE, stderr=subprocess.STDOUT, text=True, errors='replace')
    return run.returncode, run.stdout


def passed(place, log):
    """What tools/passed says of a log."""
    write(f'{place}/log', log)
    return subprocess.run(['tools/passed', f'{place}/log'], stdout=subprocess.PIPE, stderr=subprocess.STDOUT, text=True).stdout


def main(count='3'):
    crates = sorted((crate for crate in prover.crates() if edits(crate)), key=lines)[:int(count)]
    with tempfile.TemporaryDirectory() as place:
        folder = f'{place}/tree'
        tree(folder, crates)
        for crate in crates:
            first = read(edits(crate)[0])
            for name, text in [('first', first), ('harmless', harmless(first)), ('unapplied', unapplied(first))]:
                write(f'{folder}/crates/{crate}/must-fail/{name}.edit', text)
        status, said = ci(folder)
        for crate in crates:
            for name, words in [('first', 'refused, as it must be'), ('harmless', 'NOT REFUSED'), ('unapplied', 'BAD EDIT')]:
                expect(f'{crate}: {name}', (words, re.findall(f'^rt: must-fail {crate}/{name}.edit: {words}', said, re.M) != []), (words, True))
        expect('rt ci, with edits that are not refused', (status, said.splitlines()[-1].split(', ')[-1]), (1, f'{len(crates)} failed'))
        expect('what is said of it', passed(place, said), "rt ci's last line is not 'N passed, 0 failed'\n")

        for crate in crates:
            os.remove(f'{folder}/crates/{crate}/must-fail/harmless.edit')
        status, said = ci(folder)
        expect('rt ci, with edits that are bad', (status, said.splitlines()[-1].split(', ')[-1]), (0, '0 failed'))
        expect('what is said of it', passed(place, said), f'must-fail edits that are bad: {len(crates)}\n')

        for crate in crates:
            os.remove(f'{folder}/crates/{crate}/must-fail/unapplied.edit')
        status, said = ci(folder)
        expect('rt ci, with edits that are refused', (status, passed(place, said)), (0, ''))
    print(f'{", ".join(crates)}: an edit is refused, without what it changes the crate is proved, and a bad one fails the gate')


if __name__ == '__main__':
    if len(sys.argv) > 2:
        sys.exit(__doc__)
    main(*sys.argv[1:])
