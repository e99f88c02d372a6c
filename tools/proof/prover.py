"""How rt calls the prover."""
import os
import re
import shutil

HOME = os.path.dirname(os.path.dirname(os.path.realpath(shutil.which('rt'))))
PROVER = f'{HOME}/bin/rattle'
ROW = re.compile(r'^(\w+)(?: +(staticlib))?[^:\n#]*:([^\n#]*)$', re.M)


def rows():
    """The lines of crates.txt: a crate's name, whether it is a static library, and those that it may name."""
    with open('crates.txt') as file:
        return [(name, bool(static), uses.split()) for name, static, uses in ROW.findall(file.read())]


def crates():
    """The crates of the repository, each with those that it may name."""
    return {name: uses for name, _, uses in rows()}


def below(crate):
    """The libraries of the repository that a crate stands on."""
    takes, found, todo = crates(), [], [crate]
    while todo:
        new = [name for name in takes[todo.pop()] if name in takes and name not in found]
        found += dict.fromkeys(new)
        todo += new
    return found


def root(folder):
    """The first file of a crate in a folder."""
    return next(f'src/{name}' for name in ('lib.rt', 'main.rt') if os.path.exists(f'{folder}/src/{name}'))


def library(name):
    """Where the library of a crate of the repository, as it was last proved, or of the kit stands."""
    own = os.path.abspath(f'crates/{name}/out/rlib/{name}.rlib')
    return own if name in crates() else f'{HOME}/rlibs/{name}.rlib'


def called(verb, crate, folder):
    """The command that checks or builds a crate, or a copy of it in a folder, over what rt has proved. It is to be called in that folder."""
    static = ['--crate-type', 'staticlib'] if (crate, True) in [row[:2] for row in rows()] else []
    return [
        PROVER, verb, '--crate-name', crate, root(folder),
        *(word for name in ['std', *crates()[crate]] for word in ('--extern', f'{name}={library(name)}')), '-L', f'dependency={HOME}/rlibs',
        *(word for name in below(crate) for word in ('-L', f'dependency={os.path.dirname(library(name))}')),
        '--antt-project', f'{HOME}/rattle/logic/antt-project.json', '--logic-built', f'{HOME}/logic_built', '--links', f'{crate}=', *static,
    ]
