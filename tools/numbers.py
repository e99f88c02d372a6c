#!/usr/bin/env python3
"""How large it is: crates, functions, lines of code, definitions and proofs, laws and edits.

tools/numbers.py           prints them as a table
tools/numbers.py --write   puts the table into docs/ASSURANCE.md, between `<!-- numbers -->` and `<!-- end -->`

Blank lines, comments, and lines that only name what a file uses are not counted.
"""
import glob
import os
import re
import sys

ROOT = os.path.dirname(os.path.dirname(os.path.abspath(__file__)))
DOCUMENT = os.path.join(ROOT, 'docs', 'ASSURANCE.md')
PASSED = re.compile(r'\s*(--|//|use |ghost use |mod |pub mod |pub use |$)')


def files(pattern):
    return sorted(glob.glob(os.path.join(ROOT, 'crates', pattern), recursive=True))


def text_of(path):
    with open(path) as file:
        return file.read()


def lines(paths):
    return sum(not PASSED.match(line) for path in paths for line in text_of(path).splitlines())


def count(pattern, paths):
    return sum(len(re.findall(pattern, text_of(path), re.MULTILINE)) for path in paths)


def numbers():
    code = files('*/src/**/*.rt')
    definitions = files('*/specs/**/*.antt')
    answers = [path for name in ('Invariants', 'Answers', 'Proof') for path in files(f'*/proofs/**/{name}.antt')]
    laws = [path for path in files('*/proofs/**/*.antt') if path not in answers]
    of_code, of_proofs = lines(code), lines(answers) + lines(laws)
    return [
        ('crates', len(files('*'))),
        ('functions, each proved', count(r'^\s*(?:pub(?:\(crate\))? )?(?:extern "C" )?fn \w', code)),
        ('entries for C', count(r'extern "C" fn', code)),
        ('lines of code, contracts among them', of_code),
        ('lines of definitions', lines(definitions)),
        ('lines of laws', lines(laws)),
        ('lines of proofs of functions', lines(answers)),
        ('lines of proof for a line of code', f'{of_proofs / of_code:.1f}'),
        ('laws that other files use', count(r'^\s*pub [\w\'-]+ :', laws)),
        ('must-fail edits', len(files('*/must-fail/*.edit'))),
    ]


def table():
    cells = [f'| {name} | {value:,} |' if isinstance(value, int) else f'| {name} | {value} |' for name, value in numbers()]
    return '\n'.join(['| | |', '| --- | --- |', *cells])


def main():
    made = table()
    if sys.argv[1:] == ['--write']:
        text, parts = re.subn(r'(?s)(<!-- numbers -->\n).*?(<!-- end -->)', lambda found: f'{found[1]}{made}\n{found[2]}', text_of(DOCUMENT))
        if parts != 1:
            sys.exit(f'{DOCUMENT} has no part for the numbers')
        with open(DOCUMENT, 'w') as file:
            file.write(text)
    print(made)


if __name__ == '__main__':
    main()
