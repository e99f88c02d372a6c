#!/usr/bin/env python3
"""unused.py [CRATE...] [--write]: names in `use` groups of definitions, proofs and contracts that their file does not use, in the
named crates or in all. With --write they are taken out. A use of code in a .rt file is left alone: the compiler looks at those. In a
crate that is proved `rt tidy` does the same, by what the check read."""
import glob
import re
import sys

GROUP = re.compile(r'^((?:ghost )?use )([^{};\n]+)\.\{([^}\n]*)\}(;?)\n', re.M)
EDGE = r'[\s(){};,.@]'
PARTS = ('src/**/*.rt', 'specs/**/*.antt', 'proofs/**/*.antt')  # and nothing of out/


def uses(text, name):
    if '◌' in name:  # an operator: its parts stand between what it joins
        return name in text or all(part in text for part in name.split('◌') if part)
    return re.search(f'(?:^|{EDGE}){re.escape(name)}(?:{EDGE}|$)', text) is not None


def pruned(path, old):
    """The text without its unused names, and these."""
    body = re.sub(r'(^|[\s(){}])--[^\n]*|//[^\n]*', r'\1', GROUP.sub('', old))
    found = []

    def kept(match):
        head, module, group, end = match.groups()
        if path.endswith('.rt') and not head.startswith('ghost'):
            return match.group(0)
        names = [name.strip() for name in group.split(',')]
        used = [name for name in names if uses(body, name.split(' as ')[-1].strip())]
        found.extend(f'{module}.{name}' for name in names if name not in used)
        return f'{head}{module}.{{{", ".join(used)}}}{end}\n' if used else ''

    return GROUP.sub(kept, old), found


def main():
    crates = [word for word in sys.argv[1:] if word != '--write'] or ['*']
    for path in sorted(path for crate in crates for kind in PARTS for path in glob.glob(f'crates/{crate}/{kind}', recursive=True)):
        with open(path) as file:
            old = file.read()
        new, found = pruned(path, old)
        for name in found:
            print(f'{path}: {name}')
        if new != old and '--write' in sys.argv:
            with open(path, 'w') as file:
                file.write(new)


if __name__ == "__main__":
    main()
