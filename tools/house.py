#!/usr/bin/env python3
"""house.py [FOLDER]: the rules of this house that a script can tell, over the crates below a folder (this repository). It prints each
place that breaks one, and fails where there is any. docs/PROOFS.md has the reasons."""
import glob
import itertools
import os
import re
import sys

sys.path.insert(0, os.path.join(os.path.dirname(os.path.abspath(__file__)), 'proof'))
import dead
import unused

PARAMETERS, ARGUMENTS, LINES, WIDTH, CHAIN = 8, 6, 40, 160, 6
PROOFS = ('Invariants.antt', 'Answers.antt', 'Proof.antt')  # of a function: what says first what is proved
# Limits that no width of a number is. Where one has its name is told by `const` or by the name alone on the left.
LIMITS = re.compile(r'(?<![\w.^])(1023|1024|2048|4096|12000|12001|60008|262144)(?!\w)')
NAMING = re.compile(r'\bconst [A-Z_]+:|^[A-Z_]+ = ')
FUNCTION = re.compile(r'^( *)(?:pub(?:\(\w+\))? )?(?:extern "C" )?fn (\w+)(?:<[^>]*>)?\(([^)]*)\)((?:[^{}]|\{[^\n].*?\})*?)(?<=[\n ])\{\n(.*?)^\1\}', re.M | re.S)
RELATION = re.compile(r'^(?:(?:pub|abbrev|unfoldable) )*(?:record )?([^\s:(]+)((?: [({][^)}]*[)}])*) : ([^\n]*Type 0)(?: where)?$', re.M)


def files(*patterns):
    return sorted(path for pattern in patterns for path in glob.glob(f'crates/*/{pattern}', recursive=True))


def read(path):
    with open(path) as file:
        return file.read()


def at(path, text, place):
    return f'{path}:{text.count(chr(10), 0, place) + 1}'


def functions():
    """No function has more parameters, lines or loops than one reads at once."""
    for path in files('src/**/*.rt'):
        text = read(path)
        for match in FUNCTION.finditer(text):
            _, name, parameters, _, body = match.groups()
            count = len([word for word in parameters.split(',') if word.strip()])
            if count > PARAMETERS:
                yield f'{at(path, text, match.start())}: {name} has {count} parameters'
            if body.count('\n') >= LINES:
                yield f'{at(path, text, match.start())}: {name} has {body.count(chr(10))} lines'
            if len(re.findall(r'^\s*(?:while|for|loop)\b', body, re.M)) > 1:
                yield f'{at(path, text, match.start())}: {name} has two loops'


def contracts():
    """No line of a contract is too long to be read as one."""
    for path in files('src/**/*.rt'):
        for match in FUNCTION.finditer(read(path)):
            for line in match.group(4).split('\n'):
                if len(line) > WIDTH:
                    yield f'{path}: {match.group(2)} has a contract line of {len(line)} characters'


def conjuncts(text):
    """The parts of a fact between its outermost ×."""
    parts, depth = [''], 0
    for sign in ' '.join(text.split()):
        depth += (sign in '([{') - (sign in ')]}')
        if sign == '×' and depth == 0:
            parts.append('')
        else:
            parts[-1] += sign
    return [part.strip() for part in parts]


def facts(kind, text):
    """The facts of a contract's clauses of a kind, each without its braces."""
    for match in re.finditer(rf'\b{kind}(?:\*)?(?: \w+)? \{{', text):
        depth, end = 1, match.end()
        while depth and end < len(text):
            depth += (text[end] == '{') - (text[end] == '}')
            end += 1
        yield text[match.end():end - 1].strip()


def contexts():
    """No two bounds stand together in the requires of two functions: they have a name."""
    first = {}
    for path in files('src/**/*.rt'):
        text = read(path)
        for match in FUNCTION.finditer(text):
            asked = [part for fact in facts('requires', match.group(4)) for part in conjuncts(fact)]
            bounds = sorted(part for part in asked if re.search(r' [≤<≡] ', part) and '→' not in part)
            for pair in itertools.combinations(bounds, 2):
                if first.setdefault(pair, match.group(2)) != match.group(2):
                    yield f'{at(path, text, match.start())}: {match.group(2)} asks {" × ".join(pair)}, as {first[pair]} does'


def relations():
    """No relation has more arguments than one can tell apart by their places."""
    for path in files('specs/**/*.antt'):
        text = read(path)
        for match in RELATION.finditer(text):
            name, groups, result = match.groups()
            count = sum(len(group.split(':')[0].split()) for group in re.findall(r'\(([^)]*)\)', groups))
            count += len(re.findall(r'→', re.sub(r'\([^()]*\)', '', result)))
            if count > ARGUMENTS:
                yield f'{at(path, text, match.start())}: {name} has {count} arguments'


def limits():
    """A limit and a refusal's number have names, in code and in definitions."""
    for path in files('src/**/*.rt', 'specs/**/*.antt'):
        for number, line in enumerate(read(path).split('\n'), 1):
            line = re.sub(r'(?:--|//).*', '', line)
            if LIMITS.search(line) and not NAMING.search(line):
                yield f'{path}:{number}: the limit {LIMITS.search(line).group(1)}'
            if re.search(r'\b[Rr]efus(?:ed|e|al)[ (]+\d', line):
                yield f'{path}:{number}: the number of a refusal'


def proofs():
    """A proof says first what it proves, names places that are far back, and answers only what the check does not find by itself."""
    edits = '\n'.join(read(path) for path in files('must-fail/*.edit'))
    for folder in sorted({os.path.dirname(path) for path in files(*(f'proofs/**/{name}' for name in PROOFS))}):
        first = next(path for path in (f'{folder}/{name}' for name in PROOFS) if os.path.exists(path))
        if not read(first).startswith('-- '):
            yield f'{first}:1: no line that says what is proved'
    for path in files('proofs/**/*.antt'):
        text = read(path)
        for match in re.finditer(r'[^\s().]+(?:\.before){%d,}' % CHAIN, text):
            if not re.search(r'= \(?$', text[:match.start()]):
                yield f'{at(path, text, match.start())}: a place far back without a name'
        for match in re.finditer(r'^(\S+) c(?: κs)? = search rules$', text, re.M):
            name = match.group(1)
            if os.path.basename(path) == 'Answers.antt':
                if not re.search(r'^pub %s : goal\.' % re.escape(name), text, re.M):
                    continue
                yield f'{at(path, text, match.start())}: {name} only searches, as the check does by itself'
            elif len(re.findall(r'(?<![\w-])%s(?![\w-])' % re.escape(name), text)) == 3 and not re.search(r'(?<![\w-])%s(?![\w-])' % re.escape(name), edits):
                yield f'{at(path, text, match.start())}: {name} only searches, and can stand in its place'


def names():
    """No name is brought in that is not used, and no law stands there that nothing reaches."""
    for path in files(*unused.PARTS):
        for name in unused.pruned(path, read(path))[1]:
            yield f'{path}: {name} is not used'
    for place in dead.unreached():
        yield f'{place} is reached by nothing'


def main():
    os.chdir(sys.argv[1] if sys.argv[1:] else os.path.join(os.path.dirname(os.path.abspath(__file__)), '..'))
    found = [place for rule in (functions, contracts, contexts, relations, limits, proofs, names) for place in rule()]
    for place in found:
        print(place)
    sys.exit(1 if found else 0)


main()
