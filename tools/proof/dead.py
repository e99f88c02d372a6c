#!/usr/bin/env python3
"""dead.py: definitions and laws that nothing reaches, each with its file and line. What is reached begins with contracts, proofs of
functions, examples and refutations, and with the names that README.md and docs/ have between backticks."""
import collections
import glob
import os
import re

ENDS = {'Answers', 'Invariants', 'Proof', 'Examples', 'DocumentExamples', 'Looked', 'Refuted'}  # files that are there to be read, not to be used
HISTORY = {'docs/LANDINGS.md', 'docs/CHANGELOG.md', 'docs/PORT.md'}
HEAD = re.compile(r'^ *(?:(?:pub|abbrev|unfoldable) )*(?:(?:data|record|ruleset) )?([^\s:(){}]+)(?: [({][^\n]*[)}])*(?: :|$)')
FROM = re.compile(r'use Rattle\.(\w+)\.(specs|proofs)((?:\.[^\s.{;]+)*)(?:\.\{([^}]*)\})?(?: as ([^\s;]+))?;?$', re.M)
GIVEN = re.compile(r'\b(\w+)::(specs|proofs)::((?:\w+::)*)([^\s,():]+)')  # what an attribute `tactic` hands to the search


def words(text):
    return set(re.split(r'[\s(){};,".@]+', re.sub(r'(?:--|//)[^\n]*', '', text)))


def blocks(path):
    """The definitions of a file, each with its line and its text; what stands in a module is its own."""
    found, depth, name = collections.OrderedDict(), [0], None
    for number, line in enumerate(open(path), 1):
        stripped = line.strip()
        if not stripped or stripped.startswith('--') or line.startswith('use '):
            continue
        indent = len(line) - len(line.lstrip())
        while indent < depth[-1]:
            depth.pop()
        if re.match(r'(pub )?module \S', stripped):
            depth.append(indent + 2)
            name = f'module {number}'
        elif indent == depth[-1] and HEAD.match(line):
            name = HEAD.match(line).group(1)
        if name:
            found.setdefault(name, [number, ''])[1] += line
    return found


def file_of(crate, kind, parts, paths):
    """The file of a module, or of the one that it stands in."""
    for size in range(len(parts), 0, -1):
        path = f'crates/{crate}/{kind}/{"/".join(parts[:size])}.antt'
        if path in paths:
            return path


def imports(path, paths):
    """What a file brings in: a name with its file and its name there, or a module with its file."""
    names, modules = {}, {}
    for crate, kind, rest, group, alias in FROM.findall(open(path).read()):
        parts = [part for part in rest.split('.') if part]
        target = file_of(crate, kind, parts, paths)
        if not group:
            modules[alias or (parts or [crate])[-1]] = target
        for word in group.split(','):
            source, _, local = word.strip().partition(' as ')
            names[local or source] = (target, source)
            modules[local or source] = file_of(crate, kind, parts + [source], paths) if source[:1].isupper() else None
    return names, modules


def unreached():
    paths = {path for part in ('specs', 'proofs') for path in glob.glob(f'crates/*/{part}/**/*.antt', recursive=True)}
    code = glob.glob('crates/*/src/**/*.rt', recursive=True)
    defined = {path: blocks(path) for path in paths}
    brought = {path: imports(path, paths) for path in [*paths, *code]}

    def uses(path, text):
        names, modules = brought[path]
        used = words(text)
        for crate, kind, parts, name in GIVEN.findall(text) if path.endswith('.rt') else ():
            yield file_of(path.split('/')[1] if crate == 'crate' else crate, kind, [part for part in parts.split('::') if part], paths), name
        for word in used:
            if word in defined.get(path, ()):
                yield path, word
            if word in names:
                yield names[word]
            for other in used & set(defined.get(modules.get(word), ())):
                yield modules[word], other

    documents = set(['README.md', *glob.glob('docs/*.md')]) - HISTORY
    cited = {word for document in documents for part in re.findall(r'`([^`\n]+)`', open(document).read()) for word in re.split(r'[\s,:/]+', part)}
    queue = [used for path in code for used in uses(path, open(path).read())]
    queue += [(path, name) for path in paths for name in defined[path]
              if os.path.basename(path)[:-5] in ENDS or name.startswith('module ') or name in cited]
    reached = set()
    while queue:
        place = queue.pop()
        if place not in reached:
            reached.add(place)
            path, name = place
            if path and name in defined[path]:
                queue += uses(path, defined[path][name][1])
    for path in sorted(paths):
        for name, (number, _) in defined[path].items():
            if (path, name) not in reached:
                yield f'{path}:{number}: {name}'


if __name__ == '__main__':
    for place in unreached():
        print(place)
