#!/usr/bin/env python3
"""What the documents cite: files, names in them, edits, tests and headings. Each has to be there.

tools/cited.py             says how many citations there are, and which edits docs/ASSURANCE.md doesn't name
tools/cited.py --check     fails where something that is cited is not there

docs/ASSURANCE.md cites in one form, a code span `PATH: NAME, NAME` or `PATH`. A path begins at the root, or with a crate and is then
without its ending: `task/specs/Check: check`, `task/src/lib: check`, `plan/must-fail: rule_zero`, `tests/check/vectors.py: values`. A
name is declared in its file, or is the label of an edit in its folder. Three of its sections say more:
- Entries: every function for C stands there, and no function that does has `requires`;
- Required forms by place: the code beside a function stands in that function;
- C functions: each program stands there.
The other documents cite as text: a crate's file, `NAME` before its file, crate::name, crate/edit, and the tables with a column `file`.
Links lead to files and headings. docs/LANDINGS.md and docs/PORT.md say how things were, and are left out. include/ has the numbers of the definitions.
"""
import glob
import os
import re
import sys

ROOT = os.path.dirname(os.path.dirname(os.path.abspath(__file__)))
ASSURANCE, HISTORY = 'docs/ASSURANCE.md', ('docs/LANDINGS.md', 'docs/PORT.md')
CRATES = sorted(os.listdir(os.path.join(ROOT, 'crates')))
CRATE = '(?:' + '|'.join(sorted(CRATES, key=len, reverse=True)) + ')'
PART = rf'(?<![\w/])(?:crates/)?{CRATE}/(?:specs|proofs|src|must-fail)(?:/[\w-]+)*'
SPAN = re.compile(r'`([^`\n]+)`')
CITATION = re.compile(r'(?P<path>[\w.-]+(?:/[\w.-]+)+)(?:: (?P<names>.+))?')
NAMED = re.compile(rf'((?:`[^`\n]+`(?:, | and ))*`[^`\n]+`)(?:, | \()({PART})')
EDIT = re.compile(rf'(?<![\w/.])({CRATE})/([a-z0-9_]+)(?![\w/.-])')
ITEM = re.compile(r'`((?:\w+::)+)(\w+)')
LINK = re.compile(r'\]\(([^)\s]+)\)')
HEADER = re.compile(r'([\w-]+) in ((?:crates/[\w/]+\.antt(?:, | and )?)+)')
GROUP = re.compile(r'\([^(){}]*\)|\{[^(){}]*\}')


def text_of(path):
    with open(os.path.join(ROOT, path)) as file:
        return file.read()


def listed(pattern):
    return sorted(os.path.relpath(path, ROOT) for path in glob.glob(os.path.join(ROOT, pattern)))


def found(path):
    """The file or the folder that a path names, if there is one."""
    for whole in [path, f'crates/{path}', f'crates/{path}.antt', f'crates/{path}.rt', f'{path}.antt', f'{path}.rt']:
        if os.path.exists(os.path.join(ROOT, whole)):
            return whole
    return None


def declared_in_antt(text):
    """Names before a colon: definitions, laws, constructors and fields; and the rows of a table of attacks."""
    names = set(re.findall(r'\battack (\S+)', text))
    for line in text.split('\n'):
        bare = line.strip()
        while GROUP.search(bare):
            bare = GROUP.sub('', bare)
        before, colon, _ = bare.partition(' : ')
        words = before.split()
        while words and words[0] in ('abbrev', 'unfoldable', 'pub', 'data', 'record'):
            words.pop(0)
        if colon and words and not {'let', 'use', '--', '=', '→', 'λ'} & set(words):
            names.update(words)
    return names


DECLARED = {
    '.antt': declared_in_antt,
    '.rt': lambda text: set(re.findall(r'\b(?:fn|struct|enum|trait|type|const|mod) (\w+)', text)),
    '.rs': lambda text: set(re.findall(r'\bfn (\w+)', text)),
    '.py': lambda text: {name for names in re.findall(r'^(?:def |class )(\w+)|^(\w+)(?:, \w+)* = ', text, re.M) for name in names},
}


def names_in(path):
    """The names that a file declares; of another file all its words, of a folder the names of its files, or the edits in it."""
    if os.path.isdir(os.path.join(ROOT, path)):
        inside = [os.path.join(path, name) for name in os.listdir(os.path.join(ROOT, path))]
        return {os.path.basename(name)[:-5] for name in inside if name.endswith('.edit')}.union(
            *(names_in(name) for name in inside if name.endswith(('.antt', '.rt'))))
    declared = DECLARED.get(os.path.splitext(path)[1], lambda text: set(re.findall(r'\w+', text)))
    return declared(text_of(path))


def body(path, name):
    """The text of a function or a constant of a .rt file."""
    match = re.search(rf'^[^\n]*\b(?:fn|const|struct|enum) {name}\b.*?^[\])}}];?$', text_of(path), re.M | re.S)
    return match.group(0) if match else ''


def contract(path, name):
    return body(path, name).split('\n{')[0]


def headings(path):
    """The anchors of a document's headings."""
    lines = re.findall(r'^#+ (.+)$', re.sub(r'^```.*?^```', '', text_of(path), flags=re.M | re.S), re.M)
    return {re.sub(r'[^\w\- ]', '', line.lower()).replace(' ', '-') for line in lines}


class Citations:
    """The citations of a document, and what is wrong with them."""

    def __init__(self, path):
        self.path, self.text, self.count, self.wrong = path, text_of(path), 0, []

    def say(self, at, why):
        self.wrong.append(f'{self.path}:{self.text.count(chr(10), 0, at) + 1}: {why}')

    def cite(self, at, path, names=()):
        """A path, and the names in it."""
        self.count += 1
        whole = found(path)
        if whole is None:
            return self.say(at, f'no {path}')
        known = names_in(whole) if names else ()
        for name in names:
            self.count += 1
            if name not in known:
                self.say(at, f'no {name} in {whole}')

    def links(self):
        for match in LINK.finditer(self.text):
            to, _, anchor = match.group(1).partition('#')
            if to.startswith('http'):
                continue
            self.count += 1
            path = os.path.normpath(os.path.join(os.path.dirname(self.path), to)) if to else self.path
            if not os.path.exists(os.path.join(ROOT, path)):
                self.say(match.start(), f'no {path}')
            elif anchor and anchor not in headings(path):
                self.say(match.start(), f'no heading {anchor} in {path}')

    def as_text(self):
        """Crates' files, names beside them, items and edits, wherever they stand."""
        for match in re.finditer(PART, self.text):
            self.cite(match.start(), match.group(0))
        for match in NAMED.finditer(self.text):
            self.cite(match.start(), match.group(2), [name for name in SPAN.findall(match.group(1)) if re.fullmatch(r'[\w-]+', name)])
        for match in EDIT.finditer(self.text):
            if match.group(2) not in ('specs', 'proofs', 'src'):
                self.cite(match.start(), f'{match.group(1)}/must-fail', [match.group(2)])
        for match in ITEM.finditer(self.text):
            self.count += 1
            first, *_ = match.group(1).split('::')
            sources = listed(f'crates/{first}/src/*.rt') or listed(f'crates/*/src/{first}.rt')
            if not any(match.group(2) in names_in(path) for path in sources):
                self.say(match.start(), f'no {match.group(0)[1:]}')

    def tables(self):
        """Tables with a column `file`: `NAME`s in the column before it are declared in one of its files."""
        for table in re.finditer(r'^\|.*\n\|[-|]+\n(?:\|.*\n)+', self.text, re.M):
            heads, _, *rows = [[cell.strip() for cell in line.strip('|').split('|')] for line in table.group(0).splitlines()]
            if 'file' not in heads:
                continue
            column, at = heads.index('file'), table.start()
            for cells in rows:
                files, folder = [], ''
                for path in re.split('[,;] ', cells[column]):
                    folder = os.path.dirname(path) or folder
                    files.append(f'{folder}/{os.path.basename(path)}')
                names = SPAN.findall(cells[column - 1]) if column else []
                if re.fullmatch(PART, files[0]):
                    for path in files:
                        self.cite(at, path)
                    known = set().union(*(names_in(found(path)) for path in files if found(path)))
                    for name in names:
                        self.count += 1
                        if name not in known:
                            self.say(at, f'no {name} in {cells[column]}')

    def numbers(self, name):
        """Refusals and limits by name, as `name` finds them: their numbers are those of the definitions, and no refusal is left out."""
        specs = [text_of('crates/task/specs/Refused.antt'), text_of('crates/task/specs/Limits.antt') + text_of('crates/searching/specs/Limits.antt')]
        refusals, limits = (dict(re.findall(r'^([A-Z_]+) = (\d+)$', text, re.M)) for text in specs)
        given = {label: number.replace('_', '') for label, number in name.findall(self.text)}
        self.count += len(given)
        for label, number in {**refusals, **{label: limits[label] for label in limits if label in given}}.items():
            if given.get(label) != number:
                self.say(0, f'{label} is {given.get(label)}, and {number} in the definitions')

    def header(self):
        """A comment in C: a name in crates' files."""
        self.text = re.sub(r'\n \*', '', self.text)
        for match in re.finditer(r'crates/[\w/]+\.antt', self.text):
            self.cite(match.start(), match.group(0))
        for match in HEADER.finditer(self.text):
            for path in re.findall(r'crates/\S+\.antt', match.group(2)):
                self.cite(match.start(), path, [match.group(1)])

    def section(self, heading):
        """A section, and where it begins."""
        match = re.search(rf'^## {heading}\n(.*?)(?=^## |\Z)', self.text, re.M | re.S)
        return (match.group(1), match.start(1)) if match else ('', 0)

    def assurance(self):
        """The one form, and what three sections say beside it."""
        for match in SPAN.finditer(self.text):
            if '/' in match.group(1):
                form = CITATION.fullmatch(match.group(1))
                if form is None:
                    self.say(match.start(), f'no citation: {match.group(1)}')
                else:
                    self.cite(match.start(), form['path'], form['names'].split(', ') if form['names'] else ())
        entries, at = self.section('Entries')
        cited = [(form['path'], name) for form in map(CITATION.fullmatch, SPAN.findall(entries)) if form and '/src/' in form['path']
                 for name in form['names'].split(', ')]
        for path, name in cited:
            if 'requires' in contract(found(path) or ASSURANCE, name):
                self.say(at, f'{name} of {path} has requires')
        for name in re.findall(r'pub extern "C" fn (\w+)', text_of('crates/route_rules/src/lib.rt')):
            if ('route_rules/src/lib', name) not in cited:
                self.say(at, f'no row for {name}')
        forms, at = self.section('Required forms by place')
        for row in re.findall(r'^\|.*`.*$', forms, re.M):
            places, codes = [], []
            for span in SPAN.findall(row):
                form = CITATION.fullmatch(span)
                places += [(form['path'], name) for name in form['names'].split(', ')] if form and '/src/' in form['path'] else []
                codes += [] if form else [span]
            code = ''.join(body(found(path) or ASSURANCE, name) for path, name in places)
            for span in codes:
                self.count += 1
                if span not in code:
                    self.say(at, f'no {span} in {", ".join(name for _, name in places)}')
        programs, at = self.section('C functions')
        for path in listed('crates/*/src/main.rt'):
            crate = path.split('/')[1]
            if not crate.endswith('_vectors') and not re.search(rf'^\|[^|]*\b{crate}\b', programs, re.M):
                self.say(at, f'no program {crate}')


def documents():
    return [path for path in ['README.md', 'tests/README.md', *listed('docs/*.md')] if path not in HISTORY]


def all_citations():
    for path in documents():
        of = Citations(path)
        of.links()
        if path == ASSURANCE:
            of.assurance()
        else:
            of.as_text()
            of.tables()
        yield of
    header, module = Citations('include/route_rules.h'), Citations('include/route_rules.rs')
    header.numbers(re.compile(r'\bROUTE_RULES_(?:REFUSED_)?([A-Z_]+)(?: =)? (\d+)'))
    header.header()
    module.numbers(re.compile(r'pub const ([A-Z_]+): \w+ = ([\d_]+);'))
    yield from (header, module)


def unnamed():
    """The edits that docs/ASSURANCE.md doesn't name."""
    cited = {(form['path'], name) for form in map(CITATION.fullmatch, SPAN.findall(text_of(ASSURANCE))) if form and form['names']
             for name in form['names'].split(', ')}
    edits = [path.split('/') for path in listed('crates/*/must-fail/*.edit')]
    return [f'{crate}/{label[:-5]}' for _, crate, _, label in edits if (f'{crate}/must-fail', label[:-5]) not in cited]


def main(option=None):
    citations = list(all_citations())
    wrong = [line for of in citations for line in of.wrong]
    if wrong:
        sys.exit('\n'.join(wrong))
    print(f'{sum(of.count for of in citations)} citations in {len(citations)} documents: all are there')
    if option is None:
        print('edits that are not named:', ', '.join(unnamed()) or 'none')


if __name__ == '__main__':
    if sys.argv[1:] not in ([], ['--check']):
        sys.exit(__doc__)
    main(*sys.argv[1:])
