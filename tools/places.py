#!/usr/bin/env python3
"""Counts the places of docs/DESIGN-PASS.md in crates/*/src, by patterns.

tools/places.py [-v] [COMMIT]     in the working tree, or as COMMIT has it; -v shows each place
"""
import os
import re
import subprocess
import sys

ROOT = os.path.dirname(os.path.dirname(os.path.abspath(__file__)))

# (point, what is counted, pattern)
PLACES = [
    (1, 'own enums with a case for a failure or for nothing',
     r'enum \w+ \{[^}]*\b(Refused|Stopped|Missing|Nothing|Unsolved|NoneSolves|None|NoPlan)\b[^}]*\}'),
    (1, 'numbers for refusals', r'refused::[A-Z_]{2,}|number: u8'),
    (1, 'numbers for marks', r'marks::[A-Z_]+ =>|marks::[A-Z_]+\.\.=marks'),
    (1, 'a flag or a size of 0 beside a value', r'pub allowed: bool|step: 0, size: 0|0 < l\.size|pub wide: usize'),
    (2, 'functions that make a refusal', r'\bfn refuse\('),
    (2, 'own copies of bytes or words', r'\bfn (copy_bytes|repeat_bytes|copy_words)\b'),
    (2, 'areas of our own, by size', r'\bfn put_(small|medium|large)\b(?=\(\s*out: &mut \[u8\],\s*marks)'),
    (2, 'the rows of a file cut out by hand', r'&file\[8\.\.middle\]'),
    (2, 'programs that write one file', r'\bfn write_(compiled|spelled|singled|planned)\b'),
    (2, 'short areas refused by hand', r'out\.len\(\) < (n|length|s\.steps) \{'),
    (2, 'numbers made of bytes', r'256 \* \(high|16777216|fn u32_of|fn u16_of'),
    (3, 'loops that are no for', r'^ *while '),
    (3, 'of them, an index counted up or down by one number', r'^ *while (?:.|\n)*?^ *\}$(?<=\})'),
    (4, 'conversions and the least or greatest of two by hand',
     r'fn (least|greatest|magnitude|times|size|u16_of|u32_of|fitting|as_word|put_u32|with_word|cap|joined)\('),
    (5, 'functions that take marks and values', r'marks: &\[u8\],\s*values: &\[u8\]'),
    (5, 'clauses that say they are rows', r'Rows marks\.now values\.now'),
    (5, 'functions that take facts, actions and preferences', r'facts: u32,\s*actions: u32,\s*preferences: u32'),
    (5, 'functions that take words, table and tree', r'words: &mut \[u64\],\s*table: &mut \[u16\],\s*tree: &mut \[u16\]'),
    (7, 'switches on which step to run', r'match family'),
]


def sources(commit):
    if commit is None:
        for folder, _, names in sorted(os.walk(os.path.join(ROOT, 'crates'))):
            if '/src' in folder and '/out/' not in folder:
                for name in sorted(names):
                    if name.endswith('.rt'):
                        path = os.path.join(folder, name)
                        yield os.path.relpath(path, ROOT), open(path).read()
        return
    names = subprocess.check_output(['git', '-C', ROOT, 'ls-tree', '-r', '--name-only', commit, 'crates'], text=True).split()
    for name in names:
        if '/src/' in name and name.endswith('.rt'):
            yield name, subprocess.check_output(['git', '-C', ROOT, 'show', f'{commit}:{name}'], text=True)


def counted(text):
    """The while loops whose last statement adds a number to the index that is tested, or takes one away."""
    for m in re.finditer(r'^( *)while (.*) \{\n((?:.*\n)*?)\1\}', text, re.M):
        names = set(re.findall(r'\b[a-z_]\w*\b', m.group(2)))
        lines = m.group(3)
        outer = [s.strip() for s in lines.split('\n') if re.match(m.group(1) + r'    \S', s)]
        for step in outer:
            found = re.fullmatch(r'(\w+) (?:\+=|-=|= \1 \+|= \1 -) \d+;', step)
            if found and found.group(1) in names:
                yield m
                break


def main():
    words = sys.argv[1:]
    shown = '-v' in words
    words = [w for w in words if w != '-v']
    commit = words[0] if words else None
    files = list(sources(commit))
    for point, what, pattern in PLACES:
        places = []
        for name, text in files:
            code = re.sub(r'//[^\n]*', '', text)
            if what.startswith('of them'):
                matches = counted(code)
            else:
                matches = re.finditer(pattern, code, re.M)
            for m in matches:
                places.append(f'{name}:{code[:m.start()].count(chr(10)) + 1}')
        print(f'{point}\t{len(places)}\t{what}')
        if shown:
            for place in places:
                print(f'\t\t{place}')


if __name__ == '__main__':
    main()
