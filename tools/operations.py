#!/usr/bin/env python3
"""Every operation the same way: the table of docs/OPERATIONS.md, whose cells are looked up in the files themselves.

tools/operations.py            writes docs/OPERATIONS.md
tools/operations.py --check    writes nothing, and fails where docs/OPERATIONS.md is another

The operations are the functions that the header declares. Both fail where a cell is empty, and say what was looked for there. A cell is
a link to the file in which it was found. Limits and refusals have to be the same numbers for C and for Rust, too.
"""
import functools
import glob
import os
import re
import sys

ROOT = os.path.dirname(os.path.dirname(os.path.abspath(__file__)))
DOCUMENT = 'docs/OPERATIONS.md'
HEADER, MODULE, LIBRARY, SPECIFICATION = 'include/route_rules.h', 'include/route_rules.rs', 'crates/route_rules/src/lib.rt', 'docs/SPECIFICATION.md'

INTRODUCTION = '''# Operations

Each operation of the library, and where what belongs to it stands: the function for C and what the header says of it, the function that it calls, whose contract it has, the function for Rust, the section of the specification, a call in each of the two examples, stored vectors by an account that is not the code, the comparison with the independent implementation, the fuzzer's call, held to plain C, and the line of the benchmark.

`tools/operations.py` makes this page by looking each of these up in its file. The gate fails where one is missing, and where this page is not what it makes.

'''


@functools.lru_cache(None)
def read(path):
    try:
        with open(os.path.join(ROOT, path)) as file:
            return file.read()
    except FileNotFoundError:
        return ''


@functools.lru_cache(None)
def code(path):
    """A file of C, Rust, Rattle or shell without its comments."""
    if path.endswith('.c') or path.endswith('.h'):
        return re.sub(r'/\*.*?\*/', '', read(path), flags=re.DOTALL)
    return re.sub(r'//.*|^\s*#(?!\[).*', '', read(path), flags=re.MULTILINE)


def files(pattern):
    return sorted(os.path.relpath(path, ROOT) for path in glob.glob(os.path.join(ROOT, pattern)))


def body(path, head):
    """A function, from its head, at the beginning of a line, to the bracket that closes it, at the beginning of another."""
    found = re.search(rf'^{head}.*?^}}', code(path), re.MULTILINE | re.DOTALL)
    return found[0] if found else ''


def link(words, path):
    return f'[{words}]({os.path.relpath(path, os.path.dirname(DOCUMENT))})'


def calls(path, name):
    return re.search(rf'(?<![\w:]){re.escape(name)}\(', code(path)) is not None


# ---- the cells: what is looked for, and a link where it is found

def for_c(name):
    """a function that the header declares and the library exports"""
    exported = re.search(rf'^#\[unsafe\(no_mangle\)\]\npub extern "C" fn route_rules_{name}\(', code(LIBRARY), re.MULTILINE)
    return exported and link(f'`route_rules_{name}`', HEADER)


def comment(name):
    """a comment of the header right before its function"""
    found = re.search(rf'/\*((?:(?!\*/).)*)\*/\nuint32_t route_rules_{name}\(', read(HEADER), re.DOTALL)
    words = found and re.split(r'[,:;.]', found[1].replace('\n *', ' '))[0].split()
    return words and link(' '.join(words[:10]) + ' ..' * (len(words) > 10), HEADER)


def called(name):
    """The function that the exported one answers by."""
    inner = re.findall(r'((?:\w+::)+\w+)\(', body(LIBRARY, rf'pub extern "C" fn route_rules_{name}\('))
    return next((call for call in inner if not call.startswith('words::')), None)


def contract(name):
    """a contract of the exported function, and a function of its own that it calls"""
    promised = re.search(r'\bensures(?: \w+)? \{', body(LIBRARY, rf'pub extern "C" fn route_rules_{name}\('))
    return promised and called(name) and link(f'`{called(name)}`', LIBRARY)


def for_rust(name):
    """a function for Rust, with a comment right before it"""
    return re.search(rf'^///.*\npub fn {name}\(', read(MODULE), re.MULTILINE) and link(f'`{name}`', MODULE)


def section(name):
    """a row in the specification's table of operations, which leads to a section that speaks of it, and a row in its table for C"""
    text, short = read(SPECIFICATION), name.removesuffix('_plan')
    row = re.search(rf'^\| \[{short}\]\(#([\w-]+)\) \|', text, re.MULTILINE)
    parts = re.split(r'^(#+) (.*)\n', text, flags=re.MULTILINE)[1:]
    for level, title, _ in zip(parts[::3], parts[1::3], parts[2::3]):
        if row and row[1] == re.sub(r'[^\w-]', '', title.lower().replace(' ', '-')):
            whole = re.split(rf'^#{{1,{len(level)}}} ', text.split(f'\n{level} {title}\n', 1)[1], flags=re.MULTILINE)[0]
            spoken = re.search(rf'\b{short}\b', f'{title} {whole}', re.IGNORECASE)
            return spoken and f'| `route_rules_{name}` |' in text and link(title, f'{SPECIFICATION}#{row[1]}')
    return None


def example(name):
    """a call in each of the two examples"""
    if calls('examples/c/belt.c', f'route_rules_{name}') and calls('examples/rust/belt.rs', f'route_rules::{name}'):
        return f'{link("C", "examples/c/belt.c")}, {link("Rust", "examples/rust/belt.rs")}'
    return None


def families(name):
    """The folders of the vectors that an operation is run on: crates whose program calls the function, or a folder of tests/ that
    tests/compare holds the library to."""
    for path in files('crates/vectors/src/*.rt'):
        if called(name) and calls(path, called(name)):
            step = rf'Family::(\w+) => run_by\(rt, \|rt, vectors\| {os.path.basename(path)[:-3]}::\w+\('  # what is handed to the loop
            family = re.search(step, code('crates/vectors/src/lib.rt'))
            yield from (os.path.relpath(main, 'crates').split('/')[0] for main in files('crates/*/src/main.rt')
                        if family and f'vectors::run(&rt, Family::{family[1]})' in code(main))
    for path in files('tests/compare/src/*.rs'):
        if re.search(rf'\bhold\("{name}",', code(path)) and run_by_compare(path, 'vectors'):
            yield f'../tests/{name}'


def vectors(name):
    """stored vectors, a script that makes them and is held to them by the gate, and what runs them"""
    found = []
    for folder in families(name):
        kept = all(os.path.exists(path) and os.path.getsize(path) for path in (
            os.path.join(ROOT, 'crates', folder, part) for part in ('data/vectors', 'stdout')))
        found += [path for path in files('tests/*/vectors.py') if kept and f"stored.main('{folder}'," in read(path)
                  and re.search(rf'^\s*{path} --check$', code('.ci/run'), re.MULTILINE)]
    return ', '.join(link(os.path.dirname(path)[6:], path) for path in found)


def run_by_compare(path, function):
    return f'{os.path.basename(path)[:-3]}::{function}(' in code('tests/compare/src/main.rs')


def comparison(name):
    """a module of tests/compare that calls it and the independent implementation of it, and is run"""
    peer = rf'\bpeer::{name}(?:::write)?\(|\btext::{name.removesuffix("_plan")}\('
    found = [path for path in files('tests/compare/src/*.rs') if calls(path, f'library::{name}') and re.search(peer, code(path))
             and run_by_compare(path, 'compare')]
    return ', '.join(link(os.path.basename(path)[:-3], path) for path in found)


def fuzzed(name):
    """a function of the fuzzer that calls it and plain C of it, and that every execution calls"""
    target = 'fuzz/target.c'
    trial = body(target, rf'static \w+ try_{name}\(')
    both = f'route_rules_{name}(' in trial and f'plain_{name}(' in trial
    every = re.search(rf'^    try_{name}\(', body(target, r'int LLVMFuzzerTestOneInput\('), re.MULTILINE)
    return both and every and f'"{name}"' in code(target) and link(f'`try_{name}`', target)


def measured(name):
    """a line of the benchmark"""
    operation = re.search(rf'(\w+) => "{name}",', code('bench/src/operations.rs'))
    line = operation and re.search(rf'\(\s*{operation[1]},\s*(?:vec!\[|\w+\(\))', body('bench/src/main.rs', r'fn lines\(\)'))
    return line and link(f'`{operation[1]}`', 'bench/src/main.rs')


# ---- the whole

def numbers():
    """Limits and refusals: names with their numbers, as the header and as the module for Rust have them."""
    for_c = re.findall(r'^#define ROUTE_RULES_(MAX_\w+) (.*?) *$', code(HEADER), re.MULTILINE)
    for_c += re.findall(r'^    ROUTE_RULES_REFUSED_(\w+) = (\d+)', code(HEADER), re.MULTILINE)
    plain = [(name, value.strip('()').replace('ROUTE_RULES_', '')) for name, value in for_c]
    for_rust = re.findall(r'^ *pub const (\w+): (?:usize|u32|u64) = (.*);', code(MODULE), re.MULTILINE)
    return sorted(plain), sorted((name, re.sub(r'(?<=\d)_(?=\d)', '', value)) for name, value in for_rust)


COLUMNS = {'for C': for_c, 'the header': comment, 'the contract': contract, 'for Rust': for_rust, 'specification': section,
           'examples': example, 'vectors': vectors, 'comparison': comparison, 'fuzzer': fuzzed, 'benchmark': measured}


def main(words):
    if words not in ([], ['--check']):
        sys.exit(__doc__)
    names = re.findall(r'^uint32_t route_rules_(\w+)\(', read(HEADER), re.MULTILINE)
    table = [[column(name) for column in COLUMNS.values()] for name in names]
    lines = [['operation', *COLUMNS], ['---'] * (1 + len(COLUMNS)), *([name, *(cell or '' for cell in cells)] for name, cells in zip(names, table))]
    made = INTRODUCTION + ''.join(f'| {" | ".join(line)} |\n' for line in lines)
    if not words:
        with open(os.path.join(ROOT, DOCUMENT), 'w') as file:
            file.write(made)
    wrong = [f'{name}: not found: {column.__doc__}' for name, cells in zip(names, table) for column, cell in zip(COLUMNS.values(), cells) if not cell]
    of_c, of_rust = numbers()
    wrong += [f'not the same for C and for Rust: {name} {value}' for name, value in sorted(set(of_c) ^ set(of_rust))]
    if made != read(DOCUMENT):
        wrong.append(f'{DOCUMENT}: not what tools/operations.py makes')
    if wrong or not names or not of_c:
        sys.exit('\n'.join(wrong) or f'{HEADER}: no operation, or no number')
    print(f'{len(names)} operations, each with {len(COLUMNS)} cells; {len(of_c)} limits and refusals')


if __name__ == '__main__':
    main(sys.argv[1:])
