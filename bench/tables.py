#!/usr/bin/env python3
"""Fills the parts of docs/PERFORMANCE.md that stand between `<!-- NAME -->` and `<!-- end -->` from the figures in target/: those of
bench/run, of fuzz/run, fuzz/coverage and fuzz/mistakes. A part whose figures are missing stays as it is.

bench/tables.py
"""
import csv
import os
import re
import subprocess

ROOT = os.path.dirname(os.path.dirname(os.path.abspath(__file__)))
DOCUMENT = os.path.join(ROOT, 'docs', 'PERFORMANCE.md')
NAMES = ['library', 'Rust', 'plain C', 'tuned C']
GOALS = {'Rust': 1.0, 'plain C': 1.3}


def figures(name):
    with open(os.path.join(ROOT, 'target', name), newline='') as lines:
        return list(csv.DictReader(lines))


def logged(name):
    with open(os.path.join(ROOT, 'target', name)) as log:
        return log.read()


def table(heading, rows):
    lines = [heading, ['---'] * len(heading), *rows]
    return '\n'.join('| ' + ' | '.join(line) + ' |' for line in lines)


def time(nanoseconds):
    if nanoseconds < 10_000:
        return f'{nanoseconds:.0f} ns'
    return f'{nanoseconds / 1e3:.1f} µs' if nanoseconds < 10_000_000 else f'{nanoseconds / 1e6:.1f} ms'


def named(text):
    """A name with its numbers in groups of three digits."""
    return re.sub(r'\d{4,}', lambda number: f'{int(number[0]):,}', text)


# ---- times and instructions

def ratio(row, name):
    """The library's time by another's; bold where it misses the goal."""
    if not row[name]:
        return ''
    value = float(row['library']) / float(row[name])
    return f'**{value:.2f}**' if misses(row, name) else f'{value:.2f}'


def misses(row, name):
    return name in GOALS and round(float(row['library']) / float(row[name]), 2) > GOALS[name]


def times():
    rows = figures('bench/times.csv')
    cells = [[row['operation'], named(row['input']), *(time(float(row[name])) if row[name] else '' for name in NAMES),
              *(ratio(row, name) for name in NAMES[1:])] for row in rows]
    kept = {name: sum(not misses(row, name) for row in rows) for name in GOALS}
    heading = ['operation', 'input', *NAMES, '/ Rust', '/ plain C', '/ tuned C']
    return (table(heading, cells) + f'\n\nOf {len(rows)} lines {kept["plain C"]} are at most 1.3 of plain C and {kept["Rust"]} at most 1.0 of the '
            'Rust; those that are not are bold.')


def instructions():
    """Those of one call by its work; bench/before.csv has the library's before its readers and writers were made faster."""
    before = {(row['operation'], row['input']): int(row['library']) for row in figures('../bench/before.csv')}
    cells = []
    for row, counts in zip(figures('bench/times.csv'), figures('bench/instructions.csv'), strict=True):
        library, rust, plain, work = int(counts['library']), int(counts['Rust']), int(counts['plain C']), int(row['work'])
        old = before.get((row['operation'], row['input']))
        cells.append([row['operation'], named(row['input']), f'{work:,} {row["of"]}', f'{old / work:.1f}' if old else '',
                      f'{library / work:.1f}', f'{rust / work:.1f}', f'{plain / work:.1f}', f'{library / rust:.2f}', f'{library / plain:.2f}'])
    return table(['operation', 'input', 'for each of', 'library before', 'library', 'Rust', 'plain C', '/ Rust', '/ plain C'], cells)


def shares():
    """Where the instructions of the lines go that miss the goal beside plain C: the three largest parts of each."""
    cells = []
    for n, (row, counts) in enumerate(zip(figures('bench/times.csv'), figures('bench/instructions.csv'), strict=True)):
        if not misses(row, 'plain C'):
            continue
        whole, plain = int(counts['library']), int(counts['plain C'])
        parts = [line.split() for line in logged(f'bench/shares/{n}').splitlines()]
        largest = sorted(((int(count.replace(',', '')), name) for count, name in parts), reverse=True)[:3]
        cells.append([row['operation'], named(row['input']), f'{whole:,}', f'{plain:,}',
                      ', '.join(f'{name} {count:,}' for count, name in largest)])
    return table(['operation', 'input', 'library', 'plain C', 'largest parts of the library'], cells)


def output(*command):
    return subprocess.run(command, capture_output=True, text=True, check=True).stdout


def machine():
    """The machine and the compilers."""
    figures('bench/times.csv')
    processor = re.search(r'model name\s*: (.*)', open('/proc/cpuinfo').read())[1]
    memory = int(re.search(r'MemTotal: *(\d+)', open('/proc/meminfo').read())[1])
    system = re.search(r'PRETTY_NAME="(.*)"', open('/etc/os-release').read())[1]
    words = [processor, f'{os.cpu_count()} virtual cores', f'{memory / 2 ** 20:.0f} GB', system,
             f'gcc {output("gcc", "-dumpfullversion").strip()} -O3', ' '.join(output('rustc', '--version').split()[:2]) + ' release',
             output('valgrind', '--version').strip().replace('-', ' ')]
    return ', '.join(words) + '.'


# ---- fuzzing

def reached(log):
    return [line.split()[1:] for line in log.split('\n') if line.startswith('reached ')]


def fuzzed():
    log = logged('fuzz/log')
    count = re.search(r'number_of_executed_units: *(\d+)', log)
    if not count:
        raise FileNotFoundError(2, 'a run that has not ended', 'end of the log')
    executions = int(count[1])
    clean = 'no finding' if not re.search('finding|ERROR', log) else 'WITH FINDINGS'
    cells = []
    for name, *numbers in reached(log):
        counts = [(number, f'{int(count):,}') for number, count in (word.split(':') for word in numbers)]
        answered = counts.pop(0)[1] if counts[0][0] == '0' else ''  # verdicts and the like have no refusals
        cells.append([name, answered, ', '.join(f'{number}: {count}' for number, count in counts)])
    return f'{executions:,} executions, {clean}. How often each operation answered, and gave each refusal; then which answers came:\n\n' + table(
        ['operation', 'answered', 'refused, by number, or which answer'], cells)


def coverage():
    total = logged('fuzz/coverage').split('TOTAL')[1].split()
    functions, lines, branches = (f'{int(total[n]) - int(total[n + 1])} of {total[n]}' for n in (3, 6, 9))
    return (f'The first inputs alone reach {functions} functions, {lines} lines and {branches} branches of the C '
            '(clang\'s source coverage, `fuzz/coverage`), every refusal of every operation, every verdict, and every outcome of a search.')


def mistakes():
    found = {}
    lines = [line.split(' | ') for line in logged('fuzz/mistakes/table').splitlines()]
    for operation, what, how in lines:
        found.setdefault(operation, []).append(what + (f' ({int(how.split()[-1]):,})' if how.startswith('found') else ' (**not found**)'))
    count = sum(how.startswith('found') for _, _, how in lines)
    first = len(os.listdir(os.path.join(ROOT, 'target', 'fuzz', 'seeds')))
    return f'{count} of {len(lines)} were found. There are {first} first inputs, which come before all others.\n\n' + table(
        ['operation', 'put in, and the execution that found it'], [[name, '; '.join(words)] for name, words in found.items()])


def main():
    text = open(DOCUMENT).read()
    for part in (machine, times, instructions, shares, fuzzed, coverage, mistakes):
        try:
            made = part()
        except FileNotFoundError as missing:
            print(f'{part.__name__}: left as it is, no {os.path.basename(missing.filename)}')
            continue
        text, count = re.subn(f'(?s)(<!-- {part.__name__} -->\n).*?(<!-- end -->)', lambda found: f'{found[1]}{made}\n{found[2]}', text)
        print(f'{part.__name__}: {"filled" if count == 1 else "no such part"}')
    open(DOCUMENT, 'w').write(text)


if __name__ == '__main__':
    main()
