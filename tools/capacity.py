#!/usr/bin/env python3
"""How many actions a task may have so that its translation has at most 12,000 rows, by kind of rule and number of literals.

tools/capacity.py TRANSLATE [DOCUMENT]      writes the table, or compares it with the one in DOCUMENT

TRANSLATE is the program. Each task has eight rules of one kind, each side of them with so many literals, as a conjunction (a clause for
each) or as a disjunction (one clause); deadlines are of 5 steps. Each action has a precondition of one literal, and one effect without
condition that adds a fact and deletes one: six rows. The number is found by halving.
"""
import os
import subprocess
import sys
import tempfile

import task

RULES, STEPS, LITERALS = 8, 5, [1, 4, 16, 64]
SIDES = {kind: 1 for kind in task.SOFT} | {'sometime-before': 2, 'sometime-after': 2, 'always-within': 2}
MOST = 128 - 2 * RULES - 1  # actions, by refusal 7


def side(count, together):
    rows = ['CLAUSE'] if not together else []
    for number in range(count):
        rows += (['CLAUSE'] if together else []) + [f'HOLDS {number % 16}']
    return rows


def text(kind, count, together, actions):
    rows = ['FACTS 16', 'GOAL']
    rows += ['ACTION 1', 'CLAUSE', 'HOLDS 0', 'EFFECT', 'ADD 1', 'DELETE 2'] * actions
    for _ in range(RULES):
        rows += [f'{kind} 1'] + [f'STEPS {STEPS}'] * kind.endswith('within') + side(count, together)
        rows += ['SECOND', *side(count, together)] * (SIDES[kind] == 2)
    return '\n'.join(rows)


def fits(program, *parts):
    """Whether program translate writes the translation; it may be refused by 8 alone."""
    with tempfile.TemporaryDirectory() as folder:
        with open(os.path.join(folder, 'task'), 'wb') as out:
            out.write(task.Text(text(*parts)).file())
        printed = subprocess.run([os.path.abspath(program)], cwd=folder, capture_output=True, check=True).stdout.decode()
    assert printed in ('', 'refused 8 0\n'), printed
    return not printed


def most_actions(program, kind, count, together):
    low, high = -1, MOST + 1  # low fits, unless it is -1; high doesn't, or isn't allowed
    while high - low > 1:
        middle = (low + high) // 2
        low, high = (middle, high) if fits(program, kind, count, together, middle) else (low, middle)
    return str(low) if low >= 0 else 'none'


def table(program):
    heads = [f'{count}, {word}' if count > 1 else '1' for count in LITERALS for word in ('and', 'or')[:1 if count == 1 else 2]]
    lines = ['| kind of all eight rules | ' + ' | '.join(heads) + ' |', '|---' * (len(heads) + 1) + '|']
    for kind in SIDES:
        cells = [most_actions(program, kind, count, together) for count in LITERALS for together in (True, False)[:1 if count == 1 else 2]]
        lines.append(f'| {kind}' + (f' {STEPS}' if kind.endswith('within') else '') + ' | ' + ' | '.join(cells) + ' |')
    return '\n'.join(lines) + '\n'


def main(program, document=None):
    made = table(program)
    if document is None:
        print(made, end='')
    elif made not in open(document).read():
        sys.exit(f'{document} has another table than:\n{made}')
    else:
        print(f'{document} has the table of how many actions translate')


if __name__ == '__main__':
    if not 2 <= len(sys.argv) <= 3:
        sys.exit(__doc__)
    main(*sys.argv[1:])
