#!/usr/bin/env python3
"""What program search writes: a cheapest plan as planners print it, in `planned`, or a line; and what it does with its files.

tests/search/program.py PROGRAM     PROGRAM is crates/search/out/search

Plans of tasks written here are written by hand. Those of the stored vectors and of random tasks are held to the account in
shared/searching.py.
"""
import itertools
import os
import sys

sys.path.insert(0, os.path.dirname(os.path.dirname(os.path.abspath(__file__))))
from shared import stored
from shared.expected import expect
from shared.files import BELT, MARK, MOST, PREFERENCES, file, goal, rows
from shared.programs import FOLDER, Link, faults, run
from shared.searching import explored, planned, refusal
from shared.tasks import random_tasks


def edge(cost, start, end):
    return f' ACTION {cost} CLAUSE HOLDS {start} EFFECT ADD {end} DELETE {start}'


def counter(bits, wanted):
    """One action that counts, at the greatest cost, up to the number that is wanted."""
    ask = ''.join(f' CLAUSE {"HOLDS" if wanted >> bit & 1 else "LACKS"} {bit}' for bit in range(bits))
    rows = ' ACTION ' + str(MOST)
    for bit in range(bits):
        below = ''.join(f' CLAUSE HOLDS {low}' for low in range(bit))
        rows += f' EFFECT{below} CLAUSE LACKS {bit} ADD {bit} EFFECT{below} CLAUSE HOLDS {bit} DELETE {bit}'
    return file('GOAL' + ask + rows, F=128)


longest = file(goal(12000))
task = file('START 0 GOAL CLAUSE HOLDS 3' + edge(5, 0, 3) + edge(1, 0, 1) + edge(1, 1, 3))
plan = b'(a1)\n(a2)\n; cost = 2\n'
old = b'what stood there'
ten = file('GOAL CLAUSE HOLDS 127' + ' ACTION 7' * 127 + ' ACTION 12 EFFECT ADD 127', F=128)
unmet = file('GOAL CLAUSE HOLDS 0 CLAUSE LACKS 0' + ''.join(f' ACTION {fact} EFFECT ADD {fact}' for fact in range(10)), F=10)
thousands = file('GOAL CLAUSE HOLDS 0 CLAUSE LACKS 0' + ''.join(f' ACTION {fact} EFFECT ADD {fact}' for fact in range(11)), F=11)

# What each case is for, the task, and the plan that is written.
FOUND = [
    ('the goal looked at when taken', task, plan),
    ('the empty plan', file('GOAL'), b'; cost = 0\n'),
    ('an action of three digits', ten, b'(a127)\n; cost = 12\n'),
    ('ties', file('START 0 GOAL CLAUSE HOLDS 3' + edge(3, 0, 1) + edge(3, 0, 2) + edge(1, 2, 3) + edge(1, 1, 3)), b'(a0)\n(a3)\n; cost = 4\n'),
    ('an equal cost', file('START 0 GOAL CLAUSE HOLDS 3' + edge(2, 0, 3) + edge(1, 0, 1) + edge(1, 1, 3)), b'(a0)\n; cost = 2\n'),
    ('1,023 steps', counter(10, 1023), b'(a0)\n' * 1023 + b'; cost = %d\n' % (1023 * MOST)),
    ('1,000 steps, and no room is needed for more', counter(11, 1000), b'(a0)\n' * 1000 + b'; cost = %d\n' % (1000 * MOST)),
]

# What each case is for, its files, and what the program has to print; all files stay as they were.
PRINTED = [
    ('no compiled', {}, 'no file\n'),
    ('no compiled, and an old planned', dict(planned=old), 'no file\n'),
    ('compiled is a folder', dict(compiled=FOLDER, planned=old), 'no file\n'),
    ('planned is a folder', dict(compiled=task, planned=FOLDER), 'no file\n'),
    ('an empty file', dict(compiled=b'', planned=old), 'refused 1 0\n'),
    ('129 facts', dict(compiled=file('GOAL', F=129), planned=old), 'refused 2 0\n'),
    ('one byte more than the longest task', dict(compiled=longest + b'\0', planned=old), 'refused 3 0\n'),
    ('a million bytes', dict(compiled=longest + bytes(1000000)), 'refused 3 0\n'),
    ('a faulty row', dict(compiled=file('GOAL CLAUSE'), planned=old), 'refused 4 2\n'),
    ('a fact too high', dict(compiled=file('GOAL CLAUSE HOLDS 4'), planned=old), 'refused 5 2\n'),
    ('an action too few', dict(compiled=file('GOAL', A=1), planned=old), 'refused 6 1\n'),
    ('a preference', dict(compiled=file(BELT, F=2), planned=old), 'refused 13 0\n'),
    ('no plan', dict(compiled=file('GOAL CLAUSE HOLDS 0'), planned=old), 'none\n'),
    ('no plan, nothing there', dict(compiled=file('START 0 GOAL CLAUSE HOLDS 3' + edge(1, 0, 1))), 'none\n'),
    ('no plan among 1,024 states', dict(compiled=unmet, planned=old), 'none\n'),
    ('1,025 states', dict(compiled=counter(11, 1024), planned=old), 'full\n'),
    ('many more', dict(compiled=thousands, planned=old), 'full\n'),
]

# A file that can't be read to its end, or not be written: what goes wrong, and what is left in `planned`.
FAULTS = [
    ('a compiled whose second read fails', dict(env=faults('compiled', piece=20, read=1)), old),
    ('a compiled that is read, but not its end', dict(env=faults('compiled', read=1)), old),
    ('a planned that takes no byte', dict(env=faults('planned', write=0)), b''),
    ('a planned that takes 10 bytes', dict(env=faults('planned', piece=10, write=1)), b''),
    ('a planned whose last byte is not taken', dict(env=faults('planned', piece=len(plan) - 1, write=1)), b''),
    ('a planned that may grow to 10 bytes', dict(most=10), b''),
    ('a planned whose close fails', dict(env=faults('planned', close=0)), b''),
]


def held(program, what, data):
    """What the account says of a task."""
    line = refusal(data, 1024, 1024)
    searched = None if line else explored(data, 1024)
    if searched and searched.outcome == 'found':
        expect(what, run(program, dict(compiled=data)), ('', '', dict(compiled=data, planned=planned(searched).encode())))
        return 'found'
    expect(what, run(program, dict(compiled=data, planned=old)), (f'{line or searched.outcome}\n', '', dict(compiled=data, planned=old)))
    return line.split()[0] if line else searched.outcome


def bare(data):
    """A task without its preferences."""
    kept = itertools.takewhile(lambda row: row[0] not in PREFERENCES, rows(data))
    return file([(MARK[name], value) for name, value in kept], F=data[0])


def by_account(program):
    """The stored vectors' tasks and random ones without their preferences. Answers how often each answer came."""
    tasks = {data: f'vector {number}' for number, data in enumerate(stored.records('../tests/search')) if number % 2 == 0}
    came = dict.fromkeys(['found', 'none', 'refused'], 0)
    for data, what in list(tasks.items()) + [(bare(data), what) for what, data, *_ in random_tasks(120, 11)]:
        came[held(program, what, data)] += 1
    return came


def files(program):
    for what, data, text in FOUND:
        expect(what, run(program, dict(compiled=data)), ('', '', dict(compiled=data, planned=text)))
    for what, given, line in PRINTED:
        expect(what, run(program, given), (line, '', given))
    made = dict(compiled=task, planned=plan)
    for longer in [old, plan, bytes(100000)]:
        expect(f'over a planned of {len(longer)} bytes', run(program, dict(compiled=task, planned=longer)), ('', '', made))
    for what, wrong, left in FAULTS:
        expect(what, run(program, dict(compiled=task, planned=old), **wrong), ('no file\n', '', dict(compiled=task, planned=left)))
    full = dict(compiled=task, planned=Link('/dev/full'))
    expect('planned is a link to /dev/full', run(program, full), ('no file\n', '', full))
    linked = dict(compiled=task, planned=Link('elsewhere'))
    expect('planned is a link to a file that is missing', run(program, linked), ('', '', dict(linked, elsewhere=plan)))
    for name, pieces in [('compiled', 1), ('planned', 7)]:
        expect(f'{name} in pieces', run(program, dict(compiled=task), env=faults(name, piece=pieces)), ('', '', made))


def main(program):
    files(program)
    came = by_account(program)
    assert all(came.values()), came
    print('program search:', ', '.join(f'{count} {answer}' for answer, count in came.items()), 'by the account, and its files, as they should be')


if __name__ == '__main__':
    if len(sys.argv) != 2:
        sys.exit(__doc__)
    main(sys.argv[1])
