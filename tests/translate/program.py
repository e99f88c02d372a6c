#!/usr/bin/env python3
"""What program translate does with its files: `compiled` made, replaced, left alone or emptied, and the lines it writes.

tests/translate/program.py PROGRAM     PROGRAM is crates/translate/out/translate
"""
import os
import struct
import sys

sys.path.insert(0, os.path.dirname(os.path.dirname(os.path.abspath(__file__))))
from shared.account import check
from shared.files import BELT, file, goal
from shared.programs import FOLDER, Link, faults, run
from cases import by_hand

belt = file(BELT, F=2)
longest = file(goal(12000))
old = b'what stood there'

# What each case is for, its files, and what the program has to write; a refusal leaves all files as they were.
REFUSED = [
    ('no task', {}, 'no file\n'),
    ('no task, and an old compiled', dict(compiled=old), 'no file\n'),
    ('the task is a folder', dict(task=FOLDER, compiled=old), 'no file\n'),
    ('compiled is a folder', dict(task=belt, compiled=FOLDER), 'no file\n'),
    ('an empty task', dict(task=b''), 'refused 1 0\n'),
    ('an empty task, and an old compiled', dict(task=b'', compiled=old), 'refused 1 0\n'),
    ('a faulty row', dict(task=file('GOAL CLAUSE'), compiled=old), 'refused 4 2\n'),
    ('one byte more than the longest task', dict(task=longest + b'\0', compiled=old), 'refused 3 0\n'),
    ('a million bytes', dict(task=longest + bytes(1000000)), 'refused 3 0\n'),
    ('129 facts', dict(task=file('GOAL', F=127), compiled=old), 'refused 7 0\n'),
    ('129 facts, 16 of them of a deadline', dict(task=file('GOAL within STEPS 15', F=108), compiled=old), 'refused 7 0\n'),
    ('129 facts, 16 of them of a hard deadline', dict(task=file('GOAL hard-within STEPS 15', F=108), compiled=old), 'refused 7 0\n'),
    ('a hard weight', dict(task=file('GOAL hard-always 1'), compiled=old), 'refused 5 1\n'),
    ('mark 32', dict(task=file('GOAL #32'), compiled=old), 'refused 4 1\n'),
    ('the longest task', dict(task=longest, compiled=old), 'refused 8 0\n'),
    ('12,001 rows, two of them of a hard rule', dict(task=file(goal(11968) + ' hard-sometime'), compiled=old), 'refused 8 0\n'),
]

# A file that can't be read to its end, or not be written: what goes wrong, and what is left in `compiled`. A compiled that could
# not be written whole is empty, whatever stood there.
FAULTS = [
    ('a task whose second read fails', dict(env=faults('task', piece=50, read=1)), old),
    ('a task that is read, but not its end', dict(env=faults('task', read=1)), old),
    ('a compiled that takes no byte', dict(env=faults('compiled', write=0)), b''),
    ('a compiled that takes 100 bytes', dict(env=faults('compiled', piece=100, write=1)), b''),
    ('a compiled whose last byte is not taken', dict(env=faults('compiled', piece=472, write=1)), b''),
    ('a compiled that may grow to 100 bytes', dict(most=100), b''),
    ('a compiled whose close fails', dict(env=faults('compiled', close=0)), b''),
]


def main(program):
    for what, files, line in REFUSED:
        got = run(program, files)
        if got != (line, '', files):
            sys.exit(f'{what}: {got}, and not {line!r}')
    text, errors, made = run(program, dict(task=belt))
    compiled = made.get('compiled', b'')
    sizes = struct.unpack_from('<4H', compiled) if len(compiled) >= 8 else ()
    if (text, errors, sizes, len(compiled)) != ('', '', (10, 7, 0, 93), 473):
        sys.exit(f'the belt: {text!r} {errors!r}, sizes {sizes}, {len(compiled)} bytes')
    if check(compiled) != 'accepted 10 7 0 93':
        sys.exit(f'the belt: the account says of compiled: {check(compiled)}')
    for longer in [old, compiled, bytes(100000)]:
        if run(program, dict(task=belt, compiled=longer)) != ('', '', made):
            sys.exit(f'the belt, over a compiled of {len(longer)} bytes')
    for what, wrong, left in FAULTS:
        got = run(program, dict(task=belt, compiled=old), **wrong)
        if got != ('no file\n', '', dict(task=belt, compiled=left)):
            sys.exit(f'{what}: {got}')
    full = dict(task=belt, compiled=Link('/dev/full'))
    if run(program, full) != ('no file\n', '', full):
        sys.exit('compiled is a link to /dev/full')
    linked = dict(task=belt, compiled=Link('elsewhere'))
    if run(program, linked) != ('', '', dict(linked, elsewhere=compiled)):
        sys.exit('compiled is a link to a file that is missing')
    for name, pieces in [('task', 1), ('compiled', 7)]:
        if run(program, dict(task=belt), env=faults(name, piece=pieces)) != ('', '', made):
            sys.exit(f'{name} in pieces')
    cases = list(by_hand())
    for what, task, wanted in cases:
        got = run(program, dict(task=task))
        if got != ('', '', dict(task=task, compiled=wanted)):
            sys.exit(f'{what}: {got}')
    widest = run(program, dict(task=file('GOAL within STEPS 15 always-within STEPS 15 SECOND', F=89)))
    if widest[:2] != ('', '') or widest[2]['compiled'][0] != 128:
        sys.exit('128 facts, 31 of them of deadlines')
    most = run(program, dict(task=file(goal(11991))))
    if most[:2] != ('', '') or len(most[2]['compiled']) != 60008:
        sys.exit('the longest translation')
    with_rule = run(program, dict(task=file(goal(11967) + ' hard-sometime')))
    if with_rule[:2] != ('', '') or len(with_rule[2]['compiled']) != 60008:
        sys.exit('the longest translation with a hard rule')
    print(f'program translate: {len(REFUSED) + len(FAULTS) + len(cases) + 11} cases as they should be')


if __name__ == '__main__':
    if len(sys.argv) != 2:
        sys.exit(__doc__)
    main(sys.argv[1])
