#!/usr/bin/env python3
"""What program pddl does with its files: `domain.pddl` and `problem.pddl` made, replaced, left alone or emptied, and the lines it
writes.

tests/pddl/program.py PROGRAM     PROGRAM is crates/pddl/out/pddl

The texts are those of texts.py, written out letter by letter.
"""
import os
import sys

sys.path.insert(0, os.path.dirname(os.path.dirname(os.path.abspath(__file__))))
from shared.files import BELT, MOST, file, goal
from shared.programs import FOLDER, Link, faults, run
from texts import LONGEST, REQUEST, REQUEST_TEXTS, SMALL

belt = file(BELT, F=2)
small = file('GOAL')
longest_file = file(goal(12000))
old = {'domain.pddl': b'what stood there', 'problem.pddl': b'and there'}

# What each case is for, its files, and what the program has to write; all files are left as they were.
REFUSED = [
    ('no compiled', {}, 'no file\n'),
    ('no compiled, and old texts', old, 'no file\n'),
    ('a task, and no compiled', dict(task=small, **old), 'no file\n'),
    ('compiled is a folder', dict(compiled=FOLDER, **old), 'no file\n'),
    ('an empty compiled', dict(compiled=b''), 'refused 1 0\n'),
    ('an empty compiled, and old texts', dict(compiled=b'', **old), 'refused 1 0\n'),
    ('129 facts', dict(compiled=file('GOAL', F=129), **old), 'refused 2 0\n'),
    ('one byte more than the longest file', dict(compiled=longest_file + b'\0', **old), 'refused 3 0\n'),
    ('a million bytes', dict(compiled=longest_file + bytes(1000000), **old), 'refused 3 0\n'),
    ('a faulty row', dict(compiled=file('GOAL CLAUSE'), **old), 'refused 4 2\n'),
    ('a faulty value in a preference', dict(compiled=file('GOAL within STEPS 16'), **old), 'refused 5 2\n'),
    ('a preference of the greatest weight', dict(compiled=file(f'GOAL always {MOST}'), **old), 'refused 13 0\n'),
    ('a preference too few', dict(compiled=file('GOAL', P=1), **old), 'refused 6 1\n'),
    ('preferences', dict(compiled=belt), 'refused 13 0\n'),
    ('preferences, and old texts', dict(compiled=belt, **old), 'refused 13 0\n'),
    ('a preference with a deadline', dict(compiled=file('GOAL within STEPS 1'), **old), 'refused 13 0\n'),
    ('a hard rule', dict(compiled=file('GOAL hard-always'), **old), 'refused 13 0\n'),
    ('a hard rule with a deadline', dict(compiled=file('GOAL hard-within STEPS 1')), 'refused 13 0\n'),
    ('a hard weight', dict(compiled=file('GOAL hard-always 1'), **old), 'refused 5 1\n'),
    ('preferences, and folders for texts', {'compiled': belt, 'domain.pddl': FOLDER, 'problem.pddl': FOLDER}, 'refused 13 0\n'),
]

# A text that can't be opened: all files are left as they were.
UNOPENED = [
    ('domain.pddl is a folder', {'domain.pddl': FOLDER}),
    ('domain.pddl is a folder, and an old problem', {**old, 'domain.pddl': FOLDER}),
    ('problem.pddl is a folder', {'problem.pddl': FOLDER}),
    ('problem.pddl is a folder, and an old domain', {**old, 'problem.pddl': FOLDER}),
    ('domain.pddl is a link into no folder', {**old, 'domain.pddl': Link('none/domain')}),
    ('problem.pddl is a link into no folder', {**old, 'problem.pddl': Link('none/problem')}),
    ('problem.pddl is a link into no folder, and no domain', {'problem.pddl': Link('none/problem')}),
]

# A file that can't be read to its end, or a text that can't be written: what goes wrong, the files before and those left. One text
# beside an old or a cut one would mislead: both are then empty.
emptied = dict.fromkeys(old, b'')
FAULTS = [
    ('a compiled whose second read fails', dict(env=faults('compiled', piece=50, read=1)), old, old),
    ('a compiled that is read, but not its end', dict(env=faults('compiled', read=1)), old, old),
    ('a domain to /dev/full', {}, {**old, 'domain.pddl': Link('/dev/full')}, {**emptied, 'domain.pddl': Link('/dev/full')}),
    ('a problem to /dev/full', {}, {**old, 'problem.pddl': Link('/dev/full')}, {**emptied, 'problem.pddl': Link('/dev/full')}),
    ('a domain that may grow to 250 bytes', dict(most=250), old, emptied),
] + [(f'{what} {name}', dict(env=faults(name, **of)), old, emptied) for name in old for what, of in [
    ('a full disk at the first byte of', dict(write=0)),
    ('a full disk at byte 100 of', dict(piece=100, write=1)),
    ('a failing close of', dict(close=0)),
]]


def main(program):
    count = len(REFUSED)
    for what, files, line in REFUSED:
        got = run(program, files)
        if got != (line, '', files):
            sys.exit(f'{what}: {str(got)[:1000]}, and not {line!r}')
    for what, compiled, texts in SMALL + LONGEST:
        made = {'compiled': compiled, 'domain.pddl': texts[0].encode(), 'problem.pddl': texts[1].encode()}
        for before in [{}, old, {'domain.pddl': b'(' * 300000, 'problem.pddl': b')' * 300000}]:
            got = run(program, dict(compiled=compiled, **before))
            if got != ('', '', made):
                wrong = [name for name in {**made, **got[2]} if got[2].get(name) != made.get(name)]
                sys.exit(f'{what}: {got[:2]}, and not nothing, or other files: {wrong}')
            count += 1
    for what, wrong, before, left in [(what, {}, before, before) for what, before in UNOPENED] + FAULTS:
        got = run(program, dict(compiled=REQUEST, **before), **wrong)
        if got != ('no file\n', '', dict(compiled=REQUEST, **left)):
            sys.exit(f'{what}: {str(got)[:1000]}, and not no file and {left}')
    texts = {'domain.pddl': REQUEST_TEXTS[0].encode(), 'problem.pddl': REQUEST_TEXTS[1].encode()}
    for name in old:
        linked = {'compiled': REQUEST, name: Link('elsewhere')}
        if run(program, linked) != ('', '', {**texts, **linked, 'elsewhere': texts[name]}):
            sys.exit(f'{name} is a link to a file that is missing')
        if run(program, dict(compiled=REQUEST), env=faults(name, piece=7)) != ('', '', dict(compiled=REQUEST, **texts)):
            sys.exit(f'{name} in pieces')
    count += len(UNOPENED) + len(FAULTS) + 2 * len(old)
    print(f'program pddl: {count} cases as they should be')


if __name__ == '__main__':
    if len(sys.argv) != 2:
        sys.exit(__doc__)
    main(sys.argv[1])
