#!/usr/bin/env python3
"""What program single writes: a task with single literals in its effects, in `singled`, and its lines; and what it does with its files.

tests/single/program.py PROGRAM     PROGRAM is crates/single/out/single

Effects and their choices are written out in cases.py row by row. Those of the examples, of check's vectors and of random tasks are held to the
account in shared/singling.py.
"""
import os
import sys

sys.path.insert(0, os.path.dirname(os.path.dirname(os.path.abspath(__file__))))
from shared import stored
from shared.chance import Chance
from shared.expected import expect
from shared.files import BELT, HARD, SOFT, file, goal, words
from shared.programs import FOLDER, Link, faults, run
from shared.singling import singled
from shared.tasks import random_tasks
from cases import AROUND, EFFECTS, wide

ROOT = os.path.dirname(os.path.dirname(os.path.dirname(os.path.abspath(__file__))))
sys.path.append(os.path.join(ROOT, 'tools'))
import task as tool

belt = file(BELT, F=2)
mixed = file('GOAL CLAUSE LACKS 1 HOLDS 3 ACTION 4 EFFECT CLAUSE HOLDS 0 LACKS 1 ADD 2 DELETE 3')
clean = file('GOAL CLAUSE LACKS 1 HOLDS 3 ACTION 4 EFFECT CLAUSE HOLDS 0 ADD 2 DELETE 3 EFFECT CLAUSE LACKS 1 ADD 2 DELETE 3')
longest = file(goal(12000))
two = ' ACTION EFFECT CLAUSE HOLDS 1 LACKS 1'  # 5 rows, and 7 of them after
old = b'what stood there'

# What each case is for, its files, and what the program has to write; a refusal leaves all files as they were.
REFUSED = [
    ('no task', {}, 'no file\n'),
    ('no task, and an old singled', dict(singled=old), 'no file\n'),
    ('the task is a folder', dict(task=FOLDER, singled=old), 'no file\n'),
    ('singled is a folder', dict(task=belt, singled=FOLDER), 'no file\n'),
    ('an empty task', dict(task=b''), 'refused 1 0\n'),
    ('an empty task, and an old singled', dict(task=b'', singled=old), 'refused 1 0\n'),
    ('129 facts', dict(task=file('GOAL', F=129), singled=old), 'refused 2 0\n'),
    ('one byte more than the longest task', dict(task=longest + b'\0', singled=old), 'refused 3 0\n'),
    ('a million bytes', dict(task=longest + bytes(1000000)), 'refused 3 0\n'),
    ('a faulty row', dict(task=file('GOAL CLAUSE'), singled=old), 'refused 4 2\n'),
    ('a fact too high', dict(task=file('GOAL CLAUSE HOLDS 3 HOLDS 4'), singled=old), 'refused 5 3\n'),
    ('an action too few', dict(task=file('GOAL', A=1), singled=old), 'refused 6 1\n'),
    ('65 choices', dict(task=file('GOAL ACTION' + wide(65)), singled=old), 'refused 17 2\n'),
    ('65 choices of 5 and 13', dict(task=file('GOAL ACTION EFFECT' + wide(5, 13)), singled=old), 'refused 17 3\n'),
    ('65 choices, twice', dict(task=file('START 1 GOAL ACTION' + wide(8, 8) + wide(65) + wide(65)), singled=old), 'refused 17 22\n'),
    ('65 choices in the last action', dict(task=file('GOAL ACTION 1 EFFECT ADD 1 ACTION' + wide(13, 5) + ' always 1')), 'refused 17 5\n'),
    ('3,990 clauses of two', dict(task=file('GOAL ACTION' + wide(*[2] * 3990)), singled=old), 'refused 17 2\n'),
    ('2 to the 64', dict(task=file('GOAL ACTION' + wide(*[2] * 64)), singled=old), 'refused 17 2\n'),
    ('2 to the 32', dict(task=file('GOAL ACTION' + wide(*[16] * 8)), singled=old), 'refused 17 2\n'),
    ('12,001 rows', dict(task=file(goal(11994) + two), singled=old), 'refused 8 0\n'),
    ('12,001 rows, and 65 choices', dict(task=file(goal(11900) + two + wide(65)), singled=old), 'refused 17 11905\n'),
]

# A file that can't be read to its end, or not be written: what goes wrong, and what is left in `singled`. A singled that could not
# be written whole is empty, whatever stood there.
FAULTS = [
    ('a task whose second read fails', dict(env=faults('task', piece=20, read=1)), old),
    ('a task that is read, but not its end', dict(env=faults('task', read=1)), old),
    ('a singled that takes no byte', dict(env=faults('singled', write=0)), b''),
    ('a singled that takes 10 bytes', dict(env=faults('singled', piece=10, write=1)), b''),
    ('a singled whose last byte is not taken', dict(env=faults('singled', piece=len(clean) - 1, write=1)), b''),
    ('a singled that may grow to 10 bytes', dict(most=10), b''),
    ('a singled whose close fails', dict(env=faults('singled', close=0)), b''),
]


def singles(program, what, data, wanted):
    """The program writes this file, and that one again from itself."""
    for source in {data, wanted}:
        expect(f'{what}, {words(source)[:200]}', run(program, dict(task=source)), ('', '', dict(task=source, singled=wanted)))


def by_hand(program):
    for around in AROUND:
        for given, wanted in EFFECTS:
            singles(program, 'effects', file(around.format(given)), file(around.format(wanted)))
    for lengths in [(64,), (8, 8), (2,) * 6, (4, 16), (1, 64, 1)]:
        each = 'EFFECT' + ' CLAUSE HOLDS 3' * len(lengths)
        singles(program, f'64 choices, {lengths}', file('GOAL ACTION' + wide(*lengths)), file('GOAL ACTION ' + ' '.join([each] * 64)))
    singles(program, '12,000 rows', file(goal(11993) + two), file(goal(11993) + ' ACTION EFFECT CLAUSE HOLDS 1 EFFECT CLAUSE LACKS 1'))
    for kept in [longest, belt, file('GOAL ACTION' + wide(*[1] * 5998)), file('GOAL' + ' ACTION 1' * 128, F=128),
                 file('GOAL ACTION' + ' EFFECT' * 11998)]:
        singles(program, 'kept', kept, kept)


def by_account(program):
    """The examples, check's vectors and random tasks. Answers how many files were written, and how many refused."""
    answers = [0, 0]

    def held(what, data):
        wanted = singled(data)
        if isinstance(wanted, str):
            expect(what, run(program, dict(task=data, singled=old)), (wanted + '\n', '', dict(task=data, singled=old)))
        else:
            singles(program, what, data, wanted)
        answers[isinstance(wanted, str)] += 1

    for example in ('belt', 'batch_house'):
        held(example, tool.text_of(os.path.join(ROOT, 'examples', example, 'task.txt')).file())
    for data in stored.accepted()[::2] + list(stored.records('check_vectors'))[::25]:
        held('a vector of check', data)
    for what, data, *_ in random_tasks(150, 12, SOFT + HARD):
        held(what, data)
    chance = Chance(12)

    def effect():
        return wide(*(chance.one_of([1, 1, 2, 2, 3, 4, 5]) for _ in range(chance.below(6)))) + chance.some([0, 1, 2], lambda: ' ADD 2')

    for number in range(200):
        held(f'wide effects {number}', file('GOAL' + chance.some([1, 2, 3], lambda: ' ACTION 1' + chance.some([0, 1, 2, 3], effect))))
    return answers


def files(program):
    for what, given, line in REFUSED:
        expect(what, run(program, given), (line, '', given))
    made = dict(task=mixed, singled=clean)
    for longer in [old, mixed, clean, bytes(100000)]:
        expect(f'over a singled of {len(longer)} bytes', run(program, dict(task=mixed, singled=longer)), ('', '', made))
    for what, wrong, left in FAULTS:
        expect(what, run(program, dict(task=mixed, singled=old), **wrong), ('no file\n', '', dict(task=mixed, singled=left)))
    full = dict(task=mixed, singled=Link('/dev/full'))
    expect('singled is a link to /dev/full', run(program, full), ('no file\n', '', full))
    linked = dict(task=mixed, singled=Link('elsewhere'))
    expect('singled is a link to a file that is missing', run(program, linked), ('', '', dict(linked, elsewhere=clean)))
    for name, pieces in [('task', 1), ('singled', 7)]:
        expect(f'{name} in pieces', run(program, dict(task=mixed), env=faults(name, piece=pieces)), ('', '', made))


def main(program):
    files(program)
    by_hand(program)
    written, refused = by_account(program)
    print(f'program single: {written} files written and {refused} refused by the account, effects by hand, and its files, as they should be')


if __name__ == '__main__':
    if len(sys.argv) != 2:
        sys.exit(__doc__)
    main(sys.argv[1])
