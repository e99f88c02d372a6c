#!/usr/bin/env python3
"""What program spell writes: the spelling of a task, in `spelled`, and its lines; and what it does with its files.

tests/spell/program.py PROGRAM     PROGRAM is crates/spell/out/spell

Spellings are written by hand, row by row (shared/spellings.py). Those of the examples, of check's vectors and of random tasks are held to
the account in shared/spelling.py.
"""
import os
import sys

sys.path.insert(0, os.path.dirname(os.path.dirname(os.path.abspath(__file__))))
from shared import stored
from shared.account import check
from shared.chance import Chance
from shared.expected import expect
from shared.files import BELT, HARD, SOFT, file, words
from shared.programs import FOLDER, Link, faults, run
from shared.spelling import respelled, spelling
from shared.spellings import CLEAN, LONGEST, MIXED, long, short
from shared.tasks import random_tasks

ROOT = os.path.dirname(os.path.dirname(os.path.dirname(os.path.abspath(__file__))))
sys.path.append(os.path.join(ROOT, 'tools'))
import task as tool

belt = file(BELT, F=2)
old = b'what stood there'

# What each case is for, its files, and what the program has to write; a refusal leaves all files as they were.
REFUSED = [
    ('no task', {}, 'no file\n'),
    ('no task, and an old spelled', dict(spelled=old), 'no file\n'),
    ('the task is a folder', dict(task=FOLDER, spelled=old), 'no file\n'),
    ('spelled is a folder', dict(task=belt, spelled=FOLDER), 'no file\n'),
    ('an empty task', dict(task=b''), 'refused 1 0\n'),
    ('an empty task, and an old spelled', dict(task=b'', spelled=old), 'refused 1 0\n'),
    ('129 facts', dict(task=file('GOAL', F=129), spelled=old), 'refused 2 0\n'),
    ('one byte more than the longest task', dict(task=LONGEST + b'\0', spelled=old), 'refused 3 0\n'),
    ('a million bytes', dict(task=LONGEST + bytes(1000000)), 'refused 3 0\n'),
    ('a faulty row', dict(task=file('GOAL CLAUSE'), spelled=old), 'refused 4 2\n'),
    ('a fact too high', dict(task=file('GOAL CLAUSE HOLDS 3 HOLDS 4'), spelled=old), 'refused 5 3\n'),
    ('START that repeats', dict(task=file('START 1 START 1 GOAL'), spelled=old), 'refused 5 1\n'),
    ('an action too few', dict(task=file('GOAL', A=1), spelled=old), 'refused 6 1\n'),
]

# A file that can't be read to its end, or not be written: what goes wrong, and what is left in `spelled`. A spelled that could not
# be written whole is empty, whatever stood there.
FAULTS = [
    ('a task whose second read fails', dict(env=faults('task', piece=20, read=1)), old),
    ('a task that is read, but not its end', dict(env=faults('task', read=1)), old),
    ('a spelled that takes no byte', dict(env=faults('spelled', write=0)), b''),
    ('a spelled that takes 10 bytes', dict(env=faults('spelled', piece=10, write=1)), b''),
    ('a spelled whose last byte is not taken', dict(env=faults('spelled', piece=len(CLEAN) - 1, write=1)), b''),
    ('a spelled that may grow to 10 bytes', dict(most=10), b''),
    ('a spelled whose close fails', dict(env=faults('spelled', close=0)), b''),
]


def spells(program, what, data, wanted):
    """The program writes this file, and that one again from itself."""
    for source in {data, wanted}:
        expect(f'{what}, {words(source)[:200]}', run(program, dict(task=source)), ('', '', dict(task=source, spelled=wanted)))


def by_hand(program):
    for what, data, wanted in [*short(), *long()]:
        spells(program, what, data, wanted)


def by_account(program):
    """The examples, check's vectors, and random tasks in several orders. Answers how many files were accepted, and how many refused."""
    for example in ('belt', 'batch_house'):
        data = tool.text_of(os.path.join(ROOT, 'examples', example, 'task.txt')).file()
        spells(program, example, data, spelling(data))
    accepted = stored.accepted()
    for data in accepted:
        spells(program, 'a vector of check', data, spelling(data))
    vectors = list(zip(stored.records('check_vectors'), stored.written('check_vectors').splitlines()))
    refused = [vector for vector in vectors if vector[1].startswith('refused')][::5]
    for data, line in refused:
        expect('a refused vector of check', run(program, dict(task=data, spelled=old)), (f'{line}\n', '', dict(task=data, spelled=old)))
    chance = Chance(10)
    for what, data, *_ in random_tasks(150, 10, SOFT + HARD):
        wanted = spelling(data)
        expect(f'{what}: the account of its spelling', check(wanted).split()[:4], check(data).split()[:4])
        for source in (data, respelled(data, chance), respelled(data, chance)):
            spells(program, what, source, wanted)
    return len(accepted), len(refused)


def files(program):
    for what, given, line in REFUSED:
        expect(what, run(program, given), (line, '', given))
    made = dict(task=MIXED, spelled=CLEAN)
    for longer in [old, MIXED, CLEAN, bytes(100000)]:
        expect(f'over a spelled of {len(longer)} bytes', run(program, dict(task=MIXED, spelled=longer)), ('', '', made))
    for what, wrong, left in FAULTS:
        expect(what, run(program, dict(task=MIXED, spelled=old), **wrong), ('no file\n', '', dict(task=MIXED, spelled=left)))
    full = dict(task=MIXED, spelled=Link('/dev/full'))
    expect('spelled is a link to /dev/full', run(program, full), ('no file\n', '', full))
    linked = dict(task=MIXED, spelled=Link('elsewhere'))
    expect('spelled is a link to a file that is missing', run(program, linked), ('', '', dict(linked, elsewhere=CLEAN)))
    for name, pieces in [('task', 1), ('spelled', 7)]:
        expect(f'{name} in pieces', run(program, dict(task=MIXED), env=faults(name, piece=pieces)), ('', '', made))


def main(program):
    files(program)
    by_hand(program)
    accepted, refused = by_account(program)
    print(f'program spell: {accepted} accepted and {refused} refused vectors of check, random tasks, and its files, as they should be')


if __name__ == '__main__':
    if len(sys.argv) != 2:
        sys.exit(__doc__)
    main(sys.argv[1])
