#!/usr/bin/env python3
"""Vectors of single: tasks and rooms, with the bytes that are written, or the refusal.

tests/single/vectors.py            writes tests/single/data/vectors and tests/single/stdout, which tests/compare holds the library to
tests/single/vectors.py --check    holds them to what they should be
tests/single/vectors.py --list     also says what each vector is for

A vector is two records, the file and the room of the area, 64 bits, little-endian. Its answer is a line: the bytes written in
hexadecimal digits, or refused, number and place. Answers are those of the account in shared/singling.py; those of cases.py are also
written by hand.
"""
import os
import struct
import sys

sys.path.insert(0, os.path.dirname(os.path.dirname(os.path.abspath(__file__))))
from shared import stored
from shared.chance import Chance
from shared.expected import expect
from shared.files import BELT, HARD, SOFT, file, goal
from shared.singling import singled
from shared.tasks import random_tasks
from cases import AROUND, EFFECTS, wide

ENOUGH = 60008


def answer(data, room):
    made = singled(data)
    if isinstance(made, str):
        return made
    return made.hex() if len(made) <= room else 'refused 9 0'


def tasks():
    """What a vector is for, and its file; where it is written by hand also the file that is written."""
    for around in AROUND:
        for given, wanted in EFFECTS:
            yield given, file(around.format(given)), file(around.format(wanted))
    for lengths in [(64,), (65,), (63,), (8, 8), (5, 13), (13, 5), (4, 4, 4), (2,) * 6, (2,) * 7, (1, 64, 1), (1,) * 60, (2,) * 32, (2,) * 64, (16,) * 16]:
        yield f'clauses of {lengths}', file('GOAL ACTION 3' + wide(*lengths) + ' ADD 1 DELETE 2' + wide(2)), None
        yield f'clauses of {lengths}, later', file('START 2 GOAL ACTION EFFECT ACTION 3' + wide(3, 2) + wide(*lengths) + wide(65)), None
    yield 'the belt', file(BELT, F=2), file(BELT, F=2)
    yield '12,001 rows', file(goal(11994) + ' ACTION EFFECT CLAUSE HOLDS 1 LACKS 1'), None
    yield '12,001 rows and 65 choices', file(goal(11900) + ' ACTION EFFECT CLAUSE HOLDS 1 LACKS 1' + wide(65)), None
    for what, data in [('no file', b''), ('129 facts', file('GOAL', F=129)), ('a byte too many', file('GOAL') + b'\0'), ('a faulty row', file('GOAL CLAUSE')),
                       ('a faulty value', file('GOAL ACTION EFFECT 1')), ('an action too few', file('GOAL', A=1))]:
        yield what, data, None
    for what, data, *_ in random_tasks(60, 112, SOFT + HARD):
        yield what, data, None
    r = Chance(112)
    for number in range(60):
        effects = r.some([1, 2, 3], lambda: wide(*(r.one_of([1, 2, 2, 3, 4]) for _ in range(r.below(5)))) + r.some([0, 1, 2], lambda: ' ADD 1'))
        yield f'wide effects {number}', file('GOAL ACTION 1' + effects + ' ACTION 2' + effects), None


def vectors():
    for what, data, by_hand in tasks():
        if by_hand is not None:
            expect(what, singled(data), by_hand)
        made = singled(data)
        length = len(made) if isinstance(made, bytes) else ENOUGH
        for room in (length, length - 1):
            yield f'{what}, room {room}', stored.record(data) + stored.record(struct.pack('<Q', room)), answer(data, room).encode() + b'\n'


if __name__ == '__main__':
    stored.main('../tests/single', vectors, __doc__)
