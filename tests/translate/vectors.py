#!/usr/bin/env python3
"""Vectors of translate: tasks and rooms, with the bytes that are written, or the refusal.

tests/translate/vectors.py            writes tests/translate/data/vectors and tests/translate/stdout, which tests/compare holds the
                                      library to
tests/translate/vectors.py --check    holds them to what they should be
tests/translate/vectors.py --list     also says what each vector is for

A vector is two records, the file and the room of the area, 64 bits, little-endian. Its answer is a line: the bytes written in
hexadecimal digits, or refused, number and place. Answers are those of the account in shared/translated.py; those of cases.py are also
written by hand.
"""
import os
import struct
import sys

sys.path.insert(0, os.path.dirname(os.path.dirname(os.path.abspath(__file__))))
from shared import stored
from shared.expected import expect
from shared.files import HARD, MOST, PREFERENCES, SOFT, file, preference
from shared.tasks import random_tasks
from shared.translated import translation
from cases import PHI, PSI, by_hand

ENOUGH = 60008
ACTIONS = f'START 1 GOAL {PHI} CLAUSE HOLDS 1 LACKS 1 ACTION 3 {PSI} EFFECT {PSI} ADD 1 ADD 0 DELETE 1 EFFECT ACTION {MOST} EFFECT DELETE 0'


def kinds():
    """Each kind by itself with conditions of no, one and several clauses, and two rules of each kind beside those of another."""
    for kind in PREFERENCES:
        for n, (phi, psi) in enumerate([('', ''), (PHI, ''), ('', PSI), (PSI, PHI), (PHI + ' CLAUSE HOLDS 1 HOLDS 1 LACKS 0', PSI + ' ' + PSI)]):
            yield f'{kind}, conditions {n}', file(ACTIONS + preference(kind, 7, phi, psi, n), F=2)
        for other in (SOFT if kind in HARD else HARD):
            two = preference(kind, 1, PHI, PSI, 2)
            yield f'two of {kind} and {other}', file('GOAL ACTION' + two + preference(other, MOST, PSI, PHI, 1) + two, F=2)


def of_rows(count):
    """A task whose translation has so many rows: trackers of 48 clauses in each of 60 actions, and a goal of one clause, as long as that
    takes."""
    def task(literals):
        return file('GOAL CLAUSE' + ' HOLDS 1' * literals + ' ACTION' * 60 + ' always 1' + ' CLAUSE HOLDS 0' * 48, F=2)

    return task(1 + count - (len(translation(task(1))) - 8) // 5)


def edges():
    """At the limits of 7 and 8, and every refusal before them."""
    sixteen = ' at-end' * 16
    for facts, rules in [(126, ''), (78, sixteen), (123, ' at-end'), (107, ' within STEPS 15'), (108, ' hard-always-within STEPS 15 SECOND'),
                         (14, ' hard-within STEPS 3' * 16), (14, ' always-within STEPS 4 SECOND' * 16)]:
        for more in (0, 1):
            yield f'F {facts + more} with{rules or " no rules"}', file('GOAL' + rules, F=facts + more)
    for actions in (95, 96):
        yield f'A {actions} with 16 rules', file('GOAL' + ' ACTION' * actions + sixteen)
    for actions in (127, 128):
        yield f'A {actions} with no rules', file('GOAL' + ' ACTION' * actions)
    for rows in (12000, 12001):
        yield f'{rows} rows', of_rows(rows)
    yield 'a million rows', file('GOAL' + ' ACTION' * 95 + (' always' + ' CLAUSE HOLDS 0' * 160) * 16, F=2)
    yield 'too many actions, and a million rows', file('GOAL' + ' ACTION' * 96 + (' always' + ' CLAUSE HOLDS 0' * 160) * 16, F=2)
    for what, data in [('no byte', b''), ('7 bytes', bytes(7)), ('129 facts', file('GOAL', F=129)), ('a byte too many', file('GOAL') + b'\0'),
                       ('a byte too few', file('GOAL')[:-1]), ('no rows', file('')), ('a clause without literals', file('GOAL CLAUSE')),
                       ('mark 32', file('GOAL #32')), ('a hard weight', file('GOAL hard-always 1')), ('STEPS 16', file('GOAL within STEPS 16')),
                       ('a preference too few, and 129 facts in all', file('GOAL', F=127, P=1)), ('an action too few', file('GOAL', A=1))]:
        yield what, data


def tasks():
    """What a vector is for, and its file; where it is written by hand also the file that is written."""
    yield from by_hand()
    for what, data in [*kinds(), *edges()]:
        yield what, data, None
    for what, data, *_ in random_tasks(40, 104, SOFT + HARD):
        yield what, data, None


def vectors():
    for what, data, wanted in tasks():
        made = translation(data)
        if wanted is not None:
            expect(what, made, wanted)
        length = len(made) if isinstance(made, bytes) else ENOUGH
        for room in (length, length - 1):
            answer = made if isinstance(made, str) else made.hex() if room >= length else 'refused 9 0'
            yield f'{what}, room {room}', stored.record(data) + stored.record(struct.pack('<Q', room)), answer.encode() + b'\n'


if __name__ == '__main__':
    stored.main('../tests/translate', vectors, __doc__)
