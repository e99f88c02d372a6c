#!/usr/bin/env python3
"""The test vectors of spell: task files with the areas that are lent for their spelling, and what document 02 wants to be answered.

tests/spell/vectors.py           writes crates/spell_vectors/data/vectors and crates/spell_vectors/stdout
tests/spell/vectors.py --check   writes nothing, and fails where these two files are not what it makes
tests/spell/vectors.py --list    says what each vector is for, and its line

A vector is two records (shared/stored.py): the task file, then the area as it is lent. The program has to write `spelled` and the
length, or `refused`, number and place, and after that line the area's bytes as the call left them, and a newline.

Each spelling is by the account in shared/spelling.py, which sorts. Where one is written by hand (shared/spellings.py), both have to agree.
"""
import os
import sys

sys.path.insert(0, os.path.dirname(os.path.dirname(os.path.abspath(__file__))))
from shared import files, stored
from shared.account import check
from shared.chance import Chance
from shared.expected import expect
from shared.files import BELT, HARD, OF_FACTS, SOFT, file
from shared.spelling import respelled, spelling
from shared.spellings import CLEAN, LONGEST, MIXED, long, short
from shared.stored import record
from shared.tasks import random_tasks


def area(length):
    """An area of such bytes that no two parts of it are alike."""
    return bytes(i * i // 7 % 251 for i in range(length))


def spell(data, lent):
    """The line, and the area then."""
    line = check(data)
    if line.startswith('refused'):
        return line, lent
    spelled = spelling(data)
    if len(lent) < len(spelled):
        return 'refused 9 0', lent
    return f'spelled {len(spelled)}', spelled + lent[len(spelled):]


# ---- the vectors: what each is for, the task file, the length of the area, and the spelling or the line where it is written down

def by_hand():
    """Each is spelled into an area of just its length, and that file is its own spelling."""
    for what, data, wanted in [*short(), *long()]:
        yield what, data, len(wanted), wanted
        if data != wanted:
            yield f'{what}, spelled', wanted, len(wanted) + 3, wanted
    *_, (what, data, wanted) = long()
    yield f'{what}, an area one byte short', data, len(wanted) - 1, 'refused 9 0'
    yield 'the longest task, an area of its length', LONGEST, len(LONGEST), file('GOAL CLAUSE HOLDS 3')


def areas():
    """Areas of every length up to one that is more than long enough."""
    for what, data, wanted in [('mixed', MIXED, CLEAN), ('GOAL', file('GOAL'), file('GOAL')), ('the belt', file(BELT, F=2), file(BELT, F=2))]:
        for length in range(len(wanted)):
            yield f'{what}, an area of {length}', data, length, 'refused 9 0'
        for more in [0, 1, 2, 5, 8, 13, 100]:
            yield f'{what}, an area longer by {more}', data, len(wanted) + more, wanted


def refused():
    """1 to 6 come before 9, and leave the area."""
    good = file('GOAL CLAUSE HOLDS 3 HOLDS 1 always 5')
    for what, data, answer in [
            ('no byte', b'', '1 0'), ('7 bytes', good[:7], '1 0'), ('F 0', file('GOAL', F=0), '2 0'), ('F 129', file('GOAL', F=129), '2 0'),
            ('A 129', file('GOAL', A=129), '2 0'), ('P 17', file('GOAL' + ' at-end' * 17), '2 0'), ('N 12,001', file('GOAL', N=12001), '2 0'),
            ('one byte short', good[:-1], '3 0'), ('one byte long', good + b'\0', '3 0'), ('N 0', file(''), '4 0'),
            ('an unknown mark', file('GOAL always 5 #20'), '4 2'), ('DELETE before ADD', file('GOAL ACTION EFFECT DELETE 1 ADD 0'), '4 4'),
            ('a clause without literals', file('GOAL CLAUSE'), '4 2'), ('no SECOND', file('GOAL sometime-after 5'), '4 2'),
            ('STEPS 16', file('GOAL within 5 STEPS 16'), '5 2'), ('a fact too high', file('GOAL CLAUSE HOLDS 3 HOLDS 4'), '5 3'),
            ('START that repeats', file('START 1 START 1 GOAL'), '5 1'), ('START that falls', file('START 1 START 0 GOAL'), '5 1'),
            ('an action too few', file('GOAL', A=1), '6 1'), ('a preference too many', file('GOAL always 5', P=0), '6 2')]:
        for length in [0, 13, 60]:
            yield f'{what}, an area of {length}', data, length, f'refused {answer}'


def of_check():
    for number, data in enumerate(stored.accepted()):
        if len(data) < 2000:
            yield f'accepted vector {number} of check', data, len(data), None


def orders(count=120, seed=26):
    """Random tasks, each in three orders, with repeats: they have one spelling."""
    chance = Chance(seed)
    for what, data, *_ in random_tasks(count, seed, SOFT + HARD):
        for turn, source in enumerate([data, respelled(data, chance), respelled(data, chance)]):
            expect(f'{what}, the spelling of order {turn}', spelling(source), spelling(data))
            yield f'{what}, order {turn}', source, len(data) + chance.below(20), None


def changed(count=60, seed=27):
    """Random tasks with one row on another fact: they have another spelling where that fact was not there beside it."""
    chance, differ = Chance(seed), 0
    for what, data, *_ in random_tasks(count, seed, SOFT + HARD):
        rows = [(files.MARK[name], value) for name, value in files.rows(data)]
        at = chance.one_of([i for i, (mark, _) in enumerate(rows) if files.NAME[mark] in OF_FACTS])
        rows[at] = rows[at][0], (rows[at][1] + 1) % data[0]
        other = file(rows, F=data[0])
        differ += spelling(other) != spelling(data)
        yield f'{what}, row {at} changed', other, len(other), None
    assert differ > count * 3 // 4, 'changed rows change few spellings'


def vectors():
    """What each vector is for, the task file, the area, the line and the area then."""
    for family in [by_hand, areas, refused, of_check, orders, changed]:
        for what, data, length, answer in family():
            lent = area(length)
            line, after = spell(data, lent)
            if isinstance(answer, str):
                expect(what, (line, after), (answer, lent))
            elif answer is not None:
                expect(what, (line, after), (f'spelled {len(answer)}', answer + lent[len(answer):]))
            yield what, data, lent, line, after


def parts():
    for what, data, lent, line, after in vectors():
        yield f'{what}: {line}', record(data) + record(lent), line.encode() + b'\n' + after + b'\n'


if __name__ == '__main__':
    stored.main('spell_vectors', parts, __doc__)
