#!/usr/bin/env python3
"""Vectors of PDDL: tasks and two rooms, with both texts, or the refusal.

tests/pddl/vectors.py            writes tests/pddl/data/vectors and tests/pddl/stdout, which tests/compare holds the library to
tests/pddl/vectors.py --check    holds them to what they should be
tests/pddl/vectors.py --list     also says what each vector is for

A vector is two records, the file and the rooms of the two areas, 64 bits each, little-endian. Its answer is a line `domain N problem N`
with the lengths and then the two texts, or refused, number and place. Answers are those of the account in shared/pddl_lines.py; the
texts of texts.py and those of the belt in docs/SPECIFICATION.md are written by hand, and every text is read back by the parser in
shared/pddl.py: the task in it is the one in the rows.
"""
import os
import re
import struct
import sys

sys.path.insert(0, os.path.dirname(os.path.dirname(os.path.abspath(__file__))))
from shared import stored
from shared.expected import expect
from shared.files import BELT, HARD, MOST, SOFT, file
from shared.pddl import read, task_of
from shared.pddl_lines import both
from shared.tasks import random_tasks
from shared.translated import translation
from texts import SMALL

ENOUGH = 262144
SPECIFICATION = os.path.join(os.path.dirname(os.path.abspath(__file__)), '../../docs/SPECIFICATION.md')


def belt():
    """The belt's translation, whose texts are the last two blocks of the section PDDL."""
    with open(SPECIFICATION) as document:
        section = document.read().split('\n## PDDL\n')[1].split('\n## ')[0]
    return "the belt's translation", translation(file(BELT, F=2)), tuple(re.findall(r'^```\n(.*?)^```$', section, re.DOTALL | re.MULTILINE)[-2:])


def forms():
    """Every number of parts, of facts and of digits."""
    for rows in ['START 0', 'START 0 START 1 START 3', 'START 3']:
        yield f'{rows} opens', file(rows + ' GOAL')
    for rows in ['CLAUSE HOLDS 0', 'CLAUSE LACKS 3', 'CLAUSE HOLDS 1 HOLDS 1', 'CLAUSE LACKS 0 HOLDS 2 LACKS 0', 'CLAUSE HOLDS 3 CLAUSE LACKS 3',
                 'CLAUSE HOLDS 0 LACKS 0 CLAUSE HOLDS 2 CLAUSE LACKS 1 LACKS 2 LACKS 3']:
        yield f'the goal {rows}', file(f'GOAL {rows}')
        yield f'the precondition {rows}', file(f'GOAL ACTION 7 {rows} ACTION 8')
        for changes in ['', ' ADD 1', ' DELETE 2', ' ADD 3 ADD 0 ADD 3 DELETE 3 DELETE 1']:
            yield f'the effect {rows}{changes}', file(f'GOAL ACTION 7 EFFECT{changes} EFFECT {rows}{changes} EFFECT')
    for cost in [0, 9, 10, 99, 100, 1000001, MOST - 1, MOST]:
        yield f'cost {cost}', file(f'GOAL ACTION {cost}')
    for facts in [1, 2, 10, 11, 100, 101, 128]:
        yield f'{facts} facts', file(f'START {facts - 1} GOAL CLAUSE LACKS {facts - 1} ACTION EFFECT ADD {facts - 1} DELETE {facts - 1}', F=facts)
    for actions in [1, 10, 11, 101, 128]:
        yield f'{actions} actions', file('GOAL' + ' ACTION' * actions)


REFUSED = [('no byte', b''), ('129 facts', file('GOAL', F=129)), ('a byte too many', file('GOAL') + b'\0'),
           ('a clause without literals', file('GOAL CLAUSE')), ('a faulty value', file('GOAL ACTION EFFECT 1')),
           ('an action too few', file('GOAL', A=1)), ('a preference too few', file('GOAL', P=1)), ('the belt', file(BELT, F=2)),
           ('a faulty preference', file('GOAL within STEPS 16')), ('a soft rule', file('GOAL at-end')), ('a hard rule', file('GOAL hard-always'))]


def tasks():
    """What a vector is for, and its file; where they are written by hand also its texts."""
    yield from SMALL
    yield belt()
    for what, data in [*forms(), *REFUSED]:
        yield what, data, None
    for what, data, *_ in random_tasks(40, 404, SOFT + HARD):
        made = translation(data)
        if isinstance(made, bytes) and len(made) < 4000:
            yield f'{what}, translated', made, None


def answers(made):
    """Rooms with their answers: areas that fit, and areas of which one is a byte short; what is refused is so in areas without a byte, too."""
    if isinstance(made, str):
        return [(rooms, f'{made}\n') for rooms in [(ENOUGH, ENOUGH), (0, 0)]]
    domain, problem = map(len, made)
    fitting = f'domain {domain} problem {problem}\n' + ''.join(made)
    return [((domain, problem), fitting), ((domain - 1, problem), 'refused 14 0\n'), ((domain, problem - 1), 'refused 14 0\n')]


def vectors():
    for what, data, by_hand in tasks():
        made = both(data)
        if by_hand is not None:
            expect(what, made, by_hand)
        if not isinstance(made, str):
            expect(f'{what}, read back', read(*made), task_of(data))
        for rooms, answer in answers(made):
            yield f'{what}, rooms {rooms}', stored.record(data) + stored.record(struct.pack('<2Q', *rooms)), answer.encode()


if __name__ == '__main__':
    stored.main('../tests/pddl', vectors, __doc__)
