#!/usr/bin/env python3
"""The test vectors of source: task files and texts over their translations, with the plan that is written, or the refusal.

tests/source/vectors.py           writes tests/source/data/vectors and tests/source/stdout, which tests/compare holds the library to
tests/source/vectors.py --check   writes nothing, and fails where these two files are not what it makes
tests/source/vectors.py --list    says what each vector is for, and its line, that of a long plan cut

A vector is three records (shared/stored.py): the task file, the text, and the room of the area, 64 bits, little-endian. The line is `plan`
and the source steps, or a refusal.

Lines come from the account below: refused 1 to 8 where the translation that shared/translated.py makes row by row is, 12 by the reader of
shared/texts.py, then 10 and 11 over the actions that the translation has. Where an answer stands beside a vector, it was written by hand,
and has to agree.
"""
import os
import struct
import sys

sys.path.insert(0, os.path.dirname(os.path.dirname(os.path.abspath(__file__))))
from shared import stored
from shared.chance import Chance
from shared.files import BELT, HARD, SOFT, file, goal
from shared.stored import record
from shared.tasks import random_tasks
from shared.texts import read, written
from shared.translated import refusal, translation

ENOUGH = 2048


# ---- the account

def source(data, text, room):
    made = translation(data)
    if isinstance(made, str):
        return made
    steps, fault = read(text)
    refused = fault.rstrip() or refusal(made, steps)
    if refused:
        return refused
    part = [step for step in steps if step < data[2]]
    return ' '.join(['plan', *map(str, part)]) if len(part) <= room else 'refused 9 0'


# ---- the vectors: what each is for, the task file, the text, the room, and the answer where it is written down here

belt = file(BELT, F=2)  # 0 and 1 are its actions, 2 is end, 3 to 6 collect and forgo


def text(*steps):
    return written(steps).encode()


def belts():
    """End, collect and forgo in any place: what is left out says nothing of whether the list runs."""
    for steps, part in [
            ([], ''), ([0], '0'), ([1], '1'), ([2], ''), ([3], ''), ([4], ''), ([5], ''), ([6], ''), ([0, 2, 4, 5], '0'), ([0, 2, 4, 6], '0'),
            ([2, 4, 5, 0], '0'), ([2, 0], '0'), ([0, 2, 1], '0 1'), ([1, 2, 0], '1 0'), ([2, 1, 3, 0, 4, 1, 6], '1 0 1'), ([6, 5, 4, 3, 2], ''),
            ([6, 5, 4, 3, 2, 1, 0], '1 0'), ([0, 0, 0, 1], '0 0 0 1'), ([1, 0, 0, 0], '1 0 0 0'), ([0, 1, 0, 1, 2, 4, 5], '0 1 0 1'), ([2] * 5 + [1], '1'),
            ([1] + [2] * 5, '1'), ([3, 1, 4, 1, 5], '1 1')]:
        yield f'the belt, {steps}', belt, text(*steps), ENOUGH, f'plan {part}'.rstrip()


def comments():
    for what, lines in [('first', b'; found\n(a0)\n(a2)\n(a1)\n'), ('last', b'(a0)\n(a2)\n(a1)\n; cost = 8\n'), ('between', b'(a0)\n;\n(a2)\n; (a6)\n(a1)\n'),
                        ('with steps of the source', b'(a0)\n;(a1)\n(a1)\n;(a0)\n'), ('with any byte', b';' + bytes({*range(256)} - {10}) + b'\n(a0)\n(a1)\n'),
                        ('many', b';\n' * 300 + b'(a0)\n' + b';\n' * 300 + b'(a1)\n')]:
        yield f'comments, {what}', belt, lines, ENOUGH, 'plan 0 1'
    yield 'comments alone', belt, b';\n; end\n', ENOUGH, 'plan'


def numbers():
    """Below A, from A to A + 2P, and from A + 2P + 1 on; a number too large for a byte is unknown."""
    for what, data, actions, others in [
            ('the belt', belt, 2, 5), ('no actions', file('GOAL'), 0, 1), ('no preferences', file('GOAL ACTION ACTION'), 2, 1),
            ('no actions, 16 preferences', file('GOAL' + ' always' * 16), 0, 33), ('127 actions', file('GOAL' + ' ACTION' * 127), 127, 1),
            ('95 actions, 16 preferences', file('GOAL' + ' ACTION' * 95 + ' sometime 3' * 16), 95, 33)]:
        last = actions + others - 1
        for n in sorted({0, max(actions - 1, 0), actions, last}):
            yield f'{what}, number {n}', data, text(n), ENOUGH, f'plan {n}' if n < actions else 'plan'
        for n in [last + 1, 128, 254, 255, 256, 257, 256 + last, 511, 999, 1000, 65536, 2 ** 32, 2 ** 64]:
            yield f'{what}, number {n}', data, text(n), ENOUGH, 'refused 11 0'
        yield f'{what}, all numbers', data, text(*range(last + 1)), ENOUGH, ' '.join(['plan', *map(str, range(actions))])
        yield f'{what}, all numbers and one more', data, text(*range(last + 2)), ENOUGH, f'refused 11 {last + 1}'
        yield f'{what}, the last twice, then two unknown', data, text(last, last, 255, last + 1), ENOUGH, 'refused 11 2'
    for digits in [b'1' * 5000, b'9' * 5000]:
        yield '5,000 digits', belt, b'(a0)\n(a%s)\n' % digits, ENOUGH, 'refused 11 1'
    yield 'the place counts steps and not lines', belt, b';\n;\n(a0)\n;\n(a7)\n', ENOUGH, 'refused 11 1'


def rooms():
    """Areas that just fit and areas a byte short: what counts is the source part, and not the list."""
    for steps, length in [([0], 1), ([0, 2, 4, 5], 1), ([1, 0, 2, 4, 5], 2), ([2, 3, 4, 5, 6, 0, 1, 0], 3), ([0] * 2048, 2048), ([0, 2] * 1024, 1024),
                          ([0] * 2047 + [6], 2047), ([2] * 2047 + [1], 1)]:
        part = 'plan ' + ' '.join(str(step) for step in steps if step < 2)
        for room in [length, length + 1] if len(steps) < 9 else [length]:
            yield f'{len(steps)} steps, {length} of the source, room {room}', belt, text(*steps), room, part
        for room in sorted({0, length - 1}) if len(steps) < 9 else [length - 1]:
            yield f'{len(steps)} steps, {length} of the source, room {room}', belt, text(*steps), room, 'refused 9 0'
    for steps in [[], [2], [2, 4, 6], [6] * 2048]:
        yield f'{len(steps)} steps, none of the source, no room', belt, text(*steps), 0, 'plan'


def refusals():
    """1 to 8 as of translating, then 12, 10, 11 and 9: of two the first."""
    longest = goal(11988)  # 12,000 rows in the translation of this and one action
    texts = [b'(a)\n', text(0, 254), text(0), b'']
    for what, data, answer in [
            ('no byte', b'', '1 0'), ('7 bytes', belt[:7], '1 0'), ('F 0', file('GOAL', F=0), '2 0'), ('17 preferences', file('GOAL', P=17), '2 0'),
            ('a byte long', belt + b'\0', '3 0'), ('a mark', file('GOAL #20'), '4 1'), ('rows that end too soon', file('GOAL CLAUSE'), '4 2'),
            ('a value', file('GOAL CLAUSE HOLDS 4'), '5 2'), ('an action too many', file('GOAL ACTION', A=0), '6 2'),
            ('127 facts', file('GOAL', F=127), '7 0'), ('128 actions', file('GOAL' + ' ACTION' * 128), '7 0'),
            ('P 16 with A 96', file('GOAL' + ' ACTION' * 96 + ' always' * 16), '7 0'), ('a deadline too many', file('GOAL within STEPS 15', F=108), '7 0'),
            ('12,001 rows', file(longest + ' HOLDS 3 ACTION'), '8 0'), ('7 before 8', file(longest + ' HOLDS 3 ACTION', F=127), '7 0')]:
        for planned in texts if len(data) < 10000 else texts[:1]:
            yield f'{what}, a text of {len(planned)} bytes', data, planned, 0, f'refused {answer}'
    yield '127 facts, 2,049 steps', file('GOAL', F=127), text(*[0] * 2049), 0, 'refused 7 0'
    yield '12,000 rows', file(longest + ' ACTION'), text(0, 1), 1, 'plan 0'
    unknown = b'(a9)\n'
    for what, planned, room, answer in [
            ('12 alone', b'(a0)\n(a01)\n', 2, '12 1'), ('12, a blank line', b'(a0)\n\n', 2, '12 1'), ('12, no newline', b'(a0)\n; end', 2, '12 1'),
            ('12, a comment before it', b';\n(a0)\n(A1)\n', 2, '12 2'), ('12, a blank in the line', b'(a0 )\n', 2, '12 0'),
            ('12 before 10', text(*[0] * 2049) + b'x\n', 2048, '12 2049'), ('12 before 10, first', b'x\n' + text(*[0] * 2049), 2048, '12 0'),
            ('12 before 11', unknown + b'(a\n', 2, '12 1'), ('12 before 11, after it', b'(a\n' + unknown, 2, '12 0'), ('12 before 9', b'(a0)\n(a', 0, '12 1'),
            ('12 before 10, 11 and 9', unknown * 2049 + b'\n', 0, '12 2049'), ('10 alone', text(*[0] * 2049), 2049, '10 0'),
            ('10 where few are of the source', text(*[2] * 2048, 0), 1, '10 0'), ('10 before 11', unknown * 2049, 2049, '10 0'),
            ('10 before 9', text(*[0] * 2049), 0, '10 0'), ('11 alone', text(0, 1, 7), 3, '11 2'), ('11 before 9', text(0, 1, 7), 0, '11 2'),
            ('11 in 2,048 steps', text(*[0] * 2047, 7), 2048, '11 2047'), ('11, the first of two', text(0, 9, 7), 3, '11 1'), ('9 alone', text(0, 1), 1, '9 0')]:
        yield what, belt, planned, room, f'refused {answer}'
    yield '65,536 bytes', belt, b'(a1)\n;' + b'-' * 65529 + b'\n', 1, 'plan 1'
    yield '65,537 bytes', belt, b'(a1)\n;' + b'-' * 65530 + b'\n', 1, 'refused 12 0'


def random_texts(count=240, seed=3131):
    """Lists over the translations of random tasks, comments among them, a third of the texts with a byte put in, left out or changed."""
    chance = Chance(seed)
    for number, (_, data, plan, _) in enumerate(random_tasks(count, seed, SOFT + HARD)):
        if data[0] == 128 and chance.below(6):
            continue  # too many facts in the translation
        actions, known = data[2], data[2] + 2 * data[4] + 1
        steps = [*plan[:chance.one_of([2, 4, 8])], actions, *(actions + 1 + 2 * k + chance.below(2) for k in range(data[4]))]
        for _ in range(chance.below(3)):
            steps.insert(chance.below(len(steps) + 1), chance.below(known + chance.one_of([0, 0, 1, 2])))
        lines = [chance.one_of([b'', b'', b'', b';\n', b'; cost = 3\n']) + text(step) for step in steps]
        planned = b''.join(lines) + chance.one_of([b'', b'; cost = 1\n'])
        if number % 3 == 0:
            at = chance.below(len(planned))
            planned = planned[:at] + chance.one_of([b'', b'0', b'9', b'(', b')', b'a', b';', b'\n', b' ', b'\r']) + planned[at + chance.below(2):]
        length = sum(step < actions for step in read(planned)[0])
        for room in [ENOUGH] if number % 2 else sorted({length, max(length - 1, 0)}):
            yield f'random {number}, room {room}', data, planned, room, ''


def vectors():
    for family in (belts, comments, numbers, rooms, refusals, random_texts):
        for what, data, planned, room, answer in family():
            line = source(data, planned, room)
            assert answer in ('', line), f'{what}: {answer}, but the line is {line}'
            yield f'{what}: {line[:60]}', record(data) + record(planned) + record(struct.pack('<Q', room)), line.encode() + b'\n'


if __name__ == '__main__':
    stored.main('../tests/source', vectors, __doc__)
