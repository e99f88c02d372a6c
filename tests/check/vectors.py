#!/usr/bin/env python3
"""The test vectors of check: files, and the lines that document 01 and requests 6, 8 and 9 of document 02 want for them.

tests/check/vectors.py           writes crates/check_vectors/data/vectors and crates/check_vectors/stdout
tests/check/vectors.py --check   writes nothing, and fails where these two files are not what it makes
tests/check/vectors.py --list    says what each vector is for, and which line it must get

A vector is one record (shared/stored.py), the file. Its line is that of the account in shared/account.py. Where an answer stands beside a
vector, it was written by hand, and has to agree with the line.
"""
import os
import sys

sys.path.insert(0, os.path.dirname(os.path.dirname(os.path.abspath(__file__))))
from shared import stored
from shared.account import check
from shared.files import BELT, HARD, MOST, NAME, OF_FACTS, PREFERENCES, SOFT, TRIED, WITH_SECOND, WITH_STEPS, file, goal, preference, spelled


# ---- the vectors: what each is for, how its line begins where that is written down here too, and the file

LONG = ' CLAUSE HOLDS 0 LACKS 3 CLAUSE LACKS 1 '
ALL_KINDS = f'START 0 START 3 GOAL {LONG}' + 2 * f'ACTION 9 {LONG} EFFECT {LONG} ADD 0 ADD 1 DELETE 2 DELETE 3 EFFECT {LONG}' + (
    ''.join(preference(kind, 7, LONG, LONG, 15) for kind in PREFERENCES))


def accepted_tasks():
    for what, text in [
            ('GOAL alone', 'GOAL'), ('no START', goal(4)), ('START and GOAL', 'START 2 GOAL'),
            ('actions without effects', 'GOAL ACTION 1 ACTION 2 CLAUSE HOLDS 1 ACTION 3'),
            ('effects without ADD and DELETE', 'GOAL ACTION EFFECT EFFECT CLAUSE LACKS 2 EFFECT'),
            ('ADD alone, DELETE alone', 'GOAL ACTION EFFECT ADD 1 EFFECT DELETE 1 EFFECT ADD 2 DELETE 0'),
            ('empty conditions', 'GOAL always sometime at-end at-most-once sometime-before SECOND sometime-after SECOND'),
            ('one of two conditions empty', 'GOAL sometime-before SECOND CLAUSE HOLDS 1 sometime-after CLAUSE HOLDS 1 SECOND'),
            ('a literal twice', 'GOAL CLAUSE HOLDS 1 HOLDS 1 ACTION CLAUSE LACKS 2 LACKS 2'),
            ('HOLDS and LACKS of one fact', 'GOAL CLAUSE HOLDS 1 LACKS 1 CLAUSE LACKS 1 CLAUSE HOLDS 1'),
            ('a fact added twice, deleted twice, both', 'GOAL ACTION EFFECT ADD 1 ADD 1 DELETE 2 DELETE 2 EFFECT ADD 1 DELETE 1'),
            ('an action and a preference twice', 'GOAL ACTION 1 ACTION 1 always 1 always 1'),
            ('all eight kinds, soft and hard, every part in its longest form', ALL_KINDS),
            ('deadlines, empty conditions', 'GOAL within STEPS always-within STEPS SECOND within 1 STEPS 15'),
            ('deadlines, φ empty', 'GOAL always-within STEPS 1 SECOND CLAUSE HOLDS 1'),
            ('deadlines, ψ empty', 'GOAL always-within STEPS 2 CLAUSE HOLDS 1 SECOND'),
            ('deadlines among the other kinds', 'GOAL always within STEPS 3 at-end always-within STEPS 4 SECOND sometime-after SECOND'),
            ('16 deadlines', 'GOAL' + 8 * f' within {MOST} STEPS 15 always-within {MOST} STEPS 15 SECOND'),
            ('the greatest amount in every place', 'GOAL' + f' ACTION {MOST}' * 3 + ''.join(preference(kind, MOST) for kind in PREFERENCES)),
            ('hard rules, empty conditions', 'GOAL' + ''.join(preference(kind, 0) for kind in HARD)),
            ('hard rules between soft ones', 'GOAL always 9 hard-always sometime 9 hard-within STEPS 3 within 9 STEPS 3 hard-at-end at-end 9'),
            ('a soft rule and the same one hard', f'GOAL sometime-before 1 {LONG} SECOND {LONG} hard-sometime-before {LONG} SECOND {LONG}'),
            ('a hard rule twice', 'GOAL hard-sometime CLAUSE HOLDS 1 hard-sometime CLAUSE HOLDS 1'),
            ('16 hard rules', 'GOAL' + ' hard-at-most-once' * 16)]:
        yield what, 'accepted', file(text)
    yield 'a belt and a gate', 'accepted 2 2 2 18', file(BELT, F=2)


def lengths_and_sizes():
    for n in range(8):
        yield f'{n} bytes', 'refused 1 0', bytes(n)
    yield '8 bytes, N 0', 'refused 4 0', file('')
    yield '9 bytes, N 0', 'refused 3 0', file('') + b'\0'
    yield '9 bytes, F 0: 2 before 3', 'refused 2 0', bytes(9)
    for f in [0, 1, 128, 129, 256, 257, 65535]:
        yield f'F {f}', f'accepted {f} 0 0 3' if f in (1, 128) else 'refused 2 0', file('GOAL CLAUSE HOLDS 0', F=f)
    for a in [0, 128, 129, 256]:
        yield f'{a} actions', f'accepted 4 {a} 0 {a + 1}' if a <= 128 else 'refused 2 0', file('GOAL' + ' ACTION' * a)
    for p in [0, 16, 17, 256]:
        yield f'{p} preferences', f'accepted 4 0 {p} {p + 1}' if p <= 16 else 'refused 2 0', file('GOAL' + ' at-end' * p)
    for n in [255, 256, 300, 12001]:
        yield f'{n} rows', f'accepted 4 0 0 {n}' if n <= 12000 else 'refused 2 0', file(goal(n))
    yield 'all sizes at their limit', 'accepted 128 128 16 12000', file(goal(11856) + ' ACTION' * 128 + ' always' * 16, F=128)
    for header in [dict(A=256), dict(A=65535), dict(P=256), dict(P=65535), dict(N=12001), dict(N=65535), dict(F=0, N=2)]:
        yield f'{header} before GOAL alone', 'refused 2 0', file('GOAL', **header)
    for n in [3, 256, 300]:
        yield f'{n} rows, one byte short', 'refused 3 0', file(goal(n))[:-1]
        yield f'{n} rows, one byte long', 'refused 3 0', file(goal(n)) + b'\0'
    yield '12,000 rows, one byte long', 'refused 3 0', file(goal(12000)) + b'\0'
    for n in [0, 2, 4, 256, 259, 12000]:
        yield f'3 rows, and N is {n}', 'refused 3 0', file(goal(3), N=n)
    yield '3 before 4, 5 and 6', 'refused 3 0', file('CLAUSE 1', A=2) + b'\0'


def values():
    for name in ['ACTION', *SOFT]:
        for value in [0, 65536, 1000000, 1000001, 2 ** 24, 2 ** 31 - 1, 2 ** 31, MOST - 1, MOST]:
            text = f'GOAL {name} {value}' if name == 'ACTION' else 'GOAL' + preference(name, value)
            yield f'{name} {value}', 'accepted', file(text)
    for name in HARD:
        for value in [0, 1, 2, 255, 256, 65536, 1000000, 1000001, 2 ** 24, 2 ** 31, 2 ** 32 - 1]:
            text = 'GOAL' + preference(name, 0).replace(name, f'{name} {value}')
            yield f'{name} {value}', 'refused 5 1' if value else 'accepted', file(text)
    for name in WITH_STEPS:
        for value in [0, 1, 8, 14, 15, 16, 17, 31, 256, 2 ** 32 - 1]:
            yield f'{name}, STEPS {value}', 'accepted' if value <= 15 else 'refused 5 2', file('GOAL' + preference(name, 5, steps=value))
    for before, names in [('', 'START'), ('GOAL CLAUSE', 'HOLDS LACKS'), ('GOAL ACTION CLAUSE', 'HOLDS LACKS'),
                          ('GOAL ACTION EFFECT CLAUSE', 'HOLDS LACKS'), ('GOAL ACTION EFFECT', 'ADD DELETE'),
                          ('GOAL at-end CLAUSE', 'HOLDS LACKS'), ('GOAL sometime-after SECOND CLAUSE', 'HOLDS LACKS')]:
        for name in names.split():
            for f, value in [(1, 0), (1, 1), (4, 3), (4, 4), (128, 127), (128, 128), (128, 256), (128, 65536), (128, 2 ** 24)]:
                text = f'{before} {name} {value}' + (' GOAL' if name == 'START' else '')
                answer = 'accepted' if value < f else f'refused 5 {len(spelled(before))}'
                yield f'{before} {name} {value}, F {f}', answer, file(text, F=f)
    for before, name in [('GOAL ACTION', 'EFFECT'), ('GOAL', 'CLAUSE'), ('', 'GOAL'), ('GOAL sometime-before', 'SECOND')]:
        for value in [1, 256, 65536, 2 ** 24, 2 ** 32 - 1]:
            yield f'{name} {value}', f'refused 5 {len(spelled(before))}', file(f'{before} {name} {value}')
    for text, answer in [
            ('START 1 START 1 GOAL', 'refused 5 1'), ('START 2 START 1 GOAL', 'refused 5 1'), ('START 0 START 1 START 3 GOAL', 'accepted'),
            ('START 0 START 2 START 1 GOAL', 'refused 5 2'), ('START 0 START 1 START 4 GOAL', 'refused 5 2')]:
        yield text, answer, file(text)
    every = ' '.join(f'START {fact}' for fact in range(128))
    yield 'START of all 128 facts', 'accepted 128 0 0 129', file(every + ' GOAL', F=128)
    yield 'START of all 128 facts, the last again', 'refused 5 128', file(every + ' START 127 GOAL', F=128)


def limit(mark):
    """The greatest value that a mark allows, F being 4."""
    name = NAME.get(mark)
    return MOST if name in ['ACTION', *SOFT] else 3 if name in ['START', *OF_FACTS] else 15 if name == 'STEPS' else 0


def over(mark):
    """The value after that; of costs and weights, which may be any number of 32 bits, the greatest again."""
    return min(limit(mark) + 1, 2 ** 32 - 1)


def with_condition(owner):
    return [owner + more for more in ['', ' CLAUSE', ' CLAUSE HOLDS 1']]


def contexts():
    """Every context without a deadline against every mark, with a value that the mark allows and with one that it does not. After a
    hard rule the contexts are those of its kind. A cost and a weight have no value that is not allowed."""
    without = [kind for kind in SOFT if kind not in WITH_STEPS]
    owners = ['GOAL', 'GOAL ACTION 5', 'GOAL ACTION 5 EFFECT', *(f'GOAL {kind} 5' for kind in without),
              *(f'GOAL {kind} 5 SECOND' for kind in without if kind in WITH_SECOND)]
    conditions = [before for owner in owners for before in with_condition(owner)]
    for before in ['', 'START 0', *conditions, 'GOAL ACTION 5 EFFECT ADD 1', 'GOAL ACTION 5 EFFECT DELETE 1']:
        for mark in TRIED:
            for value in sorted({limit(mark), over(mark)}):
                yield f'{before}, then mark {mark} with {value}', '', file(f'{before} #{mark} {value}')


def at_the_limit(contexts):
    """Contexts against every mark, with a value that it does not allow, if there is one: 5 says that it may come; a cost or a weight that may
    come is not refused in its row."""
    for before in contexts:
        for mark in TRIED:
            yield f'{before}, then mark {mark} with {over(mark)}', '', file(f'{before} #{mark} {over(mark)}')


def contexts_of_deadlines():
    """Their contexts against every mark, then rows out of order."""
    owners = ['GOAL within 5 STEPS 15', 'GOAL always-within 5 STEPS 15', 'GOAL always-within 5 STEPS 15 SECOND']
    conditions = [before for owner in owners for before in with_condition(owner)]
    yield from at_the_limit(['GOAL within 5', 'GOAL always-within 5', *conditions])
    for text, row in [
            ('GOAL within CLAUSE HOLDS 0 STEPS 1', 2), ('GOAL within SECOND', 2), ('GOAL within STEPS 1 STEPS 1', 3),
            ('GOAL within STEPS 1 CLAUSE HOLDS 0 STEPS 1', 5), ('GOAL within STEPS 1 SECOND', 3),
            ('GOAL within STEPS 1 CLAUSE HOLDS 0 SECOND', 5), ('GOAL within always-within STEPS 1 SECOND', 2),
            ('GOAL always-within SECOND STEPS 1', 2), ('GOAL always-within STEPS 1 SECOND STEPS 1', 4),
            ('GOAL always-within STEPS 1 SECOND SECOND', 4), ('GOAL always-within STEPS 1 always', 3),
            ('GOAL always STEPS 1', 2), ('GOAL sometime-before STEPS 1 SECOND', 2), ('GOAL sometime-after SECOND STEPS 1', 3),
            ('GOAL at-end CLAUSE HOLDS 0 STEPS 1', 4), ('STEPS 1 GOAL', 0), ('GOAL STEPS 1', 1), ('GOAL ACTION STEPS 1', 2)]:
        yield text, f'refused 4 {row}', file(text)


def contexts_of_hard_rules():
    """Their contexts against every mark, then marks that look like hard ones, and hard rules out of order."""
    opened = [f'GOAL {kind}' + (' STEPS 15' if kind in WITH_STEPS else '') for kind in HARD]
    owners = [*opened, *(f'{owner} SECOND' for owner in opened if owner.split()[1] in WITH_SECOND)]
    unopened = [f'GOAL {kind}' for kind in HARD if kind in WITH_STEPS]
    yield from at_the_limit([*unopened, *(before for owner in owners for before in with_condition(owner))])
    for mark in [20, 21, 22, 23, 24, 25, 32, 35, 36, 42, 255]:
        for before in ['', 'START 0', 'GOAL', 'GOAL ACTION', 'GOAL always', 'GOAL hard-always', 'GOAL hard-sometime-before',
                       'GOAL hard-always-within STEPS 1 CLAUSE HOLDS 0', 'GOAL hard-within']:
            yield f'{before}, then mark {mark}', f'refused 4 {len(spelled(before))}', file(f'{before} #{mark} 0')
    for text, row in [
            ('hard-always GOAL', 0), ('START 0 hard-always GOAL', 1), ('GOAL hard-always ACTION', 2), ('GOAL hard-always EFFECT', 2),
            ('GOAL hard-always SECOND', 2), ('GOAL hard-sometime STEPS 1', 2), ('GOAL hard-at-end CLAUSE HOLDS 0 SECOND', 4),
            ('GOAL hard-sometime-before always', 2), ('GOAL hard-sometime-before hard-always', 2), ('GOAL sometime-after hard-always', 2),
            ('GOAL hard-sometime-after SECOND SECOND', 3), ('GOAL hard-within CLAUSE HOLDS 0', 2), ('GOAL hard-within hard-always', 2),
            ('GOAL hard-within STEPS 1 SECOND', 3), ('GOAL hard-within STEPS 1 STEPS 1', 3), ('GOAL hard-always-within SECOND', 2),
            ('GOAL hard-always-within STEPS 1 hard-always', 3), ('GOAL hard-always-within STEPS 1 SECOND STEPS 1', 4),
            ('GOAL CLAUSE hard-always', 2), ('GOAL ACTION CLAUSE hard-always', 3), ('GOAL always CLAUSE hard-always', 3)]:
        yield text, f'refused 4 {row}', file(text)
    for text, answer in [('GOAL hard-always 1 SECOND', 'refused 5 1'), (f'GOAL hard-always {MOST}', 'refused 5 1'),
                         ('GOAL #32 1', 'refused 4 1'), ('hard-always 1 GOAL', 'refused 4 0'), ('GOAL sometime-before hard-always 1', 'refused 4 2'),
                         ('GOAL hard-within STEPS 16', 'refused 5 2'), ('GOAL hard-always-within 1 STEPS 16', 'refused 5 1')]:
        yield f'{text}, 4 before 5 on one row, the first faulty row decides', answer, file(text)


def order_of_causes():
    for what, text, answer in [
            ('5, then 4', 'GOAL CLAUSE HOLDS 4 ADD 1', 'refused 5 2'), ('4, then 5', 'GOAL CLAUSE ADD 1 HOLDS 4', 'refused 4 2'),
            ('5 in row 0, then 4', 'GOAL 1 GOAL', 'refused 5 0'), ('4 in row 0, then 5', '#0 7 GOAL 1', 'refused 4 0'),
            ('5, then an end inside a task', 'GOAL 1 CLAUSE', 'refused 5 0'), ('4, then one', 'GOAL ADD 0 CLAUSE', 'refused 4 1'),
            ('5 in row 299', goal(299) + ' HOLDS 4', 'refused 5 299'), ('4 in row 299', goal(299) + ' ADD 1', 'refused 4 299')]:
        yield what, answer, file(text)
    for text in ['', 'START 0', 'START 0 START 1', 'GOAL CLAUSE', goal(4) + ' CLAUSE', goal(299) + ' CLAUSE', 'GOAL ACTION CLAUSE',
                 'GOAL ACTION EFFECT CLAUSE', 'GOAL always CLAUSE', 'GOAL sometime-before', 'GOAL sometime-before CLAUSE',
                 'GOAL sometime-after', 'GOAL sometime-after CLAUSE HOLDS 1', 'GOAL sometime-after SECOND CLAUSE',
                 'GOAL within', 'GOAL within STEPS 15 CLAUSE', 'GOAL always-within', 'GOAL always-within STEPS 15',
                 'GOAL always-within STEPS 15 CLAUSE HOLDS 1', 'GOAL always-within STEPS 15 SECOND CLAUSE',
                 'GOAL hard-always CLAUSE', 'GOAL hard-sometime-before', 'GOAL hard-sometime-after CLAUSE HOLDS 1', 'GOAL hard-within',
                 'GOAL hard-always-within', 'GOAL hard-always-within STEPS 15', 'GOAL hard-always-within STEPS 15 SECOND CLAUSE']:
        yield f'ends inside a task: {text[-50:]}', f'refused 4 {len(spelled(text))}', file(text)
        yield f'ends inside a task, before 6: {text[-50:]}', f'refused 4 {len(spelled(text))}', file(text, A=7, P=7)


def counts():
    two = 'GOAL ACTION 1 ACTION 2 always 1 sometime 2'
    for header in [dict(A=1), dict(A=3), dict(P=1), dict(P=3), dict(A=3, P=1), dict(A=1, P=3), dict(A=4, P=0), dict(A=0, P=4)]:
        yield f'2 actions, 2 preferences, and {header}', 'refused 6 5', file(two, **header)
        yield f'{header}, but 4 in a later row', 'refused 4 5', file(two + ' GOAL', **header)
        yield f'{header}, but 5 in a later row', 'refused 5 5', file(two + ' CLAUSE 1', **header)
    for what, text, header in [
            ('129 actions', 'GOAL' + ' ACTION' * 129, dict(A=128)), ('257 actions', 'GOAL' + ' ACTION' * 257, dict(A=1)),
            ('17 preferences', 'GOAL' + ' at-end' * 17, dict(P=16)), ('272 preferences', 'GOAL' + ' at-end' * 272, dict(P=16)),
            ('17 deadlines', 'GOAL' + ' within STEPS' * 17, dict(P=16)), ('one deadline', 'GOAL within STEPS', dict(P=0)),
            ('17 hard rules', 'GOAL' + ' hard-always' * 17, dict(P=16)), ('one hard rule', 'GOAL hard-sometime', dict(P=0)),
            ('a soft and a hard rule', 'GOAL sometime hard-sometime', dict(P=1)), ('two hard rules', 'GOAL hard-at-end hard-always', dict(P=3)),
            ('no action', 'GOAL', dict(A=128)), ('no preference', 'GOAL', dict(P=16)), ('300 rows', goal(300), dict(A=1))]:
        yield f'{what}, and {header}', f'refused 6 {len(spelled(text))}', file(text, **header)


def vectors():
    """What each vector is for, the file, and the line that the program has to write."""
    families = [accepted_tasks, lengths_and_sizes, values, contexts, contexts_of_deadlines, contexts_of_hard_rules, order_of_causes, counts]
    for family in families:
        for what, answer, data in family():
            line = check(data)
            assert answer in ('', line, line.split()[0]), f'{what}: {line}, and not {answer}'
            yield what, data, line


def parts():
    for what, data, line in vectors():
        yield f'{what}: {line}', stored.record(data), line.encode() + b'\n'


if __name__ == '__main__':
    stored.main('check_vectors', parts, __doc__)
