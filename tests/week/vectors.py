#!/usr/bin/env python3
"""The test vectors of a week of plans: task files with files of plans, and the lines that document 02 wants for them.

tests/week/vectors.py           writes tests/week/data/vectors and tests/week/stdout
tests/week/vectors.py --check   writes nothing, and fails where these two files are not what it makes
tests/week/vectors.py --list    says what each vector is for, and its lines

A vector is two records (shared/stored.py): the task file, then the file of plans. tests/compare holds the library to them.

Where lines come from: a refusal, the account in shared/weeks.py; figures, the same over the texts that the outside engine
(shared/engine.py) gives of each plan. Where an answer stands beside a vector, it was written by hand, and has to agree.
"""
import os
import sys

sys.path.insert(0, os.path.dirname(os.path.dirname(os.path.abspath(__file__))))
from shared import stored
from shared.chance import Chance
from shared.engine import text, walked
from shared.files import BELT, HARD, MOST, SOFT, file, preference
from shared.stored import record
from shared.tasks import PHI, PSI, SETTERS, random_tasks
from shared.weeks import figures, one_after_the_other, plans_file, refused, split

belt = file(BELT, F=2)


# ---- the vectors: what each is for, the task file, the file of plans, and the answer where it is written down here

def belts():
    """On the belt the plan 0 has metric 8, 0 1 0 has 12, and 1 0 has 9: always is missed, sometime is met."""
    line = 'metric least {} greatest {} sum {} mean {} remainder {}|preference 0 met 0|preference 1 met {}'
    for what, plans, answer in [
            ('one plan', [[0]], 'plans 1|solving 1|' + line.format(8, 8, 8, 8, 0, 1)),
            ('three plans', [[0], [0, 1, 0], [1, 0]], 'plans 3|solving 3|' + line.format(8, 12, 29, 9, 2, 3)),
            ('some miss the goal', [[], [0], [1], [1, 0], [0, 1]], 'plans 5|solving 2|' + line.format(8, 9, 17, 8, 1, 2)),
            ('none solves', [[], [1], [0, 1]], 'plans 3|solving 0'), ('the empty plan', [[]], 'plans 1|solving 0'),
            ('64 times one plan', [[0]] * 64, 'plans 64|solving 64|' + line.format(8, 8, 512, 8, 0, 64))]:
        yield f'the belt, {what}', belt, one_after_the_other(plans), answer
    overlapping = plans_file([(0, 3), (0, 1), (1, 2), (2, 1), (3, 0)], [0, 1, 0])
    yield 'the belt, plans that overlap', belt, overlapping, 'plans 5|solving 4|' + line.format(8, 12, 37, 9, 1, 4)


def files():
    """Files at the edges: 18 exactly where something is missing, for plans without steps too."""
    two = plans_file([(0, 1), (1, 1)], [0, 0])
    for what, plans, answer in [
            ('no byte', b'', 'refused 18 0'), ('one byte', b'\1', 'refused 18 0'), ('a count alone', b'\1\0', 'refused 18 0'),
            ('count 0', plans_file([], [0, 0]), 'refused 18 0'), ('count 64', plans_file([(0, 1)] * 64, [0]), 'plans 64'),
            ('count 65', plans_file([(0, 1)] * 65, [0]), 'refused 18 0'), ('count 256', plans_file([(0, 1)], [0] * 2000, count=256), 'refused 18 0'),
            ('count 257', plans_file([(0, 1)] * 257, [0]), 'refused 18 0'), ('a start missing', two[:5], 'refused 18 0'),
            ('a length missing', two[:9], 'refused 18 0'), ('no step', two[:10], 'refused 18 0'), ('a step missing', two[:-1], 'refused 18 0'),
            ('a step that no plan has', two + b'\xff', 'plans 2'), ('the start at the end, no step', plans_file([(1, 0)], [0]), 'plans 1'),
            ('the start at the end, one step', plans_file([(1, 1)], [0]), 'refused 18 0'), ('no step at all', plans_file([(0, 0)], []), 'plans 1'),
            ('the start past the end, no step', plans_file([(2, 0)], [0]), 'refused 18 0'),
            ('the same after a good plan', plans_file([(0, 1), (2, 0)], [0]), 'refused 18 0'),
            ('the same before one', plans_file([(2, 0), (0, 1)], [0]), 'refused 18 0'),
            ('start and length over 16 bits', plans_file([(65535, 1)], [0] * 65536), 'plans 1'),
            ('one step less', plans_file([(65535, 1)], [0] * 65535), 'refused 18 0'),
            ('length over 16 bits together', plans_file([(1, 65535)], [0] * 65535), 'refused 18 0'),
            ('a start of 256', plans_file([(256, 1)], [1] * 256 + [0]), 'plans 1'),
            ('a start of 1 among them', plans_file([(1, 1)], [1] * 256 + [0]), 'plans 1')]:
        yield what, belt, plans, answer


def plans_refused():
    """The first plan that is long or has an unknown step decides, 10 before 11 on one; 18 before them, and the task's refusals first."""
    steps = [0] * 2049 + [2]
    good, longest, long, unknown, both = (0, 1), (0, 2048), (0, 2049), (2049, 1), (1, 2049)
    for entries, answer in [
            ([long], '10 0'), ([unknown], '11 0'), ([both], '10 0'), ([good, long], '10 1'), ([good, unknown], '11 1'), ([long, unknown], '10 0'),
            ([unknown, long], '11 0'), ([good, good, both, unknown, long], '10 2'), ([good, unknown, both], '11 1'), ([longest, unknown], '11 1'),
            ([good] * 63 + [unknown], '11 63'), ([good] * 63 + [long], '10 63'), ([long, (2050, 1)], '18 0'), ([unknown, (2051, 0)], '18 0')]:
        yield f'plans {entries[-3:]}', belt, plans_file(entries, steps), f'refused {answer}'
    yield '2,048 steps', belt, plans_file([longest, good], steps), 'plans 2'
    yield 'an unknown step after one that stops', file(f'GOAL ACTION {PHI}'), one_after_the_other([[0, 1]]), 'refused 11 0'
    for what, data, answer in [('no byte', b'', '1 0'), ('F 0', file('GOAL', F=0), '2 0'), ('a byte long', belt + b'\0', '3 0'),
                               ('an unknown mark', file('GOAL #20'), '4 1'), ('a fact too high', file('GOAL CLAUSE HOLDS 4'), '5 2'),
                               ('an action too many', file('GOAL ACTION', A=0), '6 2')]:
        for plans in [b'', plans_file([(9, 9)], []), plans_file([long], steps), plans_file([good], steps)]:
            yield f'{what}, plans of {len(plans)} bytes', data, plans, f'refused {answer}'


def greatest():
    """No sum wraps."""
    for word, metric, met in [('HOLDS', 8864812496880, 0), ('LACKS', 8796093020160, 64)]:
        data = file(f'GOAL ACTION {MOST}' + f' always {MOST} CLAUSE {word} 0' * 16, F=1)
        line = f'metric least {metric} greatest {metric} sum {64 * metric} mean {metric} remainder 0'
        answer = '|'.join(['plans 64', 'solving 64', line, *(f'preference {k} met {met}' for k in range(16))])
        yield f'64 plans of 2,048 steps, {met} met', data, plans_file([(0, 2048)] * 64, [0] * 2048), answer
    data = file(f'GOAL ACTION {MOST} ACTION 1')
    yield 'over 32 bits', data, one_after_the_other([[0, 1], [0, 0], [1]]), (
        'plans 3|solving 3|metric least 1 greatest 8589934590 sum 12884901887 mean 4294967295 remainder 2')
    for n in [1, 2, 3, 7, 63, 64]:
        costs = one_after_the_other([[1]] * (n - 1) + [[0]])
        yield f'{n} plans, one dear', data, costs, f'plans {n}|solving {n}|metric least {1 if n > 1 else MOST} greatest {MOST} sum {MOST + n - 1} ' \
            f'mean {(MOST + n - 1) // n} remainder {(MOST + n - 1) % n}'


def kinds():
    """All kinds, soft and hard, on plans that go through the states of φ and ψ."""
    chance = Chance(14)
    for number in range(24):
        names = SOFT if number < 16 else SOFT[:4] + [HARD[number % 8]] + SOFT[4:]
        rules = ''.join(preference(kind, 1 << k, PHI, PSI, 1 + number % 2) for k, kind in enumerate(names))
        steps = [chance.below(4) for _ in range(12)]
        entries = [(start, chance.below(min(6, 13 - start))) for start in (chance.below(13) for _ in range(1 + chance.below(12)))]
        yield f'kinds {number}', file(f'START {number % 2} GOAL {SETTERS} {rules}', F=2), plans_file(entries, steps), ''


def random_weeks(count=60, seed=1414):
    chance = Chance(seed)
    for number, (_, data, plan, _) in enumerate(random_tasks(count, seed, SOFT + SOFT + HARD)):
        plans = [plan] + [[chance.below(data[2]) for _ in range(chance.below(6))] for _ in range(chance.below(8))]
        yield f'random {number}', data, one_after_the_other(plans), ''


def vectors():
    """What each vector is for, the task file, the file of plans, and the lines."""
    made = [vector for family in (belts, files, plans_refused, greatest, kinds, random_weeks) for vector in family()]
    lines = {t: refused(data, plans) for t, (_, data, plans, _) in enumerate(made)}
    pairs = {}  # each task with each of its plans once: the engine's number of the two
    for t in (t for t in lines if not lines[t]):
        for plan in split(made[t][2]):
            pairs.setdefault((made[t][1], plan), len(pairs))
    atoms = walked({number: pair for pair, number in pairs.items()})
    for t, (what, data, plans, answer) in enumerate(made):
        judged = [text(atoms[pairs[data, plan]], data, plan) for plan in split(plans)] if not lines[t] else []
        got = lines[t] or figures(judged)
        first, *others = got.splitlines()
        assert answer in ('', first, '|'.join([first, *others])), f'{what}: {answer}, but the lines are {got}'
        yield what, data, plans, got


def parts():
    for what, data, plans, lines in vectors():
        yield f'{what}: {"|".join(lines.splitlines())}', record(data) + record(plans), lines.encode()


if __name__ == '__main__':
    stored.main('../tests/week', parts, __doc__)
