#!/usr/bin/env python3
"""What program week writes: the figures of the plans in `plans` on the task in `task`; and what it does with its two files.

tests/week/program.py PROGRAM JUDGE     crates/week/out/week and crates/judge/out/judge

Figures are written out here by hand, taken from the stored vectors (tests/week/vectors.py), and made by Python's statistics from what
program judge prints about each plan.
"""
import os
import sys

sys.path.insert(0, os.path.dirname(os.path.dirname(os.path.abspath(__file__))))
from shared import stored
from shared.chance import Chance
from shared.expected import expect
from shared.files import BELT, HARD, MOST, SOFT, file, goal
from shared.programs import FOLDER, faults, run
from shared.tasks import random_tasks
from shared.weeks import figures, one_after_the_other, plans_file, refused, split

ROOT = os.path.dirname(os.path.dirname(os.path.dirname(os.path.abspath(__file__))))
sys.path.append(os.path.join(ROOT, 'tools'))
import task as tool

belt = file(BELT, F=2)
longest = file(goal(12000))
three = one_after_the_other([[0], [0, 1, 0], [1]])
two_of_three = ('plans 3\nsolving 2\nmetric least 8 greatest 12 sum 20 mean 10 remainder 0\npreference 0 met 0\npreference 1 met 2\n')

# The longest text: all amounts as long as they get.
LONGEST = ('plans 64\nsolving 64\nmetric least 8864812496880 greatest 8864812496880 sum 567347999800320 mean 8864812496880 remainder 0\n'
           + ''.join(f'preference {k} met 0\n' for k in range(16)))

# What each case is for, its files, and what the program has to write.
CASES = [
    ('two of three solve', dict(task=belt, plans=three), two_of_three),
    ('none solves', dict(task=belt, plans=one_after_the_other([[], [1]])), 'plans 2\nsolving 0\n'),
    ('a hard rule missed', dict(task=file('GOAL ACTION 2 EFFECT ADD 0 hard-always CLAUSE LACKS 0'), plans=one_after_the_other([[], [0]])),
     'plans 2\nsolving 1\nmetric least 0 greatest 0 sum 0 mean 0 remainder 0\npreference 0 met 1\n'),
    ('no preferences', dict(task=file('GOAL ACTION 7 ACTION 2'), plans=one_after_the_other([[0], [1], [1, 1]])),
     'plans 3\nsolving 3\nmetric least 2 greatest 7 sum 13 mean 4 remainder 1\n'),
    ('the longest text', dict(task=file(f'GOAL ACTION {MOST}' + f' always {MOST} CLAUSE HOLDS 0' * 16),
                              plans=plans_file([(0, 2048)] * 64, bytes(2048))), LONGEST),
    ('no files', {}, 'no file\n'),
    ('no plans', dict(task=belt), 'no file\n'),
    ('no task', dict(plans=three), 'no file\n'),
    ('no plans beside a refused task', dict(task=b''), 'no file\n'),
    ('no task beside refused plans', dict(plans=b''), 'no file\n'),
    ('the task is a folder', dict(task=FOLDER, plans=three), 'no file\n'),
    ('the plans are a folder', dict(task=belt, plans=FOLDER), 'no file\n'),
    ('an empty task', dict(task=b'', plans=b''), 'refused 1 0\n'),
    ('empty plans', dict(task=belt, plans=b''), 'refused 18 0\n'),
    ('the longest task', dict(task=longest, plans=three), 'refused 11 0\n'),
    ('one byte more', dict(task=longest + b'\0', plans=three), 'refused 3 0\n'),
    ('65,536 bytes', dict(task=longest + bytes(65536 - len(longest)), plans=three), 'refused 3 0\n'),
    ('a size out of range, and a million bytes', dict(task=bytes(1000000), plans=three), 'refused 2 0\n'),
    ('a plan of 2,049 steps', dict(task=belt, plans=plans_file([(0, 1), (0, 2049)], bytes(2049))), 'refused 10 1\n'),
    ('an unknown step', dict(task=belt, plans=plans_file([(0, 1), (1, 1)], [0, 7])), 'refused 11 1\n'),
    # The steps that a plan names may be far from the first, and there may be more of them than any plan can name.
    ('the last start there is', dict(task=belt, plans=plans_file([(65535, 1)], bytes([1] * 65535) + b'\0')),
     'plans 1\nsolving 1\nmetric least 8 greatest 8 sum 8 mean 8 remainder 0\npreference 0 met 0\npreference 1 met 1\n'),
    ('the longest plan at the last start', dict(task=belt, plans=plans_file([(65535, 2048)], bytes(67583))), 'plans 1\nsolving 1\n'
     'metric least 6149 greatest 6149 sum 6149 mean 6149 remainder 0\npreference 0 met 0\npreference 1 met 1\n'),
    ('all steps that a plan can name', dict(task=belt, plans=plans_file([(65535, 65535)], bytes(131070))), 'refused 10 0\n'),
    ('64 such plans', dict(task=belt, plans=plans_file([(0, 1)] * 63 + [(65535, 65535)], bytes(131070))), 'refused 10 63\n'),
    ('a step less', dict(task=belt, plans=plans_file([(65535, 65535)], bytes(131069))), 'refused 18 0\n'),
    ('64 such plans, a step less', dict(task=belt, plans=plans_file([(0, 1)] * 63 + [(65535, 65535)], bytes(131069))), 'refused 18 0\n'),
    ('a million steps', dict(task=belt, plans=plans_file([(65535, 65535), (0, 1)], bytes(1000000))), 'refused 10 0\n'),
    ('a million steps, of which three are named', dict(task=belt, plans=three + bytes(1000000)), two_of_three),
]

# A read that fails is told, however much was read before; a read that gives less than was asked for is not the last.
both = dict(task=belt, plans=three)
READS = [
    ('a task that comes byte by byte', ('task', dict(piece=1)), two_of_three),
    ('plans that come byte by byte', ('plans', dict(piece=1)), two_of_three),
    ('a task whose first read fails', ('task', dict(read=0)), 'no file\n'),
    ('plans whose first read fails', ('plans', dict(read=0)), 'no file\n'),
    ('a task whose second read fails', ('task', dict(piece=50, read=1)), 'no file\n'),
    ('plans whose second read fails', ('plans', dict(piece=5, read=1)), 'no file\n'),
    ('a task that is read, but not its end', ('task', dict(read=1)), 'no file\n'),
    ('plans that are read, but not their end', ('plans', dict(read=1)), 'no file\n'),
]


def files(program):
    for what, given, text in CASES:
        expect(what, run(program, given), (text, '', given))
    for what, (name, of), text in READS:
        expect(what, run(program, both, env=faults(name, **of)), (text, '', both))


def vectors(program):
    """The stored vectors; answers how many there are."""
    texts, records = stored.written('../tests/week'), list(stored.records('../tests/week'))
    for number, (data, plans) in enumerate(zip(records[::2], records[1::2])):
        got, errors, _ = run(program, dict(task=data, plans=plans))
        if errors or not texts.startswith(got) or not got:
            expect(f'vector {number}', got + errors, texts[:300])
        texts = texts[len(got):]
    expect('after the last vector', texts, '')
    return len(records) // 2


def by_judge(program, judge):
    """Weeks of the examples and of random tasks, held to the figures over what judge prints; answers how many plans solve and don't."""
    texts, chance, counts = {}, Chance(64), [0, 0]

    def judged(data, plan):
        if (data, plan) not in texts:
            texts[data, plan] = run(judge, dict(task=data, plan=plan))[0]
            counts['solved' not in texts[data, plan]] += 1
        return texts[data, plan]

    def week(what, data, plans):
        expect(f'{what}: refused', refused(data, plans), '')
        wanted = figures([judged(data, plan) for plan in split(plans)])
        expect(what, run(program, dict(task=data, plans=plans)), (wanted, '', dict(task=data, plans=plans)))

    folder = os.path.join(ROOT, 'examples/batch_house')
    house = tool.text_of(os.path.join(folder, 'task.txt'))
    names = sorted(os.listdir(os.path.join(folder, 'plans')))
    plans = [house.plan(open(os.path.join(folder, 'plans', name)).read()) for name in names]
    week('the batch house', house.file(), one_after_the_other(plans))
    week('the batch house, 64 plans', house.file(), one_after_the_other([chance.one_of(plans) for _ in range(64)]))
    for number, (_, data, plan, _) in enumerate(random_tasks(30, 1730, SOFT + SOFT + HARD)):
        steps = bytes(plan) + bytes(chance.below(data[2]) for _ in range(8))
        starts = [chance.below(len(steps) + 1) for _ in range(1 + chance.below(8))]
        entries = [(start, chance.below(min(7, len(steps) + 1 - start))) for start in starts]
        week(f'random {number}', data, plans_file([(0, len(plan)), *entries], steps))
    return counts


def main(program, judge):
    files(program)
    stored_weeks = vectors(program)
    solved, others = by_judge(program, judge)
    assert solved > 30 and others > 30, (solved, others)
    print(f'program week: {len(CASES) + len(READS)} cases, {stored_weeks} vectors, and figures over {solved} plans that solve and {others} '
          'that do not, as they should be')


if __name__ == '__main__':
    if len(sys.argv) != 3:
        sys.exit(__doc__)
    main(*sys.argv[1:])
