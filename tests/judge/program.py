#!/usr/bin/env python3
"""What program judge does with its two files: one that is missing, that is a folder, that is longer than any accepted one, or
that can't be read to its end.

tests/judge/program.py PROGRAM     PROGRAM is crates/judge/out/judge
"""
import os
import sys

sys.path.insert(0, os.path.dirname(os.path.dirname(os.path.abspath(__file__))))
from shared.files import BELT, MOST, file, goal
from shared.programs import FOLDER, faults, run

belt = file(BELT, F=2)
longest = file(goal(12000))
four_lines = 'solved steps 1 cost 3\n0 always 5 missed\n1 sometime 7 met\nmetric 8 utility 4\n'

LONGEST = ('solved steps 2048 cost 8796093020160\n' + ''.join(f'{k} sometime-before 4294967295 missed\n' for k in range(16))
           + 'metric 8864812496880 utility -8796093020160\n')
assert len(LONGEST) == 663

# What each case is for, its files, and what the program has to write.
CASES = [
    ('the belt', dict(task=belt, plan=b'\0'), four_lines),
    ('the empty plan', dict(task=belt, plan=b''), 'goal missed\n'),
    ('a hard rule met', dict(task=file('GOAL ACTION 2 hard-always CLAUSE LACKS 0'), plan=b'\0'),
     'solved steps 1 cost 2\n0 hard-always 0 met\nmetric 2 utility -2\n'),
    ('a hard rule missed', dict(task=file('GOAL always 5 hard-sometime CLAUSE HOLDS 0'), plan=b''), 'rule missed 1\n'),
    ('no files', {}, 'no file\n'),
    ('no plan', dict(task=belt), 'no file\n'),
    ('no task', dict(plan=b'\0'), 'no file\n'),
    ('no plan beside a refused task', dict(task=b''), 'no file\n'),
    ('the task is a folder', dict(task=FOLDER, plan=b'\0'), 'no file\n'),
    ('the plan is a folder', dict(task=belt, plan=FOLDER), 'no file\n'),
    ('an empty task', dict(task=b'', plan=b''), 'refused 1 0\n'),
    ('the longest task', dict(task=longest, plan=b''), 'goal missed\n'),
    ('one byte more', dict(task=longest + b'\0', plan=b''), 'refused 3 0\n'),
    ('65,536 bytes', dict(task=longest + bytes(65536 - len(longest)), plan=b''), 'refused 3 0\n'),
    ('as many bytes more as the task has', dict(task=longest * 2, plan=b''), 'refused 3 0\n'),
    ('a size out of range, and a million bytes', dict(task=bytes(1000000), plan=b''), 'refused 2 0\n'),
    ('2,049 steps', dict(task=belt, plan=bytes(2049)), 'refused 10 0\n'),
    ('100,000 steps', dict(task=belt, plan=bytes(100000)), 'refused 10 0\n'),
    ('an unknown step after the 2,048th', dict(task=belt, plan=bytes(2048) + b'\7'), 'refused 10 0\n'),
    ('the longest report', dict(task=file(f'GOAL ACTION {MOST}' + f' sometime-before {MOST} SECOND' * 16), plan=bytes(2048)), LONGEST),
    ('the greatest utility', dict(task=file('GOAL' + f' at-end {MOST}' * 16), plan=b''),
     'solved steps 0 cost 0\n' + ''.join(f'{k} at-end 4294967295 met\n' for k in range(16)) + 'metric 0 utility 68719476720\n'),
    ('amounts over 32 bits', dict(task=file(f'GOAL ACTION {MOST} ACTION 1 always {MOST} always 1 CLAUSE HOLDS 0'), plan=b'\0\1'),
     'solved steps 2 cost 4294967296\n0 always 4294967295 met\n1 always 1 missed\nmetric 4294967297 utility -1\n'),
]

# A read that fails is told, however much was read before; a read that gives less than was asked for is not the last.
both = dict(task=belt, plan=b'\0\1\0')
READS = [
    ('a task that comes byte by byte', ('task', dict(piece=1)), 'solved steps 3 cost 7\n0 always 5 missed\n1 sometime 7 met\nmetric 12 utility 0\n'),
    ('a plan that comes byte by byte', ('plan', dict(piece=1)), 'solved steps 3 cost 7\n0 always 5 missed\n1 sometime 7 met\nmetric 12 utility 0\n'),
    ('a task whose first read fails', ('task', dict(read=0)), 'no file\n'),
    ('a plan whose first read fails', ('plan', dict(read=0)), 'no file\n'),
    ('a task whose second read fails', ('task', dict(piece=50, read=1)), 'no file\n'),
    ('a task that is read, but not its end', ('task', dict(read=1)), 'no file\n'),
    ('a plan whose first step is read', ('plan', dict(piece=1, read=1)), 'no file\n'),
    ('a plan that is read, but not its end', ('plan', dict(read=1)), 'no file\n'),
]


def main(program):
    for what, files, text in CASES:
        got, errors, left = run(program, files)
        if (got, errors, left) != (text, '', files):
            sys.exit(f'{what}: {got!r} {errors!r}, and not {text!r}, or a file changed')
    for what, (name, of), text in READS:
        got = run(program, both, env=faults(name, **of))
        if got != (text, '', both):
            sys.exit(f'{what}: {got}, and not {text!r}, or a file changed')
    print(f'program judge: {len(CASES) + len(READS)} cases as they should be')


if __name__ == '__main__':
    if len(sys.argv) != 2:
        sys.exit(__doc__)
    main(sys.argv[1])
