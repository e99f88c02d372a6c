#!/usr/bin/env python3
"""What program confirm says of a planner's text: judge's lines about its source part and what the planner paid, or one line.

tests/confirm/program.py CONFIRM TRANSLATE JUDGE [COUNT [SEED]]     the programs of these names, crates/NAME/out/NAME

Cases by hand on the belt and small tasks; files that are missing, that are folders, too long, or not to be read to their end. Then
random small tasks that the outside engine plans on their translation: judge's lines about the source part, which is found here, and the
engine's cost.
"""
import os
import random
import sys

sys.path.insert(0, os.path.dirname(os.path.dirname(os.path.abspath(__file__))))
from shared.expected import expect
from shared.files import BELT, file, goal
from shared.planning import HORIZON, plan, random_task
from shared.programs import FOLDER, faults, run

belt = file(BELT, F=2)
solution = b'(a0)\n(a2)\n(a4)\n(a5)\n; cost = 8\n'
five_lines = 'solved steps 1 cost 3\n0 always 5 missed\n1 sometime 7 met\nmetric 8 utility 4\npaid 8\n'
longest = file(goal(12000))
dear = file('GOAL ACTION 4294967295 always 4294967295 CLAUSE HOLDS 0')
hard = file('GOAL ACTION 1 EFFECT ADD 0 hard-sometime CLAUSE HOLDS 0')


def text(*steps):
    return ''.join(f'(a{step})\n' for step in steps).encode()


# What each case is for, its files, and what the program has to write.
CASES = [
    ('the belt', dict(task=belt, planned=solution), five_lines),
    ('a comment between', dict(task=belt, planned=b'; a\n(a0)\n; b\n(a2)\n(a4)\n(a5)\n'), five_lines),
    ('a comment with another price', dict(task=belt, planned=text(0, 2, 4, 5) + b'; cost = 7\n'), five_lines),
    ('a longer way', dict(task=belt, planned=text(1, 0, 2, 4, 5)),
     'solved steps 2 cost 4\n0 always 5 missed\n1 sometime 7 met\nmetric 9 utility 3\npaid 9\n'),
    ('the greatest costs', dict(task=dear, planned=text(*[0] * 2046, 1, 3)),
     'solved steps 2046 cost 8787503085570\n0 always 4294967295 missed\nmetric 8791798052865 utility -8787503085570\npaid 8791798052865\n'),
    ('no closing', dict(task=belt, planned=text(0, 2)), 'goal missed\n'),
    ('no end', dict(task=belt, planned=text(0)), 'goal missed\n'),
    ('a rule forgone that is met', dict(task=belt, planned=text(0, 2, 4, 6)), 'stopped 3\n'),
    ('a rule collected that is missed', dict(task=belt, planned=text(0, 2, 3, 5)), 'stopped 2\n'),
    ('a step after end', dict(task=belt, planned=text(0, 2, 1, 4, 5)), 'stopped 2\n'),
    ('closings in another order', dict(task=belt, planned=text(0, 2, 5, 4)), 'stopped 2\n'),
    ('the goal missed', dict(task=belt, planned=text(2, 4, 6)), 'goal missed\n'),
    ('nothing', dict(task=belt, planned=b''), 'goal missed\n'),
    ('a hard rule met', dict(task=hard, planned=text(0, 1, 2)), 'solved steps 1 cost 1\n0 hard-sometime 0 met\nmetric 1 utility -1\npaid 1\n'),
    ('a hard rule forgone', dict(task=hard, planned=text(1, 3)), 'stopped 1\n'),
    ('no rules', dict(task=file('GOAL'), planned=text(0)), 'solved steps 0 cost 0\nmetric 0 utility 0\npaid 0\n'),
    ('no files', {}, 'no file\n'),
    ('no text', dict(task=belt), 'no file\n'),
    ('no task', dict(planned=solution), 'no file\n'),
    ('no text beside a refused task', dict(task=b''), 'no file\n'),
    ('the task is a folder', dict(task=FOLDER, planned=solution), 'no file\n'),
    ('the text is a folder', dict(task=belt, planned=FOLDER), 'no file\n'),
    ('an empty task', dict(task=b'', planned=b'('), 'refused 1 0\n'),
    ('a task too wide to translate', dict(task=file('GOAL', F=127), planned=b'('), 'refused 7 0\n'),
    ('a translation too long', dict(task=longest, planned=b'('), 'refused 8 0\n'),
    ('one byte more than the longest task', dict(task=longest + b'\0', planned=b''), 'refused 3 0\n'),
    ('a faulty line', dict(task=belt, planned=b'(a0)\n(a7)\n(a00)\n'), 'refused 12 2\n'),
    ('a last line without newline', dict(task=belt, planned=b'(a0)\n(a2)'), 'refused 12 1\n'),
    ('65,536 bytes', dict(task=belt, planned=b';' * 65535 + b'\n'), 'goal missed\n'),
    ('65,537 bytes', dict(task=belt, planned=b';' * 65536 + b'\n'), 'refused 12 0\n'),
    ('a million bytes', dict(task=belt, planned=b';\n' * 500000), 'refused 12 0\n'),
    ('2,049 steps', dict(task=belt, planned=text(*[7] * 2049)), 'refused 10 0\n'),
    ('the first number past the last action', dict(task=belt, planned=text(0, 6, 7)), 'refused 11 2\n'),
    ('a number too large for a byte', dict(task=belt, planned=text(0, 256)), 'refused 11 1\n'),
]

both = dict(task=belt, planned=solution)
READS = [
    ('a task that comes byte by byte', ('task', dict(piece=1)), five_lines),
    ('a text that comes byte by byte', ('planned', dict(piece=1)), five_lines),
    ('a task whose first read fails', ('task', dict(read=0)), 'no file\n'),
    ('a text whose first read fails', ('planned', dict(read=0)), 'no file\n'),
    ('a text that is read, but not its end', ('planned', dict(read=1)), 'no file\n'),
]


def planned(confirm, translate, judge, data):
    """Whether a task has a solution within the horizon; what confirm says of its cheapest is held to the engine and to judge."""
    printed, _, left = run(translate, dict(task=data))
    expect('translate prints', printed, '')
    found = plan('classical', left['compiled'], HORIZON + 1 + data[4], 1)
    if found is None:
        return False
    part = bytes(step for step in found.steps if step < data[2])
    lines, _, _ = run(judge, dict(task=data, plan=part))
    expect('confirm', run(confirm, dict(task=data, planned=text(*found.steps)))[0], f'{lines}paid {found.total}\n')
    expect("judge's metric", lines.splitlines()[-1].split()[1], str(found.total))
    return True


def main(confirm, translate, judge, count='25', seed='2031'):
    for what, files, lines in CASES:
        got = run(confirm, files)
        if got != (lines, '', files):
            sys.exit(f'{what}: {got[:2]}, and not {lines!r}, or a file changed')
    for what, (name, of), lines in READS:
        got = run(confirm, both, env=faults(name, **of))
        if got != (lines, '', both):
            sys.exit(f'{what}: {got}, and not {lines!r}, or a file changed')
    r, solved = random.Random(int(seed)), 0
    for _ in range(int(count)):
        solved += planned(confirm, translate, judge, random_task(r))
    assert 2 * solved > int(count), 'too few tasks with a solution'
    print(f'program confirm: {len(CASES) + len(READS)} cases and {solved} planned tasks as they should be')


if __name__ == '__main__':
    if not 4 <= len(sys.argv) <= 6:
        sys.exit(__doc__)
    main(*sys.argv[1:])
