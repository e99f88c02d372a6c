#!/usr/bin/env python3
"""The examples as text, the tool that turns texts into files and back, and the programs' answers on the batch house.

tests/examples.py            needs crates/translate/out/translate, crates/pddl/out/pddl, crates/search/out/search, crates/confirm/out/confirm and crates/judge/out/judge
tests/examples.py --write    writes examples/batch_house/answers anew
"""
import os
import runpy
import subprocess
import sys

from shared import stored
from shared.expected import expect

ROOT = os.path.dirname(os.path.dirname(os.path.abspath(__file__)))
HOUSE, SITE = os.path.join(ROOT, 'examples/batch_house'), os.path.join(ROOT, 'examples/small_site')
RUN = runpy.run_path(os.path.join(HOUSE, 'run'))  # the example, which is a program and no module
TOOL = RUN['task']
Text, Wrong, show, read, text_of = TOOL.Text, TOOL.Wrong, TOOL.show, TOOL.read, TOOL.text_of

# Texts that the tool turns down, and what it says.
WRONG = [
    ('FACTS a\nHOLD a', 'line 2: unknown mark HOLD'),
    ('FACTS a\nGOAL\nCLAUSE\nHOLDS b', 'line 4: unknown name b'),
    ('FACTS a\n\nADD a b', 'line 3: too many words'),
    ('FACTS a\nACTION 1 go now', 'line 2: too many words'),
    ('FACTS a b\nFACTS a', 'line 2: a fact named twice, or by a number'),
    ('FACTS a\nGOAL\nwithin 7 6', 'line 3: too many words'),
    ('FACTS a\nGOAL\nwithin 7\nSTEPS a', 'line 4: unknown name a'),
    ('FACTS a\nGOAL\nACTION 4294967296', 'line 3: a value over 4294967295'),
    ('FACTS a\nGOAL\nalways 18446744073709551617', 'line 3: a value over 4294967295'),
    ('FACTS a\nGOAL\nhard-end', 'line 3: unknown mark hard-end'),
    ('FACTS a\nGOAL\nhard-GOAL', 'line 3: unknown mark hard-GOAL'),
]


# Planners' lines for a text with one action, and its source part or what the tool says.
SOURCES = [
    ('', b''),
    ('(a0)\n(a1)\n(a0)\n(a300)\n; cost = 3\n', b'\0\0'),
    ('; none\n(a00)\n', 'line 2: no step and no comment'),
    ('(a0)\n\n', 'line 2: no step and no comment'),
    ('(a0) \n', 'line 1: no step and no comment'),
]


def answered(call):
    """What the tool answers, or why it turns a text down."""
    try:
        return call()
    except Wrong as why:
        return str(why)


def round_trips():
    """Every accepted vector of check is its own text's file; a text with names shows them again."""
    accepted = stored.accepted()
    for data in accepted:
        expect('a vector of check', Text(show(data)).file(), data)
    for example in ('belt', 'batch_house', 'small_site'):
        text = text_of(os.path.join(ROOT, 'examples', example, 'task.txt'))
        again = Text(show(text.file(), text))
        expect(example, (again.file(), again.facts, again.actions), (text.file(), text.facts, text.actions))
    return len(accepted)


def answers(text):
    """What program judge writes about each plan of the batch house."""
    out = ''
    for name in sorted(os.listdir(os.path.join(HOUSE, 'plans'))):
        plan = text.plan(read(os.path.join(HOUSE, 'plans', name)).decode())
        out += f'{name}\n' + RUN['judged'](text.file(), plan)
    return out


def metrics(answers):
    return [int(line.split()[1]) for line in answers.split('\n') if line.startswith('metric')]


def main(option=None):
    belt = os.path.join(ROOT, 'examples/belt/task')
    expect('the belt', text_of(belt + '.txt').file(), read(belt))
    greatest = Text('FACTS 1\nGOAL\nACTION 4294967295\nalways 4294967295')
    expect('the greatest amounts', show(greatest.file()), 'FACTS 1\nGOAL\nACTION 4294967295\nalways 4294967295\n')
    expect('the greatest amounts', greatest.file()[-8:], b'\xff' * 8)
    for text, why in WRONG:
        expect(text, answered(lambda: Text(text).file()), why)
    for lines, source in SOURCES:
        expect(lines, answered(lambda: Text('FACTS 1\nGOAL\nACTION').source(lines)), source)
    expect('three plans', TOOL.week([b'\2', b'', b'\0\1']), bytes([3, 0, 0, 0, 1, 0, 1, 0, 1, 0, 0, 0, 2, 0, 2, 0, 1]))
    count = round_trips()

    text, stored = text_of(os.path.join(HOUSE, 'task.txt')), os.path.join(HOUSE, 'answers')
    got = answers(text)
    if option == '--write':
        with open(stored, 'w') as out:
            out.write(got)
    expect('the batch house', got, read(stored).decode())

    # The small site goes its way with program search alone.
    way = subprocess.run([os.path.join(SITE, 'run')], capture_output=True, text=True)
    expect('the small site', way.stdout + way.stderr, read(os.path.join(SITE, 'answers')).decode())

    # The planner pays the least metric of the stored plans, and confirm says the same of what it printed.
    cost, lines = RUN['planned'](text)
    expect("the planner's cost", cost, min(metrics(got)))
    confirmed = RUN['confirmed'](text.file(), lines)
    expect("the planner's plan", (metrics(confirmed), confirmed.split('\n')[-2]), ([cost], f'paid {cost}'))
    print(f'{count} files turned into text and back, {len(metrics(got))} solved plans and a planned one of the batch house, the small site: as they should be')


if __name__ == '__main__':
    main(*sys.argv[1:])
