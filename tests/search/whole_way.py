#!/usr/bin/env python3
"""From a task to a judged plan with no other planner: translated, searched, and the plan's source part judged.

tests/search/whole_way.py SEARCH TRANSLATE JUDGE [COUNT [SEED]]     the three programs of these names, crates/NAME/out/NAME

The belt, the small site and random small tasks. Judge finds that the source part's metric is the cost in the last line of `planned`.
The outside engine (gringo and clasp) is the other planner, on the source: its least metric is that cost, or it finds no plan where
program search writes `none`. On the batch house, which has too many states, program search writes `full`.
"""
import collections
import os
import random
import re
import sys

sys.path.insert(0, os.path.dirname(os.path.dirname(os.path.abspath(__file__))))
from shared.expected import Different, expect
from shared.files import words
from shared.planning import HORIZON, plan, random_task
from shared.programs import run

ROOT = os.path.dirname(os.path.dirname(os.path.dirname(os.path.abspath(__file__))))
sys.path.append(os.path.join(ROOT, 'tools'))
import task as tool

Programs = collections.namedtuple('Programs', 'search translate judge')
PLANNED = re.compile(r'((?:\(a\d+\)\n)*); cost = (\d+)\n')


def searched(programs, data):
    """What program search prints on a task's translation, and the cost and the source part of the plan that it writes, if it does."""
    printed, errors, files = run(programs.translate, dict(task=data))
    expect('translate prints', printed + errors, '')
    printed, errors, left = run(programs.search, files)
    expect('errors of search', errors, '')
    if printed:
        expect('planned, where something is printed', left.get('planned'), None)
        return printed, None, None
    whole = PLANNED.fullmatch(left['planned'].decode())
    expect('the form of planned', bool(whole), True)
    steps = [int(number) for number in re.findall(r'\d+', whole[1])]
    return printed, int(whole[2]), bytes(step for step in steps if step < data[2])


def judged(programs, data, steps, metric):
    printed, errors, _ = run(programs.judge, dict(task=data, plan=steps))
    lines = (printed + errors).splitlines()
    expect('judge begins and ends', (lines[0].split()[0], lines[-1].split()[:2]), ('solved', ['metric', str(metric)]))


def way(programs, data, horizon):
    """The way of one task: found, or what program search prints."""
    printed, cost, steps = searched(programs, data)
    if printed == 'full\n':
        return 'full'
    other = plan('source', data, horizon, 1)
    if printed:
        expect('search prints', printed, 'none\n')
        expect('a plan of the other planner', other, None)
        return 'none'
    judged(programs, data, steps, cost)
    if len(steps) <= horizon:
        expect("the other planner's least metric", other and other.total, cost)
    else:  # what the other planner finds is as short as it has to be
        expect('a cheaper plan of the other planner', other is not None and other.total < cost, False)
    return 'found'


def example(name):
    return tool.text_of(os.path.join(ROOT, 'examples', name, 'task.txt')).file()


def main(search, translate, judge, count='60', seed='11'):
    programs, r, came = Programs(search, translate, judge), random.Random(int(seed)), collections.Counter()
    expect('the belt', way(programs, example('belt'), 3), 'found')
    expect('the small site', way(programs, example('small_site'), 7), 'found')
    expect('the batch house', searched(programs, example('batch_house'))[0], 'full\n')
    for number in range(int(count)):
        data = random_task(r)
        try:
            came[way(programs, data, HORIZON)] += 1
        except Different as why:
            sys.exit(f'task {number}: {why}. The task is {words(data)}')
    print(f'belt, small site and batch house, and {count} tasks, seed {seed}:', dict(came))
    if not came['found'] or not came['none']:
        sys.exit('an answer that never came')


if __name__ == '__main__':
    if not 4 <= len(sys.argv) <= 6:
        sys.exit(__doc__)
    main(*sys.argv[1:])
