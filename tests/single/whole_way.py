#!/usr/bin/env python3
"""Tasks for a planner that takes no "or" in effects: translated, given single literals, written as PDDL, planned from the texts, judged.

tests/single/whole_way.py SINGLE PDDL TRANSLATE JUDGE [COUNT [SEED]]     the four programs of these names, crates/NAME/out/NAME

Each random small task goes by its translation, and one without preferences also as it stands. Then, for the cheapest list and for the
dearest:
- no `when` of the domain has an `or` in its condition, and goal, precondition, costs and opening are those without single literals;
- the cost that the planner (shared/planning.py) finds in the texts is the one that it finds on the file before, or neither has a
  solution;
- program judge says of the plan's source part that its metric is that cost.
It fails, too, where no task had an `or` in a `when` before.
"""
import collections
import os
import random
import re
import sys

sys.path.insert(0, os.path.dirname(os.path.dirname(os.path.abspath(__file__))))
from shared.expected import Different, expect
from shared.files import words
from shared.pddl import read
from shared.planning import HORIZON, SIGNS, plan, planned, random_task
from shared.programs import run

Programs = collections.namedtuple('Programs', 'single pddl translate judge')
STEP = re.compile(r'\(a(\d+)\)\n')


def made(program, files, name):
    """A file that a program makes of others, without a word."""
    printed, errors, left = run(program, files)
    expect(f'{os.path.basename(program)} prints', printed + errors, '')
    return left[name]


def texts(programs, data):
    """The task that is read from a file's texts."""
    files = dict(compiled=data)
    return read(made(programs.pddl, files, 'domain.pddl').decode(), made(programs.pddl, files, 'problem.pddl').decode())


def has_or(condition):
    word, of = condition
    return word == 'or' or word in ('and', 'not') and any(map(has_or, of if word == 'and' else [of]))


def ors(task):
    """How many effects have an `or` in their condition."""
    return sum(has_or(effect.condition) for action in task.actions for effect in action.effects if effect.condition)


def beside_effects(task):
    return task.facts, task.init, task.goal, [(action.name, action.cost, action.precondition) for action in task.actions]


def judged(programs, data, text, metric):
    """Judge finds this metric for the steps of the source in a plan's text."""
    steps = bytes(int(number) for number in STEP.findall(text) if int(number) < data[2])
    printed, errors, _ = run(programs.judge, dict(task=data, plan=steps))
    lines = (printed + errors).splitlines()
    expect('judge begins and ends', (lines[0].split()[0], lines[-1].split()[:2]), ('solved', ['metric', str(metric)]))


def both_lists(programs, data, compiled, horizon):
    """The way of a file that is data itself or its translation. Answers how many effects had an `or`, and whether there is a plan."""
    before, after = texts(programs, compiled), texts(programs, made(programs.single, dict(task=compiled), 'singled'))
    expect('an or in a when', ors(after), 0)
    expect('the task beside its effects', beside_effects(after), beside_effects(before))
    plans = 0
    for name, sign in SIGNS.items():
        found, on_file = planned(after, horizon, sign), plan('classical', compiled, horizon, sign)
        expect(f'the cost of the {name} list', found and found[0], on_file and on_file.total)
        if found:
            judged(programs, data, found[1], found[0])
            plans += 1
    return ors(before), plans == len(SIGNS)


def main(single, pddl, translate, judge, count='40', seed='12'):
    programs, r, came = Programs(single, pddl, translate, judge), random.Random(int(seed)), collections.Counter()
    for number in range(int(count)):
        data = random_task(r)
        try:
            compiled = made(translate, dict(task=data), 'compiled')
            ways = [('translated', compiled, HORIZON + 1 + data[4])] + ([('as it stands', data, HORIZON)] if data[4] == 0 else [])
            for way, source, horizon in ways:
                had, solved = both_lists(programs, data, source, horizon)
                came.update([(way, 'with or' if had else 'without or', 'a plan' if solved else 'no plan')])
        except Different as why:
            sys.exit(f'task {number}: {why}. The task is {words(data)}')
    for way in sorted(came):
        print(*way, came[way], sep=', ')
    if not all(came[way, 'with or', 'a plan'] for way in ('translated', 'as it stands')):
        sys.exit('a way on which no task had an or in an effect, and a plan')


if __name__ == '__main__':
    if not 5 <= len(sys.argv) <= 7:
        sys.exit(__doc__)
    main(*sys.argv[1:])
