#!/usr/bin/env python3
"""The whole way of random small tasks: translated, written as PDDL, planned from the two texts, the plan's text read and judged.

tests/pddl/whole_way.py PDDL TRANSLATE JUDGE TEXT_VECTORS [COUNT [SEED]]     the four programs of these names, crates/NAME/out/NAME

The planner is that of shared/planning.py, over gringo and clasp (Debian packages of these names).
Each task goes by its translation, and one without preferences also as it stands. Then, for the cheapest list and for the dearest:
- the task read back from the texts is the one in the rows of the file;
- the cost that the planner finds is the one that it finds on the file's rows, or neither has a solution;
- the plan is printed as planners do, a line for each step and a comment with the cost. Program text_vectors reads it and its source
  part, which are the lines with numbers below the source's A: their metric on the file and on the source is that cost, and their
  utility what is left of all weights;
- program judge says the same of both plans in bytes.
Besides, every file that check's vectors accept without preferences and the heaviest files are read back from their texts.
"""
import collections
import itertools
import os
import random
import re
import sys

sys.path.insert(0, os.path.dirname(os.path.dirname(os.path.abspath(__file__))))
from shared import stored
from shared.account import check
from shared.expected import Different, expect
from shared.files import HARD, MOST, PREFERENCES, SOFT, file, preferences, rows, spelled, words
from shared.pddl import Wrong, read, task_of
from shared.planning import HORIZON, SIGNS, plan, planned, random_task
from shared.programs import run
from shared.tasks import LONGEST_DOMAIN, LONGEST_PROBLEM

WAYS = ['with preferences', 'without preferences', 'as it stands']
Programs = collections.namedtuple('Programs', 'pddl translate judge text_vectors')


# ---- a file, its texts, and the task in them

def read_back(program, files):
    """The task read from the two texts of the file `compiled`, which is the one in its rows."""
    printed, errors, left = run(program, files)
    domain, problem = left.get('domain.pddl', b''), left.get('problem.pddl', b'')
    expect('pddl prints', printed + errors, '')
    try:
        task = read(domain.decode(), problem.decode())
    except Wrong as why:
        raise Different(f'the texts are not understood: {why}') from why
    expect('the task in the texts', task, task_of(files['compiled']))
    return task


def heaviest():
    """12,000 rows, 128 facts that all open, 128 actions, and every part in a form of its own."""
    starts = ''.join(f' START {n}' for n in range(128))
    facts = itertools.cycle(range(127, -1, -1))

    def some(count, *names):
        return ''.join(f' {name} {next(facts)}' for name, _ in zip(itertools.cycle(names), range(count)))

    def condition(n):
        return ''.join(' CLAUSE' + some(count, 'HOLDS', 'LACKS', 'LACKS') for count in (n % 3 + 1, n % 2 + 1))

    def effect(n):
        return ' EFFECT' + condition(n) + some(n % 5, 'ADD') + some(n % 7, 'DELETE')

    actions = ''.join(f' ACTION {MOST - 7 * n}' + condition(n) + ''.join(effect(n + m) for m in range(5)) for n in range(128))
    left = 12000 - len(spelled(starts + ' GOAL CLAUSE' + actions))
    return file(starts + ' GOAL CLAUSE' + some(left, 'LACKS', 'HOLDS') + actions, F=128)


def stored_files(program):
    """Reads back the files that are not random, and answers how many they are."""
    accepted = [(f'file {number} that check accepts', data) for number, data in enumerate(stored.accepted()) if not preferences(data)]
    heavy = [('the heaviest task', heaviest()), ('the longest domain', LONGEST_DOMAIN), ('the longest problem', LONGEST_PROBLEM)]
    assert [check(data) for _, data in heavy] == [f'accepted 128 {actions} 0 12000' for actions in (128, 128, 0)]
    for what, data in accepted + heavy:
        try:
            read_back(program, dict(compiled=data))
        except Different as why:
            sys.exit(f'{what}: {why}')
    return len(accepted), len(heavy)


# ---- the plan's text

STEP = re.compile(r'\(a(\d+)\)\n')


def judged(programs, data, text, metric):
    """What program judge says about preferences of the plan that is read from a text. The plan's metric has to be this one."""
    steps = [int(number) for number in STEP.findall(text)]
    costs = [value for name, value in rows(data) if name == 'ACTION']
    cost = sum(costs[step] for step in steps)
    worth = f'metric {metric} utility {sum(weight for _, weight in preferences(data)) - metric}'
    lines, errors, _ = run(programs.text_vectors, dict(vectors=stored.record(data) + stored.record(text.encode())))
    expect('the text is worth', lines + errors, f'read {len(steps)}\n' + ''.join(f'(a{step})\n' for step in steps)
           + f'solved cost {cost} {worth}\n')
    in_bytes = bytes(int(number) for number in STEP.findall(lines))
    written, errors, _ = run(programs.judge, dict(task=data, plan=in_bytes))
    lines = (written + errors).splitlines()
    expect('judge writes', (lines[0], lines[-1]), (f'solved steps {len(steps)} cost {cost}', worth))
    return lines[1:-1]


def both_lists(programs, data, files, horizon, solutions):
    """The lines about preferences that judge writes on the cheapest and on the dearest list, by the names in SIGNS, where there is one.
    The files have `compiled`, which is data itself or its translation. Lists that cost more than 32 bits hold are counted."""
    task, compiled, outcomes = read_back(programs.pddl, files), files['compiled'], {}
    for name, sign in SIGNS.items():
        found, on_file = planned(task, horizon, sign), plan('classical', compiled, horizon, sign)
        expect(f'the cost of the {name} list', found and found[0], on_file and on_file.total)
        if found:
            cost, text = found
            solutions['over 32 bits'] += cost >= 2 ** 32
            judged(programs, compiled, text, cost)
            source = ''.join(line for line in text.splitlines(True) if line[0] == ';' or int(STEP.fullmatch(line)[1]) < data[2])
            outcomes[name] = judged(programs, data, source, cost)
    return outcomes


def ways(programs, data, solutions):
    """The ways of a task, each with its outcomes."""
    printed, errors, files = run(programs.translate, dict(task=data))
    expect('translate prints', printed + errors, '')
    p = data[4]
    yield 'with preferences' if p else 'without preferences', both_lists(programs, data, files, HORIZON + 1 + p, solutions)
    if not p:
        yield 'as it stands', both_lists(programs, data, dict(compiled=data), HORIZON, solutions)


def main(pddl, translate, judge, text_vectors, count='110', seed='4'):
    programs, r = Programs(pddl, translate, judge, text_vectors), random.Random(int(seed))
    print('%d files of check and %d heavy ones read back from their texts' % stored_files(pddl))
    print(f'{count} tasks, seed {seed}, at most {HORIZON} source steps')
    solutions, kinds = collections.Counter(), collections.Counter()
    for number in range(int(count)):
        data = random_task(r)
        try:
            for way, outcomes in ways(programs, data, solutions):
                solutions[way, 'a plan' if outcomes else 'no plan'] += 1
                kinds.update((kind, outcome) for lines in outcomes.values() for _, kind, _, outcome in map(str.split, lines))
        except Different as why:
            sys.exit(f'task {number}: {why}. The task is {words(data)}')
    each = {way: [solutions[way, found] for found in ('a plan', 'no plan')] for way in WAYS}
    for way, (plans, none) in each.items():
        print(f'{way}: {plans} tasks with a plan, {none} without')
    print(f'{solutions["over 32 bits"]} lists cost more than 32 bits hold')
    for kind in PREFERENCES:
        print(f'  {kind}: {kinds[kind, "met"]} met, {kinds[kind, "missed"]} missed')
    if any(kinds[kind, 'missed'] for kind in HARD):
        sys.exit('a plan that misses a hard rule')
    outcomes = [(kind, 'met') for kind in PREFERENCES] + [(kind, 'missed') for kind in SOFT]
    if each['with preferences'][0] < 50 or not all(kinds[outcome] for outcome in outcomes):
        sys.exit('fewer than 50 plans with preferences, or an outcome never came up')
    if not all([solutions['over 32 bits'], *itertools.chain(*each.values())]):
        sys.exit('a way without a plan, or where every task has one, or no list with a great cost')


if __name__ == '__main__':
    if not 5 <= len(sys.argv) <= 7:
        sys.exit(__doc__)
    main(*sys.argv[1:])
