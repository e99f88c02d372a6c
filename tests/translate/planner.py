#!/usr/bin/env python3
"""Random small tasks through program translate: an outside planner has to find the same on a task and on its translation.

tests/translate/planner.py PROGRAM [COUNT [SEED]]     PROGRAM is crates/translate/out/translate

The planner (shared/planning.py) is two logic programs run by gringo and clasp (Debian packages of these names). source.lp plans on the
task, by the documents' meanings of the preferences, with at most HORIZON steps. classical.lp knows nothing of preferences, and plans on
the bytes that translate wrote, with 1 + P steps more: end, and one to close each preference. Then, for the cheapest list and for the
dearest:
- the least (greatest) cost of the translation is the least (greatest) metric of the task, or neither has a solution;
- the list on the translation is source steps, then end, then collect or forgo of each preference in order;
- its source steps solve the task, its cost is their metric, and it forgoes the preferences that they miss.
The dearest list shows what the cheapest hides: a forgo that is open beside its collect, a preference missed only by detours.
Some tasks have hard rules, and some of these no solution for that alone: with the same rules soft they have one.
"""
import collections
import os
import random
import struct
import sys

sys.path.insert(0, os.path.dirname(os.path.dirname(os.path.abspath(__file__))))
from shared.account import check
from shared.files import BELT, HARD, MARK, PREFERENCES, file, preferences, rows, words
from shared.planning import HORIZON, SIGNS, Solution, plan, random_task
from shared.programs import run


# ---- the tasks

def softened(data):
    """A task with its hard rules made soft."""
    return file([(MARK[name.removeprefix('hard-')], value) for name, value in rows(data)], F=data[0])


# Tasks with a hard rule, and the cheapest list on each one's translation: none, and one that goes round to keep the rule.
NONE = file('GOAL CLAUSE HOLDS 0 ACTION 1 EFFECT ADD 0 hard-always CLAUSE LACKS 0', F=1)
ROUND = file('GOAL CLAUSE HOLDS 0 ACTION 1 EFFECT ADD 0 ACTION 2 EFFECT ADD 1 always 5 CLAUSE LACKS 1 '
             'hard-sometime-before CLAUSE HOLDS 0 SECOND CLAUSE HOLDS 1', F=2)
HAND = [('the belt', file(BELT, F=2), (8, [0, 2, 4, 5], [])), ('no list keeps the rule', NONE, None),
        ('a way round', ROUND, (8, [1, 0, 2, 4, 5], []))]


# ---- a task and its translation

def added_facts(data):
    """How many facts the translation of a task has more: three a preference, two, and those of deadlines."""
    kinds = [kind for kind, _ in preferences(data)]
    return 3 * len(kinds) + 2 + sum(kind in ('within', 'hard-within') for kind in kinds) + sum(value for name, value in rows(data) if name == 'STEPS')


def difference(program, data):
    """What is wrong with the translation of a task, or nothing; and the lists found on the translation, by the names in SIGNS."""
    found = {}
    printed, errors, files = run(program, dict(task=data))
    if printed or errors:
        return f'translate prints {printed + errors!r}', found
    f, a, p, _ = struct.unpack_from('<4H', data)
    compiled = files.get('compiled', b'')
    line, sizes = check(compiled), f'accepted {f + added_facts(data)} {a + 2 * p + 1} 0 '
    if not line.startswith(sizes):
        return f'the translation is {line}, and not {sizes}...', found
    for name, sign in SIGNS.items():
        best = plan('source', data, HORIZON, sign)
        found[name] = got = plan('classical', compiled, HORIZON + 1 + p, sign)
        if (best and best.total) != (got and got.total):
            return f'{name}: {best} on the task, {got} on its translation', found
        if got:
            source = [step for step in got.steps if step < a]
            forgone = [k for k in range(p) if a + 2 + 2 * k in got.steps]
            closings = [a + 1 + 2 * k + (k in forgone) for k in range(p)]
            if got.steps != source + [a] + closings:
                return f'{name}: {got} is not source steps, end, and a closing of each preference in order', found
            same = plan('source', data, HORIZON, sign, source)
            if same != Solution(got.total, source, forgone):
                return f'{name}: {got} on the translation, and its source part is {same} on the task', found
    return '', found


def main(program, count='120', seed='1'):
    print(f'{count} tasks, seed {seed}, at most {HORIZON} source steps')
    r = random.Random(int(seed))
    for what, data, cheapest in HAND:
        wrong, found = difference(program, data)
        if wrong or found['cheapest'] != (cheapest and Solution(*cheapest)):
            sys.exit(f'{what}: {wrong or found}')
    solutions, lengths, outcomes = collections.Counter(), collections.Counter(), collections.Counter()
    for number in range(int(count)):
        data = random_task(r)
        wrong, found = difference(program, data)
        if wrong:
            sys.exit(f'task {number}: {wrong}. The task is {words(data)}')
        a, kinds = data[2], [kind for kind, _ in preferences(data)]
        solutions['a solution' if found['cheapest'] else 'no solution'] += 1
        if not found['cheapest'] and plan('source', softened(data), HORIZON, 1):
            solutions['none for a hard rule'] += 1
        for name, solution in found.items():
            if solution:
                solutions['over 32 bits'] += solution.total >= 2 ** 32
                lengths[name, len(solution.steps) - 1 - len(kinds)] += 1
                outcomes.update((kind, name, 'met' if a + 1 + 2 * k in solution.steps else 'missed') for k, kind in enumerate(kinds))
    print(f'{solutions["a solution"]} tasks with a solution, {solutions["no solution"]} without, '
          f'{solutions["none for a hard rule"]} of these for a hard rule; {solutions["over 32 bits"]} lists cost more than 32 bits hold')
    for name in SIGNS:
        counts = ' '.join(str(lengths[name, n]) for n in range(HORIZON + 1))
        print(f'{name} lists with 0 to {HORIZON} source steps: {counts}')
        for kind in PREFERENCES:
            print(f'  {kind}: {outcomes[kind, name, "met"]} met, {outcomes[kind, name, "missed"]} missed')
    both = {(kind, outcome): sum(outcomes[kind, name, outcome] for name in SIGNS) for kind in PREFERENCES for outcome in ('met', 'missed')}
    for kind in HARD:
        if both.pop((kind, 'missed')):
            sys.exit(f'a list that misses a {kind} rule')
    if not all([*(solutions[name] for name in ('a solution', 'no solution', 'none for a hard rule', 'over 32 bits')), *both.values()]):
        sys.exit('an outcome never came up')


if __name__ == '__main__':
    if not 2 <= len(sys.argv) <= 4:
        sys.exit(__doc__)
    main(*sys.argv[1:])
