"""The outside engine as a planner, on task files and on PDDL: the cheapest and the dearest list of steps that solves.

The rules for task files are tests/translate/source.lp, by the documents' meanings of the preferences, and classical.lp beside it, which
knows nothing of preferences; those for PDDL are tests/pddl/plan.lp.

clasp minimizes sums of weights of 31 bits. So a task's costs and weights are given to it divided by the greatest number that divides
them all, which changes no comparison of sums, and the sum that it finds is multiplied by that number again. Random tasks have small
amounts, or small amounts times 286,331,153, up to the greatest there is.
"""
import collections
import itertools
import math

from shared.engine import answer, said, task_facts
from shared.files import HARD, MOST, PREFERENCES, SOFT, file, preference, rows

HORIZON = 5  # the most source steps that are tried on random tasks
SIGNS = {'cheapest': 1, 'dearest': -1}
Solution = collections.namedtuple('Solution', 'total steps missed')


def unit(amounts):
    """The greatest number that divides all of these amounts, or 1 where all are 0."""
    whole = math.gcd(*amounts) or 1
    assert all(amount // whole < 2 ** 20 for amount in amounts), 'amounts too great for the planner, even divided'
    return whole


def best(rules, facts, horizon, sign, whole):
    """The cheapest or dearest list of at most horizon steps that solves the task in the facts, or None. The rules are a file below
    tests/. The amounts in the facts are divided by `whole`, and the total is not."""
    found = answer(rules, '\n'.join(facts), ['-c', f'horizon={horizon}', '-c', f'sign={sign}'], ['--quiet=1'])
    if found['Result'] == 'UNSATISFIABLE':
        return None
    model, = found['Call'][0]['Witnesses']
    total, = model.get('Costs', [0])  # where nothing has a cost or a weight, there is no sum to minimize
    assert found['Result'] == ('OPTIMUM FOUND' if 'Costs' in model else 'SATISFIABLE'), found
    atoms = collections.defaultdict(list)
    for predicate, *numbers in map(said, model['Value']):
        atoms[predicate].append(numbers)
    return Solution(sign * total * whole, [step for _, step in sorted(atoms['step'])], sorted(k for k, in atoms['missed']))


# ---- task files

def plan(rules, data, horizon, sign, steps=None):
    """The cheapest or dearest list of at most horizon steps that solves a task, or None; where steps are given, only that list is
    looked at. The rules are source or classical: the total is the metric or the cost, and missed preferences are source's alone."""
    given = [] if steps is None else [f':- not length({len(steps)}).', *(f':- not step({i},{step}).' for i, step in enumerate(steps))]
    whole = unit([value for name, value in rows(data) if name == 'ACTION' or name in PREFERENCES])
    facts = task_facts(data, spell=lambda amount: amount // whole)
    return best(f'translate/{rules}.lp', [*facts, *given], horizon, sign, whole)


def random_task(r):
    """2 to 4 facts, 1 to 3 actions, 0 to 3 preferences. Action g changes fact g once fact g - 1 is changed, or changes it and changes
    it back; the goal mostly asks for such changes. So most tasks have a solution, and preferences see facts come and go. In half of the
    tasks all amounts are small, in the others so many times as great."""
    f, a = r.choice([(2, 1), (2, 2), (3, 2), (3, 3), (4, 2), (4, 3)])
    opening = [fact for fact in range(f) if r.random() < 0.4]
    times = r.choice([1, MOST // 15])

    def some(counts, part):
        return ''.join(part() for _ in range(r.choice(counts)))

    def fact(*names):
        return f' {r.choice(names)} {r.randrange(f)}'

    def condition(*clauses):
        return some(clauses, lambda: ' CLAUSE' + some([1, 1, 1, 2], lambda: fact('HOLDS', 'LACKS')))

    def ask(g, changed):
        return f' CLAUSE {"HOLDS" if (g in opening) != changed else "LACKS"} {g}'

    def give(g, changed):
        return f' {"ADD" if (g in opening) != changed else "DELETE"} {g}'

    def change(g):
        after_another = ' EFFECT' + (ask(g - 1, True) if g else '') + give(g, True)
        and_back = ''.join(' EFFECT' + ask(g, changed) + give(g, not changed) for changed in (True, False))
        return r.choice([after_another, and_back])

    def effect():
        return ' EFFECT' + condition(0, 1, 1, 2) + some([0, 1, 1, 2], lambda: fact('ADD')) + some([0, 1, 1], lambda: fact('DELETE'))

    def action(g):
        return f' ACTION {times * r.choice([0, 1, 1, 2, 3, 15])}' + condition(0, 0, 0, 1) + change(g) + some([0, 1, 2, 2], effect)

    def rule():
        phi, psi = (condition(0, 1, 1, 1, 1, 2) for _ in range(2))
        return preference(r.choice(SOFT + SOFT + HARD), times * r.choice([*range(10), 15]), phi, psi, r.choice([0, 1, 1, 2, 2, 3, 4, 15]))

    starts = ''.join(f' START {fact}' for fact in opening)
    goal = ' GOAL' + some([0, 1, 1, 2], lambda: ask(r.randrange(a), True) if r.random() < 0.8 else condition(1))
    return file(starts + goal + ''.join(map(action, range(a))) + some([0, 1, 2, 3, 3], rule), F=f)


# ---- PDDL

def pddl_facts(task, whole):
    """A task that shared/pddl.py reads, as facts for plan.lp, its costs divided by `whole`."""
    number, ids, lines = {name: n for n, name in enumerate(task.facts)}, itertools.count(), []

    def condition(whole):
        c, (word, of) = next(ids), whole
        if word == 'fact':
            lines.append(f'fact({c},{number[of]}).')
        elif word == 'not':
            lines.append(f'negation({c},{condition(of)}).')
        else:
            lines.append(f'conjunction({c}).' if word == 'and' else f'disjunction({c}).')
            for part in of:
                lines.append(f'part({c},{condition(part)}).')
        return c

    lines += [f'init({number[name]}).' for name in task.init]
    lines.append(f'goal({condition(task.goal)}).')
    for a, action in enumerate(task.actions):
        lines.append(f'action({a},{action.cost // whole}). precondition({a},{condition(action.precondition)}).')
        for effect in action.effects:
            e = next(ids)
            lines.append(f'effect({a},{e}).' + (f' when({e},{condition(effect.condition)}).' if effect.condition else ''))
            lines += [f'adds({e},{number[name]}).' for name in effect.adds] + [f'deletes({e},{number[name]}).' for name in effect.deletes]
    return lines


def planned(task, horizon, sign=1):
    """The cost of a cheapest plan, or with sign -1 of a dearest, and the plan as planners print it: a line for each step, and a comment
    with the cost; or None."""
    whole = unit([action.cost for action in task.actions])
    found = best('pddl/plan.lp', pddl_facts(task, whole), horizon, sign, whole)
    if found is None:
        return None
    return found.total, ''.join(f'({task.actions[step].name})\n' for step in found.steps) + f'; cost = {found.total}\n'
