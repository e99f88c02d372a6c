"""The outside engine: gringo and clasp (Debian packages of these names), over rules that stand beside the scripts.

Its integers have 32 bits with their sign. An amount is given to it in halves of 16 bits, halves(High,Low), and it sums the high halves
and the low ones apart; `whole` makes one number of two such sums.
"""
import json
import os
import re
import subprocess

from shared.files import HARD, PREFERENCES, preferences, rows

TESTS = os.path.dirname(os.path.dirname(os.path.abspath(__file__)))


# ---- a run of the engine

def answer(rules, program, ground=(), solve=()):
    """What clasp answers on a file of rules below tests/ and a program, with options for gringo and for clasp."""
    grounded = subprocess.run(['gringo', *ground, os.path.join(TESTS, rules), '-'], input=program.encode(), stdout=subprocess.PIPE, check=True)
    return json.loads(subprocess.run(['clasp', '--outf=2', *solve], input=grounded.stdout, stdout=subprocess.PIPE).stdout)


def said(atom):
    """The predicate of an atom, and its numbers."""
    predicate, *numbers = re.findall(r'[^(),]+', atom)
    return predicate, *map(int, numbers)


def derived(program, rules='judge/meaning.lp'):
    """The atoms in the one model of the rules and the program: predicate, vector, what it says."""
    found = answer(rules, program, solve=['-n2'])
    assert found['Models'] == {'Number': 1, 'More': 'no'}, found['Models']
    return map(said, found['Call'][0]['Witnesses'][0]['Value'])


# ---- amounts

def halves(amount):
    return f'halves({amount >> 16},{amount & 65535})'


def whole(high, low):
    """The number with these halves, which may be sums, or differences of sums."""
    return 65536 * high + low


# ---- tasks and plans as facts

def task_facts(data, t='', spell=halves):
    """An accepted task as facts for a logic program. t is what each has in front: nothing, or a vector's number and a comma. Costs and
    weights are spelled by a function."""
    a = e = k = c = -1  # the last action, effect, preference and clause; effects and clauses are numbered through the whole file
    condition = ''  # the one that clauses and literals belong to
    for name, value in rows(data):
        a, e, k, c = a + (name == 'ACTION'), e + (name == 'EFFECT'), k + (name in PREFERENCES), c + (name == 'CLAUSE')
        row = 'preference' if name in PREFERENCES else name
        opened = {'GOAL': 'goal', 'ACTION': f'pre({a})', 'EFFECT': f'when({a},{e})', 'preference': f'phi({k})', 'SECOND': f'psi({k})'}
        if row in opened:
            condition = opened[row]
            yield f'condition({t}{condition}).'
        rule = f'preference({t}{k},"{name.removeprefix("hard-")}",{spell(value)}).' + (f' hard({t}{k}).' if name in HARD else '')
        says = {'START': f'start({t}{value}).', 'ACTION': f'action({t}{a},{spell(value)}).', 'preference': rule,
                'ADD': f'gives({t}{a},{e},holds,{value}).', 'DELETE': f'gives({t}{a},{e},lacks,{value}).', 'CLAUSE': f'clause({t}{condition},{c}).',
                'HOLDS': f'literal({t}{condition},{c},holds,{value}).', 'LACKS': f'literal({t}{condition},{c},lacks,{value}).',
                'STEPS': f'deadline({t}{k},{value}).'}
        yield says.get(row, '')


def facts(t, data, plan):
    """An accepted task and a plan of known steps as the facts that meaning.lp is given, t being the vector's number."""
    yield f'fact({t},0..{data[0] - 1}). length({t},{len(plan)}).'
    yield from (f'step({t},{i},{step}).' for i, step in enumerate(plan))
    yield from task_facts(data, f'{t},')


# ---- what the rules of meaning.lp say of them

def walked(plans, shown=''):
    """Of each plan, {number: (file, plan)}, what is derived: {number: {predicate: lists of numbers}}."""
    atoms = {t: {} for t in plans}
    for predicate, t, *numbers in derived(shown + '\n'.join(fact for t, (data, plan) in plans.items() for fact in facts(t, data, plan))):
        atoms[t].setdefault(predicate, []).append(numbers)
    return atoms


def verdict(atoms):
    """The verdict by what was derived of a plan: `stopped 3`, `goal missed`, `rule missed 2`, or `solved` alone."""
    name, = [name for name in ['stopped', 'goal_missed', 'rule_missed', 'cost'] if name in atoms]
    if name == 'cost':
        return 'solved'
    assert not atoms.keys() & {'met', 'missed', 'metric', 'utility'}, atoms
    numbers, = atoms[name]
    return ' '.join([name.replace('_', ' '), *map(str, numbers)])


def amount(atoms, name):
    """A sum that was derived of a plan: its cost, metric or utility."""
    sums, = atoms[name]
    return whole(*sums)


def text(atoms, data, plan):
    """What program judge has to write, by what was derived of a plan."""
    if verdict(atoms) != 'solved':
        return verdict(atoms) + '\n'
    cost, metric, utility = (amount(atoms, name) for name in ('cost', 'metric', 'utility'))
    lines = [f'solved steps {len(plan)} cost {cost}']
    for k, (kind, weight) in enumerate(preferences(data)):
        outcome, = [word for word in ('met', 'missed') if [k] in atoms.get(word, [])]
        lines.append(f'{k} {kind} {weight} {outcome}')
    return '\n'.join([*lines, f'metric {metric} utility {utility}\n'])
