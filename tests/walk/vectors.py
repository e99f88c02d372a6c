#!/usr/bin/env python3
"""The test vectors of walk: task files and plans, and the lines that documents 01 and 02 want for them.

tests/walk/vectors.py           writes crates/walk_vectors/data/vectors and crates/walk_vectors/stdout
tests/walk/vectors.py --check   writes nothing, and fails where these two files are not what it makes
tests/walk/vectors.py --list    says what each vector is for, and its line

A vector is two records (shared/stored.py): the task file, then the plan. A line has a verdict and the number of literals looked at:
`solved cost C met M literals L`, the met preferences as bits in a decimal number; `stopped I literals L`; `goal missed literals L`;
`rule missed K literals L`; or `refused`, number and place.

Where a line comes from:
- A refusal: the account in shared/account.py.
- A verdict, cost and met preferences: the outside engine (shared/engine.py), by the rules of tests/judge/meaning.lp. It gives the states
  visited, too.
- The literals: the functions `read` and `looked_at` below, in these states.
Where an answer stands beside a vector, it was written by hand, and has to agree with the line.
"""
import functools
import os
import sys

sys.path.insert(0, os.path.dirname(os.path.dirname(os.path.abspath(__file__))))
from shared import stored, tasks
from shared.account import refusal
from shared.chance import Chance
from shared.engine import amount, verdict, walked
from shared.files import BELT, HARD, MOST, PREFERENCES, SOFT, WITH_SECOND, WITH_STEPS, file, goal, preference, rows
from shared.stored import record
from shared.tasks import traced


# ---- the literals looked at

class Task:
    """An accepted task's conditions, each a list of clauses, a clause a list of literals."""
    def __init__(self, data):
        self.goal, self.preferences, self.actions = [], [], []  # of each preference φ and ψ; of each action its own and its effects'
        condition = None  # the one that clauses belong to
        for name, value in rows(data):
            if name == 'CLAUSE':
                condition.append([])
            elif name in ['HOLDS', 'LACKS']:
                condition[-1].append((name, value))
            elif name == 'GOAL':
                condition = self.goal
            elif name == 'ACTION' or name in PREFERENCES:
                condition = []
                (self.actions if name == 'ACTION' else self.preferences).append([condition])
            elif name in ['EFFECT', 'SECOND']:
                condition = []
                (self.actions if name == 'EFFECT' else self.preferences)[-1].append(condition)


def read(condition, state):
    """Whether a condition is true in a state, and how many literals are looked at: a clause is left at its first true literal and the
    condition at its first false clause."""
    looked = 0
    for clause in condition:
        for name, fact in clause:
            looked += 1
            if (name == 'HOLDS') == (fact in state):
                break
        else:
            return False, looked
    return True, looked


def looked_at(data, plan, states):
    """How many literals are looked at over the states visited, which are sets of facts: in each one the preferences in order, φ before
    ψ, then the step's precondition, then, where it applies, its effect conditions; in the last state of a plan that has come to its
    end the goal instead of these."""
    task = Task(data)

    @functools.lru_cache(None)
    def in_state(state, step):
        total = sum(read(condition, state)[1] for conditions in task.preferences for condition in conditions)
        if step is None:
            return total + read(task.goal, state)[1]
        own, *effects = task.actions[step]
        applies, looked = read(own, state)
        return total + looked + (sum(read(condition, state)[1] for condition in effects) if applies else 0)

    return sum(in_state(state, step) for state, step in zip(states, [*plan, None]))


# ---- the lines

STATES = '#show held(T,I,F) : value(T,I,F,holds).\n#show state/2.\n'  # what the engine is asked for beside the verdict


def line(atoms, data, plan):
    """The line of what was derived of a plan."""
    states = [set() for _ in atoms['state']]
    for i, fact in atoms.get('held', []):
        states[i].add(fact)
    words = verdict(atoms)
    if words == 'solved':
        met = sum(1 << k for k, in atoms.get('met', []))
        words = f"solved cost {amount(atoms, 'cost')} met {met}"
    assert len(states) == 1 + (atoms['stopped'][0][0] if 'stopped' in atoms else len(plan))
    return f'{words} literals {looked_at(data, plan, [*map(frozenset, states)])}'


# ---- the vectors: what each is for, the task file, the plan, and the answer where it is written down here: the line, or the number of
# literals

def belt():
    for plan, answer in [([0], 'solved cost 3 met 2 literals 5'), ([], 'goal missed literals 3'), ([1], 'goal missed literals 5'),
                         ([0, 1, 0], 'solved cost 7 met 2 literals 9'), ([2], 'refused 11 0')]:
        yield f'the belt, plan {plan}', file(BELT, F=2), plan, answer


CONDITIONS = [  # in a state without facts: a condition, and how many literals are looked at
    ('', 0), ('CLAUSE LACKS 0', 1), ('CLAUSE HOLDS 0', 1), ('CLAUSE LACKS 0 LACKS 0', 1), ('CLAUSE LACKS 0 HOLDS 0', 1),
    ('CLAUSE HOLDS 0 LACKS 0', 2), ('CLAUSE HOLDS 0 HOLDS 1', 2), ('CLAUSE HOLDS 0 HOLDS 0', 2), ('CLAUSE HOLDS 0 HOLDS 0 LACKS 0', 3),
    ('CLAUSE HOLDS 0 LACKS 0 HOLDS 0 LACKS 0', 2), ('CLAUSE HOLDS 0 HOLDS 1 HOLDS 2 HOLDS 3', 4), ('CLAUSE LACKS 0 CLAUSE LACKS 0', 2),
    ('CLAUSE LACKS 0 CLAUSE HOLDS 1', 2), ('CLAUSE HOLDS 0 CLAUSE LACKS 0', 1), ('CLAUSE HOLDS 0 HOLDS 1 CLAUSE LACKS 0 CLAUSE LACKS 1', 2),
    ('CLAUSE HOLDS 0 LACKS 0 CLAUSE HOLDS 1 LACKS 1', 4), ('CLAUSE LACKS 0 LACKS 1 CLAUSE LACKS 2 LACKS 3', 2),
    ('CLAUSE HOLDS 0 LACKS 1 CLAUSE HOLDS 0 HOLDS 1 HOLDS 2 CLAUSE HOLDS 3 CLAUSE LACKS 0', 5),
    ('CLAUSE LACKS 0 CLAUSE LACKS 1 CLAUSE LACKS 2 CLAUSE HOLDS 3', 4), ('CLAUSE LACKS 0 CLAUSE HOLDS 1 CLAUSE LACKS 2 CLAUSE HOLDS 3', 2)]


def conditions():
    """A condition as each part of a task, on a plan that leaves the state as it is. The last literal read decides it."""
    for condition, looked in CONDITIONS:
        yield f'goal {condition}', file(f'GOAL {condition}'), [], f'{looked}'
        yield f'goal {condition}, 3 steps', file(f'GOAL {condition} ACTION'), [0] * 3, f'{looked}'
        yield f'precondition {condition}', file(f'GOAL ACTION {condition}'), [0], f'{looked}'
        yield f'effect condition {condition}', file(f'GOAL ACTION EFFECT {condition} ADD 3'), [0], f'{looked}'
        yield f'two effect conditions {condition}', file('GOAL ACTION' + f' EFFECT {condition} DELETE 3' * 2), [0] * 2, f'{4 * looked}'
        for kind in SOFT:
            task = file('GOAL ACTION' + preference(kind, 5, condition, condition, 1))
            in_each = looked * (2 if kind in WITH_SECOND else 1)
            for steps in [0, 1, 4]:
                yield f'{kind} {condition}, {steps} steps', task, [0] * steps, f'{in_each * (steps + 1)}'


def preferences_in_every_state():
    """φ true or false, ψ true or false: both are read, in every state, whatever is decided already."""
    for kind in PREFERENCES:
        for phi, by_phi in [('CLAUSE LACKS 0 LACKS 1', 1), ('CLAUSE HOLDS 0 HOLDS 1', 2), ('CLAUSE HOLDS 0 CLAUSE LACKS 1', 1)]:
            for psi, by_psi in [('CLAUSE LACKS 0 LACKS 1 CLAUSE LACKS 2', 2), ('CLAUSE HOLDS 0 HOLDS 1 HOLDS 2', 3)]:
                task = file('GOAL ACTION' + preference(kind, 5, phi, psi, 2))
                in_each = by_phi + (by_psi if kind in WITH_SECOND else 0)
                for steps in [0, 2, 20]:
                    yield f'{kind}, {phi}, {psi}, {steps} steps', task, [0] * steps, f'{in_each * (steps + 1)}'
    # At-end before the end, and deadlines after their time.
    three = 'CLAUSE HOLDS 0 HOLDS 0 HOLDS 0'
    for steps in [0, 1, 15]:
        for kind in WITH_STEPS:
            task = file('GOAL ACTION' + preference(kind, 5, three, three, steps))
            yield f'{kind} {steps} long after its time', task, [0] * 40, f'{41 * 3 * (2 if kind in WITH_SECOND else 1)}'
    task = file(f'GOAL ACTION at-end 5 {three}')
    for steps in [0, 1, 2, 40]:
        yield f'at-end, {steps} steps', task, [0] * steps, f'solved cost 0 met 0 literals {3 * (steps + 1)}'
    # The state changes what is read: f leaves φ of the first at its first literal, and ψ of the second at its second.
    two = 'sometime 1 CLAUSE HOLDS 0 HOLDS 1 sometime-before 2 CLAUSE HOLDS 1 SECOND CLAUSE HOLDS 1 HOLDS 0 HOLDS 1'
    for trace, answer in [('-', 6), ('f', 4), ('p', 4), ('b', 3), ('-f', 10), ('-fpb', 17), ('bbbb', 12)]:
        yield f'two preferences, {trace}', *traced(trace, two), f'{answer}'


def steps():
    """The failing precondition is read and its action's effects are not; an effect that doesn't fire is read; the goal is read in the
    last state alone."""
    one = 'GOAL CLAUSE LACKS 0 ACTION 1 CLAUSE LACKS 0 EFFECT CLAUSE HOLDS 1 ADD 2 EFFECT CLAUSE LACKS 1 LACKS 2 ADD 0 always 7 CLAUSE LACKS 0'
    for plan, answer in [([], 'solved cost 0 met 1 literals 2'), ([0], 'goal missed literals 6'), ([0, 0], 'stopped 1 literals 6'),
                         ([0, 0, 0], 'stopped 1 literals 6')]:
        yield f'an action that applies once, plan {plan}', file(one), plan, answer
    failing = ('GOAL CLAUSE LACKS 0 ACTION 1 CLAUSE LACKS 0 HOLDS 0 CLAUSE HOLDS 0 HOLDS 1 HOLDS 0 CLAUSE LACKS 1 EFFECT CLAUSE LACKS 2 ADD 0 '
               'ACTION 2 EFFECT CLAUSE HOLDS 0 ADD 1 EFFECT CLAUSE LACKS 0 CLAUSE HOLDS 1 HOLDS 2 DELETE 3 EFFECT at-end 4 CLAUSE HOLDS 3 LACKS 3')
    for plan, answer in [([0], 'stopped 0 literals 6'), ([0, 1], 'stopped 0 literals 6'), ([1], 'solved cost 2 met 1 literals 9'),
                         ([1, 1, 0, 1], 'stopped 2 literals 18'), ([1] * 5, 'solved cost 10 met 1 literals 33')]:
        yield f'stops at action 0, plan {plan}', file(failing), plan, answer
    goals = 'GOAL CLAUSE HOLDS 0 HOLDS 1 CLAUSE HOLDS 2 HOLDS 0 LACKS 0 ACTION 0 EFFECT ADD 0 ACTION 0 EFFECT DELETE 0'
    for plan, answer in [([], 'goal missed literals 2'), ([0], 'solved cost 0 met 0 literals 3'), ([0, 1, 0], 'solved cost 0 met 0 literals 3'),
                         ([0] * 30, 'solved cost 0 met 0 literals 3'), ([0, 1], 'goal missed literals 2')]:
        yield f'the goal alone, plan of {len(plan)}', file(goals), plan, answer
    nothing = file('GOAL ACTION EFFECT EFFECT ADD 1 DELETE 1 always 1 sometime-after 2 SECOND')
    for plan in [[], [0], [0] * 2048]:
        yield f'no literals, {len(plan)} steps', nothing, plan, 'solved cost 0 met 3 literals 0'
    order = file('GOAL ACTION CLAUSE HOLDS 0 ACTION EFFECT CLAUSE LACKS 0 ADD 0 EFFECT CLAUSE HOLDS 0 HOLDS 1 ADD 1 EFFECT CLAUSE LACKS 0')
    for plan, answer in [([1], '4'), ([1, 0], '5'), ([1, 1], '7'), ([0], 'stopped 0 literals 1'), ([1, 1, 0, 1], '11')]:
        yield f'all effect conditions are read in the state before, plan {plan}', order, plan, answer


def hard_rules():
    """They are read as soft ones of their kind are, in every state, whatever is missed already."""
    two = 'CLAUSE HOLDS 0 HOLDS 1'
    for what, task, plan, answer in [
            ('missed in state 0', f'GOAL CLAUSE LACKS 0 ACTION CLAUSE LACKS 1 hard-always {two}', [0] * 3, 'rule missed 0 literals 12'),
            ('two missed', f'GOAL ACTION hard-sometime {two} hard-always {two}', [0], 'rule missed 0 literals 8'),
            ('the second missed', f'GOAL ACTION always 5 {two} hard-always {two} sometime 5 {two}', [0], 'rule missed 1 literals 12'),
            ('goal missed too', f'GOAL {two} ACTION hard-always {two}', [0], 'goal missed literals 6'),
            ('stopped too', f'GOAL {two} ACTION {two} hard-always {two}', [0], 'stopped 0 literals 4'),
            ('met', f'GOAL {two} LACKS 1 ACTION 2 {two} LACKS 0 hard-always {two} LACKS 1', [0] * 2, 'solved cost 4 met 1 literals 18'),
            ('met beside a soft one', f'GOAL ACTION 1 sometime 5 {two} hard-at-end CLAUSE LACKS 0', [0], 'solved cost 1 met 2 literals 6')]:
        yield f'hard rules, {what}', file(task), plan, answer
    for what, data, plan, _ in tasks.several_rules():
        yield what, data, plan, ''
    for what, *vector in random_tasks(120, 1974, SOFT + HARD):
        yield f'{what}, hard rules', *vector


def most():
    """As many as there can be, and their neighbours: every literal row in every state."""
    for steps in [1, 2048]:
        task = file('GOAL ACTION always CLAUSE' + ' HOLDS 3' * 11996)
        yield f'12,000 rows read in each state, {steps} steps', task, [0] * steps, f'solved cost 0 met 0 literals {11996 * (steps + 1)}'
    task = file('GOAL ACTION sometime-before CLAUSE' + ' HOLDS 3' * 5997 + ' SECOND CLAUSE' + ' HOLDS 2' * 5997)
    yield '12,000 rows in φ and ψ, 40 steps', task, [0] * 40, f'solved cost 0 met 1 literals {11994 * 41}'
    task = file('GOAL ACTION CLAUSE' + ' HOLDS 3' * 11996 + ' LACKS 3')
    yield '12,000 rows in a precondition, 40 steps', task, [0] * 40, f'solved cost 0 met 0 literals {11997 * 40}'
    task = file('GOAL ACTION CLAUSE' + ' HOLDS 3' * 11997)
    yield '12,000 rows in a failing precondition', task, [0] * 2048, 'stopped 0 literals 11997'
    task = file('GOAL ACTION EFFECT CLAUSE' + ' HOLDS 3' * 11996)
    yield '12,000 rows in an effect condition, 40 steps', task, [0] * 40, f'solved cost 0 met 0 literals {11996 * 40}'
    yield '12,000 rows in the goal, all read', file(goal(12000)), [], 'goal missed literals 11998'
    yield '12,000 rows in the goal, one read', file('GOAL CLAUSE LACKS 3' + ' HOLDS 3' * 11997), [], 'solved cost 0 met 0 literals 1'
    clauses = file('GOAL' + ' CLAUSE HOLDS 2 LACKS 3' * 3999 + ' CLAUSE HOLDS 3')
    yield '4,000 clauses, all read', clauses, [], 'goal missed literals 7999'
    clauses = file('GOAL CLAUSE HOLDS 3' + ' CLAUSE HOLDS 2 LACKS 3' * 3999)
    yield '4,000 clauses, one read', clauses, [], 'goal missed literals 1'


def costs():
    """Costs of every width, up to the greatest in every step beside sixteen of the greatest weights."""
    for cost in [1000000, 1000001, 2 ** 24, 2 ** 31 - 1, 2 ** 31, MOST - 1, MOST]:
        task = file(f'GOAL ACTION {cost} ACTION 1 EFFECT CLAUSE HOLDS 0 ADD 1')
        for plan in [[0], [0, 1], [0, 0], [0, 1, 0, 0, 1]]:
            total = plan.count(0) * cost + plan.count(1)
            yield f'cost {cost}, plan {plan}', task, plan, f'solved cost {total} met 0 literals {plan.count(1)}'
    for word, met in [('LACKS', 65535), ('HOLDS', 0)]:
        task = file(f'GOAL ACTION {MOST} ACTION 1' + f' always {MOST} CLAUSE {word} 0' * 16)
        for plan, cost in [([0] * 2047, 8791798052865), ([0] * 2047 + [1], 8791798052866), ([1] + [0] * 2047, 8791798052866),
                           ([0] * 2048, 8796093020160)]:
            yield f'{len(plan)} steps, {plan.count(0)} of the greatest cost, met {met}', task, plan, (
                f'solved cost {cost} met {met} literals {16 * (len(plan) + 1)}')
    mixed = [1, 65535, 65536, 2 ** 16 + 1, 2 ** 31, MOST - 65536, MOST]
    plan = [step % 7 for step in range(2047)]
    task = file('GOAL' + ''.join(f' ACTION {cost}' for cost in mixed))
    yield '2,047 steps of seven costs', task, plan, 'solved cost 3135364529884 met 0 literals 0'


def of_judge():
    """Tasks and plans of program judge's vectors."""
    for family in [tasks.stopped_and_missed, tasks.facts_of_both_words, tasks.empty_conditions, tasks.effects, tasks.refused, tasks.random_tasks]:
        for what, data, plan, _ in family():
            yield what, data, plan, ''


def random_tasks(count=300, seed=1973, kinds=SOFT):
    """Small tasks with long conditions over few facts, so that clauses are left at any literal and conditions at any clause."""
    r = Chance(seed)
    one_of, some = r.one_of, r.some

    def fact(*names):
        return lambda: f' {one_of(names)} {one_of(used)}'

    def condition(clauses, literals=(1, 2, 3, 5)):
        return some(clauses, lambda: ' CLAUSE' + some(literals, fact('HOLDS', 'LACKS')))

    def effect():
        return ' EFFECT' + condition([0, 1, 2, 4]) + some([0, 1, 2], fact('ADD')) + some([0, 1, 2], fact('DELETE'))

    def action():
        return f' ACTION {one_of([0, 1, 7, MOST])}' + condition([0, 1, 2], (3, 4, 5)) + some([0, 1, 2, 3], effect)

    def rule():
        return preference(one_of(kinds), one_of([0, 1, 9, MOST]), condition([0, 1, 2, 3]), condition([0, 1, 2, 3]), one_of([0, 1, 2, 15]))

    for number in range(count):
        used = one_of([[0], [0, 1], [0, 1, 2], [0, 1, 63, 64], [5, 64, 127]])
        starts = ''.join(f'START {f} ' for f in used if r.random() < 0.5)
        data = file(starts + 'GOAL' + condition([0, 1, 2], (2, 3, 4)) + some([1, 2, 3], action) + some([0, 1, 2, 3, 5], rule), F=used[-1] + 1)
        yield f'long conditions {number}', data, [one_of(range(data[2])) for _ in range(one_of([0, 1, 2, 3, 5, 8, 13]))], ''


def vectors():
    """What each vector is for, the task file, the plan, and the line."""
    families = [belt, conditions, preferences_in_every_state, steps, most, of_judge, random_tasks, hard_rules, costs]
    made = [(what, data, bytes(plan), answer) for family in families for what, data, plan, answer in family()]
    lines = {t: refusal(data, plan).strip() for t, (_, data, plan, _) in enumerate(made)}
    atoms = walked({t: made[t][1:3] for t in lines if not lines[t]}, STATES)
    for t, (what, data, plan, answer) in enumerate(made):
        text = lines[t] or line(atoms[t], data, plan)
        assert answer in ['', text, text.split()[-1]], f'{what}: {answer}, but the line is {text}'
        yield what, data, plan, text


def parts():
    for what, data, plan, text in vectors():
        yield f'{what}: {text}', record(data) + record(plan), text.encode() + b'\n'


if __name__ == '__main__':
    stored.main('walk_vectors', parts, __doc__)
