#!/usr/bin/env python3
"""A task file, with its rules, as PDDL3: what a planner or a validator that knows PDDL3's constraints takes without our translation.

tools/pddl3.py TASK DOMAIN PROBLEM

Facts are f0, f1 and so on, actions a0, a1 and so on, and rule k is the preference pk, as in the texts of program pddl. A soft rule is
a preference, whose weight the metric adds where it is violated; a hard one is a constraint. Whether the file is a task is for check
to say, beforehand.

Deadlines are in steps: PDDL3's times agree where the step at place i, from 0, is taken at time i + 1, so that state n stands at time n.
"""
import sys

import task

REQUIREMENTS = ':negative-preconditions :disjunctive-preconditions :conditional-effects :action-costs'
OF_RULES = ' :constraints :preferences'
WORD = {'at-end': 'at end'}


class Rows:
    """Rows of a file, read from the first on."""
    def __init__(self, rows):
        self.rows, self.at = rows, 0

    def next(self, *names):
        """Whether the next row is one of these."""
        return self.at < len(self.rows) and self.rows[self.at][0] in names

    def take(self):
        self.at += 1
        return self.rows[self.at - 1]

    def values(self, name):
        found = []
        while self.next(name):
            found.append(self.take()[1])
        return found


def fact(number):
    return f'(f{number})'


def literal(name, number):
    return fact(number) if name == 'HOLDS' else f'(not {fact(number)})'


def listed(word, parts):
    return f'({" ".join([word, *parts])})'


def condition(rows):
    clauses = []
    while rows.next('CLAUSE'):
        rows.take()
        literals = []
        while rows.next('HOLDS', 'LACKS'):
            literals.append(literal(*rows.take()))
        clauses.append(literals[0] if len(literals) == 1 else listed('or', literals))
    return listed('and', clauses)


def effect(rows):
    rows.take()
    when = condition(rows)
    adds = [fact(number) for number in rows.values('ADD')]
    deletes = [f'(not {fact(number)})' for number in rows.values('DELETE')]
    return f'(when {when} {listed("and", adds + deletes)})'


def action(number, rows):
    cost = rows.take()[1]
    needs, effects = condition(rows), [f'(increase (total-cost) {cost})']
    while rows.next('EFFECT'):
        effects.append(effect(rows))
    return f'(:action a{number} :parameters () :precondition {needs} :effect {listed("and", effects)})'


class Rule:
    """A rule as a constraint, with its weight where it is soft."""
    def __init__(self, rows):
        name, weight = rows.take()
        self.hard = name.startswith('hard-')
        kind = name.removeprefix('hard-')
        self.weight = None if self.hard else weight
        steps = [str(value) for value in rows.values('STEPS')]
        sides = [condition(rows)]
        if rows.values('SECOND'):
            sides.append(condition(rows))
        self.constraint = listed(WORD.get(kind, kind), steps + sides)

    def shown(self, number):
        return self.constraint if self.hard else f'(preference p{number} {self.constraint})'


def texts(data):
    """The domain and the problem."""
    sizes, listed_rows = task.rows_of(data)
    rows = Rows(listed_rows)
    starts = [fact(number) for number in rows.values('START')]
    rows.take()
    goal = condition(rows)
    actions = []
    while rows.next('ACTION'):
        actions.append(action(len(actions), rows))
    rules = []
    while rows.next(*task.PREFERENCES):
        rules.append(Rule(rows))
    weights = [f'(* {rule.weight} (is-violated p{number}))' for number, rule in enumerate(rules) if not rule.hard]
    shown = [rule.shown(number) for number, rule in enumerate(rules)]
    domain = ['(define (domain d)', f'(:requirements {REQUIREMENTS}{OF_RULES if rules else ""})',
              listed(':predicates', map(fact, range(sizes[0]))), '(:functions (total-cost))', *actions, ')']
    problem = ['(define (problem p) (:domain d)', listed(':init', ['(= (total-cost) 0)', *starts]), f'(:goal {goal})',
               *([f'(:constraints {listed("and", shown)})'] if rules else []),
               f'(:metric minimize {listed("+", ["(total-cost)", *weights]) if weights else "(total-cost)"}))']
    return '\n'.join(domain) + '\n', '\n'.join(problem) + '\n'


def main(source, *targets):
    for name, text in zip(targets, texts(task.read(source))):
        with open(name, 'w') as file:
            file.write(text)


if __name__ == '__main__':
    if len(sys.argv) != 4:
        sys.exit(__doc__)
    try:
        main(*sys.argv[1:])
    except (task.Wrong, OSError, IndexError) as why:
        sys.exit(f'{why}')
