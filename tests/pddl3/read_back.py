#!/usr/bin/env python3
"""Source tasks as PDDL3, read back: the classical part by the parser of PDDL, the rules by PDDL3's grammar of constraints and metric.

tests/pddl3/read_back.py [COUNT [SEED]]

Every file that check's vectors accept, the batch house and random small tasks are written by tools/pddl3.py. What is read is compared
with the rows of the file: facts, opening, goal and actions; of each rule its kind, hard or soft, weight, steps and both sides.
"""
import collections
import os
import random
import sys

HERE = os.path.dirname(os.path.abspath(__file__))
ROOT = os.path.dirname(os.path.dirname(HERE))
sys.dont_write_bytecode = True
sys.path[:0] = [os.path.join(ROOT, 'tools'), os.path.join(ROOT, 'tests')]
import pddl3
import task
from shared import stored
from shared.expected import expect
from shared.files import PREFERENCES, file, rows
from shared.pddl import Domain, Wrong, conjunction, head, number, read, shown, task_of, tree
from shared.planning import random_task

# PDDL3's constraints: the words, how many numbers and how many conditions follow.
CONSTRAINTS = {'always': (0, 1), 'sometime': (0, 1), 'at-most-once': (0, 1), 'sometime-before': (0, 2), 'sometime-after': (0, 2),
               'within': (1, 1), 'always-within': (1, 2)}
OF_RULES = [':constraints', ':preferences']
Rule = collections.namedtuple('Rule', 'kind hard weight steps sides')


# ---- read from the texts

def constraint(domain, part):
    """Kind, steps and sides of a constraint."""
    word, rest = head(part)
    if word == 'at':
        if rest[:1] != ['end'] or len(rest) != 2:
            raise Wrong(f'no constraint: {shown(part)}')
        return 'at-end', [], [domain.condition(rest[1])]
    if word not in CONSTRAINTS:
        raise Wrong(f'unknown constraint {word}')
    steps, sides = CONSTRAINTS[word]
    if len(rest) != steps + sides:
        raise Wrong(f'{word} with {len(rest)} parts')
    return word, [number(word) for word in rest[:steps]], [domain.condition(side) for side in rest[steps:]]


def violations(metric):
    """The weight of each preference that a metric names."""
    if metric == ['total-cost']:
        return {}
    word, rest = head(metric)
    if word != '+' or rest[:1] != [['total-cost']] or len(rest) < 2:
        raise Wrong(f'no metric: {shown(metric)}')
    weights = {}
    for part in rest[1:]:
        if len(part) != 3 or part[0] != '*' or head(part[2])[0] != 'is-violated' or len(part[2]) != 2 or part[2][1] in weights:
            raise Wrong(f'no weight: {shown(part)}')
        weights[part[2][1]] = number(part[1])
    return weights


def rules_read(domain, parts, weights):
    """The rules of a problem's constraints, by their order; each preference has to have a weight, and each weight a preference."""
    rules, named = [], []
    for place, part in enumerate(parts):
        hard = part[0] != 'preference'
        if not hard:
            if len(part) != 3 or part[1] != f'p{place}' or part[1] not in weights:
                raise Wrong(f'no preference: {shown(part)}')
            named.append(part[1])
        kind, steps, sides = constraint(domain, part if hard else part[2])
        rules.append(Rule(kind, hard, 0 if hard else weights[part[1]], steps, sides))
    if sorted(named) != sorted(weights):
        raise Wrong('weights of other preferences')
    return rules


def without_rules(text, words):
    """The tree of a text without these parts, its metric the cost alone, as text; and what was taken out."""
    whole, out = tree(text), {}
    kept = []
    for part in whole:
        if isinstance(part, list) and part[:1] == [':requirements']:
            part = [word for word in part if word not in words]
        if isinstance(part, list) and part[:1] == [':metric']:
            out[':metric'], part = part[2], [*part[:2], ['total-cost']]
        if isinstance(part, list) and part[:1] == [':constraints']:
            out[':constraints'] = part[1][1:]
            expect('the constraints', (len(part), part[1][0]), (2, 'and'))
        else:
            kept.append(part)
    return shown(kept), out


def read_texts(domain, problem):
    """The classical task and the rules in the two texts."""
    plain_domain, _ = without_rules(domain, OF_RULES)
    plain_problem, found = without_rules(problem, [])
    requirements = tree(domain)[2]
    expect('the requirements of rules', [word in requirements for word in OF_RULES], [':constraints' in found] * 2)
    return read(plain_domain, plain_problem), rules_read(Domain(plain_domain), found.get(':constraints', []), violations(found[':metric']))


# ---- read from the rows

def rules_of(data):
    """The rules in the rows of a file."""
    rules, clauses = [], None
    for name, value in rows(data):
        if name in PREFERENCES:
            clauses = []
            rules.append(Rule(name.removeprefix('hard-'), name.startswith('hard-'), value, [], [clauses]))
        elif clauses is None:
            continue
        elif name == 'STEPS':
            rules[-1].steps.append(value)
        elif name == 'SECOND':
            clauses = []
            rules[-1].sides.append(clauses)
        elif name == 'CLAUSE':
            clauses.append([])
        else:
            fact = 'fact', f'f{value}'
            clauses[-1].append(fact if name == 'HOLDS' else ('not', fact))
    return [rule._replace(sides=[conjunction(side) for side in rule.sides]) for rule in rules]


def tried(what, data):
    expect(what, read_texts(*pddl3.texts(data)), (task_of(data), rules_of(data)))


def main(count='300', seed='31'):
    accepted = stored.accepted()
    for number, data in enumerate(accepted):
        tried(f'file {number} that check accepts', data)
    tried('the batch house', task.text_of(os.path.join(ROOT, 'examples/batch_house/task.txt')).file())
    r = random.Random(int(seed))
    for number in range(int(count)):
        tried(f'random task {number}', random_task(r))
    rule = file('GOAL always 7 CLAUSE HOLDS 0')
    domain, problem = pddl3.texts(rule)
    for old, new in [('always', 'sometime'), ('* 7', '* 8'), ('p0', 'p1'), ('(preference p0 (always (and (f0))))', '(always (and (f0)))')]:
        try:
            got = read_texts(domain, problem.replace(old, new, 1))
        except Wrong:
            continue
        assert got != (task_of(rule), rules_of(rule)), f'{new} for {old} was not noticed'
    print(f'{len(accepted) + 1} files and {count} random tasks written as PDDL3 and read back: as they should be')


if __name__ == '__main__':
    main(*sys.argv[1:])
