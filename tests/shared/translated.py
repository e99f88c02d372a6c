"""The translated task as document 01 and requests 2, 6 and 8 of document 02 have it, row by row, and runs of lists on it.

Nothing follows a preference here: trackers are rows, and a run does what the rows say.
"""
import struct

from shared.account import check
from shared.files import MARK, PREFERENCES, WITH_SECOND, WITH_STEPS, rows

OPPOSITE = {'HOLDS': 'LACKS', 'LACKS': 'HOLDS'}


# ---- a task taken apart

class Reader:
    """The rows of an accepted file. A condition is its clauses, a clause its literals, each a name and a fact."""
    def __init__(self, data):
        self.rows, self.at = rows(data), 0

    def comes(self, *names):
        return self.at < len(self.rows) and self.rows[self.at][0] in names

    def take(self):
        self.at += 1
        return self.rows[self.at - 1]

    def all(self, *names):
        taken = []
        while self.comes(*names):
            taken.append(self.take())
        return taken

    def condition(self):
        clauses = []
        while self.comes('CLAUSE'):
            self.take()
            clauses.append(self.all('HOLDS', 'LACKS'))
        return clauses

    def action(self):
        cost, before, effects = self.take()[1], self.condition(), []
        while self.comes('EFFECT'):
            self.take()
            effects.append((self.condition(), self.all('ADD'), self.all('DELETE')))
        return cost, before, effects

    def rule(self):
        kind, weight = self.take()
        steps = self.take()[1] if kind in WITH_STEPS else 0
        phi = self.condition()
        if kind in WITH_SECOND:
            self.take()
        return kind, weight, steps, phi, self.condition() if kind in WITH_SECOND else []


def task(data):
    """START rows, the goal, the actions and the rules of an accepted file."""
    reader = Reader(data)
    starts = reader.all('START')
    reader.take()
    goal, actions, rules = reader.condition(), [], []
    while reader.comes('ACTION'):
        actions.append(reader.action())
    while reader.comes(*PREFERENCES):
        rules.append(reader.rule())
    return starts, goal, actions, rules


# ---- rows of the translated task

def single(name, fact):
    return [[(name, fact)]]


def denied(clause):
    """Each literal denied, a clause alone."""
    return [[(OPPOSITE[name], fact)] for name, fact in clause]


def condition_rows(condition):
    for clause in condition:
        yield 'CLAUSE', 0
        yield from clause


def effect(condition, adds=(), deletes=()):
    yield 'EFFECT', 0
    yield from condition_rows(condition)
    yield from (('ADD', fact) for fact in adds)
    yield from (('DELETE', fact) for fact in deletes)


def deadline_facts(kind, steps):
    return {'within': steps + 1, 'always-within': steps}.get(kind.removeprefix('hard-'), 0)


def trackers(rule, s, first_d):
    """The effects that follow a rule, in the order of the table; S is fact s, B the next, D1 is first_d."""
    kind, _, t, phi, psi = rule
    kind, b = kind.removeprefix('hard-'), s + 1
    if kind == 'always':
        for clause in phi:
            yield effect(denied(clause), [b])
    if kind in ('sometime', 'at-end'):
        yield effect(phi, [s])
    if kind == 'at-most-once':
        yield effect(single('LACKS', s) + single('LACKS', b) + phi, [s])
        for clause in phi:
            yield effect(single('HOLDS', s) + denied(clause), [b])
        yield effect(single('HOLDS', s) + single('HOLDS', b) + phi, [], [s])
    if kind == 'sometime-before':
        yield effect(psi, [s])
        yield effect(single('LACKS', s) + phi, [b])
    if kind == 'sometime-after':
        for clause in psi:
            yield effect(phi + denied(clause), [b])
        yield effect(psi, [], [b])
    if kind == 'within':
        d = [None] + [first_d + j for j in range(t + 1)]
        yield effect([], [d[1]])
        for j in range(1, t + 1):
            yield effect(single('HOLDS', d[j]), [d[j + 1]])
        yield effect(single('LACKS', d[t + 1]) + phi, [s])
    if kind == 'always-within':
        d = [None] + [first_d + j for j in range(t)] + [s]
        for clause in psi:
            yield effect(phi + denied(clause), [b, d[1]])
        for j in range(1, t + 1):
            for clause in psi:
                yield effect(single('HOLDS', d[j]) + denied(clause), [d[j + 1]])
        yield effect(single('LACKS', s) + psi, [], [b] + d[1:t + 1])


def met_clause(kind, s):
    kind = kind.removeprefix('hard-')
    if kind in ('sometime', 'at-end', 'within'):
        return [('HOLDS', s)]
    return [('HOLDS', s), ('LACKS', s + 1)] if kind == 'at-most-once' else [('LACKS', s + 1)]


def closing(k, rule, s, ended, collect):
    kind, weight = rule[:2]
    yield 'ACTION', 0 if collect else weight
    before = single('HOLDS', ended) + (single('HOLDS', s - 1) if k > 0 else []) + single('LACKS', s + 2)
    before += [met_clause(kind, s)] if collect else denied(met_clause(kind, s))
    if not collect and kind.startswith('hard-'):
        before += single('LACKS', ended)
    yield from condition_rows(before)
    yield from effect([], [s + 2])


def all_rows(data):
    """The rows of the translation of an accepted file, and how many facts it has."""
    starts, goal, actions, rules = task(data)
    facts, count = data[0], len(rules)
    normal, ended = facts + 3 * count, facts + 3 * count + 1
    following, first_d = [], ended + 1
    for k, rule in enumerate(rules):
        following.append([row for each in trackers(rule, facts + 3 * k, first_d) for row in each])
        first_d += deadline_facts(rule[0], rule[2])

    def rows_of():
        yield from starts
        yield 'START', normal
        yield 'GOAL', 0
        yield from condition_rows(goal + single('HOLDS', ended))
        yield from condition_rows([[('HOLDS', facts + 3 * k + 2)] for k in range(count)])
        for cost, before, effects in actions:
            yield 'ACTION', cost
            yield from condition_rows(before + single('HOLDS', normal))
            for condition, adds, deletes in effects:
                yield from effect(condition, [fact for _, fact in adds], [fact for _, fact in deletes])
            for rule, rows in zip(rules, following):
                if rule[0].removeprefix('hard-') != 'at-end':
                    yield from rows
        yield 'ACTION', 0
        yield from condition_rows(single('HOLDS', normal))
        yield from effect([], [ended], [normal])
        for rows in following:
            yield from rows
        for k, rule in enumerate(rules):
            for collect in (True, False):
                yield from closing(k, rule, facts + 3 * k, ended, collect)

    return first_d, rows_of()


def translation(data):
    """The file of the translation, or the line of a refusal by 1 to 8."""
    line = check(data)
    if line.startswith('refused'):
        return line
    facts, made = all_rows(data)
    actions = data[2] + 2 * data[4] + 1
    if facts > 128 or actions > 128:
        return 'refused 7 0'
    taken = []
    for row in made:
        taken.append(row)
        if len(taken) > 12000:
            return 'refused 8 0'
    return (struct.pack('<4H', facts, actions, 0, len(taken)) + bytes(MARK[name] for name, _ in taken)
            + b''.join(struct.pack('<I', value) for _, value in taken))


# ---- runs

def true_in(state, condition):
    return all(any((fact in state) == (name == 'HOLDS') for name, fact in clause) for clause in condition)


def run(data, steps):
    """The cost of a list on an accepted file and the state after it, or the number of the first step that doesn't apply."""
    starts, _, actions, _ = task(data)
    state, cost = {fact for _, fact in starts}, 0
    for i, step in enumerate(steps):
        price, before, effects = actions[step]
        if not true_in(state, before):
            return i
        firing = [(adds, deletes) for condition, adds, deletes in effects if true_in(state, condition)]
        state = state - {fact for _, deletes in firing for _, fact in deletes} | {fact for adds, _ in firing for _, fact in adds}
        cost += price
    return cost, state


def refusal(made, steps):
    """The line of refusal 10 or 11 of a list of the actions of a translation, or nothing."""
    if len(steps) > 2048:
        return 'refused 10 0'
    unknown = [i for i, step in enumerate(steps) if step >= made[2]]
    return f'refused 11 {unknown[0]}' if unknown else ''


def lost(data, steps):
    """What is lost after a list of translated actions, as a line."""
    made = translation(data)
    if isinstance(made, str):
        return made
    refused = refusal(made, steps)
    if refused:
        return refused
    after = run(made, steps)
    if isinstance(after, int):
        return f'stopped {after}'
    cost, state = after
    total = 0
    for k, (kind, weight, *_) in enumerate(task(data)[3]):
        s, b, closed = (data[0] + 3 * k + n in state for n in range(3))
        shown = {'always': b, 'sometime-before': b, 'at-most-once': b and not s}
        if shown.get(kind) and not closed:
            total += weight
    return f'run cost {cost} lost {total}'
