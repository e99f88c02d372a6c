"""Tasks and plans that several scripts try.

Each function gives what a task is for, its file, a plan, and the answer where it is written down here: the whole text that program judge
has to write, with | between the lines, or its first line, or that line's first word, or the outcomes of all preferences.
"""
import itertools

from shared.chance import Chance
from shared.files import HARD, MOST, SOFT, file, preference

PHI, PSI, PHI_PSI = 'CLAUSE HOLDS 0', 'CLAUSE HOLDS 1', 'CLAUSE HOLDS 0 SECOND CLAUSE HOLDS 1'
SETTERS = 'ACTION 1 EFFECT DELETE 0 DELETE 1 ACTION 2 EFFECT ADD 0 DELETE 1 ACTION 3 EFFECT ADD 1 DELETE 0 ACTION 4 EFFECT ADD 0 ADD 1 '

# The longest domain in PDDL has 128 actions of the largest cost and an EFFECT in each row that is left: it gives 19 bytes, more than any
# row but an ACTION. The longest problem has a goal of one clause, and a literal in each row that is left, which gives 13.
LONGEST_DOMAIN = file('GOAL' + f' ACTION {MOST}' * 128 + ' EFFECT' * 11871, F=128)
LONGEST_PROBLEM = file('GOAL CLAUSE' + ' LACKS 127' * 11998, F=128)


def traced(trace, preferences):
    """A task and a plan whose states have φ (fact 0) and ψ (fact 1) as a trace says: - neither, f φ alone, p ψ alone, b both.
    The four actions make these four states, whatever the state before, at the costs 1 to 4."""
    opening, *plan = ('-fpb'.index(letter) for letter in trace)
    starts = ['', 'START 0', 'START 1', 'START 0 START 1'][opening]
    return file(f'{starts} GOAL {SETTERS} {preferences}', F=2), plan


def stopped_and_missed():
    ladder = ('START 0 GOAL CLAUSE HOLDS 3 ACTION 1 CLAUSE HOLDS 0 EFFECT ADD 1 DELETE 0 ACTION 2 CLAUSE HOLDS 1 EFFECT ADD 2 DELETE 1 '
              'ACTION 4 CLAUSE HOLDS 2 EFFECT ADD 3 DELETE 2 ACTION 0 EFFECT DELETE 3 sometime 8 CLAUSE HOLDS 1')
    for plan, answer in [
            ([0, 1, 2], 'solved steps 3 cost 7|0 sometime 8 met|metric 7 utility 1'), ([3, 0, 3, 1, 2], 'solved steps 5 cost 7'),
            ([], 'goal missed'), ([0], 'goal missed'), ([0, 1], 'goal missed'), ([0, 1, 2, 3], 'goal missed'),
            ([1], 'stopped 0'), ([1, 0, 1, 2], 'stopped 0'), ([2, 2], 'stopped 0'), ([0, 0], 'stopped 1'), ([0, 2, 1, 2], 'stopped 1'),
            ([0, 1, 0, 2], 'stopped 2'), ([0, 1, 1], 'stopped 2'), ([0, 1, 2, 2], 'stopped 3'), ([0, 1, 2, 0, 3], 'stopped 3')]:
        yield f'ladder, plan {plan}', file(ladder), plan, answer


def facts_of_both_words():
    """Each fact is told from the 127 others: it ends as a word says, and they are the opposite all the time."""
    every = ''.join(f'START {g} ' for g in range(128))
    for f in [0, 31, 32, 63, 64, 95, 96, 127]:
        def preferences(word, opposite):
            each = [f' CLAUSE {opposite} {g}' for g in range(128)]
            return f'at-end 1 CLAUSE {word} {f} always 2' + ''.join(each[:f] + each[f + 1:]) + ' at-end 4' + ''.join(each)

        alone, gone = preferences('HOLDS', 'LACKS'), preferences('LACKS', 'HOLDS')
        adding = file(f'GOAL CLAUSE HOLDS {f} ACTION CLAUSE LACKS {f} EFFECT CLAUSE LACKS {f} ADD {f} {alone}', F=128)
        deleting = file(f'{every} GOAL CLAUSE LACKS {f} ACTION CLAUSE HOLDS {f} EFFECT CLAUSE HOLDS {f} DELETE {f} {gone}', F=128)
        yield f'fact {f} at the start', file(f'START {f} GOAL CLAUSE HOLDS {f} {alone}', F=128), [], 'met met missed'
        for what, task in [('added', adding), ('deleted', deleting)]:
            yield f'fact {f} {what}', task, [0], 'met met missed'
            yield f'fact {f} not yet {what}', task, [], 'goal missed'
            yield f'fact {f} {what} twice', task, [0, 0], 'stopped 1'


def empty_conditions():
    seven = ('always 1 sometime 2 at-end 4 at-most-once 8 sometime-before 16 SECOND sometime-before 32 SECOND CLAUSE HOLDS 0 '
             'sometime-after 64 SECOND')
    for n, action in itertools.product(range(3), ['ACTION 1', 'ACTION 1 EFFECT ADD 0']):
        yield f'all conditions empty, {n} steps of {action}', file(f'GOAL {action} {seven}'), [0] * n, 'met met met met missed missed met'
    for trace, answer in [('f', 'missed'), ('-', 'met'), ('-f', 'met'), ('f-', 'missed'), ('ff', 'missed'), ('--f', 'met')]:
        yield f'empty ψ, {trace}', *traced(trace, 'sometime-before 9 CLAUSE HOLDS 0 SECOND'), answer
        yield f'sometime-after with empty ψ, {trace}', *traced(trace, 'sometime-after 9 CLAUSE HOLDS 0 SECOND'), 'met'
    for trace, answer in [('-', 'missed'), ('p', 'met'), ('-p', 'met'), ('p-', 'missed'), ('f-b', 'met'), ('b-f', 'missed')]:
        yield f'sometime-after with empty φ, {trace}', *traced(trace, 'sometime-after 9 SECOND CLAUSE HOLDS 1'), answer
    for trace, answer in [('-', 'missed'), ('p', 'met'), ('-p', 'met'), ('p-', 'missed'), ('p-p', 'met'), ('p--p', 'missed'), ('-b-b', 'met')]:
        yield f'always-within 1 with empty φ, {trace}', *traced(trace, preference('always-within', 9, '', PSI, 1)), answer
        yield f'within 0 with empty φ, {trace}', *traced(trace, preference('within', 9)), 'met'
        yield f'always-within 0 with empty ψ, {trace}', *traced(trace, preference('always-within', 9, PHI)), 'met'


def effects():
    swap = 'EFFECT CLAUSE HOLDS 0 ADD 1 DELETE 0 EFFECT CLAUSE HOLDS 1 ADD 0 DELETE 1'
    chain = 'EFFECT CLAUSE HOLDS 0 ADD 1 EFFECT CLAUSE HOLDS 1 ADD 2'
    counter = ('EFFECT CLAUSE HOLDS 0 DELETE 0 EFFECT CLAUSE LACKS 0 ADD 0 '
               'EFFECT CLAUSE HOLDS 0 CLAUSE HOLDS 1 DELETE 1 EFFECT CLAUSE HOLDS 0 CLAUSE LACKS 1 ADD 1')
    for what, opening, action, steps, last in [  # the facts of the opening state, and those of the last
            ('adds and deletes one fact that lacks', [], 'EFFECT ADD 1 DELETE 1', 1, [1]),  # document 01's (l)
            ('adds and deletes one fact that holds', [1], 'EFFECT ADD 1 DELETE 1', 1, [1]),
            ('one effect adds, a later one deletes', [], 'EFFECT ADD 1 EFFECT DELETE 1', 1, [1]),
            ('one effect deletes, a later one adds', [1], 'EFFECT DELETE 1 EFFECT ADD 1', 1, [1]),
            ('deletes, and the adding effect does not fire', [1], 'EFFECT CLAUSE LACKS 1 ADD 1 EFFECT DELETE 1', 1, []),
            ('adds, and the deleting effect does not fire', [], 'EFFECT ADD 1 EFFECT CLAUSE HOLDS 1 DELETE 1', 1, [1]),
            ('swap', [0], swap, 1, [1]), ('swap and swap back', [0], swap, 2, [0]), ('swap of two held', [0, 1], swap, 1, [0, 1]),
            ('a chain goes one link a step', [0], chain, 1, [0, 1]), ('a chain, two steps', [0], chain, 2, [0, 1, 2]),
            ('a delete does not hinder a later effect', [0], 'EFFECT DELETE 0 EFFECT CLAUSE HOLDS 0 ADD 3', 1, [3]),
            *((f'a counter, {n} steps', [], counter, n, [bit for bit in (0, 1) if n >> bit & 1]) for n in range(5)),
            ('no effect fires', [2], 'EFFECT CLAUSE HOLDS 3 ADD 0 EFFECT CLAUSE LACKS 2 DELETE 2', 1, [2]),
            ('no effects', [2], '', 1, [2]), ('effects of nothing', [2], 'EFFECT EFFECT CLAUSE HOLDS 2', 1, [2]),
            ('adds a held fact twice, deletes a lacking one twice', [2], 'EFFECT ADD 2 ADD 2 DELETE 3 DELETE 3', 1, [2])]:
        starts = ''.join(f'START {f} ' for f in opening)
        preferences = ''.join(f' at-end {f + 1} CLAUSE HOLDS {f}' for f in range(4))
        answer = ' '.join('met' if f in last else 'missed' for f in range(4))
        yield what, file(f'{starts} GOAL ACTION 6 {action} {preferences}'), [0] * steps, answer


def refused():
    task = file('GOAL ACTION ACTION CLAUSE HOLDS 0')  # action 1 does not apply
    for what, plan, answer in [
            ('2,049 steps', [0] * 2049, '10 0'), ('2,304 steps', [0] * 2304, '10 0'), ('65,536 steps', [0] * 65536, '10 0'),
            ('2,049 steps, one would stop', [0, 1] + [0] * 2047, '10 0'), ('2,049 steps, one unknown', [2] + [0] * 2048, '10 0'),
            ('2,049 steps, the last unknown', [0] * 2048 + [2], '10 0'), ('2,048 steps, the last unknown', [0] * 2047 + [2], '11 2047'),
            ('step A', [2], '11 0'), ('step 255', [255], '11 0'), ('an unknown step in the middle', [0, 2, 0], '11 1'),
            ('several unknown steps', [0, 0, 128, 3, 2], '11 2'), ('unknown after one that would stop', [1, 0, 2], '11 2')]:
        yield what, task, plan, f'refused {answer}'
    yield 'unknown, and the goal would be missed', file(f'GOAL {PHI} ACTION'), [0, 1], 'refused 11 1'
    yield 'A 0, a step', file('GOAL'), [0], 'refused 11 0'
    yield '128 actions, step 128', file('GOAL' + ' ACTION' * 128), [127, 128], 'refused 11 1'
    for what, data, answer in [
            ('no byte', b'', '1 0'), ('7 bytes', task[:7], '1 0'), ('F 0', file('GOAL', F=0), '2 0'), ('A 129', file('GOAL', A=129), '2 0'),
            ('P 17', file('GOAL', P=17), '2 0'), ('one byte short', task[:-1], '3 0'), ('one byte long', task + b'\0', '3 0'),
            ('N 0', file(''), '4 0'), ('an unknown mark', file('GOAL #20'), '4 1'), ('ends in a clause', file('GOAL ACTION CLAUSE'), '4 3'),
            ('no SECOND', file('GOAL sometime-after'), '4 2'), ('no STEPS', file('GOAL within'), '4 2'),
            ('STEPS 16', file('GOAL within STEPS 16'), '5 2'), ('a fact too high', file('GOAL CLAUSE HOLDS 4'), '5 2'),
            ('START not rising', file('START 1 START 1 GOAL'), '5 1'), ('a hard weight', file('GOAL hard-always 1'), '5 1'),
            ('an action too many', file('GOAL ACTION', A=0), '6 2'), ('a preference too few', file('GOAL', P=1), '6 1')]:
        for plan in [[], [255], [0] * 2049]:
            yield f'{what}, plan of {len(plan)}', data, plan, f'refused {answer}'


def random_tasks(count=200, seed=2009, kinds=SOFT):
    """Small tasks of all kinds. The conditions of goals and actions are mostly easy, so that most plans come to the goal."""
    r = Chance(seed)
    one_of, some = r.one_of, r.some

    def fact(*names):
        return lambda: f' {one_of(names)} {one_of(used)}'

    def condition(clauses, literals):
        return some(clauses, lambda: ' CLAUSE' + some(literals, fact('HOLDS', 'LACKS')))

    def effect():
        return ' EFFECT' + condition([0, 1, 1, 2], [1, 1, 2]) + some([0, 1, 1, 1, 2], fact('ADD')) + some([0, 1, 1, 2], fact('DELETE'))

    def action():
        return f' ACTION {one_of([0, 1, 2, 5, 9, 1000001, 2 ** 31, MOST - 7, MOST])}' + condition([0, 0, 0, 1], [3]) + some([1, 2, 3, 4], effect)

    def rule():
        phi, psi = (condition([0, 1, 1, 1, 1, 2], [1, 1, 2]) for _ in range(2))
        return preference(one_of(kinds), one_of([0, 1, 4, 7, 30, 1000001, 2 ** 31, MOST - 6, MOST]), phi, psi, one_of([0, 1, 1, 2, 2, 3, 5, 15]))

    for number in range(count):
        used = one_of([[0, 1], [0, 1, 2], [0, 1, 2, 3], [0, 63, 64, 127]])
        starts = ''.join(f'START {f} ' for f in used if r.random() < 0.4)
        goal_and_actions = 'GOAL' + condition([0, 0, 0, 1], [2, 3]) + some([2, 3, 4], action)
        data = file(starts + goal_and_actions + some([1, 2, 3, 4, 6], rule), F=used[-1] + 1)
        yield f'random {number}', data, [one_of(range(data[2])) for _ in range(one_of([0, 1, 2, 4, 6, 8, 10, 12]))], ''


def several_rules():
    """Hard rules beside each other and beside soft ones. In the one state of an empty plan φ is false: m is met, x is missed; M and X
    are the same made hard."""
    words = {'m': f'sometime-before 5 {PHI} SECOND', 'x': f'sometime 7 {PHI}', 'M': f'hard-at-most-once {PHI}', 'X': f'hard-always {PHI}'}
    for letters, answer in [
            ('M', 'met'), ('X', 'rule missed 0'), ('MM', 'met met'), ('MX', 'rule missed 1'), ('XM', 'rule missed 0'), ('XX', 'rule missed 0'),
            ('xX', 'rule missed 1'), ('mX', 'rule missed 1'), ('Xx', 'rule missed 0'), ('xM', 'missed met'), ('Mx', 'met missed'),
            ('mxMxm', 'met missed met missed met'), ('xxxX', 'rule missed 3'), ('xMmXxX', 'rule missed 3'), ('M' * 16, 'met ' * 15 + 'met'),
            ('X' * 16, 'rule missed 0'), ('MmxM', 'solved steps 0 cost 0|0 hard-at-most-once 0 met|1 sometime-before 5 met|2 sometime 7 missed|'
                                          '3 hard-at-most-once 0 met|metric 7 utility 5')]:
        yield f'rules {letters}', file('GOAL' + ''.join(' ' + words[letter] for letter in letters)), [], answer
    for k in range(16):
        yield f'rule {k} of 16 missed', file('GOAL ' + ' '.join(words['X' if k == i else 'M'] for i in range(16))), [], f'rule missed {k}'
        yield f'rule {k} and the last of 16 missed', file('GOAL ' + ' '.join(words['X' if i in (k, 15) else 'x'] for i in range(16))), [], (
            f'rule missed {k}')
    for what, task, plan, answer in [
            ('stopped before the rule', f'GOAL {PHI} ACTION {PHI} hard-always {PHI}', [0], 'stopped 0'),
            ('stopped later, the rule missed in state 0', f'GOAL ACTION 1 EFFECT ADD 1 ACTION {PHI} hard-always {PHI}', [0, 0, 1], 'stopped 2'),
            ('goal missed before the rule', f'GOAL {PHI} hard-always {PHI}', [], 'goal missed'),
            ('goal missed and the rule met', f'GOAL {PHI} hard-at-end CLAUSE LACKS 0', [], 'goal missed'),
            ('the rule missed where the goal holds', f'GOAL CLAUSE LACKS 0 hard-at-end {PHI}', [], 'rule missed 0'),
            ('missed by a detour', f'START 0 GOAL ACTION EFFECT DELETE 0 ACTION EFFECT ADD 0 hard-always {PHI}', [0, 1], 'rule missed 0'),
            ('met without the detour', f'START 0 GOAL ACTION EFFECT DELETE 0 ACTION EFFECT ADD 0 hard-always {PHI}', [1], 'met'),
            ('an unknown step', f'GOAL ACTION hard-always {PHI}', [0, 1], 'refused 11 1'),
            ('2,049 steps', f'GOAL ACTION hard-always {PHI}', [0] * 2049, 'refused 10 0'),
            ('2,048 steps, missed in the last state', 'GOAL ACTION ACTION EFFECT ADD 0 hard-always CLAUSE LACKS 0', [0] * 2047 + [1],
             'rule missed 0'),
            ('2,048 steps, met', f'GOAL ACTION {MOST} hard-always CLAUSE LACKS 0', [0] * 2048,
             'solved steps 2048 cost 8796093020160|0 hard-always 0 met|metric 8796093020160 utility -8796093020160'),
            ('a hard weight', f'GOAL hard-always 1 {PHI}', [], 'refused 5 1'), ('mark 32', 'GOAL #32', [], 'refused 4 1'),
            ('hard-within, no STEPS', 'GOAL hard-within', [], 'refused 4 2'), ('an empty hard rule', 'GOAL hard-at-end', [], 'met')]:
        yield what, file(task), plan, answer
    yield 'a hard rule that is not counted', file('GOAL hard-at-end', P=0), [], 'refused 6 2'
    for number, vector in enumerate(random_tasks(150, 1997, SOFT + HARD)):
        yield f'random with hard rules {number}', *vector[1:]
