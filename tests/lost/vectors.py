#!/usr/bin/env python3
"""The test vectors of what is already lost: task files with lists of translated actions, and the lines that document 02 wants for them.

tests/lost/vectors.py           writes tests/lost/data/vectors and tests/lost/stdout
tests/lost/vectors.py --check   writes nothing, and fails where these two files are not what it makes
tests/lost/vectors.py --list    says what each vector is for, and its line
tests/lost/vectors.py PROGRAM   holds the account's translations of these tasks to what PROGRAM, crates/translate/out/translate, writes

A vector is two records (shared/stored.py): the task file, then the list. The line is `run cost C lost L`, `stopped I`, or a refusal.
tests/compare holds the library to them.

Lines come from the account in shared/translated.py, which makes the translated task row by row, runs the list on its rows, and looks
at the facts S, B and C of each rule. Where an answer stands beside a vector, it was written by hand, and has to agree.
"""
import os
import sys

sys.path.insert(0, os.path.dirname(os.path.dirname(os.path.abspath(__file__))))
from shared import stored
from shared.chance import Chance
from shared.expected import expect
from shared.files import BELT, HARD, MOST, SOFT, file, preference
from shared.programs import run
from shared.stored import record
from shared.tasks import PHI, PSI, random_tasks, several_rules, stopped_and_missed, traced
from shared.translated import lost, translation

belt = file(BELT, F=2)
END = 4  # of a traced task, which has four actions; then collect and forgo of its one rule


# ---- the vectors: what each is for, the task file, the list, and the answer where it is written down here

def belts():
    """0 sweeps, 1 loads, 2 is end, 3 and 4 collect and forgo always, which the opening state misses, 5 and 6 sometime."""
    for steps, answer in [
            ([], 'run cost 0 lost 0'), ([0], 'run cost 3 lost 5'), ([1], 'run cost 1 lost 5'), ([0, 1, 0], 'run cost 7 lost 5'),
            ([2], 'run cost 0 lost 5'), ([0, 2], 'run cost 3 lost 5'), ([0, 2, 4], 'run cost 8 lost 0'), ([0, 2, 4, 5], 'run cost 8 lost 0'),
            ([2, 4], 'run cost 5 lost 0'), ([2, 4, 6], 'run cost 12 lost 0'), ([0, 2, 3], 'stopped 2'), ([2, 4, 5], 'stopped 2'),
            ([3], 'stopped 0'), ([0, 4], 'stopped 1'), ([0, 2, 2], 'stopped 2'), ([0, 2, 1], 'stopped 2'), ([0, 2, 5], 'stopped 2'),
            ([0, 2, 4, 4], 'stopped 3'), ([0, 2, 4, 3], 'stopped 3'), ([0, 2, 4, 5, 5], 'stopped 4'), ([0, 2, 4, 5, 2], 'stopped 4'),
            ([7], 'refused 11 0'), ([3, 0, 7], 'refused 11 2'), ([255], 'refused 11 0')]:
        yield f'the belt, {steps}', belt, steps, answer


# A kind, the states that are left, and what is lost of weight 5 after each: 0 before the first is.
TRACES = [
    ('always', 'fff', '0 0 0 0'), ('always', '-ff', '0 5 5 5'), ('always', 'ff-f', '0 0 0 5 5'), ('always', 'p', '0 5'), ('always', 'b', '0 0'),
    ('at-most-once', 'ffff', '0 0 0 0 0'), ('at-most-once', '--ff-', '0 0 0 0 0 0'), ('at-most-once', 'f-f-', '0 0 0 5 5'),
    ('at-most-once', 'f--f', '0 0 0 0 5'), ('at-most-once', '-f-f-f', '0 0 0 0 5 5 5'), ('at-most-once', 'ff-ff', '0 0 0 0 5 5'),
    ('at-most-once', '----', '0 0 0 0 0'), ('at-most-once', 'f-p-b', '0 0 0 0 0 5'),
    ('sometime-before', 'f', '0 5'), ('sometime-before', 'b', '0 5'), ('sometime-before', 'pf', '0 0 0'), ('sometime-before', '-pb-f', '0 0 0 0 0 0'),
    ('sometime-before', '-fp', '0 0 5 5'), ('sometime-before', '-bpf', '0 0 5 5 5'), ('sometime-before', '----', '0 0 0 0 0'),
    ('sometime', '---', '0 0 0 0'), ('at-end', '---', '0 0 0 0'), ('sometime-after', 'fff', '0 0 0 0'), ('within', '---', '0 0 0 0'),
    ('always-within', 'fff', '0 0 0 0')]


def kinds():
    """Each state of a trace is left by the step to the next, and the last by end; then the rule is closed, as it can be."""
    for kind, trace, after in TRACES:
        for hard in ('', 'hard-'):
            data, plan = traced(trace, preference(hard + kind, 5, PHI, PSI, 0))
            steps, costs = plan + [END], [0]
            for step in steps:
                costs.append(costs[-1] + (step + 1) % 5)  # the actions cost 1 to 4, end nothing
            for n, amount in enumerate(after.split()):
                yield f'{hard}{kind} {trace}, {n} left', data, steps[:n], f'run cost {costs[n]} lost {0 if hard else amount}'
            last, total = after.split()[-1], costs[-1]
            if kind in ('always', 'at-most-once', 'sometime-before'):
                missed = last != '0'
                yield f'{hard}{kind} {trace}, collected', data, steps + [END + 1], f'stopped {len(steps)}' if missed else f'run cost {total} lost 0'
                forgone = f'run cost {total + 5} lost 0' if missed and not hard else f'stopped {len(steps)}'
                yield f'{hard}{kind} {trace}, forgone', data, steps + [END + 2], forgone


def several():
    """Rules beside each other, closed one after the other: 1 always, 2 at-most-once and 4 sometime-before are lost, 8 always is not."""
    rules = (f' always 1 {PHI} at-most-once 2 CLAUSE LACKS 0 sometime-before 4 CLAUSE LACKS 0 SECOND {PSI} sometime 16 {PSI}'
             f' always 8 CLAUSE LACKS 1 hard-always CLAUSE LACKS 1')
    data = file('GOAL ACTION 100 EFFECT ADD 0 ACTION 1000 EFFECT DELETE 0' + rules, F=2)
    plan = [0, 1, 2]  # states with fact 0 lacking, holding, lacking; 2 is end
    closings = [4, 6, 8, 10, 11, 13]
    for n, answer in enumerate(['0 lost 0', '100 lost 5', '1100 lost 5', '1100 lost 7', '1101 lost 6', '1103 lost 4', '1107 lost 0', '1123 lost 0',
                                '1123 lost 0', '1123 lost 0']):
        yield f'several rules, {n} steps', data, (plan + closings)[:n], f'run cost {answer}'
    for k, closing in enumerate(closings):
        for wrong in {*range(15)} - {closing}:
            yield f'rule {k}, {wrong} in the place of {closing}', data, plan + closings[:k] + [wrong], f'stopped {3 + k}'


def amounts():
    data = file(f'GOAL ACTION {MOST}' + f' always {MOST} {PHI}' * 16, F=1)
    for n in [1, 2, 2047, 2048]:
        yield f'{n} steps of the greatest cost, all rules lost', data, [0] * n, f'run cost {n * MOST} lost {16 * MOST}'
    closed = [0] * 2031 + [1] + [3 + 2 * k for k in range(16)]
    yield '2,048 steps, all rules closed', data, closed, f'run cost {2047 * MOST} lost 0'
    yield '2,047 steps, one not closed', data, closed[:-1], f'run cost {2046 * MOST} lost {MOST}'
    powers = file('GOAL ACTION' + ''.join(f' always {1 << 2 * k} {PHI}' for k in range(16)), F=1)
    for k in range(17):
        yield f'powers of 4, {k} closed', powers, [1] + [3 + 2 * j for j in range(k)], f'run cost {(4 ** k - 1) // 3} lost {(4 ** 16 - 4 ** k) // 3}'


def refusals():
    """1 to 8 as of translating, then 10, then 11 over the translated actions."""
    long_lists = [[], [255], [0] * 2049]
    goal = 'GOAL CLAUSE' + ' HOLDS 3' * 11986  # 12,000 rows in the translation of this and one action
    for what, data, answer in [
            ('no byte', b'', '1 0'), ('F 0', file('GOAL', F=0), '2 0'), ('a byte long', belt + b'\0', '3 0'), ('a mark', file('GOAL #20'), '4 1'),
            ('a value', file('GOAL CLAUSE HOLDS 4'), '5 2'), ('an action too many', file('GOAL ACTION', A=0), '6 2'),
            ('127 facts', file('GOAL', F=127), '7 0'), ('128 actions', file('GOAL' + ' ACTION' * 128), '7 0'),
            ('P 16 with F 79', file('GOAL' + ' always' * 16, F=79), '7 0'), ('a deadline too many', file('GOAL within STEPS 15', F=108), '7 0'),
            ('12,001 rows', file(goal + ' HOLDS 3 ACTION'), '8 0'), ('7 before 8', file(goal + ' HOLDS 3 ACTION', F=127), '7 0')]:
        for steps in long_lists if len(data) < 10000 else long_lists[2:]:
            yield f'{what}, {len(steps)} steps', data, steps, f'refused {answer}'
    for what, data, last in [('12,000 rows', file(goal + ' ACTION'), 1), ('126 facts', file('GOAL', F=126), 0),
                             ('127 actions', file('GOAL' + ' ACTION' * 127), 127), ('P 16 with F 78', file('GOAL' + ' always' * 16, F=78), 32)]:
        tried = [([], 'run cost 0 lost 0'), ([last, last + 1], 'refused 11 1'), ([last + 1], 'refused 11 0'), ([0] * 2049, 'refused 10 0')]
        for steps, answer in tried if len(data) < 10000 else tried[:2]:
            yield f'{what}, list {steps[:2]} of {len(steps)}', data, steps, answer
    yield '2,049 steps, unknown ones', belt, [255] * 2049, 'refused 10 0'
    yield '2,048 steps', belt, [0] * 2048, 'run cost 6144 lost 5'
    yield '2,048 steps, the last unknown', belt, [0] * 2047 + [7], 'refused 11 2047'


def listed(chance, data, plan):
    """A list that begins as a plan: cut, with end and closings in their order or not, and with a number changed."""
    actions, numbers = data[2], data[2] + 2 * data[4] + 1
    steps = list(plan)[:chance.one_of([3, 6, 12])]
    if chance.below(3):
        steps.append(actions)
        for k in range(chance.below(data[4] + 1)):
            steps.append(actions + 1 + 2 * k + chance.below(2))
    if chance.below(4) == 0:
        steps.insert(chance.below(len(steps) + 1), chance.below(numbers))
    return steps


def random_lists(count=300, seed=1313):
    """On random tasks; half of the lists with closings are those that apply, found by trying."""
    chance = Chance(seed)
    kinds_tried = ['always', 'at-most-once', 'sometime-before'] * 3 + SOFT + HARD[:5]
    for number, (_, data, plan, _) in enumerate(random_tasks(count, seed, kinds_tried)):
        if data[0] == 128 and chance.below(4):
            continue  # too many facts in the translation
        steps = listed(chance, data, plan)
        if number % 2:
            steps = [*plan[:6], data[2]]
            for k in range(data[4]):
                steps.append(next((n for n in (data[2] + 1 + 2 * k, data[2] + 2 + 2 * k) if lost(data, steps + [n]).startswith('run')), data[2]))
            steps = steps[:1 + chance.below(len(steps))]
        yield f'random {number}', data, steps, ''


def others():
    """Tasks and plans that judge is tried with, as lists of source steps and with end after them."""
    for what, data, plan, answer in [*stopped_and_missed(), *several_rules()]:
        if not answer.startswith('refused'):
            stops = answer if answer.startswith('stopped') else ''
            yield what, data, plan, stops
            yield f'{what}, and end', data, plan + [data[2]], stops


def vectors():
    """What each vector is for, the task file, the list, and the line."""
    for family in (belts, kinds, several, amounts, refusals, random_lists, others):
        for what, data, steps, answer in family():
            line = lost(data, steps)
            assert answer in ('', line), f'{what}: {answer}, but the line is {line}'
            yield what, data, bytes(steps), line


def parts():
    for what, data, steps, line in vectors():
        yield f'{what}: {line}', record(data) + record(steps), line.encode() + b'\n'


def translations(program):
    """The account's translations are those that program translate writes, byte by byte."""
    tasks = {data: what for what, data, *_ in vectors()}
    for data, what in tasks.items():
        made = translation(data)
        wanted = (f'{made}\n', '', dict(task=data)) if isinstance(made, str) else ('', '', dict(task=data, compiled=made))
        expect(f'the translation of {what}', run(program, dict(task=data)), wanted)
    print(f"program translate: {len(tasks)} tasks as the account of tests/lost has them")


if __name__ == '__main__':
    if len(sys.argv) == 2 and not sys.argv[1].startswith('-'):
        translations(sys.argv[1])
    else:
        stored.main('../tests/lost', parts, __doc__)
