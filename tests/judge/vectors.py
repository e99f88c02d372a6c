#!/usr/bin/env python3
"""The test vectors of program judge: task files and plans, and the texts that documents 01 and 02 want for them.

tests/judge/vectors.py           writes crates/judge_vectors/data/vectors and crates/judge_vectors/stdout
tests/judge/vectors.py --check   writes nothing, and fails where these two files are not what it makes
tests/judge/vectors.py --list    says what each vector is for, and its text with | between the lines

A vector is two records (shared/stored.py): the task file, then the plan.

Where a text comes from:
- A refusal: the account in shared/account.py.
- A verdict: the outside engine (shared/engine.py), by the rules of meaning.lp.
Where an answer stands beside a vector, it was written by hand, and has to agree with the text.
"""
import itertools
import os
import sys

sys.path.insert(0, os.path.dirname(os.path.dirname(os.path.abspath(__file__))))
from shared import stored
from shared.account import refusal
from shared.engine import text, walked
from shared.files import BELT, DEADLINES, MOST, SOFT, file, preference
from shared.stored import record
from shared.tasks import PHI, PHI_PSI, PSI, effects, empty_conditions, facts_of_both_words, random_tasks, refused, several_rules
from shared.tasks import stopped_and_missed, traced


# ---- the vectors: what each is for, the task file, the plan, and the answer where it is written down here, as in shared/tasks.py

def belt():
    for plan, answer in [([0], 'solved steps 1 cost 3|0 always 5 missed|1 sometime 7 met|metric 8 utility 4'), ([], 'goal missed'),
                         ([1], 'goal missed'), ([0, 1], 'goal missed'), ([0, 1, 0], 'missed met'), ([2], 'refused 11 0')]:
        yield f'the belt, plan {plan}', file(BELT, F=2), plan, answer


# Traces picked by hand, document 01's (a) to (j) among them: a kind, its steps, where it is met, and where it is missed.
OF_KINDS = [
    ('always', 0, 'f ff fff fffffff', '- -- --- -ff f-f ff- f-- --f fffff-'),
    ('sometime', 0, 'f f-- -f- --f ff- fff -----f', '- -- ---'),
    ('at-end', 0, 'f -f ff --f fff f-f', '- f- ff- f-- -f- ---'),
    ('at-most-once', 0, '- f -- f- -f ff ff- -ff -f- fff --f f-- -fff- ---ff', 'f-f f--f ff-f f-ff -f-f f-f- f-f-f ff--ff -f-f-f'),
    ('sometime-before', 0, '- p -p --- pf p-f pb -pf -pb p-b pff pfpf pp--f', 'f b f- b- -f -b fp bf ff -fp -bf fpf bpf fpb -f-p'),
    ('sometime-after', 0, '- p b -- -b b- fp bp fb pb --p b-- f-p ffp bbp fpb fb- fpfp fp-- pbb-', 'f f- -f ff pf bf fpf fbf f-- pf- ppf fpfpf b-f-')]
OF_DEADLINES = [
    ('within', 0, 'f f- ff', '- -f --f'), ('within', 1, 'f f-- -f -f- ff', '- -- --f --ff'),
    ('within', 2, '--f -f- f--f', '- -- --- ---f ---ff'), ('within', 3, 'f ---f', '---- ----f'),
    ('within', 15, f'f --f {"-" * 15}f {"-" * 15}f-', f'- --- {"-" * 16} {"-" * 16}f {"-" * 20}f'),
    ('always-within', 0, '- p b bb pb -b- bpb', 'f f- fp fb bf pf fpf bfb'),
    ('always-within', 1, 'fp fb -fp bfp fp-- fpfp fpfb', 'f ff pf f-p ffp fpf -f- f--p fp-f bf-p'),
    ('always-within', 2, 'fp f-p ffp fpf-p f-pf-b', 'f f- fff ff-p f--p f-pf pf--p f--pppp'),
    ('always-within', 3, 'f--p fffp fffpffb', 'f-- f---p ffffp fffpff f----'),
    ('always-within', 15, f'f{"-" * 14}p {"f" * 15}p {"f" * 15}b', f'f pf pf--- f{"-" * 15}p {"f" * 16}p')]


def by_hand(table):
    """Each kind, its steps and each trace picked for it, and whether it is met."""
    for kind, steps, *traces in table:
        for met, trace in [(met, trace) for met, some in zip([True, False], traces) for trace in some.split()]:
            yield kind, steps, trace, met


def kinds():
    """The kinds without a deadline on traces picked by hand, and then on all short traces."""
    for kind, _, trace, met in by_hand(OF_KINDS):
        yield f'{kind} {trace}', *traced(trace, preference(kind, 5, PHI, PSI)), 'met' if met else 'missed'
    four = f'always 1 {PHI} sometime 2 {PHI} at-end 4 {PHI} at-most-once 8 {PHI}'
    two = f'sometime-before 1 {PHI_PSI} sometime-after 2 {PHI_PSI}'
    for what, letters, most, preferences in [('four kinds', '-f', 5, four), ('two kinds', '-fpb', 4, two)]:
        for trace in itertools.chain(*(itertools.product(letters, repeat=states) for states in range(1, most + 1))):
            yield f'{what} on all traces, ' + ''.join(trace), *traced(trace, preferences), ''


def deadlines():
    """The kinds with a deadline on traces picked by hand, and then on all short traces."""
    for kind, steps, trace, met in by_hand(OF_DEADLINES):
        yield f'{kind} {steps} {trace}', *traced(trace, preference(kind, 5, PHI, PSI, steps)), 'met' if met else 'missed'
    ten = ''.join(preference(kind, 1 << steps, PHI, PSI, steps) for steps in [0, 1, 2, 3, 15] for kind in DEADLINES)
    for letters, lengths in [('-fpb', [1, 2, 3]), ('-fp', [4]), ('-f', [5])]:
        for trace in itertools.chain(*(itertools.product(letters, repeat=states) for states in lengths)):
            yield 'deadlines on all traces, ' + ''.join(trace), *traced(trace, ten), ''


def long_deadlines():
    """The answers are those of within 14, always-within 14, within 15 and always-within 15."""
    four = ''.join(preference(kind, 5, PHI, PSI, steps) for steps in [14, 15] for kind in DEADLINES)
    for what, trace, answer in [
            ('2,049 states, φ in the last alone', '-' * 2048 + 'f', 'missed missed missed missed'),
            ('2,049 states, φ in 15 alone', '-' * 15 + 'f' + '-' * 2033, 'missed missed met missed'),
            ('2,049 states, φ in 2,033, ψ in the last', '-' * 2033 + 'f' + '-' * 14 + 'p', 'missed missed missed met'),
            ('2,049 states, φ in 0, ψ in the last', 'f' + '-' * 2047 + 'p', 'met missed met missed'),
            ('2,049 states, ψ in each 16th, φ in all others', ('f' * 15 + 'p') * 128 + '-', 'met missed met met'),
            ('2,049 states, ψ in each 16th, φ in the last too', ('f' * 15 + 'p') * 128 + 'f', 'met missed met missed'),
            ('260 states, φ in 256 and 257', '-' * 256 + 'ff--', 'missed missed missed missed'),
            ('272 states, φ in 0 and 255, ψ in 1 and 270', 'fp' + '-' * 253 + 'f' + '-' * 14 + 'p-', 'met missed met met'),
            ('257 states, φ in 0, ψ in 256', 'f' + '-' * 255 + 'p', 'met missed met missed')]:
        yield what, *traced(trace, four), answer


def conditions():
    """A condition in each state of the facts 0 and 1, as each part of a task that is a condition."""
    for condition, truths in [
            ('CLAUSE HOLDS 0 HOLDS 1', [0, 1, 1, 1]), ('CLAUSE HOLDS 0 CLAUSE HOLDS 1', [0, 0, 0, 1]),
            ('CLAUSE HOLDS 0 LACKS 0', [1, 1, 1, 1]), ('CLAUSE HOLDS 0 CLAUSE LACKS 0', [0, 0, 0, 0]),
            ('CLAUSE HOLDS 0 HOLDS 0 CLAUSE HOLDS 0', [0, 1, 0, 1]), ('CLAUSE LACKS 0 HOLDS 1 CLAUSE HOLDS 0 LACKS 1', [1, 0, 0, 1]),
            ('CLAUSE LACKS 0 LACKS 1', [1, 1, 1, 0]), ('CLAUSE HOLDS 0 HOLDS 1 CLAUSE HOLDS 0 LACKS 1 CLAUSE LACKS 0 HOLDS 1', [0, 0, 0, 1])]:
        for opening, true in zip(['', 'START 0', 'START 1', 'START 0 START 1'], truths):
            for part, task, plan, answers in [
                    ('goal', f'GOAL {condition}', [], ('goal missed', 'solved')),
                    ('precondition', f'GOAL ACTION {condition}', [0], ('stopped 0', 'solved')),
                    ('effect condition', f'GOAL ACTION EFFECT {condition} ADD 2 at-end 1 CLAUSE HOLDS 2', [0], ('missed', 'met')),
                    ('φ', f'GOAL always 1 {condition}', [], ('missed', 'met')),
                    ('ψ', f'GOAL ACTION EFFECT ADD 2 sometime-before 1 CLAUSE HOLDS 2 SECOND {condition}', [0], ('missed', 'met')),
                    ('ψ in the state of φ', f'GOAL sometime-after 1 SECOND {condition}', [], ('missed', 'met'))]:
                yield f'{condition} as {part}, {opening or "no START"}', file(f'{opening} {task}'), plan, answers[true]


def amounts():
    yield 'P 0', file('GOAL ACTION 4'), [0, 0], 'solved steps 2 cost 8|metric 8 utility -8'
    yield 'A 0', file(f'GOAL sometime 3 {PHI}'), [], 'solved steps 0 cost 0|0 sometime 3 missed|metric 3 utility 0'
    yield 'A 0 and P 0', file('GOAL'), [], 'solved steps 0 cost 0|metric 0 utility 0'
    for what, weights in [('0', [0] * 16), ('1,000,000', [1000000] * 16), ('1 to 16', range(1, 17)), ('repeated', [3, 1, 4, 5] * 4),
                          ('the greatest', [MOST] * 16), ('powers of 4', [4 ** k for k in range(16)]), ('65,535 and 65,536', [65535, 65536] * 8)]:
        for outcome, words in [('all met', ['LACKS']), ('all missed', ['HOLDS']), ('every third met', ['LACKS', 'HOLDS', 'HOLDS'])]:
            sixteen = ''.join(f' {SOFT[k % 3]} {weight} CLAUSE {words[k % len(words)]} 0' for k, weight in enumerate(weights))
            yield f'P 16, weights {what}, {outcome}', file(f'GOAL ACTION 5 {sixteen}'), [0], 'solved steps 1 cost 5'
    for cost, weight, utility in [(0, 0, 0), (0, MOST, MOST), (MOST, 0, -MOST), (MOST, MOST, 0), (3, 7, 4), (7, 3, -4), (1000000, 1000001, 1),
                                  (MOST - 1, MOST, 1), (MOST, MOST - 1, -1), (2 ** 31, 2 ** 31 - 1, -1), (2 ** 31 - 1, 2 ** 31, 1)]:
        for outcome, phi, sums in [('met', '', f'{cost} utility {utility}'), ('missed', PHI, f'{cost + weight} utility {-cost}')]:
            yield f'cost {cost}, weight {weight} {outcome}', file(f'GOAL ACTION {cost} always {weight} {phi}'), [0], (
                f'solved steps 1 cost {cost}|0 always {weight} {outcome}|metric {sums}')
    yield 'two steps over 32 bits', file(f'GOAL ACTION {MOST} ACTION 1'), [0, 1], (
        'solved steps 2 cost 4294967296|metric 4294967296 utility -4294967296')
    for phi, outcome, sums in [('', 'met', '4294967294 utility 4294967296'), (PHI, 'missed', '12884901884 utility -4294967294')]:
        yield f'two weights over 32 bits, {outcome}', file('GOAL ACTION 2147483647' + f' always {MOST} {phi}' * 2), [0, 0], (
            f'solved steps 2 cost 4294967294|0 always {MOST} {outcome}|1 always {MOST} {outcome}|metric {sums}')
    yield 'different costs', file('GOAL' + ''.join(f' ACTION {1 << a}' for a in range(8))), [7, 0, 3, 3, 5, 0], 'solved steps 6 cost 178'
    yield '128 actions', file('GOAL' + ''.join(f' ACTION {a}' for a in range(128))), [127, 0, 64, 127], 'solved steps 4 cost 318'
    yield '12,000 rows, the last makes the goal true', file('GOAL CLAUSE' + ' HOLDS 3' * 11997 + ' LACKS 3'), [], 'solved steps 0 cost 0'


def long_plans():
    """φ comes in few states here, as meaning.lp goes through all i, j, k of an at-most-once preference."""
    task = file(f'GOAL CLAUSE LACKS 0 ACTION {MOST} ACTION {MOST} EFFECT ADD 0 ACTION 1 CLAUSE LACKS 0', F=1)
    yield '2,048 steps', task, [0] * 2048, 'solved steps 2048 cost 8796093020160|metric 8796093020160 utility -8796093020160'
    yield '2,047 steps of the greatest cost, one of 1', task, [0] * 2047 + [2], (
        'solved steps 2048 cost 8791798052866|metric 8791798052866 utility -8791798052866')
    yield '2,048 steps, goal missed', task, [0] * 2047 + [1], 'goal missed'
    yield '2,048 steps, stopped at the last', task, [0] * 2046 + [1, 2], 'stopped 2047'
    for word, outcome, sums in [('HOLDS', 'missed', '8864812496880 utility -8796093020160'),
                                ('LACKS', 'met', '8796093020160 utility -8727373543440')]:
        sixteen = file(f'GOAL ACTION {MOST}' + f' always {MOST} CLAUSE {word} 0' * 16, F=1)
        yield f'2,048 steps and 16 preferences {outcome}, the greatest amounts', sixteen, [0] * 2048, '|'.join([
            'solved steps 2048 cost 8796093020160', *(f'{k} always {MOST} {outcome}' for k in range(16)), f'metric {sums}'])
    yield 'no step, 16 preferences met, the greatest weights', file('GOAL' + f' always {MOST}' * 16), [], '|'.join([
        'solved steps 0 cost 0', *(f'{k} always {MOST} met' for k in range(16)), 'metric 0 utility 68719476720'])
    small = file('GOAL ACTION 1000000' + f' always 1000000 {PHI}' * 16, F=1)
    yield '2,048 steps, 16 preferences missed', small, [0] * 2048, '|'.join([
        'solved steps 2048 cost 2048000000', *(f'{k} always 1000000 missed' for k in range(16)), 'metric 2064000000 utility -2048000000'])
    six = (f'always 1 CLAUSE LACKS 0 sometime 2 {PHI} at-end 4 {PHI} at-most-once 8 {PHI} sometime-before 16 {PHI_PSI} '
           f'sometime-after 32 {PHI_PSI}')
    for what, trace, answer in [
            ('2,049 states, φ in the last alone', '-' * 2048 + 'f', 'missed met met met missed missed'),
            ('2,049 states, φ in none', '-' * 2049, 'met missed missed met met met'),
            ('2,049 states, φ in 2,047 alone, ψ in 0', 'p' + '-' * 2046 + 'f-', 'missed met missed met met missed'),
            ('2,049 states, φ in 0 alone, ψ in the last', 'f' + '-' * 2047 + 'p', 'missed met missed met missed met'),
            ('2,049 states, φ in 2,046 and 2,048, ψ in 0', 'p' + '-' * 2045 + 'f-f', 'missed met met missed met missed'),
            ('266 states, φ in 0 and 256', 'f' + '-' * 255 + 'f' + '-' * 9, 'missed met missed missed missed missed'),
            ('259 states, φ in 256, ψ in 255', '-' * 255 + 'pf--', 'missed met missed met met missed'),
            ('258 states, φ and ψ in 256', '-' * 256 + 'b-', 'missed met missed met missed met'),
            ('262 states, φ in 250 to 260', '-' * 250 + 'f' * 11 + '-', 'missed met missed met missed missed')]:
        yield what, *traced(trace, six), answer


def hard_kinds():
    """Each kind made hard, on the traces picked for it."""
    for kind, steps, trace, met in by_hand(OF_KINDS + OF_DEADLINES):
        cost = sum(1 + '-fpb'.index(letter) for letter in trace[1:])
        solved = f'solved steps {len(trace) - 1} cost {cost}|0 hard-{kind} 0 met|metric {cost} utility {-cost}'
        data, plan = traced(trace, preference(f'hard-{kind}', 0, PHI, PSI, steps))
        yield f'hard-{kind} {steps} {trace}', data, plan, solved if met else 'rule missed 0'


def vectors():
    """What each vector is for, the task file, the plan, and the text."""
    families = [belt, kinds, stopped_and_missed, facts_of_both_words, empty_conditions, conditions, effects, amounts, long_plans, refused,
                random_tasks, deadlines, long_deadlines, hard_kinds, several_rules]
    made = [(what, data, bytes(plan), answer) for family in families for what, data, plan, answer in family()]
    texts = {t: refusal(data, plan) for t, (_, data, plan, _) in enumerate(made)}
    atoms = walked({t: made[t][1:3] for t in texts if not texts[t]})
    for t, (what, data, plan, answer) in enumerate(made):
        lines = texts[t] or text(atoms[t], data, plan)
        first, *others = lines.splitlines()
        forms = ['', '|'.join([first, *others]), first, first.split()[0], ' '.join(line.split()[-1] for line in others[:-1])]
        assert answer in forms, f'{what}: {answer}, but the text is {lines}'
        yield what, data, plan, lines


def parts():
    for what, data, plan, lines in vectors():
        yield f'{what}: {"|".join(lines.splitlines())}', record(data) + record(plan), lines.encode()


if __name__ == '__main__':
    stored.main('judge_vectors', parts, __doc__)
