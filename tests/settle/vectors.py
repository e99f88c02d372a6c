#!/usr/bin/env python3
"""The test vectors of settle: task files with a cost and met preferences, and the lines that documents 01 and 02 want for them.

tests/settle/vectors.py           writes crates/settle_vectors/data/vectors and crates/settle_vectors/stdout
tests/settle/vectors.py --check   writes nothing, and fails where these two files are not what it makes
tests/settle/vectors.py --list    says what each vector is for, and its line

A vector is two records (shared/stored.py): the task file, then 16 bytes, the cost and the met preferences as bits, little-endian numbers
of 64 bits each.

Each line is made twice, and both have to agree:
- by the function `settle` below, over the account in shared/account.py;
- of an accepted file, by the outside engine (shared/engine.py), by the rules of amounts.lp. It takes costs of up to 47 bits, so refusals
  of greater ones are by `settle` alone.
Where an answer stands beside a vector, it was written by hand, or it is the last line that program judge has to write about a plan of
this cost that meets these preferences; it has to agree with the line.
"""
import os
import re
import struct
import sys

sys.path.insert(0, os.path.dirname(os.path.dirname(os.path.abspath(__file__))))
from shared import files, stored, tasks
from shared.account import check
from shared.chance import Chance
from shared.engine import derived, halves, whole
from shared.files import BELT, DEADLINES, HARD, MOST as WEIGHT, SOFT, file, goal
from shared.stored import record

MOST = 8796093020160  # the greatest cost that is settled: 2,048 steps of the greatest cost


# ---- the lines

def weights(data):
    """The weights of an accepted file's preferences, in their order."""
    return [weight for _, weight in files.preferences(data)]


def settle(data, cost, met):
    line = check(data)
    if line.startswith('refused'):
        return line
    each = weights(data)
    if cost > MOST or met >= 2 ** len(each):
        return 'refused 15 0'
    gained = sum(weight for k, weight in enumerate(each) if met & 2 ** k)
    return f'metric {cost + sum(each) - gained} utility {gained - cost}'


def facts(t, data, cost, met):
    """An accepted task, a cost and met preferences as the facts that amounts.lp is given, t being the vector's number."""
    yield f'cost({t},{halves(cost)}).'
    yield from (f'weight({t},{k},{halves(weight)}).' for k, weight in enumerate(weights(data)))
    yield from (f'met({t},{k}).' for k in range(64) if met >> k & 1)


def outside(made):
    """The lines by the outside engine, {vector: line}, of the vectors that it takes."""
    given = [t for t, (_, data, cost, _, _) in enumerate(made) if cost < 2 ** 47 and check(data).startswith('accepted')]
    said = {t: {} for t in given}
    program = '\n'.join(fact for t in given for fact in facts(t, *made[t][1:4]))
    for predicate, t, *value in derived(program, 'settle/amounts.lp'):
        said[t][predicate] = value
    for t, atoms in said.items():
        if atoms.keys() == {'refused'}:
            yield t, 'refused 15 0'
        else:
            assert atoms.keys() == {'metric', 'utility'}, atoms
            yield t, f"metric {whole(*atoms['metric'])} utility {whole(*atoms['utility'])}"


# ---- the vectors: what each is for, the task file, the cost, the met preferences as bits, and the answer where it is written down here

LONG = 'CLAUSE HOLDS 0 LACKS 3 CLAUSE LACKS 1'
ACTIONS = f'ACTION {WEIGHT} {LONG} EFFECT {LONG} ADD 1 DELETE 2 ACTION 9'  # their costs are no weights


def preference(kind, weight, condition=LONG):
    return files.preference(kind, weight, condition, condition, 15)  # its steps are no weight


def task(each, condition=LONG, kinds=SOFT):
    """A task with a preference of each of these weights, the kinds by turns."""
    preferences = (preference(kinds[k % len(kinds)], weight, condition) for k, weight in enumerate(each))
    return file(f'START 2 GOAL {condition} {ACTIONS}' + ''.join(preferences))


def belt():
    for cost, met, answer in [
            (3, 0b10, 'metric 8 utility 4'), (3, 0b00, 'metric 15 utility -3'), (3, 0b01, 'metric 10 utility 2'),
            (3, 0b11, 'metric 3 utility 9'), (0, 0b00, 'metric 12 utility 0'), (0, 0b11, 'metric 0 utility 12'),
            (8, 0b10, 'metric 13 utility -1'), (7, 0b10, 'metric 12 utility 0'), (12, 0b11, 'metric 12 utility 0'),
            (2048000000, 0b01, 'metric 2048000007 utility -2047999995'), (2048000001, 0b11, 'metric 2048000001 utility -2047999989'),
            (MOST, 0b01, 'metric 8796093020167 utility -8796093020155'), (3, 0b100, 'refused 15 0'), (3, 0b110, 'refused 15 0'),
            (MOST + 1, 0b10, 'refused 15 0')]:
        yield f'the belt, cost {cost}, met {met:b}', file(BELT, F=2), cost, met, answer


def kinds():
    """Each kind alone, with short conditions and long ones; then six kinds, and deadlines, every set of them met."""
    for kind in SOFT:
        for what, condition in [('empty', ''), ('short', 'CLAUSE HOLDS 0'), ('long', LONG)]:
            data = file(f'GOAL {ACTIONS}' + preference(kind, 5, condition))
            yield f'{kind}, {what}, met', data, 7, 1, 'metric 7 utility -2'
            yield f'{kind}, {what}, missed', data, 7, 0, 'metric 12 utility -7'
            yield f'{kind}, {what}, and another bit', data, 7, 2, 'refused 15 0'
    six, deadlines = task([1, 10, 100, 1000, 10000, 100000]), task([1, 10, 100, 1000], kinds=DEADLINES)
    for met in range(64):
        gained = int(f'{met:b}')  # the weights are the places of a decimal number
        yield f'six kinds, met {met:06b}', six, 0, met, f'metric {111111 - gained} utility {gained}'
    for met in range(16):
        gained = int(f'{met:b}')
        yield f'deadlines, met {met:04b}', deadlines, 0, met, f'metric {1111 - gained} utility {gained}'


def numbers():
    """Every P, with weights that tell each set of preferences from the others."""
    for p in range(17):
        data, every = task([2 ** k for k in range(p)]), 2 ** p - 1
        yield f'P {p}, none met', data, 5, 0, f'metric {5 + every} utility -5'
        yield f'P {p}, all met', data, 5, every, f'metric 5 utility {every - 5}'
        yield f'P {p}, every other met', data, 5, every & 0x5555, ''
        yield f'P {p}, bit P', data, 5, 2 ** p, 'refused 15 0'
        yield f'P {p}, all met and bit P', data, 5, every | 2 ** p, 'refused 15 0'
        if p:
            yield f'P {p}, bit P - 1', data, 0, 2 ** (p - 1), f'metric {2 ** (p - 1) - 1} utility {2 ** (p - 1)}'
            yield f'P {p}, all but bit P - 1', data, 0, 2 ** (p - 1) - 1, f'metric {2 ** (p - 1)} utility {2 ** (p - 1) - 1}'


def bits():
    """Every bit by itself, and beside all preferences."""
    for p in [0, 1, 7, 15, 16]:
        data, every = task([2 ** k for k in range(p)], ''), 2 ** p - 1
        for bit in range(64):
            known = f'metric {every - 2 ** bit} utility {2 ** bit}'
            yield f'P {p}, bit {bit}', data, 0, 2 ** bit, known if bit < p else 'refused 15 0'
        for bit in [p, 16, 31, 32, 47, 48, 63]:
            yield f'P {p}, all met and bit {bit}', data, 0, every | 2 ** bit, 'refused 15 0'
        yield f'P {p}, every bit', data, 0, 2 ** 64 - 1, 'refused 15 0'
        yield f'P {p}, every bit but the preferences', data, 0, 2 ** 64 - 1 - every, 'refused 15 0'


def costs():
    """Costs on both sides of the limit and of each width, beside the greatest weights and beside none."""
    for what, data, met, lost, gained in [
            ('P 0', file('GOAL'), 0, 0, 0), ('P 1, weight 0', task([0]), 1, 0, 0),
            ('P 16, none met', task([WEIGHT] * 16, ''), 0, 68719476720, 0),
            ('P 16, all met', task([WEIGHT] * 16, ''), 2 ** 16 - 1, 0, 68719476720)]:
        for cost in [0, 1, 255, 256, 65535, 65536, 16000000, 2048000000, 2048000001, 2 ** 31 - 1, 2 ** 31, 2 ** 32 - 1, 2 ** 32, 2 ** 32 + 3,
                     2 ** 32 + 2048000000, 68719476720, 2 ** 40, 2 ** 42 + 2 ** 31, MOST - 65536, MOST - 1, MOST]:
            yield f'cost {cost}, {what}', data, cost, met, f'metric {cost + lost} utility {gained - cost}'
        for cost in [MOST + 1, MOST + 2 ** 8, MOST + 2 ** 11, MOST + 2 ** 16, MOST + 2 ** 32, 2 ** 44, 2 ** 46 + 3, 2 ** 47 - 1, 2 ** 48, 2 ** 56,
                     2 ** 63 - 1, 2 ** 63, 2 ** 63 + 3, 2 ** 64 - 1]:
            yield f'cost {cost}, {what}', data, cost, met, 'refused 15 0'
    yield 'cost and met preferences both too great', task([1]), MOST + 1, 2, 'refused 15 0'


def amounts():
    for each, cost, met, answer in [
            ([0], 0, 0, 'metric 0 utility 0'), ([0], 0, 1, 'metric 0 utility 0'), ([WEIGHT], 0, 0, f'metric {WEIGHT} utility 0'),
            ([WEIGHT], 0, 1, f'metric 0 utility {WEIGHT}'), ([WEIGHT], WEIGHT, 1, f'metric {WEIGHT} utility 0'),
            ([WEIGHT], WEIGHT + 1, 1, f'metric {WEIGHT + 1} utility -1'), ([0, WEIGHT], 1, 0b01, f'metric {WEIGHT + 1} utility -1'),
            ([0, WEIGHT], 1, 0b10, f'metric 1 utility {WEIGHT - 1}'), ([7, 7], 0, 0b01, 'metric 7 utility 7'),
            ([7, 7], 0, 0b10, 'metric 7 utility 7'), ([7, 7, 7], 1, 0b101, 'metric 8 utility 13'),
            ([0] * 16, MOST, 2 ** 16 - 1, f'metric {MOST} utility -{MOST}'),
            ([1000000] * 16, 2048000000, 0, 'metric 2064000000 utility -2048000000'),
            ([1000000] * 16, 2048000000, 2 ** 15, 'metric 2063000000 utility -2047000000'),
            ([WEIGHT] * 16, MOST, 0, 'metric 8864812496880 utility -8796093020160'),
            ([WEIGHT] * 16, MOST, 2 ** 15, 'metric 8860517529585 utility -8791798052865'),
            ([WEIGHT] * 16, MOST, 2 ** 16 - 1, 'metric 8796093020160 utility -8727373543440'),
            ([WEIGHT] * 16, 0, 2 ** 16 - 1, 'metric 0 utility 68719476720'), ([WEIGHT] * 16, 0, 0, 'metric 68719476720 utility 0'),
            ([WEIGHT] * 16, 68719476720, 2 ** 16 - 1, 'metric 68719476720 utility 0'),
            ([WEIGHT] * 2, WEIGHT, 0b01, 'metric 8589934590 utility 0'), ([WEIGHT, 1], 0, 0b11, 'metric 0 utility 4294967296'),
            ([WEIGHT, 0] * 8, 0, 0x5555, 'metric 0 utility 34359738360'), ([WEIGHT, 0] * 8, 0, 0xAAAA, 'metric 34359738360 utility 0'),
            ([65536] * 16, 65535, 1, f'metric {15 * 65536 + 65535} utility 1'),
            (range(1, 17), 100, 0x8001, 'metric 219 utility -83')]:
        yield f'weights {list(each)}, cost {cost}, met {met:b}', task(each), cost, met, answer


def hard_rules():
    """They have weight 0 and count in P: met or missed, they change nothing, and a bit of theirs is known."""
    for kind in HARD:
        for what, condition in [('empty', ''), ('long', LONG)]:
            data = file(f'GOAL {ACTIONS}' + preference(kind, 0, condition))
            for met in [0, 1]:
                yield f'{kind}, {what}, met {met}', data, 7, met, 'metric 7 utility -7'
            yield f'{kind}, {what}, and another bit', data, 7, 2, 'refused 15 0'
            mixed = file('GOAL' + ''.join(preference(*rule, condition) for rule in [('at-end', 1), (kind, 0), ('within', 10), (kind, 0)]))
            for met in range(16):
                gained = met % 2 + met // 4 % 2 * 10
                yield f'{kind} between soft ones, {what}, met {met:04b}', mixed, 5, met, f'metric {16 - gained} utility {gained - 5}'
            yield f'{kind} between soft ones, {what}, bit 4', mixed, 5, 16, 'refused 15 0'
    for p in [1, 15, 16]:
        data, every = task([0] * p, '', HARD), 2 ** p - 1
        for met in [0, 1, every]:
            yield f'{p} hard rules, met {met:b}', data, MOST, met, f'metric {MOST} utility -{MOST}'
        yield f'{p} hard rules, bit P', data, 0, every + 1, 'refused 15 0'
        yield f'{p} hard rules, a cost too great', data, MOST + 1, every, 'refused 15 0'
    for what, data, answer in [('a hard weight', file('GOAL hard-always 5'), '5 1'), ('mark 32', file('GOAL #32'), '4 1'),
                               ('a hard rule too few', file('GOAL hard-always', P=2), '6 2')]:
        for cost, met in [(0, 0), (MOST + 1, 0), (0, 2 ** 63)]:
            yield f'{what}, cost {cost}, met {met:b}', data, cost, met, f'refused {answer}'


def no_plan():
    """Tasks that no plan solves, or none at this cost: settle asks nothing of that. Rows that open no preference have no weight."""
    for what, text, cost, met, answer in [
            ('GOAL alone', 'GOAL', 9, 0, 'metric 9 utility -9'), ('A 0, and a cost', 'GOAL always 4', 9, 1, 'metric 9 utility -5'),
            ('a goal that never holds', f'GOAL CLAUSE HOLDS 0 CLAUSE LACKS 0 {ACTIONS} always 4', 1, 0, 'metric 5 utility -1'),
            ('always a fact that lacks, met', 'GOAL always 4 CLAUSE HOLDS 0', 0, 1, 'metric 0 utility 4'),
            ('always nothing, missed', 'GOAL always 4', 0, 0, 'metric 4 utility 0'),
            ('both of two that exclude each other', 'GOAL at-end 4 CLAUSE HOLDS 0 at-end 2 CLAUSE LACKS 0', 0, 3, 'metric 0 utility 6'),
            ('128 actions of the greatest cost', 'GOAL' + f' ACTION {WEIGHT}' * 128 + ' sometime 3', 1, 1, 'metric 1 utility 2'),
            ('128 START rows', ' '.join(f'START {f}' for f in range(128)) + ' GOAL at-end 3', 1, 0, 'metric 4 utility -1'),
            ('within 0 a fact that lacks, met', 'GOAL within 4 STEPS 0 CLAUSE HOLDS 0', 0, 1, 'metric 0 utility 4'),
            ('deadlines of 15, weights of 0', 'GOAL within 0 STEPS 15 always-within 0 STEPS 15 SECOND', 1, 1, 'metric 1 utility -1'),
            ('12,000 rows', f'{goal(11982)}{" ACTION 9" * 2}' + ' at-end 3' * 16, 1, 3, 'metric 43 utility 5')]:
        yield what, file(text, F=128), cost, met, answer


def refused():
    """1 to 6 come before 15."""
    good = task([5])
    for what, data, answer in [
            ('no byte', b'', '1 0'), ('7 bytes', good[:7], '1 0'), ('F 0', file('GOAL', F=0), '2 0'), ('A 129', file('GOAL', A=129), '2 0'),
            ('P 17', file('GOAL' + ' at-end' * 17), '2 0'), ('N 12,001', file('GOAL', N=12001), '2 0'), ('one byte short', good[:-1], '3 0'),
            ('one byte long', good + b'\0', '3 0'), ('N 0', file(''), '4 0'), ('an unknown mark', file('GOAL always 5 #20'), '4 2'),
            ('no SECOND', file('GOAL sometime-after 5'), '4 2'), ('no STEPS', file('GOAL within 5'), '4 2'),
            ('STEPS 16', file('GOAL within 5 STEPS 16'), '5 2'), ('a hard weight', file('GOAL hard-always 1'), '5 1'),
            ('a fact too high', file('GOAL always 5 CLAUSE HOLDS 4'), '5 3'), ('START not rising', file('START 1 START 1 GOAL'), '5 1'),
            ('a preference too few', file('GOAL always 5', P=2), '6 2'), ('a preference too many', file('GOAL always 5', P=0), '6 2'),
            ('an action too many', file('GOAL ACTION always 5', A=0), '6 3')]:
        for cost, met in [(0, 0), (3, 1), (MOST + 1, 0), (0, 2), (0, 2 ** 63), (2 ** 64 - 1, 2 ** 64 - 1)]:
            yield f'{what}, cost {cost}, met {met:b}', data, cost, met, f'refused {answer}'


def random_amounts(count=120, seed=15):
    """On random tasks: sets of met preferences, some with a bit too many, and costs, some too great."""
    below = Chance(seed).below
    for number, (_, data, _, _) in enumerate(tasks.random_tasks(count, seed)):
        met = below(2 ** data[4]) | (0 if below(8) else 2 ** (data[4] + below(48)))
        cost = [below(100), below(MOST), below(MOST), MOST - below(3), MOST + below(3), below(2 ** 45)][below(6)]
        yield f'random {number}', data, cost, met, ''


TEXT = re.compile(r'solved steps \d+ cost (\d+)\n((?:\d.*\n)*)(metric .*)\n|.*\n')


def judged():
    """What program judge has to write about plans that solve, each text once: its last line, from the cost and the outcomes before."""
    records, texts, seen = [*stored.records('judge_vectors')], [*TEXT.finditer(stored.written('judge_vectors'))], set()
    assert len(records) == 2 * len(texts), 'program judge has other vectors'
    for number, (data, text) in enumerate(zip(records[::2], texts)):
        cost, outcomes, last = text.groups()
        if last and text.groups() not in seen:
            seen.add(text.groups())
            met = sum(2 ** k for k, line in enumerate(outcomes.splitlines()) if line.endswith(' met'))
            yield f'vector {number} of program judge', data, int(cost), met, last
    assert len(seen) > 300, 'program judge has few texts'


def vectors():
    """What each vector is for, the task file, the cost, the met preferences, and the line."""
    families = [belt, kinds, numbers, bits, costs, amounts, no_plan, refused, random_amounts, hard_rules, judged]
    made = [vector for family in families for vector in family()]
    engine = dict(outside(made))
    for t, (what, data, cost, met, answer) in enumerate(made):
        line = settle(data, cost, met)
        assert engine.get(t, line) == line, f'{what}: {line}, but the outside engine has {engine[t]}'
        assert answer in ('', line), f'{what}: {answer}, but the line is {line}'
        yield what, data, cost, met, line


def parts():
    for what, data, cost, met, line in vectors():
        yield f'{what}: {line}', record(data) + record(struct.pack('<2Q', cost, met)), line.encode() + b'\n'


if __name__ == '__main__':
    stored.main('settle_vectors', parts, __doc__)
