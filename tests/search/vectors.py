#!/usr/bin/env python3
"""Vectors of search: tasks, limits and rooms, with the answer, the plan and every node.

tests/search/vectors.py            writes tests/search/data/vectors and tests/search/stdout, which tests/compare holds the library to
tests/search/vectors.py --check    holds them to what they should be
tests/search/vectors.py --list     also says what each vector is for

A vector is two records, the file and the limit with the room of the list, 64 bits each, little-endian. Its answer is a line: found with
cost and steps, none or full, and the number of nodes; or refused. Lines of the plan follow, and a line for each node: the two words of
its state in hexadecimal digits, its cost, origin and action.

Answers are those of the account in shared/searching.py, some of them written out here, too. On tasks of at most 9 states the outside
engine (gringo and clasp) finds the same least cost, or no plan either.
"""
import itertools
import os
import struct
import sys

sys.path.insert(0, os.path.dirname(os.path.dirname(os.path.abspath(__file__))))
from shared import stored
from shared.chance import Chance
from shared.expected import expect
from shared.files import BELT, MOST, file
from shared.planning import plan
from shared.searching import explored, reachable, refusal, steps_to

STATES = 9  # the most states of a task that the engine is given


def shown(data, limit, room):
    """The answer, as lines."""
    refused = refusal(data, limit, room)
    if refused:
        return refused + '\n'
    searched = explored(data, limit)
    steps = steps_to(searched.nodes, searched.place) if searched.outcome == 'found' else []
    found = f'found cost {searched.nodes[searched.place].cost} steps {len(steps)}' if searched.outcome == 'found' else searched.outcome

    def word(state, n):
        return sum(1 << fact % 64 for fact in state if fact // 64 == n)

    nodes = (f'{word(node.state, 0):016x} {word(node.state, 1):016x} {node.cost} {node.origin} {node.action}\n' for node in searched.nodes)
    return f'{found} nodes {len(searched.nodes)}\n' + ''.join(f'(a{step})\n' for step in steps) + ''.join(nodes)


# ---- tasks

def edge(cost, start, end):
    return f' ACTION {cost} CLAUSE HOLDS {start} EFFECT ADD {end} DELETE {start}'


def turn(fact, cost):
    return f' ACTION {cost} EFFECT CLAUSE HOLDS {fact} DELETE {fact} EFFECT CLAUSE LACKS {fact} ADD {fact}'


# What a task is for, its ways from a fact to another and back, and the answer's first line and plan. Fact 0 opens, fact 3 is the goal.
WAYS = [
    ('one way', [(4, 0, 3)], 'found cost 4 steps 1 nodes 2|(a0)'),
    ('the goal looked at when taken', [(5, 0, 3), (1, 0, 1), (1, 1, 3)], 'found cost 2 steps 2 nodes 3|(a1)|(a2)'),
    ('an equal cost replaces nothing', [(2, 0, 3), (1, 0, 1), (1, 1, 3)], 'found cost 2 steps 1 nodes 3|(a0)'),
    ('a lower cost from the same node', [(7, 0, 3), (6, 0, 3)], 'found cost 6 steps 1 nodes 2|(a1)'),
    ('the same cost from the same node', [(7, 0, 3), (7, 0, 3)], 'found cost 7 steps 1 nodes 2|(a0)'),
    ('costs of 0 in a ring', [(0, 0, 1), (0, 1, 0), (0, 1, 2), (0, 2, 1), (0, 2, 3)], 'found cost 0 steps 3 nodes 4|(a0)|(a2)|(a4)'),
    ('ties, the earliest first', [(3, 0, 1), (3, 0, 2), (1, 2, 3), (1, 1, 3)], 'found cost 4 steps 2 nodes 4|(a0)|(a3)'),
    ('ties after a cost was lowered', [(9, 0, 1), (3, 0, 2), (1, 0, 4), (2, 4, 1), (1, 2, 3), (1, 1, 3)],
     'found cost 4 steps 3 nodes 5|(a2)|(a3)|(a5)'),
    ('no way', [(1, 0, 1), (1, 1, 2), (0, 2, 0)], 'none nodes 3'),
    ('nothing new', [(1, 0, 0)], 'none nodes 1'),
    ('the greatest costs', [(MOST, 0, 1), (MOST, 1, 2), (MOST, 2, 3)], f'found cost {3 * MOST} steps 3 nodes 4|(a0)|(a1)|(a2)'),
]


def by_hand():
    """What a vector is for, its file, and the beginning of the answer with all nodes that it may take."""
    for what, ways, answer in WAYS:
        yield what, file('START 0 GOAL CLAUSE HOLDS 3' + ''.join(edge(*way) for way in ways), F=8), answer
    yield 'the opening state meets the goal', file('START 0 GOAL CLAUSE HOLDS 0' + edge(1, 0, 1)), 'found cost 0 steps 0 nodes 1'
    yield 'no action', file('GOAL CLAUSE HOLDS 0'), 'none nodes 1'
    yield 'facts of both words', file('START 63 GOAL CLAUSE HOLDS 127' + edge(1, 63, 64) + edge(1, 64, 127), F=128), 'found cost 2 steps 2 nodes 3'
    yield 'an or in a precondition', file('START 1 GOAL CLAUSE HOLDS 2 ACTION 1 CLAUSE HOLDS 0 HOLDS 1 EFFECT ADD 2'), 'found cost 1 steps 1 nodes 2'
    yield 'effects by what holds', file('GOAL CLAUSE HOLDS 0 CLAUSE HOLDS 1' + turn(0, 2) + turn(1, 3)), 'found cost 5 steps 2 nodes 4|(a0)|(a1)'
    yield 'added and deleted', file('GOAL CLAUSE HOLDS 1 ACTION 1 EFFECT ADD 1 EFFECT DELETE 1'), 'found cost 1 steps 1 nodes 2'
    yield 'the belt', file(BELT, F=2), 'refused 13 0'
    yield 'no file', b'', 'refused 1 0'
    yield 'a faulty row', file('GOAL CLAUSE'), 'refused 4 2'


def random_task(r):
    """Few states that many ways lead to."""
    facts, times = r.one_of([2, 3, 3, 4]), r.one_of([1, 1, MOST // 3])

    def fact(*names):
        return f' {r.one_of(names)} {r.below(facts)}'

    def action():
        cost = f' ACTION {times * r.below(4)}' + (' CLAUSE' + fact('HOLDS', 'LACKS') if r.below(3) == 0 else '')
        effects = [turn(r.below(facts), 0).split(' ', 3)[3], 'EFFECT' + fact('ADD') + fact('DELETE'), 'EFFECT CLAUSE' + fact('HOLDS', 'LACKS') + fact('ADD')]
        return cost + ''.join(f' {r.one_of(effects)}' for _ in range(1 + r.below(2)))

    goal = ''.join(' CLAUSE' + fact('HOLDS', 'HOLDS', 'LACKS') for _ in range(1 + r.below(facts)))
    return file('START 0 GOAL' + goal + ''.join(action() for _ in range(1 + r.below(5))), F=facts)


def engine(what, data):
    """The outside engine finds the same least cost, or no plan either. Answers whether it was asked."""
    states = len(reachable(data, STATES))
    if states > STATES:
        return False
    searched = explored(data, 1024)
    found = plan('classical', data, states - 1, 1)
    expect(f"{what}: the engine's least cost", found and found.total, searched.nodes[searched.place].cost if searched.outcome == 'found' else None)
    return True


def vectors():
    asked = 0

    def vector(what, data, limit, room):
        return f'{what}, limit {limit}, room {room}', stored.record(data) + stored.record(struct.pack('<QQ', limit, room)), shown(data, limit, room).encode()

    def limits(what, data):
        """All nodes that there may be; as many as it takes and one less; 1 and 2; and limits that are refused, also of a refused file."""
        yield vector(what, data, 1024, 1024)
        if refusal(data):
            for limit, room in [(0, 0), (1025, 2000), (2, 1)]:
                yield vector(what, data, limit, room)
        else:
            needed = len(explored(data, 1024).nodes)
            for limit, room in sorted({(1, 1), (2, 3), (needed, needed), (max(1, needed - 1), needed), (needed + 1, needed)}):
                yield vector(what, data, limit, room)

    for what, data, answer in by_hand():
        lines = answer.split('|')
        expect(what, shown(data, 1024, 1024).splitlines()[:len(lines)], lines)
        if refusal(data):
            expect(f'{what}, before 16', shown(data, 0, 0), f'{answer}\n')
        else:
            asked += engine(what, data)
        yield from limits(what, data)
    task = file('GOAL')
    for limit, room in [(0, 0), (0, 1), (1, 0), (5, 4), (1025, 2000), (2 ** 32 + 1, 9), (2 ** 64 - 1, 2 ** 64 - 1), (1024, 1023)]:
        yield vector('a limit that is refused', task, limit, min(room, 2000))
    r = Chance(11)
    for number in range(60):
        data = random_task(r)
        if number % 2 == 0:
            asked += engine(f'random {number}', data)
        yield from limits(f'random {number}', data)
    ten = ''.join(f' CLAUSE HOLDS {fact}' for fact in range(6))
    data = file('GOAL' + ten + ''.join(turn(fact, fact % 3) for fact in range(6)), F=64)
    yield from itertools.islice(limits('64 states', data), 3)
    assert asked > 20, asked


if __name__ == '__main__':
    stored.main('../tests/search', vectors, __doc__)
