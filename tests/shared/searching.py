"""An account of the search for a cheapest plan: lists that are looked through, states as sets of facts.

A task without preferences is taken apart into actions, each a cost, a precondition and effects. The next state is the first of the
cheapest among those that are open, and a state is looked for among all nodes.
"""
from collections import namedtuple

from shared.account import check
from shared.files import rows

Node = namedtuple('Node', 'state cost origin action')
Searched = namedtuple('Searched', 'outcome nodes place')  # place: of the node that meets the goal, where one is found


def parts(data):
    """The opening state, the goal and the actions of an accepted file without preferences."""
    opening, goal, actions = set(), [], []
    clauses, effects, changes = goal, [], {}
    for name, value in rows(data):
        if name == 'START':
            opening.add(value)
        elif name == 'ACTION':
            clauses, effects = [], []
            actions.append((value, clauses, effects))
        elif name == 'EFFECT':
            clauses, changes = [], {'ADD': set(), 'DELETE': set()}
            effects.append((clauses, changes))
        elif name == 'CLAUSE':
            clauses.append([])
        elif name in ('HOLDS', 'LACKS'):
            clauses[-1].append((value, name == 'HOLDS'))
        elif name in changes:
            changes[name].add(value)
    return frozenset(opening), goal, actions


def true(condition, state):
    return all(any((fact in state) == held for fact, held in clause) for clause in condition)


def after(effects, state):
    fired = [changes for condition, changes in effects if true(condition, state)]
    deleted, added = (frozenset().union(*(changes[name] for changes in fired)) for name in ('DELETE', 'ADD'))
    return state - deleted | added


def explored(data, limit):
    """The search of an accepted file without preferences."""
    opening, goal, actions = parts(data)
    nodes, taken = [Node(opening, 0, 0, 0)], set()
    while len(taken) < len(nodes):
        place = min((at for at in range(len(nodes)) if at not in taken), key=lambda at: nodes[at].cost)  # the first of the cheapest
        taken.add(place)
        state, cost = nodes[place][:2]
        if true(goal, state):
            return Searched('found', nodes, place)
        for number, (price, precondition, effects) in enumerate(actions):
            if not true(precondition, state):
                continue
            met = Node(after(effects, state), cost + price, place, number)
            there = next((at for at, node in enumerate(nodes) if node.state == met.state), None)
            if there is None:
                if len(nodes) == limit:
                    return Searched('full', nodes, None)
                nodes.append(met)
            elif met.cost < nodes[there].cost:
                nodes[there] = met
    return Searched('none', nodes, None)


def reachable(data, most):
    """The states that actions lead to, as far as there are not many more than so many."""
    opening, _, actions = parts(data)
    states = [opening]
    for state in states:
        if len(states) > most:
            break
        for _, precondition, effects in actions:
            met = after(effects, state)
            if true(precondition, state) and met not in states:
                states.append(met)
    return states


def steps_to(nodes, place):
    """The actions on the way to a place."""
    return [] if place == 0 else steps_to(nodes, nodes[place].origin) + [nodes[place].action]


def refusal(data, limit=1, room=1):
    """Why a search is refused, as a line; nothing where it is not."""
    line = check(data)
    if line.startswith('refused'):
        return line
    return 'refused 13 0' if data[4] else 'refused 16 0' if not 1 <= limit <= min(1024, room) else ''


def planned(searched):
    """What program search writes: a line for each step, and a comment with the cost."""
    steps = steps_to(searched.nodes, searched.place)
    return ''.join(f'(a{step})\n' for step in steps) + f'; cost = {searched.nodes[searched.place].cost}\n'
