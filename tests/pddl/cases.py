#!/usr/bin/env python3
"""Texts that the reader of PDDL has to take or to refuse, and that the planner has to solve: laid out as other writers may.

tests/pddl/cases.py     needs gringo and clasp
"""
import os
import sys

sys.path.insert(0, os.path.dirname(os.path.dirname(os.path.abspath(__file__))))
from shared.expected import expect
from shared.pddl import Action, Effect, Task, Wrong, read
from shared.planning import planned

ALL = ':negative-preconditions :disjunctive-preconditions :conditional-effects :action-costs'
DOMAIN = f'''(define (domain belt) (:requirements {ALL}) (:predicates (swept) (amber)) (:functions (total-cost))
(:action sweep :parameters () :precondition (and (amber) (or (swept) (not (swept))))
 :effect (and (increase (total-cost) 3) (when (and (amber)) (and (swept) (not (amber)))))))'''
PROBLEM = ('(define (problem one) (:domain belt) (:init (= (total-cost) 0) (amber)) (:goal (not (amber))) '
           '(:metric minimize (total-cost)))')
SWEEP = DOMAIN[DOMAIN.index('(:action'):-1]
SWEPT, AMBER = ('fact', 'swept'), ('fact', 'amber')
TASK = Task(['swept', 'amber'], ['amber'], ('not', AMBER), [
    Action('sweep', 3, ('and', (AMBER, ('or', (SWEPT, ('not', SWEPT))))), [Effect(('and', (AMBER,)), ['swept'], ['amber'])])])

# Other layouts of the same task.
SAME = [
    ('as it stands', str),
    ('a token on each line', lambda text: text.replace('(', '\n(\n').replace(')', '\n)\n').replace(' ', '\n')),
    ('tabs, many spaces, carriage returns', lambda text: '\r\n\t ' + text.replace(' ', ' \t  ').replace('\n', '\r\n\r\n') + '  \t'),
    ('no space beside a bracket', lambda text: text.replace(' (', '(').replace(') ', ')')),
    ('capitals', str.upper),
    ('comments', lambda text: '; (define\n' + text.replace(' (', ' ;; ) and (\n;\n(') + '; the end'),
]

# Other tasks: what each is for, what to put in place of what, and the field of the task that then changes, with its value.
OTHER = [
    ('predicates in another order', '(swept) (amber)) (:f', '(amber) (swept)) (:f', 'facts', ['amber', 'swept']),
    (':adl for its parts', ALL, ':strips :adl :action-costs', 'facts', TASK.facts),
    ('the type of a function', '(:functions (total-cost))', '(:functions (total-cost) - number)', 'facts', TASK.facts),
    ('no fact opens', '0) (amber))', '0))', 'init', []),
    ('the cost after the facts', '(= (total-cost) 0) (amber)', '(amber) (swept) (= (total-cost) 0)', 'init', ['amber', 'swept']),
    ('an empty goal', '(:goal (not (amber)))', '(:goal (and))', 'goal', ('and', ())),
    ('an empty or', '(:goal (not (amber)))', '(:goal (or))', 'goal', ('or', ())),
    ('a fact as goal', '(:goal (not (amber)))', '(:goal (swept))', 'goal', SWEPT),
    ('nested conditions', '(:goal (not (amber)))', '(:goal (or (and (swept) (not (or (amber) (not (swept))))) (and) (amber)))', 'goal',
     ('or', (('and', (SWEPT, ('not', ('or', (AMBER, ('not', SWEPT)))))), ('and', ()), AMBER))),
    ('no actions', SWEEP, '', 'actions', []),
]

# Other actions, each in place of sweep.
ACTIONS = [
    (':parameters ()', Action('go', 0, ('and', ()), [])),
    (':parameters () :precondition () :effect ()', Action('go', 0, ('and', ()), [])),
    (':parameters () :effect (swept)', Action('go', 0, ('and', ()), [Effect(None, ['swept'], [])])),
    (':parameters () :precondition (amber) :effect (increase (total-cost) 12)', Action('go', 12, AMBER, [])),
    (':parameters () :effect (and (not (amber)) (swept))', Action('go', 0, ('and', ()), [
        Effect(None, [], ['amber']), Effect(None, ['swept'], [])])),
    (':parameters () :effect (when (not (amber)) (not (swept)))', Action('go', 0, ('and', ()), [
        Effect(('not', AMBER), [], ['swept'])])),
    (':parameters () :effect (and (when (and) (and)) (when (or) (and (not (amber)) (swept) (amber))))', Action('go', 0, ('and', ()), [
        Effect(('and', ()), [], []), Effect(('or', ()), ['swept', 'amber'], ['amber'])])),
]

# What the reader refuses: what to put in place of what, and what it says.
REFUSED = [
    (':conditional-effects ', '', ':conditional-effects is needed for (when'),
    (':disjunctive-preconditions ', '', ':disjunctive-preconditions is needed for (or'),
    (':negative-preconditions ', '', ':negative-preconditions is needed for (not (swept))'),
    (' :action-costs', '', ':action-costs is needed for'),
    (f' (:requirements {ALL})', '', 'is needed for'),
    (':action-costs', ':action-costs :typing', 'unknown requirement :typing'),
    ('(swept) (amber)) (:f', '(swept)) (:f', 'unknown predicate amber'),
    ('(swept) (amber)) (:f', '(swept) (amber) (swept)) (:f', 'a predicate declared twice'),
    ('(swept) (amber)) (:f', '(swept ?x) (amber)) (:f', 'a predicate with variables'),
    ('(swept) (amber)) (:f', '(swept) (amber) (4u)) (:f', 'no name: 4u'),
    (' (:functions (total-cost))', '', 'unknown function (total-cost)'),
    ('(:functions (total-cost))', '(:functions (fuel))', 'functions other than total-cost'),
    ('(:functions (total-cost))', '(:functions (total-cost) (fuel))', 'functions other than total-cost'),
    ('(:functions', '(:constants x) (:functions', 'unknown part :constants'),
    ('(:functions (total-cost))', '(:functions (total-cost)) (:predicates)', ':predicates twice'),
    ('(:functions (total-cost))', '(:functions (total-cost)) (:requirements :adl)', ':requirements twice'),
    ('(:action', '(:action go) (:action', 'action go without an empty list of parameters'),
    (':parameters ()', ':parameters (?x)', 'without an empty list of parameters'),
    (':parameters ()', '', 'without an empty list of parameters'),
    (':parameters', ':vars () :parameters', 'unknown parts'),
    ('(:action', '(:action sweep :parameters ()) (:action', 'an action defined twice: sweep'),
    (':parameters () :precondition', ':precondition () :parameters () :effect', 'unknown parts, or parts in another order'),
    ('(and (amber) (or', '(amber) (and (or', 'with a part left out'),
    ('(or (swept)', '(xor (swept)', 'unknown predicate xor'),
    ('(not (swept)))', '(not (swept) (amber)))', 'not of 2 conditions'),
    ('(not (swept)))', '(not swept))', 'no list that begins with a word: swept'),
    ('(or (swept)', '(or (swept amber)', 'a predicate with arguments'),
    ('(or (swept)', '(or ()', 'no list that begins with a word: ()'),
    ('(increase (total-cost) 3)', '(increase (total-cost) 3) (increase (total-cost) 3)', 'several costs'),
    ('(increase (total-cost) 3)', '(increase (total-cost) -3)', 'no whole number: -3'),
    ('(increase (total-cost) 3)', '(increase (total-cost) 3.5)', 'no whole number: 3.5'),
    ('(increase (total-cost) 3)', '(increase (total-cost))', 'no cost'),
    ('(increase (total-cost) 3)', '(increase (swept) 3)', 'unknown function (swept)'),
    ('(increase (total-cost) 3)', '(decrease (total-cost) 3)', 'unknown predicate decrease'),
    ('(and (swept) (not (amber)))', '(and (swept) (increase (total-cost) 3))', 'unknown predicate increase'),
    ('(and (swept) (not (amber)))', '(and (and (swept)) (not (amber)))', 'unknown predicate and'),
    ('(and (swept) (not (amber)))', '(or (swept) (not (amber)))', 'unknown predicate or'),
    ('(and (swept) (not (amber)))', '(not (not (amber)))', 'unknown predicate not'),
    ('(and (swept) (not (amber)))', '(and (swept) (not))', 'not of 0 facts'),
    ('(when (and (amber))', '(when', 'when without a condition and an effect'),
    ('(when (and (amber))', '(when (amber) (amber)', 'when without a condition and an effect'),
    ('(domain belt)', '(problem belt)', 'no definition of a domain'),
    ('(define (problem', '(undefine (problem', 'no definition of a problem'),
    (' (:metric minimize (total-cost))', '', 'a problem without :metric'),
    (' (:goal (not (amber)))', '', 'a problem without :goal'),
    (' (:init (= (total-cost) 0) (amber))', '', 'a problem without :init'),
    (' (:domain belt)', '', 'a problem without :domain'),
    ('(:domain belt)', '(:domain gate)', 'a problem of another domain'),
    ('minimize', 'maximize', 'another metric'),
    ('minimize (total-cost)', 'minimize (fuel)', 'another metric'),
    ('(= (total-cost) 0) ', '', 'does not open with 0'),
    ('(= (total-cost) 0)', '(= (total-cost) 1)', 'does not open with 0'),
    ('(= (total-cost) 0)', '(= (total-cost) 0) (= (total-cost) 0)', 'does not open with 0'),
    ('0) (amber))', '0) (not (swept)))', 'unknown predicate not'),
    ('0) (amber))', '0) (clean))', 'unknown predicate clean'),
    ('(:goal (not (amber)))', '(:goal (clean))', 'unknown predicate clean'),
    ('(:goal (not (amber)))', '(:goal)', 'a goal that is not one condition'),
    ('(:goal (not (amber)))', '(:goal (swept) (amber))', 'a goal that is not one condition'),
    (' (:goal (not (amber))) (:metric minimize (total-cost))', ' (:metric minimize (total-cost)) (:goal (amber))', 'in another order'),
    ('(total-cost)))\n', '(total-cost))\n', 'a bracket left open'),
    ('(total-cost)))\n', '(total-cost))))\n', 'a bracket closed that was not opened'),
    ('(total-cost)))\n', '(total-cost))) ()\n', 'not one list'),
]


def act(name, cost, needs, effects):
    return f'(:action {name} :parameters () :precondition {needs} :effect (and (increase (total-cost) {cost}) {effects}))'


# A goal, actions, and what the planner finds with at most 4 steps, from the state that has amber alone.
PLANNED = [
    ('(and)', '', (0, '; cost = 0\n')),
    ('(swept)', '', None),
    ('(or)', '', None),
    ('(or (swept) (amber))', '', (0, '; cost = 0\n')),
    ('(swept)', act('go', 5, '(amber)', '(swept)'), (5, '(go)\n; cost = 5\n')),
    ('(swept)', act('go', 5, '(swept)', '(swept)'), None),
    ('(swept)', act('go', 5, '(not (or (swept) (not (amber))))', '(swept)'), (5, '(go)\n; cost = 5\n')),
    ('(swept)', act('go', 5, '(not (and (not (swept)) (amber)))', '(swept)'), None),
    # The cheaper list is the longer one.
    ('(swept)', act('go', 5, '(and)', '(swept)') + act('off', 1, '(and)', '(not (amber))') + act('on', 2, '(not (amber))', '(swept)'),
     (3, '(off)\n(on)\n; cost = 3\n')),
    # A fact both added and deleted holds, in one effect and in two.
    ('(swept)', act('go', 1, '(and)', '(when (amber) (and (swept) (not (swept))))'), (1, '(go)\n; cost = 1\n')),
    ('(swept)', act('go', 1, '(and)', '(swept) (when (amber) (not (swept)))'), (1, '(go)\n; cost = 1\n')),
    # Effects read the state before: one waits for a second step, and one is not hindered.
    ('(swept)', act('go', 1, '(and)', '(not (amber)) (when (not (amber)) (swept))'), (2, '(go)\n(go)\n; cost = 2\n')),
    ('(and (swept) (not (amber)))', act('go', 1, '(and)', '(not (amber)) (when (amber) (swept))'), (1, '(go)\n; cost = 1\n')),
    ('(swept)', act('go', 1, '(and)', '(when (swept) (swept))'), None),
    # Facts stay as they are where nothing changes them.
    ('(and (swept) (amber))', act('go', 1, '(and)', '(swept)') + act('stay', 1, '(swept)', ''), (1, '(go)\n; cost = 1\n')),
    ('(and (swept) (not (amber)))', act('one', 1, '(and)', '(swept)') + act('two', 1, '(swept)', '(not (amber))'),
     (2, '(one)\n(two)\n; cost = 2\n')),
]


def edited(*places):
    """The two texts with places changed, each old and new."""
    both = f'{DOMAIN}\n\0{PROBLEM}\n'
    for old, new in places:
        if both.count(old) != 1:
            sys.exit(f'{both.count(old)} places with {old!r}')
        both = both.replace(old, new)
    return both.split('\0')


def refusal(domain, problem):
    try:
        return f'read as {read(domain, problem)}'
    except Wrong as why:
        return str(why)


def main():
    for what, laid_out in SAME:
        expect(what, read(laid_out(DOMAIN), laid_out(PROBLEM)), TASK)
    for what, old, new, field, value in OTHER:
        expect(what, read(*edited((old, new))), TASK._replace(**{field: value}))
    for words, action in ACTIONS:
        expect(words, read(*edited((SWEEP, f'(:action go {words})'))), TASK._replace(actions=[action]))
    for old, new, why in REFUSED:
        got = refusal(*edited((old, new)))
        expect(f'{new!r} for {old!r}, refused with {got!r}', why in got, True)
    # A denied condition that is no fact is as good as an `or`.
    denied = refusal(*edited((' :disjunctive-preconditions', ''), (SWEEP, ''), ('(:goal (not (amber)))', '(:goal (not (and (amber))))')))
    expect('not of and', denied, ':disjunctive-preconditions is needed for (not (and (amber)))')
    for goal, actions, found in PLANNED:
        task = read(*edited((SWEEP, actions), ('(:goal (not (amber)))', f'(:goal {goal})')))
        expect(f'goal {goal}, actions {actions}', planned(task, 4), found)
    print(f'{len(SAME) + len(OTHER) + len(ACTIONS)} texts read, {len(REFUSED) + 1} refused, {len(PLANNED)} planned: as they should be')


if __name__ == '__main__':
    main()
