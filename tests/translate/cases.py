"""Tasks and their translations, written by hand, row by row."""
from shared.files import BELT, MOST, file

# S, B and C of always are 2, 3 and 4, of sometime 5, 6 and 7; normal is 8, ended 9.
BELT_TRANSLATED = (
    'START 1 START 8 GOAL CLAUSE LACKS 1 CLAUSE HOLDS 9 CLAUSE HOLDS 4 CLAUSE HOLDS 7 '
    'ACTION 3 CLAUSE HOLDS 8 EFFECT ADD 0 DELETE 1 EFFECT CLAUSE HOLDS 1 ADD 3 EFFECT CLAUSE HOLDS 0 ADD 5 '
    'ACTION 1 CLAUSE HOLDS 8 EFFECT ADD 1 DELETE 0 EFFECT CLAUSE HOLDS 1 ADD 3 EFFECT CLAUSE HOLDS 0 ADD 5 '
    'ACTION 0 CLAUSE HOLDS 8 EFFECT ADD 9 DELETE 8 EFFECT CLAUSE HOLDS 1 ADD 3 EFFECT CLAUSE HOLDS 0 ADD 5 '
    'ACTION 0 CLAUSE HOLDS 9 CLAUSE LACKS 4 CLAUSE LACKS 3 EFFECT ADD 4 ACTION 5 CLAUSE HOLDS 9 CLAUSE LACKS 4 CLAUSE HOLDS 3 EFFECT ADD 4 '
    'ACTION 0 CLAUSE HOLDS 9 CLAUSE HOLDS 4 CLAUSE LACKS 7 CLAUSE HOLDS 5 EFFECT ADD 7 '
    'ACTION 7 CLAUSE HOLDS 9 CLAUSE HOLDS 4 CLAUSE LACKS 7 CLAUSE LACKS 5 EFFECT ADD 7')

PHI, PSI = 'CLAUSE HOLDS 0', 'CLAUSE HOLDS 1 LACKS 0 CLAUSE HOLDS 1'
NOT_0, NOT_1 = 'CLAUSE LACKS 1 CLAUSE HOLDS 0', 'CLAUSE LACKS 1'  # each clause of ψ denied
HOLDS_S, LACKS_B = ('HOLDS 2', 'LACKS 2'), ('LACKS 3', 'HOLDS 3')

# Two facts, S 2, B 3, C 4, normal 5, ended 6, D1 7, D2 8. A rule, its trackers, what collect and forgo ask, and all facts.
RULES = [
    ('always 9', '', LACKS_B, 7),
    (f'always 9 {PSI}', f'EFFECT {NOT_0} ADD 3 EFFECT {NOT_1} ADD 3', LACKS_B, 7),
    ('sometime 9', 'EFFECT ADD 2', HOLDS_S, 7),
    (f'sometime 9 {PSI}', f'EFFECT {PSI} ADD 2', HOLDS_S, 7),
    ('at-end 9', 'EFFECT ADD 2', HOLDS_S, 7),
    (f'at-end 9 {PSI}', f'EFFECT {PSI} ADD 2', HOLDS_S, 7),
    ('at-most-once 9', 'EFFECT CLAUSE LACKS 2 CLAUSE LACKS 3 ADD 2 EFFECT CLAUSE HOLDS 2 CLAUSE HOLDS 3 DELETE 2',
     ('HOLDS 2 LACKS 3', 'LACKS 2 CLAUSE HOLDS 3'), 7),
    (f'at-most-once 9 {PSI}',
     f'EFFECT CLAUSE LACKS 2 CLAUSE LACKS 3 {PSI} ADD 2 EFFECT CLAUSE HOLDS 2 {NOT_0} ADD 3 EFFECT CLAUSE HOLDS 2 {NOT_1} ADD 3 '
     f'EFFECT CLAUSE HOLDS 2 CLAUSE HOLDS 3 {PSI} DELETE 2', ('HOLDS 2 LACKS 3', 'LACKS 2 CLAUSE HOLDS 3'), 7),
    ('sometime-before 9 SECOND', 'EFFECT ADD 2 EFFECT CLAUSE LACKS 2 ADD 3', LACKS_B, 7),
    (f'sometime-before 9 {PHI} SECOND {PSI}', f'EFFECT {PSI} ADD 2 EFFECT CLAUSE LACKS 2 {PHI} ADD 3', LACKS_B, 7),
    (f'sometime-after 9 {PHI} SECOND', 'EFFECT DELETE 3', LACKS_B, 7),
    (f'sometime-after 9 {PHI} SECOND {PSI}', f'EFFECT {PHI} {NOT_0} ADD 3 EFFECT {PHI} {NOT_1} ADD 3 EFFECT {PSI} DELETE 3', LACKS_B, 7),
    (f'within 9 STEPS 0 {PHI}', f'EFFECT ADD 7 EFFECT CLAUSE LACKS 7 {PHI} ADD 2', HOLDS_S, 8),
    (f'within 9 STEPS 1 {PHI}', f'EFFECT ADD 7 EFFECT CLAUSE HOLDS 7 ADD 8 EFFECT CLAUSE LACKS 8 {PHI} ADD 2', HOLDS_S, 9),
    (f'always-within 9 STEPS 0 {PHI} SECOND {PSI}',
     f'EFFECT {PHI} {NOT_0} ADD 3 ADD 2 EFFECT {PHI} {NOT_1} ADD 3 ADD 2 EFFECT CLAUSE LACKS 2 {PSI} DELETE 3', LACKS_B, 7),
    (f'always-within 9 STEPS 1 {PHI} SECOND {PSI}',
     f'EFFECT {PHI} {NOT_0} ADD 3 ADD 7 EFFECT {PHI} {NOT_1} ADD 3 ADD 7 '
     f'EFFECT CLAUSE HOLDS 7 {NOT_0} ADD 2 EFFECT CLAUSE HOLDS 7 {NOT_1} ADD 2 '
     f'EFFECT CLAUSE LACKS 2 {PSI} DELETE 3 DELETE 7', LACKS_B, 8),
    (f'always-within 9 STEPS 2 SECOND {NOT_1}',
     'EFFECT CLAUSE HOLDS 1 ADD 3 ADD 7 EFFECT CLAUSE HOLDS 7 CLAUSE HOLDS 1 ADD 8 EFFECT CLAUSE HOLDS 8 CLAUSE HOLDS 1 ADD 2 '
     f'EFFECT CLAUSE LACKS 2 {NOT_1} DELETE 3 DELETE 7 DELETE 8', LACKS_B, 9),
]


def translated(in_actions, at_end, closings, facts, cost, weight, last):
    """The translation of a task with an action of this cost and one rule. Forgo costs its weight, and has a last clause if it is hard."""
    met, missed = closings
    return file(f'START 5 GOAL CLAUSE HOLDS 6 CLAUSE HOLDS 4 ACTION {cost} CLAUSE HOLDS 5 {in_actions} '
                f'ACTION 0 CLAUSE HOLDS 5 EFFECT ADD 6 DELETE 5 {at_end} '
                f'ACTION 0 CLAUSE HOLDS 6 CLAUSE LACKS 4 CLAUSE {met} EFFECT ADD 4 '
                f'ACTION {weight} CLAUSE HOLDS 6 CLAUSE LACKS 4 CLAUSE {missed} {last} EFFECT ADD 4', F=facts)


def by_hand():
    """What a case is for, a task file, and its translation. The last have the greatest cost and weight, which are copied as they stand."""
    yield 'the belt', file(BELT, F=2), file(BELT_TRANSLATED, F=10)
    for cost, weight, rules in [(4, 9, RULES), (MOST, MOST, RULES[5:6]), (MOST, 1000001, RULES[5:6])]:
        for rule, trackers, closings, facts in rules:
            kind, _, rest = (rule + ' ').split(' ', 2)
            in_actions = trackers if kind != 'at-end' else ''
            for words, paid, last in [(f'{kind} {weight}', weight, ''), (f'hard-{kind}', 0, 'CLAUSE LACKS 6')]:
                yield (f'an action of cost {cost}, {words} {rest}', file(f'GOAL ACTION {cost} {words} {rest}', F=2),
                       translated(in_actions, trackers, closings, facts, cost, paid, last))
