"""Tasks and their spellings, both written by hand in rows; no account is used."""
from shared.files import MOST, file, goal

# Literals, and the literals of their spelling; a line stands for a clause in each condition of a task.
LITERALS = [
    ('HOLDS 1', 'HOLDS 1'), ('HOLDS 2 HOLDS 1', 'HOLDS 1 HOLDS 2'), ('LACKS 2 LACKS 1', 'LACKS 1 LACKS 2'),
    ('HOLDS 2 LACKS 1', 'LACKS 1 HOLDS 2'), ('LACKS 2 HOLDS 1', 'HOLDS 1 LACKS 2'), ('LACKS 1 HOLDS 1', 'HOLDS 1 LACKS 1'),
    ('HOLDS 1 HOLDS 1', 'HOLDS 1'), ('LACKS 1 HOLDS 1 LACKS 1 HOLDS 1', 'HOLDS 1 LACKS 1'),
    ('HOLDS 3 HOLDS 1 HOLDS 3', 'HOLDS 1 HOLDS 3'),
    ('HOLDS 127 LACKS 64 HOLDS 63 HOLDS 0 LACKS 63 HOLDS 127 LACKS 127 LACKS 0',
     'HOLDS 0 LACKS 0 HOLDS 63 LACKS 63 LACKS 64 HOLDS 127 LACKS 127'),
]
CONDITIONS = ['GOAL CLAUSE {}', 'GOAL CLAUSE HOLDS 9 CLAUSE {} CLAUSE HOLDS 0 LACKS 8', 'GOAL ACTION 5 CLAUSE {}',
              'GOAL ACTION 5 EFFECT CLAUSE {} ADD 9', 'GOAL always 7 CLAUSE {}', 'GOAL sometime-before 7 CLAUSE {} SECOND CLAUSE LACKS 4',
              'GOAL hard-sometime-after SECOND CLAUSE {}', 'GOAL always-within 7 STEPS 15 CLAUSE HOLDS 4 SECOND CLAUSE {}']

# ADD and DELETE rows of an effect, and those of its spelling.
FACTS = [
    ('', ''), ('ADD 2 ADD 1', 'ADD 1 ADD 2'), ('DELETE 2 DELETE 1', 'DELETE 1 DELETE 2'), ('ADD 1 ADD 1', 'ADD 1'),
    ('DELETE 1 DELETE 1 DELETE 1', 'DELETE 1'), ('ADD 2 ADD 1 DELETE 2 DELETE 1', 'ADD 1 ADD 2 DELETE 1 DELETE 2'),
    ('ADD 1 DELETE 1', 'ADD 1 DELETE 1'), ('ADD 3 DELETE 0', 'ADD 3 DELETE 0'),
    ('ADD 127 ADD 64 ADD 0 ADD 63 ADD 127 DELETE 64 DELETE 127 DELETE 64', 'ADD 0 ADD 63 ADD 64 ADD 127 DELETE 64 DELETE 127'),
]
EFFECTS = 'GOAL ACTION 3 EFFECT CLAUSE HOLDS 5 {} EFFECT ADD 7 DELETE 7'

# Spellings already: nothing but literals and facts moves, and nothing else is left out.
KEPT = ['GOAL', 'START 1 START 3 GOAL', 'GOAL CLAUSE HOLDS 2 CLAUSE HOLDS 1 CLAUSE HOLDS 2', 'GOAL CLAUSE LACKS 1 CLAUSE HOLDS 1',
        f'GOAL ACTION {MOST} ACTION 1 ACTION 1', 'GOAL ACTION EFFECT ADD 2 EFFECT ADD 1 EFFECT ADD 2 EFFECT EFFECT',
        f'GOAL sometime {MOST} always 1 always 1', 'GOAL sometime-before 1 CLAUSE HOLDS 2 SECOND CLAUSE HOLDS 1',
        'GOAL within 2 STEPS 15 within 2 STEPS 15 hard-within STEPS']

MIXED = file('GOAL CLAUSE LACKS 1 HOLDS 3 HOLDS 1 LACKS 1 ACTION 4 EFFECT ADD 2 ADD 0 ADD 2 DELETE 3 DELETE 2')
CLEAN = file('GOAL CLAUSE HOLDS 1 LACKS 1 HOLDS 3 ACTION 4 EFFECT ADD 0 ADD 2 DELETE 2 DELETE 3')
LONGEST = file(goal(12000))


def short():
    """What each is for, the task and its spelling."""
    for form in CONDITIONS:
        for given, wanted in LITERALS:
            yield 'literals', file(form.format(given), F=128), file(form.format(wanted), F=128)
    for given, wanted in FACTS:
        yield 'facts', file(EFFECTS.format(given), F=128), file(EFFECTS.format(wanted), F=128)
    for rows in KEPT:
        yield 'kept', file(rows), file(rows)
    yield 'mixed', MIXED, CLEAN


def long():
    every = ''.join(f' LACKS {fact} HOLDS {fact}' for fact in reversed(range(128)))
    rising = ''.join(f' HOLDS {fact} LACKS {fact}' for fact in range(128))
    for times in (1, 2, 46):
        yield f'every literal {times} times', file('GOAL CLAUSE' + every * times, F=128), file('GOAL CLAUSE' + rising, F=128)
    yield 'the longest task', LONGEST, file('GOAL CLAUSE HOLDS 3')
    yield '3,999 clauses', file('GOAL' + ' CLAUSE LACKS 3 HOLDS 2' * 3999), file('GOAL' + ' CLAUSE HOLDS 2 LACKS 3' * 3999)
