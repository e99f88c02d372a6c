"""Tasks without preferences and their two texts, written out letter by letter: the lines of document 02's request 4, the shortest texts,
and the longest."""
from shared.files import file
from shared.tasks import LONGEST_DOMAIN, LONGEST_PROBLEM


def domain(facts, actions):
    predicates = ''.join(f' (f{n})' for n in range(facts))
    return ('(define (domain d)\n'
            '(:requirements :negative-preconditions :disjunctive-preconditions :conditional-effects :action-costs)\n'
            f'(:predicates{predicates})\n'
            f'(:functions (total-cost))\n{actions})\n')


def problem(opening, condition):
    return ('(define (problem p) (:domain d)\n'
            f'(:init (= (total-cost) 0){opening})\n'
            f'(:goal {condition})\n'
            '(:metric minimize (total-cost)))\n')


REQUEST = file('START 1 GOAL CLAUSE HOLDS 2 CLAUSE HOLDS 0 LACKS 1 ACTION 3 CLAUSE HOLDS 0 LACKS 1 EFFECT CLAUSE HOLDS 2 ADD 0 DELETE 1 '
               'ACTION 4294967295 ACTION EFFECT ACTION 1000001', F=3)
REQUEST_TEXTS = (
    domain(3, '(:action a0 :parameters () :precondition (and (or (f0) (not (f1)))) '
              ':effect (and (increase (total-cost) 3) (when (and (f2)) (and (f0) (not (f1))))))\n'
              '(:action a1 :parameters () :precondition (and) :effect (and (increase (total-cost) 4294967295)))\n'
              '(:action a2 :parameters () :precondition (and) :effect (and (increase (total-cost) 0) (when (and) (and))))\n'
              '(:action a3 :parameters () :precondition (and) :effect (and (increase (total-cost) 1000001)))\n'),
    problem(' (f1)', '(and (f2) (or (f0) (not (f1))))'))

LONGEST_DOMAIN_TEXTS = (
    domain(128, ''.join(f'(:action a{n} :parameters () :precondition (and) :effect (and (increase (total-cost) 4294967295)'
                        + ' (when (and) (and))' * (11871 if n == 127 else 0) + '))\n' for n in range(128))),
    problem('', '(and)'))
assert len(LONGEST_DOMAIN_TEXTS[0]) == 239060
LONGEST_PROBLEM_TEXTS = domain(128, ''), problem('', '(and (or' + ' (not (f127))' * 11998 + '))')

# What each is for, its file, and its two texts.
SMALL = [('the lines of the request', REQUEST, REQUEST_TEXTS), ('GOAL alone', file('GOAL'), (domain(4, ''), problem('', '(and)')))]
LONGEST = [('the longest domain', LONGEST_DOMAIN, LONGEST_DOMAIN_TEXTS), ('the longest problem', LONGEST_PROBLEM, LONGEST_PROBLEM_TEXTS)]
