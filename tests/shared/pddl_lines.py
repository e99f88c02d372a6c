"""A task without preferences as PDDL: the lines of request 4 of document 02, each made of the task taken apart."""
from shared.account import check
from shared.translated import task

REQUIREMENTS = ':negative-preconditions :disjunctive-preconditions :conditional-effects :action-costs'


def fact(number):
    return f'(f{number})'


def literal(name, number):
    return fact(number) if name in ('HOLDS', 'ADD') else f'(not {fact(number)})'


def listed(word, parts):
    return f'({" ".join([word, *parts])})'


def clause(literals):
    texts = [literal(*each) for each in literals]
    return texts[0] if len(texts) == 1 else listed('or', texts)


def condition(clauses):
    return listed('and', map(clause, clauses))


def effect(when, adds, deletes):
    return f'(when {condition(when)} {listed("and", [literal(*each) for each in adds + deletes])})'


def action(number, cost, before, effects):
    changes = listed('and', [f'(increase (total-cost) {cost})', *(effect(*each) for each in effects)])
    return f'(:action a{number} :parameters () :precondition {condition(before)} :effect {changes})'


def lines(*texts):
    return ''.join(text + '\n' for text in texts)


def both(data):
    """The domain and the problem of a file, or the line of a refusal by 1 to 6 or 13."""
    line = check(data)
    if line.startswith('refused'):
        return line
    starts, goal, actions, rules = task(data)
    if rules:
        return 'refused 13 0'
    domain = lines('(define (domain d)', f'(:requirements {REQUIREMENTS})', listed(':predicates', map(fact, range(data[0]))),
                   '(:functions (total-cost))', *(action(number, *each) for number, each in enumerate(actions)), ')')
    problem = lines('(define (problem p) (:domain d)', listed(':init', ['(= (total-cost) 0)', *(fact(number) for _, number in starts)]),
                    f'(:goal {condition(goal)})', '(:metric minimize (total-cost)))')
    return domain, problem
