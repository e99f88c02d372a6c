"""A parser of planning tasks in PDDL, as far as they have no variables: written from PDDL's grammar, not from one writer's layout.

read(domain, problem) answers a Task, or raises Wrong with what is not understood. What is read:
- white space of any kind and length between tokens, comments from a semicolon to the end of the line, capitals as small letters;
- of a domain :requirements, :predicates, :functions and actions, in PDDL's order; the one function is total-cost;
- conditions of and, or and not in each other, to any depth; effects of literals, when and increase;
- of a problem :domain, :init, :goal and :metric, in PDDL's order.
Names have to be declared, and each construct needs its requirement. A task without :metric, or with another than the least total cost,
is refused.
"""
import collections
import re

from shared.files import PREFERENCES, rows

TOKEN = re.compile(r'\s+|;[^\n]*|([()]|[^\s();]+)')
NAME = re.compile(r'[a-z][a-z0-9_-]*')
NUMBER = re.compile(r'[0-9]+')

# What each requirement lets a domain use. :adl is PDDL's short word for several.
OWN = [':strips', ':negative-preconditions', ':disjunctive-preconditions', ':conditional-effects', ':action-costs']
REQUIREMENTS = {name: {name} for name in OWN} | {':adl': set(OWN[:4])}
DOMAIN_PARTS = [':requirements', ':predicates', ':functions', ':action']
PROBLEM_PARTS = [':domain', ':init', ':goal', ':metric']

# A condition is ('fact', name), ('not', condition), ('and', conditions) or ('or', conditions).
# The condition of an effect that stands in no `when` is None.
Task = collections.namedtuple('Task', 'facts init goal actions')
Action = collections.namedtuple('Action', 'name cost precondition effects')
Effect = collections.namedtuple('Effect', 'condition adds deletes')


class Wrong(Exception):
    """What is not understood."""


# ---- lists in brackets

def tree(text):
    """The one list that a text is: a list of words and lists."""
    lists = [[]]
    for match in TOKEN.finditer(text.lower()):
        word = match[1]
        if word == '(':
            lists.append([])
        elif word == ')':
            if len(lists) == 1:
                raise Wrong('a bracket closed that was not opened')
            closed = lists.pop()
            lists[-1].append(closed)
        elif word:
            lists[-1].append(word)
    if len(lists) > 1:
        raise Wrong('a bracket left open')
    if len(lists[0]) != 1 or not isinstance(lists[0][0], list):
        raise Wrong('a text that is not one list')
    return lists[0][0]


def shown(part):
    return '(' + ' '.join(map(shown, part)) + ')' if isinstance(part, list) else part


def head(part):
    """The word that a list begins with, and the rest of the list."""
    if not isinstance(part, list) or not part or not isinstance(part[0], str):
        raise Wrong(f'no list that begins with a word: {shown(part)}')
    return part[0], part[1:]


def name_of(word):
    if not isinstance(word, str) or not NAME.fullmatch(word):
        raise Wrong(f'no name: {shown(word)}')
    return word


def defined(text, kind, parts):
    """The name of what a text defines, and its parts as (word, rest), which have to stand in this order."""
    word, rest = head(tree(text))
    if word != 'define' or not rest or head(rest[0])[0] != kind or len(rest[0]) != 2:
        raise Wrong(f'no definition of a {kind}')
    found = [head(part) for part in rest[1:]]
    words = [word for word, _ in found]
    for word in words:
        if word not in parts:
            raise Wrong(f'unknown part {word} of a {kind}')
        if word != ':action' and words.count(word) > 1:
            raise Wrong(f'{word} twice')
    if words != sorted(words, key=parts.index):
        raise Wrong(f'the parts of the {kind} in another order than PDDL has')
    return name_of(rest[0][1]), found


# ---- a domain

class Domain:
    def __init__(self, text):
        self.name, parts = defined(text, 'domain', DOMAIN_PARTS)
        self.allowed, self.facts, self.has_cost, self.actions = set(), [], False, []
        reading = {':requirements': self.requirements, ':predicates': self.predicates, ':functions': self.functions, ':action': self.action}
        for word, rest in parts:
            reading[word](rest)

    def requirements(self, words):
        for word in words:
            if not isinstance(word, str) or word not in REQUIREMENTS:
                raise Wrong(f'unknown requirement {shown(word)}')
            self.allowed |= REQUIREMENTS[word]

    def need(self, requirement, part):
        if requirement not in self.allowed:
            raise Wrong(f'{requirement} is needed for {shown(part)}')

    def predicates(self, parts):
        for part in parts:
            name, variables = head(part)
            if variables:
                raise Wrong(f'a predicate with variables: {shown(part)}')
            if name in self.facts:
                raise Wrong(f'a predicate declared twice: {name}')
            self.facts.append(name_of(name))

    def functions(self, parts):
        if parts not in ([['total-cost']], [['total-cost'], '-', 'number']):
            raise Wrong(f'functions other than total-cost: {shown(parts)}')
        self.need(':action-costs', parts)
        self.has_cost = True

    def fact(self, part):
        name, arguments = head(part)
        if name not in self.facts:
            raise Wrong(f'unknown predicate {name}')
        if arguments:
            raise Wrong(f'a predicate with arguments: {shown(part)}')
        return name

    def total_cost(self, part):
        if part != ['total-cost'] or not self.has_cost:
            raise Wrong(f'unknown function {shown(part)}')

    def condition(self, part):
        word, rest = head(part)
        if word == 'not':
            self.need(':negative-preconditions', part)
            if len(rest) != 1:
                raise Wrong(f'not of {len(rest)} conditions')
            if head(rest[0])[0] in ('and', 'or', 'not'):
                self.need(':disjunctive-preconditions', part)
            return 'not', self.condition(rest[0])
        if word == 'or':
            self.need(':disjunctive-preconditions', part)
        if word in ('and', 'or'):
            return word, tuple(map(self.condition, rest))
        return 'fact', self.fact(part)

    def action(self, rest):
        if not rest or len(rest) % 2 == 0:
            raise Wrong(f'an action without a name, or with a part left out: {shown(rest)}')
        name, given = name_of(rest[0]), dict(zip(map(shown, rest[1::2]), rest[2::2]))
        if [shown(word) for word in rest[1::2]] != [word for word in (':parameters', ':precondition', ':effect') if word in given]:
            raise Wrong(f'action {name} with unknown parts, or parts in another order than PDDL has')
        if given.get(':parameters') != []:
            raise Wrong(f'action {name} without an empty list of parameters')
        if name in [action.name for action in self.actions]:
            raise Wrong(f'an action defined twice: {name}')
        precondition = self.condition(given.get(':precondition') or ['and'])
        cost, effects = self.effects(listed(given.get(':effect') or ['and']))
        self.actions.append(Action(name, cost, precondition, effects))

    def effects(self, parts):
        """The cost of an action, and its effects."""
        costs, effects = [], []
        for part in parts:
            word, rest = head(part)
            if word == 'increase':
                costs.append(self.amount(part))
            elif word == 'when':
                self.need(':conditional-effects', part)
                if len(rest) != 2:
                    raise Wrong(f'when without a condition and an effect: {shown(part)}')
                effects.append(self.effect(self.condition(rest[0]), listed(rest[1])))
            else:
                effects.append(self.effect(None, [part]))
        if len(costs) > 1:
            raise Wrong('an action with several costs')
        return sum(costs), effects

    def effect(self, condition, literals):
        adds, deletes = [], []
        for part in literals:
            word, rest = head(part)
            if word != 'not':
                adds.append(self.fact(part))
            elif len(rest) == 1:
                deletes.append(self.fact(rest[0]))
            else:
                raise Wrong(f'not of {len(rest)} facts')
        return Effect(condition, adds, deletes)

    def amount(self, part):
        if len(part) != 3:
            raise Wrong(f'no cost: {shown(part)}')
        self.total_cost(part[1])
        return number(part[2])


def listed(part):
    """The parts of a list with `and`, or the part alone."""
    return part[1:] if part[:1] == ['and'] else [part]


def number(word):
    if not isinstance(word, str) or not NUMBER.fullmatch(word):
        raise Wrong(f'no whole number: {shown(word)}')
    return int(word)


# ---- a problem of a domain

def opening(domain, parts):
    costs, facts = [], []
    for part in parts:
        if head(part)[0] == '=' and len(part) == 3:
            domain.total_cost(part[1])
            costs.append(number(part[2]))
        else:
            facts.append(domain.fact(part))
    if costs != [0]:
        raise Wrong(f'a total cost that does not open with 0, or not once: {costs}')
    return facts


def read(domain_text, problem_text):
    domain = Domain(domain_text)
    _, found = defined(problem_text, 'problem', PROBLEM_PARTS)
    parts = dict(found)
    for word in PROBLEM_PARTS:
        if word not in parts:
            raise Wrong(f'a problem without {word}')
    if parts[':domain'] != [domain.name]:
        raise Wrong(f'a problem of another domain: {shown(parts[":domain"])}')
    if parts[':metric'] != ['minimize', ['total-cost']]:
        raise Wrong(f'another metric than the least total cost: {shown(parts[":metric"])}')
    domain.total_cost(parts[':metric'][1])
    if len(parts[':goal']) != 1:
        raise Wrong(f'a goal that is not one condition: {shown(parts[":goal"])}')
    return Task(domain.facts, opening(domain, parts[':init']), domain.condition(parts[':goal'][0]), domain.actions)


# ---- the task in the rows of a file

def conjunction(clauses):
    """A condition of clauses, each a list of literals."""
    return 'and', tuple(clause[0] if len(clause) == 1 else ('or', tuple(clause)) for clause in clauses)


def task_of(data):
    """The task in the rows of a file, up to its first preference, in the parser's words."""
    init, goal, actions = [], [], []
    clauses, effects, adds, deletes = [], [], [], []  # those that the next row goes to
    for name, value in rows(data):
        fact = 'fact', f'f{value}'
        if name in PREFERENCES:
            break
        if name == 'GOAL':
            clauses = goal
        elif name == 'ACTION':
            clauses, effects = [], []
            actions.append((value, clauses, effects))
        elif name == 'EFFECT':
            clauses, adds, deletes = [], [], []
            effects.append((clauses, adds, deletes))
        elif name == 'CLAUSE':
            clauses.append([])
        elif name in ('HOLDS', 'LACKS'):
            clauses[-1].append(fact if name == 'HOLDS' else ('not', fact))
        else:
            {'START': init, 'ADD': adds, 'DELETE': deletes}[name].append(f'f{value}')
    return Task([f'f{n}' for n in range(data[0])], init, conjunction(goal), [
        Action(f'a{n}', cost, conjunction(needs), [Effect(conjunction(when), *changes) for when, *changes in effects])
        for n, (cost, needs, effects) in enumerate(actions)])
