"""An account of a task with single literals in its effects: the choices of literals are those of itertools.product."""
import itertools
import math

from shared.account import check
from shared.files import MARK, file, rows

LITERALS, CHANGES = ('HOLDS', 'LACKS'), ('ADD', 'DELETE')


def taken(given, at, names):
    """The rows from `at` on that have one of these names."""
    return list(itertools.takewhile(lambda row: row[0] in names, itertools.islice(given, at, None)))


def effect(given, at):
    """The clauses of the effect at row `at`, each a list of literals, what it adds and deletes, and the row after it."""
    clauses, at = [], at + 1
    while taken(given, at, ['CLAUSE']):
        clauses.append(taken(given, at + 1, LITERALS))
        at += 1 + len(clauses[-1])
    changes = taken(given, at, CHANGES)
    return clauses, changes, at + len(changes)


def singled(data):
    """The file with single literals that is made of a file, or the refusal as a line."""
    line = check(data)
    if line.startswith('refused'):
        return line
    given, made, at = rows(data), [], 0
    while at < len(given):
        if given[at][0] != 'EFFECT':
            made.append(given[at])
            at += 1
            continue
        clauses, changes, after = effect(given, at)
        if math.prod(map(len, clauses)) > 64:
            return f'refused 17 {at}'
        for choice in itertools.product(*clauses):
            made += [given[at], *(row for literal in choice for row in (('CLAUSE', 0), literal)), *changes]
        at = after
    return file([(MARK[name], value) for name, value in made], F=data[0]) if len(made) <= 12000 else 'refused 8 0'
