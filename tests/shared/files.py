"""Task files: marks by name, rows in words, files made of them and taken apart."""
import struct

# The documents' names of the marks 1 to 19; a hard rule's is its kind with `hard-` before it.
NAMES = ['ACTION', 'EFFECT', 'CLAUSE', 'HOLDS', 'LACKS', 'ADD', 'DELETE', 'GOAL', 'START', 'always', 'sometime', 'at-end',
         'at-most-once', 'sometime-before', 'sometime-after', 'SECOND', 'within', 'always-within', 'STEPS']
SOFT = NAMES[9:15] + NAMES[16:18]
HARD = [f'hard-{kind}' for kind in SOFT]
NAME = {**dict(enumerate(NAMES, 1)), **dict(zip([26, 27, 28, 29, 30, 31, 33, 34], HARD))}
MARK = {name: mark for mark, name in NAME.items()}
PREFERENCES = SOFT + HARD
DEADLINES = ['within', 'always-within']
WITH_STEPS = [hard + kind for hard in ('', 'hard-') for kind in DEADLINES]
WITH_SECOND = [hard + kind for hard in ('', 'hard-') for kind in ('sometime-before', 'sometime-after', 'always-within')]
OF_FACTS = ['HOLDS', 'LACKS', 'ADD', 'DELETE']
MOST = 2 ** 32 - 1  # the greatest cost, and the greatest weight of a soft rule
TRIED = [*range(37), 48, 49, 50, 128 + 10, 128 + 26, 255]  # marks to try: all that there are, and others

BELT = ('START 1  GOAL CLAUSE LACKS 1  ACTION 3 EFFECT ADD 0 DELETE 1  ACTION 1 EFFECT ADD 1 DELETE 0 '
        'always 5 CLAUSE LACKS 1  sometime 7 CLAUSE HOLDS 0')


# ---- made

def spelled(text):
    """Rows in the documents' words, 'GOAL CLAUSE HOLDS 1': a value left out is 0, and '#17' is the mark 17."""
    rows = []
    for word in text.split():
        if word.isdigit():
            rows[-1] = (rows[-1][0], int(word))
        else:
            rows.append((int(word[1:]) if word[0] == '#' else MARK[word], 0))
    return rows


def file(text, F=4, A=None, P=None, N=None):
    """A task file of rows, or of rows in words. The sizes that are left out are those that the rows have."""
    rows = spelled(text) if isinstance(text, str) else text
    names = [NAME.get(mark) for mark, _ in rows]
    actions = names.count('ACTION') if A is None else A
    preferences = sum(name in PREFERENCES for name in names) if P is None else P
    header = struct.pack('<4H', F, actions, preferences, len(rows) if N is None else N)
    return header + bytes(mark for mark, _ in rows) + b''.join(struct.pack('<I', value) for _, value in rows)


def goal(n):
    """A goal of n rows, three or more, in words."""
    return 'GOAL CLAUSE' + ' HOLDS 3' * (n - 2)


def preference(kind, weight, phi='', psi='', steps=0):
    """The rows of a preference in words. ψ and the steps are left out where the kind has none, and the weight where it is hard."""
    opening = kind if kind in HARD else f'{kind} {weight}'
    deadline = f' STEPS {steps}' if kind in WITH_STEPS else ''
    return f' {opening}{deadline} {phi}' + (f' SECOND {psi}' if kind in WITH_SECOND else '')


# ---- taken apart

def rows(data):
    """The rows of an accepted file, each a name and a value."""
    n, = struct.unpack_from('<H', data, 6)
    return list(zip([NAME[mark] for mark in data[8:8 + n]], struct.unpack_from(f'<{n}I', data, 8 + n)))


def preferences(data):
    """The preferences of an accepted file in their order, each a kind and a weight."""
    return [row for row in rows(data) if row[0] in PREFERENCES]


def words(data):
    """An accepted file for reading. It is made again by file(rows in words, F)."""
    return f'F {data[0]}: ' + ' '.join(f'{name} {value}' for name, value in rows(data))
