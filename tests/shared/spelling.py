"""An account of the one spelling of a task: lists are sorted, and repeats left out."""
import itertools

from shared.files import MARK, file, rows

# The rows whose order and repeats mean nothing; HOLDS and LACKS stand in one list, ADD and DELETE each in their own.
LISTS = {'HOLDS': 'literals', 'LACKS': 'literals', 'ADD': 'added', 'DELETE': 'deleted'}


def lists(data):
    """The rows of an accepted file in their order, cut up: each such list by itself, and what stands between two of them."""
    for kind, part in itertools.groupby(rows(data), key=lambda row: LISTS.get(row[0])):
        yield kind, list(part)


def joined(data, parts):
    """The file of the same sizes with these rows."""
    return file([(MARK[name], value) for part in parts for name, value in part], F=data[0])


def spelling(data):
    """The file of the agreed spelling: by rising fact, HOLDS before LACKS."""
    return joined(data, (sorted(set(part), key=lambda row: (row[1], row[0])) if kind else part for kind, part in lists(data)))


def respelled(data, chance):
    """A file of the same task in another order, with repeats."""
    def shuffled(part):
        more = part + [chance.one_of(part) for _ in range(chance.below(3))]
        return sorted(more, key=lambda _: chance.random())

    return joined(data, (shuffled(part) if kind else part for kind, part in lists(data)))
