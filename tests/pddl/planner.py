#!/usr/bin/env python3
"""A planner of PDDL over gringo and clasp (Debian packages of these names), as far as shared/pddl.py reads it.

tests/pddl/planner.py DOMAIN PROBLEM STEPS     prints a cheapest plan of at most so many steps, as planners do: a line for each step,
                                               and a comment with the cost
"""
import os
import sys

sys.path.insert(0, os.path.dirname(os.path.dirname(os.path.abspath(__file__))))
from shared.pddl import Wrong, read
from shared.planning import planned


def main(domain, problem, steps):
    with open(domain) as first, open(problem) as second:
        try:
            task = read(first.read(), second.read())
        except Wrong as why:
            sys.exit(str(why))
    found = planned(task, int(steps))
    if found is None:
        sys.exit(f'no plan of at most {steps} steps')
    print(found[1], end='')


if __name__ == '__main__':
    if len(sys.argv) != 4:
        sys.exit(__doc__)
    main(*sys.argv[1:])
