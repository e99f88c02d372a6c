#!/usr/bin/env python3
"""What planners print, as the text of a plan that the library and the programs read: a line `(aN)` for each step.

tools/planned.py PRINTED            writes the plan to standard output, and which planner's form it was to standard error

A form says how a step is printed, how what is no step, and perhaps between which lines the steps stand. The first form that every line
of a text has is taken; where none is, the text is refused with the line up to which one went. Actions are named a0, a1 and so on, as
program pddl writes them, in capitals where a planner turns them so; they have no arguments. The numbers or times before steps must not
fall, since the steps are taken in the order of their lines.
"""
import collections
import re
import sys

Form = collections.namedtuple('Form', 'name step other begin end')

ACTION = '[Aa](?P<action>0|[1-9][0-9]*)'
TIME = r'(?P<time>[0-9]+(?:\.[0-9]+)?)'
COMMENT = r'\s*(?:;.*)?'
FORMS = [
    # The text of request 1, which needs nothing.
    Form('plain', rf'\({ACTION.replace("A", "", 1)}\)', ';.*', None, None),
    # Fast Downward, and what is built on it, such as LAMA and SymK: a blank may stand before the bracket closes.
    Form('Fast Downward', rf'\({ACTION.replace("A", "", 1)} *\) *', COMMENT, None, None),
    # LPG: a time before each step, and what it takes after it, in square brackets.
    Form('LPG', rf'\s*{TIME}\s*:\s*\({ACTION}\s*\)\s*(?:\[[^\]]*\])?\s*', COMMENT, None, None),
    # FF and Metric-FF: numbered steps in a log that goes on with what they took.
    Form('Metric-FF', rf'\s*(?:step)?\s*{TIME}:\s*{ACTION}\s*', r'\s*', r'ff: found legal plan as follows.*',
         r'(?:time spent|plan cost|total-cost).*'),
]


class Wrong(Exception):
    """A text that is of no known form: the line and why."""


def between(form, lines):
    """The numbered lines among which the steps of a form stand."""
    numbered = list(enumerate(lines, 1))
    if form.begin is None:
        return numbered
    begins = [number for number, line in numbered if re.fullmatch(form.begin, line)]
    if len(begins) != 1:
        raise Wrong(0, f'{len(begins)} plans, where there is to be one')
    after = numbered[begins[0]:]
    ends = [number for number, line in after if re.fullmatch(form.end, line)]
    if not ends:
        raise Wrong(len(lines), 'the plan has no end')
    return [(number, line) for number, line in after if number < ends[0]]


def steps_by(form, lines):
    """The steps of a text of this form."""
    steps, last = [], 0.0
    for number, line in between(form, lines):
        step = re.fullmatch(form.step, line)
        if step:
            time = float(step.groupdict().get('time', last))
            if time < last:
                raise Wrong(number, 'a step before the one above it')
            steps, last = steps + [int(step['action'])], time
        elif not re.fullmatch(form.other, line):
            raise Wrong(number, 'no step and no comment')
    return steps


def read(text):
    """The form of a text, and its steps."""
    *lines, rest = text.split('\n')
    if rest:
        raise Wrong(len(lines) + 1, 'no newline at its end')
    reasons = []
    for form in FORMS:
        try:
            return form.name, steps_by(form, lines)
        except Wrong as why:
            reasons.append(why.args)
    raise Wrong(*max(reasons, key=lambda why: why[0]))


def plain(steps):
    return ''.join(f'(a{step})\n' for step in steps)


if __name__ == '__main__':
    if len(sys.argv) != 2:
        sys.exit(__doc__)
    try:
        with open(sys.argv[1], encoding='utf-8', newline='\n') as file:
            form, steps = read(file.read())
    except Wrong as why:
        sys.exit('line {}: {}'.format(*why.args))
    except (OSError, UnicodeError) as why:
        sys.exit(f'{why}')
    sys.stdout.write(plain(steps))
    print(f'{len(steps)} steps, as {form} prints them', file=sys.stderr)
