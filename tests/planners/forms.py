#!/usr/bin/env python3
"""The tool that turns what planners print into a plan's text: a sample of each planner's form, and texts that it has to refuse."""
import os
import sys

HERE = os.path.dirname(os.path.abspath(__file__))
sys.dont_write_bytecode = True
sys.path[:0] = [os.path.join(os.path.dirname(os.path.dirname(HERE)), 'tools'), os.path.dirname(HERE)]
import planned
from shared.expected import expect

# The belt's solution, as each planner prints it, and the form that the tool should see.
SAMPLES = {
    'plain': 'plain',
    'fast_downward': 'plain',
    'fast_downward_blank': 'Fast Downward',
    'lpg': 'LPG',
    'lpg_td': 'LPG',
    'metric_ff': 'Metric-FF',
    'metric_ff_cost': 'Metric-FF',
}
SOLUTION = [0, 2, 4, 5]

# Other texts, and their steps or why they are refused.
FF = 'ff: found legal plan as follows\n'
TEXTS = [
    ('', []),
    ('; nothing to do\n', []),
    ('(a0 )\n', [0]),
    ('(a300)\n', [300]),
    ('0:   (A12 ) [1]\n', [12]),
    (FF + 'step 0: A7\n 1: a8\ntime spent: 0\n', [7, 8]),
    (FF + 'time spent: 0\n', []),
    ('(a0)', (1, 'no newline at its end')),
    ('(a0)\n(a1', (2, 'no newline at its end')),
    ('(a0)\r\n', (1, 'no step and no comment')),
    ('(A0)\n', (1, 'no step and no comment')),
    ('(a00)\n', (1, 'no step and no comment')),
    ('(a0 x)\n', (1, 'no step and no comment')),
    ('(a0)\nSolution found!\n', (2, 'no step and no comment')),
    ('(a0)\n1: (A1 ) [1]\n', (2, 'no step and no comment')),
    ('1: (A1 ) [1]\n0: (A0 ) [1]\n', (2, 'a step before the one above it')),
    (FF + '1: A1\n0: A0\ntime spent: 0\n', (3, 'a step before the one above it')),
    (FF + '0: A1\n', (2, 'the plan has no end')),
    (FF + '0: A1 B\ntime spent: 0\n', (2, 'no step and no comment')),
    (FF + FF + 'time spent: 0\n', (1, 'no step and no comment')),
]


def answered(text):
    """The steps of a text, or the line and why it is refused."""
    try:
        return planned.read(text)[1]
    except planned.Wrong as why:
        return why.args


def main():
    names = sorted(os.listdir(os.path.join(HERE, 'printed')))
    expect('the samples', names, sorted(SAMPLES))
    for name in names:
        with open(os.path.join(HERE, 'printed', name), newline='\n') as file:
            expect(name, planned.read(file.read()), (SAMPLES[name], SOLUTION))
    for text, answer in TEXTS:
        expect(text, answered(text), answer)
    print(f'{len(names)} samples and {len(TEXTS)} other texts of planners: as they should be')


if __name__ == '__main__':
    main()
