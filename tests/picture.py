#!/usr/bin/env python3
"""What tools/route.py draws, held to accounts that share nothing with the library: conditions by state, what is lost and what it costs
by shared/translated.py, which rules are met by the stored texts of program judge; and the picture of docs/ to what it draws today.

tests/picture.py            needs what `tools/staticlib` wrote
tests/picture.py --write    writes docs/route.svg anew
"""
import math
import os
import re
import subprocess
import sys
import xml.etree.ElementTree as xml

from shared import stored
from shared.expected import expect
from shared.files import BELT, HARD, MARK, MOST, PREFERENCES, SOFT, file, rows
from shared.tasks import random_tasks
from shared.translated import lost, run, task, translation, true_in

ROOT = os.path.dirname(os.path.dirname(os.path.abspath(__file__)))
sys.dont_write_bytecode = True
sys.path.append(os.path.join(ROOT, 'tools'))
import route

PICTURE = os.path.join(ROOT, 'docs/route.svg')
HOUSE = os.path.join(ROOT, 'examples/batch_house')
DRAWN = (os.path.join(HOUSE, 'task.txt'), os.path.join(HOUSE, 'plans/gate_twice'))
OUTCOME = re.compile(r'^\d+ \S+ \d+ (met|missed)$', re.M)
LETTER = 0.6  # how wide a letter is for its size, on the average of DejaVu Sans


def softened(data):
    """The same task with each rule soft, and its own bit for a weight."""
    soft, k = [], 0
    for name, value in rows(data):
        is_rule = name in PREFERENCES
        soft.append((MARK[name.removeprefix('hard-')], 1 << k if is_rule else value))
        k += is_rule
    return file(soft, F=data[0])


def ways(library, what, data, plan):
    """A way beside the accounts; answers it."""
    of, rules, after = route.way(library, data, plan), task(data)[3], run(data, plan)
    stopped = isinstance(after, int)
    expect(f'{what}: states', of.states, (after if stopped else len(plan)) + 1)
    expect(f'{what}: outcomes', of.met is None, stopped)
    for i in range(of.states):
        _, state = run(data, plan[:i])
        for k, (_, _, _, phi, psi) in enumerate(rules):
            expect(f'{what}: φ of {k} in state {i}', of.phi[k][i], true_in(state, phi))
            if of.psi[k][i] is not None:
                expect(f'{what}: ψ of {k} in state {i}', of.psi[k][i], true_in(state, psi))
        line = lost(data, [*plan[:i], data[2]])
        expect(f'{what}: state {i}', f'run cost {of.cost[i]} lost {of.lost[i]}', line)
        bits = sum(1 << k for k in range(len(rules)) if of.is_lost[k][i])
        expect(f'{what}: the rules lost in state {i}', lost(softened(data), [*plan[:i], data[2]]).split()[-1], str(bits))
    return of


def counted(what, of, svg):
    """The picture has a dot for each condition in each state, a cell for each lost rule, and the outcomes; its words have room."""
    inside(what, svg)
    parts = [(part.tag.split('}')[1], part.attrib, part.text) for part in xml.fromstring(svg).iter()]
    conditions = sum(1 + (rule.psi is not None) for rule in of.rules)
    full = [attributes['fill'] == route.INK for tag, attributes, _ in parts if tag == 'circle']
    expect(f'{what}: dots', len(full), 2 + conditions * of.states)
    true = sum(map(sum, of.phi)) + sum(bool(truth) for row in of.psi for truth in row)
    expect(f'{what}: full dots', sum(full), 1 + true)
    expect(f'{what}: lost cells', sum(attributes.get('fill') == 'url(#lost)' for _, attributes, _ in parts), 1 + sum(map(sum, of.is_lost)))
    outcomes = [text for _, _, text in parts if text in ('met', 'missed')]
    wanted = [] if of.met is None else ['met' if met else 'missed' for met in of.met]
    expect(f'{what}: outcomes', outcomes, ['met', 'missed', *wanted])


def inside(what, svg):
    """No words leave the picture, nor the cell that they stand in."""
    picture = xml.fromstring(svg)
    whole = (0, 0, float(picture.attrib['width']), float(picture.attrib['height']))
    cells = [[float(part.attrib[name]) for name in ('x', 'y', 'width', 'height')] for part in picture.findall('{*}rect') if 'x' in part.attrib]
    for part in picture.findall('{*}text'):
        x, y = float(part.attrib['x']), float(part.attrib['y'])
        length = len(part.text) * LETTER * float(part.attrib.get('font-size', picture.attrib['font-size']))
        slope = math.radians(float(part.attrib.get('transform', 'rotate(0 ').split('(')[1].split()[0]))
        start = x - length * {'end': 1, 'middle': 0.5}.get(part.attrib.get('text-anchor'), 0)
        end, rise = start + length * math.cos(slope), length * math.sin(slope)
        holding = [cell for cell in cells if cell[0] <= x <= cell[0] + cell[2] and cell[1] <= y <= cell[1] + cell[3]]
        left, top, width, height = (holding or [whole])[0]
        fits = left <= start and end <= left + width and top <= y + rise <= top + height
        expect(f'{what}: "{part.text}" has room', fits, True)


def judged(library):
    """Stored plans of program judge: the rules that are met, where they solve. Answers how many ways there were, and how many lost one."""
    records, texts = list(stored.records('judge_vectors')), stored.written('judge_vectors')
    ways_tried, losing, at = 0, 0, 0
    for number, (data, plan) in enumerate(zip(records[::2], records[1::2])):
        text = re.compile(r'solved .*\n(?:\d.*\n)*metric .*\n|.*\n').match(texts, at)[0]
        at += len(text)
        if number % 9 or text.startswith('refused') or len(plan) > 30 or len(data) > 2000 or isinstance(translation(data), str):
            continue
        of = ways(library, f'vector {number} of judge', data, plan)
        ways_tried, losing = ways_tried + 1, losing + any(of.lost)
        if text.startswith('solved'):
            expect(f'vector {number} of judge', ['met' if met else 'missed' for met in of.met], OUTCOME.findall(text))
            expect(f'vector {number} of judge: metric', of.metric, int(text.split()[-3]))
    return ways_tried, losing


def main(option=None):
    library = route.Library()
    svg = route.drawn(library, *DRAWN)
    if option == '--write':
        with open(PICTURE, 'w') as out:
            out.write(svg)
    expect('docs/route.svg', svg, open(PICTURE).read())
    text = route.tool.text_of(DRAWN[0])
    for name in sorted(os.listdir(os.path.join(HOUSE, 'plans'))):
        plan = text.plan(open(os.path.join(HOUSE, 'plans', name)).read())
        of = ways(library, name, text.file(), plan)
        counted(name, of, route.drawn(library, DRAWN[0], os.path.join(HOUSE, 'plans', name)))
    for number, (what, data, plan, _) in enumerate(random_tasks(60, 29, SOFT + HARD)):
        if data[0] < 64:
            counted(what, ways(library, what, data, bytes(plan)), route.picture_of(route.way(library, data, bytes(plan)), what))
    most = file(f'GOAL ACTION {MOST} always {MOST} CLAUSE HOLDS 0 always {MOST} CLAUSE HOLDS 0', F=1)
    for names in [(), ('a_step_that_has_a_long_name',) * 9]:
        of = ways(library, 'the greatest amounts', most, bytes(9))
        counted('the greatest amounts', of, route.picture_of(of, 'a plan of nine steps at the greatest cost', (), names))
    stops = file('GOAL ACTION CLAUSE HOLDS 0', F=1)
    counted('a first step that stops', ways(library, 'stops', stops, b'\0'),
            route.picture_of(route.way(library, stops, b'\0'), 'a first step that stops', (), ('a_step_that_does_not_apply',)))
    sixteen = file('GOAL ACTION 1 EFFECT ADD 0' + ' sometime-before 3 CLAUSE HOLDS 0 SECOND CLAUSE LACKS 0 LACKS 1' * 16, F=2)
    ways(library, '16 rules with two conditions', sixteen, b'\0\0')
    ways_tried, losing = judged(library)
    assert ways_tried > 50 and losing > 10, (ways_tried, losing)
    for given, wanted in [((file(BELT, F=2)[:-1], b''), 'refused 3 0'), ((file(BELT, F=2), b'\2'), 'refused 11 0')]:
        try:
            got = route.way(library, *given)
        except route.Refused as why:
            got = 'refused %d %d' % why.args
        expect('a refusal', got, wanted)
    command = [os.path.join(ROOT, 'tools/route.py'), *DRAWN]
    expect('the command', subprocess.run(command, stdout=subprocess.PIPE, check=True).stdout.decode(), svg)
    print(f'tools/route.py: {ways_tried} ways of judge, {losing} of which lose a rule, those of the batch house and random ones, as they should be')


if __name__ == '__main__':
    main(*sys.argv[1:])
