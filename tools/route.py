#!/usr/bin/env python3
"""Draws the way of a plan: a column for each state, a row for each rule, and along the bottom what it costs and what is lost.

tools/route.py TASK PLAN > route.svg

TASK is a task file, or where its name ends in .txt the text of one, as tools/task.py reads it; PLAN is then a text too, names or numbers
of the actions, and else a byte for each step. Needs gcc, and what `tools/staticlib` wrote.

Everything that is drawn is what the library answers. Which conditions hold in a state is asked by tasks made for that: the same facts and
actions, no goal, and rules at-end φ and at-end ψ, walked up to the state. Which rules are lost is asked with the rule's own bit for a
weight, after the steps up to the state and end, which leaves it; hard rules are asked as soft ones, and are drawn as broken. So a task
that can't be translated is refused, and so is a plan of more than 2,047 steps.
"""
import ctypes
import math
import os
import struct
import subprocess
import sys
from collections import namedtuple
from xml.sax.saxutils import escape

ROOT = os.path.dirname(os.path.dirname(os.path.abspath(__file__)))
sys.dont_write_bytecode = True
sys.path.insert(0, os.path.join(ROOT, 'tools'))
import task as tool

ARCHIVE = os.path.join(ROOT, 'crates/route_rules/out/libroute_rules.a')
SHARED = os.path.join(ROOT, 'target/route/libroute_rules.so')
SOLVED, STOPPED, GOAL_MISSED, RULE_MISSED = 1, 2, 3, 4
MOST_RULES = 16


# ---- the library

class Refused(Exception):
    """Number and place."""


class Library:
    """The functions for C, from the static library as a shared one."""
    def __init__(self):
        if not os.path.exists(ARCHIVE):
            raise tool.Wrong('no library yet: tools/staticlib')
        if not os.path.exists(SHARED) or os.path.getmtime(SHARED) < os.path.getmtime(ARCHIVE):
            os.makedirs(os.path.dirname(SHARED), exist_ok=True)
            subprocess.run(['gcc', '-shared', '-o', SHARED, '-Wl,--whole-archive', ARCHIVE, '-Wl,--no-whole-archive'], check=True)
        self.functions = ctypes.CDLL(SHARED)

    def call(self, name, *given):
        """The words of the answer; areas are bytes, numbers are of 64 bits."""
        words, arguments = (ctypes.c_uint64 * 8)(), []
        for value in given:
            arguments += [value, ctypes.c_size_t(len(value))] if isinstance(value, bytes) else [ctypes.c_uint64(value)]
        number = getattr(self.functions, f'route_rules_{name}')(*arguments, words)
        if number:
            raise Refused(number, words[0])
        return list(words)


# ---- tasks made from a task

Rule = namedtuple('Rule', 'kind weight steps phi psi')  # conditions as rows


def parts(data):
    """The sizes of a task file, its START rows, the rows of its actions, and its rules."""
    sizes, rows = tool.rows_of(data)
    names = [name for name, _ in rows]
    goal = names.index('GOAL')
    actions = names.index('ACTION') if 'ACTION' in names else len(rows)
    opens = [i for i, name in enumerate(names) if name in tool.PREFERENCES] + [len(rows)]
    actions = min(actions, opens[0])
    return sizes, rows[:goal], rows[actions:opens[0]], [rule_of(rows[a:b]) for a, b in zip(opens, opens[1:])]


def rule_of(rows):
    (kind, weight), *rest = rows
    steps = rest.pop(0)[1] if rest and rest[0][0] == 'STEPS' else None
    second = [name for name, _ in rest].index('SECOND') if ('SECOND', 0) in rest else len(rest)
    return Rule(kind, weight, steps, rest[:second], rest[second + 1:] if second < len(rest) else None)


def rule_rows(rule):
    steps = [] if rule.steps is None else [('STEPS', rule.steps)]
    return [(rule.kind, rule.weight), *steps, *rule.phi] + ([] if rule.psi is None else [('SECOND', 0), *rule.psi])


def file_of(facts, rows):
    names = [name for name, _ in rows]
    sizes = (facts, names.count('ACTION'), sum(name in tool.PREFERENCES for name in names), len(rows))
    return struct.pack('<4H', *sizes) + bytes(tool.MARK[name] for name in names) + b''.join(struct.pack('<I', value) for _, value in rows)


def with_rules(data, rules):
    """The task with other rules, and without its goal."""
    sizes, starts, actions, _ = parts(data)
    return file_of(sizes[0], starts + [('GOAL', 0)] + actions + [row for rule in rules for row in rule_rows(rule)])


# ---- what the library says of a plan

# rules; the states drawn, up to one that a step does not leave; phi, psi and lost by rule and state, cost and lost weights by state;
# the met rules where no step stops; the words of walk, and the metric of a plan that solves
Way = namedtuple('Way', 'rules states phi psi is_lost cost lost met walked metric')


def holding(library, data, conditions, plan):
    """Which of the conditions hold in the last state of a plan that does not stop."""
    found = []
    for at in range(0, len(conditions), MOST_RULES):
        some = conditions[at:at + MOST_RULES]
        asked = with_rules(data, [Rule('at-end', 1, None, condition, None) for condition in some])
        met = library.call('walk', asked, plan)[4]
        found += [bool(met >> k & 1) for k in range(len(some))]
    return found


def way(library, data, plan):
    library.call('check', data)
    sizes, _, _, rules = parts(data)
    walked = library.call('walk', data, plan)
    states = (walked[2] if walked[1] == STOPPED else len(plan)) + 1
    end = bytes([sizes[1]])
    soft = [rule._replace(kind=rule.kind.removeprefix('hard-'), weight=1 << k) for k, rule in enumerate(rules)]
    bits = with_rules(data, soft)
    columns = [library.call('lost', data, plan[:i] + end) for i in range(states)]
    lost = [library.call('lost', bits, plan[:i] + end)[4] for i in range(states)]
    phi = [holding(library, data, [rule.phi for rule in rules], plan[:i]) for i in range(states)]
    second = [k for k, rule in enumerate(rules) if rule.psi is not None]
    psi = [dict(zip(second, holding(library, data, [rules[k].psi for k in second], plan[:i]))) for i in range(states)]
    met = None
    if walked[1] != STOPPED:
        bits_met = library.call('walk', bits, plan)[4]
        met = [bool(bits_met >> k & 1) for k in range(len(rules))]
    metric = library.call('settle', data, walked[3], walked[4])[1] if walked[1] == SOLVED else None
    by_rule = range(len(rules))
    return Way(rules, states, [[state[k] for state in phi] for k in by_rule], [[state.get(k) for state in psi] for k in by_rule],
               [[bool(bit >> k & 1) for bit in lost] for k in by_rule], [words[3] for words in columns], [words[4] for words in columns],
               met, walked, metric)


# ---- words

def literal_words(name, fact, facts):
    return ('not ' if name == 'LACKS' else '') + tool.name_of(fact, facts)


def condition_words(rows, facts):
    """A condition in words: its clauses with `and` between them, their literals with `or`."""
    clauses = []
    for name, value in rows:
        if name == 'CLAUSE':
            clauses.append([])
        else:
            clauses[-1].append(literal_words(name, value, facts))
    several = len(clauses) > 1
    words = [f'({" or ".join(clause)})' if several and len(clause) > 1 else ' or '.join(clause) for clause in clauses]
    return ' and '.join(words) or 'true'


def shortened(words, most):
    return words if len(words) <= most else words[:most - 1] + '…'


def verdict_words(of):
    verdict, step = of.walked[1:3]
    if verdict == SOLVED:
        return f'solved, cost {of.walked[3]}, metric {of.metric}'
    return {STOPPED: f'stopped at step {step}', GOAL_MISSED: 'goal missed', RULE_MISSED: f'hard rule {step} missed'}[verdict]


# ---- the picture

LABEL, COLUMN, OUTCOME, TOP, LINE, MARGIN = 340, 58, 92, 150, 17, 16
LETTERS, TITLE, LOSS, TILT = 12, 16, 10.5, 38  # the sizes of letters, and the slope of the actions' names in degrees
INK, PALE, GRID = '#1a1a1a', '#6b6b6b', '#b8b8b8'
MET, MISSED, LOST = '#d5ead9', '#f0b35a', '#f7ddd3'  # in print: nearly white, a mid grey, and light grey with lines


class Picture:
    def __init__(self):
        self.parts = []

    def add(self, tag, content=None, **attributes):
        words = ''.join(f' {name.replace("_", "-")}="{value}"' for name, value in attributes.items())
        self.parts.append(f'<{tag}{words}/>' if content is None else f'<{tag}{words}>{content}</{tag}>')

    def text(self, x, y, words, **attributes):
        self.add('text', escape(words), x=x, y=y, **attributes)

    def box(self, x, y, width, height, fill='none', **attributes):
        self.add('rect', x=x, y=y, width=width, height=height, fill=fill, **attributes)

    def dot(self, x, y, full):
        """A full dot where a condition is true, an empty one where it is false."""
        self.add('circle', cx=x, cy=y, r=4.5, fill=INK if full else 'white', stroke=INK, stroke_width=1.2)


def heights(rules):
    return [(2 if rule.psi is None else 3) * LINE + 10 for rule in rules]


def wide(words, size=LETTERS):
    """About what words take, and rather more: most letters and all digits of DejaVu Sans are narrower."""
    return len(words) * size * 0.65


def bounds(of):
    return [cost + lost for cost, lost in zip(of.cost, of.lost)]


def loss_words(rule):
    return 'broken' if rule.kind.startswith('hard-') else f'lost {rule.weight}'


def step_words(of, names):
    """The names of the steps from the states that are drawn; where a plan stops, the last one does not apply."""
    return [name + (' (does not apply)' if i == of.states - 1 else '') for i, name in enumerate(names[:of.states])]


# How wide a column is, which row the rules begin at, and how wide the picture is: amounts, names and title have room.
Frame = namedtuple('Frame', 'column top width')


def frame_of(of, title, steps):
    amounts = [wide(str(amount)) for amount in [*of.cost, *of.lost, *bounds(of)]]
    losses = [wide(loss_words(rule), LOSS) for rule, lost in zip(of.rules, of.is_lost) if any(lost)]
    column = max(COLUMN, math.ceil(max(amounts + losses)) + 6)
    up, along = math.sin(math.radians(TILT)), math.cos(math.radians(TILT))
    top = max(TOP, math.ceil(max((wide(words) * up for words in steps), default=0)) + 60)
    ends = [MARGIN + LABEL + column * i + math.ceil(wide(words) * along) for i, words in enumerate(steps, 1)]
    outcomes = MARGIN + LABEL + column * of.states + 10 + OUTCOME
    return Frame(column, top, max(outcomes, MARGIN + math.ceil(wide(title, TITLE)), *ends) + MARGIN)


def draw_head(picture, of, frame, title, steps):
    picture.text(MARGIN, 26, title, font_size=TITLE, font_weight='bold')
    picture.text(MARGIN, 46, verdict_words(of), font_size=13)
    picture.dot(MARGIN + 5, 66, True)
    picture.text(MARGIN + 15, 70, 'true')
    picture.dot(MARGIN + 55, 66, False)
    picture.text(MARGIN + 65, 70, 'false')
    for x, fill, words in [(MARGIN + 110, MET, 'met'), (MARGIN + 165, MISSED, 'missed'), (MARGIN + 240, 'url(#lost)', 'already lost')]:
        picture.box(x, 58, 18, 15, fill, stroke=GRID)
        picture.text(x + 24, 70, words)
    for i in range(of.states):
        x = MARGIN + LABEL + frame.column * i
        picture.text(x + frame.column / 2, frame.top - 8, str(i), text_anchor='middle', font_weight='bold')
        if i < len(steps):
            at = (x + frame.column - 6, frame.top - 22)
            picture.text(*at, steps[i], transform=f'rotate({-TILT} {at[0]} {at[1]})', fill=PALE if i == of.states - 1 else INK)
    picture.text(MARGIN + LABEL - 10, frame.top - 8, 'state', text_anchor='end', fill=PALE)


def draw_rule(picture, of, frame, k, y, height, facts):
    """A rule's label, its cells, and where no step stops its outcome."""
    rule, right = of.rules[k], MARGIN + LABEL
    steps = '' if rule.steps is None else f' {rule.steps}'
    weight = 'must hold' if rule.kind.startswith('hard-') else f'weight {rule.weight}'
    picture.text(MARGIN, y + LINE, f'{k}  {rule.kind}{steps}', font_weight='bold')
    picture.text(right - 10, y + LINE, weight, text_anchor='end')
    conditions = [('φ', rule.phi, of.phi[k])] + ([] if rule.psi is None else [('ψ', rule.psi, of.psi[k])])
    for line, (letter, condition, _) in enumerate(conditions, 2):
        picture.text(MARGIN + 18, y + line * LINE, shortened(f'{letter}  {condition_words(condition, facts)}', 46), fill=PALE)
    for i in range(of.states):
        x, lost = right + frame.column * i, of.is_lost[k][i]
        picture.box(x, y, frame.column, height, 'url(#lost)' if lost else 'white', stroke=GRID)
        if lost and not (i and of.is_lost[k][i - 1]):
            picture.text(x + frame.column / 2, y + LINE - 3, loss_words(rule), text_anchor='middle', font_weight='bold', font_size=LOSS,
                         paint_order='stroke', stroke='white', stroke_width=3)
        for line, (_, _, truth) in enumerate(conditions, 2):
            picture.dot(x + frame.column / 2, y + line * LINE - 4, truth[i])
    if of.met is not None:
        x = right + frame.column * of.states + 10
        picture.box(x, y, OUTCOME, height, MET if of.met[k] else MISSED, stroke=GRID)
        picture.text(x + OUTCOME / 2, y + height / 2 + 4, 'met' if of.met[k] else 'missed', text_anchor='middle', font_weight='bold')


def draw_sums(picture, of, frame, y):
    for line, (words, sums) in enumerate([('cost so far', of.cost), ('lost so far', of.lost), ('metric at least, whatever follows', bounds(of))]):
        top = y + line * (LINE + 6)
        picture.text(MARGIN, top + LINE, words, font_weight='bold')
        for i, amount in enumerate(sums):
            x = MARGIN + LABEL + frame.column * i
            picture.box(x, top, frame.column, LINE + 6, '#efefef' if line == 2 else 'white', stroke=GRID)
            picture.text(x + frame.column / 2, top + LINE - 1, str(amount), text_anchor='middle', font_size=LETTERS)


def picture_of(of, title, facts=(), names=()):
    """The SVG."""
    steps = step_words(of, names)
    frame = frame_of(of, title, steps)
    picture, y = Picture(), frame.top
    draw_head(picture, of, frame, title, steps)
    for k, height in enumerate(heights(of.rules)):
        draw_rule(picture, of, frame, k, y, height, facts)
        y += height
    draw_sums(picture, of, frame, y + 14)
    width, height = frame.width, y + 14 + 3 * (LINE + 6) + MARGIN
    hatch = (f'<defs><pattern id="lost" width="7" height="7" patternUnits="userSpaceOnUse" patternTransform="rotate(45)"><rect width="7" height="7" '
             f'fill="{LOST}"/><line x1="0" y1="0" x2="0" y2="7" stroke="#b3472a" stroke-width="1.6"/></pattern></defs>')
    body = '\n'.join(picture.parts)
    return (f'<svg xmlns="http://www.w3.org/2000/svg" width="{width}" height="{height}" viewBox="0 0 {width} {height}" '
            f'font-family="DejaVu Sans, Verdana, sans-serif" font-size="{LETTERS}" fill="{INK}">\n{hatch}\n'
            f'<rect width="{width}" height="{height}" fill="white"/>\n{body}\n</svg>\n')


def drawn(library, task_name, plan_name):
    """The picture of two files."""
    data, plan, facts = tool.read(task_name), tool.read(plan_name), []
    names = [f'a{step}' for step in plan]
    if task_name.endswith('.txt'):
        text = tool.Text(data.decode())
        data, plan, facts = text.file(), text.plan(plan.decode()), text.facts
        names = [text.actions[step] or f'a{step}' if step < len(text.actions) else str(step) for step in plan]
    title = f'{os.path.basename(plan_name)}: the way of a plan, and its rules'
    return picture_of(way(library, data, plan), title, facts, names)


if __name__ == '__main__':
    if len(sys.argv) != 3:
        sys.exit(__doc__)
    try:
        sys.stdout.write(drawn(Library(), *sys.argv[1:]))
    except Refused as why:
        sys.exit('refused %d %d' % why.args)
    except (tool.Wrong, OSError, UnicodeError, struct.error) as why:
        sys.exit(f'{why}')
