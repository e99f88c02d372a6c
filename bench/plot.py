#!/usr/bin/env python3
"""Draws how time grows, from the figures of one run: a panel for each operation and what grows, both axes logarithmic, so that a
straight line as steep as the grey one is growth in proportion. A size that may be 0 has a linear axis, and time begins at 0.

bench/plot.py FIGURES PICTURE     FIGURES is target/bench/growth.csv, PICTURE is written as SVG
"""
import csv
import math
import sys

WIDTH, COLUMNS = 984, 3
PANEL_WIDTH, PANEL_HEIGHT, LEFT, TOP, GAP_X, GAP_Y = 228, 170, 84, 86, 94, 92
NAMES = ['library', 'Rust', 'plain C']
# Colours that differ in grey too, a dash and a point for each.
STYLE = {'library': ('#111111', ''), 'Rust': ('#c2571a', '7 3'), 'plain C': ('#2a78c8', '2 3')}
UNITS = [(1e9, 's'), (1e6, 'ms'), (1e3, 'µs'), (1, 'ns')]


def panels(name):
    """The panels of a file of figures: operation, what grows, and for each name its points."""
    found = {}
    with open(name, newline='') as lines:
        for row in csv.DictReader(lines):
            points = found.setdefault((row['operation'], row['grows']), {of: [] for of in NAMES})
            for of in NAMES:
                points[of].append((int(row['size']), float(row[of])))
    return found


def shown(time):
    for size, unit in UNITS:
        if time >= size:
            return f'{time / size:g} {unit}'
    return f'{time:g} ns'


def counted(size):
    return f'{size:,}'


class Axis:
    """Maps a value to a place between `start` and `end`, both of which it keeps inside."""
    def __init__(self, low, high, start, end, logarithmic):
        self.scale = math.log10 if logarithmic else float
        self.low, self.high = self.scale(low), self.scale(high)
        self.start, self.end = start, end

    def at(self, value):
        return self.start + (self.scale(value) - self.low) / (self.high - self.low) * (self.end - self.start)


def steps(low, high, leaders):
    """The numbers leader × power of ten from `low` to `high`."""
    powers = range(math.floor(math.log10(low)), math.ceil(math.log10(high)) + 1)
    return [leader * 10.0 ** power for power in powers for leader in leaders if low <= leader * 10.0 ** power <= high]


def time_ticks(low, high):
    """Powers of ten where there are enough of them, else more numbers."""
    for leaders in ([1], [1, 3], [1, 2, 5]):
        if len(steps(low, high, leaders)) >= 3:
            break
    return steps(low, high, leaders)


def linear_ticks(high):
    """Up to six numbers from 0 on."""
    step = next(step for step in steps(high / 1000, high, [1, 2, 5]) if high / step < 6)
    return [step * n for n in range(int(high / step) + 1)]


def text(x, y, words, size=12, anchor='middle', more=''):
    return f'<text x="{x:.1f}" y="{y:.1f}" font-size="{size}" text-anchor="{anchor}"{more}>{words}</text>'


def upward(x, y, words):
    return text(x, y, words, 12, more=f' transform="rotate(-90 {x:.1f} {y:.1f})"')


def line(x1, y1, x2, y2, colour, width=1.0, dash=''):
    dashed = f' stroke-dasharray="{dash}"' if dash else ''
    return f'<line x1="{x1:.1f}" y1="{y1:.1f}" x2="{x2:.1f}" y2="{y2:.1f}" stroke="{colour}" stroke-width="{width}"{dashed}/>'


def mark(name, x, y):
    """A point: a disc, a square or a triangle."""
    colour = STYLE[name][0]
    if name == 'library':
        return f'<circle cx="{x:.1f}" cy="{y:.1f}" r="3.6" fill="{colour}"/>'
    if name == 'Rust':
        return f'<rect x="{x - 3.2:.1f}" y="{y - 3.2:.1f}" width="6.4" height="6.4" fill="{colour}"/>'
    return f'<path d="M{x:.1f} {y - 4.2:.1f} L{x + 4:.1f} {y + 3:.1f} L{x - 4:.1f} {y + 3:.1f} Z" fill="{colour}"/>'


def curve(name, points, across, up):
    colour, dash = STYLE[name]
    dashed = f' stroke-dasharray="{dash}"' if dash else ''
    places = [(across.at(size), up.at(time)) for size, time in points]
    path = ' '.join(f'{x:.1f},{y:.1f}' for x, y in places)
    drawn = [f'<polyline points="{path}" fill="none" stroke="{colour}" stroke-width="1.6"{dashed}/>']
    return drawn + [mark(name, x, y) for x, y in places]


def proportional(across, up, sizes, low, high):
    """The grey line of growth in proportion, from the lower left corner on as far as the panel goes."""
    factor = min(sizes[-1] / sizes[0], high / low)
    return line(across.at(sizes[0]), up.at(low), across.at(sizes[0] * factor), up.at(low * factor), '#bbbbbb', 1.4)


def panel(title, grows, points, x, y):
    sizes = [size for size, _ in points['library']]
    times = [time for of in NAMES for _, time in points[of]]
    logarithmic = min(sizes) > 0
    low, high = (min(times) / 1.5, max(times) * 1.5) if logarithmic else (0, max(times) * 1.2)
    across = Axis(sizes[0], sizes[-1], x + 12, x + PANEL_WIDTH - 12, logarithmic)
    up = Axis(low, high, y + PANEL_HEIGHT, y, logarithmic)
    drawn = [f'<rect x="{x}" y="{y}" width="{PANEL_WIDTH}" height="{PANEL_HEIGHT}" fill="none" stroke="#333333"/>',
             text(x, y - 10, title, 15, 'start', ' font-weight="bold"'),
             text(x + PANEL_WIDTH / 2, y + PANEL_HEIGHT + 36, grows), upward(x - 58, y + PANEL_HEIGHT / 2, 'time of one call')]
    for tick in time_ticks(low, high) if logarithmic else linear_ticks(high):
        drawn += [line(x, up.at(tick), x + PANEL_WIDTH, up.at(tick), '#e6e6e6'), text(x - 7, up.at(tick) + 4, shown(tick), 11.5, 'end')]
    for size in sizes:
        drawn += [line(across.at(size), y + PANEL_HEIGHT, across.at(size), y + PANEL_HEIGHT + 5, '#333333'),
                  text(across.at(size), y + PANEL_HEIGHT + 18, counted(size), 11.5)]
    if logarithmic:
        drawn.append(proportional(across, up, sizes, low, high))
    for name in NAMES:
        drawn += curve(name, points[name], across, up)
    return drawn


def legend():
    drawn, x = [], LEFT
    for name in NAMES:
        colour, dash = STYLE[name]
        drawn += [line(x, 30, x + 44, 30, colour, 1.6, dash), mark(name, x + 22, 30), text(x + 54, 34, name, 14, 'start')]
        x += 150
    return drawn + [line(x, 38, x + 44, 22, '#bbbbbb', 1.4), text(x + 54, 34, 'growth in proportion', 14, 'start')]


def picture(found):
    rows = -(-len(found) // COLUMNS)
    height = TOP + rows * (PANEL_HEIGHT + GAP_Y) - GAP_Y + 52
    drawn = [f'<svg xmlns="http://www.w3.org/2000/svg" width="{WIDTH}" height="{height}" viewBox="0 0 {WIDTH} {height}"'
             ' font-family="DejaVu Sans, Helvetica, Arial, sans-serif" fill="#111111">',
             '<title>How the time of each operation grows with rows and steps</title>',
             f'<rect width="{WIDTH}" height="{height}" fill="#ffffff"/>', *legend()]
    for number, ((operation, grows), points) in enumerate(found.items()):
        x = LEFT + number % COLUMNS * (PANEL_WIDTH + GAP_X)
        y = TOP + number // COLUMNS * (PANEL_HEIGHT + GAP_Y)
        drawn += panel(operation, grows, points, x, y)
    return '\n'.join(drawn + ['</svg>', ''])


def main(figures, name):
    with open(name, 'w') as out:
        out.write(picture(panels(figures)))


if __name__ == '__main__':
    main(*sys.argv[1:])
