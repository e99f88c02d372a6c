"""Which files and plans are refused, and by what: document 01 and requests 6, 8 and 9 of document 02, read sentence by sentence."""
import struct

from shared.files import NAME, OF_FACTS, PREFERENCES, SOFT, WITH_SECOND, WITH_STEPS


class Refused(Exception):
    """Number and place."""


class Rows:
    """The rows of a file, taken from the first to the last."""
    def __init__(self, facts, marks, values):
        self.facts, self.marks, self.values = facts, marks, values
        self.next, self.last_start = 0, -1

    def comes(self, *names):
        return self.next < len(self.marks) and self.marks[self.next] in names

    def allows(self, name, value):
        if name == 'ACTION' or name in SOFT:
            return True  # any number of 32 bits
        if name == 'STEPS':
            return value <= 15
        if name == 'START':
            return self.last_start < value < self.facts
        return value < self.facts if name in OF_FACTS else value == 0

    def take(self, *names):
        """Takes a row that has to come, with one of these marks and a value that the mark allows."""
        if not self.comes(*names):
            raise Refused(4, self.next)  # N where the rows have ended
        name, value = self.marks[self.next], self.values[self.next]
        if not self.allows(name, value):
            raise Refused(5, self.next)
        if name == 'START':
            self.last_start = value
        self.next += 1
        return name

    def take_any(self, *names):
        while self.comes(*names):
            self.take(*names)

    def condition(self):
        while self.comes('CLAUSE'):
            self.take('CLAUSE')
            self.take('HOLDS', 'LACKS')
            self.take_any('HOLDS', 'LACKS')

    def action(self):
        self.take('ACTION')
        self.condition()
        while self.comes('EFFECT'):
            self.take('EFFECT')
            self.condition()
            self.take_any('ADD')
            self.take_any('DELETE')

    def preference(self):
        kind = self.take(*PREFERENCES)
        if kind in WITH_STEPS:
            self.take('STEPS')
        self.condition()
        if kind in WITH_SECOND:
            self.take('SECOND')
            self.condition()

    def task(self):
        """Takes all rows, and answers how many actions and preferences they have."""
        actions, preferences = 0, 0
        self.take_any('START')
        self.take('GOAL')
        self.condition()
        while self.comes('ACTION'):
            self.action()
            actions += 1
        while self.comes(*PREFERENCES):
            self.preference()
            preferences += 1
        if self.next < len(self.marks):
            raise Refused(4, self.next)
        return actions, preferences


def check(data):
    """What check answers, as a line: accepted and the four sizes, or refused, number and place."""
    if len(data) < 8:
        return 'refused 1 0'
    f, a, p, n = struct.unpack('<4H', data[:8])
    if not (1 <= f <= 128 and a <= 128 and p <= 16 and n <= 12000):
        return 'refused 2 0'
    if len(data) != 8 + 5 * n:
        return 'refused 3 0'
    marks = [NAME.get(mark, 'none') for mark in data[8:8 + n]]
    try:
        counted = Rows(f, marks, struct.unpack(f'<{n}I', data[8 + n:])).task()
    except Refused as why:
        return 'refused %d %d' % why.args
    return f'accepted {f} {a} {p} {n}' if counted == (a, p) else f'refused 6 {n}'


def refusal(data, plan):
    """What walk refuses, a task or a plan, as a line; nothing where it gives a verdict."""
    line = check(data)
    if line.startswith('refused'):
        return line + '\n'
    if len(plan) > 2048:
        return 'refused 10 0\n'
    actions = int(line.split()[2])
    return next((f'refused 11 {i}\n' for i, step in enumerate(plan) if step >= actions), '')
