#!/usr/bin/env python3
"""Task files and plans as text that people write, and back.

tools/task.py make TEXT             writes the task file of a text to standard output
tools/task.py show FILE [TEXT]      writes a task file as text, with the names that TEXT gives
tools/task.py plan TEXT STEPS       writes the plan of a text: names or numbers of the actions of TEXT
tools/task.py plans TEXT STEPS..    writes the file of a week's plans, each of them a text, one after the other
tools/task.py source TEXT PLANNED   writes the source part of what a planner prints for the translation, a line `(aN)` for each step

A text has a row on each line: the documents' name of the mark, then its value; a value that is 0 may be left out. A rule that must
hold is its kind with `hard-` before it. '#' starts a comment. FACTS and their names, or FACTS and how many, come first; a fact is then
named or numbered. After the cost of an ACTION a name for it may stand. Costs and weights go up to 4294967295, as all values do. Sizes are
counted. Nothing else is looked at: whether it is a task is for check to say.
"""
import re
import struct
import sys

MARKS = ['ACTION', 'EFFECT', 'CLAUSE', 'HOLDS', 'LACKS', 'ADD', 'DELETE', 'GOAL', 'START', 'always', 'sometime', 'at-end',
         'at-most-once', 'sometime-before', 'sometime-after', 'SECOND', 'within', 'always-within', 'STEPS']
MARK = {name: mark for mark, name in enumerate(MARKS, 1)}
OF_FACTS = ['HOLDS', 'LACKS', 'ADD', 'DELETE', 'START']
SOFT = MARKS[9:15] + MARKS[16:18]
MARK.update((f'hard-{name}', MARK[name] + 16) for name in SOFT)
NAME = {mark: name for name, mark in MARK.items()}
PREFERENCES = SOFT + [f'hard-{name}' for name in SOFT]
STEP = re.compile(r'\(a(0|[1-9][0-9]*)\)')
MOST = 2 ** 32 - 1  # the greatest value of a row, and so the greatest cost and weight
# How far the rows are set in; an EFFECT's condition stands deeper than a precondition.
DEPTH = {'EFFECT': 1, 'CLAUSE': 1, 'HOLDS': 2, 'LACKS': 2, 'ADD': 2, 'DELETE': 2, 'SECOND': 1, 'STEPS': 1}


class Wrong(Exception):
    """A text or a file that can not be turned over, and why."""


def lines(text):
    """The words of each line that has any."""
    for number, line in enumerate(text.split('\n'), 1):
        words = line.split('#')[0].split()
        if words:
            yield number, words


def number_of(word, names):
    if word.isdigit():
        return int(word)
    if word not in names:
        raise Wrong(f'unknown name {word}')
    return names.index(word)


class Text:
    """The facts, the rows and the actions' names of a text."""
    def __init__(self, text):
        self.facts, self.count, self.rows, self.actions = [], 0, [], []
        for number, (name, *words) in lines(text):
            try:
                self.take(name, words)
            except Wrong as why:
                raise Wrong(f'line {number}: {why}')

    def take(self, name, words):
        if name == 'FACTS':
            self.declare(words)
        elif name in MARK:
            self.row(name, words)
        else:
            raise Wrong(f'unknown mark {name}')

    def declare(self, words):
        if len(words) == 1 and words[0].isdigit():
            self.count = int(words[0])
        else:
            self.facts += words
            self.count = len(self.facts)
        if len(set(self.facts)) < len(self.facts) or any(name.isdigit() for name in self.facts):
            raise Wrong('a fact named twice, or by a number')

    def row(self, name, words):
        value, *rest = words or ['0']
        if len(rest) > (name == 'ACTION'):
            raise Wrong('too many words')
        value = number_of(value, self.facts if name in OF_FACTS else [])
        if value > MOST:
            raise Wrong(f'a value over {MOST}')
        self.rows.append((name, value))
        if name == 'ACTION':
            self.actions.append(rest[0] if rest else None)

    def file(self):
        names = [name for name, _ in self.rows]
        sizes = (self.count, names.count('ACTION'), sum(name in PREFERENCES for name in names), len(names))
        marks = bytes(MARK[name] for name in names)
        return struct.pack('<4H', *sizes) + marks + b''.join(struct.pack('<I', value) for _, value in self.rows)

    def plan(self, text):
        steps = [number_of(word, self.actions) for _, words in lines(text) for word in words]
        if any(step > 255 for step in steps):
            raise Wrong('a step is one byte')
        return bytes(steps)

    def source(self, planned):
        """The steps of a planner's lines that are actions of this text; comments begin with a semicolon."""
        steps = []
        for number, line in enumerate(planned.splitlines(), 1):
            step = STEP.fullmatch(line)
            if not step and line[:1] != ';':
                raise Wrong(f'line {number}: no step and no comment')
            steps += [int(step[1])] if step else []
        return bytes(step for step in steps if step < len(self.actions))


def rows_of(data):
    """The sizes and rows of a file whose sizes are those that its rows have."""
    sizes = struct.unpack('<4H', data[:8]) if len(data) >= 8 else (0, 0, 0, 0)
    n = sizes[3]
    if len(data) != 8 + 5 * n:
        raise Wrong('not the length of a task file')
    if any(mark not in NAME for mark in data[8:8 + n]):
        raise Wrong('a mark that has no name')
    names = [NAME[mark] for mark in data[8:8 + n]]
    if sizes[1:3] != (names.count('ACTION'), sum(name in PREFERENCES for name in names)):
        raise Wrong('other sizes than the rows have')
    return sizes, list(zip(names, struct.unpack(f'<{n}I', data[8 + n:])))


def name_of(fact, names):
    return names[fact] if fact < len(names) else str(fact)


def words_of(name, value, facts, actions):
    """A row in words; `actions` are the names of the actions from here on."""
    if name in OF_FACTS:
        return [name, name_of(value, facts)]
    if name == 'ACTION':
        return [name, str(value)] + [given for given in actions[:1] if given]
    return [name, str(value)] if value or name == 'STEPS' or name in SOFT else [name]


def show(data, text=None):
    sizes, rows = rows_of(data)
    facts = text.facts if text and len(text.facts) == sizes[0] else []
    actions = text.actions if text else []
    out, in_effect = ['FACTS ' + (' '.join(facts) or str(sizes[0]))], False
    for name, value in rows:
        in_effect = name in DEPTH and (in_effect or name == 'EFFECT')
        deeper = in_effect and name in ('CLAUSE', 'HOLDS', 'LACKS')
        out.append('  ' * (DEPTH.get(name, 0) + deeper) + ' '.join(words_of(name, value, facts, actions)))
        actions = actions[1:] if name == 'ACTION' else actions
    return '\n'.join(out) + '\n'


def week(plans):
    """The file of plans that stand one after the other: a count, starts and lengths, 16 bits each, and the steps."""
    starts = [sum(map(len, plans[:number])) for number in range(len(plans))]
    return struct.pack(f'<{1 + 2 * len(plans)}H', len(plans), *starts, *map(len, plans)) + b''.join(plans)


def read(name):
    with open(name, 'rb') as file:
        return file.read()


def text_of(name):
    return Text(read(name).decode())


def main(command, first, second=None, *others):
    if command == 'plans' and second:
        text = text_of(first)
        return week([text.plan(read(name).decode()) for name in (second, *others)])
    if others:
        raise Wrong(__doc__)
    if command == 'make':
        return text_of(first).file()
    if command == 'plan':
        return text_of(first).plan(read(second).decode())
    if command == 'source':
        return text_of(first).source(read(second).decode())
    if command == 'show':
        return show(read(first), text_of(second) if second else None).encode()
    raise Wrong(__doc__)


if __name__ == '__main__':
    if len(sys.argv) < 3:
        sys.exit(__doc__)
    try:
        sys.stdout.buffer.write(main(*sys.argv[1:]))
    except (Wrong, OSError, UnicodeError, struct.error) as why:
        sys.exit(f'{why}')
