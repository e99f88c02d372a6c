#!/usr/bin/env python3
"""Writes the fuzzer's first inputs: every refusal of every operation, every verdict, every form of a row and of a line.

fuzz/seeds.py FOLDER
"""
import os
import random
import sys

ROOT = os.path.dirname(os.path.dirname(os.path.abspath(__file__)))
sys.path[:0] = [os.path.join(ROOT, 'tests'), os.path.join(ROOT, 'tools')]
from shared.files import BELT, PREFERENCES, file, preference, spelled
import task

# The choices, and the modes of a room, as fuzz/inputs.c reads them.
AT_END_OF_PAGE, MADE_FILE, ANY_STEPS, CUT_MET, MADE_TEXT, TASK_FILE = 1, 2, 4, 8, 16, 32
BYTE_SHORT, SMALL, EXACT, MORE = 0, 1, 2, 3
LONG_PLAN, LONGEST_PLAN = 253, 252  # 2,049 steps and 2,048
FILLED, CUT, BOTH = 15, 14, 13      # a text is filled up, loses its last byte, or both

WHOLE = (3, 0, 0, 32, 0, 32, 0, 0)  # the whole plan twice, and one without steps


def seed(data, plan=b'\0', text=b'(a0)\n', choice=0, room=EXACT, limit=(2, 4, 0), cost=(0, 3), met=(2, 0, 255), how=0, steps=None,
         week=WHOLE, more=()):
    """An input: a file, a plan (`steps` is the byte of its length), a text, a week's plans, what follows the plan in a list of translated
    actions, and what else fuzz/inputs.c reads."""
    rooms = [room] * 9 if isinstance(room, int) else room
    return bytes([choice, *rooms, *limit, *cost, *met, len(plan) if steps is None else steps, *plan, how, len(text), *text, *week,
                  len(more), *more]) + data


def made(rows, facts, repeat=0):
    """The bytes from which fuzz/inputs.c makes a file: rows, or rows in words, each literal 256 times where `repeat` is 255, 64 times
    where it is 63."""
    rows = spelled(rows) if isinstance(rows, str) else rows
    return bytes([facts - 1, 0, repeat]) + bytes(byte for mark, value in rows for byte in (mark, min(value, 250)))


def text_of(plan):
    return b''.join(b'(a%d)\n' % step for step in plan)


def examples():
    """The examples' tasks; the batch house with its plans, and their texts."""
    for name in ('belt', 'batch_house'):
        folder = os.path.join(ROOT, 'examples', name)
        words = task.Text(open(os.path.join(folder, 'task.txt')).read())
        rows = made([(task.MARK[name], value) for name, value in words.rows], words.count)
        for end in (0, AT_END_OF_PAGE):
            yield seed(words.file(), choice=end)
            yield seed(words.file(), choice=end, room=BYTE_SHORT, plan=b'\3\4\3', text=b'(a3)\n(a4)\n(a3)\n')
            yield seed(rows, choice=MADE_FILE + end)
    for name in sorted(os.listdir(os.path.join(folder, 'plans'))):
        plan = words.plan(open(os.path.join(folder, 'plans', name)).read())
        yield seed(words.file(), plan=plan, text=text_of(plan))
        yield seed(rows, plan=plan, text=plan, choice=MADE_FILE + MADE_TEXT)


def refusals():
    """Each refusal of a file, and those of the operations."""
    belt = file(BELT, F=2)
    yield from (seed(data) for data in (
        belt[:7], file(BELT, F=0), file(BELT, F=129), belt + b'\0', file('GOAL CLAUSE'), file('GOAL START'), file('START'),
        file('GOAL CLAUSE HOLDS 4'), file('START 1 START 1 GOAL'), file(BELT, F=2, A=3), file(BELT, F=2, P=1)))
    yield seed(file('GOAL', F=126))                                              # 7
    yield seed(file('GOAL', F=127))
    for actions in (127, 128):
        yield seed(made('GOAL' + ' ACTION 1' * actions, 1), choice=MADE_FILE)
    yield seed(file('GOAL' + preference('always', 1) * 16, F=79))
    for effects in (81, 82, 83):                                                 # 8: 11,918 rows in the translation, and so many more
        rows = 'GOAL' + ' ACTION 1' * 22 + ' EFFECT' * effects + ' always 1 CLAUSE HOLDS 0'
        yield seed(made(rows, 2, repeat=255), choice=MADE_FILE)
    yield seed(made('GOAL CLAUSE' + ' LACKS 127' * 47, 128, repeat=255), choice=MADE_FILE)  # 12,000 rows
    for room in (BYTE_SHORT, SMALL, MORE, EXACT):                                # 9 and 14
        yield seed(belt, room=room)
        yield seed(file('GOAL', F=1), room=room)
    yield seed(file('GOAL ACTION 3', F=1), room=[EXACT] * 6 + [BYTE_SHORT] + [EXACT] * 2)
    yield seed(file('GOAL ACTION 3', F=1), room=[EXACT] * 5 + [BYTE_SHORT] + [EXACT] * 3)
    yield seed(belt, plan=b'\0' * 8, steps=LONG_PLAN)                            # 10
    yield seed(belt, plan=b'\0' * 8, steps=LONGEST_PLAN)
    yield seed(belt, plan=b'\0\2', text=b'(a0)\n(a2)\n')                         # 11
    yield seed(belt, cost=(2, 128))                                              # 15: the limit, and one more
    yield seed(belt, cost=(2, 129))
    yield seed(belt, met=(4, 0, 255))
    yield seed(belt, met=(3, 0, 63))
    yield seed(belt, met=(255, 255, 255), choice=CUT_MET)


def texts():
    """Lines of every form, numbers of every length, and texts and plans at their limits."""
    belt = file(BELT, F=2)
    yield from (seed(belt, text=text) for text in (
        b'', b'\n', b';\n', b';', b'; (a0)\n(a1)\n', b'(a0)\n;\n(a0)\n(a1)', b'(a)\n', b'(a01)\n', b'(a0\n', b'(a1))\n', b'(b1)\n',
        b'a1)\n', b'(a1)\r\n', b'(a1) \n', b'(a:)\n', b'(a/)\n',
        b'(a9)\n(a10)\n(a99)\n(a100)\n(a254)\n(a255)\n(a256)\n(a2560)\n(a99999999999999999999)\n'))
    for byte in range(192, 224):                                                 # the odd lines, after good ones
        yield seed(belt, text=bytes([1, 160, byte]), choice=MADE_TEXT)
    for how in range(16):
        yield seed(belt, text=bytes([1, 160, 2]), choice=MADE_TEXT, how=FILLED + 16 * how)
        yield seed(belt, text=bytes([1, 160, 2]), choice=MADE_TEXT, how=BOTH + 16 * how)
    yield seed(belt, text=b'\1\2', choice=MADE_TEXT, how=CUT)
    for steps in (b'\0\x09\x0a\x63\x64\xff', bytes(range(98, 106)), b''):
        for room in (EXACT, BYTE_SHORT):
            yield seed(belt, plan=steps, choice=ANY_STEPS, room=room)


def kinds():
    """Each kind, soft and hard, met and missed, with conditions of every form."""
    condition = 'CLAUSE HOLDS 0 CLAUSE LACKS 1 HOLDS 2'
    actions = ' ACTION 3 EFFECT ADD 0 DELETE 1 ACTION 1000000 CLAUSE HOLDS 0 EFFECT CLAUSE HOLDS 0 LACKS 2 ADD 1 ADD 2 DELETE 0 EFFECT'
    for kind in PREFERENCES:
        for phi, psi in ((condition, 'CLAUSE HOLDS 1'), ('CLAUSE HOLDS 1', condition), ('', 'CLAUSE LACKS 0')):
            rows = 'START 1 START 2 GOAL CLAUSE LACKS 3' + actions + preference(kind, 250000, phi, psi, steps=1) * 2
            yield seed(file(rows), plan=b'\0\1', text=b'(a0)\n(a1)\n')
            for plan in (b'', b'\0', b'\0\1', b'\0\1\0', b'\1', b'\0\1\0\1\0'):
                yield seed(made(rows, 4), plan=plan, text=plan, choice=MADE_FILE + MADE_TEXT)
    yield seed(file('GOAL CLAUSE HOLDS 1' + actions), plan=b'\0')                # goal missed


def values():
    """Of each mark the greatest value, and one more; a fact that is added and deleted."""
    start = 'START 1 GOAL CLAUSE HOLDS 1'
    edges = [f'{start} {mark} {amount}' for mark in ('ACTION', 'always') for amount in (1000000, 1000001, 2 ** 32 - 1)]
    edges += ['GOAL 1', 'START 4 GOAL']
    edges += [f'{start} {row}' for row in ('LACKS 3', 'LACKS 4', 'CLAUSE 1 HOLDS 1', 'ACTION EFFECT 1', 'ACTION EFFECT ADD 4',
                                           'ACTION EFFECT DELETE 4', 'hard-always 1', 'sometime-before 1 SECOND 1')]
    edges += [f'{start} {kind} STEPS {steps} {rest}' for steps in (15, 16)
              for kind, rest in (('within', ''), ('hard-always-within', 'SECOND'))]
    edges += [f'{start} ACTION EFFECT ADD 0 DELETE 0', f'{start} ACTION EFFECT DELETE 0 EFFECT ADD 0']
    for rows in edges:
        yield seed(file(rows))


def spellings():
    """Lists in every order, with repeats, facts on both sides of a word's end, and areas on both sides of the new length."""
    literals = ' LACKS 127 HOLDS 127 LACKS 64 HOLDS 63 HOLDS 0 LACKS 63 LACKS 0 HOLDS 127 HOLDS 64 LACKS 127'
    facts = ' ADD 127 ADD 64 ADD 63 ADD 127 ADD 0 DELETE 64 DELETE 127 DELETE 0 DELETE 63 DELETE 64'
    rows = f'GOAL CLAUSE {literals} CLAUSE HOLDS 1 HOLDS 1 ACTION 2 CLAUSE {literals} EFFECT CLAUSE {literals} {facts} EFFECT ADD 1 DELETE 1'
    for room in (BYTE_SHORT, SMALL, EXACT, MORE):
        yield seed(file(rows + f' always-within 7 STEPS 2 CLAUSE {literals} SECOND CLAUSE {literals}', F=128), room=room)
        yield seed(file('GOAL CLAUSE HOLDS 1 LACKS 1 HOLDS 0 CLAUSE LACKS 2 HOLDS 2 LACKS 2'), room=room)


def choices():
    """Effects with 64 choices and with 65, in the first effect and in the last; 12,000 rows with single literals, and 12,001."""
    def wide(*lengths):
        return ' EFFECT' + ''.join(' CLAUSE' + ' HOLDS 1 LACKS 0 HOLDS 2 LACKS 3 HOLDS 0'[:8 * length] if length < 6 else
                                   ' CLAUSE' + ' LACKS 2' * length for length in lengths) + ' ADD 3 ADD 0 DELETE 1'

    for room in (BYTE_SHORT, SMALL, EXACT, MORE):
        rows = 'START 1 GOAL CLAUSE HOLDS 1 HOLDS 2 ACTION 4 CLAUSE HOLDS 1 LACKS 0' + wide(2, 3) + wide(1, 2, 1) + wide()
        yield seed(file(rows + preference('at-end', 3, 'CLAUSE HOLDS 3 LACKS 0')), plan=b'\0\0', room=room)
    for lengths in ((64,), (65,), (4, 4, 4), (5, 13), (2,) * 6, (2,) * 7):
        yield seed(file('GOAL ACTION 1' + wide(*lengths)))
        yield seed(file('GOAL ACTION 1' + wide(2) + wide(*lengths) + wide(2)))
    for room in (SMALL, EXACT, MORE):
        yield seed(file('GOAL ACTION 1' + wide(*(2,) * 7) * 2 + wide(2)), room=room)
    yield seed(made('GOAL ACTION 1' + ' EFFECT CLAUSE HOLDS 1' * 2 + ' EFFECT' + ' CLAUSE HOLDS 1' * 100, 2, repeat=63), choice=MADE_FILE)
    for effects in (93, 94, 95):                                                 # 11,906 rows, and so many more
        yield seed(made('GOAL ACTION 1' + ' EFFECT CLAUSE HOLDS 0' * 62 + ' EFFECT' * effects, 1, repeat=63), choice=MADE_FILE)


def searches():
    """Ties, lowered costs, costs of 0, plans and none, limits on both sides of the nodes that it takes, and lists of every room."""
    def edge(cost, start, end):
        return f' ACTION {cost} CLAUSE HOLDS {start} EFFECT ADD {end} DELETE {start}'

    def turn(fact, cost):
        return f' ACTION {cost} EFFECT CLAUSE HOLDS {fact} DELETE {fact} EFFECT CLAUSE LACKS {fact} ADD {fact}'

    opening = 'START 0 GOAL CLAUSE HOLDS 3'
    ways = [[(5, 0, 3), (1, 0, 1), (1, 1, 3)], [(2, 0, 3), (1, 0, 1), (1, 1, 3)], [(0, 0, 1), (0, 1, 0), (0, 1, 3)], [(3, 0, 0)], [(3, 0, 1)],
            [(7, 0, 3), (6, 0, 3)], [(4, 0, 1), (1, 0, 2), (1, 2, 1), (1, 1, 3), (1, 2, 3)], [(2 ** 32 - 1, 0, 1), (2 ** 32 - 1, 1, 3)],
            [(3, 0, 1), (3, 0, 2), (1, 0, 1)]]
    for edges in ways:
        for limit in range(6):
            yield seed(file(opening + ''.join(edge(*way) for way in edges)), limit=(0, limit, 0))
    tied = 'START 0 GOAL CLAUSE HOLDS 4 HOLDS 5' + ''.join(edge(*way) for way in (
        (9, 0, 1), (3, 0, 2), (1, 0, 3), (2, 3, 1), (1, 1, 4), (1, 2, 5)))
    yield seed(file(tied, F=8))
    for facts in (3, 10, 11):                                                    # 8 nodes, 1,024 nodes, and more
        every = ''.join(f' CLAUSE HOLDS {fact}' for fact in range(facts))
        turns = ''.join(turn(fact, fact % 3) for fact in range(facts))
        yield seed(made('GOAL' + every + turns, facts), choice=MADE_FILE)
        yield seed(made('GOAL CLAUSE HOLDS 0 CLAUSE LACKS 0' + turns, facts), choice=MADE_FILE)
    words = file('GOAL CLAUSE HOLDS 127 ACTION 2 EFFECT ADD 63 ACTION 2 EFFECT ADD 64 ACTION 1 CLAUSE HOLDS 63 EFFECT ADD 127 DELETE 63', F=128)
    for limit in ((0, 0), (0, 1), (0, 19), (1, 255), (2, 3), (2, 4), (2, 5), (2, 7), (3, 0), (3, 255), (255, 1), (251, 255)):
        for room in (0, 1, 2, 66, 255, 3, 83):
            yield seed(words, limit=(*limit, room))


def weeks():
    """Counts, starts and lengths at their edges over short plans and long ones, cut files, and weeks in which some plans solve."""
    belt = file(BELT, F=2)
    for count in (0, 1, 2, 8, 63, 64, 65):
        yield seed(belt, week=(count, 0, *(0, 32) * min(count, 8)))
        yield seed(belt, week=(count, 15, *(0, 32) * min(count, 8)))
    for start in (0, 1, 2, 128, 129, 130, 131, 224, 255):
        for length in (0, 32, 33, 34, 49, 192, 255):
            yield seed(belt, plan=b'\0\1\0', week=(1, 0, start, length))
            yield seed(belt, plan=b'\0\1\0', week=(2, 0, 0, 32, start, length))
    for how in (13, 14, 30, 46, 254):
        yield seed(belt, week=(2, how, 0, 32, 0, 32))
    for steps in (LONGEST_PLAN, LONG_PLAN):
        for plan in (b'\0' * 8, b'\0' * 7 + b'\3'):                               # 10, 11, and 10 before 11
            yield seed(belt, plan=plan, steps=steps, week=(2, 0, 0, 0, 0, 32))
            yield seed(belt, plan=plan, steps=steps, week=(64, 0, 0, 33, 1, 32, 2, 34))
    for plans in ((0, 32, 1, 32, 2, 32, 1, 0), (2, 33, 0, 32, 1, 193, 0, 33)):
        yield seed(belt, plan=b'\1\0\1\0', week=(4, 0, *plans))
        yield seed(file('GOAL ACTION 3 EFFECT ADD 0 ACTION 1 hard-at-end CLAUSE LACKS 0 sometime 9 CLAUSE HOLDS 0'), plan=b'\1\0\1\0',
                   week=(4, 0, *plans))


def lists():
    """End, collect and forgo after a plan: in their order, as the rules allow it and not; and other numbers."""
    belt = file(BELT, F=2)
    for more in ((), (0,), (0, 1), (0, 0), (0, 1, 0), (0, 1, 1), (0, 1, 0, 0), (0, 193), (0, 194), (1, 192), (194, 194), (195,), (199,), (255,)):
        for plan in (b'', b'\0', b'\0\1\0'):
            yield seed(belt, plan=plan, more=more)
    actions = ' ACTION 3 EFFECT ADD 0 ACTION 4 EFFECT DELETE 0 ACTION 1 EFFECT ADD 1 ACTION 7 CLAUSE HOLDS 2'
    for kind in PREFERENCES:
        rows = 'GOAL' + actions + preference(kind, 250000, 'CLAUSE HOLDS 0', 'CLAUSE HOLDS 1', steps=1) * 2 + ' always 9 CLAUSE LACKS 0'
        for plan in (b'', b'\0', b'\0\1\0', b'\2\0\1', b'\0\1\0\1', b'\0\2\1\1', b'\3'):
            yield seed(file(rows, F=3), plan=plan)
            yield seed(made(rows, 3), plan=plan, more=(0,), choice=MADE_FILE)
            for closings in ((0, 0), (1, 1), (0, 0, 0), (1, 1, 0), (1, 1, 1)):
                yield seed(file(rows, F=3), plan=plan, more=(0, *closings))
    for steps in (LONGEST_PLAN, LONG_PLAN):
        for data in (belt, file('GOAL', F=127)):                                 # 7 before 10
            yield seed(data, plan=b'\0' * 8, steps=steps, week=(1, 0, 0, 0))


def sources():
    """What a planner prints for a translation: end, collect and forgo in any place, comments, numbers at the edge of what is known, and of
    two refusals the first."""
    belt = file(BELT, F=2)                                                       # 0 and 1 are its actions, 2 to 6 those of its translation
    four = file('GOAL' + ' ACTION 1' * 4)
    for room in (BYTE_SHORT, SMALL, EXACT, MORE):
        yield from (seed(belt, text=text, room=room) for text in (
            b'(a0)\n(a2)\n(a4)\n(a5)\n; cost = 8\n', b'(a2)\n(a1)\n; a6\n(a6)\n(a0)\n', b'(a1)\n(a0)\n(a0)\n', b'(a2)\n', b'(a6)\n(a7)\n',
            b'(a0)\n(a7)\n(a6)\n', b'(a0)\n(a1)\n(a256)\n', b'(a9)\n(a0\n'))
        for steps in (3, 4):                                                     # 2,048 steps, and 2,049
            yield seed(four, text=b'\1', choice=MADE_TEXT, how=FILLED + 16 * steps, room=room)
    for text, how in ((b'\1', FILLED), (b'\17', FILLED), (b'\17', BOTH)):        # 10, before 11, and after 12
        yield seed(belt, text=text, choice=MADE_TEXT, how=how + 16 * 4)
    for text in (b'(a)\n', b'(a127)\n'):                                        # 7 and 8 before 12 and 11
        yield seed(file('GOAL', F=127), text=text)
        rows = 'GOAL' + ' ACTION 1' * 22 + ' EFFECT' * 83 + ' always 1 CLAUSE HOLDS 0'
        yield seed(made(rows, 2, repeat=255), text=text, choice=MADE_FILE)


def chance_tasks():
    """Chance tasks in the order of rows, with plans of their first actions."""
    chance = random.Random(1)
    for _ in range(120):
        plan = bytes(chance.randrange(3) for _ in range(chance.randrange(8)))
        week = (6, 0, 0, 32, 1, 32, 2, 32, 0, 33, 0, 0, 1, 193)
        yield seed(chance.randbytes(250), plan=plan, text=plan, choice=TASK_FILE + MADE_TEXT + chance.randrange(2), week=week,
                   more=[chance.randrange(192) for _ in range(chance.randrange(6))])


def main(folder):
    os.makedirs(folder, exist_ok=True)
    for group in (examples, refusals, texts, kinds, values, spellings, choices, searches, weeks, lists, sources, chance_tasks):
        for number, data in enumerate(group()):
            with open(os.path.join(folder, f'{group.__name__}_{number}'), 'wb') as out:
                out.write(data)


if __name__ == '__main__':
    main(*sys.argv[1:])
