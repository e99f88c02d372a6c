#!/usr/bin/env python3
"""The test vectors of plans as text: task files and texts, and what document 02's first request wants for them.

tests/text/vectors.py           writes crates/text_vectors/data/vectors and crates/text_vectors/stdout
tests/text/vectors.py --check   writes nothing, and fails where these two files are not what it makes
tests/text/vectors.py --list    says what each vector is for, and its lines with | between them, those of a long plan left out

A vector is two records (shared/stored.py): the task file, then the text. In stdout it has a line with what reading the text into an area
of 2,048 bytes answers, the lines of the plan read, and a line with what the text is worth on the task.

Where the lines come from:
- The first, and the plan's: the function `read` of shared/texts.py, which splits a text at its newlines and holds each line to a
  regular expression.
- The last: refused 1 to 6 by the account in shared/account.py, then 12 by `read`, then 10 and 11 by the account and the verdict by the
  outside engine (shared/engine.py), by the rules of tests/judge/meaning.lp.
Where an answer stands beside a vector, it was written by hand, and has to agree with the lines.
"""
import os
import re
import sys

sys.path.insert(0, os.path.dirname(os.path.dirname(os.path.abspath(__file__))))
from shared import engine, stored
from shared.account import check, refusal
from shared.chance import Chance
from shared.files import BELT, MOST, file
from shared.stored import record
from shared.texts import read, written


# ---- the account

def worth(text):
    """Cost, metric and utility alone, of a verdict as program judge writes it."""
    return re.sub(r'solved steps \d+ (cost \d+)\n(.+\n)*(metric .+)', r'solved \1 \3', text)


def first_lines(plan, fault):
    """What reading answers, and the plan."""
    if fault or len(plan) > 2048:
        return fault or 'refused 10 0\n'
    return f'read {len(plan)}\n' + written(plan)


def last_refusal(data, plan, fault):
    """The refusal that walking a text answers, or nothing."""
    of_task = check(data) + '\n'
    return of_task if of_task.startswith('refused') else fault or refusal(data, plan)


# ---- the vectors: what each is for, the task file, the text, and the answer where it is written down here: the lines with | between
# them, or without those of the plan, or one line where the first and the last are equal

belt = file(BELT, F=2)
many = file('GOAL' + ''.join(f' ACTION {a + 1}' for a in range(128)))  # action N costs N + 1
one = file('GOAL ACTION 1')
ladder = file('START 0 GOAL CLAUSE HOLDS 2 ACTION 1 CLAUSE HOLDS 0 EFFECT ADD 1 DELETE 0 ACTION 2 CLAUSE HOLDS 1 EFFECT ADD 2 DELETE 1 '
              'ACTION 4 EFFECT DELETE 2 sometime 8 CLAUSE HOLDS 1 at-end 16 CLAUSE HOLDS 0', F=3)
ruled = file('START 0 GOAL ACTION 1 EFFECT DELETE 0 ACTION 2 at-end 4 CLAUSE LACKS 0 hard-at-most-once CLAUSE LACKS 0 hard-always CLAUSE HOLDS 0',
             F=1)
timed = file('START 0 GOAL ACTION 1 EFFECT DELETE 0 ACTION 2 within 8 STEPS 1 CLAUSE LACKS 0 '
             'always-within 16 STEPS 2 CLAUSE HOLDS 0 SECOND CLAUSE LACKS 0', F=1)


def empty_and_comments():
    for what, text in [
            ('no byte', b''), ('a comment of one semicolon', b';\n'), ('a comment of two', b';;\n'), ('a comment', b'; no plan\n'),
            ('three comments', b'; cost 0\n;\n;;; end\n'), ('steps in comments', b';(a0)\n; (a0)\n;(a1\n'),
            ('a comment of every byte but a newline', b';' + bytes({*range(256)} - {10}) + b'\n'), ('a comment with NUL', b';\0\n;\0\0a\n'),
            ('a comment with carriage returns', b';\r\n; \r a\r\n'), ('300 comments', b';\n' * 300)]:
        yield what, belt, text, 'read 0|goal missed'
        yield f'{what}, before a step', belt, text + b'(a0)\n', 'read 1|(a0)|solved cost 3 metric 8 utility 4'
        yield f'{what}, after a step', belt, b'(a0)\n' + text, 'read 1|(a0)|solved cost 3 metric 8 utility 4'
        yield f'{what}, between steps', belt, b'(a0)\n' + text + b'(a1)\n', 'read 2|(a0)|(a1)|goal missed'


def last_newline():
    for what, rest in [('a step', b'(a0)'), ('a comment', b';'), ('a longer comment', b'; (a0)'), ('a step begun', b'(a'),
                       ('a space', b' '), ('a NUL byte', b'\0'), ('a carriage return', b'\r'), ('a step and a carriage return', b'(a0)\r')]:
        yield f'{what} without newline', belt, rest, 'refused 12 0'
        yield f'{what} without newline after a step', belt, b'(a0)\n' + rest, 'refused 12 1'
        yield f'{what} without newline after a comment', belt, b';\n' + rest, 'refused 12 1'
        yield f'{what} without newline after four lines', belt, b'; plan\n(a0)\n(a1)\n(a0)\n' + rest, 'refused 12 4'


def numbers():
    for number in [0, 1, 9, 10, 19, 99, 100, 101, 126, 127]:
        answer = f'read 1|(a{number})|solved cost {number + 1} metric {number + 1} utility -{number + 1}'
        yield f'step {number} of 128 actions', many, b'(a%d)\n' % number, answer
    for number in [128, 129, 199, 200, 249, 250, 253, 254]:
        yield f'step {number}, a byte', many, b'(a%d)\n' % number, f'read 1|(a{number})|refused 11 0'
    for number in [255, 256, 257, 260, 300, 383, 384, 256 + 254, 511, 512, 999, 1000, 2550, 65535, 65536, 2 ** 16 + 254, 2 ** 32, 2 ** 64]:
        yield f'step {number}, read as 255', many, b'(a%d)\n' % number, 'read 1|(a255)|refused 11 0'
    for what, digits in [('ones', b'1' * 5000), ('nines', b'9' * 5000), ('a one and zeros', b'1' + b'0' * 4999)]:
        yield f'5,000 digits, {what}', many, b'(a%s)\n' % digits, 'read 1|(a255)|refused 11 0'
        yield f'5,000 digits, {what}, after a step', many, b'(a7)\n(a%s)\n(a3)\n' % digits, 'read 3|(a7)|(a255)|(a3)|refused 11 1'
    for digits in [b'00', b'01', b'000', b'007', b'0255', b'0256', b'00000001', b'0' * 5000]:
        yield f'{len(digits)} digits {digits[:8].decode()}', many, b'(a%s)\n' % digits, 'refused 12 0'
    yield 'steps 0 to 300', many, b''.join(b'(a%d)\n' % n for n in range(301)), 'read 301|refused 11 128'


FAULTY = [
    ('a space first', b' (a1)'), ('a space inside the brackets', b'( a1)'), ('a space after the letter', b'(a 1)'),
    ('a space after the number', b'(a1 )'), ('a space last', b'(a1) '), ('a space between digits', b'(a1 0)'),
    ('a tab first', b'\t(a1)'), ('a tab inside', b'(a\t1)'), ('a tab last', b'(a1)\t'), ('a tab alone', b'\t'),
    ('a carriage return last', b'(a1)\r'), ('a carriage return first', b'\r(a1)'), ('a carriage return alone', b'\r'),
    ('carriage returns for newlines', b'(a1)\r(a1)\r'), ('a form feed last', b'(a1)\f'), ('a vertical tab last', b'(a1)\v'),
    ('upper case', b'(A1)'), ('no letter', b'(1)'), ('another letter', b'(b1)'), ('two letters', b'(aa1)'), ('the letter last', b'(1a)'),
    ('no number', b'(a)'), ('no letter and no number', b'()'), ('an opening bracket alone', b'('), ('a closing bracket alone', b')'),
    ('no opening bracket', b'a1)'), ('no closing bracket', b'(a1'), ('no brackets', b'a1'), ('two opening brackets', b'((a1)'),
    ('two closing brackets', b'(a1))'), ('brackets in brackets', b'((a1))'), ('square brackets', b'[a1]'), ('brackets exchanged', b')a1('),
    ('plus', b'(a+1)'), ('minus', b'(a-1)'), ('minus zero', b'(a-0)'), ('a point', b'(a1.0)'), ('a comma', b'(a1,000)'),
    ('hexadecimal', b'(a0x1)'), ('an exponent', b'(a1e1)'), ('an underscore', b'(a_1)'), ('a letter after the number', b'(a1b)'),
    ('letters for a number', b'(aone)'), ('the byte before the digits', b'(a/)'), ('the byte after the digits', b'(a:)'),
    ('the byte after the digits in a number', b'(a1:)'), ('a leading zero', b'(a01)'),
    ('two steps in a line', b'(a1)(a1)'), ('two steps with a space between', b'(a1) (a1)'), ('two steps in a bracket', b'(a1 a1)'),
    ('a step with an argument', b'(a1 hopper)'), ('a time before the step', b'0: (a1)'), ('words', b'solution found'),
    ('a comment after a step', b'(a1);'), ('a comment after a step and a space', b'(a1) ; first'), ('a comment inside a step', b'(a;1)'),
    ('a semicolon after a space', b' ;'), ('a semicolon after a tab', b'\t; comment'), ('a semicolon after NUL', b'\0;'),
    ('another mark for a comment', b'# comment'), ('NUL alone', b'\0'), ('NUL first', b'\0(a1)'), ('NUL before the number', b'(a\x001)'),
    ('NUL after the number', b'(a1\0)'), ('NUL last', b'(a1)\0'), ('a byte above 127 in a number', b'(a1\xb2)'),
    ('a digit with its high bit', b'(a\xb1)'), ('the letter with its high bit', b'(\xe11)'), ('a bracket with its high bit', b'\xa8a1)'),
    ('a semicolon with its high bit', b'\xbb'), ('a no-break space last', b'(a1)\xa0'), ('a letter of two bytes', '(ä1)'.encode()),
    ('a digit of two bytes', '(a\u0661)'.encode()), ('brackets of three bytes', '\uff08a1\uff09'.encode()),
    ('a byte order mark', b'\xef\xbb\xbf(a1)'), ('bytes of 255', b'\xff\xff'),
    ('a blank line', b''), ('a space alone', b' '), ('many spaces', b' ' * 300)]


def faulty_lines():
    for what, line in FAULTY:
        yield f'{what}, alone', one, line + b'\n', 'refused 12 0'
        yield f'{what}, first of three lines', one, line + b'\n(a0)\n(a0)\n', 'refused 12 0'
        yield f'{what}, after a comment and a step', one, b'; plan\n(a0)\n' + line + b'\n(a0)\n', 'refused 12 2'
        yield f'{what}, the last line', one, b'(a0)\n(a0)\n(a0)\n' + line + b'\n', 'refused 12 3'


def places():
    """The first faulty line decides, and comments are counted."""
    for what, text, place in [
            ('two faulty lines', b'(a0)\n(a)\n(b)\n', 1), ('two faulty lines, the first without a bracket', b'(a0\n(a)\n', 0),
            ('a faulty line and no newline', b'(a0)\n(a)\n(a0)', 1), ('a faulty line and a blank one', b'(a0)\n;\n(a)\n\n', 2),
            ('a blank line and a faulty one', b'(a0)\n\n(a)\n', 1), ('two blank lines', b'(a0)\n\n\n', 1),
            ('a blank line first', b'\n(a0)\n', 0), ('a blank line in the middle', b'(a0)\n\n(a0)\n', 1),
            ('a blank line last', b'(a0)\n(a0)\n\n', 2), ('blank lines alone', b'\n\n\n', 0),
            ('after one comment', b';\nx\n', 1), ('after three comments', b';\n;\n;\nx\n', 3),
            ('after comments and steps', b';\n(a0)\n;\n(a0)\n;\nx\n', 5), ('before a step and a comment', b'x\n(a0)\n;\n', 0),
            ('newlines of two bytes', b'(a0)\r\n(a0)\r\n', 0), ('one newline of two bytes', b'(a0)\n(a0)\r\n', 1),
            ('newlines of two bytes after comments', b'; plan\r\n; cost\r\n(a0)\r\n', 2),
            ('after unknown steps', b'(a9)\n(a300)\n(a)\n', 2)]:
        yield f'place: {what}', one, text, f'refused 12 {place}'
    for lines in [255, 256, 257, 300, 1000]:
        yield f'place: after {lines} comments', one, b';\n' * lines + b'x\n', f'refused 12 {lines}'
        yield f'place: after {lines} steps', one, b'(a0)\n' * lines + b'x\n', f'refused 12 {lines}'


def every_byte():
    """Each byte in each place of a line: the line keeps its form or is refused, as the regular expression has it."""
    for byte in range(256):
        for place in range(5):
            line = bytearray(b'(a1)\n')
            line[place] = byte
            yield f'byte {byte} in place {place}', one, bytes(line), ''
        yield f'byte {byte} after the number', one, b'(a1%c)\n' % byte, ''


def filled(before, after, size):
    """A text of so many bytes: lines, a long comment, lines."""
    return before + b';' + b'-' * (size - len(before + after) - 2) + b'\n' + after


def long_texts():
    """65,536 bytes are read, and a text of one more is refused with place 0."""
    for what, text, answer in [
            ('65,536 bytes, the last line a step', filled(b'', b'(a0)\n', 65536), 'read 1|(a0)|solved cost 3 metric 8 utility 4'),
            ('65,536 bytes, the last line faulty', filled(b'(a0)\n', b';\n(a1)\r\n', 65536), 'refused 12 3'),
            ('65,536 newlines', b'\n' * 65536, 'refused 12 0'),
            ('32,767 comments, then a faulty line', b';\n' * 32767 + b'x\n', 'refused 12 32767'),
            ('65,532 digits', b'(a' + b'9' * 65532 + b')\n', 'read 1|(a255)|refused 11 0'),
            ('13,105 steps', filled(b'(a0)\n' * 13105, b'', 65536), 'refused 10 0')]:
        assert len(text) == 65536, what
        yield what, belt, text, answer
    yield '65,537 bytes, the last line a step', belt, filled(b'', b'(a0)\n', 65537), 'refused 12 0'
    yield '65,537 bytes, the second line faulty', belt, filled(b'(a0)\nx\n', b'', 65537), 'refused 12 0'


def long_plans():
    pairs = b'(a0)\n(a1)\n' * 1024
    for what, text, answer in [
            ('2,047 steps', pairs[:-5], 'read 2047|solved cost 4095 metric 4100 utility -4088'),
            ('2,048 steps', pairs, 'read 2048|goal missed'),
            ('2,048 steps that solve', b'(a1)\n' + pairs[:-5], 'read 2048|solved cost 4096 metric 4101 utility -4089'),
            ('2,048 steps among comments', b'; plan\n' + pairs.replace(b'\n(a1', b'\n;\n(a1') + b'; end\n', 'read 2048|goal missed'),
            ('2,048 steps, the last unknown', pairs[:-5] + b'(a2)\n', 'read 2048|refused 11 2047'),
            ('2,049 steps', pairs + b'(a0)\n', 'refused 10 0'),
            ('2,049 steps among comments', b';\n' + pairs + b';\n(a0)\n;\n', 'refused 10 0'),
            ('2,049 steps, the first unknown', b'(a9)\n' + pairs, 'refused 10 0'),
            ('2,048 steps and a faulty line', pairs + b'x\n', 'refused 12 2048'),
            ('2,049 steps and a faulty line', pairs + b'(a0)\nx\n', 'refused 12 2049'),
            ('2,049 steps after a faulty line', b'x\n' + pairs + b'(a0)\n', 'refused 12 0'),
            ('2,049 steps, the last without newline', pairs + b'(a0)', 'refused 12 2048')]:
        yield what, belt, text, answer


def amounts():
    """Sums over 32 bits, up to the greatest: every step and each of sixteen weights is 4,294,967,295."""
    two = file(f'GOAL ACTION {MOST} ACTION 1000001 at-end {MOST} CLAUSE LACKS 0 at-end {MOST} CLAUSE HOLDS 0')
    for text, answer in [
            (b'', 'read 0|solved cost 0 metric 4294967295 utility 4294967295'),
            (b'(a1)\n', 'read 1|solved cost 1000001 metric 4295967296 utility 4293967294'),
            (b'(a0)\n', 'read 1|solved cost 4294967295 metric 8589934590 utility 0'),
            (b'(a0)\n(a1)\n', 'read 2|solved cost 4295967296 metric 8590934591 utility -1000001'),
            (b'(a0)\n' * 3, 'read 3|solved cost 12884901885 metric 17179869180 utility -8589934590')]:
        yield f'the greatest amounts, {text.count(b"a")} steps', two, text, answer
    for word, outcome, sums in [('HOLDS', 'missed', '8864812496880 utility -8796093020160'),
                                ('LACKS', 'met', '8796093020160 utility -8727373543440')]:
        sixteen = file(f'GOAL ACTION {MOST}' + f' always {MOST} CLAUSE {word} 0' * 16)
        yield f'2,048 steps and 16 preferences {outcome}, the greatest amounts', sixteen, b'(a0)\n' * 2048, (
            f'read 2048|solved cost 8796093020160 metric {sums}')


def refused_tasks():
    """1 to 6 come first; what reading answers has nothing to do with the task."""
    for what, data, answer in [
            ('no byte', b'', '1 0'), ('7 bytes', belt[:7], '1 0'), ('F 0', file('GOAL', F=0), '2 0'),
            ('one byte more', belt + b'\0', '3 0'),
            ('an unknown mark', file('GOAL #20'), '4 1'), ('ends in a clause', file('GOAL ACTION CLAUSE'), '4 3'),
            ('a fact too high', file('GOAL CLAUSE HOLDS 4'), '5 2'), ('a hard weight', file('GOAL hard-always 1'), '5 1'),
            ('an action too many', file('GOAL ACTION', A=0), '6 2')]:
        for form, text, first in [
                ('no byte', b'', 'read 0'), ('a step', b'(a0)\n', 'read 1'), ('an unknown step', b'(a300)\n', 'read 1'),
                ('a faulty line', b';\n(a0)\n(a)\n', 'refused 12 2'), ('no newline', b'(a0)', 'refused 12 0')]:
            yield f'refused task ({what}), {form}', data, text, f'{first}|refused {answer}'
    more = file('GOAL ACTION', A=0)
    yield 'refused task (an action too many), 2,049 steps', more, b'(a0)\n' * 2049, 'refused 10 0|refused 6 2'
    yield 'refused task (an action too many), 2,049 steps and a faulty line', more, b'(a0)\n' * 2049 + b'x\n', (
        'refused 12 2049|refused 6 2')


def verdicts():
    """Places in a verdict and of refusal 11 count steps and not lines."""
    for what, data, text, answer in [
            ('solved', ladder, b'(a0)\n(a1)\n', 'read 2|(a0)|(a1)|solved cost 3 metric 19 utility 5'),
            ('solved among comments', ladder, b'; plan\n(a0)\n; then\n(a1)\n; cost 3\n',
             'read 2|(a0)|(a1)|solved cost 3 metric 19 utility 5'),
            ('solved with more steps', ladder, b'(a2)\n(a0)\n(a2)\n(a1)\n', 'read 4|solved cost 11 metric 27 utility -3'),
            ('the belt', belt, b'(a0)\n', 'read 1|(a0)|solved cost 3 metric 8 utility 4'),
            ('the belt, three steps', belt, b'(a0)\n(a1)\n(a0)\n', 'read 3|solved cost 7 metric 12 utility 0'),
            ('no step, solved', one, b'', 'read 0|solved cost 0 metric 0 utility 0'),
            ('no step, goal missed', ladder, b'; none\n', 'read 0|goal missed'),
            ('goal missed', ladder, b'(a0)\n', 'read 1|goal missed'), ('goal undone', ladder, b'(a0)\n(a1)\n(a2)\n', 'read 3|goal missed'),
            ('stopped at the first step', ladder, b'(a1)\n(a0)\n', 'read 2|stopped 0'),
            ('stopped at the first step, after comments', ladder, b';\n;\n(a1)\n', 'read 1|stopped 0'),
            ('stopped at the second step', ladder, b'(a0)\n(a0)\n', 'read 2|stopped 1'),
            ('stopped at the second step, among comments', ladder, b';\n(a0)\n;\n;\n(a0)\n;\n(a1)\n', 'read 3|stopped 1'),
            ('an unknown step', ladder, b'(a3)\n', 'read 1|(a3)|refused 11 0'),
            ('an unknown step after comments', ladder, b';\n;\n(a3)\n', 'read 1|(a3)|refused 11 0'),
            ('two unknown steps among comments', ladder, b';\n(a0)\n;\n(a9)\n(a3)\n', 'read 3|(a0)|(a9)|(a3)|refused 11 1'),
            ('an unknown step after one that would stop', ladder, b'(a1)\n;\n(a0)\n(a256)\n', 'read 3|(a1)|(a0)|(a255)|refused 11 2'),
            ('44 is known, 300 is not', many, b'(a44)\n(a300)\n', 'read 2|(a44)|(a255)|refused 11 1'),
            ('0 is known, 256 is not', one, b'(a0)\n(a256)\n', 'read 2|(a0)|(a255)|refused 11 1'),
            ('A 0, a step', file('GOAL'), b'(a0)\n', 'read 1|(a0)|refused 11 0'),
            ('A 0, no step', file('GOAL'), b';\n', 'read 0|solved cost 0 metric 0 utility 0'),
            ('deadlines met, comments are no steps', timed, b';\n;\n;\n(a0)\n', 'read 1|(a0)|solved cost 1 metric 1 utility 23'),
            ('one deadline met', timed, b'(a1)\n;\n(a0)\n', 'read 2|(a1)|(a0)|solved cost 3 metric 11 utility 13'),
            ('no deadline met', timed, b'(a1)\n(a1)\n(a0)\n', 'read 3|(a1)|(a1)|(a0)|solved cost 5 metric 29 utility -5'),
            ('no step, deadlines missed', timed, b'', 'read 0|solved cost 0 metric 24 utility 0'),
            ('hard rules met', ruled, b'; plan\n(a1)\n', 'read 1|(a1)|solved cost 2 metric 6 utility -2'),
            ('no step, hard rules met', ruled, b';\n', 'read 0|solved cost 0 metric 4 utility 0'),
            ('a hard rule missed', ruled, b';\n(a0)\n', 'read 1|(a0)|rule missed 2'),
            ('a hard rule missed among comments', ruled, b';\n(a1)\n;\n;\n(a0)\n;\n(a1)\n', 'read 3|(a1)|(a0)|(a1)|rule missed 2'),
            ('a hard rule missed, and an unknown step', ruled, b'(a0)\n(a2)\n', 'read 2|(a0)|(a2)|refused 11 1')]:
        yield what, data, text, answer


def random_texts(count=400, seed=64):
    """Lines of steps and comments, in half of the texts with a byte put in, left out or changed."""
    r = Chance(seed)
    one_of = r.one_of

    def line():
        step = b'(a%d)' % one_of([0, 0, 0, 0, 1, 1, 1, 2, r.random() * 400])
        return one_of([b';', b'; cost 3', step, step, step]) + b'\n'

    for number in range(count):
        text = b''.join(line() for _ in range(one_of([1, 2, 3, 5, 8, 13])))
        if number % 2:
            at = r.below(len(text))
            text = text[:at] + one_of([b'', b'0', b'(', b')', b'a', b';', b'\n', b' ', b'\r', b'\0', b'9']) + text[at + one_of([0, 1]):]
        yield f'random {number}', one_of([ladder, belt]), text, ''


def vectors():
    """What each vector is for, the task file, the text, and the lines."""
    families = [empty_and_comments, last_newline, numbers, faulty_lines, places, every_byte, long_texts, long_plans, refused_tasks,
                verdicts, random_texts, amounts]
    made = [(*vector, *read(vector[2])) for family in families for vector in family()]
    lasts = {t: last_refusal(data, plan, fault) for t, (_, data, _, _, plan, fault) in enumerate(made)}
    atoms = engine.walked({t: (made[t][1], made[t][4]) for t in lasts if not lasts[t]})
    for t, (what, data, text, answer, plan, fault) in enumerate(made):
        lines = first_lines(plan, fault) + (lasts[t] or worth(engine.text(atoms[t], data, plan)))
        first, *_, last = lines.splitlines()
        forms = ['', '|'.join(lines.splitlines()), f'{first}|{last}', first if first == last else '']
        assert answer in forms, f'{what}: {answer}, but the lines are {lines}'
        yield what, data, text, lines


def shown(lines):
    first, *steps, last = lines.splitlines()
    return '|'.join([first, *(steps if len(steps) < 9 else ['..']), last])


def parts():
    for what, data, text, lines in vectors():
        yield f'{what}: {shown(lines)}', record(data) + record(text), lines.encode()


if __name__ == '__main__':
    stored.main('text_vectors', parts, __doc__)
