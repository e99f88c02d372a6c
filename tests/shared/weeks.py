"""A week of plans: its file, what is refused of it, and its figures over what program judge has to write about each plan."""
import re
import struct
from fractions import Fraction
from statistics import mean

from shared.account import check, refusal


def plans_file(entries, steps, count=None):
    """The file of plans that stand at (start, length) among the steps."""
    starts, lengths = zip(*entries) if entries else ((), ())
    number = len(entries) if count is None else count
    return struct.pack(f'<H{len(entries)}H{len(entries)}H', number, *starts, *lengths) + bytes(steps)


def one_after_the_other(plans):
    """The file of plans whose steps don't overlap."""
    entries, steps = [], b''
    for plan in plans:
        entries.append((len(steps), len(plan)))
        steps += bytes(plan)
    return plans_file(entries, steps)


def split(data):
    """The plans of a file; none where it is refused by 18."""
    if len(data) < 2:
        return None
    count = data[0] + 256 * data[1]
    if not 1 <= count <= 64 or len(data) < 2 + 4 * count:
        return None
    words, steps = struct.unpack_from(f'<{2 * count}H', data, 2), data[2 + 4 * count:]
    entries = list(zip(words[:count], words[count:]))
    if any(start + length > len(steps) for start, length in entries):
        return None
    return [steps[start:start + length] for start, length in entries]


def refused(data, plans):
    """What a week is refused by, as a line; nothing where it has figures."""
    line = check(data)
    if line.startswith('refused'):
        return line + '\n'
    if split(plans) is None:
        return 'refused 18 0\n'
    for number, plan in enumerate(split(plans)):
        line = refusal(data, plan)
        if line:
            return f'refused {line.split()[1]} {number}\n'
    return ''


TEXT = re.compile(r'solved steps \d+ cost \d+\n((?:\d+ \S+ \d+ (?:met|missed)\n)*)metric (\d+) utility -?\d+\n')


def figures(texts):
    """What program week has to write, from what judge has to write about each plan."""
    solved = [found for found in map(TEXT.fullmatch, texts) if found]
    lines = [f'plans {len(texts)}', f'solving {len(solved)}']
    if solved:
        metrics = [int(found[2]) for found in solved]
        middle = mean(map(Fraction, metrics))
        lines.append(f'metric least {min(metrics)} greatest {max(metrics)} sum {sum(metrics)} '
                     f'mean {middle // 1} remainder {middle % 1 * len(metrics)}')
        outcomes = [[line.endswith(' met') for line in found[1].splitlines()] for found in solved]
        lines += [f'preference {k} met {met.count(True)}' for k, met in enumerate(zip(*outcomes))]
    return '\n'.join(lines) + '\n'
