#!/usr/bin/env python3
"""Random task files, good and damaged, through the program check_vectors; each line is held to the account in
shared/account.py.

tests/check/compare.py PROGRAM [COUNT [SEED]]     PROGRAM is crates/check_vectors/out/check_vectors
"""
import collections
import os
import random
import subprocess
import sys
import tempfile

sys.path.insert(0, os.path.dirname(os.path.dirname(os.path.abspath(__file__))))
from shared import files
from shared.account import check
from shared.files import MOST, PREFERENCES, TRIED, file, spelled
from shared.stored import record

ANSWERS = ['accepted', *(f'refused {number}' for number in range(1, 7))]
BATCH = 1000
MOST_ROWS = 13000  # so that a record fits the program's buffer


# ---- the rows of a good task

def some(r, most):
    """Mostly a small number."""
    return r.randint(0, most if r.random() < 0.02 else min(3, most))


def amount(r):
    return r.choice([r.randint(0, 99), r.randint(0, MOST), r.choice([1000000, 1000001, MOST])])


def facts(r, f, *names):
    return ''.join(f' {r.choice(names)} {r.randrange(f)}' for _ in range(some(r, 40)))


def condition(r, f):
    return ''.join(f' CLAUSE LACKS {r.randrange(f)}' + facts(r, f, 'HOLDS', 'LACKS') for _ in range(some(r, 40)))


def action(r, f):
    effects = (' EFFECT' + condition(r, f) + facts(r, f, 'ADD') + facts(r, f, 'DELETE') for _ in range(some(r, 40)))
    return f' ACTION {amount(r)}' + condition(r, f) + ''.join(effects)


def preference(r, f):
    return files.preference(r.choice(PREFERENCES), amount(r), condition(r, f), condition(r, f), r.randint(0, 15))


def good_rows(r, f):
    starts = ''.join(f' START {fact}' for fact in sorted(r.sample(range(f), some(r, f))))
    actions = ''.join(action(r, f) for _ in range(some(r, 128)))
    preferences = ''.join(preference(r, f) for _ in range(some(r, 16)))
    return spelled(starts + ' GOAL' + condition(r, f) + actions + preferences)[:MOST_ROWS]


# ---- damage, which now and then leaves a good file good

def damage_rows(r, rows):
    i, j = r.randrange(len(rows)), r.randrange(len(rows))
    mark, value = rows[i]
    how = r.choice(['mark', 'value', 'swap', 'drop', 'repeat', 'cut'])
    if how == 'mark':
        rows[i] = r.choice(TRIED), value
    elif how == 'value':
        rows[i] = mark, r.choice([0, 1, value + 1, 15, 16, 127, 128, 255, 256, 1000000, 1000001, 2 ** 24, MOST]) % 2 ** 32
    elif how == 'swap':
        rows[i], rows[j] = rows[j], rows[i]
    elif how == 'repeat':
        rows.insert(j, rows[i])
    else:
        del rows[i:i + 1 if how == 'drop' else None]


def damaged(r, data):
    how = r.choice(['size', 'size', 'byte', 'cut', 'cut to a few bytes', 'extend'])
    at = r.randrange(len(data))
    if how == 'size':
        at = 2 * r.randrange(4)
        size = int.from_bytes(data[at:at + 2], 'little')
        size = r.choice([size + 1, max(size - 1, 0), 0, 1, 16, 17, 128, 129, 256, 12000, 12001, r.randrange(65536)])
        return data[:at] + size.to_bytes(2, 'little') + data[at + 2:]
    if how == 'byte':
        return data[:at] + r.randbytes(1) + data[at + 1:]
    return data[:at] if how == 'cut' else data[:r.randrange(10)] if how == 'cut to a few bytes' else data + r.randbytes(r.randint(1, 9))


def random_file(r):
    f = r.choice([1, 2, 3, 64, 128, r.randint(1, 128)])
    rows = good_rows(r, f)
    for _ in range(r.choice([0, 0, 1, 1, 2])):
        if rows:
            damage_rows(r, rows)
    data = file(rows, F=f, **r.choice([{}, {}, {}, dict(A=some(r, 128)), dict(P=some(r, 16))]))
    return damaged(r, data) if r.random() < 0.3 else data


# ---- the program

def lines_of(program, folder, batch):
    with open(os.path.join(folder, 'vectors'), 'wb') as out:
        out.write(b''.join(map(record, batch)))
    return subprocess.run([program], cwd=folder, stdout=subprocess.PIPE, check=True).stdout.decode().splitlines()


def main(program, count='20000', seed='1'):
    print(f'{count} files, seed {seed}')
    r, left = random.Random(int(seed)), int(count)
    seen = collections.Counter()
    with tempfile.TemporaryDirectory() as folder:
        while left:
            batch = [random_file(r) for _ in range(min(BATCH, left))]
            left -= len(batch)
            lines = lines_of(os.path.abspath(program), folder, batch)
            if len(lines) != len(batch):
                sys.exit(f'{len(lines)} lines for {len(batch)} files')
            for data, line in zip(batch, lines):
                if line != check(data):
                    sys.exit(f'the program writes "{line}", the account has "{check(data)}", on {data.hex()}')
                seen[next(answer for answer in ANSWERS if line.startswith(answer))] += 1
    for answer in ANSWERS:
        print(f'{answer}: {seen[answer]}')
    if not all(seen[answer] for answer in ANSWERS):
        sys.exit('an answer never came up')


if __name__ == '__main__':
    if not 2 <= len(sys.argv) <= 4:
        sys.exit(__doc__)
    main(*sys.argv[1:])
