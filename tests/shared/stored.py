"""Vectors as they stand in a crate: in data/vectors what its program reads, one vector after the other, in stdout what it has to write.

A vector is one record, two or three. A record is a length, 32 bits, little-endian, and as many bytes.
"""
import os
import struct
import sys

CRATES = os.path.join(os.path.dirname(os.path.abspath(__file__)), '../../crates')


def path(crate, name):
    return os.path.normpath(os.path.join(CRATES, crate, name))


def read(crate, name):
    with open(path(crate, name), 'rb') as file:
        return file.read()


def record(data):
    return struct.pack('<I', len(data)) + data


def records(crate):
    """The records of all vectors, in their order."""
    data, at = read(crate, 'data/vectors'), 0
    while at < len(data):
        length, = struct.unpack_from('<I', data, at)
        at += 4 + length
        yield data[at - length:at]


def written(crate):
    """What the program has to write, as text."""
    return read(crate, 'stdout').decode()


def accepted():
    """The files of check's vectors that it accepts."""
    return [data for data, line in zip(records('check_vectors'), written('check_vectors').splitlines()) if line.startswith('accepted')]


def hold(crate, name, parts, lines):
    """Holds a file to its parts, one of each vector."""
    stored, at = read(crate, name), 0
    for part, line in zip(parts, lines):
        if not stored.startswith(part, at):
            sys.exit(f'{path(crate, name)}: differs from byte {at} on, at the vector "{line}"')
        at += len(part)
    if at < len(stored):
        sys.exit(f'{path(crate, name)}: goes on after the last vector, from byte {at} on')


def main(crate, vectors, usage):
    """The command line of a script that makes the vectors of a crate. `vectors` gives of each a line that says what it is, its records,
    and what the program has to write."""
    if sys.argv[1:] not in ([], ['--check'], ['--list']):
        sys.exit(usage)
    lines, *contents = zip(*vectors())
    for name, parts in zip(['data/vectors', 'stdout'], contents):
        if not sys.argv[1:]:
            with open(path(crate, name), 'wb') as file:
                file.write(b''.join(parts))
        hold(crate, name, parts, lines)
    if sys.argv[1:] == ['--list']:
        print(*lines, sep='\n')
